"""Patterns in quotes of types of which is stated what an input spells. One struct holds them compiled, and it is the context of each type
that asks for one, or that holds such a type."""
from dataclasses import replace

from .derives import fields_of, reached, type_names
from .expressions import Expression
from .source import Parser, all_rules, is_ported, with_fields, with_rules, with_variants
from .tokens import tokens_of

NAME = "patterns"
BESIDE_CONTEXT = "a pattern in quotes under a context of one's own: add a field of type `Regex` to it, and write `pattern(ctx.FIELD)`"


def is_quoted(rule):
    return rule.name == "pattern" and rule.place is None


def turn(source, root):
    """Gives the patterns by their names, and the types that ask for them a context. A source with a context of its own stays."""
    ported = [it for it in source.items if is_ported(it)]
    asking = {it.name for it in ported for field in fields_of(it) if any(map(is_quoted, all_rules(field.attributes.rules)))}
    if not asking or any(it.attributes.context for it in source.items):
        return {}
    dives = lambda it: any(rule.name == "dive" for rule in all_rules(it.attributes.rules))
    divers = {it.name: with_variants(it, lambda variant: filter(dives, variant.fields)) for it in ported}
    # the types that ask for one, and those that validate such as parts
    holders, texts = {name for name in divers if reached([name], divers) & asking}, {}
    text = f"{root}Patterns as {NAME}"
    context = Parser(tokens_of(text), text, source.notes)

    def of_field(it):
        is_handed_on = bool(type_names(it.type) & holders)
        return with_rules(it, (with_place(rule, texts, it.name or "value", is_handed_on) for rule in it.attributes.rules))

    for at, it in enumerate(source.items):
        if is_ported(it) and it.name in holders:
            source.items[at] = replace(with_fields(it, of_field), attributes=replace(it.attributes, context=(it.line, context)))
    return texts


def with_place(rule, texts, field, is_handed_on):
    """A rule of a field whose pattern is a place of the context; a part without a pattern has no context."""
    place, inside = rule.place, tuple(with_place(it, texts, field, is_handed_on) for it in rule.rules)
    if is_quoted(rule):
        place = Expression("place", rule.line, (NAME, pattern_name(texts, field, rule.text)))
    elif rule.name == "dive" and place is None and not is_handed_on:
        place = Expression("unit", rule.line)
    return replace(rule, place=place, rules=inside)


def pattern_name(texts, name, text):
    """The name of a pattern among such: that of its field, with a number where another pattern has it."""
    found, number = name, 1
    while texts.setdefault(found, text) != text:
        number += 1
        found = f"{name}_{number}"
    return found
