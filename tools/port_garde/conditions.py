"""The conditions of `if` and of rules of one's own, as code and as they are stated. What a closure asks of the items of a list is written as
a type, and so is the key by which `unique_by` compares them."""
import re

from .expressions import ADDRESSES, CONTEXT, ITEM, SIGNED, UNSIGNED, VALUE, Expression, places_in, with_item
from .layout import Chain, Word, head_of_method, holding, statement
from .scope import Place, Scope, is_option, is_path, is_text, spoken
from .templates import fill, rows
from .tokens import Refusal

# What stands behind the name of a variant in a pattern that looks at nothing in it.
SHAPES = {"unit": "", "tuple": "(..)", "named": " { .. }"}
COMPARISONS = {mark: words.split(" | ") for mark, words in rows("comparisons of numbers, without a sign and with one").items()}

# The types of the toolchain that are compared by their order, and the word that states each comparison.
ORDERED = (("jiff", "civil", "Date"), ("jiff", "civil", "Time"), ("jiff", "civil", "DateTime"), ("jiff", "Timestamp"))
ORDERS = {"<": "partial_lt", "<=": "partial_le", ">": "partial_gt", ">=": "partial_ge"}


class Conditions:
    """The conditions of `if`, as code and as they are stated."""

    def __init__(self, scope, writer):
        self.scope, self.uses, self.writer, self.say = scope, writer.uses, writer, writer.uses.say

    def of(self, it):
        """A condition that stands in a place where it needs brackets if it has parts."""
        readers = {
            "place": self.flag, "not": self.negation, "call": self.method, "and": self.both, "or": self.both, "matches": self.variants,
            "contains": self.contains, "address": self.address, "all": self.over_items, "any": self.over_items,
        }
        if it.kind in readers:
            return readers[it.kind](it)
        if it.kind == "bool":
            return it.value, self.say(it.value)
        if it.kind in ("==", "!=") and it.parts[1].kind in ("path", "text") and it.parts[0].kind == "place":
            return self.equality(it)
        if it.kind == "number":
            raise Refusal(it.line, "a condition that is a number")
        return self.comparison(it)

    def whole(self, it):
        """A condition that stands alone, whose parts may fill several lines."""
        return (self.chain if it.kind in ("and", "or") else self.of)(it)

    def flag(self, it):
        code, spec, kind = self.scope.place(it.value, it.line)
        if kind is not None and not is_path(kind, "bool"):
            raise Refusal(it.line, f"the condition `{spoken(it.value)}` is no `bool`")
        return code, spec

    def negation(self, it):
        code, spec = self.of(it.parts[0])
        is_one = it.parts[0].kind in ("place", "call", "bool", "not", "matches", "contains", "address", "all", "any")
        return f"!{code}" if is_one else f"!({code})", self.say("(not {})", spec)

    def both(self, it):
        """A condition of two parts; a part of another kind than the whole stands in brackets."""
        tree, spec = self.chain(it)
        return f" {tree.mark} ".join(tree.parts), spec

    def chain(self, it):
        """The same as the parts of its code."""
        mark, other = ("&&", "or") if it.kind == "and" else ("||", "and")
        self.uses.prelude.add(f"◌{mark}◌")
        codes, specs = [], []
        for part in it.parts:
            code, spec = (self.chain if part.kind == it.kind else self.of)(part)
            codes += code.parts if part.kind == it.kind else [f"({code})" if part.kind == other else code]
            specs.append(spec)
        return Chain(mark, tuple(codes)), f"({f' {mark} '.join(specs)})"

    def method(self, it):
        """`is_some` and `is_none` of an option."""
        code, spec, kind = self.scope.place(it.parts[0].value, it.line)
        if it.value not in ("is_some", "is_none") or (kind is not None and not is_option(kind)):
            raise Refusal(it.line, f"a condition with the method `{it.value}`, which the port cannot read there")
        return f"{code.lstrip('*')}.{it.value}()", self.say("(is_some {})" if it.value == "is_some" else "(not (is_some {}))", spec)

    def equality(self, it):
        """Whether a value is a variant, or a text."""
        place, other = it.parts
        is_variant = other.kind == "path"
        if is_variant and self.writer.resolved(other).kind == "number":
            return self.comparison(it)
        if is_variant:
            code, spec = self.variants(Expression("matches", it.line, (other.value,), (place,)))
            denied = f"!{code}"
        else:
            told = "with a text, which is neither a `String` nor a `&str` nor read by a form"
            code, spec = self.text_of(place, f"a comparison of `{spoken(place.value)}` {told}")
            code, denied = (f'{code} {mark} "{other.value}"' for mark in ("==", "!="))
            spec = self.say('(text_is "{}" {})', other.value, spec)
        return (code, spec) if it.kind == "==" else (denied, self.say("(not {})", spec))

    def variants(self, it):
        place = it.parts[0]
        code, spec, kind = self.scope.place(place.value, it.line)
        item = self.writer.enum(kind.name if kind is not None and kind.kind == "path" else it.value[0][0])
        if item is None:
            raise Refusal(it.line, f"a condition on `{spoken(place.value)}`, which is no enum of this file")
        if self.writer.module is None:
            raise Refusal(it.line, "a condition on an enum, whose statement names its module: say it by `--module CRATE::MODULE`")
        known = {one.name: one for one in item.variants}
        for path in it.value:
            if path[:-1] not in ((item.name,), (item.known,)) or path[-1] not in known:
                raise Refusal(it.line, f"`{'::'.join(path)}`, which is no variant of `{item.name}`")
        self.uses.cited.add(item.name)
        names = list(dict.fromkeys(path[-1] for path in it.value))
        cases = [self.say("{} ↦ true", " ".join([known[name].word, *"_" * len(known[name].fields)])) for name in names]
        cases += [self.say("_ ↦ false")] if len(names) < len(known) else []
        patterns = " | ".join(f"{item.name}::{name}{SHAPES[known[name].shape]}" for name in names)
        return f"matches!({code.lstrip('*')}, {patterns})", self.say("(elim {} as (λ _. Bool) [ {} ])", spec, " | ".join(cases))

    def contains(self, it):
        """Whether a text has this part, or a list this item."""
        asked, (code, spec, kind) = it.value, self.scope.place(it.parts[0].value, it.line)
        code = code.lstrip("*")
        if kind is not None and is_path(kind, "TextRef") and asked.kind == "text":
            self.uses.paths.add("Rattle.garde.specs.Words.{has_part}")
            self.uses.others.add("garde::rules::contains")
            part = self.say('(codes "{}")', asked.value)
            return f'contains::Contains::validate_contains({code}, "{asked.value}")', f"(has_part {part} {spec})"
        held = kind.args[0] if kind is not None and is_path(kind, "Vec", "Items") and kind.args else None
        if asked.kind == "path":
            item, same, stated = self.listed_variant(it, held)
        elif held is not None and is_path(held, "TextRef") and asked.kind == "text":
            self.uses.others.add("garde_schema::TextRef")
            item, same, stated = f'&TextRef::new("{asked.value}")', self.say("text_eq"), self.say('(codes "{}")', asked.value)
        elif held is not None and is_path(held, *UNSIGNED) and asked.kind == "number" and asked.value >= 0:
            item, same, stated = f"&{asked.value}", self.say("nat_eq"), asked.value
        else:
            told = f"`contains` of `{spoken(it.parts[0].value)}`"
            raise Refusal(it.line, f"{told}: it is written of texts and lists of texts that a form reads, and of lists of numbers without a sign")
        self.uses.fields |= {"includes", "Equal"}
        return f"includes({code}.as_slice(), &Equal, {item})", self.say("(includes {} {} {})", same, self.listed(kind, spec), stated)

    def listed_variant(self, it, held):
        """A variant that a list may have, of an enum of the file which derives `PartialEq`: as code, how such are compared, and as it is
        stated."""
        item, path = self.writer.enum(held.name) if held is not None else None, it.value.value
        if item is None or path[:-1] != (item.name,) or path[-1] not in [one.name for one in item.variants if one.shape == "unit"]:
            told = f"`contains(&{'::'.join(path)})`, which is no variant without fields of what"
            raise Refusal(it.line, f"{told} `{spoken(it.parts[0].value)}` lists")
        if "PartialEq" not in item.derives:
            raise Refusal(it.line, f"`contains` of a list of `{item.name}`: write `PartialEq` among its derives")
        self.uses.cited.add(item.name)
        return f"&{'::'.join(path)}", f"⟦<{item.name} as PartialEq>⟧.eq", path[-1]

    def address(self, it):
        names, told = ADDRESSES[it.value], "which is neither a `String` nor a `&str` nor read by a form"
        code, spec = self.text_of(it.parts[0], f"`parse` of `{spoken(it.parts[0].value)}`, {told}")
        self.uses.others |= {f"garde::rules::ip::{name}" for name in names}
        stated = f"({' || '.join(self.say(f'{name} {{}}', spec) for name in names)})"
        if not names[1:]:
            return f"{names[0]}({code.lstrip('*')})", stated
        self.uses.prelude |= {"◌||◌", "◌≡◌"}
        self.writer.copied["is_address"] = fill("is_address")
        return f"is_address({code.lstrip('*')})", stated

    def comparison(self, it):
        """A comparison of numbers, of two texts, or of two values of an enum."""
        are_places = [self.writer.resolved(part).kind == "place" for part in it.parts]
        if it.kind in ("==", "!=") and all(part.kind == "place" for part in it.parts):
            texts = [self.text_at(part) if is_place else None for part, is_place in zip(it.parts, are_places)]
            if None not in texts:
                (one, like), (other, another) = texts
                return self.equal(it, one, other, self.say("(text_eq {} {})", like, another))
            same = self.same_values(it, are_places)
            if same:
                return same
        ordered = self.in_order(it, are_places)
        if ordered:
            return ordered
        signed = any(map(self.is_signed, it.parts))
        (left, low), (right, high) = map(self.signed if signed else self.number, self.widened(it.parts))
        spec = COMPARISONS[it.kind][signed].format(low, high)
        self.uses.words |= set(re.findall(r"\b(?:nat_eq|nat_lt|nat_le|int_eq|int_lt|not)\b", spec))
        return f"{left} {it.kind} {right}", f"({spec})"

    def same_values(self, it, are_places):
        """Whether two places have the same value of an enum of the file, or nothing where they have none."""
        found = [self.scope.place(part.value, it.line) if is_place else (None,) * 3 for part, is_place in zip(it.parts, are_places)]
        (code, spec, kind), (other, like, another) = found
        item = self.writer.enum(kind.name) if kind is not None and another is not None and kind.name == another.name else None
        if item is None or "PartialEq" not in item.derives:
            return None
        return self.equal(it, code, other, f"(⟦<{self.writer.type_text(kind)} as PartialEq>⟧.eq {spec} {like})")

    def equal(self, it, code, other, stated):
        return f"{code} {it.kind} {other}", stated if it.kind == "==" else self.say("(not {})", stated)

    def in_order(self, it, are_places):
        """A comparison of two dates, two times or two moments, or nothing where a part is none."""
        found = [self.scope.place(part.value, it.line) for part, is_place in zip(it.parts, are_places) if is_place]
        kinds = {kind and kind.path for _, _, kind in found}
        if len(found) < 2 or len(kinds) > 1 or not kinds & set(ORDERED):
            return None
        (code, spec, kind), (other, like, _) = found
        name = self.writer.type_text(kind)
        if it.kind in ORDERS:
            word = self.uses.state("std.specs.Ordering", ORDERS[it.kind])
            return f"{code} {it.kind} {other}", f"({word} ⟦<{name} as PartialOrd>⟧.partial_cmp {spec} {like})"
        return self.equal(it, code, other, f"(⟦<{name} as PartialEq>⟧.eq {spec} {like})")

    # Numbers.

    def is_signed(self, it):
        it = self.writer.resolved(it)
        if it.kind != "place":
            return it.kind == "number" and it.value < 0
        kind = self.scope.place(it.value, it.line)[2]
        return kind is not None and is_path(kind, *SIGNED)

    def signed(self, it):
        """A number that is compared with one that has a sign."""
        it = self.writer.resolved(it)
        if it.kind == "number":
            return str(it.value), self.say("(minus {})" if it.value < 0 else "(plus {})", abs(it.value))
        if it.kind != "place" or not self.is_signed(it):
            raise Refusal(it.line, "a comparison of a number with a sign and one without, or of a sum of such: compare numbers of one type")
        return self.scope.place(it.value, it.line)[:2]

    def widened(self, parts):
        """The parts of a comparison; where numbers are added or multiplied, all as numbers of 128 bits, which hold what comes of it."""
        if not any(it.kind in ("+", "*", "-") for it in map(self.writer.resolved, parts)):
            return parts
        for it in parts:
            if self.bits(it) > 128:
                raise Refusal(it.line, "a sum or a product that 128 bits may not hold: bound the fields, and write a rule of your own")
        return tuple(Expression("wide", it.line, parts=(it,)) for it in parts)

    def bits(self, it):
        """How many bits a number takes at most."""
        it = self.writer.resolved(it)
        if it.kind == "number" and it.value >= 0:
            return it.value.bit_length()
        if it.kind == "call":
            return 64
        if it.kind in ("+", "*"):
            one, other = map(self.bits, it.parts)
            return max(one, other) + 1 if it.kind == "+" else one + other
        if it.kind in ("%", "/"):
            return self.bits(it.parts[0])
        kind = self.scope.place(it.value, it.line)[2] if it.kind == "place" else None
        if kind is None or not is_path(kind, *UNSIGNED):
            told = "write what is added on the other side" if it.kind == "-" else "the port adds and multiplies fields that are numbers without a sign"
            raise Refusal(it.line, f"a sum or a product that the port cannot read: {told}")
        return 64 if kind.name == "usize" else int(kind.name[1:])

    def wide(self, it):
        """A number, a sum or a product, as one of 128 bits."""
        it = self.writer.resolved(it)
        if it.kind in ("+", "*"):
            self.uses.prelude.add(f"◌{it.kind}◌")
            (one, low), (other, high) = map(self.wide, it.parts)
            grouped = [f"({code})" if it.kind == "*" and part.kind == "+" else code for code, part in zip((one, other), it.parts)]
            return f" {it.kind} ".join(grouped), f"({low} {it.kind} {high})"
        code, spec = self.number(it)
        return (code if it.kind == "number" else f"({code} as u128)"), spec

    def number(self, it):
        it = self.writer.resolved(it)
        if it.kind == "wide":
            return self.wide(it.parts[0])
        if it.kind == "number" and it.value >= 0:
            return str(it.value), str(it.value)
        if it.kind in ("%", "/"):
            # what a division by a number gives, or leaves over
            by = self.writer.resolved(it.parts[1])
            if by.kind != "number" or by.value < 1:
                raise Refusal(it.line, f"`{it.kind}` by what is no number from 1 on")
            code, spec = self.number(it.parts[0])
            return f"{code} {it.kind} {by.value}", self.say("(remainder {} {})" if it.kind == "%" else "(quotient {} {})", spec, by.value)
        if it.kind == "call" and it.value == "len":
            return self.length(it)
        if it.kind != "place":
            raise Refusal(it.line, "a comparison that the port cannot read")
        code, spec, kind = self.scope.place(it.value, it.line)
        if kind is not None and not is_path(kind, *UNSIGNED):
            raise Refusal(it.line, f"a comparison of `{spoken(it.value)}`, which is no number without a sign")
        return code, spec

    def length(self, it):
        """How many bytes a text has, or how many items a list or a map."""
        place = it.parts[0]
        text = self.text_at(place) if self.writer.resolved(place).kind == "place" else None
        if text is not None:
            return f"{text[0].lstrip('*')}.len()", self.say("(byte_count {})", text[1])
        code, spec, kind = self.scope.place(place.value, place.line)
        if kind is None or not is_path(kind, "Vec", "Items", "Entries"):
            raise Refusal(it.line, f"`len` of `{spoken(place.value)}`, which is neither a text nor a list nor a map that a form reads")
        method = ".len()" if kind.name == "Vec" else ".as_slice().len()"
        return code.lstrip("*") + method, self.say("(length {})", self.listed(kind, spec))

    # Texts and lists.

    def text_at(self, it):
        """A text at a place as code and as it is stated, or nothing where there is none."""
        code, spec, kind = self.scope.place(it.value, it.line)
        binding = code.lstrip("*")
        if kind is not None and kind.kind == "ref" and is_text(kind):
            return f"*{binding}", f"{spec}.now"
        if kind is not None and kind.name == "String":
            return f"{binding}.as_str()", self.say("(str {})", spec)
        return (f"{binding}.text()", spec) if kind is not None and kind.name == "TextRef" else None

    def text_of(self, it, told):
        """The same, or a refusal that says this."""
        found = self.text_at(it)
        if found is None:
            raise Refusal(it.line, told)
        return found

    def listed(self, kind, spec):
        return self.say("(slice {})", spec) if kind.name == "Vec" else spec

    # Conditions of the items of a list.

    def over_items(self, it):
        scope, (place, condition) = self.scope, it.parts
        code, spec, kind = scope.place(place.value, it.line)
        if kind is None or not is_path(kind, "Vec", "Items") or not kind.args:
            raise Refusal(it.line, f"`iter().{it.kind}` of what is no list: write it of a `Vec`")
        word = f"{it.kind}_of"
        self.uses.fields |= {word, "Question"}
        given = self.question(it, kind.args[0])
        variable = "it" if not scope.items else f"it{len(scope.items) + 1}"
        inner = scope.with_item(ITEM + it.value, Place(it.value, variable, kind.args[0]), self.writer.fields_within(kind.args[0]))
        _, stated = Conditions(inner, self.writer).whole(condition)
        scope.bound |= inner.bound
        said = self.say(f"({word} (λ {{}}. {{}}) {{}})", variable, stated, self.listed(kind, spec))
        return f"{word}({code.lstrip('*')}.as_slice(), {given})", said

    def question(self, it, kind):
        """Writes the type of what is asked of an item. Returns the value of it, which holds what the closure speaks of beside the item."""
        scope, writer = self.scope, self.writer
        name, held = writer.numbered("Question", it), self.held_by(it)
        places = {key: place for key, place, _ in held}
        fields = {key: place for key, place in places.items() if key not in (CONTEXT, VALUE)}
        inner = Scope(scope.context, fields, scope.params, scope.unit or CONTEXT not in places, places.get(VALUE), scope.fields)
        inner = inner.with_item(ITEM + it.value, Place(it.value, it.value, kind), writer.fields_within(kind))
        code, stated = Conditions(inner, writer).whole(it.parts[1])
        if CONTEXT in places:
            stated = re.sub(rf"(?<![\w.]){scope.context}(?!\w)", places[CONTEXT].name, stated)
        kinds = [(it.binding, it.type if isinstance(it.type, str) else writer.type_text(it.type)) for _, it, _ in held]
        text = writer.type_text(kind)
        writer.write_once(name, it.line, fill(
            "type that is asked", docs=f"What is asked of items in the field `{writer.spot}` of `{writer.item.name}`.", name=name,
            trait="Question", kind=text, **holding(text, kinds),
            stated=f"    ghost holds = {{ λ {'question' if held else '_'} {it.value}. {stated} }};",
            head=f"    fn holds(&self, {it.value}: &{text}) -> bool {{",
            body=statement(code if isinstance(code, Chain) else Word(code), 8),
        ))
        return f"&{name}({', '.join(given for _, _, given in held)})" if held else f"&{name}"

    def held_by(self, it):
        """What a closure speaks of beside its items: the key, the place within the question, and what is given for it."""
        scope, found, bound = self.scope, {}, bound_in(it)
        spoken_of = [one.value for one in places_in(it.parts[1]) if self.writer.resolved(one).kind == "place"]
        for names in (one for one in spoken_of if one[0] not in bound):
            at = f"question.{len(found)}.now"
            if names[0] in (CONTEXT, scope.context) and not scope.unit:
                found.setdefault(CONTEXT, (Place(scope.context, at, self.writer.context), scope.the_context()))
            elif names[0] == VALUE and scope.value is not None:
                found.setdefault(VALUE, (Place("value", at, scope.value.type), scope.value.binding))
            elif names[0] == "self" and names[1:2] and names[1] in scope.places:
                place, binding = scope.places[names[1]], f"the_{names[1]}" if ITEM + names[1] in bound else names[1]
                scope.bound.add(names[1])
                found.setdefault(names[1], (Place(binding, at, place.type), place.binding))
            else:
                told = f"a closure that speaks of `{'.'.join(names).removeprefix(ITEM)}`"
                raise Refusal(it.line, f"{told}: it may speak of its item, of fields of `self` and of the context")
        return [(key, place, given) for key, (place, given) in found.items()]


def bound_in(it):
    """The names of the items of which conditions within an expression speak."""
    own = {ITEM + it.value} if it.kind in ("all", "any") else set()
    return own.union(*map(bound_in, it.parts))


def same_by(checks, rule, kind):
    """Writes the type by which items with one key are the same. Returns it, and which items are, as it is stated."""
    writer, key, text = checks.writer, rule.place, checks.writer.type_text(kind)
    name = writer.numbered("Same", key)
    both = tuple(with_item(key.parts[0], ITEM + key.value, ITEM + it) for it in ("one", "other"))

    def compared(*names):
        scope = Scope(checks.scope.context, {}, checks.scope.params, True)
        for item, called in zip(("one", "other"), names):
            scope = scope.with_item(ITEM + item, Place(item, called, kind), writer.fields_within(kind))
        return Conditions(scope, writer).of(Expression("==", rule.line, parts=both))

    code, stated = compared("one", "other")
    writer.write_once(name, rule.line, fill(
        "type that is asked", docs=f"Which items in the field `{writer.spot}` of `{writer.item.name}` are the same.", name=name,
        trait="Same", kind=text, **holding(text), stated=f"    ghost same = {{ λ _ one other. {stated} }};",
        head=head_of_method("are_same", (f"one: &{text}", f"other: &{text}"), "bool"), body=f"        {code}",
    ))
    checks.uses.fields.add("Same")
    return Word(name), f"(λ x y. {compared('x', 'y')[1]})"
