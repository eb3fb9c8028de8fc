"""The members of a form that rules look at together. A rule of a field that speaks of other fields is asked of a run of members: from the
first one that it speaks of to the last. A map under `flatten` stands behind a group of all others. Members of one type stand among those of
another one under `flatten`, and under a `tag` whose variant holds a struct."""
from dataclasses import replace

from .derives import is_skipped, of_field, options
from .expressions import places_in
from .scope import is_option
from .source import all_rules, with_doc, with_rules

MOST = 6


class Group(list):
    """Members in a row, by their numbers, and groups of such; `asked` are the numbers of the fields whose rules are asked of all of them."""

    def __init__(self, parts, asked=(), is_rest=False):
        super().__init__(parts)
        self.asked, self.is_rest = tuple(asked), is_rest


def others_of(rule):
    """The names of the fields that a rule and those within it speak of, beside its own."""
    rules = all_rules([rule])
    spoken = [place.value for one in rules for it in (one.place, *one.bounds.values()) if it is not None for place in places_in(it)]
    return [it[1] for it in spoken if it[0] == "self" and len(it) > 1] + [one.text for one in rules if one.name == "matches"]


def own_rules(it):
    """The rules of a field that look at it alone."""
    return tuple(rule for rule in it.attributes.rules if not others_of(rule))


def shared_rules(it):
    """The rules of a field that speak of others."""
    return tuple(rule for rule in it.attributes.rules if others_of(rule))


def is_flat(it):
    """Whether the members of a field's value stand among those of the whole: serde's `flatten`."""
    return it.flat or "flatten" in options(it)


def is_rest(it):
    """Whether a field is a map of the members that no other one names."""
    return is_flat(it) and it.type.kind == "path" and it.type.name in ("BTreeMap", "HashMap", "Entries")


def grouped(fields):
    """The members of a form in groups: runs that overlap are one, and a run within another one is a group of that."""
    if fields and is_rest(fields[-1]):
        return Group([grouped(fields[:-1]), len(fields) - 1], is_rest=True)
    at = {it.name: number for number, it in enumerate(fields)}
    runs = {}
    for number, it in enumerate(fields):
        met = [at[name] for rule in shared_rules(it) for name in others_of(rule) if name in at]
        if met:
            runs.setdefault((min(number, *met), max(number, *met)), []).append(number)
    return folded(within(0, len(fields) - 1, merged(runs)))


def merged(runs):
    """Runs of which each two lie apart or one in the other."""
    for one in runs:
        for other in runs:
            if one[0] < other[0] <= one[1] < other[1]:
                asked = runs.pop(one) + runs.pop(other)
                whole = (one[0], other[1])
                return merged({**runs, whole: sorted(runs.get(whole, []) + asked)})
    return runs


def within(first, last, runs):
    """The group of the members from one to another."""
    asked = runs.get((first, last), ())
    inner = {run: it for run, it in runs.items() if first <= run[0] and run[1] <= last and run != (first, last)}
    parts, at = [], first
    while at <= last:
        longest = max((run[1] for run in inner if run[0] == at), default=None)
        parts.append(at if longest is None else within(at, longest, inner))
        at = at + 1 if longest is None else longest + 1
    return Group(parts, asked)


def folded(group):
    """The same with so many parts at most: the last one holds the rest. Of more each holds a share, since the compiler gives up on groups
    that nest deep."""
    parts = [folded(it) if isinstance(it, Group) else it for it in group]
    while len(parts) > MOST:
        rest = MOST - 1
        if len(parts) <= rest + MOST:
            parts = [*parts[:rest], Group(parts[rest:])]
        else:
            shares = min(MOST, -(-len(parts) // MOST))
            ends = [len(parts) * it // shares for it in range(shares + 1)]
            parts = [folded(Group(parts[start:end])) for start, end in zip(ends, ends[1:])]
    return Group(parts, group.asked)


def filled(group, values):
    """The same tree as nested lists, with these values in place of the numbers."""
    return [filled(it, values) if isinstance(it, Group) else values[it] for it in group]


def groups_in(group):
    return [group, *(found for it in group if isinstance(it, Group) for found in groups_in(it))]


def numbers_in(group):
    return [number for it in group for number in (numbers_in(it) if isinstance(it, Group) else [it])]


def part_of(kind, items):
    """The struct of the file whose members a type stands for, or nothing."""
    found = items.get(getattr(kind, "name", None))
    is_struct = found is not None and found.kind == "struct" and found.variants[0].shape == "named" and found.variants[0].fields
    return found if is_struct and "transparent" not in options(found) else None


def flat_part(it, items):
    """The struct whose members a flattened field or an option of one stands for, or nothing."""
    return part_of(it.type.args[0] if is_option(it.type) else it.type, items) if is_flat(it) else None


def held_part(variant, item, items):
    """The struct whose members a variant under `tag` stands for, or nothing."""
    said = options(item)
    is_held = item.kind == "enum" and "tag" in said and "content" not in said and variant.shape == "tuple" and len(variant.fields) == 1
    return part_of(variant.fields[0].type, items) if is_held else None


def own_part(it, items):
    """The hole whose members among others a form of your own reads, or nothing."""
    return it.type if is_flat(it) and not is_rest(it) and flat_part(it, items) is None and it.type.name in items else None


def fields_among(item, items):
    """The fields of a type that stand for the members of a struct, each with that struct."""
    found = [(it, flat_part(it, items) or held_part(variant, item, items)) for variant in item.variants for it in variant.fields]
    return [(it, part) for it, part in found if part]


def is_closed(variant, item, items):
    """Whether a variant under `tag` knows no further member: serde asks a struct that it holds, and else the enum."""
    return "deny_unknown_fields" in options(held_part(variant, item, items) or item)


def names_of(it, variant, item, items):
    """The names in JSON of the members that a field stands for."""
    part = flat_part(it, items)
    if part is None:
        return [] if is_flat(it) else [of_field(it, variant, item)]
    return [name for one in part.variants[0].fields for name in names_of(one, part.variants[0], part, items)]


def must_be_there(it, item, borrowed):
    """Whether serde reads no value of a type where the members that a field stands for are missing."""
    if is_flat(it):
        part = part_of(it.type, borrowed.items)
        return part is not None and any(must_be_there(one, part, borrowed) for one in part.variants[0].fields)
    return not is_option(it.type) and not is_skipped(it) and not {"default"} & {*options(it), *options(item)}


def is_always_there(it, borrowed):
    """Whether a field is an option of a struct each of whose members may be missing: serde always gives it a value."""
    part = flat_part(it, borrowed.items)
    return part is not None and is_option(it.type) and not any(must_be_there(one, part, borrowed) for one in part.variants[0].fields)


def always_there(it, borrowed):
    """Such a field as one of the struct itself, where no rule is asked of the option."""
    if not is_always_there(it, borrowed) or any(rule.name == "custom" for rule in it.attributes.rules):
        return it
    rules = [one for rule in it.attributes.rules if rule.name != "required" for one in (rule.rules if rule.name == "inner" else [rule])]
    docs = with_doc(it.docs, "Each of its members may be missing, so there is always one.")
    return with_rules(replace(it, type=it.type.args[0], docs=docs), rules)


def faults(item, borrowed):
    """Why the members of fields and variants cannot stand among those of a type."""
    for variant in item.variants:
        flat = [it for it in variant.fields if is_flat(it)]
        for it in flat:
            line = options(it)["flatten"].line
            yield from ((line, f"`flatten` at the field `{it.name}`: {told}") for told in of_field_faults(it, variant, item, borrowed))
        tag = options(item).get("tag")
        if tag and "content" not in options(item):
            part = held_part(variant, item, borrowed.items)
            fields, of = (part.variants[0].fields, (part.variants[0], part)) if part else (variant.fields, (variant, item))
            names = [name for it in fields if it.name for name in names_of(it, *of, borrowed.items)]
            if tag.value in names:
                yield variant.line, f"the variant `{variant.name}` with a member `{tag.value}`, which is the tag: give one of them another name"


def of_field_faults(it, variant, item, borrowed):
    """Why a field has no form under `flatten`."""
    if borrowed.input != "json":
        yield f"no text of `--input {borrowed.input}` has one, so write the members of its type here"
    if item.kind == "struct" and "deny_unknown_fields" in options(item):
        yield f"serde has none beside `deny_unknown_fields`, so take that out at `{item.name}`, or write the members here"
    if shared_rules(it):
        yield "its rules speak of other fields, so write them at one of those"
    if is_rest(it):
        if variant.fields[-1] is not it:
            yield "it takes every other member, so write this field last"
        if len(variant.fields) == 1:
            yield "it is the only field, so write `#[serde(transparent)]` at the type"
        asked = sorted({rule.name for rule in it.attributes.rules} - {"inner", "dive"})
        yield from (f"a form asks rules of its values alone, so take out `{name}`" for name in asked[:1])
        return
    part = flat_part(it, borrowed.items)
    if part is None and not (borrowed.own and own_part(it, borrowed.items)):
        way = "" if borrowed.own else ", or say `--own` for a form of your own"
        yield f"its type is no struct of this file with named fields, no option of one and no map, so write `{it.name}` as a member, without `flatten`{way}"
    if part is None:
        return
    if borrowed.holds(part, part):
        yield f"`{part.name}` holds itself, so write it as a member"
    if any(is_rest(one) for one in part.variants[0].fields) and variant.fields[-1] is not it:
        yield f"`{part.name}` takes every other member, so write this field last"
    if is_always_there(it, borrowed):
        yield f"each member of `{part.name}` may be missing, so serde always gives a value: write `{part.name}` in place of the option"
