"""Enums with fields: how the value of a form holds their variants, and what tells the variants of an `untagged` one apart."""
import functools
from dataclasses import dataclass, field

from .derives import all_options, of_field, of_variant, options
from .expressions import SIGNED, UNSIGNED
from .scope import is_option, is_path, is_text

# The kinds of values: whole numbers are those without a sign, those behind a minus, and those of more than 64 bits.
WHOLE = ("unsigned", "negative", "big")
NUMBERS = (*WHOLE, "fraction")
KINDS = ("null", "boolean", *NUMBERS, "text", "list", "object")
WORDS = {"null": "Null", "boolean": "Boolean", "text": "Text", "list": "List", "object": "Object"}
# The forms by which tests are made.
TESTS = {"has": "Has", "has_with": "HasWith", "any": "AnyOf", "both": "Both", "not": "Not", "unsigned": "IsUnsigned", "whole": "IsWhole"}
SIDES = {"l": "Left", "r": "Right"}
# How two tests are joined.
ANY, BOTH = (lambda it, rest: ("any", it, rest)), (lambda it, rest: ("both", it, rest))


def is_unit(variant):
    return variant.shape == "unit"


def is_tuple(kind):
    return kind.kind == "tuple"


def is_list(variant):
    """Whether the fields of a variant, or of a struct, are a list in JSON."""
    return variant.shape == "tuple" and len(variant.fields) != 1


def is_other(variant):
    """Whether a variant stands for every name that no other one has."""
    return "other" in options(variant)


def names_of(variant, item):
    """The names under which a variant is read."""
    return [of_variant(variant, item), *(said.value for said in all_options(variant) if said.word == "alias")]


def units_of(item):
    """The variants that are texts, beside others that are objects of one member."""
    return [] if {"tag", "untagged"} & set(options(item)) else list(filter(is_unit, item.variants))


def beside_units(item):
    """The variants that are no texts, in their order."""
    units = units_of(item)
    return [it for it in item.variants if it not in units]


def nested(parts, join=lambda it, rest: (it, rest)):
    """Parts in pairs, of which the last holds those that are left."""
    return functools.reduce(lambda rest, it: join(it, rest), reversed(parts))


def paths_of(tree, path=""):
    """Each variant of a tree, by its name, with its sides from the root."""
    if not isinstance(tree, tuple):
        return {tree.name: path}
    return {**paths_of(tree[0], path + "l"), **paths_of(tree[1], path + "r")}


def along(path, inside):
    """What stands at the end of a path, as it is stated."""
    for it in reversed(path):
        inside = f"{SIDES[it]} {f'({inside})' if ' ' in inside and inside[0] != '(' else inside}"
    return inside


# What values a type has.


@dataclass
class Shape:
    """The kinds of values that a type has. It has all values of those kinds that are `total`, of the texts these alone, if they are
    known, of lists such items, and of objects such members: their shapes, and whether they must be there. Serde reads a `row` of such
    values, some of which have a default, as an object too. An object that is open may have other members that are read; of the names of
    `one_of` it has one. Of a type that you read it is not known which values it has."""

    kinds: set
    total: set = field(default_factory=set)
    texts: tuple = None
    items: "Shape" = None
    members: dict = field(default_factory=dict)
    row: tuple = None
    is_open: bool = False
    is_closed: bool = False
    one_of: tuple = ()
    is_own: bool = False


def anything():
    return Shape(set(KINDS), is_open=True)


class Shapes:
    """The shapes of the types of a source."""

    def __init__(self, borrowed):
        self.borrowed, self.items = borrowed, borrowed.items

    def of_type(self, kind, seen=()):
        if kind.kind == "unread" or kind.name in self.borrowed.holes:
            return Shape(set(KINDS), is_open=True, is_own=kind.name in self.borrowed.holes)
        if is_text(kind):
            return Shape({"text"}, {"text"})
        if is_path(kind, "Cow") and kind.args:
            return self.of_type(kind.args[-1], seen)
        if is_option(kind):
            held = self.of_type(kind.args[0], seen)
            return Shape(**{**vars(held), "kinds": held.kinds | {"null"}, "total": held.total | {"null"}})
        if is_path(kind, "Vec") or kind.kind in ("slice", "tuple"):
            items = self.of_type(kind.args[0], seen) if kind.args and kind.kind != "tuple" else anything()
            return Shape({"list"}, items=items)
        if is_path(kind, "HashMap", "BTreeMap"):
            return Shape({"object"}, is_open=True)
        return self.of_item(self.items[kind.name], seen) if kind.name in self.items else self.of_name(kind.name)

    def of_name(self, name):
        """The shape of a type of another crate, by its name."""
        if name in UNSIGNED:
            return Shape({"unsigned", *(["big"] if name == "u128" else [])}, {"unsigned"} if name in ("u64", "usize", "u128") else set())
        if name in SIGNED:
            return Shape({"unsigned", "negative", *(["big"] if name == "i128" else [])}, {"negative"} if name in ("i64", "isize", "i128") else set())
        if name in ("f64", "f32"):
            return Shape(set(NUMBERS), set(NUMBERS))
        if name == "bool":
            return Shape({"boolean"}, {"boolean"})
        if name in ("Value", "RawValue"):
            return Shape(set(KINDS), set(KINDS), is_open=True)
        return Shape({"text"})

    def of_item(self, item, seen):
        """The shape of a type of the source. Of one that holds itself nothing is said within it."""
        if item.name in seen:
            return anything()
        seen = (*seen, item.name)
        if item.kind == "struct":
            return self.of_variant(item.variants[0], item, seen)
        return self.of_enum(item, seen)

    def of_variant(self, variant, item, seen=()):
        """The shape of the value of a variant, or of a struct."""
        if variant.shape == "unit":
            return Shape({"null"}, {"null"})
        if variant.shape == "tuple" and len(variant.fields) != 1:
            return Shape({"list"}, items=anything())
        if variant.shape == "tuple" or "transparent" in options(item):
            return self.of_type(variant.fields[0].type, seen)
        return self.of_fields(variant, item, seen)

    def of_fields(self, variant, item, seen):
        """An object with the members of a variant. A field that serde leaves out or takes apart is no member."""
        members, row, is_open = {}, [], False
        for it in variant.fields:
            said = options(it)
            if {"flatten", "skip", "skip_deserializing"} & set(said):
                is_open |= "flatten" in said
                continue
            shape = anything() if {"with", "deserialize_with"} & set(said) else self.of_type(it.type.args[0] if it.unmade else it.type, seen)
            has_default = "default" in said or "default" in options(item)
            members[of_field(it, variant, item)] = (not has_default and not is_option(it.type), shape)
            row.append((has_default, shape))
        return Shape({"object"}, members=members, row=tuple(row), is_open=is_open, is_closed="deny_unknown_fields" in options(item) and not is_open)

    def of_enum(self, item, seen):
        said, names = options(item), tuple(name for it in item.variants for name in names_of(it, item))
        texts = None if any(map(is_other, item.variants)) else names
        if "untagged" in said:
            return self.joined([self.of_variant(it, item, seen) for it in item.variants])
        if "tag" in said:
            tag = Shape({"text"}, texts=texts)
            return Shape({"object"}, members={said["tag"].value: (True, tag)}, row=((False, tag),), is_open=True)
        units = tuple(name for it in item.variants if is_unit(it) for name in names_of(it, item))
        whole = Shape(set(), texts=units if texts else None)
        whole.kinds |= ({"text"} if units else set()) | ({"object"} if len(units) < len(names) else set())
        whole.total |= set() if texts or not units else {"text"}
        whole.one_of, whole.is_closed = tuple(it for it in names if it not in units), True
        return whole

    def joined(self, shapes):
        objects = [it for it in shapes if "object" in it.kinds]
        members = {}
        for name in dict.fromkeys(name for it in objects for name in it.members):
            found = [it.members[name] for it in objects if name in it.members]
            members[name] = (len(found) == len(objects) and all(needed for needed, _ in found), anything())
        kinds, total = set().union(*(it.kinds for it in shapes)), set().union(*(it.total for it in shapes))
        return Shape(kinds, total, members=members, is_open=True)

    # What tells values apart.

    def tests(self, item):
        """What each variant of an `untagged` enum but the last is told by from those behind it, or nothing where that is not told."""
        shapes = [self.of_variant(it, item) for it in item.variants]
        return [told_apart(it, shapes[at + 1 :]) for at, it in enumerate(shapes[:-1])]

    def are_of_other_kinds(self, item):
        """Whether no kind of value is that of two variants."""
        rows = [self.of_variant(it, item).kinds for it in item.variants]
        found = [it for row in rows for it in {"number" if kind in NUMBERS else kind for kind in row}]
        return len(found) == len(set(found))

    def faults(self, item):
        """Why the variants of an `untagged` enum are not told apart."""
        shapes = [self.of_variant(it, item) for it in item.variants]
        for at, it in enumerate(item.variants):
            for other, shape in zip(item.variants[at + 1 :], shapes[at + 1 :]):
                if told_apart(shapes[at], [shape]) is None:
                    told = f"the variant `{it.name}` of an `untagged` enum, which no test tells from `{other.name}`"
                    yield it.line, f"{told}: put the one that asks for more before the other, or give it a member that the other has not"
                elif is_row(shapes[at], shape):
                    yield other.line, f"the variant `{other.name}` of an `untagged` enum, whose lists serde may read as `{it.name}`: put it before `{it.name}`"


def is_row(shape, other):
    """Whether a list of one shape may be read as the members of another one, in their order."""
    if shape.row is None or other.is_own or "list" not in other.kinds:
        return False
    items = (other.items or anything()).kinds
    return all(has_default or it.kinds & items for has_default, it in shape.row)


def told_apart(shape, others, is_strict=False):
    """What holds of each value of a shape and, if it is to be strict, not of all values of any other shape: a test, or nothing. Where it
    is not, of a kind whose every value the shape has the others get none, as in serde."""
    tests, total = [], set() if is_strict else shape.total
    numbers = [it for it in NUMBERS if it in shape.kinds]
    if numbers:
        tests.append(("unsigned",) if numbers == ["unsigned"] else ("whole",) if "fraction" not in numbers else ("kind", "Number"))
        covered = set({"unsigned": ("unsigned",), "whole": WHOLE}.get(tests[0][0], NUMBERS))
        if any(covered & it.kinds and not covered & it.kinds <= total and set(NUMBERS) & it.kinds <= covered for it in others):
            return None
    for kind in (it for it in WORDS if it in shape.kinds):
        rivals = [it for it in others if kind in it.kinds]
        test = ("kind", WORDS[kind]) if not rivals or kind in total else finer(kind, shape, rivals, is_strict)
        if test is None:
            return None
        tests.append(test)
    return nested(tests, ANY)


def finer(kind, shape, rivals, is_strict):
    """A test of the texts or of the objects of a shape, of which others have some too, or nothing."""
    if kind == "text" and shape.texts is not None:
        is_told = not is_strict or not any(it.texts is not None and set(it.texts) <= set(shape.texts) for it in rivals)
        return ("among", shape.texts) if is_told else None
    if kind != "object":
        return None
    found = [apart(shape, it) for it in rivals]
    return None if None in found else nested(list(dict.fromkeys(found)), BOTH)


def apart(shape, other):
    """What tells the objects of a shape from those of another one."""
    needed = [name for name, (is_needed, _) in shape.members.items() if is_needed]
    for name in needed:
        if name not in other.members:
            return ("has", name)
    for name in needed:
        test = told_apart(shape.members[name][1], [other.members[name][1]], True)
        if test:
            return ("has_with", name, test)
    for name in needed:
        if not other.members[name][0]:
            return ("has", name)
    if shape.one_of and not set(shape.one_of) & (set(other.members) | set(other.one_of)):
        return nested([("has", name) for name in shape.one_of], ANY)
    known = set(shape.members) | set(shape.one_of)
    beyond = [name for name, (is_needed, _) in other.members.items() if is_needed and name not in known]
    return ("not", ("has", beyond[0])) if shape.is_closed and beyond else None
