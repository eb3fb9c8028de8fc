"""Types that a form reads by the words of others: an array and a set are a list under a rule, a map with other keys is one of texts under
rules of its names, and a path is a text."""
from dataclasses import replace

from .defaults import Constants, NoConstant, Reader
from .derives import options
from .expressions import SIGNED, UNSIGNED, VALUE, Expression, range_of
from .holes import BY_FUNCTION, BY_IMPL, Hole
from .kinds import NOTHING, NUMBERS, place_of, with_moments
from .rules import REPEATED, Rule
from .scope import is_option, is_path, is_text
from .source import Parser, Type, named_type, with_fields, with_rules
from .tokens import Refusal, tokens_of
from .unions import is_other, names_of

PATHS = ("PathBuf", "Utf8PathBuf", "Path", "Utf8Path")
SETS = ("BTreeSet", "HashSet")
MAPS = ("BTreeMap", "HashMap")
# The rules that a text is an address.
ADDRESSES = {("std", "IpAddr"): "ip", ("std", "Ipv4Addr"): "ipv4", ("std", "Ipv6Addr"): "ipv6"}
UNKNOWN = "not one of the known values"
# The rules that go on to what an option holds.
THROUGH = ("length", "unique", "keys")


def plain(source, has_own=False):
    """Puts the types of the fields that a form reads in the words of others, each with the rules that this adds. With
    `has_own` keys that no form reads are any texts."""
    source.has_own = has_own
    for at, item in enumerate(source.items):
        if "Deserialize" in item.derives:
            source.items[at] = with_fields(item, lambda it: plain_field(it, item, source))


def plain_field(it, item, source):
    it = with_moments(it)
    if set(BY_FUNCTION) & set(options(it)):
        return it
    try:
        if it.type.kind == "array" and {"default"} & {*options(it), *options(item)}:
            raise Refusal(it.line, f"`default` of the array `{it.name}`, which no list without items is: write an `Option` of it")
        kind, found = plain_type(it.type, source)
    except Refusal as refusal:
        source.notes.faults.append(refusal)
        return replace(it, type=Type("unread", "", it.line))
    rules = tuple(replace(one, added=True) for one in found)
    whole, skip = of_names((*rules, *it.attributes.rules)), it.attributes.skip and not rules
    if kind == it.type and whole == it.attributes.rules:
        return it
    return with_rules(replace(it, type=kind), whole, skip=skip)


def of_names(rules):
    """The rules of a field, those of the names of a map in one."""
    keys = [it for it in rules if it.name == "keys"]
    whole = [replace(keys[0], rules=tuple(found for it in keys for found in it.rules))] if keys else []
    return tuple(found for it in rules for found in ([it] if it.name != "keys" else whole if it is keys[0] else []))


def plain_type(kind, source):
    """A type as a form reads it, and what is asked of its values besides."""
    if is_path(kind, *PATHS):
        return named_type("String", kind.line), ()
    if place_of(kind, source) in NUMBERS or is_path(kind, "NonZero"):
        return of_number(kind, source)
    if is_path(kind, "ArrayVec", "ArrayString") and kind.path[0] == "arrayvec":
        most = Rule("length", kind.line, mode="simple", bounds={"max": size_of(replace(kind, size=kind.args[-1].name), source)})
        return (named_type("String", kind.line), (most,)) if kind.name == "ArrayString" else of_list(kind, source, most)
    if place_of(kind, source) == NOTHING:
        return Type("tuple", "()", kind.line), ()
    if is_path(kind, "IgnoredAny"):
        return Type("path", "Value", kind.line, path=("serde_json", "Value")), ()
    if kind.kind == "array":
        return of_list(kind, source, Rule("length", kind.line, mode="simple", bounds={"equal": size_of(kind, source)}))
    if is_path(kind, *SETS) and kind.args:
        return of_list(kind, source, Rule("unique", kind.line, text=REPEATED))
    if is_path(kind, *MAPS) and len(kind.args) >= 2:
        return of_map(kind, source)
    if kind.kind == "tuple":
        read = [plain_type(it, source) for it in kind.args]
        if any(rules for _, rules in read):
            raise Refusal(kind.line, "an array, a set or a map with other keys within a tuple: give the tuple a name, as `struct Row(..);`")
        return replace(kind, args=tuple(it for it, _ in read)), ()
    if is_option(kind) or is_path(kind, "Vec") and len(kind.args) == 1:
        held, rules = plain_type(kind.args[0], source)
        asked = tuple(it if is_option(kind) and it.name in THROUGH else within((it,)) for it in rules)
        return replace(kind, args=(held,)), asked
    return kind, ()


def within(rules):
    return Rule("inner", rules[0].line, rules=tuple(rules))


def of_number(kind, source):
    """A number that is not 0, or one that a float holds, as a number under a rule."""
    known = kind.name if kind.name != "NonZero" else f"NonZero{kind.args[0].name.capitalize()}"
    name, least, most = NUMBERS[place_of(kind, source)[0] or "std", known]
    number = named_type(name, kind.line)
    if (least, most) == (None, None):
        place = Expression("!=", kind.line, parts=(Expression("place", kind.line, (VALUE,)), Expression("number", kind.line, 0)))
        return number, (Rule("custom", kind.line, source="asks(0)", message="must not be 0", place=place),)
    bounds = {"min": least, "max": most}
    return number, (Rule("range", kind.line, bounds={word: Expression("number", kind.line, it) for word, it in bounds.items() if it is not None}),)


def of_list(kind, source, *asked):
    held, rules = plain_type(kind.args[0], source)
    return named_type("Vec", kind.line, held), (*asked, *([within(rules)] if rules else []))


def size_of(kind, source):
    """The length of an array: numbers and constants of the file."""
    try:
        tokens = Parser(tokens_of(kind.size), kind.size, source.notes)
        found = Reader(Constants(source), tokens).whole(named_type("usize", kind.line))
    except NoConstant as why:
        raise Refusal(kind.line, f"an array of `{kind.size}` items, which is no number and no constant of this file: write the number") from why
    return Expression("number", kind.line, found.value)


def of_map(kind, source):
    """A map, whose names are texts under rules."""
    asked, (held, rules) = of_key(kind.args[0], source), plain_type(kind.args[1], source)
    rules = (*([Rule("keys", kind.line, rules=asked)] if asked else []), *([within(rules)] if rules else []))
    if is_text(kind.args[0]) and held == kind.args[1] and len(kind.args) == 2:
        return kind, ()
    return named_type(kind.name, kind.line, named_type("String", kind.line), held), rules


def of_key(kind, source):
    held = next((it for it in source.items if it.name == kind.name), None) if kind.kind == "path" else None
    held = held if held is not None and "Deserialize" in held.derives and not set(BY_IMPL) & set(options(held)) else None
    if is_text(kind) or is_path(kind, *PATHS):
        return ()
    if is_path(kind, "char"):
        return (Rule("length", kind.line, mode="chars", bounds={"equal": Expression("number", kind.line, 1)}),)
    if place_of(kind, source) in ADDRESSES:
        return (Rule(ADDRESSES[place_of(kind, source)], kind.line),)
    if is_path(kind, *UNSIGNED, *SIGNED) and not kind.name.endswith("128"):
        return (whole_key(kind),)
    units = [it for it in held.variants if it.shape == "unit"] if held is not None and held.kind == "enum" and not {"tag", "untagged"} & set(options(held)) else []
    if units:
        return () if any(map(is_other, units)) else (one_of([name for it in units for name in names_of(it, held)], kind.line),)
    if held is not None and held.kind == "struct" and len(held.variants[0].fields) == 1 and (held.variants[0].shape == "tuple" or "transparent" in options(held)):
        one = held.variants[0].fields[0]
        return (*of_key(one.type, source), *(it for it in one.attributes.rules if it.name != "dive"))
    if is_path(kind, "bool"):
        return (one_of(("true", "false"), kind.line),)
    if source.has_own and kind.kind == "path":
        source.notes.holes.append(Hole(kind.line, f"a map by `{kind.name}`, of which a form reads no keys: any name passes; ask rules of the names by `custom(keys(..))`"))
        return ()
    told = f"a map whose keys are of the type `{kind.name}`" if kind.kind == "path" else "a map whose keys are a tuple, an array or a reference"
    raise Refusal(kind.line, f"{told}: a form reads keys that are texts, whole numbers of at most 64 bits, `char`s, addresses, enums of names, or newtypes of these, so write `BTreeMap<String, ..>` with `custom(keys(..))`")


def whole_key(kind):
    """The rule that a text is a whole number of a type, as serde reads it of a name."""
    least, most = range_of(kind.name)
    return Rule("whole_key", kind.line, mode=kind.name, text=f"not a whole number from {least} to {most}")


def one_of(names, line):
    value = Expression("place", line, (VALUE,))
    parts = tuple(Expression("==", line, parts=(value, Expression("text", line, it))) for it in names)
    place = parts[0] if len(parts) == 1 else Expression("or", line, parts=parts)
    return Rule("custom", line, source=f"asks({UNKNOWN})", message=UNKNOWN, place=place)
