"""The derives of a type and its attributes beside those of garde: which are kept, why each other one is not, and the names in JSON."""
import re
from dataclasses import dataclass

from .templates import names, rows
from .tokens import Refusal

OWN = ("Clone", "Copy", "Debug", "Default", "Eq", "Hash", "Ord", "PartialEq", "PartialOrd")
SERDE = ("Deserialize", "Serialize")
# The attributes that say nothing of values.
SILENT = ("allow", "warn", "deny", "forbid", "expect", "must_use", "deprecated", "doc", "non_exhaustive", "repr", "rustfmt", "clippy", "diagnostic")
# What the toolchain's serde reads at each place.
OPTIONS = names("options of serde")
# Why others are read nowhere.
NOWHERE = rows("options of serde that are read nowhere")
CASES = ("lowercase", "UPPERCASE", "PascalCase", "camelCase", "snake_case", "SCREAMING_SNAKE_CASE", "kebab-case", "SCREAMING-KEBAB-CASE")
# The types that serde does not read and write here, and those that no `default()` makes, since they allocate.
UNREAD = ("Rc", "PhantomData", "Duration", "Result", "LinkedList", "BinaryHeap", "Regex")
MADE = ("String", "Vec", "BTreeMap", "BTreeSet", "HashMap", "HashSet", "VecDeque", "LinkedList", "BinaryHeap", "Box", "Rc")
HOLDERS = ("Option", *MADE)
STD = ("Option", "Vec", "String", "str", "BTreeMap", "BTreeSet", "HashMap", "HashSet", "VecDeque")
# A function that gives a number or a truth value, which is written as it is.
LITERAL = re.compile(r"(?:pub(?:\([^()]*\))?\s+)?(?:const\s+)?fn\s+(\w+)\s*\(\s*\)\s*->\s*(\w+)\s*\{\s*(-?[0-9][\w.]*|true|false)\s*\}")


@dataclass(frozen=True)
class Said:
    """An option of `#[serde(..)]`: its word, its line, how it is written, and what stands in quotes behind `=`."""

    word: str
    line: int
    text: str
    value: str = None

    def written(self):
        """How it is written here: a function by its name alone, and an empty value as the default one."""
        name = named_function(self)
        if self.word == "default" and self.value is not None and name is None:
            return self.word
        return f'{self.word} = "{name}"' if name else self.text


def read_option(tokens):
    line, word = tokens.line, tokens.name("an option of serde")
    if tokens.takes("="):
        token = tokens.take()
        if token.kind not in ("text", "raw"):
            raise Refusal(token.line, f"`{word}` of serde with `{token.text}`, where a text in quotes is read")
        return Said(word, line, f"{word} = {token.text}", re.sub(r'^r?#*"|"#*$', "", token.text))
    if tokens.opens("("):
        inside = tokens.group().items(read_option)
        return Said(word, line, f"{word}({', '.join(it.text for it in inside if it is not None)})")
    return Said(word, line, word)


def fields_of(item):
    return [it for variant in item.variants for it in variant.fields]


def serde_lines(groups):
    return [f"#[serde({', '.join(it.written() for it in group)})]" for group in groups if group]


def named_function(said):
    """The function that an option names, if it is none of the standard library."""
    if said.word not in ("default", "skip_serializing_if") or said.value is None:
        return None
    head, last = said.value.split("::")[0], said.value.split("::")[-1]
    empty = last in ("new", "default") and head in (*STD, "Default")
    return None if empty or (said.word != "default" and head in STD) else last


def all_types(kind):
    """A type and those within it."""
    return [kind, *(found for it in kind.args for found in all_types(it))]


def type_names(kind):
    return {it.name for it in all_types(kind)}


def reached(names, items):
    """These names of types, and those of all types that are held by such of the file."""
    found, more = set(), set(names)
    while more:
        found |= more
        held = [it for name in more if name in items for it in fields_of(items[name])]
        more = {name for it in held for name in type_names(it.type)} - found
    return found


def literal_function(text):
    """A function that gives a number or a truth value, as it is laid out here, or nothing."""
    found = LITERAL.fullmatch(text.strip())
    return f"fn {found[1]}() -> {found[2]} {{\n    {found[3]}\n}}" if found else None


def reading_case(said):
    """The case of names that an option gives for reading, or nothing."""
    split = re.search(r'\bdeserialize\s*=\s*"([^"]*)"', said.text)
    return said.value if said.value is not None else split[1] if split else None


def all_options(it):
    """The options of a type, a variant or a field, in their order."""
    return [said for group in it.serde for said in group]


def options(it):
    """The same by their words."""
    return {said.word: said for said in all_options(it)}


class Derives:
    """What is not kept of the derives and the attributes of the types of a file, each with its line. `left_out` are the names of
    derives and attributes that are left out without a word."""

    def __init__(self, source, left_out=()):
        self.source, self.left_out = source, left_out
        self.items = {it.name: it for it in source.items}

    def faults(self, item):
        yield from self.of_derives(item)
        known = (*SILENT, *self.left_out, *(["default"] if any(path[-1] == "Default" for _, path in item.said) else []))
        for line, name in item.others:
            if name.split("::")[0] not in known:
                told = f"the attribute `{name}`, which the port does not know"
                yield line, f"{told}: take it out, or leave it out by `--leave-out {name.split('::')[0]}`"
        if not any(name in SERDE for name in item.derives):
            told = f"an attribute of serde at `{item.name}`, which has neither `Serialize` nor `Deserialize` among its derives"
            parts = (item, *item.variants, *fields_of(item))
            yield from ((said.line, told) for part in parts for group in part.serde for said in group[:1])
            return
        yield from self.of_the_type(item)
        for variant in item.variants:
            if item.kind == "enum":
                yield from self.of_options(variant, "variant", item)
            for it in variant.fields:
                yield from self.of_field(it, item)

    def of_derives(self, item):
        """The derives that are not here, or not of such a type."""
        for line, path in item.said:
            name = path[-1]
            # the crate of a path, or that from which a name is imported
            home = path[0] if len(path) > 1 else next((whole[0] for whole, known in self.source.imports if known == name), "")
            known = ("serde", "serde_derive", "crate", "self", "super", "") if name in SERDE else ("std", "core", "")
            if name == "Validate" or (name in (*OWN, *SERDE) and home in known):
                continue
            if name not in self.left_out:
                yield line, f"the derive `{'::'.join(path)}`, which the port does not know: take it out, or leave it out by `--leave-out {name}`"
        lines = {path[-1]: line for line, path in item.said}
        if "Hash" in lines and "Eq" not in lines:
            yield lines["Hash"], "the derive `Hash` without `Eq`, which it asks for here"
        for it in item.variants[0].fields if "Default" in lines and item.kind == "struct" else ():
            if it.type.kind == "path" and it.type.name in MADE:
                told = f"`Default` of a field of the type `{it.type.name}`, which is made with an allocator here"
                yield it.line, f"{told}: take the derive out, and write a function that makes the value"

    def of_options(self, it, place, item):
        """The options that are not read at a place."""
        for said in options(it).values():
            word = said.word
            if word in NOWHERE:
                yield said.line, f"`{word}` of serde, {NOWHERE[word]}"
            elif word not in OPTIONS[place]:
                where = f" at a {place}" if any(word in words for words in OPTIONS.values()) else ""
                yield said.line, f"`{word}` of serde, which the toolchain's serde has not{where}"
            elif named_function(said) and not re.fullmatch(r"(?:[a-z_]\w*::)*[a-z_]\w*", said.value):
                yield said.line, f"`{word}` of serde with `{said.value}`, which is no function outside of `impl` blocks"
            elif word in ("rename_all", "rename_all_fields") and said.value not in CASES:
                yield said.line, f"`{word}` of serde without one case of names, as \"camelCase\", for reading and writing"

    def of_the_type(self, item):
        yield from self.of_options(item, "type", item)
        said, variants = options(item), item.variants
        if "tag" in said and item.kind == "struct":
            yield said["tag"].line, "`tag` of serde at a struct, which is read at an enum alone"
        if "default" in said and (item.kind == "enum" or variants[0].shape != "named"):
            yield said["default"].line, "`default` of serde at a type that is no struct with named fields"
        elif "default" in said and said["default"].value is None and "Default" not in item.derives:
            yield said["default"].line, f"`default` of serde at `{item.name}`, which has no `Default` among its derives"
        for variant in item.variants if "tag" in said and "content" not in said and item.kind == "enum" else ():
            if variant.shape == "tuple" and len(variant.fields) == 1 and not self.shares(variant.fields[0].type):
                told = f"the variant `{variant.name}` under `tag` of serde, whose value"
                yield variant.line, f"{told} is no struct with named fields, or one that refuses unknown members: add `content`"
        if any(len(it.fields) > 12 for it in variants if it.shape == "tuple"):
            yield item.line, "serde of a tuple of more than 12 fields"

    def shares(self, kind):
        """Whether the members of a value may stand among others: those of a struct, or of an enum with an inner tag."""
        if kind.kind == "unread":
            return True
        if kind.kind != "path" or kind.name in (*HOLDERS, *UNREAD) or re.match(r"[a-z]", kind.name):
            return False
        found = self.items.get(kind.name)
        if found is None:
            return True
        said = options(found)
        if found.kind == "enum":
            return "tag" in said and "content" not in said
        return found.variants[0].shape == "named" and "deny_unknown_fields" not in said

    def of_field(self, it, item):
        yield from self.of_options(it, "field" if it.name else "field without a name", item)
        said = options(it)
        if "flatten" in said:
            yield from self.of_flattened(it, item)
        if "default" in said and named_function(said["default"]) and it.type.kind == "path" and it.type.name in MADE:
            told = f"`default` of serde by a function at the type `{it.type.name}`, which is made with an allocator"
            yield said["default"].line, f"{told}: such a function gets none here"
        if "skip" in said or ("skip_deserializing" in said and "Serialize" not in item.derives):
            return
        for told in sorted(set(self.unread(it.type, item))):
            yield it.line, f"serde of {told}, which it does not know here"
        if "Deserialize" in item.derives and item.name in reached(type_names(it.type), self.items):
            told = f"`Deserialize` of `{item.name}`, whose values hold values of its own type"
            yield it.line, f"{told}: it wants `#[serde(recursive)]` here, at the type and at the field"

    def of_flattened(self, it, item):
        """What `flatten` does not go with."""
        said = options(it)
        line = said["flatten"].line
        if "deny_unknown_fields" in options(item):
            yield line, "`flatten` of serde beside `deny_unknown_fields`"
        others = [word for word in said if word not in ("flatten", "skip_serializing_if", "borrow")]
        if others:
            yield line, f"`flatten` of serde beside `{others[0]}`"
        if not self.shares(it.type):
            yield line, "`flatten` of serde of what is neither a struct with named fields nor an enum with an inner tag"

    def unread(self, kind, item):
        """The types within a type that serde does not read or write here."""
        for it in all_types(kind):
            if it.kind == "path" and it.name in UNREAD:
                yield f"the type `{it.name}`"
            if it.kind == "tuple" and len(it.args) > 4:
                yield "a tuple of more than 4 parts"
            if it.kind == "ref" and it.args[0].name != "str" and "Deserialize" in item.derives:
                yield "a reference that is no `&str`"


def words_joined(name, mark):
    """The name of a variant in small letters, its words joined by a mark."""
    return re.sub(r"(?<!^)(?=[A-Z])", mark, name).lower()


def pascal(name):
    """The name of a field with its words begun by capitals."""
    return "".join(it[:1].upper() + it[1:] for it in name.split("_"))


def small_first(name):
    return name[:1].lower() + name[1:]


OF_FIELDS = {
    "UPPERCASE": str.upper, "PascalCase": pascal, "camelCase": lambda it: small_first(pascal(it)), "SCREAMING_SNAKE_CASE": str.upper,
    "kebab-case": lambda it: it.replace("_", "-"), "SCREAMING-KEBAB-CASE": lambda it: it.upper().replace("_", "-"),
}
OF_VARIANTS = {
    "lowercase": str.lower, "UPPERCASE": str.upper, "camelCase": small_first, "snake_case": lambda it: words_joined(it, "_"),
    "SCREAMING_SNAKE_CASE": lambda it: words_joined(it, "_").upper(), "kebab-case": lambda it: words_joined(it, "-"),
    "SCREAMING-KEBAB-CASE": lambda it: words_joined(it, "-").upper(),
}


def reading(it, word):
    """The name, or the case of names, for reading that an option gives, or nothing."""
    said = options(it).get(word)
    return reading_case(said) if said else None


def of_field(field, variant, item):
    case = reading(item, "rename_all") if item.kind == "struct" else reading(variant, "rename_all") or reading(item, "rename_all_fields")
    found = reading(field, "rename")
    return found if found is not None else OF_FIELDS.get(case, str)(field.name)


def of_variant(variant, item):
    found = reading(variant, "rename")
    return found if found is not None else OF_VARIANTS.get(reading(item, "rename_all"), str)(variant.name)


def is_skipped(it):
    """Whether serde reads no member of a field."""
    return "skip" in options(it) or "skip_deserializing" in options(it)
