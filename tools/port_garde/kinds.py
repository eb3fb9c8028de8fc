"""The kinds of types whose values have no parts in JSON: by which form each is read, what that makes, and what a JSON Schema says of it. Some
are texts that a parser reads; other types of std and of other crates are read as types of the file, as declared.rs has them."""
import json
import pathlib
from dataclasses import dataclass, replace

from .derives import options
from .expressions import SIGNED, UNSIGNED
from .scope import is_option, is_path, is_text
from .source import Type, named_type, read_source
from .templates import names, rows
from .tokens import Refusal

# The crates and the modules of the types of declared.rs. Those that have `-` too are there without an import.
HOMES = names("modules of declared types")
# These types, which stand nowhere in the text of a source.
DECLARED = pathlib.Path(__file__).with_name("declared.rs").read_text(encoding="utf-8")
ITEMS = {it.name: replace(it, start=0, end=0) for it in read_source(DECLARED).items}
# The greatest number up to which a float holds each whole number.
SAFE = 2**53 - 1
# The numbers of other crates and of std: the type that serde reads, with the least and the greatest number. One with a sign that is not 0 has no
# such bounds.
NUMBERS = {
    ("js_int", "UInt"): ("u64", None, SAFE), ("js_int", "Int"): ("i64", -SAFE, SAFE),
    **{("std", f"NonZero{name.capitalize()}"): (name, 1 if name in UNSIGNED else None, None) for name in (*UNSIGNED, *SIGNED)},
}
# A type of no value of its own.
NOTHING = ("std", "PhantomData")


def declared(path):
    """The type that a whole path names, as it would be declared, or nothing."""
    home, *modules = HOMES.get(path[-1], ("",))
    crate = "std" if path[0] in ("core", "alloc") else path[0]
    is_there = path[:-1] == () and "-" in modules or crate == home and (not modules or path[-2] in modules)
    return ITEMS[path[-1]] if is_there else None


RFC3339 = ("time::serde::rfc3339", "time::serde::iso8601")


@dataclass(frozen=True)
class Parser:
    """A parser: its name, the path of the type of its values, the word that states what it reads, and what a JSON Schema says. The texts
    of a `layout` alone are read, where it has one; one that `takes` may allocate, and `crate` has it."""

    name: str
    path: str
    word: str
    layout: str
    crate: str
    takes: str
    said: str
    form, is_written = "Parsed", True

    @property
    def schema(self):
        return json.loads(self.said)

    def turned(self, kind):
        """The type of its values."""
        path = tuple(self.path.split("::"))
        return Type("path", path[-1], kind.line, path=path)


# By the crate and the name of a type.
KNOWN = {tuple(name.split("::")): Parser(*row.split(" | ")) for name, row in rows("types that a parser reads").items()}
# What is said of types that are texts in JSON, and that no parser reads, with the way out.
WAYS = {tuple(name.split("::")): way for name, way in rows("texts that no parser reads").items()}
# The modules of the toolchain's crates that have these types.
CRATES = {"std": "std", "core": "std", "alloc": "std", **dict.fromkeys(("uuid", "url", "chrono", "jiff", "time", "semver", "http", "js_int"), "")}


def place_of(kind, source):
    """The crate and the name of a type that no item of the file declares, by its path or by the imports of the file."""
    if kind.kind != "path" or any(it.name == kind.name for it in source.items):
        return None
    # an import may give it another name than it has in its crate
    names = (path[-1] for path, name in source.imports if len(kind.path) == 1 and name == kind.name and name != "*")
    first, name = kind.path[0], next(names, kind.name)
    if kind.path == ("char",):
        return "", name
    if len(kind.path) > 1 and first in CRATES:
        return CRATES[first] or first, name
    homes = [CRATES[path[0]] or path[0] for path, known in source.imports if known in (first, "*") and path[0] in CRATES]
    return next((it for it in homes if (it, kind.name) in (*KNOWN, *WAYS, *NUMBERS, NOTHING)), None), name


def with_moments(it):
    """A field of a moment of `time` under one of its modules, as one of `chrono`, whose texts are the same."""
    said = options(it).get("with")
    held = it.type.args[0] if is_option(it.type) else it.type
    if said is None or said.value is None or said.value.removesuffix("::option") not in RFC3339 or not is_path(held, "OffsetDateTime"):
        return it
    if is_option(it.type) and "default" not in options(it):
        return it
    moment = Type("path", "DateTime", it.type.line, path=("chrono", "DateTime"))
    serde = tuple(tuple(one for one in group if one is not said) for group in it.serde)
    return replace(it, type=replace(it.type, args=(moment,)) if is_option(it.type) else moment, serde=serde)


# The lifetime of what is read.
LIFE = "'t"
# What a number with a fraction and a value of any kind is where a form reads it.
DECIMAL, KEPT = "Decimal", "KeptValue"


@dataclass(frozen=True)
class Kind:
    """A kind of types: its form, by its name in code, what a JSON Schema says, and the name of the type that the form makes, where that is
    another one, which borrows. What `is_written` has a text in a field of a web form or in a cell of a table too."""

    form: str
    schema: dict
    made: str = ""
    is_written: bool = True

    def turned(self, kind):
        """The type that the form makes of one of this kind."""
        return named_type(self.made, kind.line, lives=(LIFE,)) if self.made else kind


TEXT = Kind("Text", {"type": "string"}, "TextRef")
FRACTION = Kind("DecimalNumber", {"type": "number"}, DECIMAL, is_written=False)
ANY = Kind("Kept", {}, KEPT, is_written=False)
FLAG = Kind("Flag", {"type": "boolean"})
WHOLE = Kind("Whole", {"type": "integer"})
LONG = Kind("Whole", {"type": "integer"}, is_written=False)


def kind_of(kind, source):
    """The kind of a type or the parser that reads it, or nothing."""
    if is_text(kind):
        return TEXT
    if parser := KNOWN.get(place_of(kind, source)):
        return parser
    if is_float(kind) or is_any(kind):
        return FRACTION if is_float(kind) else ANY
    if is_path(kind, *UNSIGNED, *SIGNED):
        return LONG if kind.name in ("u128", "i128") else WHOLE
    return FLAG if is_path(kind, "bool") else None


def is_float(kind):
    """Whether a type of the source is read as an exact decimal."""
    return is_path(kind, "f32", "f64")


def is_any(kind):
    """Whether a type of the source is read as whatever is there."""
    return is_path(kind, "Value") and kind.path == ("serde_json", "Value")


def is_made(kind, *names):
    """Whether a type is one of these, which a form makes."""
    return is_path(kind, *names) and kind.path == (kind.name,) and not kind.args and len(kind.lives) == 1


def canonical(kind):
    """A type of the source in which each value of any kind is `serde_json::Value`, each object of such a map, and each number of serde_json an
    `f64`."""
    if kind.kind == "ref" and kind.args and kind.args[0].path[-1:] == ("RawValue",):
        kind = kind.args[0]
    if is_path(kind, "Box") and len(kind.args) == 1 and kind.args[0].path[:1] + kind.args[0].path[-1:] == ("serde_json", "RawValue"):
        kind = kind.args[0]
    crate, name = (kind.path[0], kind.path[-1]) if kind.path[1:] else (None, None)
    known = Type("path", "Value", kind.line, path=("serde_json", "Value"))
    if name in ("Value", "RawValue") and (crate == "serde_json" or name == "Value" and crate == "toml"):
        return known
    if crate == "serde_json" and name == "Number":
        return named_type("f64", kind.line)
    is_object = crate in ("serde_json", "toml") and name == "Map" and (not kind.args or len(kind.args) == 2 and is_text(kind.args[0]))
    if is_object or crate == "toml" and name == "Table":
        held = canonical(kind.args[1]) if kind.args else known
        return named_type("HashMap", kind.line, named_type("String", kind.line), held)
    return replace(kind, args=tuple(map(canonical, kind.args)))


def text_of(it):
    """The text of a number that stands in an attribute, as JSON writes it."""
    if it.kind not in ("number", "decimal"):
        raise Refusal(it.line, "a bound of a number with a fraction that is no number: write its digits, as `0.5`")
    return str(it.value)
