"""Types whose reading stands elsewhere: those of another crate, of a macro or with a `Deserialize` of their own, and fields that are read by a
function. With `--own` each is a hole: the module of one's own has the type, a form that reads it and what JSON spells of it. Under `flatten` it
has a form of members."""
import re
from collections import namedtuple
from dataclasses import replace

from .derives import all_options, is_skipped, options
from .rules import Rule
from .scope import is_option, is_path, is_text
from .source import Type, named_type, with_rules, with_variants
from .templates import TABLES
from .tokens import Notes
from .words import camel

# The types of the language, which no module has.
PRIMITIVE = re.compile(r"[iu](?:8|16|32|64|128|size)|f32|f64|bool|char|str")
BY_FUNCTION = ("with", "deserialize_with")
BY_IMPL = ("from", "try_from", "remote")
# The names that modules import, and that no hole has.
IMPORTED = TABLES["names that modules import"].split()
# The rules of a value that are asked of an option as a whole.
WITHIN = ("required", "custom", "inner")


# What passes at a line though serde may reject it, with the name of the type of one's own that says what it is, if there is one.
Hole = namedtuple("Hole", "line reason name", defaults=("",))


def optional(it):
    """A field as an option of what is there, with the rules of that."""
    rules = [Rule("inner", rule.line, rules=(rule,), added=rule.added) if rule.name in WITHIN else rule for rule in it.attributes.rules]
    return with_rules(replace(it, type=named_type("Option", it.line, it.type), unmade=True), rules)


def nothing(it):
    """A field that is not read, with no value."""
    return with_rules(replace(without(it, *BY_FUNCTION), type=Type("tuple", "()", it.line), unmade=True), (), skip=True)


def without(it, *words):
    return replace(it, serde=tuple(tuple(one for one in group if one.word not in words) for group in it.serde))


def name_of(kind):
    """What the hole of a type is called: by the type, and by its arguments."""
    return camel(kind.name) + (f"Of{''.join(map(name_of, kind.args))}" if kind.args else "")


class Holes:
    """The holes of a source: their names, each with why it is one. `reads` says whether a form reads a type, and `has_members` whether one reads
    the members of a field under `flatten`. `own` is the module of one's own; `notes` get a line for each hole."""

    def __init__(self, items, reads, has_members, own, notes):
        self.items, self.reads, self.has_members, self.own, self.notes = items, reads, has_members, own, notes
        self.why, self.wholes = {}, {}

    def of_item(self, item):
        return with_variants(item, lambda variant: [found for it in variant.fields for found in self.of_names(it, item)])

    def of_names(self, it, item):
        """A field for each name that a member may have. One that is not read has no hole."""
        trial = Holes(self.items, self.reads, self.has_members, self.own, Notes())
        trial.of_type(it.type, "")
        if is_skipped(it) and (trial.why or any(word in options(it) for word in BY_FUNCTION)):
            self.notes.holes.append(Hole(it.line, f"{it.name}: it is not read, and its type is not known: it is `()`; fill it in by your code"))
            return [nothing(it)]
        names = [one for one in all_options(it) if one.word == "alias"]
        if not names or not it.name or "flatten" in options(it):
            return [self.of_field(it, item)]
        others = [f"{it.name}_{at}" for at in range(2, len(names) + 2)]
        self.notes.holes.append(Hole(it.line, f"{it.name}: a member with {len(names) + 1} names, for which there are the fields {', '.join([it.name, *others])}: none of them passes, and more than one; take the one that is there by your code"))
        one = optional(self.of_field(without(it, "alias", "default"), item))
        copies = [replace(without(one, "rename"), name=name) for name in others]
        return [one, *(replace(copy, serde=(*copy.serde, (replace(name, word="rename"),))) for copy, name in zip(copies, names))]

    def of_field(self, it, item):
        """A field with the types of its holes, or one that is a hole as a whole."""
        place, (why, is_among) = it.name or item.name, self.whole(it)
        if why is None:
            return replace(it, type=self.of_type(it.type, place))
        name = f"{item.name}{camel(it.name or 'value')}"
        self.why[name] = f", the field `{it.name}` of `{item.name}`, which {why}"
        kept = "any members pass, a map beside it has them too, and the whole object is kept" if is_among else "any value passes and is kept"
        self.tell(it.line, f"{place}: a field that {why}: {kept}", name)
        it = without(it, *BY_FUNCTION, "serialize_with", *["default"] * is_among)
        return replace(it, type=replace(it.type, kind="path", name=name, path=(name,), args=(), lives=()))

    def whole(self, it):
        """Why a field is a hole as a whole, or nothing; and whether it is read of members that stand among others."""
        said = options(it)
        by, is_flat = next((said[word] for word in BY_FUNCTION if word in said), None), "flatten" in said
        if by is None and is_flat and not self.has_members(it):
            return "is under `flatten` and no struct", True
        return f"`{by.value}` reads" if by else None, is_flat

    def tell(self, line, told, name):
        self.notes.holes.append(Hole(line, f"{told} as it was; narrow `{name}` in {self.own}", name))

    def of_type(self, kind, place):
        """A type with holes for what in it no form reads, at a field of this name."""
        if is_text(kind) or kind.kind not in ("path", "slice", "array", "tuple", "ref"):
            return kind
        # a form reads values of these by the form of another type
        is_holder = is_option(kind) or is_path(kind, "Vec", "BTreeMap", "HashMap")
        if kind.kind == "path" and self.reads(kind) and not is_holder:
            return kind
        if kind.kind != "path" or self.reads(kind) or PRIMITIVE.fullmatch(kind.name.rpartition("::")[2]):
            return replace(kind, args=tuple(self.of_type(it, place) for it in kind.args))
        name = self.free_name(kind)
        self.why.setdefault(name, self.reason(kind))
        self.tell(kind.line, f"{place}: the type `{kind.name}`{self.why[name]}: any value passes and is kept", name)
        return replace(kind, name=name, path=(name,), args=(), lives=())

    def free_name(self, kind):
        """What the hole of a type is called: by its last name, or by its whole path where another type has that name, or where it is imported."""
        name = name_of(kind)
        if name not in IMPORTED and self.wholes.setdefault(name, kind.name) == kind.name:
            return name
        return "".join(map(camel, kind.name.split("::"))) if "::" in kind.name else f"{name}Value"

    def reason(self, kind):
        found = self.items.get(kind.name)
        if found is None:
            return ", which is read elsewhere"
        by = next((word for word in BY_IMPL if word in options(found)), None)
        if by is None and "Deserialize" in found.derives:
            return ", which holds itself"
        return f", which serde reads by `{by}`" if by else ", which has a `Deserialize` of its own"
