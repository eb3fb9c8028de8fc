"""What rules may speak of: the value, its fields and its context."""
import re
from dataclasses import dataclass, field

from .expressions import CONTEXT, ITEM, VALUE
from .source import Type
from .tokens import Refusal

VARIABLES = ("x", "y", "z", "w", "u")
# The names in a piece of a statement, variables of one letter apart; those of them that are of the prelude, and words of the language.
NAMES = re.compile(r"(?<![\w.])[A-Za-z]\w+")
PRELUDE, LANGUAGE = {"is_some", "Some", "None", "IfOk"}, {"elim", "as", "record"}


@dataclass
class Uses:
    """What the code and the statements of a file import. What is kept a rule imports that stands there whether a form asks it or not."""

    words: set = field(default_factory=set)
    prelude: set = field(default_factory=set)
    fields: set = field(default_factory=set)
    others: set = field(default_factory=set)
    kept_fields: set = field(default_factory=set)
    kept_others: set = field(default_factory=set)
    cow: bool = False
    sides: bool = False
    cited: set = field(default_factory=set)
    paths: set = field(default_factory=set)
    stated: set = field(default_factory=set)

    def say(self, text, *parts):
        """A piece of a statement, in which `{}` stands for a part: the words that it names are imported."""
        found = set(NAMES.findall(text))
        self.prelude |= found & PRELUDE
        self.words |= found - PRELUDE - LANGUAGE
        return text.format(*parts)

    def all_of(self, texts):
        """What holds where all of these do, as it is stated."""
        self.words |= {"◌and◌"} if texts[1:] else set()
        return " and ".join(texts)

    def state(self, module, word):
        """Imports a word of the statements of a module, and gives it."""
        self.stated.add((module, word))
        return word


@dataclass(frozen=True)
class Seen:
    """A value of which rules are asked: its type, what `visits` calls it, and how many variables stand round it."""

    type: Type
    name: str
    depth: int = 0

    def part(self, kind):
        """What a λ binds within."""
        return Seen(kind, VARIABLES[self.depth % len(VARIABLES)], self.depth + 1)


@dataclass(frozen=True)
class Place:
    """A field of the value: its name in the code, what `visits` calls it, and its type."""

    binding: str
    name: str
    type: Type


def is_path(kind, *names):
    return isinstance(kind, Type) and kind.kind == "path" and kind.name in names


def is_option(kind):
    return is_path(kind, "Option") and len(kind.args) == 1


def is_text(kind):
    """Whether a type is a text: `String`, `&str`, `Cow<str>`, or a text that a form reads."""
    borrowed = kind.kind == "ref" and is_path(kind.args[0], "str")
    return is_path(kind, "String", "TextRef") or borrowed or (is_path(kind, "Cow") and bool(kind.lives) and any(is_path(it, "str") for it in kind.args))


class Scope:
    """The fields and the context that rules of one type may speak of, and the `value` of which a rule of one's own is asked, with its
    `fields`, by their names, where it has such."""

    def __init__(self, context, places, params, unit, value=None, fields=()):
        self.context, self.places, self.params, self.unit = context, places, params, unit
        self.value, self.fields = value, dict(fields)
        self.bound, self.asks_context, self.items = set(), False, {}

    def with_item(self, name, place, fields):
        """The same, and an item of a list, which is a place with these fields."""
        found = Scope(self.context, self.places, self.params, self.unit, self.value, self.fields)
        found.items = {**self.items, name: (place, dict(fields))}
        return found

    def the_context(self):
        self.asks_context = True
        return self.context

    def place(self, names, line):
        """A place as code and as it is stated, with its type where that is known."""
        names = (self.context, *names[1:]) if names[0] == CONTEXT else names
        if names[0] == VALUE and self.value is not None:
            return of_place(self.value, self.fields, names, line)
        if names[0] in self.items:
            return of_place(*self.items[names[0]], names, line)
        if names[0] == self.context and len(names) > 1 and not self.unit:
            return f"{self.the_context()}.{'.'.join(names[1:])}", ".".join(names), None
        if names[0] == "self" and len(names) == 2 and names[1] in self.places:
            found = self.places[names[1]]
            self.bound.add(names[1])
            return f"*{found.binding}", found.name, found.type if found.type.kind != "unread" else None
        raise Refusal(line, f"the port cannot read `{spoken(names)}`: it reads fields of `self` and of the context")


def of_place(place, fields, names, line):
    """A place that stands by itself, or a field of it."""
    if not names[1:]:
        return f"*{place.binding}", place.name, place.type
    if len(names) > 2 or names[1] not in fields:
        raise Refusal(line, f"`{spoken(names)}`, which is no field of a struct of this file")
    return f"{place.binding}.{names[1]}", f"{place.name}.{names[1]}", fields[names[1]]


def spoken(names):
    """A place as a message has it."""
    return ".".join({VALUE: "value", CONTEXT: "context"}.get(it, it.removeprefix(ITEM)) for it in names)
