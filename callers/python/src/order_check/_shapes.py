"""What `load` makes of a value by the annotations of a class."""
from __future__ import annotations

import collections.abc
import dataclasses
import enum
import types
import typing
from typing import Any, Generic, Literal, TypeVar

T = TypeVar("T")

# The kinds of a value, and how an object is made. The numbers are those of native.h.
NULL, BOOL, INT, FLOAT, TEXT, LIST, OBJECT = (1 << it for it in range(7))
ANY = 127
KINDS = {type(None): NULL, None: NULL, bool: BOOL, int: INT, float: FLOAT, str: TEXT, list: LIST, dict: OBJECT, object: ANY, Any: ANY}
LISTS = (list, collections.abc.Sequence, collections.abc.Iterable, collections.abc.Collection)
DICTS = (dict, collections.abc.Mapping)
UNIONS = (typing.Union, getattr(types, "UnionType", typing.Union))
AS_DICT, BY_FIELDS, BY_CALL = range(3)
FIELDS = 64
# A field that has nothing where the body lacks it.
NOTHING = ...


class Valid(Generic[T]):
    """A value of a body that was found valid. Only `load(body, into=Valid[Class])` makes one, so a function that takes it needs to
    check nothing."""

    __slots__ = ("value",)
    value: T
    """The object of the class."""

    def __init__(self) -> None:
        raise TypeError("a Valid is made by `load(body, into=Valid[..])` alone")

    def __setattr__(self, name: str, value: object) -> None:
        raise AttributeError(f"{name} cannot be set")

    def __delattr__(self, name: str) -> None:
        raise AttributeError(f"{name} cannot be deleted")

    def __eq__(self, other: object) -> bool:
        return isinstance(other, Valid) and bool(self.value == other.value)

    def __hash__(self) -> int:
        return hash(self.value)

    def __reduce__(self) -> str:
        raise TypeError("a Valid is not pickled")

    def __repr__(self) -> str:
        return f"Valid({self.value!r})"


class Field(typing.NamedTuple):
    """What a class says of a field: its shape, what it has where the body lacks it, or how that is made, or that it stays away."""

    name: str
    shape: int
    instead: object = NOTHING
    is_made: bool = False
    may_be_absent: bool = False


class Plan:
    """Shapes, which name one another by their numbers, so that a class may have fields of its own class."""

    def __init__(self) -> None:
        self.shapes: list[tuple[int, int, int, int, str]] = []
        self.records: list[tuple[type, int, list[Field]]] = []
        self.numbers: dict[type, int] = {}

    def add(self, hint: Any, place: str) -> int:
        """The number of the shape of an annotation, which stands at a place that an error names."""
        number = len(self.shapes)
        self.shapes.append((ANY, -1, -1, -1, ""))
        kinds, items, members, record = 0, -1, -1, -1
        for part in parts_of(hint):
            kind, inner = kind_of(part, place)
            if kinds & kind & (LIST | OBJECT):
                raise TypeError(f"{place} is {told(hint)}, and `load` cannot tell its parts apart")
            kinds |= kind
            if kind == LIST and inner is not None:
                items = self.add(inner, place)
            elif kind == OBJECT and is_class(part) and part is not dict:
                record = self.add_class(part)
            elif kind == OBJECT and inner is not None:
                members = self.add(inner, place)
        self.shapes[number] = kinds, items, members, record, told(hint)
        return number

    def add_class(self, of: type) -> int:
        """The number of the record of a class."""
        if of in self.numbers:
            return self.numbers[of]
        number = self.numbers[of] = len(self.records)
        fields: list[Field] = []
        self.records.append((of, way_of(of), fields))
        # With what `Annotated` adds, which is left out of each annotation where it is read.
        hints = typing.get_type_hints(of, include_extras=True)
        if len(hints) > FIELDS:
            raise TypeError(f"{of!r} has {len(hints)} fields, and `load` takes {FIELDS} at most")
        for name, hint in hints.items():
            if typing.get_origin(hint) is not typing.ClassVar:
                fields.append(self.field_of(of, name, hint))
        return number

    def field_of(self, of: type, name: str, hint: Any) -> Field:
        shape = self.add(hint, f"the field {name!r} of {of!r}")
        if typing.is_typeddict(of) if hasattr(typing, "is_typeddict") else hasattr(of, "__required_keys__"):
            return Field(name, shape, may_be_absent=name not in getattr(of, "__required_keys__"))
        for it in dataclasses.fields(of) if dataclasses.is_dataclass(of) else ():
            if it.name == name and it.default is not dataclasses.MISSING:
                return Field(name, shape, it.default)
            if it.name == name and it.default_factory is not dataclasses.MISSING:
                return Field(name, shape, it.default_factory, is_made=True)
        instead = getattr(of, name, NOTHING)
        return Field(name, shape, NOTHING if isinstance(instead, types.MemberDescriptorType) else instead)


def told(hint: Any) -> str:
    return hint.__name__ if is_class(hint) else str(hint)


def is_class(hint: Any) -> bool:
    """Whether an annotation is a class. In Python 3.9 `list[int]` is a type too."""
    return isinstance(hint, type) and typing.get_origin(hint) is None


def plain(hint: Any) -> Any:
    """An annotation without what stands around it: `Annotated`, `Required`, `NotRequired`, `Final`, `ReadOnly`, and a `NewType`."""
    while True:
        origin = typing.get_origin(hint)
        if origin is typing.Annotated or getattr(origin, "_name", "") in ("Required", "NotRequired", "Final", "ReadOnly"):
            hint = typing.get_args(hint)[0]
        elif hasattr(hint, "__supertype__"):
            hint = hint.__supertype__
        else:
            return hint


def parts_of(hint: Any) -> list[Any]:
    """The parts of a union, or the annotation alone. A `Literal` has the types of its values."""
    hint = plain(hint)
    if typing.get_origin(hint) in UNIONS:
        return [part for it in typing.get_args(hint) for part in parts_of(it)]
    if typing.get_origin(hint) is Literal:
        return list(dict.fromkeys(type(it) for it in typing.get_args(hint)))
    return [hint]


def kind_of(part: Any, place: str) -> tuple[int, Any]:
    """The kind of a part of an annotation, and the annotation of what it holds."""
    origin, args = typing.get_origin(part), typing.get_args(part)
    if part in KINDS:
        return KINDS[part], None
    if origin in LISTS and len(args) == 1:
        return LIST, args[0]
    if origin in DICTS and len(args) == 2 and args[0] is str:
        return OBJECT, args[1]
    if is_class(part) and not issubclass(part, enum.Enum) and getattr(part, "__annotations__", None):
        return OBJECT, None
    raise TypeError(f"{place} is {told(part)}, which `load` makes of no value")


def way_of(of: type) -> int:
    """How an object of a class is made. By its fields, where that is what its own `__init__` does."""
    if hasattr(of, "__required_keys__"):
        return AS_DICT
    takes_fields = of.__init__ is object.__init__  # type: ignore[misc]
    if dataclasses.is_dataclass(of):
        inits = all(it.init for it in dataclasses.fields(of)) and not hasattr(of, "__post_init__")
        takes_fields = inits and "__init__" in of.__dict__ and is_written(of)
    return BY_FIELDS if takes_fields and of.__new__ is object.__new__ and type(of).__call__ is type.__call__ else BY_CALL


def is_written(of: type) -> bool:
    """Whether `dataclasses` wrote the `__init__` of a class: it has no file then."""
    return bool(getattr(of.__init__, "__code__").co_filename == "<string>")  # type: ignore[misc]


def describe(into: Any) -> tuple[list[Any], list[Any], bool]:
    """Shapes and records of what `load` is to make, the first shape for the whole, and whether that is a `Valid`."""
    is_wrapped = typing.get_origin(into) is Valid
    plan = Plan()
    plan.add(typing.get_args(into)[0] if is_wrapped else into, "`into`")
    return plan.shapes, plan.records, is_wrapped
