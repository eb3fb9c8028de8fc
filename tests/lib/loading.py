"""What `load` of callers/python makes of nodes, over the library of tests/tables/nodes.c: `python3 -m lib.loading` in tests/, where
`order_check` is that package. So values are met that no order has, and no prover is needed.
"""
import copy
import dataclasses
import enum
import gc
import json
import os
import pickle
import sys
import threading
import typing
import unittest

import order_check
from lib.nodes import Number, body_of
from order_check import Valid, load

try:
    from _testcapi import remove_mem_hooks, set_nomemory
except ImportError:
    set_nomemory = None

TEXTS = ["", "a", "\0", "a\0b", "é", "\U0001f600", "\uffff", 'q"\\', "x" * 300]
NUMBERS = [0, 1, 255, 256, 2**63 - 1, 2**63, 2**64 - 1, 2**64, -1, -(2**63), -(2**63) - 1, 10**400, -(10**400), 0.5, -0.5, 1e300, 5e-324,
           Number("1.0"), Number("-0.0"), Number("1e5"), Number("1E400"), Number("1e-400"), Number("9" * 400 + "e1"), Number("7" * 400)]


@dataclasses.dataclass
class Line:
    code: str
    count: int = 7
    tags: "list[str]" = dataclasses.field(default_factory=list)


@dataclasses.dataclass(frozen=True)
class Slotted:
    __slots__ = ("code", "line")
    code: str
    line: "typing.Optional[Line]"


@dataclasses.dataclass
class Checked:
    code: str

    def __post_init__(self):
        if self.code == "refused":
            raise ArithmeticError(self.code)


@dataclasses.dataclass
class Deep:
    below: "typing.Optional[Deep]" = None
    all: "list[Deep]" = dataclasses.field(default_factory=list)


class Plain:
    code: str
    count: int = 3


class Called:
    code: str
    count: int

    def __init__(self, code, count=5):
        self.both = (code, count)


class Named(typing.TypedDict, total=False):
    code: str
    size: float


class Colour(enum.Enum):
    red: int = 1


def read(text):
    """The value of a text as JSON, as its nodes have it."""
    return json.loads(text if isinstance(text, Number) else json.dumps(text))


class Values(unittest.TestCase):
    """Values as `json.loads` makes them."""

    def same(self, value, wanted):
        self.assertEqual((repr(load(body_of(value)))), repr(wanted))

    def test_texts(self):
        for text in TEXTS:
            self.same(text, text)
            self.same({text: [text, {text: text}]}, {text: [text, {text: text}]})

    def test_numbers(self):
        for number in NUMBERS:
            self.same(number, read(number))
            self.same([{"a": number}], [{"a": read(number)}])

    def test_more_digits_than_python_reads(self):
        for number in (Number("1" * 5000), Number("-" + "1" * 5000)):
            if hasattr(sys, "get_int_max_str_digits"):
                self.assertRaises(ValueError, load, body_of(number))

    def test_others(self):
        for value in (None, True, False, [], {}, [[], {}], {"": {}}, [None, [True, [False]]]):
            self.same(value, value)

    def test_deep(self):
        value = 1
        for n in range(128):
            value = [value] if n % 2 else {"a": value}
        self.same(value, value)

    def test_a_million_nodes(self):
        value = [{"a": n} for n in range(10_000 if "LD_PRELOAD" in os.environ else 333_333)]
        self.assertEqual(load(body_of(value)), value)

    def test_names_that_share_a_place(self):
        value = {str(n): {str(n): n} for n in range(20_000)}
        self.assertEqual(load(body_of(value)), value)

    def test_a_body_that_is_changed_or_freed(self):
        body = bytearray(body_of({"a": "text", "b": ["other"]}))
        found = load(body)
        body[:] = b"#" * len(body)
        del body
        self.assertEqual(found, {"a": "text", "b": ["other"]})

    def test_threads_that_change_a_body(self):
        body, stop = bytearray(body_of({"a": ["text"] * 1000})), threading.Event()

        def change():
            while not stop.is_set():
                body[-1] = 0x74 if body[-1] == 0x75 else 0x75

        thread = threading.Thread(target=change)
        thread.start()
        for _ in range(100):
            self.assertEqual(load(body)["a"][:-2], ["text"] * 998)
        stop.set()
        thread.join()


class Again:
    code: str

    def __init__(self, code):
        self.both = code, load(body_of([0]))


# Of values and annotations, what `load` makes of them, and what it says of those that do not fit.
MADE = [
    ({"code": "a", "count": 1, "tags": ["b"]}, Line, Line("a", 1, ["b"])),
    ({"tags": [], "code": "a"}, Line, Line("a")),
    ({"line": {"code": "b"}, "code": "a"}, Slotted, Slotted("a", Line("b"))),
    ({"line": None, "code": "a"}, Slotted, Slotted("a", None)),
    ({"below": {"all": [{}, {"below": None}]}}, Deep, Deep(Deep(None, [Deep(), Deep()]))),
    ({"size": 1, "code": "a"}, Named, {"size": 1.0, "code": "a"}),
    ({}, Named, {}),
    *(([1, 2], into, [1, 2]) for into in (typing.Any, object, list[int], typing.List[int], typing.Sequence[int])),
    ({"a": {"code": "b"}}, typing.Dict[str, Line], {"a": Line("b")}),
    ("a", typing.Literal["a", 1], "a"),
    (1, typing.Union[str, int, None], 1),
    (None, type(None), None),
    ([None, 2.5, 2], typing.List[typing.Union[float, None]], [None, 2.5, 2.0]),
    (2**70, int, 2**70),
    ({"code": "a"}, Checked, Checked("a")),
]
MANY = dataclasses.make_dataclass("Many", [(f"a{n}", int) for n in range(65)])
NO_ANNOTATIONS = (
    Colour, typing.Set[int], typing.Dict[int, str], bytes, 5, "Line", typing.Union[typing.List[int], typing.List[str]],
)
REFUSED = [
    ({"code": 1}, Line, "^the field 'code' of <class '.*Line'> is str, and the body has an int$"),
    ({"code": "a", "count": 1.5}, Line, "'count' of .* is int, and the body has a float"),
    ({"code": "a", "count": True}, Line, "'count' of .* is int, and the body has a bool"),
    ({"code": "a", "tags": [None]}, Line, "'tags' of .* is str, and the body has null"),
    ({"code": "a", "other": 1}, Line, "Line'> has no field 'other'$"),
    ({"count": 1}, Line, "Line'> wants a field 'code', and the body has no such member$"),
    ([], Line, "^Line is wanted, and the body has a list$"),
    ({"other": 1}, Named, "has no field 'other'"),
    ("a", typing.Literal[1], "is wanted, and the body has a text"),
    *(([], into, "`into` is ") for into in NO_ANNOTATIONS),
    ({}, MANY, "has 65 fields, and `load` takes 64 at most"),
]


class Classes(unittest.TestCase):
    """Objects by annotations."""

    def test_made(self):
        for value, into, wanted in MADE:
            found = load(body_of(value), into=into)
            self.assertEqual((repr(found), type(found)), (repr(wanted), type(wanted)))
            self.assertEqual((found, order_check.Checker().load(body_of(value), into)), (wanted, wanted))

    def test_refused(self):
        for value, into, says in REFUSED * 3:
            with self.assertRaisesRegex(TypeError, says):
                load(body_of(value), into=into)

    def test_defaults_are_made_anew(self):
        one, other = (load(body_of({"code": "a"}), into=Line) for _ in range(2))
        self.assertIsNot(one.tags, other.tags)

    def test_classes_with_annotations(self):
        found = load(body_of({"code": "a"}), into=Plain)
        self.assertEqual((type(found), found.code, found.count), (Plain, "a", 3))
        self.assertEqual(load(body_of({"code": "a"}), into=Called).both, ("a", 5))
        self.assertEqual(load(body_of({"code": "a", "count": 2}), into=Called).both, ("a", 2))
        self.assertRaises(TypeError, load, body_of({"count": 2}), Called)

    def test_valid(self):
        found = load(body_of({"code": "a"}), into=Valid[Line])
        self.assertEqual((found.value, repr(found)), (Line("a"), "Valid(Line(code='a', count=7, tags=[]))"))
        self.assertEqual(found, load(body_of({"code": "a"}), into=Valid[Line]))
        self.assertRaises(TypeError, Valid)
        self.assertRaises(TypeError, Valid, Line("a"))
        self.assertRaises(AttributeError, setattr, found, "value", 1)
        self.assertRaises(AttributeError, delattr, found, "value")
        for way in (copy.copy, copy.deepcopy, pickle.dumps):
            self.assertRaises((AttributeError, TypeError), way, found)

    def test_classes_that_raise_or_call_again(self):
        with self.assertRaises(ArithmeticError):
            load(body_of([{"code": "a"}] * 100 + [{"code": "refused"}]), into=typing.List[Checked])
        found = load(body_of([{"code": "a"}, {"code": "b"}]), into=typing.List[Again])
        self.assertEqual([it.both for it in found], [("a", [0]), ("b", [0])])


class Nothing(unittest.TestCase):
    """Nothing is left of calls."""

    def test_calls_that_fail(self):
        bodies = [(body_of([{"code": "a" * 40 + str(n)} for n in range(50)] + [last]), into) for last in ({"code": 1}, {"x": 1}, {}, 5,
                  {"code": "refused"}) for into in (typing.List[Line], typing.List[Checked], typing.List[Slotted])]

        def run(count):
            for _ in range(count):
                for body, into in bodies:
                    try:
                        load(body, into=into)
                    except (TypeError, ArithmeticError):
                        pass
            gc.collect()
            return sys.getallocatedblocks()

        run(3)
        self.assertLess(run(20) - run(1), 20)

    def test_many_calls(self):
        body = body_of({"a": [1.5, 10**30, "x" * 50, {"b": None}], "c" * 30: 1000})
        line = body_of({"code": "x" * 50, "count": 1000, "tags": ["y" * 50]})

        def run(count):
            for _ in range(count):
                load(body), load(line, into=Line), load(line, into=Valid[Line])
            gc.collect()
            return sys.getallocatedblocks()

        run(10)
        self.assertLess(run(20_000) - run(1), 20)


@unittest.skipUnless(set_nomemory, "_testcapi is not there")
class Allocations(unittest.TestCase):
    """Each request of Python for memory is refused in turn: the call raises `MemoryError` or succeeds, and nothing is left."""

    def answer(self, call, number):
        """What a call answers where the request of this number is refused."""
        try:
            set_nomemory(number, number + 1)
            return call()
        except MemoryError:
            return MemoryError
        finally:
            remove_mem_hooks()

    def refuse_each(self, call):
        right, refused = call(), 0
        # What the first rounds keep, as names and lists of free objects, the last one finds.
        for _ in range(12):
            before = sys.getallocatedblocks()
            for number in range(150):
                found = self.answer(call, number)
                refused += found is MemoryError
                self.assertTrue(found is MemoryError or found == right)
            gc.collect()
        self.assertGreater(refused, 10)
        self.assertNotEqual(found, MemoryError)
        self.assertLess(sys.getallocatedblocks() - before, 5)

    def test_values(self):
        body = body_of({"a": [1.5, 10**30, "x" * 50, {"b": None}], "c" * 30: 1000})
        self.refuse_each(lambda: load(body))

    def test_classes(self):
        body = body_of([{"code": "a", "tags": ["x" * 50], "count": 1000}, {"code": "b"}])
        for into in (typing.List[Line], Valid[typing.List[Line]], typing.List[typing.Dict[str, object]]):
            self.refuse_each(lambda: load(body, into=into))


if __name__ == "__main__":
    unittest.main()
