"""JSON texts (RFC 8259) and their values, as the programs read them. A value is None, True, False, a `str`, a `Number`, a `list`, or
`Pairs`, which keeps its members in their order, repeated ones too.
"""
import codecs
import json
import re

from lib import positions
from lib.positions import DEEPEST

SURROGATE = re.compile("[\ud800-\udfff]")


class Number(str):
    """A number, as the text wrote it."""


class Pairs(list):
    """The members of an object, each a name and a value, in the order of the text."""


class NoJson(Exception):
    """Why bytes are no JSON text, and where: a pattern of what a program says."""


def is_text(value):
    return isinstance(value, str) and not isinstance(value, Number)


def kind(value):
    """What a value is, as codes name it."""
    if value is None or isinstance(value, bool):
        return "Null" if value is None else "Boolean"
    kinds = ((Number, "Number"), (str, "Text"), (Pairs, "Object"), (list, "List"))
    return next(name for of, name in kinds if isinstance(value, of))


def parts_of(value):
    if isinstance(value, Pairs):
        return [part for _, part in value]
    return value if isinstance(value, list) else []


def depth(value):
    return 1 + max(map(depth, parts_of(value)), default=0) if isinstance(value, list) else 0


def texts(value):
    """All texts and names in a value, in any order."""
    left = [value]
    while left:
        it = left.pop()
        if isinstance(it, Pairs):
            yield from (name for name, _ in it)
        left += parts_of(it)
        if is_text(it):
            yield it


def refused(constant):
    raise ValueError(constant)


def stopped(why, place):
    """Bytes stop at this place, for a reason of this pattern."""
    return NoJson(f"{why} at line %d column %d" % place)


def of_bytes(body):
    """The value of a body, perhaps behind a byte order mark. Of several reasons why there is none Python's reader does not say which
    comes first, so that the pattern has each of them that may."""
    body = body.removeprefix(codecs.BOM_UTF8)
    try:
        text = body.decode("utf-8")
    except UnicodeDecodeError as error:
        raise stopped("not UTF-8", positions.end_of(body[: error.start].decode())) from None
    try:
        value = json.loads(text, object_pairs_hook=Pairs, parse_int=Number, parse_float=Number, parse_constant=refused)
        found = {"nested deeper than 128": depth(value) > DEEPEST, "a lone surrogate": any(map(SURROGATE.search, texts(value)))}
    except (ValueError, RecursionError):
        opened = text.count("[") + text.count("{") > DEEPEST
        found = {"not JSON": True, "nested deeper than 128": opened, "a lone surrogate": "\\u" in text}
    if any(found.values()):
        raise stopped("(" + "|".join(why for why in found if found[why]) + ")", positions.stop_of(text))
    return value


def printed(value):
    """A value of Python as the programs print JSON."""
    return json.dumps(value, ensure_ascii=False, separators=(",", ":")).encode("utf-8")
