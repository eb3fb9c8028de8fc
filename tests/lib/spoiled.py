"""Wrong inputs, made of right ones: by changes of a value, of its text and of its bytes.

A value is one of `json_values`, in which a `Raw` stands for what is written as it is. `dice` is a `random.Random`.
"""
import codecs
import json

from lib import tables
from lib.form import NUMBERS, TEXTS
from lib.json_values import Number, Pairs, parts_of

LISTED = tables.lists("random")
NO_NUMBERS, NO_WORDS, NAMES = ([it.decode() for it in LISTED[title]] for title in ("no numbers", "no words", "names"))
PIECES = LISTED["pieces"]
# Writers of JSON, with the characters beyond ASCII as escapes or as they are.
IN_ASCII, IN_UNICODE = json.JSONEncoder(), json.JSONEncoder(ensure_ascii=False)
SPACES = ("", "", "", " ", "\t", "\r ", "\n")
MANY = (0, 2, 3, 4, 20, 21, 50, 51, 100, 101)
DEEP = (1, 2, 9, 100, 124, 125, 126, 127, 128, 129, 130, 200, 300)


class Raw(str):
    """What is written as it stands."""


def nest(dice):
    """A nest of lists and objects, about as deep as is allowed, or far from it."""
    inner = "1"
    for _ in range(dice.choice(DEEP)):
        inner = f"[{inner}]" if dice.random() < 0.5 else f'{{"a":{inner}}}'
    return Raw(inner)


def some_value(dice):
    """A value of any type."""
    makers = (
        lambda: dice.choice(TEXTS), lambda: dice.choice(TEXTS), lambda: Number(dice.choice(NUMBERS)), lambda: Number(dice.choice(NUMBERS)),
        lambda: "".join(dice.choice("ab1é字😀 \n\x1f\"\\/") for _ in range(dice.randrange(12))),
        lambda: dice.choice((None, True, False)),
        lambda: dice.choice(([], [None], [[]], [Number("1"), "P"], Pairs(), Pairs([("0", "P")]))),
        lambda: nest(dice) if dice.random() < 0.2 else None,
        lambda: Raw(dice.choice(NO_NUMBERS + NO_WORDS)) if dice.random() < 0.2 else None,
    )
    return dice.choice(makers)()


def containers(value):
    """The objects and lists in a value, by their depth."""
    found, level = [], [value]
    while level := [it for it in level if isinstance(it, list)]:
        found.append(level)
        level = [part for it in level for part in parts_of(it)]
    return found


def put(at, where, value):
    at[where] = (at[where][0], value) if isinstance(at, Pairs) else value


def missing(dice, at, where, some):
    del at[where]


def repeated(dice, at, where, some):
    again = copied(at)[where]
    if isinstance(at, Pairs) and dice.random() < 0.5:
        again = (again[0], some(dice))
    at.insert(dice.randint(0, len(at)), again)


def null(dice, at, where, some):
    put(at, where, None)


def wrong_type(dice, at, where, some):
    put(at, where, some(dice))


def unknown(dice, at, where, some):
    at.insert(dice.choice((0, where, len(at))), (dice.choice(NAMES), some(dice)) if isinstance(at, Pairs) else some(dice))


def renamed(dice, at, where, some):
    put(at, where, copied(dice.choice(parts_of(at))))
    if isinstance(at, Pairs):
        at[where] = (dice.choice(NAMES), at[where][1])


def many(dice, at, where, some):
    lists = [it for it in parts_of(at) if isinstance(it, list) and it and not isinstance(it, Pairs)]
    it = dice.choice(lists or [at])
    if not isinstance(it, Pairs):
        it[:] = [copied(it[index % len(it)]) for index in range(dice.choice(MANY if len(it) < 4 else MANY[:4]))]


WAYS = (missing, repeated, null, wrong_type, wrong_type, unknown, renamed, many)


def changed(dice, value, some=some_value, ways=WAYS):
    """Changes one container of a value, of each depth as often as of another. Gives how, or nothing where there is none."""
    there = [full for full in ([it for it in level if it] for level in containers(value)) if full]
    if not there:
        return None
    at, way = dice.choice(dice.choice(there)), dice.choice(ways)
    way(dice, at, dice.randrange(len(at)), some)
    return way.__name__


def copied(value):
    """The value with containers of its own, so that a change of one part is no change of another."""
    if isinstance(value, Pairs):
        return Pairs((name, copied(part)) for name, part in value)
    return [copied(part) for part in value] if isinstance(value, list) else value


def some_of(dice, form, some=some_value, ways=WAYS):
    """A value of a form, most of them spoiled, and how it was."""
    value = copied(form.some(dice, dice.choice((0, 0, 0, 0.02, 0.3))))
    found = {changed(dice, value, lambda dice: copied(some(dice)), ways) for _ in range(dice.choice((0, 0, 0, 1, 1, 2, 3, 6)))}
    return value, found - {None}


def quoted(dice, text):
    """A text in JSON, in which some letters are escapes."""
    written = (IN_ASCII if dice.random() < 0.2 else IN_UNICODE).encode(text)
    if "\\" in written or dice.random() < 0.95:
        return written
    return '"' + "".join(f"\\u{ord(c):04X}" if c.isascii() else c for c in text) + '"'


def json_text(dice, value, space="", escapes=True):
    """The JSON text of a value, with spaces in places."""
    if isinstance(value, Pairs):
        parts = [f"{json_text(dice, name, '', escapes)}{space}:{space}{json_text(dice, part, space, escapes)}" for name, part in value]
        return "{" + space + f"{space},{space}".join(parts) + space + "}"
    if isinstance(value, list):
        return "[" + space + f",{space}".join(json_text(dice, part, space, escapes) for part in value) + "]"
    if isinstance(value, (Number, Raw)):
        return str.__str__(value)
    return quoted(dice, value) if escapes and isinstance(value, str) else IN_UNICODE.encode(value)


def cut(dice, body, pieces=PIECES):
    """The bytes with one change. Among the pieces of JSON is any byte."""
    at = dice.randint(0, len(body))
    piece = bytes([dice.randrange(256)]) if pieces is PIECES and dice.random() < 0.3 else dice.choice(pieces)
    cuts = (body[:at], body[:at] + body[at + 1:], body + body)
    puts = (piece + body, body + piece, body[:at] + piece + body[at:], body[:at] + piece + body[at + 1:])
    return dice.choice((*cuts, *puts))


def some_bytes(dice, body, pieces=PIECES):
    """The bytes as they are, or in one of ten changed; and whether they are."""
    is_cut = dice.random() < 0.1
    for _ in range(dice.choice((1, 1, 2)) if is_cut else 0):
        body = cut(dice, body, pieces)
    return body, {"cut"} if is_cut else set()


def some_json(dice, form):
    """The body of a value of a form, as bytes, and how it was spoiled."""
    value, ways = some_of(dice, form)
    if dice.random() < 0.02:
        value, ways = some_value(dice), {"any value"}
    body = json_text(dice, value, dice.choice(SPACES)).encode("utf-8", "surrogatepass")
    body, cuts = some_bytes(dice, body)
    is_marked = dice.random() < 0.04
    return (codecs.BOM_UTF8 if is_marked else b"") + body, ways | cuts | ({"byte order mark"} if is_marked else set())
