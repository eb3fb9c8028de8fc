"""The program use_order, by crates/use_order/README.md: a page of orders in JSON."""
import json
import random

from lib import command_line
from lib.described import Case, pattern
from lib.faults import REQUIRED, between, chars, items, prefix
from lib.form import Checked, Closed, ListUnder, Member, Nullish, Object, OneOf, Text, Under, Whole, read
from lib.json_values import NoJson, of_bytes
from lib.positions import spots_of
from lib.reports import lines, placed, quoted, stops_at
from lib.spoiled import LISTED, some_json

ADDRESS_BY_POST = Under("address", lambda it: REQUIRED.find(it["address"]) if it["delivery"] == "post" else None)
FEW_AT_THE_COUNTER = Under("lines", lambda it: items(0, 3).find(len(it["lines"])) if it["delivery"] == "counter" else None)
LINE = Object(Closed(
    Member("code", Text(prefix("P"), like=("P77", 'P"\\/\b\t\0', "P\u202e"))),
    Member("count", Whole("u32", between(1, 99))),
    Member("cents", Whole("u32", between(1, 9999))),
))
DESTINATION = Checked((
    Member("delivery", OneOf("counter", "post")),
    Nullish("address", Text(chars(5, 200), like=("12 Main Street", "Žižkov"))),
), ADDRESS_BY_POST)
ORDER = Object(Closed(
    Member("customer", Text(chars(1, 80))),
    Checked((DESTINATION, Member("lines", ListUnder([items(1, 50)], LINE))), FEW_AT_THE_COUNTER),
))
PAGE = Object(Closed(
    Member("number", Whole("u32", between(1))),
    Member("entries", ListUnder([items(0, 20)], ORDER)),
))
# Pieces of texts that are mostly no JSON.
PIECES = [it.decode() for it in LISTED["pieces of texts in JSON"]]
VALUES = ("0", "[]", "[1, {}]", '"\u00e9"', '{"k1": 1, "k1": 2}', "null")


def some(dice):
    most, form = dice.choice(((), (), (), ("1",), ("2",), ("7",), ("18446744073709551615",))), command_line.some_format(dice)
    return Case(dice.choice((most + form, form + most)), *some_json(dice, PAGE))


def large():
    """Pages with as many lines as there may be, of more than 64 KiB: valid, and with three faults in each line; wide pages; and short
    texts that are mostly no JSON."""
    for line, words in (("P\u00e9", 1, 1), ()), (("Q", 0, 10_000), ()), (("Q", 0, 10_000), ("2500",)):
        lines = [dict(zip(("code", "count", "cents"), line))] * 50
        order = {"customer": "x" * 80, "delivery": "post", "address": "y" * 200, "lines": lines}
        yield Case(words, json.dumps({"number": 1, "entries": [order] * 20}, indent=8).encode())
    dice = random.Random(1)
    for form in command_line.FORMATS * 4:
        yield Case(("--format", form), wide(dice).encode())
    for form in command_line.FORMATS * 200:
        yield Case(("--format", form), "".join(dice.choice(PIECES) for _ in range(dice.randint(0, 9))).encode())


def wide(dice):
    """A page with hundreds of unknown members, some of one name, in one line or in many."""
    names = [f"k{dice.randrange(600)}" for _ in range(dice.randint(100, 500))]
    end = dice.choice((",", ", ", ",\r\n", "\t,\n"))
    members = ['"number":1', '"entries": []', *(f'"{name}":{dice.choice(VALUES)}' for name in names)]
    return "{" + end.join(dice.sample(members, len(members))) + "}"


def confirmed(order):
    place = f"by post to {quoted(order['address'])}" if order["delivery"] == "post" else "at the counter"
    yield f"{quoted(order['customer'])}: {quoted(order['lines'][0]['code'])} .., {place}\n"
    for it in order["lines"]:
        yield f"    {it['count']} x {quoted(it['code'])}: {it['count'] * it['cents']} cents\n"


def wanted(case):
    rest, form, _ = command_line.asked(case.words)
    try:
        page, faults = read(PAGE, of_bytes(case.given))
    except NoJson as why:
        if form == "plain":
            return 2, b"", pattern(f"use_order: {why}\n")
        return 2, stops_at(form, "<stdin>", case.given, "not_json"), b""
    if not faults:
        return 0, "".join(it for order in page["entries"] for it in confirmed(order)).encode("utf-8"), b""
    most = int(rest[0]) if rest else len(faults)
    more = "there are more\n" if len(faults) > most else ""
    if form == "plain":
        return 1, (lines(faults[:most]) + more).encode("utf-8"), b""
    told = placed(form, "<stdin>", spots_of(case.given.decode("utf-8-sig")), faults[:most])
    return 1, told.encode("utf-8"), (f"use_order: {more}" if more else "").encode()
