"""The form of bench/bodies/, with all words of a form, after the READMEs of the crates. The program of that folder, which `bench/unproved
bodies` builds, says of a body its value, the whole report, or that it is no JSON. Of what is no JSON the place is not compared, but that
of bytes that are not UTF-8 is.
"""
import json
import re

from lib.described import Case, run
from lib.faults import ALPHANUMERIC, ASCII, ENGLISH, REQUIRED, between, chars, items, length
from lib.form import (
    All, Any, Checked, Closed, Flag, ListUnder, MapUnder, Member, Null, Nullable, Nullish, Object, OneOf, Optional, Tagged, Text, Under,
    Whole, WithDefault, read,
)
from lib.json_values import NoJson, of_bytes
from lib.spoiled import some_json

# The account of bench/bodies/account.rt.txt.
ADDRESS = Object(Closed(
    Member("street", Text(length(2, 8))),
    Member("zip", Nullable(Whole("u32", between(1000, 9999)))),
    Optional("end", Null),
    Optional("any", Any),
))
PAYMENT = Tagged("kind", card=All(Member("number", Text(length(4, 4))), Optional("debit", Flag)), cash=All(Member("coins", Whole("u64"))))
ACCOUNT = Object(Closed(
    Member("name", Text(ASCII, length(2, 5))),
    Member("age", Whole("u8", between(18, 120))),
    Optional("phone", Text(length(3))),
    Nullish("motto", Text(chars(0, 4))),
    Member("news", Flag),
    WithDefault("count", Whole("u32", between(1)), 0),
    Checked(Nullish("low", Whole("i64")), Under("low", lambda it: REQUIRED.find(it["low"]))),
    Member("plan", OneOf("free", "paid", "")),
    Member("address", ADDRESS),
    Member("payment", PAYMENT),
    Optional("tags", ListUnder([items(0, 3)], Text(ALPHANUMERIC))),
    Optional("limits", MapUnder([], Whole("i8", between(None, 100)))),
))


def debug(value):
    """An option as `{:?}` prints it."""
    return "None" if value is None else f"Some({str(value).lower()})"


def flag(value):
    return str(bool(value)).lower()


def value_of(it):
    """A valid account in a line."""
    at, paid = it["address"], it["payment"]
    payment = f"card {paid['number']} {debug(paid['debit'])}" if paid["kind"] == "card" else f"cash {paid['coins']}"
    plan = ("free", "paid", "").index(it["plan"])
    lists = "" if it["tags"] is None else "[" + "".join(f"{tag}," for tag in it["tags"]) + "]"
    lists += "" if it["limits"] is None else "{" + "".join(f"{name}:{limit}," for name, limit in it["limits"]) + "}"
    phone, motto = ("none" if it[name] is None else it[name] for name in ("phone", "motto"))
    texts = [it["name"], it["age"], phone, motto, flag(it["news"]), it["count"], debug(it["low"]), plan]
    address = f"{at['street']} {debug(at['zip'])} {flag(at['end'])} {flag(at['any'])}"
    return "value " + "|".join(map(str, [*texts, address, payment])) + lists


def step(it):
    """A component of a path, as a report in JSON has it."""
    return ["index", str(it)] if isinstance(it, int) else ["key", it]


def some(dice):
    return Case((), *some_json(dice, ACCOUNT))


def wanted(case):
    """What is said of a body: its value, the tree of its report in JSON, or a pattern of why it is no JSON."""
    try:
        account, faults = read(ACCOUNT, of_bytes(case.given))
    except NoJson as why:
        return "no JSON", re.compile(str(why).encode())
    if not faults:
        return "valid", value_of(account)
    return "faulty", {"errors": [[[step(it) for it in path], {"message": found.text(ENGLISH)}] for path, found in faults]}


def met(program, case):
    """What the program says of a body: a line of hex digits."""
    said = bytes.fromhex(run(program, case._replace(given=case.given.hex().encode() + b"\n"))[1].decode()).decode()
    if said.startswith("report "):
        return "faulty", json.loads(said.removeprefix("report "))
    return ("valid", said) if said.startswith("value ") else ("no JSON", said.encode())
