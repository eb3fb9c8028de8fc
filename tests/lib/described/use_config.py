"""The program use_config, by crates/use_config/README.md: settings in TOML, which Python's `tomllib` reads, or in JSON, and files of
texts, which are read likewise.

The places of faults are found in TOML by `lib.toml_positions`, and in JSON by `lib.positions`.
Of a text that is no TOML the line and the column are not compared: two readers may stop at different places. `tomllib` reads TOML 1.0
and the program TOML 1.1, so no line feed is put into a text, which may fall into an inline table, and a time without seconds is left
out. An integer beyond 64 bits is no TOML, which `tomllib` does not ask.
"""
import codecs
import datetime
import ipaddress
import json
import random
import re
import tomllib
import typing
import unicodedata

from lib import command_line, languages, positions, text_files, toml_positions
from lib.described import Case, pattern
from lib.faults import REQUIRED, Rule, between, items, length, matches, suffix
from lib.form import Checked, Closed, MapUnder, Member, Nullish, Object, OneOf, Text, Under, Whole, read
from lib.json_values import DEEPEST, NoJson, Number, Pairs, depth, is_text, of_bytes
from lib.reports import lines, placed, stop_anywhere, stops_at
from lib.spoiled import LISTED, Raw, json_text, many, missing, renamed, repeated, some_bytes, some_json, some_of, unknown, wrong_type
from lib.urls import Unsaid


def is_address(host):
    """Whether a host is an IPv4 or an IPv6 address, with no zone."""
    try:
        return "%" not in host and bool(ipaddress.ip_address(host))
    except ValueError:
        return False


NAME = matches("^[a-z0-9-]+([.][a-z0-9-]+)*$")
HOSTS = ("A", "a_b", "a.", "256.1.1.1", "fe80::1%1", "::ffff:1.2.3.4", "1::2::3", "a\n")
HOST = Rule(lambda host: None if is_address(host) else NAME.find(host), HOSTS)
PEM = Text(suffix(".pem"), like=("a.pem", "key.pem"))
FILE_FOR_DEBUG = Under("file", lambda it: REQUIRED.find(it["file"]) if it["level"] == "debug" else None)
IN_ORDER = Under("max", lambda it: between(it["min"]).find(it["max"]))
SERVER = Object(Closed(
    Member("host", Text(HOST, like=("a.example", "10.0.0.7", "::1", "a-1"))),
    Member("port", Whole("u16", between(1))),
    Member("workers", Whole("u16", between(1, 64))),
    Member("connections", Whole("u16")),
    Nullish("tls", Object(Closed(Member("certificate", PEM), Member("key", PEM)))),
))
LOGGING = Object(Closed(Checked((Member("level", OneOf("error", "info", "debug")), Nullish("file", Text(length(1, 255)))), FILE_FOR_DEBUG)))
LIMIT = Object(Closed(Checked((Member("min", Whole("u32")), Member("max", Whole("u32"))), IN_ORDER)))
CONFIG = Object(Closed(Member("server", SERVER), Member("logging", LOGGING), Member("limits", MapUnder([items(1, 100)], LIMIT))))


# ---- random settings in TOML

NUMBERS, BARE, BAD = ([it.decode() for it in LISTED[f"{title} of TOML"]] for title in ("numbers", "bare values", "no values"))
OTHERS = ["", "a", "A", "a.b", "::1", "256.1.1.1", "a.pem", "debug", "Info", "é" * 127, "é" * 128, "\n", "\x1b[2K", '"', "\\", "𝄞"]
OTHERS += [True, False, [], [Number(1)], ["a", Pairs()], Pairs(), Pairs([("min", Number(2)), ("max", Number(1))])]
WAYS = (missing, repeated, wrong_type, wrong_type, unknown, renamed, many)
PIECES = LISTED["pieces of TOML"]

MORE = ("[[more]]", "min = 1", "[more.b]", "[[ more ]]", "a.b = { c = 1 }")


def some_value(dice):
    raw = dice.choice((NUMBERS, BARE, BARE, BAD if dice.random() < 0.3 else NUMBERS))
    return Raw(dice.choice(raw)) if dice.random() < 0.6 else dice.choice(OTHERS)


def text_of(dice, text):
    """A text in one of the forms that TOML has for it."""
    if dice.random() < 0.3 and not re.search("['\\x00-\\x1f\\x7f]", text):
        return f"'{text}'"
    return f'"{escaped(text)}"'


def escaped(text):
    """A text between quotes: as in JSON, but for DEL."""
    return json.dumps(text, ensure_ascii=False)[1:-1].replace("\x7f", "\\u007F")


def key_of(dice, key):
    return key if re.fullmatch("[A-Za-z0-9_-]+", key) and dice.random() < 0.8 else text_of(dice, key)


def inline(dice, value):
    if isinstance(value, Pairs):
        return "{ " + ", ".join(f"{key_of(dice, key)} = {inline(dice, part)}" for key, part in value) + " }"
    if isinstance(value, list):
        return "[" + ", ".join(inline(dice, part) for part in value) + "]"
    return text_of(dice, value) if isinstance(value, str) and not isinstance(value, (Number, Raw)) else json_text(dice, value)


def spread(dice, value):
    """A value behind a key, where a list or a text may have several lines."""
    if isinstance(value, list) and not isinstance(value, Pairs):
        between = dice.choice(("\n", " # a comment]\n\t", "\n\n  ", " "))
        return "[" + between + f",{between}".join(inline(dice, part) for part in value) + between + "]"
    if is_text(value) and not isinstance(value, Raw) and dice.random() < 0.5:
        return '"""\n' + escaped(value).replace("a", "a\\\n  ") + '"""'
    return inline(dice, value)


def toml_lines(dice, path, value, written=inline):
    """The lines of a table: its keys, and then the tables inside it, each under a header, inline or by dotted keys."""
    below = []
    for key, part in dice.sample(list(value), len(value)):
        name = key_of(dice, key)
        if isinstance(part, Pairs) and dice.random() < 0.7:
            if part and path and dice.random() < 0.2:
                yield from (f"{name}.{key_of(dice, inner)} = {inline(dice, it)}" for inner, it in part)
            else:
                below.append(([*path, name], part))
        else:
            yield f"{name} = {written(dice, part)}"
            if dice.random() < 0.1:
                yield dice.choice(("", "# a comment", "  "))
    for inner, part in below:
        yield f"[{'.'.join(inner)}]"
        yield from toml_lines(dice, inner, part, written)


def some(dice):
    """Settings, and at times a file of texts."""
    case = some_settings(dice)
    if dice.random() < 0.85:
        return case
    name, body = some_texts(dice)
    return case._replace(words=dice.choice((("--catalog", name, *case.words), (*case.words, "--catalog", name))), files=((name, body),))


def some_texts(dice):
    table = text_files.some(dice)
    if dice.random() < 0.5:
        return "texts.json", json_text(dice, table).encode("utf-8")
    return "texts.toml", ("\n".join(toml_lines(dice, [], table)) + "\n").encode("utf-8")


def some_settings(dice):
    form = command_line.some_format(dice)
    if dice.random() < 0.3:
        return Case(command_line.some_language(dice) + dice.choice((("json", *form), (*form, "json"))), *some_json(dice, CONFIG))
    value, ways = some_of(dice, CONFIG, some_value, WAYS)
    end = dice.choice(("\n", "\n", "\r\n"))
    body, cuts = some_bytes(dice, (end.join(toml_lines(dice, [], without_nulls(value))) + end).encode("utf-8"), PIECES)
    mark = codecs.BOM_UTF8 if dice.random() < 0.1 else b""
    return Case((*form, *dice.choice(((), ("toml",))), *command_line.some_language(dice)), mark + body, ways | cuts)


def large():
    """A hundred limits under names of 800 characters, each in order or none, in JSON and in TOML; and settings in TOML whose lists and
    texts have several lines, behind them an array of tables."""
    server = {"host": "a", "port": 1, "workers": 1, "connections": 1}
    for least in 1, 3:
        limits = {f"{number:0800}": {"min": least, "max": 2} for number in range(100)}
        yield Case(("json",), json.dumps({"server": server, "logging": {"level": "info"}, "limits": limits}).encode())
        tables = {"server": server, "logging": {"level": "info"}, **{f"limits.{name}": it for name, it in limits.items()}}
        rows = (f"[{name}]\n" + "".join(f"{key} = {json.dumps(part)}\n" for key, part in it.items()) for name, it in tables.items())
        yield Case((), "".join(rows).encode())
    dice = random.Random(1)
    for form in command_line.FORMATS * 100:
        value, ways = some_of(dice, CONFIG, some_value, WAYS)
        lines_of = [*toml_lines(dice, [], without_nulls(value), spread), *dice.choice(((), MORE))]
        yield Case(("--format", form), "".join(f"{it}\n" for it in lines_of).encode(), ways)


def without_nulls(value):
    """The value without members that are null, which TOML does not have."""
    return Pairs((name, without_nulls(part)) for name, part in value if part is not None) if isinstance(value, Pairs) else value


# ---- what is answered

TOO_DEEP = "tables and arrays nest deeper than 128"


def of_toml(value):
    """What a TOML value is in JSON: keys ascend by their bytes, and what JSON does not have is a bare value."""
    if isinstance(value, dict):
        return Pairs((key, of_toml(value[key])) for key in sorted(value, key=lambda key: key.encode("utf-8")))
    if isinstance(value, list):
        return [of_toml(item) for item in value]
    if isinstance(value, (bool, str)):
        return value
    if isinstance(value, int) and not -(2**63) <= value < 2**63:
        raise ValueError(f"{value} is no integer of TOML")
    if isinstance(value, (datetime.date, datetime.time)) or value - value != 0:
        return [Number("-0"), str(value)]
    return Number(repr(value))


class Source(typing.NamedTuple):
    """What is read: its name, its bytes, and whether they are JSON and not TOML."""
    name: str
    given: bytes
    is_json: bool


def value_of(source):
    """The value that is read, or what standard error says, as a pattern."""
    if source.is_json:
        return of_bytes(source.given)
    try:
        text = source.given.decode("utf-8").removeprefix("\ufeff")
    except UnicodeDecodeError:
        raise NoJson("the configuration is not read: .*") from None
    if re.search(r"(?<![-+\d:])\d\d:\d\d(?!:)", text):
        raise Unsaid("a time without seconds")
    try:
        value = of_toml(tomllib.loads(text))
    except (ValueError, RecursionError) as error:
        too_deep = f"|{TOO_DEEP}" if isinstance(error, RecursionError) else ""
        raise NoJson(rf"(TOML parse error at line \d+, column \d+, [^\n]*{too_deep})") from None
    if depth(value) > DEEPEST:
        raise NoJson(TOO_DEEP)
    return value


def with_marks_escaped(text):
    """The pattern with the marks escaped that stand on the letter before, as those of Hindi: `char::escape_debug` shows them so."""
    return "".join(re.escape(f"\\u{{{ord(c):x}}}") if unicodedata.category(c) == "Mn" else c for c in text)


def stopped(form, source, why, said):
    """What is said of a text that is no TOML or no JSON."""
    if form == "plain" and source.is_json:
        return 2, b"", pattern(f"use_config: {with_marks_escaped(languages.no_json(why, said))}\n")
    if form == "plain" or why == TOO_DEEP:
        return 2, b"", pattern(f"use_config: {why}\n")
    if source.is_json:
        return 2, stops_at(form, source.name, source.given, "not_json"), b""
    if TOO_DEEP in why:
        raise Unsaid("either no TOML or too deep")
    try:
        source.given.decode("utf-8")
    except UnicodeDecodeError:
        return 2, stops_at(form, source.name, source.given, "not_toml"), b""
    return 2, stop_anywhere(form, source.name, "not_toml"), b""


def judged(form, source, of, said, status):
    """What is read by a form, or None; and the answer where there is a fault, which is printed as `form` says and ends with this status."""
    try:
        value, faults = read(of, value_of(source))
    except NoJson as why:
        return None, stopped(form, source, str(why), said)
    if not faults:
        return value, None
    language = languages.language(said, languages.TEXTS["en"])
    if form == "plain":
        return None, (status, lines(faults, language).encode("utf-8"), b"")
    spots_of = positions.spots_of if source.is_json else toml_positions.spots_of
    spots = spots_of(source.given.decode("utf-8").removeprefix("\ufeff"))
    return None, (status, placed(form, source.name, spots, faults, language).encode("utf-8"), b"")


def texts_of(case, form, said):
    """The texts by which faults are printed, or None; and the answer where the file behind `--catalog` has a fault. Beside `--language` it
    may lack keys."""
    if not case.files:
        return said, None
    (name, body), = case.files
    source = Source(name, body, name.endswith(".json"))
    table, answer = judged("short" if form == "plain" else form, source, text_files.FORMS["--language" in case.words], said, 2)
    return (None, answer) if answer else (text_files.said_by(table, said), None)


def wanted(case):
    words, form, tag = command_line.asked(case.words)
    if tag is None:
        return command_line.no_language("use_config")
    said, answer = texts_of(case, form, languages.said_in(tag))
    if answer:
        return answer
    config, answer = judged(form, Source("<stdin>", case.given, "json" in words), CONFIG, said, 1)
    if answer:
        return answer
    it = config["server"]
    share = it["connections"] // it["workers"]
    return 0, f"{it['host']}, port {it['port']}: {it['workers']} workers, {share} connections each\n".encode("utf-8"), b""
