"""The program use_import, by crates/use_import/README.md: a stock list in CSV, whose records `lib.rfc4180` reads."""
import csv
import io
import re

from lib import command_line, languages, rfc4180
from lib.described import Case
from lib.faults import ALPHANUMERIC, URL, URLS, between, chars, fault, prefix
from lib.form import Closed, Member, Object, OrEmpty, Parsed, Text, read
from lib.json_values import Pairs
from lib.reports import at_place, lines
from lib.spoiled import LISTED, cut

CODES = ("P1", "P200", "Pé", "Q1", "p1", "", "P", "P 1", "P-1", "P１", "PP\n")


def row_of(numbers, quantity=None, price=None):
    """A row with numbers of this type, and with these messages of parsers."""
    return Object(
        Member("code", Text(prefix("P"), ALPHANUMERIC, like=CODES)),
        Member("name", Text(chars(1, 80), like=("Screw", "two\nlines", 'a "b", c', " "))),
        Member("quantity", Parsed(numbers, between(1, 10_000), message=quantity)),
        Member("price", Parsed(numbers, between(1, 50_000), message=price)),
        Member("page", OrEmpty(Text(URL, like=URLS))),
    )


ROW = row_of("u32")
GREATEST = 2**64 - 1
COLUMNS = ["code", "name", "quantity", "price", "page"]
OTHERS = ["note", "Code", "code ", "", "prices", "\x1b[0m", "a\nb", "\\", "\u202e"]
HEADER = Closed(*(Member(name, Text()) for name in COLUMNS))
PIECES = LISTED["pieces of a list"]
WORDS = ((), (), (), ("--lines",), ("--lines",), ("1",), ("3",), ("--first-row", "7"), ("--no-header",), ("--no-header", "--lines", "2"))


def written(dice, rows):
    """A table of these rows, with ends of lines and quotes of either kind."""
    out = io.StringIO(newline="")
    for row in rows:
        quoting = dice.choice([csv.QUOTE_MINIMAL, csv.QUOTE_MINIMAL, csv.QUOTE_ALL])
        csv.writer(out, lineterminator=dice.choice(["\n", "\r\n"]), quoting=quoting).writerow(row)
    return out.getvalue().encode("utf-8")


def some_row(dice, columns, odd):
    """The cells of a row for these columns, and in one of twenty one less or more."""
    cells = dict(ROW.some(dice, odd))
    row = [cells.get(column, dice.choice(OTHERS)) for column in columns]
    return row if dice.random() < 0.95 else dice.choice((row[:-1], [*row, "x"]))


def several_cuts(dice, body, counts):
    """The bytes with as many changes as one of these counts says, and whether there is one."""
    count = dice.choice(counts)
    for _ in range(count):
        body = cut(dice, body, PIECES)
    return body, {"cut"} if count else set()


def some_columns(dice):
    columns = dice.sample(COLUMNS, len(COLUMNS))
    for _ in range(dice.choice((0, 0, 0, 0, 0, 0, 1, 3))):
        at, name = dice.randrange(len(columns) + 1), dice.choice(COLUMNS + OTHERS)
        columns[at:at + dice.randrange(2)] = dice.choice(([name], [name], []))
    return columns


def some(dice):
    words, form = dice.choice(WORDS), command_line.some_format(dice)
    columns, odd = COLUMNS if "--no-header" in words else some_columns(dice), dice.choice((0, 0, 0.1, 0.4))
    rows = [some_row(dice, columns, odd) for _ in range(dice.randrange(6))]
    body, ways = several_cuts(dice, written(dice, rows if "--no-header" in words else [columns, *rows]), (0, 0, 0, 1, 2, 4))
    ways |= {way for way, is_so in (("columns", columns != COLUMNS), ("cells", odd)) if is_so}
    return Case(command_line.some_language(dice) + dice.choice((words + form, form + words)), body, ways)


def rows_of(count):
    """Rows of which a few are faulty."""
    return "".join(f"{'X' if row % 700 == 699 else 'P'}{row},Screw,1,5,\n" for row in range(count)).encode()


def large():
    """A list of 3,000 rows, some of them faulty, without and with a word, a row whose cell has more than 64 KiB, and rows with
    quotes, empty cells and both ends of lines, of which another byte is the last one of each buffer."""
    header = ",".join(COLUMNS).encode()
    for words in (), ("--lines",), ("3",):
        yield Case(words, header + b"\n" + rows_of(3_000))
    yield Case((), header + b'\nP1,"' + b"x\n" * 40_000 + b'",1,5,\nQ1,Screw,1,5,\n')
    yield Case((), header + b"\nP1," + b"x" * 40_000 + b",1,5,\nQ1,Screw,1,5,")
    row = b'P1,"a ""b"",\r\nc",1,5,\r\n'
    for before in range(len(row)):
        yield Case(("--lines",), header + b"\n" * before + row * 400 + b'Q1,"x"y,1,5,\r\nQ1,,1,5,')


def records(given):
    """The records of a list, of which those with a cell that is no UTF-8 have a fault."""
    for record in rfc4180.records(given.decode("utf-8", "surrogateescape")):
        if record.fault is None and any("\udc80" <= letter <= "\udcff" for letter in "".join(record.cells)):
            record.fault = "not UTF-8"
        yield record


def walk_of(index, header, record):
    """The faults of a record."""
    if record.fault:
        return [((index,), fault("not_csv"))]
    if len(record.cells) != len(header):
        return [((index,), fault("row_length"))]
    return read(ROW, Pairs(zip(header, record.cells)), (index,))[1]


def most(words, all_of_them):
    """How many faults are printed at most: the number that stands behind no other word's name."""
    numbers = [word for before, word in zip(("", *words), words) if word.isdecimal() and before != "--first-row"]
    return int(numbers[0]) if numbers else all_of_them


def lines_of(words, form, index, header, record, tag):
    """The lines of a record, whose place is `[N]` or `line N`."""
    language = {**languages.of_tag(tag), "not_csv": record.fault, "row_length": languages.said_in(tag)["row_length"]}
    walk = walk_of(index, header, record)
    if form != "plain" or "--lines" not in words:
        return at_place(form, "<stdin>", (record.line, 1), walk, language)
    said = lines(walk, language)
    return re.sub(r"^\[\d+\](\.?)", lambda it: f"line {record.line}{', ' if it[1] else ''}", said, flags=re.M)


def wanted(case):
    words, form, tag = command_line.asked(case.words)
    if tag is None:
        return command_line.no_language("use_import")
    found, header, language = list(records(case.given)), COLUMNS, languages.of_tag(tag)
    if "--no-header" not in words:
        first, *found = found or [rfc4180.Record(1, [], None)]
        if first.fault:
            return 2, b"", f"use_import: the header: {first.fault}\n".encode()
        _, faults = read(HEADER, Pairs((name, "") for name in first.cells))
        if faults:
            told = at_place(form, "<stdin>", (first.line, 1), faults, language)
            return 2, told.encode("utf-8"), b"use_import: these are not the columns of a list\n"
        header = first.cells
    start = int(words[words.index("--first-row") + 1]) if "--first-row" in words else 0
    rows = enumerate(found[:GREATEST - start + 1], start)
    said = "".join(lines_of(words, form, index, header, record, tag) for index, record in rows).splitlines(keepends=True)
    out = "".join(said[:most(words, len(said))]).encode("utf-8")
    return (2, out, b"use_import: a row has no number\n") if start + len(found) > GREATEST + 1 else (1 if said else 0, out, b"")
