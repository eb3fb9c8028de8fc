"""The program use_store, by crates/use_store/README.md: the valid rows of a list in CSV, in a SQLite file."""
import contextlib
import pathlib
import shutil
import sqlite3
import tempfile

from lib import command_line, languages
from lib.described import Case, run
from lib.described.use_import import COLUMNS, records, row_of, rows_of, several_cuts, some_row, written
from lib.faults import fault
from lib.form import read
from lib.json_values import Pairs
from lib.reports import at_place

ROW = row_of("u64", "not a number of pieces", "not a price in cents")
HEADER = ",".join(COLUMNS).encode()
SELECT = "select code, name, quantity, price, page from stock order by id"


def faults_of(index, cells, codes):
    """The faults of a row of text, where these codes are stored, and what it spells."""
    row, walk = read(ROW, Pairs(zip(COLUMNS, cells)), (index,))
    if cells[0] in codes:
        walk.append(((index, "code"), fault("own", text="stored before")))
    return row, walk


def answer_to(found, whole=False, batch=None, form="plain", tag="en"):
    """What a list makes of an empty table, by its records: the table, the status, the faults in a language, the last line, and the tables
    at the ends of batches."""
    table, codes, said, kept, count = [], set(), [], [[]], 0
    for index, record in enumerate(found):
        if record.fault or len(record.cells) != len(COLUMNS):
            flaw = fault("own", text=str(record.fault or "not as many fields as in the header"))
            walk = [((index,), flaw)]
        else:
            row, walk = faults_of(index, record.cells, codes)
        said.append(at_place(form, "<stdin>", (record.line, 1), walk, languages.of_tag(tag)))
        if not walk:
            table.append(tuple(row[name] for name in COLUMNS))
            codes.add(row["code"])
        count += 1
        if batch and count % batch == 0:
            kept.append(list(table))
    table = [] if whole and any(said) else table
    last = f"stored {len(table)}, not stored {count - len(table)}\n"
    return table, 0 if len(table) == count else 1, "".join(said), last, [*kept, table]


# ---- random lists, and the file

def some(dice):
    odd, words = dice.choice((0, 0, 0.1, 0.4)), dice.choice((("--all-or-nothing",), ("--batch", "1"), ("--batch", "3"), ()))
    form = command_line.some_format(dice) + command_line.some_language(dice)
    rows = [some_row(dice, COLUMNS, odd) for _ in range(dice.randrange(8))]
    body, ways = several_cuts(dice, written(dice, rows), (0, 0, 1, 2, 3))
    mark = dice.choice((b"", b"", b"\xef\xbb\xbf"))
    words = ("stock.db", *dice.choice((words + form, form + words)))
    return Case(words, mark + HEADER + dice.choice((b"\n", b"\r\n")) + body, ways | ({"cells"} if odd else set()))


def large():
    """A list of 2,500 rows, some of them faulty, and one with a cell of more than 64 KiB."""
    for words in (), ("--batch", "999"), ("--format", "github"):
        yield Case(("stock.db", *words), HEADER + b"\n" + rows_of(2_500))
    yield Case(("stock.db",), HEADER + b'\nP1,"' + b"x\n" * 40_000 + b'",1,5,\nP2,Screw,1,5,\n')


def body_of(case):
    """What stands behind the header."""
    return case.given.partition(b"\n")[2]


def with_body(case, body):
    return case._replace(given=b"".join(case.given.partition(b"\n")[:2]) + body)


def wanted(case):
    """The status, the output, standard error, and the table of the file, where there is one."""
    words, form, tag = command_line.asked(case.words)
    if tag is None:
        return *command_line.no_language("use_store"), []
    _, *found = records(case.given)
    table, status, said, last, _ = answer_to(found, "--all-or-nothing" in words, form=form, tag=tag)
    out, err = (said + last, "") if form == "plain" else (said, last)
    return status, out.encode("utf-8"), err.encode("utf-8"), table


def table_of(folder, alone=False):
    """The rows of the table, as another SQLite reads a copy of the file (alone: without the log beside it)."""
    with tempfile.TemporaryDirectory() as copy:
        for name in ["stock.db"] if alone else ["stock.db", "stock.db-wal"]:
            if (pathlib.Path(folder) / name).exists():
                shutil.copy(pathlib.Path(folder) / name, copy)
        with contextlib.closing(sqlite3.connect(f"{copy}/stock.db")) as connection:
            if connection.execute("pragma integrity_check").fetchall() != [("ok",)]:
                return ["pragma integrity_check is not ok"]
            return connection.execute(SELECT).fetchall() if connection.execute("select 1 from sqlite_schema").fetchall() else []


def met(program, case):
    with tempfile.TemporaryDirectory() as folder:
        return *run(program, case, cwd=folder), table_of(folder, alone=True)
