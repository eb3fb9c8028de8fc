"""The records of a list in CSV, by the grammar of RFC 4180, section 2, without Python's `csv`.

A cell is one match of a pattern: quoted, with each quote inside written as two, or without any quote. The standard ends a record
with CR LF; LF and CR alone end one too here, as in many lists, and empty lines are no records. What no pattern matches is a
fault, told with the line of its quote, and then the record is read on by the marks alone, to find its end.
"""
import re
import typing
from dataclasses import dataclass

CELL = re.compile(r'(?:"(?P<quoted>(?:[^"]|"")*)"|(?P<plain>[^",\r\n]*))(?=[,\r\n]|\Z)')
END = re.compile(r"\r\n|\r|\n|\Z")
REST_OF_CELL = re.compile(r"[^,\r\n]*")
CLOSED = re.compile(r'"(?:[^"]|"")*"(?!")')


@dataclass
class Record:
    """A record: the line in which it begins, and its cells or what is wrong with it."""

    line: int
    cells: list
    fault: typing.Optional[str]


def line_of(text, place):
    """The line of a place, from 1."""
    return 1 + text.count("\n", 0, place)


def lenient_cell(text, place):
    """What is wrong with the cell at a place, and where it ends."""
    if not text.startswith('"', place):
        quote = text.index('"', place)
        return f"a quote in line {line_of(text, quote)} inside of a cell without quotes", REST_OF_CELL.match(text, place).end()
    closed = CLOSED.match(text, place)
    if not closed:
        return f"a quote in line {line_of(text, place)} is not closed", len(text)
    return f"text behind a closing quote in line {line_of(text, place)}", REST_OF_CELL.match(text, closed.end()).end()


def cell_at(text, place):
    """The cell at a place, what is wrong with it, and where it ends."""
    if found := CELL.match(text, place):
        return (found["plain"] or (found["quoted"] or "").replace('""', '"')), None, found.end()
    return ("", *lenient_cell(text, place))


def record_at(text, place):
    """The record at a place, and where it ends."""
    record, comma = Record(line_of(text, place), [], None), True
    while comma:
        cell, fault, place = cell_at(text, place)
        record.cells.append(cell)
        record.fault = record.fault or fault
        comma = text.startswith(",", place)
        place += comma
    return record, END.match(text, place).end()


def records(text):
    place = 1 if text.startswith("\ufeff") else 0
    while place < len(text):
        if text[place] in "\r\n":
            place += 1
        else:
            record, place = record_at(text, place)
            yield record
