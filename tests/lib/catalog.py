"""The messages and the tables of `garde_catalog`, as its sources have them."""
import functools
import re

from lib import repository

SOURCES = "crates/garde_catalog/src"
ENTRY = re.compile(r'\(\s*"(\w+)",\s*"((?:[^"\\]|\\.)*)",?\s*\)')
MESSAGE = re.compile(r'\("(\w+)", "(\w*)", "(\w*)"\)')
OFFERED = re.compile(r'tagged\("([\w-]+)", &?(\w+)\)')
NAMED = re.compile(r"let (\w+): &\[Entry<'_>\] = &(\w+);")
TABLE = re.compile(r"pub static (\w+):")


def messages():
    """The messages in their order: the parameters of each code."""
    return {code: set(filter(None, names)) for code, *names in MESSAGE.findall(repository.text_of(f"{SOURCES}/messages.rt"))}


def needed():
    """The codes of the messages that each table has to have: `MESSAGES`, without the further ones behind it."""
    source = repository.text_of(f"{SOURCES}/messages.rt")
    return {code for code, *_ in MESSAGE.findall(source[:source.index("FURTHER_MESSAGES")])}


def offered():
    """The tables that are offered in their order, each with its first tag."""
    source, tables = repository.text_of(f"{SOURCES}/language.rt"), {}
    named = dict(NAMED.findall(source))
    for tag, table in OFFERED.findall(source):
        tables.setdefault(named.get(table, table), tag)
    return tables


@functools.cache
def tables():
    """The tables by their names, each as the lines of its file: a code and its text, without the escapes of a source."""
    sources = [it.read_text(encoding="utf-8") for it in sorted((repository.ROOT / SOURCES / "tables").glob("*.rt"))]
    lines = {TABLE.search(it)[1]: ENTRY.findall(it) for it in sources}
    return {name: [(code, text.replace('\\"', '"').replace("\\\\", "\\")) for code, text in found] for name, found in lines.items()}
