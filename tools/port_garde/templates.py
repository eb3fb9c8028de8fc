"""The texts beside the port: templates.txt has the templates of what it writes, and tables.txt what it knows by name."""
import pathlib
import re
import string

HERE = pathlib.Path(__file__).resolve().parent


def sections(file):
    """The sections of a file, by their titles."""
    _, *found = re.split(r"^== (.+)\n", file.read_text(encoding="utf-8"), flags=re.M)
    return {title: text.rstrip("\n") for title, text in zip(found[::2], found[1::2])}


TEMPLATES = {name: string.Template(text) for name, text in sections(HERE / "templates.txt").items()}
TABLES = sections(HERE / "tables.txt")


def fill(template, /, **words):
    """What a template says with these words."""
    return TEMPLATES[template].substitute(words)


def rows(table):
    """The rows of a table: what stands before the colon, with the text behind it."""
    return dict(row.split(": ", 1) for row in TABLES[table].splitlines())


def names(table):
    """The same, with the names that the text lists."""
    return {name: tuple(listed.split()) for name, listed in rows(table).items()}
