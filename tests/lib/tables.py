"""Tables of cases, as text: the files of tests/tables/.

A case begins with a line `== TITLE`, and what stands below it is its text. A part of it, as a file, begins with a line `-- NAME --`. A part
that ends with the line NO_NEWLINE has no line feed at its end.
"""
import re
import typing

from lib.repository import ROOT

FOLDER = ROOT / "tests/tables"
NO_NEWLINE = "\n\\ No newline at end of file\n"


class Case(typing.NamedTuple):
    title: str
    text: str
    parts: dict

    def values(self, key):
        """What stands behind `KEY: ` in the lines of its text."""
        return re.findall(f"^{key}: (.*)$", self.text, re.M)

    def below(self, folder):
        """The parts whose names begin with this folder, by the rest of their names."""
        return {name.removeprefix(folder): text for name, text in self.parts.items() if name.startswith(folder)}


def plain(text):
    """The bytes that a text stands for, in which `\\n` is a line feed and `\\xff` a byte."""
    return text.encode().decode("unicode_escape").encode("latin-1")


def lists(name):
    """The lists of a table, by their titles: of each line the bytes that it stands for."""
    return {it.title: [plain(line) for line in it.text.split("\n")[:-1]] for it in cases(name)}


def text_of(name):
    return (FOLDER / name).read_text(encoding="utf-8")


def cases(name):
    """The cases of a table."""
    for block in re.split("^== ", text_of(f"{name}.txt"), flags=re.M)[1:]:
        title, _, rest = block.partition("\n")
        text, *parts = re.split("^-- (.+) --\n", rest, flags=re.M)
        texts = (it.removesuffix(NO_NEWLINE) for it in parts[1::2])
        yield Case(title, text, dict(zip(parts[::2], texts)))
