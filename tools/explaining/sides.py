"""The two sides of a type, as they are written by hand: the fields that `visits` states and those that the code checks, by their names.

Where the names agree, the prover says which field differs, under a proof file with a line for each: it stops at the line of the
first one that it does not accept.
"""
import functools
import pathlib
import re
from dataclasses import dataclass

from lib import paths, source

STATED = re.compile(r'\bfield\s+(?:"(\w+)"|\(\s*(?:\w+\.)?codes\s+"(\w+)"\s*\))|\bitem\s+(\d+)')
CODED = re.compile(r'\b(?:Field|Component::key)\s*\(\s*(?:[\w:]+\s*\(\s*)?"(\w+)"|\b(?:Item|Component::index)\s*\(\s*(\d+)')
CALL = re.compile(r"\.\s*(visit|visit_of)\s*\((?!.*\.\s*visit)", re.S)
PARTS = pathlib.Path(__file__).with_name("parts.txt").read_text(encoding="utf-8")
# a comment of a statement
COMMENT = re.compile(r"--[^\n]*")


@dataclass(frozen=True)
class Sides:
    """A type: its crate and its path there, its source, the fields of each side with their lines, and the code."""

    crate: str
    path: tuple
    file: str
    stated: list
    coded: list
    code: str

    def differing(self):
        """A line for each field that one side alone names, or else for the first one in another place."""
        stated, coded = ([name for name, _ in side] for side in (self.stated, self.coded))
        found = [(line, f"field `{name}`: the code does not name it") for name, line in self.stated if name not in coded]
        found += [(line, f"field `{name}`: `visits` does not name it") for name, line in self.coded if name not in stated]
        if not found and not self.is_enum:
            both = zip(self.stated, self.coded)
            others = [(line, name, other, at) for (name, line), (other, at) in both if name != other][:1]
            found = [(line, f"field `{name}`: the code has `{other}` in its place (line {at})") for line, name, other, at in others]
        return [f"{self.file}:{line}: {text}" for line, text in found]

    @property
    def name(self):
        """The type, with the modules that lead to it."""
        return "::".join([*self.path[:-2], self.path[-2].removesuffix("Validate")])

    @property
    def is_enum(self):
        return re.search(r"\bmatch\b", self.code) is not None

    @property
    def is_named(self):
        """Whether both sides name their fields, or neither does: a definition of its own names none, nor does code without `visit`."""
        return bool(self.stated) == bool(self.coded) and CALL.search(self.code) is not None

    def parts(self):
        """The path of the proof file with a line for each field, and its text."""
        names = [name for name, _ in self.stated] or ["the value"]
        rows = "\n    also ".join(f"part (search rules)  -- {name}" for name in names)
        module = ".".join(["Rattle", self.crate, "proofs", *self.path])
        return f"proofs/{'/'.join(self.path)}/Answers.antt", PARTS.format(module=module, call=CALL.search(self.code)[1], rows=rows)


def sides_in(folder):
    """The types of a crate that have both sides, by their paths."""
    for place in sorted(folder.glob("src/**/*.rt")):
        read, file = source.read(place.read_text(encoding="utf-8", errors="replace")), str(place.relative_to(folder))
        modules = [it for it in file.removeprefix("src/").removesuffix(".rt").split("/") if it not in ("lib", "main")]
        members = {(paths.name_of_block(read, it.owner), it.name): it for it in read.all_items() if it.owner}
        for block, name in members:
            visits = members.get((f"{block.removesuffix('Validate')}Stated", "visits"))
            if name == "validate_into" and visits:
                code = members[block, name]
                stated, coded = named(read, STATED, visits), named(read, CODED, code)
                yield Sides(folder.name, (*modules, block, name), file, stated, coded, kept(read)[code.head : code.end])


def named(read, words, item):
    """The names of the fields in an item, each with its line."""
    return [(it[it.lastindex], read.line_of(it.start())) for it in words.finditer(kept(read), item.head, item.end)]


@functools.cache
def kept(read):
    """A source with spaces for its comments."""
    text = source.without_comments(read.text)
    for ghost in (it for it in read.all_items() if it.kind == "ghost"):
        for first, last in (it.span() for it in COMMENT.finditer(read.blank, ghost.head, ghost.end)):
            text = text[:first] + source.spaces(text[first:last]) + text[last:]
    return text
