"""The file of a copy that says what was copied: the commit, the crates with their lines of crates.txt, and a hash of each file."""
import hashlib
from dataclasses import dataclass, field

from .origin import Refusal, read_line

NAME = "VENDORED-garde"
HEAD = "# Written by tools/vendor of garde. Change nothing in these crates; call tools/vendor again to bring them up to date.\n"


def hash_of(content):
    return hashlib.sha256(content).hexdigest()


@dataclass
class Record:
    """What was copied, and whether it is all of the libraries, or what is needed of them. `begun` is empty where the copy is
    complete. While one is written, a crate has its old line and its new one, and a file its old hash and its new one; then `begun`
    is the program that is being copied, or `-`."""

    commit: str = ""
    date: str = ""
    asked: tuple = ()
    begun: str = ""
    is_whole: bool = True
    lines: dict = field(default_factory=dict)
    files: dict = field(default_factory=dict)

    def add(self, line):
        self.lines.setdefault(line.name, []).append(line.text())

    def text(self):
        rows = [f"commit {self.commit} {self.date}", f"asked {' '.join(self.asked)}"]
        rows += [] if self.is_whole else ["only needed"]
        rows += [f"begun {self.begun}"] if self.begun else []
        rows += [f"line {line}" for lines in self.lines.values() for line in dict.fromkeys(lines)]
        rows += [f"file {mark} {path}" for path in sorted(self.files) for mark in dict.fromkeys(self.files[path])]
        return HEAD + "".join(f"{row}\n" for row in rows)

    def with_new(self, new, begun):
        """The record while a newer copy is written over this one."""
        both = Record(new.commit, new.date, new.asked, begun or "-", new.is_whole)
        for old in (self, new):
            for name, lines in old.lines.items():
                both.lines.setdefault(name, []).extend(lines)
            for path, marks in old.files.items():
                both.files.setdefault(path, []).extend(marks)
        return both


def read_record(text):
    """The record that a file holds."""
    record = Record()
    for number, row in enumerate(text.splitlines(), 1):
        word, _, rest = row.partition(" ")
        try:
            if word == "commit":
                record.commit, record.date = rest.split()
            elif word == "asked":
                record.asked = tuple(rest.split())
            elif word == "begun":
                record.begun = rest
            elif row == "only needed":
                record.is_whole = False
            elif word == "line":
                record.add(read_line(rest))
            elif word == "file":
                mark, path = rest.split(" ", 1)
                if path.startswith("/") or ".." in path.split("/"):
                    raise ValueError
                record.files.setdefault(path, []).append(mark)
            elif not row.startswith("#"):
                raise ValueError
        except (ValueError, AttributeError):
            raise Refusal(f"{NAME}: line {number} was changed by hand") from None
    return record
