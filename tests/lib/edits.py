"""The edits of `wrong-bodies/`: reads one, and finds what it changes. `tests/wrong-bodies` says how an edit is written."""
import difflib
import functools

from lib import paths, repository, source
from lib.planting import lines_of

OPEN = "refused"
# The keys of lines about the whole edit.
OF_WHOLE = ("fn", "alone", "seldom", "expects")


def source_of(crate, path):
    """The text of a crate's file."""
    return repository.text_of(f"crates/{crate}/{path}")


class Edit:
    """An edit: the function that has to be refused, the lines that change, and the functions that these stand in.

    Where it does not apply, `fault` says why. A span is a file, its lines from one up to another, and what stands there then.
    """

    def __init__(self, file, crate):
        lines = lines_of(file)
        said = dict(lines)
        self.title, self.crate, self.expects = file.stem, crate, said.get("expects", OPEN)
        self.function = f"{crate}::{said['fn'].strip()}" if "fn" in said else ""
        self.is_alone, self.is_seldom, self.fault, self.spans, self.places = "alone" in said, "seldom" in said, "", [], set()
        # the goals whose answers are left out, since they do not fit what the edit makes of the function
        self.unanswered = set()
        for path, text in self.read(lines).items():
            self.find(path, source_of(crate, path), text)
        if not self.fault and not (self.function and self.spans):
            self.fault = "it names no function, or changes nothing"

    def read(self, lines):
        """The files that it changes, each with its text then."""
        path, where, old, texts = "", "", "", {}
        for key, text in lines:
            if key == "file":
                path, where = text.strip(), ""
            elif key == "in":
                where = text.strip()
            elif key == "old":
                old = text
            elif key == "new":
                texts[path] = self.changed(path, texts.get(path) or source_of(self.crate, path), where, old, text)
            elif key not in OF_WHOLE:
                self.fault = f"it has a line that says nothing: {key}"
        return texts

    def changed(self, path, text, where, old, new):
        """The text of a file with another text in place of an old one, which stands once where it is looked for."""
        start, end = self.extent(text, where)
        times = text.count(old, start, end) if old else 0
        if times != 1:
            place = where or self.function.partition("::")[2]
            self.fault = f"an 'old:' text stands in {place} of {path} {times} times, and not once: {old.strip()}"
            return text
        return text[:start] + text[start:end].replace(old, new) + text[end:]

    def extent(self, text, where):
        """From where to where a text is looked for: in the function, or in what a line `in:` names."""
        if where == "file":
            return 0, len(text)
        read = source.read(text)
        name = self.function.partition("::")[2]
        item = paths.found(read, where.split("::")) if where else paths.function(read, name)
        return (text.rfind("\n", 0, item.head) + 1, item.end) if item else (0, 0)

    def find(self, path, was, now):
        """Finds the lines that change, and the functions that they stand in, or the last one above."""
        read = source.read(was)
        heads = sorted(read.line_of(it.head) - 1 for it in read.functions())
        was, now = was.split("\n"), now.split("\n")
        for kind, first, end, start, stop in difflib.SequenceMatcher(None, was, now, autojunk=False).get_opcodes():
            if kind != "equal":
                self.spans.append((path, first, end, now[start:stop]))
                lines = range(first, max(end, first + 1))
                self.places |= {(path, max((it for it in heads if it <= line), default=-1)) for line in lines}

    def stands_apart(self, others):
        """Whether it can be judged in one check with these."""
        if self.is_alone or any(it.is_alone for it in others):
            return not others
        return all(self.function != it.function and not self.places & it.places for it in others)


def folders():
    """The folders of edits: each crate that has one, with it."""
    every = [(name, repository.ROOT / "crates" / name / "wrong-bodies") for name in repository.crates()]
    return [(name, folder) for name, folder in every if folder.is_dir()]


@functools.cache
def of(crate, folder):
    """The edits of a folder, for a crate."""
    return [Edit(file, crate) for file in sorted(folder.glob("*.edit"))]
