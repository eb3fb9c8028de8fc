"""A reader of Rattle sources: the items of a file, with their comments, attributes, clauses and bodies.

    source = Source(text)
    for it in source.functions():
        print(it.name, it.is_public, source.header(it))

An item is found by its words outside comments and texts, and by the brackets that it opens and closes, not by how it is laid
out. What stands in a function's body is read no further.
"""
import functools
import re
from bisect import bisect_right
from dataclasses import dataclass, field

# a comment, a text, or a character: what is read over, whatever brackets stand in it
SKIPPED = re.compile(
    r'//[^\n]*|/\*.*?\*/|\bb?r(?P<hashes>#*)".*?"(?P=hashes)|"(?:\\.|[^"\\])*"'
    r"|'(?:\\(?:u\{\w+\}|x\w\w|.)|[^\\'\n])'", re.S,
)
SPACE = re.compile(r"(?:\s+|#!?(?=\s*\[))*")
SPACES = re.compile(r"\s*")
HEAD = re.compile(
    r"(?P<public>pub\s+)?(?:pub\s*\([^)]*\)\s*)?(?:(?:final|const|unsafe|extern|default)\s+(?=(?:\w+\s+)*(?:fn|impl|trait)\b))*"
    r"(?P<kind>ghost\s+use|ghost|use|mod|fn|impl|trait|struct|enum|union|type|const|static|macro_rules!)(?:\s+(?P<name>\w+))?"
)
CLAUSE = re.compile(r"\b(?:ensures|requires|decreases)(?:\s+\w+)?\s*$")
OPENING, CLOSING = "([{", ")]}"
BRACKET, MARK = re.compile(r"[(\[{}\])]"), re.compile(r"[(\[{}\]);]")


def spaces(text):
    """A text with a space for each letter, and its lines as they are."""
    return "\n".join(" " * len(line) for line in text.split("\n"))


def without_comments(text):
    """A source with spaces for its comments."""
    return SKIPPED.sub(lambda found: spaces(found.group()) if found.group()[0] == "/" else found.group(), text)


@dataclass
class Item:
    """An item: where its comments and attributes begin, where its words do, where its body or its `;` stands, and its end."""

    kind: str
    name: str
    is_public: bool
    start: int
    head: int
    body: int
    end: int
    owner: "Item | None" = None
    members: list = field(default_factory=list)


class Source:
    """The text of a source, the same without comments and the contents of texts, and its items."""

    def __init__(self, text):
        self.text = text
        self.blank = SKIPPED.sub(lambda found: spaces(found.group()), text)
        self.lines = [0, *(found.end() for found in re.finditer("\n", text))]
        self.items = self.read(0, len(text), None)

    def line_of(self, at):
        """The number of the line, from 1 on, that a place stands in."""
        return bisect_right(self.lines, at)

    def read(self, at, end, owner):
        """The items between two places."""
        items, start = [], at
        while (at := SPACE.match(self.blank, at, end).end()) < end:
            if self.blank[at] == "[":
                at = self.close(at)
            elif head := HEAD.match(self.blank, at, end):
                items.append(self.item(head, start, end, owner))
                at = start = items[-1].end
            else:
                at = start = max(self.ending(at, end)[1], at + 1)
        return items

    def item(self, head, start, end, owner):
        """The item that begins with these words."""
        kind, name = " ".join(head.group("kind").split()), head.group("name") or ""
        is_block = kind in ("fn", "impl", "trait", "mod", "struct", "enum", "union", "macro_rules!")
        body, stop = self.ending(head.start(), end, is_block)
        start = SPACES.match(self.text, start).end()
        found = Item(kind, name, bool(head.group("public")), start, head.start(), body, stop, owner)
        if kind in ("impl", "trait", "mod") and self.blank[body : body + 1] == "{":
            found.members = self.read(body + 1, stop - 1, found)
        return found

    def ending(self, at, end, is_block=False):
        """Where the body of what begins here stands, or its `;`, and where it ends."""
        first = at
        while found := MARK.search(self.blank, at, end):
            at, letter = found.start(), found.group()
            if letter == "{" and is_block and not CLAUSE.search(self.blank, first, at):
                return at, self.close(at)
            if letter == ";":
                return at, at + 1
            if letter in CLOSING:
                return at, at
            at = self.close(at)
        return end, end

    def close(self, at):
        """The place behind the bracket that closes the one here."""
        depth = 0
        for found in BRACKET.finditer(self.blank, at):
            depth += 1 if found.group() in OPENING else -1
            if depth == 0:
                return found.end()
        return len(self.blank)

    def all_items(self, items=None):
        """Each item, and those within it."""
        for it in self.items if items is None else items:
            yield it
            yield from self.all_items(it.members)

    def functions(self):
        """Each function, also those of impl blocks, traits and modules within."""
        return [it for it in self.all_items() if it.kind == "fn"]

    def attributes(self, item):
        """What stands before an item: its comments and attributes."""
        return self.text[item.start : item.head]

    def header(self, item):
        """An item's words up to its body, with its clauses and without comments."""
        return self.blank[item.head : item.body]


@functools.lru_cache(maxsize=4096)
def read(text):
    return Source(text)
