"""Where the keys and the values of a TOML text stand: a reader that keeps their places. It shares nothing with the library, and reads only
what is TOML.

A column counts characters from 1 on, and a tab is one of them. A line ends with a line feed. A byte order mark is not counted. A table has
the place of its header, and one without a header that of its key. The README of `garde_toml` says the rest.
"""
import re
import tomllib

from lib import positions
from lib.positions import Spot

SPACE = re.compile(r"[ \t]*")
BLANK = re.compile(r"(?:[ \t\r\n]|#[^\n]*)*")
BASIC = r'"""(?:[^\\]|\\.)*?"""(?:"{0,2})|"(?:[^"\\\n]|\\.)*"'
LITERAL = r"'''.*?'''(?:'{0,2})|'[^'\n]*'"
TEXT = re.compile(f"{BASIC}|{LITERAL}", re.DOTALL)
KEY = re.compile(rf"{BASIC}|{LITERAL}|[A-Za-z0-9_-]+", re.DOTALL)
WORD = re.compile(r"[^,\]}#\r\n]+")


class Part:
    """A key and its value, their places, and what is in the value."""

    def __init__(self, place):
        self.name, self.place, self.members, self.items = place, place, {}, []

    def last(self):
        """The table below which a key of a header leads: of an array of tables its last one."""
        return self.items[-1] if self.items else self

    def spot(self):
        members = tuple((name, it.name, it.spot()) for name, it in self.members.items())
        return Spot(self.place, members, tuple(it.spot() for it in self.items))


class Reader(positions.Reader):
    """A text in TOML, where its lines begin, and how far it is read."""

    def past(self, mark):
        """Whether this mark stands here; goes past it."""
        is_here = self.text.startswith(mark, self.at)
        self.at += len(mark) if is_here else 0
        return is_here

    def key(self, part):
        """What a key below a table leads to."""
        while True:
            self.take(SPACE)
            place, word = self.place(), self.take(KEY)
            name = tomllib.loads(f"x = {word}")["x"] if word[0] in "\"'" else word
            part = part.last().members.setdefault(name, Part(place))
            self.take(SPACE)
            if not self.past("."):
                return part

    def pair(self, table):
        part = self.key(table)
        self.past("=")
        self.take(SPACE)
        self.value(part)

    def value(self, part):
        part.place = self.place()
        if self.past("["):
            self.parts("]", lambda: part.items.append(self.item()))
        elif self.past("{"):
            self.parts("}", lambda: self.pair(part))
        else:
            self.take(TEXT if self.text[self.at] in "\"'" else WORD)

    def item(self):
        item = Part(self.place())
        self.value(item)
        return item

    def parts(self, end, part):
        """What stands between brackets, up to this one."""
        self.take(BLANK)
        while not self.past(end):
            part()
            self.take(BLANK)
            self.past(",")
            self.take(BLANK)

    def header(self, root):
        """The table that a header begins."""
        place, is_array = self.place(), self.text.startswith("[[", self.at)
        self.past("[[" if is_array else "[")
        part = self.key(root)
        self.past("]]" if is_array else "]")
        if not is_array or not part.items:
            part.place = place
        if is_array:
            part.items.append(Part(place))
        return part.last() if is_array else part

    def document(self):
        root = table = Part((1, 1))
        self.take(BLANK)
        while self.at < len(self.text):
            if self.text[self.at] == "[":
                table = self.header(root)
            else:
                self.pair(table)
            self.take(BLANK)
        return root


def spots_of(text):
    """The value of a text, with its places."""
    return Reader(text.removeprefix("\ufeff")).document().spot()
