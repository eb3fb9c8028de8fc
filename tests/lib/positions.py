"""Where the values of a JSON text (RFC 8259) stand, and where a text stops being JSON: up to where some JSON text begins as it does. A
reader that counts lines and columns as it goes. It shares nothing with the library.

A column counts characters from 1 on, and a tab is one of them. A line ends with a line feed.
"""
import bisect
import json
import re
import typing

DEEPEST = 128
SPACE = re.compile(r"[ \t\r\n]*")
HEX = "[0-9a-fA-F]"
# The escape of a character, or of both halves of one; and the beginnings of such.
ESCAPE = rf'\\(?:["\\/bfnrt]|u(?:[0-9a-cefA-CEF]{HEX}{{3}}|[dD][0-7]{HEX}{{2}}|[dD][89abAB]{HEX}{{2}}\\u[dD][c-fC-F]{HEX}{{2}}))'
LOW = rf"(?:\\(?:u(?:[dD](?:[c-fC-F]{HEX}?)?)?)?)?"
BEGUN = re.compile(
    rf"(?:\\(?:u(?:[0-9a-cefA-CEF]{HEX}{{0,2}}|[dD](?:[0-7]{HEX}?|[89abAB](?:{HEX}{{2}}{LOW}|{HEX}?))?)?)?)?"
)
TEXT = re.compile(rf'"(?:[^"\\\x00-\x1f]|{ESCAPE})*')
WHOLE = r"-?(?:0|[1-9][0-9]*)"
NUMBER = re.compile(rf"{WHOLE}(?:\.[0-9]+)?(?:[eE][-+]?[0-9]+)?")
BEGUN_NUMBER = re.compile(rf"{WHOLE}(?:\.[0-9]+)?[eE][-+]?[0-9]*|{WHOLE}(?:\.[0-9]*)?|-?")


class Spot(typing.NamedTuple):
    """A value: its line and column, its members (a name, the place of the name, and the value), and its items."""
    place: tuple
    members: tuple = ()
    items: tuple = ()


class Stopped(Exception):
    """A text that is not read further."""


class Reader:
    """A text, where its lines begin, and how far it is read."""

    def __init__(self, text):
        self.text, self.at = text, 0
        self.lines = [0, *(it.end() for it in re.finditer("\n", text))]

    def take(self, pattern):
        """Goes past what matches here, and gives it."""
        begin, self.at = self.at, pattern.match(self.text, self.at).end()
        return self.text[begin:self.at]

    def place(self):
        """The line and the column."""
        line = bisect.bisect_right(self.lines, self.at)
        return line, self.at - self.lines[line - 1] + 1


class Json(Reader):
    """A text in JSON, or one that begins so: it stops where no JSON text goes on so."""

    def want(self, is_here):
        if not is_here:
            raise Stopped

    def past(self, mark):
        """Whether this mark stands here behind white space; goes past it."""
        self.take(SPACE)
        is_here = self.text.startswith(mark, self.at)
        self.at += is_here
        return is_here

    def quoted(self):
        text = self.take(TEXT)
        if not self.text.startswith('"', self.at):
            self.take(BEGUN)
            raise Stopped
        self.at += 1
        return f'{text}"'

    def word(self):
        """A number or a name."""
        for name in ("true", "false", "null"):
            if self.text.startswith(name[0], self.at):
                for letter in name:
                    self.want(self.text.startswith(letter, self.at))
                    self.at += 1
                return
        self.want(NUMBER.fullmatch(self.take(BEGUN_NUMBER)))

    def several(self, end, part, depth):
        """What stands between brackets, up to this one."""
        self.want(depth <= DEEPEST)
        self.at += 1
        found = []
        while not self.past(end):
            self.want(not found or self.past(","))
            found.append(part(depth))
        return tuple(found)

    def member(self, depth):
        self.take(SPACE)
        self.want(self.text.startswith('"', self.at))
        place, name = self.place(), json.loads(self.quoted())
        self.want(self.past(":"))
        return name, place, self.value(depth)

    def value(self, depth=0):
        self.take(SPACE)
        place, first, members, items = self.place(), self.text[self.at : self.at + 1], (), ()
        if first == '"':
            self.quoted()
        elif first == "{":
            members = self.several("}", self.member, depth + 1)
        elif first == "[":
            items = self.several("]", self.value, depth + 1)
        else:
            self.word()
        self.take(SPACE)
        return Spot(place, members, items)


def stop_of(text):
    """The line and the column up to which it begins as some JSON text does; nothing where the whole is one."""
    reader = Json(text)
    try:
        reader.value()
    except Stopped:
        return reader.place()
    return None if reader.at == len(text) else reader.place()


def end_of(text):
    """The line and the column behind a text."""
    return text.count("\n") + 1, len(text) - text.rfind("\n")


def spots_of(text):
    """The value of a text, with its places."""
    return Json(text).value()


def step(spot, part):
    """Where a component of a path leads: the value, and the place of its name, if it has one; nothing where it leads to none."""
    named = [(value, place) for name, place, value in spot.members if name == str(part)]
    if named:
        return named[-1]
    return (spot.items[part], None) if isinstance(part, int) and part < len(spot.items) else None


def place_of(spot, path, of_name=False):
    """The place of the value that a path leads to, or of its name; where it leads to none, that of the last value on its way."""
    place = spot.place
    for part in path:
        found = step(spot, part)
        if not found:
            return spot.place
        above, (spot, name) = spot, found
        place = name or above.place
    return place if of_name else spot.place
