"""The tokens of a Rust source file."""
import difflib
import re
import textwrap
from collections import namedtuple
from dataclasses import dataclass, field


class Refusal(Exception):
    """What cannot be ported: the line that says it, and the reason."""

    def __init__(self, line, reason):
        super().__init__(reason)
        self.line, self.reason = line, reason


class Refusals(Exception):
    """All that cannot be ported of a source, in the order of its lines, each once."""

    def __init__(self, faults):
        super().__init__()
        told = dict.fromkeys((it.line, shown(it.reason)) for it in faults)
        self.lines = sorted(told, key=lambda it: it[0])


def shown(text):
    """A text, or a path, as a line of a terminal may hold it."""
    return "".join(it if it.isprintable() else repr(it)[1:-1] for it in str(text))


def meant(word, known):
    """What one may have meant by a word, to stand behind what is said of it."""
    near = difflib.get_close_matches(word or "", [it for it in known if it != word], 1, 0.6)
    return f": did you mean `{near[0]}`?" if near else ""


@dataclass
class Notes:
    """What the reading of a source found out: its faults; where it read a `derive` and a `garde` attribute, by their places in
    the text; and the stretches of the text of which it told a fault, or which are for tests alone. `later` are the faults of a type that
    a walk alone has: a form says nothing of them. `holes` are lines about what passes unread, which is no fault. `build` says which conditions of the build hold, and `absent` are the stretches of the
    text under one that does not."""

    faults: list = field(default_factory=list)
    later: list = field(default_factory=list)
    holes: list = field(default_factory=list)
    read: set = field(default_factory=set)
    told: list = field(default_factory=list)
    build: object = None
    absent: list = field(default_factory=list)

    def present(self, text):
        """The text with spaces for what is absent from the build."""
        for start, end in self.absent:
            text = text[:start] + re.sub(r"[^\n]", " ", text[start:end]) + text[end:]
        return text

    def refuse(self, line, reason):
        self.faults.append(Refusal(line, reason))

    def refuse_all(self, told):
        for line, reason in told:
            self.refuse(line, reason)

    def refuse_walk(self, line, reason):
        """Notes what cannot be ported of a type that no form reads."""
        self.later.append(Refusal(line, reason))


# A token: its kind (a key of PATTERNS, or `end`), its text, its line and its place in the source.
Token = namedtuple("Token", "kind text line at")
PATTERNS = {
    "space": r"\s+",
    "doc": r"///(?!/)[^\n]*",
    "head": r"//![^\n]*",
    "comment": r"//[^\n]*",
    "raw": r'b?r(?P<hashes>#*)".*?"(?P=hashes)',
    "bytes": r"b\"(?:[^\"\\]|\\.)*\"|b'(?:[^'\\]|\\.)'",
    "text": r'"(?:[^"\\]|\\.)*"',
    "char": r"'(?:[^'\\\n]|\\(?:x[0-9a-fA-F]{2}|u\{[^}]*\}|.))'",
    "lifetime": r"'[A-Za-z_]\w*",
    "float": r"[0-9][0-9_]*(?:\.[0-9][0-9_]*(?:[eE][+-]?[0-9_]+)?(?:f32|f64)?|[eE][+-]?[0-9_]+|_?f32|_?f64)",
    "number": r"0[xob][0-9a-fA-F_]+(?:[iu](?:8|16|32|64|128|size))?|[0-9][0-9_]*(?:[iu](?:8|16|32|64|128|size))?",
    "name": r"r#[A-Za-z_]\w*|[A-Za-z_]\w*",
    "mark": r"::|->|=>|==|!=|<=|&&|\|\||\.\.=|\.\.|[^\w\s\"]",
}
PATTERN = re.compile("|".join(f"(?P<{kind}>{pattern})" for kind, pattern in PATTERNS.items()), re.S)
OPEN = {"(": ")", "[": "]", "{": "}"}
DEPTHS = {**dict.fromkeys(OPEN, 1), **dict.fromkeys(OPEN.values(), -1)}
DEEPEST = 100


def end_of_block_comment(source, at):
    """The place after a comment that begins here, or nothing where it does not end; such comments nest."""
    depth = 0
    for mark in re.finditer(r"/\*|\*/", source[at:]):
        depth += 1 if mark.group() == "/*" else -1
        if depth == 0:
            return at + mark.end()
    return None


def tokens_of(source):
    """The tokens of a source, without space and comments, and `end` last."""
    found, at, line = [], 0, 1
    while at < len(source):
        if source.startswith("/*", at):
            end = end_of_block_comment(source, at)
            if end is None:
                raise Refusal(line, "a comment that does not end")
        else:
            match = PATTERN.match(source, at)
            if match is None:
                raise Refusal(line, f"a character that cannot be read: {source[at]}")
            end = match.end()
            if match.lastgroup not in ("space", "comment"):
                # the group of `hashes` is a part of a raw text
                found.append(Token("raw" if match.group("raw") else match.lastgroup, match.group(), line, at))
        line += source.count("\n", at, end)
        at = end
    refuse_brackets(found)
    return [*found, Token("end", "the end of the file", line, at)]


def refuse_brackets(tokens):
    """Refuses brackets that are not closed, that close nothing, or that nest too deep."""
    ends = []
    for token in tokens:
        if token.kind == "mark" and token.text in OPEN:
            ends.append((OPEN[token.text], token))
            if len(ends) > DEEPEST:
                raise Refusal(token.line, f"brackets nested deeper than {DEEPEST}")
        elif token.kind == "mark" and token.text in OPEN.values():
            if not ends or ends.pop()[0] != token.text:
                raise Refusal(token.line, f"`{token.text}` closes no bracket")
    if ends:
        raise Refusal(ends[-1][1].line, f"`{ends[-1][1].text}` is not closed")


class Tokens:
    """Tokens of a text that are taken from the front."""

    def __init__(self, tokens, text, notes):
        self.tokens, self.text, self.notes, self.at = tokens, text, notes, 0

    @property
    def first(self):
        """The token that comes next."""
        return self.tokens[self.at]

    @property
    def line(self):
        return self.first.line

    def ended(self):
        return self.first.kind == "end"

    def sees(self, *texts):
        """Whether these texts come next, as names and marks."""
        ahead = self.tokens[self.at : self.at + len(texts)]
        return [it.text for it in ahead if it.kind in ("name", "mark")] == list(texts)

    def take(self):
        token = self.first
        if token.kind != "end":
            self.at += 1
        return token

    def takes(self, text):
        """Takes a name or a mark if it comes next, and says whether it did."""
        token = self.first
        is_next = token.text == text and token.kind in ("name", "mark")
        self.at += is_next
        return is_next

    def expect(self, text):
        if not self.takes(text):
            raise Refusal(self.line, f"`{text}` is expected in place of `{self.first.text}`")

    def name(self, what):
        token = self.take()
        if token.kind != "name":
            raise Refusal(token.line, f"{what} is expected in place of `{token.text}`")
        return token.text.removeprefix("r#")

    def path(self, what):
        names = [self.name(what)]
        while self.takes("::"):
            names.append(self.name(what))
        return names

    def group(self):
        """Takes a group of brackets, and answers the tokens within."""
        opening = self.take()
        if opening.kind != "mark" or opening.text not in OPEN:
            raise Refusal(opening.line, f"a bracket is expected in place of `{opening.text}`")
        depth, start, at = 1, self.at, self.at
        while depth:
            token = self.tokens[at]
            depth += DEPTHS.get(token.text, 0) if token.kind == "mark" else 0
            at += 1
        self.at = at
        return self.within(start, at - 1, token)

    def within(self, start, stop, last):
        """The tokens between two places as tokens of their own, which end where this one stands."""
        return type(self)([*self.tokens[start:stop], Token("end", last.text, last.line, last.at)], self.text, self.notes)

    def again(self):
        """The same tokens, none of which is taken."""
        return type(self)(self.tokens, self.text, self.notes)

    def taken(self, start):
        """The tokens that were taken since this place, as tokens of their own."""
        return self.within(start, self.at, self.tokens[self.at - 1])

    def source(self):
        """The text of all tokens, its lines without what stands before each of them but the first."""
        first, *lines = self.text[self.tokens[0].at : self.tokens[-1].at].rstrip().splitlines()
        return "\n".join([first, *textwrap.dedent("\n".join(lines)).splitlines()])

    def opens(self, text):
        """Whether a group of these brackets comes next."""
        return self.first.kind == "mark" and self.first.text == text

    def items(self, read):
        """What `read` reads of each item of a list with commas: None where it refuses one, which is noted."""
        found = []
        while not self.ended():
            start = self.at
            try:
                item = read(self)
                if not self.ended():
                    self.expect(",")
            except Refusal as refusal:
                self.notes.faults.append(refusal)
                item = None
                self.at = start
                self.skip_to(",")
                self.takes(",")
            found.append(item)
        return found

    def skip_to(self, *marks):
        """Passes over what stands before one of these marks, groups and what is in angles as wholes."""
        angles = 0
        while not self.ended() and (angles or not any(map(self.sees, marks))):
            if any(map(self.opens, OPEN)):
                self.group()
                continue
            text = self.take().text
            angles = max(0, angles + (text == "<") - (text == ">"))
