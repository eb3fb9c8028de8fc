"""What is printed of faults: lines, by `Escaped` of `garde_problem`; by the README of `garde_places` lines
`FILE:LINE:COLUMN: error: PATH: MESSAGE`, JSON and the annotations of GitHub; and problem details (RFC 9457).

A walk is faults in their order, each a path and a fault.
"""
import re

from lib import positions
from lib.faults import ENGLISH
from lib.json_values import printed

SHORT = {"\\": "\\\\", "\n": "\\n", "\r": "\\r", "\t": "\\t"}
# What acts in place of being shown, and what may be escaped by a letter.
ESCAPED = re.compile("[\"\\\\\\x00-\\x1f\\x7f-\\x9f\\u061c\\u200e\\u200f\\u2028-\\u202e\\u2066-\\u2069]")
# What editors read of a line: the file, the line, the column and the message.
EDITORS = re.compile(r"([^:\n]+):([1-9]\d*):([1-9]\d*): error: (.*)")
OF_NAMES = ("member_unknown", "member_repeated")
PROPERTY = {"%": "%25", "\r": "%0D", "\n": "%0A", ":": "%3A", ",": "%2C"}


def escaped(text, short=SHORT):
    """A text with the characters escaped that act in place of being shown; `short` has those that are escaped by a letter."""

    def of(found):
        return short.get(found[0]) or (found[0] if found[0] == '"' else f"\\u{{{ord(found[0]):x}}}")

    return ESCAPED.sub(of, text)


def quoted(text):
    """A text as `{:?}` prints it, which has a quote and NUL escaped by a letter too."""
    return '"' + escaped(text, {**SHORT, '"': '\\"', "\0": "\\0"}) + '"'


def path_text(path):
    return "".join(f"[{it}]" if isinstance(it, int) else f".{escaped(it)}" for it in path).removeprefix(".")


def told(path, detail):
    """A fault in a line. One of the whole value has no path."""
    return (f"{path_text(path)}: " if path else "") + escaped(detail)


def lines(walk, language=ENGLISH):
    return "".join(f"{told(path, found.text(language))}\n" for path, found in walk)


def pointer(path):
    """The JSON Pointer of a path (RFC 6901)."""
    return "".join("/" + str(it).replace("~", "~0").replace("/", "~1") for it in path)


def details(walk, language=ENGLISH):
    rows = ((path, found.text(language), *found.coded()) for path, found in walk)
    return [{"pointer": pointer(path), "detail": detail, "code": code, "params": params} for path, detail, code, params in rows]


def line(form, file, place, path, detail, code, params):
    """The line of a fault in a format. The sentence of one that is a pattern is a pattern."""
    if form == "short":
        return escaped(file).replace(":", "\\u{3a}") + ":%d:%d: error: " % place + told(path, detail)
    if form == "github":
        name = escaped("".join(PROPERTY.get(it, it) for it in file))
        return f"::error file={name},line={place[0]},col={place[1]}::" + told(path, detail).replace("%", "%25")
    members = {"file": file, "path": path_text(path), "pointer": pointer(path), "line": place[0], "column": place[1]}
    return printed({**members, "detail": detail, "code": code, "params": params}).decode()


def placed(form, file, spots, walk, language=ENGLISH):
    """The faults of a walk over a text with these places: by place for people, and in their order for programs. What an editor reads
    back has to be what was printed."""
    found = [(positions.place_of(spots, path, it.code in OF_NAMES), path, it) for path, it in walk]
    if form != "json":
        found.sort(key=lambda it: it[0])
    text = "".join(at_place(form, file, place, [(path, it)], language) for place, path, it in found)
    wanted = [(str(line), str(column), told(path, it.text(language))) for (line, column), path, it in found]
    if form == "short" and [EDITORS.fullmatch(it).groups()[1:] for it in text.split("\n")[:-1]] != wanted:
        raise AssertionError(f"an editor reads something else of {text!r}")
    return text


def at_place(form, file, place, walk, language=ENGLISH):
    """The faults of a walk, which stand at one place, or have none."""
    if form == "plain":
        return lines(walk, language)
    return "".join(line(form, file, place, path, it.text(language), *it.coded()) + "\n" for path, it in walk)


def stop_anywhere(form, file, code):
    """The line of a text that stops somewhere, as a pattern."""
    text = re.escape(line(form, file, (1111, 2222), (), "WHY", code, {})) + "\n"
    for one, pattern in ("1111", "[1-9]\\d*"), ("2222", "[1-9]\\d*"), ("WHY", "[^\\n]+"):
        text = text.replace(one, pattern)
    return re.compile(text.encode(), re.DOTALL)


def stops_at(form, file, body, code):
    """The line of bytes that are no JSON, as a pattern: the place where they stop, and some words; of bytes that are not UTF-8 exactly."""
    body = body.removeprefix(b"\xef\xbb\xbf")
    try:
        text = re.escape(line(form, file, positions.stop_of(body.decode()), (), "WHY", code, {})).replace("WHY", "[^\\n]+")
        return re.compile(f"{text}\n".encode(), re.DOTALL)
    except UnicodeDecodeError as error:
        place = positions.end_of(body[: error.start].decode())
        return (line(form, file, place, (), "not UTF-8", code, {}) + "\n").encode()
