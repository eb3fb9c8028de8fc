"""What may be wrong with a value, in the languages of the programs, and the rules that find it: as docs/reference/rules.md and the
READMEs of `garde_i18n` and `garde_schema` have them.

A fault has a code and parameters, as `CodeI18n` prints them. A language is a table from codes to texts. A rule is a function from a
value to a fault or None, with values near to its bounds, which inputs are made of.
"""
import re
import typing
import unicodedata

from lib import tables, urls

# What is not of a type, and what is wrong by a code, in English.
WANTED, FAULTS = (dict(line.split(": ", 1) for line in it.text.splitlines()) for it in tables.cases("english"))
BITS = (8, 16, 32, 64, 128)
INTEGERS = {**{f"u{bits}": (0, 2**bits - 1) for bits in BITS}, **{f"i{bits}": (-(2 ** (bits - 1)), 2 ** (bits - 1) - 1) for bits in BITS}}
ENGLISH = {
    **FAULTS, "wrong_form": lambda wanted, found: WANTED[wanted],
    "out_of_range": lambda of: "out of range: {} to {}".format(*INTEGERS[of]), "own": "{text}",
}


class Fault(typing.NamedTuple):
    """What is wrong in a place."""
    code: str
    params: dict

    def text(self, language):
        said = language[self.code]
        return said.format(**self.params) if isinstance(said, str) else said(**self.params)

    def coded(self):
        """The code and the parameters as programs print them: a reason by its name, and nothing of a message of an author's."""
        params = {name: urls.NAMES[it] if self.code == "url_invalid" else it for name, it in self.params.items()}
        return ("custom", {}) if self.code == "own" else (self.code, params)


def fault(code, **params):
    return Fault(code, {name: str(value) for name, value in params.items()})


class Rule:
    """A rule: what it finds of a value, and values near to its bounds. Of the library's rules only those of ranges are a bound, which
    is asked of the nearest number too."""

    def __init__(self, find, near=(), is_bound=False):
        self.find, self.near, self.is_bound = find, near, is_bound


def within(size, code, least, most):
    """What a bound finds: the lower one is asked first."""
    if least is not None and size < least:
        return fault(f"{code}_lower_than", min=least)
    return fault(f"{code}_greater_than", max=most) if most is not None and size > most else None


def ends(least, most):
    """The numbers at two bounds and beyond."""
    return [end + by for end in (least, most) if end is not None for by in (-1, 0, 1)]


def measured(measure, letters, least, most):
    sizes = [size for size in ends(least, most) if 0 <= size < 1000]
    near = [letter * (size // measure(letter)) for letter in letters for size in sizes]
    return Rule(lambda text: within(measure(text), "length", least, most), near)


def chars(least=None, most=None):
    """The length of a text in Unicode scalar values."""
    return measured(len, "aé𝄞", least, most)


def length(least=None, most=None):
    """The length of a text in bytes."""
    return measured(lambda text: len(text.encode("utf-8")), "aé𝄞", least, most)


def items(least=None, most=None):
    """How many items a list has, or members an object."""
    return Rule(lambda count: within(count, "length", least, most), [size for size in ends(least, most) if 0 <= size <= 101])


def between(least=None, most=None):
    return Rule(lambda number: within(number, "range", least, most), ends(least, most), is_bound=True)


def of_texts(holds, found, *near):
    return Rule(lambda text: None if holds(text) else found, near)


def prefix(pattern):
    near = (pattern, pattern + "1", pattern.lower(), " " + pattern, pattern + "é")
    return of_texts(lambda text: text.startswith(pattern), fault("prefix_missing", pattern=pattern), *near)


def suffix(pattern):
    near = (pattern, "a" + pattern, pattern + "a", pattern.upper())
    return of_texts(lambda text: text.endswith(pattern), fault("suffix_missing", pattern=pattern), *near)


def matches(pattern, *near):
    """A pattern of the toolchain's `regex`, whose `$` is the end of the text alone."""
    compiled = re.compile(pattern.replace("$", r"\Z"))
    return of_texts(lambda text: compiled.search(text) is not None, fault("pattern_no_match", pattern=pattern), *near)


def is_alphanumeric(letter):
    """Letters and numbers. A mark that is Alphabetic, which the rule lets pass too, stands in no input here."""
    return unicodedata.category(letter)[0] == "L" or unicodedata.category(letter) in ("Nd", "Nl", "No")


ASCII = of_texts(str.isascii, fault("ascii_invalid"), "é", "\x7f", "\x80")
LETTERS = ("漢字½", "Ⅷ", "a-1", "a b", "é٣", "a\n")
ALPHANUMERIC = of_texts(lambda text: all(map(is_alphanumeric, text)), fault("alphanumeric_invalid"), *LETTERS)
REQUIRED = Rule(lambda value: fault("required_not_set") if value is None else None)
URLS = ("https://example.org/screw", "x", "http://", "https://é.example/", "mailto:a@example.org")
URL = Rule(lambda text: fault("url_invalid", reason=urls.url_fault(text)) if urls.url_fault(text) else None, URLS)


def asks(message, holds):
    """A rule of an author's, with a message of its own."""
    return of_texts(holds, fault("own", text=message))


def first(rules, value):
    """What the first of these rules that finds something finds."""
    return next((found for found in (rule.find(value) for rule in rules) if found), None)
