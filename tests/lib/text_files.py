"""Files of texts, by the README of `garde_catalog`: under the code of each message its text, with the
parameters in braces. A text is at fault where a brace is not that of a name, where a name is no parameter, or a parameter has no name.
"""
import re

from lib import languages
from lib.faults import Rule, fault
from lib.form import NO, Closed, Member, Object, Text
from lib.json_values import Number, Pairs

NAME = re.compile(r"\{([^{}]*)\}")
WHOLE = re.compile(r"(?:[^{}]|\{[^{}]*\})*", re.DOTALL)
# Texts that act in place of being shown, and one that is long; of a text that is no JSON the sentence is printed otherwise.
ODD = ("", "\n", "\x1b[2K", "\u202e", "é" * 5000, '"', "\\", "𝄞")
SHOWN_OTHERWISE = ("not_utf8", "not_json", "nested_too_deep", "lone_surrogate", "text_too_long")
VALUES = (True, Number("1"), [], ["a"], Pairs(), Pairs([("a", "b")]))
UNKNOWN = ("", "LengthLowerThan", "length_lower_than ", "a.b", "\n", "é", "length.lower")


def found(text, params):
    if not WHOLE.fullmatch(text):
        return fault("template_brace_stray")
    names = NAME.findall(text)
    if not set(names) <= set(params):
        return fault("template_place_unknown")
    return None if set(params) <= set(names) else fault("template_place_missing")


def template(code):
    """The rule of the text of a message, whose parameters are those of the English text."""
    params = NAME.findall(languages.TEXTS["en"][code])
    return Rule(lambda text: found(text, params), [languages.TEXTS["en"][code]])


def form(may_lack):
    """The form of a file, in which codes may be missing or not."""
    absent = None if may_lack else NO
    return Object(Closed(*(Member(code, Text(template(code)), absent) for code in languages.TEXTS["en"])))


FORMS = {may_lack: form(may_lack) for may_lack in (False, True)}


def spoiled(dice, code, text):
    """The text with a brace less or more, or another name in braces; or a value of another type."""
    at = dice.randrange(len(text) + 1)
    others = [text[:at] + dice.choice(("{", "}", "{}", "{x}", "{min}", "{max")) + text[at:], text + text, dice.choice(VALUES), ""]
    others += [text.replace(it, "") for it in "{}"] + [NAME.sub("", text)]
    if code not in SHOWN_OTHERWISE:
        others += [dice.choice(ODD) + text, text + dice.choice(ODD)]
    return dice.choice(others)


def some(dice):
    """A table, mostly of one language, and perhaps spoiled."""
    said = list(languages.TEXTS[dice.choice(list(languages.TEXTS))].items())
    odd = dice.choice((0, 0, 0, 0.02, 0.3))
    pairs = [(code, spoiled(dice, code, text) if dice.random() < odd else text) for code, text in said if dice.random() >= odd / 3]
    if dice.random() < odd:
        pairs.insert(dice.randint(0, len(pairs)), (dice.choice(UNKNOWN), "a"))
    if dice.random() < 0.3:
        dice.shuffle(pairs)
    return Pairs(pairs)


def said_by(table, fallback):
    """The texts of a table without a fault, by their codes, and of this language where it lacks one."""
    return {code: text if table.get(code) is None else table[code] for code, text in fallback.items()}
