"""The languages of the catalogs: the texts of faults, as the tables of `garde_catalog` have them, and which language a field
`Accept-Language` (RFC 9110, section 12.5.4) or a tag asks for, by the look-up of RFC 4647, section 3.4.

A language is a table from codes to texts, as in `faults`.
"""
import re

from lib import catalog
from lib.faults import ENGLISH, INTEGERS

# Tags under which a language is offered too.
OTHER_TAGS = {"pt": "pt-BR", "zh-CN": "zh-Hans", "zh-SG": "zh-Hans", "zh": "zh-Hans"}
TAG = "[A-Za-z]{1,8}(?:-[A-Za-z0-9]{1,8})*"
RANGE = re.compile(rf"[ \t]*({TAG})[ \t]*(?:;[ \t]*[qQ]=(0(?:\.[0-9]{{0,3}})?|1(?:\.0{{0,3}})?)[ \t]*)?")
# What is wrong with a text of a file is no message of a table, so its sentence is that of the library in each language.
TEMPLATE_FAULTS = {
    "template_place_unknown": "has a name in braces that is no parameter of this text",
    "template_place_missing": "lacks a parameter in braces",
    "template_brace_stray": "has a brace that does not close or does not open",
}
NO_JSON = {
    "not UTF-8": "not_utf8", "not JSON": "not_json", "nested deeper than 128": "nested_too_deep", "a lone surrogate": "lone_surrogate",
}


def wanted_code(wanted):
    """The code of the message that something else is wanted, as `not_one_member` of `OneMember`."""
    return "not" + re.sub("([A-Z])", r"_\1", wanted).lower()


def url_text(said, english):
    """The text of a URL that is none: its reason stands in the same language."""
    codes = {text: code for code, text in english.items() if code.startswith("url_") and code != "url_invalid"}
    return lambda reason: said["url_invalid"].format(reason=said[codes[reason]])


def language(said, english):
    """A language, by its texts."""
    return {
        **{code: said[code] for code in ENGLISH if code in said},
        "wrong_form": lambda wanted, found: said[wanted_code(wanted)],
        "out_of_range": lambda of: said["out_of_range"].format(least=INTEGERS[of][0], greatest=INTEGERS[of][1]),
        "url_invalid": url_text(said, english), "own": "{text}", **TEMPLATE_FAULTS,
    }


# The texts: by their tag, and then by their code.
# Of each language what a file of texts may have.
TEXTS = {tag: {code: text for code, text in catalog.tables()[table] if code in catalog.needed()} for table, tag in catalog.offered().items()}
LANGUAGES = {tag: language(said, TEXTS["en"]) for tag, said in TEXTS.items()}
# What a form says of a field.
OF_FIELDS = {tag: {code: text for code, text in catalog.tables()[table] if code.startswith("field_")} for table, tag in catalog.offered().items()}


def tag_of(given, tags=(*LANGUAGES, *OTHER_TAGS)):
    """The tag that is offered and that a range asks for: the longest that cutting subtags off its end comes to."""
    subtags = given.lower().split("-")
    offered = {tag.lower(): tag for tag in tags}
    return next((offered["-".join(subtags[:count])] for count in range(len(subtags), 0, -1) if "-".join(subtags[:count]) in offered), None)


def asked(field, tags=(*LANGUAGES, *OTHER_TAGS)):
    """The tag that a field asks for, of these: of the greatest weight, the first. An element that is not of the grammar is passed over."""
    best, most = None, 0.0
    for element in field.split(","):
        found = RANGE.fullmatch(element)
        weight = float(found.group(2) or 1) if found else 0.0
        if weight > most and (tag := tag_of(found.group(1), tags)):
            best, most = tag, weight
    return best


def said_in(tag):
    """The texts under a tag, by their codes."""
    return TEXTS[OTHER_TAGS.get(tag, tag)]


def of_tag(tag):
    """The language of a tag that is offered."""
    return LANGUAGES[OTHER_TAGS.get(tag, tag)]


def no_json(why, said):
    """The pattern of why bytes are no JSON, by the texts of a language, by that in English."""
    reasons, line, column = re.fullmatch(r"\(?(.*?)\)? at line (\d+) column (\d+)", why).groups()
    texts = (said[NO_JSON[reason]].format(line=line, column=column) for reason in reasons.split("|"))
    return f"({'|'.join(map(re.escape, texts))})"
