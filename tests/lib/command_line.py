"""The words of a command line that programs share, by the README of `garde_command`: `-` and `--format`, and `--language`."""
import re
import typing

from lib import languages

FORMATS = ("short", "json", "github")
# Tags that words ask for: of languages that are offered, of their countries, and of none, and ill-formed ones.
TAGS = ("en", "de", "DE-at", "cs", "zh", "zh-Hant", "pt-PT", "ar", "ja", "sv", "tlh", "", "cs-", "cs--CZ", "de-\n")


class Asked(typing.NamedTuple):
    """What words ask for: the other words, a format, and the tag of a language, or None where there is no such language."""
    rest: list
    form: str
    tag: typing.Optional[str]


def asked(words):
    rest, form, tag, left = [], "", "en", iter(words)
    for word in left:
        if word == "--language":
            tag = next(left, "")
            tag = languages.tag_of(tag) if re.fullmatch(languages.TAG, tag) else None
        elif word in ("-", "--format"):
            form = next(left) if word == "--format" else form or "short"
        else:
            rest.append(word)
    return Asked(rest, form or "plain", tag)


def no_language(program):
    """The answer to a tag that cannot be followed."""
    count = len(languages.LANGUAGES) + len(languages.OTHER_TAGS)
    return 2, b"", re.compile(f"{program}: --language must be followed by one of( [A-Za-z-]+){{{count}}}\n".encode())


def some_format(dice):
    """Words that ask for a format, or none."""
    return dice.choice(((), (), (), ("-",), *(("--format", it) for it in (*FORMATS, "plain"))))


def some_language(dice):
    """Words that ask for a language, or none."""
    return ("--language", dice.choice(TAGS)) if dice.random() < 0.3 else ()
