"""The code of a crate outside tests, without what a search passes over."""
import re

from lib import repository, source

WITH_CLAUSE = re.compile(r"\b(?:ensures|requires|decreases)\b(?:\s+\w+)?\s*(?=\{)")


def files_of(crate):
    """The sources of a crate outside tests."""
    ours = re.compile(rf"crates/{crate}/src/.*\.rt$")
    return [name for name in repository.files() if ours.match(name) and not re.search(r"/tests(/|\.rt$)", name)]


def blanked(text, start, end):
    """A text with spaces between two places, and its lines as they are."""
    return text[:start] + source.spaces(text[start:end]) + text[end:]


def without_ghosts(text, left):
    """What is left of a source without clauses and ghost items."""
    for found in WITH_CLAUSE.finditer(text.blank):
        left = blanked(left, found.start(), text.close(found.end()))
    for found in re.finditer(r"\bghost\b", text.blank):
        left = blanked(left, found.start(), text.ending(found.start(), len(text.blank))[1])
    return left


def lines_without(text, kinds, clauses=False):
    """The lines of a source without comments, without items of some kinds, and without clauses: the number of each, where it
    begins, and what is left of it."""
    left = source.without_comments(text.text)
    for item in text.all_items():
        if item.kind in kinds and (item.kind != "use" or clauses or item.is_public):
            left = blanked(left, item.start, item.end)
    left = without_ghosts(text, left) if clauses else left
    for number, line in enumerate(left.split("\n"), 1):
        if line.strip():
            yield number, text.lines[number - 1] + len(line) - len(line.lstrip()), line
