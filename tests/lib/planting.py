"""Edits that are planted in a copy of files of the repository, to see that a test finds them.

An edit has a line `file:`, and below it `old:` and `new:`, one line each, where the text of `old:` stands once in the file; further
pairs apply to what the earlier ones made. Without `old:` the line is added to the end of the file, which is made if it is not there.
"""


class Unplanted(Exception):
    """Why an edit cannot be planted."""


def lines_of(edit):
    """The lines of an edit: the key and the text of each."""
    lines = (line.partition(":") for line in edit.read_text(encoding="utf-8").splitlines())
    return [(key, text.removeprefix(" ")) for key, _, text in lines]


def values(edit, key):
    """The texts of an edit behind a key."""
    return [text for other, text in lines_of(edit) if other == key]


def plant(edit, room):
    """Changes the files of an edit in a copy."""
    file, old = None, None
    for key, text in lines_of(edit):
        if key == "file":
            file, old = room / text, None
        elif key == "old":
            old = text
        elif key == "new":
            before = file.read_text(encoding="utf-8") if file.exists() else ""
            if old is not None and before.count(old) != 1:
                raise Unplanted(f"{old} stands {before.count(old)} times in {file.relative_to(room)}")
            file.write_text(f"{before}{text}\n" if old is None else before.replace(old, text), encoding="utf-8")
