"""Folders with files, which a test makes and removes again."""
import contextlib
import os
import pathlib
import tempfile


def put(top, files):
    """Writes files in a folder. One that is None is removed, and one whose text begins with `-> ` is a link."""
    for path, text in dict(files).items():
        file = pathlib.Path(top, path)
        file.parent.mkdir(parents=True, exist_ok=True)
        is_link = text is not None and text.startswith("-> ")
        if text is None or is_link:
            file.unlink(missing_ok=True)
        if is_link:
            file.symlink_to(text.removeprefix("-> ").strip())
        elif text is not None:
            file.write_text(text, encoding="utf-8")


def tree(top):
    """The files of a folder, each with its text, and a link with where it leads."""
    found = {str(it.relative_to(top)): it for it in sorted(pathlib.Path(top).rglob("*")) if it.is_symlink() or it.is_file()}
    return {path: f"-> {os.readlink(it)}" if it.is_symlink() else it.read_text(encoding="utf-8") for path, it in found.items()}


@contextlib.contextmanager
def room(files=(), prefix="test-"):
    """A folder with these files."""
    with tempfile.TemporaryDirectory(prefix=prefix) as name:
        put(name, files)
        yield pathlib.Path(name)
