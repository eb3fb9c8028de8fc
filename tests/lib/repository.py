"""The repository: its files and its crates."""
import functools
import pathlib
import re
import subprocess

ROOT = pathlib.Path(__file__).resolve().parent.parent.parent


@functools.cache
def files():
    """The files that git tracks, or would."""
    listed = subprocess.run(
        ["git", "ls-files", "--cached", "--others", "--exclude-standard"],
        cwd=ROOT, check=True, capture_output=True, text=True,
    )
    return [name for name in listed.stdout.splitlines() if (ROOT / name).is_file()]


@functools.cache
def text_of(name):
    """The text of a file, or an empty one where it is not there."""
    file = ROOT / name
    return file.read_text(encoding="utf-8", errors="replace") if file.is_file() else ""


def write(name, text):
    """Writes a file, and the folder that it is in."""
    (ROOT / name).parent.mkdir(parents=True, exist_ok=True)
    (ROOT / name).write_text(text, encoding="utf-8")


def lines_of(name):
    """The lines of a file with their numbers."""
    return list(enumerate(text_of(name).splitlines(), 1))


@functools.cache
def libraries(root=ROOT):
    """The crates of the crates.txt of a repository in its order, each with the libraries on its line."""
    text = (root / "crates.txt").read_text(encoding="utf-8", errors="replace")
    rows = [line.partition("#")[0].partition(":") for line in text.splitlines()]
    return {name.split()[0]: uses.split() for name, _, uses in rows if name.strip()}


def folder(root=ROOT):
    """The folder of a repository that has the folders of its crates."""
    return root / "crates" if (root / "crates").is_dir() else root


def top(crate):
    """The folder of the repository that a crate in a folder is of: the nearest above with a crates.txt that lists it, or None."""
    return next((it for it in crate.parents if (it / "crates.txt").is_file() and crate.name in libraries(it)), None)


def crates():
    """The names of the crates of crates.txt."""
    return list(libraries())


def stating():
    """The crates whose public functions promise something: the product's, and the examples."""
    return [name for name in crates() if re.match(r"(garde|example)(_|$)", name)]


def below(crate, root=ROOT):
    """The crates of a repository below one, each after those that it lists."""
    found = []
    for it in libraries(root)[crate]:
        if it in libraries(root):
            found += [other for other in [*below(it, root), it] if other not in found]
    return found
