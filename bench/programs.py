"""Programs that are measured and are no crates of the gate: their files end in `.rt.txt`."""
import os
import pathlib
import subprocess
import sys
import tempfile

HERE = pathlib.Path(__file__).resolve().parent
sys.path.insert(0, str(HERE.parent / "tests"))

from lib import prover, repository  # noqa: E402
from lib.prover import CRATES, kit  # noqa: E402, F401

# What each lists, as crates.txt says it of the others.
LISTED = {name: uses.split() for name, uses in (it.split(": ") for it in (HERE / "programs.txt").read_text().splitlines())}


def run(words, room):
    done = subprocess.run(words, cwd=room, stdout=subprocess.PIPE, stderr=subprocess.STDOUT, text=True)
    if done.returncode:
        sys.exit(f"the program was not built: {done.stdout[-2000:]}")


def sources(folder, room):
    """Copies the files of a program into a folder `src`."""
    source = pathlib.Path(room, "src")
    source.mkdir(parents=True)
    for it in (folder if folder.is_absolute() else HERE / folder).glob("*.rt.txt"):
        (source / it.name[: -len(".txt")]).write_text(it.read_text(encoding="utf-8"), encoding="utf-8")
    return source


def build(folder, is_library=False):
    """Proves and builds the program, or the static library, of a folder over the libraries that `rt ci` built, unless none of its
    files and of these libraries changed since. Gives where it lies, in bench/out/."""
    name = f"garde_{pathlib.Path(folder).name}"
    files, made = list((HERE / folder).glob("*.rt.txt")), HERE / "out" / (f"lib{name}.a" if is_library else name)
    own = [it for it in LISTED[folder] if it in repository.libraries()]
    libraries = {it: CRATES / it / "out/rlib" / f"{it}.rlib" for one in own for it in (*repository.below(one), one)}
    for it in own:
        if not libraries[it].exists():
            sys.exit(f"{it} is not built: rt ci builds it")
    if made.is_file() and made.stat().st_mtime > max(it.stat().st_mtime for it in (*files, *libraries.values())):
        return made
    made.parent.mkdir(exist_ok=True)
    with tempfile.TemporaryDirectory() as room:
        words = [*checked_words(folder, name, pathlib.Path(room)), "--toolchain", kit() / "toolchain"]
        if is_library:
            run([*words, "--crate-type", "staticlib", "-o", made], f"{room}/crates/{name}")
        else:
            run([*words, "-o", f"{room}/made.o"], f"{room}/crates/{name}")
            link(f"{room}/made.o", made, room)
    return made


def checked_words(folder, name, root):
    """The words of a build of a program, as that of a crate beside the others in a repository in this folder."""
    sources(pathlib.Path(folder), root / "crates" / name)
    for it in repository.crates():
        (root / "crates" / it).symlink_to(CRATES / it)
    (root / "crates.txt").write_text((CRATES.parent / "crates.txt").read_text() + f"{name}: {' '.join(LISTED[folder])}\n")
    return prover.command(name, (), os.cpu_count(), root, verb="build")


def link(made, program, room):
    words = [kit() / "bin/rattle-link", "--target", "x86_64-unknown-linux-gnu", "--toolchain", kit() / "toolchain", "-o", program, made]
    run([*words, kit() / "c/libos_c.a", kit() / "c/liblibc_c.a"], room)
