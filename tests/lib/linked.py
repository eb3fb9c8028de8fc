"""The library of crates/use_library as programs in other languages link it: the archive of a folder that is named, or of the
crate, and that of the toolchain beside it. `rt lib` leaves the archive in the crate. `rt ci` proves the crate and leaves none, so
it is made here, over the libraries that `rt ci` built: the prover looks at the crate once more, and at nothing below it.
"""
import importlib
import pathlib
import random
import shutil
import struct
import subprocess
import sys

from lib import extension, prover, repository
from lib.described import use_http
from lib.repository import ROOT
from lib.spoiled import some_json

from binding.callers import with_parts

CRATE = ROOT / "crates" / "use_library"
CASES = ROOT / "tests" / "called"
# All faults.
ALL = 2**32 - 1


def made(archive, crate="use_library"):
    """Makes the archive of a crate where it is missing, or older than a source. Why it cannot be made, or an empty text."""
    crates = [*repository.below(crate), crate]
    parts = [ROOT / "crates" / it / part for it in crates for part in ("src", "specs", "proofs")]
    newest = max(file.stat().st_mtime for part in parts for file in part.rglob("*.*"))
    if archive.is_file() and archive.stat().st_mtime >= newest:
        return ""
    missing = [it for it in crates[:-1] if not (ROOT / "crates" / it / "out" / "rlib").is_dir()]
    if missing:
        return f"{archive} is not there, or old: run rt ci, or rt lib in crates/{crate}"
    archive.parent.mkdir(exist_ok=True)
    return prover.static_library(crate, archive)


def archives(folder=None, crate="use_library"):
    """The two archives, in their order. They lie in a folder, or in the crate and in the toolchain."""
    if folder:
        found = [pathlib.Path(folder) / name for name in (f"lib{crate}.a", "liblibc_c.a")]
    else:
        kit = pathlib.Path(shutil.which("rt") or "/rt").resolve().parent.parent
        found = [ROOT / "crates" / crate / "out" / f"lib{crate}.a", kit / "c" / "liblibc_c.a"]
        if wrong := made(found[0], crate):
            sys.exit(wrong)
    for it in found:
        if not it.is_file():
            sys.exit(f"{it} is not there")
    return found


def shared(made, folder=None):
    """Links the shared library, as crates/use_library/README.md says."""
    library, of_kit = archives(folder)
    subprocess.run(["cc", "-shared", "-o", made, "-Wl,--whole-archive", library, "-Wl,--no-whole-archive", of_kit], check=True)
    return made


def merged(made, folder=None):
    """Makes one archive of the two."""
    lines = [f"create {made}", *(f"addlib {it}" for it in archives(folder)), "save", "end"]
    subprocess.run(["ar", "-M"], input="\n".join(lines), text=True, check=True)
    return made


def leave_parts(folder):
    """Leaves of the files of a caller what a library of a type has."""
    for it in filter(pathlib.Path.is_file, folder.rglob("*")):
        it.write_text(with_parts(it.read_text(encoding="utf-8"), takes_schema=False), encoding="utf-8")


def package(folder, built=None, flags=(), imports=True):
    """The package of callers/python, from a copy in this folder, whose extension is built over the archives, or over those of a
    folder. `lib` of the copy has the library as `tools/bind` puts it there."""
    if wrong := extension.lacks():
        sys.exit(f"callers/python is not tried: {wrong}")
    copy = folder / "python"
    made = shutil.ignore_patterns("*.so", "build", "*.egg-info", "__pycache__")
    shutil.copytree(ROOT / "callers" / "python", copy, ignore=made)
    leave_parts(copy)
    (copy / "lib").mkdir()
    shutil.copy(CRATE / "order.h", copy / "lib")
    whole = [merged(copy / "lib" / "liborder.a", built)]
    words, room = extension.words_of(copy, whole, copy / "lib", copy / "src" / "order_check" / extension.NAME)
    subprocess.run([*map(str, words), "-Wall", "-Wextra", "-Werror", *flags], cwd=room, check=True)
    if not imports:
        return None
    sys.path.insert(0, str(copy / "src"))
    return importlib.import_module("order_check")


def streamed(count):
    """So many bodies, most of them spoiled, each with its length, the most faults and the length of a tag before it."""
    dice, found = random.Random(93), bytearray()
    for _ in range(count):
        body = some_json(dice, use_http.ORDER)[0]
        found += struct.pack("<3I", len(body), dice.choice((ALL, ALL, 1, 2, 5)), dice.choice((0, 0, 2))) + body
    return bytes(found)


def cases():
    """The bodies of tests/called: each with its name, its bytes, its language, its status and its answer."""
    for case in sorted(CASES.glob("*.json")):
        language = "cs" if case.stem.endswith("-cs") else ""
        yield case.name, case.read_bytes(), language, int(case.stem[0]), case.with_suffix(".answer").read_bytes()
