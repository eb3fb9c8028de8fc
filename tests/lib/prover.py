"""Checks of edited crates by the prover, and what it says of each function."""
import pathlib
import shutil
import subprocess
import tempfile

from explaining.quick import kit, words_of
from lib import repository
from lib.edits import source_of
from lib.verdicts import functions_of, without_answers

CRATES = repository.ROOT / "crates"


def command(crate, functions, jobs, root=repository.ROOT, verb="check"):
    """A check of some functions of a crate, over the libraries as they were built last, by so many jobs."""
    libraries, crates, words = repository.libraries(root), repository.folder(root), words_of(crate, root, verb)
    for it in ("std", *libraries[crate]):
        folder = crates / it / "out/rlib" if it in libraries else kit() / "rlibs"
        words += ["--extern", f"{it}={folder}/{it}.rlib"]
    for it in repository.below(crate, root):
        words += ["-L", f"dependency={crates}/{it}/out/rlib"]
    words += ["--jobs", str(jobs)]
    for it in functions:
        words += ["--only", it]
    return words


def edited(crate, edits, room):
    """Copies the crate into a folder, with these edits."""
    copied(CRATES / crate, room)
    for path in {span[0] for it in edits for span in it.spans}:
        lines, text, at = source_of(crate, path).split("\n"), [], 0
        for _, first, end, new in sorted((s for it in edits for s in it.spans if s[0] == path), key=lambda s: s[1:3]):
            text += lines[at:first] + new
            at = end
        pathlib.Path(room, path).write_text("\n".join(text + lines[at:]), encoding="utf-8")
    for it in edits:
        if it.unanswered:
            leave_out_answers(it, room)


def copied(folder, room):
    """Copies what a check reads of a crate into a folder."""
    for part in ("src", "specs", "proofs"):
        if (folder / part).is_dir():
            shutil.copytree(folder / part, f"{room}/{part}")


def leave_out_answers(edit, room):
    """Takes the answers of some goals out of the proof of an edit's function."""
    for file in pathlib.Path(room).rglob("proofs/**/Answers.antt"):
        if edit.function.partition("::")[2] in functions_of(str(file.parent.relative_to(room))):
            text = without_answers(file.read_text(encoding="utf-8"), edit.unanswered)
            file.write_text(text, encoding="utf-8")


def checked(crate, edits, kept, jobs):
    """The lines that a check prints of the crate with these edits."""
    with tempfile.TemporaryDirectory(prefix="wrong-bodies-") as room:
        edited(crate, edits, room)
        functions = [it.function.partition("::")[2] for it in edits]
        return run(["nice", *command(crate, functions, jobs)], room, kept)


def run(words, room, kept):
    """The lines that a check prints in a folder, over the folder of what earlier checks kept."""
    return lines([*words, "--incremental", kept], room)


def lines(words, room):
    """The lines that a command prints in a folder."""
    how = {"stdin": subprocess.DEVNULL, "stdout": subprocess.PIPE, "stderr": subprocess.STDOUT, "errors": "replace"}
    return subprocess.run(words, cwd=room, text=True, **how).stdout.splitlines()


def unbuilt(crates, root=repository.ROOT):
    """The libraries below these crates that are missing, or older than a source, lowest first."""
    for name in dict.fromkeys(it for crate in crates for it in repository.below(crate, root)):
        made = repository.folder(root) / name / f"out/rlib/{name}.rlib"
        below = [*repository.below(name, root), name]
        folders = [repository.folder(root) / it / part for it in below for part in ("src", "specs", "proofs")]
        newest = max(file.stat().st_mtime for folder in folders for file in folder.rglob("*.*"))
        if not made.is_dir() or made.stat().st_mtime < newest:
            yield name


def build(crates, root=repository.ROOT):
    """Builds the libraries below these crates that are missing, or older than a source."""
    for name in unbuilt(crates, root):
        subprocess.run(["rt", "lib"], cwd=repository.folder(root) / name, check=True, stdout=subprocess.DEVNULL)


def toolchain(folder, script):
    """A folder with what the toolchain's has, but for clang: this script is in its place."""
    real, made = kit() / "toolchain", folder / "bin" / "clang"
    made.parent.mkdir(parents=True)
    (folder / "lib").symlink_to(real / "lib")
    for it in (real / "bin").iterdir():
        if it.name != "clang":
            (folder / "bin" / it.name).symlink_to(it)
    made.write_text(script, encoding="utf-8")
    made.chmod(0o755)
    return folder


def static_library(crate, made, root=repository.ROOT, tools=None, target="x86_64-unknown-linux-gnu"):
    """Proves a crate and builds the static library of it, over the libraries as they were built last; with other tools over what
    `rt lib` kept of the crate, too. Gives what is wrong, or an empty text."""
    folder = repository.folder(root) / crate
    words = [*command(crate, (), 1, root, "build"), "--crate-type", "staticlib", "--target", target]
    words += ["--incremental", "out/incremental"] if tools and (folder / "out" / "incremental").is_dir() else []
    words += ["--toolchain", tools or kit() / "toolchain", "-o", made]
    done = subprocess.run(list(map(str, words)), cwd=folder, stdin=subprocess.DEVNULL, capture_output=True, text=True, errors="replace")
    return "" if done.returncode == 0 else (done.stdout + done.stderr).strip()[-2000:]
