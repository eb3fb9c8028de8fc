"""The programs that `rt ci`, or `rt run` in a crate's folder, left in crates/NAME/out, and runs of them. What a run answers is its status,
its output and what it says on standard error."""
import contextlib
import functools
import os
import resource
import shutil
import signal
import subprocess
import sys
import tempfile

from lib import pages
from lib.repository import ROOT

# The stored cases. `tests/uses` says what the files of a case are.
CASES = ROOT / "tests" / "used"
LIMITS = {"stack": resource.RLIMIT_STACK, "fsize": resource.RLIMIT_FSIZE, "memory": resource.RLIMIT_AS}


def program_of(name):
    """The program of a crate, or of a folder of bench/."""
    is_measured = (ROOT / "bench" / name).is_dir()
    return ROOT / f"bench/out/unproved_{name}" if is_measured else ROOT / "crates" / name / "out" / name


def missing(script, *names):
    """The programs that are not there, a line each."""
    ways = {it: f"bench/unproved {it}" if "bench" in program_of(it).parts else f"rt ci, or rt run in crates/{it}" for it in names}
    return [f"{script}: {program_of(it)} is not there: run {ways[it]}" for it in names if not program_of(it).exists()]


def require(script, *names):
    """Ends a script where a program is not there."""
    if lacking := missing(script, *names):
        sys.exit("\n".join(lacking))


def answer_of(command, given=b"", cwd=None, limit=None, env=None, **streams):
    """What a command answers to an input, in a folder, under limits, and with some streams of its own."""
    how = {"stdout": subprocess.PIPE, "stderr": subprocess.PIPE, **({} if "stdin" in streams else {"input": given}), **streams}
    ran = subprocess.run(command, cwd=cwd, preexec_fn=limit, env=env, timeout=600, **how)
    return ran.returncode, ran.stdout, ran.stderr


def limit(most):
    """Sets limits: the most bytes of the stack, of a file and of memory. A write beyond them is refused and not punished."""
    signal.signal(signal.SIGXFSZ, signal.SIG_IGN)
    for kind, size in most.items():
        resource.setrlimit(LIMITS[kind], (size, size))


def limited(**most):
    """What sets limits in a process before it begins."""
    return functools.partial(limit, most)


def as_nobody():
    """Gives up the rights of root, who can write anywhere."""
    if os.geteuid() == 0:
        os.setuid(65534)


def loaded_before(folder, name):
    """The library that stands before the C library in a run, made of tests/NAME.c."""
    library = f"{folder}/{name}.so"
    subprocess.run(["cc", "-O1", "-shared", "-fPIC", "-o", library, ROOT / "tests" / f"{name}.c"], check=True)
    return library


def behind(library, **numbers):
    """The environment of a run behind such a library, which reads these numbers."""
    return {**os.environ, "LD_PRELOAD": library, **{name: str(it) for name, it in numbers.items()}}


def bytes_of(case, name):
    """The bytes of a file of a stored case, none where it is not there."""
    file = case / name
    return file.read_bytes() if file.exists() else b""


def wanted_of(case):
    """What a stored case wants as an answer. In its output `$STYLE` stands for the stylesheet of the pages, and `$SOURCE` for its hash."""
    output = bytes_of(case, "stdout")
    if b"$S" in output:
        output = output.replace(b"$STYLE", pages.style().encode()).replace(b"$SOURCE", pages.source().encode())
    return int(bytes_of(case, "status") or b"0"), output, bytes_of(case, "stderr")


def command_of(case, program, words="args"):
    return [program, *bytes_of(case, words).splitlines()]


@contextlib.contextmanager
def folder_of(case):
    """A folder for the run of a case, with the files that it has."""
    with tempfile.TemporaryDirectory() as folder:
        if (case / "data").exists():
            shutil.copytree(case / "data", folder, dirs_exist_ok=True)
        yield folder
