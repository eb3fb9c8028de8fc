"""What runs of a program take: processor time and memory, and by valgrind instructions and requests for memory."""
import contextlib
import os
import re
import subprocess
import sys
import tempfile


def run(words, source=os.devnull, taken=subprocess.DEVNULL, statuses=(0,)):
    """The processor seconds and the peak memory in MiB of a run on a file. Its output goes to `taken`. A peak that is not above that
    of this script is that of this script."""
    with open(source, "rb") as given:
        child = subprocess.Popen(list(map(str, words)), stdin=given, stdout=taken)
        _, status, usage = os.wait4(child.pid, 0)
    child.returncode = os.waitstatus_to_exitcode(status)
    if child.returncode not in statuses:
        sys.exit(f"{' '.join(map(str, words))} ended with status {child.returncode}")
    return usage.ru_utime + usage.ru_stime, usage.ru_maxrss / 1024


@contextlib.contextmanager
def written(pieces):
    """The name of a file that has these pieces of bytes or of text."""
    with tempfile.NamedTemporaryFile() as file:
        file.writelines(it if isinstance(it, bytes) else it.encode() for it in pieces)
        file.flush()
        yield file.name


def answered(words, source=os.devnull, statuses=(0, 1)):
    """The processor seconds of a run on a file, and its output."""
    with tempfile.TemporaryFile() as taken:
        seconds, _ = run(words, source, taken, statuses)
        taken.seek(0)
        return seconds, taken.read()


def by_turns(programs, measure, pairs):
    """What is measured of each program, in so many turns, every other one backwards."""
    for turn in range(pairs):
        found = {it: measure(it) for it in (programs if turn % 2 else programs[::-1])}
        yield [found[it] for it in programs]


def counted(words, given=b""):
    """The instructions of a run, its requests for memory, also those that let an earlier piece grow, and its output."""
    with tempfile.NamedTemporaryFile("r") as out:
        command = ["valgrind", "--tool=callgrind", f"--callgrind-out-file={out.name}", *map(str, words)]
        output = subprocess.run(command, input=given, stdout=subprocess.PIPE, stderr=subprocess.DEVNULL).stdout
        text = out.read()
    names, requests, called = {}, 0, None
    for line in text.splitlines():
        if line.startswith(("fn=", "cfn=")):
            number, _, name = line.split("=", 1)[1].strip().partition(" ")
            name = names.setdefault(number, name)
            called = name if line[0] == "c" else called
        elif line.startswith("calls=") and called in ("malloc", "calloc", "realloc"):
            requests += int(line[6:].split()[0])
    return int(re.search(r"^(?:summary|totals): (\d+)", text, re.M)[1]), requests, output


def counts_of_each(once, twice, count):
    """The instructions and requests of each of so many steps, which the second of two runs has more: what a start takes drops out."""
    return [(b - a) / count for a, b in zip(once[:2], twice[:2])]
