"""The steps of a test command: runs each, passes on what it prints, and sums up.

A step whose last line of output is `N passed, M failed`, as that of `rt ci` and of `tests/wrong-bodies`, counts as that line
says. Every other step counts as one, and so does a step that fails though its own line tells of no failure.
"""
import re
import subprocess
import sys
import time

from lib.repository import ROOT

# the steps that need no prover
QUICK = (
    "tests/documents", "tests/sources", "tests/words", "tests/layout", "tests/promises",
    "tests/ported", "tests/kept", "tests/json-schema", "tests/vendored", "tests/needed",
    "tests/languages", "tests/bind", "tests/why", "tests/finds",
)
COUNTS = re.compile(r"(?:[\w-]+: )?(\d+) passed, (\d+) failed$")


class Steps:
    """The steps that a command has run: how many checks passed and failed, and the names of the steps that failed."""

    def __init__(self, command):
        self.command, self.passed, self.failed, self.names = command, 0, 0, []

    def say(self, line):
        print(f"{self.command}: {line}", flush=True)

    def run(self, *words):
        """Runs a step, and says whether it passed."""
        start, (status, last) = time.monotonic(), ended(words)
        counts = COUNTS.match(last)
        passed, failed = map(int, counts.groups()) if counts else (int(not status), 0)
        failed = max(failed, int(status != 0))
        self.passed, self.failed = self.passed + passed, self.failed + failed
        self.names += [" ".join(words)] * (failed > 0)
        self.say(f"{' '.join(words)}: {'FAILED' if failed else 'passed'} ({time.monotonic() - start:.1f} s)")
        return not failed

    def leave_out(self, name, why):
        """Adds a step that is not run, which counts as failed."""
        self.failed, self.names = self.failed + 1, [*self.names, name]
        self.say(f"{name}: FAILED, since it was not run: {why}")

    def end(self):
        """Prints what failed and the counts. Gives the exit status."""
        if self.names:
            self.say(f"failed: {', '.join(self.names)}")
        print(f"{self.passed} passed, {self.failed} failed", flush=True)
        return 1 if self.failed else 0


def ended(words):
    """Runs a process in the repository's folder, and hands on its output line by line. Gives its status and its last line."""
    last = b""
    try:
        process = subprocess.Popen(words, cwd=ROOT, stdin=subprocess.DEVNULL, stdout=subprocess.PIPE)
    except OSError as error:
        print(f"{words[0]} cannot be run: {error.strerror}", flush=True)
        return 1, ""
    with process:
        for line in process.stdout:
            last = line if line.strip() else last
            sys.stdout.buffer.write(line)
            sys.stdout.buffer.flush()
    return process.returncode, last.decode(errors="replace").strip()
