"""Runs a command in a fork of this process. An interpreter of its own takes longer to start, and to load modules that are loaded here,
than most commands take to run."""
import functools
import multiprocessing
import os
import runpy
import subprocess
import sys
import tempfile
import unittest.mock

FORK = multiprocessing.get_context("fork")
MOST_SECONDS = 60


class Command:
    """A script with a function `main`, which is loaded here once, or in each fork, and runs in a fork. `names` are what it defines."""

    def __init__(self, script, is_loaded=True):
        self.script = str(script)
        if is_loaded:
            self.names["main"]

    @functools.cached_property
    def names(self):
        return runpy.run_path(self.script)

    def run(self, *words, cwd=None, before=lambda: None):
        """A run with these words in this folder, before which something is done: its status, and the bytes that it writes. One that does
        not end is killed."""
        with tempfile.TemporaryFile() as out, tempfile.TemporaryFile() as err:
            process = FORK.Process(target=self.within, args=(words, cwd, before, out, err))
            process.start()
            process.join(MOST_SECONDS)
            if process.is_alive():
                process.kill()
                process.join()
            written = [os.pread(it.fileno(), os.fstat(it.fileno()).st_size, 0) for it in (out, err)]
        return subprocess.CompletedProcess(words, process.exitcode, *written)

    def arguments(self, *words):
        """What the script reads of these words, which it takes."""
        with unittest.mock.patch.object(sys, "argv", [self.script, *map(str, words)]):
            return self.names["arguments"]()

    def on(self, source, *words, run=None):
        """A run with these words on a file of this text, whose name is left out of what it says."""
        with tempfile.NamedTemporaryFile(suffix=".rs") as file:
            file.write(source if isinstance(source, bytes) else source.encode())
            file.flush()
            ended = (run or self.run)(*words, file.name)
        ended.stderr = ended.stderr.replace(file.name.encode(), b"")
        return ended

    def within(self, words, cwd, before, out, err):
        """Ends this process as the script does, with standard output and standard error in these files."""
        os.dup2(out.fileno(), 1)
        os.dup2(err.fileno(), 2)
        os.chdir(cwd or ".")
        sys.argv = [self.script, *map(str, words)]
        before()
        sys.exit(self.names["main"]())
