"""Programs, described by the words of `lib.form` after their READMEs: what each is to answer to an input, and random inputs of it.

A module of a program has `some(dice)`, which makes a case, `wanted(case)`, the answer, and may have `met(program, case)`, which runs
the program on a case; else it is run once. It may have `large()`, cases of more bytes, rows or faults than fit in a buffer or in a
batch, which are tried before the first random one, and `knows(case)`, which says whether it describes a stored case. An answer is a
tuple of values. A pattern stands for each text that it matches.
"""
import contextlib
import pathlib
import re
import tempfile
import typing

from lib.programs import answer_of


class Case(typing.NamedTuple):
    """A run: the words of the command line, the bytes of the input, how they were spoiled, and the files that the words name, each with
    its bytes."""
    words: tuple
    given: bytes
    ways: frozenset = frozenset()
    files: tuple = ()


def run(program, case, cwd=None):
    """What one run of a program answers. Files stand in a folder of their own."""
    with tempfile.TemporaryDirectory() if case.files else contextlib.nullcontext(cwd) as folder:
        for name, body in case.files:
            pathlib.Path(folder, name).write_bytes(body)
        return answer_of([program, *case.words], case.given, folder)


def fits(wanted, met):
    """Whether an answer is the one that is wanted."""
    return all(part == it or isinstance(part, re.Pattern) and isinstance(it, bytes) and part.fullmatch(it) for part, it in zip(wanted, met))


def pattern(text):
    return re.compile(text.encode("utf-8"), re.DOTALL)
