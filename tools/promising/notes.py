"""What is written by hand, in docs/reference/promises/: the head of the page, what stands above the table of a crate, and lists
of what the script does not find."""
import functools
import re

from lib import functions, repository

from . import promised

FOLDER = "docs/reference/promises"
HEAD, CRATES = f"{FOLDER}/head.md", f"{FOLDER}/crates.md"


def sections(name):
    """The sections of a document, each with its text under its heading."""
    parts = re.split(r"^## (.*)\n", repository.text_of(name), flags=re.M)
    return dict(zip(parts[1::2], (text.strip() for text in parts[2::2])))


@functools.cache
def lines(name):
    """The lines of a list that is kept by hand: before the colon what stands there, and behind it the rest of the line."""
    return re.findall(r"^- `([^`]+)`: (.*)$", repository.text_of(f"{FOLDER}/{name}.md"), re.M)


@functools.cache
def given(name):
    """What a list gives to which function, or to what stands above it, in its order."""
    return [(what, it) for what, names in lines(name) for it in re.findall(r"`([^`]+)`", names)]


@functools.cache
def tests():
    """The tests of each function: those that are found, and those that are given by hand to it, or, where it has none of these,
    to what stands above it."""
    found = {name: list(names) for name, names in promised.found_tests().items()}
    for test, name in given("tests"):
        if name in found and test not in found[name]:
            found[name].append(test)
    without = [name for name, names in found.items() if not names]
    for test, above in given("tests"):
        for name in (it for it in without if it.startswith(f"{above}::")):
            found[name].append(test)
    return found


@functools.cache
def mutants(crate):
    """The mutants of each public function of a crate, and the others by the path of the function that they change."""
    found, handed = promised.mutants(crate), {mutant for mutant, _ in given("mutants")}
    by_name = {name: list(found.of.get(name, [])) for name in functions.public(crate)}
    for mutant, name in given("mutants"):
        if name in by_name:
            by_name[name].append(mutant.removeprefix(f"{crate}/"))
    others = {path: [it for it in titles if f"{crate}/{it}" not in handed] for path, titles in found.others.items()}
    return by_name, {path: titles for path, titles in others.items() if titles}


def faults():
    """The lines of the lists that name what is not there, or give what is found."""
    every, found = promised.every(), promised.found_tests()
    for test, name in given("tests"):
        under = [it for it in every if it.startswith(f"{name}::")]
        if test not in promised.tests():
            yield f"{FOLDER}/tests.md: there is no test {test}"
        elif name in every and test in found[name]:
            yield f"{FOLDER}/tests.md: {test} is found for {name}"
        elif name not in every and not any(test in tests()[it] and test not in found[it] for it in under):
            yield f"{FOLDER}/tests.md: " + (f"no function under {name} lacks a test" if under else f"there is no function {name}")
    for mutant, name in given("mutants"):
        crate, _, title = mutant.partition("/")
        if title not in promised.planted(crate):
            yield f"{FOLDER}/mutants.md: there is no mutant {mutant}"
        elif name not in every:
            yield f"{FOLDER}/mutants.md: there is no function {name}"
        elif title in promised.mutants(crate).of.get(name, []):
            yield f"{FOLDER}/mutants.md: {mutant} is found for {name}"
    yield from (f"{FOLDER}/besides.md: there is no function {name}" for name, _ in lines("besides") if name not in every)
