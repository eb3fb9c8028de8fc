"""The places of the code that make an answer of out of memory or of a failed device, against the list of them.

Such a place is a line of a crate that states something which makes such an answer in place of handing one on by `?`, or asks for
room of a size that the function chooses. `tests/memory-places.md` lists each with whose failure it hands on.
"""
import collections
import functools
import re

from lib import code, paths, repository, source

LIST = "tests/memory-places.md"
COLUMNS = "| file | function | the line | whose refusal it hands on |"
# An answer of out of memory or of a failed device by its name, or what makes one of another answer.
MAKES = (
    r"\b(AllocError|AllocFailed|Memory|OutOfMemory|PatternRefused::Other|fmt::Error)\b"
    r"|\b(map_err|ok_or|ok_or_else|or_else|unwrap_or\(Err|from_residual)\b"
    r"|\b(with_capacity|reserve|reserve_exact|try_reserve|repeat|resize|resize_with|vec!)[(\[]"
    r"|\bErr\((Failed|RunError::Read|RunError::Write)\)|\b(Default|\w*Error|\w*Refused|Failed)::default\(\)"
)
LEAKS = r"\b(forget|ManuallyDrop|MaybeUninit|leak|into_raw)\b"
RENAMES = (
    r"\b(AllocError|AllocFailed|Memory|OutOfMemory|Failed|\w+Refused|\w*Error|forget|ManuallyDrop|MaybeUninit)\s+as\s+\w"
    r"|\buse (std|core)::(fmt|io)::(\w+::)*(\{[^}]*\b)?Error\b"
)


def makes(line):
    """Whether a line makes such an answer: its types and the patterns of an arm are left out."""
    line, before = line.replace("->", ""), ""
    while line != before:
        line, before = re.sub(r"<[^<>=]*>", "", line), line
    line = re.sub(r":\s*[\w:]*\b(AllocError|AllocFailed)\b", "", line.partition(" => ")[2] or re.sub(r"\blet .* = ", "", line))
    return re.search(MAKES, line) is not None


def function_at(text, at):
    """The function that a place stands in, under the name of its type or trait, or an empty name."""
    inside = [it for it in text.functions() if it.head <= at < it.end]
    trait, of = paths.block_of(text, inside[-1]) if inside else ("", "")
    return "::".join(filter(None, [of or trait, *(it.name for it in inside[-1:])]))


@functools.cache
def code_of(crate):
    """The lines of a crate's code outside tests, without clauses and ghost items: the file, the number, where it begins and the line."""
    left_out = ("ghost", "ghost use", "use", "enum")
    return [
        (name, *it) for name in code.files_of(crate)
        for it in code.lines_without(source.read(repository.text_of(name)), left_out, clauses=True)
    ]


def made():
    """The lines that make such answers: the file, the function and the line, each with its places."""
    found = collections.defaultdict(list)
    for crate in repository.stating():
        for name, number, at, line in code_of(crate):
            if makes(line):
                function = function_at(source.read(repository.text_of(name)), at)
                found[name.removeprefix("crates/"), function, line.strip().rstrip(",;")].append(f"{name}:{number}")
    return found


def listed():
    """The rows of the list: the file, the function and the line, each with its places."""
    found, in_table = collections.defaultdict(list), False
    for number, line in repository.lines_of(LIST):
        in_table = line == COLUMNS or (in_table and line.startswith("|"))
        if in_table and line.startswith("| `"):
            *cells, whose = [cell.strip() for cell in line.strip("|").split(" | ")]
            found[tuple(cell.strip("`") for cell in cells)].append(f"{LIST}:{number}" if whose else "")
    return found


def faults():
    """The places that the list lacks, its rows without a place, and places that hide one or keep a value from being dropped."""
    places, rows = made(), listed()
    for key, where in places.items():
        if len(where) > len(rows.get(key, [])):
            yield f"{where[0]}: a refusal that {LIST} does not list: {key[2]}"
    for key, where in rows.items():
        if len(where) > len(places.get(key, [])) or "" in where:
            yield f"{where[0]}: no such line makes a refusal: {key[2]}"
    for crate in repository.stating():
        for name in repository.files():
            if name.startswith(f"crates/{crate}/src/") and re.search(RENAMES, repository.text_of(name)):
                for number, line in repository.lines_of(name):
                    if re.search(RENAMES, line) and not re.match(r"\s*(//|ghost )", line):
                        yield f"{name}:{number}: a refusal under another name: {line.strip()}"
        for name, number, _, line in code_of(crate):
            if re.search(LEAKS, line):
                yield f"{name}:{number}: a value is not dropped: {line.strip()}"
