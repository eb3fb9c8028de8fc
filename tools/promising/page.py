"""The page of the promises: a head that is written by hand, and for each crate a table of its public functions."""
from collections import namedtuple

from lib import functions, repository

from . import notes, promised

COLUMNS = "| function | what it promises | clauses | tests | mutants |\n|---|---|---|---|---|\n"
OTHERS = "| other function | mutants |\n|---|---|\n"
# crates that tests reach through C alone
THROUGH_C = ("garde_library", "example_order", "use_library", "use_schemas")
# a program that is no program to copy, and crates that tests reach through the runs of programs
THROUGH_RUNS = ("garde_check", "garde_service", "example_table")
REASONS = ("C", "law", "run", "safe")

# A public function: what is said of it, and in each cell names in backquotes, one of REASONS, or nothing.
Line = namedtuple("Line", "name said clauses tests mutants")


def quoted(names):
    return ", ".join(f"`{name}`" for name in names)


def lines(crate):
    """The lines of the public functions of a crate."""
    for name, function in functions.public(crate).items():
        said = [function.docs(), *(besides for other, besides in notes.lines("besides") if other == name)]
        gives_valid = "Valid<" in function.text.header(function.item).partition("->")[2]
        stated, asked = function.clauses("ensures") or ("`Valid`" if gives_valid else "safe"), function.clauses("requires")
        # what stands for tests or mutants, where there are none: of a function that does nothing its contract is a theorem
        is_program, is_law = crate.startswith("use_"), not function.body.strip("{} \n\t")
        through = "C" if crate in THROUGH_C else "run" if crate in THROUGH_RUNS or is_program else ""
        why = through if is_program else "law" if is_law else "safe" if stated == "safe" else ""
        yield Line(
            name, " ".join(filter(None, said)).replace("|", r"\|"), stated + (f", requires {asked}" if asked else ""),
            quoted(notes.tests()[name]) or through or why, quoted(notes.mutants(crate)[0][name]) or why,
        )


def section(crate):
    """The section of a crate: its functions, and the mutants that stand at none of them."""
    rows = [f"| `{it.name}` | {it.said} | {it.clauses} | {it.tests} | {it.mutants} |" for it in lines(crate)]
    others = [f"| `{path}` | {quoted(titles)} |" for path, titles in sorted(notes.mutants(crate)[1].items())]
    above = notes.sections(notes.CRATES).get(f"`{crate}`")
    parts = [above] if above else []
    parts += [head + "\n".join(rows) for head, rows in ((COLUMNS, rows), (OTHERS, others)) if rows]
    return "\n\n".join([f"## `{crate}`", *parts])


def text():
    return "\n\n".join([repository.text_of(notes.HEAD).strip(), *map(section, promised.crates())]) + "\n"
