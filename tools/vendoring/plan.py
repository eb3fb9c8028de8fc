"""What is to be copied into a folder, and why it may not be."""
import pathlib
import re
import subprocess
import tempfile
from dataclasses import dataclass

from .begun import PROGRAM, begun_of
from .needed import Needed
from .origin import LICENCES, TOOL, Line, Refusal, is_product, names_of
from .record import Record, hash_of
from .slices import Slice
from .sources import Crate, Sources

NAMES = re.compile(r"[a-z][a-z0-9_]*$")


@dataclass(frozen=True)
class Copy:
    """A crate that is the reader's from then on: its name, its line and its files."""

    name: str
    line: str
    files: dict


@dataclass(frozen=True)
class Program:
    """A program to begin with: its name, the program that it is a copy of, its crates, lowest first, and the command to run it."""

    name: str
    source: str
    copies: tuple
    run: str
    told: tuple = ()


@dataclass(frozen=True)
class Plan:
    """What is to be copied: the crates, lowest first, their files by their paths, the record of it all, a program, and where what is
    needed alone is copied, a sentence about it."""

    crates: tuple
    files: dict
    record: Record
    program: Program
    told: str


def plan_of(origin, folder, more, program, name, is_whole):
    """Reads what is to be copied, and refuses what cannot be. `is_whole` says of the names of libraries whether all of them is."""
    for it in more:
        known(origin, it, f"{it} is no crate of the product")
    for it in folder.record.asked:
        known(origin, it, f"{it}, which VENDORED-garde asks for, is a crate of the product no more")
    begun = begun_of(origin.root, program, name) if program and program.endswith(".rs") else None
    name, program = (name or begun.module, PROGRAM) if begun else (name or program, program)
    sources = origin.program(program) if program else []
    sources = [begun.line(it) for it in sources] if begun else sources
    listed = [it for line in (*folder.own_lines(), *sources) for it in line.uses]
    listed = [it for it in listed if it in origin.lines and is_product(it) and it not in folder.own_names()]
    asked = tuple(sorted({"garde", *folder.record.asked, *more, *listed}))
    crates = origin.closure(asked)
    lines, paths = [*crates, *sources], origin.tool_paths()
    tool = {place: origin.texts[path] for place, path in paths.items()}
    origin.refuse_changes(["crates.txt", *LICENCES, *(f"crates/{it.name}" for it in lines), *(TOOL if tool else ()), *paths.values()])
    copied = program_of(origin, folder, sources, name, begun) if program else None
    refuse_names(folder, crates, lines)
    folder.refuse_tool(tool)
    whole = is_whole([it.name for it in crates])
    files, told = files_of(origin, folder, crates, copied, set(asked) - set(listed) - {"garde"}, whole)
    files |= {**{f"garde/{it}": origin.texts[it] for it in LICENCES}, **tool}
    record = Record(origin.commit, origin.date, asked, is_whole=whole)
    for it in crates:
        record.add(it)
    record.files = {path: [hash_of(text)] for path, text in files.items()}
    folder.refuse_changes()
    return Plan(tuple(crates), files, record, copied, told)


def files_of(origin, folder, lines, program, asked, is_whole):
    """The files of libraries by their paths, and a sentence where they are what is needed alone. What was asked for by name, and
    no crate of the folder lists, is whole."""
    texts = {it.name: origin.crate_files(it.name) for it in lines}
    own, empty = ([], []) if is_whole else own_crates(folder, program.copies if program else (), set(texts))
    if not own:
        told = "" if is_whole else "all of them, since no source of yours says what it needs"
        return {f"{name}/{path}": text for name, files in texts.items() for path, text in files.items()}, told
    files, kept, every = needed_of([Crate(it.name, it.uses, texts[it.name]) for it in lines], own, asked & set(texts))
    told = f"of their {every} functions the {kept} that {', '.join(it.name for it in own)} may need"
    told += f" ({', '.join(empty)} has no sources yet)" if empty else ""
    return {f"{name}/{path}": text for (name, path), text in files.items()}, told


def known(origin, name, told):
    if name not in origin.lines or not is_product(name):
        raise Refusal(f"{told}: those are {', '.join(filter(is_product, origin.lines))}")


def program_of(origin, folder, sources, name, begun):
    """The program to begin with, under its name, of a Rust source where there is one. Its own line is the last one."""
    program = sources[-1].name
    if not NAMES.match(name):
        raise Refusal(f"{name} cannot be the name of a crate: lower-case letters, digits and `_`, a letter first")
    names, used = names_of(program, name), {it for line in sources for it in line.uses}
    copies = []
    for source in sources:
        copy = names[source.name]
        if is_product(copy) or copy in used - set(names):
            raise Refusal(f"{copy} cannot be the name of a crate of yours: it is the name of one that the program stands on")
        if folder.record.begun != name:
            folder.refuse_taken(copy, "yours already: choose another name for the program")
        line = Line(copy, source.options, tuple(names.get(it, it) for it in source.uses)).text()
        files = origin.program_files(source.name, program, name)
        copies.append(Copy(copy, line, begun.files(files) if begun else files))
    if begun:
        return Program(name, f"{program} that reads `{begun.kind}`", tuple(copies), "rt try < body.json", begun.told)
    return Program(name, program, tuple(copies), run_of(sources[-1], copies[-1].files))


def run_of(line, files):
    """The command that runs a program with these files."""
    if "staticlib" in line.options:
        return "rt lib"
    words = files["args"].decode().split() if "args" in files else []
    return " ".join(["rt try", *(["--", *words] if words else []), *(["< stdin"] if "stdin" in files else [])])


def refuse_names(folder, crates, lines):
    """Refuses crates whose names the folder uses for others, or whose toolchain crates it does. Sources of a program, which are among
    the lines, get other names."""
    for it in crates:
        if it.name not in folder.record.lines:
            folder.refuse_taken(it.name, "a crate of that name is there, which is not a copy of ours")
    strange = folder.own_names() - {it.name for it in lines}
    for line in lines:
        for it in line.uses:
            if it in strange:
                raise Refusal(f"{folder.path}/crates.txt: {it} is a crate of yours, and {line.name} stands on the toolchain's of that name")


# ---- what is needed of libraries

def own_crates(folder, copied, product):
    """The crates of a folder that list a library, or a crate of the folder that does, with those that are about to be copied there
    for the reader, and the names of those of them that have no sources yet."""
    files = {it.name: (it.uses, read_files(folder.place(it.name))) for it in folder.own_lines()}
    files.update({it.name: (it.line.partition(":")[2].split(), it.files) for it in copied})
    above = set(product)
    while more := {name for name, (uses, _) in files.items() if above.intersection(uses)} - above:
        above |= more
    users = {name: it for name, it in files.items() if name in above}
    empty = [name for name, (_, files) in users.items() if not files.keys() & {"src/lib.rt", "src/main.rt"}]
    return [Crate(name, *it) for name, it in users.items() if name not in empty], empty


def read_files(top):
    """The sources, definitions and proofs of a crate as they lie there."""
    files = [it for part in ("src", "specs", "proofs") for it in (top / part).rglob("*") if it.suffix in (".rt", ".antt")]
    return {str(it.relative_to(top)): it.read_bytes() for it in files if it.is_file()}


def needed_of(libraries, own, whole):
    """The files of libraries with what is needed of them alone, by their crates and paths, and how many of their functions these have.
    `own` are the crates that need them. Of the libraries in `whole` everything is."""
    sources = Sources([*libraries, *own])
    needed = Needed(sources, [*(it.name for it in own), *whole])
    every = [it for library in libraries for it in library.nodes()]
    files = {(it.name, path): text for it in libraries for path, text in Slice(sources, needed, it).files().items()}
    files |= laid_out({key: text for key, text in files.items() if key[1].endswith(".rt") and text != sources.crates[key[0]].files[key[1]]})
    return files, sum(functions(it) for it in every if it in needed.live), sum(map(functions, every))


def laid_out(files):
    """Sources in the layout that `rt ci` asks for, where the command `rt` is there to give it."""
    with tempfile.TemporaryDirectory(prefix="vendor.") as top:
        places = {key: pathlib.Path(top, "src", *key) for key in files}
        for key, place in places.items():
            place.parent.mkdir(parents=True, exist_ok=True)
            place.write_bytes(files[key])
        try:
            subprocess.run(["rt", "fmt"], cwd=top, stdin=subprocess.DEVNULL, capture_output=True, check=False)
        except OSError:
            return files
        return {key: place.read_bytes() for key, place in places.items()}


def functions(node):
    """How many functions a node has, those of its members not among them that are nodes themselves."""
    return 1 if node.item.kind == "fn" else sum(it.kind == "fn" for it in node.item.members) if not node.is_own_block else 0
