"""What a crate lacks of what its written modules name: a line that declares a module, items that are written by hand, and names of a copy
of `garde` in which what was not needed is left out. Skeletons that compile as they are, those of holes, are written where they lack."""
import re

from .kept import WRITTEN, names_of, put
from .layout import use_line
from .second import group_end
from .templates import names
from .tokens import shown

SKIPPED = re.compile(r'//[^\n]*|"(?:\\.|[^"\\])*"|\'(?:\\[^\'\n]*|[^\\\'\n])\'', re.S)
USE = re.compile(r"^use ([\w:]+)::(?:\{([^}]*)\}|(\w+));", re.M)
STATED = re.compile(r"^ghost use Rattle\.(\w+)\.specs\.(?!declared\b|contracts\b)(\w+)", re.M)
LISTED = re.compile(r"^([\w]+)\b[^:#\n]*:([^#\n]*)", re.M)
CRATE = re.compile(r"^use (\w+)::|(?<![\w:])(jiff|url|uuid)::", re.M)
ALWAYS = ("crate", "self", "super", "std", "core", "alloc")
ITEM = r"\b(?:struct|enum|fn|type|trait|const|mod|macro_rules!)\s+{0}\b|\buse\b[^;]*\b{0}\b|\buse\b[^;]*::\*"
CUT = "call tools/vendor again"
OPENING = re.compile(r"(?<![\w>!\])])\s*\(")
OF_TUPLE = re.compile(r"\bimpl\b[^{;]*?\bfor\s*(\([^{]*?\))\s*(?:where\b[^{]*)?\{")


def notes_of(crate, written):
    """What a crate lacks of what modules name: their outputs, each with its text, and the beginnings of what is written by hand for it."""
    found = []
    for output, (text, begun) in sorted(written.items()):
        names = names_of(crate, output, ".rt")
        found += undeclared(crate, names, f"without it {shown(output)} is no part of the crate")
        found += unwritten(crate, output, SKIPPED.sub("", text), begun)
        found += left_out(crate, output, SKIPPED.sub("", text))
        found += unlisted(crate, output, SKIPPED.sub("", text))
    return list(dict.fromkeys(found))


def file_of(crate, names):
    """The file of a module, or None."""
    places = [f"src/{'/'.join(names)}.rt", f"src/{'/'.join([*names, 'mod'])}.rt"] if names else ["src/main.rt", "src/lib.rt"]
    return next((crate / it for it in places if (crate / it).is_file()), None)


def code_of(file):
    """The code of a file, without comments and texts in quotes."""
    return SKIPPED.sub("", file.read_text(encoding="utf-8", errors="replace"))


def undeclared(crate, names, why):
    """That the line is missing which makes a module a part of its crate."""
    above = file_of(crate, names[:-1])
    if above and not re.search(rf"\bmod\s+{names[-1]}\b", code_of(above)):
        yield f"{shown(above)}: write the line `mod {names[-1]};`: {why}"


def lacking_of(crate, output, text):
    """The modules of the crate's own that a module imports from: the names of each, its file or None, and which items it lacks."""
    for path, listed, one in USE.findall(text):
        first, *names = path.split("::")
        if first != "crate" or not names:
            continue
        file = file_of(crate, names)
        is_inline = not file and re.search(rf"\bmod\s+{names[-1]}\s*\{{", code_of(file_of(crate, names[:-1]) or output))
        if not is_inline and (file or file_of(crate, ())):
            yield names, file, [it for it in re.findall(r"\w+", listed or one) if not (file and re.search(ITEM.format(it), code_of(file)))]


def unwritten(crate, output, text, begun):
    """The items of the crate's own modules that a module imports and that are not there, each with how it begins."""
    for names, file, wanted in lacking_of(crate, output, text):
        yield from undeclared(crate, names, f"{shown(output)} takes {', '.join(wanted) or 'items'} from it")
        place = shown(file or crate / f"src/{'/'.join(names)}.rt")
        for name in wanted:
            begins = f", beginning so:\n{begun[name]}" if name in begun else ""
            yield f"{place}: {'it has no' if file else 'it is not there, with'} `{name}`, which {output.name} takes from it: write it{begins}"


def left_out(crate, output, text):
    """What a module names of libraries that is left out of their copies."""
    crates = {it: crate.parent / it for it in re.findall(r"\bgarde\w*", text)}
    cut = {name: folder for name, folder in crates.items() if (folder / "src/lib.rt").is_file() and CUT in (folder / "src/lib.rt").read_text(encoding="utf-8")}
    found = [name for path, listed, one in USE.findall(text) for name in lacking(cut, path.split("::"), re.findall(r"\w+", listed or one))]
    found += [f"{name}.specs.{file}" for name, file in STATED.findall(text) if name in cut and not (cut[name] / f"specs/{file}.antt").is_file()]
    if cut and not found:
        there = {size for folder in cut.values() for file in folder.glob("src/**/*.rt") for size in map(parts_of, OF_TUPLE.findall(code_of(file)))}
        named = {parts_of(text[it.end() - 1 : group_end(text, it.end()) + 1]) for it in OPENING.finditer(text)}
        found = [f"tuples of {it}" for it in sorted(named - there) if 2 < it < 7]
    if found:
        yield f"{shown(output)}: your copy of garde lacks {', '.join(dict.fromkeys(found))}: call `tools/vendor FOLDER` in the clone of garde again, which adds what your crates need now"


def unlisted(crate, output, text):
    """The crates that a module names and that the line of its crate does not list."""
    crate = crate.resolve()
    listing = next((it / "crates.txt" for it in crate.parents[:2] if (it / "crates.txt").is_file()), None)
    lines = dict(LISTED.findall(listing.read_text(encoding="utf-8"))) if listing else {}
    lacks = [it for it in crates_named(text) if it not in (crate.name, *lines.get(crate.name, "").split())]
    if crate.name in lines and lacks:
        yield f"crates.txt: the line of {crate.name} lacks {' '.join(lacks)}, which {output.name} names: write them there, and call `tools/vendor FOLDER` in the clone of garde again"


def crates_named(text):
    """The crates that a module names, but for those that every crate has."""
    return sorted({one or other for one, other in CRATE.findall(text)} - {*ALWAYS})


def lacking(cut, path, names):
    """Which of the names behind a path into a library are left out there."""
    folder = cut.get(path[0])
    file = folder and file_of(folder, path[1:])
    if not file or "::*" in (code := code_of(file)):
        return []
    every = "".join(map(code_of, folder.glob("src/**/*.rt")))
    return [it for it in names if not re.search(rf"\b{it}\b", code) and f"macro_rules! {it} " not in every]


def parts_of(text):
    """How many parts a tuple of this text has."""
    count, depth, part = 0, 0, ""
    for letter in re.sub(r" [<>]=? |[-=]>", "", text[1:-1]) + ",":
        depth += (letter in "([{<") - (letter in ")]}>")
        count += letter == "," and depth == 0 and bool(part.strip())
        part = "" if letter == "," and depth == 0 else part + letter
    return count


HEAD = "//! What is read elsewhere: its types, and how JSON has them.\n"
DOCS = re.compile(r"(?:(?://!|#!\[)[^\n]*\n|\n)*")
IMPORT = re.compile(r"^(?:ghost )?use [^;]*;", re.M)
MADE = re.compile(r"^pub struct (\w+)", re.M)
# Where the words of skeletons are imported from: those of statements, and those of the code.
OF_STATEMENTS, OF_CODE = (
    {name: module for module, listed in names(f"imports of the {part} of skeletons").items() for name in listed}
    for part in ("statements", "code")
)
NAME = re.compile(r"◌≡◌|\w+")


def add_skeletons(crate, written):
    """Writes the skeletons that the modules of one's own lack. Returns what could not be written."""
    for output, (text, begun) in sorted(written.items()):
        for names, file, lacks in lacking_of(crate, output, SKIPPED.sub("", text)):
            file = file or crate / f"src/{'/'.join(names)}.rt"
            # those that compile as they are
            whole = {it: begun[it] for it in lacks if begun.get(it) and "todo" not in begun[it]}
            new = [text for text in whole.values() if set(MADE.findall(text)) <= set(lacks)]
            try:
                if new:
                    file.parent.mkdir(parents=True, exist_ok=True)
                    put(file, with_skeletons(file.read_text(encoding="utf-8") if file.exists() else "", new).encode())
                    print(f"{shown(file)}: written: {', '.join(name for it in new for name in MADE.findall(it))}")
            except OSError as error:
                yield f"{shown(file)}: {error.strerror or error}"


def with_skeletons(file, texts):
    """A module with further items, and the imports that they need."""
    body, head = "\n\n".join(texts), DOCS.match(file)[0]
    stated = "".join(re.findall(r"^ +(?:ghost|ensures) .*", body, re.M)).replace("≡", "◌≡◌")
    known = set(NAME.findall("".join(IMPORT.findall(file))))
    ghosts = [f"ghost use {module}.{{{', '.join(sorted(names))}}};" for module, names in imports(OF_STATEMENTS, stated, known).items()]
    uses = [use_line(module, names) for module, names in imports(OF_CODE, body, known).items()]
    if not file:
        return "\n\n".join([HEAD + "\n".join(ghosts), "\n".join(uses), body]) + "\n"
    return head + "".join(f"{it}\n" for it in [*ghosts, *uses]) + file[len(head) :].rstrip() + f"\n\n{body}\n"


def imports(places, text, known):
    """The names of a text that are not known, by the modules that have them."""
    words, found = set(NAME.findall(text)) - known, {}
    for name in sorted(words & set(places), key=lambda it: (places[it], it)):
        found.setdefault(places[name], set()).add(name)
    return found


def is_open(hole, crate):
    """Whether any value still passes at a hole: no module that is written by hand has its type as one that keeps something else."""
    texts = [file.read_bytes() for file in crate.glob("src/**/*.rt")] if hole.name else []
    whole = "\n".join(it.decode("utf-8", "replace") for it in texts if not WRITTEN.match(it))
    kept = re.search(rf"\bstruct\s+{hole.name}\s*<'t>\s*\(\s*pub\s+KeptValue\s*<'t>", whole)
    return not hole.name or bool(kept) or not re.search(rf"\b(?:struct|enum|type)\s+{hole.name}\b", whole)
