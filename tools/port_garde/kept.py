"""The sources of a crate that stay: each `src/NAME.garde.rs` gives the module `src/NAME.rt` beside it."""
import hashlib
import os
import pathlib
import re
import tempfile

from .tokens import shown

END = ".garde.rs"
NAME = re.compile(r"[a-z_][a-z0-9_]*")
HEAD = "{mark} Written by tools/port-garde from {name}: edit that file, not this one. Its sum is {sum}."
WRITTEN = re.compile(rb"(?://|--) Written by tools/port-garde from (\S+): edit that file, not this one\. Its sum is ([0-9a-f]{16})\.\n")


def sum_of(body, crate):
    """The sum of a module, which is the same under another name of its crate."""
    return hashlib.sha256(body.replace(f"Rattle.{crate}.".encode(), b"Rattle..")).hexdigest()[:16]


def headed(text, source, crate, mark="//"):
    """A module, or a file of answers, behind the line that says from which file it is written."""
    body = text.encode("utf-8")
    return HEAD.format(mark=mark, name=source.name, sum=sum_of(body, name_of(crate))).encode("utf-8") + b"\n" + body


def name_of(crate):
    return crate.resolve().name


def sources_of(crate):
    """The sources of a crate, and what is said of those that are none."""
    sources = sorted((crate / "src").rglob(f"*{END}"))
    found, modules = [], {}
    for source in sources:
        names = names_of(crate, source)
        wrong = [it for it in names if not NAME.fullmatch(it)]
        if wrong:
            found.append(f"{shown(source)}: the module `{shown(wrong[0])}`, which is no name in small letters")
        elif names in (("lib",), ("main",)):
            found.append(f"{shown(source)}: the root of a crate, which is written by hand")
        elif names in modules:
            found.append(f"{shown(source)}: the module `{names[-1]}` has two sources: {shown(modules[names])} too")
        modules[names] = source
    if not sources:
        found.append(f"{shown(crate)}: there is no file `src/NAME{END}`")
    return sources, found


def names_of(crate, file, end=END):
    """The names of the module that a source gives, from the root of its crate on. `shop/mod.garde.rs` gives `shop`, as `shop.garde.rs`."""
    names = (file.parent / file.name[: -len(end)]).relative_to(crate / "src").parts
    return names[:-1] if names[-1] == "mod" and names[1:] else names


def output_of(source):
    return source.with_name(source.name[: -len(END)] + ".rt")


def old(output):
    """What stands in an output, or nothing."""
    try:
        return output.read_bytes()
    except FileNotFoundError:
        return None


def first_difference(file, given, source):
    """The number of the first line that differs, and what it is here and there. Sums in the first lines differ where others do."""
    lines, others = file.split(b"\n"), given.split(b"\n")
    heads = list(map(WRITTEN.match, (file, given)))
    start = int(all(heads) and heads[0][1] == heads[1][1] and lines[1:] != others[1:])
    differing = (at for at, (it, other) in enumerate(zip(lines, others)) if it != other and at >= start)
    at = next(differing, min(len(lines), len(others)))
    return at + 1, f"here stands {quoted(lines, at)}, and {source.name} gives {quoted(others, at)}"


def quoted(lines, at):
    return f"`{shown(lines[at].decode('utf-8', 'backslashreplace'))}`" if at < len(lines) else "the end of the file"


def fault_of_check(output, source, given, crate):
    """Why an output is not what its source gives, or nothing."""
    file = old(output)
    if file is None:
        return f"{shown(output)}: it is not there: write it by `tools/port-garde --write`"
    if file == given:
        return None
    line, told = first_difference(file, given, source)
    return f"{shown(output)}:{line}: {told}"


def fault_of_write(output, source, given, crate):
    """Why an output may not be written, or nothing: what was written or edited by hand is kept."""
    file = old(output)
    head = WRITTEN.match(file or b"")
    is_as_written = head and sum_of(file[head.end() :], name_of(crate)).encode() == head[2]
    if file in (None, given) or is_as_written:
        return None
    line, told = first_difference(file, given, source)
    how = "edited" if head else "written"
    return f"{shown(output)}:{line}: this file was {how} by hand: {told}. Move the edit to {source.name} or another module, or drop it by `--force`"


def strays(crate, outputs):
    """The files that were written, and that no source gives any more."""
    for file in [*sorted((crate / "src").rglob("*.rt")), *sorted((crate / "proofs").rglob("*.antt"))]:
        try:
            head = WRITTEN.match(file.read_bytes()[:400]) if file.is_file() and file not in outputs else None
        except OSError as error:
            yield f"{shown(file)}: {error.strerror or error}"
            continue
        if head:
            name = shown(head[1].decode("utf-8", "backslashreplace"))
            is_there = (crate / "src").joinpath(file.relative_to(crate / "src").parent, name).is_file() if file.suffix == ".rt" else any((crate / "src").rglob(name))
            yield f"{shown(file)}: it is written from {name}, which {'does not give it any more' if is_there else 'is not there'}: remove it"


def put(output, given):
    """Writes a file as a whole: one that is cut off leaves what stood there."""
    mask = os.umask(0)
    os.umask(mask)
    mode = output.stat().st_mode & 0o777 if output.exists() else 0o666 & ~mask
    place, name = tempfile.mkstemp(prefix=f".{output.name}.", dir=output.parent)
    try:
        with open(place, "wb") as file:
            file.write(given)
            file.flush()
            os.fsync(file.fileno())
        os.chmod(name, mode)
        os.replace(name, output)
    except BaseException:
        pathlib.Path(name).unlink(missing_ok=True)
        raise


def faults_of(given, judge):
    """What is said of outputs, each with its source, what that gives, and its crate."""
    for output, (source, text, crate) in given.items():
        try:
            told = judge(output, source, text, crate)
        except OSError as error:
            told = f"{shown(output)}: {error.strerror or error}"
        if told:
            yield told


def write(output, source, text, crate):
    """Writes an output that is not what its source gives, and prints its name."""
    if old(output) != text:
        output.parent.mkdir(parents=True, exist_ok=True)
        put(output, text)
        print(f"{shown(output)}: written")
