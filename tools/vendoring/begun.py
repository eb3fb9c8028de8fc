"""A program to begin with that reads a type of a Rust source: the program `use_order`, with that type in place of its page."""
import pathlib
import re
import subprocess
import sys
import tempfile
from dataclasses import dataclass, replace

from port_garde.borrowed import below, fields_of
from port_garde.derives import type_names
from port_garde.kept import NAME
from port_garde.missing import crates_named
from port_garde.source import read_source
from port_garde.templates import sections
from port_garde.tokens import Refusals

from .origin import Refusal

PROGRAM = "use_order"
# The module of what is read elsewhere.
OWN = "own"
# The modules of the program that stay, and what is left out of its files.
STAYING = ("main", "options", "rely")
LEFT_OUT = ("README.md", "stdin", "stdout", "status", "src/order.garde.rs", "src/order.rt")
OPTIONS = re.compile(r"^//@ (.*)$", re.M)
DOCS = re.compile(r"(?://!.*\n)*")
BODY = re.compile(r"^impl(?:<'a>)? ReadBody<'a> for (\w+)(<'a>)? \{", re.M)
READ = re.compile(
    r"^pub fn (read_\w+)<(?:'a, )?H: I18n \+ FormI18n>\([^)]*most: usize,\s*(?:patterns: &(\w+Patterns),\s*)?h: &H,?\s*\)"
    r" -> Result<(.+), FirstReadError>", re.M,
)
IN_CONTEXT = re.compile(r"^pub fn read_\w+<[^>]*>\([^)]*most: usize,\s*\w+: &[^)]*\s*h: &H,?\s*\) -> Result<(?:\w+<)?(\w+)", re.M)
RELY, READ_BODY, PATTERNS, OF_BODY = sections(pathlib.Path(__file__).with_name("begun.txt")).values()
# What the program says otherwise of a type with patterns.
WITH_PATTERNS = (
    (b"use crate::rely::{accept, read_input};", b"use crate::rely::{accept, patterns, read_input};"),
    (b"    let mut scratch =", b"    let patterns = patterns(rt.alloc())?;\n    let mut scratch ="),
    (b"options.most, h)", b"options.most, &patterns, h)"),
)


def rely_of(written, module):
    """The module that says what is read, and what is done with it; and the type that is read. Or nothing."""
    result = "Result"
    if found := BODY.search(written):
        kind, life = found[1], found[2] or ""
        read = READ_BODY.format(kind=kind, life=life)
        value, imports = f"Valid<{kind}{life}>", f"{OF_BODY}\n"
    elif found := READ.search(written):
        name, patterns, value = found.groups()
        kind = re.search(r"\w+(?=<'a>|>*$)", value)[0]
        read = f"pub use crate::{module}::{name} as read_input;"
        imports = "use garde::Valid;\n" * value.startswith("Valid<") + "use std::alloc::Global;\n" * bool(patterns)
        if patterns:
            result, read = "{Result, bail}", PATTERNS.format(read=read, patterns=patterns)
    else:
        return None
    kinds = f"{{{kind}, {patterns}}}" if result != "Result" else kind
    return RELY.format(module=module, kind=kinds, result=result, imports=imports, read=read, value=value.replace("'a", "'_")) + "\n", kind


@dataclass(frozen=True)
class Begun:
    """A Rust source, by its module and its text, the modules that the port writes of it by their files, the type that is read, the module
    that reads it, and what the port says."""

    module: str
    text: str
    written: dict
    kind: str
    rely: str
    told: tuple

    def line(self, line):
        """The line of the program, with the crates that the modules name."""
        named = sorted({name for it in self.written.values() for name in crates_named(it)})
        return replace(line, uses=(*line.uses, *(it for it in named if it not in line.uses)))

    def files(self, files):
        """The files of the program with this type in place of its own."""
        kept = {path: it for path, it in files.items() if path not in LEFT_OUT}
        lines = "\n".join(f"mod {it};" for it in sorted({self.module, *(pathlib.Path(path).stem for path in self.written)}))
        kept["src/main.rt"] = kept["src/main.rt"].replace(b"mod order;", lines.encode())
        for old, new in WITH_PATTERNS if "pub fn patterns(" in self.rely else ():
            kept["src/main.rt"] = kept["src/main.rt"].replace(old, new)
        kept["src/rely.rt"] = self.rely.encode()
        kept[f"src/{self.module}.garde.rs"] = self.text.encode()
        return {**kept, **{path: it.encode() for path, it in self.written.items()}}


def begun_of(root, path, crate):
    """Reads a Rust source, and has the port write the module of it."""
    path = pathlib.Path(path)
    module = path.name.removesuffix(".rs").removesuffix(".garde")
    if module in STAYING or not NAME.fullmatch(module):
        raise Refusal(f"{path}: `{module}` cannot be the name of a module here: choose another name for the file")
    try:
        text = path.read_text(encoding="utf-8")
    except (OSError, UnicodeDecodeError) as error:
        raise Refusal(f"{path}: {getattr(error, 'strerror', None) or 'it is no UTF-8'}") from None
    text, written, says = read(root, path, with_options(path, text), crate or module, module)
    found = rely_of(written[f"src/{module}.rt"], module)
    if not found and (held := IN_CONTEXT.search(written[f"src/{module}.rt"])):
        raise Refusal(f"{path}: the rules of `{held[1]}` have a context, which your code makes: copy {PROGRAM}, and write src/rely.rt")
    if not found:
        ways = "`--spelled TYPE --first`, or `--schema --no-walk --first` of a type that holds itself"
        raise Refusal(f"{path}: of its line `//@ ` the program is not known: write {ways}; or copy {PROGRAM} and write src/rely.rt")
    rely, kind = found
    return Begun(module, text, written, kind, rely, says)


def with_options(path, text):
    """A source with the line that says which type is read: that which no other one holds, where it says nothing."""
    if OPTIONS.search(text):
        return text
    try:
        source = read_source(text)
    except Refusals as refusals:
        raise Refusal(told(path, [f"{path}:{line}: {reason}" for line, reason in refusals.lines])) from None
    read = [it for it in source.items if "Deserialize" in it.derives]
    held = {name for it in read for field in fields_of(it) for name in type_names(field.type) if name != it.name}
    tops = [it.name for it in read if it.name not in held]
    if len(tops) != 1:
        told_of = f"the types {', '.join(tops)}, of which one is read" if tops else "no type that derives `Deserialize`"
        raise Refusal(f"{path}: it has {told_of}: name it in a line `//@ --spelled TYPE` at the top")
    head, options = DOCS.match(text)[0], "--schema --no-walk" if any(map(below, read)) else f"--spelled {tops[0]}"
    return f"{head}//@ {options} --first\n{text[len(head):]}"


def read(root, path, text, crate, module):
    """A source, the modules that the port writes of it, and what it says. Where it is rejected and is not with a module of one's own, it
    gets one."""
    written, says = ported(root, text, crate, module)
    if written is None and "--own" not in text and OWN != module:
        with_own = OPTIONS.sub(rf"//@ \1 --own crate::{OWN}", text, count=1)
        second = ported(root, with_own, crate, module)
        text, (written, says) = (text, (None, says)) if second[0] is None else (with_own, second)
    if written is None:
        raise Refusal(told(path, [it.replace(f"{module}.garde.rs", str(path)) for it in says]))
    return text, written, tuple(it.replace(f"{module}.garde.rs", f"src/{module}.garde.rs") for it in says)


def ported(root, text, crate, module):
    """The modules that the port writes of a source, or None, and what it says."""
    with tempfile.TemporaryDirectory() as top:
        source = pathlib.Path(top, crate if NAME.fullmatch(crate) else module, "src", f"{module}.garde.rs")
        source.parent.mkdir(parents=True)
        source.write_text(text, encoding="utf-8")
        (source.parent / "main.rt").write_text(f"mod {module};\nmod {OWN};\n", encoding="utf-8")
        port = [sys.executable, pathlib.Path(root, "tools/port-garde"), "--write", source.parent.parent]
        ended = subprocess.run(port, capture_output=True, check=False)
        (source.parent / "main.rt").unlink()
        written = {f"src/{it.name}": it.read_text(encoding="utf-8") for it in sorted(source.parent.glob("*.rt"))}
    says = ended.stderr.decode(errors="replace").replace(f"{source.parent}/", "").splitlines()
    says = [it for it in says if not any(it.startswith(f"main.rt: write the line `mod {pathlib.Path(path).stem};`") for path in written)]
    return None if ended.returncode else written, says


def told(path, lines):
    """Why a source cannot be ported: the first reason, and where the others are."""
    return lines[0] if not lines[1:] else f"{lines[0]} (and {len(lines) - 1} more: `tools/port-garde {path}` prints them)"
