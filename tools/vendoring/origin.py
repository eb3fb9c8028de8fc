"""The repository that is copied, as its last commit has it."""
import io
import os
import re
import subprocess
import tarfile
from dataclasses import dataclass

# The product, and the examples that programs to copy stand on as they are.
PRODUCT = re.compile(r"(garde(_\w+)?|example_import|example_table)$")
# Programs that are copied with an example, which is the reader's to change too: it is called NAME_form then. The functions for C of
# such a program, which begin with a prefix, begin with NAME.
WITH_FORM = {"use_library": ("example_order", "order")}
LICENCES = ("LICENSE-MIT", "LICENSE-APACHE")
# Mutants, which the prover has to reject: a test of the crates' contracts, which is run where the crates are written.
NOT_COPIED = ("must-fail", "wrong-bodies")
# The commands that write modules of sources with attributes, and that say what does not compile, which stand in the copy under the
# same paths, and the modules of tests that the second one takes, which stand below it there.
COMMANDS = ("tools/port-garde", "tools/why")
TOOL = (*COMMANDS, "tools/port_garde/", "tools/explaining/")
SHARED = ("__init__", "paths", "repository", "source")
# What is read of the repository.
READ = ("crates.txt", "crates/", "tests/lib/", *LICENCES, *TOOL)
PROGRAM_FILES = ("stdin", "stdout", "args", "status")
PROGRAM_SOURCES = ("src", "specs", "proofs")
LINK = re.compile(r"\[([^]]+)\]\(\.\./([^)/]+)/([^)]+)\)")
TOLD = "A copy of `{program}` of `garde` by `tools/vendor`. The tests and documents that it names are in that repository."


class Refusal(Exception):
    """Why nothing is copied, in one line."""


@dataclass(frozen=True)
class Line:
    """A line of crates.txt: a crate, the words between its name and the colon, and the crates that it lists."""

    name: str
    options: tuple
    uses: tuple

    def text(self, name=None):
        return f"{' '.join((name or self.name, *self.options))}:{''.join(f' {it}' for it in self.uses)}"


def read_line(text):
    """The crate that a line of crates.txt names, or None."""
    before, colon, after = text.partition("#")[0].partition(":")
    words = before.split()
    return Line(words[0], tuple(words[1:]), tuple(after.split())) if colon and words else None


def is_product(name):
    return PRODUCT.match(name) is not None


def names_of(program, copy):
    """The names of the copies of a program's crates, lowest first."""
    form = {WITH_FORM[program][0]: f"{copy}_form"} if program in WITH_FORM else {}
    return {**form, program: copy}


def renamed(text, names, before=""):
    """Bytes of a source with other names. One that ends in `_` is the beginning of a name. `before` is what has to stand before them."""
    words = "|".join(it if it.endswith("_") else rf"{it}\b" for it in names)
    return re.sub(rf"{before}\b(?:{words})".encode(), lambda found: names[found.group().decode()].encode(), text)


def readme_of(text, program, names):
    """The README of a program under the names of its copy. A link to what is not copied becomes the path of that."""

    def linked(found):
        text, first, rest = found.groups()
        if is_product(first) or first in names:
            return found[0]
        return f"{text} (`{rest if first == '..' else f'crates/{first}/{rest}'}` of `garde`)"

    text = LINK.sub(linked, text.decode()).replace(f"lib{program}.a", f"lib{names[program]}.a")
    title, _, rest = renamed(text.encode(), names, "(?<!FOLDER )").decode().partition("\n")
    return f"{title}\n\n{TOLD.format(program=program)}\n{rest}".encode()


class Origin:
    """The repository at `root`. Everything is read from the last commit."""

    def __init__(self, root):
        self.root = root
        try:
            top = self.git("rev-parse", "--show-toplevel").strip()
            self.commit, self.date = self.git("log", "-1", "--format=%H %cs").split()
        except Refusal as refusal:
            raise Refusal(f"{root} is no git repository with a commit, so that the copy could not say what it is of: {refusal}")
        if os.path.realpath(top) != os.path.realpath(root):
            raise Refusal(f"{root} is a part of the repository {top}: call tools/vendor of a clone")
        self.texts = dict(self.read())
        for it in ("crates.txt", *LICENCES):
            if it not in self.texts:
                raise Refusal(f"{root}: there is no {it}")
        lines = filter(None, map(read_line, self.texts["crates.txt"].decode().splitlines()))
        self.lines = {it.name: it for it in lines}

    def read(self):
        """The paths of what may be copied, each with what the file holds, or None of what is no plain file."""
        with tarfile.open(fileobj=io.BytesIO(self.git("-c", "core.autocrlf=false", "archive", self.commit, binary=True))) as archive:
            for it in archive:
                if it.name.startswith(READ) and not it.isdir():
                    yield it.name, archive.extractfile(it).read() if it.isfile() else None

    def git(self, *words, binary=False):
        """The output of a git command."""
        kept = {name: value for name, value in os.environ.items() if not name.startswith("GIT_")}
        try:
            env = {**kept, "LC_ALL": "C"}
            ended = subprocess.run(["git", "-C", self.root, *words], stdin=subprocess.DEVNULL, capture_output=True, env=env, check=False)
        except FileNotFoundError:
            raise Refusal("there is no command `git`") from None
        if ended.returncode:
            raise Refusal((ended.stderr.decode(errors="replace").strip() or f"git {words[0]} failed").splitlines()[0])
        return ended.stdout if binary else ended.stdout.decode()

    def closure(self, asked):
        """The product's crates among these with all that they stand on, lowest first, as crates.txt has them."""
        found, ahead = set(), list(asked)
        while ahead:
            name = ahead.pop()
            if name not in found:
                found.add(name)
                ahead += [self.own(it, name) for it in self.lines[name].uses if it in self.lines]
        return [it for it in self.lines.values() if it.name in found]

    def own(self, name, user):
        """A crate of this repository that another one lists; only the product's are copied."""
        if not is_product(name):
            raise Refusal(f"{user} cannot be copied: it stands on {name}, which is no crate of the product")
        return name

    def program(self, name):
        """The lines of the crates that are copied as a program, lowest first: that of its form, if it has one, and its own."""
        if name not in self.lines or not name.startswith("use_"):
            known = ", ".join(it for it in self.lines if it.startswith("use_"))
            raise Refusal(f"{name} is no program to copy: those are {known}")
        lines = [self.lines[it] for it in names_of(name, name)]
        for line in lines:
            for it in line.uses:
                if it in self.lines and self.lines[it] not in lines:
                    self.own(it, line.name)
        return lines

    def tool_paths(self):
        """Where the files of the commands stand here, by their paths in a copy."""
        shared = {f"tools/explaining/lib/{it}.py": f"tests/lib/{it}.py" for it in SHARED}
        own = {it: it for it in self.texts if it.startswith(TOOL) and not it.endswith(".md")}
        return own | {place: it for place, it in shared.items() if it in self.texts}

    def crate_files(self, name):
        """The files of a crate by their paths in it, but for its mutants."""
        return {path: it for path, it in self.files(f"crates/{name}").items() if path.split("/")[0] not in NOT_COPIED}

    def program_files(self, name, program, copy):
        """The files of a crate of a program, under the names of its copy. Its header for C is written anew."""
        names, kept = names_of(program, copy), {}
        if name == program and program in WITH_FORM:
            prefix = WITH_FORM[program][1]
            names |= {f"{prefix}_": f"{copy}_", f"{prefix}_".upper(): f"{copy}_".upper()}
        for path, it in self.files(f"crates/{name}").items():
            first, *more = path.split("/")
            if first in PROGRAM_SOURCES and more:
                kept[path] = renamed(it, names)
            elif path in PROGRAM_FILES or first == "data":
                kept[path] = it
            elif path == "README.md":
                kept[path] = readme_of(it, name, names)
        return kept

    def refuse_changes(self, paths):
        """Refuses files that differ from the last commit."""
        changed = self.git("status", "--porcelain", "--untracked-files=all", "--", *paths).splitlines()
        if changed:
            raise Refusal(f"{self.root}: {changed[0][3:]} has a change with no commit, so that the copy could not say what it is of")

    def files(self, folder):
        """The files under a folder by their paths in it."""
        found = {path: text for path, text in self.texts.items() if path.startswith(f"{folder}/")}
        for path in (path for path, text in found.items() if text is None):
            raise Refusal(f"{path} is no plain file")
        return {path.removeprefix(f"{folder}/"): text for path, text in found.items()}
