"""The files of a crate with what is needed of it alone."""
import functools
import re

from lib import paths

from .cited import CITED, DECLARED, LIB
from .sources import IMPORT, NAME, Node, names_in, way_of

LISTS = re.compile(r"(?:(?:pub )?mod \w+\s*|pub use [^\n]*\s*)+")
MOD = re.compile(r"(?:pub )?mod (\w+)")
LEFT_OUT = "// What nothing in this repository needs is left out here: call tools/vendor again when something does.\n"


def pruned(tree, keeps, way=""):
    """A tree of `use` with the names that are kept, or nothing. `keeps` is asked with each whole path."""
    head, brace, rest = tree.strip().partition("{")
    if not brace:
        return head if keeps(way + head) else ""
    parts = [it for it in (pruned(part, keeps, way + head) for part in paths.split(rest.rstrip()[:-1])) if it]
    if len(parts) == 1 and parts[0] != "self":
        return head + parts[0]
    return f"{head}{{{', '.join(parts)}}}" if parts else ""


class Slice:
    """What is needed of a crate."""

    def __init__(self, sources, need, crate):
        self.sources, self.need, self.crate, self.names = sources, need, crate, functools.cache(self.read_names)

    def files(self):
        """Its files. One that holds all that it held is as it was."""
        sources = {it.file: it for it in self.crate.root.all() if it.file}
        made = {}
        for path, text in self.crate.files.items():
            if path in sources:
                made[path] = self.source(sources[path]).encode() if self.is_kept(sources[path]) else None
            elif path.endswith(".antt"):
                made[path] = self.definitions(path, text.decode()).encode()
            else:
                made[path] = text
        made = {path: text for path, text in made.items() if text or not self.crate.files[path]}
        root = self.crate.root.file
        if made != self.crate.files and root in made:
            made[root] = re.sub(rb"(?://![^\n]*\n)*", lambda it: it[0] + LEFT_OUT.encode(), made[root], count=1)
        return made

    def is_kept(self, module):
        """Whether something is needed of a module, or a path leads through it."""
        if module is module.crate.root or module in self.need.modules:
            return True
        return any(map(self.need.has, module.nodes)) or any(map(self.is_kept, module.below.values()))

    # Sources.

    def source(self, module):
        text, cuts = module.source.text, sorted(self.cuts(module))
        if not cuts:
            return text
        left, at = "", 0
        for start, end, new in cuts:
            left += text[at:start] + new if new else text[at:start].rstrip(" \t")
            at = end if new else end + text[end:].startswith("\n")
        left = (left + text[at:]).strip("\n") + "\n"
        for many, few in ((r"\n[ \t]+(?=\n)", "\n"), (r"\n{3,}", "\n\n"), (r"\{\n\n+", "{\n"), (r"\n\n+(?=\s*\}\n)", "\n")):
            left = re.sub(many, few, left)
        return left

    def cuts(self, module):
        """What is cut out of a source, with what is put there."""
        for it in module.source.items:
            if it.kind == "mod" and not self.is_kept(module.below[it.name]):
                yield whole(module.source, it)
            elif it.kind == "use":
                yield from self.cut_use(module, it)
            elif it.kind == "ghost use" and not self.is_said(module.source.text[it.head : it.end]):
                yield whole(module.source, it)
        for node in module.nodes:
            if not self.need.has(node):
                yield whole(module.source, node.item)
                continue
            yield from (whole(module.source, it.item) for it in node.members if it not in self.need.live)
            yield from derives(module.source, node.item) if node not in self.need.live else ()

    def cut_use(self, module, item):
        """A `use` with the names alone that lead to what is there."""
        text = module.source.text[item.head : item.body]
        begin = IMPORT.match(text).group()
        used = self.names(module) if not begin.startswith("pub") else None

        def keeps(tree):
            path, _, name = tree.partition(" as ")
            way = way_of(path)
            way = way[:-1] if way[-1] == "self" else way
            return self.is_there(module, way, name.strip() or way[-1], used)

        left = pruned(text[len(begin) :], keeps)
        if NAME.findall(left) != NAME.findall(text[len(begin) :]):
            yield (item.head, item.end, f"{begin}{left};") if left else whole(module.source, item)

    def is_there(self, module, way, name, used):
        """Whether a name of a `use` leads to what is there and, where it is not public, used or a trait."""
        found = self.sources.lead(module, way)
        if not found:
            at = [it for it in self.sources.lead(module, way[:-1]) if not isinstance(it, Node) and way[-1] in it.scope]
            return any(map(self.is_kept, at)) if at else way[0] not in (*self.sources.crates, *module.below, "crate", "self", "super")
        if used is not None and name not in used and not any(isinstance(it, Node) and it.item.kind == "trait" for it in found):
            return False
        return any(self.need.has(it) if isinstance(it, Node) else self.is_kept(it) for it in found)

    def read_names(self, module):
        """The names in what is needed of a module and of those below it."""
        nodes = [it for below in module.all() for one in below.nodes for it in (one, *one.members) if self.need.has(it)]
        found = set()
        for it in nodes:
            found.update(names_in(it.text(it.module.source.blank)), re.findall(r"\{(\w+)", it.text(it.module.source.text)))
            for _, text in self.need.texts(it):
                found.update(names_in(text))
        return found

    # Definitions and proofs.

    def definitions(self, path, text):
        """What is needed of a file of definitions or proofs: all, nothing, or of a list of such files the lines of those that are there."""
        if path != LIB and path != "proofs/Lib.antt" and not self.need.cited.has(self.crate.name, path):
            return ""
        if not LISTS.fullmatch(text):
            return text
        folder = path.removesuffix(".antt").removesuffix("/Lib")
        return "".join(it for it in text.splitlines(True) if self.is_listed(folder, it))

    def is_listed(self, folder, line):
        """Whether a line of a list of files names what is there."""
        below = MOD.match(line)
        return self.need.cited.has(self.crate.name, f"{folder}/{below[1]}.antt") if below else self.is_said(line)

    def is_said(self, text):
        """Whether the definitions that a line imports are there."""
        found = [it for *it, listed in CITED.findall(text) if it[0] in self.sources.crates and not listed]
        return all(self.is_defined(*it) for it in found)

    def is_defined(self, crate, kind, place):
        """Whether a path of definitions leads to what is there."""
        cited = self.need.cited
        if place.startswith(DECLARED):
            return any(map(self.need.has, cited.declared(crate, place)))
        return cited.has(crate, cited.file(crate, kind, place))


def whole(source, item):
    """Where an item begins and ends, with its comments and attributes, and without those of the module that it may be the first of."""
    head = re.match(r"(?:(?://!|#!\[)[^\n]*\s*)*", source.text[item.start : item.head])
    return item.start + head.end(), item.end, ""


def derives(source, item):
    """What is derived of a type: of one that definitions alone speak of nothing is."""
    for found in re.finditer(r"#\[derive", source.blank[item.start : item.head]):
        start = item.start + found.start()
        yield start, source.close(start + 1), ""
