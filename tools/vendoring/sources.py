"""The sources of crates as names: the modules of each crate, their items, and where a path leads."""
import functools
import re

from lib import code, paths, source
from lib.paths import imports, way_of

NAME = re.compile(r"[A-Za-z_]\w*")
PATH = re.compile(r"(?<![\w'$])(?<!(?<!\.)\.)(?<!\bfn )(?:\$crate|[A-Za-z_]\w*)(?:\s*::\s*[A-Za-z_]\w*)*")
IMPORT = re.compile(r"(?:pub(?:\s*\([^)]*\))?\s+)?use\s+")
CALL = re.compile(r"((?:(?:\$crate|\w+)\s*::\s*)*\b\w+)!\s*[(\[{]\s*(\w*)")


@functools.lru_cache(maxsize=4096)
def without_ghosts(text):
    """A source without comments, texts, clauses and ghost items: what is compiled of it."""
    return code.without_ghosts(text, text.blank)


@functools.cache
def ways_in(text):
    return frozenset(way_of(found) for found in PATH.findall(text))


@functools.cache
def names_in(text):
    return frozenset(NAME.findall(text))


@functools.cache
def calls_in(text):
    """The calls of macros in a text: the path of each, and the first word."""
    return frozenset(found.groups() for found in CALL.finditer(text))


class Node:
    """An item of a source, or a function of an impl block that is of no trait: what is left out or copied as a whole."""

    def __init__(self, module, item, owner=None):
        self.module, self.item, self.owner = module, item, owner
        self.members, self.trait, self.of, self.parameters = [], "", "", set()
        if item.kind == "impl":
            self.parameters, self.trait, self.of = paths.head_of(module.source, item)
        if self.is_own_block:
            self.members = [Node(module, it, self) for it in item.members if it.kind == "fn"]

    @property
    def is_own_block(self):
        """Whether it is an impl block of no trait, whose functions are nodes of their own."""
        return self.item.kind == "impl" and not self.trait

    def text(self, of):
        """What a text of its module has of it: without the functions that are nodes of their own."""
        text, at = "", self.item.start
        for it in self.members:
            text += of[at : it.item.start]
            at = it.item.end
        return text + of[at : self.item.end]

    def place(self):
        """The names by which the prover calls it within its crate."""
        return (*self.module.path, *paths.inner_path(self.module.source, self.item))


class Module:
    """A module: its source, its items, the modules below it, and its scope, which has of each name where it leads: to items, to
    modules, or by a path. A module that stands in the file of another one has the source of that one, and `block` is its item."""

    def __init__(self, crate, path, file, text=None, block=None):
        self.crate, self.path, self.file = crate, path, file
        self.source = text or source.read(crate.files.get(file, b"").decode(errors="surrogateescape"))
        self.code = without_ghosts(self.source)
        self.nodes, self.below, self.scope = [], {}, {}
        for it in block.members if block else self.source.items:
            self.read(it)

    def read(self, item):
        """Reads an item into the scope."""
        if item.kind == "mod":
            path = (*self.path, item.name)
            is_file = self.source.blank[item.body : item.body + 1] == ";"
            place = (f"src/{'/'.join(path)}.rt",) if is_file else ("", self.source, item)
            self.below[item.name] = Module(self.crate, path, *place)
            self.name(item.name, self.below[item.name])
        elif item.kind == "use":
            tree = IMPORT.sub("", self.source.blank[item.head : item.body], count=1)
            for way, name in imports(tree):
                self.name(name, way)
        elif item.kind != "ghost use":
            node = Node(self, item)
            self.nodes.append(node)
            if item.kind != "impl" and item.name:
                self.name(item.name, node)
            if item.kind == "macro_rules!" and "macro_export" in self.source.attributes(item):
                self.crate.exported.append(node)

    def name(self, name, target):
        self.scope.setdefault(name, []).append(target)

    def all(self):
        """This module and all below it."""
        yield self
        for it in self.below.values():
            yield from it.all()

    def above(self):
        """This module and those that it stands in."""
        return [self.crate.module(self.path[:n]) for n in range(len(self.path), -1, -1)]


class Crate:
    """A crate: its name, the crates that it lists, and its files by their paths."""

    def __init__(self, name, uses, files):
        self.name, self.uses, self.files, self.exported = name, uses, files, []
        self.root = Module(self, (), "src/lib.rt" if "src/lib.rt" in files else "src/main.rt")
        for it in self.exported:
            self.root.name(it.item.name, it)

    def module(self, path):
        return functools.reduce(lambda module, name: module.below[name], path, self.root)

    def nodes(self):
        """Each item, and each function of an impl block that is a node of its own."""
        for module in self.root.all():
            for it in module.nodes:
                yield from (it, *it.members)


class Sources:
    """Some crates, by their names."""

    def __init__(self, crates):
        self.crates, self.passed, self.known = {it.name: it for it in crates}, set(), {}

    def lead(self, module, way):
        """The items and modules that a path leads to from a module. What stands behind an item is a member of it. The modules
        that the path goes through are added to `passed`."""
        if (module, way) not in self.known:
            before, self.passed = self.passed, set()
            self.known[module, way] = self.walk(module, way, ()), self.passed
            self.passed = before
        found, passed = self.known[module, way]
        self.passed |= passed
        return found

    def walk(self, module, way, seen):
        """Where a path leads. `seen` are the names on the way here, which lead nowhere a second time."""
        first, *more = way
        at = self.begin(module, first, seen)
        for name in more:
            at = [it for one in at for it in self.step(one, name, seen)]
        return at

    def begin(self, module, name, seen):
        """What the first name of a path leads to."""
        if name in ("crate", "$crate"):
            return [module.crate.root]
        if name in ("self", "super"):
            return module.above()[:1] if name == "self" else module.above()[1:2]
        at = [it for one in module.scope.get(name, ()) for it in self.follow(module, one, seen)]
        for way in module.scope.get("*", ()):
            if (module, way, name) not in seen:
                at += self.walk(module, (*way[:-1], name), (*seen, (module, way, name)))
        is_crate = not at and name in self.crates and name in (*module.crate.uses, module.crate.name)
        return [self.crates[name].root] if is_crate else at

    def step(self, at, name, seen):
        """What a name leads to from an item or a module."""
        if isinstance(at, Node):
            return [at]
        self.passed.add(at)
        if name == "super":
            return at.above()[1:2]
        return [it for one in at.scope.get(name, ()) for it in self.follow(at, one, seen)]

    def follow(self, module, target, seen):
        """Where a name of a scope leads."""
        if not isinstance(target, tuple):
            return [target]
        mark = (module, target)
        return [] if mark in seen else self.walk(module, target, (*seen, mark))

    def items(self, module, way):
        """The items alone that a path leads to."""
        return [it for it in self.lead(module, way) if isinstance(it, Node)]

    def macros(self, module, text):
        """The macros of these crates that a text calls, each with the bodies of the arms that such a call may take."""
        for path, word in calls_in(text):
            for it in set(self.called(module, way_of(path))):
                yield it, [body for pattern, body in arms_of(it) if takes(pattern, word)]

    def called(self, module, way):
        """The macros that a path calls in a module."""
        found = self.items(module, way)
        found += [it for above in module.above() for it in above.nodes if way == (it.item.name,)]
        return [it for it in found if it.item.kind == "macro_rules!"]


def arms_of(macro):
    text, item = macro.module.source, macro.item
    at, found = text.blank.index("{", item.head) + 1, []
    while start := re.compile(r"[(\[{]").search(text.blank, at, item.end - 1):
        at = text.close(start.start())
        found.append(text.blank[start.start() : at])
    return list(zip(found[::2], found[1::2]))


def takes(pattern, word):
    """Whether an arm of this pattern may take a call whose first word is this one."""
    first = re.match(r"[(\[{]\s*(\w+)", pattern)
    return not first or first[1] == word
