"""What of some crates the code of others needs: the items that it leads to, and the definitions and proofs of these.

Names are followed wherever they stand, and without types, so that what is found is rather too much: a function of a type is
needed if the type is and if a function of that name is called of anything. An impl block of a trait is needed if the trait and all
types that its head names are, and one for tuples if a tuple of as many parts stands somewhere.
"""
import functools
import re

from lib import paths
from lib.source import BRACKET

from .cited import Cited
from .sources import NAME, Node, names_in, way_of, ways_in

CALLED = re.compile(r"(?<!\.)\.\s*([A-Za-z_]\w*)|>\s*::\s*(\w+)")
INLINE = re.compile(r"\{(\w+)")
FAMILY = re.compile(r"(\$crate(?:\s*::\s*\w+)*)\s*::\s*\$")
REFERENCE = re.compile(r"(?:&\s*(?:'\w+\s+)?(?:mut\s+)?)*")
TYPE = re.compile(r"(?<![\w'])[A-Za-z_]\w*(?:\s*::\s*[A-Za-z_]\w*)*")
TUPLE = re.compile(r"(?:(?:^|[=,({\[&|:;<]|=>|->|\b(?:in|return|break|match|if|let|mut|else|as|move|ref|where))\s*)\(")
PROVED = ("fn", "impl", "trait", "const", "static")
NO_TYPES = ("mut", "const", "dyn", "Self")
# The most parts of a tuple.
MOST = 16


@functools.cache
def counts(text, most):
    """How many parts the tuples of a text have: both where `<` opens a bracket and where it compares. One whose parts a macro
    repeats has any number of them up to `most`."""
    found = [it for it in map(functools.partial(inner, text), TUPLE.finditer(text)) if it is not None]
    parts = [paths.split(it) for part in found for it in (part, re.sub(r"[<>]", " ", part))]
    repeats = any(it.startswith("$(") for one in parts for it in one)
    return frozenset(map(len, parts)).union(range(most + 1) if repeats else ())


def parts_of(text):
    """How many parts a tuple has whose text this is; None of what is no tuple."""
    return len(paths.split(text[1 : text.rfind(")")])) if text.startswith("(") else None


def inner(text, opening):
    """What stands behind an opening bracket of a text, up to the one that closes it; None where none does."""
    depth = 1
    for found in BRACKET.finditer(text, opening.end()):
        depth += 1 if found.group() in "([{" else -1
        if depth == 0:
            return text[opening.end() : found.start()]
    return None


class Needed:
    """What the crates of some names need of all of `sources`. An item is live if code uses it, and shown if definitions alone
    speak of it: then it is declared, and nothing is implemented of it."""

    def __init__(self, sources, roots):
        self.sources, self.cited = sources, Cited(sources, self.show)
        self.live, self.shown, self.modules, self.ahead = set(), set(), set(), []
        self.words, self.called, self.counts = set(), set(), {0, 1}
        self.blocks = [it for crate in sources.crates.values() for it in crate.nodes() if it.item.kind == "impl"]
        for crate in (sources.crates[name] for name in roots):
            for it in crate.nodes():
                self.add(it)
            for path in crate.files:
                if path.endswith(".antt"):
                    self.cited.add(crate.name, path)
        self.go_on()

    def go_on(self):
        """Reads what is added, and what that leads to: then the impl blocks that are needed by now, and the definitions and proofs."""
        while True:
            while self.ahead:
                self.read(self.ahead.pop())
            for it in self.blocks:
                self.weigh(it)
            if not self.ahead:
                self.add_proofs()
            if not self.ahead:
                return

    def has(self, node):
        return node in self.live or node in self.shown

    def add(self, node):
        """Adds an item that code uses."""
        if node not in self.live:
            self.live.add(node)
            self.ahead.append(node)
            if node.owner:
                self.add(node.owner)

    def show(self, node):
        """Adds an item of which definitions speak."""
        if not self.has(node):
            self.shown.add(node)
            self.ahead.append(node)

    # What an item leads to.

    def read(self, node):
        """Reads what an item names."""
        self.sources.passed = self.modules
        is_live, module = node in self.live, node.module
        for modules, text in self.texts(node):
            self.read_names(modules, text, self.add if is_live else self.show, node)
            if is_live:
                self.note(modules[0], text, node)
        whole = node.text(module.source.blank)
        self.read_names([module], whole, self.show, node)
        self.read_names([module], " ".join(INLINE.findall(node.text(module.source.text))), self.add if is_live else self.show, node)
        self.sources.passed = set()
        self.read_definitions(node, names_in(whole))

    def texts(self, node):
        """The texts of an item: its own, and the bodies of the macros that it calls. With each stand the modules by whose scopes
        its names are read: those of a macro by that of the macro, of the caller, and of what the macro puts names behind."""
        texts, ahead, family, seen = [], [(node.module, node.text(node.module.code))], [], set()
        yield [node.module], ahead[0][1]
        while ahead:
            module, text = ahead.pop()
            for macro, bodies in self.sources.macros(module, text):
                body = "\n".join(bodies)
                if (macro, body) not in seen:
                    seen.add((macro, body))
                    (self.add if node in self.live else self.show)(macro)
                    family += [it for way in FAMILY.findall(body) for it in self.sources.lead(macro.module, way_of(way))]
                    texts.append((macro.module, body))
                    ahead.append((macro.module, body))
        for module, body in texts:
            yield [module, node.module, *(it for it in family if not isinstance(it, Node))], body

    def read_names(self, modules, text, add, node):
        """Adds the items that the paths of a text lead to. A trait that a clause names is used."""
        for way in ways_in(text):
            for it in (it for module in modules for it in self.sources.items(module, way)):
                if it is not node:
                    (self.add if it.item.kind == "trait" and node in self.live else add)(it)

    def note(self, module, text, node):
        """Notes the types, calls and tuples of a text, and adds the traits whose functions it calls."""
        called = {name for found in CALLED.findall(text) for name in found} | self.members(module, text)
        self.words |= names_in(text)
        self.called |= called
        if node.item.kind != "macro_rules!":
            of = parts_of(node.of.strip())
            self.counts |= counts(text, MOST if of is None else of)
        for way in module.scope:
            for it in self.sources.items(module, (way,)):
                if it.item.kind == "trait" and called & {one.name for one in it.item.members if one.kind == "fn"}:
                    self.add(it)

    def members(self, module, text):
        """The names of a text's paths that stand behind something else than a module."""
        found = set()
        for way in (it for it in ways_in(text) if len(it) > 1):
            at = self.sources.lead(module, way[:-1])
            if not at or any(isinstance(it, Node) for it in at):
                found.update(way[1:])
        return found

    def read_definitions(self, node, names):
        """Reads the definitions that an item names, by what its module imports."""
        module, crate = node.module, node.module.crate.name
        for it in module.source.items:
            text = module.source.text[it.head : it.end]
            if it.kind == "ghost use" and any(one in names or not NAME.fullmatch(one) for one in imported(text)):
                self.cited.read(text, crate)
        self.cited.read(node.text(module.source.text), crate)

    # Impl blocks.

    def weigh(self, node):
        """Adds an impl block, or some of its functions, if they are needed by now."""
        if node.is_own_block:
            if self.are_used(node, node.of):
                for it in node.members:
                    if it.item.name in self.called:
                        self.add(it)
        elif node not in self.live:
            traits = self.sources.items(node.module, way_of(node.trait.partition("<")[0].strip()))
            if not traits and node.trait == "Model":
                self.weigh_model(node)
            elif not traits or self.live.intersection(traits):
                if self.are_used(node, node.trait.partition("<")[2]) and self.are_used(node, node.of):
                    self.add(node)

    def weigh_model(self, node):
        """Adds what contracts see of a type, where they speak of it."""
        types = self.sources.items(node.module, way_of(re.match(r"[\w:]+", node.of.strip()).group()))
        if self.live.intersection(types):
            self.add(node)
        elif self.shown.intersection(types):
            self.show(node)

    def are_used(self, node, text):
        """Whether all types are in use that the head of an impl block names: those of these crates, and by their names those of
        others. Of a tuple the number of its parts is."""
        text = text[REFERENCE.match(text.strip()).end() :].strip() if text.strip().startswith("&") else text.strip()
        if (parts_of(text) or 0) not in self.counts:
            return False
        for found in TYPE.findall(text):
            way = way_of(found)
            if way[0] in node.parameters or way[0] in NO_TYPES:
                continue
            types = self.sources.items(node.module, way)
            if not (self.live.intersection(types) if types else way[-1] in self.words):
                return False
        return True

    # Definitions and proofs of what is needed.

    def place(self, node):
        """The names by which the prover calls an item within its crate: a function of a type by the module of the type."""
        of = node.owner and re.match(r"[\w:]+", node.owner.of.strip())
        types = self.sources.items(node.module, way_of(of.group())) if of else ()
        return (*types[0].module.path, types[0].item.name, node.item.name) if types else node.place()

    def add_proofs(self):
        """Adds the proofs of what is live, and the definitions that are of an item by their place."""
        for crate in self.sources.crates.values():
            kept = {"/".join(self.place(it)) for it in crate.nodes() if it in self.live and it.item.kind in PROVED and not it.is_own_block}
            shown = {f"specs/formers/{'/'.join(it.module.path)}/{it.item.name}" for it in crate.nodes() if self.has(it)}
            for path, text in crate.files.items():
                folder = path.rpartition("/")[0]
                if folder.startswith("proofs/") and is_of(folder.removeprefix("proofs/"), text, kept):
                    self.cited.add(crate.name, path)
                elif path.removesuffix(".antt") in shown:
                    self.add_formers(crate.name, path)

    def add_formers(self, crate, path):
        """Adds a file of definitions, and those above it, which list it."""
        self.cited.add(crate, path)
        for count in range(path.count("/"), 1, -1):
            self.cited.add(crate, "/".join(path.split("/")[:count]) + ".antt")


@functools.cache
def imported(text):
    """The names that a `ghost use` brings in."""
    listed = re.search(r"\.\{(.*)\}", text, re.S)
    if listed:
        return [it.strip().split(" as ")[-1] for it in paths.split(listed[1])]
    return re.findall(r"(\w+)\s*;", text)[-1:]


def is_of(folder, text, kept):
    """Whether a folder of proofs is of one of these places: its own, that of a closure in it, or that of functions that call each
    other. The folder of such has a name of its own behind `+`, and its files name the functions."""
    above, _, last = folder.rpartition("/")
    if last.startswith("+"):
        return any(f"{above}/{it}" in kept for it in set(NAME.findall(text.decode())))
    names = [it for it in folder.split("/") if it != "fn"]
    return any("/".join(names[:count]) in kept for count in range(len(names), 0, -1))
