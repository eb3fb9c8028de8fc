"""The functions of a crate, and the public ones by the names that a user can write.

A public function is a `pub fn` that stands free or in an impl block of a public type, or a method that a public trait
declares. A function, a type or a trait is public where a user can name it: by `pub mod` from the root down to its module, or
by a `pub use` in a module that is public so. In a program (src/main.rt) each that is `pub` counts. What stands under
`#[cfg(test)]` is left out. The name of a function is its shortest public one, from the crate on.
"""
import functools
import re
from dataclasses import dataclass

from lib import paths, repository, source
from vendoring.sources import IMPORT, Crate, Node, Sources

CLAUSE = re.compile(r"\b(ensures|requires)\b(?:\s+(\w+))?\s*(?=\{)")


@dataclass(frozen=True, eq=False)
class Function:
    """A function: its file, the text of that, and where it stands there."""

    file: str
    text: source.Source
    item: source.Item

    @property
    def place(self):
        """What no other function has."""
        return self.file, self.item.head

    @property
    def crate(self):
        return self.file.split("/")[1]

    @property
    def module(self):
        """The last word of the path of its module."""
        way = self.file.removesuffix(".rt").partition("/src/")[2]
        return self.crate if way in ("lib", "main") else way.rpartition("/")[2]

    @functools.cached_property
    def block(self):
        """The trait and the type of the block that it stands in. Each is empty where there is none."""
        return paths.block_of(self.text, self.item)

    @property
    def owner(self):
        """The type or the trait that it belongs to, and nothing of one that stands free."""
        trait, of = self.block
        return of or trait

    @property
    def method(self):
        """The trait and the method of it that it declares or implements; the trait is empty where it is none of one."""
        return self.block[0], self.item.name

    @property
    def is_test(self):
        return "#[test]" in self.text.attributes(self.item)

    @property
    def body(self):
        return self.text.blank[self.item.body : self.item.end]

    def docs(self):
        """What its `///` says, on one line."""
        lines = [line.strip().removeprefix("///").strip() for line in self.text.attributes(self.item).splitlines()]
        return " ".join(re.sub(r"^# (\w+)$", r"\1:", line) for line in lines if line and not line.startswith("#["))

    def clauses(self, kind):
        """Its clauses in a line: each by its name, or by its text where it has none."""
        text, cells = self.text, {}
        for found in CLAUSE.finditer(text.blank, self.item.head, self.item.body):
            if found[1] == kind:
                said = text.text[found.end() + 1 : text.close(found.end()) - 1]
                cells[found[2] or " ".join(said.split()).replace("|", r"\|")] = True
        return ", ".join(f"`{it}`" for it in cells)


@functools.cache
def of_crate(crate):
    """Each function of a crate, tests among them."""
    names = [name for name in repository.files() if re.match(rf"crates/{crate}/src/.*\.rt$", name)]
    return [Function(name, text, it) for name in names for text in [source.read(repository.text_of(name))] for it in text.functions()]


class Visible:
    """What a crate makes public: its items with the ways to each."""

    def __init__(self, crate):
        folder = f"crates/{crate}/"
        names = [it for it in repository.files() if it.startswith(f"{folder}src/") and it.endswith(".rt")]
        self.crate = Crate(crate, (), {it.removeprefix(folder): repository.text_of(it).encode() for it in names})
        self.sources, self.folder, self.found = Sources([self.crate]), folder, []
        self.add(self.crate.root, [crate])

    def add(self, module, way):
        """Adds each public item at or below a module, with a way to it."""
        self.found += [([*way, it.item.name], it) for it in module.nodes if it.item.is_public and it.item.kind != "impl"]
        for item in module.source.items:
            is_public = item.is_public or self.crate.root.file == "src/main.rt"
            if item.kind == "mod" and is_public and "#[cfg(test)]" not in module.source.attributes(item):
                self.add(module.below[item.name], [*way, item.name])
            elif item.kind == "use" and item.is_public:
                for path, name in paths.imports(IMPORT.sub("", module.source.blank[item.head : item.body], count=1)):
                    self.reexport(module, path, [*way, name])

    def reexport(self, module, path, way):
        """Adds what a `pub use` leads to in this crate."""
        for it in self.sources.lead(module, path):
            if isinstance(it, Node):
                self.found.append((way, it))
            else:
                self.add(it, way)

    def functions(self):
        """The functions of each public item by its shortest way, each with the module that it stands in."""
        methods, ways = {}, {}
        for block in (it for it in self.crate.nodes() if it.is_own_block):
            for of in self.sources.items(block.module, paths.way_of(re.match(r"\w+", block.of.strip())[0])):
                methods.setdefault(of, []).extend((block.module, it) for it in block.item.members if it.is_public)
        for way, node in sorted(self.found, key=lambda it: (len(it[0]), it[0])):
            ways.setdefault(node, way)
        for node, way in ways.items():
            if node.item.kind == "fn":
                yield way, node.module, node.item
            for module, it in [*((node.module, it) for it in node.item.members), *methods.get(node, ())]:
                if it.kind == "fn":
                    yield [*way, it.name], module, it


@functools.cache
def public(crate):
    """The public functions of a crate under their names."""
    visible = Visible(crate)
    return {"::".join(way): Function(visible.folder + module.file, module.source, it) for way, module, it in visible.functions()}
