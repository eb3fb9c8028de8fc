"""The definitions and proofs that sources speak of, by the paths of their files."""
import re

CITED = re.compile(r"\bRattle\.(\w+)\.(specs|proofs)\.(?:([\w.+]+)|\{([^}]*)\})")
NAMED = re.compile(r"\b(\w+)::(specs|proofs)::(\w+)")
LIB = "specs/Lib.antt"
# How a path begins that leads to an item of a source.
DECLARED = ("declared.", "contracts.")


def names_in(text):
    """The names of a list in braces."""
    return set(re.findall(r"[^\s,]+", text))


class Cited:
    """The files of definitions and proofs that were spoken of, and all that these speak of. Each item of a source of which one
    speaks is given to `show`."""

    def __init__(self, sources, show):
        self.sources, self.show, self.files = sources, show, set()

    def has(self, crate, path):
        return (crate, path) in self.files

    def read(self, text, own=""):
        """Reads a text of a crate for what it speaks of."""
        for crate, kind, place, listed in CITED.findall(text):
            if crate not in self.sources.crates:
                continue
            if listed:
                self.read_lib(crate, names_in(listed))
            elif place.startswith(DECLARED):
                for it in self.declared(crate, place):
                    self.show(it)
            else:
                self.add(crate, self.file(crate, kind, place))
        for crate, kind, name in NAMED.findall(text):
            crate = own if crate == "crate" else crate
            if crate in self.sources.crates:
                self.add(crate, self.file(crate, kind, name))

    def file(self, crate, kind, place):
        """The path of the file that this place is in, or None."""
        names = [it for it in place.split(".") if it]
        paths = [f"{kind}/{'/'.join(names[:count])}.antt" for count in range(len(names), 0, -1)]
        return next((it for it in paths if it in self.sources.crates[crate].files), None)

    def add(self, crate, path):
        """Adds a file, and what it speaks of."""
        if path and not self.has(crate, path):
            self.files.add((crate, path))
            self.read(self.sources.crates[crate].files[path].decode(errors="surrogateescape"), crate)

    def read_lib(self, crate, names):
        """Reads the lines of a crate's list of definitions that hand on some of these names."""
        for line in self.sources.crates[crate].files[LIB].decode().splitlines():
            listed = re.search(r"\{([^}]*)\}", line)
            if listed and names & names_in(listed[1]):
                self.read(line, crate)

    def declared(self, crate, place):
        """The items that a path through declarations or contracts leads to: of a module's constants all of them."""
        module = self.sources.crates[crate].root
        for name in place.rstrip(".").split(".")[1:]:
            found = [it for it in module.nodes if it.item.name == name and it.item.kind != "impl"]
            if name == "TheConstants":
                found = [it for it in module.nodes if it.item.kind in ("const", "static")]
            if found or name not in module.below:
                return found
            module = module.below[name]
        return []
