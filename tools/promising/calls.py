"""Which functions of a crate call which, by the names in their bodies.

A name counts where it can mean one function alone:
- `name(..)`: a function that stands free in the same file, or one that a `use` of the file brings in;
- `owner::name`, where the owner is a module, a type or a trait, or `Self` in a block of the type;
- `.name(..)`, where one function alone has the name, and no type of the standard library has it too.
"""
import functools
import re
from collections import Counter

from lib import paths, repository, source

# methods that types of the standard library have too
STANDARD = set(
    "add as_slice as_str clone count find finish get insert into_vec is_empty iter join len line max min next pop push reserve"
    " take truncate".split()
)
TOKEN = re.compile(r"(?:(\.)\s*|(\w+)(?:::<[^<>]*>)?::)?\b([a-z_]\w*)(\s*(?:::<[^;{}()]*>)?\()?")


@functools.cache
def imports(file):
    """The names that a file brings in, each with its path."""
    text = source.read(repository.text_of(file))
    uses = [" ".join(text.header(it).split()) for it in text.items if it.kind == "use"]
    return {name: path for use in uses for path, name in paths.imports(re.sub(r"^(?:pub )?use ", "", use))}


@functools.cache
def tokens(function):
    """The names in a body: before each stands its owner, a dot, or nothing where it is called by itself."""
    found = [(dot or owner, name, call) for dot, owner, name, call in TOKEN.findall(function.body)]
    return {(owner, name) for owner, name, call in found if call or owner not in ("", ".")}


class Calls:
    """The calls of some functions. Where others are called too, the names of their methods mean none of these."""

    def __init__(self, targets, others=()):
        self.by_token, self.times = {}, Counter(it.item.name for it in [*targets, *others] if it.owner)
        for it in targets:
            for owner in (it.owner, ".") if it.owner else (it.module, ""):
                self.by_token.setdefault((owner, it.item.name), []).append(it)

    def called(self, caller):
        """The functions that a function calls, each once."""
        found = {}
        for owner, name in tokens(caller):
            owner = caller.owner if owner == "Self" else owner
            for it in self.by_token.get((owner, name), []):
                if it.place != caller.place and self.is_meant(owner, name, it, caller):
                    found[it.place] = it
        return list(found.values())

    def is_meant(self, owner, name, target, caller):
        """Whether a token can mean this function alone. A name by itself has to stand in the same file, or be brought in."""
        if owner:
            return owner != "." or self.times[name] == 1 and name not in STANDARD
        if not (way := imports(caller.file).get(name)):
            return caller.file == target.file
        first = way[0] if way[0] in repository.crates() else caller.crate
        others = [it for it in self.by_token["", name] if it.place != target.place]
        if first == target.crate:
            return way[-2] in (target.module, first) or all(it.crate != first for it in others)
        return first != caller.crate and not others

    def reached(self, first):
        """The functions that one calls, and those that these call, and so on, itself among them."""
        found, new = {first.place: first}, [first]
        while new:
            new = [it for caller in new for it in self.called(caller) if it.place not in found]
            found.update((it.place, it) for it in new)
        return list(found.values())
