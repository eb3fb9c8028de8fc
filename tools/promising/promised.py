"""What is known of the public functions: their tests and their mutants, as the script finds them."""
import functools

from lib import edits, functions, paths, repository, source

from .calls import Calls


def crates():
    """The crates whose public functions promise something: the product, the examples, and the programs to copy."""
    return repository.stating() + [name for name in repository.crates() if name.startswith("use_")]


@functools.cache
def every():
    """All public functions under their names."""
    return {name: function for crate in crates() for name, function in functions.public(crate).items()}


@functools.cache
def tests():
    """All tests by their names, each with the public functions that it calls, itself or by functions of its crate's tests."""
    helpers = {
        crate: [it for it in functions.of_crate(crate) if crate.startswith("test_") or "/tests" in it.file]
        for crate in repository.crates()
    }
    own = [it for them in helpers.values() for it in them if not it.block[0]]
    targets, names, found = Calls(every().values(), own), {it.place: name for name, it in every().items()}, {}
    for crate, them in helpers.items():
        beside = Calls([it for it in them if not it.is_test])
        for test in (it for it in functions.of_crate(crate) if it.is_test):
            found[test.item.name] = {names[it.place] for caller in beside.reached(test) for it in targets.called(caller)}
    return found


@functools.cache
def found_tests():
    """The tests of each function."""
    return {name: [test for test, called in tests().items() if name in called] for name in every()}


class Mutants:
    """The mutants of a crate: those of each public function, and the others by the path of the function that they are of."""

    def __init__(self, crate):
        self.crate, self.of, self.others, self.callers = crate, {}, {}, {}
        public = functions.public(crate)
        self.names = {function.place: name for name, function in public.items()}
        self.traits = {it.method: name for name, it in public.items() if it.item.owner and it.item.owner.kind == "trait"}
        self.functions = {it.place: it for it in functions.of_crate(crate) if not it.is_test}
        graph = Calls(self.functions.values())
        for caller in self.functions.values():
            for it in graph.called(caller):
                self.callers.setdefault(it.place, []).append(caller)
        for edit in [it for name, folder in edits.folders() if name == crate for it in edits.of(crate, folder)]:
            path = edit.function.partition("::")[2]
            place = self.place_of(path, edit)
            names = self.nearest([self.functions[place]]) if place in self.functions else []
            for of, key in ((self.of, it) for it in names) if names else ((self.others, path),):
                of.setdefault(key, []).append(edit.title)
        if alone := planted(crate, "must-fail"):
            self.others["must-fail/"] = alone

    def place_of(self, path, edit):
        """Where the function of this path stands: in the file of its module, or in one that the edit changes."""
        parts = path.split("::")
        modules = ["/".join(parts[:end]) for end in range(len(parts), 0, -1)]
        files = [f"src/{name}.rt" for name in [*modules, "lib", "main"]] + [file for file, *_ in edit.spans]
        for file in (f"crates/{self.crate}/{name}" for name in files):
            if item := paths.function(source.read(repository.text_of(file)), path):
                return file, item.head

    def nearest(self, near):
        """The public functions among these, or their nearest public callers. A method that implements one of a trait of the crate
        counts as that."""
        seen = set()
        while near:
            if names := {self.names.get(it.place) or self.traits.get(it.method) for it in near} - {None}:
                return sorted(names)
            seen |= {it.place for it in near}
            near = [it for callee in near for it in self.callers.get(callee.place, []) if it.place not in seen]
        return []


mutants = functools.cache(Mutants)


def planted(crate, *folders):
    """The names of a crate's mutants."""
    places = [repository.ROOT / "crates" / crate / folder for folder in folders or ("wrong-bodies", "must-fail")]
    return [file.stem for place in places for file in sorted(place.glob("*.edit"))]
