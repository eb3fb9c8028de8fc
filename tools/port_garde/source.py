"""The items of a Rust source file: structs, enums, constants, functions and imports, under the conditions of the build."""
from collections import namedtuple
from dataclasses import dataclass, field, replace

from .derives import read_option
from .expressions import number_of, resolved
from .rules import Attributes, Rules, at_field, present, read_attributes
from .tokens import OPEN, Notes, Refusal, Tokens, tokens_of

# What holds for tests and for docs alone.
NEVER = ("test", "doc", "doctest", "docsrs", "miri")


class Build:
    """The features of a source. Those are on under which serde reads: `serde`, and those under which a `Deserialize` is derived. Where
    `features` are given, these are on too and no others are; else of each other one nothing is known."""

    def __init__(self, tokens, features=None):
        self.features = features
        self.on = {"serde", *(features or ()), *(name for at, it in enumerate(tokens) if it.text == "cfg_attr" for name in deriving(tokens, at))}

    def holds(self, tokens):
        """Whether a condition holds, or nothing where that is not known."""
        word = tokens.take().text
        if tokens.opens("("):
            return self.joined(word, tokens.group().items(self.holds))
        value = tokens.take().text.strip('"') if tokens.takes("=") else ""
        if word == "feature":
            return True if value in self.on else None if self.features is None else False
        return False if word in NEVER else None

    def joined(self, word, found):
        """Whether all or any of some conditions hold, or not the one."""
        if word == "not" and len(found) == 1:
            return None if found[0] is None else not found[0]
        if word not in ("all", "any"):
            return None
        ends = word == "any"
        return ends if ends in found else None if None in found else not ends


def deriving(tokens, at):
    """The features that a `cfg_attr` at this place names, where it derives `Deserialize`."""
    behind = Tokens(tokens[at + 1 :], "", None)
    words = [it.text for it in behind.group().tokens] if behind.opens("(") else []
    if "Deserialize" not in words or "not" in words:
        return set()
    return {words[it + 2].strip('"') for it, word in enumerate(words[:-2]) if word == "feature" and words[it + 1] == "="}


# Where the derives and the attributes of the language are, which may stand there without a path.
BUILT_IN = ([], ["core"], ["std"], ["core", "prelude", "v1"], ["std", "prelude", "v1"])
UNKNOWN_BUILD = "an attribute `cfg` or `cfg_attr`, which the port cannot judge"


@dataclass(frozen=True)
class Type:
    """A type: its kind is `path`, `ref`, `slice`, `array`, `tuple`, `const` for a number among the arguments, or `unread` where the port
    cannot read it. Its name is the last one of its path; `front` gives a type of another crate its whole path as its name. Its arguments are
    types, beside its lifetimes."""

    kind: str
    name: str
    line: int
    path: tuple = ()
    args: tuple = ()
    lives: tuple = ()
    size: str = ""


@dataclass(frozen=True)
class Field:
    """A field: its name, or none in a tuple, its type, and what its attributes ask. One that is `unmade` has a default that is not known."""

    name: str
    type: Type
    line: int
    attributes: Attributes
    docs: tuple = ()
    vis: str = ""
    serde: tuple = ()
    others: tuple = ()
    flat: bool = False
    unmade: bool = False


@dataclass(frozen=True)
class Variant:
    """A variant, or the fields of a struct: its shape is `named`, `tuple` or `unit`. A variant may have a number, as it is written."""

    name: str
    shape: str
    fields: tuple
    line: int
    docs: tuple = ()
    serde: tuple = ()
    others: tuple = ()
    stated: str = ""
    number: str = ""

    @property
    def word(self):
        """What statements call the variant: by its name, or by another one where that stands for something else."""
        return self.stated or self.name


# A parameter of a type: its kind is `lifetime`, `type` or `const`, and a type may have a default.
Param = namedtuple("Param", "kind name bounds default", defaults=("", None))


# Another name of a type, with its parameters; or the reason why the port cannot read it.
Alias = namedtuple("Alias", "name line params type fault", defaults=((), None, ""))


@dataclass(frozen=True)
class Item:
    """A struct, which has one variant, or an enum. It stands in the text from `start` to `end`. `said` are its derives, each with
    its line and its path, `serde` its attributes of serde, and `others` all other attributes in it, each with its line. `known` is its name
    in the source, `renames` what its fields are called here in place of their names there. `faults` are those that count where the type is
    written, and `later` those where it has no form."""

    kind: str
    name: str
    params: tuple
    variants: tuple
    line: int
    attributes: Attributes
    derives: tuple = ()
    docs: tuple = ()
    vis: str = ""
    start: int = 0
    end: int = 0
    said: tuple = ()
    serde: tuple = ()
    others: tuple = ()
    known: str = ""
    renames: tuple = ()
    faults: tuple = ()
    later: tuple = ()


@dataclass
class Outer:
    """What stands before an item, a variant or a field. `absent` says that a condition of the build does not hold of it; `condition` is
    the line of one of which that is not known, and `conditions` are the stretches of the text of these; `read` are the places of its
    derives and its `garde` attributes; `said`, `serde` and `others` are those of an item."""

    docs: tuple = ()
    attributes: Attributes = None
    derives: tuple = ()
    absent: bool = False
    condition: int = 0
    conditions: list = field(default_factory=list)
    read: set = field(default_factory=set)
    said: tuple = ()
    serde: tuple = ()
    others: tuple = ()


@dataclass
class Source:
    """What a file declares. `parts` are its functions, constants and implementations, each with whether it stands under a condition, and
    `features` are those of the crate that are on, where they are given. `has_own` says that it has a module of one's own."""

    head: list = field(default_factory=list)
    items: list = field(default_factory=list)
    imports: list = field(default_factory=list)
    functions: dict = field(default_factory=dict)
    numbers: dict = field(default_factory=dict)
    sums: dict = field(default_factory=dict)
    parts: list = field(default_factory=list)
    aliases: dict = field(default_factory=dict)
    modules: set = field(default_factory=set)
    globs: list = field(default_factory=list)
    features: set = None
    has_own: bool = False
    notes: Notes = field(default_factory=Notes)


def read_source(text, features=None):
    """Reads a file, under these features where they are given. What cannot be read is noted."""
    if text.startswith("#!") and not text[2:].lstrip().startswith("["):
        text = " " * len(text.partition("\n")[0]) + text[len(text.partition("\n")[0]) :]
    source = Source(features=features)
    try:
        tokens = Parser(tokens_of(text), text, source.notes)
        source.notes.build = Build(tokens.tokens, features)
    except Refusal as refusal:
        source.notes.faults.append(refusal)
        source.notes.told.append((0, len(text)))
        return source
    while not tokens.ended():
        if tokens.first.kind == "head":
            source.head.append(tokens.take().text)
        elif tokens.sees("#", "!", "["):
            # an attribute of the whole file
            mark, _, inside = tokens.take(), tokens.take(), tokens.group()
            if inside.sees("cfg") or inside.sees("cfg_attr"):
                source.notes.refuse(mark.line, UNKNOWN_BUILD)
        else:
            tokens.read_item(source)
    # the values of the constants, each once those are known that it speaks of
    known = None
    while known != source.numbers:
        known = dict(source.numbers)
        for name, value in ((name, resolved(it, known)) for name, it in source.sums.items()):
            source.numbers[name] = value.value if value.kind == "number" else None
    return source


class Parser(Rules):
    """Tokens of which the items of a file are read."""

    def read_item(self, source):
        """Reads an item; those that are neither ported nor asked for are passed over."""
        begin, outer, at = self.first.at, Outer(), self.at
        try:
            outer = self.read_outer()
            at = self.at
            if not outer.absent:
                self.read_known_item(source, outer, begin)
                return
        except Refusal as refusal:
            source.notes.faults.append(refusal)
            self.at = max(at, 1)
        self.pass_over()
        source.notes.told.append((begin, self.first.at))

    def read_known_item(self, source, outer, begin):
        start, line, first = self.first.at, self.line, self.at
        vis = self.read_vis()
        before = self.at
        while any(map(self.sees, ("unsafe", "async"))) or self.sees_function():
            self.take()
        if self.sees("extern") and self.tokens[self.at + 1].kind in ("text", "name") and not self.sees("extern", "crate"):
            self.take()
            self.at += self.first.kind == "text"
        word = self.take().text
        if word in ("struct", "enum"):
            self.read_type_item(source, outer, (word, vis, line, begin))
        elif word == "use":
            self.read_use(source)
        elif word == "fn":
            name = self.name("the name of a function")
            self.pass_over()
            source.functions[name] = self.text[start : self.tokens[self.at - 1].at + 1]
        elif word == "const":
            self.read_constant(source, bool(outer.condition))
        elif word == "type":
            self.read_alias(source, bool(outer.condition))
        elif word != ";":
            source.modules |= {self.first.text} if word == "mod" else set()
            self.at = before
            self.pass_over()
        if word in ("fn", "const", "impl"):
            source.parts.append((self.taken(first), bool(outer.condition)))

    def read_alias(self, source, conditional):
        """Reads another name of a type. What cannot be read of it is told where a field has the type."""
        line, notes = self.line, source.notes
        faults, later = len(notes.faults), len(notes.later)
        alias = Alias(self.name("the name of a type"), line, fault="which stands under a condition of the build" if conditional else "")
        at = self.at
        try:
            params = self.read_angles(Parser.read_param)
            self.expect("=")
            alias = alias._replace(params=params, type=self.read_type())
        except Refusal as refusal:
            alias = alias._replace(fault=f"which cannot be read: {refusal.reason}")
            self.at = at
        del notes.faults[faults:], notes.later[later:]
        source.aliases[alias.name] = alias if alias.name not in source.aliases else alias._replace(fault="which stands in the file twice")
        self.pass_to_end()

    def read_type_item(self, source, outer, head):
        """Reads a struct or an enum behind its keyword. Its faults are those of the type, which count where that is written."""
        word, vis, line, begin = head
        notes, faults, later = source.notes, len(source.notes.faults), len(source.notes.later)
        self.unconditional(outer)
        name, params, variants = self.read_struct() if word == "struct" else self.read_enum()
        lost = None in variants or any(None in it.fields for it in variants if it is not None)
        variants = tuple(replace(it, fields=tuple(present(it.fields))) for it in present(variants))
        others = [found for it in (*variants, *(field for it in variants for field in it.fields)) for found in it.others]
        item = Item(
            word, name, params, variants, line, outer.attributes, outer.derives, outer.docs, vis, begin, self.first.at,
            said=outer.said, serde=outer.serde, others=outer.others + tuple(others), known=name,
        )
        notes.told += outer.conditions
        is_asked = any([outer.attributes.asked, *(it.attributes.asked for variant in variants for it in variant.fields)])
        if not is_ported(item) and is_asked:
            notes.refuse(line, f"`garde` attributes at `{name}`, which has no `Validate` among its derives")
        notes.told += [(begin, item.end)] if lost or not is_ported(item) and is_asked else []
        source.items.append(replace(item, faults=tuple(notes.faults[faults:]), later=tuple(notes.later[later:])))
        del notes.faults[faults:], notes.later[later:]
        notes.read |= outer.read

    def read_use(self, source):
        """Reads imports. A derive under another name is refused."""
        line, found = self.line, self.read_imports(())
        self.expect(";")
        for path, name in found:
            if path[0] == "garde" and path[-1] == "Validate" and name not in ("Validate", "_"):
                source.notes.refuse(line, f"the derive `Validate` under the name `{name}`: import it under its own")
        source.imports += found
        source.globs += [(line, path) for path, name in found if name == "*"]

    def read_constant(self, source, conditional):
        """Reads a constant, which is kept where it is a number, and is not one of several under conditions of the build."""
        name = self.take().text
        while not self.ended() and not self.sees("="):
            self.group() if any(map(self.opens, OPEN)) else self.take()
        self.takes("=")
        at, value = self.at, None
        try:
            value = self.read_expression()
        except Refusal:
            self.at = at
        if value is not None and self.sees(";") and not conditional and name not in source.numbers:
            source.sums[name] = value
        else:
            source.sums.pop(name, None)
        source.numbers[name] = None
        self.pass_to_end()

    # Attributes, and what else stands around an item.

    def read_outer(self):
        asked, outer, faulty = [], Outer(), False
        while self.first.kind in ("doc", "head") or self.opens("#"):
            mark = self.take()
            if mark.kind != "mark":
                outer.docs += (mark.text,) if mark.kind == "doc" else ()
                continue
            of_the_file = self.takes("!")
            if not self.opens("["):
                raise Refusal(mark.line, "`#` with no attribute behind it")
            inside, place = self.group(), (mark.at, self.first.at)
            try:
                inside.read_attribute_of(outer, asked, mark, of_the_file)
            except Refusal as refusal:
                self.notes.faults.append(refusal)
                self.notes.told.append(place)
                faulty = True
            outer.conditions = [it or place for it in outer.conditions]
        found = read_attributes(asked) if asked else Attributes()
        outer.attributes = replace(found, faulty=found.faulty or faulty)
        return outer

    def read_attribute_of(self, outer, asked, mark, of_the_file):
        at, path = self.first.at, self.path("a path")
        word = path[-1] if path[:-1] in BUILT_IN else ""
        if path[-1] == "garde" and (len(path) > 1 or of_the_file or not self.opens("(")):
            raise Refusal(mark.line, f"the attribute `{'::'.join(path)}`: at a type or a field write `#[garde(..)]`")
        if word == "derive" and not self.opens("("):
            raise Refusal(mark.line, "`derive` with no list behind it")
        if word == "derive":
            outer.said += present(self.group().items(lambda it: (it.line, tuple(it.path("a path")))))
            outer.derives = tuple(path[-1] for _, path in outer.said)
            outer.read.add(at)
        elif word == "garde":
            asked.append(self.group())
            outer.read.add(mark.at)
            self.notes.read.add(mark.at)
        elif word in ("cfg", "cfg_attr"):
            held = None if of_the_file or not self.opens("(") else self.group().read_condition(word, outer, asked, mark)
            outer.absent |= word == "cfg" and held is False
            outer.condition = mark.line if held is None else outer.condition
            outer.conditions += [None] if held is None else []
        elif word == "serde" and self.opens("("):
            outer.serde += (present(self.group().items(read_option)),)
        else:
            outer.others += ((mark.line, "::".join(path)),)

    def read_condition(self, word, outer, asked, mark):
        """Whether the condition of a `cfg` or a `cfg_attr` holds, or nothing where the port cannot judge that. The attributes of a
        `cfg_attr` are read where it holds; where that is not known none may speak of what is read or asked."""
        held = self.notes.build.holds(self)
        found = []
        self.skip_to(",")
        while self.takes(","):
            start = self.at
            self.skip_to(",")
            found += [self.taken(start)] if self.at > start else []
        for it in found if held else ():
            it.read_attribute_of(outer, asked, mark, False)
        words = {token.text for it in found for token in it.tokens}
        is_silent = word == "cfg_attr" and not words & {"serde", "garde", "Deserialize", "Validate", "cfg_attr"}
        return False if held is None and is_silent else held

    def unconditional(self, outer):
        """Refuses what stands under a condition of the build."""
        if outer.condition:
            way = ": say by `--features` which are on, as `--features std,json`, or `--features=` of none"
            self.notes.refuse(outer.condition, UNKNOWN_BUILD + (way if self.notes.build.features is None else ""))
            self.notes.told += outer.conditions
        return outer

    def read_vis(self):
        if not self.takes("pub"):
            return ""
        if not self.opens("("):
            return "pub "
        inside = self.group()
        path = "in " if inside.takes("in") else ""
        return f"pub({path}{''.join(it.text for it in inside.tokens[inside.at:-1])}) "

    def pass_to_end(self, *opening):
        """Passes over the rest of an item: to the end of a group of these brackets, or to `;`."""
        while not self.ended():
            if any(map(self.opens, OPEN)):
                is_last = self.first.text in opening
                self.group()
                if is_last:
                    return
            elif self.take().text == ";":
                return

    def pass_over(self):
        """Passes over an item: up to its body or, of one that has none, to `;`."""
        self.read_vis()
        has_body = not any(map(self.sees, ("static", "type", "use"))) and (not self.sees("const") or self.sees_function())
        self.pass_to_end(*("{" if has_body else ""))

    def sees_function(self):
        """Whether a function comes next, behind `const`."""
        return any(self.sees("const", it) for it in ("fn", "unsafe", "async", "extern"))

    def read_imports(self, path):
        """The imports of a `use` tree: each is a path with the name that it gets."""
        while True:
            if self.opens("{"):
                trees = present(self.group().items(lambda it: it.read_imports(path)))
                return [found for tree in trees for found in tree]
            if self.takes("*"):
                return [((*path, "*"), "*")]
            self.takes("::")
            if self.opens("{") or self.sees("*"):
                continue
            path = (*path, self.name("a path"))
            path = path[:-1] if path[-1] == "self" and path[1:] else path
            if self.takes("as"):
                return [(path, self.name("a name"))]
            if not self.sees("::"):
                return [(path, path[-1])]

    # Types, variants and fields.

    def read_struct(self):
        """Reads a struct after its keyword: its name, its parameters and its one variant."""
        line, name = self.line, self.name("the name of a struct")
        params = self.read_angles(Parser.read_param)
        variant = self.read_variant_body(name, line, ())
        if variant.shape != "named":
            self.expect(";")
        return name, params, (variant,)

    def read_enum(self):
        name, params = self.name("the name of an enum"), self.read_angles(Parser.read_param)
        self.no_where()
        variants = self.read_parts(Parser.read_variant)
        read = present(variants)
        for it in (it for it in read if it.number and any(one.shape != "unit" for one in read)):
            self.notes.refuse(it.line, f"the variant `{it.name}` with a number, beside variants with fields: take the number out")
        return name, params, variants

    def read_parts(self, read):
        """Reads the variants or the fields of a group, but for those under a condition of the build that does not hold."""

        def read_part(tokens):
            begin, outer = tokens.first.at, tokens.read_outer()
            if outer.absent:
                tokens.skip_to(",")
                tokens.notes.absent.append((begin, tokens.first.at))
                return outer
            return read(tokens, tokens.unconditional(outer))

        return tuple(it for it in self.group().items(read_part) if not isinstance(it, Outer))

    def read_variant(self, outer):
        line, name = self.line, self.name("a variant")
        if outer.attributes.asked:
            self.notes.refuse(line, f"an attribute at the variant `{name}`: attributes stand at types and at fields")
        variant = replace(self.read_variant_body(name, line, outer.docs), serde=outer.serde, others=outer.others)
        if not self.takes("="):
            return variant
        # its number stands there as it is
        line, number = self.line, "-" * self.takes("-")
        if self.first.kind == "number":
            number += self.take().text
        if not self.ended() and not self.sees(",") or number in ("", "-"):
            self.notes.refuse_walk(line, f"the variant `{name}` whose number is computed: write the number itself")
            self.skip_to(",")
        return replace(variant, number=number)

    def read_variant_body(self, name, line, docs):
        self.no_where()
        shape = "named" if self.opens("{") else "tuple" if self.opens("(") else "unit"
        fields = self.read_parts(lambda it, outer: it.read_field(outer, shape == "named")) if shape != "unit" else ()
        if shape == "tuple":
            self.no_where()
        return Variant(name, shape, fields, line, docs)

    def no_where(self):
        if self.sees("where"):
            self.notes.refuse_walk(self.line, "a `where` clause: write the bounds at the parameters")
            self.skip_to("{", ";")

    def read_field(self, outer, is_named):
        vis, line, name, attributes = self.read_vis(), self.line, "", outer.attributes
        if is_named:
            name = self.name("the name of a field")
            self.expect(":")
            attributes = replace(attributes, rules=at_field(attributes.rules, name))
        return Field(name, self.read_field_type(), line, attributes, outer.docs, vis, outer.serde, outer.others)

    def read_field_type(self):
        """Reads the type of a field; one that the port cannot read is noted, and the field's attributes are still looked at."""
        line, start = self.line, self.at
        try:
            kind = self.read_type()
            if not self.ended() and not self.sees(","):
                self.expect(",")
            return kind
        except Refusal as refusal:
            self.notes.faults.append(refusal)
            self.at = start
            self.skip_to(",")
            return Type("unread", "", line)

    def read_angles(self, read):
        """Reads what stands in angles, if such come next, each item by `read`."""
        found = []
        if not self.takes("<"):
            return ()
        while not self.takes(">"):
            found.append(read(self))
            if not self.sees(">"):
                self.expect(",")
        return tuple(found)

    def read_param(self):
        line, notes = self.line, self.notes
        if self.first.kind == "lifetime":
            name = self.take().text
            if self.sees(":"):
                notes.refuse_walk(line, f"the lifetime `{name}` has bounds")
                self.skip_to(",", ">")
            return Param("lifetime", name)
        kind = "const" if self.takes("const") else "type"
        line, name = self.line, self.name("a parameter")
        if name == "H":
            notes.refuse_walk(line, "a parameter of the name `H`, which the method has for the handler")
        bounds = self.read_bounds() if self.takes(":") else ""
        if not self.takes("="):
            return Param(kind, name, bounds)
        notes.refuse_walk(self.tokens[self.at - 1].line, f"the parameter `{name}` has a default")
        at = self.at
        try:
            return Param(kind, name, bounds, self.read_argument())
        except Refusal:
            self.at = at
            self.skip_to(",", ">")
            return Param(kind, name, bounds)

    def read_bounds(self):
        """Reads bounds as text, up to the `,` or the `>` that ends them."""
        text, depth = "", 0
        while depth or not any(map(self.sees, (",", ">", "="))):
            if self.ended():
                raise Refusal(self.line, "bounds that do not end")
            word = self.take().text
            depth += (word == "<") - (word == ">")
            text += f" {word} " if word in ("=", "+") else f"{word} " if word == "," else word
        return text

    def read_type(self):
        line = self.line
        self.takes("::")
        if self.takes("&"):
            lives = (self.take().text,) if self.first.kind == "lifetime" else ()
            if self.sees("mut"):
                raise Refusal(line, "a type with `&mut`")
            return Type("ref", "&", line, args=(self.read_type(),), lives=lives)
        if self.opens("("):
            args = self.group().items(Parser.read_type)
            if None in args:
                raise Refusal(line, "a tuple with a type that the port cannot read")
            return Type("tuple", "()", line, args=tuple(args))
        if self.opens("["):
            inside = self.group()
            item = inside.read_type()
            if inside.ended():
                return Type("slice", "[]", line, args=(item,))
            inside.expect(";")
            start = inside.at
            inside.skip_to(",")
            return Type("array", "[;]", line, args=(item,), size=" ".join(it.text for it in inside.tokens[start : inside.at]))
        if self.first.kind != "name" or self.first.text in ("dyn", "impl", "fn", "for"):
            raise Refusal(line, f"a type that begins with `{self.first.text}`")
        path, found = self.path("a type"), self.read_angles(Parser.read_argument)
        lives = tuple(it for it in found if isinstance(it, str))
        return Type("path", path[-1], line, path=tuple(path), args=tuple(it for it in found if not isinstance(it, str)), lives=lives)

    def read_argument(self):
        if self.first.kind == "lifetime":
            return self.take().text
        if self.first.kind == "number":
            token = self.take()
            return Type("const", str(number_of(token)), token.line)
        return self.read_type()


def is_ported(item):
    return "Validate" in item.derives


def named_type(name, line, *args, lives=()):
    """A type by its name alone."""
    return Type("path", name, line, path=(name,), args=args, lives=lives)


def with_doc(docs, text):
    """Docs, and a line behind them."""
    return (*docs, *(["///"] if docs else []), f"/// {text}")


def with_variants(item, fields):
    """A type whose variants have other fields."""
    return replace(item, variants=tuple(replace(it, fields=tuple(fields(it))) for it in item.variants))


def with_fields(item, change):
    return with_variants(item, lambda variant: map(change, variant.fields))


def with_rules(it, rules, **others):
    """A field with other rules, and other attributes besides."""
    return replace(it, attributes=replace(it.attributes, rules=tuple(rules), **others))


def all_rules(rules):
    """Rules with those within them."""
    return [found for rule in rules for found in (rule, *all_rules(rule.rules))]
