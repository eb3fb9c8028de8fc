"""Defaults: the values that stand for members that are missing or skipped, where they are constant expressions of the source. One value
gives its code, its statement and its JSON, and says which of the rules it breaks."""
import operator
import re
from dataclasses import dataclass, replace

from .derives import is_skipped, of_field, of_variant, options
from .expressions import SIGNED, UNSIGNED, VALUE, inside_of, number_of, range_of, resolved
from .layout import Method, Word, call, ghost, holding, literal, statement
from .members import own_rules
from .scope import is_option, is_path, is_text
from .source import Parser, named_type
from .templates import fill
from .tokens import Refusal, Refusals, tokens_of

COMPARISONS = {"==": operator.eq, "!=": operator.ne, "<": operator.lt, "<=": operator.le, ">": operator.gt, ">=": operator.ge}


def holds(it, found, numbers):
    """Whether a condition holds of a value: nothing where that does not depend on this value alone."""
    if it.kind == "not":
        part = holds(it.parts[0], found, numbers)
        return None if part is None else not part
    if it.kind in ("and", "or"):
        parts, decides = [holds(part, found, numbers) for part in it.parts], it.kind == "or"
        return decides if decides in parts else None if None in parts else not decides
    if it.kind in COMPARISONS:
        one, other = (known(part, found, numbers) for part in it.parts)
        return COMPARISONS[it.kind](one, other) if type(one) is type(other) and one is not None else None
    if it.kind == "matches":
        name = known(it.parts[0], found, numbers)
        return None if name is None else name in {path[-1] for path in it.value}
    answer = known(it, found, numbers)
    return answer if isinstance(answer, bool) else None


def known(it, found, numbers):
    """A part of a condition as a number, a text, a truth value or the name of a variant, or nothing."""
    it = resolved(it, numbers)
    if it.kind in ("number", "text"):
        return it.value
    if it.kind == "bool":
        return it.value == "true"
    if it.kind == "path":
        return it.value[-1]
    if it.kind == "place" and it.value == (VALUE,):
        return found.value if found.form in ("number", "bool", "text", "made") else None
    if it.kind != "call" or it.parts[0].value != (VALUE,):
        return None
    if it.value == "len":
        return len(found.value.encode()) if found.form == "text" else 0 if found.form == "empty" else None
    return (found.form == "some") == (it.value == "is_some") if found.form in ("some", "none") else None


COLLECTIONS = ("Vec", "BTreeMap", "HashMap", "IndexMap", "BTreeSet", "HashSet", "IndexSet", "VecDeque", "LinkedList")
WRAPPERS = ("Box", "Rc", "Arc", "Cow")
OWNED = ("String", "PathBuf", "Utf8PathBuf")
TEXTS = (*OWNED, "str", "Path", "Utf8Path", *WRAPPERS)
# The methods that give the same value.
SAME = ("to_string", "to_owned", "into", "clone", "as_str", "as_ref", "into_boxed_str", "into_string")
SUMS = {"+": int.__add__, "-": int.__sub__, "*": int.__mul__, "/": lambda a, b: abs(a) // abs(b) * (1 if a * b >= 0 else -1), "%": lambda a, b: abs(a) % abs(b) * (1 if a >= 0 else -1), "<<": int.__lshift__}
BINDS = (("<<",), ("+", "-"), ("*", "/", "%"))
# The functions that make a `Duration`, each with how many of these are a second.
SPANS = {"from_secs": 1, "from_millis": 10**3, "from_micros": 10**6, "from_nanos": 10**9}
# What a statement has on one line of a default.
LONG = 60
LAST = ("fn", "impl", "const")
WAY = "write a constant, or read an `Option` and fill it in by your code"


class NoConstant(Exception):
    """Why an expression is no constant that the port reads."""


@dataclass(frozen=True)
class Value:
    """A value of a type of the source. Its form: `number`, `bool`, `text`, `none`, `some`, `empty`, `tuple`, or `made`, of the variant `value`
    of a type of the file. The parts are those of the variant or of the tuple, or what is there. One that is `unknown` has the reason as its
    value."""

    form: str
    kind: object
    value: object = None
    parts: tuple = ()
    item: object = None

    def lacks(self):
        """Why a value is not known, or a part of it, or nothing."""
        return self.value if self.form == "unknown" else next((told for it in self.parts for told in [it.lacks()] if told), None)

    def variant(self):
        return next(it for it in self.item.variants if it.name == self.value)


def stripped(kind):
    """A type without the wrappers that stand for the same JSON."""
    while is_path(kind, *WRAPPERS) and not is_text(kind) and kind.args:
        kind = kind.args[-1]
    return kind


class Constants:
    """The constants, the functions and the implementations of a source that give values: each body by its type, if it stands in an
    implementation, and its name. Of one that is no constant the body is nothing."""

    def __init__(self, source):
        self.source, self.bodies, self.asked = source, {}, []
        self.items = {name: it for it in source.items for name in (it.known, it.name) if name}
        for tokens, is_conditional in source.parts:
            self.keep(tokens, "", is_conditional)

    def keep(self, tokens, owner, is_conditional):
        """Notes what an item gives. One that cannot be read gives nothing."""
        tokens = tokens.again()
        try:
            while not tokens.ended() and (not any(map(tokens.sees, LAST)) or tokens.sees("const", "fn")):
                tokens.take()
            word = tokens.take().text
            if word == "impl":
                self.of_impl(tokens, is_conditional)
            elif word in LAST:
                name = tokens.name("a name")
                body = self.body_of(tokens, word == "const")
                self.bodies[owner, name] = None if is_conditional or (owner, name) in self.bodies else body
        except Refusal:
            return

    def body_of(self, tokens, is_constant):
        """What a constant is, or the body of a function without arguments, or nothing."""
        if is_constant:
            tokens.expect(":")
            tokens.read_type()
            tokens.expect("=")
            start = tokens.at
            while not tokens.ended() and not tokens.sees(";"):
                tokens.take()
            return tokens.taken(start)
        if not tokens.opens("(") or not tokens.group().ended() or not tokens.takes("->"):
            return None
        tokens.read_type()
        return tokens.group() if tokens.opens("{") else None

    def of_impl(self, tokens, is_conditional):
        """The functions and the constants of an implementation of a type, or of `Default` for it."""
        kind, trait = tokens.read_type(), None
        if tokens.takes("for"):
            kind, trait = tokens.read_type(), kind
        if not tokens.opens("{") or trait is not None and not self.is_default(trait.path):
            return
        inside = tokens.group()
        while not inside.ended():
            start, under = inside.at, is_conditional
            while not inside.ended() and not inside.sees(";") and not inside.opens("{"):
                if inside.opens("[") or inside.opens("("):
                    under = inside.group().sees("cfg") or under
                else:
                    inside.take()
            inside.group() if inside.opens("{") else inside.take()
            self.keep(inside.taken(start), f"<{kind.name}>" if trait else kind.name, under)

    def is_default(self, path):
        """Whether a path names the `Default` of std."""
        home = next((whole[0] for whole, name in self.source.imports if name == path[0]), "std")
        return path[-1] == "Default" and (path[0] if path[1:] else home) in ("std", "core")

    # What a type gives.

    def of_type(self, kind):
        kind = stripped(kind)
        known = (
            (is_option(kind), "none", None), (is_text(kind), "text", ""), (is_path(kind, "bool"), "bool", False),
            (is_path(kind, *UNSIGNED, *SIGNED), "number", 0), (is_path(kind, *COLLECTIONS), "empty", None),
        )
        for form, value in ((form, value) for is_one, form, value in known if is_one):
            return Value(form, kind, value)
        if kind.kind == "tuple" and kind.args[1:]:
            return Value("tuple", kind, parts=tuple(map(self.of_type, kind.args)))
        item = self.items.get(kind.name) if kind.kind == "path" else None
        if item is None:
            raise NoConstant(f"the default of the type `{kind.name}` is not known")
        own = f"<{item.known or item.name}>", "default"
        if own in self.bodies:
            return self.given(own, kind, own[0].strip("<>"))
        if not any(map(self.is_default, (path for _, path in item.said))):
            raise NoConstant(f"`{item.name}` neither derives `Default` nor has an `impl Default` in this file")
        variants = [it for it in item.variants if item.kind == "struct" or any(name == "default" for _, name in it.others)]
        if not variants:
            raise NoConstant(f"no variant of `{item.name}` is marked by `#[default]`")
        return Value("made", kind, variants[0].name, tuple(known_or_not(self.of_type, it.type) for it in variants[0].fields), item)

    def given(self, place, kind, owner):
        """What the body at a place gives, as a value of a type."""
        told, body = "::".join(filter(None, (place[0].strip("<>"), place[1]))), self.bodies[place]
        if body is None:
            raise NoConstant(f"`{told}` takes arguments, stands under a condition, or is there twice")
        if place in self.asked:
            raise NoConstant(f"`{told}` asks for itself")
        self.asked.append(place)
        try:
            return Reader(self, body, owner).whole(kind)
        finally:
            self.asked.pop()

    def place(self, names, owner):
        """Where the body of a path stands, or nothing."""
        first = "" if not names[1:] or names[0] in ("self", "crate", "super") else owner if names[0] == "Self" else names[0]
        return (first, names[-1]) if len(names) < 3 and (first, names[-1]) in self.bodies else None

    def called(self, names, kind, owner):
        """What the function of a path gives, without arguments."""
        names = names[-2:] if names[0] in ("std", "core", "alloc") else names
        place = self.place(names, owner)
        if place:
            return self.given(place, kind, place[0] or owner)
        first = owner if names[0] == "Self" else names[0]
        if names[1:] and names[-1] == "default" and (first not in self.items or first == kind.name):
            return self.of_type(kind)
        if len(names) == 2 and names[-1] == "new" and first in (*COLLECTIONS, *OWNED):
            return self.of_type(kind)
        raise NoConstant(f"the function `{'::'.join(names)}`, which does not stand in this file")


class Reader:
    """Reads a constant expression, within the implementation of a type or outside of one."""

    def __init__(self, constants, tokens, owner=""):
        self.constants, self.owner = constants, owner
        self.tokens = tokens.again()

    def inside(self):
        """What reads the group of brackets that comes next."""
        return Reader(self.constants, self.tokens.group(), self.owner)

    def whole(self, kind):
        """An expression that stands alone, as a value of a type."""
        try:
            self.tokens.takes("return")
            found = self.value(kind)
            self.tokens.takes(";")
        except Refusal as refusal:
            raise NoConstant(refusal.reason) from refusal
        return self.ended(found)

    def ended(self, found):
        if not self.tokens.ended():
            raise NoConstant(f"what stands from `{self.tokens.first.text}` on is no constant that the port reads")
        return found

    def value(self, kind):
        """A value, with the methods behind it that give the same one."""
        tokens, kind = self.tokens, stripped(kind)
        tokens.takes("&")
        if is_path(kind, *UNSIGNED, *SIGNED):
            return self.number(kind)
        found = self.plain(kind)
        while tokens.takes("."):
            self.same()
        return found

    def same(self):
        """Passes over a method that gives the same value."""
        name = self.tokens.name("a method")
        if name not in SAME or not self.tokens.opens("(") or not self.tokens.group().ended():
            raise NoConstant(f"the method `{name}` is not read")

    def plain(self, kind):
        tokens, token = self.tokens, self.tokens.first
        if tokens.opens("(") and kind.kind == "tuple" and kind.args[1:]:
            return Value("tuple", kind, parts=self.inside().in_turn(kind.args))
        if tokens.opens("(") or tokens.opens("{"):
            return self.inside().whole(kind)
        if token.kind in ("text", "raw"):
            return self.text(kind)
        if token.kind != "name":
            raise NoConstant(f"`{token.text}` begins no constant of the type `{kind.name}`")
        if token.text in ("true", "false"):
            return self.wanted(Value("bool", kind, tokens.take().text == "true"), is_path(kind, "bool"), token)
        names = tokens.path("a path")
        if not tokens.takes("!"):
            return self.called(names, kind) if tokens.opens("(") else self.named(names, kind)
        if names != ["vec"]:
            raise NoConstant(f"the macro `{names[-1]}!` is not read")
        if not tokens.group().ended():
            raise NoConstant("memory is needed for a list with items")
        return self.constants.of_type(kind)

    def wanted(self, found, is_one, token):
        if not is_one:
            raise NoConstant(f"`{token.text}` is no `{found.kind.name}`")
        return found

    def text(self, kind):
        token = self.tokens.take()
        text = inside_of(token)
        if token.text.startswith("b") or re.search(r'["\\]', text) or not text.isprintable():
            raise NoConstant("a text has a quote, a backslash or a character that does not show")
        return self.wanted(Value("text", kind, text), is_text(kind), token)

    def called(self, names, kind):
        """A call: of a constructor with its parts, or of a function without arguments."""
        if names[-1] == "Some" and is_option(kind):
            return Value("some", kind, parts=(self.inside().whole(kind.args[0]),))
        given, (item, variant) = self.inside(), self.variant(names, kind)
        if names[0] in TEXTS and names[-1] in ("new", "from", "Borrowed", "Owned") and not given.tokens.ended():
            return given.whole(kind)
        if names[0] in (*COLLECTIONS, *OWNED) and names[-1] == "with_capacity":
            return self.constants.of_type(kind)
        if variant is not None and variant.shape == "tuple":
            return Value("made", kind, variant.name, given.in_turn([it.type for it in variant.fields]), item)
        if names[0] == kind.name and names[-1] in SPANS and item is not None and item.known == "Duration" and not item.end:
            name, count = names[-1], given.ended(given.number(named_type("u64", kind.line))).value
            numbers = (count // SPANS[name], count % SPANS[name] * (10**9 // SPANS[name]))
            parts = tuple(Value("number", it.type, number) for it, number in zip(item.variants[0].fields, numbers))
            return Value("made", kind, item.variants[0].name, parts, item)
        if not given.tokens.ended():
            raise NoConstant(f"the function `{'::'.join(names)}` has arguments")
        return self.constants.called(names, kind, self.owner)

    def in_turn(self, kinds):
        """The parts of a tuple, or of a constructor without names."""
        found = []
        for it in kinds:
            found.append(self.value(it))
            self.tokens.takes(",")
        return self.ended(tuple(found))

    def named(self, names, kind):
        """What a name says: a variant, a struct with its fields, or a constant."""
        if names[-1] == "None" and is_option(kind):
            return Value("none", kind)
        item, variant = self.variant(names, kind)
        if variant is not None and variant.shape == "unit":
            return Value("made", kind, variant.name, (), item)
        if variant is not None and variant.shape == "named" and self.tokens.opens("{"):
            return Value("made", kind, variant.name, self.inside().fields(variant, kind), item)
        place = self.constants.place(names, self.owner)
        if place is None:
            raise NoConstant(f"`{'::'.join(names)}` is no constant of this file")
        return self.constants.given(place, kind, place[0] or self.owner)

    def variant(self, names, kind):
        """The type of the file that is wanted, and its variant of this path, or nothing."""
        item = self.constants.items.get(kind.name) if kind.kind == "path" else None
        if item is None:
            return None, None
        known = item.known or item.name
        is_own = names[0] == known or names[0] == "Self" and self.owner == known
        if item.kind == "struct":
            return item, item.variants[0] if is_own and len(names) == 1 else None
        return item, next((it for it in item.variants if is_own and [it.name] == names[1:]), None)

    def fields(self, variant, kind):
        """The fields of a struct, and of those that are not named what stands behind `..` has the values."""
        tokens, found, rest = self.tokens, {}, None
        kinds, renames = {it.name: it.type for it in variant.fields}, dict(self.constants.items[kind.name].renames)
        while not tokens.ended() and rest is None:
            if tokens.takes(".."):
                rest = self.value(kind)
                break
            name = tokens.name("the name of a field")
            name = renames.get(name, name)
            if name not in kinds or not tokens.takes(":"):
                raise NoConstant(f"the value of the field `{name}` does not stand beside it")
            found[name] = known_or_not(self.part, kinds[name])
            tokens.skip_to(",")
            tokens.takes(",")
        others = dict(zip(kinds, rest.parts)) if rest is not None else {}
        missing = [it for it in kinds if it not in found and it not in others]
        if missing:
            raise NoConstant(f"`{kind.name}` lacks its field `{missing[0]}`")
        return self.ended(tuple(found[it] if it in found else others[it] for it in kinds))

    def part(self, kind):
        """A value that stands up to the next comma."""
        found = self.value(kind)
        return found if self.tokens.sees(",") else self.ended(found)

    # Numbers.

    def number(self, kind):
        """Numbers and constants with `+`, `-`, `*`, `/`, `%` and `<<`, as a number of a type."""
        value, (least, most) = self.sum(kind, 0), range_of(kind.name)
        if not least <= value <= most:
            raise NoConstant(f"{value} is no `{kind.name}`")
        return Value("number", kind, value)

    def sum(self, kind, depth):
        if depth == len(BINDS):
            return self.factor(kind)
        found = self.sum(kind, depth + 1)
        while mark := self.mark(BINDS[depth]):
            more = self.sum(kind, depth + 1)
            if mark in "/%" and more == 0 or mark == "<<" and not 0 <= more < 128:
                raise NoConstant(f"`{mark} {more}` gives no number")
            found = SUMS[mark](found, more)
        return found

    def mark(self, marks):
        """Takes the mark that comes next, if it is one of these."""
        found = next((it for it in marks if self.tokens.sees(*it)), "")
        for _ in found:
            self.tokens.take()
        return found

    def factor(self, kind):
        tokens = self.tokens
        if tokens.takes("-"):
            return -self.factor(kind)
        if tokens.first.kind == "number":
            found = number_of(tokens.take())
        elif tokens.opens("(") or tokens.opens("{"):
            inside = self.inside()
            found = inside.ended(inside.sum(kind, 0))
        else:
            found = self.number_of_name(kind)
        while tokens.sees("as") or tokens.sees("."):
            if tokens.take().text == ".":
                self.same()
                continue
            name = tokens.name("a type")
            if name not in (*UNSIGNED, *SIGNED):
                raise NoConstant(f"`as {name}` is not read")
            least, most = range_of(name)
            found = (found - least) % (most - least + 1) + least
        return found

    def number_of_name(self, kind):
        token = self.tokens.first
        if token.kind != "name":
            raise NoConstant(f"`{token.text}` begins no `{kind.name}`")
        names = self.tokens.path("a path")
        if len(names) == 2 and names[0] in (*UNSIGNED, *SIGNED) and names[1] in ("MIN", "MAX"):
            return range_of(names[0])[names[1] == "MAX"]
        if names[1:] == ["from"] and names[0] in (*UNSIGNED, *SIGNED):
            inside = self.inside()
            return inside.ended(inside.sum(kind, 0))
        found = self.called(names, kind) if self.tokens.opens("(") else self.named(names, kind)
        return self.wanted(found, found.form == "number", token).value


def known_or_not(read, kind):
    """A value of a type, or why it is not known."""
    try:
        return read(kind)
    except (NoConstant, Refusal) as why:
        return Value("unknown", kind, why.reason if isinstance(why, Refusal) else str(why))


class Defaults:
    """The defaults of the members of a source, and which of their rules they break."""

    def __init__(self, source):
        self.source, self.constants = source, Constants(source)

    def of(self, it, item):
        """The value that stands for a missing member, or for one that is not read; or nothing."""
        own, whole = options(it).get("default"), options(item).get("default")
        said = own or whole
        if said is None and not is_skipped(it):
            return None
        try:
            if own is None and whole is not None:
                made = self.said(whole, named_type(item.name, item.line))
                found = dict(zip((field.name for field in item.variants[0].fields), made.parts)).get(it.name)
            else:
                found = self.said(own, it.type)
            if found is not None and found.lacks():
                raise NoConstant(found.lacks())
            return found
        except NoConstant as why:
            told = f"`default` of `{item.name}`" if own is None and whole is not None else f"the default of the field `{it.name}`"
            raise Refusal(said.line if said else it.line, f"{told}: {why}: {WAY}") from why

    def said(self, said, kind):
        """The value of a function, or of a type."""
        if said is None or said.value is None:
            return self.constants.of_type(kind)
        try:
            names = Parser(tokens_of(said.value), said.value, self.source.notes).path("a path")
        except (Refusal, Refusals) as refusal:
            raise NoConstant(f"`{said.value}` is no path of a function") from refusal
        return self.constants.called(names, kind, "")

    # The rules that a default breaks.

    def broken(self, found, rules):
        """What breaks which of these rules, or nothing."""
        return next((told for rule in rules for told in [self.breaks(found, rule)] if told), None)

    def breaks(self, found, rule):
        """What breaks which rule; or nothing where the value keeps the rule, or only the prover can tell."""
        if rule.name == "custom" and rule.place is not None:
            return f'{self.told(found)} breaks "{rule.message}"' if holds(rule.place, found, self.source.numbers) is False else None
        if found.form == "some" and rule.name not in ("required", "custom"):
            return self.broken(found.parts[0], rule.rules if rule.name == "inner" else [rule])
        if found.form == "none":
            return f"{self.told(found)} breaks `required`" if rule.name == "required" else None
        if rule.name == "dive" and found.form == "made":
            parts = zip(found.variant().fields, found.parts)
            return next((told for it, part in parts for told in [self.broken(part, own_rules(it))] if told), None)
        if rule.bounds:
            return self.written(found, rule) if self.is_beyond(found, rule) else None
        is_asked = found.form == "text" and rule.known.is_kept is not None
        return self.written(found, rule) if is_asked and not rule.known.is_kept(found.value, rule.text or "") else None

    def written(self, found, rule):
        """A rule as it stands at a field, and the value that breaks it."""
        bounds = [(word, resolved(it, self.source.numbers).value) for word, it in rule.bounds.items()]
        inside = [rule.mode] if rule.mode not in ("", "simple") else []
        inside += [f'"{rule.text}"'] if rule.text else []
        inside += [str(value) if rule.known.reads == "a number" else f"{word} = {value}" for word, value in bounds]
        asked = f"({', '.join(inside)})" if inside else ""
        return f"{self.told(found)} breaks `{rule.name}{asked}`"

    def told(self, found):
        """A value as a refusal names it."""
        known = {"number": found.value, "text": f'"{found.value}"', "bool": str(found.value).lower(), "made": found.value, "none": "`None`"}
        return known.get(found.form, "empty")

    def is_beyond(self, found, rule):
        """Whether a number, or how long a text or a list without an item is, lies beyond the bounds of a rule."""
        bounds = {word: resolved(it, self.source.numbers) for word, it in rule.bounds.items()}
        size = found.value if found.form == "number" else self.size(found, rule.mode)
        if size is None or any(it.kind != "number" for it in bounds.values()):
            return False
        if rule.known.is_kept is not None:
            return not rule.known.is_kept(size, bounds["equal"].value)
        low, high = bounds.get("min", bounds.get("equal")), bounds.get("max", bounds.get("equal"))
        return low is not None and size < low.value or high is not None and size > high.value

    def size(self, found, mode):
        """How long a text or a list is; of graphemes only the prover can tell."""
        if found.form == "empty":
            return 0
        if found.form != "text" or mode == "graphemes" and found.value:
            return None
        return {"chars": len(found.value), "utf16": len(found.value.encode("utf-16-le")) // 2}.get(mode, len(found.value.encode()))


def fitted(found, items):
    """A value whose parts have the types of the fields of these items: a part that may be missing is there, and one that is not read has no
    default."""
    if found.form != "made" or found.item.name not in items:
        return replace(found, parts=tuple(fitted(it, items) for it in found.parts))
    item = items[found.item.name]
    variant = next(it for it in item.variants if it.name == found.value)
    given = {it.name: fitted(part, items) for it, part in zip(found.variant().fields, found.parts)}
    parts = [fitted_part(given.get(it.name), it) for it in variant.fields] if variant.shape == "named" else [fitted(it, items) for it in found.parts]
    return replace(found, item=item, parts=tuple(parts))


def fitted_part(part, it):
    """A part as the value of a field. A further name of a member has none."""
    if not it.unmade:
        return part
    return Value("tuple", it.type) if is_skipped(it) else Value("some", it.type, parts=(part,)) if part else Value("none", it.type)


# What a value is in the code, in a statement and in JSON.


def in_json(found, is_map):
    """A value in JSON, as the type's form reads it."""
    if found.form in ("number", "bool", "text"):
        return found.value
    if found.form in ("none", "empty"):
        return None if found.form == "none" else {} if is_map(found.kind) else []
    parts = [in_json(it, is_map) for it in found.parts]
    if found.form in ("tuple", "some"):
        return parts if found.form == "tuple" else parts[0]
    item, variant, said = found.item, found.variant(), options(found.item)
    names = [of_field(it, variant, item) if it.name else None for it in variant.fields]
    members = {name: part for name, it, part in zip(names, variant.fields, parts) if not is_skipped(it) and not (it.unmade and part is None)}
    inside = (members if variant.shape == "named" and "transparent" not in said else parts[0]) if parts else None
    if item.kind == "struct":
        return inside
    name, tag, content = of_variant(variant, item), said.get("tag"), said.get("content")
    if tag is None:
        return {name: inside} if parts else name
    return {tag.value: name, **({content.value: inside} if content and parts else members)}


class Making:
    """The code and the statements of the defaults of a source."""

    def __init__(self, schema):
        self.schema, self.writer, self.borrowed = schema, schema.writer, schema.borrowed

    def maker(self, found, it, variant, item):
        """What makes a value: one of few kinds by itself, and each other one a type that is written for it."""
        if found.form == "text":
            return Word(f'"{found.value}"')
        if found.form == "empty":
            return Word(self.schema.use("Empty"))
        return self.code(found) if self.is_copied(found.kind) else Word(self.schema.name_at(it, variant, item, "Default"))

    def is_copied(self, kind):
        if is_option(kind) or kind.kind == "tuple":
            return all(map(self.is_copied, kind.args))
        item = self.borrowed.items.get(kind.name)
        return is_path(kind, *UNSIGNED, *SIGNED, "bool") or item is not None and all(one.shape == "unit" for one in item.variants)

    def given(self, found, it, variant, item):
        self.writer.uses.others.add("std::marker::PhantomData")
        kind = self.writer.type_text(self.borrowed.type_of(it.type)).replace("'t", "'_")
        return call(self.schema.use("Given"), self.maker(found, it, variant, item), f"PhantomData::<&{kind}>")

    def texts(self, item):
        self.writer.item = item
        for it, variant in ((it, variant) for variant in item.variants for it in variant.fields):
            found = self.borrowed.default(it, item)
            if found is not None and found.form not in ("text", "empty") and not self.is_copied(found.kind):
                yield self.text(found, it, variant, item)

    def text(self, found, it, variant, item):
        name = self.schema.name_at(it, variant, item, "Default")
        if name in self.schema.turned:
            self.writer.notes.refuse(it.line, f"the field `{it.name}`, whose default is made by a type `{name}`: give that of the file another name")
        self.schema.use("Makes")
        self.writer.uses.others.add("std::alloc::Global")
        kind, body = self.writer.type_text(self.borrowed.type_of(found.kind)), statement(self.code(found), 8)
        made = ghost("made", f"λ _. {self.stated(found)}", f" λ _. {self.laid(found, 4)}")
        return fill(
            "type that is asked", docs=f"Makes the {'value' if is_skipped(it) else 'default'} of the field `{it.name}` of `{item.name}`.",
            name=name, trait="Makes", kind=kind, **holding(kind), stated=made, body=body,
            head=f"    fn make(&self, {'alloc' if 'make(alloc)' in body else '_alloc'}: Global) -> {kind} {{",
        )

    def code(self, found):
        if found.form in ("number", "bool", "none"):
            return Word(str(found.value).lower() if found.form != "none" else "None")
        if found.form == "text":
            return call(f"{self.schema.use('TextRef')}::new", f'"{found.value}"')
        if found.form == "empty":
            return Method(Word(self.schema.use("Empty", "Makes")), "make", (Word("alloc"),))
        parts = [self.code(it) for it in found.parts]
        if found.form in ("some", "tuple"):
            return call("Some" if found.form == "some" else "", *parts)
        variant = self.variant(found)
        head = found.item.name if found.item.kind == "struct" else f"{found.item.name}::{variant.name}"
        if variant.shape == "named":
            return literal(head, ((it.name, part) for it, part in zip(variant.fields, parts)))
        return call(head, *parts) if parts else Word(head)

    def stated(self, found):
        uses = self.writer.uses
        if found.form == "number" and found.kind.name in SIGNED:
            return uses.say("minus {}" if found.value < 0 else "plus {}", abs(found.value))
        if found.form in ("number", "bool", "text"):
            text = str(found.value).lower()
            return text if found.form == "number" else uses.say(text) if found.form == "bool" else uses.say('codes "{}"', found.value)
        if found.form in ("none", "some", "empty"):
            word = {"none": "None", "some": "Some", "empty": "[]"}[found.form]
            uses.prelude.add(word)
            return " ".join([word, *map(self.bracketed, found.parts)])
        if found.form == "tuple":
            return f"({', '.join(map(self.stated, found.parts))})" if found.parts else "tt"
        if found.item.kind == "enum":
            uses.cited.add(found.item.name)
            return " ".join([self.variant(found).word, *map(self.bracketed, found.parts)])
        return f"record {{ {'; '.join(f'{name} = {self.stated(part)}' for name, part in self.rows(found))} }}"

    def variant(self, found):
        """The variant of a value, as its type is declared here."""
        return next(it for it, one in zip(self.schema.turned[found.item.name].variants, found.item.variants) if one.name == found.value)

    def rows(self, found):
        return [(it.name or str(at), part) for at, (it, part) in enumerate(zip(self.variant(found).fields, found.parts))]

    def bracketed(self, found):
        text = self.stated(found)
        return f"({text})" if " " in text and found.form != "tuple" else text

    def part(self, found):
        """The same as a part of a statement."""
        text = self.bracketed(found)
        return text if len(text) <= LONG else f"({self.laid(found, 8)})"

    def laid(self, found, indent):
        """The same in rows, where it is a struct that is long."""
        text, space = self.stated(found), " " * indent
        if found.form != "made" or found.item.kind == "enum" or len(text) <= LONG:
            return text
        rows = "".join(f"{space}  {name} = {self.laid(part, indent + 2)};\n" for name, part in self.rows(found))
        return f"record {{\n{rows}{space}}}"
