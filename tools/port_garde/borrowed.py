"""The types of a source as `--schema` declares them: their texts, lists and maps are those that a form of `garde_schema` reads, which
borrow from the input; and what of them no form reads."""
from dataclasses import replace

from .defaults import WAY, Defaults, Value, fitted
from .derives import CASES, OPTIONS, OWN, all_types, fields_of, is_skipped, options, reached, reading_case, type_names
from .everyday import plain
from .expressions import SIGNED, UNSIGNED
from .holes import BY_IMPL, Hole, Holes, nothing, optional
from .kinds import DECIMAL, KEPT, LIFE, WAYS, canonical, is_any, is_float, kind_of, place_of
from .members import always_there, faults as faults_of_flattened, flat_part, held_part, is_flat, is_rest, names_of, others_of, own_rules
from .members import shared_rules
from .quoted import BESIDE_CONTEXT
from .rules import Attributes
from .scope import is_option, is_path, is_text
from .source import Item, Param, Type, all_rules, is_ported, named_type, with_doc, with_fields, with_rules
from .templates import TABLES, names
from .tokens import Refusal, meant
from .unions import Shapes, is_other, is_tuple, is_unit, names_of as names_of_variant

# What each type that borrows has of the derives.
HAS = {"TextRef": ("Debug", "PartialEq", "Eq"), "Items": ("Debug",), "Entries": ("Debug",), "Url": ("Debug", "PartialEq"), DECIMAL: ("Debug",), KEPT: ("Debug",)}
AT = names("options of serde that a form reads")
# Those of fields that a form of one's own reads.
AT_OWN = ("alias", "with", "deserialize_with")
# The attributes of serde that say nothing to what reads: how a value is written, bounds of an implementation, and a text of serde's own.
SILENT = names("options of serde that say nothing to a form")
WORDS_OF_SERDE = sorted({word for words in (*AT.values(), *OPTIONS.values()) for word in words})
# What a derive asks for besides.
ASKS = {"Copy": ("Clone",), "Eq": ("PartialEq",), "PartialOrd": ("PartialEq",), "Ord": ("Eq", "PartialOrd"), "Hash": ("Eq",)}
# The attributes that change what a type is read of, whoever derives it.
TURNING = ("serde_as", "serde_inline_default", "serde_conv")
READ_BY_HAND = "see docs/guide/attributes.md#types-that-no-form-reads"
RESERVED = TABLES["words of statements"].split()


def is_read(item):
    """Whether a form reads values of a type."""
    return "Deserialize" in item.derives


def is_named(item):
    """Whether each value of a type is one of some names: an enum without fields. They may stand under a tag."""
    return item.kind == "enum" and all(map(is_unit, item.variants)) and not {"content", "untagged"} & set(options(item))


# A tuple of more items is a tuple in a tuple, whose value is another one.
MOST_ITEMS = 6
# The rules of lists and of maps that a form asks.
OF_LISTS = {True: ("inner", "dive", "length", "unique", "custom"), False: ("inner", "dive", "length", "keys", "custom")}


def below(item):
    """The field of a struct that holds a list of values of the struct's own type, or nothing."""
    held = [it for it in fields_of(item) if item.name in type_names(it.type)]
    is_list = len(held) == 1 and is_path(held[0].type, "Vec") and is_path(held[0].type.args[0], item.name)
    return held[0] if is_list and item.kind == "struct" and item.variants[0].shape == "named" and fields_of(item)[1:] else None


def is_held(item, items):
    """Whether another type of the file holds values of this one."""
    return any(item.name in type_names(it.type) for other in items.values() if other is not item for it in fields_of(other))


def without_dive(rules):
    kept = [replace(it, rules=without_dive(it.rules)) for it in rules if it.name != "dive"]
    return tuple(it for it in kept if it.rules or it.name not in ("inner", "if"))


class Borrowed:
    """The types of a source. `is_walked` says that they have a walk too, `is_stated` that what an input spells is stated, and `has_context`
    that they may have a context."""

    def __init__(self, source, left_out, is_stated=False, is_walked=False, has_context=False, input="json", own=None, root=None):
        self.source, self.left_out, self.is_stated, self.is_walked = source, left_out, is_stated, is_walked
        self.has_context, self.input, self.own, self.root, self.context = has_context, input, own, root, None
        # a type of values of any kind is known by one name
        known = lambda it: replace(it, type=canonical(it.type))
        source.items[:] = [with_fields(it, known) if is_read(it) else it for it in source.items]
        plain(source, bool(own))
        self.items = {it.name: it for it in source.items if is_read(it)}
        self.holes = self.found_holes(root) if own else {}
        self.borrowing = self.found_borrowing()
        self.each_field(self.with_rules_of_sets)
        self.each_field(lambda it: always_there(it, self))
        self.defaults = Defaults(source)
        # where the source has a module of one's own each member may be missing whose default is not known
        unknown = {id(it): told for item in self.items.values() for it in fields_of(item) for told in [self.unknown_default(it, item)] if told}
        self.each_field(lambda it: self.unmade(it, unknown[id(it)]) if id(it) in unknown else it)
        self.show_parts(root)

    def show_parts(self, root):
        """Lets the type that is read be seen, and a part wherever the type is that holds it, since what makes a value of that type names it."""
        if root in self.items and not self.items[root].vis:
            self.items[root] = replace(self.items[root], vis="pub ")
        held = [(name, it.name) for it in self.items.values() for field in fields_of(it) for name in type_names(field.type) if name in self.items]
        seen = lambda name: ("pub " == self.items[name].vis, self.items[name].vis != "")
        while hidden := [(part, whole) for part, whole in held if seen(part) < seen(whole)]:
            for part, whole in hidden:
                self.items[part] = replace(self.items[part], vis=self.items[whole].vis)
        self.source.items[:] = [self.items[it.name] if it.name in self.items and it.name not in self.holes else it for it in self.source.items]

    def each_field(self, change):
        for at, item in enumerate(self.source.items):
            if item.name in self.items and item.name not in self.holes:
                self.source.items[at] = self.items[item.name] = with_fields(item, change)

    def unknown_default(self, it, item):
        """Why the default of a member is not known, or nothing. Where rules speak of it besides others it has to be."""
        is_asked = shared_rules(it) or any(it.name in others_of(rule) for one in fields_of(item) for rule in one.attributes.rules)
        if it.unmade or not self.own or self.input != "json" or not it.name or it.type.kind == "unread" or is_asked or any(rule.name == "if" for rule in it.attributes.rules):
            return None
        try:
            self.defaults.of(it, item)
        except Refusal as refusal:
            return refusal.reason.removesuffix(WAY).removesuffix(": ")
        return None

    def unmade(self, it, told):
        """Such a field: an option of what is there, or nothing at all of a member that is not read."""
        value = "not read, and `()` here" if is_skipped(it) else "`None` where it is missing"
        self.source.notes.holes.append(Hole(it.line, f"{it.name}: {told}: it is {value}; fill it in by your code"))
        docs = with_doc(it.docs, f"It is {value}: its default is not known.")
        return replace(nothing(it) if is_skipped(it) else optional(it), docs=docs)

    def found_holes(self, root):
        """The types whose reading stands elsewhere, by their names, each with why that is so. They are types of the source from here on, and
        those are no more that the type which is read does not hold."""
        held = {it.name: it for it in self.source.items}
        nested = {name for name, it in self.items.items() if root and name != root and self.holds(it, it)}
        self.items = {name: it for name, it in self.items.items() if name not in nested and not any(word in options(it) for word in BY_IMPL)}
        reads = lambda kind: is_option(kind) or is_path(kind, "Vec", *self.items) or is_map(kind) or kind_of(kind, self.source) is not None
        holes = Holes(held, reads, lambda it: is_rest(it) or flat_part(it, self.items), self.own, self.source.notes)
        turned, left = {}, [root] if root in self.items else list(self.items)
        while left:
            name = left.pop()
            item = turned[name] = holes.of_item(self.items[name])
            left += [name for it in fields_of(item) for name in sorted(type_names(it.type)) if name in self.items and name not in turned and name not in left]
        starts = {it.line: any(one.line == it.line and one.name in turned for one in held.values()) for it in held.values()}
        self.source.notes.holes[:] = [it for it in self.source.notes.holes if starts.get(max((line for line in starts if line <= it.line), default=0), True)]
        self.items = {name: turned[name] for name in self.items if name in turned}
        self.source.items = [self.items.get(it.name, it) for it in self.source.items]
        self.source.items = [it for it in self.source.items if it.name in self.items or it.name == root or not is_read(it) and it.name not in holes.why]
        # a hole has no form here
        self.items.update({name: Item("hole", name, (), (), 0, Attributes(), derives=("Deserialize",)) for name in holes.why})
        return holes.why

    def with_rules_of_sets(self, it):
        """A field of which no set asks that its items differ, where they are of a type that is not compared."""
        rules = tuple(self.rules_of_sets(it.type, it.attributes.rules))
        return with_rules(it, rules, skip=it.attributes.skip or not rules and bool(it.attributes.rules))

    def rules_of_sets(self, kind, rules):
        """Rules of a type, but for those of sets whose items are not compared."""
        for it in rules:
            if it.added and it.name == "inner":
                inside = tuple(self.rules_of_sets(kind.args[-1], (replace(one, added=True) for one in it.rules)))
                yield from [replace(it, rules=inside)] if inside else []
            elif not it.added or it.name != "unique" or self.is_compared(within_options(kind).args[0]):
                yield it

    def is_compared(self, kind):
        held = self.items.get(kind.name)
        return is_text(kind) or is_path(kind, *UNSIGNED, *SIGNED) or held is not None and kind.name not in self.holes and self.has(held, "PartialEq", ())

    def found_borrowing(self):
        """The names of the types that hold a text or a map, or such a type."""
        own = {it.name for it in self.items.values() if any(map(borrows, (one for field in fields_of(it) for one in all_types(field.type))))}
        return {name for name in self.items if reached([name], self.items) & (own | set(self.holes))}

    def unwalked(self):
        """The names of the types that a form reads, but for those that stand in a type with a walk."""
        walked = [it for it in self.source.items if is_ported(it) and it.name not in self.items]
        return set(self.items) - reached((name for it in walked for field in fields_of(it) for name in type_names(field.type)), self.items)

    def turn(self):
        """Puts the types of the source in their new form, and notes what no form reads."""
        for at, item in enumerate(self.source.items):
            if is_read(item):
                self.source.notes.refuse_all(self.faults(item))
                self.source.items[at] = self.turned(item)

    def turned(self, item):
        """A type with other texts, lists and maps, without what is serde's. A variant with brackets that hold no field is one without."""
        params = (Param("lifetime", LIFE),) if item.name in self.borrowing else ()
        changed = with_fields(item, lambda it: self.turned_field(it, item))
        variants = tuple(replace(it, serde=()) for it in changed.variants)
        if item.kind == "enum":
            variants = tuple(it if it.fields else replace(it, shape="unit") for it in variants)
        derives = self.derives_of(item)
        said = tuple((line, path) for line, path in item.said if path[-1] in (*derives, "Validate"))
        others = tuple((line, name) for line, name in item.others if name == "default" and "Default" in derives)
        return replace(item, params=params, variants=variants, derives=derives, said=said, others=others, serde=())

    def derives_of(self, item):
        """The derives that a type has here: those of the source that all it holds have too. A form of names asks for two more."""
        found = [it for it in item.derives if it not in self.left_out and (it == "Validate" or it in OWN and self.has(item, it, ()))]
        found += [it for it in ("Clone", "Copy") if is_named(item) and it not in found]
        while lost := [it for it in found if any(one not in found for one in ASKS.get(it, ()))]:
            found = [it for it in found if it not in lost]
        return tuple(found)

    def has(self, item, derive, seen):
        """Whether a derive of a type is here too: what it holds has it."""
        if is_named(item) and derive in ("Clone", "Copy"):
            return True
        return derive in item.derives and all(self.is_derived(it.type, derive, (*seen, item.name)) for it in fields_of(item))

    def is_derived(self, kind, derive, seen):
        """Whether values of a type, as a form gives them, have a derive."""
        if kind.name in seen:
            return True
        turned, held = self.type_of(kind), self.items.get(kind.name)
        if held is not None and not self.has(held, derive, seen) or turned.name in HAS and turned.name not in self.items and derive not in HAS[turned.name]:
            return False
        return is_text(kind) or all(self.is_derived(it, derive, seen) for it in kind.args)

    def turned_field(self, it, item):
        """A field with the type that a form makes. It is without what no statement says: that the rules of a type hold which holds itself."""
        nested = any(name in self.items and below(self.items[name]) for name in type_names(it.type))
        if nested and not below(item):
            rules = without_dive(it.attributes.rules)
            it = with_rules(it, rules, skip=not rules)
        is_told = any(self.unread(it.type, None)) or any(self.of_lists(it.type, own_rules(it)))
        return replace(it, type=Type("unread", "", it.line) if is_told else self.type_of(it.type), serde=(), flat=is_flat(it))

    def type_of(self, kind):
        """A type as a form gives its values."""
        if known := kind_of(kind, self.source):
            return known.turned(kind)
        args = tuple(self.type_of(it) for it in kind.args)
        if is_path(kind, "Vec") and len(args) == 1:
            return named_type("Items", kind.line, *args)
        if is_map(kind):
            return named_type("Entries", kind.line, args[1], lives=(LIFE,))
        if kind.kind == "path" and kind.name in self.borrowing:
            return replace(kind, args=(), lives=(LIFE,))
        return replace(kind, args=args)

    def faults(self, item):
        yield from ((item.line, f"the parameter `{it.name}` of `{item.name}`, which no form has") for it in item.params if it.kind != "lifetime")
        if item.attributes.context:
            yield from self.of_context(*item.attributes.context)
        yield from self.of_serde(item)
        yield from self.of_derives(item)
        for variant in item.variants:
            for it in variant.fields:
                yield from self.of_field(it, item)
        if self.holds(item, item):
            yield from self.of_nested(item)

    def of_context(self, line, tokens):
        text = " ".join(it.text for it in tokens.tokens)
        if not self.has_context:
            yield line, "a context: the form of `--schema` has none, so say `--spelled TYPE`"
        elif self.context not in (None, text):
            yield line, "a context that is not that of another type of this file, whose form is the same: write the same one"
        self.context = text

    def of_nested(self, item):
        held, others = below(item), [it for it in fields_of(item) if self.items.get(it.type.name) is not item]
        if held is None or any(self.holds(self.items[name], item) for it in others if it is not held for name in type_names(it.type) if name in self.items):
            yield item.line, f"`{item.name}`, whose values hold values of its own type otherwise than in one list, beside other fields"
            return
        if any(rule.name != "dive" for rule in held.attributes.rules) or any(held.name in others_of(rule) for it in fields_of(item) for rule in it.attributes.rules):
            yield held.line, f"the field `{held.name}` of a type that holds itself, with more than `dive`: no form asks a rule of that list, so ask it by your code"
        if self.is_walked or self.is_stated:
            yield item.line, f"`{item.name}`, which holds itself: {'what JSON spells of it is not stated' if self.is_stated else 'it has no walk'}, so say `--schema --no-walk`"

    def of_serde(self, item):
        parts = [(item, "type")] + [(it, "variant") for it in item.variants if item.kind == "enum"]
        parts += [(it, "field" if it.name else "field without a name") for it in fields_of(item)]
        for part, place in parts:
            for said in options(part).values():
                if said.word not in (*AT.get(place, ()), *SILENT[place]):
                    way = ": say `--own` for a form of your own" if said.word in AT_OWN and place == "field" else meant(said.word, WORDS_OF_SERDE)
                    yield said.line, f"`{said.word}` of serde, of which `--schema` writes no form{way}"
                elif said.word.startswith("rename_all") and reading_case(said) not in CASES:
                    yield said.line, f"`{said.word}` of serde without one case of names, as \"camelCase\"{meant(said.value, CASES)}"
                elif said.word == "transparent" and len(fields_of(item)) != 1:
                    yield said.line, f"`transparent` of serde at `{item.name}`, which has not just one field"
        yield from self.of_names(item)
        yield from faults_of_flattened(item, self)
        if item.kind == "enum":
            yield from self.of_enum(item)

    def of_names(self, item):
        """The members and the variants whose name is that of one before."""
        rows = [[(it.line, names_of(it, variant, item, self.items)) for it in variant.fields if it.name] for variant in item.variants]
        if item.kind == "enum":
            rows.append([(it.line, names_of_variant(it, item)) for it in item.variants])
        for row in rows:
            known = set()
            for line, names in row:
                yield from ((line, f"the name `{it}`, which another one has in JSON") for it in names if it in known)
                known.update(names)

    def of_enum(self, item):
        said = options(item)
        for variant in item.variants:
            if is_other(variant) and ("untagged" in said or variant is not item.variants[-1] or not is_unit(variant)):
                yield options(variant)["other"].line, "`other` of serde, which stands at the last variant, one without fields, of an enum that is not `untagged`"
        if "untagged" in said and all(map(is_unit, item.variants)):
            yield said["untagged"].line, "`untagged` of serde at an enum without fields, each of whose variants is `null`"
        if is_named(item):
            return
        for variant in item.variants:
            if variant.shape == "tuple" and "tag" in said and "content" not in said and not held_part(variant, item, self.items):
                yield variant.line, f"the variant `{variant.name}` under `tag` without `content`: give it fields with names"
        if "untagged" in said:
            yield from Shapes(self).faults(item)

    def of_derives(self, item):
        """The attributes that may change what is read."""
        at_type = [it for it in item.others if it not in [one for part in (*item.variants, *fields_of(item)) for one in part.others]]
        for line, name in item.others:
            if name.split("::")[-1] in TURNING and (line, name) not in at_type:
                yield line, f"the attribute `{name}`, which changes what a field is read of: {READ_BY_HAND}"

    def of_field(self, it, item):
        yield from self.of_rules(it)
        if it.attributes.adapter:
            yield it.line, "`adapt`, of which `--schema` writes no form"
        yield from self.of_default(it, item)
        yield from self.of_lists(it.type, own_rules(it))
        yield from ((it.line, told) for told in sorted(set(self.unread(it.type, item))))
        yield from ((it.line, f"{told}, which no text of `--input {self.input}` writes") for told in sorted(set(self.unwritten(it.type))) if not self.is_part(it, item))
        held = self.items.get(it.type.name)
        if held is not None and held is not item and is_ported(held) and asks(held) and not below(held) and not any(rule.name == "dive" for rule in all_rules(it.attributes.rules)):
            yield it.line, f"the field `{it.name}` of the type `{held.name}`, whose rules its form asks: write `dive`"

    def of_rules(self, it):
        """The rules of a field that no form asks, or that `--body` does not state."""
        for rule in all_rules(shared_rules(it)):
            if rule.name == "dive":
                yield rule.line, "`dive` under a condition, which a form cannot leave out"
        for rule in all_rules(it.attributes.rules):
            if rule.name == "pattern" and rule.place is None:
                way = "say `--spelled TYPE`" if self.root is None else "write a rule of your own, by `custom`"
                yield rule.line, BESIDE_CONTEXT if self.has_context else f"`pattern` in quotes, which no form of `--{'schema' if self.root is None else 'body'}` holds compiled: {way}"
            if rule.name == "dive" and rule.place is not None and rule.place.kind == "place" and len(rule.place.value) > 1:
                yield rule.line, "`dive` with a part of the context, of which a form hands on the whole alone"

    def default(self, it, item):
        """The value that stands for a missing member, where that is not the `None` of an option; or the value of one that is not read."""
        if it.unmade:
            return Value("tuple", it.type) if is_skipped(it) else None
        found = self.defaults.of(it, item) if it.type.kind != "unread" else None
        found = fitted(found, self.items) if found is not None else None
        return None if found is not None and found.form == "none" and not is_skipped(it) else found

    def of_default(self, it, item):
        """A default that is not known, or that its field's rules do not hold for."""
        try:
            found = self.default(it, item) if it.name else None
        except Refusal as refusal:
            yield refusal.line, refusal.reason
            return
        told = self.defaults.broken(found, own_rules(it)) if found is not None else None
        if told:
            yield it.line, f"the default of the field `{it.name}`: {told}: give another default, or read an `Option`"
        if found is not None and below(item) is it:
            yield it.line, f"the default of the field `{it.name}` of a type that holds itself, whose list has to be there: take it out, and write `[]` in the input"

    def of_lists(self, kind, rules, way="write it within `inner(..)` for each item"):
        """The rules of lists and maps that no form asks, and the way out."""
        if is_option(kind):
            is_within = any(it.name == "inner" for it in rules)
            yield from self.of_lists(kind.args[0], within_option(rules), *["`inner` of an `Option` is of what that holds: write `inner(inner(..))` for each item"] * is_within)
        elif is_path(kind, "Vec") or is_map(kind):
            is_list = kind.name == "Vec"
            for it in rules:
                if it.name not in OF_LISTS[is_list] or it.name == "length" and it.mode != "simple":
                    name = f"{it.name}({it.mode}, ..)" if it.name == "length" else it.name
                    told = {"keys": "it is asked of maps", "unique": "it is asked of lists", "if": "write a rule of your own, by `custom`"}.get(it.name, way)
                    yield it.line, f"`{name}` of a {'list' if is_list else 'map'}, which `--schema` does not write: {told}"
            within = [found for it in rules if it.name == "inner" for found in it.rules]
            yield from self.of_lists(kind.args[-1], within)

    def unread(self, kind, item):
        """The types within a type that no form reads."""
        if is_text(kind) or kind.kind == "unread":
            return
        if is_option(kind) or is_path(kind, "Vec"):
            yield from self.unread(kind.args[0], item)
        elif is_map(kind):
            yield from self.unread(kind.args[1], item)
        elif is_tuple(kind):
            if len(kind.args) == 1:
                yield "a tuple of one value, which no form of `--schema` reads: write the value, or a list"
            if len(kind.args) > MOST_ITEMS:
                told = f"a tuple of more than {MOST_ITEMS} values, which no form of `--schema` reads"
                yield f"{told}: write a struct with fields without names, as `struct Row(..);`"
            for it in kind.args:
                yield from self.unread(it, item)
                if it.name in self.items and asks(self.items[it.name]):
                    yield f"the type `{it.name}` within a tuple, whose rules its form asks: give the tuple a name, as `struct Row(..);`, with `dive` at its fields"
        elif not is_path(kind, *self.items) and kind_of(kind, self.source) is None:
            way = WAYS.get(place_of(kind, self.source))
            told = f"the type `{kind.name}`" if kind.kind == "path" else "a tuple, an array or a reference"
            yield f"{told}, which no form of `--schema` reads: {way or READ_BY_HAND}"

    def is_part(self, it, item):
        """Whether a field has the texts of the path or of the query of a request."""
        return self.input == "request" and item.name == self.root and it.type.name in self.items

    def unwritten(self, kind, within=()):
        """The types within a type that no field of a web form and no cell of a table writes."""
        if self.input == "json" or is_text(kind) or kind.kind == "unread":
            return
        is_list = is_path(kind, "Vec")
        if is_option(kind) and within in ((), ("Option",))[: 1 + (self.input == "web-form")] or is_list and self.input == "web-form" and "Vec" not in within:
            yield from self.unwritten(kind.args[0], (*within, kind.name))
        elif is_list or is_option(kind):
            yield f"`{kind.name}` within `{within[-1]}`" if within else f"the type `{kind.name}`"
        elif is_map(kind) or (known := kind_of(kind, self.source)) and not known.is_written:
            yield f"the type `{kind.name}`"
        elif is_tuple(kind):
            yield "a tuple"
        elif kind.name in self.items and (not is_named(self.items[kind.name]) or "tag" in options(self.items[kind.name])):
            yield f"the type `{kind.name}`, which has fields"

    def holds(self, item, whole):
        """Whether values of a type hold values of another one."""
        held = {name for it in fields_of(item) for name in type_names(it.type)}
        return self.items.get(whole.name) is whole and whole.name in reached(held, self.items)


def borrows(kind):
    names = ("BTreeMap", "HashMap", "TextRef", "Entries", DECIMAL, KEPT)
    return is_text(kind) or is_float(kind) or is_any(kind) or is_path(kind, *names)


def of_whole(rules):
    """The rules that are asked of an option as a whole."""
    return [it for it in rules if it.name in ("required", "custom")]


def within_options(kind):
    """What options of a type hold."""
    return within_options(kind.args[0]) if is_option(kind) else kind


def within_option(rules):
    whole = of_whole(rules)
    return [found for it in rules if it not in whole for found in (it.rules if it.name == "inner" else [it])]


def is_map(kind):
    return is_path(kind, "BTreeMap", "HashMap") and len(kind.args) == 2 and is_text(kind.args[0])


def asks(item):
    """Whether attributes ask something of a type's fields."""
    return any(not rule.added for it in fields_of(item) for rule in it.attributes.rules)
