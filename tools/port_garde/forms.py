"""The walk of the types of a source by which their forms are written: as code, and as they are stated."""
import functools

from .borrowed import is_map, of_whole, within_option
from .derives import is_skipped, of_field, options
from .inputs import may_be_missing
from .kinds import WHOLE, kind_of
from .members import Group, grouped, held_part, is_closed, is_flat, is_rest, own_rules
from .scope import Seen, is_option, is_path
from .unions import TESTS, Shapes, beside_units, is_list, is_other, is_tuple, is_unit, names_of, nested, paths_of, units_of
from .words import Checks


def items_rules(rules):
    """The rules of each item of a list, or of each value of a map."""
    return [found for it in rules if it.name in ("inner", "dive") for found in (it.rules if it.name == "inner" else [it])]


def beside_dive(rules):
    """The rules of a part beside those of its type."""
    return [it for it in rules if it.name != "dive"]


class Forms:
    """The forms of the types of a source. What `make` makes is a form, by its name in code, with what it is given: as code, or as it is
    stated. `unit` is the value of nothing, and `marker` what a union by the name of its only member is given besides."""

    unit, marker = "", ()

    def __init__(self, writer):
        self.writer, self.borrowed, self.items = writer, writer.borrowed, writer.borrowed.items
        self.turned = {it.name: it for it in writer.source.items}

    # Types.

    def inside(self, variant, item):
        """What a struct or a variant holds, which has no name there."""
        if is_unit(variant):
            return self.make("Null")
        if is_list(variant):
            return self.make("InOrder", str(len(variant.fields)), self.members(variant, item))
        if variant.shape == "named" and not (item.kind == "struct" and "transparent" in options(item)):
            return self.make("Object", self.closed(self.members(variant, item), item))
        it = variant.fields[0]
        self.writer.spot = it.name or "value"
        return self.form(it.type, it.attributes.rules)

    def closed(self, members, item):
        return self.make("Closed", members) if "deny_unknown_fields" in options(item) else members

    def members(self, variant, item):
        return self.of_group(grouped(variant.fields), variant, item)

    def of_group(self, group, variant, item):
        """Members, and then the rules that are asked of all of them, each under its own member."""
        parts = [self.of_group(it, variant, item) if isinstance(it, Group) else self.part(it, variant, item) for it in group]
        members = self.make("Rest", *parts) if group.is_rest else self.in_turn(parts)
        return self.asked_of_all(members, group, variant, item) if group.asked else members

    def texts_of(self, variants, item, value):
        """One of the names of some variants, each with its value. Every other name has that of the variant that stands for it."""
        rows = [(name, value(it)) for it in variants if not is_other(it) for name in names_of(it, item)]
        others = [value(it) for it in variants if is_other(it)]
        return self.make("OneOfOr" if others else "OneOf", self.rows(rows), *others)

    def of_names(self, item):
        """The name that says which value of an enum without fields it is, which may stand in an object under a tag."""
        form, tag = self.texts_of(item.variants, item, lambda it: self.named(it, item)), options(item).get("tag")
        return self.make("Object", self.closed(self.make("Member", f'"{tag.value}"', form), item)) if tag else form

    def of_enum(self, item):
        """A union: by its tag, by the name of its only member, or by what tells its variants apart."""
        if "untagged" in options(item):
            return self.of_untagged(item)
        tag, units, closed = options(item).get("tag"), units_of(item), [is_closed(it, item, self.items) for it in item.variants]
        variants = [self.variant(it, item, tag) for it in beside_units(item)]
        if tag and len(set(closed)) > 1:
            variants = [self.make("ClosedVariants", form) if is_one else form for form, is_one in zip(variants, closed)]
        whole = self.paired("EitherOf", variants)
        if tag:
            return self.make("Tagged", f'"{tag.value}"', self.make("ClosedVariants", whole) if all(closed) else whole)
        whole = self.make("OneMember", whole, *self.marker)
        if not units:
            return whole
        sides = paths_of(nested(units))
        return self.make("TextOr", self.texts_of(units, item, lambda it: self.side(sides[it.name])), whole)

    def paired(self, name, forms):
        return nested(forms, functools.partial(self.make, name))

    def of_untagged(self, item):
        *front, whole = [self.inside(it, item) for it in item.variants]
        for form, test in reversed([*zip(front, Shapes(self.borrowed).tests(item))]):
            whole = self.make("Choice", self.test(test), form, whole)
        return whole

    def test(self, test):
        word, *parts = test
        if word == "kind":
            return self.kind(parts[0])
        if word == "among":
            return self.among(self.make("OneOf", self.rows([(it, self.unit) for it in parts[0]])))
        return self.make(TESTS[word], *(f'"{it}"' if isinstance(it, str) else self.test(it) for it in parts))

    def variant(self, variant, item, tag):
        """A variant of a union, under each of its names. One without members asks for the tag alone, which is there."""
        content = options(item).get("content")
        if not tag:
            members = self.inside(variant, item)
        elif held_part(variant, item, self.items):
            members = self.flattened(variant.fields[0])
        elif content and is_unit(variant):
            members = self.make("WithDefault", f'"{content.value}"', self.make("Null"), self.unit)
        elif content:
            members = self.make("Member", f'"{content.value}"', self.inside(variant, item))
        elif variant.fields:
            members = self.members(variant, item)
        else:
            members = self.make("Member", f'"{tag.value}"', self.make("Any"))
        if is_other(variant):
            return self.make("Otherwise", members)
        return self.paired("Same", [self.make("Variant" if tag else "VariantMember", f'"{name}"', members) for name in names_of(variant, item)])

    # Members.

    def part(self, at, variant, item):
        """A member of an object, or an item of a list."""
        it = variant.fields[at]
        if not is_list(variant):
            return self.member(it, variant, item)
        self.writer.spot = f"value_{at}"
        return self.make("Nth", str(at), self.form(it.type, it.attributes.rules))

    def member(self, it, variant, item):
        if is_flat(it):
            return self.flattened(it)
        self.writer.spot = it.name
        name, kind, rules = f'"{of_field(it, variant, item)}"', it.type, own_rules(it)
        default = self.borrowed.default(it, item)
        if is_skipped(it):
            return self.given(default, it, variant, item)
        if default is None and is_option(kind) and may_be_missing(kind, self.writer.input):
            form, asked = self.missing(it, name, self.form(kind.args[0], within_option(rules))), of_whole(rules)
            return self.asked_of_member(form, name, kind, asked) if asked else form
        form = self.form(kind, rules)
        if default is None:
            return self.make("Member", name, form)
        return self.make("WithDefault", name, form, self.default(default, it, variant, item))

    def missing(self, it, name, form):
        """A member that may be missing. One whose default is not known may not be `null`."""
        if it.unmade:
            return self.make("IfAny", self.make("Member", name, form))
        return self.make("Nullish" if self.writer.input == "json" else "Optional", name, form)

    def flattened(self, it):
        """The members that a field stands for, or the form of the values of all other members."""
        self.writer.spot = it.name or "value"
        kind, rules = it.type, own_rules(it)
        if is_rest(it):
            return self.form(kind.args[1], items_rules(rules))
        if not is_option(kind):
            return self.ruled(self.of_part(kind), kind, beside_dive(rules), "CheckedMembers")
        inside = self.ruled(self.of_part(kind.args[0]), kind.args[0], beside_dive(within_option(rules)), "CheckedMembers")
        return self.ruled(self.make("IfAny", inside), kind, of_whole(rules), "CheckedMembers")

    # Values.

    def form(self, kind, rules):
        is_json = self.writer.input == "json"
        if is_option(kind):
            form = self.make("Nullable" if is_json else "OrEmpty", self.form(kind.args[0], within_option(rules)))
            return self.ruled(form, kind, of_whole(rules))
        if is_tuple(kind):
            parts = [self.make("Nth", str(at), self.form(it, ())) for at, it in enumerate(kind.args)]
            form = self.make("InOrder", str(len(parts)), self.in_turn(parts)) if parts else self.make("Null")
            return self.ruled(form, kind, rules)
        if is_path(kind, "Vec") or is_map(kind):
            return self.several(kind, rules)
        if kind.name in self.items:
            return self.ruled(self.of_item(kind), kind, beside_dive(rules))
        known = kind_of(kind, self.writer.source) or WHOLE
        if known.form == "Whole":
            return self.number(kind, rules)
        if known.form in ("Text", "DecimalNumber"):
            return self.make(known.form, self.asked(kind, rules))
        if known.form == "Flag":
            return self.ruled(self.make("Flag") if is_json else self.written_flag(), kind, rules)
        return self.ruled(self.kept() if known.form == "Kept" else self.parsed(known), kind, rules)

    def several(self, kind, rules):
        """A list or a map: rules of how many there are, those of each item or value, those of the names of a map, and then those of the whole."""
        name, inside = "List" if kind.name == "Vec" else "Map", self.form(kind.args[-1], items_rules(rules))
        counts, names = ([it for it in rules if it.name == word] for word in ("length", "keys"))
        form = self.make(f"{name}Under", self.counted(kind, counts), inside) if counts or names else self.make(name, inside)
        return self.ruled(self.ruled(form, kind, names, "Keys"), kind, [it for it in rules if it.name in ("unique", "custom")])

    def ruled(self, form, kind, rules, name="Checked"):
        """A form that has no place for rules, under these."""
        return self.make(name, form, self.asked(kind, rules)) if rules else form

    def checks(self, kind, rules):
        """What rules ask of a value, as code and as it is stated."""
        return Checks(self.writer.form_scope(), self.writer).of(list(rules), Seen(self.borrowed.type_of(kind), "v"))
