"""The forms of `garde_schema` that read values of a source's types, the makers of these values, and the functions that read them."""
import re
from collections import Counter
from dataclasses import replace

from .borrowed import below, fields_of, is_held, is_named
from .defaults import Making
from .derives import all_types, of_field, type_names
from .forms import Forms
from .implementation import OWN
from .inputs import Reader
from .layout import WIDTH, Method, Parts, Word, call, flat, ghost, head_of_method, statement
from .makers import Makers, places, side_pattern, tuple_of, wide
from .members import fields_among, filled, grouped, groups_in, numbers_in, own_part, part_of, shared_rules
from .scope import Place, Seen
from .spelled import Spellings
from .templates import fill
from .words import Checks, camel, together


def within_rule(stated, context):
    """What is stated of a context, as that of the rule that holds it."""
    return re.sub(rf"(?<![\w.]){context}(?!\w)", "rule.0.now", stated)


def snake(name):
    return "".join(f"_{it.lower()}" if it.isupper() and at else it.lower() for at, it in enumerate(name))


# What is called otherwise in code than where forms are made, and what `garde_form` has.
CODE = {"VariantMember": "Member", "ClosedVariants": "Closed", "CheckedMembers": "Checked", "EitherOf": "", "Both": ""}
OF_FORMS = ("OrEmpty", "Parsed")


class Schema(Forms):
    """The forms of a source as code. Its types are `items` as the source has them, and `turned` as they are declared."""

    unit, marker = "()", ("PhantomData",)

    def __init__(self, writer):
        super().__init__(writer)
        self.makers, self.making = Makers(self), Making(self)
        self.given, self.default = self.making.given, self.making.maker
        self.holding, self.lent = set(), set()
        self.spellings = Spellings(self, writer.checked) if writer.checked else None

    def use(self, *names, crate="garde_schema"):
        """Imports names of a crate, and gives the first one."""
        self.writer.uses.others |= {f"{crate}::{it}" for it in names}
        return names[0]

    def name_at(self, it, variant, item, end):
        """The name of a type that is written for a field."""
        return f"{item.name}{variant.name if item.kind == 'enum' else ''}{camel(it.name)}{end}"

    def texts(self):
        """The makers and the functions that read; or of a body, the statements and the implementation by which a library reads it."""
        made = [it for it in self.items.values() if not is_named(it) and it.name not in self.borrowed.holes]
        makers = [text for it in made for text in (self.makers.text(self.turned[it.name]), *self.shared_texts(it), *self.making.texts(it))]
        if self.spellings:
            return [*makers, *self.spellings.texts()]
        return [*makers, *(Reader(self, it).text() for it in made if not is_held(it, self.items))]

    def names_of(self, item):
        """What a type is called in the names of others, and the type as what reads it has it."""
        return snake(item.name), self.makers.type_name(self.turned[item.name]).replace("'t", "'a")

    def forms(self, item, indent):
        """The forms of a type and of those that it holds. One that is used at several places is lent to each of them."""
        order, lines = self.order(item), []
        among = Counter(part.name for it in order for _, part in fields_among(it, self.items))
        own = Counter(part.name for it in order for field in fields_of(it) for part in [own_part(field, self.items)] if part)
        used = Counter(one.name for it in order for field in fields_of(it) for one in all_types(field.type) if one.name != it.name) - among - own
        self.lent = {f"{snake(name)}_form" for name, count in used.items() if count > 1}
        self.lent |= {f"{snake(name)}_members" for name, count in among.items() if count > 1}
        for it in order:
            if it is item or used[it.name]:
                lines.append(statement(self.form_of_type(it), indent, f"let {snake(it.name)}_form = ", ";"))
            if among[it.name]:
                self.writer.item = it
                members = self.built(it, self.members(it.variants[0], it))
                lines.append(statement(members, indent, f"let {snake(it.name)}_members = ", ";"))
        return "\n".join(lines)

    def order(self, item):
        """The types that a type holds, each behind those that it holds, and the type itself."""
        names = [name for it in fields_of(item) for name in sorted(type_names(it.type)) if name in self.items and name != item.name]
        found = [one for name in names for one in self.order(self.items[name])]
        return [*{it.name: it for it in (*found, item)}.values()]

    # Rules that speak of several fields.

    def shared_texts(self, item):
        """The rules of a type's fields that speak of others, each as a type."""
        self.writer.item = item
        for variant in self.turned[item.name].variants:
            held = below(self.items[item.name])
            fields = tuple(it for it in variant.fields if held is None or it.name != held.name)
            variant = replace(variant, fields=fields)
            for group in groups_in(grouped(fields)):
                for number in group.asked:
                    yield self.shared(variant.fields[number], group, variant, item)

    def shared(self, it, group, variant, item):
        """What a field asks of a group of members, which are given as the form has them."""
        uses, numbers = self.writer.uses, numbers_in(group)
        for taken in (self.name_at(it, variant, item, end) for end in ("Parts", "Rules")):
            if taken in self.turned:
                told = f"the field `{it.name}`, whose rules are a type `{taken}`: give that of the file another name"
                self.writer.notes.refuse(it.line, told)
        uses.others |= {"garde::fields::Rules", "garde::I18n", "garde::Report", "garde::Trail", "std::alloc::AllocError"}
        names = {at: f"the_{variant.fields[at].name}" if variant.fields[at].name in OWN else variant.fields[at].name for at in numbers}
        stated = dict(zip(numbers, places(filled(group, names), "v")))
        own = {variant.fields[at].name: Place(names[at], stated[at], variant.fields[at].type) for at in numbers}
        scope, self.writer.spot = self.writer.form_scope(own), it.name
        place = own[it.name]
        code, said = Checks(scope, self.writer).of(shared_rules(it), Seen(it.type, place.name))
        bound = {at: name if variant.fields[at].name in scope.bound | {it.name} else "_" for at, name in names.items()}
        held = self.held_context(it, scope, variant, item)
        said = within_rule(said, scope.context) if scope.asks_context else said
        head = f"λ {held.pop('rule')} v."
        words = tuple(map(Word, (place.binding, "trail", "report", "h")))
        parts, kind, name = self.shared_type(it, group, variant, item)
        params = (f"value: &{kind}", "trail: &mut Trail<'a>", "report: &mut Report", "h: &H")
        return parts + fill(
            "type that is asked", docs=f"What the field `{it.name}` of `{item.name}` asks beside others.", name=name, trait="Rules",
            kind=kind, bound="<'t>" if "'t" in kind else "", stated=ghost("asks", f"{head} {said}", f" {head}\n        {said}"),
            head=head_of_method("ask<'a, H: I18n>", params, "Result<(), AllocError>"),
            taken=statement(wide(tuple_of(filled(group, bound))), 8, held.pop("let"), " = value;") + "\n",
            body=statement(Method(code, "ask", words), 8), **held,
        )

    def held_context(self, it, scope, variant, item):
        """What the rules of a field hold, where they ask the context."""
        if not scope.asks_context:
            return {"life": "", "holds": "", "lives": "", "rule": "_", "let": "let "}
        self.holding.add(self.name_at(it, variant, item, "Rules"))
        told = {"life": "<'c>", "holds": f"(&'c {self.writer.context})", "lives": "<'_>"}
        return {**told, "rule": "rule", "let": f"let {scope.context} = self.0;\n        let "}

    def shared_type(self, it, group, variant, item):
        """What is written of the parts of a group, which have a type where they do not fit into a line; their type; and the name of what a
        field asks of them."""
        tree = tuple_of(filled(group, [self.writer.type_text(it.type) for it in variant.fields]))
        kind, name = flat(tree), self.name_at(it, variant, item, "Rules")
        life, parts, first = "<'t>" if "'t" in kind else "", "", variant.fields[group.asked[0]]
        if len(f"impl{life} Rules<{kind}> for {name} {{") > WIDTH:
            kind = f"{self.name_at(first, variant, item, 'Parts')}{life}"
            parts = fill("parts", item=item.name, written=statement(tree, 0, f"type {kind} = ", ";")) + "\n\n" if it is first else ""
        return parts, kind, name

    # Forms.

    def form_of_type(self, item):
        """The form of a type, whose parts have their forms before it."""
        self.writer.item = item
        if item.name in self.borrowed.holes:
            return Word(self.writer.hole(item.name))
        if is_named(item):
            return self.of_names(item)
        if below(item):
            return self.of_nested(item)
        return self.built(item, self.of_enum(item) if item.kind == "enum" else self.inside(item.variants[0], item))

    def built(self, item, form):
        return self.make("Built", form, self.makers.value(self.turned[item.name]))

    def of_nested(self, item):
        """An object that holds a list of objects of the same form."""
        held, variant = below(item), item.variants[0]
        own = replace(variant, fields=tuple(it for it in variant.fields if it is not held))
        members, made = self.members(own, item), self.makers.value(self.turned[item.name])
        return self.closed(self.make("Nested", f'"{of_field(held, variant, item)}"', members, made), item)

    def make(self, name, *parts):
        name = CODE.get(name, name)
        word = self.use(name, crate="garde_form" if name in OF_FORMS else "garde_schema") if name else ""
        return call(word, *parts) if parts else Word(word)

    def in_turn(self, parts):
        """Forms that are asked one after the other."""
        return parts[0] if len(parts) == 1 else call("", *parts) if parts else Word("()")

    def asked_of_all(self, members, group, variant, item):
        asked = []
        for it in (variant.fields[at] for at in group.asked):
            name = self.name_at(it, variant, item, "Rules")
            rules = call(name, self.writer.context_of(item)[1]) if name in self.holding else Word(name)
            asked.append(self.make("Under", f'"{of_field(it, variant, item)}"', rules))
        return self.make("Checked", members, together(asked))

    def asked_of_member(self, form, name, kind, rules):
        return self.make("Checked", form, self.make("Under", name, self.asked(kind, rules)))

    def rows(self, rows):
        return Parts("", tuple(call("", f'"{name}"', value) for name, value in rows), brackets=("&[", "]"))

    def named(self, variant, item):
        return f"{item.name}::{variant.name}"

    def side(self, path):
        return side_pattern(path, Word("()"))

    def kind(self, name):
        # by its path, since types of a source may be called so
        return Word(f"garde_schema::Kind::{name}")

    def among(self, names):
        return names

    def of_item(self, kind):
        """The form of a type of the file, which stands before."""
        return self.before(f"{snake(kind.name)}_form", is_named(self.items[kind.name]))

    def of_part(self, kind):
        """The members of a struct, or of a type that is read elsewhere, among those of another type."""
        return self.before(f"{snake(kind.name)}_members") if part_of(kind, self.items) else Word(self.writer.hole(kind.name, True))

    def before(self, name, is_copied=False):
        """What stands before under this name. It is lent where it is used at several places."""
        return Word(f"{'&' if name in self.lent and not is_copied else ''}{name}")

    def parsed(self, parser):
        read = Word(self.use(parser.name, crate=parser.crate))
        if parser.takes:
            return call(self.use("ParsedInMemory", crate="garde_parsed"), read, "()")
        if parser.layout:
            read = call(self.use("InText", "Layout", crate="garde_parsed"), read, f"Layout::{parser.layout}")
        return self.make("Parsed", read, "()")

    def kept(self):
        return self.make("Kept")

    def written_flag(self):
        return self.make("Parsed", self.make("Flag"), "()")

    def number(self, kind, rules):
        word = "Whole" if self.writer.input == "json" else "Parsed"
        return self.make(word, self.use(kind.name[:1].upper() + kind.name[1:]), self.asked(kind, rules))

    def asked(self, kind, rules):
        return self.checks(kind, rules)[0]

    counted = asked
