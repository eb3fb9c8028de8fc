"""What JSON spells of the types of a source, as `garde_schema` states it, and the implementations by which a static library checks
the bytes of one of them."""
import functools
from collections import namedtuple

from .borrowed import is_named
from .derives import of_field
from .forms import Forms
from .inputs import Reader
from .layout import WIDTH
from .makers import places
from .members import filled, numbers_in, part_of, shared_rules
from .scope import Place, Seen
from .source import is_ported
from .templates import fill, names
from .tokens import Refusal
from .unions import SIDES
from .words import Checks

# What begins a further line of a statement.
NEXT = "\n" + " " * 8
STATIC = "<'static>"
SEVERAL = {2: "two", 3: "three", 4: "four", 5: "five", 6: "six"}


# A word of the statement with what it is given. One that makes a value of its parts has the `rows` by which it does.
Said = namedtuple("Said", "head parts rows", defaults=((), ()))


def said(head, *parts):
    return Said(head, tuple(it if isinstance(it, Said) else Said(it) for it in parts))


def flat(tree):
    """The statement on one line."""
    return " ".join([tree.head, *map(bracketed, tree.parts)])


def bracketed(tree):
    return f"({flat(tree)})" if tree.parts else tree.head


def lay(tree, column, after):
    """The statement from a column on. Of what does not fit, each part stands on a line of its own, all of them under one indent."""
    if column + len(flat(tree)) + after <= WIDTH or not tree.parts:
        return flat(tree)
    *front, last = tree.parts
    if front and front[0].rows:
        return lay_made(tree.head, front[0], last, column, after)
    head = " ".join([tree.head, *map(flat, front)])
    if not any(it.parts for it in front) and (column + len(head) <= WIDTH or not front):
        return f"{head} {lay_bracketed(last, column + len(head) + 1, after)}"
    return tree.head + "".join(NEXT + lay_bracketed(it, len(NEXT) - 1, after) for it in tree.parts)


def lay_made(head, make, one, column, after):
    """What is made of a value: the rows of the maker stand in a line, or each in its own."""
    text = f"{head} {make.head}"
    if column + len(text) <= WIDTH:
        return f"{text}{NEXT}{lay_bracketed(one, len(NEXT) - 1, after)}"
    rows = "".join(f"\n      {it};" for it in make.rows)
    return f"{head} (λ parts. record {{{rows}\n    }}) {lay_bracketed(one, len('    }) '), after)}"


def lay_bracketed(tree, column, after):
    return f"({lay(tree, column + 1, after + 1)})" if tree.parts else tree.head


# The module and the word that state each form.
STATED = names("forms as they are stated")
KINDS = {"Text": "is_text", "Number": "is_number", "Boolean": "is_boolean", "Null": "is_nothing", "List": "is_list", "Object": "is_object"}


class Spellings(Forms):
    """The forms of a source as they are stated, of whose types `body` is the one whose bytes are read."""

    unit = Said("tt")

    def __init__(self, schema, body):
        super().__init__(schema.writer)
        self.schema, self.body = schema, body

    def refuse(self):
        """Notes what no statement says of the type that is checked."""
        notes, item = self.writer.notes, self.items.get(self.body)
        if item is None or not is_ported(item):
            notes.refuse(item.line if item else 1, f"the {'body' if self.writer.is_library else 'type'} `{self.body}`: there is no type of that name which derives `Deserialize` and `Validate`")
            return
        for it in self.schema.order(item):
            if it.name in ("Body", "Spelled", "ReadBody", "ReadTree"):
                notes.refuse(it.line, f"the name `{it.name}`, which `--body` writes")

    def texts(self):
        """The statements of the types, each behind those that it holds, and the implementation by which a body is read."""
        item = self.items[self.body]
        try:
            stated = [it for it in self.schema.order(item) if it.name not in self.borrowed.holes]
            return [*map(self.statement, stated), self.reader(item)]
        except Refusal as refusal:
            self.writer.notes.faults.append(refusal)
            return []

    def reader(self, item):
        self.writer.item = item
        borrows = bool(self.turned[item.name].params)
        if self.writer.is_library and not borrows:
            self.writer.notes.refuse(item.line, f"the body `{self.body}`, which holds no text and no map: a body borrows from its bytes, so give it a field of type `String`")
        if self.writer.input not in ("json", "request") or self.writer.context_of(item) or not borrows:
            spelling, is_under = self.spelling_of(item, item.name + (STATIC if self.turned[item.name].params else ""), ".now")
            return Reader(self.schema, item).text(f"({spelling})" if is_under else spelling, self.writer.context_of(item))
        is_tree = self.writer.is_tree
        self.schema.use("FormI18n", *(("read_first", "Tree") if is_tree else ("read_json_first", "FirstReadError", "ReadBody", "Scratch")))
        self.writer.uses.others |= {"std::alloc::Global", "garde::I18n", "garde::Valid", *(("garde::FirstError", "garde_library::ReadTree") if is_tree else ())}
        name, made = self.schema.names_of(item)
        head = fill("head of a library", words=name.replace("_", " "), made=made) + "\n\n" if self.writer.is_library else ""
        return head + fill("body of a library" if is_tree else "body", made=made, name=name, forms=self.schema.forms(item, 8))

    def statement(self, item):
        self.writer.item = item
        turned = self.turned[item.name]
        life, context = "<'t>" if turned.params else "", self.writer.context_of(item)
        trait, head = self.trait(item), f"ghost spelled = {{ {f'λ {context[1]}. ' if context else ''}"
        self.schema.use(trait)
        whole = head + lay(self.of_type(item), len(f"    {head}"), len(" };")) + " };"
        return f"impl{life} {trait} for {item.name}{life} {{\n    {whole}\n}}"

    def trait(self, item):
        return "SpelledUnder" if self.writer.context_of(item) else "Spelled"

    def spelling_of(self, item, name, end=""):
        """What JSON spells of a type of this name, and whether it is under a context."""
        trait, context = self.trait(item), self.writer.context_of(item)
        return f"⟦<{name} as {trait}>⟧.spelled" + (f" {context[1]}{end}" if context else ""), context is not None

    # Types.

    def of_type(self, item):
        if is_named(item):
            return self.of_names(item)
        if item.kind == "enum":
            return self.make("Made", self.builds(item), self.of_enum(item))
        variant = item.variants[0]
        if not variant.fields:
            return self.make("Made", "(λ _. record {})", self.inside(variant, item))
        names = [it.name or str(at) for at, it in enumerate(variant.fields)]
        rows = [f"{name} = {place}" for name, place in zip(names, places(self.schema.makers.tree(variant, names), "parts"))]
        maker = Said(f"(λ parts. record {{ {'; '.join(rows)} }})", rows=tuple(rows))
        return self.make("Made", maker, self.inside(variant, item))

    def builds(self, item):
        """What makes a value of a type of its parts."""
        return Said(f"⟦<{self.schema.makers.type_name(self.turned[item.name])} as FromParts>⟧.builds")

    def of_part(self, kind):
        """The members of a struct, which stand among those of another type."""
        part, whole = part_of(kind, self.items), self.writer.item
        if part is None:
            self.schema.use("Members")
            return Said(fill("members of a hole", name=kind.name))
        self.writer.item = part
        members = self.members(part.variants[0], part)
        self.writer.item = whole
        return self.make("MadeOf", self.builds(part), members)

    def make(self, name, *parts):
        return said(self.writer.uses.state(*STATED[name]), *parts)

    def in_turn(self, parts):
        if len(parts) < 2:
            return parts[0] if parts else self.make("Nothing")
        return said(self.writer.uses.state("garde_schema.specs.Spelling", SEVERAL[len(parts)]), *parts)

    def asked_of_all(self, members, group, variant, item):
        fields, numbers = variant.fields, numbers_in(group)
        self.writer.uses.words.add("field")
        at = dict(zip(numbers, places(filled(group, [it.name for it in fields]), "v")))
        turned = next(it.fields for it in self.turned[item.name].variants if it.name == variant.name)
        own = {fields[it].name: Place(fields[it].name, at[it], turned[it].type) for it in numbers}
        asked = []
        for number in group.asked:
            it = turned[number]
            self.writer.spot = it.name
            _, text = Checks(self.writer.form_scope(own), self.writer).of(shared_rules(it), Seen(it.type, own[it.name].name))
            asked.append(f'field "{of_field(fields[number], variant, item)}" ({text})')
        if len(asked) > 1:
            self.writer.uses.words.add("◌and◌")
        return self.make("CheckedMembers", members, f"(λ v. {' and '.join(asked)})")

    def asked_of_member(self, form, name, kind, rules):
        self.writer.uses.words.add("field")
        return self.make("CheckedMembers", form, f"(λ v. field {name} ({self.checks(kind, rules)[1]}))")

    def rows(self, rows):
        return Said(self.listed([f'("{name}", {flat(value)})' for name, value in rows]))

    def named(self, variant, item):
        return Said(variant.word)

    def side(self, path):
        return functools.reduce(lambda inside, it: Said(SIDES[it], (inside,)), reversed(path), self.unit)

    def kind(self, name):
        return Said(self.writer.uses.state("garde_schema.specs.Unions", KINDS[name]))

    def among(self, names):
        return self.make("Among", names)

    def given(self, default, it, variant, item):
        self.writer.uses.paths.add("Rattle.garde_schema.specs.Given.{given}")
        return said("given", self.schema.making.part(default))

    def default(self, default, it, variant, item):
        return self.schema.making.part(default)

    # Values.

    def of_item(self, kind):
        name = self.writer.type_text(self.borrowed.type_of(kind), True)
        spelling, is_under = self.spelling_of(self.items[kind.name], name)
        return said(*spelling.rsplit(" ", 1)) if is_under else Said(spelling)

    def parsed(self, parser):
        uses, module = self.writer.uses, "Parsed" if parser.crate == "garde_form" else "Spelling"
        uses.state(f"{parser.crate}.specs.{module}", parser.word)
        uses.paths |= {"Rattle.garde_parsed.specs.declared.layout.Layout.TheVariants as layouts"} if parser.layout else set()
        return said(parser.word, *([f"layouts.{parser.layout}"] if parser.layout else []))

    def kept(self):
        self.writer.uses.paths.add("Rattle.garde_schema.specs.Kept.{any_value}")
        return Said("any_value")

    def written_flag(self):
        return self.make("WrittenFlag")

    def number(self, kind, rules):
        found, uses = [self.found(kind, it) for it in rules], self.writer.uses
        if self.writer.input == "json":
            return self.make("Whole", uses.state("garde_schema.specs.Spelling", f"{kind.name}_numbers"), self.listed(found))
        return self.make("Written", uses.state("garde_form.specs.Spelling", f"{kind.name}_texts"), self.listed(found))

    def listed(self, texts):
        """A list as it is stated."""
        self.writer.uses.prelude |= {"◌∷◌", "[]"} if texts else {"[]"}
        return f"({' ∷ '.join(texts)} ∷ [])" if texts else "[]"

    def counted(self, kind, rules):
        """What is asked of a list or a map, as what is asked of how many there are."""
        text = self.asked(kind, rules)
        self.writer.uses.words |= {"count"} if "is (items " in text else set()
        return text.replace("is (items ", "is (count ")

    def asked(self, kind, rules):
        text = self.checks(kind, rules)[1]
        if not rules:
            self.writer.uses.words.add("none")
        return f"(λ {'v' if rules else '_'}. {text or 'none'})"

    def found(self, kind, rule):
        """What a rule finds in a number, whose bound is that of the numbers beyond the type."""
        if rule.known.reads not in ("bounds", "a number", "a rule"):
            raise Refusal(rule.line, f"`{rule.name}` of a number, which `--body` does not state")
        fault = self.checks(kind, [rule])[1].removeprefix("is (").removesuffix(")")
        return f"(λ v. {fault})" if rule.name == "custom" else fault.removesuffix(" v")
