"""The Rattle source with the implementations."""
import re
from dataclasses import replace

from .borrowed import Borrowed, below, is_held, is_named
from .derives import OWN as OWN_DERIVES, SERDE, Derives, all_types, fields_of, literal_function, named_function, options, serde_lines
from .expressions import SIGNED, resolved
from .front import Front, place_named
from .implementation import Implementation
from .kinds import KNOWN
from .layout import CALL, VARIANT, WIDTH, Method, Word, call, ghost, head_of_method, holding, lifetimes_of, literal, statement, use_line
from .quoted import BESIDE_CONTEXT, pattern_name, turn as quoted_of
from .rules import read_function
from .schema import Schema, snake, within_rule
from .scope import Scope, Uses
from .second import faults_of_values, lost_of_names, lost_of_serde, passed_by
from .source import all_rules, is_ported, read_source
from .templates import fill, names
from .tokens import Refusal, Refusals
from .words import camel

IMPORTS = {name: f"{module}::{name}" for module, listed in names("modules of the types that are written").items() for name in listed}
# The crates whose names are imported as the output has them.
WRITTEN = ("std", "core", "alloc", "garde", "regex", "serde", "serde_derive")
GARDE = {"I18n", "Report", "Stated", "Trail", "Validate", "AllocError", "Global", "Rule", "View", "RuleError"}
# The modules whose words statements import last.
LAST = (*(f"garde_schema.specs.{it}" for it in ("Spelling", "Unions", "Decimals", "Flattened")), "garde_form.specs.Spelling")


class Writer:
    """Writes what stands for a source. `module` is the path of what is written, `own` that of the rules of one's own, and
    `leave_out` are the derives and attributes that are left out without a word. With `no_walk` types that a form reads have no walk.
    `body` is the type that a static library checks, and `spelled` one of which JSON spells what a program reads: then they have none.
    A `library` judges the tree of a body. What reads reports the `first` faults alone, or all. What is spelled is read from an `input`: JSON, a web form or rows. The types and the
    variants that are `taken` have names that stand for something else in what is written."""

    def __init__(self, source, module=None, own=None, leave_out=(), schema=False, no_walk=False, body=None, first=False, spelled=None, input="json", library=False, taken=()):
        self.given = (module, own, leave_out, schema, no_walk, body, first, spelled, input, library)
        self.source, self.module, self.own, self.first, self.input = source, module, own, first, input
        self.taken, self.clashes = frozenset(taken), set()
        front = Front(source, bool(schema or body or spelled), body or spelled, self.taken)
        front.turn()
        self.checked, self.is_library, self.is_tree = front.called(body or spelled), body is not None, library
        quoted = quoted_of(source, self.checked) if spelled else {}
        self.borrowed = Borrowed(source, leave_out, bool(self.checked), not no_walk, spelled is not None, input, own, self.checked) if schema or self.checked else None
        self.unwalked = self.borrowed.unwalked() if self.checked or schema and no_walk else set()
        self.derives = Derives(source, leave_out)
        self.uses = Uses()
        self.patterns, self.skeletons, self.closures, self.copied = {self.checked: quoted} if quoted else {}, {}, {}, {}
        self.item = self.context = self.spot = self.answers = None
        self.renamed = {}
        self.notes = source.notes

    def text(self, rust):
        """The whole file for a Rust source, or all that cannot be ported of it. Where a name stands for something else in it, it is written
        once more with other names."""
        found = self.attempt(rust)
        while self.clashes - self.taken:
            self.__init__(read_source(rust, self.source.features), *self.given, taken=self.taken | self.clashes)
            found = self.attempt(rust)
        return found

    def attempt(self, rust):
        """The whole file with the names as they are taken so far."""
        if self.borrowed:
            self.borrowed.turn()
        rust = self.notes.present(rust)
        items = [text for item in self.source.items for text in self.tried(item, rust)]
        items += self.schema_texts(rust) if self.borrowed and not self.notes.faults else []
        self.find_clashes()
        self.notes.refuse_all(passed_by(rust, self.notes))
        if self.module is None and not self.notes.faults:
            # a statement names what the toolchain declares of these types
            for it in (it for it in self.source.items if self.stated_variants(it) or self.is_nested(it)):
                self.notes.refuse(it.line, f"`{it.name}`, whose statement names its module: say it by `--module CRATE::MODULE`")
        if self.notes.faults:
            raise Refusals(self.notes.faults)
        if self.clashes - self.taken:
            return ""
        skeletons = [] if self.own else [text for _, text in self.skeletons.values()]
        parts = [self.ghost_uses(), self.use_lines(), *items, *self.copied.values(), *skeletons]
        return "\n\n".join(part for part in parts if part) + "\n"

    def tried(self, item, rust):
        """The texts of an item. A refusal is noted, and the next item follows."""
        try:
            texts = self.item_texts(item)
            if not self.notes.faults and not self.borrowed:
                self.notes.refuse_all(lost_of_serde(rust, item, texts[0]))
            if is_ported(item) and not self.notes.faults and not self.is_nested(item):
                self.notes.refuse_all(faults_of_values(rust, item, texts))
            return texts
        except Refusal as refusal:
            self.notes.faults.append(refusal)
        except RecursionError:
            self.notes.refuse(item.line, f"`{item.name}` nests too deep")
        return []

    def schema_texts(self, rust):
        """The makers and the readers of the types, by their forms."""
        schema = Schema(self)
        if schema.spellings:
            schema.spellings.refuse()
        texts = [] if self.notes.faults else schema.texts()
        if self.notes.faults:
            return []
        read = [it for it in self.borrowed.items.values() if it.name not in self.borrowed.holes and (not is_named(it) or is_held(it, self.borrowed.items))]
        # a type that a form by hand alone reads has no form here
        read = [it for it in read if re.search(rf"\b{snake(it.name)}_(?:form|members)\b", "\n".join(texts))]
        self.notes.refuse_all(lost_of_names(rust, read, texts))
        return texts

    def item_texts(self, item):
        """The type, the patterns that it asks for, and its implementation."""
        self.item = item
        self.notes.refuse_all(self.derives.faults(item))
        taken = {it.name for it in item.params}
        # the method has an `'a` of its own
        self.renamed = {"'a": next(it for it in ("'t", "'u", "'s", "'r") if it not in taken)}
        if not is_ported(item) or self.is_nested(item):
            return [self.declaration(item)]
        implementation = self.implementation(item)
        patterns = [self.pattern_struct(item)] if item.name in self.patterns else []
        return [self.declaration(item), *patterns, implementation]

    def is_nested(self, item):
        """Whether a form reads a type that holds itself: what its rules ask is known by the form, and no statement says it."""
        return bool(self.borrowed and item.name in self.borrowed.items and below(self.borrowed.items[item.name]))

    def implementation(self, item):
        """The implementations for a type. What only a walk imports is not imported for one without."""
        if item.name not in self.unwalked:
            self.uses.others |= {f"garde::{name}" for name in ("I18n", "Report", "Trail", "Validate")}
            self.uses.others.add("std::alloc::AllocError")
            return Implementation(self, item).text()
        fields, others = set(self.uses.fields), set(self.uses.others)
        text = Implementation(self, item).text(is_walked=False)
        self.uses.fields, self.uses.others = fields, others
        return text

    def find_clashes(self):
        """Finds the types whose names are imported, and the variants whose names stand for something else in a statement."""
        imported = GARDE | self.uses.fields | self.uses.kept_fields | {path.rpartition("::")[2] for path in self.uses.others}
        taken = self.uses.words | {"Some", "None", "Ok", "Err"} | ({"Left", "Right"} if self.uses.sides else set())
        for item in self.source.items:
            if item.name in imported:
                self.clashes.add(item.known)
            for variant in self.stated_variants(item):
                if variant.word in taken:
                    self.clashes.add((item.known, variant.name))
                taken.add(variant.word)

    def stated_variants(self, item):
        """The variants that statements name."""
        made = self.borrowed and item.name in self.borrowed.items and any(it.fields for it in item.variants)
        cited = item.name in self.uses.cited
        return item.variants if item.kind == "enum" and (is_ported(item) or made or self.checked or cited) else ()

    # Types.

    def declaration(self, item):
        """The type itself, with the derives that are here."""
        derives = [name for name in item.derives if name in (*OWN_DERIVES, *SERDE)]
        self.uses.others |= {f"serde::{it}" for it in derives if it in SERDE}
        derives += [] if "Copy" in derives else ["Drop"]
        self.serde_functions(item)
        lines = [*item.docs, f"#[derive({', '.join(derives)})]", *serde_lines(item.serde)]
        params = self.params_text(item.params, bounds=False)
        if item.kind == "struct":
            head = f"{item.vis}struct {item.name}{params}"
            return "\n".join([*lines, head + self.body(item.variants[0], len(head))])
        tall = any("\n" in self.variant_text(it, False) for it in item.variants)
        lines.append(f"{item.vis}enum {item.name}{params} {{")
        for it in item.variants:
            default = ["#[default]"] if "Default" in item.derives and any(name == "default" for _, name in it.others) else []
            lines += [f"    {line}" for line in (*it.docs, *default, *serde_lines(it.serde), f"{self.variant_text(it, tall)},")]
        return "\n".join([*lines, "}"])

    def body(self, variant, before):
        """The fields of a struct, behind its name."""
        if variant.shape == "unit":
            return ";"
        if variant.shape == "named":
            return " {\n" + "".join(self.field_lines(it, 4) for it in variant.fields) + "}" if variant.fields else " {}"
        inside = ", ".join(self.in_tuple(it) for it in variant.fields)
        if len(inside) <= CALL and before + len(inside) + 3 <= WIDTH and not any(it.docs for it in variant.fields):
            return f"({inside});"
        return "(\n" + "".join(self.field_lines(it, 4) for it in variant.fields) + ");"

    def serde_functions(self, item):
        """The functions that attributes of serde name: those that give a number as they are, and others as beginnings."""
        named = [(said, item.name) for said in options(item).values()]
        named += [(said, self.type_text(it.type)) for it in fields_of(item) for said in options(it).values()]
        for said, kind in named:
            name = named_function(said)
            source = self.source.functions.get(name, f"fn {name}")
            if name and literal_function(source):
                self.copied[name] = literal_function(source)
            elif name:
                head = f"fn {name}() -> {kind}" if said.word == "default" else f"fn {name}(value: &{kind}) -> bool"
                self.skeletons[name] = ("", f"{begun('function', source)}\n{head} {{\n    todo\n}}")

    def in_tuple(self, it):
        """A field without a name, behind its attributes."""
        return " ".join([*serde_lines(it.serde), it.vis + self.type_text(it.type, True)])

    def field_lines(self, it, indent):
        space = " " * indent
        if not it.name:
            return "".join(f"{space}{line}\n" for line in (*it.docs, f"{self.in_tuple(it)},"))
        lines = (*it.docs, *serde_lines(it.serde), f"{it.vis}{it.name}: {self.type_text(it.type, True)},")
        return "".join(f"{space}{line}\n" for line in lines)

    def variant_text(self, variant, tall):
        """A variant of an enum; where one of them is tall, so are all with named fields."""
        if variant.shape == "unit":
            return f"{variant.name} = {variant.number}" if variant.number else variant.name
        opening, closing = (" {", "}") if variant.shape == "named" else ("(", ")")
        inside = ", ".join((f"{it.name}: " if it.name else "") + self.in_tuple(it) for it in variant.fields)
        fits = len(inside) <= VARIANT and not tall if variant.shape == "named" else len(variant.name + inside) + 7 <= WIDTH
        if fits and not any(it.docs or (it.name and it.serde) for it in variant.fields):
            space = " " if variant.shape == "named" else ""
            return f"{variant.name}{opening}{space}{inside}{space}{closing}"
        fields = "".join(self.field_lines(it, 8) for it in variant.fields)
        return f"{variant.name}{opening}\n{fields}    {closing}"

    def type_text(self, kind, declared=False):
        """A type as it is written here; in a declaration its lifetimes stay as they are."""
        inside = [self.type_text(it, declared) for it in kind.args]
        lives = [it if declared else self.renamed.get(it, it) for it in kind.lives]
        if kind.kind in ("unread", "const"):
            return kind.name or "_"
        if kind.kind == "ref":
            return " ".join([f"&{lives[0]}", inside[0]]) if lives else f"&{inside[0]}"
        if kind.kind == "slice":
            return f"[{inside[0]}]"
        if kind.kind == "array":
            return f"[{inside[0]}; {kind.size}]"
        if kind.kind == "tuple":
            return f"({', '.join(inside)}{',' * (len(inside) == 1)})"
        # by its path: those of std by their last name, which is imported
        inside = [*lives, *inside]
        if kind.name == "Arc":
            self.notes.refuse(kind.line, "the type `Arc`, which is not there: write `Rc`")
        if kind.name == "Cow" and inside[1:] == ["str"]:
            self.uses.others.add("std::borrow::CowStr")
            return f"CowStr<{inside[0]}>"
        name = kind.name if kind.path[0] in ("std", "regex", "garde") else "::".join(kind.path)
        if kind.name in IMPORTS:
            self.uses.others.add(IMPORTS[kind.name])
        return f"{name}<{', '.join(inside)}>" if inside else name

    def params_text(self, params, bounds, names=False):
        """The parameters of a type: as it declares them, with their bounds, or by their names alone."""
        texts = []
        for it in params:
            name = self.renamed.get(it.name, it.name) if bounds or names else it.name
            const = "const " if it.kind == "const" and not names else ""
            colon = f": {it.bounds}" if it.bounds and (bounds or (const and not names)) else ""
            texts.append(f"{const}{name}{colon}")
        return f"<{', '.join(texts)}>" if texts else ""

    # What rules ask for.

    def context_of(self, item):
        """The context of a type that a form reads: its type and its name; or nothing."""
        if not item.attributes.context:
            return None
        kind, name, _ = Implementation(self, item).context
        return kind, name

    def form_scope(self, places=None):
        """What the rules of a form of the type at hand may speak of."""
        context = self.context_of(self.item)
        return Scope(context[1] if context else "ctx", places or {}, set(), context is None)

    def resolved(self, it):
        return resolved(it, self.source.numbers)

    def enum(self, name):
        """The enum of this name in the file, or nothing."""
        return next((it for it in self.source.items if name in (it.name, it.known) and it.kind == "enum"), None)

    def is_compared(self, kind):
        """Whether values of a type are compared by `==`: numbers with a sign, and types of the file that derive `PartialEq`."""
        found = next((it for it in self.source.items if it.name == kind.name), None)
        return kind.kind == "path" and (kind.name in SIGNED or found is not None and "PartialEq" in found.derives)

    def new_pattern(self, rule):
        """A place in the context of the type for a pattern in quotes, and its name."""
        if self.item.attributes.context:
            raise Refusal(rule.line, BESIDE_CONTEXT)
        return pattern_name(self.patterns.setdefault(self.item.name, {}), self.spot, rule.text)

    def pattern_struct(self, item):
        """The context that holds the compiled patterns of a type, and what compiles them."""
        patterns, name, fields, clauses, lets = self.patterns[item.name], f"{item.name}Patterns", "", "", ""
        for it, source in patterns.items():
            escaped = source.replace("\\", "\\\\").replace('"', '\\"')
            fields += f"    /// `Regex::new` of the pattern `{source}`.\n    {item.vis}{it}: Regex,\n"
            clauses += f'        ensures {it} {{ IfOk result (λ it. it.{it} ≡ codes "{escaped}") }}\n' if source.isascii() else ""
            lets += statement(call("Regex::new", "alloc", f'"{escaped}"'), 8, f"let {local(it)} = ", "?;") + "\n"
        self.uses.others |= {IMPORTS["Regex"], "garde::rules::pattern::regex::PatternRefused", "std::alloc::Global"}
        self.uses.prelude |= {"◌≡◌", "IfOk"} if clauses else set()
        self.uses.words |= {"codes"} if clauses else set()
        made = statement(literal(name, ((it, Word(local(it))) for it in patterns)), 8, "Ok(", ")")
        return fill("patterns", of=item.name, vis=item.vis, name=name, fields=fields, clauses=clauses, lets=lets, made=made)

    def asks_patterns(self, name):
        """Whether the port makes a context of compiled patterns for a type of this file."""
        found = [it for it in self.source.items if it.name == name and is_ported(it) and not it.attributes.context]
        rules = [rule for it in found for field in fields_of(it) for rule in all_rules(field.attributes.rules)]
        return any(rule.name == "pattern" and rule.text is not None for rule in rules)

    def dives_into(self, name, rule):
        """Refuses a part whose context this port makes, where the whole has no such context."""
        if (rule.place is None or rule.place.kind == "unit") and self.asks_patterns(name):
            told = f"`dive` into `{name}`, whose patterns make a context of it"
            raise Refusal(rule.line, f"{told}: give both types a context with compiled patterns")
        if any(it.name == name and it is self.item for it in self.source.items):
            raise Refusal(rule.line, f"`dive` of `{name}` into itself: such a type is walked by a function of its own")
        part = next((it for it in self.source.items if it.name == name and is_ported(it)), None)
        given, wanted = self.given_context(rule), self.context_name(part) if part else None
        if given and wanted and given != wanted:
            told = f"`dive` into `{name}`, whose context is `{wanted}`, with the context `{given}`"
            way = "write `dive(())`" if wanted == "()" else "name a part of the context of that type, as `dive(ctx.FIELD)`"
            raise Refusal(rule.line, f"{told}: {way}")

    def context_name(self, item):
        """The last name of the type of a type's context, where that is known."""
        if not item.attributes.context:
            return None if any(it.kind == "type" for it in item.params) or self.asks_patterns(item.name) else "()"
        _, tokens = item.attributes.context
        try:
            return tokens.again().read_type().name
        except Refusal:
            return None

    def given_context(self, rule):
        """The last name of the type of the context that a `dive` hands on, where that is known."""
        if rule.place is None or (rule.place.kind == "place" and len(rule.place.value) == 1):
            made = rule.place is None and self.asks_patterns(self.item.name)
            return "()" if made else self.context_name(self.item)
        if rule.place.kind == "unit":
            return "()"
        whole = next((it for it in self.source.items if it.name == self.context_name(self.item) and it.kind == "struct"), None)
        if whole is None or rule.place.kind != "place" or len(rule.place.value) != 2:
            return None
        return next((it.type.name for it in whole.variants[0].fields if it.name == rule.place.value[1] and it.type.kind == "path"), None)

    def numbered(self, word, source):
        """A name after the type and the field that ends with this word, with a number for each further source of the field."""
        name = f"{self.item.name}{camel(self.spot)}{word}"
        found = self.closures.setdefault(name, [])
        if source not in found:
            found.append(source)
        number = found.index(source)
        return f"{name}{number + 1}" if number else name

    def own_rule(self, name, rule, kind, unit):
        """A rule of one's own: its type is imported or, with no module for it, written as a beginning."""
        source = rule.source or self.source.functions.get(rule.text, f"fn {rule.text}")
        life, lives, holds = ("", "", "") if unit else ("<'c>", "<'_>", f"({self.item.vis}&'c {self.context})")
        self.skeletons[name] = ("Rule", fill(
            "rule to be written", docs=begun("rule", source), vis=self.item.vis, name=name, kind=kind, bound=lifetimes_of(kind), life=life, lives=lives, holds=holds,
        ))

    def read_own(self, rule):
        """A rule of one's own with what its function asks, where that is one of the file that the port reads."""
        if rule.place is not None or rule.text not in self.source.functions:
            return rule
        try:
            message, place = read_function(self.source.functions[rule.text])
        except Refusal:
            return rule
        return replace(rule, message=message, place=place_named(place, dict(self.item.renames)))

    def fields_within(self, kind):
        """The fields of a struct of the file, with their types."""
        found = next((it for it in self.source.items if it.name == kind.name and it.kind == "struct"), None)
        return {it.name: it.type for it in found.variants[0].fields if it.name} if found and kind.kind == "path" else {}

    def written_rule(self, name, rule, kind, holds, scope):
        """A rule of one's own that the port reads, with its condition as code and as it is stated. It holds the context, where the condition
        names that, and then the other fields of the scope."""
        condition, stated = holds
        held = [(scope.context, self.context)] if scope.asks_context else []
        held += [(it.binding, self.type_text(it.type)) for it in scope.places.values()]
        stated = within_rule(stated, scope.context) if scope.asks_context else stated
        head, (word, given) = f"λ {'rule' if held else '_'} value.", rule.asks()
        said = " ".join(["asks_as" if rule.code else "asks", *given, stated])
        told = f"What the function `{rule.text}` asks of a value." if rule.text else f"What a rule of the field `{self.spot}` of `{self.item.name}` asks of its value."
        asked = Method(call(word, *given, condition), "find", tuple(map(Word, ("alloc", "value", "h"))))
        text = fill(
            "type that is asked", docs=told, name=name, trait="Rule", kind=kind, **holding(kind, held),
            stated=ghost("finds", f"{head} {said}", f" {head}\n        {said}"), body=statement(asked, 8),
            head=head_of_method("find<H: I18n>", ("alloc: Global", f"value: &{kind}", "h: &H"), "Result<(), RuleError>"),
        )
        self.write_once(name, rule.line, text, rule.text)

    def write_once(self, name, line, text, function=None):
        """Writes a type that a rule of one's own needs."""
        if any(it.name == name for it in self.source.items):
            raise Refusal(line, f"a rule of your own, which is a type `{name}`: give that of the file another name")
        if self.copied.setdefault(name, text) != text:
            raise Refusal(line, f"`{function or name}` of values of two types: write a function for each")

    def hole(self, name, is_among=False):
        """The form of a type whose reading stands in the module of one's own, with the type itself; or that of its members, where they stand
        among those of another type."""
        form = name + ("Members" if is_among else "Form")
        self.skeletons[name] = ("", fill("hole of members" if is_among else "hole", name=name, why=self.borrowed.holes[name]))
        self.skeletons[form] = ("", "")
        return form

    # Imports.

    def ghost_uses(self):
        lines, uses = [*self.source.head], self.uses
        lines += [ghost_use("std.specs.Prelude", sorted(uses.prelude))] if uses.prelude else []
        lines += ["ghost use Rattle.std.specs.Cow.{cow_str_bytes};"] if uses.cow else []
        lines += [f"ghost use {it};" for it in sorted(uses.paths)]
        stated = {module: {word for it, word in uses.stated if it == module} for module, _ in sorted(uses.stated)}
        lines += [ghost_use(it, sorted(words)) for it, words in stated.items() if it not in LAST]
        words = sorted(uses.words, key=lambda it: (not it.startswith("◌"), it.lower(), it))
        lines += [ghost_use("garde.specs.Fields", words)] if words else []
        lines += [ghost_use(it, sorted(stated[it])) for it in LAST if it in stated]
        lines += ["ghost use Rattle.garde_schema.specs.declared.either.Either.TheVariants.{Left, Right};"] if uses.sides else []
        for it in filter(self.stated_variants, self.source.items):
            names = ", ".join(one.name + (f" as {one.word}" if one.stated else "") for one in it.variants)
            lines.append(f"ghost use {self.declared(it)}.TheVariants.{{{names}}};")
        # how a value of a type that holds itself is made of its fields
        nested = filter(self.is_nested, self.source.items)
        lines += [f"ghost use {self.declared(it)}.{{out-{it.name}, roll-{it.name}, the_lemmas}};" for it in nested]
        return "\n".join(lines)

    def declared(self, item):
        """The path of what the toolchain declares of a type."""
        crate, *modules = self.module.split("::")
        return ".".join(["Rattle", crate, "specs", "declared", *modules, item.name])

    def use_lines(self):
        paths = {f"garde::fields::{name}" for name in self.uses.fields | self.uses.kept_fields} | self.uses.others | self.uses.kept_others
        named = {name for item in self.source.items for name in names_of(item)}
        holes = self.borrowed.holes if self.borrowed else ()
        # what the types here still name of its own crate and of others
        for path, name in self.source.imports:
            if path[0] not in WRITTEN and name in named and (path[0], path[-1]) not in KNOWN and name not in holes:
                paths.add("::".join(path) + (f" as {name}" if name != path[-1] else ""))
        paths |= {"garde::Stated"} if any(is_ported(it) and not self.is_nested(it) for it in self.source.items) else set()
        if self.own:
            paths |= {f"{self.own}::{name}" for name in self.skeletons}
        elif self.skeletons:
            paths |= {f"garde::fields::{kind}" for kind, _ in self.skeletons.values() if kind}
            paths |= {"garde::RuleError"} if any(kind == "Rule" for kind, _ in self.skeletons.values()) else set()
        grouped = {}
        for path in paths:
            module, _, name = path.rpartition("::")
            grouped.setdefault(module, set()).add(name)
        order = sorted(grouped, key=lambda it: [(part[:1].islower() is False, part) for part in it.split("::")] + [(True, "~")])
        return "\n".join(use_line(module, grouped[module]) for module in order)


def ghost_use(module, words):
    return f"ghost use Rattle.{module}.{{{', '.join(words)}}};"


def begun(what, source):
    """The doc of what is to be written, with how it stands in the Rust source."""
    quoted = ["```text", *source.splitlines(), "```"]
    docs = [f"/// A {what} to be written. In the Rust source it is:", "///", *(f"/// {line}".rstrip() for line in quoted)]
    return "\n".join(docs)


def local(name):
    """The name of a compiled pattern beside the parameter `alloc`."""
    return "the_alloc" if name == "alloc" else name


def names_of(item):
    """The names that a type's declaration and its attributes speak of, as the source imports them."""
    names = {one.path[0] for it in fields_of(item) for one in all_types(it.type) if one.path}
    names |= {token.text for token in item.attributes.context[1].tokens} if item.attributes.context else set()
    return names
