"""The implementations of `Stated` and of `Validate` for a type."""
import re

from .borrowed import RESERVED
from .derives import fields_of, type_names
from .layout import Method, Word, arm, call, ghost, literal, statement, wide_call
from .rules import RULES
from .scope import Place, Scope, Seen
from .source import Param, all_rules
from .templates import TABLES, fill
from .tokens import Refusal
from .words import Checks, together

ORDINALS = ("first", "second", "third", "fourth", "fifth", "sixth")
LETTERS = "abcdefgijklmnopqrst"
# Names of the method's own, and words of the statements and of their language, which no binding may hide.
OWN = ("trail", "report", "h", "self")
STATED = [*TABLES["words of what a walk states"].split(), *RESERVED, *(it.word or name for name, it in RULES.items() if it.code)]


class Implementation:
    """The implementations for one type: of `Stated`, and of `Validate` where the type `is_walked`."""

    def __init__(self, writer, item):
        self.writer, self.item = writer, item
        self.context = self.read_context()
        self.writer.context = self.context[0]
        self.borrows = any(it.kind != "const" for it in item.params)
        self.asks_context = False

    def read_context(self):
        """The type of the context, its name, and whether there is none."""
        if not self.item.attributes.context:
            dived = [it.name for it in self.item.params if self.is_dived(it)]
            return (f"{dived[0]}::Context", "ctx", True) if dived else ("()", "ctx", True)
        line, tokens = self.item.attributes.context
        tokens = tokens.again()
        if tokens.opens("("):
            raise Refusal(line, "a context that is a tuple")
        kind = tokens.read_type()
        name = tokens.name("the name of the context") if tokens.takes("as") else "ctx"
        if not tokens.ended():
            self.writer.notes.refuse(line, f"a context that the port cannot read, from `{tokens.first.text}` on: write `context(TYPE as NAME)`")
        if name in (*OWN, *STATED):
            raise Refusal(line, f"the name `{name}` of the context stands for something else in the implementation")
        return self.writer.type_text(kind), name, False

    def is_dived(self, param):
        """Whether a field dives into a parameter whose context its bounds leave open."""
        fields = [it for it in fields_of(self.item) if param.name in type_names(it.type)]
        is_open = param.kind == "type" and param.bounds in ("", "Validate")
        return is_open and any(rule.name == "dive" for it in fields for rule in all_rules(it.attributes.rules))

    def text(self, is_walked=True):
        item, writer = self.item, self.writer
        if item.attributes.skip or item.attributes.rules or item.attributes.adapter or item.attributes.rename:
            writer.notes.refuse(item.line, f"`{item.name}` has an attribute that stands at fields alone")
        body, stated = self.of_struct() if item.kind == "struct" else self.of_enum()
        context, name, _ = self.context
        if item.name in writer.patterns:
            context = f"{item.name}Patterns"
        name = name if self.asks_context else f"_{name}"
        first = "\n".join([self.head("Stated"), f"    type Context = {context};", "", self.visits(stated), "}"])
        if not is_walked:
            return first
        return f"{first}\n\n{self.head('Validate')}\n" + fill("walk", context=f"{name}: &{context}") + f"\n{body}\n    }}\n}}"

    def head(self, trait):
        params, names = self.writer.params_text(self.params(trait), True), self.writer.params_text(self.item.params, False, True)
        return f"impl{params} {trait} for {self.item.name}{names} {{"

    def params(self, trait):
        """The parameters with their bounds: those that fields dive into implement the trait too, under the one context."""
        params, context = [], self.context[0]
        for it in self.item.params:
            bounds = re.sub(r"\bValidate\b", trait, it.bounds)
            if self.is_dived(it):
                bounds = trait if context == f"{it.name}::Context" else f"{trait}<Context = {context}>"
            params.append(Param(it.kind, it.name, bounds))
        return tuple(params)

    def visits(self, stated):
        """The statement: of a struct a list with an entry for each field, of an enum its cases."""
        ctx = self.context[1] if self.asks_context else "_"
        if self.item.kind == "enum":
            return "\n".join([f"    ghost visits = {{ λ v {ctx}. elim v as (λ _. Visits) [", *stated, "    ] };"])
        laid = f" λ v {ctx}.\n        " + "\n        and ".join(stated)
        return ghost("visits", f"λ v {ctx}. {' and '.join(stated)}", laid)

    def of_struct(self):
        variant = self.item.variants[0]
        stated_names = [f"v.{it.name or at}" for at, it in enumerate(variant.fields)]
        pattern, code, stated, _ = self.of_variant(variant, "Self", self.bindings(variant), stated_names)
        head = statement(pattern, 8, "let ", " = self;") + "\n" if variant.fields else ""
        return head + statement(self.visit(code), 8), stated

    def of_enum(self):
        """The body and the statements of an enum: an arm and a case for each variant."""
        if self.item.attributes.transparent:
            self.writer.notes.refuse(self.item.line, "`transparent` of an enum")
        if self.writer.module is None:
            self.writer.notes.refuse(self.item.line, "an enum, whose statement names its module: say it by `--module CRATE::MODULE`")
        self.writer.uses.words.add("Visits")
        arms, cases = [], []
        for variant in self.item.variants:
            names = self.bindings(variant)
            stated_names = [f"the_{it}" if it in STATED else it for it in names]
            pattern, code, stated, scope = self.of_variant(variant, f"{self.item.name}::{variant.name}", names, stated_names)
            arms.append(arm(pattern, self.visit(code), 12))
            held = [name if self.is_bound(it, scope) else "_" for it, name in zip(variant.fields, stated_names)]
            cases.append(f"      | {' '.join([variant.word, *held])} ↦ {' and '.join(stated)}")
        return "\n".join(["        match self {", *arms, "        }"]), cases

    def of_variant(self, variant, head, names, stated_names):
        """The pattern of a variant, the checks of its fields as code and as they are stated, and what they may speak of."""
        places = {it.name: Place(*name, it.type) for it, name in zip(variant.fields, zip(names, stated_names)) if it.name}
        _, name, unit = self.context
        scope = Scope(name, places, {it.name for it in self.item.params if it.kind == "type"}, unit)
        code, stated = self.fields(variant, names, stated_names, scope)
        return self.pattern(head, variant, names, scope), code, stated, scope

    def bindings(self, variant):
        """The name of each field in the code, which hides no name of the method's own. Those of a tuple are words or, of many, letters."""
        count = len(variant.fields)
        if variant.shape != "named" and count > len(LETTERS):
            raise Refusal(variant.line, f"a tuple of more than {len(LETTERS)} fields")
        of_tuple = ["value"] if count == 1 else ORDINALS if count <= len(ORDINALS) else LETTERS
        names = [it.name for it in variant.fields] if variant.shape == "named" else of_tuple[:count]
        return [f"the_{it}" if it in (*OWN, self.context[1]) else it for it in names]

    def is_bound(self, it, scope):
        return bool(it.attributes.rules) or it.name in scope.bound

    def has_rules(self, it):
        """Whether something is asked of a field; each field is asked something or skipped."""
        asked, notes = it.attributes, self.writer.notes
        if asked.skip and asked.rules:
            notes.refuse(it.line, "a field with rules that is skipped")
        if asked.allow_unvalidated or asked.transparent or asked.context:
            notes.refuse(it.line, "an attribute of types at a field")
        elif not (asked.rules or asked.skip or asked.faulty or self.item.attributes.allow_unvalidated):
            name = f" `{it.name}`" if it.name else ""
            notes.refuse(it.line, f"the field{name} has no rule: write `#[garde(skip)]`")
        return bool(asked.rules)

    def fields(self, variant, names, stated_names, scope):
        """The checks of the fields, as code and as they are stated."""
        if self.item.attributes.transparent and len(variant.fields) != 1:
            self.writer.notes.refuse(self.item.line, "`transparent` of a type that has not just one field")
        code, stated = [], []
        for at, it in enumerate(variant.fields):
            if self.has_rules(it):
                self.writer.spot = it.name or names[at]
                checks = Checks(scope, self.writer)
                check, said = checks.of(it.attributes.rules, Seen(it.type, stated_names[at]), it.attributes.adapter)
                entry, text = self.field(it, at, names[at], check, said)
                code.append(entry)
                stated.append(text)
        self.asks_context = self.asks_context or scope.asks_context
        self.writer.uses.all_of(stated)
        return code, stated or [self.writer.uses.say("none")]

    def field(self, it, at, name, check, said):
        """One field: under its name or its index, or where the whole stands."""
        uses = self.writer.uses
        if self.item.attributes.transparent:
            uses.fields.add("Transparent")
            return call("Transparent", name, check), said
        key = it.attributes.rename if it.attributes.rename is not None else it.name or None
        word, place = ("item", str(at)) if key is None else ("field", f'"{key}"')
        uses.fields.add(word.capitalize())
        uses.words.add(word)
        return call(word.capitalize(), place, name, check), f"{word} {place} ({said})"

    def pattern(self, head, variant, names, scope):
        bound = [name if self.is_bound(it, scope) else "_" for it, name in zip(variant.fields, names)]
        if variant.shape == "named":
            return literal(head, ((it.name, Word(name)) for it, name in zip(variant.fields, bound)))
        return wide_call(head, *map(Word, bound)) if variant.fields else Word(head)

    def visit(self, fields):
        self.writer.uses.fields.add("Fields")
        whole = together(fields, 6) if fields else Word("()")
        words = tuple(map(Word, ("trail", "report", "h")))
        return Method(whole, "visit_of", (Word("self"), *words)) if self.borrows and fields else Method(whole, "visit", words)
