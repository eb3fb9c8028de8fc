"""What a form reads, where that is no body of a library: the function that reads it, with what it promises."""
import textwrap
from collections import namedtuple

from .derives import is_skipped, of_field
from .expressions import SIGNED, UNSIGNED
from .kinds import KNOWN
from .layout import WIDTH, Word, call, statement
from .scope import is_option, is_path, is_text
from .source import is_ported
from .templates import fill, rows
from .tokens import Refusal

# What reads a type that holds no text and no map. The borrow checker wants the lifetime of the input in what a form makes, so the value
# is read beside it, by a function of its own.
TACTIC = "#[tactic(auto, unfolding(garde::specs::Fields::Known))]\n"
# An input: how it is called, the parameters beside the handler, the call that reads it, its error, and what the call promises of the spelling `S`.
Input = namedtuple("Input", "told lives params call error answer value uses ghosts")
PARTS = ("params", "answer", "value", "uses", "ghosts")


def may_be_missing(kind, input):
    """Whether the member of an option may be missing. A browser sends a choice, and a list of them, only where something is chosen."""
    held = kind.args[0]
    # a text field writes a text, also one that is parsed, a number or a `bool`
    is_plain = is_text(held) or is_path(held, *UNSIGNED, *SIGNED, "bool", *(name for _, name in KNOWN))
    return input in ("json", "request") or input == "web-form" and not is_plain


class Reader:
    """The function that reads values of the type of a source."""

    def __init__(self, schema, item):
        self.schema, self.writer, self.item = schema, schema.writer, item
        self.kind = self.writer.input
        said = rows("input first of json" if self.kind == "json" and self.writer.first else f"input {self.kind}")
        self.input = Input(**{name: text.split(" | ") if name in PARTS else text for name, text in said.items()})

    def text(self, spelling=None, context=None):
        """The function, of a spelling as it is stated, where it is, under a context: its type and its name, or nothing."""
        writer, given, item = self.writer, self.input, self.item
        is_valid = spelling is not None or is_ported(item) and not writer.is_nested(item)
        writer.uses.others |= {*given.uses, "std::alloc::Global", "garde::I18n", "garde_schema::FormI18n"} | ({"garde::Valid"} if is_valid else set())
        name, made = self.schema.names_of(item)
        made, value = (f"Valid<{made}>", f"Valid::known(value, {context[1] if context else '&()'})") if is_valid else (made, "value")
        params = ["alloc: Global", *given.params, *([f"{context[1]}: &{context[0]}"] if context else []), "h: &H"]
        said = {
            "docs": self.docs(spelling), "vis": item.vis, "name": name, "made": made, "error": given.error,
            "params": "\n".join(f"    {it}," for it in params), "forms": self.lists_text(spelling, name) + self.schema.forms(item, 4),
        }
        clauses = self.clauses(spelling) if spelling else " "
        if self.kind == "json" and item.name not in writer.borrowed.borrowing:
            return self.unborrowed(clauses, {**said, "value": value, "call": given.call.format(form="within_form")})
        reads = given.call.format(form=f"{name}_form")
        return fill(
            "reader", **said, constant=self.constant() if spelling else "", tactic=TACTIC if is_valid else "", lives=given.lives,
            clauses=clauses,
            read=fill("reads a valid value", call=reads, value=value) if is_valid else f"    {reads}",
        )

    def unborrowed(self, clauses, said):
        """The same of a type that holds nothing that borrows from the bytes."""
        uses, within, name, params = self.writer.uses, f"{self.item.name}Within", said["name"], said["params"]
        if within in self.schema.turned:
            self.writer.notes.refuse(self.schema.turned[within].line, f"the name `{within}`, which the port writes: give the type another name")
        self.schema.use("Built", "FromParts", "TextRef")
        uses.others.add("std::marker::PhantomData")
        uses.prelude |= {"None", "refl"}
        return fill(
            "reader without the lifetime", **said, item=self.item.name, clauses=clauses, free_params=params.replace("&'a ", "&"),
            # what is read beside the lifetime is the first part of a result
            within_clauses=clauses.replace("Some v)", "Some v.0)"), args=", ".join(it.strip().partition(":")[0] for it in params.splitlines()),
            form=statement(call("Built", f"{name}_form", Word(f"PhantomData::<&{within}<'_>>")), 4, "let within_form = ", ";"),
        )

    def docs(self, spelling):
        told = f"Reads a value of the type `{self.item.name}` {self.input.told}, or reports"
        if spelling:
            told = f"{told} {'at most so many faults' if self.writer.first else 'every fault of its form and of its rules'}."
            return "\n".join(f"/// {line}" for line in textwrap.wrap(told, WIDTH - 4))
        rules = " and of its rules" if is_ported(self.item) else ""
        return f"/// {told} {'so many faults at most' if self.writer.first else f'every fault of its form{rules}'}."

    def clauses(self, spelling):
        uses, given = self.writer.uses, self.input
        uses.prelude |= {"◌≡◌", "Some", "IfOk"}
        uses.paths |= set(given.ghosts)
        answer = clause(given.answer, spelling, self.stated(), "    ensures answer { ")
        value = clause(given.value, spelling, self.stated(), "    ensures value { IfOk result (λ v. ", ")")
        return f"\n    ensures answer {{ {answer} }}\n    ensures value {{ IfOk result (λ v. {value} }}\n"

    def lists_text(self, spelling, name):
        """The lists by which a web form is read, whose promise has answers of its own."""
        if self.kind != "web-form" or not spelling:
            return ""
        if self.writer.module is None:
            raise Refusal(self.item.line, "a web form, whose answers name its module: say it by `--module CRATE::MODULE`")
        uses, (crate, *modules) = self.writer.uses, self.writer.module.split("::")
        uses.prelude |= {"◌≢◌", "Err", "codes", "map", "[]"} | ({"◌∷◌"} if self.lists() else set())
        uses.state("garde_form.specs.Spelling", "OfForm")
        path = ".".join(["Rattle", crate, "proofs", *modules, f"read_{name}"])
        self.writer.answers = (f"read_{name}", fill("answers", module=path) + "\n")
        return "    let lists = listed();\n"

    def constant(self):
        """The names that the input is read by, as a constant."""
        if self.kind == "json":
            return ""
        if self.kind == "web-form":
            names = self.lists()
            stated = self.stated().removeprefix("(").removesuffix(")")
            return fill("lists of a web form", count=len(names), names=stated, texts=", ".join(names)) + "\n\n"
        names = self.names(self.item.variants[0].fields)
        head, line = f"{self.item.vis}const COLUMNS: [&str; {len(names)}] = [", ", ".join(names)
        if len(head + line) + len("];") > WIDTH:
            line = "\n" + "".join(f"    {it},\n" for it in names)
        return f"/// The columns of the table, which may stand in any order.\n{head}{line}];\n\n"

    def names(self, fields):
        return [f'"{of_field(it, self.item.variants[0], self.item)}"' for it in fields if not is_skipped(it)]

    def lists(self):
        """The names of the members that are lists."""
        return self.names(it for it in self.item.variants[0].fields if is_path(it.type, "Vec") or is_option(it.type) and is_path(it.type.args[0], "Vec"))

    def stated(self):
        """The same as they are stated."""
        return f"({' ∷ '.join([*(f'codes {it}' for it in self.lists()), '[]'])})" if self.lists() else "[]"


def clause(parts, spelling, lists, before, after=""):
    """A clause of a contract: on one line where it fits, or each part on its own."""
    parts = [it.format(S=spelling, L=lists) for it in parts]
    line = before + " ".join(parts) + after + " }"
    return " ".join(parts) + after if len(line) <= WIDTH else "\n        ".join(parts) + after
