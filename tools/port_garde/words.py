"""What a rule becomes: a value of `garde::fields` in the code, and a word of `garde.specs.Fields` in `visits`."""
from dataclasses import replace
from fractions import Fraction

from .conditions import Conditions, same_by
from .derives import type_names
from .expressions import CONTEXT, SIGNED, UNSIGNED, places_in, range_of as whole_range
from .kinds import DECIMAL, KEPT, is_made, text_of
from .layout import Behind, Word, call, lifetimes_of, literal
from .rules import OURS, REPEATED, RULES
from .scope import Place, Scope, Seen, is_option, is_path, is_text
from .source import named_type
from .templates import fill
from .tokens import Refusal

# The word for what a `length` counts of a text.
COUNTS = {"simple": "bytes", "bytes": "bytes", "chars": "chars", "graphemes": "graphemes", "utf16": "utf16"}
# What each collection holds, as a list; and the words for each of its items, and of a map for each of its values.
HELD = {
    "Vec": "(slice {})", "BTreeSet": "{}.keys", "HashSet": "{}.keys", "BTreeMap": "{}.entries", "HashMap": "{}.entries",
    "VecDeque": "{}.items", "LinkedList": "{}", "Items": "{}", "Entries": "{}",
}
EACH = {
    "Vec": "each", "BTreeSet": "each", "HashSet": "each_in_any_order", "VecDeque": "each", "LinkedList": "each", "Items": "each",
    "[;]": "each", "Option": "each_of_option",
}
EACH_VALUE = {"BTreeMap": "each_value", "HashMap": "each_value_in_any_order"}
KEYS = {"String": "text_key", "usize": "index_part"}
BOUNDS = {"min": "at_least", "max": "at_most", "equal": "exactly", "between": "between"}
IPS = {"ip": "Any", "ipv4": "V4", "ipv6": "V6"}
# How two items of a list are compared.
MATCHED = {
    "String": "text_eq (str {}) (str {})", "Option<String>": "option_eq (λ x y. text_eq (str x) (str y)) {} {}",
    "Option<TextRef<'t>>": "option_eq (λ x y. text_eq x y) {} {}", **dict.fromkeys(UNSIGNED, "nat_eq {} {}"),
}
SAME = {"String": "text_eq (str x) (str y)", "TextRef": "text_eq", **dict.fromkeys(UNSIGNED, "nat_eq")}
# A text that a form reads.
TEXT = named_type("TextRef", 0, lives=("'t",))
# The rules that are asked of what an option holds.
INSIDE = [name for name, it in {**RULES, **OURS}.items() if it.inside]
# Types of one value, which do not validate themselves.
SIMPLE = (*UNSIGNED, *SIGNED, "bool", "char", "str", "String")


def camel(path):
    """The name of the type that stands for a function or a module."""
    return "".join(part[:1].upper() + part[1:] for part in path.split("::")[-1].split("_"))


class Checks:
    """The checks of a value, as code and as they are stated."""

    def __init__(self, scope, writer):
        self.scope, self.uses, self.writer, self.say = scope, writer.uses, writer, writer.uses.say

    def of(self, rules, seen, adapter=()):
        """The check that these rules hold of a value, in turn. A refusal is noted, and the next rules follow."""
        found = []
        for group in grouped(rules, seen.type, adapter):
            found.append((Word("()"), "none"))
            try:
                found[-1] = self.part(group, seen, adapter) if seen.type.kind != "unread" else found[-1]
            except Refusal as refusal:
                self.writer.notes.faults.append(refusal)
        return together([code for code, _ in found]) if found else Word("()"), self.uses.all_of([spec for _, spec in found])

    def part(self, group, seen, adapter):
        """The check of one rule, or of some that are asked of what an option holds."""
        rule = group[0]
        if goes_inside(rule, seen.type, adapter):
            held = seen.part(seen.type.args[0])
            code, spec = self.of(group, held)
            return call(self.field("IfSome"), code), self.say("if_some (λ {}. {}) {}", held.name, spec, seen.name)
        parts = {"dive": self.dive, "inner": self.each, "if": self.under, "custom": self.custom, "unique": self.unique, "keys": self.keys}
        ours = "asks" if rule.source.startswith("asks") else rule.name
        if ours in OURS and ours in self.writer.source.functions:
            raise Refusal(rule.line, f"`{ours}`, which is a rule here and a function of this file: give the function another name")
        if rule.name in parts:
            return parts[rule.name](rule, seen, adapter)
        if adapter:
            return self.adapted(rule, seen, adapter)
        value, fault, taking = self.value(rule, seen)
        return self.asked(value, fault, taking)

    def asked(self, value, fault, taking):
        """The check that a rule holds, which finds this: as code and as it is stated."""
        code = call(self.field("IsInMemory" if taking else "Is"), value)
        return code, self.say("is_in_memory ({})" if taking else "is ({})", fault)

    def field(self, name):
        self.uses.fields.add(name)
        return name

    def under(self, rule, seen, adapter):
        condition, stated = Conditions(self.scope, self.writer).whole(rule.place)
        code, spec = self.of(rule.rules, seen, adapter)
        return call(self.field("When"), condition, code), self.say("when {} ({})", stated, spec)

    def each(self, rule, seen, adapter):
        """The rules within `inner`, or a `dive`, of each item."""
        kind, key = seen.type, seen.type.args[0].name if len(seen.type.args) == 2 else ""
        if is_lent_slice(kind):
            item, word = kind.args[0].args[0], "each"
        elif kind.name in EACH and kind.args:
            item, word = kind.args[0], EACH[kind.name]
        elif kind.name in EACH_VALUE and key in KEYS:
            item, word = kind.args[1], f"{EACH_VALUE[kind.name]} {KEYS[key]}"
        elif kind.name == "Entries":
            item, word = kind.args[0], "each_value key_part"
        else:
            raise Refusal(rule.line, f"`{rule.name}` of the type `{self.writer.type_text(kind, True)}`, whose items the port does not know")
        held, word = seen.part(item), self.say(word)
        name = f"{seen.name}.now" if is_lent_slice(kind) else self.held(kind, seen)
        code, spec = self.of([rule] if rule.name == "dive" else rule.rules, held, adapter)
        return call(self.field("Each"), code), f"{word} (λ {held.name}. {spec}) {name}"

    def unique(self, rule, seen, adapter):
        """That no two items of a list are the same."""
        kind = seen.type
        item = kind.args[0] if is_path(kind, "Vec", "Items") and kind.args else None
        if kind.name == "Items":
            self.refuse_walk(rule)
        if rule.place is not None and item is not None:
            same, stated = same_by(self, rule, item)
        else:
            same, stated = self.field("Equal"), self.equality(rule, kind, item)
        code = call(self.field("Unique"), f'"{rule.text}"', same)
        return code, self.say('unique "{}" {} {}', rule.text, stated, self.held(kind, seen))

    def equality(self, rule, kind, item):
        same = SAME.get(item.name) if item is not None and item.kind == "path" else None
        if same is None and item is not None and self.writer.is_compared(item):
            return f"⟦<{self.writer.type_text(item)} as PartialEq>⟧.eq"
        if same is None:
            told = f"`unique` of the type `{self.writer.type_text(kind, True)}`"
            raise Refusal(rule.line, f"{told}: it is written of lists of texts, of numbers and of types of this file that derive `PartialEq`; of others write `custom(unique_by(..))`, or a rule of your own, by `custom`")
        return f"(λ x y. {self.say(same)})" if " " in same else self.say(same)

    def keys(self, rule, seen, adapter):
        """Rules of the names of a map, which stand around its form in `Keys`."""
        if not is_path(seen.type, "Entries"):
            told = f"`keys` of the type `{self.writer.type_text(seen.type, True)}`"
            raise Refusal(rule.line, f"{told}: it is asked of maps that are read by `--schema --no-walk` or `--spelled`")
        self.refuse_walk(rule)
        name = seen.part(TEXT if seen.type.lives else seen.type.args[0])
        code, spec = self.of(rule.rules, name)
        self.uses.paths.add("Rattle.garde_schema.specs.Maps.{each_key, names_of}")
        return code, f"each_key (λ {name.name}. {spec}) (names_of {seen.name})"

    def refuse_walk(self, rule):
        """Refuses a rule that a form alone asks, of a type with a walk."""
        if self.writer.item.name not in self.writer.unwalked:
            told = "a set" if rule.text == REPEATED else f"`{rule.name}`"
            raise Refusal(rule.line, f"{told} of what a form reads, in a type with a walk, which has no such rule: say `--no-walk`")

    def held(self, kind, seen):
        """What a collection holds, as a list."""
        return self.say(HELD.get(kind.name, "{}"), seen.name)

    def dive(self, rule, seen, adapter):
        """A value that validates itself, or a collection of such."""
        kind = seen.type
        if is_option(kind):
            return self.part([rule], seen, ())
        if kind.name in (*EACH, *EACH_VALUE, "Entries") or is_lent_slice(kind):
            return self.each(rule, seen, ())
        lent, context = self.context_of(rule)
        name = seen.name
        while (is_path(kind, "Box", "Rc") and len(kind.args) == 1) or kind.kind == "ref":
            name, kind = name + (".now" if kind.kind == "ref" else ".value"), kind.args[0]
        if kind.kind != "path" or kind.name in (*SIMPLE, *EACH, *EACH_VALUE) or is_made(kind, DECIMAL, KEPT):
            raise Refusal(rule.line, f"`dive` into the type `{self.writer.type_text(kind, True)}`")
        self.writer.dives_into(kind.name, rule)
        owner = kind.name if kind.name in self.scope.params else f"⟦<{self.writer.type_text(kind)} as Stated>⟧"
        return call(self.field("Dive"), lent), f"{owner}.visits {name} {context}"

    def context_of(self, rule):
        """The context that a part gets, as code and as it is stated."""
        if rule.place is None and self.writer.asks_patterns(self.writer.item.name):
            return "&()", "tt"
        if rule.place is None or rule.place.value == (self.scope.context,):
            return self.scope.the_context(), self.scope.context
        if rule.place.kind == "unit":
            return "&()", "tt"
        if rule.place.kind != "place" or rule.place.value[0] != self.scope.context:
            raise Refusal(rule.line, f"`dive` with a context that is no part of `{self.scope.context}`")
        code, spec, _ = self.scope.place(rule.place.value, rule.line)
        return f"&{code}", spec

    def custom(self, rule, seen, adapter):
        """A rule of one's own, which holds the context where there is one."""
        rule = self.writer.read_own(rule)
        if rule.place is not None:
            return self.own(rule, seen)
        name = self.name_of(rule)
        kind = self.writer.type_text(seen.type)
        self.writer.own_rule(name, rule, kind, self.scope.unit)
        rule_value, life, record = Word(name), "", "{}"
        if not self.scope.unit:
            rule_value, life = call(name, self.scope.the_context()), "<'static>"
            record = f"{{ 0 = {self.say('reference_to')} {self.scope.context} }}"
        return self.asked(rule_value, f"⟦<{name}{life} as garde::fields::Rule<{kind}>>⟧.finds (record {record}) {seen.name}", False)

    def name_of(self, rule):
        """The type of a rule of one's own: after its function, or of a closure after the type and the field."""
        return camel(rule.text) if rule.text else self.writer.numbered("Rule", rule.source)

    def own(self, rule, seen):
        """A rule of one's own that the port reads: it is a type of its own, which holds what it asks beside the value."""
        name = self.name_of(rule)
        fields, outer = self.writer.fields_within(seen.type), self.scope
        places = [it.value for it in places_in(rule.place)]
        held = [outer.the_context()] if not outer.unit and any(it[0] in (CONTEXT, outer.context) for it in places) else []
        others = [it[1] for it in places if it[0] == "self" and it[1:2] and it[1] in outer.places]
        held += dict.fromkeys(others)
        for one in sorted(type_names(seen.type).union(*(type_names(outer.places[it].type) for it in others)) & outer.params):
            raise Refusal(rule.line, f"a rule of your own that is asked of a value of the parameter `{one}`: the port writes none for every type")
        at = {it: f"rule.{number}.now" for number, it in enumerate(held)}
        given = {it: Place("the_value" if it == "value" else outer.places[it].binding, at[it], outer.places[it].type) for it in others}
        inner = Scope(outer.context, given, outer.params, outer.unit, Place("value", "value", seen.type), fields)
        holds = Conditions(inner, self.writer).whole(rule.place)
        word, given = rule.asks()
        self.uses.kept_fields |= {word, "Rule"}
        self.uses.kept_others |= {"garde::I18n", "garde::RuleError", "std::alloc::Global"}
        self.writer.written_rule(name, rule, self.writer.type_text(seen.type), holds, inner)
        inner.value, inner.places = replace(inner.value, name=seen.name), outer.places
        _, stated = Conditions(inner, self.writer).whole(rule.place)
        outer.bound |= inner.bound
        value = call(name, *(outer.places[it].binding if it in given else it for it in held)) if held else Word(name)
        return self.asked(value, " ".join([self.say("asks_as" if rule.code else "asks"), *given, stated]), False)

    def adapted(self, rule, seen, adapter):
        """A rule of a text that a view shows of the value."""
        _, *path = adapter
        name, kind = camel(path[-1]), self.writer.type_text(seen.type)
        docs = f"/// A view to be written, in place of the module `{'::'.join(path)}`: the text of which the rules are asked."
        view = fill("view to be written", docs=docs, vis=self.writer.item.vis, name=name, kind=kind, bound=lifetimes_of(kind))
        self.writer.skeletons[name] = ("View", view)
        text = named_type("String", rule.line)
        shown = Seen(text, f"(⟦<{name} as garde::fields::View<{kind}>>⟧.seen (record {{}}) {seen.name})", seen.depth)
        value, fault, taking = self.value(rule, shown)
        return self.asked(call(self.field("Adapt"), name, value), fault, taking)

    def value(self, rule, seen):
        """A rule as a value, what it finds, and whether it may take memory for its answer."""
        own = {"length": self.length, "range": self.number, "whole_key": self.whole_key, "matches": self.matches}
        if found := self.number if rule.known.reads == "a number" else own.get(rule.name):
            return (*found(rule, seen), False)
        if rule.name == "required":
            if not is_option(seen.type):
                raise Refusal(rule.line, "`required` of a value that is no `Option`")
            return Word(self.field("Required")), self.say("required {}", seen.name), False
        if not is_text(seen.type):
            way = f"write `inner({rule.name})` for its items" if is_path(seen.type, *EACH, "Items") else "write a rule of your own, by `custom`"
            raise Refusal(rule.line, f"`{rule.name}` of the type `{self.writer.type_text(seen.type, True)}`, which is no text: {way}")
        if rule.name == "pattern":
            return (*self.pattern(rule, seen), True)
        if rule.name in IPS:
            self.uses.words.add(IPS[rule.name])
            self.uses.others.add("garde::i18n::IpKind")
            return call(self.field("Ip"), f"IpKind::{IPS[rule.name]}"), self.text("ip", seen, IPS[rule.name]), False
        name = self.field(rule.name.capitalize())
        if rule.text is None:
            return Word(name), self.text(rule.name, seen), rule.name == "url"
        return call(name, f'"{rule.text}"'), self.text(rule.name, seen, f'"{rule.text}"'), False

    def text(self, word, seen, *before):
        return " ".join([self.say(word), *before, self.text_of(seen)])

    def text_of(self, seen):
        """A text as a rule is given it."""
        if seen.type.kind == "ref" or is_path(seen.type, "TextRef"):
            return f"{seen.name}.now" if seen.type.kind == "ref" else seen.name
        if is_path(seen.type, "String"):
            return self.say("(str {})", seen.name)
        self.uses.cow = True
        return f"(cow_str_bytes {seen.name})"

    def matches(self, rule, seen):
        other = self.scope.places.get(rule.text)
        if other is None:
            raise Refusal(rule.line, f"`matches` of the field `{rule.text}`, which is not there")
        self.scope.bound.add(rule.text)
        rule = replace(rule, text=next((known for known, name in self.writer.item.renames if name == rule.text), rule.text))
        fields = (("field", Word(f'"{rule.text}"')), ("other", Word(other.binding)))
        return literal(self.field("Matches"), fields), self.equal(rule, seen, other)

    def equal(self, rule, seen, other):
        """How it is stated that a value equals that of another field: two texts, two options of texts, or two numbers."""
        kinds = [self.writer.type_text(it, True) for it in (seen.type, other.type)]
        same = "text_eq {} {}" if is_path(seen.type, "TextRef") and is_path(other.type, "TextRef", "") else MATCHED.get(kinds[0])
        if same is None or kinds[1] not in (kinds[0], "_"):
            told = " and ".join(f"`{it}`" for it in dict.fromkeys(kinds))
            way = "each of one type, so compare others by a rule of your own, by `custom`"
            raise Refusal(rule.line, f"`matches` of {told}: it is written of two texts, options of texts or numbers without a sign, {way}")
        return self.say(f'matches "{{}}" ({same})', rule.text, seen.name, other.name)

    def whole_key(self, rule, seen):
        number = rule.mode[:1].upper() + rule.mode[1:]
        self.uses.others |= {"garde_form::WholeKey", f"garde_schema::{number}"}
        self.uses.state("garde_form.specs.Keys", "whole_key")
        self.uses.state("garde_form.specs.Spelling", f"{rule.mode}_texts")
        return call("WholeKey", f'"{rule.text}"', number), f'whole_key "{rule.text}" {rule.mode}_texts {seen.name}'

    def pattern(self, rule, seen):
        if rule.place is None:
            place = (self.scope.the_context(), self.writer.new_pattern(rule))
        else:
            place = rule.place.value
            whole = len(place) == 1 and self.writer.context == "Regex"
            if place[0] != self.scope.context or len(place) < 2 and not whole or self.scope.unit:
                raise Refusal(rule.line, f"the pattern `{'.'.join(place)}` is no part of the context: write its text in quotes, as `pattern(\"..\")`")
            self.scope.the_context()
        source = ".".join(place)
        lent = Behind("&", Word(source)) if "." in source else Word(source)
        return call(self.field("Pattern"), lent), self.text("pattern", seen, source)

    def length(self, rule, seen):
        kind, (code, bounds) = seen.type, self.bounds(rule)
        if is_text(kind):
            return code, self.text(COUNTS[rule.mode], seen, bounds)
        listed = self.held(kind, seen) if kind.kind == "path" and kind.name in HELD else None
        if is_lent_slice(kind):
            listed = f"{seen.name}.now"
        if rule.mode != "simple" or listed is None:
            mode = "" if rule.mode == "simple" else f" in `{rule.mode}`"
            told = f"the length{mode} of the type `{self.writer.type_text(kind, True)}`"
            raise Refusal(rule.line, f"{told}, which the port does not know: of a number write `range`, of others a rule of your own, by `custom`")
        return code, self.say("items {} {}", bounds, listed)

    def number(self, rule, seen):
        """The rule that a number is within bounds, or has to do with another one, by its type."""
        kind, signed = seen.type.name, "signed_" if seen.type.name in SIGNED else ""
        if is_made(seen.type, DECIMAL):
            return self.decimal(rule, seen)
        if not is_path(seen.type, *UNSIGNED, *SIGNED):
            floats = " of floating-point numbers" if kind in ("f32", "f64") else ""
            way = f": there are no bounds{floats} here" if rule.name == "range" else ", which is no whole number"
            raise Refusal(rule.line, f"`{rule.name}` of the type `{self.writer.type_text(seen.type, True)}`{way}")
        bounds = list(map(self.writer.resolved, rule.bounds.values()))
        if rule.name != "range" and (bounds[0].kind != "number" or bounds[0].value < 1):
            raise Refusal(rule.line, f"`{rule.name}` of what is no number from 1 on")
        least, most = whole_range(kind)
        for it in bounds:
            if it.kind == "number" and (it.value > most or signed and it.value < least):
                raise Refusal(it.line, f"the bound {it.value}, which is no `{kind}`")
        if rule.name == "range":
            code, stated = self.bounds(rule, signed)
        else:
            code, stated = self.bound(bounds[0], signed)
            code = call(self.field(camel(rule.name)), code)
        return code, self.say(f"{signed}{rule.name} {{}} {{}}", stated, seen.name)

    def decimal(self, rule, seen):
        """The same of a number with a fraction, whose bounds are texts."""
        texts = {it: f'"{text_of(self.writer.resolved(rule.bounds[it]))}"' for it in ("min", "max", "equal") if it in rule.bounds}
        stated, word = " ".join(texts.values()), self.uses.state("garde_schema.specs.Decimals", f"decimal_{rule.name}")
        if rule.name == "range":
            self.uses.others.add("garde_schema::decimal_range")
            end = self.say(BOUNDS["between" if len(texts) == 2 else next(iter(texts))])
            given = ", ".join(f"{name} = {text}" for name, text in texts.items())
            return Word(f"decimal_range!({given})"), f"{word} ({end} {stated}) {seen.name}"
        text = stated.strip('"')
        if Fraction(text) <= 0 or int(text.lower().partition("e")[0].replace(".", "")) >= 2**64:
            raise Refusal(rule.line, f"`{rule.name}({text})`: write a number above 0 whose digits fit 64 bits")
        self.uses.others.add("garde_schema::DecimalMultiple")
        return call("DecimalMultiple", stated), f"{word} {stated} {seen.name}"

    def bounds(self, rule, signed=False):
        """A rule with bounds, by the macro of its name, and the bounds as they are stated."""
        self.uses.others.add(f"garde::{rule.name}")
        ends = {it: self.bound(rule.bounds[it], signed) for it in ("min", "max", "equal") if it in rule.bounds}
        given = [rule.mode] if rule.mode not in ("", "simple") else []
        given += [f"{it} = {code}" for it, (code, _) in ends.items()]
        word = self.say(BOUNDS["between" if len(ends) == 2 else next(iter(ends))])
        return Word(f"{rule.name}!({', '.join(given)})"), f"({' '.join([word, *(spec for _, spec in ends.values())])})"

    def bound(self, it, signed):
        it = self.writer.resolved(it)
        if it.kind == "decimal":
            raise Refusal(it.line, f"the floating-point number `{it.value}`")
        if it.kind == "number":
            if it.value < 0 and not signed:
                raise Refusal(it.line, f"the bound {it.value} of what has no sign")
            return str(it.value), self.say("(minus {})" if it.value < 0 else "(plus {})", abs(it.value)) if signed else str(it.value)
        if it.kind != "place":
            raise Refusal(it.line, "a bound that the port cannot read: it reads numbers and fields of `self` and of the context")
        return self.scope.place(it.value, it.line)[:2]


def is_lent_slice(kind):
    return kind.kind == "ref" and kind.args[0].kind == "slice"


def goes_inside(rule, kind, adapter):
    return is_option(kind) and (rule.name == "dive" or (rule.name in INSIDE and not adapter))


def grouped(rules, kind, adapter):
    """Rules in groups: those that are asked of what an option holds, one after the other, are one."""
    groups = []
    for rule in rules:
        inside = goes_inside(rule, kind, adapter)
        if groups and inside and goes_inside(groups[-1][-1], kind, adapter):
            groups[-1].append(rule)
        else:
            groups.append([rule])
    return groups


def together(checks, most=4):
    """Checks in turn: one, or a tuple of up to so many, whose last one holds the rest."""
    if len(checks) == 1:
        return checks[0]
    if len(checks) > most:
        checks = [*checks[: most - 1], together(checks[most - 1 :], most)]
    return call("", *checks)
