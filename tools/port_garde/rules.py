"""What the attributes `#[garde(..)]` ask. A rule of one's own that the port reads is a message, and the condition under which it is not said:
written as `asks("..", ..)`, or as a closure or a function that gives `Ok(())` where the condition holds, and else an error."""
import re
from dataclasses import dataclass, field, replace
from fractions import Fraction

from .expressions import CONTEXT, VALUE, Expression, Expressions, inside_of, with_places
from .templates import rows
from .tokens import Notes, Refusal, meant, tokens_of

WANTED = 'write `if CONDITION { Ok(()) } else { Err(garde::Error::new("..")) }`, with a condition as that of `if`'
# Each comparison with the one that holds where it does not.
OTHERWISE = {"==": "!=", "!=": "==", "<": ">=", ">=": "<", ">": "<=", "<=": ">"}


class OwnRules(Expressions):
    """Tokens of which rules of one's own are read, each as its message and its condition."""

    def read_asks(self, line):
        """Reads a message, a code that may stand before it, and a condition behind it, in which `value` is the value that is asked."""
        code, message = None, self.read_text(line)
        self.expect(",")
        if self.first.kind in ("text", "raw") and self.tokens[self.at + 1].text == ",":
            if not re.fullmatch(r"[a-z][a-z0-9_]*", message):
                raise Refusal(line, f"the code `{message}`: a code is made of small letters, digits and `_`, as `given_twice`")
            code, message = message, self.read_text(line)
            self.expect(",")
        condition = self.read_expression()
        self.takes(",")
        return code, message, named(condition, {"value": VALUE})

    def read_closure(self):
        tokens = self.again()
        tokens.at = self.at
        tokens.takes("move")
        names = tokens.read_names("|")
        if tokens.takes("->"):
            tokens.skip_to("{")
        return (tokens.only() if tokens.opens("{") else tokens).read_body(names)

    def read_function(self):
        while not self.opens("("):
            if self.ended() or self.sees("<"):
                raise Refusal(self.line, "a function with parameters for types")
            self.take()
        names = self.group().read_names("")
        while not self.opens("{"):
            self.take()
        return self.group().read_body(names)

    def only(self):
        """What stands in a block that is all there is."""
        inside = self.group()
        if not self.ended():
            raise Refusal(self.line, f"more behind a block, from `{self.first.text}` on")
        return inside

    def read_names(self, mark):
        """Reads the parameters of a closure, or of a function, up to this mark: the value and the context."""
        names, kinds = {}, [VALUE, CONTEXT]
        if mark:
            self.expect(mark)
        while not (self.takes(mark) if mark else self.ended()):
            if not kinds:
                raise Refusal(self.line, "more than two parameters")
            self.takes("mut")
            names[self.name("the name of a parameter")] = kinds.pop(0)
            self.skip_to(",", mark or ",")
            self.takes(",")
        names.pop("_", None)
        return names

    def read_body(self, names):
        """Reads `if CONDITION { Ok(()) } else { Err(..) }`, the same the other way round, or with `return` in the first block."""
        self.expect("if")
        condition = self.read_expression()
        first = self.group().read_result()
        second = (self.group() if self.takes("else") else self).read_result()
        self.takes(";")
        if not self.ended():
            raise Refusal(self.line, f"more than one `if`, from `{self.first.text}` on")
        if (first is None) == (second is None):
            raise Refusal(self.line, "two results of one kind")
        condition = condition if first is None else negated(condition)
        return first if first is not None else second, named(condition, names)

    def read_result(self):
        """Reads `Ok(())`, which gives nothing, or `Err(garde::Error::new("message"))`, which gives the message."""
        self.takes("return")
        word = self.name("`Ok` or `Err`")
        inside, message = self.group(), None
        if word == "Ok":
            if not inside.opens("(") or not inside.only().ended():
                raise Refusal(inside.line, "`Ok` of more than `()`")
        elif word == "Err":
            line, path = inside.line, inside.path("an error")
            if path[-2:] != ["Error", "new"] or path[:-2] not in ([], ["garde"]):
                raise Refusal(line, f"`{'::'.join(path)}` in place of `garde::Error::new`")
            inside = inside.only()
            message = inside.read_text(line)
            if not inside.ended():
                raise Refusal(line, "a message that is not a text in quotes alone")
        else:
            raise Refusal(self.line, f"`{word}` in place of `Ok` or `Err`")
        self.takes(";")
        return message


def read_function(text):
    """Reads a function of the file: its message and its condition."""
    return OwnRules(tokens_of(text), text, Notes()).read_function()


def named(condition, names):
    """A condition in which these names stand for the value and for the context."""
    return with_places(condition, lambda place: (names.get(place[0], place[0]), *place[1:]))


def negated(condition):
    """A condition that holds where this one does not."""
    if condition.kind in OTHERWISE:
        return replace(condition, kind=OTHERWISE[condition.kind])
    if condition.kind in ("and", "or"):
        return replace(condition, kind="or" if condition.kind == "and" else "and", parts=tuple(map(negated, condition.parts)))
    return condition.parts[0] if condition.kind == "not" else Expression("not", condition.line, parts=(condition,))


def at_field(rules, name):
    """The rules of a field of this name, where one of one's own that names the field means the value that it is asked of."""

    def at_value(place):
        return (VALUE, *place[2:]) if place[:2] == ("self", name) else place

    def changed(rule):
        if rule.name == "if":
            return replace(rule, rules=at_field(rule.rules, name))
        return replace(rule, place=with_places(rule.place, at_value)) if rule.name == "custom" and rule.place is not None else rule

    return tuple(map(changed, rules))


# The end of a text, in every dialect of patterns.
END = r"(?![\s\S])"


@dataclass(frozen=True)
class Known:
    """What the port knows of a rule by its name: what is read behind that; whether it is asked of what is `inside` an option; the `code` of
    its fault; the `pattern` by which a JSON Schema asks it of a text, in which `{}` is the text of the rule, or what is `told` there in its
    place, or the `keyword` that asks it of a number; of a default whether that has it, a function of the default and of the text or the
    number of the rule; and the word that states it, where that is not the name."""

    reads: str = ""
    inside: bool = True
    code: str = ""
    pattern: str = ""
    told: str = ""
    keyword: str = ""
    is_kept: object = None
    word: str = ""


def of_address(name, told, word=""):
    return {name: Known(code=f"{word or name}_invalid", told=told, is_kept=lambda it, _: it != "", word=word)}


def of_part(name, pattern, is_kept):
    return {name: Known("a text", code=f"{name}_missing", pattern=pattern, is_kept=is_kept)}


RULES = {
    "required": Known(inside=False, code="required_not_set"),
    "ascii": Known(code="ascii_invalid", pattern=r"^[\x00-\x7f]*" + END, is_kept=lambda it, _: it.isascii()),
    "alphanumeric": Known(
        code="alphanumeric_invalid", told="every character is a letter or a number",
        is_kept=lambda it, _: not it.isascii() or it == "" or it.isalnum(),
    ),
    **of_address("url", "the text is an absolute URL"), **of_address("ip", "the text is an IP address"),
    **of_address("ipv4", "the text is an IPv4 address", "ip"), **of_address("ipv6", "the text is an IPv6 address", "ip"),
    **of_part("contains", "{}", lambda it, part: part in it),
    **of_part("prefix", "^{}", str.startswith), **of_part("suffix", "{}" + END, str.endswith),
    "length": Known("bounds"), "range": Known("bounds"),
    "pattern": Known("a pattern", code="pattern_no_match"), "matches": Known("a field", inside=False, code="matches_field_mismatch"),
    **dict.fromkeys(("inner", "if"), Known("rules", inside=False)), "dive": Known("a context", inside=False),
    "custom": Known("a rule", inside=False),
}
PLAIN, TEXTS = ([name for name, it in RULES.items() if it.reads == reads] for reads in ("", "a text"))
# Rules that the Rust crate does not have, within `custom`.
OURS = {
    **dict.fromkeys(("unique", "unique_by", "keys", "asks"), Known()),
    "multiple_of": Known("a number", code="multiple_of_mismatch", keyword="multipleOf", is_kept=lambda it, number: it % number == 0),
}
MODES = ("simple", "bytes", "chars", "graphemes", "utf16")
NO_PORT = rows("rules that are not ported")
# The words of an attribute that say something of the whole type or field, and all words, for one that is none of them.
OF_WHOLE = ("skip", "rename", "adapt", "context", "allow_unvalidated", "transparent")
KNOWN = (*RULES, *OF_WHOLE)
# What is said of an item of a set that stands in it before.
REPEATED = "repeated"


@dataclass(frozen=True)
class Rule:
    """A rule: its name, and of its arguments those that it has. One of one's own that the port reads has its condition as `place`, and the
    `message` that is said where it does not hold, and may have a `code`, by which handlers word it. One that the type of a field asks, and
    no attribute, is `added`."""

    name: str
    line: int
    mode: str = ""
    bounds: dict = field(default_factory=dict)
    text: str = None
    place: Expression = None
    rules: tuple = ()
    source: str = ""
    message: str = None
    code: str = None
    added: bool = False

    @property
    def known(self):
        return RULES.get(self.name) or OURS.get(self.name) or Known()

    def asks(self):
        """The word of one's own rule that the port reads, with what it is given before the condition: as a value, and as it is stated."""
        return ("AsksAs", (f'"{self.code}"', f'"{self.message}"')) if self.code else ("Asks", (f'"{self.message}"',))


@dataclass(frozen=True)
class Attributes:
    """What stands at a type or at a field."""

    asked: bool = False
    rules: tuple = ()
    skip: bool = False
    rename: str = None
    adapter: tuple = ()
    context: tuple = ()
    allow_unvalidated: bool = False
    transparent: bool = False
    faulty: bool = False


def read_attributes(groups):
    """Reads the attributes of a type or of a field. What cannot be read is noted, and the others are read."""
    found, rules = {"asked": True}, []
    for tokens in groups:
        before = len(tokens.notes.faults)
        tokens.items(lambda it: it.read_attribute(found, rules))
        found["faulty"] = found.get("faulty", False) or len(tokens.notes.faults) > before
    return Attributes(rules=tuple(rules), **found)


class Rules(OwnRules):
    """Tokens of which rules are read."""

    def read_attribute(self, found, rules):
        """Reads one attribute: a word about the whole type or field, or a rule."""
        line, word = self.line, self.first.text
        if word not in OF_WHOLE:
            rules.append(self.read_rule())
            return
        self.take()
        if word == "rename":
            found[word] = (self if self.takes("=") else self.argument(word)).read_text(line)
        elif word == "adapt":
            found["adapter"] = (line, *self.argument(word).read_function_path(word))
        else:
            found[word] = (line, self.argument(word)) if word == "context" else True

    def argument(self, word):
        """What stands in brackets after a word."""
        if not self.opens("("):
            raise Refusal(self.line, f"`{word}` without its argument")
        return self.group()

    def all_read(self, rule, word, line):
        """A rule, behind which nothing is left."""
        if not self.ended():
            raise Refusal(line, f"`{word}` with more than the port reads, from `{self.first.text}` on")
        return rule

    def read_rules(self):
        return present(self.items(Rules.read_rule))

    def read_rule(self):
        line, word = self.line, self.name("a rule")
        if word in NO_PORT:
            raise Refusal(line, NO_PORT[word])
        if word in PLAIN:
            return Rule(word, line)
        if word == "dive":
            return Rule(word, line, place=self.group().read_context() if self.opens("(") else None)
        if word == "custom":
            return self.argument(word).read_custom(line)
        if word not in RULES:
            raise Refusal(line, f"the attribute `{word}` is not known{f': write `custom({word})`' if word in OURS else meant(word, KNOWN)}")
        inside = self.argument(word)
        if RULES[word].reads == "bounds":
            rule = inside.read_bounded(word, line)
        elif RULES[word].reads in ("a text", "a pattern"):
            rule = inside.read_pattern(word, line)
        elif word == "if":
            rule = inside.read_if(line)
        else:
            is_inner = word == "inner"
            rule = Rule(word, line, rules=inside.read_rules()) if is_inner else Rule(word, line, text=inside.name("the name of a field"))
        return inside.all_read(rule, word, line)

    def read_context(self):
        """Reads the context of a part: a place, or `()`."""
        line = self.line
        self.takes("&")
        if not self.opens("("):
            return self.read_all()
        if not self.group().ended():
            raise Refusal(line, "a context that is a tuple")
        return Expression("unit", line)

    def read_bounded(self, word, line):
        """Reads bounds, before which a length may have a mode."""
        mode, bounds = "simple" if word == "length" else "", {}
        if mode and self.first.text in MODES:
            mode = self.take().text
            self.takes(",")
        while not self.ended():
            name = self.name("a bound")
            if name not in ("min", "max", "equal") or name in bounds:
                known = ("min", "max", "equal", *(MODES if word == "length" else ()))
                raise Refusal(line, f"`{word}` with `{name}`, which is not read there{meant(name, known)}")
            self.expect("=")
            bounds[name] = self.read_bound()
            if not self.ended() and not self.takes(","):
                raise Refusal(line, f"a bound that the port cannot read, from `{self.first.text}` on")
        if not bounds or ("equal" in bounds and len(bounds) > 1):
            raise Refusal(line, f"`{word}` wants `min`, `max` or both, or `equal` alone")
        low, high = bounds.get("min"), bounds.get("max")
        if low and high and {low.kind, high.kind} <= {"number", "decimal"} and Fraction(low.value) > Fraction(high.value):
            raise Refusal(line, f"the `min` of `{word}` is greater than its `max`")
        return Rule(word, line, mode=mode, bounds=bounds)

    def read_if(self, line):
        """Reads `cond = ..` and the rules under it."""
        if not self.takes("cond"):
            raise Refusal(line, "`if` begins with `cond = `")
        self.expect("=")
        condition = self.read_expression()
        self.takes(",")
        return Rule("if", line, place=condition, rules=self.read_rules())

    def read_pattern(self, word, line):
        """Reads a text in quotes, or for a pattern the place of a compiled one."""
        if self.first.kind in ("text", "raw"):
            return Rule(word, line, text=self.read_text(line) if word != "pattern" else self.read_source())
        place = self.read_expression()
        if word != "pattern" or place.kind != "place":
            raise Refusal(line, f"`{word}` wants a text in quotes")
        return Rule(word, line, place=place)

    def read_source(self):
        """Reads the source of a pattern, as the pattern has it: its escapes are those of patterns."""
        token = self.take()
        text = inside_of(token)
        if token.kind == "text":
            text = re.sub(r"\\([\\\"'0])", lambda it: "\\x00" if it[1] == "0" else it[1], text)
        if token.text.startswith("b") or not text.isprintable():
            raise Refusal(token.line, "a pattern with a character in it that does not show, or of bytes")
        return text

    # Rules within `custom`.

    def read_custom(self, line):
        """Reads the path of a function, or a closure as it stands, with what it asks where the port reads that."""
        if self.first.text in OURS and self.tokens[self.at + 1].text != "::":
            return self.read_ours(line)
        if not (self.opens("|") or self.sees("||") or self.sees("move")):
            return Rule("custom", line, text="::".join(self.read_function_path("custom")))
        source = self.source()
        try:
            message, place = self.read_closure()
            return Rule("custom", line, source=source, message=message, place=place)
        except Refusal as refusal:
            if any(it.text == "self" for it in self.tokens):
                told = "a closure that names `self`: a rule that is written by hand gets the value of its field alone, so"
                raise Refusal(line, f"{told} {WANTED} ({refusal.reason})") from None
        return Rule("custom", line, source=source)

    def read_ours(self, line):
        """Reads a rule that the Rust crate does not have: `unique` with its message, `unique_by` with a message and the key of an item,
        which has a place as its list has, with the name of the item first, `keys` with rules, `multiple_of` with a number, `asks` with a
        message and a condition."""
        source, word = self.source(), self.take().text
        if word == "unique" and self.ended():
            return Rule(word, line, text="stands before")
        inside = self.argument(word)
        if word == "unique":
            found = Rule(word, line, text=inside.read_text(line))
        elif word == "unique_by":
            message = inside.read_text(line)
            inside.expect(",")
            name, key = inside.read_of_item()
            found = Rule("unique", line, text=message, source=source, place=Expression("key", line, name, (key,)))
        elif word == "keys":
            found = Rule(word, line, rules=inside.read_rules())
        elif word == "asks":
            code, message, place = inside.read_asks(line)
            found = Rule("custom", line, source=source, code=code, message=message, place=place)
        else:
            found = Rule(word, line, bounds={"equal": inside.read_bound()})
        return self.all_read(inside.all_read(found, word, line), word, line)

    def read_function_path(self, word):
        names = self.path("a path")
        if not self.ended():
            closure = " or a closure" if word == "custom" else ""
            raise Refusal(self.line, f"`{word}` wants a path{closure}, and `{self.first.text}` stands there")
        return tuple(names)


def present(found):
    """What was read of a list."""
    return tuple(it for it in found if it is not None)
