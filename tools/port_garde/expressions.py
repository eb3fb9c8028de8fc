"""What attributes say of values: numbers, texts, places and conditions."""
import re
from dataclasses import dataclass, replace

from .tokens import Refusal, Tokens

# How a place begins that is the value of which a rule is asked, and the context of its type, by whatever name a source has them.
VALUE, CONTEXT = "{value}", "{context}"
# How a place begins that is an item of a list, behind which the name stands that a closure gives it.
ITEM = "{item}"
UNSIGNED = ("u8", "u16", "u32", "u64", "u128", "usize")
SIGNED = ("i8", "i16", "i32", "i64", "i128", "isize")
# What becomes of two constants.
MADE_OF = {"+": int.__add__, "-": int.__sub__, "*": int.__mul__}
# The types of addresses that a condition may name, and the rules that say whether a text is one.
ADDRESSES = {"IpAddr": ("is_ipv4", "is_ipv6"), "Ipv4Addr": ("is_ipv4",), "Ipv6Addr": ("is_ipv6",)}
# The marks that join parts from the left, those that bind least first, with the kind of what each makes; comparisons bind between.
JOINED = ({"||": "or"}, {"&&": "and"}, {}, {it: it for it in "+-"}, {it: it for it in "*%/"})
COMPARED = 2


@dataclass(frozen=True)
class Expression:
    """An expression. Its kind: `number` with its value, `decimal` with its text, `bool`, `unit`, `place` with its names, `path` with its
    names, `text`, `minus`, `not`, `and`, `or` with its parts, a comparison, `%` or `/` with its operator as kind, `call` of a method
    without arguments, with its place and its name, `address` with its place and the type of addresses, `contains` with its place and what
    is asked for, `matches` with its place and the paths of variants, `all` and `any` with the name of an item, the place of the list and
    the condition."""

    kind: str
    line: int
    value: object = None
    parts: tuple = ()


class Expressions(Tokens):
    """Tokens of which expressions are read."""

    def read_text(self, line):
        """Reads a text in quotes. It has no quote, no backslash and no control character, so that every language here writes it alike."""
        token = self.take()
        if token.kind not in ("text", "raw") or token.text.startswith("b"):
            raise Refusal(line, f"a text in quotes is expected in place of `{token.text}`")
        text = inside_of(token)
        if re.search(r'["\\]', text):
            raise Refusal(line, "a text with a quote or a backslash in it")
        if not text.isprintable():
            raise Refusal(line, "a text with a character in it that does not show")
        return text

    def read_all(self):
        """Reads an expression that stands alone."""
        found = self.read_expression()
        if not self.ended():
            raise Refusal(self.line, f"an expression that the port cannot read, from `{self.first.text}` on")
        return found

    def read_expression(self, depth=0):
        """Reads an expression: parts with marks between them, from the left."""
        if depth == len(JOINED):
            return self.read_unary()
        found = self.read_expression(depth + 1)
        for mark in ("==", "!=", "<=", "<", ">") if depth == COMPARED else ():
            if self.takes(mark):
                mark += "=" if mark == ">" and self.takes("=") else ""
                return compared(mark, self.line, (found, self.read_expression(depth + 1)))
        while any(map(self.sees, JOINED[depth])):
            mark = self.take()
            found = Expression(JOINED[depth][mark.text], mark.line, parts=(found, self.read_expression(depth + 1)))
        return found

    def read_unary(self):
        """Reads `!`, a number with its sign, a truth value, a group in brackets or a place."""
        line = self.line
        if self.takes("!"):
            return denied(self.read_unary(), line)
        if self.takes("&") or self.takes("*"):
            return self.read_unary()
        if self.takes("-"):
            if self.first.kind == "name":
                return Expression("minus", line, parts=(self.read_place(),))
            return Expression("number", line, value=-self.read_number())
        if self.first.kind in ("number", "float"):
            return Expression("number", line, value=self.read_number())
        if self.first.kind in ("text", "raw"):
            return Expression("text", line, value=self.read_text(line))
        return self.group().read_all() if self.opens("(") else self.read_place()

    def read_bound(self):
        """Reads a bound: an expression, or a number with a fraction, whose value is its text as JSON writes it."""
        at = self.at + (self.sees("-") and self.tokens[self.at + 1].kind == "float")
        if self.tokens[at].kind != "float":
            return self.read_expression()
        line, minus = self.line, "-" if self.takes("-") else ""
        digits = re.sub(r"_|f32$|f64$", "", self.take().text)
        return Expression("decimal", line, value=minus + re.sub(r"^0+(?=[0-9])", "", digits))

    def read_number(self):
        token = self.take()
        if token.kind == "float":
            raise Refusal(token.line, f"the floating-point number `{token.text}`")
        if token.kind != "number":
            raise Refusal(token.line, f"a number is expected in place of `{token.text}`")
        return number_of(token)

    def read_place(self):
        """Reads a field of the value or of the context, a method of it that takes no arguments, `contains`, `matches!` or a path."""
        line = self.line
        if self.first.kind != "name":
            raise Refusal(line, f"an expression that the port cannot read, at `{self.first.text}`")
        names = [self.name("a place")]
        if names[0] in ("true", "false"):
            return Expression("bool", line, value=names[0])
        if names == ["matches"] and self.sees("!") and self.tokens[self.at + 1].text == "(":
            self.take()
            return self.group().read_variants(line)
        while self.takes("::"):
            names.append(self.name("a path"))
        if names[1:]:
            return Expression("path", line, value=tuple(names))
        while self.takes("."):
            names.append(self.take().text.removeprefix("r#"))
            if names[-1] == "parse" and self.sees("::"):
                return self.read_parse(names[:-1], line)
            if self.opens("("):
                inside = self.group()
                if names[-1] == "iter" and inside.ended() and self.takes("."):
                    return self.read_over_items(names[:-1], line)
                return inside.read_method(names, line)
        return Expression("place", line, value=tuple(names))

    def read_over_items(self, names, line):
        """Reads a condition of the items of a list, as `self.hours.iter().all(|hour| hour <= 23)`."""
        word = self.name("a method")
        if word not in ("all", "any") or not self.opens("("):
            raise Refusal(line, f"`iter().{word}`: of the items of a list the port reads `iter().all(|it| ..)` and `iter().any(|it| ..)`")
        name, condition = self.group().read_of_item()
        return Expression(word, line, name, (Expression("place", line, value=tuple(names)), condition))

    def read_of_item(self):
        """Reads a closure of an item: the name of the item, and what is said of it."""
        self.expect("|")
        self.takes("&")
        name = self.name("the name of an item")
        if self.takes(":"):
            self.skip_to("|")
        self.expect("|")
        found = (self.group() if self.opens("{") else self).read_all()
        return name, with_item(found, name, ITEM + name)

    def read_parse(self, names, line):
        """Reads whether a text is an address, as `self.host.parse::<IpAddr>().is_ok()`."""
        self.expect("::")
        self.expect("<")
        kind = self.name("a type")
        self.expect(">")
        inside = self.group() if self.opens("(") else None
        self.expect(".")
        asked = self.name("a method")
        last = self.group() if self.opens("(") else None
        are_empty = all(it is not None and it.ended() for it in (inside, last))
        if kind not in ADDRESSES or asked not in ("is_ok", "is_err") or not are_empty:
            told = "`parse` of another type than `IpAddr`, `Ipv4Addr` or `Ipv6Addr`, or without `is_ok()` or `is_err()` behind it"
            raise Refusal(line, told)
        found = Expression("address", line, kind, (Expression("place", line, value=tuple(names)),))
        return found if asked == "is_ok" else Expression("not", line, parts=(found,))

    def read_method(self, names, line):
        """Reads what a method of a place is given: `contains` a text or a number, and others nothing."""
        place = (Expression("place", line, value=tuple(names[:-1])),)
        if names[-1] == "contains" and not self.ended():
            asked = self.read_all()
            if asked.kind not in ("text", "number", "path"):
                raise Refusal(line, "`contains` of what is neither a text in quotes nor a number nor a variant, as `&Event::Payment`")
            return Expression("contains", line, value=asked, parts=place)
        if not self.ended():
            raise Refusal(line, f"the method `{names[-1]}` with arguments")
        if names[-1] == "as_str":
            return place[0]
        if names[-1] == "is_empty":
            return Expression("==", line, parts=(Expression("call", line, value="len", parts=place), Expression("number", line, value=0)))
        return Expression("call", line, value=names[-1], parts=place)

    def read_variants(self, line):
        """Reads what `matches!` is given: a place, and variants by their paths, with whatever they hold."""
        place = self.read_unary()
        self.expect(",")
        paths = [self.read_variant_path()]
        while self.takes("|"):
            paths.append(self.read_variant_path())
        self.takes(",")
        if not self.ended() or place.kind != "place":
            raise Refusal(line, "`matches!` of what is no field and variants, as `matches!(self.kind, Kind::One | Kind::Two)`")
        return Expression("matches", line, value=tuple(paths), parts=(place,))

    def read_variant_path(self):
        """Reads the path of a variant; behind it may stand `(..)` or `{ .. }`."""
        names = self.path("a variant")
        if self.opens("(") or self.opens("{"):
            inside = self.group()
            if not inside.takes("..") or not inside.ended():
                raise Refusal(inside.line, "a pattern of a variant with more than `..` in it")
        return tuple(names)


def inside_of(token):
    """What stands between the quotes of a token."""
    return re.sub(r'^r?#*"|"#*$', "", token.text)


def number_of(token):
    """The number that a token says, which may have its type behind it."""
    digits = re.sub(r"[iu](8|16|32|64|128|size)$", "", token.text).replace("_", "")
    try:
        return int(digits, 0 if re.match(r"0[xob]", digits) else 10)
    except ValueError:
        raise Refusal(token.line, f"the number `{token.text}`, which cannot be read") from None


def range_of(name):
    bits, signed = 64 if name.endswith("size") else int(name[1:]), name in SIGNED
    return -(2 ** (bits - 1)) * signed, 2 ** (bits - signed) - 1


def resolved(it, numbers):
    """An expression, and of a constant its number: of one of these of the file, or of the greatest or least one of a type."""
    if it.kind == "minus":
        part = resolved(it.parts[0], numbers)
        return Expression("number", it.line, -part.value) if part.kind == "number" else it
    if it.kind in MADE_OF:
        one, other = (resolved(part, numbers) for part in it.parts)
        return Expression("number", it.line, MADE_OF[it.kind](one.value, other.value)) if one.kind == other.kind == "number" else it
    found = None
    if it.kind == "path" and len(it.value) == 2 and it.value[0] in (*UNSIGNED, *SIGNED) and it.value[1] in ("MIN", "MAX"):
        found = range_of(it.value[0])[it.value[1] == "MAX"]
    if found is None and (it.kind == "place" and len(it.value) == 1 or it.kind == "path"):
        found = numbers.get(it.value[-1])
    return it if found is None else Expression("number", it.line, found)


def compared(mark, line, parts):
    """A comparison; one with `true` or `false` is the other part, or what denies it."""
    known = [it for it in parts if it.kind == "bool"]
    if not known or mark not in ("==", "!="):
        return Expression(mark, line, parts=parts)
    other = parts[0] if known[-1] is parts[1] else parts[1]
    return other if (known[-1].value == "true") == (mark == "==") else denied(other, line)


def denied(part, line):
    """What says that a condition does not hold."""
    is_length = part.kind == "==" and part.parts[0].kind == "call"
    return replace(part, kind="!=") if is_length else Expression("not", line, parts=(part,))


def with_item(expression, name, other):
    return with_places(expression, lambda place: (other, *place[1:]) if place[0] == name else place)


def places_in(expression):
    found = [expression] if expression.kind == "place" else []
    within = [it for it in (*expression.parts, expression.value) if isinstance(it, Expression)]
    return found + [it for part in within for it in places_in(part)]


def with_places(expression, change):
    if expression.kind == "place":
        return replace(expression, value=change(expression.value))
    return replace(expression, parts=tuple(with_places(it, change) for it in expression.parts))
