"""Rust sources made at random, each with what the port has to state of it: written from the values, not read from the source."""
import random

from lib import tables

PIECES = ("r", "#", "red", "r#", "##", "a b", "é", "-1", "0x1f", "//", "/*", "is", "x")
COMPARED = {"==": "(nat_eq {0} {1})", "!=": "(not (nat_eq {0} {1}))", "<": "(nat_lt {0} {1})", "<=": "(nat_le {0} {1})",
            ">": "(nat_lt {1} {0})", ">=": "(nat_le {1} {0})"}
# what may stand before a type that is ported
BEFORE = [it.text for it in tables.cases("before-types")]


def number(dice, value):
    """A number as Rust writes it, in one of its forms."""
    sign, size = "-" if value < 0 else "", abs(value)
    return sign + dice.choice((str(size), f"{size:_}", hex(size), oct(size), bin(size), f"{size}_", f"0x{size:X}"))


def bound(dice, value):
    """A bound in the source: a number, or a constant that is one."""
    if dice.random() < 0.8:
        return number(dice, value)
    dice.constants.append(f"const MOST_{len(dice.constants)}: i64 = {number(dice, value)};\n")
    return f"MOST_{len(dice.constants) - 1}"


def text(dice):
    """A text as Rust writes it, and as it is."""
    value = "".join(dice.choice(PIECES) for _ in range(dice.randrange(4)))
    return dice.choice((f'"{value}"', f'r"{value}"', f'r##"{value}"##')) if "#" not in value else f'"{value}"', value


def bounds(dice, low, high, said):
    """Bounds in the source, and as they are stated."""
    first, last = sorted((dice.randint(low, high), dice.randint(low, high)))
    last = first if dice.random() < 0.2 else last
    names = dice.choice((("min",), ("max",), ("equal",), ("min", "max"), ("max", "min")))
    values = {"min": first, "max": last, "equal": first}
    given = ", ".join(f"{it} = {bound(dice, values[it])}" for it in names)
    word = "between" if len(names) == 2 else {"min": "at_least", "max": "at_most", "equal": "exactly"}[names[0]]
    return given, f"({' '.join([word, *(said(values[it]) for it in ('min', 'max', 'equal') if it in names)])})"


def condition(dice, depth=0):
    """A condition in the source, and as it is stated."""
    kind = dice.randrange(7 if depth < 3 else 4)
    if kind == 0:
        return "self.flag", "v.flag"
    if kind == 1:
        return "self.maybe.is_some()", "(is_some v.maybe)"
    if kind == 2:
        return "self.maybe.is_none()", "(not (is_some v.maybe))"
    if kind == 3:
        mark, limit = dice.choice(list(COMPARED)), dice.randrange(300)
        return f"self.count {mark} {number(dice, limit)}", COMPARED[mark].format("v.count", limit)
    left, right = condition(dice, depth + 1), condition(dice, depth + 1)
    if kind == 4:
        return f"!({left[0]})", f"(not {left[1]})"
    mark = ("&&", "||")[kind - 5]
    return f"({left[0]}) {mark} ({right[0]})", f"({left[1]} {mark} {right[1]})"


def rule(dice, kind, name):
    """A rule of a field in the source, and as it is stated."""
    if kind == "String" and dice.random() < 0.5:
        word, (written, value) = dice.choice(("contains", "prefix", "suffix")), text(dice)
        return f"{word}({written})", f'is ({word} "{value}" (str v.{name}))'
    if kind == "String":
        mode, word = dice.choice((("", "bytes"), ("chars, ", "chars"), ("bytes, ", "bytes"), ("utf16, ", "utf16"), ("graphemes, ", "graphemes")))
        given, stated = bounds(dice, 0, 5000, str)
        return f"length({mode}{given})", f"is ({word} {stated} (str v.{name}))"
    if kind == "u16":
        given, stated = bounds(dice, 0, 65535, str)
        return f"range({given})", f"is (range {stated} v.{name})"
    given, stated = bounds(dice, -(2**31), 2**31 - 1, lambda it: f"(minus {-it})" if it < 0 else f"(plus {it})")
    return f"range({given})", f"is (signed_range {stated} v.{name})"


def source(seed):
    """A source, and the statement of its type on one line."""
    dice, fields, stated = random.Random(seed), [], []
    dice.constants = []
    for at in range(dice.randint(1, 5)):
        kind, name = dice.choice(("String", "u16", "i32")), f"f{at}"
        rules = [rule(dice, kind, name) for _ in range(dice.randint(1, 3))]
        asked, said = ", ".join(it[0] for it in rules), " and ".join(it[1] for it in rules)
        if dice.random() < 0.4:
            written, meant = condition(dice)
            asked, said = f"if(cond = {written}, {asked})", f"when {meant} ({said})"
        key = name
        if dice.random() < 0.3:
            written, key = text(dice)
            asked += f", rename = {written}"
        noise = dice.choice(("", "/* a /* garde(skip) */ " + '"' + " */ ", "// #[garde(ascii)]\n    "))
        fields.append(f"    {noise}#[garde({asked})]\n    {name}: {kind},\n")
        stated.append(f'field "{key}" ({said})')
    extra = "".join(f"    #[garde(skip)]\n    {it},\n" for it in ("flag: bool", "maybe: Option<u8>", "count: u32"))
    derive = dice.choice(("Validate", "Clone, garde::Validate", "Debug, Validate,"))
    before = dice.choice(BEFORE) + "".join(dice.constants)
    return f"{before}#[derive({derive})]\nstruct Made {{\n{''.join(fields)}{extra}}}\n", " and ".join(stated)
