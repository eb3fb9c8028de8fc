"""Rust code as a tree, and its layout, which is that of `rt fmt`."""
import re
from collections import namedtuple

WIDTH, USE_WIDTH, USE_ROW = 100, 98, 99
# What fits between brackets on one line: the arguments of a call, the fields of a literal or a pattern, those of a variant.
CALL, LITERAL, VARIANT = 60, 18, 35


# A piece of code without parts, one behind a text as `&` or the name of a field, conditions that are joined by `&&` or by `||`, and a call of
# a method.
Word, Behind, Chain = namedtuple("Word", "text"), namedtuple("Behind", "text part"), namedtuple("Chain", "mark parts")
Method = namedtuple("Method", "receiver name parts")
# Parts between brackets, which are so wide at most on one line: a call, a constructor or its pattern, a literal, or a type with its arguments;
# with an empty head a tuple or a reference to an array.
Parts = namedtuple("Parts", "head parts width brackets", defaults=(CALL, ("(", ")")))


def call(head, *parts):
    return Parts(head, tuple(it if not isinstance(it, str) else Word(it) for it in parts))


def wide_call(head, *parts):
    """A call, a constructor or a pattern that may fill a line."""
    return Parts(head, parts, WIDTH)


def literal(head, fields):
    """A literal of a struct or its pattern, in which a field and its value may have one name."""
    parts = (value if value == Word(name) else Behind(f"{name}: ", value) for name, value in fields)
    return Parts(head, tuple(parts), LITERAL, (" { ", " }"))


def flat(tree):
    """The code on one line."""
    if isinstance(tree, Word):
        return tree.text
    if isinstance(tree, Chain):
        return f" {tree.mark} ".join(tree.parts)
    if isinstance(tree, Behind):
        return tree.text + flat(tree.part)
    if isinstance(tree, Method):
        return f"{flat(tree.receiver)}.{tree.name}({commas(tree.parts)})"
    return commas(tree.parts).join([tree.head + tree.brackets[0], tree.brackets[1]])


def commas(parts):
    return ", ".join(flat(it) for it in parts)


def may_be_flat(tree):
    """Whether nothing in the code is too wide for one line."""
    if isinstance(tree, Parts):
        return all(map(may_be_flat, tree.parts)) and len(commas(tree.parts)) <= tree.width
    return isinstance(tree, (Word, Chain)) or may_be_flat(tree.part if isinstance(tree, Behind) else tree.receiver)


def lay(tree, column, indent, after=0):
    """The code from a column on, its further lines under an indent; `after` columns are wanted behind it."""
    if may_be_flat(tree) and column + len(flat(tree)) + after <= WIDTH:
        return flat(tree)
    if isinstance(tree, Word):
        return tree.text
    if isinstance(tree, Chain):
        return f"\n{' ' * (indent + 4)}{tree.mark} ".join(tree.parts)
    if isinstance(tree, Behind):
        return tree.text + lay(tree.part, column + len(tree.text), indent, after)
    if isinstance(tree, Method):
        receiver, arguments = lay(tree.receiver, column, indent), commas(tree.parts)
        if "\n" not in receiver:
            # behind one of one line the arguments go on
            return f"{receiver}.{tree.name}(\n{' ' * (indent + 4)}{arguments},\n{' ' * indent})"
        hangs = isinstance(tree.receiver, Parts) and tree.receiver.brackets[0] == "(" and not tree.receiver.head
        return f"{receiver}\n{' ' * (indent + 4 * hangs)}.{tree.name}({arguments})"
    opening, closing = tree.brackets
    if opening == "(" and len(tree.parts) == 1 and tree.head and not isinstance(tree.parts[0], Word):
        return f"{tree.head}({lay(tree.parts[0], column + len(tree.head) + 1, indent, after + 1)})"
    inside = "".join(f"{' ' * (indent + 4)}{lay(it, indent + 4, indent + 4, 1)},\n" for it in tree.parts)
    return f"{tree.head}{opening.rstrip()}\n{inside}{' ' * indent}{closing.lstrip()}"


def statement(tree, indent, before="", after=""):
    """Code as a line or lines of a body."""
    head = " " * indent + before
    return head + lay(tree, len(head), indent, len(after)) + after


def arm(pattern, tree, indent):
    """An arm of a match: on the line on which its pattern ends where it fits, and else with a block."""
    head = " " * indent + lay(pattern, indent, indent, len(" => {"))
    line = f"{head} => {flat(tree)},"
    if may_be_flat(tree) and len(line.splitlines()[-1]) <= WIDTH:
        return line
    return f"{head} => {{\n{statement(tree, indent + 4)}\n{' ' * indent}}}"


def ghost(name, text, laid):
    """A ghost member: on one line where it fits, or as it is laid out behind its brace."""
    line = f"    ghost {name} = {{ {text} }};"
    return line if len(line) <= WIDTH else f"    ghost {name} = {{{laid} }};"


def use_line(path, names):
    names = sorted(names, key=lambda it: [int(part) if part.isdigit() else part for part in re.split(r"(\d+)", it)])
    if len(names) == 1:
        return f"use {path}::{names[0]};"
    line = f"use {path}::{{{', '.join(names)}}};"
    if len(line) <= USE_WIDTH:
        return line
    lines, row = [], "   "
    for name in names:
        if len(row) + len(name) + 2 > (WIDTH if name == names[-1] else USE_ROW):
            lines.append(row)
            row = "   "
        row += f" {name},"
    return "\n".join([f"use {path}::{{", *lines, row, "};"])


def head_of_method(name, params, result):
    """The head of a method: on one line where it fits, or with a line for each parameter."""
    line = f"    fn {name}(&self, {', '.join(params)}) -> {result} {{"
    rows = "".join(f"        {it},\n" for it in ("&self", *params))
    return line if len(line) <= WIDTH else f"    fn {name}(\n{rows}    ) -> {result} {{"


def lifetimes_of(kind):
    """The lifetimes that a type's text names, as parameters."""
    found = sorted(set(re.findall(r"'\w+", kind)) - {"'static"})
    return f"<{', '.join(found)}>" if found else ""


def holding(kind, held=()):
    """The parts of a type that is asked of a value of another one, and that holds references to values: their names and types."""
    both = " ".join(text for _, text in held)
    return {
        "bound": lifetimes_of(f"{kind} {both}"), "life": lifetimes_of(f"'c {both}") if held else "",
        "lives": lifetimes_of(f"'_ {both}") if held else "", "holds": "(" + ", ".join(f"&'c {text}" for _, text in held) + ")" if held else "",
        "taken": "".join(f"        let {name} = self.{number};\n" for number, (name, _) in enumerate(held)),
    }
