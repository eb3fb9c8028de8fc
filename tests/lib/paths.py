"""The paths by which the prover names functions, as `trail::Trail::push` or `ip::OptionIp::validate_ip`: the module, the name of
the impl block or trait, and the function. A closure's path is that of its function with `fn` behind the module and a label last.

The name of an impl block is that of its type and of its trait with its arguments, without the block's parameters: `OptionIp` is
`impl<T: Ip> Ip for Option<T>`, and `AnyIp` is `impl<T: AsRef<str>> Ip for T`.
"""
import functools
import re


def split(text, between=","):
    """The parts of a text between commas that stand in no brackets."""
    parts, depth, start = [], 0, 0
    for at, letter in enumerate(text):
        depth += (letter in "<([") - (letter in ">)]" and text[at - 1 : at + 1] != "->")
        if letter == between and depth == 0:
            parts.append(text[start:at])
            start = at + 1
    return [part.strip() for part in [*parts, text[start:]] if part.strip()]


@functools.cache
def way_of(text):
    """The names of a path."""
    return tuple(re.sub(r"\s+", "", text).split("::"))


def imports(tree):
    """What a tree of `use` brings in: of each name its path, and the name that it gets."""
    head, brace, rest = tree.strip().partition("{")
    if not brace:
        path, _, name = head.partition(" as ")
        way = way_of(path)
        way = way[:-1] if way[-1] == "self" else way
        yield from [(way, name.strip() or way[-1])] if way else ()
        return
    for part in split(rest.rstrip()[:-1]):
        yield from imports(head + part)


def behind_brackets(text):
    """What stands in the `<..>` at the beginning of a text, and what behind it."""
    depth = 0
    for at, letter in enumerate(text if text.startswith("<") else ""):
        depth += (letter == "<") - (letter == ">" and text[at - 1] != "-")
        if depth == 0:
            return text[1:at], text[at + 1 :].strip()
    return "", text.strip()


def name_of_type(text, parameters):
    """The name of a type, none of a lifetime or a parameter."""
    text = re.sub(r"^&\s*(?:'\w+\s+)?", "&", text.strip())
    if text.startswith("&mut "):
        return "RefMut" + name_of_type(text[5:], parameters)
    if text.startswith("&"):
        return "Ref" + name_of_type(text[1:], parameters)
    if text.startswith("("):
        parts = split(text[1:-1])
        return f"Tuple{len(parts)}" + "".join(name_of_type(it, parameters) for it in parts) if parts else "Unit"
    if text.startswith("["):
        return "Array" if ";" in text else "Slice"
    if re.match(r"Box<\s*\[", text):
        return "BoxedSlice"
    path, brackets, rest = text.partition("<")
    name = path.strip().rpartition("::")[2]
    if text.startswith("'") or name in parameters:
        return ""
    inner, _ = behind_brackets(brackets + rest)
    return name[:1].upper() + name[1:] + "".join(name_of_argument(it, parameters) for it in split(inner))


def name_of_argument(text, parameters):
    """The name of a type in the brackets of another one, with the module that the code names it by: `IoError` of `io::Error`."""
    module = re.match(r"(?:\w+::)*([a-z]\w*)::\w+\s*(?:<|$)", text)
    return (module[1][:1].upper() + module[1][1:] if module else "") + name_of_type(text, parameters)


def head_of(text, block):
    """The parameters of an impl block, its trait, which is empty where it is of none, and its type."""
    header = " ".join(text.header(block).split()).removeprefix("unsafe ").removeprefix("impl")
    inner, header = behind_brackets(header)
    trait, _, of = header.partition(" where ")[0].rpartition(" for ")
    return {found[1] for found in (re.search(r"(?:\bconst )?('?\w+)\s*(?::|=|$)", it) for it in split(inner)) if found}, trait, of


def block_of(text, item):
    """The trait and the type of the block that an item stands in. Each is empty where there is none."""
    block = item.owner
    if block is None or block.kind not in ("impl", "trait"):
        return "", ""
    if block.kind == "trait":
        return block.name, ""
    _, trait, of = head_of(text, block)
    return re.search(r"\w*$", trait.partition("<")[0])[0], re.search(r"\w+|$", of)[0]


def name_of_block(text, block):
    """The name that the prover gives an impl block, a trait, or what else functions stand in."""
    if block.kind != "impl":
        return block.name
    parameters, trait, of = head_of(text, block)
    return (name_of_type(of, parameters) or "Any") + (name_of_type(trait, parameters) if trait else "")


def inner_path(text, item):
    """The path of an item within its file."""
    return [*(inner_path(text, item.owner) if item.owner else []), name_of_block(text, item)]


def found(text, parts, kinds=None):
    """The item of a file whose path within it is the end of this one, the longest such path; or None."""
    named = [it for it in text.all_items() if kinds is None or it.kind in kinds]
    ways = [(inner_path(text, it), it) for it in named if it.kind in ("impl", "fn") or it.name == parts[-1]]
    fit = [(len(way), it) for way, it in ways if parts[-len(way) :] == way]
    longest = max((length for length, _ in fit), default=0)
    fit = [it for length, it in fit if length == longest]
    return fit[0] if len(fit) == 1 else None


def function(text, path):
    """The function of a file that this path names, or the one that the closure of this path stands in; or None."""
    parts = path.split("::")
    kinds = ("fn", "const", "static")
    if "fn" not in parts:
        return found(text, parts, kinds)
    at = parts.index("fn")
    ways = [parts[:at] + parts[at + 1 : stop] for stop in range(at + 2, len(parts))]
    return next((it for it in (found(text, way, kinds) for way in ways) if it), None)
