"""A second look at a Rust source, with other means than those that read it: what the port passed by, and whether what it wrote
holds each number, text and name of the attributes."""
import re
from collections import Counter
from fractions import Fraction

from .derives import all_options, fields_of, options
from .tokens import end_of_block_comment

QUOTED = re.compile(r'''//[^\n]*|b?r(#*)".*?"\1|b?"(?:\\.|[^"\\])*"|b?'(?:\\[^\n]+?|[^\\'\n])'|/\*''', re.S)
NUMBER = r"(-\s*)?(?<![\w.])(0x[\da-fA-F_]+?|0o[0-7_]+|0b[01_]+|\d[\d_]*(?:\.\d[\d_]*)?(?:[eE][+-]?\d+)?)(?:[iu](?:8|16|32|64|128|size)|_?f(?:32|64))?(?![\w])"
# What is stated of a number with a fraction.
DECIMAL = r'decimal_\w+(?: \(\w+)?((?: "[^"]*")+)'
# A bound that is a sum or a product, of which its value is written.
SUM = r"=[^=,()]*[\w)]\s*[-+*][^=,()]*"


def blank(text, keep=False):
    """The text with spaces for its comments and, unless they are kept, for what stands in quotes."""
    out, at = [], 0
    while found := QUOTED.search(text, at):
        end = found.end()
        if found.group() == "/*":
            end = end_of_block_comment(text, found.start()) or len(text)
        kept = keep and found.group()[:2] not in ("//", "/*")
        out += [text[at : found.start()], text[found.start() : end] if kept else re.sub(r"[^\n]", " ", text[found.start() : end])]
        at = end
    return "".join([*out, text[at:]])


def passed_by(text, notes):
    """The derives of `Validate` and the `garde` attributes of a text that were neither ported nor told, each with its line."""
    plain = blank(text)
    derives = [it.start() for it in re.finditer(r"\bderive\s*\(([^()]*)\)", plain) if re.search(r"\bValidate\b", it[1])]
    asked = [it.start() for it in re.finditer(r"#\s*!?\s*\[\s*(?:\w+\s*::\s*)*garde\b", plain)]
    for places, word in ((derives, "Validate"), (asked, "garde")):
        passed = [it for it in places if it not in notes.read and not any(start <= it < end for start, end in notes.told)]
        told = "the port reads structs and enums at the top of a file, and not in `mod`, functions or macros"
        yield from ((text.count("\n", 0, at) + 1, f"`{word}` at what the port does not read: {told}") for at in passed)
        if passed:
            return


def faults_of_values(text, item, written):
    """The numbers, texts and names of a type's attributes that what was written of it does not hold, each with its line."""
    stated = "".join(re.findall(r"ghost visits = \{.*? \};\n", written[-1], re.S))
    numbers = Counter([-int(it) for it in re.findall(r"\(minus (\d+)\)", stated)])
    numbers += Counter(int(it) for it in re.findall(r"(?<!minus )(?<![\w.])\d+(?!\w)", re.sub(r'"[^"]*"', "", stated)))
    numbers += Counter(Fraction(it.strip('"')) for found in re.findall(DECIMAL, stated) for it in found.split())
    texts, words = Counter(re.findall(r'"([^"]*)"', stated)), set(re.findall(r"\w+", stated))
    for line, attribute in attributes_of(text, item):
        plain = re.sub(SUM, "=", blank(attribute))
        own = [number_of(sign.strip() + digits.replace("_", "")) for sign, digits in re.findall(NUMBER, plain)]
        lost = list(map(str, (Counter(own) - numbers).elements()))
        numbers -= Counter(own)
        for quoted in re.findall(r'r(#*)"(.*?)"\1|"((?:[^"\\]|\\.)*)"', attribute, re.S):
            value = quoted[1] or quoted[2]
            if texts[value] or "pattern" in plain:
                texts[value] -= 1
            else:
                lost.append(f'"{value}"')
        lost += [it for it in re.findall(r"\bself\s*\.\s*(?:r#)?(\w+)", plain) if not words & {it, f"the_{it}", f"{it}_"}]
        if lost:
            yield line, f"what the port wrote does not hold {', '.join(lost)} of this line: this is a fault of the port"


def number_of(text):
    return int(text, 0) if text.lstrip("-")[:2] in ("0x", "0o", "0b") else Fraction(text)


def lost_of_serde(text, item, declaration):
    """The derives and the attributes of serde that a type's declaration does not hold, with the line of the type."""
    plain = blank(text[item.start : item.end])
    given = len(re.findall(r"(?:#\s*\[|\bcfg_attr\s*\([^\[\]]*?,)\s*serde\s*\(\s*[^\s)]", plain))
    derives = " ".join(re.findall(r"\bderive\s*\(([^()]*)\)", plain))
    lost = [it for it in ("Deserialize", "Serialize") if re.search(rf"\b{it}\b", derives) and not re.search(rf"\b{it}\b", declaration)]
    lost += ["an attribute of serde"] if declaration.count("#[serde(") != given else []
    if lost:
        yield item.line, f"what the port wrote does not hold {', '.join(lost)} of this type: this is a fault of the port"


def lost_of_names(text, items, written):
    """The names in quotes of attributes of serde that the forms do not hold, each with its line. At a type itself those of an enum's tag
    and content are such names: what renames a type, and the tag of a struct, which is written and not read, have none."""
    stated = "\n".join(written)
    for item in items:
        plain, whole = blank(text[item.start : item.end]), blank(text[item.start : item.end], keep=True)
        begin = next((it.start() for it in re.finditer(r"\b(?:struct|enum)\b", plain)), 0)
        for found in re.finditer(r"#\s*\[\s*serde\s*\(", plain):
            shown = re.sub(r"\brename_all\w*\s*\([^()]*\)", "", whole[found.end() : group_end(plain, found.end())])
            words = "rename|deserialize|alias" if found.start() > begin else "tag|content" if item.kind == "enum" else "(?!)"
            for name in sorted(set(re.findall(rf'\b(?:{words})\s*=\s*"([^"]*)"', shown)) - unnamed(item)):
                if f'"{name}"' not in stated and item.kind + item.variants[0].shape != "structtuple":
                    line = text.count("\n", 0, item.start + found.start()) + 1
                    yield line, f"what the port wrote does not hold the name `{name}` of this line: this is a fault of the port"


def unnamed(item):
    """The names at what has none in JSON, or whose form you write: the variants of an `untagged` enum, the field of a `transparent` type, fields
    that are not read, and fields of several names."""
    parts = [it for it in item.variants if "untagged" in options(item)]
    parts += [it for it in fields_of(item) if {"skip", "skip_deserializing"} & set(options(it)) or {"alias", "flatten"} <= set(options(it)) or "transparent" in options(item)]
    return {name for part in parts for said in all_options(part) for name in re.findall(r'"([^"]*)"', said.text)}


def attributes_of(text, item):
    """The `garde` attributes of a type, each with its line, without closures and the paths of functions."""
    whole = blank(text[item.start : item.end], keep=True)
    plain = blank(text[item.start : item.end])
    for found in re.finditer(r"#\s*\[\s*garde\s*\(", plain):
        end = group_end(plain, found.end())
        inside, shown = plain[found.end() : end], whole[found.end() : end]
        for custom in reversed(list(re.finditer(r"\b(?:custom|context|adapt)\s*\(", inside))):
            shown = shown[: custom.start()] + shown[group_end(inside, custom.end()) + 1 :]
        yield text.count("\n", 0, item.start + found.start()) + 1, shown


def group_end(text, at):
    """Where the bracket closes that opened before this place."""
    depth = 1
    while depth and at < len(text):
        depth += (text[at] in "([{") - (text[at] in ")]}")
        at += 1
    return at - 1
