"""The header for C of a static library over `garde_library`."""
import pathlib
import re

from .exports import Refusal

LIBRARY = pathlib.Path(__file__).resolve().parent.parent.parent / "crates" / "garde_library" / "src"
STATUSES, NODES, PLACES = LIBRARY / "status.rt", LIBRARY / "node.rt", LIBRARY / "place.rt"
TYPES = {
    "Global": [],
    "&[u8]": ["const uint8_t *{0}", "size_t {0}_len"],
    "&mut [u8]": ["uint8_t *{0}", "size_t {0}_len"],
    "&mut usize": ["size_t *{0}"],
    "&mut Room": ["{prefix}_checker *{0}"],
    "&mut Checker": ["{prefix}_checker *{0}"],
    "&mut [Node]": ["{prefix}_node *{0}", "size_t {0}_len"],
    "&mut [Place]": ["{prefix}_place *{0}", "size_t {0}_len"],
    "usize": ["size_t {0}"], "u8": ["uint8_t {0}"], "u32": ["uint32_t {0}"],
}
FIELDS = {"u8": "uint8_t", "bool": "bool", "u32": "uint32_t", "u64": "uint64_t"}
RESULTS = {"": "void", "u8": "uint8_t", "u32": "uint32_t"}
CHECKER = """/* Room that is kept from one call to the next. Begin with {PREFIX}_CHECKER_EMPTY, or with all bytes 0. */
typedef struct {{
  void *room;
  bool has_room;
}} {prefix}_checker;

#define {PREFIX}_CHECKER_EMPTY {{NULL, false}}"""
CHECKER_OF_SCHEMAS = """/* Room that is kept from one call to the next. Begin with {PREFIX}_CHECKER_EMPTY, or with all bytes 0. */
typedef struct {{
  void *room;
  bool has_room;
  void *schema_room;
  bool has_schema_room;
}} {prefix}_checker;

#define {PREFIX}_CHECKER_EMPTY {{NULL, false, NULL, false}}

/* The functions take a schema. */
#define {PREFIX}_TAKES_SCHEMA 1"""


def comment(lines):
    text = [line[1:] if line.startswith(" ") else line for line in lines]
    if any("*/" in line for line in text):
        raise Refusal("a comment holds */")
    body = "\n".join(f" * {line}".rstrip() for line in text[1:])
    return f"/* {text[0]}" + (f"\n{body}\n */" if body else " */")


def lines_of(text, mark):
    """The lines of a comment in the source, behind their mark."""
    return [line.strip()[len(mark):] for line in text.splitlines() if line.strip().startswith(mark)]


def snake(name):
    """NoJson as NO_JSON."""
    return re.sub(r"(?<!^)(?=[A-Z])", "_", name).upper()


def statuses(prefix):
    """A line of the preprocessor for each status, under its comment."""
    found = re.findall(r"((?:^ +///.*\n)+) +(\w+) = (\d+),", STATUSES.read_text(encoding="utf-8"), re.M)
    return "\n".join(f"{comment(lines_of(said, '///'))}\n#define {prefix}_{snake(name)} {number}" for said, name, number in found)


def struct(path, name):
    """The struct that a file has, under its comment."""
    head, fields = re.search(r"((?:^///.*\n)+)(?:^#.*\n)*^pub struct \w+ {\n([^}]*)}", path.read_text(encoding="utf-8"), re.M).groups()
    lines = [comment(lines_of(head, "///")), "typedef struct {"]
    for said, field, kind in re.findall(r"((?:^ +///.*\n)+) +pub (\w+): (\w+),", fields, re.M):
        lines += [f"  /* {' '.join(lines_of(said, '/// '))} */", f"  {FIELDS[kind]} {field};"]
    return "\n".join([*lines, f"}} {name};"])


def node(prefix):
    """What a node may be, a line of the preprocessor each, and its struct."""
    kinds = re.findall(r"((?:^///.*\n)+)pub const (\w+): u8 = (\d+);", NODES.read_text(encoding="utf-8"), re.M)
    lines = [f"{comment(lines_of(said, '///'))}\n#define {prefix.upper()}_NODE_{name} {number}" for said, name, number in kinds]
    return "\n".join([*lines, struct(NODES, f"{prefix}_node")])


def parameters(function, prefix):
    """The parameters of a function, as C declares them."""
    found = []
    for word in filter(None, (part.strip() for part in function.taken.replace("\n", " ").split(","))):
        parameter, _, kind = word.partition(": ")
        if kind not in TYPES:
            raise Refusal(f"{function.name} takes {kind}, for which C has nothing")
        found += [one.format(parameter, prefix=prefix) for one in TYPES[kind]]
    return ", ".join(found) or "void"


def prototype(function, prefix):
    """The line that declares a function."""
    if function.result not in RESULTS:
        raise Refusal(f"{function.name} returns {function.result}, for which C has nothing")
    return f"{RESULTS[function.result]} {function.name}({parameters(function, prefix)});"


def declaration(function, prefix):
    """The declaration of a function, under its comment."""
    if not function.said:
        raise Refusal(f"{function.name} has no comment")
    line = prototype(function, prefix)
    if len(line) > 100:
        line = line.replace(", ", ",\n" + " " * (line.index("(") + 1))
    return f"{comment(lines_of(function.said, '///'))}\n{line}"


def header_of(exports):
    """The header of a static library with these exports."""
    prefix, upper = exports.prefix, exports.prefix.upper()
    said = lines_of(exports.source, "//!")
    if not said:
        raise Refusal("the source begins with no comment")
    parts = [
        comment(said),
        f"#ifndef {upper}_H\n#define {upper}_H",
        "#include <stdbool.h>\n#include <stddef.h>\n#include <stdint.h>",
        f'#ifdef __cplusplus\nextern "C" {{\n#endif',
        f"/* The version of the interface that this header describes. */\n#define {upper}_VERSION {exports.version}u",
        statuses(upper),
        *[CHECKER.format(prefix=prefix, PREFIX=upper)] * ("&mut Room" in exports.source),
        *[CHECKER_OF_SCHEMAS.format(prefix=prefix, PREFIX=upper)] * exports.takes_schema(),
        *[node(prefix)] * ("&mut [Node]" in exports.source),
        *[struct(PLACES, f"{prefix}_place")] * ("&mut [Place]" in exports.source),
        *[declaration(it, prefix) for it in exports.functions],
        "#ifdef __cplusplus\n}\n#endif",
        "#endif",
    ]
    return "\n\n".join(parts) + "\n"
