"""Values as the nodes of tests/tables/nodes.c, and the package of callers/python over that library: no prover is needed."""
import json
import struct
import subprocess

from lib import tables
from lib.linked import CRATE

NULL, FALSE, TRUE, WHOLE, NEGATIVE, NUMBER, TEXT, LIST, OBJECT = range(9)


class Number(str):
    """A number as JSON has it."""


class Nodes:
    """The nodes of a value. Every other text lies in the texts, and the others in the body."""

    def __init__(self, value):
        self.all, self.in_body, self.in_texts = [], bytearray(), bytearray()
        self.add(value)

    def text(self, kind, text):
        spelled = text.encode()
        to = self.in_texts if len(self.all) % 2 else self.in_body
        self.all.append((kind, len(self.all) % 2, len(spelled), len(to), spelled))
        to += spelled

    def plain(self, kind, value=0):
        self.all.append((kind, 0, 0, value, None))

    def add(self, value):
        if value is None or isinstance(value, bool):
            self.plain({None: NULL, False: FALSE, True: TRUE}[value])
        elif isinstance(value, (float, Number)) or isinstance(value, int) and not -(2**63) <= value < 2**64:
            self.text(NUMBER, value if isinstance(value, Number) else json.dumps(value))
        elif isinstance(value, int):
            self.plain(WHOLE if value >= 0 else NEGATIVE, abs(value))
        elif isinstance(value, str):
            self.text(TEXT, value)
        else:
            self.add_parts(value)

    def add_parts(self, value):
        self.plain(OBJECT if isinstance(value, dict) else LIST, len(value))
        for it in value:
            if isinstance(value, dict):
                self.text(TEXT, it)
                it = value[it]
            self.add(it)

    def body(self):
        texts = self.in_texts
        start = 16 + 16 * len(self.all) + len(texts)
        nodes = [struct.pack("<B?xxIQ", kind, in_texts, size, value + start * (spelled is not None and not in_texts))
                 for kind, in_texts, size, value, spelled in self.all]
        return struct.pack("<QQ", len(nodes), len(texts)) + b"".join(nodes) + texts + self.in_body


def body_of(value):
    return Nodes(value).body()


def archives(folder):
    """The library that takes such bodies, as an archive."""
    made = folder / "spelled"
    made.mkdir(exist_ok=True)
    (made / "nodes.c").write_text(tables.text_of("nodes.c"), encoding="utf-8")
    for name, source in (("libuse_library.a", "nodes.c"), ("liblibc_c.a", "empty.c")):
        (made / "empty.c").write_text("")
        subprocess.run(["cc", "-c", "-fPIC", "-Wall", "-Werror", "-I", CRATE, source, "-o", "one.o"], cwd=made, check=True)
        subprocess.run(["ar", "rcs", name, "one.o"], cwd=made, check=True)
    return made
