"""The functions that a static library exports for C, as its src/lib.rt has them."""
import pathlib
import re
from dataclasses import dataclass

EXPORT = re.compile(
    r'((?:^///.*\n)*)^#\[unsafe\(no_mangle\)\]\npub extern "C" fn (\w+)\(([^)]*)\)(?: -> (\w+))?', re.M
)
VERSION = re.compile(r"fn (\w+)_version\(\) -> u32\s+ensures { result ≡ (\d+) }")


class Refusal(Exception):
    """Why nothing is written, in one line."""


@dataclass(frozen=True)
class Export:
    """An exported function: its comment, its name, the text of its parameters, and its result, empty where it has none."""

    said: str
    name: str
    taken: str
    result: str


@dataclass(frozen=True)
class Exports:
    """What a library exports: the prefix of its functions, the version of its interface, and the functions in their order."""

    source: str
    prefix: str
    version: int
    functions: tuple

    def names(self):
        return [it.name for it in self.functions]

    def takes_schema(self):
        """Whether the rules are a schema, which is handed over with each body."""
        return any("schema: &[u8]" in it.taken for it in self.functions)


def read_exports(crate):
    path = pathlib.Path(crate) / "src" / "lib.rt"
    source = path.read_text(encoding="utf-8")
    found = [Export(*it) for it in EXPORT.findall(source)]
    if not found:
        raise Refusal(f"{path} exports no function")
    if len(found) != source.count("#[unsafe(no_mangle)]"):
        raise Refusal(f"{path} has an export that is not read")
    version = VERSION.search(source)
    if not version or any(not it.name.startswith(f"{version.group(1)}_") for it in found):
        raise Refusal(f"{path}: one export is PREFIX_version() -> u32 and ensures a number, and each begins with PREFIX_")
    return Exports(source, version.group(1), int(version.group(2)), tuple(found))
