"""The callers of a library, made of those in callers/."""
import fnmatch
import pathlib
import re
import subprocess
from dataclasses import dataclass

from .exports import Refusal

ROOT = pathlib.Path(__file__).resolve().parent.parent.parent
CALLERS = ROOT / "callers"
NOT_COPIED = ("README.md", "tests", "*_test.go")
# What is named after a library, in a file and in the name of one. A word that only holds these letters, as `border`, stays.
NAMES = re.compile(r"(?<![A-Za-z])(lib)?order(?![a-z])|Order(?![a-z])|(?<![A-Za-z])ORDER(?![A-Za-z])")
# Lines of a caller that only a library of a type has, or only one that takes a schema.
PART = re.compile(r"^[ \t]*(?:#|//) begin: of a (type|schema)\n(.*?)^[ \t]*(?:#|//) end: of a \1\n", re.M | re.S)
MADE = "`tools/bind` of garde wrote this folder: change the crate, and bind it again."
HEAD = f"""# `order`

A library that checks bodies in JSON, and its callers. {MADE}

`order.h` says what the functions do. Its head says in four lines what a caller owes. `liborder.a` and `liborder.so` need nothing
but the C library. Of them a program sees the functions of `order.h` alone, so it can link several such libraries.

The commands are for a shell in this folder, and FOLDER stands for its path.
"""


@dataclass(frozen=True)
class Language:
    """The caller of a language: the command that makes it, how a program uses that, and where it has the library: the header, the
    archive, and the shared library, these two for aarch64, and the WebAssembly modules. It is written where there are so many of them."""

    name: str
    command: str
    use: str
    places: tuple = ()
    needs: int = 3
    takes_schema: bool = False


LANGUAGES = {
    "c": Language("C", "cc -std=c11 -I . c/check.c liborder.a -o check", '`#include "order.h"`, and link `liborder.a`.', takes_schema=True),
    "python": Language("Python", "pip install ./python", "Then `import order_check`.",
                       ("lib/order.h", "lib/liborder.a", None, "lib/aarch64/liborder.a"), takes_schema=True),
    "rust": Language("Rust", "cargo build --manifest-path rust/Cargo.toml",
                     "In your crate: `cargo add --path FOLDER/rust`, and `use order_check::check;`.", (None, "lib/liborder.a", None, "lib/aarch64/liborder.a"),
                     takes_schema=True),
    "go": Language("Go", "(cd go && go build ./...)",
                   "In your module: `go mod edit -require=example.com/order@v0.0.0 -replace=example.com/order=FOLDER/go`, and "
                   '`import "example.com/order"`.', ("lib/order.h", "lib/liborder.a", None, "lib/aarch64/liborder.a"), takes_schema=True),
    "node": Language("Node", "npm install ./node", "Then `require('order-check')`.", ("lib/order.h", "lib/liborder.a"), takes_schema=True),
    "wasm": Language("JavaScript in a browser, a worker or Node", "npm install ./wasm", "Then `import { load } from 'order-wasm'`, or of "
                     "`FOLDER/wasm/index.js` with no `npm`.", (*(None,) * 5, "order.wasm", "order.32.wasm"), 7, takes_schema=True),
}


def renamed(text, prefix):
    """A text with the names of the library of this prefix: of `my_box`, `order_check` is `my_box_check`, `OrderCheck` is
    `MyBoxCheck`, and `ORDER_CHECK` is `MY_BOX_CHECK`."""
    camel = "".join(part.capitalize() for part in prefix.split("_"))
    names = {"order": prefix, "liborder": f"lib{prefix}", "Order": camel, "ORDER": prefix.upper()}
    return NAMES.sub(lambda found: names[found.group()], text)


def with_parts(text, takes_schema):
    """A text with the parts of a library that takes a schema, or of one that does not, and without the marks of parts."""
    return PART.sub(lambda found: found.group(2) * ((found.group(1) == "schema") == takes_schema), text)


def is_called(language, libraries, takes_schema):
    """Whether a caller is written for so many libraries: of those that take a schema, in some languages."""
    return language in LANGUAGES and LANGUAGES[language].needs <= libraries and (not takes_schema or LANGUAGES[language].takes_schema)


def sources(libraries, takes_schema):
    """The files of the callers of so many libraries that git has, by their paths under callers/, but for what speaks of orders alone."""
    try:
        listed = subprocess.run(["git", "-C", CALLERS, "ls-files", "-z"], capture_output=True, check=True).stdout.decode()
    except (FileNotFoundError, subprocess.CalledProcessError):
        raise Refusal(f"{CALLERS} is in no clone of the repository, whose files git lists") from None
    paths = [pathlib.PurePath(path) for path in listed.split("\0")[:-1]]
    kept = [path for path in paths if is_called(path.parts[0], libraries, takes_schema) and not is_left_out(path)]
    return {path: CALLERS / path for path in kept if (CALLERS / path).is_file()}


def is_left_out(path):
    return any(fnmatch.fnmatch(part, pattern) for part in path.parts for pattern in NOT_COPIED)


def write_callers(exports, folder, libraries):
    """Writes the callers of a library into a folder, each with its library in place, and the READMEs. Gives their languages."""
    prefix, takes_schema = exports.prefix, exports.takes_schema()
    files, sections = sources(len(libraries), takes_schema), [HEAD]
    for path, source in files.items():
        whole = source.read_text(encoding="utf-8")
        text = with_parts(whole, takes_schema)
        if whole and not text:
            continue
        put(folder / renamed(str(path), prefix), renamed(text, prefix).encode())
        (folder / renamed(str(path), prefix)).chmod(source.stat().st_mode & 0o777)
    callers = sorted({path.parts[0] for path in files})
    for caller in callers:
        it = LANGUAGES[caller]
        for name, library in zip(it.places, libraries):
            if name:
                put(folder / caller / renamed(name, prefix), library.read_bytes())
        sections.append(f"## {it.name}\n\n    {it.command}\n\n{it.use}\n")
        put(folder / caller / "README.md", renamed(f"# `order` from {it.name}\n\n{MADE} {it.use}\n", prefix).encode())
    put(folder / "README.md", renamed("\n".join(sections), prefix).encode())
    return callers


def put(place, content):
    place.parent.mkdir(parents=True, exist_ok=True)
    place.write_bytes(content)
