"""The libraries for other platforms: for aarch64, and as WebAssembly modules.

`rattle build` makes the archive for aarch64. It has no heap for wasm64, so the LLVM module that it hands to clang for x86-64 is kept,
and compiled for wasm64 by the words of the toolchain's own target, with a heap in C. That for aarch64 has instructions of its own.
"""
import pathlib
import re
import sys

from . import archive
from .archive import ran
from .callers import ROOT, renamed
from .exports import Refusal

sys.path.append(str(ROOT / "tests"))

from lib import prover, repository  # noqa: E402

HERE = pathlib.Path(__file__).resolve().parent
CROSS, WASM = "aarch64-linux-gnu-", "wasm64-unknown-unknown"
COMMANDS = (*(CROSS + it for it in ("gcc", "objcopy", "ar", "nm")), "wasm-opt")
MODULE = "module.bc"
KEEPS = f"""#!/bin/sh
[ ! -f {MODULE} ] || cp {MODULE} "{{room}}/{MODULE}"
exec "{{clang}}" "$@"
"""
# The words that the toolchain has for wasm64, and two more: vectors of 16 bytes, in which the reader of JSON works, and more inlining,
# since calls cost more there: a check takes a tenth less time, and a module has a third more bytes.
COMPILED = f"""--target={WASM} -mcpu=lime1 -msimd128 -O3 -mllvm -inline-threshold=1000 -mllvm -expand-div-rem-bits=64
    -mllvm -expand-fp-convert-bits=64 -ffunction-sections -fdata-sections -mllvm -trap-unreachable -mllvm -disable-machine-licm
    -mllvm -disable-postra-machine-licm -mllvm -sink-common-insts=false --no-default-config -no-canonical-prefixes
    -fno-crash-diagnostics -Werror""".split()
LINKED = "-mwasm64 --no-entry --strip-all --gc-sections --stack-first -z stack-size=1048576 --export=__stack_pointer".split()
CALLS = ("begin", "body", "body_length", "check", "details", "is_valid", "length", "nodes_at", "nodes_length", "places_at", "places_length",
         "texts_at", "texts_length", "value", "version")
PAGE, LEAST, MOST = 65536, 4 << 20, 4 << 30
OPERAND = r"\s+(\((?:local\.get \$\w+|\w+\.const [^)]*)\))"
LANES = {"8": "i8x16 i32.load8_u", "16": "i16x8 i32.load16_u", "32": "i32x4 i32.load", "64": "i64x2 i64.load"}


def refuse_memory(most):
    if most % PAGE or not LEAST <= most <= MOST:
        raise Refusal(f"--max-memory {most}: a multiple of {PAGE} from {LEAST} to {MOST}")


def proved(crate, room):
    """Proves a crate for aarch64 and once more for x86-64, over the libraries as they were built last. The room gets the archive for
    aarch64, and the LLVM module for x86-64."""
    clang = prover.kit() / "toolchain" / "bin" / "clang"
    tools = prover.toolchain(room / "tools", KEEPS.format(room=room, clang=clang))
    for target in ("aarch64", "x86_64"):
        (room / target).mkdir()
        made = room / target / f"lib{crate.name}.a"
        if wrong := prover.static_library(crate.name, made, repository.top(crate), tools, f"{target}-unknown-linux-gnu"):
            raise Refusal(f"rattle build for {target}: {wrong.splitlines()[-1]}")
    return room


def write(crate, exports, folder, built, most):
    """Writes the libraries of other platforms into a folder, of what a folder has that `proved` made. Gives their paths."""
    there, heap = folder / "aarch64", folder / "malloc.o"
    there.mkdir()
    ran(f"{CROSS}gcc", "-c", "-O2", "-fPIC", HERE / "malloc.c", "-o", heap)
    made = archive.merge([built / "aarch64" / f"lib{crate.name}.a", heap], exports, there, CROSS)
    heap.unlink()
    return *made, *modules(built / MODULE, exports, folder, most)


def modules(module, exports, folder, most):
    """Writes the module with a memory of 64 bits, and with one of 32 bits."""
    room, prefix, takes = folder / "objects", exports.prefix, exports.takes_schema()
    room.mkdir()
    clang, objects = prover.kit() / "toolchain" / "bin" / "clang", []
    heap = ["-ffreestanding", *[f"-D{prefix.upper()}_TAKES_SCHEMA"] * takes]
    (room / "wasm-ld").symlink_to(clang)
    for name in ("heap.c", "wide.c"):
        (room / name).write_text(renamed((HERE / name).read_text(encoding="utf-8"), prefix), encoding="utf-8")
    for source, words in ((module, ["-Wno-override-module", "-x", "ir"]), (room / "heap.c", heap), (room / "wide.c", ["-ffreestanding"])):
        objects.append(room / f"{source.stem}.o")
        ran(clang, *COMPILED, *words, "-c", source, "-o", objects[-1])
    wide, narrow, text = folder / f"{prefix}.wasm", folder / f"{prefix}.32.wasm", room / "flat.wat"
    ran(room / "wasm-ld", *LINKED, f"--max-memory={most}", *(f"--export={it}" for it in (*CALLS, *["schema"] * takes)), "-o", wide, *objects)
    ran("wasm-opt", "--all-features", "-O3", "--flatten", wide, "-S", "-o", text)
    text.write_text(plain(text.read_text(encoding="utf-8")), encoding="utf-8")
    ran("wasm-opt", "--all-features", "--memory64-lowering", "-O3", text, "-o", narrow)
    for it in room.iterdir():
        it.unlink()
    room.rmdir()
    return wide, narrow


def plain(text):
    """A flat module with the loads into a part of a vector in two steps: binaryen 108 does not lower the address of one."""
    def put(found, lane, place, address, vector="(v128.const i64x2 0 0)"):
        kind, load = LANES[found[1]].split()
        return f"({kind}.replace_lane {lane} {vector} ({load}{place} {address}))"

    text = re.sub(rf"\(v128\.load(\d+)_lane([^(]*?) (\d+){OPERAND}{OPERAND}\s*\)", lambda it: put(it, it[3], it[2], it[4], it[5]), text)
    text = re.sub(rf"\(v128\.load(\d+)_zero([^(]*?){OPERAND}\s*\)", lambda it: put(it, 0, it[2], it[3]), text)
    return re.sub(rf"\(v128\.load(\d+)_splat([^(]*?){OPERAND}\s*\)",
                  lambda it: "({}.splat ({}{} {}))".format(*LANES[it[1]].split(), it[2], it[3]), text)
