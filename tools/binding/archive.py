"""The archive of a static library and of the toolchain's part of it as one, and the shared library of it."""
import pathlib
import re
import shutil
import subprocess

from .exports import Refusal

TOOLCHAIN = "liblibc_c.a"
OBJECT = "whole.o"
ERROR = re.compile(r"(\S+:\d+:\d+: )?(fatal )?error\b")


def ran(*words, cwd=None):
    """The output of a command. Where it fails, the first line of an error says why, or else the last line that it printed."""
    try:
        done = subprocess.run(list(map(str, words)), cwd=cwd, stdout=subprocess.PIPE, stderr=subprocess.STDOUT, check=False)
    except FileNotFoundError:
        raise Refusal(f"there is no command `{words[0]}`") from None
    output = done.stdout.decode(errors="replace")
    if done.returncode:
        lines = [line.strip() for line in output.strip().splitlines()] or ["it printed nothing"]
        why = next(filter(ERROR.match, lines), lines[-1])
        raise Refusal(f"{' '.join(map(str, words[:2]))} failed with status {done.returncode}: {why}")
    return output


def refuse_missing(*further):
    """Refuses a machine without the commands that `merge` runs, and these further ones."""
    for command in ("cc", "objcopy", "ar", "nm", *further):
        if not shutil.which(command):
            raise Refusal(f"there is no command `{command}`")


def proved(crate):
    """The archives that `rt lib` makes of a crate, which proves it, and that of the toolchain."""
    command = shutil.which("rt")
    if not command:
        raise Refusal("there is no command `rt`")
    ran("rt", "lib", cwd=crate)
    return [crate / "out" / f"lib{crate.name}.a", pathlib.Path(command).resolve().parent.parent / "c" / TOOLCHAIN]


def built(crate, folder):
    """The archives of a crate and of the toolchain that are in a folder."""
    return [pathlib.Path(folder) / f"lib{crate.name}.a", pathlib.Path(folder) / TOOLCHAIN]


def merge(archives, exports, folder, cross=""):
    """Writes the static and the shared library of these archives into a folder, by the commands that this prefix has. Nothing but the
    exports can be seen of them, so a program can link several such libraries. Gives their paths."""
    cc = f"{cross}gcc" if cross else "cc"
    for it in archives:
        if not it.is_file():
            raise Refusal(f"there is no {it}")
    whole, static, shared = folder / OBJECT, folder / f"lib{exports.prefix}.a", folder / f"lib{exports.prefix}.so"
    ran(cc, "-r", "-nostdlib", "-o", whole, "-Wl,--whole-archive", *archives, "-Wl,--no-whole-archive")
    missing = set(exports.names()) - {line.split()[-1] for line in ran(f"{cross}nm", "--defined-only", "-g", whole).splitlines()}
    if missing:
        raise Refusal(f"{archives[0]} has no function {', '.join(sorted(missing))}")
    ran(f"{cross}objcopy", *(f"--keep-global-symbol={name}" for name in exports.names()), whole)
    ran(f"{cross}ar", "rcsD", static, whole)
    ran(cc, "-shared", "-Wl,-z,defs", f"-Wl,-soname,{shared.name}", "-o", shared, whole)
    whole.unlink()
    return static, shared
