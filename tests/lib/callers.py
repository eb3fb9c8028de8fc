"""The programs `check` of the callers, in a folder that `tools/bind` wrote."""
import os
import pathlib
import re
import shutil
import subprocess
import sys

from lib import extension

WARNED = ("-std=c11", "-Wall", "-Wextra", "-Werror")
# The words that print the version of a command, and the oldest one that will do.
OLDEST = {"cargo": ("--version", (1, 85)), "go": ("version", (1, 19)), "node": ("--version", (18, 0))}
# The crates of the system, and the words by which cargo takes them.
REGISTRY = pathlib.Path("/usr/share/cargo/registry")
OF_SYSTEM = ("--config", 'source.crates-io.replace-with="system"', "--config", f'source.system.directory="{REGISTRY}"')


class Wrong(Exception):
    """What a command says that builds a program."""


def ran(*words, **how):
    return subprocess.run(list(map(str, words)), capture_output=True, check=False, **how)


def done(*words, **how):
    """Runs a command that has to succeed. Gives what it printed."""
    ended = ran(*words, **how)
    if ended.returncode:
        raise Wrong((ended.stdout + ended.stderr).decode(errors="replace").strip())
    return ended


def lack(tool):
    """Why a command does not serve, or an empty text."""
    if tool == "Python.h":
        return extension.lacks()
    if not shutil.which(tool):
        return f"there is no {tool}"
    word, oldest = OLDEST.get(tool, ("", ()))
    found = re.search(r"(\d+)\.(\d+)", ran(tool, word).stdout.decode()) if oldest else None
    return f"{tool} is older than {'.'.join(map(str, oldest))}" if found and tuple(map(int, found.groups())) < oldest else ""


def of_c(bound, prefix, room):
    done("cc", *WARNED, "-O1", "-I", bound, bound / "c" / "check.c", bound / f"lib{prefix}.a", "-o", room / "check-c")
    return [room / "check-c"]


def of_rust(bound, prefix, room):
    folder, strict = room / "rust", {**os.environ, "RUSTFLAGS": "-D warnings"}
    manifest = bound / "rust" / "Cargo.toml"
    done("cargo", "build", "--offline", "--example", "check", "--manifest-path", manifest, "--target-dir", folder, env=strict)
    return [folder / "debug" / "examples" / "check"]


def of_go(bound, prefix, room):
    done("go", "vet", "./...", cwd=bound / "go")
    done("go", "build", "-o", room / "check-go", "./cmd/check", cwd=bound / "go")
    return [room / "check-go"]


def of_python(bound, prefix, room):
    done(sys.executable, "-m", "compileall", "-q", bound / "python")
    package, source = bound / "python", room / "python"
    shutil.copytree(package / "src", source, dirs_exist_ok=True)
    made = source / f"{prefix}_check" / extension.NAME
    words, folder = extension.words_of(package, [package / "lib" / f"lib{prefix}.a"], package / "lib", made)
    done(*words, *WARNED[1:], cwd=folder)
    return ["env", f"PYTHONPATH={source}", sys.executable, package / "check.py"]


def of_node(bound, prefix, room):
    done("npm", "install", "--offline", "--no-audit", "--no-fund", cwd=bound / "node")
    return ["node", bound / "node" / "check.js"]


def of_wasm(bound, prefix, room):
    return ["node", bound / "wasm" / "check.js"]


# How the program of a language is built, and the commands that build and run it.
BUILDS = {
    "c": (of_c, ["cc"]), "go": (of_go, ["go", "cc"]), "node": (of_node, ["node", "npm", "cc"]), "python": (of_python, ["cc", "Python.h"]),
    "rust": (of_rust, ["cargo", "cc"]), "wasm": (of_wasm, ["node"]),
}


def programs(bound, prefix, room):
    """The programs of the callers that are there and whose tools are: the language of each, the words that run it, and what is
    wrong with its build."""
    for language, (build, tools) in BUILDS.items():
        lacks = list(filter(None, map(lack, tools)))
        if not (bound / language).is_dir():
            continue
        if lacks:
            print(f"callers/{language} is not tried: {lacks[0]}", file=sys.stderr)
            continue
        try:
            yield language, build(bound, prefix, room), ""
        except Wrong as wrong:
            yield language, [], f"callers/{language} is not built: {wrong}"
