"""The compiler's quick pass: what it says of a crate over the sources of the libraries below, with nothing built or proved."""
import functools
import pathlib
import subprocess
import tempfile
import time

from lib import repository


@functools.cache
def kit():
    """The folder of the toolchain."""
    said = subprocess.run(["rt", "doc"], check=True, capture_output=True, text=True).stdout
    return pathlib.Path(said.strip()).parent


def words_of(crate, root, verb):
    """The words of a command of the prover on a crate, with the toolchain's libraries and its logic."""
    main = "src/main.rt" if (repository.folder(root) / crate / "src/main.rt").is_file() else "src/lib.rt"
    words = [f"{kit()}/bin/rattle", verb, "--crate-name", crate, main, "-L", f"dependency={kit()}/rlibs", "--links", f"{crate}="]
    return [*words, "--antt-project", f"{kit()}/rattle/logic/antt-project.json", "--logic-built", f"{kit()}/logic_built"]


def quick_words(crate, root):
    """The words of the quick pass."""
    libraries, below = repository.libraries(root), repository.below(crate, root)
    words = [*words_of(crate, root, "check"), "--jobs", "1", "--only", ""]
    uses = {it: [*dict.fromkeys(["core", "std", *libraries[it]])] for it in [*below, crate]}
    for it in dict.fromkeys(name for names in uses.values() for name in names if name not in libraries):
        words += ["--extern", f"{it}={kit()}/rlibs/{it}.rlib"]
    for it in below:
        words += ["--lib", f"{it}:{','.join(uses[it])}={repository.folder(root) / it}/src/lib.rt"]
    return words


def quick(folder, root):
    """The lines that the quick pass prints of a crate. It is ended once the crate has compiled, before it reads the logic, which takes
    longer; then there are none."""
    with tempfile.TemporaryDirectory(prefix="why-") as room:
        stages, printed = pathlib.Path(room, "stages"), pathlib.Path(room, "printed")
        with printed.open("w") as out:
            words = [*quick_words(folder.name, root), "--stage-times", stages]
            ran = subprocess.Popen(words, cwd=folder, stdin=subprocess.DEVNULL, stdout=out, stderr=subprocess.STDOUT)
            try:
                while (ended := ran.poll()) is None and not (stages.is_file() and "stage tree " in stages.read_text()):
                    time.sleep(0.05)
            finally:
                ran.kill()
                ran.wait()
        killed = [f"error: the compiler was ended by the signal {-ended}"] if ended is not None and ended < 0 else []
        lines = [*printed.read_text(errors="replace").splitlines(), *killed]
        return [] if lines and lines[-1].startswith("only=") else lines
