"""The libraries that were proved in this clone: a copy of the same files takes them, and its first check does not prove them again."""
import contextlib
import fcntl
import functools
import importlib.util
import io
import os
import pathlib
import shutil
import subprocess

PART = ".vendored-rlib.part"


def first_check(root, folder, plan, brings):
    """Brings proved libraries along, and says in a line which ones a first check takes and which ones it proves."""
    names = [it.name for it in plan.crates]
    taken, why = brought(root, folder, names) if brings else ([], "--prove leaves out what is proved here")
    left = [it for it in names if it not in taken]
    takes = f"rt check takes {' '.join(taken)}, as proved in {root}"
    if not left:
        return takes
    proves = f"rt check first proves {len(left)} of {len(names)} libraries, but for those that a check elsewhere on this machine has "
    proves += f"proved, and prints a line `crate NAME: ..` as each is done: {' '.join(left)}"
    proves = f"{takes}. {proves}" if taken else proves
    return f"{proves} ({why})" if why else proves


def brought(root, folder, names):
    """The crates, of these, lowest first, that are proved in the folder: there already, or here in `root` of the same files by the
    same toolchain. Those that are proved here are given to it. Where there is none, or more could be given later, says why."""
    rtlib = module_of_rt()
    if rtlib is None:
        return [], "there is no command `rt` that says what was proved"
    told = io.StringIO()
    try:
        with contextlib.redirect_stderr(told):
            here = crates_of(rtlib, root, "crates/", names)
            there = crates_of(rtlib, folder.path.resolve(), folder.prefix, names)
    except SystemExit:
        return [], " ".join(told.getvalue().split())
    taken = [it for it in names if there[it].is_built() or gives(rtlib, here[it], there[it])]
    with contextlib.ExitStack() as held:
        rest = [held.enter_context(at_rest(here[it].folder)) for it in names if it not in taken and here[it].is_built()]
    if not all(rest):
        return taken, f"`rt` is at work in {root}: call this again when it has ended, and what is proved there is taken"
    return taken, "" if taken else f"none of these files is proved in {root}"


def are_proved(root, names):
    """Whether all of these crates are proved in this clone."""
    rtlib = module_of_rt()
    try:
        with contextlib.redirect_stderr(io.StringIO()):
            here = crates_of(rtlib, root, "crates/", names) if rtlib else {}
    except SystemExit:
        return False
    return bool(here) and all(here[it].is_built() for it in names)


def module_of_rt():
    """The module of the command `rt` by which it knows of what files a library was proved."""
    try:
        page = subprocess.run(["rt", "doc"], capture_output=True, text=True, check=True).stdout.strip()
        spec = importlib.util.spec_from_file_location("rtlib", pathlib.Path(page).parent / "bin/rtlib.py")
        module = importlib.util.module_from_spec(spec)
        spec.loader.exec_module(module)
        # It is asked for once for each way that leads to a crate, and reads all its files.
        module.Crate.stamp = functools.cache(module.Crate.stamp)
    except (OSError, subprocess.CalledProcessError, ImportError, AttributeError):
        return None
    return module


def crates_of(rtlib, top, prefix, names):
    """The crates of a repository as `rt` sees them, by their names."""
    known = {}
    for name in names:
        place = f"{top}/{prefix}{name}"
        if place not in known:
            known[place] = rtlib.Crate(place, str(top), known)
    return {it.name: it for it in known.values()}


def gives(rtlib, here, there):
    """Gives a crate the library that was proved here, and says whether it could: the files are the same, and it stands on the same
    libraries as there, byte for byte."""
    if not here.is_built() or here.stamp() != there.stamp():
        return False
    for one, other in zip(here.below(), there.below()):
        if rtlib.sum_of(f"{one.rlib}/format") != rtlib.sum_of(f"{other.rlib}/format"):
            return False
    with at_rest(here.folder) as first, at_rest(there.folder) as second:
        return first and second and linked(pathlib.Path(here.folder, "out"), pathlib.Path(there.folder, "out"))


@contextlib.contextmanager
def at_rest(folder):
    """Keeps `rt` from working in a crate, and gives whether it does not already."""
    held = os.open(folder, os.O_RDONLY)
    try:
        fcntl.flock(held, fcntl.LOCK_EX | fcntl.LOCK_NB)
        yield True
    except BlockingIOError:
        yield False
    finally:
        os.close(held)


def linked(source, out):
    """Gives a library's files a second name, or copies them onto another disk: `rt` never writes into such a file."""
    part = out / PART
    for give in (os.link, shutil.copy2):
        shutil.rmtree(part, ignore_errors=True)
        try:
            shutil.copytree(source / "rlib", part, copy_function=give)
            shutil.rmtree(out / "rlib", ignore_errors=True)
            part.rename(out / "rlib")
            return True
        except (OSError, shutil.Error):
            shutil.rmtree(part, ignore_errors=True)
    return False
