"""The extension of callers/python, as pip builds it, but with no package of Python that does so."""
import pathlib
import shutil
import sysconfig

NAME = "_native.abi3.so"
WORDS = ("-std=c11", "-O2", "-shared", "-fPIC", "-fvisibility=hidden", "-s")


def lacks():
    """Why none can be built, or an empty text."""
    return "" if pathlib.Path(sysconfig.get_path("include"), "Python.h").is_file() else "there is no Python.h"


def headers(room):
    """A folder with the headers of Python, where pyconfig.h is not that of a processor: what it says is the same on all that are meant."""
    made = room / "include"
    shutil.copytree(sysconfig.get_path("include"), made)
    configs = [pathlib.Path(sysconfig.get_config_h_filename()), *pathlib.Path("/usr/include").glob(f"*-linux-gnu/{room.name}/pyconfig.h")]
    found = [it for it in configs if it.is_file()]
    shutil.copy(found[0], made / "pyconfig.h")
    return made


def words_of(package, libraries, header, made, cc="cc", include=None):
    """The command that builds it of the folder of a package, over these archives and the folder of their header."""
    sources = sorted(it.name for it in (package / "native").glob("*.c"))
    folders = ("-I", include or sysconfig.get_path("include"), "-I", header)
    return [cc, *WORDS, *folders, *sources, *libraries, "-o", made], package / "native"
