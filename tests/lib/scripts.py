"""How a script of tests/ is asked for a part, and how it ends."""
import argparse
import itertools


def arguments(description, parts):
    """A parser of words: the names of some of these parts, and `--first`."""
    words = argparse.ArgumentParser(description=description, formatter_class=argparse.RawDescriptionHelpFormatter)
    words.add_argument("--first", action="store_true", help="ends at the first fault")
    words.add_argument("names", metavar="PART", nargs="*", choices=[[], *parts])
    return words


def ends(name, faults, first=False, said="nothing found"):
    """Prints the faults, a line each, or that there is none. The exit status of the script."""
    found = list(itertools.islice(faults, 1 if first else None))
    print("\n".join(found) if found else f"{name}: {said}")
    return 1 if found else 0


def unlike(begins, rows):
    """Of rows with what it is, what was met and what is wanted, a line for each that differs, which begins so."""
    for what, met, wanted in rows:
        if met != wanted:
            yield f"{begins}{what}: {str(met)[:2000]}, and not {str(wanted)[:2000]}"
