"""What the scripts of `tests/` share. They read the modules of `tools/` too, and leave no compiled files beside them."""
import pathlib
import sys

sys.dont_write_bytecode = True
sys.path.append(str(pathlib.Path(__file__).resolve().parent.parent.parent / "tools"))
