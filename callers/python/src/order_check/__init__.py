"""Checks bodies in JSON by a library in C that was proved, reports every fault, and makes the value that was judged.

`load` returns the value of a valid body, `check` a list of faults, `problem` the bytes of problem details (RFC 9457), and
`is_valid` says yes or no. Any number of threads may call them at the same time. They release the GIL while the library works on a
body of more than 512 bytes.
"""
from __future__ import annotations

# begin: of a schema
import json
# end: of a schema
import types
from typing import Any

# begin: of a schema
from . import _native
# end: of a schema
from ._answers import Body, Fault, Faults, Invalid, NotJson, Place, Problem, Status
from ._native import check, close_room, is_valid, load, new_room, problem
from ._shapes import Valid

__all__ = ["Body", "Checker", "Fault", "Faults", "Invalid", "NotJson", "Place", "Problem", "Status", "Valid", "check", "is_valid", "load", "problem"]
# begin: of a schema
__all__ += ["Validator"]
# end: of a schema


class Checker:
    """Checks bodies in room of its own, which it keeps from one body to the next however large they are.

    The functions of the module keep room too, but free that of a body of more than 1 MiB, or of an answer of more than 4 MiB. A
    checker serves one thread at a time: a call during another one raises `RuntimeError`, as does one of a closed checker.
    Leaving its `with` closes it, and frees its room.
    """

    def __init__(self, body_len: int = 0) -> None:
        """Makes room for bodies of so many bytes. It grows by need, so a checker may begin with none."""
        self._room = new_room(body_len)

    def load(self, body: Body, into: Any = None, *, most: int | None = None, language: str = "", places: bool = False) -> Any:
        """Does what the function `load` does."""
        return load(body, into, most=most, language=language, room=self._room, places=places)

    def check(self, body: Body, *, most: int | None = None, language: str = "", places: bool = False) -> Faults:
        """Does what the function `check` does."""
        return check(body, most=most, language=language, room=self._room, places=places)

    def problem(self, body: Body, *, most: int | None = None, language: str = "") -> Problem | None:
        """Does what the function `problem` does."""
        return problem(body, most=most, language=language, room=self._room)

    def close(self) -> None:
        """Frees the room. A second call does nothing."""
        close_room(self._room)

    def __enter__(self) -> Checker:
        return self

    def __exit__(self, kind: type[BaseException] | None, error: BaseException | None, trace: types.TracebackType | None) -> None:
        self.close()
# begin: of a schema


class Validator(Checker):
    """Checks bodies by a JSON Schema, as a checker does, in room of its own. The functions of the module judge schemas."""

    def __init__(self, schema: Body | dict[str, Any] | bool, body_len: int = 0) -> None:
        """Keeps a copy of a schema, which is the bytes of one or what `json.loads` makes of them.

        Raises `Invalid` where it has faults, with the place of each, and `NotJson` where the bytes are no JSON text.
        """
        text = json.dumps(schema).encode() if isinstance(schema, (dict, bool)) else bytes(memoryview(schema))
        load(text, places=True)
        super().__init__(body_len)
        _native.set_schema(self._room, text)

    def is_valid(self, body: Body) -> bool:
        """Says whether a body meets the schema. Reading ends at the first fault."""
        return _native.is_valid_by(self._room, body)
# end: of a schema
