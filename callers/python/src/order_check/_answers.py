"""What is answered to a body that is not valid."""
from __future__ import annotations

import dataclasses
import enum
from collections.abc import Mapping, Sequence
from typing import NamedTuple, Union

Body = Union[bytes, bytearray, memoryview]
"""The bytes of a body. `bytes` are read where they lie. Of others a copy is made, since another thread could change them."""


@dataclasses.dataclass(frozen=True)
class Fault:
    """A fault of a body: where it is, and what is wrong there."""

    __slots__ = ("pointer", "detail", "code", "params")
    pointer: str
    """The JSON Pointer (RFC 6901) of the value with the fault; of a member that is missing, where it would be."""
    detail: str
    """A sentence in the language that was asked for."""
    code: str
    """The kind of the fault, the same in each language."""
    params: Mapping[str, str]
    """What the sentence says of the rule, by name, as `{"min": "1"}`."""

    def __reduce__(self) -> tuple[type, tuple[object, ...]]:
        return Fault, (self.pointer, self.detail, self.code, self.params)


class Place(NamedTuple):
    """Where a fault is: of an unknown or a repeated member its name, and else its value. A byte order mark is not counted."""

    line: int
    """The line, from 1 on."""
    column: int
    """The column, in characters from 1 on."""


class Faults(list[Fault]):
    """The faults of a body. The list of a valid one is empty."""

    more: bool = False
    """Whether the body has more faults than were asked for."""
    places: Sequence[Place] = ()
    """The place of each fault, where places were asked for."""


class Status(enum.IntEnum):
    """How a body is not valid. The numbers are those of the C library."""

    FAULTS = 1
    NO_JSON = 2


# By their numbers, since a call of `Status` takes some time.
STATUSES = {int(it): it for it in Status}


@dataclasses.dataclass(frozen=True)
class Problem:
    """What is wrong with a body, for a service that hands it on."""

    __slots__ = ("status", "details")
    status: Status
    """Whether the body has faults, or is no JSON text."""
    details: bytes
    """Problem details (RFC 9457): JSON of the media type `application/problem+json`, with a member for each fault in `errors`."""

    @property
    def http_status(self) -> int:
        """The status of an HTTP response with the details, which is their member `status`: 422, or 400 of no JSON text."""
        return 422 if self.status is Status.FAULTS else 400

    def __reduce__(self) -> tuple[type, tuple[object, ...]]:
        return Problem, (self.status, self.details)


class Invalid(ValueError):
    """A body has faults. The message has a line for each."""

    http_status = 422

    def __init__(self, faults: Faults, details: bytes) -> None:
        super().__init__(faults, details)
        self.faults = faults
        self.details = details
        """Problem details (RFC 9457) of the faults."""

    def __str__(self) -> str:
        return "\n".join(f"{it.pointer}: {it.detail}" for it in self.faults)


class NotJson(ValueError):
    """The bytes are no JSON text. The message has the reason, with line and column."""

    http_status = 400

    def __init__(self, message: str, details: bytes) -> None:
        super().__init__(message, details)
        self.details = details
        """Problem details (RFC 9457) that say so."""

    def __str__(self) -> str:
        return str(self.args[0])


def problem_of(status: int, details: bytes) -> Problem:
    return Problem(STATUSES[status], details)
