"""What is measured from Python, for `table`: callers/python beside pydantic 2 and jsonschema with the rules of
crates/example_order/src/body.rt.

Of the valid bodies each line is right; of the faulty ones each has two faults, the customer has none of the 1 to 80 characters, and a
member is unknown. An order has at most 50 lines, where pydantic would stop: its model lacks that bound, and the body of 10,000 right
lines has one fault here alone. Both sides begin with the bytes.

All run by turns, some milliseconds each, 5 rounds at least, without the collector of cycles. What takes more than 0.1 s runs in the first
5 rounds alone. The figures are the least of all rounds, in microseconds.
"""
import dataclasses
import gc
import json
import sys
import time
from typing import Annotated

import jsonschema
import pydantic
from pydantic import Field
from typing_extensions import TypedDict

# Where Debian has python3-fastjsonschema, for a Python of another origin.
sys.path.append("/usr/lib/python3/dist-packages")
try:
    import fastjsonschema
except ImportError:
    fastjsonschema = None

TURN, ROUNDS, SLOW = 0.003, 5, 0.1
WITHOUT = {"include_url": False, "include_input": False}
STRICT = pydantic.ConfigDict(extra="forbid", strict=True)


class Line(TypedDict):
    __pydantic_config__ = STRICT
    code: Annotated[str, Field(pattern="^P")]
    count: Annotated[int, Field(ge=1, le=99)]


class Order(TypedDict):
    __pydantic_config__ = STRICT
    customer: Annotated[str, Field(min_length=1, max_length=80)]
    lines: Annotated[list[Line], Field(min_length=1)]


class LineModel(pydantic.BaseModel):
    model_config = STRICT
    code: Annotated[str, Field(pattern="^P")]
    count: Annotated[int, Field(ge=1, le=99)]


class OrderModel(pydantic.BaseModel):
    model_config = STRICT
    customer: Annotated[str, Field(min_length=1, max_length=80)]
    lines: Annotated[list[LineModel], Field(min_length=1)]


@dataclasses.dataclass
class LineClass:
    code: str
    count: int


@dataclasses.dataclass
class OrderClass:
    customer: str
    lines: list[LineClass]


BY_PYDANTIC = pydantic.TypeAdapter(Order).validate_json
SCHEMA = pydantic.TypeAdapter(Order).json_schema()
BY_SCHEMA = jsonschema.Draft202012Validator(SCHEMA)
BY_FAST = fastjsonschema.compile({**SCHEMA, "$schema": "http://json-schema.org/draft-07/schema#"}) if fastjsonschema else None


def body_of(count, is_valid):
    line = {"code": "P1", "count": 1} if is_valid else {"code": "X", "count": "1"}
    order = {"customer": "Ada" if is_valid else "", "lines": [line] * count, **({} if is_valid else {"x": 1})}
    return json.dumps(order, separators=(",", ":")).encode()


def error_of(body):
    """pydantic's error of a faulty body."""
    try:
        BY_PYDANTIC(body)
    except pydantic.ValidationError as error:
        return error
    sys.exit("pydantic finds no fault")


def valid_calls(library, body):
    """The calls that are measured on a body whose lines are right, by the heads of their columns. `load` takes at most 50 lines."""
    is_short = not body or library.is_valid(body)
    return {
        "`is_valid`": lambda: library.is_valid(body),
        **({"`load`": lambda: library.load(body), "`load`, objects": lambda: library.load(body, into=OrderClass)} if is_short else
           {"`check`": lambda: library.check(body)}),
        "pydantic": lambda: BY_PYDANTIC(body),
        "pydantic, objects": lambda: OrderModel.model_validate_json(body),
        "jsonschema": lambda: BY_SCHEMA.is_valid(json.loads(body)),
        **({"fastjsonschema": lambda: BY_FAST(json.loads(body))} if BY_FAST else {}),
    }


def faulty_calls(library, body):
    return {
        "`problem`": lambda: library.problem(body),
        "`check`": lambda: library.check(body),
        "pydantic, `json`": lambda: error_of(body).json(**WITHOUT),
        "pydantic, `errors`": lambda: error_of(body).errors(**WITHOUT),
    }


def timed(call, count):
    start = time.perf_counter()
    for _ in range(count):
        call()
    return (time.perf_counter() - start) / count


def least(calls, seconds):
    """The least time of each call in microseconds."""
    counts = {name: max(1, round(TURN / min(timed(call, 1) for _ in range(3)))) for name, call in calls.items()}
    best, rounds, end = dict.fromkeys(calls, float("inf")), 0, time.monotonic() + seconds
    gc.disable()
    while rounds < ROUNDS or time.monotonic() < end:
        for name, call in calls.items():
            if rounds < ROUNDS or best[name] < SLOW:
                best[name] = min(best[name], timed(call, counts[name]))
        rounds += 1
    gc.enable()
    return {name: it * 1e6 for name, it in best.items()}
