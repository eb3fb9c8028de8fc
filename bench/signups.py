"""Sign-ups of eight members in JSON, one on a line, and what programs that read them take."""
import argparse
import json
import os
import random
import statistics

from runs import answered, by_turns, counted, counts_of_each, written

COUNTED = 1000


def valid(dice):
    number = dice.randrange
    return {
        "username": f"user{number(10**6):06}",
        "display": f"Jane Ďoe {number(100)}",
        "email": f"u{number(10**6)}@example.com",
        "age": number(18, 90),
        "phone": f"+4207{number(10**8):08}",
        "tags": ["red", "green", f"blue{number(9)}"],
        "address": {
            "street": f"Main street {number(99)}", "city": "Praha", "zip": f"{number(10**5):05}",
            "ip": f"10.{number(255)}.{number(255)}.7",
        },
        "settings": {"light": {"value": number(100)}, "volume": {"value": number(100)}},
    }


def with_one_fault(dice):
    return valid(dice) | {"age": 17}


def all_faulty(_dice):
    return {
        "username": "é", "display": "", "email": "é", "age": None, "phone": "1", "tags": ["a b"] * 9,
        "address": {"street": "", "city": "", "zip": "1", "ip": "x"},
        "settings": {"light": {"value": -1}, "volume": {"value": 101}},
    }


KINDS = {"valid": valid, "one fault": with_one_fault, "every member faulty": all_faulty}


def lines_of(kind, count):
    dice = random.Random(7)
    return [json.dumps(KINDS[kind](dice), ensure_ascii=False, separators=(",", ":")) + "\n" for _ in range(count)]


def arguments(doc, program):
    """The words of a script: another program, by this word, how many pairs of runs, and of how many lines."""
    parser = argparse.ArgumentParser(description=doc, formatter_class=argparse.RawDescriptionHelpFormatter)
    parser.add_argument(program, metavar="PROGRAM", type=os.path.abspath)
    parser.add_argument("--pairs", metavar="N", type=int, default=9)
    parser.add_argument("--lines", metavar="N", type=int, default=20000)
    return parser.parse_args()


def turns_of(programs, lines, pairs):
    """The processor seconds and the output of each program on the lines, in each turn."""
    with written(lines) as source:
        return list(by_turns(programs, lambda it: answered([it], source), pairs))


def ratio(turns, at, other):
    """The median ratio of the times of two programs."""
    return statistics.median(turn[at][0] / turn[other][0] for turn in turns)


def counts(program, lines):
    """Instructions and requests for memory of a line."""
    once, twice = (counted([program], "".join(lines[: many * COUNTED]).encode()) for many in (1, 2))
    return counts_of_each(once, twice, COUNTED)
