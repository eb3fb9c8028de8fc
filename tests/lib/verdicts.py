"""What a check says of each function, read from the lines that the prover prints.

A wrong body is refused where a goal of its own function is open. That is said by a line of its own, by the line of the function,
or by an error in the answer of that goal: a tactic finds that the goal does not follow, or finds no proof of it. Every other
error of a proof file, as of a type or of a name, says how the file is written, and nothing of the contract. Where a goal's answer
has such an error, the check is asked once more without that answer.
"""
import re

from lib.edits import OPEN

PROVED, NAMED = "NOT REFUSED", "SAYS NOTHING"
GOAL = re.compile(r"note: (?:\./)?src/\S+: it is not proved that")
ERROR = re.compile(r"(?:\./)?(proofs/\S+/)(\w+)\.antt:\d+:\d+: error: (.*)")
FOLLOWS_NOT = re.compile(r"`[\w-]+`: `\w+`:? (?:the goal does not follow|found no proof)")
# the line by which a file of answers names places of its goals
PLACES = re.compile(r"use \S+\.Goals\.\{(.*)\}$")
# an error that names what the edit took away
NAMES = re.compile(r"was not admitted|is not in scope|has no field|has no `|were not checked|\(nearest: ")


def errors_of(lines):
    """The errors in the proof files of each function."""
    found = {}
    for folder, file, text in (error.groups() for error in map(ERROR.match, lines) if error):
        for name in functions_of(folder):
            found.setdefault(name, []).append((file, text))
    return found


def functions_of(folder):
    """The functions whose proof lies in a folder: one, or the members of a cycle of calls, as in `+walk+walk_at`."""
    *module, last = folder.strip("/").split("/")[1:]
    members = last[1:].split("+") if last.startswith("+") else [last]
    return ["::".join([*module, *it.split("-")]) for it in members]


def verdicts(lines):
    """What the check says of each function: proved, refused by a goal of its own, that its proof files have another error, or what
    it waits for."""
    errors, found, goals = errors_of(lines), {}, 0
    for line in lines:
        goals += GOAL.match(line) is not None
        if line.startswith("fn "):
            name, _, said = line[3:].partition(": ")
            found[name] = verdict(said, errors.get(name.partition("::")[2], []), goals)
        if re.match(r"(?:fn|impl|struct|enum|trait) \S+: ", line):
            goals = 0
    return found


def verdict(said, errors, goals):
    """What the line of a function means, by the errors in its proof files and the goals that the check printed before it."""
    if said.startswith("proved"):
        return PROVED
    if goals or "`search` did not prove" in said or any(FOLLOWS_NOT.match(text) for _, text in errors):
        return OPEN
    return NAMED if errors and "it calls" not in said and "it passes" not in said else said


def unfit_answers(function, lines):
    """The goals of a function whose answers have an error that says nothing of the goal."""
    texts = [text for file, text in errors_of(lines).get(function.partition("::")[2], []) if file == "Answers"]
    goals = [re.match(r"`([\w-]+)`: ", text) for text in texts if not NAMES.search(text)]
    return {it.group(1) for it in goals if it}


def without_answers(text, goals):
    """A file of answers without those of some goals, and without the lines by which only these named places of their goals: a place
    that no answer takes apart cannot be named."""
    kept, is_left_out = [], False
    for line in text.split("\n"):
        if word := re.match(r"(?:abbrev )?(?:pub )?([\w-]+)", line):
            is_left_out = word.group(1) in goals
        kept += [] if is_left_out else [line]
    answers = "\n".join(line for line in kept if not line.startswith("use "))
    places = {line: PLACES.match(line)[1].split(", ") for line in kept if PLACES.match(line)}
    return "\n".join(line for line in kept if line not in places or any(it in answers for it in places[line]))
