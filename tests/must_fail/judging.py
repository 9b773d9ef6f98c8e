"""What is wrong with the must-fail edits of a folder of crates, by what was said when they were tried."""

import re
from dataclasses import dataclass
from pathlib import Path

from statements.sources import HEAD, OWNER

# What a comment names: the fact, and where it is.
FAILS = re.compile(r"Fails: `([^`]+)`(?: of `([^`]+)`)?")
# How an edit is told whose first error is about a fact; what is told of it may be cut off.
REFUSED = re.compile(r"^rt: must-fail (\S+): refused, as it must be: (.*)", re.MULTILINE)
ERROR = re.compile(r"(?:\./)?(\S+):\d+:\d+: error: `([^`]+)`")
OPEN_GOAL = re.compile(r"note: (\S+):(\d+):\d+: .*?\(`([^`]+)`\)")
OF_FUNCTION = ("Answers.antt", "Invariants.antt", "Proof.antt")


@dataclass(frozen=True)
class Fact:
    """A fact that is not proved, and the function, with its modules, or the file of lemmas that it is of."""

    name: str
    place: str


def judge(root: Path, said: str) -> dict[str, list[str]]:
    """The faults of each edit; what is said last of an edit counts."""
    refused = dict(REFUSED.findall(said))
    judged = {}
    for edit in sorted(root.glob("crates/*/must-fail/*.edit")):
        crate = edit.parts[-3]
        name = f"{crate}/{edit.name}"
        judged[name] = faults(edit.read_text(), refused.get(name), root / "crates" / crate)
    return judged


def faults(edit: str, refusal: str | None, crate: Path) -> list[str]:
    """What is wrong with an edit, of which this was said as it was refused."""
    named = FAILS.search(edit)
    if not named:
        return ["it names no fact"]
    if refusal is None:
        return ["it is not told that it is refused for a fact"]
    found = first_error(refusal, crate)
    if not found or found.name != named[1]:
        return [f"it names {named[1]}, and the first error is {found.name if found else refusal}"]
    if named[2] and not f"::{found.place}".endswith(f"::{named[2]}"):
        return [f"it names {named[1]} of {named[2]}, and the first error is of {found.place}"]
    return []


def first_error(refusal: str, crate: Path) -> Fact | None:
    """The fact that the first error is about, in a proof that is written, or a goal that Rattle left open."""
    if error := ERROR.match(refusal):
        *folders, file = Path(error[1]).parts[1:]
        return Fact(error[2], "::".join(folders) if file in OF_FUNCTION else Path(file).stem)
    if goal := OPEN_GOAL.match(refusal):
        return Fact(goal[3], function_at(crate / goal[1], int(goal[2])))
    return None


def function_at(source: Path, line: int) -> str:
    """The function that a line of a source stands in, or an attribute there is of; an edit leaves the lines as they are."""
    lines = source.read_text().splitlines(keepends=True)
    while lines[line - 1].lstrip().startswith("#["):
        line += 1
    text = "".join(lines[:line])
    head = [*HEAD.finditer(text)][-1]
    return f"{OWNER.findall(text[:head.start()])[-1]}::{head[4]}" if head[1] else head[4]
