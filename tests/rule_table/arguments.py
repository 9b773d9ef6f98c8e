"""What a function is passed: the arguments of a call, by the names of the parameters."""

import re

from statements.equations import outside
from statements.sources import closing_of

NAMED = re.compile(r"\s*(?:mut )?(\w+):")
CLOSURE = re.compile(r"\|\w+\|\s*(.+)", re.DOTALL)
CALL = re.compile(r"((?:\w+::)*\w+)\([^()]*\)")


def passed(called: str, name: str, caller: str) -> dict[str, str]:
    """What a caller's text passes to a function of this text, the first time that it calls it by this name."""
    call = re.search(rf"(?<![\w.]){re.escape(name)}\(", caller)
    if not call:
        return {}
    arguments = inside(caller, call.end() - 1)
    return dict(zip(parameters(called), arguments))


def parameters(function: str) -> list[str]:
    """The names of a function's parameters; what stands ahead of them in angle brackets may have parentheses too."""
    head = function.replace("->", "  ")
    at = re.search(r"\bfn +\w+", head).end()
    depth = 0
    while depth > 0 or head[at] != "(":
        depth += (head[at] == "<") - (head[at] == ">")
        at += 1
    found = (NAMED.match(part) for part in inside(head, at))
    return [name[1] for name in found if name]


def test_of(argument: str, caller: str) -> str:
    """The test that a caller passes as this argument, a local being what its `let` names: a function; of a closure the
    function that it calls, or else all that it says.
    """
    named = re.findall(rf"\blet {re.escape(argument)} = ([^;{{}}]+);", caller)
    test = named[-1] if named else argument
    if not (closure := CLOSURE.fullmatch(test)):
        return test
    call = CALL.fullmatch(closure[1])
    return call[1] if call else " ".join(closure[1].split())


def inside(text: str, at: int) -> list[str]:
    """What stands between the commas in the parentheses that open at this place."""
    listed = text[at + 1:closing_of(text, at)]
    commas = [place for place, sign in enumerate(outside(listed)) if sign == ","]
    return [listed[start + 1:end] for start, end in zip([-1, *commas], [*commas, len(listed)])]
