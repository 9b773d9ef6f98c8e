"""The ways out of a function, by the names that their goals have in its proof: `returns-then-not-whole` is the
`return` below `if !whole(..)`, `returns-in-TooLate` the arm of that variant, `returns-in_err-v` the `?` that leaves
`v` without a content, `returns-in_default` what stands behind the `else` of a `let`, and `returns` what the function
ends with.
"""

import re
from collections.abc import Iterator

from statements.equations import outside
from statements.sources import CLAUSE, HEAD, closing_of

PLACE = re.compile(r"\breturn\b|=>|(?<=[\w)])\?(?=[\s;,.)])")
# An arm that is a block or has arms itself, or that only leaves a loop, is no way out.
NO_WAY = re.compile(r"\s*(?:\{|match\b|break\b|continue\b)")
RETURN = re.compile(r"\s*return\b")
TEST = re.compile(r"\bif (.+)", re.DOTALL)
TAKEN = re.compile(r"\bif let (.+) = ", re.DOTALL)
OTHERWISE = re.compile(r"\blet .+ = (.+) else", re.DOTALL)
# What a `let` names, which ends where its value begins.
NAMED = re.compile(r"\blet ([^;{}=]+) =\s*$")
VARIABLE = re.compile(r"\b(?!mut\b)[a-z]\w*")
CALLED = re.compile(r"(\w+)\(")
# Where a `return` or an arm ends.
END = re.compile("[;,]")
# A loop that nothing leaves but a `return`.
ENDLESS = re.compile(r"loop\b(?!.*\bbreak\b)", re.DOTALL)
LENT = re.compile(r"(\w+): &")
COMPARED = re.compile(r" (==|!=|<=|>=|<|>) ")
OPERATORS = {"==": "eq", "!=": "ne", "<=": "le", ">=": "ge", "<": "lt", ">": "gt"}
CAST = re.compile(r" as \w+")
BYTE = re.compile(r"b'(.)'")
NAME = re.compile(r"(?<![\w.])(?:\w+::)*([A-Za-z_]\w*)")
LITERAL = re.compile(r"[\d_]+")
CONSTANT = re.compile(r"(?:\w+::)*([A-Z][A-Z\d_]*)")


def ways_out(function: str) -> dict[str, str]:
    """What a function gives at each way out, in the order of the code; at a `?` that is what it asks."""
    if not function:
        return {}
    head, body = cut_at_body(function)
    lent = set(LENT.findall(head))
    ways: dict[str, str] = {}
    for place in PLACE.finditer(body):
        before, after = body[:place.start()].rstrip(), body[place.end():]
        if place[0] == "?":
            ways[counted(f"returns-in_err-{asked_for(before)}", ways)] = asked(before)
        elif not before.endswith("=>") and is_way(place[0], before, after):
            end = END.search(outside(after) + ";").start()
            ways[counted(branch(before, place[0], ways, lent), ways)] = with_its_value(after[:end], before)
    end = end_of(body)
    return ways if end.startswith("match ") or ENDLESS.match(end) else ways | {"returns": end}


def cut_at_body(function: str) -> tuple[str, str]:
    """A function's head with its contract, and what stands between its braces."""
    at = HEAD.match(function).end()
    while clause := CLAUSE.search(function, at, function.index("{", at)):
        at = closing_of(function, clause.end()) + 1
    at = function.index("{", at)
    return function[:at], function[at + 1:closing_of(function, at)]


def end_of(body: str) -> str:
    """What a body ends with, behind its last statement."""
    text = body.rstrip()
    ends = [found.end() for found in re.finditer(r";|\}(?! else\b)", outside(text)) if found.end() < len(text)]
    return text[max(ends, default=0):].strip()


def is_way(sign: str, before: str, after: str) -> bool:
    """Whether a `return` or an arm is a way out; an arm that gives a `let` its value is none."""
    if NO_WAY.match(after):
        return False
    return sign == "return" or bool(RETURN.match(after)) or "let " not in statement(before[:opening_of(before)])


def asked(before: str) -> str:
    """What a `?` behind it asks: a call, or several one behind the other."""
    depth = 0
    for place in range(len(before) - 1, -1, -1):
        depth += (before[place] in ")]}") - (before[place] in "([{")
        if depth < 0 or depth == 0 and not re.match(r"[\w.:?([{]|\s+\.", before[place:]):
            return before[place + 1:]
    return before


def asked_for(before: str) -> str:
    """The name of a `?`: what a `let` names first with the content, or else the call that it asks."""
    call = asked(before)
    named = NAMED.search(before.removesuffix(call))
    variables = VARIABLE.findall(named[1]) if named else []
    return [*variables, *reversed(CALLED.findall(outside(call))), call][0]


def with_its_value(given: str, before: str) -> str:
    """What is given at a place, where it hands on what was taken apart there: with the call that was read by in place
    of the variable."""
    if not (variable := taken_apart(before)) or not re.search(rf"\b{variable}\b", given):
        return given
    values = re.findall(rf"\blet {variable} = ([^;{{}}]+);", before)
    return re.sub(rf"\b{variable}\b", lambda _: values[-1], given) if values else given


def taken_apart(before: str) -> str:
    """The variable that the `let` behind whose `else` a place stands takes apart."""
    at = opening_of(before)
    otherwise = OTHERWISE.search(statement(before[:at])) if at >= 0 else None
    return otherwise[1] if otherwise and re.fullmatch(r"\w+", otherwise[1]) else ""


def counted(name: str, ways: dict[str, str]) -> str:
    """The name with a count where an earlier way out has it."""
    names = [name, *(f"{name}-{n}" for n in range(2, len(ways) + 2))]
    return next(each for each in names if each not in ways)


def branch(before: str, sign: str, ways: dict[str, str], lent: set[str]) -> str:
    """The name of a way out by the innermost branch of the code that it stands in, which begins ahead of it."""
    if sign == "=>":
        return f"returns-in{variant(before)}"
    while (at := opening_of(before)) >= 0:
        before = before[:at].rstrip()
        head = statement(before)
        if head.endswith("=>"):
            return f"returns-in{variant(before.removesuffix('=>'))}"
        if otherwise := OTHERWISE.search(head):
            name = "returns-in_default"
            return "-".join([name, *roots(otherwise[1])]) if name in ways else name
        if taken := TAKEN.search(head):
            return f"returns-in{variant(taken[1])}"
        if test := TEST.search(head):
            return f"returns-then-{spelled(test[1].strip(), lent)}"
    return "returns"


def statement(before: str) -> str:
    """What stands ahead of a place since the last statement or block."""
    return before[max(before.rfind(sign) for sign in ";{}") + 1:]


def variant(before: str) -> str:
    """The variant that an arm is of, whose pattern ends here."""
    arms = before[opening_of(before) + 1:]
    pattern = arms[max(outside(arms).rfind(sign) for sign in ",}") + 1:]
    name = re.match(r"\s*(?:\w+::)*(\w+)", pattern)[1]
    return "_default" if name == "_" else f"-{name}"


def spelled(condition: str, lent: set[str]) -> str:
    """A condition as names of goals spell it: by its first two names, and what those are compared with if that is no
    name; where what a function is lent is compared, that is a call.
    """
    if condition.startswith("!"):
        return f"not-{spelled(condition[1:], lent)}"
    if re.fullmatch(r"\( *\)", outside(condition)):
        return spelled(condition[1:-1], lent)
    text = BYTE.sub(lambda byte: str(ord(byte[1])), condition)
    compared = COMPARED.search(outside(text))
    if compared and lent & {text[:compared.start()], text[compared.end():]}:
        return OPERATORS[compared[1]]
    if compared and LITERAL.fullmatch(text, compared.end()):
        with_what = [OPERATORS[compared[1]] + text[compared.end():]]
    elif compared and (constant := CONSTANT.fullmatch(text, compared.end())):
        with_what = [OPERATORS[compared[1]], constant[1]]
    else:
        with_what = []
    return "-".join([*list(dict.fromkeys(roots(text)))[:2], *with_what])


def roots(expression: str) -> Iterator[str]:
    """The variables and the functions that an expression begins its parts with; no constants, and no arguments."""
    text = CAST.sub("", expression)
    at = 0
    while found := NAME.search(text, at):
        at = found.end()
        if not CONSTANT.fullmatch(found[1]):
            yield found[1]
        if text[at:at + 1] == "(":
            at = closing_of(text, at)


def opening_of(text: str) -> int:
    """Where the innermost brace opens that the text does not close; -1 where there is none."""
    depth = 0
    for place in range(len(text) - 1, -1, -1):
        depth += (text[place] == "}") - (text[place] == "{")
        if depth < 0:
            return place
    return -1
