"""What a contract gives by equations: the result by `result ≡ X`, a lent slice by `out.new ≡ X`."""

import re

RESULT = "result"
# What a slice holds afterwards.
NEW = re.compile(r"(\w+)\.new")
# Signs that make something else of an equation.
OTHER_SIGNS = set("≡×→↔⊎")


def result_is_given(clauses: tuple[str, ...]) -> bool:
    """Whether the result is equal to what speaks neither of it nor of what a slice holds afterwards."""
    return any(left == RESULT and not speaks_of(RESULT, right) and not speaks_of("new", right)
               for left, right in sides_of(clauses))


def given_slices(clauses: tuple[str, ...]) -> set[str]:
    """The slices that hold afterwards what does not speak of that; the result it may speak of."""
    found = [NEW.fullmatch(left) for left, right in sides_of(clauses) if not speaks_of("new", right)]
    return {match[1] for match in found if match}


def sides_of(clauses: tuple[str, ...]) -> list[tuple[str, str]]:
    """The sides of the equations that the clauses are products of."""
    return [sides for clause in clauses for sides in equations(factors(clause))]


def equations(parts: list[str]) -> list[tuple[str, str]]:
    """The parts that are equations, by their sides; none where a part names a value that only exists."""
    if any(":" in outside(part) for part in parts):
        return []
    sides = [part.split(" ≡ ", 1) for part in parts if " ≡ " in outside(part)]
    return [(left, right) for left, right in sides if not OTHER_SIGNS & set(outside(right))]


def factors(statement: str) -> list[str]:
    """The factors of a product, without the parentheses around them."""
    statement = statement.strip()
    if re.fullmatch(r"\( *\)", outside(statement)):
        return factors(statement[1:-1])
    places = [place for place, sign in enumerate(outside(statement)) if sign == "×"]
    if not places:
        return [statement]
    borders = zip([-1, *places], [*places, len(statement)])
    return [factor for start, end in borders for factor in factors(statement[start + 1:end])]


def outside(text: str) -> str:
    """The text with blanks in place of all that stands in brackets."""
    signs, depth = [], 0
    for sign in text:
        depth -= sign in ")]}"
        signs.append(sign if depth == 0 else " ")
        depth += sign in "([{"
    return "".join(signs)


def speaks_of(name: str, text: str) -> bool:
    """Whether the name stands in the text, as a name, as a field or ahead of one."""
    return name in re.split(r"[\s(){}\[\],.]+", text)
