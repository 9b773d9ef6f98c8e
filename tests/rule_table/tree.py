"""The tree of fields, crates/diskette/specs/Fields.antt: its fields, and all that each can be refused for."""

import re
from collections.abc import Iterator
from dataclasses import dataclass
from pathlib import Path

from statements.sources import closing_of

from .specs import Specs, words

TREE = Path("crates/diskette/specs/Fields.antt")
NAMES = re.compile(r"^pub data Name .*\n((?: .*\n)+)", re.MULTILINE)
DEFINED = re.compile(r"^([\w-]+)(?: .*)? =")
FIELD = re.compile(r"\b(must|any|get) (.+)")
# A rule's number is written out, or is that which a definition gives a case.
RULE = re.compile(r"\brule (?:(\d+)|\((\w+) ([\w-]+)\)) (?=\()")

# The record that each form of the tree is of, and where the record begins in case M. The first field of a C
# is also that of E.
RECORD = {"header": "A", "payments": "C", "payment": "C", "parts": "C", "closing_blanks": "C", "end": "E"}
FIRST = "payments"
STARTS = {"A": 0, "C": 128, "E": 384}
# The definitions by which the reader of forms looks at a field, whatever its rules.
WHOLE, BYTES = "if_whole", "judge"


@dataclass(frozen=True)
class Demand:
    """What a field can be refused for: the number, what is demanded, and the definition that demands it."""

    number: int
    text: str
    definition: str


@dataclass(frozen=True)
class Field:
    """A field: its lines in the tree, its bytes, its place in its record and in case M, and its demands."""

    name: str
    lines: tuple[str, ...]
    width: int | None
    place: int
    places_in_case_m: frozenset[int]
    demands: tuple[Demand, ...]

    @property
    def turns(self) -> list[tuple[Demand, int]]:
        """Each demand, and how many with its number go before it."""
        numbers = [demand.number for demand in self.demands]
        return [(demand, numbers[:place].count(demand.number)) for place, demand in enumerate(self.demands)]


@dataclass(frozen=True)
class Line:
    """A line of the tree with a field: the form that it is of, the field's kind, and what lists its rules."""

    text: str
    form: str
    name: str
    kind: list[str]
    rules: str


class Tree:
    """The tree among the definitions."""

    def __init__(self, specs: Specs) -> None:
        self.specs = specs
        self.text = specs.texts[TREE]
        self.names = names_of(self.text)
        self.fields = {field.name: field for field in self.placed_fields()}

    def placed_fields(self) -> Iterator[Field]:
        """The fields in the order of their names; each stands behind the one before it in its record."""
        lines = list(self.lines())
        ahead = dict.fromkeys(STARTS, 0)
        for name in self.names:
            own = [line for line in lines if line.name == name]
            if not own:
                continue
            records = ["C", "E"] if own[0].form == FIRST else [RECORD[own[0].form]]
            place, width = ahead[records[0]], width_of(own[0].kind)
            yield Field(
                name, tuple(line.text for line in own), width, place,
                places_in_case_m=frozenset(STARTS[record] + place for record in records),
                demands=tuple(dict.fromkeys(demand for line in own for demand in self.demands(line))),
            )
            for record in records:
                ahead[record] += width or 0

    def lines(self) -> Iterator[Line]:
        """The lines that have a field."""
        form = ""
        for text in self.text.splitlines():
            if defined := DEFINED.match(text):
                form = defined[1]
            found = FIELD.search(text)
            if not found or form not in RECORD:
                continue
            name, *rest = arguments(found[2])
            kind = ["fixed", *inside(rest[0]).split()] if found[1] == "must" else self.kind(inside(rest[0]))
            rules = inside(rest[1]).split()[0] if found[1] == "get" else ""
            yield Line(text.strip(), form, inside(name).split()[0], kind, rules)

    def kind(self, written: str) -> list[str]:
        """A kind as the tree writes it, or as the tree defines its name."""
        defined = re.search(rf"^{re.escape(written)} = (.+)", self.text, re.MULTILINE)
        return (defined[1] if defined else written).split()

    def demands(self, line: Line) -> Iterator[Demand]:
        """Whole, then the bytes of its kind, each with the one number that it gives; then its rules."""
        (short,) = self.specs.given_here(self.specs.definition(WHOLE))
        yield Demand(short, WHOLE, WHOLE)
        judged = self.specs.equation(BYTES, line.kind[0])
        (wrong,) = self.specs.numbers_given(judged)
        yield Demand(wrong, judged, BYTES)
        yield from self.rules(line.rules)

    def rules(self, function: str) -> Iterator[Demand]:
        """The rules that a function of the tree lists, or another that it calls."""
        _, _, equations = self.specs.definition(function).partition("\n")
        for found in RULE.finditer(equations):
            text = equations[found.end():closing_of(equations, found.end()) + 1]
            yield Demand(int(found[1] or self.specs.case_of(found[2], found[3])), text, function)
        for name in sorted(words(equations) - {function}):
            if re.search(r": .*List Rule$", self.specs.definition(name).split("\n", 1)[0]):
                yield from self.rules(name)


def names_of(text: str) -> list[str]:
    """The names that `data Name` declares, in their order."""
    declared = NAMES.search(text)
    lines = declared[1].splitlines() if declared else []
    return [name for line in lines for name in line.partition(":")[0].split()]


def arguments(text: str) -> list[str]:
    """The arguments of a call: words, or what stands in parentheses."""
    found, at = [], 0
    while at < len(text):
        end = closing_of(text, at) + 1 if text[at] == "(" else (text + " ").index(" ", at)
        found.append(text[at:end])
        at = end + 1
    return found


def inside(argument: str) -> str:
    return argument[1:-1] if argument.startswith("(") else argument


def width_of(kind: list[str]) -> int | None:
    """So many bytes as the kind says, or as are quoted; none where it depends on what was read before."""
    quoted = re.search(r'"(.*)"', " ".join(kind))
    told = [int(word) for word in kind if word.isdigit()]
    return len(quoted[1]) if quoted else told[0] if told else None
