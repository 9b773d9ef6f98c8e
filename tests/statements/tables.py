"""The tables of docs/PROOFS.md: the laws of statements that are no equation, and the entry points."""

import re
from dataclasses import dataclass
from pathlib import Path

DOCUMENT = Path("docs/PROOFS.md")
NO_EQUATION = "Statements that are no equation"
ENTRY_POINTS = "Entry points"
NAME = re.compile(r"`([^`]+)`")


@dataclass(frozen=True)
class Law:
    """By which a statement admits one answer."""

    name: str
    file: str

    def stands(self, root: Path) -> bool:
        """Whether the file has the law."""
        declared = re.compile(rf"^ *(?:pub )?{re.escape(self.name)} :", re.MULTILINE)
        file = root / self.file
        return file.is_file() and bool(declared.search(file.read_text()))


@dataclass(frozen=True)
class Tables:
    """What the document says of public functions, by their paths."""

    laws: dict[str, Law]
    entry_points: frozenset[str]


def read_tables(root: Path) -> Tables:
    text = (root / DOCUMENT).read_text()
    laws = {}
    for functions, law, file in rows_below(NO_EQUATION, text):
        laws.update({function: Law(law[0], file[0]) for function in functions})
    return Tables(laws, frozenset(name for names, *_ in rows_below(ENTRY_POINTS, text) for name in names))


def rows_below(title: str, text: str) -> list[list[list[str]]]:
    """The rows of the table below a heading, each cell as the names that it quotes."""
    section = re.search(rf"^#+ {title}\n(.*?)(?=^#|\Z)", text, re.MULTILINE | re.DOTALL)
    lines = [line for line in section[1].splitlines() if line.startswith("|")] if section else []
    return [[NAME.findall(cell) for cell in line.strip("|").split("|")] for line in lines[2:]]
