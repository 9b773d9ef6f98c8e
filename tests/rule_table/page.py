"""The page docs/RULES.md: a section for each field, and one for each number that no field gives."""

import re
from dataclasses import dataclass
from pathlib import Path

PAGE = Path("docs/RULES.md")
SECTION = re.compile(r"^### (.+)\n((?:(?!#).*\n)*)", re.MULTILINE)
PARAGRAPH = re.compile(r"(?:.+\n)+")
HEAD = re.compile(r"\s*`(.+)`,(?: (\d+) bytes?)? at (\d+)\b")
CALLED = r", called (?:through `([\w:]+)` )?in (`[\w:]+`(?: and `[\w:]+`)*)"
TESTED = re.compile(rf"Tested by `([\w:]+)`(?: with `([^`]+)`)?(?:{CALLED})?\.")
ROW = re.compile(r"\| (\d+) \| [^|]+ \| `([^|]+)` \| `([^|]+)` \| ((?:claim )?`[^|]+`) \| `([^|]+)` \|")
ABOVE_ROWS = re.compile(r"\| no\. \|.*|[|-]+")


@dataclass(frozen=True)
class Row:
    """A row of a table: its line on the page, the number, and the names of rule, fact, case and edit."""

    line: int
    number: int
    rule: str
    fact: str
    case: str
    edit: str


@dataclass(frozen=True)
class Block:
    """A function that tests, the test that it is passed, the one that it is called through, those that call it, and the
    rows below.

    The strays are the lines of the table that have not the form of a row.
    """

    tested: str
    test: str
    through: str
    callers: tuple[str, ...]
    rows: list[Row]
    strays: list[int]

    @property
    def calling(self) -> tuple[str, ...]:
        """Those that call the function that tests by themselves."""
        return (self.through,) if self.through else self.callers


@dataclass(frozen=True)
class Section:
    """What stands below a heading; of a field also its line in the tree, its bytes and its place, as told."""

    title: str
    quoted: str
    width: int | None
    place: int | None
    blocks: list[Block]

    @property
    def name(self) -> str:
        """The field's name in the tree, where several words are one in small letters, or the number."""
        return self.title.replace(" ", "_").lower() if " " in self.title else self.title

    @property
    def anchor(self) -> str:
        return self.title.replace(" ", "-").lower()

    @property
    def rows(self) -> list[Row]:
        return [row for block in self.blocks for row in block.rows]


def read_page(root: Path) -> list[Section]:
    text = (root / PAGE).read_text()
    sections = SECTION.finditer(text)
    return [read_section(section[1], section[2], line_at(text, section.start(2))) for section in sections]


def read_section(title: str, text: str, line: int) -> Section:
    """The section whose text begins in this line of the page."""
    blocks = []
    for paragraph in PARAGRAPH.finditer(text):
        if paragraph[0].startswith("|"):
            blocks = blocks or [Block("", "", "", (), [], [])]
            read_rows(paragraph[0], line + line_at(text, paragraph.start()) - 1, blocks[-1])
        elif tested := TESTED.search(" ".join(paragraph[0].split())):
            callers = re.findall(r"`([^`]+)`", tested[4] or "")
            blocks.append(Block(tested[1], tested[2] or "", tested[3] or "", tuple(callers), [], []))
    head = HEAD.match(text)
    quoted, width, place = head.groups() if head else ("", None, None)
    return Section(title, quoted, number(width), number(place), blocks)


def read_rows(table: str, line: int, block: Block) -> None:
    """Adds the rows of a table that begins in this line to the block above it."""
    for place, text in enumerate(table.splitlines(), start=line):
        if row := ROW.fullmatch(text):
            rule, fact, case, edit = (cell.replace("`", "") for cell in row.groups()[1:])
            block.rows.append(Row(place, int(row[1]), rule, fact, case, edit))
        elif not ABOVE_ROWS.fullmatch(text):
            block.strays.append(place)


def line_at(text: str, place: int) -> int:
    """The line in which a place stands, counted from 1."""
    return text.count("\n", 0, place) + 1


def number(digits: str | None) -> int | None:
    return int(digits) if digits else None
