"""What is wrong with the documents of a folder."""

from collections.abc import Iterator
from pathlib import Path

from .links import broken_links, missing_paths
from .reading import miscounted

README = "README.md"
COLUMNS = 120
COLUMNS_OF_README = 100
# Markdown has no way to break a row of a table.
COLUMNS_OF_ROW = 150
BUILT = "target"


def judge(root: Path) -> dict[str, list[str]]:
    """The faults of each document, by what it was looked through for."""
    judged = {}
    for document in documents(root):
        name = str(document.relative_to(root))
        limits = (COLUMNS_OF_README, COLUMNS_OF_README) if name == README else (COLUMNS, COLUMNS_OF_ROW)
        judged[f"{name}: width"] = too_long(document, *limits)
        judged[f"{name}: links"] = broken_links(document)
        judged[f"{name}: paths"] = missing_paths(document, root)
    judged[f"{README}: reading list"] = miscounted(root / README, root)
    return judged


def documents(root: Path) -> Iterator[Path]:
    """Every document but those of a folder that is built."""
    for document in sorted(root.rglob("*.md")):
        if not {BUILT, ".git"} & set(document.relative_to(root).parts):
            yield document


def too_long(document: Path, columns: int, columns_of_row: int) -> list[str]:
    """The lines of more than so many columns, and the rows of tables."""
    lines = enumerate(document.read_text().splitlines(), start=1)
    return [f"line {n} has {len(line)} columns" for n, line in lines
            if len(line) > (columns_of_row if line.startswith("|") else columns)]
