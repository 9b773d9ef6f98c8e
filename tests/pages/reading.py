"""The README's reading list: which files, in which order, how many lines each."""

import re
from pathlib import Path

HEADING = "Reading list"
ROW = re.compile(r"^\| *(\d+) *\| *`([^`]+)` *\| *(\d+) *\|", re.MULTILINE)


def miscounted(readme: Path, root: Path) -> list[str]:
    """What the list gets wrong: a number out of turn, a file that is not there, a number of lines."""
    rows = reading_list(readme)
    if not rows:
        return [f"there is no list below the heading '{HEADING}'"]
    faults = [f"row {n} stands at {turn}" for turn, (n, _, _) in enumerate(rows, start=1) if n != turn]
    for _, path, told in rows:
        file = root / path
        lines = len(file.read_text().splitlines()) if file.is_file() else None
        if lines != told:
            faults.append(f"{path} has {lines} lines, not {told}" if file.is_file() else f"{path} is not there")
    return faults


def reading_list(readme: Path) -> list[tuple[int, str, int]]:
    """The rows below the heading: number, file, lines."""
    section = re.search(rf"^#+ {HEADING}\n(.*?)(?=^#|\Z)", readme.read_text(), re.MULTILINE | re.DOTALL)
    rows = ROW.findall(section[1]) if section else []
    return [(int(turn), path, int(lines)) for turn, path, lines in rows]
