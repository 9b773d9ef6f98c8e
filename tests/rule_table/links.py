"""The links of docs/REFUSALS.md: from a number to each field that has a row with it, and to no other."""

import re
from pathlib import Path

from .page import PAGE, Section

REFUSALS = Path("docs/REFUSALS.md")
NUMBER = re.compile(r"^## (\d+):.*\n((?:(?!## ).*\n?)*)", re.MULTILINE)
LINK = re.compile(rf"\]\({PAGE.name}(?:#([\w-]+))?\)")


def linked(root: Path) -> dict[int, list[str]]:
    """The sections of the page that each number's section links to; the page itself is ''."""
    sections = NUMBER.findall((root / REFUSALS).read_text())
    return {int(number): LINK.findall(text) for number, text in sections}


def faults_of_links(number: int, links: list[str] | None, page: list[Section]) -> list[str]:
    """What a number's section has too few or too many; a link to the page is one to every field."""
    if links is None:
        return ["it has no section"]
    fields = {section.anchor for section in page if not section.title.isdigit()}
    wanted = {section.anchor for section in page if any(row.number == number for row in section.rows)}
    found = fields if "" in links else set(links)
    missing = [f"no link to {PAGE.name}#{anchor}" for anchor in sorted(wanted - found)]
    return missing + [f"{PAGE.name}#{anchor} has no row with {number}" for anchor in sorted(found - wanted)]
