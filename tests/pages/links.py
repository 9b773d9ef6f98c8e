"""Where the links of a document lead, and whether the paths that it names exist."""

import re
from pathlib import Path

LINK = re.compile(r"\]\(([^)#\s]*)(?:#([^)\s]+))?\)")
ELSEWHERE = ("http:", "https:", "mailto:")
HEADING = re.compile(r"^#+ +(.*?) *$", re.MULTILINE)
FENCED = re.compile(r"^```.*?^```", re.MULTILINE | re.DOTALL)
NAMED_PATH = re.compile(r"`((?:bench|crates|docs|examples|include|samples|tests|tools)/[^`\s]+)`")
ANY_NAME = re.compile(r"\b(?:CRATE|MODULE|FUNCTION|NAME|LABEL)\b")


def broken_links(document: Path) -> list[str]:
    """The links to a file that is not there, or to a heading that the file does not have."""
    return [f"leads nowhere: {path}#{anchor}" if anchor else f"leads nowhere: {path}"
            for path, anchor in LINK.findall(document.read_text())
            if not path.startswith(ELSEWHERE) and not leads_on(document, path, anchor)]


def leads_on(document: Path, path: str, anchor: str) -> bool:
    target = document.parent / path if path else document
    return target.exists() and (not anchor or anchor in anchors(target))


def anchors(document: Path) -> set[str]:
    """The names by which links reach the headings: small letters, digits, hyphens for blanks."""
    headings = HEADING.findall(FENCED.sub("", document.read_text()))
    return {re.sub(r"[^\w\- ]", "", heading.lower()).replace(" ", "-") for heading in headings}


def missing_paths(document: Path, root: Path) -> list[str]:
    """The paths named between backquotes that nothing matches; NAME and its like stand for any name."""
    named = NAMED_PATH.findall(document.read_text())
    return [f"is not there: {path}" for path in dict.fromkeys(named) if not stands(path, root)]


def stands(path: str, root: Path) -> bool:
    file, _, _ = path.partition(":")
    return any(root.glob(ANY_NAME.sub("*", file).rstrip("/")))
