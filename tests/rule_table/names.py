"""The names that a row of the page can have: rules, functions, cases and wrong edits."""

from dataclasses import dataclass
from pathlib import Path

from comparison.cases import Case, read_cases

from .functions import Functions
from .specs import Specs

CASES = Path("tests/cases.txt")


@dataclass(frozen=True)
class Names:
    """What stands below a folder: the cases by what the page calls them, the edits without their crates."""

    specs: Specs
    functions: Functions
    cases: dict[str, Case]
    edits: frozenset[str]


def read_names(root: Path) -> Names:
    cases = {told(case): case for case in read_cases(root / CASES)}
    edits = frozenset(edit.stem for edit in root.glob("crates/*/must-fail/*.edit"))
    return Names(Specs(root), Functions(root), cases, edits)


def told(case: Case) -> str:
    """What the page calls a case: call, base and changes, but neither `dtlist` nor case M's `file`."""
    call = "" if case.call == "dtlist" else case.call
    base = "" if case.base == "file" else case.base
    return ", ".join(filter(None, (call, base, case.changes)))
