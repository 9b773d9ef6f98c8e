"""What is wrong with the public functions of a folder of crates."""

from pathlib import Path

from .calls import is_called
from .equations import given_slices, result_is_given
from .sources import Function, public_functions, read_sources
from .tables import DOCUMENT, Tables, read_tables


def judge(root: Path) -> dict[str, list[str]]:
    """The faults of each public function, and of each row of the tables that names none."""
    sources = read_sources(root)
    tables = read_tables(root)
    judged = {}
    for function in (function for source in sources for function in public_functions(source)):
        faults = faults_of_contract(function) + faults_of_statement(function, tables, root)
        if function.path not in tables.entry_points and not is_called(function, sources):
            faults.append(f"no other crate calls it, and it is no entry point of {DOCUMENT}")
        judged[function.path] = faults
    for path in sorted((tables.entry_points | tables.laws.keys()) - judged.keys()):
        judged[path] = [f"{DOCUMENT} names it, but it is no public function"]
    return judged


def faults_of_contract(function: Function) -> list[str]:
    """A `requires`, no `ensures`, something lent of which no equation says what it holds afterwards."""
    faults = []
    if function.requires:
        faults.append("it has a requires")
    if not function.ensures:
        faults.append("it has no ensures")
    if function.reads:
        return faults
    return faults + [f"no equation gives what {name} holds afterwards" for name in left_out(function)]


def faults_of_statement(function: Function, tables: Tables, root: Path) -> list[str]:
    """A result that neither an equation gives nor a law that stands in its file. A function that reads from any reader
    has a law also of what it is lent: the library says nothing of a buffer behind the bytes that were read."""
    law = tables.laws.get(function.path)
    given = not function.has_result or result_is_given(function.ensures)
    if given and not (function.reads and left_out(function)):
        return [f"{DOCUMENT} has a law for it, but it needs none"] if law else []
    if law is None:
        return [f"no equation gives its result, and {DOCUMENT} has no law for it"]
    return [] if law.stands(root) else [f"the law {law.name} does not stand in {law.file}"]


def left_out(function: Function) -> list[str]:
    """What is lent and no equation gives."""
    return [name for name in function.lent if name not in given_slices(function.ensures)]
