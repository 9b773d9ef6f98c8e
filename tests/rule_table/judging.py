"""What is wrong with the table of rules of a folder."""

from pathlib import Path

from .heads import faults_of_head
from .links import REFUSALS, faults_of_links, linked
from .names import Names, read_names
from .page import PAGE, Section, read_page
from .rows import faults_of_field_row, faults_of_number_row
from .tree import TREE, Field, Tree


def judge(root: Path) -> dict[str, list[str]]:
    """The faults of each demand of the tree, of each section and row of the page, and of the links to it."""
    names = read_names(root)
    tree, page, links = Tree(names.specs), read_page(root), linked(root)
    judged = {f"{PAGE}: headings": faults_of_headings(tree, page, list(links))}
    for field in tree.fields.values():
        judged |= judge_demands(field, page)
    for section in page:
        judged |= judge_section(section, tree.fields.get(section.name), names)
    given = {row.number for section in page for row in section.rows}
    for number in sorted(given | links.keys()):
        judged[f"{REFUSALS}: {number}"] = faults_of_links(number, links.get(number), page)
    return judged


def faults_of_headings(tree: Tree, page: list[Section], numbers: list[int]) -> list[str]:
    """The headings are the names of the tree, then of all numbers those that no field gives."""
    given = {demand.number for field in tree.fields.values() for demand in field.demands}
    wanted = tree.names + [str(number) for number in numbers if number not in given]
    found = [section.name for section in page]
    faults = [f"there is no heading {name}" for name in wanted if name not in found]
    faults += [f"{name} is neither a field nor such a number" for name in found if name not in wanted]
    if not faults and found != wanted:
        faults.append("they are not in the order of the tree, each once")
    return faults


def judge_demands(field: Field, page: list[Section]) -> dict[str, list[str]]:
    """Each demand has one row in the field's section, behind those of the demands before it."""
    numbers = [row.number for section in page if section.name == field.name for row in section.rows]
    judged, behind = {}, 0
    for demand, turn in field.turns:
        places = [place for place, number in enumerate(numbers, start=1) if number == demand.number]
        faults = []
        if turn >= len(places):
            faults.append(f"{PAGE} has no row for it")
        elif len(places) > sum(other.number == demand.number for other in field.demands):
            faults.append(f"{PAGE} has a row too many with its number")
        elif places[turn] < behind:
            faults.append(f"its row in {PAGE} stands too early")
        behind = max([behind, *places[turn:turn + 1]])
        judged[f"{TREE}: {field.name} with {demand.number}, {demand.text}"] = faults
    return judged


def judge_section(section: Section, field: Field | None, names: Names) -> dict[str, list[str]]:
    """The head of a section, and each of its rows."""
    judged = {f"{PAGE}: {section.title}": faults_of_head(section, field, names.functions)}
    met: list[int] = []
    for block in section.blocks:
        for row in block.rows:
            if field:
                faults = faults_of_field_row(row, block, field, met.count(row.number), names)
            else:
                faults = faults_of_number_row(row, block, section.title, names)
            judged[f"{PAGE}:{row.line}"] = faults
            met.append(row.number)
    return judged
