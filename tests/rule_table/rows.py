"""What is wrong with a row of the page: its names have to stand where the page says, and be of its number."""

import re

from .names import CASES, Names
from .page import Block, Row
from .specs import words
from .tree import BYTES, STARTS, WHOLE, Demand, Field

CLAIM = "claim "


def faults_of_field_row(row: Row, block: Block, field: Field, turn: int, names: Names) -> list[str]:
    """The faults of a row of a field; so many rows with its number go before it."""
    demands = [demand for demand, before in field.turns if (demand.number, before) == (row.number, turn)]
    if not demands:
        return [f"the tree does not refuse {field.name} with {row.number}, or not so often"]
    (demand,) = demands
    faults = rule_faults(row, demand, names)
    faults += fact_faults(row, block, names, may_hand_on=demand.definition in (WHOLE, BYTES))
    if row.case.startswith(CLAIM):
        faults += limit_faults(row, field, names)
    else:
        answers = frozenset(f"{row.number} {place}" for place in field.places_in_case_m)
        faults += case_faults(row, names, answers)
    return faults + edit_faults(row, names)


def faults_of_number_row(row: Row, block: Block, title: str, names: Names) -> list[str]:
    """The faults of a row in the section of a number that no field gives."""
    if str(row.number) != title:
        return [f"it has {row.number} in the section of {title}"]
    faults = fact_faults(row, block, names, may_hand_on=False)
    if row.number not in names.specs.numbers_given(names.specs.definition(row.rule)):
        faults.append(f"no definition {row.rule} in specs/ gives {row.number}")
    if row.case.startswith(CLAIM):
        faults += claim_faults(row, block, names)
    else:
        faults += case_faults(row, names)
    return faults + edit_faults(row, names)


def rule_faults(row: Row, demand: Demand, names: Names) -> list[str]:
    """The rule stands in what is demanded; where that names no rule, it is the name of what demands it."""
    if not names.specs.is_defined(row.rule):
        return [f"{row.rule} is defined nowhere in specs/"]
    named = {word for word in words(demand.text) if names.specs.is_defined(word)} or {demand.definition}
    return [] if row.rule in named else [f"{row.rule} does not stand in {demand.text}"]


def fact_faults(row: Row, block: Block, names: Names, may_hand_on: bool) -> list[str]:
    """The proof has the fact, and at the fact's way out the number is given, or by a function that is called there."""
    functions = names.functions
    if not functions.has_fact(block.tested, row.fact):
        return [f"{row.fact} is no fact in the proof of {block.tested}"]
    if row.number in functions.gives(block.tested, row.fact, block.calling):
        return []
    if may_hand_on and row.number in functions.hands_on(block.tested, row.fact):
        return []
    return [f"{block.tested} does not give {row.number} where {row.fact} is proved"]


def case_faults(row: Row, names: Names, answers: frozenset[str] = frozenset()) -> list[str]:
    """The case is a row of the table of cases with the number, or, if it changes case M, with the answer."""
    case = names.cases.get(row.case)
    if not case:
        return [f"{row.case} is no case of {CASES}"]
    if answers and case.base == "file":
        fits = case.answer in answers
    else:
        fits = case.answer.split()[0] == str(row.number)
    return [] if fits else [f"{row.case} is answered with {case.answer}"]


def limit_faults(row: Row, field: Field, names: Names) -> list[str]:
    """The claim is declared in a file that states the number at the field's place in a payment."""
    claim = row.case.removeprefix(CLAIM)
    of_payment = STARTS["C"] + field.place in field.places_in_case_m
    stated = re.compile(rf"number = {row.number}; place = {field.place}\b")
    if of_payment and any(map(stated.search, names.specs.declaring(claim).values())):
        return []
    return [f"no claim {claim} in specs/ has {row.number} at {field.place} of a payment"]


def claim_faults(row: Row, block: Block, names: Names) -> list[str]:
    """The claim is declared in the crate of the function."""
    claim, crate = row.case.removeprefix(CLAIM), block.tested.partition("::")[0]
    crates = [file.parts[1] for file in names.specs.declaring(claim)]
    return [] if crate in crates else [f"there is no claim {claim} in crates/{crate}/specs"]


def edit_faults(row: Row, names: Names) -> list[str]:
    return [] if row.edit in names.edits else [f"there is no edit {row.edit}"]
