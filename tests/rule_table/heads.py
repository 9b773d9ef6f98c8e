"""What is wrong with a section above its rows: the tree's line, bytes and place, the functions that test."""

from .functions import Functions
from .page import Block, Section
from .tree import Field


def faults_of_head(section: Section, field: Field | None, functions: Functions) -> list[str]:
    """The faults of a section, which is that of this field or of a number that no field gives."""
    faults = faults_of_line(section, field) if field else []
    if not section.blocks:
        faults.append("it has no function and no rows")
    for block in section.blocks:
        faults += faults_of_functions(block, functions)
    return faults


def faults_of_line(section: Section, field: Field) -> list[str]:
    """The line that is quoted, the bytes and the place are those of the tree."""
    faults = []
    if section.quoted not in field.lines:
        faults.append(f"it quotes '{section.quoted}', which is not the field's line in the tree")
    if section.width != field.width:
        faults.append(f"it tells {section.width} bytes, the tree {field.width}")
    if section.place != field.place:
        faults.append(f"it stands at {field.place}, not at {section.place}")
    return faults


def faults_of_functions(block: Block, functions: Functions) -> list[str]:
    """The functions exist, each caller calls, rows stand below, and the ways out are named as the proof has them."""
    if not block.tested:
        return ["it does not say by which function it is tested"]
    faults = [f"line {line} has not the form of a row" for line in block.strays]
    if not block.rows:
        faults.append(f"no row stands below {block.tested}")
    calls = [(caller, block.through or block.tested) for caller in block.callers]
    if block.through:
        calls.append((block.through, block.tested))
    named = dict.fromkeys([block.tested, *(path for call in calls for path in call)])
    missing = [path for path in named if not functions.has(path)]
    faults += [f"there is no function {path}" for path in missing]
    faults += [f"{block.tested} is proved at {goal}, which is none of its ways out"
               for goal in functions.answered(block.tested) if not functions.has_fact(block.tested, goal)]
    faults += [f"{one} does not call {other}" for one, other in calls
               if not {one, other} & set(missing) and not functions.calls(one, other)]
    return faults + faults_of_test(block, functions)


def faults_of_test(block: Block, functions: Functions) -> list[str]:
    """Each function that calls the one that tests passes it the test that is named; none where none is."""
    callers = [caller for caller in block.calling
               if functions.has(block.tested) and functions.calls(caller, block.tested)]
    passed = {caller: ", ".join(functions.tests_passed(block.tested, caller)) for caller in callers}
    return [f"{caller} passes the test '{test}' to {block.tested}, not '{block.test}'"
            for caller, test in passed.items() if test != block.test]
