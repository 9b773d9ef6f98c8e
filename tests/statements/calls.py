"""Whether another crate calls a public function."""

import re

from .sources import HEAD, Function, Source

USE = re.compile(r"^use ([\w:]+)::(\w+);", re.MULTILINE)


def is_called(function: Function, sources: list[Source]) -> bool:
    """Whether a source of another crate calls it, as a function or as a method."""
    others = [source.text for source in sources if source.crate != function.crate]
    if function.owner:
        return any(calls_method(function, text) for other in others for text in functions_of(other))
    return any(calls_function(function, other) for other in others)


def calls_function(function: Function, source: str) -> bool:
    """Whether a source calls it by its whole path, or by what a `use` leaves of that."""
    paths = [function.path]
    for before, last in USE.findall(source):
        if f"{function.path}::".startswith(f"{before}::{last}::"):
            paths.append(function.path.removeprefix(f"{before}::"))
    return any(re.search(rf"(?<![\w:.]){path}\(", source) for path in paths)


def calls_method(function: Function, text: str) -> bool:
    """Whether a function that names the type calls a method of that name."""
    names_type = re.search(rf"\b{function.owner}\b", text)
    return bool(names_type and re.search(rf"\.{function.name}\(", text))


def functions_of(source: str) -> list[str]:
    """A source, cut where its functions begin."""
    starts = [head.start() for head in HEAD.finditer(source)]
    return [source[start:end] for start, end in zip(starts, starts[1:] + [len(source)])]
