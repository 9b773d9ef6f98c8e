"""The definitions of the crates' `specs/`, by their names, and the numbers that they give."""

import re
from functools import cached_property
from pathlib import Path

DECLARED = re.compile(r"^(?:(?:abbrev|unfoldable) )?(?:pub )?([^\s:]+) :", re.MULTILINE)
NUMBER_OF = re.compile(r"^number_of ([\w-]+) = (\d+)", re.MULTILINE)
REFUSING = re.compile(r"\brefusing (\d+)\b")
# A comment, with its line where nothing else stands there.
COMMENT = re.compile(r"^ *--[^\n]*\n| +--[^\n]*", re.MULTILINE)


class Specs:
    """The definitions of every crate below a folder; a name may be defined in more than one file."""

    def __init__(self, root: Path) -> None:
        self.texts: dict[Path, str] = {}
        for file in sorted(root.glob("crates/*/specs/*.antt")):
            self.texts[file.relative_to(root)] = COMMENT.sub("", file.read_text())

    @cached_property
    def definitions(self) -> dict[str, str]:
        """What stands from a name's declaration to the next empty line."""
        definitions: dict[str, str] = {}
        for text in self.texts.values():
            for declared in DECLARED.finditer(text):
                definition = text[declared.start():].split("\n\n", 1)[0]
                definitions[declared[1]] = definitions.get(declared[1], "") + definition + "\n"
        return definitions

    @cached_property
    def numbers(self) -> dict[str, int]:
        """The number of each reason that a reader refuses for, but of a broken rule."""
        return {reason: int(number) for reason, number in NUMBER_OF.findall(self.definition("number_of"))}

    def definition(self, name: str) -> str:
        return self.definitions.get(name, "")

    def is_defined(self, name: str) -> bool:
        return name in self.definitions

    def equation(self, name: str, first: str) -> str:
        """The right side of the equation of a name whose first argument begins with this word."""
        found = re.search(rf"^{name} \({first} .* = (.+)", self.definition(name), re.MULTILINE)
        return found[1] if found else ""

    def case_of(self, name: str, case: str) -> str:
        """The right side of the equation of a name for one case of a type."""
        found = re.search(rf"^{name} {re.escape(case)} = (.+)", self.definition(name), re.MULTILINE)
        return found[1] if found else ""

    def numbers_given(self, text: str) -> set[int]:
        """The numbers that a text gives, by itself or by a definition that it names."""
        named = [self.definition(word) for word in words(text)]
        return {number for given in [text, *named] for number in self.given_here(given)}

    def given_here(self, text: str) -> set[int]:
        """The numbers that stand in a text, or whose reasons do."""
        reasons = {self.numbers[word] for word in words(text) if word in self.numbers}
        return reasons | {int(number) for number in REFUSING.findall(text)}

    def declaring(self, name: str) -> dict[Path, str]:
        """The files that declare a name, with their texts."""
        return {file: text for file, text in self.texts.items() if name in DECLARED.findall(text)}


def words(text: str) -> set[str]:
    """The names that stand in a text."""
    return set(re.findall(r"[^\s(){}\[\],;.]+", text))
