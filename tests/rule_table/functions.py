"""The functions of the crates: what they call, and what each way out gives."""

import re
from pathlib import Path

from statements.calls import functions_of
from statements.sources import HEAD, read_sources

from .arguments import passed, test_of
from .ways import cut_at_body, ways_out

# A goal of a way out that a proof answers, without the clause that it may be of.
ANSWERED = re.compile(r"^pub (returns(?:-(?!clause-)[^\s-]+)*)", re.MULTILINE)
CONSTANT = re.compile(r"^(?:pub )?const (\w+): u8 = (\d+);", re.MULTILINE)
# A call that is no method's.
CALL = re.compile(r"(?<![\w:.])((?:\w+::)*\w+)\(")


class Functions:
    """The functions of every crate below a folder, by their paths: `fields::number_at`, `dtlist::main`."""

    def __init__(self, root: Path) -> None:
        self.root = root
        self.texts: dict[str, str] = {}
        self.constants: dict[str, int] = {}
        for source in read_sources(root):
            self.constants |= {name: int(number) for name, number in CONSTANT.findall(source.text)}
            module = "" if source.module == "main" else source.module
            for text in functions_of(source.text):
                path = filter(None, (source.crate, module, HEAD.match(text)[4]))
                self.texts["::".join(path)] = text

    def has(self, path: str) -> bool:
        return path in self.texts

    def calls(self, caller: str, called: str) -> bool:
        """Whether one function calls another, by its path or, in the same crate, by what is left of it."""
        crate, _, rest = called.partition("::")
        named = rf"(?:{crate}::)?{rest}" if caller.startswith(f"{crate}::") else called
        return bool(re.search(rf"(?<![\w:.]){named}\(", self.texts.get(caller, "")))

    def has_fact(self, path: str, fact: str) -> bool:
        """Whether a way out of the function is proved by a goal of this name."""
        return fact in self.ways(path)

    def gives(self, path: str, fact: str, callers: tuple[str, ...] = ()) -> set[int]:
        """The numbers that stand at the way out which a fact is of; where a parameter stands there, those that all of
        these callers pass.
        """
        way = self.ways(path).get(fact, "")
        named = [self.numbers_in(self.passed_at(way, path, caller)) for caller in callers]
        return self.numbers_in(way) | (set.intersection(*named) if named else set())

    def passed_at(self, way: str, path: str, caller: str) -> str:
        """What a caller passes to a function for the parameters that stand at a way out of it."""
        given = passed(self.texts[path], path.rpartition("::")[2], self.texts.get(caller, ""))
        return " ".join(given[name] for name in given if re.search(rf"\b{name}\b", way))

    def tests_passed(self, path: str, caller: str) -> list[str]:
        """The tests that a caller passes to a function, for those of its parameters that it calls."""
        function, code = self.texts[path], self.texts.get(caller, "")
        given = passed(function, path.rpartition("::")[2], code)
        called = [name for name in given if re.search(rf"(?<![\w:.]){name}\(", cut_at_body(function)[1])]
        return [test_of(given[name].strip(), code) for name in called]

    def numbers_in(self, text: str) -> set[int]:
        """The numbers whose names stand in a text."""
        return {self.constants[name] for name in re.findall(r"\b[A-Z][A-Z_]+\b", text) if name in self.constants}

    def hands_on(self, path: str, fact: str) -> set[int]:
        """The numbers that the functions can refuse with which are called at the way out, unless it gives a content."""
        way = self.ways(path).get(fact, "").strip()
        called = () if way.startswith("Ok(") else (self.path_of(name, path) for name in CALL.findall(way))
        return set().union(*(self.refuses_with(each) for each in called if each != path))

    def refuses_with(self, path: str) -> set[int]:
        """The numbers that stand at the ways out of a function, or that it hands on there."""
        return set().union(*(self.gives(path, fact) | self.hands_on(path, fact) for fact in self.ways(path)))

    def path_of(self, called: str, caller: str) -> str:
        """The path of the function that another one calls by this name."""
        within = f"{caller.partition('::')[0]}::{called}"
        return within if self.has(within) else called

    def ways(self, path: str) -> dict[str, str]:
        """The ways out of a function, by the facts that they are proved as."""
        return ways_out(self.texts.get(path, ""))

    def answered(self, path: str) -> list[str]:
        """The ways out of a function that its proof answers, by their goals; the check finds the others by itself."""
        crate, *names = path.split("::")
        file = self.root.joinpath("crates", crate, "proofs", *names, "Answers.antt")
        return ANSWERED.findall(file.read_text()) if file.is_file() else []
