"""The public functions of the crates, taken from their sources, with what these require and ensure."""

import re
from dataclasses import dataclass
from pathlib import Path

COMMENT = re.compile(r"//[^\n]*")
HEAD = re.compile(r'^( *)(pub +)?(?:pub\(\w+\) +)?(extern +"C" +)?fn +(\w+)[^(]*', re.MULTILINE)
OWNER = re.compile(r"^impl\b(?:<[^>]*>)? *(\w+)", re.MULTILINE)
CLAUSE = re.compile(r"(requires|ensures)\b[^{]*")
READS = re.compile(r": *Read\b")
LENT = re.compile(r"(\w+) *: *&(?:'\w+ +)?mut\b")
BRACKETS = {"(": ")", "{": "}"}


@dataclass(frozen=True)
class Source:
    """A file of a crate, without its comments."""

    crate: str
    module: str
    text: str


@dataclass(frozen=True)
class Function:
    """A public function: where it stands, what it is lent to write to, whether a reader is, and its contract."""

    crate: str
    module: str
    owner: str
    name: str
    lent: tuple[str, ...]
    has_result: bool
    reads: bool
    requires: tuple[str, ...]
    ensures: tuple[str, ...]

    @property
    def path(self) -> str:
        return "::".join(filter(None, (self.crate, self.module, self.owner, self.name)))


def read_sources(root: Path) -> list[Source]:
    """Every source of every crate below the folder."""
    sources = []
    for file in sorted(root.glob("crates/*/src/**/*.rt")):
        crate, _, *modules = file.relative_to(root / "crates").with_suffix("").parts
        module = "::".join(name for name in modules if name != "lib")
        sources.append(Source(crate, module, COMMENT.sub("", file.read_text())))
    return sources


def public_functions(source: Source) -> list[Function]:
    """Those that are `pub`, methods among them, and those that C can call."""
    heads = HEAD.finditer(source.text)
    return [read_function(source, head) for head in heads if head[2] or head[3]]


def read_function(source: Source, head: re.Match[str]) -> Function:
    """The function with this head; one that is indented is a method of the type whose `impl` it stands in."""
    end = closing_of(source.text, head.end())
    result, clauses = read_contract(source.text, end + 1)
    return Function(
        crate=source.crate,
        module=source.module,
        owner=OWNER.findall(source.text, 0, head.start())[-1] if head[1] else "",
        name=head[4],
        lent=tuple(LENT.findall(source.text, head.end(), end)),
        has_result="->" in result,
        reads=bool(READS.search(head[0])),
        requires=tuple(text for word, text in clauses if word == "requires"),
        ensures=tuple(text for word, text in clauses if word == "ensures"),
    )


def read_contract(text: str, at: int) -> tuple[str, list[tuple[str, str]]]:
    """What stands behind the parameters: the type of the result, and the clauses by their words."""
    result = re.split(r"\b(?:requires|ensures)\b|{", text[at:], maxsplit=1)[0]
    clauses = []
    while clause := CLAUSE.search(text, at, text.index("{", at)):
        at = closing_of(text, clause.end()) + 1
        clauses.append((clause[1], text[clause.end() + 1:at - 1]))
    return result, clauses


def closing_of(text: str, at: int) -> int:
    """Where the bracket that opens at this place is closed."""
    opening, closing = text[at], BRACKETS[text[at]]
    depth = 0
    for place in range(at, len(text)):
        depth += (text[place] == opening) - (text[place] == closing)
        if depth == 0:
            return place
    raise ValueError(f"not closed: {text[at:at + 40]}")
