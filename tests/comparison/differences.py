"""Answers of both sides: whether they are right, and what is told and kept of those that are not."""

import re
from dataclasses import dataclass
from pathlib import Path

FIGURES = re.compile(rb"(\d+)\t")
REFUSAL = re.compile(rb"(\d+)\t\d+\n")
# How a listing and a file begin.
BEGINNINGS = (b"A\t", b"0128A")
# How much of an answer a message shows.
SHOWN = 100


@dataclass(frozen=True)
class Answer:
    """What both sides printed when fed the same, and what the model says to it, where it knows."""

    call: str
    ours: bytes
    second: bytes
    model: bytes | None

    def is_right(self) -> bool:
        return self.ours == self.second and self.model in (None, self.ours)


def number_in_figures(answer: bytes) -> int | None:
    """The number that an answer of dtprobe begins with, or None where it is no answer."""
    found = FIGURES.match(answer)
    return int(found[1]) if found else None


def number_printed(printed: bytes) -> int | None:
    """The number of a refusal that a program printed, 0 for a listing or a file, None for anything else."""
    if found := REFUSAL.fullmatch(printed):
        return int(found[1])
    return 0 if printed.startswith(BEGINNINGS) else None


def shortened(answer: bytes) -> str:
    more = f".. ({len(answer)} bytes)" if len(answer) > SHOWN else ""
    return repr(answer[:SHOWN]) + more


def save(folder: Path, data: bytes, fed: bytes, answer: Answer) -> None:
    """Keeps the input, what the programs were fed for it, and the answers, in a folder of their own."""
    folder.mkdir(parents=True, exist_ok=True)
    (folder / "input").write_bytes(data)
    (folder / "fed").write_bytes(fed)
    (folder / "ours").write_bytes(answer.ours)
    (folder / "second").write_bytes(answer.second)
    if answer.model is not None:
        (folder / "model").write_bytes(answer.model)


def message(where: str, folder: Path, answer: Answer) -> str:
    lines = [
        f"difference: {where}, {answer.call}; saved in {folder}",
        f"    ours:   {shortened(answer.ours)}",
        f"    second: {shortened(answer.second)}",
    ]
    if answer.model is not None:
        lines.append(f"    model:  {shortened(answer.model)}")
    return "\n".join(lines)
