"""What a run has met: inputs, requests, refusal numbers for each call, and differences; and its summary."""

from collections import Counter
from dataclasses import dataclass, field

CALLS = (
    "check", "load", "check medium", "load medium", "list", "compose", "find", "hand", "view", "dtlist", "dtmake",
)
# A column of the summary is so wide, or wider where the name of its call is long.
WIDTH = 9
# The numbers that generated inputs can reach. 6 takes ten million payments, and nothing reaches 7 and 8.
OF_FILE = (1, 2, 3, 4, 5, 9, 10, 11, 12, 13, 14, 15, 21, 22, 23)
OF_LISTING = (2, 3, 4, 9, 10, 11, 12, 13, 16, 17, 18, 21, 22, 23)
# What follows an E on a medium is the next A1, whatever it is.
OF_MEDIUM = tuple(number for number in OF_FILE if number != 15)
# Only the calls of the view are asked for a payment or a part, which may not be there.
OF_VIEW = OF_FILE + (19,)
REACHABLE = {
    "check": OF_FILE, "load": OF_FILE + (16,), "check medium": OF_MEDIUM, "load medium": OF_MEDIUM + (16,),
    "list": OF_FILE + (16,), "compose": OF_LISTING, "find": OF_VIEW, "hand": OF_VIEW, "view": OF_VIEW,
    "dtlist": (20,), "dtmake": (16, 20),
}
# The numbers that no input may meet, even where both sides agree on them.
FORBIDDEN = {"check medium": (15,), "load medium": (15,)}


@dataclass
class Tally:
    """The counts of a family, or of all families together."""

    inputs: Counter[str] = field(default_factory=Counter)
    requests: int = 0
    runs: int = 0
    failed: int = 0
    met: Counter[tuple[str, int]] = field(default_factory=Counter)
    messages: list[str] = field(default_factory=list)

    def add(self, other: "Tally") -> None:
        self.inputs += other.inputs
        self.requests += other.requests
        self.runs += other.runs
        self.failed += other.failed
        self.met += other.met
        self.messages += other.messages


def pairs(numbers_of_call: dict[str, tuple[int, ...]]) -> list[tuple[str, int]]:
    return [(call, number) for call, numbers in numbers_of_call.items() for number in numbers]


def missing_numbers(tally: Tally) -> list[tuple[str, int]]:
    """The reachable numbers that no input has met, each with its call."""
    return [pair for pair in pairs(REACHABLE) if not tally.met[pair]]


def forbidden_numbers(tally: Tally) -> list[tuple[str, int]]:
    """The numbers that were met though none may meet them, each with its call."""
    return [pair for pair in pairs(FORBIDDEN) if tally.met[pair]]


def count_of_tests(tally: Tally) -> tuple[int, int]:
    """How many tests passed and failed: one for each input, and for each number that must or must not be met."""
    all_tests = tally.inputs.total() + len(pairs(REACHABLE)) + len(pairs(FORBIDDEN))
    failed = tally.failed + len(missing_numbers(tally)) + len(forbidden_numbers(tally))
    return all_tests - failed, failed


def summary(tally: Tally, seed: int) -> list[str]:
    """The lines printed at the end, before the last one."""
    counts = ", ".join(f"{count} {name}" for name, count in sorted(tally.inputs.items()))
    lines = [f"seed {seed}: {counts}; {tally.requests} requests, {tally.runs} program runs on each side"]
    widths = {call: max(WIDTH, len(call) + 2) for call in CALLS}
    lines.append("number" + "".join(f"{call:>{width}}" for call, width in widths.items()))
    for number in sorted({number for _, number in tally.met}):
        cells = (f"{tally.met[call, number] or '-':>{width}}" for call, width in widths.items())
        lines.append(f"{number:>6}" + "".join(cells))
    return lines
