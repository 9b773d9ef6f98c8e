"""The comparison of one family: its inputs in batches through dtprobe, and some through dtlist and dtmake."""

from collections.abc import Iterator
from dataclasses import dataclass
from itertools import islice
from pathlib import Path
from random import Random

from . import expected
from .differences import Answer, message, number_in_figures, number_printed, save
from .families import FIRST_FAMILIES, family
from .inputs import Form, Given, Input, MediumInput
from .lending import requests_for
from .requests import NAME_OF_CALL, Request
from .sides import Side
from .specials import lengths
from .tally import Tally

BATCH = 250
# One in so many inputs goes through a program of its own: starting one takes as long as many requests.
ONE_RUN_IN = 20
# Every input of this family goes through the programs: it holds the limits of their inputs and outputs.
FAMILY_OF_LENGTHS = FIRST_FAMILIES.index(lengths)
# One in so many program runs is fed in pieces, and in at most so many.
SLOW_RUNS = 4
MOST_PIECES = 12
# One in so many program runs is of the program meant for the other form.
OTHER_PROGRAM = 8
# After so many differences a family is broken off: something is wrong at large.
MOST_DIFFERENCES = 10


@dataclass(frozen=True)
class Asked:
    """An input with its number in the family and its requests."""

    number: int
    given: Given
    requests: list[Request]


@dataclass(frozen=True)
class Settings:
    """What a whole run has in common."""

    ours: Side
    second: Side
    seed: int
    folder: Path


class TooManyDifferences(Exception):
    """A family has had enough differences."""


class FamilyComparison:
    """Compares one family and keeps its tally."""

    def __init__(self, settings: Settings, family_number: int) -> None:
        self.settings = settings
        self.family_number = family_number
        self.rng = Random(f"{settings.seed}/{family_number}/requests")
        self.tally = Tally()
        self.failed: set[int] = set()

    def compare(self) -> Tally:
        try:
            for batch in self.batches():
                self.tally.inputs.update(asked.given.counted_as for asked in batch)
                self.compare_batch(batch)
                for asked in batch:
                    for program in self.programs_for(asked):
                        self.compare_program(asked, program)
        except TooManyDifferences:
            # What was not looked at must not count as passed.
            self.failed.update(asked.number for asked in batch)
            broken_off = f"family {self.family_number} is broken off, its last batch counts as failed"
            self.tally.messages.append(broken_off)
        self.tally.failed = len(self.failed)
        return self.tally

    def batches(self) -> Iterator[list[Asked]]:
        inputs = enumerate(family(self.settings.seed, self.family_number))
        asked = (Asked(number, given, requests_for(self.rng, given)) for number, given in inputs)
        while batch := list(islice(asked, BATCH)):
            yield batch

    def compare_batch(self, batch: list[Asked]) -> None:
        """Behind a wrong answer both sides start again with the rest: one may have lost its place."""
        while batch:
            batch = batch[self.compare_answers(batch):]

    def compare_answers(self, batch: list[Asked]) -> int:
        """Compares the answers up to the first wrong one; gives the number of inputs that are done with."""
        wire = b"".join(request.wire() for asked in batch for request in asked.requests)
        ours = self.settings.ours.printed("dtprobe", [wire])
        second = self.settings.second.printed("dtprobe", [wire])
        place = 0
        for done, asked in enumerate(batch, start=1):
            for request in asked.requests:
                answer = answer_at(request, ours, second, place)
                number = number_in_figures(answer.ours)
                is_whole = request.answer_end(ours, place) is not None
                if number is None or not is_whole or not answer.is_right():
                    self.differ(asked, answer, request.wire())
                    return done
                self.tally.requests += 1
                self.tally.met[answer.call, number] += 1
                place += len(answer.ours)
        if max(len(ours), len(second)) > place:
            self.differ(batch[-1], Answer("end", ours[place:], second[place:], b""), wire)
        return len(batch)

    def programs_for(self, asked: Asked) -> list[str]:
        """The programs to run on an input: for every n-th the one it is meant for, now and then the other.

        None is meant for a medium.
        """
        if isinstance(asked.given, MediumInput):
            return []
        both = ["dtlist", "dtmake"] if asked.given.form is Form.FILE else ["dtmake", "dtlist"]
        if self.family_number == FAMILY_OF_LENGTHS:
            return both
        if (self.family_number + asked.number) % ONE_RUN_IN:
            return []
        return both[1:] if self.rng.randrange(OTHER_PROGRAM) == 0 else both[:1]

    def compare_program(self, asked: Asked, program: str) -> None:
        pieces = self.pieces(asked.given.data)
        ours = self.settings.ours.printed(program, pieces)
        second = self.settings.second.printed(program, pieces)
        answer = Answer(program, ours, second, expected_print(asked.given, program))
        self.tally.runs += 1
        number = number_printed(ours)
        if number is None or not answer.is_right():
            self.differ(asked, answer, asked.given.data)
        else:
            self.tally.met[program, number] += 1

    def pieces(self, data: bytes) -> list[bytes]:
        """The data whole, or now and then cut at random places."""
        if self.rng.randrange(SLOW_RUNS) > 0:
            return [data]
        cuts = sorted(self.rng.randint(0, len(data)) for _ in range(self.rng.randint(1, MOST_PIECES - 1)))
        return [data[start:end] for start, end in zip([0] + cuts, cuts + [len(data)])]

    def differ(self, asked: Asked, answer: Answer, fed: bytes) -> None:
        """Notes a difference, and keeps what is needed to look at it."""
        self.failed.add(asked.number)
        seed, family_number = self.settings.seed, self.family_number
        where = f"seed {seed}, family {family_number}, input {asked.number} ({asked.given.name})"
        call = answer.call.replace(" ", "-")
        folder = self.settings.folder / f"{seed}-{family_number}-{asked.number}-{call}"
        save(folder, asked.given.data, fed, answer)
        self.tally.messages.append(message(where, folder, answer))
        if len(self.failed) >= MOST_DIFFERENCES:
            raise TooManyDifferences


def answer_at(request: Request, ours: bytes, second: bytes, place: int) -> Answer:
    """Both answers to a request that begin at a place; all that is left where one is not whole."""
    our_answer = ours[place:request.answer_end(ours, place)]
    second_answer = second[place:request.answer_end(second, place)]
    return Answer(NAME_OF_CALL[request.call], our_answer, second_answer, request.expected)


def expected_print(given: Input, program: str) -> bytes | None:
    """What a program must print: 20 for an input too long, and the document's other form for a valid one.

    For a damaged one it is the refusal that the model knows; for other inputs, and those of the other form,
    it knows nothing.
    """
    if len(given.data) > expected.MOST_INPUT:
        return expected.refused_for_length()
    if (program == "dtlist") != (given.form is Form.FILE):
        return None
    if given.refusal:
        return expected.line(*given.refusal)
    other = given.base.listing if given.form is Form.FILE else given.base.file
    return expected.printed(other.data) if given.valid else None
