"""Tests of the days that are tried: what the model says of them, and that no line lacks one of its sides."""

import unittest
from collections import Counter
from collections.abc import Iterator
from datetime import date, timedelta
from itertools import product
from random import Random

from . import expected
from .days import Days, fault_of_days, tried_days
from .families import FIRST_FAMILIES, family
from .inputs import Form, Input
from .lending import requests_for
from .requests import COMPOSE

# A7 and A11b by the number that the requirements give at A11b, 0 where both are in order.
WORKED_DAYS = {
    0: ("150304 15032004", "150304 30032004", "311299 01012000", "311279 15012080", "150304         "),
    3: ("150304     2004", "150304 1503    ", "150304 3213200X"),
    10: (
        "150304 29021900", "150304 29022100", "150304 15030000", "150304 00000000", "150304 00032004",
        "150304 32032004", "150304 01002004", "150304 01132004", "010303 29022003",
    ),
    22: ("150304 14032004", "150304 29022000", "150304 01010001"),
    23: ("150304 31032004", "311279 16012080", "010180 01012080", "150304 31129999"),
}
# Days of creation whose neighbours are in another month, another year or another century, or in a leap year.
TURNS = (
    "1980-01-01", "1999-12-31", "2000-01-01", "2000-02-28", "2000-02-29", "2000-03-01", "2003-02-28",
    "2003-03-01", "2003-04-30", "2003-12-31", "2004-02-28", "2004-02-29", "2004-03-01", "2079-12-31",
)
MONTHS_OF_30_DAYS = (4, 6, 9, 11)
PLACES_IN_FILE = {"A7": 50, "A11b": 95}
TABS_AHEAD_IN_LINE = {"A7": 5, "A11b": 8}
ANSWERS = {"accepted", "3 at A7", "10 at A7", "3 at A11b", "10 at A11b", "22 at A11b", "23 at A11b"}
# Each of them is met at least so often in each form.
OFTEN = 20


def as_days(words: str) -> Days:
    return words[:6].encode(), words[7:].encode()


def last_of_month(month: int, year: int) -> int:
    if month == 2:
        return 29 if year % 400 == 0 or year % 4 == 0 and year % 100 != 0 else 28
    return 30 if month in MONTHS_OF_30_DAYS else 31


def stepped_days(years: range) -> Iterator[bytes]:
    """One day after the other, as A11b has them."""
    for year, month in product(years, range(1, 13)):
        for day in range(1, last_of_month(month, year) + 1):
            yield b"%02d%02d%04d" % (day, month, year)


class TestModel(unittest.TestCase):
    """What the model says of days, against the requirements and against a calendar that is stepped through."""

    def test_worked_days(self) -> None:
        for number, worked in WORKED_DAYS.items():
            fault = ("A11b", number) if number else None
            for days in worked:
                self.assertEqual(fault_of_days(*as_days(days)), fault, days)

    def test_creation_comes_first(self) -> None:
        wrong = {
            10: (b"290203", b"000000", b"320304", b"000304", b"150004", b"151304", b"310479"),
            3: (b"15030X", b" 50304", b"15030 ", b"32130/"),
        }
        for a11b in (b"15032004", b"14032004", b"31032004", b"29021900", b"1503200X", b"        "):
            for number, contents in wrong.items():
                self.assertEqual({fault_of_days(a7, a11b) for a7 in contents}, {("A7", number)})

    def test_all_that_two_years_could_have(self) -> None:
        written = (b"%02d%02d%04d" % days for days in product(range(33), range(14), (2003, 2004)))
        faults = Counter(fault_of_days(b"150304", a11b) for a11b in written)
        days_of_years, early = 365 + 366, 365 + 31 + 29 + 14
        numbers = {22: early, 23: days_of_years - early - 16, 10: 33 * 14 * 2 - days_of_years}
        self.assertEqual(faults, {None: 16} | {("A11b", number): count for number, count in numbers.items()})

    def test_every_day_of_creation(self) -> None:
        days = list(stepped_days(range(1979, 2081)))
        first, last = days.index(b"01011980"), days.index(b"31122079")
        for place in range(first, last + 1):
            a7 = days[place][:4] + days[place][6:]
            faults = [fault_of_days(a7, days[place + span]) for span in (-1, 0, 15, 16)]
            self.assertEqual(faults, [("A11b", 22), None, None, ("A11b", 23)], a7)


def days_in(given: Input) -> Days:
    """A7 and A11b as they stand in an input."""
    if given.form is Form.FILE:
        return given.data[50:56], given.data[95:103]
    contents = given.data.splitlines()[0].split(b"\t")
    return contents[5], contents[8]


def place_in(given: Input, field: str) -> int:
    if given.form is Form.FILE:
        return PLACES_IN_FILE[field]
    ahead = given.data.split(b"\t")[:TABS_AHEAD_IN_LINE[field]]
    return sum(len(content) + 1 for content in ahead)


def wanted_answer(given: Input) -> str:
    """What the days in an input lead to; a line's form comes ahead of its fields."""
    a7, a11b = days_in(given)
    if given.form is Form.LISTING and (a7.endswith(b" ") or a11b.endswith(b" ")):
        return "17 at the line"
    fault = fault_of_days(a7, a11b)
    return f"{fault[1]} at {fault[0]}" if fault else "accepted"


def answer_of(given: Input) -> str:
    """What an input is held to."""
    if given.refusal is None:
        return "accepted" if given.valid else "anything"
    number, place = given.refusal
    fields = {place_in(given, field): field for field in PLACES_IN_FILE} | {0: "the line"}
    return f"{number} at {fields[place]}"


class TestTriedDays(unittest.TestCase):
    """The family of days: each pair in both forms, each held to what the model says of it."""

    @classmethod
    def setUpClass(cls) -> None:
        cls.inputs = list(family(7, FIRST_FAMILIES.index(tried_days)))

    def test_each_pair_is_tried_once_in_each_form(self) -> None:
        names = {form: Counter(given.name for given in self.inputs if given.form is form) for form in Form}
        self.assertEqual(names[Form.FILE], names[Form.LISTING])
        self.assertEqual(set(names[Form.FILE].values()), {1})

    def test_an_input_has_the_days_that_it_names(self) -> None:
        for given in self.inputs:
            a7, a11b = days_in(given)
            self.assertEqual(given.name, f"A7 {a7.decode()}, A11b {a11b.decode()}")

    def test_every_line_has_both_sides(self) -> None:
        wanted = {as_days(days) for number in (0, 10, 22, 23) for days in WORKED_DAYS[number]}
        for created, span in product(map(date.fromisoformat, TURNS), (-1, 0, 15, 16)):
            execution = created + timedelta(days=span)
            wanted.add((created.strftime("%d%m%y").encode(), execution.strftime("%d%m%Y").encode()))
        self.assertEqual(wanted - {days_in(given) for given in self.inputs}, set())

    def test_every_answer_is_met_often(self) -> None:
        for form, answers in ((Form.FILE, ANSWERS), (Form.LISTING, ANSWERS | {"17 at the line"})):
            met = Counter(answer_of(given) for given in self.inputs if given.form is form)
            self.assertEqual(set(met), answers)
            self.assertGreaterEqual(min(met.values()), OFTEN)

    def test_wrong_ones_are_refused_where_they_stand(self) -> None:
        for given in self.inputs:
            self.assertEqual(answer_of(given), wanted_answer(given), given.name)

    def test_requests_are_held_to_the_refusal(self) -> None:
        for given in self.inputs[::20]:
            for request in requests_for(Random(5), given):
                if given.refusal and (request.call != COMPOSE) == (given.form is Form.FILE):
                    self.assertEqual(request.expected, expected.refused(request, *given.refusal))
