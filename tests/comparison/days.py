"""Days of creation and of execution, A7 and A11b, on both sides of every line; what the model says of them."""

from collections.abc import Iterator
from dataclasses import replace
from datetime import date, timedelta
from itertools import chain, product
from random import Random

from .case_m import CASE_M
from .contents import contents_for, written_creation, written_execution
from .damage import replaced
from .document import Document, Placed
from .expected import NO_DATE, NO_DIGIT, NO_LINE, TOO_EARLY, TOO_LATE
from .inputs import Form, Input, valid_input, written_as
from .shapes import BORDER_DAYS, FIRST_DAY, KINDS, LAST_DAY, LONGEST_SPAN, document_of, header_of, month_ends

# A7 and A11b as a file has them.
Days = tuple[bytes, bytes]

ABSENT = b" " * 8
# Days from A7 on: just before the span, its first and its last, just behind it.
BORDER_SPANS = (-1, 0, LONGEST_SPAN, LONGEST_SPAN + 1)
# The ends of February and of the year, with a 29 February and without, and where the centuries of A7 end.
TURNING_YEARS = (1980, 1999, 2000, 2003, 2004, 2079)
TURNS_OF_YEAR = ((1, 1), (2, 28), (3, 1), (12, 31))
TURNS = sorted({
    *BORDER_DAYS, date(1980, 2, 29), *(date(year, *day) for year, day in product(TURNING_YEARS, TURNS_OF_YEAR)),
})
# Days of creation, and for each of them days of execution that every, some or no years have, in years that A7
# cannot name or that end like others: in 79, in 80, in 00.
CREATED = (b"010180", b"311279", b"311299", b"010100", b"290200", b"150304")
FAR_DAYS = (b"0101", b"2902", b"3112", b"3100", b"0113")
FAR_YEARS = (0, 1, 1900, 1979, 1980, 2000, 2079, 2080, 2100, 9999)
# How many headers beside case M's are given every doubtful A7 and A11b, and how often days are drawn at random.
OTHER_HEADERS = 3
RANDOM_DAYS = 40


def day_of(digits: bytes) -> date | None:
    """The day DDMMYYYY, if there is one: Python's calendar is the Gregorian one, of the years 1 to 9999."""
    try:
        return date(int(digits[4:]), int(digits[2:4]), int(digits[:2]))
    except ValueError:
        return None


def with_century(a7: bytes) -> bytes:
    """The six digits of A7 with the year's first two among them."""
    return a7[:4] + (b"19" if a7[4:] >= b"80" else b"20") + a7[4:]


def fault_of_execution(created: date, a11b: bytes) -> int | None:
    """The number that A11b is refused with, if it is: for its bytes, for the calendar, for the span."""
    if not a11b.isdigit():
        return NO_DIGIT
    execution = day_of(a11b)
    if execution is None:
        return NO_DATE
    if execution < created:
        return TOO_EARLY
    return TOO_LATE if execution - created > timedelta(days=LONGEST_SPAN) else None


def fault_of_days(a7: bytes, a11b: bytes) -> tuple[str, int] | None:
    """The field of a file that is refused for its day, and the number, if one is."""
    if not a7.isdigit():
        return "A7", NO_DIGIT
    created = day_of(with_century(a7))
    if created is None:
        return "A7", NO_DATE
    number = None if a11b == ABSENT else fault_of_execution(created, a11b)
    return None if number is None else ("A11b", number)


def with_days(base: Document, a7: bytes, a11b: bytes) -> Document:
    """The document made and executed on these days, which are in order."""
    execution = None if a11b == ABSENT else day_of(a11b)
    return replace(base, header=replace(base.header, created=day_of(with_century(a7)), execution=execution))


def refusal_of(form: Form, fields: dict[str, Placed], days: Days) -> tuple[int, int] | None:
    """Number and place of the refusal, if there is one; no field of a line may end in a blank."""
    if form is Form.LISTING and any(content.endswith(b" ") for content in days):
        return NO_LINE, 0
    fault = fault_of_days(*days)
    if fault is None:
        return None
    name, number = fault
    return number, fields[name].place


def input_with(base: Document, form: Form, days: Days) -> Input:
    """The document with these bytes for its days, held to what the model says of them."""
    a7, a11b = days
    name = f"A7 {a7.decode()}, A11b {a11b.decode()}"
    written = written_as(base, form)
    fields = {field.name: field for field in written.fields}
    refusal = refusal_of(form, fields, days)
    if refusal is None:
        return valid_input(name, form, with_days(base, a7, a11b))
    # A11b first: a listing that had none gets longer there, behind A7.
    data = replaced(replaced(written.data, fields["A11b"], a11b), fields["A7"], a7)
    return Input(name, form, data, base, refusal=refusal)


def beside_turns() -> Iterator[Days]:
    """Each turn of the calendar as the day of creation, and as that of execution, on both sides of the span."""
    for turn, span in product(TURNS, BORDER_SPANS):
        apart = timedelta(days=span)
        for created, execution in ((turn, turn + apart), (turn - apart, turn)):
            if FIRST_DAY <= created <= LAST_DAY:
                yield written_creation(created), written_execution(execution)


def in_far_years() -> Iterator[Days]:
    """Execution in other centuries, and in the first and the last years that can be written."""
    for a7, day, year in product(CREATED, FAR_DAYS, FAR_YEARS):
        yield a7, day + b"%04d" % year


def outside_of_months() -> Iterator[Days]:
    """The day behind a month's last, and the one ahead of its first, written as if they were the month's."""
    for end in (*month_ends(2003), date(2003, 12, 31), *month_ends(2004), date(2004, 12, 31)):
        first = end + timedelta(days=1)
        behind = b"%02d" % (end.day + 1) + written_execution(end)[2:]
        ahead = b"00" + written_execution(first)[2:]
        for near, no_day in product((end, first), (behind, ahead)):
            yield written_creation(near), no_day
            yield no_day[:4] + no_day[6:], written_execution(near)


def doubtful_days(rng: Random) -> Iterator[Days]:
    """Every doubtful content of A7 with an A11b that fitted before, and the other way round."""
    others = (header_of(rng, rng.choice(KINDS)) for _ in range(OTHER_HEADERS))
    for header in (CASE_M.header, *others):
        execution = header.created + timedelta(days=rng.randint(0, LONGEST_SPAN))
        written = Document(replace(header, execution=execution), ()).file
        a7, a11b = (field for field in written.fields if field.name in ("A7", "A11b"))
        for _, other in contents_for(a7, written.content(a7), header):
            yield other, written.content(a11b)
        for _, other in contents_for(a11b, written.content(a11b), header):
            yield written.content(a7), other


def random_days(rng: Random) -> Iterator[Days]:
    """Days of execution near A7 and in all years, and digits that seldom are a day."""
    for _ in range(RANDOM_DAYS):
        created = date.fromordinal(rng.randint(FIRST_DAY.toordinal(), LAST_DAY.toordinal()))
        near = written_execution(created + timedelta(days=rng.randint(-LONGEST_SPAN, 2 * LONGEST_SPAN)))
        far = written_execution(date.fromordinal(rng.randint(1, date.max.toordinal())))
        seldom = b"%02d%02d%04d" % (rng.randrange(34), rng.randrange(15), created.year)
        for a11b in (near, far, seldom, b"%08d" % rng.randrange(10**8)):
            yield written_creation(created), a11b
        yield b"%06d" % rng.randrange(10**6), near


def pairs_of_days(rng: Random) -> list[Days]:
    """Each pair of days that is tried, once."""
    pairs = chain(beside_turns(), in_far_years(), outside_of_months(), doubtful_days(rng), random_days(rng))
    return list(dict.fromkeys(pairs))


def tried_days(rng: Random) -> Iterator[Input]:
    """Each pair of days once in each form; all files come first, as of wrong supplements."""
    for form, days in product(Form, pairs_of_days(rng)):
        yield input_with(document_of(rng, rng.choice(KINDS), [()]), form, days)
