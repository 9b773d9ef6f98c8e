"""Documents of every shape: kinds of file, orders of marks, dates, keys, texts and border amounts."""

from collections.abc import Iterator, Sequence
from dataclasses import replace
from datetime import date, timedelta
from itertools import cycle, product
from random import Random

from .document import Document, Header, Part, Payment
from .layout import TEXT_SIGNS, TEXT_WIDTH

KINDS = (b"GK", b"LK", b"GB", b"LB")
KEYS = {b"G": (51, 53, 54, 56), b"L": (4, 5)}
FREE = range(1000)
# The supplements that each key takes.
SUPPLEMENTS: dict[int, Sequence[int]] = {
    4: (0, 888), 51: (0, 888), 53: (0, 888), 5: (0, 888, 5, 6, 15), 56: (0,), 54: FREE,
}
NAMED_SUPPLEMENTS = sorted({named for taken in SUPPLEMENTS.values() if taken is not FREE for named in taken})
# 051 was filed by mistake. Most others have a digit of a named one changed, moved or left out; 256 has the lower
# eight bits of 0, and 999 is the highest.
MISTYPED_SUPPLEMENTS = (51, 50, 8, 10, 100, 88, 808, 880, 256, 999)
TRIED_SUPPLEMENTS = sorted(set(FREE) & {
    *MISTYPED_SUPPLEMENTS, *(named + beside for named, beside in product(NAMED_SUPPLEMENTS, (-1, 0, 1))),
})
LONGEST_SPAN = 15
FIRST_DAY = date(1980, 1, 1)
LAST_DAY = date(2079, 12, 31)

MOST_CENTS = 99_999_999_999
MOST_ACCOUNT = 9_999_999_999
# Bank codes of payments; those of the header and C3 may be any eight digits.
LEAST_BANK_CODE, MOST_BANK_CODE = 10_000_000, 89_999_999
MOST_IN_EIGHT_DIGITS = 99_999_999

Marks = tuple[int, ...]


def mark_orders() -> tuple[Marks, ...]:
    """Every legal order of marks: at most one 01, first; at most thirteen 02; at most one 03, last."""
    counts = product((0, 1), range(14), (0, 1))
    orders = [(1,) * first + (2,) * purposes + (3,) * last for first, purposes, last in counts]
    return tuple(sorted(orders, key=len))


MARK_ORDERS = mark_orders()


def month_ends(year: int) -> list[date]:
    """The last days of the months of a year but December."""
    return [date(year, month, 1) - timedelta(days=1) for month in range(2, 13)]


BORDER_DAYS = (
    FIRST_DAY, LAST_DAY, date(1999, 12, 31), date(2000, 1, 1), date(2000, 2, 29), date(2004, 2, 29),
    date(2079, 12, 17), date(2003, 3, 1), *month_ends(2003), *month_ends(2004),
)
SPANS = (None, 0, 1, 14, LONGEST_SPAN)


def number_between(rng: Random, least: int, most: int) -> int:
    """A number within its borders: now and then a border, else of any number of digits."""
    choice = rng.randrange(8)
    if choice == 0:
        return least
    if choice == 1:
        return most
    return rng.randint(least, max(least, most // 10 ** rng.randrange(len(str(most)))))


def text_of(rng: Random, may_be_empty: bool) -> bytes:
    """A text of any kind, without trailing blanks."""
    width = rng.choice((0, 1, 2, rng.randint(1, TEXT_WIDTH), TEXT_WIDTH - 1, TEXT_WIDTH))
    signs = bytes(rng.choices(TEXT_SIGNS + b"   ", k=width))
    leading = b" " * rng.choice((0, 0, 0, 1, 5))
    made = (leading + signs)[:TEXT_WIDTH].rstrip(b" ")
    return made if made or may_be_empty else rng.choice((b"~", b" X", b"MEIER KG"))


def execution_after(created: date, span: int | None) -> date | None:
    return None if span is None else created + timedelta(days=span)


def header_of(rng: Random, kind: bytes) -> Header:
    days = (LAST_DAY - FIRST_DAY).days
    created = rng.choice((rng.choice(BORDER_DAYS), FIRST_DAY + timedelta(days=rng.randint(0, days))))
    span = rng.choice((None, rng.choice(SPANS), rng.randint(0, LONGEST_SPAN)))
    return Header(
        kind=kind, bank_code=number_between(rng, 0, MOST_IN_EIGHT_DIGITS),
        sending_bank_code=0 if kind.endswith(b"K") else number_between(rng, 0, MOST_IN_EIGHT_DIGITS),
        name=text_of(rng, may_be_empty=True), created=created, account=number_between(rng, 0, MOST_ACCOUNT),
        reference=number_between(rng, 0, MOST_ACCOUNT), execution=execution_after(created, span),
    )


def payment_of(rng: Random, kind: bytes, marks: Marks) -> Payment:
    key = rng.choice(KEYS[kind[:1]])
    return Payment(
        first_bank_code=number_between(rng, 0, MOST_IN_EIGHT_DIGITS),
        bank_code=number_between(rng, LEAST_BANK_CODE, MOST_BANK_CODE),
        account=number_between(rng, 1, MOST_ACCOUNT),
        # The first and the last of C6's thirteen digits are 0.
        customer_number=10 * number_between(rng, 0, 99_999_999_999),
        key=key, supplement=rng.choice(SUPPLEMENTS[key]),
        sender_bank_code=number_between(rng, LEAST_BANK_CODE, MOST_BANK_CODE),
        sender_account=number_between(rng, 1, MOST_ACCOUNT), cents=number_between(rng, 1, MOST_CENTS),
        name=text_of(rng, may_be_empty=False), sender_name=text_of(rng, may_be_empty=False),
        purpose=text_of(rng, may_be_empty=True),
        parts=tuple(Part(mark, text_of(rng, may_be_empty=True)) for mark in marks),
    )


def document_of(rng: Random, kind: bytes, orders: list[Marks]) -> Document:
    """A document with one payment for each of the given orders of marks."""
    return Document(header_of(rng, kind), tuple(payment_of(rng, kind, marks) for marks in orders))


def small_document(rng: Random, kind: bytes) -> Document:
    """Two payments of different length and few parts, so that damages at every field stay a short family."""
    short = [marks for marks in MARK_ORDERS if len(marks) <= 2]
    longer = [marks for marks in MARK_ORDERS if 3 <= len(marks) <= 4]
    orders = [rng.choice(short), rng.choice(longer)]
    rng.shuffle(orders)
    return document_of(rng, kind, orders)


def any_document(rng: Random, kind: bytes) -> Document:
    """Mostly one to four payments, sometimes ten to forty."""
    count = rng.randint(10, 40) if rng.randrange(20) == 0 else rng.randint(1, 4)
    return document_of(rng, kind, rng.choices(MARK_ORDERS, k=count))


def all_orders(rng: Random) -> Iterator[Document]:
    """Every order of marks in every kind of file."""
    for kind, marks in product(KINDS, MARK_ORDERS):
        yield document_of(rng, kind, [marks])


def all_counts(rng: Random) -> Iterator[Document]:
    """Few and many payments in every kind of file."""
    for kind, count in product(KINDS, (1, 2, 3, 4, 10, 25, 40)):
        yield document_of(rng, kind, rng.choices(MARK_ORDERS, k=count))


def all_dates(rng: Random) -> Iterator[Document]:
    """Every border day with the execution absent, on its day, and up to the last day of the span."""
    kinds = cycle(KINDS)
    for created, span in product(BORDER_DAYS, SPANS):
        document = document_of(rng, next(kinds), [(2,)])
        header = replace(document.header, created=created, execution=execution_after(created, span))
        yield replace(document, header=header)


def with_supplements(rng: Random, taken: bool) -> Iterator[Document]:
    """Every key of every kind of file with the tried supplements that it takes, or with all the others."""
    for kind in KINDS:
        for key, supplement in product(KEYS[kind[:1]], TRIED_SUPPLEMENTS):
            if (supplement in SUPPLEMENTS[key]) == taken:
                payment = replace(payment_of(rng, kind, ()), key=key, supplement=supplement)
                yield Document(header_of(rng, kind), (payment,))


def all_keys(rng: Random) -> Iterator[Document]:
    """Every key of every kind of file with every tried supplement that it takes."""
    return with_supplements(rng, taken=True)


def all_signs(rng: Random) -> Iterator[Document]:
    """Every sign but the blank, alone and at both ends of a text."""
    for sign in TEXT_SIGNS.replace(b" ", b""):
        one = bytes([sign])
        full = one + b" " * (TEXT_WIDTH - 2) + one
        document = document_of(rng, rng.choice(KINDS), [(2,)])
        payment = replace(
            document.payments[0], name=full, sender_name=one, purpose=b" " + one, parts=(Part(2, full),))
        yield Document(replace(document.header, name=full), (payment,))


def altered_marks() -> Iterator[Marks]:
    """Every legal order with one of its marks changed into another one; a few of them are legal again."""
    for marks in MARK_ORDERS:
        for place, mark in product(range(len(marks)), (1, 2, 3)):
            if marks[place] != mark:
                yield marks[:place] + (mark,) + marks[place + 1:]
