"""The answers that the model itself gives for its documents: without them both sides could be wrong alike."""

from collections.abc import Sequence

from .document import Document, Payment, payment_contents
from .medium import Medium
from .requests import (
    CHECK, CHECK_MEDIUM, COMPOSE, FIND, HAND, LIST, LOAD, LOAD_MEDIUM, VIEW, Column, Request,
)

NOT_WHOLE = 1
NOT_FIXED = 2
NO_DIGIT = 3
NO_SIGN = 4
NO_LENGTH = 5
CENTS_OVER = 9
NO_DATE = 10
CONDITION = 11
NO_KEY = 12
NO_MARK = 13
NOT_COUNTED = 14
SURPLUS = 15
TOO_SHORT = 16
NO_LINE = 17
NOT_THERE = 19
TOO_LONG = 20
NO_SUPPLEMENT = 21
TOO_EARLY = 22
TOO_LATE = 23
# Behind number and place, so many figures are 0 where a call refuses.
ZEROS_OF_REFUSAL = {
    CHECK: 4, LOAD: 4, CHECK_MEDIUM: 2, LOAD_MEDIUM: 2, LIST: 1, COMPOSE: 1, FIND: 2, HAND: 2, VIEW: 1,
}
MOST_INPUT = 32_768
MOST_OUTPUT = 65_536


def line(*figures: int) -> bytes:
    return b"\t".join(b"%d" % figure for figure in figures) + b"\n"


def checked(document: Document) -> bytes:
    """The answer to check, which is also the first line of the answer to load."""
    return line(0, 0, len(document.payments), document.accounts, document.bank_codes, document.cents)


def loaded(document: Document, columns: list[Column]) -> bytes:
    """The answer to load, given the columns that it is lent."""
    rows = payment_columns(document.payments, document.starts)
    return filled(LOAD, checked(document), rows, columns)


def medium_checked(medium: Medium) -> bytes:
    """The answer to the check of a medium, which is also the first line of the answer to its load."""
    return line(0, 0, len(medium.documents), len(medium.payments))


def medium_loaded(medium: Medium, columns: list[Column]) -> bytes:
    """The answer to the load of a medium, given the nine columns that it is lent."""
    return filled(LOAD_MEDIUM, medium_checked(medium), medium_columns(medium), columns)


def medium_columns(medium: Medium) -> list[Column]:
    """What the load of a medium writes: four columns of its payments, five of its table of files."""
    documents = medium.documents
    return [
        *payment_columns(medium.payments, medium.starts),
        tuple(medium.file_starts), tuple(len(document.payments) for document in documents),
        tuple(document.accounts for document in documents),
        tuple(document.bank_codes for document in documents), tuple(document.cents for document in documents),
    ]


def payment_columns(payments: Sequence[Payment], starts: Sequence[int]) -> list[Column]:
    return [
        tuple(payment.bank_code for payment in payments), tuple(payment.account for payment in payments),
        tuple(payment.cents for payment in payments), tuple(starts),
    ]


def filled(call: bytes, figures: bytes, rows: list[Column], columns: list[Column]) -> bytes:
    """The answer to a load: rows behind the new ones stay, and all rows where a column is too short."""
    if any(len(column) < len(new) for new, column in zip(rows, columns, strict=True)):
        return refusal_line(call, TOO_SHORT, 0) + b"".join(map(column_line, columns))
    after = (new + column[len(new):] for new, column in zip(rows, columns))
    return figures + b"".join(map(column_line, after))


def column_line(column: Column) -> bytes:
    return b"".join(b"%d " % row for row in column) + b"\n"


def checked_as_file(medium: Medium) -> bytes:
    """The answer to the check of a file that is given a medium: a second file is bytes behind the first one's E."""
    first = medium.documents[0]
    if len(medium.documents) == 1:
        return checked(first)
    return refusal_line(CHECK, SURPLUS, len(first.file.data))


def put_out(written: bytes, output: bytes) -> bytes:
    """The answer to list or compose, writing into the given output."""
    if len(output) < len(written):
        return line(TOO_SHORT, 0, 0) + output + b"\n"
    return line(0, 0, len(written)) + written + output[len(written):] + b"\n"


def refused(request: Request, number: int, place: int) -> bytes:
    """The answer to a request that is refused: its other figures are 0, and what is lent stays as it was."""
    figures = refusal_line(request.call, number, place)
    if request.call in (LOAD, LOAD_MEDIUM):
        return figures + b"".join(map(column_line, request.columns))
    if request.call in (LIST, COMPOSE, VIEW):
        return figures + request.lent + b"\n"
    return figures


def refusal_line(call: bytes, number: int, place: int) -> bytes:
    return line(number, place, *[0] * ZEROS_OF_REFUSAL[call])


def found(document: Document, n: int) -> bytes:
    """The answer to find: the start of payment n, counted from 0, and the end of the file."""
    if n >= len(document.payments):
        return line(NOT_THERE, 0, 0, 0)
    return line(0, 0, document.starts[n], len(document.file.data))


def handed(document: Document, start: int, text: str) -> bytes:
    """The answer to a hand-out: where the text of this name stands in the payment that begins there."""
    if start in document.starts:
        # The header is record 0.
        record = document.starts.index(start) + 1
        for field in document.file.fields:
            if field.record == record and field.name == text:
                return line(0, 0, field.place, field.end)
    return line(NOT_THERE, 0, 0, 0)


def viewed(document: Document, n: int, text: str) -> bytes:
    """The answer to view: the text of this name out of payment n, all 27 bytes."""
    contents = payment_contents(document.payments[n]) if n < len(document.payments) else {}
    if text not in contents:
        return line(NOT_THERE, 0, 0) + b"\n"
    return line(0, 0, len(contents[text])) + contents[text] + b"\n"


def printed(written: bytes) -> bytes:
    """What a program prints that composed or listed so much."""
    return written if len(written) <= MOST_OUTPUT else line(TOO_SHORT, 0)


def refused_for_length() -> bytes:
    """What a program prints for an input that is over its limit, whatever the input is."""
    return line(TOO_LONG, MOST_INPUT)
