"""Inputs at the limits of totals and of lengths, random bytes, and bytes and supplements tried one by one."""

from collections.abc import Iterator, Sequence
from dataclasses import replace
from itertools import product
from random import Random

from .damage import random_bytes, replaced
from .document import Document, Part
from .expected import MOST_INPUT, MOST_OUTPUT, NO_SUPPLEMENT
from .inputs import Form, Input, valid_input, written_as
from .layout import TEXT_SIGNS, TEXT_WIDTH
from .shapes import (
    KINDS, MARK_ORDERS, MOST_CENTS, Marks, document_of, header_of, payment_of, small_document, with_supplements,
)

# A hundred payments of the highest amount leave 99 cents to the highest total: amounts behind them that are
# accepted, and that are refused.
BELOW_TOP = (MOST_CENTS,) * 100
ACCEPTED_ENDS = ((98,), (99,), (98, 1))
REFUSED_ENDS = ((100,), (98, 2), (99, 1), (MOST_CENTS, MOST_CENTS))
# So many payments without parts, or with the most parts, make a file of exactly a program's input or output.
PAYMENTS_IN_INPUT = MOST_INPUT // 256 - 1
PAYMENTS_IN_OUTPUT = MOST_OUTPUT // 256 - 1
LONG_PAYMENTS_IN_OUTPUT = (MOST_OUTPUT - 256) // 768
RANDOM_INPUTS = 150
SWEPT_FIELDS = {Form.FILE: ("C5", "C9", "C13", "C14a", "C17a"), Form.LISTING: ("C5", "C14a")}


def short_document(rng: Random, amounts: Sequence[int], marks: Marks = ()) -> Document:
    """Payments with the shortest texts, so that many of them make a short listing."""
    kind = rng.choice(KINDS)
    parts = tuple(Part(mark, b"") for mark in marks)
    shortest = {"name": b"X", "sender_name": b"~", "purpose": b"", "parts": parts}
    payments = (replace(payment_of(rng, kind, ()), cents=cents, **shortest) for cents in amounts)
    return Document(header_of(rng, kind), tuple(payments))


def totals(rng: Random) -> Iterator[Input]:
    """Documents whose cent total comes close to its top, reaches it and goes beyond."""
    for form, end in product(Form, ACCEPTED_ENDS):
        yield valid_input(f"total ending in {end}", form, short_document(rng, BELOW_TOP + end))
    for form, end in product(Form, REFUSED_ENDS):
        document = short_document(rng, BELOW_TOP + end)
        yield Input(f"total ending in {end}", form, written_as(document, form).data, document)
    beyond = short_document(rng, BELOW_TOP + (99, 1))
    yield from file_behind_top(beyond)
    yield from listing_behind_top(beyond)


def file_behind_top(beyond: Document) -> Iterator[Input]:
    """The top reached, then a first field that is no length, no number, not whole, or that begins an E."""
    written = beyond.file
    length = [field for field in written.fields if field.name == "C1"][-1]
    for content in (b"0188", b"0186", b"0651", b"0128", b"01X7", b"    ", b"0622"):
        data = replaced(written.data, length, content)
        yield Input(f"{content!r} after the top total", Form.FILE, data, beyond)
    for width in range(6):
        data = written.data[:length.place + width]
        yield Input(f"{width} bytes after the top total", Form.FILE, data, beyond)


def listing_behind_top(beyond: Document) -> Iterator[Input]:
    """The top reached, then a line without its form, or with a field that would be refused by itself."""
    lines = beyond.listing.records()
    good, last = b"".join(lines[:-1]), lines[-1]
    fields = last.split(b"\t")
    no_amount = b"\t".join(fields[:9] + [b"0" * 11] + fields[10:])
    no_number = b"\t".join(fields[:1] + [b"XXXXXXXX"] + fields[2:])
    for line in (b"C\n", b"\n", b"E\n", last[:-1], b"A" + last[1:], no_amount, no_number, last + last):
        yield Input(f"{line[:10]!r} after the top total", Form.LISTING, good + line, beyond)


def lengthened(document: Document, length: int) -> Document:
    """The document with longer texts, so that its listing has exactly the given length."""
    missing = length - len(document.listing.data)
    payments = []
    for payment in document.payments:
        in_purpose = min(missing, TEXT_WIDTH)
        in_name = min(missing - in_purpose, TEXT_WIDTH - len(payment.name))
        missing -= in_purpose + in_name
        payments.append(replace(payment, purpose=b"P" * in_purpose, name=payment.name + b"N" * in_name))
    return replace(document, payments=tuple(payments))


def lengths(rng: Random) -> Iterator[Input]:
    """Inputs and outputs of exactly the programs' limits, and beyond them."""
    # The last of these is longer than dtprobe takes.
    for count in (PAYMENTS_IN_INPUT - 1, PAYMENTS_IN_INPUT, PAYMENTS_IN_INPUT + 1, PAYMENTS_IN_OUTPUT,
                  PAYMENTS_IN_OUTPUT + 1):
        yield valid_input(f"file of {count} payments", Form.FILE, short_document(rng, [1] * count))
    full = short_document(rng, [1] * PAYMENTS_IN_INPUT)
    for more in (1, 2, 256):
        yield Input(f"{more} bytes behind a full file", Form.FILE, full.file.data + b" " * more, full)
    for count, marks in ((PAYMENTS_IN_OUTPUT, ()), (LONG_PAYMENTS_IN_OUTPUT, MARK_ORDERS[-1])):
        for payments in (count, count + 1):
            document = short_document(rng, [1] * payments, marks)
            yield valid_input(f"listing of {payments} payments", Form.LISTING, document)
    many = short_document(rng, [1] * PAYMENTS_IN_OUTPUT)
    for length in (MOST_INPUT - 1, MOST_INPUT, MOST_INPUT + 1):
        yield valid_input(f"listing of {length} bytes", Form.LISTING, lengthened(many, length))
    for form, length in product(Form, (MOST_INPUT, MOST_INPUT + 1, MOST_OUTPUT, MOST_OUTPUT + 1, 100_000)):
        yield Input(f"{length} blanks", form, b" " * length, full)
        yield Input(f"{length} random bytes", form, random_bytes(rng, length), full)


def random_inputs(rng: Random) -> Iterator[Input]:
    """The empty input and random bytes, text signs and digits, in both forms."""
    base = small_document(rng, rng.choice(KINDS))
    for form in Form:
        yield Input("empty", form, b"", base)
        for _ in range(RANDOM_INPUTS):
            yield Input("random bytes", form, random_bytes(rng, rng.randint(1, 700)), base)
            signs = bytes(rng.choices(TEXT_SIGNS, k=rng.randint(1, 700)))
            yield Input("random text signs", form, signs, base)


def swept_bytes(rng: Random) -> Iterator[Input]:
    """Every byte value in a field of each kind, at its first, its last or another place."""
    base = document_of(rng, rng.choice(KINDS), [(2,)])
    for form, names in SWEPT_FIELDS.items():
        written = written_as(base, form)
        for field in (field for field in written.fields if field.name in names):
            for byte in range(256):
                place = rng.choice((field.place, field.end - 1, rng.randrange(field.place, field.end)))
                data = written.data[:place] + bytes([byte]) + written.data[place + 1:]
                yield Input(f"{field.name} with {byte:02X} at {place}", form, data, base)


def wrong_supplements(rng: Random) -> Iterator[Input]:
    """Every key with every tried supplement that it does not take: refused where the supplement stands.

    All files come first: of every so many inputs one goes through a program, and by turns these had one form.
    """
    for form, document in product(Form, with_supplements(rng, taken=False)):
        yield wrong_supplement(document, form)


def wrong_supplement(document: Document, form: Form) -> Input:
    """The document of one payment, whose supplement does not go with its key."""
    (payment,), written = document.payments, written_as(document, form)
    name = f"key {payment.key:02} with {payment.supplement:03}"
    (place,) = (field.place for field in written.fields if field.name == "C7b")
    return Input(name, form, written.data, document, refusal=(NO_SUPPLEMENT, place))
