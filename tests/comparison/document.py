"""The model of a document, a header and its payments, and its own writers of the file and of the listing."""

from collections.abc import Iterable
from dataclasses import dataclass
from datetime import date
from functools import cached_property
from itertools import accumulate

from .layout import (
    HEADER_FIELDS, KIND_OF_FIELD, LISTED_HEADER, LISTED_PAYMENT, TEXT_WIDTH, TRAILER_FIELDS,
    Field, Kind, base_name, length_of_payment, mark_name, number, payment_fields, text_name,
)

Contents = dict[str, bytes]


@dataclass(frozen=True)
class Header:
    """The contents of A that differ from file to file."""

    kind: bytes
    bank_code: int
    sending_bank_code: int
    name: bytes
    created: date
    account: int
    reference: int
    execution: date | None


@dataclass(frozen=True)
class Part:
    """An extension part: its mark and its text without trailing blanks."""

    mark: int
    text: bytes


@dataclass(frozen=True)
class Payment:
    """The contents of a C that differ from payment to payment; texts are without trailing blanks."""

    first_bank_code: int
    bank_code: int
    account: int
    customer_number: int
    key: int
    supplement: int
    sender_bank_code: int
    sender_account: int
    cents: int
    name: bytes
    sender_name: bytes
    purpose: bytes
    parts: tuple[Part, ...]


@dataclass(frozen=True)
class Placed:
    """A field where it stands in a file or in a listing; `record` counts records or lines from 0."""

    name: str
    kind: Kind
    record: int
    place: int
    width: int

    @property
    def end(self) -> int:
        return self.place + self.width


@dataclass(frozen=True)
class Written:
    """A file or a listing, and where its fields stand in it."""

    data: bytes
    fields: tuple[Placed, ...]

    def content(self, field: Placed) -> bytes:
        return self.data[field.place:field.end]

    def records(self) -> list[bytes]:
        """The records of the file, or the lines of the listing."""
        starts: dict[int, int] = {}
        for field in self.fields:
            starts.setdefault(field.record, field.place)
        ends = list(starts.values())[1:] + [len(self.data)]
        return [self.data[start:end] for start, end in zip(starts.values(), ends)]


@dataclass(frozen=True)
class Document:
    """One A and its C; the E is counted from them."""

    header: Header
    payments: tuple[Payment, ...]

    @property
    def accounts(self) -> int:
        return sum(payment.account for payment in self.payments)

    @property
    def bank_codes(self) -> int:
        return sum(payment.bank_code for payment in self.payments)

    @property
    def cents(self) -> int:
        return sum(payment.cents for payment in self.payments)

    @cached_property
    def starts(self) -> list[int]:
        """The byte of the file where each payment begins."""
        ends = list(accumulate(map(len, self.file.records())))
        return ends[:len(self.payments)]

    @cached_property
    def file(self) -> Written:
        records = [(HEADER_FIELDS, header_contents(self.header))]
        for payment in self.payments:
            records.append((payment_fields(len(payment.parts)), payment_contents(payment)))
        records.append((TRAILER_FIELDS, trailer_contents(self)))
        return written_file(records)

    @cached_property
    def listing(self) -> Written:
        lines = [[("letter", b"A"), *listed(header_contents(self.header), LISTED_HEADER)]]
        for payment in self.payments:
            names = LISTED_PAYMENT + tuple(part_names(len(payment.parts)))
            lines.append([("letter", b"C"), *listed(payment_contents(payment), names)])
        return written_listing(lines)


def header_contents(header: Header) -> Contents:
    execution = header.execution.strftime("%d%m%Y").encode() if header.execution else b" " * 8
    return {
        "A3": header.kind, "A4": number(header.bank_code, 8), "A5": number(header.sending_bank_code, 8),
        "A6": header.name.ljust(TEXT_WIDTH), "A7": header.created.strftime("%d%m%y").encode(),
        "A9": number(header.account, 10), "A10": number(header.reference, 10), "A11b": execution,
    }


def payment_contents(payment: Payment) -> Contents:
    contents = {
        "C1": number(length_of_payment(len(payment.parts)), 4), "C3": number(payment.first_bank_code, 8),
        "C4": number(payment.bank_code, 8), "C5": number(payment.account, 10),
        "C6": number(payment.customer_number, 13), "C7a": number(payment.key, 2),
        "C7b": number(payment.supplement, 3), "C10": number(payment.sender_bank_code, 8),
        "C11": number(payment.sender_account, 10), "C12": number(payment.cents, 11),
        "C14a": payment.name.ljust(TEXT_WIDTH), "C15": payment.sender_name.ljust(TEXT_WIDTH),
        "C16": payment.purpose.ljust(TEXT_WIDTH), "C18": number(len(payment.parts), 2),
    }
    for place, part in enumerate(payment.parts, start=1):
        contents[mark_name(place)] = number(part.mark, 2)
        contents[text_name(place)] = part.text.ljust(TEXT_WIDTH)
    return contents


def trailer_contents(document: Document) -> Contents:
    return {
        "E4": number(len(document.payments), 7), "E6": number(document.accounts, 17),
        "E7": number(document.bank_codes, 17), "E8": number(document.cents, 13),
    }


def part_names(parts: int) -> Iterable[str]:
    for part in range(1, parts + 1):
        yield mark_name(part)
        yield text_name(part)


def listed(contents: Contents, names: Iterable[str]) -> Iterable[tuple[str, bytes]]:
    """The fields as the listing prints them: no trailing blanks, which only texts and an absent date have."""
    return ((name, contents[name].rstrip(b" ")) for name in names)


def written_file(records: list[tuple[tuple[Field, ...], Contents]]) -> Written:
    pieces: list[bytes] = []
    placed: list[Placed] = []
    place = 0
    for record, (fields, contents) in enumerate(records):
        for field in fields:
            content = contents[field.name] if field.content is None else field.content
            placed.append(Placed(field.name, field.kind, record, place, field.width))
            pieces.append(content)
            place += field.width
    return Written(b"".join(pieces), tuple(placed))


def written_listing(lines: list[list[tuple[str, bytes]]]) -> Written:
    data = b"".join(b"\t".join(content for _, content in line) + b"\n" for line in lines)
    placed: list[Placed] = []
    place = 0
    for record, line in enumerate(lines):
        for name, content in line:
            placed.append(Placed(name, KIND_OF_FIELD[base_name(name)], record, place, len(content)))
            place += len(content) + 1
    return Written(data, tuple(placed))
