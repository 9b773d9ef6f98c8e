"""The table of cases: the input of each row, and whether a program or a call gives the row's answer."""

import re
from collections.abc import Iterator
from dataclasses import dataclass, replace
from datetime import date
from pathlib import Path

from .case_m import CASE_M
from .document import Document, Part
from .expected import filled, line, medium_checked, medium_columns, refused
from .layout import TEXT_WIDTH
from .lending import COLUMNS_OF_FILES, COLUMNS_OF_PAYMENTS
from .medium import Medium
from .requests import (
    CHECK_MEDIUM, LIST, LOAD_MEDIUM, NAME_OF_CALL, ROW_WIDTH, TEXT_OF_FIELD, Column, Request,
)
from .sides import PROGRAMS, Side

ESCAPES = {"\\t": "\t", "\\n": "\n", "\\r": "\r", "\\s": " "}
CALL_OF_NAME = {name: call for call, name in NAME_OF_CALL.items()}
FIELD_OF_TEXT = {text: field for field, text in TEXT_OF_FIELD.items()}
# Stands between the files of a medium.
BEHIND = " + "
# What an answer calls the columns of a medium, in the order in which they are lent.
COLUMN_NAMES = (
    "C4", "C5", "C12", "starts", "files", "counts", "sums of C5", "sums of C4", "sums of C12",
)
# Lent rows hold numbers from here on, each another one, so that it shows which are written.
FIRST_LENT = 10 ** (ROW_WIDTH - 1)


@dataclass(frozen=True)
class Case:
    """A row of the table."""

    call: str
    base: str
    changes: str
    answer: str
    shows: str


def read_cases(table: Path) -> Iterator[Case]:
    """The rows behind the line of headings."""
    lines = [line for line in table.read_text().splitlines() if line and not line.startswith("#")]
    for line in lines[1:]:
        yield Case(*(cell.strip() for cell in line.split("|")))


def document_of(base: str) -> Document:
    """Case M, or case M with other days, another key, other marks, other amounts or more payments."""
    payment = CASE_M.payments[0]
    match base.split():
        case ["file" | "lines"]:
            return CASE_M
        case ["days", created, execution]:
            days = {"created": date.fromisoformat(created), "execution": date.fromisoformat(execution)}
            return replace(CASE_M, header=replace(CASE_M.header, **days))
        case ["key", kind, key, supplement]:
            header = replace(CASE_M.header, kind=kind.encode())
            return Document(header, (replace(payment, key=int(key), supplement=int(supplement)),))
        case ["marks", *marks]:
            parts = tuple(Part(mark, payment.parts[0].text) for mark in repeated(marks))
            return replace(CASE_M, payments=(replace(payment, parts=parts),))
        case ["cents", *amounts]:
            payments = (replace(payment, cents=cents) for cents in repeated(amounts))
            return replace(CASE_M, payments=tuple(payments))
        case ["payments", count]:
            short = replace(payment, name=b"A", sender_name=b"B", purpose=b"", parts=())
            return replace(CASE_M, payments=(short,) * int(count))
        case _:
            raise ValueError(f"no such base: {base}")


def repeated(words: list[str]) -> Iterator[int]:
    """Numbers, of which `7*2` is 7 twice."""
    for word in words:
        value, _, times = word.partition("*")
        yield from [int(value)] * int(times or 1)


def medium_of(base: str) -> Medium:
    return Medium(tuple(document_of(file) for file in base.split(BEHIND)))


def unchanged(base: str, as_named: bool) -> bytes:
    """The base as the table names it, or else its other form: a file's listing, a listing's file."""
    if base == "empty":
        return b""
    if BEHIND in base:
        return medium_of(base).data
    document = document_of(base.removeprefix("lines of "))
    return document.listing.data if base.startswith("lines") == as_named else document.file.data


def changed(data: bytes, changes: str) -> bytes:
    for change in filter(None, changes.split(", ")):
        data = changed_once(data, change)
    return data


def changed_once(data: bytes, change: str) -> bytes:
    if put_over := re.fullmatch(r"(\d+)=(.+)", change):
        place, content = int(put_over[1]), literal(put_over[2])
        return data[:place] + content + data[place + len(content):]
    match change.split():
        case ["cut", end]:
            return data[:int(end)]
        case ["drop", start, end]:
            return data[:int(start)] + data[int(end):]
        case ["add", content]:
            return data + literal(content)
        case ["put", place, content]:
            return data[:int(place)] + literal(content) + data[int(place):]
        case _:
            raise ValueError(f"no such change: {change}")


def literal(content: str) -> bytes:
    for escape, sign in ESCAPES.items():
        content = content.replace(escape, sign)
    return content.encode()


def is_met(case: Case, side: Side) -> bool:
    """Whether a side prints what the row says."""
    data = changed(unchanged(case.base, as_named=True), case.changes)
    if case.call in PROGRAMS:
        return side.printed(case.call, [data]) == printed_by_program(case)
    request = request_of(case.call, data)
    return side.printed("dtprobe", [request.wire()]) == answer_to(request, case)


def printed_by_program(case: Case) -> bytes:
    if case.answer == "accepted":
        return unchanged(case.base, as_named=False)
    return line(*map(int, case.answer.split()))


def request_of(call: str, data: bytes) -> Request:
    """The request of a row about a call: `list 192`, `load medium 2 1`, `find 0`, `hand 128 C14a`, .."""
    match call.split():
        case ["list", room]:
            return Request(LIST, data, (int(room),), b"." * int(room))
        case ["check", "medium"]:
            return Request(CHECK_MEDIUM, data)
        case ["load", "medium", *lengths]:
            rows = rows_of_columns(lengths)
            return Request(LOAD_MEDIUM, data, rows, lent_rows(sum(rows)))
        case ["find" as name, n]:
            numbers = (int(n),)
        case ["hand" | "view" as name, which, "part", part]:
            numbers = (int(which), 0, int(part))
        case ["hand" | "view" as name, which, text]:
            numbers = (int(which), FIELD_OF_TEXT[text])
        case _:
            raise ValueError(f"no such call: {call}")
    return Request(CALL_OF_NAME[name], data, numbers)


def rows_of_columns(lengths: list[str]) -> tuple[int, ...]:
    """How many rows each of the nine columns has: `2*4 1 2*4`, or `2 1` where those of one kind have as many."""
    rows = tuple(repeated(lengths))
    if len(rows) > 2:
        return rows
    payments, files = rows
    return (payments,) * COLUMNS_OF_PAYMENTS + (files,) * COLUMNS_OF_FILES


def lent_rows(count: int) -> bytes:
    return b"".join(b"%d" % (FIRST_LENT + row) for row in range(count))


def answer_to(request: Request, case: Case) -> bytes:
    """The row's answer as dtprobe prints it: `2 files, 3 payments`, `from 128 to 512`, `text MEIER KG`, .."""
    match case.answer.split():
        case ["text", *_]:
            text = literal(case.answer.removeprefix("text "))
            return line(0, 0, TEXT_WIDTH) + text.ljust(TEXT_WIDTH) + b"\n"
        case ["from", start, "to", end]:
            return line(0, 0, int(start), int(end))
        case [files, "files," | "file,", payments, "payments" | "payment"]:
            return line(0, 0, int(files), int(payments))
        case [number, place] if number.isdigit():
            return refused(request, int(number), int(place))
        case _:
            return loaded_answer(request, case)


def loaded_answer(request: Request, case: Case) -> bytes:
    """The answer to a load of the base: columns that the row names are the row's, the others the model's."""
    medium = medium_of(case.base)
    columns = dict(zip(COLUMN_NAMES, medium_columns(medium), strict=True)) | named_columns(case.answer)
    return filled(LOAD_MEDIUM, medium_checked(medium), list(columns.values()), request.columns)


def named_columns(answer: str) -> dict[str, Column]:
    """The columns that an answer names, with their rows: `starts 128 640, files 0 512`."""
    columns = {}
    for words in answer.split(", "):
        found = re.fullmatch(r"(.+?)((?: \d+)+)", words)
        if not found or found[1] not in COLUMN_NAMES:
            raise ValueError(f"no such answer: {answer}")
        columns[found[1]] = tuple(map(int, found[2].split()))
    return columns
