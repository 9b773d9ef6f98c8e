"""Media of one file and more, whose answers the model knows: valid ones, cut ones, others with junk among the files."""

from collections.abc import Iterator, Sequence
from dataclasses import dataclass
from itertools import product
from random import Random

from .case_m import CASE_M
from .damage import cuts
from .document import Document
from .expected import CENTS_OVER, NO_LENGTH, NOT_FIXED, NOT_WHOLE
from .inputs import Form, Input, MediumInput, Refusal, put_among, valid_medium
from .layout import HEADER_FIELDS, SECTION
from .medium import Medium
from .requests import MOST_BYTES
from .shapes import KINDS, MARK_ORDERS, document_of
from .specials import ACCEPTED_ENDS, BELOW_TOP, REFUSED_ENDS, short_document

MOST_FILES = 5
FEW_PAYMENTS = 4
# So many media have each number of files.
OF_EACH_NUMBER = 6
# The payments of each file, where long files lie beside short ones.
LONG_BESIDE_SHORT = ((1, 40, 1), (40, 1), (1, 40), (30, 2, 30))
# Two files of so many payments without parts are nearly all that dtprobe takes, and all rows that it lends.
PAYMENTS_OF_HALF = MOST_BYTES // 512 - 2
# How many files the media have that are cut at every field, and those with junk.
FILES_OF_CUT = (2, 3)
FILES_WITH_JUNK = (1, 2, 3)
MOST_TOTAL = 9_999_999_999_999
SHORT_ORDERS = tuple(marks for marks in MARK_ORDERS if 1 <= len(marks) <= 2)
# What may stand between files: line ends, fillings, and beginnings of records.
JUNK = (
    b"\n", b"\r\n", b"\x1a", b" ", b" " * 4, b" " * SECTION, b"\x00", b"\x00" * SECTION, b"0", b"0" * SECTION,
    b"X", b"XXXX", b"01", b"012", b"0128", b"0128E", b"0128C", b"0128a", b"0127A", b"0187C", b"A",
)


def some_file(rng: Random, kind: bytes, payments: int) -> Document:
    return document_of(rng, kind, rng.choices(MARK_ORDERS, k=payments))


def some_medium(rng: Random, kinds: Sequence[bytes]) -> Medium:
    """A file of one to four payments for each kind."""
    return Medium(tuple(some_file(rng, kind, rng.randint(1, FEW_PAYMENTS)) for kind in kinds))


def small_medium(rng: Random, files: int) -> Medium:
    """Files of different kinds, with one short payment each, so that something at every field stays a short family."""
    kinds = rng.sample(KINDS, files)
    return Medium(tuple(document_of(rng, kind, [rng.choice(SHORT_ORDERS)]) for kind in kinds))


def valid_media(rng: Random) -> Iterator[MediumInput]:
    """Each kind of file behind each other, each number of files, long and short ones, one file again and again."""
    for kinds in product(KINDS, repeat=2):
        yield valid_medium("two kinds", some_medium(rng, kinds))
    for files, _ in product(range(1, MOST_FILES + 1), range(OF_EACH_NUMBER)):
        yield valid_medium(f"{files} files", some_medium(rng, rng.choices(KINDS, k=files)))
    for counts in LONG_BESIDE_SHORT:
        documents = (some_file(rng, rng.choice(KINDS), count) for count in counts)
        yield valid_medium(f"files of {counts} payments", Medium(tuple(documents)))
    document = some_file(rng, rng.choice(KINDS), 2)
    for times in range(2, MOST_FILES + 1):
        yield valid_medium(f"a file {times} times", Medium((document,) * times))
    yield valid_medium("as many files as fit", Medium((CASE_M,) * (MOST_BYTES // len(CASE_M.file.data))))
    halves = (short_document(rng, [1] * PAYMENTS_OF_HALF) for _ in range(2))
    yield valid_medium("as many payments as fit", Medium(tuple(halves)))


def media_at_top(rng: Random) -> Iterator[MediumInput]:
    """The cent total at its top in two files, which is accepted, and beyond it in one of them."""
    for first, second in zip(ACCEPTED_ENDS, ACCEPTED_ENDS[1:] + ACCEPTED_ENDS[:1]):
        documents = tuple(short_document(rng, BELOW_TOP + end) for end in (first, second))
        yield valid_medium(f"totals ending in {first} and {second}", Medium(documents))
    for end in REFUSED_ENDS:
        top, beyond = (short_document(rng, BELOW_TOP + amounts) for amounts in ((99,), end))
        refusal = refusal_for_cents(beyond)
        file = Input(f"total ending in {end}", Form.FILE, beyond.file.data, beyond, refusal=refusal)
        yield put_among((), file, (top,))
        yield put_among((top,), file, ())


def refusal_for_cents(document: Document) -> Refusal:
    """Where a document with too many cents is refused: at a C1 when they are at their top, else at a C12."""
    total = 0
    for record, payment in enumerate(document.payments, start=1):
        refused = "C1" if total == MOST_TOTAL else "C12"
        total += payment.cents
        if total > MOST_TOTAL:
            places = {field.name: field.place for field in document.file.fields if field.record == record}
            return CENTS_OVER, places[refused]
    raise ValueError("not too many cents")


def cut_media(rng: Random) -> Iterator[MediumInput]:
    """Cut at every border of a file, a record and a field, and beside it."""
    for files in FILES_OF_CUT:
        medium = small_medium(rng, files)
        for name, data in cuts(medium.written, list(medium.written.fields)):
            yield cut_medium(name, medium, data)


def cut_medium(name: str, medium: Medium, data: bytes) -> MediumInput:
    """The medium's first bytes: valid at the end of a file, else refused at the first field that is not whole."""
    if len(data) in medium.file_ends:
        files = medium.file_ends.index(len(data)) + 1
        return valid_medium(name, Medium(medium.documents[:files]))
    place = next(field.place for field in medium.written.fields if field.end > len(data))
    return MediumInput(name, data, medium, refusal=(NOT_WHOLE, place))


@dataclass(frozen=True)
class Junk:
    """Bytes among files, and what they are refused with, counted from their first: with a file behind, or nothing."""

    name: str
    data: bytes
    followed: Refusal
    last: Refusal


def refusal_of_header(data: bytes) -> Refusal:
    """What bytes are refused with that are no file's because of their A1 or A2."""
    place = 0
    for field in HEADER_FIELDS[:2]:
        content = data[place:place + field.width]
        if len(content) < field.width:
            return NOT_WHOLE, place
        if content != field.content:
            return NOT_FIXED, place
        place += field.width
    raise ValueError("a header begins here")


def junk_of_bytes(name: str, data: bytes) -> Junk:
    """Bytes that do not begin as a file does, whatever follows them."""
    next_file = b"".join(field.content for field in HEADER_FIELDS[:2])
    return Junk(name, data, refusal_of_header(data + next_file), refusal_of_header(data))


def junk_of(document: Document) -> Iterator[Junk]:
    """What may stand by mistake between files: junk of its own, and some of the records of a file."""
    for data in JUNK:
        yield junk_of_bytes(f"{len(data)} bytes from {data[:5]!r}", data)
    header, payment, trailer = document.file.records()
    yield junk_of_bytes("a C", payment)
    yield junk_of_bytes("an E", trailer)
    yield junk_of_bytes("a file without its A", payment + trailer)
    no_length = (NO_LENGTH, len(header))
    yield Junk("a header", header, no_length, (NOT_WHOLE, len(header)))
    yield Junk("a file without its C", header + trailer, no_length, no_length)
    # The next A1 is the E1 that is missing, and A2 is no E2.
    without_e = header + payment
    yield Junk("a file without its E", without_e, (NOT_FIXED, len(without_e) + 4), (NOT_WHOLE, len(without_e)))


def media_with_junk(rng: Random) -> Iterator[MediumInput]:
    """Every junk ahead of each file, and behind the last one."""
    for files in FILES_WITH_JUNK:
        medium = small_medium(rng, files)
        for junk, before in product(junk_of(small_medium(rng, 1).documents[0]), range(files + 1)):
            yield with_junk(medium, junk, before)


def with_junk(medium: Medium, junk: Junk, before: int) -> MediumInput:
    """The medium with junk behind so many of its files."""
    start = (0, *medium.file_ends)[before]
    number, place = junk.followed if medium.data[start:] else junk.last
    data = medium.data[:start] + junk.data + medium.data[start:]
    name = f"{junk.name} behind {before} of {len(medium.documents)} files"
    return MediumInput(name, data, medium, refusal=(number, start + place))
