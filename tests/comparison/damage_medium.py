"""Media with faults in each of their files: faults that the model knows at every field, and damages as of a file."""

from collections.abc import Iterator
from dataclasses import replace
from itertools import islice
from random import Random

from .damage import chosen_fields, moved_records, random_damages, replaced
from .damage_file import file_damages
from .days import input_with, pairs_of_days
from .document import Document, Placed, trailer_contents
from .expected import (
    CONDITION, NO_DATE, NO_DIGIT, NO_KEY, NO_LENGTH, NO_MARK, NO_SIGN, NOT_COUNTED, NOT_FIXED,
)
from .inputs import Form, Input, MediumInput, put_among, valid_medium
from .layout import Kind, base_name, number
from .media import MOST_FILES, small_medium, some_medium
from .medium import Medium
from .shapes import KEYS, KINDS, any_document, document_of, with_supplements
from .specials import wrong_supplement

# A content for a field, and the number that it is refused with.
Fault = tuple[bytes, int]

# No field of any kind takes this byte.
STRANGE = b"\x1f"
NUMBER_OF_KIND = {
    Kind.FIXED: NOT_FIXED, Kind.BLANKS: NOT_FIXED, Kind.ZEROS: NOT_FIXED, Kind.DIGITS: NO_DIGIT, Kind.TEXT: NO_SIGN,
}
# Contents whose bytes are in order, but that no file has.
FAULT_OF_FIELD: dict[str, Fault] = {
    "A3": (b"KG", NOT_FIXED), "A7": (b"320104", NO_DATE), "A11b": (b"32012004", NO_DATE),
    "C1": (b"0186", NO_LENGTH), "C4": (b"9" * 8, CONDITION), "C5": (b"0" * 10, CONDITION),
    "C6": (b"0" * 12 + b"1", CONDITION), "C10": (b"0" * 8, CONDITION), "C11": (b"0" * 10, CONDITION),
    "C12": (b"0" * 11, CONDITION), "C14a": (b" " * 27, CONDITION), "C15": (b" " * 27, CONDITION),
    "C18": (b"16", CONDITION), "mark": (b"04", NO_MARK), "E1": (b"0186", NO_LENGTH),
}
FIGURES = ("E4", "E6", "E7", "E8")
# How many files the media have that get every known fault, and those that are damaged as a file is.
FILES_WITH_FAULTS = (3, 4)
DAMAGED_FILES = 2
# One in so many pairs of days, and of wrong supplements, is tried in a file of a medium.
ONE_PAIR_IN = 6
ONE_SUPPLEMENT_IN = 2
# How many fields of one file are damaged: on the media that every run has, and on further ones.
FEW_FIELDS = 8
MOST_FIELDS = 40


def faults_of(document: Document, field: Placed, content: bytes) -> Iterator[Fault]:
    """Contents for a field of the document's file that are refused whatever stands behind it."""
    kind = document.header.kind
    yield STRANGE + content[1:], NUMBER_OF_KIND[field.kind]
    if len(content) > 1:
        yield content[:-1] + STRANGE, NUMBER_OF_KIND[field.kind]
    if base_name(field.name) in FAULT_OF_FIELD:
        yield FAULT_OF_FIELD[base_name(field.name)]
    if field.name == "A5" and kind.endswith(b"K"):
        yield b"0" * 7 + b"1", CONDITION
    if field.name == "C7a":
        # A key of the other kind of file, as a file before it may have.
        yield number(KEYS[b"L" if kind.startswith(b"G") else b"G"][0], 2), NO_KEY
    if field.name in FIGURES:
        yield number(int(content) + 1, field.width), NOT_COUNTED


def faults_of_file(document: Document) -> Iterator[Input]:
    """The document's file with each fault that the model knows, at every field."""
    written = document.file
    for field in written.fields:
        for content, refused_with in faults_of(document, field, written.content(field)):
            name = f"{field.name} of record {field.record} holding {content!r}"
            data = replaced(written.data, field, content)
            yield Input(name, Form.FILE, data, document, refusal=(refused_with, field.place))


def figures_run_on(medium: Medium) -> Iterator[MediumInput]:
    """Each figure of each E but the first counts the files before it as well; then all four do."""
    for position, document in enumerate(medium.documents[1:], start=1):
        so_far = Medium(medium.documents[:position + 1])
        running = trailer_contents(replace(document, payments=tuple(so_far.payments)))
        figures = [field for field in document.file.fields if field.name in FIGURES]
        all_run_on = document.file.data
        for field in figures:
            all_run_on = replaced(all_run_on, field, running[field.name])
            one_runs_on = replaced(document.file.data, field, running[field.name])
            yield file_in_its_place(medium, position, refused_figure(document, field, one_runs_on))
        yield file_in_its_place(medium, position, refused_figure(document, figures[0], all_run_on))


def refused_figure(document: Document, field: Placed, data: bytes) -> Input:
    return Input(f"{field.name} runs on", Form.FILE, data, document, refusal=(NOT_COUNTED, field.place))


def file_in_its_place(medium: Medium, position: int, file: Input) -> MediumInput:
    """The medium with another copy of one of its files."""
    return put_among(medium.documents[:position], file, medium.documents[position + 1:])


def faulty_media(rng: Random) -> Iterator[MediumInput]:
    """Every field of every file with the faults that the model knows, and figures that run on."""
    for files in FILES_WITH_FAULTS:
        medium = small_medium(rng, files)
        for position, document in enumerate(medium.documents):
            for file in faults_of_file(document):
                yield file_in_its_place(medium, position, file)
        yield from figures_run_on(medium)


def media_with_faulty_files(rng: Random) -> Iterator[MediumInput]:
    """Wrong supplements, and days in order and not, in a file ahead of others, among them or behind."""
    for document in islice(with_supplements(rng, taken=False), 0, None, ONE_SUPPLEMENT_IN):
        yield among_others(rng, wrong_supplement(document, Form.FILE))
    for days in pairs_of_days(rng)[::ONE_PAIR_IN]:
        yield among_others(rng, input_with(document_of(rng, rng.choice(KINDS), [()]), Form.FILE, days))


def among_others(rng: Random, file: Input) -> MediumInput:
    """The file with one to four small ones beside it."""
    others = small_medium(rng, rng.randint(1, MOST_FILES - 1)).documents
    position = rng.randint(0, len(others))
    return put_among(others[:position], file, others[position:])


def damaged_small_media(rng: Random) -> Iterator[MediumInput]:
    """A medium of small files, each of them damaged at every field as a file alone is."""
    medium = small_medium(rng, DAMAGED_FILES)
    for position, document in enumerate(medium.documents):
        yield from damaged_at(rng, medium, position, list(document.file.fields))
    yield from damaged_whole(rng, medium)


def damaged_media(rng: Random) -> Iterator[MediumInput]:
    """A file of each kind, damaged at few fields, on a medium with small ones."""
    for kind in KINDS:
        others = small_medium(rng, rng.randint(1, MOST_FILES - 1))
        yield from damaged_with(rng, others, any_document(rng, kind), FEW_FIELDS)


def damaged_medium(rng: Random, kind: bytes) -> Iterator[MediumInput]:
    """A file of this kind, damaged at many fields, on a medium with any others."""
    others = some_medium(rng, rng.choices(KINDS, k=rng.randint(1, MOST_FILES - 1)))
    return damaged_with(rng, others, any_document(rng, kind), MOST_FIELDS)


def damaged_with(rng: Random, others: Medium, document: Document, fields: int) -> Iterator[MediumInput]:
    """The medium with one document more, and its copies with damages; those at fields at so many of the document's."""
    position = rng.randint(0, len(others.documents))
    medium = Medium((*others.documents[:position], document, *others.documents[position:]))
    yield valid_medium("valid", medium)
    yield from damaged_at(rng, medium, position, chosen_fields(rng, document.file, fields))
    yield from damaged_whole(rng, medium)


def damaged_at(rng: Random, medium: Medium, position: int, fields: list[Placed]) -> Iterator[MediumInput]:
    """One file of the medium with all damages that a file alone gets."""
    document = medium.documents[position]
    for name, data in file_damages(rng, document, fields):
        yield file_in_its_place(medium, position, Input(name, Form.FILE, data, document))


def damaged_whole(rng: Random, medium: Medium) -> Iterator[MediumInput]:
    """Records moved from file to file, and damages at random places."""
    for name, data in (*moved_records(rng, medium.written), *random_damages(rng, medium.data)):
        yield MediumInput(name, data, medium)
