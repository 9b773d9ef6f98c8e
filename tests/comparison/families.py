"""The numbered families of inputs, each from its own random numbers: special ones, then damaged documents and media."""

from collections.abc import Callable, Iterator
from itertools import chain
from random import Random

from .damage import chosen_fields
from .damage_file import file_damages
from .damage_listing import listing_damages
from .damage_medium import (
    damaged_media, damaged_medium, damaged_small_media, faulty_media, media_with_faulty_files,
)
from .days import tried_days
from .document import Document, Placed
from .inputs import Form, Given, Input, valid_input, written_as
from .layout import MOST_PARTS, base_name
from .media import cut_media, media_at_top, media_with_junk, valid_media
from .shapes import (
    KINDS, MARK_ORDERS, all_counts, all_dates, all_keys, all_orders, all_signs, altered_marks, any_document,
    document_of, small_document,
)
from .specials import lengths, random_inputs, swept_bytes, totals, wrong_supplements

# Small documents, damaged at every field: each kind of file, as a file and as a listing.
SMALL_FAMILIES = 2 * len(KINDS)
# Payments damaged at every field of their parts and sections: each number of parts, in both forms.
PARTS_FAMILIES = 2 * (MOST_PARTS + 1)
PARTS_FIELDS = ("mark", "text", "closing")
# How many fields of other documents are damaged, chosen at random; those of long ones are the fewer.
MOST_FIELDS = 90
MOST_FIELDS_OF_LONG = 24
LONG = 10


def valid_shapes(rng: Random) -> Iterator[Input]:
    """Every shape of a valid document, as a file and as a listing."""
    makers = (all_orders, all_counts, all_dates, all_keys, all_signs)
    for document in chain.from_iterable(maker(rng) for maker in makers):
        for form in Form:
            yield valid_input("valid", form, document)


def orders_of_marks(rng: Random) -> Iterator[Input]:
    """Every legal order of marks with one mark changed; all else, C18 and E included, agrees with it."""
    for marks in altered_marks():
        document = document_of(rng, rng.choice(KINDS), [marks])
        for form in Form:
            data = written_as(document, form).data
            yield Input(f"marks {marks}", form, data, document, valid=marks in MARK_ORDERS)


FIRST_FAMILIES: tuple[Callable[[Random], Iterator[Given]], ...] = (
    lengths, totals, random_inputs, valid_shapes, orders_of_marks, swept_bytes, wrong_supplements, tried_days,
    valid_media, media_at_top, cut_media, media_with_junk, faulty_media, media_with_faulty_files,
    damaged_small_media, damaged_media,
)


# A run has at least so many families: the first ones, and all those of small documents and of parts.
NEEDED_FAMILIES = len(FIRST_FAMILIES) + SMALL_FAMILIES + PARTS_FAMILIES
# Behind these a file, a listing and a medium take turns.
TURNS = len(Form) + 1


def document_with(rng: Random, kind: bytes, parts: int) -> Document:
    """A document of one payment with so many parts."""
    return document_of(rng, kind, [rng.choice([marks for marks in MARK_ORDERS if len(marks) == parts])])


def small_or_parts(rng: Random, number: int) -> Iterator[Input]:
    """The family of a small document, or of one with so many parts; files and listings take turns."""
    form = Form.FILE if number % 2 == 0 else Form.LISTING
    kind = KINDS[number // 2 % len(KINDS)]
    if number < SMALL_FAMILIES:
        document = small_document(rng, kind)
        return damaged(rng, document, form, list(written_as(document, form).fields))
    document = document_with(rng, kind, (number - SMALL_FAMILIES) // 2)
    fields = [field for field in written_as(document, form).fields if base_name(field.name) in PARTS_FIELDS]
    return damaged(rng, document, form, fields)


def further(rng: Random, number: int) -> Iterator[Given]:
    """The family of any document or medium, damaged at some of its fields."""
    kind = KINDS[number // TURNS % len(KINDS)]
    form = dict(enumerate(Form)).get(number % TURNS)
    if form is None:
        return damaged_medium(rng, kind)
    document = any_document(rng, kind)
    most = MOST_FIELDS if len(document.payments) < LONG else MOST_FIELDS_OF_LONG
    return damaged(rng, document, form, chosen_fields(rng, written_as(document, form), most))


def damaged(rng: Random, document: Document, form: Form, fields: list[Placed]) -> Iterator[Input]:
    """A document and its damaged copies; damages at fields only for the fields given."""
    yield valid_input("valid", form, document)
    damages = file_damages if form is Form.FILE else listing_damages
    for name, data in damages(rng, document, fields):
        yield Input(name, form, data, document)


def family(seed: int, number: int) -> Iterator[Given]:
    """The inputs of a family, the same ones for every run with this seed."""
    rng = Random(f"{seed}/{number}")
    if number < len(FIRST_FAMILIES):
        return FIRST_FAMILIES[number](rng)
    if number < NEEDED_FAMILIES:
        return small_or_parts(rng, number - len(FIRST_FAMILIES))
    return further(rng, number - NEEDED_FAMILIES)
