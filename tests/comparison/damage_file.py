"""The damages of a file."""

from collections.abc import Iterator
from random import Random

from .contents import Named
from .damage import cuts, moved_records, other_contents, random_damages, replaced, trailing
from .document import Document, Placed, Written
from .layout import MOST_PARTS, length_of_payment, number


def figures_exchanged(written: Written) -> Iterator[Named]:
    """The sum of accounts where the sum of bank codes belongs, and the reverse."""
    accounts, bank_codes = (field for field in written.fields if field.name in ("E6", "E7"))
    damaged = replaced(written.data, accounts, written.content(bank_codes))
    yield "E6 and E7 exchanged", replaced(damaged, bank_codes, written.content(accounts))


def lengths_agreeing(written: Written, fields: list[Placed]) -> Iterator[Named]:
    """C1 and C18 both of another number of parts than the record has."""
    lengths = [field for field in fields if field.name == "C1"]
    numbers = {field.record: field for field in written.fields if field.name == "C18"}
    for field in lengths:
        for parts in range(MOST_PARTS + 1):
            damaged = replaced(written.data, field, number(length_of_payment(parts), 4))
            damaged = replaced(damaged, numbers[field.record], number(parts, 2))
            if damaged != written.data:
                yield f"C1 and C18 of {parts} parts in record {field.record}", damaged


def file_damages(rng: Random, document: Document, fields: list[Placed]) -> Iterator[Named]:
    """All damages of the document's file; those at fields only for the fields given."""
    written = document.file
    yield from other_contents(written, document, fields)
    yield from figures_exchanged(written)
    yield from lengths_agreeing(written, fields)
    yield from cuts(written, fields)
    yield from moved_records(rng, written)
    yield from trailing(written)
    yield from random_damages(rng, written.data)
