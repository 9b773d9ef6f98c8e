"""Damages that files and listings share: other contents, cuts, moved bytes, moved records."""

from collections.abc import Iterator
from random import Random

from .contents import Named, contents_for
from .document import Document, Placed, Written
from .layout import TEXT_SIGNS

# How many inputs of each kind of random damage a family has.
RANDOM_DAMAGES = 12
# What random bytes are drawn from: all bytes, the text signs, digits, and the listing's own bytes.
ALPHABETS = (bytes(range(256)), TEXT_SIGNS, b"0123456789", b"0123456789 AC\t\n")
TRAILING = (b"\n", b"\x1a", b" ", b"\x00", b"0", b"0128", b"\r\n", b" " * 128)


def replaced(data: bytes, field: Placed, content: bytes) -> bytes:
    return data[:field.place] + content + data[field.end:]


def other_contents(written: Written, document: Document, fields: list[Placed]) -> Iterator[Named]:
    """Every doubtful content in each of the given fields."""
    for field in fields:
        content = written.content(field)
        for what, other in contents_for(field, content, document.header):
            if other != content:
                yield f"{field.name} of record {field.record}, {what}", replaced(written.data, field, other)


def chosen_fields(rng: Random, written: Written, most: int) -> list[Placed]:
    """All fields, or as many as are damaged, in the order in which they stand."""
    numbers = range(len(written.fields))
    return [written.fields[number] for number in sorted(rng.sample(numbers, min(most, len(numbers))))]


def cuts(written: Written, fields: list[Placed]) -> Iterator[Named]:
    """Cut at the beginning and the end of each field, and one byte beside them."""
    borders = {border for field in fields for border in (field.place, field.end)}
    lengths = {border + beside for border in borders for beside in (-1, 0, 1)}
    for length in sorted(lengths):
        if 0 <= length < len(written.data):
            yield f"cut after {length} bytes", written.data[:length]


def random_bytes(rng: Random, length: int) -> bytes:
    return bytes(rng.choices(rng.choice(ALPHABETS), k=length))


def byte_inserted(rng: Random, data: bytes) -> bytes:
    place = rng.randint(0, len(data))
    return data[:place] + random_bytes(rng, 1) + data[place:]


def byte_removed(rng: Random, data: bytes) -> bytes:
    place = rng.randrange(max(1, len(data)))
    return data[:place] + data[place + 1:]


def bytes_exchanged(rng: Random, data: bytes) -> bytes:
    place = rng.randrange(max(1, len(data) - 1))
    return data[:place] + data[place:place + 2][::-1] + data[place + 2:]


def byte_replaced(rng: Random, data: bytes) -> bytes:
    place = rng.randrange(max(1, len(data)))
    return data[:place] + random_bytes(rng, 1) + data[place + 1:]


def stretch_replaced(rng: Random, data: bytes) -> bytes:
    place = rng.randrange(max(1, len(data)))
    length = rng.randint(1, 40)
    return data[:place] + random_bytes(rng, length) + data[place + length:]


def end_replaced(rng: Random, data: bytes) -> bytes:
    place = rng.randrange(max(1, len(data)))
    return data[:place] + random_bytes(rng, rng.randint(0, 300))


def several(rng: Random, data: bytes) -> bytes:
    for _ in range(rng.randint(2, 4)):
        data = rng.choice(SINGLE)(rng, data)
    return data


SINGLE = (byte_inserted, byte_removed, bytes_exchanged, byte_replaced, stretch_replaced, end_replaced)


def random_damages(rng: Random, data: bytes) -> Iterator[Named]:
    for damage in SINGLE + (several,):
        for _ in range(RANDOM_DAMAGES):
            yield damage.__name__.replace("_", " "), damage(rng, data)


def moved_records(rng: Random, written: Written) -> Iterator[Named]:
    """Records of a file, or lines of a listing, dropped, doubled and exchanged; only some of a long one."""
    records = written.records()
    numbers = list(range(len(records)))
    for number in sorted(rng.sample(numbers, min(len(numbers), RANDOM_DAMAGES))):
        yield f"record {number} dropped", b"".join(records[:number] + records[number + 1:])
        yield f"record {number} doubled", b"".join(records[:number + 1] + records[number:])
        other = rng.choice(numbers)
        for with_record in sorted({other, (number + 1) % len(records)} - {number}):
            yield f"records {number} and {with_record} exchanged", exchanged(records, number, with_record)


def exchanged(pieces: list[bytes], first: int, second: int, between: bytes = b"") -> bytes:
    """The pieces joined again, two of them in each other's place."""
    moved = list(pieces)
    moved[first], moved[second] = pieces[second], pieces[first]
    return between.join(moved)


def trailing(written: Written) -> Iterator[Named]:
    """Something behind the end, at last the whole once more."""
    for more in TRAILING + (written.data,):
        yield f"{len(more)} bytes more, from {more[:1]!r}", written.data + more
