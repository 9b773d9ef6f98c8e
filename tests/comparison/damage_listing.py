"""The damages of a listing."""

from collections.abc import Iterator
from random import Random

from .contents import Named
from .damage import (
    RANDOM_DAMAGES, cuts, exchanged, moved_records, other_contents, random_damages, replaced, trailing,
)
from .document import Document, Placed, Written
from .layout import MOST_PARTS, TEXT_WIDTH

TAB = b"\t"
E_LINE = b"E\t0000001\t00000000007654321\t00000000030050020\t0000000012345\n"
PART = b"\t02\tX"


def other_widths(written: Written, fields: list[Placed]) -> Iterator[Named]:
    """Each field emptied, lengthened and shortened; a blank at its end; a carriage return behind it."""
    for field in fields:
        content = written.content(field)
        widths = {
            "emptied": b"", "a blank behind": content + b" ", "a blank last": content[:-1] + b" ",
            "a blank before": b" " + content, "a digit more": content + b"0", "a letter more": content + b"X",
            "without its first": content[1:], "without its last": content[:-1], "twice": content * 2,
            "a carriage return behind": content + b"\r",
            "filled up": content.ljust(TEXT_WIDTH, b"X"), "overfull": content.ljust(TEXT_WIDTH + 1, b"X"),
        }
        for what, other in widths.items():
            if other != content:
                yield f"{field.name} of line {field.record}, {what}", replaced(written.data, field, other)


def with_line(lines: list[bytes], number: int, line: bytes) -> bytes:
    return b"".join(lines[:number] + [line] + lines[number + 1:])


def moved_in_line(rng: Random, contents: list[bytes], column: int) -> Iterator[Named]:
    """A line of fields with one of them dropped, doubled, or exchanged with another."""
    yield "dropped", TAB.join(contents[:column] + contents[column + 1:])
    yield "doubled", TAB.join(contents[:column + 1] + contents[column:])
    other = rng.randrange(len(contents))
    if contents[other] != contents[column]:
        yield f"exchanged with field {other}", exchanged(contents, column, other, TAB)


def moved_fields(rng: Random, written: Written, fields: list[Placed]) -> Iterator[Named]:
    """Each field moved in its line, a tab put before it, and what ends it taken away or made a line end."""
    data, lines = written.data, written.records()
    for field in fields:
        name = f"{field.name} of line {field.record}"
        line_start = data.rfind(b"\n", 0, field.place) + 1
        column = data.count(TAB, line_start, field.place)
        for what, line in moved_in_line(rng, lines[field.record][:-1].split(TAB), column):
            yield f"{name} {what}", with_line(lines, field.record, line + b"\n")
        yield f"a tab before {name}", data[:field.place] + TAB + data[field.place:]
        yield f"nothing behind {name}", data[:field.end] + data[field.end + 1:]
        yield f"a line end behind {name}", data[:field.end] + b"\n" + data[field.end + 1:]


def other_lines(rng: Random, written: Written) -> Iterator[Named]:
    """Lines of another form: fields added, no line end, empty lines, E lines; only some of a long listing."""
    lines = written.records()
    numbers = range(len(lines))
    for number in sorted(rng.sample(numbers, min(len(numbers), RANDOM_DAMAGES))):
        line = lines[number][:-1]
        # Whatever number of parts the line has, one of these makes sixteen, one more than there may be.
        for parts in range(1, MOST_PARTS + 2):
            longer = line + PART * parts + b"\n"
            yield f"{parts} parts more in line {number}", with_line(lines, number, longer)
        yield f"line {number} with a field more", with_line(lines, number, line + b"\t02\n")
        yield f"line {number} with an empty field more", with_line(lines, number, line + b"\t\n")
        yield f"line {number} without its end", with_line(lines, number, line)
        yield f"line {number} with a carriage return", with_line(lines, number, line + b"\r\n")
        yield f"an empty line before line {number}", with_line(lines, number, b"\n" + lines[number])
        yield f"an E line before line {number}", with_line(lines, number, E_LINE + lines[number])
    yield "an E line", written.data + E_LINE
    yield "the A line only", lines[0]
    yield "the C lines only", b"".join(lines[1:])


def listing_damages(rng: Random, document: Document, fields: list[Placed]) -> Iterator[Named]:
    """All damages of the document's listing; those at fields only for the fields given."""
    written = document.listing
    yield from other_contents(written, document, fields)
    yield from other_widths(written, fields)
    yield from moved_fields(rng, written, fields)
    yield from cuts(written, fields)
    yield from moved_records(rng, written)
    yield from other_lines(rng, written)
    yield from trailing(written)
    yield from random_damages(rng, written.data)
