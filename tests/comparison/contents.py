"""Wrong, doubtful and merely other contents for a field, by its kind and by its name."""

from collections.abc import Iterator
from datetime import date, timedelta

from .document import Header, Placed
from .layout import MOST_PARTS, Kind, base_name, length_of_payment, number
from .shapes import NAMED_SUPPLEMENTS

Named = tuple[str, bytes]

# Bytes to stand at a field's first and at its last place.
BYTES_OF_KIND = {
    Kind.FIXED: b" 0X\x00",
    Kind.BLANKS: b"X0@\n",
    Kind.ZEROS: b"1X ",
    Kind.DIGITS: b"0189X /:",
    Kind.TEXT: b" a\x1f@`\x8e\t\n",
}

# Bytes to fill a field with.
FILLINGS_OF_KIND = {
    Kind.FIXED: b" 0",
    Kind.BLANKS: b"0X",
    Kind.ZEROS: b"9 ",
    Kind.DIGITS: b" 09",
    Kind.TEXT: b" 09~",
}

LENGTHS = tuple(number(length_of_payment(parts), 4) for parts in range(MOST_PARTS + 1))
OTHER_LENGTHS = (
    b"0000", b"0127", b"0128", b"0129", b"0158", b"0186", b"0188", b"0256", b"0623", b"0651", b"9999",
)

# Whole contents to stand in a field, by its name.
CONTENTS_OF_FIELD = {
    "letter": (b"A", b"C", b"E", b"a", b"c", b"CC", b"AC", b"B"),
    "A3": (b"GK", b"LK", b"GB", b"LB", b"GX", b"XK", b"KG", b"gk", b"LG", b"G "),
    "C1": LENGTHS + OTHER_LENGTHS,
    "C7a": (b"04", b"05", b"51", b"53", b"54", b"56", b"00", b"06", b"09", b"50", b"52", b"55", b"57"),
    "C7b": tuple(number(named, 3) for named in NAMED_SUPPLEMENTS) + (b"051",),
    "C18": tuple(number(parts, 2) for parts in range(MOST_PARTS + 2)) + (b"99",),
    "E1": LENGTHS + OTHER_LENGTHS,
    "mark": (b"00", b"01", b"02", b"03", b"04", b"99"),
}

NO_DAYS = ("00", "32")
# Days and months that only some years have, or none, or all.
DOUBTFUL_DAYS = ("3104", "3106", "3109", "3111", "3002", "3102", "2902", "2802", "0100", "0113", "3112")


def created_contents(header: Header) -> Iterator[Named]:
    """Contents for A7: no days, other days, and days that the execution is too early or too late for."""
    for day in NO_DAYS:
        yield f"day {day}", day.encode() + written_creation(header.created)[2:]
    for year in ("00", "03", "04", "79", "80", "99"):
        for day in DOUBTFUL_DAYS:
            yield f"{day} of year {year}", (day + year).encode()
    for days in (-16, -15, -1, 1, 15, 16):
        yield f"{days} days moved", written_creation(header.created + timedelta(days=days))


def execution_contents(header: Header) -> Iterator[Named]:
    """Contents for A11b: no days, days at both borders of the span, other centuries, partly blank ones."""
    for days in (-1, 0, 1, 14, 15, 16):
        yield f"{days} days after A7", written_execution(header.created + timedelta(days=days))
    for day in NO_DAYS:
        yield f"day {day}", (day + header.created.strftime("%m%Y")).encode()
    for year in (0, 1900, 2000, 2100, header.created.year, header.created.year + 1):
        for day in ("3104", "2902", "0113", "0100", header.created.strftime("%d%m")):
            yield f"{day} of year {year}", f"{day}{year:04d}".encode()
    whole = written_execution(header.created)
    for width in (1, 4, 7):
        yield f"{width} blanks before", b" " * width + whole[width:]
        yield f"{width} blanks behind", whole[:-width] + b" " * width


def written_creation(day: date) -> bytes:
    return day.strftime("%d%m%y").encode()


def written_execution(day: date) -> bytes:
    # The year apart, since strftime leaves out the zeros ahead of an early one.
    return f"{day:%d%m}{day.year:04}".encode()


def neighbours(content: bytes) -> Iterator[Named]:
    """The number one above and one below, at the same width."""
    if content.isdigit():
        yield "plus one", number(int(content) + 1, len(content))
        yield "minus one", number(int(content) - 1, len(content))


def with_byte(field: Placed, content: bytes) -> Iterator[Named]:
    """Each byte of the kind's table at the first and at the last place of the field."""
    for byte in BYTES_OF_KIND[field.kind]:
        one = bytes([byte])
        yield f"{byte:02X} first", one + content[1:]
        yield f"{byte:02X} last", content[:-1] + one


def contents_for(field: Placed, content: bytes, header: Header) -> Iterator[Named]:
    """Every other content that is tried in a field holding `content`."""
    yield from with_byte(field, content)
    for byte in FILLINGS_OF_KIND[field.kind]:
        yield f"filled with {byte:02X}", bytes([byte]) * field.width
    if field.kind is Kind.DIGITS:
        yield from neighbours(content)
    for whole in CONTENTS_OF_FIELD.get(base_name(field.name), ()):
        yield f"holding {whole!r}", whole
    if field.name == "A7":
        yield from created_contents(header)
    if field.name == "A11b":
        yield from execution_contents(header)
