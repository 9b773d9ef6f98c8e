"""The fields of the records A, C and E in file order, their widths and kinds; the fields of the listing."""

from dataclasses import dataclass
from enum import Enum
from functools import cache

SECTION = 128
TEXT_WIDTH = 27
PART_WIDTH = 2 + TEXT_WIDTH
MOST_PARTS = 15
# How many parts the second to the sixth section of a C take.
PARTS_OF_SECTION = (2, 4, 4, 4, 1)
TEXT_SIGNS = b"0123456789ABCDEFGHIJKLMNOPQRSTUVWXYZ .,&-/+*$%[\\]~"


class Kind(Enum):
    """What a field may hold, as far as wrong contents depend on it."""

    FIXED = "fixed bytes"
    BLANKS = "blanks"
    ZEROS = "zeros"
    DIGITS = "digits"
    TEXT = "text"


@dataclass(frozen=True)
class Field:
    """A field of a record; `content` is given where it is the same in every file."""

    name: str
    width: int
    kind: Kind
    content: bytes | None = None


def fixed(name: str, content: bytes) -> Field:
    return Field(name, len(content), Kind.FIXED, content)


def blanks(name: str, width: int) -> Field:
    return Field(name, width, Kind.BLANKS, b" " * width)


def zeros(name: str, width: int) -> Field:
    return Field(name, width, Kind.ZEROS, b"0" * width)


def digits(name: str, width: int) -> Field:
    return Field(name, width, Kind.DIGITS)


def text(name: str) -> Field:
    return Field(name, TEXT_WIDTH, Kind.TEXT)


HEADER_FIELDS = (
    fixed("A1", b"0128"), fixed("A2", b"A"), Field("A3", 2, Kind.FIXED), digits("A4", 8), digits("A5", 8),
    text("A6"), digits("A7", 6), blanks("A8", 4), digits("A9", 10), digits("A10", 10), blanks("A11a", 15),
    digits("A11b", 8), blanks("A11c", 24), fixed("A12", b"1"),
)

# The fields of a C up to its parts: the whole first section, and the second section's beginning.
PAYMENT_FIELDS = (
    digits("C1", 4), fixed("C2", b"C"), digits("C3", 8), digits("C4", 8), digits("C5", 10), digits("C6", 13),
    digits("C7a", 2), digits("C7b", 3), blanks("C8", 1), zeros("C9", 11), digits("C10", 8), digits("C11", 10),
    digits("C12", 11), blanks("C13", 3), text("C14a"), blanks("C14b", 8),
    text("C15"), text("C16"), fixed("C17a", b"1"), blanks("C17b", 2), digits("C18", 2),
)

TRAILER_FIELDS = (
    Field("E1", 4, Kind.DIGITS, b"0128"), fixed("E2", b"E"), blanks("E3", 5), digits("E4", 7),
    zeros("E5", 13), digits("E6", 17), digits("E7", 17), digits("E8", 13), blanks("E9", 51),
)

LISTED_HEADER = ("A3", "A4", "A5", "A6", "A7", "A9", "A10", "A11b")
LISTED_PAYMENT = ("C3", "C4", "C5", "C6", "C7a", "C7b", "C10", "C11", "C12", "C14a", "C15", "C16")

# The kinds of the listing's fields; a line's letter and a part's mark and text are named by what they are.
KIND_OF_FIELD = {field.name: field.kind for field in HEADER_FIELDS + PAYMENT_FIELDS}
KIND_OF_FIELD |= {"letter": Kind.FIXED, "mark": Kind.DIGITS, "text": Kind.TEXT}


def number(value: int, width: int) -> bytes:
    """A number at full width. A total beyond it loses its first digit: such a file is refused before E."""
    return b"%0*d" % (width, value % 10 ** width)


def width_of(fields: tuple[Field, ...]) -> int:
    return sum(field.width for field in fields)


def length_of_payment(parts: int) -> int:
    """The value of C1, which leaves out the closing blanks."""
    return width_of(PAYMENT_FIELDS) + PART_WIDTH * parts


def mark_name(part: int) -> str:
    return f"mark {part}"


def text_name(part: int) -> str:
    return f"text {part}"


def base_name(name: str) -> str:
    """The name of a field without the number of its part."""
    return name.split()[0]


@cache
def payment_fields(parts: int) -> tuple[Field, ...]:
    """All fields of a C with so many parts; each written section ends in its closing blanks."""
    fields = list(PAYMENT_FIELDS)
    used = width_of(PAYMENT_FIELDS) - SECTION
    first = 1
    for section, places in enumerate(PARTS_OF_SECTION, start=2):
        here = range(first, min(first + places, parts + 1))
        if section > 2 and not here:
            break
        for part in here:
            fields += [digits(mark_name(part), 2), text(text_name(part))]
        fields.append(blanks(f"closing {section}", SECTION - used - PART_WIDTH * len(here)))
        used = 0
        first += places
    return tuple(fields)
