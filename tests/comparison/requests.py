"""The requests that dtprobe reads, and how far an answer reaches in what it prints."""

from dataclasses import dataclass
from itertools import islice

from .layout import text_name

MOST_BYTES = 65_536
MOST_ROWS = 256
ROW_WIDTH = 17

CHECK, LOAD, CHECK_MEDIUM, LOAD_MEDIUM = b"C", b"L", b"N", b"O"
LIST, COMPOSE, FIND, HAND, VIEW = b"P", b"M", b"F", b"H", b"V"
NAME_OF_CALL = {
    CHECK: "check", LOAD: "load", CHECK_MEDIUM: "check medium", LOAD_MEDIUM: "load medium",
    LIST: "list", COMPOSE: "compose", FIND: "find", HAND: "hand", VIEW: "view",
}
# The line of figures; for a load one line more for each of its four or nine columns, for a view the text handed
# out.
LINES_OF_ANSWER = {
    CHECK: 1, LOAD: 5, CHECK_MEDIUM: 1, LOAD_MEDIUM: 10, LIST: 1, COMPOSE: 1, FIND: 1, HAND: 1, VIEW: 2,
}
# So many numbers stand on the head line behind the input's length, and so many on that of a call over media.
OTHER_NUMBERS, OTHER_NUMBERS_OVER_MEDIA = 4, 11

# Stands for 2^64 - 1 where a payment, a start or a part is asked for.
HIGHEST = 999_999
# The texts that are asked for by the number of their field; any other number means the text of a part.
TEXT_OF_FIELD = {14: "C14a", 15: "C15", 16: "C16"}

Column = tuple[int, ...]


@dataclass(frozen=True, slots=True)
class Request:
    """A call with its input and what is lent to it; `expected` is the answer, where the model knows it.

    The numbers are the lengths of what is lent. Nothing is lent to a check, nor to the calls of the view: there
    they are a payment or a start, a field and a part.
    """

    call: bytes
    data: bytes
    numbers: tuple[int, ...] = ()
    lent: bytes = b""
    expected: bytes | None = None

    @property
    def columns(self) -> list[Column]:
        """The columns that a load is lent, of a file or of a medium."""
        rows = iter(rows_of(self.lent))
        return [tuple(islice(rows, count)) for count in self.numbers]

    def wire(self) -> bytes:
        """The request as dtprobe reads it."""
        over_media = self.call in (CHECK_MEDIUM, LOAD_MEDIUM)
        unused = (OTHER_NUMBERS_OVER_MEDIA if over_media else OTHER_NUMBERS) - len(self.numbers)
        numbers = (len(self.data), *self.numbers, *[0] * unused)
        return self.call + b"".join(b" %06d" % number for number in numbers) + b"\n" + self.data + self.lent

    def answer_end(self, printed: bytes, start: int) -> int | None:
        """Where the answer that begins at `start` ends, or None where it is not whole."""
        end = start
        for _ in range(LINES_OF_ANSWER[self.call]):
            end = printed.find(b"\n", end) + 1
            if end == 0:
                return None
        if self.call in (LIST, COMPOSE):
            # The whole output and a line end follow, and the output may hold line ends of its own.
            end += len(self.lent) + 1
        return end if end <= len(printed) else None


def asked_text(field: int, part: int) -> str:
    """The name of the text that a hand-out is asked for."""
    return TEXT_OF_FIELD.get(field, text_name(part))


def rows_of(lent: bytes) -> Column:
    """A column's rows from their digits."""
    return tuple(int(lent[place:place + ROW_WIDTH]) for place in range(0, len(lent), ROW_WIDTH))
