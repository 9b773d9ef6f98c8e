"""The choice of requests about the view: payments, starts and texts that are there, and that are not."""

from collections.abc import Callable
from random import Random

from . import expected
from .document import Document, Payment
from .inputs import Input
from .layout import MOST_PARTS, SECTION
from .requests import FIND, HAND, HIGHEST, TEXT_OF_FIELD, VIEW, Request, asked_text

# The payments of a valid file that are asked for: the first, the last and at most so many others.
OTHER_PAYMENTS = 4
# How many texts are asked for beside a payment: at its start, at starts of no payment, by its number, by numbers
# that no payment has.
AT_START, AT_OTHER_STARTS, BY_NUMBER, BY_OTHER_NUMBERS = 5, 3, 4, 1
# A third of the hand-outs are of the three texts that have a field of their own; all else means a part.
FIELDS = (*TEXT_OF_FIELD, 0, 1, 13, 17, 114, HIGHEST)
# Stands where a call of the view looks at no number: it must be no length of anything lent.
UNUSED = HIGHEST
# Added to a number, it leaves the lower 16 bits as they are.
BEYOND_16_BITS = 1 << 16
# How far behind the end of a file a start may lie.
MOST_BEYOND = 2 * SECTION

# A field and a part, as a hand-out is asked for them.
Text = tuple[int, int]
Start = Callable[[Random, Document], int]


def start_of_payment(rng: Random, document: Document) -> int:
    return rng.choice(document.starts)


def beside_a_start(rng: Random, document: Document) -> int:
    return rng.choice(document.starts) + rng.choice((-1, 1))


def inside_a_payment(rng: Random, document: Document) -> int:
    start, end = some_borders(rng, document)
    return rng.randrange(start + 1, end)


def later_section(rng: Random, document: Document) -> int:
    start, end = some_borders(rng, document)
    return rng.randrange(start + SECTION, end, SECTION)


def start_of_header(rng: Random, document: Document) -> int:
    return 0


def start_of_trailer(rng: Random, document: Document) -> int:
    return len(document.file.data) - SECTION


def end_of_file(rng: Random, document: Document) -> int:
    return len(document.file.data)


def beyond_the_end(rng: Random, document: Document) -> int:
    return len(document.file.data) + rng.randint(1, MOST_BEYOND)


def beyond_16_bits(rng: Random, document: Document) -> int:
    return rng.choice(document.starts) + BEYOND_16_BITS


def highest(rng: Random, document: Document) -> int:
    return HIGHEST


OTHER_STARTS: tuple[Start, ...] = (
    beside_a_start, inside_a_payment, later_section, start_of_header, start_of_trailer, end_of_file,
    beyond_the_end, beyond_16_bits, highest,
)


def some_borders(rng: Random, document: Document) -> tuple[int, int]:
    """Where one of the payments begins and ends."""
    number = some_number(rng, document)
    borders = (*document.starts, len(document.file.data) - SECTION)
    return borders[number], borders[number + 1]


def some_number(rng: Random, document: Document) -> int:
    return rng.randrange(len(document.payments))


def other_numbers(document: Document) -> tuple[int, ...]:
    """Numbers that no payment has, as they count from 0."""
    count = len(document.payments)
    return (count, count + 1, BEYOND_16_BITS, HIGHEST)


def some_text(rng: Random, payment: Payment) -> Text:
    """Any text that a payment may be asked for; beside a field of its own the part does not count."""
    return rng.choice(FIELDS), rng.choice(parts(rng, payment))


def parts(rng: Random, payment: Payment) -> tuple[int, ...]:
    """Parts, counted from 1: the first, the last, any; those beside them; the most that there may be."""
    count = len(payment.parts)
    any_part = rng.randint(1, max(count, 1))
    return (0, 1, count, count + 1, any_part, MOST_PARTS, MOST_PARTS + 1, BEYOND_16_BITS + 1, HIGHEST)


def find_request(given: Input, n: int) -> Request:
    answer = expected.found(given.base, n) if given.valid else None
    return Request(FIND, given.data, (n, UNUSED, UNUSED, UNUSED), expected=answer)


def hand_request(given: Input, start: int, text: Text) -> Request:
    answer = expected.handed(given.base, start, asked_text(*text)) if given.valid else None
    return Request(HAND, given.data, (start, *text, UNUSED), expected=answer)


def view_request(given: Input, n: int, text: Text) -> Request:
    answer = expected.viewed(given.base, n, asked_text(*text)) if given.valid else None
    return Request(VIEW, given.data, (n, *text, UNUSED), expected=answer)


def view_requests(rng: Random, given: Input) -> list[Request]:
    """The requests for a valid file: some of its payments and their texts, and what it does not have."""
    document = given.base
    others = (some_number(rng, document) for _ in range(OTHER_PAYMENTS))
    chosen = sorted({0, len(document.payments) - 1, *others})
    requests = [find_request(given, n) for n in (*chosen, *other_numbers(document))]
    for number in chosen:
        requests += text_requests(rng, given, number)
    return requests + every_text(given, some_number(rng, document))


def every_text(given: Input, number: int) -> list[Request]:
    """All texts that one payment of a valid file has, at its start and by its number."""
    start, payment = given.base.starts[number], given.base.payments[number]
    texts = [(field, 0) for field in TEXT_OF_FIELD] + [(0, part + 1) for part in range(len(payment.parts))]
    return [request for text in texts for request in
            (hand_request(given, start, text), view_request(given, number, text))]


def text_requests(rng: Random, given: Input, number: int) -> list[Request]:
    """Requests for texts of one payment of a valid file, some where there is no payment."""
    document = given.base
    payment = document.payments[number]
    starts = [document.starts[number]] * AT_START
    starts += [other(rng, document) for other in rng.sample(OTHER_STARTS, AT_OTHER_STARTS)]
    asked = [number] * BY_NUMBER + rng.sample(other_numbers(document), BY_OTHER_NUMBERS)
    requests = [hand_request(given, start, some_text(rng, payment)) for start in starts]
    return requests + [view_request(given, n, some_text(rng, payment)) for n in asked]


def few_view_requests(rng: Random, given: Input) -> list[Request]:
    """One request of each call for any other input, around the document that it was made from."""
    document = given.base
    number = rng.choice((some_number(rng, document), rng.choice(other_numbers(document))))
    start = rng.choice((start_of_payment, rng.choice(OTHER_STARTS)))(rng, document)
    text = some_text(rng, rng.choice(document.payments))
    return [find_request(given, number), hand_request(given, start, text), view_request(given, number, text)]
