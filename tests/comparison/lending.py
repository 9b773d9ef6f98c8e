"""The choice of requests for an input: which calls, and columns and outputs of which lengths and contents."""

from collections.abc import Callable
from dataclasses import replace
from random import Random

from . import expected
from .inputs import Form, Given, Input, MediumInput, as_medium
from .requests import (
    CHECK, CHECK_MEDIUM, COMPOSE, HIGHEST, LIST, LOAD, LOAD_MEDIUM, MOST_BYTES, MOST_ROWS,
    OTHER_NUMBERS_OVER_MEDIA, ROW_WIDTH, Request,
)
from .viewing import few_view_requests, view_requests

# C4, C5, C12 and start of each payment; start, count and three sums of each file of a medium.
COLUMNS_OF_PAYMENTS, COLUMNS_OF_FILES = 4, 5
# One in so many damaged inputs is also sent to the calls that are meant for the other form, or for one file.
OTHER_FORM = 8
# Every file is also checked as a medium; one in so many damaged ones is loaded as one, too.
LOADED_AS_MEDIUM = 4
# Turns a random byte into a digit.
DIGITS = bytes(ord("0") + byte % 10 for byte in range(256))

# The rows of each column: those needed, and those lent.
Rows = tuple[int, ...]
Room = Callable[[Random, Rows], Rows]


def exact(rng: Random, needed: Rows) -> Rows:
    return needed


def longer(rng: Random, needed: Rows) -> Rows:
    return tuple(rows + rng.randint(0, 3) for rows in needed)


def one_short(rng: Random, needed: Rows) -> Rows:
    return short_at(rng.randrange(len(needed)))(rng, needed)


def none(rng: Random, needed: Rows) -> Rows:
    return (0,) * len(needed)


def short_at(column: int) -> Room:
    """Room for all rows but the last one of this column."""
    def room(rng: Random, needed: Rows) -> Rows:
        rows = list(rng.choice((exact, longer))(rng, needed))
        rows[column] = needed[column] - 1
        return tuple(rows)
    return room


COLUMN_ROOMS: tuple[Room, ...] = (exact, longer, one_short, none)
# For a valid medium each of the nine columns is once the one that is too short.
MEDIUM_ROOMS: tuple[Room, ...] = (
    exact, longer, none, *(short_at(column) for column in range(COLUMNS_OF_PAYMENTS + COLUMNS_OF_FILES)),
)


def output_rooms(rng: Random, length: int) -> tuple[int, ...]:
    """Outputs of exactly the length, more, one byte less, and none."""
    return (length, length + rng.randint(1, 40), length - 1, 0)


def request_with_columns(rng: Random, call: bytes, data: bytes, lent: Rows) -> Request:
    """A load that is lent columns of so many rows, filled at random."""
    rooms = tuple(min(rows, MOST_ROWS) for rows in lent)
    return Request(call, data, rooms, rng.randbytes(ROW_WIDTH * sum(rooms)).translate(DIGITS))


def load_request(rng: Random, given: Input, room: Room) -> Request:
    needed = (len(given.base.payments),) * COLUMNS_OF_PAYMENTS
    request = request_with_columns(rng, LOAD, given.data, room(rng, needed))
    answer = expected.loaded(given.base, request.columns) if given.valid else None
    return replace(request, expected=answer)


def check_medium_request(given: MediumInput) -> Request:
    answer = expected.medium_checked(given.base) if given.valid else None
    # It looks at no number: they must be no lengths of anything lent.
    return Request(CHECK_MEDIUM, given.data, (HIGHEST,) * OTHER_NUMBERS_OVER_MEDIA, expected=answer)


def load_medium_request(rng: Random, given: MediumInput, room: Room) -> Request:
    medium = given.base
    needed = (len(medium.payments),) * COLUMNS_OF_PAYMENTS + (len(medium.documents),) * COLUMNS_OF_FILES
    request = request_with_columns(rng, LOAD_MEDIUM, given.data, room(rng, needed))
    answer = expected.medium_loaded(medium, request.columns) if given.valid else None
    return replace(request, expected=answer)


def output_request(rng: Random, given: Input, call: bytes, room: int) -> Request:
    """A listing or composing call; only a valid input sent as its own form has a known answer."""
    output = rng.randbytes(min(room, MOST_BYTES))
    known = given.valid and (call == LIST) == (given.form is Form.FILE)
    answer = expected.put_out(written_by(call, given), output) if known else None
    return Request(call, given.data, (len(output),), output, answer)


def written_by(call: bytes, given: Input) -> bytes:
    """What the call would write for the document that the input was made from."""
    return (given.base.listing if call == LIST else given.base.file).data


def file_requests(rng: Random, given: Input) -> list[Request]:
    answer = expected.checked(given.base) if given.valid else None
    requests = [Request(CHECK, given.data, expected=answer)]
    rooms = output_rooms(rng, len(given.base.listing.data))
    if given.valid:
        requests += [load_request(rng, given, room) for room in COLUMN_ROOMS]
        requests += [output_request(rng, given, LIST, room) for room in rooms]
        return requests + requests_as_medium(rng, given) + view_requests(rng, given)
    requests.append(load_request(rng, given, rng.choice(COLUMN_ROOMS)))
    requests.append(output_request(rng, given, LIST, rng.choice(rooms)))
    requests += requests_as_medium(rng, given) + few_view_requests(rng, given)
    if rng.randrange(OTHER_FORM) == 0:
        requests.append(output_request(rng, given, COMPOSE, len(given.base.file.data)))
    return requests


def requests_as_medium(rng: Random, file: Input) -> list[Request]:
    """The requests for a file that is taken for a medium of one."""
    given = as_medium(file)
    requests = [check_medium_request(given)]
    if given.valid or rng.randrange(LOADED_AS_MEDIUM) == 0:
        requests.append(load_medium_request(rng, given, rng.choice(COLUMN_ROOMS)))
    return requests


def listing_requests(rng: Random, given: Input) -> list[Request]:
    rooms = output_rooms(rng, len(given.base.file.data))
    if given.valid:
        return [output_request(rng, given, COMPOSE, room) for room in rooms]
    requests = [output_request(rng, given, COMPOSE, room) for room in rng.sample(rooms, 2)]
    if rng.randrange(OTHER_FORM) == 0:
        requests.append(Request(CHECK, given.data))
        requests.append(load_request(rng, given, rng.choice(COLUMN_ROOMS)))
        requests.append(output_request(rng, given, LIST, len(given.base.listing.data)))
        requests += requests_as_medium(rng, given) + few_view_requests(rng, given)
    return requests


def medium_requests(rng: Random, given: MediumInput) -> list[Request]:
    requests = [check_medium_request(given)]
    if given.valid:
        requests += [load_medium_request(rng, given, room) for room in MEDIUM_ROOMS]
        return [*requests, Request(CHECK, given.data, expected=expected.checked_as_file(given.base))]
    requests.append(load_medium_request(rng, given, rng.choice(COLUMN_ROOMS)))
    if rng.randrange(OTHER_FORM) == 0:
        requests.append(Request(CHECK, given.data))
    return requests


def requests_for(rng: Random, given: Given) -> list[Request]:
    """The requests for an input; none where it is longer than dtprobe takes: only the programs are fed it."""
    if len(given.data) > MOST_BYTES:
        return []
    if isinstance(given, MediumInput):
        requests = medium_requests(rng, given)
    else:
        requests = file_requests(rng, given) if given.form is Form.FILE else listing_requests(rng, given)
    return [held_to_refusal(request, given) for request in requests] if given.refusal else requests


def held_to_refusal(request: Request, given: Given) -> Request:
    """The request with the refusal for its answer, if its call is meant for such inputs."""
    if not is_meant_for(request.call, given):
        return request
    return replace(request, expected=expected.refused(request, *given.refusal))


def is_meant_for(call: bytes, given: Given) -> bool:
    """A file is a medium, too; a medium of several files is no file."""
    if isinstance(given, MediumInput):
        return call in (CHECK_MEDIUM, LOAD_MEDIUM)
    return (call == COMPOSE) == (given.form is Form.LISTING)
