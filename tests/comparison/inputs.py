"""An input of the comparison: its bytes, what they are meant as, and what they were made from."""

from dataclasses import dataclass
from enum import Enum

from .document import Document, Written
from .medium import Medium

# Number and place.
Refusal = tuple[int, int]


class Form(Enum):
    """What an input from one document is meant as; damaged ones are sent as what they were before."""

    FILE = "files"
    LISTING = "listings"


@dataclass(frozen=True, slots=True)
class Input:
    """The requests lend columns and outputs around the sizes of `base`, whose damaged copy the input is.

    `refusal` is the number and the place that a damaged input is refused with, where the model knows them.
    """

    name: str
    form: Form
    data: bytes
    base: Document
    valid: bool = False
    refusal: Refusal | None = None

    @property
    def counted_as(self) -> str:
        return self.form.value


@dataclass(frozen=True, slots=True)
class MediumInput:
    """An input that is meant as a medium; `base` and `refusal` are as of an input from one document."""

    name: str
    data: bytes
    base: Medium
    valid: bool = False
    refusal: Refusal | None = None

    @property
    def counted_as(self) -> str:
        return "media"


Given = Input | MediumInput


def written_as(document: Document, form: Form) -> Written:
    return document.file if form is Form.FILE else document.listing


def valid_input(name: str, form: Form, document: Document) -> Input:
    return Input(name, form, written_as(document, form).data, document, valid=True)


def valid_medium(name: str, medium: Medium) -> MediumInput:
    return MediumInput(name, medium.data, medium, valid=True)


def put_among(before: tuple[Document, ...], file: Input, behind: tuple[Document, ...]) -> MediumInput:
    """A file, valid or damaged, on a medium with others.

    What the model knows to be refused in it is refused there as well: these are refusals at a field that is
    there, whatever follows the file.
    """
    medium = Medium((*before, file.base, *behind))
    start = medium.file_starts[len(before)]
    data = Medium(before).data + file.data + Medium(behind).data
    name = f"{file.name}, in file {len(before) + 1} of {len(medium.documents)}"
    refusal = (file.refusal[0], start + file.refusal[1]) if file.refusal else None
    return MediumInput(name, data, medium, file.valid, refusal)


def as_medium(file: Input) -> MediumInput:
    """A file alone is a medium of one."""
    return put_among((), file, ())
