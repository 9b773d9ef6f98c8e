"""The model of a medium: the files of its documents end to end, with all places counted from its start."""

from collections.abc import Iterable
from dataclasses import dataclass, replace
from functools import cached_property
from itertools import accumulate

from .document import Document, Payment, Placed, Written


@dataclass(frozen=True)
class Medium:
    """One document or more, in the order of their files."""

    documents: tuple[Document, ...]

    @property
    def data(self) -> bytes:
        return b"".join(document.file.data for document in self.documents)

    @property
    def payments(self) -> list[Payment]:
        """The payments of all files: they run on from one file to the next."""
        return [payment for document in self.documents for payment in document.payments]

    @cached_property
    def file_ends(self) -> list[int]:
        """The byte behind each file."""
        return list(accumulate(len(document.file.data) for document in self.documents))

    @property
    def file_starts(self) -> list[int]:
        """The byte where each file begins."""
        return [0, *self.file_ends][:-1]

    @property
    def starts(self) -> list[int]:
        """The byte where each payment begins."""
        files = zip(self.file_starts, self.documents)
        return [file_start + start for file_start, document in files for start in document.starts]

    @cached_property
    def written(self) -> Written:
        return written_on_end(document.file for document in self.documents)


def written_on_end(files: Iterable[Written]) -> Written:
    """All files as one, where places and records count on."""
    pieces: list[bytes] = []
    placed: list[Placed] = []
    place = record = 0
    for file in files:
        moved = (replace(field, place=place + field.place, record=record + field.record) for field in file.fields)
        placed += moved
        pieces.append(file.data)
        place += len(file.data)
        record = placed[-1].record + 1
    return Written(b"".join(pieces), tuple(placed))
