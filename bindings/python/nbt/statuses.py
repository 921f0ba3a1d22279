"""Why a call did nothing: the statuses of the library, each a number that stands for one thing in all versions, and the
exceptions that have them."""
from __future__ import annotations

from typing import Any, Optional, Tuple

from .header import PLACED, Status

NUMBERS = frozenset(map(int, Status))


class NbtError(ValueError):
    """A call did nothing: `status` says why, and `at` where the fault stands, in bytes of the input, or None where it has
    no place. The text is the library's words, and the place. `number` is the status's; a newer library may answer one that
    this package doesn't know: its status is UNKNOWN_STATUS, and its text has the number."""

    def __init__(self, number: int, at: Optional[int], words: str) -> None:
        known = number in NUMBERS
        text = words if known else f'status {number}: {words}'
        super().__init__(text if at is None else f'{text} {at}')
        self.status = Status(number) if known else Status.UNKNOWN_STATUS
        self.number = int(number)
        self.at = at
        self.words = words

    def __reduce__(self) -> Tuple[Any, ...]:
        return type(self), (self.number, self.at, self.words), self.__dict__

    def __eq__(self, other: object) -> bool:
        if not isinstance(other, NbtError):
            return NotImplemented
        return (self.number, self.at) == (other.number, other.at)

    def __hash__(self) -> int:
        return hash((self.number, self.at))


class MoreNeeded(NbtError):
    """The packet isn't there whole yet: `missing` is how many bytes of it are missing, at least. `at` has the same number, and is no place."""

    @property
    def missing(self) -> int:
        """How many bytes are missing, at least."""
        return self.at or 0


def refusal(number: int, at: int, words: str) -> NbtError:
    """The error of a status, and of the place that came with it."""
    kind = MoreNeeded if number == Status.MORE else NbtError
    return kind(number, at if number in PLACED else None, words)
