"""The shape of a jury, and ballots as the bytes that the core reads."""

from __future__ import annotations

from collections.abc import Iterable, Sequence
from typing import NamedTuple

from .library import call

MOST_CANDIDATES, MOST_GRADES, MOST_BALLOTS = 8, 7, 255


class Measure(NamedTuple):
    """What the own list of a shape needs: its gates (G), the conditional ones (C), the ballot bytes (I)."""

    gates: int
    conditional: int
    inputs: int


class Shape(NamedTuple):
    """How many candidates, grades (0 for a ranking) and ballots a jury has. The core tests their limits.

    >>> Shape(2, 3, 3).inputs
    18
    """

    candidates: int
    grades: int
    ballots: int

    @property
    def ranked(self) -> bool:
        """Whether the jury ranks its candidates."""
        return self.grades == 0

    @property
    def row(self) -> int:
        """The bytes of a ballot for one candidate: one for each grade, or for each candidate in a ranking."""
        return self.candidates if self.ranked else self.grades

    @property
    def inputs(self) -> int:
        """The number of ballot bytes of the whole jury (I)."""
        return self.ballots * self.candidates * self.row

    def measure(self) -> Measure:
        """The size of the shape's own list, found without writing it."""
        return Measure(*call("jugy_measure", *self, answers=5))

    def encode(self, ballots: Iterable[Sequence[int]]) -> bytes:
        """The ballot bytes of a jury. A ballot has a number for each candidate: its grade from 1, the best, or its
        place in a ranking, where smaller is better and equal numbers are a tie.

        >>> list(Shape(2, 3, 1).encode([[1, 3]]))
        [1, 0, 0, 0, 0, 1]
        >>> list(Shape(2, 0, 1).encode([[1, 2]]))
        [0, 1, 0, 0]
        """
        rows = bytearray()
        for number, ballot in enumerate(ballots):
            if len(ballot) != self.candidates:
                raise ValueError(f"ballot {number} has {len(ballot)} candidates, not {self.candidates}")
            if self.ranked:
                rows += bytes(x < y for x in ballot for y in ballot)
                continue
            for grade in ballot:
                if not 1 <= grade <= self.grades:
                    raise ValueError(f"ballot {number} has the grade {grade}; grades are 1 to {self.grades}")
                rows += bytes(place == grade for place in range(1, self.grades + 1))
        if len(rows) != self.inputs:
            raise ValueError(f"{self.ballots} ballots are needed")
        return bytes(rows)


def winners_of(closing: Iterable[int]) -> tuple[int, ...]:
    """The candidates, from 0 and in order, whose closing byte is 1."""
    return tuple(candidate for candidate, bit in enumerate(closing) if bit)


def count(shape: Shape, ballots: bytes) -> tuple[int, ...]:
    """The winners, counted plainly, without a gate list: candidates from 0, in order.

    >>> shape = Shape(2, 3, 3)
    >>> count(shape, shape.encode([[1, 2], [2, 2], [2, 3]]))
    (0,)
    """
    return winners_of(call("jugy_count", *shape, bytes(ballots), answers=10))
