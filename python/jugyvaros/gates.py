"""Gate lists and boards: writing, testing and running a list, and lists as text."""

from __future__ import annotations

import array
import secrets
from collections.abc import Iterable, Iterator
from typing import NamedTuple, Union

from .library import Buffer, call, wipe
from .shape import Shape, winners_of

# Enough for any line of a list as text: four numbers of up to ten digits, three spaces and a line feed.
LONGEST_LINE = 44


class Gate(NamedTuple):
    """A gate: its kind and three operands, 0 if the kind does not use them."""

    kind: int
    a: int
    b: int
    c: int


class Board(NamedTuple):
    """What a run publishes: a masked bit for each conditional gate, then for each candidate 1 if it wins, else 0."""

    shown: bytes
    closing: bytes

    @property
    def winners(self) -> tuple[int, ...]:
        """The winners: candidates from 0, in order."""
        return winners_of(self.closing)

    def __bytes__(self) -> bytes:
        return self.shown + self.closing


def fresh_tape(length: int) -> bytearray:
    """Secret random bits, a byte each. Use them for one run only."""
    return bytearray(secrets.token_bytes(length)).translate(_LOWEST_BIT)


_LOWEST_BIT = bytes(number & 1 for number in range(256))


class GateList:
    """A list of gates for a shape, tested by the core.

    >>> shape = Shape(2, 3, 3)
    >>> ballots = shape.encode([[1, 2], [2, 2], [2, 3]])
    >>> GateList.own(shape).run(ballots).winners
    (0,)
    """

    __slots__ = ("shape", "conditional", "_table")

    def __init__(self, shape: Shape, numbers: Iterable[int]) -> None:
        """Takes a list, whoever wrote it, four numbers a gate: kind, a, b, c. Raises Refused if it does not fit."""
        self.shape = Shape(*shape)
        self._table = array.array("I", numbers)
        self.conditional = call("jugy_test", *self.shape, self._table, answers=4)[1]

    @classmethod
    def own(cls, shape: Shape) -> GateList:
        """The list that the core writes for the shape: its closing bytes say who wins."""
        table = array.array("I", bytes(16 * Shape(*shape).measure().gates))
        call("jugy_write", *shape, table, answers=4)
        return cls(shape, table)

    @classmethod
    def from_text(cls, shape: Shape, text: bytes | str) -> GateList:
        """Reads a list from text: one gate a line, its kind and the operands that it uses."""
        data = text.encode("utf-8") if isinstance(text, str) else bytes(text)
        table = array.array("I", bytes(16 * (data.count(b"\n") + 1)))
        length = call("jugy_read_text", *shape, data, table, answers=3)[0]
        return cls(shape, table[:length])

    def to_text(self) -> bytes:
        """The list as text, which `from_text` reads back."""
        output = bytearray(LONGEST_LINE * len(self))
        length = call("jugy_write_text", *self.shape, self._table, output, answers=3)[0]
        return bytes(output[:length])

    @property
    def table(self) -> array.array[int]:
        """A copy of the list's numbers, four a gate."""
        return self._table[:]

    def __len__(self) -> int:
        """The number of gates (G)."""
        return len(self._table) // 4

    def __iter__(self) -> Iterator[Gate]:
        numbers = iter(self._table)
        return map(Gate, numbers, numbers, numbers, numbers)

    def __eq__(self, other: object) -> bool:
        return isinstance(other, GateList) and (self.shape, self._table) == (other.shape, other._table)

    def __hash__(self) -> int:
        return hash((self.shape, self._table.tobytes()))

    def __repr__(self) -> str:
        return f"<GateList for {' '.join(map(str, self.shape))}: {len(self):,} gates, {self.conditional:,} conditional>"

    @property
    def levels(self) -> int:
        """The multiplicative depth R: the number of conditional gates in the longest chain. Gates of one level can be
        opened together, so R rounds of openings are enough."""
        table = array.array("I", bytes(4 * len(self)))
        return call("jugy_levels", *self.shape, self._table, table, answers=5)[2]

    def run(self, ballots: bytes, tape: Tape = None) -> Board:
        """Runs the list on a jury's ballots. The board may be published.

        Without a tape the run uses a fresh secret one and forgets it. A tape of your own has a byte of 0 or 1 for each
        conditional gate. It has to be random, secret and used once: otherwise the board reveals more than the winners.
        """
        return self.run_by("jugy_run", bytes(ballots), tape)

    def run_by(self, name: str, ballots: Buffer, tape: Tape) -> Board:
        """Runs the list by an exported function that takes the same buffers as `jugy_run`."""
        masks = fresh_tape(self.conditional) if tape is None else bytearray(tape)
        wires = bytearray(self.shape.inputs + len(self))
        board = bytearray(self.conditional + self.shape.candidates)
        try:
            call(name, *self.shape, self._table, ballots, masks, wires, board, answers=4)
        finally:
            wipe(masks)
        return Board(bytes(board[:self.conditional]), bytes(board[self.conditional:]))

    def counterpart(self, ballots: bytes, tape: bytes, others: bytes) -> bytes | None:
        """The one tape under which a run on `others` leaves the same board as a run on `ballots` under `tape`. None if
        the winners differ: then there is no such tape."""
        board, unmasked = self.run(ballots, tape), self.run(others, bytes(self.conditional))
        if board.closing != unmasked.closing:
            return None
        return bytes(shown ^ wire for shown, wire in zip(board.shown, unmasked.shown))


Tape = Union[bytes, bytearray, Iterable[int], None]
