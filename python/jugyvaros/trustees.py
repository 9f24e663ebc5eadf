"""Trustees who each hold one bit of every wire. All but one of them together learn only the result."""

from __future__ import annotations

from collections.abc import Sequence
from typing import NamedTuple

from .gates import GateList, fresh_tape
from .library import call, wipe
from .shape import winners_of


class Dealing(NamedTuple):
    """What each trustee is given, for one tally only: its share of the ballots, and of the dealer's triples.

    A triple is two random bits and their product; there is one for each conditional gate.
    """

    ballot_shares: Sequence[bytes]
    triples: Sequence[bytes]


class Tally(NamedTuple):
    """What a tally by trustees publishes: each trustee's bits, and for each candidate 1 if it wins, else 0."""

    published: Sequence[bytes]
    closing: bytes

    @property
    def winners(self) -> tuple[int, ...]:
        """The winners: candidates from 0, in order."""
        return winners_of(self.closing)


def _split(bits: bytes, trustees: int) -> list[bytes]:
    """Random shares of each bit, whose sum modulo 2 is the bit."""
    shares: list[bytes] = [bytes(fresh_tape(len(bits))) for _ in range(trustees - 1)]
    total = int.from_bytes(bits, "big")
    for share in shares:
        total ^= int.from_bytes(share, "big")
    return [*shares, total.to_bytes(len(bits), "big")]


def deal(gates: GateList, ballots: bytes, trustees: int) -> Dealing:
    """Shares the ballots, and a triple for each conditional gate, among 2 to 5 trustees, with fresh secret bits.

    Whoever calls this sees the ballots. In a real tally each juror would share their own ballot, and a dealer the
    triples.
    """
    number = max(1, min(trustees, 6))
    first, second = (bytes(fresh_tape(gates.conditional)) for _ in range(2))
    product = bytes(u & v for u, v in zip(first, second))
    columns = [_split(bits, number) for bits in (first, second, product)]
    triples = [bytes(bit for gate in zip(*shares) for bit in gate) for shares in zip(*columns)]
    return Dealing(_split(bytes(ballots), number), triples)


def tally(gates: GateList, ballots: bytes, dealing: Dealing) -> Tally:
    """Runs a list on the shares of a dealing, doing all trustees' work in one place. The caller sees the ballots.

    >>> from jugyvaros import Shape
    >>> shape = Shape(2, 2, 1)
    >>> gates, ballots = GateList.own(shape), shape.encode([[2, 1]])
    >>> tally(gates, ballots, deal(gates, ballots, 3)).winners
    (1,)
    """
    number, inputs = len(dealing.ballot_shares), gates.shape.inputs
    shares, triples = _joined(dealing.ballot_shares, inputs), _joined(dealing.triples, 3 * gates.conditional)
    held = max(1, min(number, 5))
    wires = bytearray(held * (inputs + len(gates)))
    said = 2 * gates.conditional + gates.shape.candidates
    published = bytearray(held * said)
    try:
        answer = call("jugy_trustees", *gates.shape, gates.table, bytes(ballots), number, shares, triples, wires,
                      published, answers=12)
    finally:
        wipe(shares, triples)
    closing = bytes(answer[2:2 + gates.shape.candidates])
    return Tally([bytes(published[at:at + said]) for at in range(0, len(published), said)], closing)


def _joined(pieces: Sequence[bytes], length: int) -> bytearray:
    """Joins the pieces. If one has the wrong length, returns a single byte instead, whose length the core refuses."""
    return bytearray().join(pieces) if all(len(piece) == length for piece in pieces) else bytearray(1)
