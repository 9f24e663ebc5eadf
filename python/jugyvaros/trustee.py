"""A trustee on its own machine: it holds its own tables, and learns nothing from the others but opened sums."""

from __future__ import annotations

import array

from .gates import GateList
from .library import call, wipe


class Trustee:
    """Trustee `number`, counted from 0, of 2 to 5 who run one list together in `rounds` + 1 exchanges.

    All start. Before each of the rounds 0 to `rounds` they are told the sums, modulo 2, of what all have published so
    far; after the last round the sums of the closing bits say who wins. Use shares and triples for one tally only.

    >>> from jugyvaros import Shape, deal
    >>> shape = Shape(2, 2, 1)
    >>> gates, ballots = GateList.own(shape), shape.encode([[2, 1]])
    >>> houses = [Trustee(gates, 3, number) for number in range(3)]
    >>> for house, share, triples in zip(houses, *deal(gates, ballots, 3)):
    ...     house.start(share, triples)
    >>> sums = bytes(2 * gates.conditional + 2)
    >>> for turn in range(houses[0].rounds + 1):
    ...     said = [house.round(turn, sums[:2 * gates.conditional]) for house in houses]
    ...     sums = bytes(sum(bits) % 2 for bits in zip(*said))
    >>> for house in houses:
    ...     house.finish()
    >>> list(sums[-2:])
    [0, 1]
    """

    __slots__ = ("gates", "trustees", "number", "rounds", "_levels", "_triples", "_wires", "_published")

    def __init__(self, gates: GateList, trustees: int, number: int) -> None:
        """Takes the list that all trustees run. `start` tests the two numbers."""
        self.gates, self.trustees, self.number = gates, trustees, number
        self._levels = array.array("I", bytes(4 * len(gates)))
        self.rounds = call("jugy_levels", *gates.shape, gates.table, self._levels, answers=5)[2]
        self._triples = bytearray(3 * gates.conditional)
        self._wires = bytearray(gates.shape.inputs + len(gates))
        self._published = bytearray(2 * gates.conditional + gates.shape.candidates)

    def start(self, ballot_shares: bytes, triples: bytes) -> None:
        """Takes its own shares: a bit for each ballot byte, and three bits for each conditional gate."""
        shares, held = bytearray(ballot_shares), bytearray(triples)
        try:
            call("jugy_trustee_start", *self.gates.shape, self.gates.table, self.trustees, self.number, shares, held,
                 self._wires, self._published, answers=4)
            self._triples[:] = held
        finally:
            wipe(shares, held)

    def round(self, number: int, heard: bytes) -> bytes:
        """Does a round, and returns all that this trustee has published so far: two bits for each conditional gate, 0
        until the round before its level, then a closing bit for each candidate, 0 until the last round.

        `heard` has the two sums of each conditional gate, 0 if they are not known yet.
        """
        call("jugy_trustee_round", *self.gates.shape, self.gates.table, self.trustees, self.number, number,
             self._levels, self._triples, bytes(heard), self._wires, self._published, answers=5)
        return bytes(self._published)

    def finish(self) -> None:
        """Empties its shares of wires and triples, which are secret."""
        wipe(self._triples)
        call("jugy_trustee_finish", *self.gates.shape, self.gates.table, self._wires, answers=4)
