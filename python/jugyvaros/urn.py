"""An urn for graded ballots, which are admitted and withdrawn while tasting goes on."""

from __future__ import annotations

from .gates import Board, GateList, Tape
from .library import call
from .reasons import Refused
from .shape import Shape

MOST_SLOTS = 256


class Urn:
    """Ballots by juror; jurors are numbered 1 to 255. A refused call changes nothing.

    >>> urn = Urn(2, 3)
    >>> one = Shape(2, 3, 1)
    >>> urn.admit(7, one.encode([[1, 2]]))
    1
    >>> urn.run().winners
    (0,)
    """

    def __init__(self, candidates: int, grades: int, slots: int = MOST_SLOTS) -> None:
        """An empty urn of 2 to 256 slots. It has room for one ballot fewer."""
        self.candidates, self.grades = candidates, grades
        # the core refuses larger numbers too, so no longer table is needed
        self._bytes = bytearray(max(0, min(slots, MOST_SLOTS + 1)) * (2 + min(max(candidates * grades, 0), 56)))
        call("jugy_empty_urn", candidates, grades, self._bytes, answers=3)

    @classmethod
    def from_bytes(cls, candidates: int, grades: int, data: bytes) -> Urn:
        """An urn from the bytes that `bytes(urn)` gave. An unsound one is refused."""
        urn = cls.__new__(cls)
        urn.candidates, urn.grades, urn._bytes = candidates, grades, bytearray(data)
        try:
            urn.preview_withdraw(0)
        except Refused as refused:
            # 0 is no juror's number, and the core tests it only after it has found the urn sound
            if refused.number != 14:
                raise
        return urn

    def __bytes__(self) -> bytes:
        """The urn's table. It holds the ballots in clear."""
        return bytes(self._bytes)

    def __len__(self) -> int:
        """The number of ballots."""
        return len(self.jurors)

    @property
    def jurors(self) -> tuple[int, ...]:
        """The jurors in chain order, as a run takes their ballots: the last to be admitted is the first."""
        found, size = [], 2 + self.candidates * self.grades
        slot = self._bytes[0]
        while slot:
            found.append(self._bytes[slot * size + 1])
            slot = self._bytes[slot * size]
        return tuple(found)

    def admit(self, juror: int, ballot: bytes) -> int:
        """Puts a juror's ballot in, and returns the number of ballots."""
        return self._admit("jugy_admit", juror, ballot)

    def preview_admit(self, juror: int, ballot: bytes) -> int:
        """What `admit` would return or raise. The urn is not changed."""
        return self._admit("jugy_preview_admit", juror, ballot)

    def _admit(self, name: str, juror: int, ballot: bytes) -> int:
        return call(name, self.candidates, self.grades, self._bytes, juror, bytes(ballot), answers=3)[0]

    def withdraw(self, juror: int) -> int:
        """Takes a juror's ballot out, and returns the number of ballots."""
        return call("jugy_withdraw", self.candidates, self.grades, self._bytes, juror, answers=3)[0]

    def preview_withdraw(self, juror: int) -> int:
        """What `withdraw` would return or raise. The urn is not changed."""
        return call("jugy_preview_withdraw", self.candidates, self.grades, self._bytes, juror, answers=3)[0]

    @property
    def shape(self) -> Shape:
        """The shape of the jury whose ballots are in."""
        return Shape(self.candidates, self.grades, len(self))

    def run(self, gates: GateList | None = None, tape: Tape = None) -> Board:
        """Runs a list on the ballots that are in; without one, the own list of `shape`. The ballots stay in."""
        chosen = GateList.own(self.shape) if gates is None else gates
        if (chosen.shape.candidates, chosen.shape.grades) != (self.candidates, self.grades):
            raise ValueError(f"the list is for {chosen.shape}, the urn for {self.shape}")
        return chosen.run_by("jugy_run_urn", self._bytes, tape)
