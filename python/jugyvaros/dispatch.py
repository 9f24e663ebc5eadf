"""Up to eight juries on one unit, in rounds, so that a long jury does not delay the others."""

from __future__ import annotations

import array
from collections.abc import Sequence
from typing import NamedTuple

from .gates import Board, GateList, fresh_tape
from .library import call, wipe
from .reasons import Refused

GATES_PER_ROUND = 4096
MOST_JURIES = 8


class Jury(NamedTuple):
    """A jury to dispatch: its list, its ballots and its tape; without a tape it gets a fresh secret one."""

    gates: GateList
    ballots: bytes
    tape: bytes | None = None


class Dispatched(NamedTuple):
    """A jury's board, the same as after an undivided run, and how many rounds it took."""

    board: Board
    rounds: int


def dispatch(juries: Sequence[Jury], gates_per_round: int = GATES_PER_ROUND) -> list[Dispatched]:
    """Runs 1 to 8 juries in rounds; in each round every unfinished jury does up to `gates_per_round` of its gates.

    If one jury is refused, none runs: the refusal has the first reason of the first bad jury, and that jury as place.
    """
    tapes = [fresh_tape(jury.gates.conditional) if jury.tape is None else bytearray(jury.tape) for jury in juries]
    bad = _first_misfit(juries, tapes)
    # if a jury's piece has the wrong length, the core gets an empty one instead, and no later jury: so it tests all
    # earlier juries in order, and this one up to that piece
    lent = list(juries) if bad is None else list(juries[:bad + 1])
    ballots = bytearray().join(_whole(jury.ballots, jury.gates.shape.inputs) for jury in lent)
    masks = bytearray().join(_whole(tape, jury.gates.conditional) for tape, jury in zip(tapes, lent))
    headers = array.array("L", [number for jury in lent for number in (*jury.gates.shape, len(jury.gates))])
    table = array.array("I")
    for jury in lent:
        table.extend(jury.gates.table)
    wires = bytearray(sum(jury.gates.shape.inputs + len(jury.gates) for jury in lent))
    boards = bytearray(sum(jury.gates.conditional + jury.gates.shape.candidates for jury in lent))
    number = len(juries) if len(juries) > MOST_JURIES else len(lent)
    try:
        rounds = call("jugy_dispatch", number, gates_per_round, headers, table, ballots, masks, wires, boards,
                      answers=10, place_of="the jury")
    finally:
        wipe(ballots, masks, *tapes)
    if bad is not None:
        # the list has no conditional gate, so the core accepted the empty tape that replaced a longer one
        raise Refused(7, bad, "the jury")
    return _cut(juries, boards, rounds)


def _whole(piece: bytes | bytearray, length: int) -> bytes | bytearray:
    """The piece if it has the right length, otherwise nothing."""
    return piece if len(piece) == length else b""


def _first_misfit(juries: Sequence[Jury], tapes: Sequence[bytearray]) -> int | None:
    """The first jury whose ballots or tape have the wrong length for its list."""
    for place, (jury, tape) in enumerate(zip(juries, tapes)):
        if (len(jury.ballots), len(tape)) != (jury.gates.shape.inputs, jury.gates.conditional):
            return place
    return None


def _cut(juries: Sequence[Jury], boards: bytearray, rounds: Sequence[int]) -> list[Dispatched]:
    """Each jury's part of the answer."""
    found, at = [], 0
    for jury, number in zip(juries, rounds):
        closing = at + jury.gates.conditional
        end = closing + jury.gates.shape.candidates
        found.append(Dispatched(Board(bytes(boards[at:closing]), bytes(boards[closing:end])), number))
        at = end
    return found
