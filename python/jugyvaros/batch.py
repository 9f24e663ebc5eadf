"""Up to 64 juries of one shape at once: each jury has one bit of every number."""

from __future__ import annotations

import array
import secrets
from collections.abc import Sequence

from .gates import Board, GateList
from .library import call, wipe
from .reasons import Refused

LANES = 64


def batch(gates: GateList, juries: Sequence[bytes], tapes: Sequence[bytes] | None = None) -> list[Board]:
    """Runs a list on 1 to 64 juries. Each gets the board of its own run. Without tapes, fresh secret ones are used.

    If ballots are refused, the place of the refusal is the first jury with the fault.
    """
    if not 1 <= len(juries) <= LANES:
        raise ValueError(f"a batch has 1 to {LANES} juries, not {len(juries)}")
    words = pack(juries, gates.shape.inputs, 4, 5)
    if tapes is None:
        masks = array.array("Q", secrets.token_bytes(8 * gates.conditional))
    elif len(tapes) != len(juries):
        raise ValueError(f"{len(juries)} juries need {len(juries)} tapes, not {len(tapes)}")
    else:
        masks = pack(tapes, gates.conditional, 7, 8)
    wires = array.array("Q", bytes(8 * (gates.shape.inputs + len(gates))))
    board = array.array("Q", bytes(8 * (gates.conditional + gates.shape.candidates)))
    try:
        call("jugy_run_batch", *gates.shape, gates.table, words, masks, wires, board, answers=4, place_of="the jury")
    finally:
        wipe(words, masks)
    lanes = unpack(board, len(juries))
    return [Board(lane[:gates.conditional], lane[gates.conditional:]) for lane in lanes]


def pack(rows: Sequence[bytes], length: int, other_length: int, other_byte: int) -> array.array[int]:
    """Bit j of number i is byte i of row j; copies of the last row make up 64 rows. A row of the wrong length is
    refused with the reason `other_length`, a byte above 1 with `other_byte`."""
    for place, row in enumerate(rows):
        if len(row) != length:
            raise Refused(other_length, place, "the jury")
        if length and max(row) > 1:
            raise Refused(other_byte, place, "the jury")
    filled = [*rows, *[rows[-1]] * (LANES - len(rows))]
    digits = [bytes(row).translate(_DIGITS) for row in reversed(filled)]
    return array.array("Q", [int(bytes(column), 2) for column in zip(*digits)])


_DIGITS = bytes([48, 49, *range(2, 256)])


def unpack(words: array.array[int], lanes: int) -> list[bytes]:
    """The bytes of each of the first `lanes` juries."""
    digits = [format(word, "064b")[::-1][:lanes].encode() for word in words]
    return [bytes(column).translate(_BITS) for column in zip(*digits)]


_BITS = bytes([0 if number == 48 else 1 for number in range(256)])
