"""Why the core refuses a call: numbers, words, and the exception that carries them.

The words are those of c/jugyvaros.h (`python/from_header.py` takes them from there, and a test compares them), so that
a reason reads the same in C, in Python and in every tool. The advice on what to do about it is here.
"""

from __future__ import annotations

from ._header import WORDS

# The season sheet is a program without an exported function, so the header does not have its reasons.
SHEET = {
    21: ("SHEET_LENGTH", "the file is not a whole number of runs, or has more than 4,096", ""),
    22: ("SHEET_RUN", "a run has a shape outside its limits, or a winner who is not a candidate", "the run"),
}
REASONS = {**WORDS, **SHEET}

ADVICE = {
    1: "take 1 to 8 candidates, 2 to 7 grades or 0 for a ranking, and 1 to 255 ballots",
    2: "pass whole gates, four numbers each, at least one for each candidate",
    3: "a kind is 0 to 7, operands in use name earlier wires, the others are 0",
    4: "a graded ballot has candidates x grades bytes, a ranked one candidates x candidates",
    5: "every ballot byte is 0 or 1",
    6: "give each candidate exactly one grade",
    7: "the tape has one byte for each conditional gate of the list",
    8: "every tape byte is 0 or 1",
    9: "the wire table has one byte for each ballot byte and each gate",
    10: "the board has one byte for each conditional gate and each candidate",
    11: "a candidate is never before itself, and of two at most one is before the other",
    12: "if one candidate is before another, every third is after the first or before the second",
    13: "start from an empty urn, and change it only by admitting and withdrawing",
    14: "jurors are numbered 1 to 255; admit each only once, and withdraw only those who are in",
    15: "make the urn with more slots, or withdraw a ballot first",
    16: "there are 2 to 5 trustees",
    17: "make a dealing for this list and these ballots",
    18: "deal again: all shares are bits, and they add up to the ballots and to the products",
    19: "dispatch 1 to 8 juries at a time",
    20: "take 1 to 65,536 gates per round",
    21: "a run is 12 bytes; start a new file for the next season",
    22: "remove that run from the file",
    23: "write a kind and its operands in decimal, single spaces, a line feed after each line",
    24: "pass a longer output buffer",
    200: "use the levels that the core writes for this list",
    201: "rounds are numbered 0 to the list's largest level",
    202: "pass two bits for each conditional gate, 0 if a sum is not known yet",
}


class Refused(Exception):
    """The core refused a call, and changed nothing.

    number    the reason, as in c/jugyvaros.h
    place     where the fault is, counted from 0; 0 if the reason has no place
    place_of  what the place counts: "the gate", "the jury"; empty if the reason has no place
    words     what is wrong
    advice    what to do about it
    """

    def __init__(self, number: int, place: int = 0, place_of: str | None = None) -> None:
        super().__init__(number, place, place_of)
        name, words, usual = REASONS.get(number, ("UNKNOWN", "a reason that this version does not know", ""))
        self.number, self.place, self.name, self.words = number, place, name, words
        self.place_of = usual if place_of is None else place_of
        self.advice = ADVICE.get(number, "")

    def __str__(self) -> str:
        where = f" (place {self.place}, counted from 0: {self.place_of})" if self.place_of else ""
        return f"refused {self.number} {self.place}: {self.words}{where}"
