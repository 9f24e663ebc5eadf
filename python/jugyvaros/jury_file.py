"""Juries written as text, one ballot a line. `tools/jury --help` prints what follows; there the candidates are blends.

A graded jury begins with the line `grades D`, where D is the number of grades, or `grades D: NAME NAME ..` with the
names of the blends. Each further line is a ballot: a grade for each blend, from 1 (best) to D (worst), with spaces
between.

A ranked jury begins with the line `ranking NAME NAME ..`. Each further line is a ballot, best blend first: `a > b = c`
puts a before b and c, which are tied. Blends that are not named come last, tied with each other.

Empty lines, and anything after a `#`, are ignored.
"""

from __future__ import annotations

import codecs
import pathlib
from collections.abc import Iterator, Sequence
from typing import NamedTuple

from .shape import MOST_BALLOTS, MOST_CANDIDATES, MOST_GRADES, Shape


class BadJury(ValueError):
    """A bad line in a jury's text; the message has its number."""

    def __init__(self, number: int, message: str) -> None:
        super().__init__(f"line {number}: {message}")


class JuryFile(NamedTuple):
    """A jury: its shape; for each juror a row of grades (from 1) or of places in a ranking; and names, if any."""

    shape: Shape
    rows: Sequence[Sequence[int]]
    names: Sequence[str]

    @property
    def ballots(self) -> bytes:
        """The ballot bytes."""
        return self.shape.encode(self.rows)

    @property
    def rehearsal_input(self) -> bytes:
        """What the rehearsal program reads: k, d and n, a byte each, then the ballots."""
        return bytes(self.shape) + self.ballots

    def name(self, candidate: int) -> str:
        """A candidate's name, or its number from 0 if the text has no names."""
        return self.names[candidate] if self.names else f"blend {candidate}"

    def named(self, winners: Sequence[int]) -> str:
        """Who wins, in words."""
        names = [self.name(winner) for winner in winners]
        if len(names) == 1:
            return f"{names[0]} wins"
        return f"{', '.join(names[:-1])} and {names[-1]} share the win" if names else "nobody wins"



def read(name: str | pathlib.Path) -> JuryFile:
    """The jury in a file."""
    return parse(pathlib.Path(name).read_bytes())


def parse(data: bytes) -> JuryFile:
    """The jury in a file's bytes."""
    lines = list(_lines(_text(data)))
    if not lines:
        raise BadJury(1, "the file has no jury; begin with 'grades' or 'ranking'")
    return _ranked(lines) if lines[0][1][0] == "ranking" else _graded(lines)


def _lines(text: str) -> Iterator[tuple[int, list[str]]]:
    for number, line in enumerate(text.splitlines(), 1):
        words = line.split("#", 1)[0].split()
        if words:
            yield number, words


def _text(data: bytes) -> str:
    """The text of a file's bytes, which must be UTF-8 without a byte-order mark."""
    for mark, name in ((codecs.BOM_UTF8, "UTF-8"), (codecs.BOM_UTF16_LE, "UTF-16"), (codecs.BOM_UTF16_BE, "UTF-16")):
        if data.startswith(mark):
            raise BadJury(1, f"begins with a byte-order mark of {name}; save the file as UTF-8 without one")
    try:
        return data.decode("utf-8")
    except UnicodeDecodeError as error:
        number = data.count(b"\n", 0, error.start) + 1
        message = f"byte {data[error.start]:#04x} is not UTF-8 (Latin-1, perhaps?); save the file as UTF-8"
        raise BadJury(number, message) from None


def _numbers(number: int, words: Sequence[str]) -> list[int]:
    for word in words:
        if not (word.isascii() and word.isdigit()):
            raise BadJury(number, f"'{word}' is not a number")
    return [int(word) for word in words]


def _graded(lines: Sequence[tuple[int, list[str]]]) -> JuryFile:
    grades, names = _head(*lines[0])
    rows: list[list[int]] = []
    for number, words in lines[1:]:
        expected = len(names) or (len(rows[0]) if rows else None)
        rows.append(_grades(number, words, grades, expected, "names" if names else "ballots before"))
    _check_number(lines)
    return JuryFile(Shape(len(rows[0]), grades, len(rows)), rows, names)


def _head(number: int, words: Sequence[str]) -> tuple[int, list[str]]:
    """The number of grades, and the names after a colon."""
    said, colon, named = " ".join(words).partition(":")
    before, names = said.split(), named.split()
    if len(before) != 2 or before[0] != "grades":
        raise BadJury(number, "the first line must be 'grades' and how many grades there are, "
                              "or 'ranking' and the candidates' names")
    grades = _numbers(number, before[1:])[0]
    if not 2 <= grades <= MOST_GRADES:
        raise BadJury(number, f"there are 2 to {MOST_GRADES} grades, not {grades}")
    if colon:
        _check_names(number, names, "'grades' and a colon are")
    return grades, names


def _grades(number: int, words: Sequence[str], grades: int, expected: int | None, by: str) -> list[int]:
    ballot = _numbers(number, words)
    if expected is not None and len(ballot) != expected:
        raise BadJury(number, f"{len(ballot)} grades, but the {by} have {expected} candidates")
    if len(ballot) > MOST_CANDIDATES:
        raise BadJury(number, f"{len(ballot)} grades, but there are at most {MOST_CANDIDATES} candidates")
    for grade in ballot:
        if not 1 <= grade <= grades:
            raise BadJury(number, f"a grade is 1 to {grades}, not {grade}")
    return ballot


def _check_names(number: int, names: Sequence[str], what: str) -> None:
    if not 1 <= len(names) <= MOST_CANDIDATES:
        raise BadJury(number, f"{what} followed by the names of 1 to {MOST_CANDIDATES} candidates, not {len(names)}")
    for name in names:
        if "=" in name or ">" in name:
            raise BadJury(number, f"'{name}' has a = or >, which separate names")
        if names.count(name) > 1:
            raise BadJury(number, f"two candidates are called '{name}'")


def _ranked(lines: Sequence[tuple[int, list[str]]]) -> JuryFile:
    number, words = lines[0]
    names = words[1:]
    _check_names(number, names, "'ranking' is")
    rows = [_places(number, words, names) for number, words in lines[1:]]
    _check_number(lines)
    return JuryFile(Shape(len(names), 0, len(rows)), rows, names)


def _places(number: int, words: Sequence[str], names: Sequence[str]) -> list[int]:
    """The places of the candidates on one ballot, 0 for the best."""
    places: dict[str, int] = {}
    for place, group in enumerate(" ".join(words).split(">")):
        for name in map(str.strip, group.split("=")):
            if name not in names:
                raise BadJury(number, f"'{name}' is not one of the candidates: {' '.join(names)}")
            if name in places:
                raise BadJury(number, f"'{name}' is named twice")
            places[name] = place
    return [places.get(name, len(names)) for name in names]


def _check_number(lines: Sequence[tuple[int, list[str]]]) -> None:
    """Refuses a text that does not have 1 to 255 ballots after its first line."""
    if len(lines) > 1 + MOST_BALLOTS:
        raise BadJury(lines[MOST_BALLOTS + 1][0], f"there are at most {MOST_BALLOTS} ballots")
    if len(lines) == 1:
        raise BadJury(lines[0][0], "no ballot follows this line")
