"""A season's runs in a file, twelve bytes a run, as the program season_sheet reads them: k, d, n, the closing bytes
as a mask whose lowest bit is candidate 0, then G and C, four bytes each in little-endian order."""

import pathlib
import struct
import subprocess
from typing import NamedTuple

import common
from jugyvaros import Refused, Shape, repository

RUN = struct.Struct("<BBBBII")
MOST_RUNS = 4096


class Run(NamedTuple):
    """One run: its shape, the winners, and the size of its list."""

    shape: Shape
    winners: list
    gates: int
    conditional: int


def runs(data):
    """The runs in a file's bytes. The sheet must have accepted them."""
    return [Run(Shape(k, d, n), [i for i in range(8) if mask >> i & 1], gates, conditional)
            for k, d, n, mask, gates, conditional in RUN.iter_unpack(data)]


def append(name, printed):
    """Adds the run that the rehearsal program printed."""
    lines = [line.split() for line in printed.splitlines()]
    if [line[:1] for line in lines] != [["jury"], ["winners"]]:
        raise common.Failure("no run to add: pass what the rehearsal program prints for a jury that it accepts")
    shape, winners = ([int(word) for word in line[1:]] for line in lines)
    path = pathlib.Path(name)
    size = path.stat().st_size if path.exists() else 0
    if size % RUN.size or size >= MOST_RUNS * RUN.size:
        raise Refused(21)
    mask = sum(bit << place for place, bit in enumerate(winners))
    measured = Shape(*shape).measure()
    with path.open("ab") as file:
        file.write(RUN.pack(*shape, mask, measured.gates, measured.conditional))


def totals(data):
    """The five numbers of the sheet, from the program; a refusal is raised."""
    program = repository.program("season_sheet")
    said = subprocess.run([program], input=data, stdout=subprocess.PIPE, check=True).stdout.decode().split()
    if said[0] == "refused":
        raise Refused(*map(int, said[1:]))
    return dict(zip(said[::2], map(int, said[1::2])))
