#!/usr/bin/env python3
"""Runs the season sheet on many inputs and compares what it prints with an independent sum; tries tools/season.

    python3 tests/season.py    needs season_sheet and rehearsal in their out/ (rt ci or rt run) and the library

Inputs: no run, one, 4,096 and 4,097; all lengths near 12 and near 49,152; every value of each byte of a shape, every
mask for every k; faults in pairs; inputs that come in pieces; the largest totals; random sheets, some of them
damaged.
"""

import pathlib
import random
import subprocess
import tempfile
import xml.etree.ElementTree

import reference as doc
from core import ROOT, Core
from programs import Comparisons, Program

PROGRAM = Program("season_sheet")
RUN_BYTES, MOST_BYTES, LARGEST = 12, 49_152, 2**32 - 1
GOOD = 2, 3, 3, 1, 61, 27


def run_bytes(k, d, n, mask, gates, conditional):
    return bytes([k, d, n, mask]) + gates.to_bytes(4, "little") + conditional.to_bytes(4, "little")


def expected(data):
    """What the program must print for this input, by request 2.9."""
    if len(data) % RUN_BYTES or len(data) > MOST_BYTES:
        return "refused 21 0\n"
    sums = dict.fromkeys(("runs", "gates", "conditional", "ballots", "shared"), 0)
    for at in range(0, len(data), RUN_BYTES):
        k, d, n, mask = data[at : at + 4]
        winners = [i for i in range(8) if mask >> i & 1]
        if not doc.shape_is_within(k, d, n) or any(i >= k for i in winners):
            return f"refused 22 {at // RUN_BYTES}\n"
        sums["runs"] += 1
        sums["gates"] += int.from_bytes(data[at + 4 : at + 8], "little")
        sums["conditional"] += int.from_bytes(data[at + 8 : at + 12], "little")
        sums["ballots"] += n
        sums["shared"] += len(winners) > 1
    return "".join(f"{word} {number}\n" for word, number in sums.items())


def random_run(rng):
    k = rng.randint(1, 8)
    return run_bytes(k, rng.randint(2, 7), rng.randint(1, 255), rng.randrange(2**k),
                     rng.choice([0, 1, 0x01020304, LARGEST, rng.randrange(2**32)]), rng.randrange(2**32))


def random_sheet(rng, runs):
    return b"".join(random_run(rng) for _ in range(runs))


def damaged(rng, data):
    data = bytearray(data)
    kind = rng.randrange(4)
    if kind == 0:
        del data[rng.randrange(len(data)) :]
    elif kind == 1:
        data += bytes(rng.randrange(1, 30))
    else:
        for _ in range(kind - 1):
            data[rng.randrange(len(data))] = rng.randrange(256)
    return bytes(data)


def shapes_and_masks():
    """One run: each byte of its shape with every value, and every mask for every k."""
    for place in range(3):
        for value in range(256):
            run = bytearray(run_bytes(*GOOD))
            run[place] = value
            yield bytes(run)
    for k in range(1, 9):
        for mask in range(256):
            yield run_bytes(k, *GOOD[1:3], mask, *GOOD[4:])


def pairs_of_faults(rng):
    """A wrong length together with a bad run, and two bad runs of any two kinds."""
    good = run_bytes(*GOOD)
    bad = [run_bytes(0, 3, 3, 0, 1, 1), run_bytes(9, 3, 3, 1, 1, 1), run_bytes(2, 1, 3, 1, 1, 1),
           run_bytes(2, 8, 3, 1, 1, 1), run_bytes(2, 3, 0, 1, 1, 1),
           run_bytes(2, 3, 3, 4, 1, 1), run_bytes(1, 3, 3, 128, 1, 1)]
    for first in bad:
        yield first + b"\0"
        yield first + good * 4096
        yield good * 4095 + first
        for second in bad:
            yield good * rng.randrange(4) + first + good * rng.randrange(4) + second + good


def inputs(rng):
    longest = random_sheet(rng, 4098)
    for length in [*range(40), *range(MOST_BYTES - 25, MOST_BYTES + 25), len(longest)]:
        yield longest[:length]
    yield longest[:MOST_BYTES] + bytes(100_000)
    yield run_bytes(8, 7, 255, 255, LARGEST, LARGEST) * 4096
    yield run_bytes(8, 7, 255, 254, 0x01020304, 0x05060708)
    yield from shapes_and_masks()
    yield from pairs_of_faults(rng)
    for _ in range(150):
        sheet = random_sheet(rng, rng.choice([1, 2, 3, 10, 300]))
        yield sheet
        yield damaged(rng, sheet)


def tool(*arguments, **options):
    return subprocess.run([ROOT / "tools" / arguments[0], *arguments[1:]], stdout=subprocess.PIPE,
                          stderr=subprocess.PIPE, text=True, **options)


def tools_agree(compare):
    """Rehearsed juries are recorded, and both the sheet in words and the drawing show them."""
    with tempfile.TemporaryDirectory() as folder:
        season = pathlib.Path(folder) / "season"
        wanted, most = b"", 0
        for name, shape, mask in [("clear-winner", (3, 5, 7), 1), ("even-jury", (2, 3, 4), 1),
                                  ("yes-no", (4, 2, 5), 4)]:
            jury = ROOT / "examples" / f"{name}.txt"
            compare(name, tool("rehearse", "--record", season, jury).stdout, tool("rehearse", jury).stdout)
            gates, conditional = Core().measure(shape)[1:3]
            wanted, most = wanted + run_bytes(*shape, mask, gates, conditional), most + gates
            compare(name, season.read_bytes().hex(), wanted.hex())
        refused = tool("rehearse", "--record", season, input="\x09\x02\x01")
        compare("a refused jury", (refused.stdout, season.read_bytes()), ("refused 1 0\n", wanted))
        words = tool("season", "sheet", season).stdout
        compare("the sheet in words", [f"{number:,}" in words for number in (3, most, 16)], [True] * 3)
        svg = xml.etree.ElementTree.fromstring(tool("season", "draw", season).stdout)
        lines = [len(line.get("points").split()) for line in svg.findall("{*}polyline")]
        labels = {text.text for text in svg.findall("{*}text")}
        compare("the drawing", (lines, {"runs of the season", "3", f"{most:,}"} <= labels), ([4, 4], True))
        season.write_bytes(wanted + b"\0")
        for what in ("append", "sheet", "draw"):
            compare("a broken file", tool("season", what, season, input="jury 2 3 3\nwinners 1 0\n").returncode, 1)


def main():
    rng = random.Random(29)
    compared = Comparisons()
    compare = compared.compare
    compared.inputs(PROGRAM, inputs(rng), expected, {21, 22})
    for data in [random_sheet(rng, 3), random_sheet(rng, 4096), random_sheet(rng, 4097)]:
        compared.in_pieces(PROGRAM, data, expected, [rng.randrange(len(data))], [1, 13], range(1, 37))
    compare("the largest totals", expected(run_bytes(8, 7, 255, 255, LARGEST, LARGEST) * 4096),
            "runs 4096\ngates 17592186040320\nconditional 17592186040320\nballots 1044480\nshared 4096\n")
    tools_agree(compare)
    compared.end("season")


if __name__ == "__main__":
    main()
