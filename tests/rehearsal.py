#!/usr/bin/env python3
"""Runs the rehearsal program on many inputs and compares what it prints with the reference.

    python3 tests/rehearsal.py    needs crates/rehearsal/out/rehearsal (rt ci or rt run) and the library

Inputs: the example in [rehearsal], the files in examples/ with their results, empty and short inputs, inputs that come
in pieces, the longest good input, inputs around and above the number of bytes that are kept, faults in shape and
ballots, lists that are too large for the table with faulty ballots, and random juries.
"""

import random
import subprocess

import reference as doc
from core import ROOT, Core
from programs import Comparisons, Program
from random_juries import random_ballots

PROGRAM = Program("rehearsal")
CORE = Core()
KEPT = 16_384
TABLE = 16_000

EXAMPLES = {
    "clear-winner": "jury 3 5 7\nwinners 1 0 0\n",
    "equal-medians": "jury 2 3 3\nwinners 1 0\n",
    "shared-win": "jury 3 3 3\nwinners 1 1 0\n",
    "raised-before": "jury 2 3 3\nwinners 1 1\n",
    "raised-after": "jury 2 3 3\nwinners 1 0\n",
    "even-jury": "jury 2 3 4\nwinners 1 0\n",
    "yes-no": "jury 4 2 5\nwinners 0 0 1 0\n",
    "named-blends": "jury 3 5 7\nwinners 1 0 0\n",
    "close-call": "jury 3 5 7\nwinners 1 0 0\n",
    "ranked-cycle": "jury 3 0 3\nwinners 1 1 1\n",
    "ranked-margins": "jury 3 0 5\nwinners 0 1 0\n",
}


# Juries as text: the bytes that tools/jury makes of them, or how its error begins.
TEXTS = [
    ("grades 2\n1 2\n", bytes([2, 2, 1, 1, 0, 0, 1])),
    ("ranking a b\na > b\n", bytes([2, 0, 1, 0, 1, 0, 0])),
    ("ranking a b\n b=a # a tie\n", bytes([2, 0, 1, 0, 0, 0, 0])),
    ("ranking x y z\ny\n", bytes([3, 0, 1, 0, 0, 0, 1, 0, 1, 0, 0, 0])),
    ("grades 3: yuzu lime\n2 3\n", bytes([2, 3, 1, 0, 1, 0, 0, 0, 1])),
    ("grades 2 : a\n2\n", bytes([1, 2, 1, 0, 1])),
    ("grades 2: a b\n1\n", "-: line 2: 1 grades, but the names have 2"),
    ("grades 2\n1 2\n1\n", "-: line 3: 1 grades, but the ballots before have 2"),
    ("grades 2: a a\n1 1\n", "-: line 1: two candidates"),
    ("grades 2:\n1 1\n", "-: line 1: 'grades' and a colon are followed"),
    ("grades 2: a b c d e f g h i\n1\n", "-: line 1: 'grades' and a colon are followed"),
    ("grades: a b\n1 1\n", "-: line 1: the first line"),
    ("", "-: line 1: the file has no jury"),
    ("\ufeffgrades 2\n1\n", "-: line 1: begins with a byte-order mark"),
    ("ranking a b\na > c\n", "-: line 2: 'c' is not one"),
    ("ranking a b\na > a\n", "-: line 2: 'a' is named twice"),
    ("ranking a b\na > > b\n", "-: line 2: '' is not one"),
    ("ranking a a\na\n", "-: line 1: two candidates"),
    ("ranking\na\n", "-: line 1: 'ranking' is followed"),
    ("ranking a b c d e f g h i\na\n", "-: line 1: 'ranking' is followed"),
    ("ranking a\n", "-: line 1: no ballot"),
    ("ranking a\n" + "a\n" * 256, "-: line 257: there are at most 255"),
    ("ranks a\na\n", "-: line 1: the first line"),
    ("grades 2\n1 3\n", "-: line 2: a grade is 1 to 2"),
]


def made_of(text):
    """What tools/jury makes of a text: bytes, or its error."""
    made = subprocess.run([ROOT / "tools" / "jury", "-"], input=text.encode(), capture_output=True)
    return made.stdout if made.returncode == 0 else made.stderr.decode().removeprefix("tools/jury: ")


def fits(k, d, n):
    """Whether the list of a shape fits the table. The shape is within its limits."""
    _, gates, _, _ = CORE.measure((k, d, n))
    return 4 * gates <= TABLE


def expected(data):
    """What the program must print for this input, by [rehearsal]."""
    kept = data[:KEPT]
    k, d, n = [kept[i] if i < len(kept) else 0 for i in range(3)]
    fault = None
    if not doc.shape_is_within(k, d, n):
        fault = 1, 0
    elif not fits(k, d, n):
        fault = 2, 0
    else:
        fault = doc.ballots_fault(k, d, n, kept[3:])
    if fault:
        return "refused %d %d\n" % tuple(fault)
    winners = doc.winners(k, d, n, kept[3:])
    return "jury %d %d %d\nwinners %s\n" % (k, d, n, " ".join(map(str, winners)))


def jury(rng, k, d, n):
    """The bytes of a random jury; if d is 0, it ranks."""
    return bytes([k, d, n, *random_ballots(rng, k, d, n)])


def damaged(rng, data):
    data = bytearray(data)
    kind = rng.randrange(4)
    if kind == 0 and len(data) > 3:
        data[rng.randrange(3, len(data))] = rng.choice([1, 2, 255])
    elif kind == 1:
        del data[rng.randrange(len(data)) :]
    elif kind == 2:
        data += bytes(rng.randrange(1, 5))
    else:
        data[rng.randrange(3)] = rng.randrange(256)
    return bytes(data)


def longest_shape():
    """The shape with the most ballot bytes among those whose list fits the table."""
    shapes = [(k, d, n) for k in range(1, 9) for d in (0, *range(2, 8)) for n in range(1, 256)]
    return max((shape for shape in shapes if fits(*shape)), key=lambda shape: doc.ballot_bytes(*shape))


def long_inputs(rng):
    """The longest good input, shorter and longer by one, and lengths around the number of bytes that are kept."""
    good = jury(rng, *longest_shape())
    assert doc.ballots_fault(*good[:3], good[3:]) is None and len(good) > 2_500
    for data in (good, good + b"\0", good + b"\1", good[:-1], good[:-1] + b"\2", good + bytes(KEPT),
                 good[:-1] + b"\2" + bytes(KEPT)):
        yield data
    for length in (KEPT - 1, KEPT, KEPT + 1, 2 * KEPT, 65_536):
        yield bytes(length)
        yield (good * 40)[:length]
        yield bytes([1, 2, 255]) + bytes(length)
    # more bytes than are kept: the rest is neither counted nor read
    for shape in ((8, 7, 255), (8, 0, 255)):
        yield jury(rng, *shape) + b"\2" * KEPT


def inputs(rng):
    example = bytes([2, 3, 3, 1, 0, 0, 0, 1, 0, 0, 1, 0, 0, 1, 0, 0, 1, 0, 0, 0, 1])
    for size in range(len(example) + 1):
        yield example[:size]
    yield example + b"\0"
    yield from long_inputs(rng)
    for k, d, n in [(0, 2, 1), (9, 2, 1), (1, 1, 1), (1, 8, 1), (1, 2, 0), (8, 7, 255), (5, 6, 100), (1, 0, 0),
                    (0, 0, 1), (9, 0, 1), (8, 0, 255)]:
        yield bytes([k, d, n])
        yield bytes([k, d, n]) + b"\2" * doc.ballot_bytes(k, d, n)
    # rankings with fault 11, and with fault 12, in the last ballot
    for ballot in ([0, 1, 0, 1, 0, 0, 0, 0, 0], [0, 1, 0, 0, 0, 0, 0, 0, 0], [0] * 8 + [1]):
        yield bytes([3, 0, 2, *[0] * 9, *ballot])
    # a list that just fits the table, and one that is just too large for it
    for k, d in [(3, 5), (5, 0)]:
        for n in range(1, 256):
            if n < 255 and fits(k, d, n) and not fits(k, d, n + 1):
                yield jury(rng, k, d, n)
                yield jury(rng, k, d, n + 1)
    yield jury(rng, 2, 0, 255)
    for _ in range(150):
        yield jury(rng, rng.randint(1, 8), rng.randint(2, 7), rng.choice([1, 2, 3, 4, 5, 8, 15, 20]))
    for _ in range(60):
        yield jury(rng, rng.randint(1, 6), 0, rng.choice([1, 2, 3, 4, 5, 8, 15, 20]))
    for _ in range(150):
        yield damaged(rng, jury(rng, rng.randint(1, 4), rng.choice([0, 2, 3, 4]), rng.randint(1, 9)))


def main():
    rng = random.Random(8)
    compared = Comparisons()
    compare = compared.compare
    compared.inputs(PROGRAM, inputs(rng), expected, {1, 2, 4, 5, 6, 11, 12})
    for data in [jury(rng, 2, 3, 3), jury(rng, 3, 5, 15), jury(rng, 8, 7, 3), jury(rng, 4, 0, 6)]:
        each_byte = range(1, min(40, len(data)) + 1)
        compared.in_pieces(PROGRAM, data, expected, [rng.randrange(len(data))], [1, 2, 4], each_byte)
    for name, wanted in EXAMPLES.items():
        data = subprocess.run([ROOT / "tools" / "jury", ROOT / "examples" / f"{name}.txt"], stdout=subprocess.PIPE,
                              check=True).stdout
        compare(name, PROGRAM.said(data), wanted)
        compare(name, expected(data), wanted)
    for text, wanted in TEXTS:
        made = made_of(text)
        compare(text, made[:len(wanted)] if isinstance(made, str) else made, wanted)
    compared.end("rehearsal")


if __name__ == "__main__":
    main()
