"""Gate lists as text, through the library: written and read, against an independent implementation of the format.

    python3 tests/texts.py    prints how many calls there were, by reason

Own lists and random lists, graded and ranked, both ways; every fault by itself and with every other one, in both
directions; numbers around the largest; malformed lines; outputs that are just too short, just long enough and longer.
`tests/text` also tries every short text and many edits of good ones, in C.
"""

import itertools
import random
import re

import reference as doc
from core import Core, bytes_of, numbers, output
from running import flat, random_gates

LARGEST = 2 ** 32 - 1
OLD = 7                                                      # what outputs hold before a call
NUMBER = r"(?:0|[1-9][0-9]*)"


def line_of(gate):
    return " ".join(map(str, gate[:1 + doc.OPERANDS[gate[0]]])) + "\n"


def text_of(table):
    return "".join(map(line_of, doc.gates_of(table)))


def gate_of(line):
    """The gate of a line with its line feed, or None if the line is malformed."""
    if not re.fullmatch(rf"{NUMBER}(?: {NUMBER})*\n", line):
        return None
    kind, *operands = map(int, line.split())
    if kind not in doc.OPERANDS or len(operands) != doc.OPERANDS[kind] or any(x > LARGEST for x in operands):
        return None
    return (kind, *operands, *[0] * (3 - len(operands)))


def expected_write(shape, table, room):
    """The answer, and the output afterwards."""
    fault, before = doc.test_fault(*shape, table), [OLD] * room
    if fault is None and len(text_of(table)) > room:
        fault = (24, 0)
    if fault is not None:
        return ["refused", *fault], before
    text = list(text_of(table).encode())
    return ["accepted", len(text)], text + before[len(text):]


def read_fault(shape, text, room):
    """Reasons 1, 2, 23, 3, 24: a number and a place, or None."""
    lines = re.findall(r"[^\n]*\n|[^\n]+", text)
    if not doc.shape_is_within(*shape):
        return (1, 0)
    if not shape[0] <= len(lines) <= doc.MOST_GATES:
        return (2, 0)
    gates = [gate_of(line) for line in lines]
    if None in gates:
        return (23, gates.index(None))
    fault = doc.test_fault(*shape, flat(gates))
    return (24, 0) if fault is None and room < 4 * len(gates) else fault


def expected_read(shape, text, room):
    """The answer, and the output afterwards."""
    fault, before = read_fault(shape, text, room), [OLD] * room
    if fault is not None:
        return ["refused", *fault], before
    table = flat(map(gate_of, text.splitlines(keepends=True)))
    return ["accepted", len(table)], table + before[len(table):]


class Texts:
    def __init__(self):
        self.core = Core()

    def write(self, shape, table, room):
        lent = output([OLD] * room)
        found = self.core.call("jugy_write_text", *shape, numbers(table), lent, answers=3), lent.items()
        assert found == expected_write(shape, table, room), (shape, table[:40], room, found[0])
        return found

    def read(self, shape, text, room):
        lent = output([OLD] * room, "I")
        found = self.core.call("jugy_read_text", *shape, bytes_of(text.encode()), lent, answers=3), lent.items()
        assert found == expected_read(shape, text, room), (shape, text[:80], room, found[0])
        return found

    def both_ways(self, shape, table):
        """Writes a list and reads it back, with outputs of many lengths."""
        text = text_of(table)
        for room in (0, len(text) - 1, len(text), len(text) + 1, 11 * len(table)):
            self.write(shape, table, room)
        for room in (0, len(table) - 1, len(table), len(table) + 5):
            self.read(shape, text, room)
        assert self.read(shape, text, len(table))[1] == table


def good_lists(tests, rng):
    for shape in ((1, 2, 1), (2, 3, 3), (3, 5, 15), (8, 7, 2), (1, 0, 1), (2, 0, 3), (3, 0, 5), (8, 0, 2)):
        tests.both_ways(shape, tests.core.own_list(shape))
    for _ in range(120):
        shape = rng.randrange(1, 9), rng.choice((0, 2, 3, 7)), rng.randrange(1, 4)
        tests.both_ways(shape, flat(random_gates(rng, doc.ballot_bytes(*shape), rng.randrange(shape[0], 40))))


BAD_SHAPES = [(0, 3, 2), (9, 3, 2), (2, 1, 2), (2, 8, 2), (2, 3, 0), (2, 3, 256), (2 ** 32 + 2, 3, 2),
              (2 ** 63, 2 ** 63, 2 ** 63)]


def pairs(ways):
    """No change, each change by itself, and every two of different kinds at once."""
    alone = ([way] for kind in ways for way in kind)
    return itertools.chain([[]], alone, *(itertools.product(a, b) for a, b in itertools.combinations(ways, 2)))


def faults_of_writing(tests, shape):
    """Shape, length, gates and output: each fault and every two."""
    inputs = doc.ballot_bytes(*shape)
    table = flat([(1, 0, 0, 0), (4, 0, inputs, 0), (7, 0, 1, inputs + 1), (6, 1, 2, 0)])
    length = len(text_of(table))
    ways = [
        [("shape", bad) for bad in BAD_SHAPES],
        [("table", bad) for bad in ([], table[:4], table[:-1], table + [0])],
        [("table", bad) for bad in ([doc.NO_KIND] + table[1:], table[:1] + [1] + table[2:], table[:-1] + [1],
                                    table[:-3] + [inputs + 3] + table[-2:],
                                    table[:4] + [4, LARGEST, 0, 0] + table[8:])],
        [("room", bad) for bad in (length - 1, 1, 0)],
    ]
    for changes in pairs(ways):
        tests.write(**{"shape": shape, "table": table, "room": length, **dict(changes)})


def faults_of_reading(tests, shape):
    """Shape, number of lines, form, gates and output: each fault and every two."""
    inputs = doc.ballot_bytes(*shape)
    lines = ["1\n", f"4 0 {inputs}\n", f"7 0 1 {inputs + 1}\n", "6 1 2\n"]
    good = "".join(lines)

    def but(place, line):
        return "".join([*lines[:place], line, *lines[place + 1:]])

    forms = ["\n", "1 \n", " 1\n", "01\n", f"{doc.NO_KIND}\n", "2  0\n", "2 00\n", "2\t0\n", "2 -1\n",
             "2 4294967296\n", "4 0\n", "4 0 1 2\n", "1\r\n", "x\n", "2 0,\n"]
    ways = [
        [("shape", bad) for bad in BAD_SHAPES],
        [("text", bad) for bad in ("", lines[0], "1")],
        [("text", bad) for bad in (*(but(place, form) for place in (0, 2) for form in forms), good[:-1], good + "1")],
        [("text", bad) for bad in (but(0, f"2 {inputs}\n"), but(3, f"6 0 {inputs + 3}\n"), but(1, f"3 {LARGEST}\n"))],
        [("room", bad) for bad in (15, 1, 0)],
    ]
    for changes in pairs(ways):
        tests.read(**{"shape": shape, "text": good, "room": 16, **dict(changes)})
    # a malformed line is reported before a bad gate, whichever comes first in the text
    for first, second in itertools.permutations(range(4), 2):
        two = list(lines)
        two[first], two[second] = f"2 {LARGEST}\n", "9\n"
        assert tests.read(shape, "".join(two), 16)[0] == ["refused", 23, second]


def largest_numbers(tests):
    """The largest number that a line may have is a bad operand; one more makes the line malformed."""
    for shape in ((1, 2, 1), (1, 0, 1)):
        for kind, operands in doc.OPERANDS.items():
            for place in range(operands):
                for number in (LARGEST, LARGEST + 1, 10 * LARGEST, 2 ** 64, 2 ** 64 + 1):
                    reason = 3 if number == LARGEST else 23
                    words = [kind, *[0] * operands]
                    words[1 + place] = number
                    said, _ = tests.read(shape, " ".join(map(str, words)) + "\n", 4)
                    assert said == ["refused", reason, 0], (words, said)
        for kind in (doc.NO_KIND, 10, LARGEST, LARGEST + 1, 2 ** 32 + 2, 2 ** 64 + 2):
            assert tests.read(shape, f"{kind} 0\n", 4)[0] == ["refused", 23, 0]


def main():
    tests, rng = Texts(), random.Random(10)
    good_lists(tests, rng)
    for shape in ((2, 3, 2), (2, 0, 3)):
        faults_of_writing(tests, shape)
        faults_of_reading(tests, shape)
    largest_numbers(tests)
    tests.core.ignores_short_answers("jugy_write_text", 1, 2, 1, numbers([1, 0, 0, 0]), output([OLD] * 9), answers=3)
    tests.core.ignores_short_answers("jugy_read_text", 1, 2, 1, bytes_of(b"1\n"), output([OLD] * 9, "I"), answers=3)
    told = tests.core.saw(write_text={1, 2, 3, 24}, read_text={1, 2, 23, 3, 24})
    print(f"tests/texts.py: {tests.core.calls} calls agree: {told}")


if __name__ == "__main__":
    main()
