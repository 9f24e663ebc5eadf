"""The own lists that the library writes: measured, written into tables of many lengths, and evaluated on juries.

    python3 tests/own_lists.py    prints how many lists were evaluated, and on how many juries

Each list is taken as the library writes it and evaluated here on many juries at once. Its closing bytes are compared
with two implementations of the rule, reference.py and sorted_judgment.py. The juries: random ones of all k and d and 16
sizes of all widths; all ballots of the small shapes; all pairs of grade counts of two candidates for ten shapes; and
the panels. `library_test shapes` in C tries every shape, on one jury each.
"""

import itertools
import random

import reference as doc
import juries
from core import Core, output

SIZES = [1, 2, 3, 4, 7, 8, 15, 16, 31, 32, 63, 64, 100, 127, 128, 255]
MOST_NUMBER = 2 ** 32 - 1
MOST_SIZE = 2 ** 64 - 1


def bound(k, d, n):
    """The bound on G: [bound] and [judgment-bound]."""
    w = n.bit_length()
    return 2 * k * d * n * w + k * d * (30 * w + 20) + k * k * (20 * w + 6 * d + 20) + 2 + k * d * (400 * w + 400)


# The values of a wire on many juries are the bits of one integer; bit j belongs to jury j.


def pack(d, juries):
    """The input wires of juries of one shape. A jury is given by the grades of its candidates."""
    k, n = len(juries[0]), len(juries[0][0])
    digits = [bytes(ord("1") if byte == grade else ord("0") for byte in range(256)) for grade in range(d)]
    wires = []
    for juror, c in itertools.product(range(n), range(k)):
        column = bytes(jury[c][juror] for jury in reversed(juries))
        wires += [int(column.translate(digits[grade]), 2) for grade in range(d)]
    return wires


def closing(inputs, gates, k, count):
    """The closing bytes of each of `count` juries."""
    ones = (1 << count) - 1
    wires = list(inputs)
    put = wires.append
    for kind, a, b, c in gates:
        if kind == 7:
            x = wires[a]
            put(x & wires[b] | (x ^ ones) & wires[c])
        elif kind == 6:
            put(wires[a] ^ wires[b])
        elif kind == 5:
            put(wires[a] | wires[b])
        elif kind == 4:
            put(wires[a] & wires[b])
        elif kind == 3:
            put(wires[a] ^ ones)
        elif kind == 2:
            put(wires[a])
        elif kind == 1:
            put(ones)
        elif kind == 0:
            put(0)
        else:
            raise ValueError(kind)
    last = wires[len(wires) - k:]
    return [[x >> j & 1 for x in last] for j in range(count)]


class OwnList:
    """The own list of a shape within its limits, as the library writes it."""

    def __init__(self, core, shape):
        self.shape = k, d, n = shape
        table = core.own_list(shape)
        self.gates = doc.gates_of(table)
        size = ["accepted", len(self.gates), doc.conditional_count(self.gates)]
        assert core.measure(shape) == [*size, k * d * n], shape
        assert doc.test_list(*shape, table) == core.test(shape, table) == size, shape
        assert len(self.gates) <= bound(k, d, n), shape

    def check(self, found):
        """Evaluates the list on juries, and fails if a closing byte is not the rule's."""
        k, d, n = self.shape
        inputs = pack(d, found)
        assert [x & 1 for x in inputs] == juries.ballots_of(d, found[0])
        for jury, said in zip(found, closing(inputs, self.gates, k, len(found))):
            assert said == juries.closing_bytes(d, jury), (self.shape, jury, said)


def random_juries(rng, k, d, n, many):
    """Random juries in twelve groups of `many`; ten of the groups have nearly equal candidates."""
    styles = [juries.uniform, juries.peaked] + 5 * [juries.tied, juries.level]
    return [style(rng, k, d, n) for style in styles for _ in range(many)]


def every_jury(k, d, n):
    """All ballots of a shape."""
    return [[grades[c::k] for c in range(k)] for grades in itertools.product(range(d), repeat=k * n)]


def every_count(d, n):
    """All pairs of grade counts of two candidates, as juries."""
    rows = itertools.combinations_with_replacement(range(d), n)
    return list(itertools.product(rows, repeat=2))


def small_shapes():
    """The shapes with few possible juries: at most 10,000, or 100 if there is one candidate."""
    for k, d, n in itertools.product(range(1, 9), range(2, 8), range(1, 14)):
        if d ** (k * n) <= (100 if k == 1 else 10_000):
            yield k, d, n


# Shapes that are tried on more random juries than the others.
DEEP = [(2, 3, 255), (3, 5, 15), (4, 4, 16), (2, 6, 100), (5, 6, 100), (8, 7, 255)]

# Grades and sizes for which two candidates have few enough pairs of counts.
PAIRS = [(2, 31), (2, 64), (2, 100), (3, 7), (3, 8), (3, 15), (4, 7), (5, 4), (6, 3), (7, 2)]


def shapes_and_juries():
    """Shapes, and juries for each; a shape may occur more than once."""
    rng = random.Random(5)
    for k, d, n in itertools.product(range(1, 9), range(2, 8), SIZES):
        yield (k, d, n), random_juries(rng, k, d, n, 40 if (k, d, n) in DEEP else 4)
    for k, d, n in small_shapes():
        yield (k, d, n), every_jury(k, d, n)
    for d, n in PAIRS:
        yield (2, d, n), every_count(d, n)
    for d, jury in juries.panels():
        yield (len(jury), d, len(jury[0])), [jury]


def evaluate_lists(core):
    """Evaluates each list on its juries, and returns how many lists and juries there were."""
    lists, many = {}, 0
    for shape, found in shapes_and_juries():
        if shape not in lists:
            lists[shape] = OwnList(core, shape)
        lists[shape].check(found)
        many += len(found)
    return len(lists), many


EDGES = [
    (1, 2, 1), (1, 7, 255), (2, 2, 1), (2, 2, 2), (2, 3, 1), (2, 3, 3), (2, 4, 2), (3, 2, 3), (3, 3, 3), (4, 2, 2),
    (8, 2, 1), (2, 7, 1), (3, 5, 15), (4, 4, 16), (5, 6, 100), (8, 7, 127), (8, 7, 128), (8, 7, 255),
]


def write_at_edges(core):
    """Tables that are just too short, just long enough and a little longer, with different old numbers."""
    for shape in EDGES:
        numbers = core.own_list(shape)
        need = len(numbers)
        answer = doc.test_list(*shape, numbers)
        lengths = [need - 1, need, need + 1, need + 2, need + 3, need + 4, 2 * need]
        for length in {0, 3, 4, need - 4, *lengths}:
            old = [MOST_NUMBER, 7, 0, 8, 1][length % 5]
            expected = (["refused", 2, 0], [old] * length) if length < need else (answer,
                                                                                  numbers + [old] * (length - need))
            assert core.write(shape, [old] * length) == expected, (shape, length)


def write_outside(core):
    """Shapes outside the limits, with an empty table, a short one and a long one: the reason is always the shape."""
    shapes = [(0, 2, 1), (9, 2, 1), (1, 1, 1), (1, 8, 1), (1, 2, 0), (1, 2, 256), (9, 8, 256), (0, 0, 0)]
    shapes += [(257, 3, 3), (2, 259, 3), (2, 3, 259), (65_538, 3, 3), (2, 65_539, 3), (2, 3, 65_539)]
    shapes += [(2 ** 32 + 2, 3, 3), (2, 2 ** 32 + 3, 3), (2, 3, 2 ** 32 + 3), (MOST_SIZE, MOST_SIZE, MOST_SIZE)]
    for shape in shapes:
        assert core.measure(shape) == ["refused", 1, 0], shape
        for table in ([], [7] * 3, [7] * 1_000):
            assert core.write(shape, table) == (["refused", 1, 0], table), shape


def main():
    core = Core()
    write_at_edges(core)
    write_outside(core)
    core.ignores_short_answers("jugy_measure", 2, 3, 3, answers=5)
    core.ignores_short_answers("jugy_write", 2, 3, 3, output([7] * len(core.own_list((2, 3, 3))), "I"), answers=4)
    lists, many = evaluate_lists(core)
    told = core.saw(measure={1}, write={1, 2})
    print(f"tests/own_lists.py: {core.calls} calls agree: {told}; {lists} lists evaluated on {many} juries")


if __name__ == "__main__":
    main()
