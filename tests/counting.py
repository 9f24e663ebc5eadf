"""Counting plainly, through the library: accepted and refused juries against the reference.

    python3 tests/counting.py    prints how many calls there were, by reason

Shapes at their limits, each reason at its edges, all pairs of faults, the panels, random and damaged juries.
"""

import itertools
import random

import reference as doc
import juries
from core import Core, bytes_of
from juries import level, peaked, row, tied, uniform

# The least and the largest n of each width, and 254.
EDGE_SIZES = [1, 2, 3, 4, 7, 8, 15, 16, 31, 32, 63, 64, 127, 128, 254, 255]
HUGE = 2 ** 64 - 1


class Case:
    """A jury: its ballot bytes, or rows made from one grade each; the grade d makes a row of zeros."""

    def __init__(self, k, d, n, ballots=None, grades=None):
        self.k, self.d, self.n = k, d, n
        self.ballots = list(ballots) if grades is None else [x for g in grades for x in row(d, g)]

    def shape(self):
        return self.k, self.d, self.n

    def expected(self):
        fault, closing = doc.count_plainly(*self.shape(), self.ballots)
        if fault is not None:
            return ["refused", *fault]
        assert closing[:self.k] == juries.closing_bytes(self.d, self.candidates())
        return ["accepted", *closing]

    def candidates(self):
        """The grades of each candidate of an accepted jury."""
        grades = [self.ballots[at:at + self.d].index(1) for at in range(0, len(self.ballots), self.d)]
        return [grades[c::self.k] for c in range(self.k)]


def jury(d, candidates):
    """A jury from the grades of each candidate."""
    return Case(len(candidates), d, len(candidates[0]), ballots=juries.ballots_of(d, candidates))


def panels():
    for d, candidates in juries.panels():
        yield jury(d, candidates)
    yield Case(2, 3, 3, ballots=[1, 0, 0, 0, 1, 0, 0, 1, 0, 0, 1, 0, 0, 1, 0, 0, 0, 1])  # the rehearsal program's


def with_any_grades(k, d, n):
    """A jury that is accepted if its shape is."""
    return Case(k, d, n, grades=[i * 5 % d for i in range(k * n)])


def set_row(case, place, bad):
    case.ballots[place * case.d:place * case.d + case.d] = bad


def shapes():
    """Shapes on both sides of each limit. Those outside have ballots that would fit, so no other reason applies."""
    for k, d, n in itertools.product((1, 8), (2, 7), (1, 255)):
        yield with_any_grades(k, d, n)
    for k, d, n in [(9, 2, 1), (9, 7, 3), (1, 1, 1), (8, 1, 2), (1, 8, 1), (3, 8, 2), (1, 2, 256), (2, 3, 256),
                    (9, 7, 256)]:
        yield with_any_grades(k, d, n)
    for k, d, n in [(0, 2, 1), (1, 0, 1), (1, 2, 0), (0, 7, 255), (8, 7, 0), (0, 0, 0)]:
        yield Case(k, d, n, ballots=[])
    for k, d, n in itertools.product((2, HUGE), (3, HUGE), (1, HUGE)):
        yield Case(k, d, n, ballots=[0, 1, 0, 1, 0, 0])
    # Shapes that would be within limits modulo 2 ^ 8, 2 ^ 16 or 2 ^ 32, with ballots that would then fit.
    for k, d, n in [(257, 2, 1), (1, 258, 1), (1, 2, 257), (65_537, 3, 1), (2, 65_539, 1), (2, 3, 65_537),
                    (2 ** 32 + 1, 2, 1), (1, 2 ** 32 + 2, 1), (1, 2, 2 ** 32 + 1)]:
        yield Case(k, d, n, ballots=with_any_grades(k % 256, d % 256, n % 256).ballots)


def lengths():
    for k, d, n in [(1, 2, 1), (2, 3, 3), (8, 7, 1), (3, 4, 5)]:
        good = with_any_grades(k, d, n).ballots
        for ballots in ([], good[:-1], good + [0], good + [1], good[:-d], good + row(d, 0), good + [2], good + good):
            yield Case(k, d, n, ballots=ballots)
    yield Case(8, 7, 255, ballots=with_any_grades(8, 7, 255).ballots + [0])


def bytes_above_one():
    for k, d, n in [(1, 2, 1), (2, 3, 3), (3, 7, 4)]:
        size = k * d * n
        for place, byte in itertools.product((0, size // 2, size - 1), (2, 3, 128, 255)):
            case = with_any_grades(k, d, n)
            case.ballots[place] = byte
            yield case
    largest = with_any_grades(8, 7, 255)
    largest.ballots[-1] = 255
    yield largest


def bad_rows():
    for k, d, n in [(1, 2, 1), (2, 3, 3), (3, 7, 4), (2, 2, 255)]:
        for place in (0, n * k // 2, n * k - 1):
            for bad in ([0] * d, [1] * d, [1] + row(d - 1, d - 2)):
                case = with_any_grades(k, d, n)
                set_row(case, place, bad)
                yield case
    yield Case(8, 7, 255, grades=[0] * 2039 + [7])           # the last row of the largest jury is empty
    yield Case(1, 2, 2, ballots=[0, 0, 2, 1])                # 5 before 6: the last ballot has a byte 2, row 0 no 1


# In an order in which a later fault does not undo an earlier one, as far as possible.
FAULTS = [
    lambda c: set_row(c, 0, [0, 0, 0]),
    lambda c: set_row(c, 0, [1, 0, 1]),
    lambda c: set_row(c, 2, [0, 0, 0]),
    lambda c: set_row(c, 3, [0, 0, 0]),
    lambda c: set_row(c, 3, [1, 1, 0]),
    lambda c: c.ballots.__setitem__(0, 2),
    lambda c: c.ballots.__setitem__(0, 255),
    lambda c: c.ballots.__setitem__(5, 2),
    lambda c: c.ballots.__setitem__(11, 2),
    lambda c: c.ballots.__setitem__(11, 255),
    lambda c: c.ballots.pop(),
    lambda c: c.ballots.append(0),
    lambda c: c.ballots.clear(),
    lambda c: setattr(c, "k", 0),
    lambda c: setattr(c, "k", 9),
    lambda c: setattr(c, "d", 1),
    lambda c: setattr(c, "d", 8),
    lambda c: setattr(c, "n", 0),
    lambda c: setattr(c, "n", 256),
    lambda c: setattr(c, "n", HUGE),
]


def pairs_of_faults():
    for first, second in itertools.combinations_with_replacement(FAULTS, 2):
        case = with_any_grades(2, 3, 2)
        first(case)
        if second is not first:                              # else only that fault
            second(case)
        yield case


def random_juries(rng):
    # Each shape has 21 sizes, and there are four styles: over all shapes, each size occurs with every style.
    styles = itertools.cycle([uniform, tied, peaked, level])
    for k, d in itertools.product(range(1, 9), range(2, 8)):
        for n in EDGE_SIZES:
            yield jury(d, next(styles)(rng, k, d, n))
        for width in (2, 3, 4, 5, 6):
            n = rng.randrange(1 << (width - 1), 1 << width)
            yield jury(d, next(styles)(rng, k, d, n))
    for style in [tied, level, level] * 100:                 # in small juries wins are shared most often
        yield jury(3, style(rng, rng.choice([2, 2, 3, 4]), 3, rng.randrange(3, 12)))


def damaged_juries(rng):
    for _ in range(120):
        k, d, n = rng.randrange(1, 5), rng.randrange(2, 6), rng.randrange(1, 6)
        case = jury(d, uniform(rng, k, d, n))
        for _ in range(rng.randrange(1, 4)):
            case.ballots[rng.randrange(k * d * n)] = rng.choice([0, 0, 1, 1, 1, 2, 255])
        yield case


def cases():
    rng = random.Random(3)
    fixed = [panels(), shapes(), lengths(), bytes_above_one(), bad_rows(), pairs_of_faults()]
    return itertools.chain(*fixed, random_juries(rng), damaged_juries(rng))


def main():
    core = Core()
    for case in cases():
        expected = case.expected()
        found = core.count(case.shape(), case.ballots)
        assert found == expected, (case.shape(), case.ballots, expected, found)
        assert found[0] == "refused" or any(found[1:]), case.shape()      # somebody always wins
    core.ignores_short_answers("jugy_count", 1, 2, 1, bytes_of([1, 0]), answers=10)
    print(f"tests/counting.py: {core.calls} calls agree:", core.saw(count={1, 4, 5, 6}))


if __name__ == "__main__":
    main()
