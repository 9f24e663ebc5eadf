"""Ranked juries, through the library, against the reference: tests, counts, runs and own lists.

    python3 tests/rankings.py    prints how many calls and juries there were

A ranking is given by ranks, one for each candidate: a smaller rank is better, equal ranks are ties. The rule is
implemented twice: by trying all simple paths (reference.py), and by searching which candidates can be reached over
links of some strength (below).
"""

import collections
import itertools
import random

import reference as doc
from core import Core
from own_lists import closing

MOST_BYTES = 16_320
SIZES = [1, 2, 3, 4, 7, 8, 15, 16, 31, 32, 63, 64, 100, 127, 128, 254, 255]

def ranks_of_order(order):
    """The ranks of the candidates A, B, C and so on in a strict order, which is written best first."""
    return [order.index(chr(ord("A") + c)) for c in range(len(order))]


# The example of Schulze's paper.
PAPER = [(5, "ACBED"), (5, "ADECB"), (8, "BEDAC"), (3, "CABED"), (7, "CAEBD"), (2, "CBADE"), (7, "DCEBA"), (8, "EBADC")]

# Juries with a known outcome: rankings, how many jurors have each, and the closing bytes.
PANELS = [
    ([(1, [0, 1, 2]), (1, [2, 0, 1]), (1, [1, 2, 0])], [1, 1, 1]),
    ([(many, ranks_of_order(order)) for many, order in PAPER], [0, 0, 0, 0, 1]),
    ([(1, [0, 0])], [1, 1]),
    ([(1, [0])], [1]),
    ([(2, [1, 1, 0]), (1, [2, 0, 1]), (2, [0, 1, 2])], [0, 1, 0]),
    ([(1, [1, 0, 3, 0]), (1, [0, 0, 1, 3]), (1, [2, 3, 0, 1])], [0, 1, 0, 0]),
]


def matrix(ranks):
    """The ballot of a ranking."""
    return [1 if x < y else 0 for x in ranks for y in ranks]


def ballots_of(jury):
    return [x for ranks in jury for x in matrix(ranks)]


def reaching_bytes(preferred):
    """Schulze's rule without paths: i has one to j of strength s if links of at least s lead from i to j."""
    strength, among = doc.links(preferred), range(len(preferred))
    levels = sorted({x for row in strength for x in row if x}, reverse=True)
    best = collections.Counter()
    for level in levels:
        for i in among:
            reached, new = {i}, [i]
            while new:
                x = new.pop()
                for y in among:
                    if strength[x][y] >= level and y not in reached:
                        reached.add(y)
                        new.append(y)
            for j in reached:
                best[i, j] = max(best[i, j], level)
    return [1 if all(best[i, j] >= best[j, i] for j in among if j != i) else 0 for i in among]


def outcome(jury):
    """The closing bytes of a jury. For up to six candidates both implementations must agree; for more, one is slow."""
    k, n = len(jury[0]), len(jury)
    preferred = doc.preferences(k, n, ballots_of(jury))
    found = reaching_bytes(preferred)
    if k <= 6:
        assert found == doc.ranked_closing_bytes(preferred), jury
    assert sum(found) > 0, jury                              # somebody always wins
    return found


def weak_orders(k):
    """All rankings of k candidates, each once."""
    return [r for r in itertools.product(range(k), repeat=k) if set(r) == set(range(max(r) + 1))]


def bound(k, n):
    w = n.bit_length()
    return 2 * k * k * n * w + k ** 3 * (12 * w + 4) + k * k * (20 * w + 20) + 2


class Rankings:
    def __init__(self):
        self.core = Core()
        self.lists = {}
        self.juries = 0

    def count(self, k, n, ballots, d=0):
        """Counts plainly, and compares."""
        fault = doc.ballots_fault(k, d, n, ballots) if doc.shape_is_within(k, d, n) else (1, 0)
        found = self.core.count((k, d, n), ballots)
        if fault is None:
            jury = reaching_bytes(doc.preferences(k, n, ballots))
            expected = ["accepted", *jury, *[0] * (8 - k)]
        else:
            expected = ["refused", *fault]
        assert found == expected, (k, n, ballots, expected, found)

    def run(self, k, d, n, table, ballots, tape, wires, board):
        """Runs a list, and compares answer, wire table and board."""
        old = [9] * wires, [7] * board
        expected = doc.run_list(k, d, n, table, ballots, tape, *old)
        found = self.core.run((k, d, n), table, ballots, tape, *old)
        assert list(found) == list(expected), (k, d, n, expected[0], found[0])

    def own_list(self, k, n):
        """The own list of a shape as the library writes it, tested, measured and compared with the bound."""
        if (k, n) not in self.lists:
            table = self.core.own_list((k, 0, n))
            gates = doc.gates_of(table)
            size = ["accepted", len(gates), doc.conditional_count(gates)]
            assert self.core.measure((k, 0, n)) == [*size, n * k * k], (k, n)
            assert doc.test_list(k, 0, n, table) == self.core.test((k, 0, n), table) == size, (k, n)
            assert len(gates) <= bound(k, n), (k, n)
            self.lists[k, n] = gates
        return self.lists[k, n]

    def evaluate(self, k, n, juries):
        """Evaluates the own list on juries, counts each plainly too, and compares both with the rule."""
        gates = self.own_list(k, n)
        bits = [ballots_of(jury) for jury in juries]
        inputs = [int("".join(str(ballots[i]) for ballots in reversed(bits)), 2) for i in range(n * k * k)]
        for jury, ballots, said in zip(juries, bits, closing(inputs, gates, k, len(juries))):
            expected = outcome(jury)
            assert said == expected, (jury, said, expected)
            found = self.core.count((k, 0, n), ballots)
            assert found == ["accepted", *expected, *[0] * (8 - k)], (jury, found)
        self.juries += len(juries)


def panels(tests):
    for counted, known in PANELS:
        jury = [ranks for many, ranks in counted for _ in range(many)]
        assert outcome(jury) == known, (jury, known)
        tests.evaluate(len(jury[0]), len(jury), [jury])


def every_matrix(tests):
    """All matrices of bits as a jury of one, for up to three candidates, and all pairs of matrices for two."""
    for k in (1, 2, 3):
        for ballot in itertools.product((0, 1), repeat=k * k):
            tests.count(k, 1, list(ballot))
    for ballots in itertools.product((0, 1), repeat=8):
        tests.count(2, 2, list(ballots))
    for k, many in ((1, 1), (2, 3), (3, 13)):
        passed = [b for b in itertools.product((0, 1), repeat=k * k) if doc.ranking_fault(k, 1, b) is None]
        assert sorted(passed) == sorted(tuple(matrix(r)) for r in weak_orders(k)) and len(passed) == many


def edges(tests):
    for k, n in [(0, 1), (9, 1), (1, 0), (1, 256), (8, 256), (0, 0), (2 ** 32 + 1, 1), (1, 2 ** 32 + 1), (257, 1)]:
        tests.count(k, n, [0] * 4)
    for d in (1, 8):
        tests.count(2, 1, [0, 1], d)
    for k, n in [(1, 1), (2, 3), (3, 4), (8, 1), (8, 255)]:
        good = ballots_of([[(b + c * 3) % 4 for c in range(k)] for b in range(n)])
        assert len(good) <= MOST_BYTES
        for ballots in (good, good[:-1], good + [0], [], good[:-k], good + good):
            tests.count(k, n, ballots)
        for place in {0, len(good) // 2, len(good) - 1}:
            for byte in (2, 255):
                tests.count(k, n, good[:place] + [byte] + good[place + 1:])
    three = matrix([0, 1, 2])

    def but(*places):
        return [1 if i in places else x for i, x in enumerate(three)]

    tests.count(3, 1, but(0))                                # a candidate before itself
    tests.count(3, 1, but(8))
    tests.count(3, 1, but(4, 6))                             # (0, 2) with (2, 0), and (1, 1): place 2
    tests.count(3, 1, but(3))                                # (0, 1) with (1, 0): the earlier one, place 1
    cycle, gap = [0, 1, 0, 0, 0, 1, 1, 0, 0], [0, 1, 0, 0, 0, 0, 0, 0, 0]
    for bad in (cycle, gap):
        for n in (1, 2, 5):
            for b in range(n):
                jury = [three] * n
                jury[b] = bad
                tests.count(3, n, sum(jury, []))
    tests.count(3, 2, gap + but(0))                          # 12 in the first ballot, 11 in the last: 11
    tests.count(3, 2, but(0) + gap)


def random_jury(rng, k, n):
    """Random rankings with ties: independent, mostly alike, or with cycles."""
    style = rng.randrange(3)
    base = [rng.randrange(k) for _ in range(k)]
    jury = []
    for _ in range(n):
        if style == 0:
            jury.append([rng.randrange(k) for _ in range(k)])
        elif style == 1:
            jury.append([2 * x + rng.randrange(4) for x in base])
        else:                                                # cycles: one order, rotated
            turn = rng.randrange(k)
            jury.append([(x + turn) % k // rng.choice((1, 1, 2)) for x in range(k)])
    return jury


def random_juries(tests, rng):
    for k in range(1, 9):
        for n in SIZES:
            if k * k * n > 6_000 and n not in (100, 255):
                continue
            many = 3 if k * n > 300 else 12
            tests.evaluate(k, n, [random_jury(rng, k, n) for _ in range(many)])
    for k, n in [(3, 5), (3, 6), (4, 3), (4, 5), (4, 7), (5, 4), (5, 9), (6, 5)]:
        tests.evaluate(k, n, [random_jury(rng, k, n) for _ in range(300)])


def small_shapes(tests):
    """All ranked juries of the shapes that have few."""
    for k, n in [(1, 1), (1, 2), (1, 3), (2, 1), (2, 2), (2, 3), (2, 4), (2, 5), (2, 6), (3, 1), (3, 2), (3, 3),
                 (4, 1), (4, 2)]:
        tests.evaluate(k, n, list(itertools.product(weak_orders(k), repeat=n)))


# Faults of a call for three candidates and two ballots, with the reason of each.
FAULTS = [
    lambda c: c["ballots"].__setitem__(slice(0, 9), [0, 1, 0, 0, 0, 0, 0, 0, 0]),   # 12
    lambda c: c["ballots"].__setitem__(slice(9, 18), [0, 1, 0, 0, 0, 1, 1, 0, 0]),  # 12
    lambda c: c["ballots"].__setitem__(4, 1),            # 11
    lambda c: c["ballots"].__setitem__(17, 1),
    lambda c: c["ballots"].__setitem__(0, 2),            # 5
    lambda c: c["ballots"].__setitem__(17, 255),
    lambda c: c["ballots"].pop(),                        # 4
    lambda c: c["tape"].append(0),                       # 7
    lambda c: c["tape"].__setitem__(0, 2),               # 8
    lambda c: c.__setitem__("wires", c["wires"] + 1),    # 9
    lambda c: c.__setitem__("board", c["board"] - 1),    # 10
    lambda c: c["table"].pop(),                          # 2
    lambda c: c["table"].__setitem__(0, 8),              # 3
    lambda c: c["table"].__setitem__(1, 18),
    lambda c: c.__setitem__("d", 1),                     # 1
    lambda c: c.__setitem__("n", 256),
    lambda c: c.__setitem__("k", 0),
]


def runs(tests, rng):
    """Runs of own lists with random tapes."""
    for k, n in [(1, 1), (2, 3), (3, 4), (4, 5), (8, 2)]:
        gates = tests.own_list(k, n)
        table = [x for gate in gates for x in gate]
        conditional = doc.conditional_count(gates)
        for _ in range(6):
            ballots = ballots_of(random_jury(rng, k, n))
            tape = [rng.randrange(2) for _ in range(conditional)]
            tests.run(k, 0, n, table, ballots, tape, n * k * k + len(gates), conditional + k)


def pairs_of_faults(tests):
    """Every fault by itself and every two at once, run and counted."""
    gates = tests.own_list(3, 2)
    for first, second in itertools.combinations_with_replacement(FAULTS, 2):
        case = {"k": 3, "d": 0, "n": 2, "table": [x for gate in gates for x in gate],
                "ballots": ballots_of([[0, 1, 1], [2, 0, 1]])}
        case["tape"] = [i % 2 for i in range(doc.conditional_count(gates))]
        case["wires"], case["board"] = 18 + len(gates), len(case["tape"]) + 3
        first(case)
        if second is not first:
            second(case)
        tests.run(**case)
        if doc.shape_is_within(case["k"], case["d"], case["n"]):
            tests.count(case["k"], case["n"], case["ballots"], case["d"])


def main():
    tests, rng = Rankings(), random.Random(11)
    panels(tests)
    every_matrix(tests)
    edges(tests)
    small_shapes(tests)
    random_juries(tests, rng)
    runs(tests, rng)
    pairs_of_faults(tests)
    told = tests.core.saw(count={1, 4, 5, 11, 12}, run={1, 2, 3, 4, 5, 11, 12, 7, 8, 9, 10})
    lists, calls = len(tests.lists), tests.core.calls
    print(f"tests/rankings.py: {lists} lists on {tests.juries} juries, {calls} calls agree: {told}")


if __name__ == "__main__":
    main()
