"""Runs for 64 juries at once, through the library: each jury against its single run and the reference.

    python3 tests/batch.py    prints how many calls there were, by reason

Own lists and random lists with every kind, lists without a conditional gate, words of all ones, a bad row and a bad
ranking in every jury, each length one short and one long, shapes at their limits, and all pairs of faults.
"""

import itertools
import random

import reference as doc
from core import Core, Lent, numbers, output
from random_juries import random_ballots
from running import flat, random_gates

JURIES = 64
ALL = 2 ** JURIES - 1
OLD = 0x0123_4567_89AB_CDEF                                  # what wire table and board hold before a call


def words_of(lists):
    """Words of which bit j of word i is byte i of list j."""
    return [sum(bit << j for j, bit in enumerate(bits)) for bits in zip(*lists)]


def lane(j, words):
    return [word >> j & 1 for word in words]


def batch_fault(k, d, n, table, words, tape, wires, board):
    """Reasons 1, 2, 3, 4, then 6 or 11 and 12, then 7, 9 and 10: a number and a place, or None."""
    fault = doc.test_fault(k, d, n, table)
    if fault is not None:
        return fault
    if len(words) != doc.ballot_bytes(k, d, n):
        return (4, 0)
    faults = [doc.ballots_fault(k, d, n, lane(j, words)) for j in range(JURIES)]
    for number in (6, 11, 12):
        juries = [j for j, fault in enumerate(faults) if fault is not None and fault[0] == number]
        if juries:
            return (number, juries[0])
    return doc.lent_fault(doc.ballot_bytes(k, d, n), k, doc.gates_of(table), [0] * len(tape), wires, board)


class Tester:
    def __init__(self):
        self.core = Core()
        self.rng = random.Random(64)

    def check(self, shape, table, words, tape, wires=None, board=None, single=True):
        """One call: its answer and, if it is accepted, every jury against its single run and the reference."""
        k, d, n = shape
        gates = doc.gates_of(table)
        count = doc.conditional_count(gates)
        wires = [OLD] * (doc.ballot_bytes(k, d, n) + len(gates) if wires is None else wires)
        board = [OLD] * (count + k if board is None else board)
        fault = batch_fault(k, d, n, table, words, tape, wires, board)
        said, wires_after, board_after = self.core.run(shape, table, words, tape, wires, board, "jugy_run_batch", "Q")
        assert said == doc.answer(fault, table), (shape, said, fault)
        if fault is not None:
            return                                           # Core.call has tested that a refusal changes nothing
        assert wires_after == [0] * len(wires), shape
        for j in range(JURIES):
            ballots, bits = lane(j, words), lane(j, tape)
            expected = doc.run_list(k, d, n, table, ballots, bits, wires, board)
            assert lane(j, board_after) == expected[2], (shape, j)
            if single:
                alone = self.core.run(shape, table, ballots, bits, [9] * len(wires), [9] * len(board))
                assert alone[0] == said and alone[2] == lane(j, board_after), (shape, j)

    def juries(self, shape, many=JURIES):
        return [random_ballots(self.rng, *shape) for _ in range(many)]

    def tape(self, table):
        return [self.rng.getrandbits(JURIES) for _ in range(doc.conditional_count(doc.gates_of(table)))]

    def own_lists(self):
        for shape in [(1, 2, 1), (2, 3, 3), (3, 4, 5), (8, 2, 2), (1, 7, 9), (4, 3, 7), (1, 0, 1), (2, 0, 3),
                      (3, 0, 5), (4, 0, 7)]:
            table = self.core.own_list(shape)
            self.check(shape, table, words_of(self.juries(shape)), self.tape(table))

    def random_lists(self):
        for _ in range(40):
            shape = (self.rng.randint(1, 4), self.rng.choice((0, 2, 3, 4)), self.rng.randint(1, 3))
            k, d, n = shape
            table = flat(random_gates(self.rng, doc.ballot_bytes(k, d, n), self.rng.randint(k, 60)))
            self.check(shape, table, words_of(self.juries(shape)), self.tape(table))

    def free_lists(self):
        """C = 0: kinds 0, 1, 2, 3 and 6, and an empty tape."""
        for gates in [[(0, 0, 0, 0)], [(1, 0, 0, 0)], [(2, 0, 0, 0)], [(3, 1, 0, 0)], [(6, 0, 1, 0), (3, 2, 0, 0)]]:
            self.check((1, 2, 1), flat(gates), words_of(self.juries((1, 2, 1))), [])

    def all_ones(self):
        """All juries have the same ballot and the same tape: words of all ones, which reasons 5 and 8 do not refuse."""
        shape, table = (1, 2, 1), flat([(1, 0, 0, 0), (4, 0, 2, 0), (5, 1, 3, 0), (7, 0, 3, 4)])
        for ballot in ([ALL, 0], [0, ALL]):
            self.check(shape, table, ballot, [ALL] * 3)
            self.check(shape, table, ballot, [0] * 3)

    def bad_rows(self):
        """A row without a 1, with two or with three, first or last, in each jury; then bad rows in two juries."""
        shape, table = (2, 3, 2), flat([(4, 0, 1, 0)] * 2)
        good, tape = self.juries(shape), self.tape(table)
        for j in range(JURIES):
            for row, bits in itertools.product((0, 3), ([0, 0, 0], [1, 1, 0], [1, 1, 1])):
                bad = list(good)
                bad[j] = good[j][:3 * row] + bits + good[j][3 * row + 3:]
                self.check(shape, table, words_of(bad), tape, single=False)
        for first, second in [(0, 63), (3, 63), (62, 63), (0, 1), (31, 32)]:
            bad = list(good)
            bad[first], bad[second] = good[first][:9] + [0, 0, 0], [1, 1, 0] + good[second][3:]
            self.check(shape, table, words_of(bad), tape, single=False)
        self.check(shape, table, [0] * 12, tape, single=False)
        self.check(shape, table, [ALL] * 12, tape, single=False)

    def bad_rankings(self):
        """Faults 11 (on the diagonal and off it) and 12, first ballot or last, in each jury; then in two juries."""
        shape, table = (3, 0, 2), flat([(4, 0, 1, 0)] * 3)
        good, tape = self.juries(shape), self.tape(table)
        clashes, gap = ([1] + [0] * 8, [0, 1, 0, 1, 0, 0, 0, 0, 0]), [0, 1, 0] + [0] * 6
        for j in range(JURIES):
            for ballot, bits in itertools.product((0, 1), (*clashes, gap)):
                bad = list(good)
                bad[j] = good[j][:9 * ballot] + bits + good[j][9 * ballot + 9:]
                self.check(shape, table, words_of(bad), tape, single=False)
        for (first, a), (second, b) in itertools.product(zip((0, 31, 62), (gap, clashes[0], gap)),
                                                         zip((1, 32, 63), (clashes[1], gap, gap))):
            bad = list(good)
            bad[first], bad[second] = a + good[first][9:], good[second][:9] + b
            self.check(shape, table, words_of(bad), tape, single=False)
        self.check(shape, table, [0] * 18, tape)
        self.check(shape, table, [ALL] * 18, tape, single=False)

    def faults(self):
        """Each fault at its edges, and all pairs of faults."""
        shape, table = (2, 2, 2), flat([(4, 0, 1, 0), (1, 0, 0, 0), (7, 0, 2, 3)])
        words, tape = words_of(self.juries(shape)), self.tape(table)
        ways = [
            [("shape", s) for s in [(0, 2, 2), (9, 2, 2), (2, 1, 2), (2, 8, 2), (2, 2, 0), (2, 2, 256),
                                    (2, 2, 2 ** 64 - 1)]],
            [("table", t) for t in [table[:4], table[:-1], table + [0], []]],
            [("table", t) for t in [flat([(doc.NO_KIND, 0, 0, 0)]) + table[4:],
                                    table[:4] + flat([(2, 9, 0, 0)]) + table[8:], table[:8] + [7, 10, 0, 0]]],
            [("words", w) for w in [words[:-1], words + [0], []]],
            [("words", [0] + words[1:]), ("words", words[:-1] + [ALL])],
            [("tape", t) for t in [tape[:-1], tape + [1], []]],
            [("wires", w) for w in [10, 12, 0]],
            [("board", b) for b in [3, 5, 0]],
        ]
        plain = {"shape": shape, "table": table, "words": words, "tape": tape, "wires": 11, "board": 4}
        self.check(**plain)
        for changes in itertools.chain(*([[way] for way in way_list] for way_list in ways),
                                       *(itertools.product(a, b) for a, b in itertools.combinations(ways, 2))):
            self.check(**{**plain, **dict(changes)}, single=False)

    def short_answers(self):
        """An answer array that is too short: status 255, and nothing changes, for a good call and for a bad one."""
        table, words = flat([(4, 0, 1, 0)]), words_of(self.juries((1, 2, 1)))
        for tape in ([ALL], []):
            lent = [numbers(table), Lent("Q", words), Lent("Q", tape), output([OLD] * 3, "Q"), output([OLD] * 2, "Q")]
            self.core.ignores_short_answers("jugy_run_batch", 1, 2, 1, *lent, answers=4)

    def shapes(self):
        """Shapes at their limits, with one list that fits them all."""
        for shape in itertools.product((1, 8), (0, 2, 7), (1, 255)):
            k, d, n = shape
            last = doc.ballot_bytes(k, d, n) - 1
            table = flat([(4, 0, last, 0), (7, last, 0, last + 1)] * 2 + [(5, 0, last, 0)] * k)
            words = words_of(self.juries(shape, 4) * 16)
            self.check(shape, table, words, self.tape(table), single=k * n < 300)


def main():
    tester = Tester()
    for part in (tester.own_lists, tester.random_lists, tester.free_lists, tester.all_ones, tester.bad_rows,
                 tester.bad_rankings,
                 tester.faults, tester.shapes, tester.short_answers):
        part()
    print("tests/batch.py: ok,", tester.core.saw(run_batch={1, 2, 3, 4, 6, 11, 12, 7, 9, 10}))


if __name__ == "__main__":
    main()
