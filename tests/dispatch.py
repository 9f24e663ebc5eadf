#!/usr/bin/env python3
"""The dispatcher, through the library, against an independent model: up to eight juries in rounds.

    python3 tests/dispatch.py    prints how many calls there were, by reason

Rounds of 1 gate, of a divisor of G, of G and of more; one long jury with seven short ones; tables longer by 0, 1 and
many; pieces that are one too short in the first, a middle and the last jury; a stated G of 2 ^ 62; each fault in two
juries at once; numbers of juries and of gates per round outside their limits; missing headers. Every table has guards
on both sides.
"""

import itertools
import random

import reference as doc
from core import Core, bytes_of, numbers, output, sizes
from random_juries import random_ballots
from running import flat, random_gates

MOST_SIZE = 2 ** 64 - 1
TABLES = ("lists", "ballots", "tapes", "wires", "boards")
OLD = 9                                                      # what wire tables and boards hold before a call


class Jury:
    """A jury's header and pieces. Wires and board are given by their lengths."""

    def __init__(self, rng, k, d, n, gates):
        self.k, self.d, self.n = k, d, n
        self.stated = gates
        inputs = doc.ballot_bytes(k, d, n)
        made = random_gates(rng, inputs, gates)
        self.list = flat(made)
        self.ballots = random_ballots(rng, k, d, n)
        count = doc.conditional_count(doc.gates_of(self.list))
        self.tape = [rng.randrange(2) for _ in range(count)]
        self.wires = inputs + gates
        self.board = count + k

    def header(self):
        return [self.k, self.d, self.n, self.stated]


class Call:
    """All arguments of a call, as lists; each table has `extra` items after the last piece."""

    def __init__(self, juries, gates_per_round, extra=0, count=None, missing=0):
        self.count = len(juries) if count is None else count
        self.gates_per_round = gates_per_round
        stated = [x for jury in juries for x in jury.header()]
        self.headers = stated[: len(stated) - missing]
        self.lists = [x for jury in juries for x in jury.list] + [7] * extra
        self.ballots = [x for jury in juries for x in jury.ballots] + [5] * extra
        self.tapes = [x for jury in juries for x in jury.tape] + [6] * extra
        self.wires = [OLD] * (sum(jury.wires for jury in juries) + extra)
        self.boards = [OLD] * (sum(jury.board for jury in juries) + extra)

    def but(self, **changes):
        other = Call([], self.gates_per_round)
        other.__dict__.update(self.__dict__)
        other.__dict__.update(changes)
        return other


def next_jury(left, k, d, n, gates):
    """The next jury's fault or None, the lengths of its pieces, and its board. What does not fit counts as empty."""
    def piece(name):
        return left[name][:lengths[name]] if lengths[name] <= len(left[name]) else []

    inputs, lengths = doc.ballot_bytes(k, d, n), {"lists": 4 * gates}
    count = doc.conditional_count(doc.gates_of(piece("lists")))
    lengths.update(ballots=inputs, tapes=count, wires=inputs + gates, boards=count + k)
    table, ballots, tape, wires, board = map(piece, TABLES)
    fault = doc.run_fault(k, d, n, table, ballots, tape, wires, board)
    if fault is not None:
        return fault, lengths, []
    return None, lengths, doc.run_list(k, d, n, table, ballots, tape, wires, board)[2]


def model(call):
    """Reason, place, eight rounds, wires and boards afterwards."""
    refusal = [0] * 8, list(call.wires), list(call.boards)
    if not 1 <= call.count <= 8:
        return (19, 0, *refusal)
    if not 1 <= call.gates_per_round <= 65536:
        return (20, 0, *refusal)
    left = {name: list(getattr(call, name)) for name in TABLES}
    headers = call.headers + [0] * (4 * call.count - len(call.headers))
    rounds, zeros, boards = [], [], []
    for j in range(call.count):
        gates = headers[4 * j + 3]
        fault, lengths, board = next_jury(left, *headers[4 * j:4 * j + 4])
        if fault is not None:
            return (fault[0], j, *refusal)
        for name, length in lengths.items():
            del left[name][:length]
        rounds.append(-(-gates // call.gates_per_round))
        zeros += [0] * lengths["wires"]
        boards += board
    return (0, 0, rounds + [0] * (8 - len(rounds)), zeros + left["wires"], boards + left["boards"])


def lent_to(call):
    """The arguments of a call."""
    read = [sizes(call.headers), numbers(call.lists), bytes_of(call.ballots), bytes_of(call.tapes)]
    return [call.count, call.gates_per_round, *read, output(call.wires), output(call.boards)]


def dispatch(core, call):
    """What the library answers and leaves, in the same form."""
    arguments = lent_to(call)
    said, *values = core.call("jugy_dispatch", *arguments, answers=10)
    reason, place, rounds = (*values, [0] * 8) if said == "refused" else (0, 0, values)
    return (reason, place, rounds, arguments[-2].items(), arguments[-1].items())


def bad_juries(jury):
    """The fault's name, and the jury with this one fault, for each fault."""
    def but(**changes):
        other = object.__new__(Jury)
        other.__dict__.update(jury.__dict__)
        other.__dict__.update(changes)
        return other

    yield "shape", but(k=9)
    yield "few gates", but(stated=jury.k - 1)
    yield "gate", but(list=[doc.NO_KIND] + jury.list[1:])
    yield "ballot byte", but(ballots=[2] + jury.ballots[1:])
    if jury.d:
        yield "row", but(ballots=[0] * len(jury.ballots))
    else:
        yield "clash", but(ballots=[1] * len(jury.ballots))
    if not jury.d and jury.k > 2:                            # candidate 0 before candidate 1, a third tied with both
        yield "gap", but(ballots=[0, 1] + [0] * (len(jury.ballots) - 2))
    if jury.tape:
        yield "tape byte", but(tape=[2] + jury.tape[1:])


class Tests:
    def __init__(self):
        self.rng = random.Random(28)
        self.core = Core()
        self.juries = [self.jury(20, d=4), Jury(self.rng, 4, 0, 3, 20), self.jury(20, d=2)]
        self.good = Call(self.juries, 8)

    def check(self, call):
        expected, found = model(call), dispatch(self.core, call)
        assert found == expected, (expected[:3], found[:3], call.__dict__)
        return expected

    def jury(self, gates=None, d=None):
        k, n = self.rng.randint(1, 8), self.rng.randint(1, 9)
        grades = self.rng.choice((0, 0, 2, 3, 4, 5, 6, 7)) if d is None else d
        return Jury(self.rng, k, grades, n, gates if gates is not None else k + self.rng.randrange(40))

    def accepted(self):
        """Every number of juries with rounds of many sizes, and one long jury with seven short ones."""
        for count, extra, gates in itertools.product(range(1, 9), (0, 1, 50), (1, 2, 5, 7, 64, 4096, 65536)):
            self.check(Call([self.jury() for _ in range(count)], gates, extra))
        for gates in (1, 3, 4, 12, 13, 24, 25):              # divisors of 24, and their neighbours
            self.check(Call([self.jury(24) for _ in range(3)], gates, 1))
        self.check(Call([self.jury(3000)] + [self.jury(9) for _ in range(7)], 1))
        self.check(Call([self.jury(9) for _ in range(7)] + [self.jury(3000)], 1000))

    def limits(self):
        """Numbers of juries, of gates per round and of a list's gates outside their limits; missing headers."""
        for count in (0, 9, 2 ** 32, MOST_SIZE):
            self.check(self.good.but(count=count))
            self.check(self.good.but(count=count, gates_per_round=0))
        for gates in (0, 65537, MOST_SIZE):
            self.check(self.good.but(gates_per_round=gates))
        numbers_of_gates = (0, 2 ** 20 + 1, 2 ** 30, 2 ** 62, 2 ** 62 + 1, 2 ** 63, MOST_SIZE)
        for gates, j in itertools.product(numbers_of_gates, range(3)):
            headers = list(self.good.headers)
            headers[4 * j + 3] = gates
            self.check(self.good.but(headers=headers))
        for missing in range(1, 13):
            self.check(Call(self.juries, 8, missing=missing))

    def short_tables(self):
        for name in TABLES:
            for short in (1, 2, 4, len(getattr(self.good, name))):   # a part of the last jury's piece, or all
                self.check(self.good.but(**{name: getattr(self.good, name)[:-short]}))
            for j in (1, 2):                                 # the tables end in the first or in the middle jury's piece
                part = Call(self.juries[:j], 8)
                self.check(part.but(count=3, **{name: getattr(part, name)[:-1]}))

    def bad_pieces(self):
        """Each fault in each jury, and every two in two juries."""
        for of in self.juries[:2]:
            for j, (_, bad) in itertools.product(range(3), bad_juries(of)):
                self.check(Call(self.juries[:j] + [bad] + self.juries[j + 1:], 8, 3))
        for (_, first), (_, second) in itertools.product(bad_juries(self.juries[0]), bad_juries(self.juries[1])):
            self.check(Call([first, second], 8))

    def alone(self):
        """A jury's board and number of rounds do not depend on the other juries, and its board is that of a run."""
        for _ in range(200):
            one, others = self.jury(), [self.jury() for _ in range(self.rng.randint(0, 7))]
            place, gates = self.rng.randint(0, len(others)), self.rng.choice((1, 3, 16, 65536))
            among = self.check(Call(others[:place] + [one] + others[place:], gates, self.rng.randrange(3)))
            alone = self.check(Call([one], gates))
            start = sum(other.board for other in others[:place])
            assert among[2][place] == alone[2][0] and among[4][start:start + one.board] == alone[4]
            buffers = [OLD] * one.wires, [OLD] * one.board
            said, _, board = self.core.run((one.k, one.d, one.n), one.list, one.ballots, one.tape, *buffers)
            assert said[0] == "accepted" and board == alone[4]

    def short_answers(self):
        for call in (self.good, self.good.but(count=0), self.good.but(boards=[])):
            self.core.ignores_short_answers("jugy_dispatch", *lent_to(call), answers=10)


def main():
    tests = Tests()
    for part in (tests.accepted, tests.limits, tests.short_tables, tests.bad_pieces, tests.alone, tests.short_answers):
        part()
    print(f"tests/dispatch.py: {tests.core.calls} calls as expected:", tests.core.saw(dispatch={*range(1, 13), 19, 20}))


if __name__ == "__main__":
    main()
