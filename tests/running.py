"""Testing and running lists, whoever wrote them, through the library: accepted and refused, against the reference.

    python3 tests/running.py    prints how many calls there were, by reason

Shapes at their limits, each reason at its edges for a test and for a run, every kind on all values, every tape of one
list, empty slices, all pairs of faults, random lists and damaged ones.
"""

import itertools
import random

import reference as doc
from core import Core, bytes_of, numbers, output
from juries import row
from random_juries import random_ballots

MOST_NUMBER = 2 ** 32 - 1
MOST_SIZE = 2 ** 64 - 1
TEST, RUN = "test", "run"
OLD = 9                                                      # what wire table and board hold before a call


def flat(gates):
    return [x for gate in gates for x in gate]


def random_gates(rng, inputs, count):
    """Well-formed gates of every kind over any earlier wires."""
    gates = []
    for own in range(inputs, inputs + count):
        kind = rng.randrange(len(doc.OPERANDS))
        used = doc.OPERANDS[kind]
        gates.append((kind,) + tuple(rng.randrange(own) if i < used else 0 for i in range(3)))
    return gates


class Case:
    """A call. Wire table and board are given by their lengths; the defaults are such that a run is accepted."""

    def __init__(self, k, d, n, gates, ballots=None, tape=None, call=RUN, old=OLD):
        self.k, self.d, self.n, self.call, self.old = k, d, n, call, old
        self.table = flat(gates)
        self.ballots = list(ballots) if ballots is not None else any_ballots(k, d, n)
        count = doc.conditional_count(gates)
        self.tape = list(tape) if tape is not None else [i % 3 % 2 for i in range(count)]
        self.wires = len(self.ballots) + len(gates)
        self.board = count + k

    def but(self, **changes):
        """The same with other numbers or lists."""
        case = Case(self.k, self.d, self.n, [], self.ballots, self.tape, self.call, self.old)
        case.table, case.wires, case.board = self.table, self.wires, self.board
        for name, value in changes.items():
            assert hasattr(case, name), name
            setattr(case, name, value)
        return case

    def shape(self):
        return self.k, self.d, self.n

    def expected(self):
        """The answer, and of a run the wire table and the board afterwards."""
        if self.call == TEST:
            return doc.test_list(*self.shape(), self.table)
        wires, board = [self.old] * self.wires, [self.old] * self.board
        return doc.run_list(*self.shape(), self.table, self.ballots, self.tape, wires, board)

    def found(self, core):
        if self.call == TEST:
            return core.test(self.shape(), self.table)
        wires, board = [self.old] * self.wires, [self.old] * self.board
        return core.run(self.shape(), self.table, self.ballots, self.tape, wires, board)

    def reason(self):
        answer = self.expected() if self.call == TEST else self.expected()[0]
        return answer[1] if answer[0] == "refused" else 0


def any_ballots(k, d, n):
    """Ballots that are accepted if the shape is; none if d is 0, or if there would be very many."""
    if d == 0 or k * d * n > 16_384:
        return []
    return [x for i in range(k * n) for x in row(d, i * 5 % d)]


def both(case):
    """A test and a run of one list."""
    return [case.but(call=TEST), case]


def some_gates(k, inputs):
    """A well-formed list with every kind, of at least k gates."""
    last = max(inputs - 1, 0)
    gates = [(0, 0, 0, 0), (1, 0, 0, 0), (2, last, 0, 0), (3, 0, 0, 0), (4, 0, last, 0), (5, last, inputs + 3, 0)]
    return gates + [(6, inputs + 4, 0, 0), (7, inputs + 6, last, inputs + 5)] + [(6, 1, last, 0)] * max(k - 8, 0)


def jury(k, d, n):
    return Case(k, d, n, some_gates(k, n * k * d))


def shapes():
    """Shapes on both sides of each limit. Those outside have a list, ballots and lengths that would fit."""
    for k, d, n in itertools.product((1, 8), (2, 7), (1, 255)):
        yield from both(jury(k, d, n))
    for k, d, n in [(0, 2, 1), (9, 2, 1), (9, 7, 3), (1, 1, 2), (8, 1, 2), (1, 8, 1), (3, 8, 2), (1, 2, 256),
                    (2, 3, 256), (9, 8, 56)]:
        yield from both(jury(k, d, n))
    for k, d, n in [(1, 0, 1), (1, 2, 0), (0, 7, 255), (8, 7, 0), (0, 0, 0), (MOST_SIZE, 2, 1), (1, MOST_SIZE, 1),
                    (1, 2, MOST_SIZE), (MOST_SIZE, MOST_SIZE, MOST_SIZE)]:
        yield from both(jury(1, 2, 1).but(k=k, d=d, n=n))
    for k, d, n in [(257, 2, 1), (1, 258, 1), (1, 2, 257), (65_537, 2, 1), (1, 65_538, 1), (1, 2, 65_537)]:
        yield from both(jury(1, 2, 1).but(k=k, d=d, n=n))     # within limits modulo 2 ^ 8 or 2 ^ 16
    for k, d, n in [(2 ** 32 + 1, 2, 1), (1, 2 ** 32 + 2, 1), (1, 2, 2 ** 32 + 1)]:
        yield from both(jury(1, 2, 1).but(k=k, d=d, n=n))     # and modulo 2 ^ 32


def list_lengths():
    for k in range(1, 9):
        good = Case(k, 2, 1, [(4, 0, 1, 0)] * k)
        for gates in (k - 1, k, k + 1):                      # k - 1 gates give 2
            tape, wires, board = [1] * gates, 2 * k + gates, gates + k
            yield from both(good.but(table=[4, 0, 1, 0] * gates, tape=tape, wires=wires, board=board))
        for numbers in (4 * k - 3, 4 * k - 1, 4 * k + 1, 4 * k + 2, 4 * k + 3):
            yield from both(good.but(table=([4, 0, 1, 0] * (k + 1))[:numbers]))
    for numbers in range(4):
        yield from both(Case(1, 2, 1, [(0, 0, 0, 0)]).but(table=[0] * numbers))


def operands():
    """Gates with an operand that is too large or just small enough, or with one that should be 0."""
    for k, d, n in [(1, 2, 1), (2, 3, 3)]:
        inputs = n * k * d
        rest = [(1, 0, 0, 0)] * (k + 2)
        for kind, used in doc.OPERANDS.items():
            for slot in range(3):
                for g in (0, 2):
                    own = inputs + g
                    for x in ([own - 1, own, own + 1, MOST_NUMBER] if slot < used else [1, MOST_NUMBER]):
                        gate = [kind, 0, 0, 0]
                        gate[slot + 1] = x
                        case = Case(k, d, n, rest[:g] + [tuple(gate)] + rest[g + 1:])
                        yield case.but(call=TEST)
                        if x in (own, own - 1, 1):
                            yield case


def kinds():
    for kind in [8, 9, 12, 255, 256, 260, 263, 65_540, 65_543, 2_147_483_648, MOST_NUMBER - 1, MOST_NUMBER]:
        for g in (0, 1, 2):
            gates = [(1, 0, 0, 0)] * 3
            gates[g] = (kind, 0, 0, 0)
            yield from both(Case(1, 2, 1, gates))
    many = [(6, 0, 1, 0)] * 30
    for places in [(29,), (3, 4), (4, 29), (28, 29)]:        # the first bad gate is named
        gates = list(many)
        for g in places:
            gates[g] = (6, 0, 2 + g, 0)
        yield from both(Case(1, 2, 1, gates))


def each_kind():
    """Each kind on all values of its operands, under both masks. The operands are wires 0, 2 and 4."""
    for (kind, used), bits in itertools.product(doc.OPERANDS.items(), itertools.product((0, 1), repeat=3)):
        gate = (kind,) + tuple(2 * i if i < used else 0 for i in range(3))
        for mask in (0, 1):
            tape = [mask] if doc.CONDITIONAL[kind] else []
            yield Case(1, 2, 3, [gate], [x for b in bits for x in (b, 1 - b)], tape)
            if not tape:
                break


def every_tape():
    """One list on two sets of ballots with equal closing bytes, under each tape: both give the same set of boards."""
    gates = [(6, 0, 3, 0), (2, 6, 0, 0), (7, 6, 1, 2), (4, 8, 5, 0), (5, 9, 0, 0), (3, 10, 0, 0)]
    boards = []
    for voters in ([1, 0, 0, 0, 0, 1], [0, 0, 1, 0, 0, 1]):
        runs = [Case(2, 3, 1, gates, voters, tape) for tape in itertools.product((0, 1),
                                                                                 repeat=doc.conditional_count(gates))]
        boards.append({tuple(run.expected()[2]) for run in runs})
        yield from runs
    assert boards[0] == boards[1] and len(boards[0]) == 2 ** doc.conditional_count(gates)


def changed(items, place, item):
    return items[:place] + [item] + items[place + 1:]


def ballots():
    for k, d, n in [(1, 2, 1), (2, 3, 3), (3, 7, 4)]:
        good = jury(k, d, n)
        whole = good.ballots
        for other in (whole[:-1], whole + [0], whole + [1], whole + [2], whole[:-d], whole + row(d, 0), [],
                      whole + whole):
            yield good.but(ballots=other)
        for place, byte in itertools.product((0, len(whole) // 2, len(whole) - 1), (2, 255)):
            yield good.but(ballots=changed(whole, place, byte))
        for place in (0, n * k // 2, n * k - 1):
            for bad in ([0] * d, [1] * d, [1] + row(d - 1, d - 2)):
                yield good.but(ballots=whole[:place * d] + bad + whole[place * d + d:])
    yield Case(1, 2, 2, [(6, 0, 2, 0)], ballots=[0, 0, 2, 1])  # 5 before 6: the last ballot has a byte 2, row 0 no 1
    largest = jury(8, 7, 255)
    yield largest.but(ballots=any_ballots(8, 7, 256)[:14_281])
    yield largest.but(ballots=largest.ballots[:-1])
    yield largest.but(ballots=largest.ballots[:-1] + [2])
    yield largest.but(ballots=largest.ballots[:-7] + [0] * 7)


def lent():
    """Tape, wire table and board: lengths, and bytes of the tape."""
    for k, d, n in [(1, 2, 1), (2, 3, 3), (8, 2, 2)]:
        good = jury(k, d, n)
        for tape in (good.tape[:-1], good.tape + [0], good.tape + [2], [], good.tape + good.tape):
            yield good.but(tape=tape)
        for place, byte in itertools.product(range(len(good.tape)), (2, 3, 255)):
            yield good.but(tape=changed(good.tape, place, byte))
        for wires in (good.wires - 1, good.wires + 1, 0, good.wires - n * k * d, 2 * good.wires):
            yield good.but(wires=wires)
        for board in (good.board - 1, good.board + 1, 0, good.board - k, 2 * good.board):
            yield good.but(board=board)
    free = [(0, 0, 0, 0), (1, 0, 0, 0), (2, 1, 0, 0), (3, 1, 0, 0)]
    for k in (1, 2):                                         # no conditional gate, so an empty tape
        good = Case(k, 2, 1, free)
        yield from both(good)
        for changes in ({"tape": [0]}, {"tape": [2]}, {"board": 0}, {"board": k + 1}, {"wires": 4}):
            yield good.but(**changes)
    for old in (0, 1, 2, 255):                               # any old contents
        yield jury(2, 2, 2).but(old=old)
        yield jury(2, 2, 2).but(old=old, board=0)


def empty_slices():
    nothing = {"table": [], "ballots": [], "tape": [], "wires": 0, "board": 0}
    for k, d, n in [(0, 0, 0), (1, 2, 1), (8, 7, 255), (9, 8, 256)]:
        good = jury(k, d, n) if k in (1, 8) else jury(1, 2, 1).but(k=k, d=d, n=n)
        yield from both(good.but(**nothing))
        for name, empty in nothing.items():
            yield good.but(**{name: empty})
            yield good.but(**{x: y for x, y in nothing.items() if x != name})


def spoils(name, *ways):
    """A function of cases for each way: it gives `name` the way as its value, or what the way makes of the old one."""
    def spoil(way):
        return lambda case: case.but(**{name: way(getattr(case, name)) if callable(way) else way})

    return [spoil(way) for way in ways]


# The faults of each reason, as what they do to a case of the shape 2, 3, 2 whose list has four gates, three of them
# conditional. A later fault does not undo an earlier one, as far as possible.
FAULTS = {
    10: spoils("board", 4, 6, 0),
    9: spoils("wires", 15, 17, 0),
    8: spoils("tape", lambda tape: changed(tape, 0, 2), lambda tape: changed(tape, 2, 255)),
    7: spoils("tape", lambda tape: tape[:2], lambda tape: (tape * 2)[:4], []),
    6: spoils("ballots", lambda voters: [0, 0, 0] + voters[3:], lambda voters: voters[:9] + [1, 0, 1]),
    5: spoils("ballots", lambda voters: changed(voters, 1, 2), lambda voters: changed(voters, 11, 255)),
    4: spoils("ballots", lambda voters: voters[:11], lambda voters: (voters * 2)[:13], []),
    3: spoils("table", lambda table: changed(table, 0, doc.NO_KIND), lambda table: changed(table, 13, 15),
              lambda table: changed(table, 11, 1)),
    2: spoils("table", lambda table: table + [0], lambda table: table[:4], []),
    1: [*spoils("k", 0, 9), *spoils("d", 1, 8), *spoils("n", 0, 256)],
}


def pairs_of_faults():
    """Every fault by itself and every two at once: the answer is the first in checking order."""
    good = Case(2, 3, 2, [(5, 0, 3, 0), (4, 12, 1, 0), (2, 13, 0, 0), (7, 12, 13, 14)])
    assert good.expected()[0] == ["accepted", 4, 3]
    faults = [(reason, spoil) for reason, ways in FAULTS.items() for spoil in ways]
    for (first, spoil), (second, spoil_too) in itertools.combinations_with_replacement(faults, 2):
        case = spoil(good)
        if spoil_too is not spoil:
            case = spoil_too(case)
        assert case.reason() == min(first, second), (first, second)
        yield case
        if min(first, second) <= 3:
            yield case.but(call=TEST)


def random_shape(rng):
    return rng.randrange(1, 9), rng.randrange(2, 8), rng.choice([1, 1, 2, 3, 4])


def random_lists(rng, count, most):
    """Well-formed random lists."""
    for _ in range(count):
        k, d, n = random_shape(rng)
        gates = random_gates(rng, n * k * d, rng.randrange(k, k + most))
        tape = [rng.randrange(2) for _ in range(doc.conditional_count(gates))]
        yield Case(k, d, n, gates, random_ballots(rng, k, d, n), tape, old=rng.choice([0, 1, 9, 255]))


def damaged(rng, count):
    """Random lists, ballots and tapes with one to three things changed anywhere."""
    for case in random_lists(rng, count, 12):
        for _ in range(rng.randrange(1, 4)):
            name = rng.choice(["table", "table", "ballots", "tape", "wires", "board"])
            value = getattr(case, name)
            if name in ("wires", "board"):
                value = max(value + rng.choice([-1, 0, 0, 1]), 0)
            elif value:
                items = [0, 1, 2, 3, 7, 8, 40, MOST_NUMBER] if name == "table" else [0, 1, 1, 2, 255]
                value = changed(value, rng.randrange(len(value)), rng.choice(items))
            case = case.but(**{name: value})
        yield from both(case)


def long_lists(rng):
    """Many gates, many ballots, and a tape byte or a gate that is bad at the end."""
    for gate, gates in [((4, 0, 3, 0), 40_000), ((3, 1, 0, 0), 40_000), ((7, 0, 1, 2), 20_000)]:
        good = Case(2, 2, 1, [gate] * gates)
        yield from both(good)
        yield good.but(wires=good.wires - 1)
    far = Case(2, 2, 1, [(4, 0, 3, 0)] * 300)
    yield far.but(tape=[1] * 299 + [2])
    yield far.but(table=far.table[:-4] + [4, 0, 303, 0])
    yield far.but(table=far.table[:-4] + [4, 0, 302, 0])
    for k, d, n, gates in [(8, 7, 255, 300), (3, 5, 100, 300), (1, 2, 255, 400)]:
        inputs = n * k * d
        mixed = random_gates(rng, inputs, gates)
        tape = [rng.randrange(2) for _ in range(doc.conditional_count(mixed))]
        voters = random_ballots(rng, k, d, 3) * (n // 3)
        voters += voters[:inputs - len(voters)]
        yield Case(k, d, n, mixed, voters, tape)


def cases():
    rng = random.Random(4)
    fixed = [shapes(), list_lengths(), operands(), kinds(), each_kind(), every_tape(), ballots(), lent(),
             empty_slices()]
    made = [random_lists(rng, 150, 20), damaged(rng, 110), long_lists(rng)]
    return itertools.chain(*fixed, pairs_of_faults(), *made)


def main():
    core = Core()
    for case in cases():
        expected, found = case.expected(), case.found(core)
        assert found == expected, (case.call, case.shape(), case.table, case.ballots, case.tape, expected, found)
    table = [numbers(flat([(4, 0, 1, 0)]))]
    core.ignores_short_answers("jugy_test", 1, 2, 1, *table, answers=4)
    core.ignores_short_answers("jugy_run", 1, 2, 1, *table, bytes_of([1, 0]), bytes_of([1]), output([OLD] * 3),
                               output([OLD] * 2), answers=4)
    # 11 and 12 are for rankings: tests/rankings.py
    print(f"tests/running.py: {core.calls} calls agree:", core.saw(test={1, 2, 3}, run=set(range(1, 11))))


if __name__ == "__main__":
    main()
