#!/usr/bin/env python3
"""The run on an urn against the reference, over the static library: chains in any order of slots, an n that is not the
number of ballots, damaged urns, every fault with every other, full urns, short answer arrays, and random calls. Needs a
C compiler and crates/jugyvaros/out/libjugyvaros.a."""
import itertools
import random
import sys

import reference
from core import Core, bytes_of, numbers, output
from random_juries import random_ballots
from running import flat, random_gates
from urn import put_together, take_apart

OLD = 9                                                      # what buffers hold before a call
CORE = Core()


def run_urn(*call):
    """The answer, wire table and board after a call."""
    return CORE.run(*call, name="jugy_run_urn")


def ballots_in(k, d, urn):
    """The ballots in chain order, or None if the urn is not sound."""
    chains = take_apart(k, d, urn)
    return None if chains is None else [list(ballot) for _, _, ballot in chains[0]]


def model(shape, table, urn, tape, wires, board):
    """The answer, and wire table and board afterwards."""
    k, d, n = shape
    fault = None if reference.shape_is_within(*shape) and d >= 2 else (1, 0)
    ballots = None if fault else ballots_in(k, d, urn)
    if fault is None and ballots is None:
        fault = (13, 0)
    if fault is None:
        fault = reference.list_fault(n * k * d, k, table)
    if fault is None and len(ballots) != n:
        fault = (4, 0)
    if fault is not None:
        return ["refused", *fault], wires, board
    return reference.run_list(k, d, n, table, sum(ballots, []), tape, wires, board)


def compare(*call):
    found, expected = run_urn(*call), model(*call)
    assert found == expected, (call[0], call[2], found[0], expected[0])
    return found[0]


def ballot(k, d):
    return random_ballots(random, k, d, 1)


def urn_of(k, d, slots, ballots):
    """A sound urn whose chains go through the slots in a random order."""
    order = random.sample(range(1, slots), slots - 1)
    jurors = random.sample(range(1, 256), len(ballots))
    return list(put_together(k, d, slots, list(zip(order, jurors, map(bytes, ballots))), order[len(ballots):]))


def random_list(inputs, gates):
    return flat(random_gates(random, inputs, gates))


def buffers(k, d, n, table):
    gates = reference.gates_of(table)
    c = reference.conditional_count(gates)
    return [random.randrange(2) for _ in range(c)], [OLD] * (n * k * d + len(gates)), [OLD] * (c + k)


def orders():
    """Three ballots in all orders of slots: the shown bits tell whether a run follows the chain."""
    k, d, n = 1, 3, 3
    ballots = [[1, 0, 0], [0, 1, 0], [0, 0, 1]]
    # each input has a gate that shows it
    table = sum(([4, wire, wire, 0] for wire in range(9)), [])
    boards = set()
    for held in itertools.permutations((1, 2, 3)):
        urn = [held[0], 4] + [0] * 3 + [0] * 20
        for i, slot in enumerate(held):
            urn[slot * 5:slot * 5 + 5] = [(held[i + 1:] + (0,))[0], slot + 10] + ballots[i]
        for order in itertools.permutations(ballots):
            for i, slot in enumerate(held):
                urn[slot * 5 + 2:slot * 5 + 5] = order[i]
            said, _, board = run_urn((k, d, n), table, urn, [0] * 9, [OLD] * 18, [OLD] * 10)
            assert said[0] == "accepted" and board == sum(order, []) + [order[2][2]], (held, order, board)
            boards.add(tuple(board))
    assert len(boards) == 6


def own_lists():
    for k, d, n in ((1, 2, 1), (2, 3, 4), (3, 2, 7), (8, 7, 2), (2, 2, 255)):
        table = CORE.own_list((k, d, n))
        ballots = [ballot(k, d) for _ in range(n)]
        urn = urn_of(k, d, min(256, n + 1 + random.randrange(3)), ballots)
        call = (k, d, n), table, urn, *buffers(k, d, n, table)
        assert compare(*call)[0] == "accepted"
        assert CORE.run((k, d, n), table, sum(ballots, []), *call[3:]) == run_urn(*call)
        for other in (n - 1, n + 1):
            compare((k, d, other), table, urn, *buffers(k, d, n, table))


def faults():
    """Every fault with every other one, in one call."""
    k, d, n = 2, 3, 2
    ballots = [ballot(k, d) for _ in range(3)]
    good = urn_of(k, d, 4, ballots[:2])
    table = random_list(n * k * d, 6) + [4, 0, 1, 0]
    tape, wires, board = buffers(k, d, n, table)
    shapes = [(k, d, n), (0, d, n), (9, d, n), (k, 0, n), (k, 1, n), (k, 8, n), (k, d, 0), (k, d, 256),
              (2**63, 2**63, 2**63), (k, d, 1), (k, d, 3)]
    damaged = good[:1] + [good[0]] + good[2:]
    urns = [good, damaged, good[:-1], [], urn_of(k, d, 4, ballots), urn_of(k, d, 4, [])]
    tables = [table, table[:-1], [], table[:4], [reference.NO_KIND, 0, 0, 0] + table[4:],
              table[:-4] + [2, n * k * d + 6, 0, 0]]
    tapes = [tape, tape + [0], tape[:-1] + [2]]
    cases = itertools.product(shapes, tables, urns, tapes, (wires, wires[:-1], wires + [OLD]), (board, board[:-1]))
    found = {tuple(compare(*case)[:2]) for case in cases}
    assert {what for said, what in found if said == "refused"} == {1, 13, 2, 3, 4, 7, 8, 9, 10}, found
    assert ("accepted", len(table) // 4) in found


def random_calls(rounds):
    kinds = set()
    for _ in range(rounds):
        k, d, slots = random.randrange(1, 4), random.randrange(2, 5), random.choice((2, 3, 5, 9))
        ballots = [ballot(k, d) for _ in range(random.randrange(slots))]
        urn = urn_of(k, d, slots, ballots)
        if random.random() < 0.3:
            urn[random.randrange(len(urn))] = random.choice((0, 1, 2, 3, slots, 255))
        n = max(1, len(ballots) + random.choice((0,) * 8 + (1, -1)))
        table = random_list(n * k * d, random.randrange(k, 12))
        if random.random() < 0.1:
            table[random.randrange(len(table))] = random.randrange(30)
        tape, wires, board = buffers(k, d, n, table)
        if random.random() < 0.1:
            tape = tape + [0]
        kinds.add(tuple(compare((k, d, n), table, urn, tape, wires, board)[:2]))
    assert {what for said, what in kinds if said == "refused"} >= {13, 3, 4, 7}, kinds


def short_answers():
    urn, table = urn_of(1, 2, 2, [[1, 0]]), [4, 0, 1, 0]
    lent = [numbers(table), bytes_of(urn), bytes_of([0]), output([OLD] * 3), output([OLD] * 2)]
    CORE.ignores_short_answers("jugy_run_urn", 1, 2, 1, *lent, answers=4)


def main():
    random.seed(int(sys.argv[1]) if len(sys.argv) > 1 else 1)
    orders()
    own_lists()
    faults()
    random_calls(3000)
    short_answers()
    print("tests/urn_run.py: ok,", CORE.saw(run_urn={1, 13, 2, 3, 4, 7, 8, 9, 10}))


if __name__ == "__main__":
    main()
