"""The longest lists, tested and run through the library: as many gates as a list may have, and more.

    python3 tests/long_lists.py    prints the answer to each
"""

import random

import reference as doc
from core import Core
from running import OLD, flat, random_gates

MOST = doc.MOST_GATES


def tables(rng, inputs):
    """Tables whose length is at the limit or near it, with a name for each."""
    random_list = flat(random_gates(rng, inputs, MOST))
    yield "the most gates", random_list
    yield "the most gates, the last one naming the wire before", random_list[:-4] + [2, inputs + MOST - 2, 0, 0]
    yield "the most gates, the last one naming itself", random_list[:-4] + [2, inputs + MOST - 1, 0, 0]
    yield "one gate more", random_list + [0, 0, 0, 0]
    yield "one gate more, and a bad gate", [8, 0, 0, 0] + random_list
    yield "the most gates and a part of one", random_list + [0]
    yield "one number less than the most gates", random_list[:-1]
    yield "twice as many", random_list * 2


def main():
    core = Core()
    rng = random.Random(5)
    shape = k, d, n = 2, 3, 2
    ballots = [1, 0, 0, 0, 1, 0, 0, 0, 1, 1, 0, 0]
    for name, table in tables(rng, n * k * d):
        expected = doc.test_list(k, d, n, table)
        assert core.test(shape, table) == expected, ("test", name)
        gates = doc.gates_of(table)
        count = doc.conditional_count(gates)
        tape = [rng.randrange(2) for _ in range(count)]
        wires, board = [OLD] * (len(ballots) + len(gates)), [OLD] * (count + k)
        expected_run = doc.run_list(k, d, n, table, ballots, tape, wires, board)
        assert core.run(shape, table, ballots, tape, wires, board) == expected_run, ("run", name)
        print(name + ":", *expected)
    core.saw(test={2, 3}, run={2, 3})


if __name__ == "__main__":
    main()
