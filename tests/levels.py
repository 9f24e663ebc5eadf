"""Levels of a list, through the library, against an independent model.

    python3 tests/levels.py    prints how many calls there were, by answer

Own lists of graded and ranked shapes, random lists, every reason at its edges with all pairs of faults, old contents
of the table, and answer arrays that are too short.
"""

import itertools
import random

import reference as doc
from core import OLD, Core, numbers, output
from running import flat, random_gates

ANSWER = 5


def depths(inputs, gates):
    """The level of each gate, from the levels of its operands."""
    known = {}
    for g, (kind, *operands) in enumerate(gates):
        used = [x - inputs for x in operands[:doc.OPERANDS[kind]] if x >= inputs]
        known[g] = max([known[x] for x in used], default=0) + doc.CONDITIONAL[kind]
    return [known[g] for g in range(len(gates))]


class Levels(Core):
    def check(self, shape, table, old=9, more=0):
        """One call, with a level table of G + `more` numbers: returns the levels, or None if it is refused."""
        length = max(0, len(table) // 4 + more)
        written = output([old] * length, "I")
        said = self.call("jugy_levels", *shape, numbers(table), written, answers=ANSWER)
        fault = doc.test_fault(*shape, table) or ((200, 0) if length != len(table) // 4 else None)
        if fault:
            assert said == ["refused", *fault], (fault, said, shape)
            return None
        gates = doc.gates_of(table)
        expected = depths(doc.ballot_bytes(*shape), gates)
        assert said == ["accepted", len(gates), doc.conditional_count(gates), max(expected)], (said, shape)
        assert written.items() == expected, shape
        return expected


def main():
    rng = random.Random(34)
    core = Levels()
    for shape in ((1, 2, 1), (2, 3, 3), (3, 2, 4), (8, 7, 2), (8, 7, 255), (2, 2, 9), (1, 0, 1), (3, 0, 3), (8, 0, 20)):
        core.check(shape, core.own_list(shape), old=rng.randrange(2 ** 32))
    for _ in range(400):
        shape = rng.randrange(1, 5), rng.choice((0, 2, 3, 4)), rng.randrange(1, 4)
        core.check(shape, flat(random_gates(rng, doc.ballot_bytes(*shape), rng.randrange(shape[0], 60))))
    # in a chain of conditional gates, R is C; without conditional gates, R is 0
    chain = [(4, 0, 1, 0)] + [(5, 4 + g, 0, 0) for g in range(99)]
    assert core.check((2, 2, 1), flat(chain)) == list(range(1, 101))
    assert core.check((2, 2, 1), flat([(6, 0, 1, 0), (3, 4, 0, 0)])) == [0, 0]
    # each fault, and all pairs
    shape, table = (2, 3, 2), core.own_list((2, 3, 2))
    faults = {
        "candidates": {"shape": (9, 3, 2)},
        "ballots": {"shape": (2, 3, 0)},
        "part of a gate": {"table": table[:-1]},
        "too few gates": {"table": table[:4]},
        "kind": {"table": [doc.NO_KIND] + table[1:]},
        "operand": {"table": table[:-3] + [12 + len(table) // 4] + table[-2:]},
        "one level less": {"more": -1},
        "one level more": {"more": 1},
        "no level": {"more": -(2 ** 20)},
    }
    for one in faults.values():
        assert core.check(**{"shape": shape, "table": table, **one}) is None
    for one, other in itertools.combinations(faults.values(), 2):
        if not set(one) & set(other):
            assert core.check(**{"shape": shape, "table": table, **one, **other}) is None
    lent = [*shape, numbers(table), output([9] * (len(table) // 4), "I")]
    core.ignores_short_answers("jugy_levels", *lent, answers=ANSWER)
    assert core.raw("jugy_levels", *lent, answers=ANSWER + 2)[1][ANSWER:] == [OLD, OLD]
    print(f"tests/levels.py: ok, {core.calls} calls: {core.saw(levels={1, 2, 3, 200})}")


if __name__ == "__main__":
    main()
