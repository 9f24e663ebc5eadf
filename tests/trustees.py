"""The tally by trustees, through the library, against an independent model.

    python3 tests/trustees.py    prints how many calls there were, by reason

Tiny lists with all their dealings: whichever trustee is left out, each dealing of one election has exactly one
counterpart in another election with the same closing bytes. Random elections, graded and ranked, on own and on random
lists, every reason at its edges, all pairs of faults, and old contents of both tables that are written.
"""

import collections
import itertools
import random

import reference as doc
from core import Core, bytes_of, numbers, output
from random_juries import random_ballots
from running import changed, flat, random_gates

ANSWER = 12
ONE, AND, OR, XOR, CHOICE = 1, 4, 5, 6, 7


class Trustee:
    """One trustee of the model: it knows its number, its own bits, and what was opened."""

    def __init__(self, number, ballot_bits, triples):
        self.first = number == 0
        self.held = list(ballot_bits)
        self.triples = [tuple(triples[i : i + 3]) for i in range(0, len(triples), 3)]
        self.said = []

    def factors(self, gate):
        kind, a, b, c = gate
        return self.held[a], self.held[b] ^ self.held[c] if kind == CHOICE else self.held[b]

    def publish(self, gate, i):
        u, v, _ = self.triples[i]
        x, y = self.factors(gate)
        self.said += [x ^ u, y ^ v]
        return x ^ u, y ^ v

    def product(self, i, e, f):
        u, v, w = self.triples[i]
        bit = w
        if e:
            bit ^= v
        if f:
            bit ^= u
        return bit ^ 1 if e and f and self.first else bit

    def add(self, gate, z):
        kind, a, b, c = gate
        mine = int(self.first)
        self.held.append({
            0: lambda: 0,
            1: lambda: mine,
            2: lambda: self.held[a],
            3: lambda: self.held[a] ^ mine,
            4: lambda: z,
            5: lambda: self.held[a] ^ self.held[b] ^ z,
            6: lambda: self.held[a] ^ self.held[b],
            7: lambda: self.held[c] ^ z,
        }[kind]())


def parity(bits):
    return sum(bits) % 2


def protocol(gates, inputs, k, t, shares, triples):
    """The trustees after a run of the list."""
    count = doc.conditional_count(gates)
    trustees = [Trustee(p, shares[p * inputs : (p + 1) * inputs],
                        triples[3 * count * p : 3 * count * (p + 1)]) for p in range(t)]
    i = 0
    for gate in gates:
        if doc.CONDITIONAL[gate[0]]:
            shown = [trustee.publish(gate, i) for trustee in trustees]
            e, f = parity(x for x, _ in shown), parity(y for _, y in shown)
            for trustee in trustees:
                trustee.add(gate, trustee.product(i, e, f))
            i += 1
        else:
            for trustee in trustees:
                trustee.add(gate, None)
    for trustee in trustees:
        trustee.said += trustee.held[len(trustee.held) - k :]
    return trustees


class Call:
    """A call with everything lent to it. Tables that are written are given by their lengths."""

    def __init__(self, shape, gates, ballots, t, shares, triples, old=9):
        count = doc.conditional_count(gates)
        self.shape, self.table, self.ballots, self.t = tuple(shape), flat(gates), list(ballots), t
        self.shares, self.triples, self.old = list(shares), list(triples), old
        self.wires = t * (len(ballots) + len(gates))
        self.published = t * (2 * count + shape[0])

    def but(self, **changes):
        other = Call.__new__(Call)
        other.__dict__.update(self.__dict__)
        for name, value in changes.items():
            assert name in other.__dict__, name
            other.__dict__[name] = value
        return other

    def gates(self):
        return doc.gates_of(self.table)

    def fault(self):
        """Reason and place according to the model, or None."""
        k, d, n = self.shape
        fault = doc.test_fault(k, d, n, self.table) or doc.ballots_fault(k, d, n, self.ballots)
        if fault:
            return tuple(fault)
        if not 2 <= self.t <= 5:
            return 16, 0
        gates, inputs, t = self.gates(), len(self.ballots), self.t
        count = doc.conditional_count(gates)
        needed = (t * inputs, t * 3 * count, t * (inputs + len(gates)), t * (2 * count + k))
        if (len(self.shares), len(self.triples), self.wires, self.published) != needed:
            return 17, 0
        if any(bit not in (0, 1) for bit in self.shares + self.triples):
            return 18, 0
        if any(parity(self.shares[x::inputs]) != self.ballots[x] for x in range(inputs)):
            return 18, 0
        for i in range(count):
            u, v, w = (parity(self.triples[3 * i + j :: 3 * count]) for j in range(3))
            if w != u * v:
                return 18, 0
        return None


def lent_to(call):
    """The arguments of a call."""
    read = [bytes_of(call.shares), bytes_of(call.triples)]
    written = [output([call.old] * call.wires), output([call.old] * call.published)]
    return [*call.shape, numbers(call.table), bytes_of(call.ballots), call.t, *read, *written]


class Trustees(Core):
    def check(self, call):
        """Compares one call with the model; returns the model's trustees, or None if it is refused."""
        lent = lent_to(call)
        said = self.call("jugy_trustees", *lent, answers=ANSWER)
        fault = call.fault()
        if fault:
            assert said == ["refused", *fault], (fault, said, call.shape)
            return None
        gates, k = call.gates(), call.shape[0]
        trustees = protocol(gates, len(call.ballots), k, call.t, call.shares, call.triples)
        plain = doc.run_gates(call.ballots, gates, [0] * doc.conditional_count(gates))[0]
        for x, wire in enumerate(plain):
            assert parity(trustee.held[x] for trustee in trustees) == wire
        closing = plain[len(plain) - k :]
        assert said == ["accepted", len(gates), doc.conditional_count(gates), *closing] + [0] * (8 - k), (said, closing)
        assert lent[-2].items() == [0] * call.wires
        assert lent[-1].items() == [bit for trustee in trustees for bit in trustee.said]
        return trustees


def dealings(rng, ballots, count, t):
    """A random dealing: the ballot shares and the triples."""
    shares = [[rng.randrange(2) for _ in ballots] for _ in range(t - 1)]
    shares.append([x ^ parity(column) for x, column in zip(ballots, zip(*shares))])
    drawn = []
    for _ in range(count):
        u, v = ([rng.randrange(2) for _ in range(t)] for _ in range(2))
        w = [rng.randrange(2) for _ in range(t - 1)]
        w.append(parity(w) ^ (parity(u) & parity(v)))
        drawn.append((u, v, w))
    triples = [bit for p in range(t) for u, v, w in drawn for bit in (u[p], v[p], w[p])]
    return [bit for share in shares for bit in share], triples


def all_dealings(ballots, count, t):
    inputs = len(ballots)
    for shares in itertools.product((0, 1), repeat=t * inputs):
        if any(parity(shares[x::inputs]) != ballots[x] for x in range(inputs)):
            continue
        for triples in itertools.product((0, 1), repeat=3 * count * t):
            sums = [parity(triples[place :: 3 * count]) for place in range(3 * count)]
            if all(w == u * v for u, v, w in zip(sums[::3], sums[1::3], sums[2::3])):
                yield shares, triples


def view(call, trustees, published, q):
    inputs, count = len(call.ballots), len(call.triples) // 3 // call.t
    others = [p for p in range(call.t) if p != q]
    return (
        tuple(tuple(call.shares[p * inputs : (p + 1) * inputs]) for p in others),
        tuple(tuple(call.triples[3 * count * p : 3 * count * (p + 1)]) for p in others),
        tuple(tuple(trustees[p].held) for p in others),
        tuple(published),
    )


def count_counterparts(core, shape, gates, t):
    """Tries all dealings of all elections of a shape: two elections with equal closing bytes have the same views."""
    k, d, n = shape
    rows = [[int(i == j) for j in range(d)] for i in range(d)]
    count = doc.conditional_count(gates)
    views = collections.defaultdict(list)
    for ballots in itertools.product(rows, repeat=n * k):
        ballots = [bit for row in ballots for bit in row]
        seen = [collections.Counter() for _ in range(t)]
        for shares, triples in all_dealings(ballots, count, t):
            call = Call(shape, gates, ballots, t, shares, triples)
            trustees = core.check(call)
            for q in range(t):
                seen[q][view(call, trustees, [b for each in trustees for b in each.said], q)] += 1
        for q in range(t):
            # each view has exactly one dealing, so a counterpart is unique
            assert set(seen[q].values()) == {1}
        closing = tuple(doc.run_gates(ballots, gates, [0] * count)[0][-k:])
        views[closing].append([frozenset(s) for s in seen])
    pairs = 0
    for elections in views.values():
        for one, other in itertools.combinations(elections, 2):
            assert one == other
            pairs += 1
    return pairs


def valid_call(rng, core, shape, t, gates=None):
    k, d, n = shape
    gates = doc.gates_of(core.own_list(shape)) if gates is None else gates
    ballots = random_ballots(rng, k, d, n)
    shares, triples = dealings(rng, ballots, doc.conditional_count(gates), t)
    return Call(shape, gates, ballots, t, shares, triples, old=rng.randrange(256))


def bad_ballots(call):
    """Bits that are not ballots: a row without a grade (6), or rankings with the faults 11 and 12."""
    if call.shape[1]:
        return {"row": {"ballots": changed(call.ballots, call.ballots.index(1), 0)}}
    rest = call.ballots[9:]
    return {
        "before itself": {"ballots": call.ballots[:-1] + [1]},
        "both ways": {"ballots": [0, 1, 0, 1, 0, 0, 0, 0, 0] + rest},
        "no weak order": {"ballots": [0, 1, 0, 0, 0, 0, 0, 0, 0] + rest},
    }


def faults(call):
    """Changes of an accepted call, each with one fault."""
    k, d, n = call.shape
    last = len(call.triples) - 1
    two = [p * len(call.ballots) for p in range(2)]
    return {
        "shape": {"shape": (9, d, n)},
        "table": {"table": call.table[:-1]},
        "gate": {"table": changed(call.table, 0, doc.NO_KIND)},
        "ballots": {"ballots": call.ballots + [0]},
        "byte": {"ballots": changed(call.ballots, len(call.ballots) - 1, 2)},
        **bad_ballots(call),
        "no trustee": {"t": 0},
        "one trustee": {"t": 1},
        "six": {"t": 6},
        "many": {"t": 2 ** 60},
        "fewer shares": {"shares": call.shares[:-1]},
        "more shares": {"shares": call.shares + [0]},
        "fewer triples": {"triples": call.triples[:-1]},
        "more triples": {"triples": call.triples + [0]},
        "wires": {"wires": call.wires - 1},
        "more wires": {"wires": call.wires + 1},
        "published": {"published": call.published - 1},
        "more published": {"published": call.published + 1},
        "no shares": {"shares": []},
        "a share of 2 or 3": {"shares": changed(call.shares, len(call.shares) - 1, call.shares[-1] + 2)},
        "a share of 255": {"shares": changed(call.shares, 0, 255)},
        "another sum": {"shares": changed(call.shares, 0, 1 - call.shares[0])},
        "a triple's share of 2 or 3": {"triples": changed(call.triples, 0, call.triples[0] + 2)},
        "product": {"triples": changed(call.triples, last, 1 - call.triples[last])},
        "a share of 3 in the right sum": {"shares": changed(changed(call.shares, two[0], 3), two[1],
                                                            call.shares[two[0]] ^ call.shares[two[1]] ^ 1)},
    }


# Tiny lists and numbers of trustees for which every dealing is tried: free gates, each conditional kind, operands that
# coincide.
TINY = [
    ([(2, 0, 0, 0)], (2, 3)),
    ([(3, 1, 0, 0), (6, 0, 2, 0)], (2, 3)),
    ([(AND, 0, 1, 0)], (2,)),
    ([(OR, 0, 1, 0)], (2,)),
    ([(CHOICE, 0, 1, 0)], (2,)),
    ([(CHOICE, 1, 1, 1)], (2,)),
]
SHAPES = [(1, 2, 1), (2, 3, 3), (3, 2, 4), (8, 7, 2), (2, 2, 9), (1, 0, 1), (2, 0, 3), (3, 0, 5), (5, 0, 4), (8, 0, 2)]


def elections(rng, core):
    """Random elections, graded and ranked: own lists and random ones."""
    for shape, t in itertools.product(SHAPES, range(2, 6)):
        core.check(valid_call(rng, core, shape, t))
    for _ in range(300):
        shape = rng.randrange(1, 5), rng.choice((0, 2, 3, 4)), rng.randrange(1, 4)
        gates = random_gates(rng, doc.ballot_bytes(*shape), rng.randrange(shape[0], 40))
        core.check(valid_call(rng, core, shape, rng.randrange(2, 6), gates))


def refusals(core, call):
    """Each fault of a call, and all pairs."""
    single = faults(call)
    for one in single.values():
        assert core.check(call.but(**one)) is None
    for one, other in itertools.combinations(single.values(), 2):
        if not set(one) & set(other):
            assert core.check(call.but(**one, **other)) is None


def every_share(rng, core, call):
    """The core tests every ballot share and every share of a triple, of which 60 are tried."""
    for place in range(len(call.shares)):
        assert core.check(call.but(shares=changed(call.shares, place, call.shares[place] + 2))) is None
        assert core.check(call.but(shares=changed(call.shares, place, 1 - call.shares[place]))) is None
    for place in rng.sample(range(len(call.triples)), min(60, len(call.triples))):
        assert core.check(call.but(triples=changed(call.triples, place, call.triples[place] + 2))) is None


def old_contents(rng, core, call):
    """The old contents of both tables do not matter, with conditional gates and without."""
    free = valid_call(rng, core, (2, 2, 1), 5, [(XOR, 0, 1, 0), (ONE, 0, 0, 0), (3, 4, 0, 0)])
    assert not free.triples
    for old in (0, 1, 255):
        core.check(free.but(old=old))
        core.check(call.but(old=old))


def main():
    rng = random.Random(7)
    core = Trustees()
    pairs = sum(count_counterparts(core, (1, 2, 1), gates, t) for gates, counts in TINY for t in counts)
    assert pairs
    elections(rng, core)
    for shape in ((2, 3, 2), (3, 0, 2)):
        call = valid_call(rng, core, shape, 3)
        refusals(core, call)
        every_share(rng, core, call)
        old_contents(rng, core, call)
    core.ignores_short_answers("jugy_trustees", *lent_to(call), answers=ANSWER)
    told = core.saw(trustees={1, 2, 3, 4, 5, 6, 11, 12, 16, 17, 18})
    print(f"tests/trustees.py: ok, {core.calls} calls, {pairs} pairs of elections: {told}")


if __name__ == "__main__":
    main()
