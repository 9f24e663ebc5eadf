"""A trustee on its own machine, through the library, against an independent model.

    python3 tests/trustee.py    prints how many calls there were, by reason

Separate trustees on own lists and random ones, graded and ranked: after every round each has the shares of the model's
trustee, and at the end all have published what jugy_trustees does. Rounds on tables of any bits, every reason at its
edges with all pairs of faults, old contents of what is written, and answer arrays that are too short.
"""

import itertools
import random

import reference as doc
from core import OLD, Core, bytes_of, numbers, output
from levels import depths
from running import flat, random_gates
from trustees import Trustee, dealings, parity, protocol

# the lengths of answer arrays
ANSWERS = {"start": 4, "round": 5, "finish": 4}


def lent_to(name, call):
    """The arguments of a call; what it writes comes last."""
    written = [output(call["wires"]), output(call["published"])]
    shape, triples = [*call["shape"], numbers(call["table"])], bytes_of(call["triples"])
    if name == "start":
        return [*shape, call["t"], call["p"], bytes_of(call["shares"]), triples, *written]
    if name == "round":
        read = [numbers(call["levels"]), triples, bytes_of(call["heard"])]
        return [*shape, call["t"], call["p"], call["r"], *read, *written]
    return [*shape, written[0]]


def fault_of(name, call):
    """Reason and place according to the model, or None."""
    fault = doc.test_fault(*call["shape"], call["table"])
    if fault:
        return fault
    gates, inputs, k = doc.gates_of(call["table"]), doc.ballot_bytes(*call["shape"]), call["shape"][0]
    count = doc.conditional_count(gates)
    if name == "finish":
        return (17, 0) if len(call["wires"]) != inputs + len(gates) else None
    if not 2 <= call["t"] <= 5 or call["p"] >= call["t"]:
        return 16, 0
    lengths = [(call["triples"], 3 * count), (call["wires"], inputs + len(gates)), (call["published"], 2 * count + k)]
    bits = list(call["triples"])
    if name == "start":
        lengths.append((call["shares"], inputs))
        bits += call["shares"]
    if any(len(lent) != length for lent, length in lengths):
        return 17, 0
    if any(bit > 1 for bit in bits):
        return 18, 0
    if name == "start":
        return None
    own = depths(inputs, gates)
    if call["levels"] != own:
        return 200, 0
    if call["r"] > max(own):
        return 201, 0
    return (202, 0) if len(call["heard"]) != 2 * count or max(call["heard"], default=0) > 1 else None


def one_round(call):
    """The tables after one round, gate by gate. They may hold any bits before it."""
    gates, inputs, k = doc.gates_of(call["table"]), doc.ballot_bytes(*call["shape"]), call["shape"][0]
    own, trustee = depths(inputs, gates), Trustee(call["p"], [], call["triples"])
    wires, published = list(call["wires"]), list(call["published"])
    place = {g: i for i, g in enumerate(g for g, gate in enumerate(gates) if doc.CONDITIONAL[gate[0]])}
    for g, gate in enumerate(gates):
        if own[g] == call["r"]:
            trustee.held = wires
            z = trustee.product(place[g], *call["heard"][2 * place[g] : 2 * place[g] + 2]) if g in place else None
            trustee.held = wires[: inputs + len(gates)]
            trustee.add(gate, z)
            wires[inputs + g] = trustee.held[-1]
    trustee.held = wires
    for g, i in place.items():
        if own[g] == call["r"] + 1:
            published[2 * i : 2 * i + 2] = trustee.publish(gates[g], i)
    if call["r"] == max(own):
        published[2 * len(place) :] = wires[len(wires) - k :]
    return wires, published


def check(core, name, call):
    """Compares one call with the model; returns the tables after it, or None if it is refused."""
    lent, fault = lent_to(name, call), fault_of(name, call)
    said = core.call(f"jugy_trustee_{name}", *lent, answers=ANSWERS[name])
    if fault:
        assert said == ["refused", *fault], (name, fault, said)
        return None
    gates = doc.gates_of(call["table"])
    rounds = [max(depths(doc.ballot_bytes(*call["shape"]), gates))] if name == "round" else []
    assert said == ["accepted", len(gates), doc.conditional_count(gates), *rounds], (name, said)
    expected = {
        "start": lambda: [call["shares"] + [0] * len(gates), [0] * len(call["published"])],
        "round": lambda: list(one_round(call)),
        "finish": lambda: [[0] * len(call["wires"])],
    }[name]()
    written = [each.items() for each in lent[-len(expected):]]
    assert written == expected, name
    return written


def together(rng, core, shape, gates, t):
    """All trustees from start to finish, compared with the single call."""
    k, inputs, count = shape[0], doc.ballot_bytes(*shape), doc.conditional_count(gates)
    ballots = [rng.randrange(2) for _ in range(inputs)]
    shares, triples = dealings(rng, ballots, count, t)
    trustees, own = protocol(gates, inputs, k, t, shares, triples), depths(inputs, gates)
    calls = [
        dict(
            shape=shape, table=flat(gates), t=t, p=p, levels=own, heard=[0] * (2 * count),
            shares=shares[inputs * p : inputs * (p + 1)], triples=triples[3 * count * p : 3 * count * (p + 1)],
            wires=[9] * (inputs + len(gates)), published=[9] * (2 * count + k),
        )
        for p in range(t)
    ]
    for call in calls:
        call["wires"], call["published"] = check(core, "start", call)
    for r in range(max(own) + 1):
        for call in calls:
            call["r"] = r
            call["wires"], call["published"] = check(core, "round", call)
            held = trustees[call["p"]].held
            assert call["wires"] == held[:inputs] + [bit if own[g] <= r else 0 for g, bit in enumerate(held[inputs:])]
        heard = [parity(bits) for bits in zip(*(call["published"] for call in calls))]
        for call in calls:
            call["heard"] = heard[: 2 * count]
    assert [call["published"] for call in calls] == [trustee.said for trustee in trustees]
    plain = doc.run_gates(ballots, gates, [0] * count)[0]
    assert heard[2 * count :] == plain[len(plain) - k :]
    for call in calls:
        (call["wires"],) = check(core, "finish", call)
    return calls[0]


def faults_of(call, name):
    """Changes of an accepted call, each with one fault."""
    k, d, n = call["shape"]
    table = call["table"]
    changes = {
        "shape": {"shape": (9, d, n)},
        "part of a gate": {"table": table[:-1]},
        "kind": {"table": [doc.NO_KIND] + table[1:]},
        "fewer wires": {"wires": call["wires"][1:]},
        "more wires": {"wires": call["wires"] + [0]},
    }
    if name == "finish":
        return changes
    changes |= {
        "one": {"t": 1},
        "six": {"t": 6},
        "none such": {"p": call["t"]},
        "far": {"p": 2 ** 60},
        "fewer triples": {"triples": call["triples"][1:]},
        "more triples": {"triples": call["triples"] + [0]},
        "two": {"triples": call["triples"][:-1] + [2]},
        "no published": {"published": []},
        "more published": {"published": call["published"] + [0]},
    }
    if name == "start":
        more = {"fewer shares": {"shares": call["shares"][1:]}, "a share of 2": {"shares": [2] + call["shares"][1:]}}
        return changes | more
    own = call["levels"]
    return changes | {
        "fewer levels": {"levels": own[1:]},
        "more levels": {"levels": own + [0]},
        "a level more": {"levels": own[:-1] + [own[-1] + 1]},
        "first level": {"levels": [own[0] + 1] + own[1:]},
        "late": {"r": max(own) + 1},
        "never": {"r": 2 ** 63},
        "fewer sums": {"heard": call["heard"][1:]},
        "more sums": {"heard": call["heard"] + [0]},
        "a sum of 2": {"heard": [2] + call["heard"][1:]},
    }


def elections(rng, core):
    """Own lists with every number of trustees, and random lists."""
    for shape, t in itertools.product(((1, 2, 1), (2, 3, 2), (3, 2, 3), (2, 0, 2), (3, 0, 3)), range(2, 6)):
        together(rng, core, shape, doc.gates_of(core.own_list(shape)), t)
    for _ in range(60):
        shape = rng.randrange(1, 4), rng.choice((0, 2, 3)), rng.randrange(1, 3)
        gates = random_gates(rng, doc.ballot_bytes(*shape), rng.randrange(shape[0], 40))
        together(rng, core, shape, gates, rng.randrange(2, 6))


def any_tables(rng, core, call):
    """Rounds on tables of random bits."""
    for _ in range(100):
        any_bits = {name: [rng.randrange(2) for _ in call[name]] for name in ("triples", "heard", "wires", "published")}
        check(core, "round", call | any_bits | {"r": rng.randrange(max(call["levels"]) + 1), "p": rng.randrange(3)})


def refusals(core, name, call):
    """Each fault of a call, and all pairs; answer arrays that are too short, and one that is longer."""
    single = faults_of(call, name)
    for one in single.values():
        assert check(core, name, call | one) is None, (name, one)
    for one, other in itertools.combinations(single.values(), 2):
        if not set(one) & set(other):
            assert check(core, name, call | one | other) is None, (name, one, other)
    lent, needed = lent_to(name, call), ANSWERS[name]
    core.ignores_short_answers(f"jugy_trustee_{name}", *lent, answers=needed)
    assert core.raw(f"jugy_trustee_{name}", *lent, answers=needed + 2)[1][needed:] == [OLD, OLD], name


def main():
    rng = random.Random(202)
    core = Core()
    elections(rng, core)
    call = together(rng, core, (2, 3, 2), doc.gates_of(core.own_list((2, 3, 2))), 3)
    any_tables(rng, core, call)
    for name in ANSWERS:
        refusals(core, name, call)
    alone = {1, 2, 3, 16, 17, 18}
    told = core.saw(trustee_start=alone, trustee_round=alone | {200, 201, 202}, trustee_finish={1, 2, 3, 17})
    print(f"tests/trustee.py: ok, {core.calls} calls: {told}")


if __name__ == "__main__":
    main()
