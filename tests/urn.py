#!/usr/bin/env python3
"""The exported calls on an urn against an independent model, over the static library: soundness of every urn of two
and three slots over small bytes, every kind of damage, urns of 256 slots, pairs of faults, long random sequences of
calls, tables of every length made into empty urns, and previews of different urns with the same answer. Needs a C
compiler and crates/jugyvaros/out/libjugyvaros.a. All buffers have guards on both sides (core.py)."""
import itertools
import random
import sys

import reference
from core import Core, bytes_of, output
from random_juries import random_ballots

CORE = Core()
PREVIEWS = ("jugy_preview_admit", "jugy_preview_withdraw")


def lent_to(name, k, d, urn, juror=None, ballot=None):
    """The arguments of a call: a preview is lent the urn for reading only."""
    table = bytes_of(urn) if name in PREVIEWS else output(urn)
    return [k, d, table, *([] if juror is None else [juror]), *([] if ballot is None else [bytes_of(ballot)])]


def call(name, k, d, urn, juror=None, ballot=None):
    """Reason, place, number of ballots, and the urn afterwards."""
    lent = lent_to(name, k, d, urn, juror, ballot)
    said, *values = CORE.call(name, *lent, answers=3)
    return (*values, 0) if said == "refused" else (0, 0, *values), bytes(lent[2].items())


# The model takes an urn apart into its two chains, and puts it together again from them.


def ballot_fault(k, d, ballot):
    return reference.ballots_fault(k, d, 1, ballot)


def take_apart(k, d, urn):
    """The ballots as (slot, juror, ballot) and the free slots, or None if the urn is not sound."""
    size = 2 + k * d
    if len(urn) % size or not 2 <= len(urn) // size <= 256:
        return None
    slots = [urn[i : i + size] for i in range(0, len(urn), size)]
    if any(slots[0][2:]):
        return None
    seen, chains = set(), []
    for first in slots[0][:2]:
        members, slot = [], first
        while slot:
            if slot >= len(slots) or slot in seen:
                return None
            seen.add(slot)
            members.append(slot)
            slot = slots[slot][0]
        chains.append(members)
    if len(seen) != len(slots) - 1:
        return None
    ballots = [(s, slots[s][1], bytes(slots[s][2:])) for s in chains[0]]
    jurors = [j for _, j, _ in ballots]
    if 0 in jurors or len(set(jurors)) != len(jurors):
        return None
    if any(ballot_fault(k, d, b) for _, _, b in ballots):
        return None
    if any(any(slots[s][1:]) for s in chains[1]):
        return None
    return ballots, chains[1]


def put_together(k, d, count, ballots, free):
    size = 2 + k * d
    urn = bytearray(count * size)
    urn[0] = ballots[0][0] if ballots else 0
    urn[1] = free[0] if free else 0
    for (slot, juror, ballot), behind in zip(ballots, ballots[1:] + [None]):
        urn[slot * size : slot * size + size] = bytes([behind[0] if behind else 0, juror]) + ballot
    for slot, behind in zip(free, free[1:] + [0]):
        urn[slot * size] = behind
    return bytes(urn)


def model(k, d, urn, juror, ballot=None):
    """Answer and urn of an admission, or of a withdrawal if no ballot is given."""
    if not (1 <= k <= 8 and 2 <= d <= 7):
        return (1, 0, 0), urn
    chains = take_apart(k, d, urn)
    if chains is None:
        return (13, 0, 0), urn
    ballots, free = chains
    inside = [b for b in ballots if b[1] == juror]
    if not 1 <= juror <= 255 or bool(inside) == (ballot is not None):
        return (14, 0, 0), urn
    count = len(urn) // (2 + k * d)
    if ballot is None:
        left = [b for b in ballots if b[1] != juror]
        return (0, 0, len(left)), put_together(k, d, count, left, [inside[0][0]] + free)
    fault = ballot_fault(k, d, ballot)
    if fault:
        return fault + (0,), urn
    if not free:
        return (15, 0, 0), urn
    return (0, 0, len(ballots) + 1), put_together(k, d, count, [(free[0], juror, bytes(ballot))] + ballots, free[1:])


def compare(k, d, urn, juror, ballot):
    for name, given in (("admit", ballot), ("withdraw", None)):
        expected = model(k, d, urn, juror, given)
        found = call("jugy_" + name, k, d, urn, juror, given)
        assert found == expected, (name, k, d, urn, juror, given, found, expected)
        seen = call("jugy_preview_" + name, k, d, urn, juror, given)
        assert seen == (expected[0], urn), ("preview", name, k, d, urn, juror, given, seen, expected)
    return model(k, d, urn, juror, ballot)


def good_ballot(k, d):
    return bytes(random_ballots(random, k, d, 1))


def empty(k, d, slots):
    return put_together(k, d, slots, [], list(range(1, slots)))


def exhaustive():
    good = 0
    for slots, values in ((2, 4), (3, 3)):
        for urn in itertools.product(range(values), repeat=4 * slots):
            urn = bytes(urn)
            expected = take_apart(1, 2, urn)
            answer, _ = call("jugy_preview_withdraw", 1, 2, urn, 0)
            assert answer[0] == (14 if expected is not None else 13), (urn, answer, expected)
            if expected is not None:
                good += 1
                for juror in (0, 1, 2, 255, 256, 257):
                    compare(1, 2, urn, juror, b"\1\0")
    print(f"tests/urn: {good} sound urns among all of two and three slots over small bytes")


def sequences(rounds):
    for _ in range(rounds):
        k, d = random.choice(((1, 2), (2, 3), (3, 4), (8, 7)))
        slots = random.choice((2, 3, 5, 17, 256))
        urn = empty(k, d, slots)
        for _ in range(60):
            juror = random.choice((random.randrange(1, 8), random.randrange(0, 300), 2**40 + 1))
            ballot = good_ballot(k, d)
            if random.random() < 0.1:
                ballot = bytes(random.randrange(3) for _ in range(random.choice((0, k * d - 1, k * d, k * d + 1))))
            if random.random() < 0.6:
                _, urn = compare(k, d, urn, juror, ballot)
            else:
                compare(k, d, urn, juror, ballot)
                _, urn = model(k, d, urn, juror)
            broken = bytearray(urn)
            for _ in range(random.choice((1, 1, 2))):
                broken[random.randrange(len(broken))] = random.choice((0, 1, 2, slots % 256, random.randrange(256)))
            compare(k, d, bytes(broken), juror, ballot)


def full():
    urn = empty(1, 2, 256)
    for juror in range(1, 256):
        answer, urn = compare(1, 2, urn, juror, b"\0\1")
        assert answer == (0, 0, juror)
    for juror in range(0, 258):
        compare(1, 2, urn, juror, b"\1\0")
    urn = empty(2, 3, 255)
    for juror in range(1, 255):
        _, urn = compare(2, 3, urn, juror, good_ballot(2, 3))
    assert model(2, 3, urn, 255, good_ballot(2, 3))[0] == (15, 0, 0)
    compare(2, 3, urn, 255, good_ballot(2, 3))
    compare(2, 3, urn, 255, b"\1\0\0\1\1\0")


def pairs():
    """Every fault with every other one, in one call."""
    k, d = 2, 3
    urn = empty(k, d, 2)
    _, urn = model(k, d, urn, 9, b"\1\0\0\0\1\0")
    shapes = [(k, d), (0, d), (9, d), (k, 0), (k, 1), (k, 8), (2**63, 2)]
    urns = [urn, empty(k, d, 2), urn[:-1], b"", urn[:8], bytes([1]) * 16]
    jurors = [1, 9, 0, 256, 2**63]
    ballots = [b"\1\0\0\0\1\0", b"", b"\1\0\0\0\1", b"\2\0\0\0\1\0", b"\1\0\0\0\0\0"]
    for (a, b), u, j, x in itertools.product(shapes, urns, jurors, ballots):
        compare(a, b, u, j, x)


def made_empty():
    """Lengths around those of urns, and shapes around their limits, over random old bytes."""
    for k, d in itertools.product((0, 1, 2, 8, 9, 2**63), (0, 1, 2, 7, 8, 2**63)):
        size = 2 + k * d if k * d < 80 else 58
        for slots, more in itertools.product((0, 1, 2, 3, 255, 256, 257), (-1, 0, 1)):
            table = bytes(random.randrange(256) for _ in range(max(slots * size + more, 0)))
            if not (1 <= k <= 8 and 2 <= d <= 7):
                expected = (1, 0, 0), table
            elif len(table) % size or not 2 <= len(table) // size <= 256:
                expected = (13, 0, 0), table
            else:
                expected = (0, 0, 0), empty(k, d, len(table) // size)
            found = call("jugy_empty_urn", k, d, table)
            assert found == expected, (k, d, len(table), found, expected)


def told(rounds):
    """Two urns that agree in what a preview may reveal get the same preview, whatever else differs between them."""
    def facts(k, d, urn, juror):
        chains = take_apart(k, d, urn)
        return chains and (len(chains[0]), juror in (j for _, j, _ in chains[0]), bool(chains[1]))

    def some_urn(k, d):
        count = random.randrange(2, 7)
        order = random.sample(range(1, count), count - 1)
        inside = random.randrange(count)
        jurors = random.sample(range(1, 7), inside)
        ballots = [(s, j, good_ballot(k, d)) for s, j in zip(order, jurors)]
        urn = bytearray(put_together(k, d, count, ballots, order[inside:]))
        if random.random() < 0.2:
            urn[random.randrange(len(urn))] += 1
        return bytes(urn)

    k, d, same = 2, 3, 0
    for _ in range(rounds):
        one, other, juror = some_urn(k, d), some_urn(k, d), random.randrange(8)
        ballot = random.choice((good_ballot(k, d), b"\2" * 6, b"\0" * 6, b""))
        if facts(k, d, one, juror) == facts(k, d, other, juror):
            same += 1
            for name, given in (("admit", ballot), ("withdraw", None)):
                first = call("jugy_preview_" + name, k, d, one, juror, given)[0]
                assert first == call("jugy_preview_" + name, k, d, other, juror, given)[0], (one, other, juror, given)
    assert same > rounds // 20
    print(f"tests/urn: previews agree on {same} pairs of urns with the same facts")


def edges():
    """Lengths around the limits, chains that cross, equal jurors far apart, and an urn with k and d exchanged."""
    k, d, size = 2, 3, 8
    for slots, more in itertools.product((1, 2, 255, 256, 257), (-1, 0, 1)):
        urn = bytearray(slots * size)
        urn[1] = 1
        for slot in range(1, slots - 1):
            urn[slot * size] = (slot + 1) % 256
        urn = bytes(urn[:more]) if more < 0 else bytes(urn) + bytes(more)
        answer, _ = compare(k, d, urn, 255, good_ballot(k, d))
        assert answer == ((0, 0, 1) if more == 0 and 2 <= slots <= 256 else (13, 0, 0)), (slots, more, answer)
    assert compare(d, k, empty(k, d, 4), 1, good_ballot(d, k))[0] == (0, 0, 1)
    sound = put_together(k, d, 6, [(s, j, b"\1\0\0\1\0\0") for s, j in ((3, 1), (1, 255), (5, 7))], [2, 4])
    assert compare(k, d, sound, 9, good_ballot(k, d))[0] == (0, 0, 4)
    # rows of three bytes are not good rows of two
    assert compare(d, k, sound, 9, good_ballot(d, k))[0] == (13, 0, 0)
    places = {"one juror in the first and the last": (5 * size + 1, 1), "juror 0": (size + 1, 0),
              "chain into the free one": (5 * size, 2),
              "free chain into the ballots": (4 * size, 3), "self loop": (size, 1), "long loop": (5 * size, 3),
              "past the last slot": (5 * size, 6), "both chains begin alike": (0, 2),
              "slots in no chain": (2 * size, 0),
              "slot 0 not zero": (size - 1, 1), "free slot's juror": (4 * size + 1, 9),
              "free slot's last byte": (5 * size - 1, 1),
              "a byte 2": (size + 2, 2), "an empty row": (size + 2, 0)}
    for what, (place, byte) in places.items():
        damaged = bytearray(sound)
        assert damaged[place] != byte, what
        damaged[place] = byte
        for juror in (0, 1, 7, 9, 255, 256):
            assert compare(k, d, bytes(damaged), juror, good_ballot(k, d))[0] == (13, 0, 0), what


def short_answers():
    """No call changes anything if the answer array is too short."""
    urn, ballot = empty(1, 2, 3), b"\1\0"
    _, urn = model(1, 2, urn, 5, ballot)
    lists = {"empty_urn": (), "admit": (1, ballot), "withdraw": (5,), "preview_admit": (1, ballot),
             "preview_withdraw": (5,)}
    for name, given in lists.items():
        CORE.ignores_short_answers(f"jugy_{name}", *lent_to(f"jugy_{name}", 1, 2, urn, *given), answers=3)


def main():
    random.seed(int(sys.argv[1]) if len(sys.argv) > 1 else 1)
    exhaustive()
    pairs()
    full()
    sequences(150)
    edges()
    made_empty()
    told(20000)
    short_answers()
    admission, withdrawal = {1, 13, 14, 4, 5, 6, 15}, {1, 13, 14}
    print("tests/urn.py: ok,", CORE.saw(empty_urn={1, 13}, admit=admission, preview_admit=admission,
                                        withdraw=withdrawal,
                                       preview_withdraw=withdrawal))


if __name__ == "__main__":
    main()
