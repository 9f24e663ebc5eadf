"""An independent reference implementation in Python: what the core must answer, according to the requirements.

It is written to be simple, not fast. Nothing here is shared with the crates.
"""

MOST_GATES = 1_048_576

# The table of kinds for all tests in Python: the number of operands, and whether the gate is conditional. The tests in
# C have theirs in tests/library_c/kinds.h.
OPERANDS = {0: 0, 1: 0, 2: 1, 3: 1, 4: 2, 5: 2, 6: 2, 7: 3}
CONDITIONAL = {0: False, 1: False, 2: False, 3: False, 4: True, 5: True, 6: False, 7: True}

# The smallest number that is no kind.
NO_KIND = len(OPERANDS)


def gate_value(kind, a, b, c):
    """The value of a gate on bits."""
    if kind == 0:
        return 0
    if kind == 1:
        return 1
    if kind == 2:
        return a
    if kind == 3:
        return 1 - a
    if kind == 4:
        return 1 if (a == 1 and b == 1) else 0
    if kind == 5:
        return 1 if (a == 1 or b == 1) else 0
    if kind == 6:
        return 1 if a != b else 0
    if kind == 7:
        return b if a == 1 else c
    raise ValueError(kind)


def gates_of(table):
    return [tuple(table[i:i + 4]) for i in range(0, len(table) - len(table) % 4, 4)]


def is_bad(gate, own):
    """Reason 3, for a gate that makes wire `own`."""
    kind, operands = gate[0], gate[1:]
    if kind not in OPERANDS:
        return True
    used = OPERANDS[kind]
    return any(x >= own for x in operands[:used]) or any(x != 0 for x in operands[used:])


def conditional_count(gates):
    return sum(1 for g in gates if CONDITIONAL.get(g[0], False))


def list_fault(inputs, k, table):
    """Reasons 2 and 3: a number and a place, or None."""
    if len(table) % 4 != 0 or not k <= len(table) // 4 <= MOST_GATES:
        return (2, 0)
    for g, gate in enumerate(gates_of(table)):
        if is_bad(gate, inputs + g):
            return (3, g)
    return None


def run_gates(inputs, gates, tape):
    """Wires and shown bits of a well-formed list."""
    wires = list(inputs)
    shown = []
    for kind, a, b, c in gates:
        used = OPERANDS[kind]
        x = wires[a] if used > 0 else None
        y = wires[b] if used > 1 else None
        z = wires[c] if used > 2 else None
        if CONDITIONAL[kind]:
            shown.append((x + tape[len(shown)]) % 2)
        wires.append(gate_value(kind, x, y, z))
    return wires, shown


def first_above_one(data):
    for i, x in enumerate(data):
        if x > 1:
            return i
    return None


def shape_is_within(k, d, n):
    """Whether reason 1 does not apply. If d is 0, the jury ranks."""
    return 1 <= k <= 8 and (d == 0 or 2 <= d <= 7) and 1 <= n <= 255


def columns(k, d):
    """The number of bytes in a ballot's row: one for each grade, or for each candidate in a ranking."""
    return k if d == 0 else d


def ballot_bytes(k, d, n):
    """I, the number of ballot bytes."""
    return n * k * columns(k, d)


def row_fault(k, d, n, ballots):
    """Reason 6: the first row of graded ballots that has no 1 or several."""
    for row in range(n * k):
        if sum(1 for x in ballots[row * d:row * d + d] if x == 1) != 1:
            return (6, row)
    return None


def ranking_fault(k, n, ballots):
    """Reasons 11 and 12 of rankings whose bytes are bits: not asymmetric, or not a weak order."""
    def before(b, i, j):
        return ballots[(b * k + i) * k + j] == 1

    for b in range(n):
        for i in range(k):
            for j in range(k):
                if before(b, i, j) and before(b, j, i):
                    return (11, (b * k + i) * k + j)
    for b in range(n):
        for i in range(k):
            for j in range(k):
                for third in set(range(k)) - {i, j}:
                    if before(b, i, j) and not before(b, i, third) and not before(b, third, j):
                        return (12, b)
    return None


def ballots_fault(k, d, n, ballots):
    """Reasons 4, 5 and 6, or 11 and 12 of a ranking, for a shape within its limits: a number and a place, or None."""
    if len(ballots) != ballot_bytes(k, d, n):
        return (4, 0)
    place = first_above_one(ballots)
    if place is not None:
        return (5, place)
    return ranking_fault(k, n, ballots) if d == 0 else row_fault(k, d, n, ballots)


def grade_counts(k, d, n, ballots):
    """A row of d counts, best grade first, for each candidate."""
    counts = [[0] * d for _ in range(k)]
    for ballot in range(n):
        for candidate in range(k):
            for grade in range(d):
                counts[candidate][grade] += ballots[ballot * k * d + candidate * d + grade]
    return counts


def median_grade(counts):
    """The best grade for which at least half of the jury gives it or a better one."""
    running = 0
    for grade, count in enumerate(counts):
        running += count
        if 2 * running >= sum(counts):
            return grade
    raise ValueError(counts)


def sequence(counts):
    """All medians in turn: after each, one grade of its kind is struck."""
    left, medians = list(counts), []
    while sum(left):
        medians.append(median_grade(left))
        left[medians[-1]] -= 1
    return medians


def closing_bytes(counts):
    """1 for each candidate whose sequence is the lexicographically smallest, else 0. Better grades are smaller."""
    sequences = [sequence(row) for row in counts]
    return [1 if found == min(sequences) else 0 for found in sequences]


def preferences(k, n, ballots):
    """In how many rankings i is before j, for each i and j."""
    return [[sum(ballots[(b * k + i) * k + j] for b in range(n)) for j in range(k)] for i in range(k)]


def links(preferred):
    """The strength of each link: the votes for it if they outnumber those against it, else 0."""
    among = range(len(preferred))
    return [[preferred[i][j] if preferred[i][j] > preferred[j][i] else 0 for j in among] for i in among]


def simple_paths(start, end, others):
    """All paths from start to end that visit nobody twice."""
    yield [start, end]
    for i, first in enumerate(others):
        for path in simple_paths(first, end, others[:i] + others[i + 1:]):
            yield [start] + path


def strongest_path(strength, i, j):
    """The largest strength of a path, which is that of its weakest link."""
    others = [c for c in range(len(strength)) if c not in (i, j)]
    return max(min(strength[x][y] for x, y in zip(path, path[1:])) for path in simple_paths(i, j, others))


def ranked_closing_bytes(preferred):
    """Schulze's rule: 1 for each candidate i if no other has a stronger path to i than i has to it, else 0."""
    strength, among = links(preferred), range(len(preferred))
    best = {(i, j): strongest_path(strength, i, j) for i in among for j in among if i != j}
    return [1 if all(best[i, j] >= best[j, i] for j in among if j != i) else 0 for i in among]


def winners(k, d, n, ballots):
    """The closing bytes of accepted ballots, by the rule of their shape."""
    if d == 0:
        return ranked_closing_bytes(preferences(k, n, ballots))
    return closing_bytes(grade_counts(k, d, n, ballots))


def count_plainly(k, d, n, ballots):
    """The entry point "Count plainly": the fault (a number and a place) or None, and eight bytes."""
    fault = ballots_fault(k, d, n, ballots) if shape_is_within(k, d, n) else (1, 0)
    closing = winners(k, d, n, ballots) if fault is None else []
    return fault, closing + [0] * (8 - len(closing))


def test_fault(k, d, n, table):
    """Reasons 1, 2 and 3: a number and a place, or None."""
    return list_fault(ballot_bytes(k, d, n), k, table) if shape_is_within(k, d, n) else (1, 0)


def lent_fault(inputs, k, gates, tape, wires, board):
    """Reasons 7 to 10 for a well-formed list: a number and a place, or None."""
    count = conditional_count(gates)
    if len(tape) != count:
        return (7, 0)
    place = first_above_one(tape)
    if place is not None:
        return (8, place)
    if len(wires) != inputs + len(gates):
        return (9, 0)
    if len(board) != count + k:
        return (10, 0)
    return None


def run_fault(k, d, n, table, ballots, tape, wires, board):
    """Reasons 1 to 12: a number and a place, or None."""
    fault = test_fault(k, d, n, table)
    if fault is None:
        fault = ballots_fault(k, d, n, ballots)
    if fault is None:
        fault = lent_fault(ballot_bytes(k, d, n), k, gates_of(table), tape, wires, board)
    return fault


def answer(fault, table):
    """What write, test and run answer: reason and place of the fault, or G and C."""
    if fault is not None:
        return ["refused", *fault]
    gates = gates_of(table)
    return ["accepted", len(gates), conditional_count(gates)]


def test_list(k, d, n, table):
    """What testing a list answers."""
    return answer(test_fault(k, d, n, table), table)


def run_list(k, d, n, table, ballots, tape, wires, board):
    """What running a list answers, and wire table and board afterwards."""
    fault = run_fault(k, d, n, table, ballots, tape, wires, board)
    if fault is not None:
        return answer(fault, table), wires, board
    values, shown = run_gates(ballots, gates_of(table), tape)
    # the wire table is emptied once the closing bytes are on the board
    return answer(None, table), [0] * len(values), shown + values[len(values) - k:]
