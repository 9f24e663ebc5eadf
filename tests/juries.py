"""Juries that the tests share. A jury has for each candidate a list of grades, one from each juror, 0 for the best.

Most random juries have nearly equal candidates: these find a wrong rule, or a wrong gate, soonest.
"""

import reference as doc
import sorted_judgment

# The panels P1 to P11, with the results of request 2.1: counts, best grade first, and the closing bytes. P1 has more
# ballots than a shape can have.
PANELS = [
    ([[31, 151, 529, 254, 35], [21, 48, 442, 301, 188], [101, 7, 2, 86, 804]], [1, 0, 0]),
    ([[1, 0, 0], [0, 1, 0]], [1, 0]),
    ([[0, 1, 0], [0, 1, 0]], [1, 1]),
    ([[1, 1, 1], [0, 0, 3]], [1, 0]),
    ([[2, 0, 2], [1, 2, 1]], [1, 0]),
    ([[1, 2, 0], [0, 2, 1]], [1, 0]),
    ([[2, 3, 0], [1, 4, 0]], [1, 0]),
    ([[0, 4, 1], [0, 3, 2]], [1, 0]),
    ([[1, 1, 1], [0, 3, 0]], [1, 0]),
    ([[0, 2]], [1]),
    ([[1, 2, 0], [1, 2, 0], [0, 0, 3]], [1, 1, 0]),
]


def clipped(d, grade):
    return min(max(grade, 0), d - 1)


def uniform(rng, k, d, n):
    return [[rng.randrange(d) for _ in range(n)] for _ in range(k)]


def peaked(rng, k, d, n):
    """The grades of each candidate are spread around a middle of its own."""
    middles = [rng.randrange(d) for _ in range(k)]
    return [[clipped(d, m + rng.choice([-2, -1, -1, 0, 0, 0, 0, 1, 1, 2])) for _ in range(n)] for m in middles]


def balanced(rng, d, n):
    """Grades in pairs around one middle, so that about as many are better than it as are worse."""
    middle = rng.randrange(d)
    offsets = [rng.randrange(d) for _ in range(n // 2)]
    pairs = [clipped(d, middle + x) for x in offsets] + [clipped(d, middle - x) for x in offsets]
    return pairs + [middle] * (n - len(pairs))


def tied(rng, k, d, n):
    """Each candidate has the same grades in another order, with at most two of them moved by one."""
    base = rng.choice([balanced(rng, d, n), peaked(rng, 1, d, n)[0]])
    candidates = []
    for _ in range(k):
        grades = list(base)
        for _ in range(rng.randrange(3)):
            juror = rng.randrange(n)
            grades[juror] = clipped(d, grades[juror] + rng.choice([-1, 1]))
        rng.shuffle(grades)
        candidates.append(grades)
    return candidates


def level(rng, k, d, n):
    """Equal medians; each candidate has nearly as many grades better than the median as worse ones, few or many."""
    median = rng.randrange(1, d - 1) if d > 2 else rng.randrange(d)
    candidates = []
    for _ in range(k):
        p = rng.randrange((n + 1) // 2) if median > 0 else 0
        q = min(max(p + rng.choice([-1, 0, 1]), 0), n // 2) if median < d - 1 else 0
        better = [rng.randrange(median) for _ in range(p)]
        worse = [rng.randrange(median + 1, d) for _ in range(q)]
        candidates.append(better + worse + [median] * (n - p - q))
        rng.shuffle(candidates[-1])
    return candidates


def closing_bytes(d, jury):
    """The closing bytes of a jury, by two implementations of the rule that must agree."""
    plain = doc.closing_bytes([[grades.count(grade) for grade in range(d)] for grades in jury])
    assert plain == sorted_judgment.winners(jury), jury
    return plain


def row(d, grade):
    """A row of a ballot; the grade d makes a row of zeros."""
    return [1 if g == grade else 0 for g in range(d)]


def ballots_of(d, jury):
    """The ballot bytes of a jury."""
    return [x for ballot in zip(*jury) for grade in ballot for x in row(d, grade)]


def panels():
    """The panels that fit a shape: the number of grades d, and a jury."""
    for counts, closing in PANELS:
        d = len(counts[0])
        jury = [[g for g, many in enumerate(grades) for _ in range(many)] for grades in counts]
        assert closing_bytes(d, jury) == closing, counts
        if len(jury[0]) <= 255:
            yield d, jury
