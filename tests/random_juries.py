"""Random ballots that are accepted, graded and ranked, for tests that need nothing special."""


def random_rankings(rng, k, n):
    """The places of k candidates on n ballots: smaller is better, and ties are allowed."""
    return [[rng.randrange(k) for _ in range(k)] for _ in range(n)]


def random_ballots(rng, k, d, n):
    """The bytes of n ballots: rows with one 1, or rankings if there are no grades."""
    if d:
        return [int(grade == best) for best in (rng.randrange(d) for _ in range(n * k)) for grade in range(d)]
    return [int(x < y) for places in random_rankings(rng, k, n) for x in places for y in places]
