"""A second implementation of majority judgment, by sorting, to compare reference.py with.

A candidate is the list of its grades, one from each juror; it uses no counts and no running sums.
"""


def outward(grades):
    """Takes out the middle grade, or the better of two middle ones, until none is left; returns them in this order."""
    order, taken = sorted(grades), []
    while order:
        taken.append(order.pop((len(order) - 1) // 2))
    return taken


def winners(jury):
    """The closing bytes of a list of candidates."""
    places = [outward(grades) for grades in jury]
    return [int(all(place <= other for other in places)) for place in places]
