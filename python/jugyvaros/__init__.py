"""The counting core of tasting-jury units: who wins, and a public board that reveals only that.

    from jugyvaros import GateList, Shape

    shape = Shape(candidates=2, grades=3, ballots=3)
    ballots = shape.encode([[1, 2], [2, 2], [2, 3]])    # a row for each juror; in it a grade for each candidate, 1 best
    board = GateList.own(shape).run(ballots)            # a fresh secret tape masks every shown bit
    board.winners                                       # (0,)

Grades are counted by majority judgment, rankings (grades=0) by Schulze's rule. If the core refuses a call, it raises
`Refused`, with the number of the reason, its place, its words and advice. The core is proved; this package, which is
tested, lends it buffers of the right lengths. `jugyvaros.library` says where it looks for the core's shared object.
"""

from .batch import batch
from .dispatch import Dispatched, Jury, dispatch
from .gates import Board, Gate, GateList, fresh_tape
from .reasons import Refused
from .repository import NotBuilt
from .shape import Measure, Shape, count
from .trustee import Trustee
from .trustees import Dealing, Tally, deal, tally
from .urn import Urn

__all__ = [
    "Board", "Dealing", "Dispatched", "Gate", "GateList", "Jury", "Measure", "NotBuilt", "Refused", "Shape", "Tally",
    "Trustee", "Urn", "batch", "count", "deal", "dispatch", "fresh_tape", "tally",
]
