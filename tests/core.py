"""The exported functions, for tests in Python.

The package python/jugyvaros finds, builds and declares them. Here they get buffers with guards on both sides, and after
every call the guards, and whatever was lent for reading, must be unchanged.
"""

import array
import collections
import pathlib
import sys

ROOT = pathlib.Path(__file__).resolve().parent.parent
sys.path.insert(0, str(ROOT / "python"))

from jugyvaros import library  # noqa: E402  (the line above is what finds it)
from jugyvaros.library import SHORT_ANSWER  # noqa: E402
from jugyvaros.reasons import REASONS  # noqa: E402

OLD = 9                                                      # what an answer array holds before a call


class Lent:
    """Numbers or bytes lent to a call, for reading or for writing."""

    GUARD = b"\xa5" * 16

    def __init__(self, code, items, written=False):
        self.code, self.length, self.written = code, len(items), written
        inner = bytes(items) if code == "B" else array.array(code, items).tobytes()
        self.before = self.GUARD + inner + self.GUARD
        self.data = array.array("B", self.before)

    def arguments(self):
        return [self.data.buffer_info()[0] + len(self.GUARD), self.length]

    def items(self):
        return array.array(self.code, self.data[len(self.GUARD):-len(self.GUARD)].tobytes()).tolist()

    def is_as_before(self):
        return self.data.tobytes() == self.before

    def is_kept(self):
        """Whether the guards are unchanged, and the items too if they are lent for reading."""
        if not self.written:
            return self.is_as_before()
        ends = self.data[:len(self.GUARD)].tobytes(), self.data[-len(self.GUARD):].tobytes()
        return ends == (self.GUARD, self.GUARD)


def numbers(items):
    """Gates: 32 bits a number."""
    return Lent("I", items)


def sizes(items):
    return Lent("L", items)


def bytes_of(items):
    return Lent("B", items)


def output(items, code="B"):
    """What a call writes."""
    return Lent(code, items, written=True)


class Core:
    """The exported functions. An answer is ["accepted", its values..] or ["refused", reason, place]."""

    def __init__(self):
        self.calls = 0
        self.answers = collections.defaultdict(collections.Counter)

    def raw(self, name, *arguments, answers):
        """The status and the answer array, which may have any length. Guards and what is only read must not change."""
        self.calls += 1
        answer = output([OLD] * answers, "L")
        prepared = []
        for argument in (*arguments, answer):
            prepared += argument.arguments() if isinstance(argument, Lent) else [argument]
        status = library.function(name)(*prepared)
        assert all(lent.is_kept() for lent in (*arguments, answer) if isinstance(lent, Lent)), name
        return status, answer.items()

    def call(self, name, *arguments, answers):
        """A call with an answer array as long as the function needs. A refusal must change nothing else."""
        status, (reason, place, *values) = self.raw(name, *arguments, answers=answers)
        assert status == reason and (reason == 0 or reason in REASONS), (name, status, reason)
        self.answers[name][reason] += 1
        if reason:
            assert not any(values) and all(lent.is_as_before() for lent in arguments if isinstance(lent, Lent)), name
            return ["refused", reason, place]
        assert place == 0, name
        return ["accepted", *values]

    def saw(self, **reasons):
        """How often each function gave each answer, as text. It must have accepted and given exactly these reasons."""
        for name, wanted in reasons.items():
            found = set(self.answers[f"jugy_{name}"])
            assert found == {0, *wanted}, (name, sorted(found), sorted(wanted))
        return "; ".join(f"{name} {self.told(name)}" for name in reasons)

    def told(self, name):
        return ", ".join(f"{reason}: {many}" for reason, many in sorted(self.answers[f"jugy_{name}"].items()))

    def ignores_short_answers(self, name, *arguments, answers):
        """With an answer array that is shorter than it needs, a function returns 255 and changes nothing at all."""
        for length in range(answers):
            assert self.raw(name, *arguments, answers=length) == (SHORT_ANSWER, [OLD] * length), (name, length)
            assert all(lent.is_as_before() for lent in arguments if isinstance(lent, Lent)), (name, length)

    def measure(self, shape):
        return self.call("jugy_measure", *shape, answers=5)

    def write(self, shape, table):
        """The answer, and the table afterwards."""
        lent = output(table, "I")
        return self.call("jugy_write", *shape, lent, answers=4), lent.items()

    def own_list(self, shape):
        """The numbers of a shape's own list."""
        measured = self.measure(shape)
        said, table = self.write(shape, [0] * (4 * measured[1]))
        assert said == measured[:3], (shape, measured, said)
        return table

    def test(self, shape, table):
        return self.call("jugy_test", *shape, numbers(table), answers=4)

    def run(self, shape, table, ballots, tape, wires, board, name="jugy_run", code="B"):
        """The answer, and wire table and board afterwards."""
        written = [output(wires, code), output(board, code)]
        said = self.call(name, *shape, numbers(table), Lent(code, ballots), Lent(code, tape), *written, answers=4)
        return said, written[0].items(), written[1].items()

    def count(self, shape, ballots):
        """The answer with eight closing bytes, or the refusal."""
        return self.call("jugy_count", *shape, bytes_of(ballots), answers=10)
