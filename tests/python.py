#!/usr/bin/env python3
"""The package python/jugyvaros: every call against the reference, every reason it can raise, and an installed copy.

    python3 tests/python.py    prints what was tried; needs no network

Examples in docstrings, annotations and docstrings of all that is public, words of reasons against the header; lists,
boards, tapes and texts; urns; trustees together and apart; dispatched calls with pieces of wrong lengths; batches;
numbers outside what C can hold; `pip install` into an empty folder, where the library is looked for, and when it is
built.
"""

import array
import doctest
import importlib
import inspect
import itertools
import os
import pathlib
import pkgutil
import random
import shutil
import subprocess
import sys
import tempfile

import reference as doc
from core import ROOT
from levels import depths
from random_juries import random_ballots
from running import flat, random_gates

import jugyvaros
from jugyvaros import (Dealing, GateList, Jury, Refused, Shape, Trustee, Urn, batch, count, deal, dispatch, fresh_tape,
                       library, tally)
from jugyvaros.reasons import ADVICE, REASONS

HUGE = 2 ** 64
SEEN = set()
SHAPES = [Shape(*shape) for shape in ((1, 2, 1), (2, 3, 3), (3, 5, 7), (8, 2, 3), (1, 0, 1), (2, 0, 3), (4, 0, 5))]


def refused(number, place, function, *arguments, **options):
    """The call is refused for this reason at this place."""
    try:
        function(*arguments, **options)
    except Refused as error:
        assert (error.number, error.place) == (number, place), (error.number, error.place, number, place)
        assert error.words == REASONS[number][1] and error.words in str(error) and error.advice == ADVICE[number]
        assert str(error).startswith(f"refused {number} {place}: ")
        SEEN.add(number)
        return error
    raise AssertionError(f"not refused for {number}: {function.__name__} {arguments}")


def wrong(function, *arguments, error=ValueError, **options):
    """The package raises this error, and does not call the core."""
    try:
        function(*arguments, **options)
    except error as found:
        assert str(found), function
        return
    raise AssertionError(f"accepted: {function.__name__} {arguments}")


def modules():
    return [importlib.import_module(f"jugyvaros.{found.name}") for found in pkgutil.iter_modules(jugyvaros.__path__)]


def functions_of(item):
    """A function, or a class's own public methods and properties."""
    members = [item] if inspect.isfunction(item) else vars(item).values()
    for member in members:
        function = getattr(member, "fget", None) or inspect.unwrap(member)
        if inspect.isfunction(function) and function.__module__.startswith("jugyvaros"):
            if not function.__name__.startswith("_"):
                yield function


def documented():
    """All that is public has a docstring and annotations, and the examples in docstrings hold."""
    examples = 0
    for module in (jugyvaros, *modules()):
        assert module.__doc__, module
        examples += doctest.testmod(module, raise_on_error=True).attempted
    readme = ROOT / "python/README.md"
    examples += doctest.testfile(str(readme), module_relative=False, raise_on_error=True, encoding="utf-8").attempted
    assert examples >= 25, examples
    for name in jugyvaros.__all__:
        item = getattr(jugyvaros, name)
        assert item.__doc__ and not item.__doc__.startswith(f"{name}("), name
        for function in functions_of(item):
            assert function.__doc__, function
            missing = set(inspect.signature(function).parameters) - set(function.__annotations__) - {"self", "cls"}
            assert not missing and "return" in function.__annotations__, (function, missing)
    assert set(ADVICE) == set(REASONS)
    subprocess.run([sys.executable, ROOT / "python/from_header.py", "--check"], check=True)


def shapes(rng):
    """Measures, encoded ballots and winners."""
    for shape in SHAPES:
        measured = shape.measure()
        gates = GateList.own(shape)
        assert measured == (len(gates), gates.conditional, doc.ballot_bytes(*shape)) and shape.inputs == measured.inputs
        for _ in range(20):
            ballots = bytes(random_ballots(rng, *shape))
            winners = [i for i, bit in enumerate(doc.winners(*shape, ballots)) if bit]
            assert list(count(shape, ballots)) == winners
    for bad in ((0, 2, 1), (9, 2, 1), (1, 1, 1), (1, 8, 1), (1, 2, 0), (1, 2, 256), (HUGE + 1, 2, 1), (1, HUGE, 1),
                (1, 2, HUGE + 1), (-1, 2, 1)):
        for function in (Shape(*bad).measure, lambda: GateList.own(Shape(*bad)), lambda: count(Shape(*bad), b"")):
            refused(1, 0, function)
    assert Shape(2, 3, 2).encode([[1, 3], [2, 2]]) == bytes([1, 0, 0, 0, 0, 1, 0, 1, 0, 0, 1, 0])
    assert Shape(3, 0, 1).encode([[5, 1, 5]]) == bytes([0, 0, 0, 1, 0, 1, 0, 0, 0])
    for rows in ([[1, 2]], [[1, 2], [0, 1]], [[1, 2], [4, 1]], [[1, 2], [1]], [[1, 2]] * 3):
        wrong(Shape(2, 3, 2).encode, rows)
    refused(4, 0, count, Shape(2, 3, 1), b"\1\0\0\1\0")
    refused(5, 5, count, Shape(2, 3, 1), b"\1\0\0\1\0\2")
    refused(6, 1, count, Shape(2, 3, 1), b"\1\0\0\1\1\0")
    refused(11, 0, count, Shape(2, 0, 1), b"\1\0\0\0")
    refused(12, 0, count, Shape(3, 0, 1), b"\0\1\0\0\0\0\0\0\0")


def lists(rng):
    """Random lists run as the reference runs them; own lists name the winners; a tape that is lent is not changed."""
    for shape in SHAPES * 6:
        gates = random_gates(rng, shape.inputs, rng.randrange(shape.candidates, 40))
        made, ballots = GateList(shape, flat(gates)), bytes(random_ballots(rng, *shape))
        assert list(made) == gates and list(made.table) == flat(gates) and len(made) == len(gates)
        assert made.conditional == doc.conditional_count(gates) and made == GateList(shape, made.table)
        tape = bytearray(rng.randrange(2) for _ in range(made.conditional))
        kept = bytes(tape)
        board = made.run(ballots, tape)
        wires, shown = doc.run_gates(ballots, gates, tape)
        wanted = shown + wires[len(wires) - shape.candidates:]
        assert list(bytes(board)) == wanted and tape == kept
        assert board.winners == tuple(i for i, bit in enumerate(board.closing) if bit)
        assert GateList.from_text(shape, made.to_text()) == made == GateList.from_text(shape, made.to_text().decode())
        assert made.levels == max(depths(shape.inputs, gates))
    for shape in SHAPES:
        own, ballots = GateList.own(shape), bytes(random_ballots(rng, *shape))
        assert hash(own) == hash(GateList.own(shape)) and str(len(own)) in repr(own).replace(",", "")
        boards = {bytes(own.run(ballots)) for _ in range(4)}
        assert own.run(ballots).winners == count(shape, ballots)
        assert len(boards) == 4 or own.conditional < 24          # fresh tapes differ, except with a chance of 2^-24


def bad_lists():
    shape = Shape(2, 2, 1)
    good = GateList(shape, flat([(4, 0, 1, 0), (5, 2, 3, 0)]))
    refused(2, 0, GateList, shape, [])
    refused(2, 0, GateList, shape, [0] * 7)
    refused(3, 1, GateList, shape, flat([(0, 0, 0, 0), (4, 0, 5, 0)]))
    refused(1, 0, GateList, Shape(0, 2, 1), [0] * 8)
    refused(23, 1, GateList.from_text, shape, "0\n01\n")
    refused(23, 0, GateList.from_text, shape, "é\n0\n")
    refused(2, 0, GateList.from_text, shape, "")
    refused(3, 0, GateList.from_text, shape, "2 4294967295\n0\n")
    ballots = bytes([1, 0, 0, 1])
    refused(4, 0, good.run, ballots + b"\0")
    refused(5, 3, good.run, bytes([1, 0, 0, 2]))
    refused(6, 0, good.run, bytes([1, 1, 0, 1]))
    refused(7, 0, good.run, ballots, b"\1")
    refused(8, 1, good.run, ballots, [0, 2])
    wrong(GateList, shape, [2 ** 32, 0, 0, 0] * 2, error=OverflowError)
    # a buffer of the wrong type, or a wrong number of arguments, never reaches the function
    words = array.array("I", ballots)
    for given in ((*shape, words), (*shape, 7), (*shape, ballots, ballots), (2, 2, ballots), (2, 2, ballots, 1)):
        wrong(library.call, "jugy_count", *given, answers=10, error=TypeError)


def counterparts(rng):
    """Every tape of a jury has one counterpart in a jury with the same winners, and none if the winners differ."""
    shape = Shape(2, 2, 1)
    gates = GateList(shape, flat([(7, 0, 1, 2), (4, 4, 3, 0), (1, 0, 0, 0), (0, 0, 0, 0)]))
    first, second = bytes([1, 0, 0, 1]), bytes([0, 1, 1, 0])
    found = set()
    for tape in itertools.product((0, 1), repeat=2):
        other = gates.counterpart(first, bytes(tape), second)
        assert gates.run(first, tape) == gates.run(second, other)
        found.add(other)
    assert len(found) == 4
    own = GateList.own(shape)
    assert own.counterpart(first, bytes(own.conditional), second) is None
    shape = Shape(3, 0, 4)
    own = GateList.own(shape)
    for _ in range(30):
        one, other = (bytes(random_ballots(rng, *shape)) for _ in range(2))
        tape = bytes(fresh_tape(own.conditional))
        fits = own.counterpart(one, tape, other)
        assert (fits is None) == (count(shape, one) != count(shape, other))
        assert fits is None or bytes(own.run(one, tape)) == bytes(own.run(other, fits))


def urns(rng):
    """An urn compared with a dictionary: each preview, then its call; runs on the ballots that are in."""
    for candidates, grades, slots in ((1, 2, 2), (2, 3, 5), (3, 4, 256)):
        urn, inside = Urn(candidates, grades, slots), {}
        for _ in range(120):
            juror, ballot = rng.randrange(1, slots + 2), bytes(random_ballots(rng, candidates, grades, 1))
            if rng.random() < 0.6:
                number = 14 if juror in inside or juror > 255 else 15 if len(inside) == slots - 1 else 0
                calls = [(urn.preview_admit, juror, ballot), (urn.admit, juror, ballot)]
                after = {juror: ballot, **inside}
            else:
                number = 0 if juror in inside else 14
                calls = [(urn.preview_withdraw, juror), (urn.withdraw, juror)]
                after = {other: ballot for other, ballot in inside.items() if other != juror}
            for function, *given in calls:
                before = bytes(urn)
                if number:
                    refused(number, 0, function, *given)
                else:
                    assert function(*given) == len(after)
                assert bytes(urn) == before or (not number and not function.__name__.startswith("preview"))
            inside = inside if number else after
            assert list(urn.jurors) == list(inside) and len(urn) == len(inside)
        again = Urn.from_bytes(candidates, grades, bytes(urn))
        assert again.jurors == urn.jurors
        if inside:
            own = GateList.own(urn.shape)
            tape = bytes(own.conditional)
            assert urn.run(own, tape) == own.run(b"".join(inside.values()), tape)
            assert urn.run().winners == again.run().winners
    bad_urns()


def bad_urns():
    urn, ballot = Urn(2, 2, 3), bytes([1, 0, 0, 1])
    refused(1, 0, urn.run)                                   # an empty urn has no ballots, so its shape has n = 0
    for bad in ((0, 2), (2, 0), (9, 2), (2, 8), (HUGE + 2, 2), (-1, -2)):
        refused(1, 0, Urn, *bad)
        refused(1, 0, Urn.from_bytes, *bad, b"")
    for slots in (0, 1, 257, HUGE, -3):
        refused(13, 0, Urn, 2, 2, slots)
    refused(13, 0, Urn.from_bytes, 2, 2, bytes(urn)[:-1])
    refused(13, 0, Urn.from_bytes, 2, 2, b"\1" * 18)
    for juror in (0, 256, HUGE + 1, -1):
        refused(14, 0, urn.admit, juror, ballot)
        refused(14, 0, urn.withdraw, juror)
    refused(4, 0, urn.admit, 1, ballot + b"\0")
    refused(5, 0, urn.admit, 1, b"\2\0\0\1")
    refused(6, 1, urn.preview_admit, 1, b"\1\0\1\1")
    urn.admit(1, ballot)
    refused(4, 0, urn.run, GateList.own(Shape(2, 2, 2)))
    refused(7, 0, urn.run, tape=[0] * 99999)
    wrong(urn.run, GateList.own(Shape(2, 3, 1)))


def trustees(rng):
    """Shares add up, each tally names the winners, and bad numbers and dealings are refused."""
    for shape, number in itertools.product(SHAPES, range(2, 6)):
        gates, ballots = GateList.own(shape), bytes(random_ballots(rng, *shape))
        dealing = deal(gates, ballots, number)
        assert len(dealing.ballot_shares) == len(dealing.triples) == number
        assert bytes(sum(bits) % 2 for bits in zip(*dealing.ballot_shares)) == ballots
        found = tally(gates, ballots, dealing)
        assert found.winners == count(shape, ballots) == tuple(i for i, bit in enumerate(found.closing) if bit)
        assert {len(said) for said in found.published} == {2 * gates.conditional + shape.candidates}
        ends = zip(*(said[2 * gates.conditional:] for said in found.published))
        assert bytes(sum(bits) % 2 for bits in ends) == found.closing
    shape = Shape(2, 2, 1)
    gates, ballots = GateList.own(shape), bytes([1, 0, 0, 1])
    for number in (0, 1, 6, HUGE, -1):
        refused(16, 0, tally, gates, ballots, deal(gates, ballots, number))
    refused(16, 0, tally, gates, ballots, Dealing([], []))
    good = deal(gates, ballots, 3)
    shares, triples = good
    for bad in (Dealing([shares[0] + b"\0", shares[1], shares[2][:-1]], triples), Dealing(shares, [b"", *triples[1:]]),
                Dealing(shares, triples[:2])):
        refused(17, 0, tally, gates, ballots, bad)
    for byte in (bytes([1 - shares[0][0]]), b"\2"):
        refused(18, 0, tally, gates, ballots, Dealing([byte + shares[0][1:], *shares[1:]], triples))
    refused(5, 0, tally, gates, b"\2\0\0\1", good)


def apart(rng):
    """Separate trustees publish what the tally by all of them does, and a round above the last is refused."""
    for shape, number in itertools.product(SHAPES, (2, 5)):
        gates, ballots = GateList.own(shape), bytes(random_ballots(rng, *shape))
        dealing, opened = deal(gates, ballots, number), 2 * gates.conditional
        trustees = [Trustee(gates, number, place) for place in range(number)]
        for trustee, shares, triples in zip(trustees, *dealing):
            trustee.start(shares, triples)
        sums = bytes(opened)
        for turn in range(gates.levels + 1):
            said = [trustee.round(turn, sums[:opened]) for trustee in trustees]
            sums = bytes(sum(bits) % 2 for bits in zip(*said))
        together = tally(gates, ballots, dealing)
        assert said == together.published and sums[opened:] == together.closing
        refused(201, 0, trustees[0].round, gates.levels + 1, sums[:opened])
        refused(202, 0, trustees[0].round, 0, sums[:opened] + b"\0")
        for trustee in trustees:
            assert trustee.rounds == gates.levels
            trustee.finish()
            assert not any(trustee._wires) and not any(trustee._triples)
    for number, place in ((1, 0), (6, 0), (3, 3), (HUGE, 0), (3, -1)):
        refused(16, 0, Trustee(gates, number, place).start, dealing.ballot_shares[0], dealing.triples[0])
    one = Trustee(gates, 3, 0)
    refused(17, 0, one.start, dealing.ballot_shares[0][1:], dealing.triples[0])
    refused(17, 0, one.start, dealing.ballot_shares[0], dealing.triples[0] + b"\0")
    refused(18, 0, one.start, b"\2" + dealing.ballot_shares[0][1:], dealing.triples[0])
    assert not any(one._wires) and not any(one._triples)


def dispatched(rng):
    """Each jury gets the board of its own run. A piece of the wrong length is refused, even if the sum is right."""
    for many, share in itertools.product(range(1, 9), (1, 7, 4096, 65536)):
        juries = []
        for shape in rng.choices(SHAPES, k=many):
            gates = GateList(shape, flat(random_gates(rng, shape.inputs, rng.randrange(shape.candidates, 60))))
            juries.append(Jury(gates, bytes(random_ballots(rng, *shape)), bytes(fresh_tape(gates.conditional))))
        for jury, found in zip(juries, dispatch(juries, share)):
            assert found.board == jury.gates.run(jury.ballots, jury.tape)
            assert found.rounds == -(-len(jury.gates) // share)
    shape = Shape(2, 3, 3)
    gates = GateList.own(shape)
    good = Jury(gates, bytes(random_ballots(rng, *shape)))
    assert [found.board.winners for found in dispatch([good] * 3)] == [count(shape, good.ballots)] * 3
    tape = bytes(gates.conditional)
    longer, shorter = good._replace(tape=tape + b"\0"), good._replace(tape=tape[:-1])
    refused(7, 0, dispatch, [longer, shorter])
    refused(7, 1, dispatch, [good, shorter, longer])
    longer, shorter = good._replace(ballots=good.ballots + b"\0"), good._replace(ballots=good.ballots[:-1])
    refused(4, 0, dispatch, [longer, shorter])
    refused(4, 2, dispatch, [good, good, shorter])
    masked = good._replace(tape=b"\2" + tape[1:])
    refused(8, 0, dispatch, [masked, longer])                # the first bad jury, whatever its reason
    refused(5, 1, dispatch, [good, good._replace(ballots=b"\2" + good.ballots[1:], tape=tape + b"\0")])
    free = Jury(GateList(Shape(1, 2, 1), [1, 0, 0, 0]), b"\1\0", b"\0")
    assert refused(7, 1, dispatch, [good, free]).place_of == "the jury"
    refused(7, 1, dispatch, [good, free, good, masked])
    refused(6, 0, dispatch, [free._replace(ballots=b"\1\1")])
    refused(19, 0, dispatch, [])
    refused(19, 0, dispatch, [good] * 9)
    refused(19, 0, dispatch, [longer] * 9)
    for share in (0, 65537, HUGE + 1, -1):
        refused(20, 0, dispatch, [good], share)
        refused(20, 0, dispatch, [longer], share)


def batches(rng):
    """Each jury gets the board of its own run; there may be fewer than 64; a refusal names the jury."""
    for shape, many in zip(SHAPES, (1, 2, 5, 63, 64, 3, 64)):
        gates = GateList(shape, flat(random_gates(rng, shape.inputs, 30)))
        juries = [bytes(random_ballots(rng, *shape)) for _ in range(many)]
        tapes = [bytes(fresh_tape(gates.conditional)) for _ in range(many)]
        assert batch(gates, juries, tapes) == [gates.run(jury, tape) for jury, tape in zip(juries, tapes)]
        own = GateList.own(shape)
        assert [board.winners for board in batch(own, juries)] == [count(shape, jury) for jury in juries]
    shape = Shape(2, 3, 1)
    gates, good = GateList.own(shape), bytes([1, 0, 0, 0, 1, 0])
    tape = bytes(gates.conditional)
    refused(4, 1, batch, gates, [good, good[:-1]])
    refused(5, 2, batch, gates, [good, good, b"\2" + good[1:]])
    assert refused(6, 63, batch, gates, [good] * 63 + [bytes(6)]).place_of == "the jury"
    refused(7, 0, batch, gates, [good], [tape + b"\0"])
    refused(8, 1, batch, gates, [good] * 2, [tape, b"\2" + tape[1:]])
    wrong(batch, gates, [])
    wrong(batch, gates, [good] * 65)
    wrong(batch, gates, [good] * 2, [tape])


def python(program, folder, **variables):
    """Runs a program in Python in another folder, with JUGYVAROS_LIBRARY set only if it is given."""
    plain = {name: value for name, value in os.environ.items() if name != "JUGYVAROS_LIBRARY"}
    environment = {**plain, "PYTHONDONTWRITEBYTECODE": "1", **variables}
    return subprocess.run([sys.executable, "-c", program], env=environment, cwd=folder, capture_output=True, text=True)


def emptied():
    """The package's copies of ballots, tapes and shares are zeros after a call, accepted or refused."""
    modules = [importlib.import_module(f"jugyvaros.{name}") for name in ("gates", "dispatch", "batch", "trustees")]
    lent = []
    for module in modules:
        setattr(module, "wipe", lambda *buffers: (lent.extend(buffers), library.wipe(*buffers)))
    shape = Shape(2, 2, 2)
    gates, ballots = GateList.own(shape), bytes([1, 0, 0, 1] * 2)
    bad, dealing, inputs = b"\1" * 8, deal(gates, ballots, 2), shape.inputs
    calls = [
        (gates.run, [(ballots,), (bad,)], [gates.conditional]),
        (dispatch, [([Jury(gates, ballots)],), ([Jury(gates, bad)],)], [inputs, gates.conditional, gates.conditional]),
        (batch, [(gates, [ballots]), (gates, [bad])], [inputs, gates.conditional]),
        (tally, [(gates, ballots, dealing), (gates, bad, dealing)], [2 * inputs, 6 * gates.conditional]),
    ]
    for function, (accepted, other), lengths in calls:
        lent.clear()
        function(*accepted)
        refused(6, 0, function, *other)
        assert [len(data) for data in lent] == 2 * lengths and gates.conditional, (function, list(map(len, lent)))
        assert not any(any(data) for data in lent), function
    for module in modules:
        setattr(module, "wipe", library.wipe)


def installed():
    """pip installs the package without a network; it uses its own copy, or what JUGYVAROS_LIBRARY names."""
    program = "import jugyvaros as j; s = j.Shape(2, 2, 1); print(j.count(s, s.encode([[2, 1]])), j.library.path())"
    with tempfile.TemporaryDirectory() as folder:
        quiet = ["--quiet", "--disable-pip-version-check", "--root-user-action=ignore"]
        pip = [sys.executable, "-m", "pip", "install", "--no-index", *quiet]
        subprocess.run([*pip, "--target", folder, ROOT / "python"], check=True, cwd=folder)
        bundled = pathlib.Path(folder) / "jugyvaros/libjugyvaros.so"

        def said(**variables):
            return python(program, folder, PYTHONPATH=folder, **variables)

        assert said().stdout == f"(1,) {bundled}\n", said()
        moved = bundled.rename(pathlib.Path(folder) / "elsewhere.so")
        assert said(JUGYVAROS_LIBRARY=str(moved)).stdout == f"(1,) {moved}\n"
        for variables in ({}, {"JUGYVAROS_LIBRARY": str(bundled)}):
            last = said(**variables).stderr.splitlines()[-1]
            assert last.startswith("jugyvaros.repository.NotBuilt: ") and "JUGYVAROS_LIBRARY" in last, last


# A toolchain that proves nothing: it prints what a real one would, or fails if there is a file named `fail`.
FAKE_RT = """#!/bin/sh
echo called >> {folder}/calls
test -e {folder}/fail && echo 'error: a reason' && exit 1
echo 'rt: chose --jobs 2 for gates'
echo 'fn gates::kind::apply: proved'
echo 'crate gates: modules loaded=0 checked=33'
echo 'logic=proved functions=1'
echo 'library jury: modules loaded=18 checked=0'
echo 'crate jugyvaros: modules loaded=0 checked=2'
echo 'logic=proved functions=2'
mkdir -p out
test "$1" = run || cp {archive} out/
"""
PROGRESS = """tools/library: gates is proved
tools/library: jugyvaros is proved
"""


def built():
    """In a checkout the library is built if a source is newer, with a line for each crate that is proved."""
    with tempfile.TemporaryDirectory() as name:
        folder = pathlib.Path(name)
        shutil.copytree(ROOT / "python/jugyvaros", folder / "python/jugyvaros")
        archive = "crates/jugyvaros/out/libjugyvaros.a"
        texts = {"tools/library": (ROOT / "tools/library").read_text(),
                 "bin/rt": FAKE_RT.format(folder=folder, archive=ROOT / archive),
                 "crates.txt": "gates:\njugyvaros staticlib: gates\nrehearsal: gates\n",
                 **{f"crates/{crate}/src/lib.rt": "" for crate in ("gates", "jugyvaros", "rehearsal")}}
        for path, text in texts.items():
            (folder / path).parent.mkdir(parents=True, exist_ok=True)
            (folder / path).write_text(text)
            (folder / path).chmod(0o755)

        def said(program="print(jugyvaros.Shape(1, 2, 1).measure().inputs)", PATH=f"{folder}/bin:{os.environ['PATH']}"):
            return python(f"import jugyvaros; {program}", folder, PYTHONPATH=f"{folder}/python", PATH=PATH)

        def calls():
            return (folder / "calls").read_text().count("called")

        first, again = said(), said()
        assert (first.stdout, first.stderr) == ("2\n", PROGRESS), first
        assert (again.stdout, again.stderr, calls()) == ("2\n", "", 1), again
        later = (folder / archive).stat().st_mtime + 5
        os.utime(folder / "crates/gates/src/lib.rt", (later, later))
        assert said().stdout == "2\n" and calls() == 2
        program = folder / "crates/rehearsal/out/rehearsal"
        program.parent.mkdir()
        program.touch()
        os.utime(program, (1, 1))
        for path in texts:
            os.utime(folder / path, (2, 2))
        for _ in range(2):
            assert said("print(jugyvaros.repository.program('rehearsal').name)").stdout == "rehearsal\n"
        assert calls() == 3                                  # only once more: the second time the program is not older
        (folder / "fail").touch()
        os.utime(folder / "crates/gates/src/lib.rt", (later + 60, later + 60))
        lines = said().stderr.splitlines()
        assert "error: a reason" in lines and f"NotBuilt: {folder}/tools/library failed" in lines[-1], lines
        (folder / "bin/rt").unlink()
        last = said(PATH=f"{folder}/bin").stderr.splitlines()[-1]
        assert "NotBuilt: rt is not installed" in last, last


def main():
    rng = random.Random(33)
    documented()
    for part in (shapes, lists, counterparts, urns, trustees, apart, dispatched, batches):
        part(rng)
    bad_lists()
    # 9, 10, 24 and 200 are about tables that the package makes itself; 21 and 22 are the season sheet's
    assert SEEN == {*range(1, 9), *range(11, 21), 23, 201, 202}, sorted(SEEN)
    emptied()
    installed()
    built()
    raised = ", ".join(map(str, sorted(SEEN)))
    print(f"tests/python.py: ok, with {library.path().relative_to(ROOT)}; reasons raised: {raised}")


if __name__ == "__main__":
    main()
