"""Makes docs/EXAMPLE.md, a small own list line by line, from the list that the core writes.

    python3 docs/example.py          writes the page
    python3 docs/example.py --check  fails if the page is not what the library makes
"""
import pathlib
import sys

ROOT = pathlib.Path(__file__).resolve().parent.parent
sys.path.insert(0, str(ROOT / "python"))

from jugyvaros import GateList, Shape  # noqa: E402  (the line above is what finds it)

PAGE = ROOT / "docs/EXAMPLE.md"
SHAPE, LARGER = Shape(2, 2, 1), Shape(2, 3, 3)
OPERANDS, CONDITIONAL = (0, 0, 1, 1, 2, 2, 2, 3), (4, 5, 7)
WORDS = ("0", "1", "{0}", "not {0}", "{0} and {1}", "{0} or {1}", "{0} xor {1}", "{1} if {0} else {2}")
# What a 1 on each gate's wire means, by the gate's line.
MEANINGS = {
    "2 1": "blend 0 has the worse grade",
    "2 3": "blend 1 has the worse grade",
    "6 5 4": "the grades differ",
    "2 6": "one blend loses",
    "2 5": "if one loses, it is blend 1",
    "4 7 8": "blend 1 loses",
    "3 9": "blend 1 wins",
    "6 7 10": "blend 0 wins",
    "2 11": "blend 0 wins",
    "2 10": "blend 1 wins",
}
# The tape of the first jury: any bits would do.
PATTERN = (1, 0, 0, 1, 1, 0, 1)


def values(gates, ballots):
    """Every wire of a list, as the table of kinds says."""
    wires = list(ballots)
    for kind, a, b, c in gates:
        x, y, z = (wires[wire] for wire in (a, b, c))
        wires.append((0, 1, x, 1 - x, x & y, x | y, x ^ y, y if x else z)[kind])
    return wires


def bits(numbers):
    return " ".join(map(str, numbers))


def page():
    gates = GateList.own(SHAPE)
    inputs, conditional, count = SHAPE.inputs, gates.conditional, len(gates)
    first, second = SHAPE.encode([[1, 1]]), SHAPE.encode([[2, 2]])
    tape = bytes((PATTERN * conditional)[:conditional])
    counterpart = gates.counterpart(first, tape, second)
    boards = [gates.run(first, tape), gates.run(second, counterpart)]
    assert bytes(boards[0]) == bytes(boards[1])
    wires = [values(gates, ballots) for ballots in (first, second)]
    shown = 0
    rows = []
    lines = gates.to_text().decode().splitlines()
    if lines != list(MEANINGS):
        sys.exit("docs/example.py: the list has changed; say in MEANINGS what each of its gates means")
    (shown_wire,) = [gate.a for gate in gates if gate.kind in CONDITIONAL]
    for g, (gate, text) in enumerate(zip(gates, lines)):
        operands = [f"w{wire}" for wire in gate[1:1 + OPERANDS[gate.kind]]]
        mark = ""
        if gate.kind in CONDITIONAL:
            mark = f"w{gate.a}, masked, as byte {shown}"
            shown += 1
        elif g >= count - SHAPE.candidates:
            mark = f"closing byte of blend {g - count + SHAPE.candidates}"
        own = inputs + g
        value = f"w{own} = {WORDS[gate.kind].format(*operands)}"
        rows.append(f"| `{text}` | {value} | {MEANINGS[text]} | {wires[0][own]} | {wires[1][own]} | {mark} |")
    other = SHAPE.encode([[1, 2]])
    larger = GateList.own(LARGER)
    larger_first, larger_second = LARGER.encode([[1, 2], [2, 2], [2, 3]]), LARGER.encode([[1, 3], [1, 3], [3, 1]])
    larger_tape = bytes((PATTERN * larger.conditional)[:larger.conditional])
    larger_counterpart = larger.counterpart(larger_first, larger_tape, larger_second)
    assert larger_tape != larger_counterpart
    return TEXT.format(
        count=count, conditional=conditional, levels=gates.levels, inputs=inputs, last=inputs - 1, rows="\n".join(rows),
        first=bits(first), second=bits(second), other=bits(other), tape=bits(tape), counterpart=bits(counterpart),
        board=bits(bytes(boards[0])), closing=bits(boards[0].closing), shown=bits(boards[0].shown),
        other_closing=bits(gates.run(other).closing), larger_first=bits(larger_first), larger_second=bits(larger_second),
        larger_tape=bits(larger_tape), larger_counterpart=bits(larger_counterpart),
        larger_board=bits(bytes(larger.run(larger_first, larger_tape))), shown_wire=shown_wire,
        shown_value=wires[0][shown_wire])


TEXT = """# An example: two blends, two grades, one juror

`python3 docs/example.py` makes this page from the list that the core writes, and `tests/library` fails if it is out of
date. The [glossary](../README.md#words) has the words.

The shape is 2 2 1: k = 2 candidates, d = 2 grades, n = 1 ballot. A ballot is two rows of two bytes, so there are
I = {inputs} ballot bytes. They are the wires w0 to w{last}: w0 is 1 if blend 0 has the better grade, w1 if it has the worse
one; w2 and w3 say the same about blend 1. Gate g makes wire {inputs} + g.

## The own list

The core generates a circuit of G = {count} gates, of which C = {conditional} is conditional. Its multiplicative depth is R = {levels}.
The first column has the text that `tools/list write 2 2 1` prints: a gate's kind, then the operands that this kind
uses. Columns A and B have the wires of two juries. The juror of A likes both blends (ballot {first}), the juror of B
neither ({second}). In each jury the blends are equal, so both win.

| line | wire | it is 1 if | A | B | published |
|---|---|---|--:|--:|---|
{rows}

Gates of kind 0, 1, 2, 3 and 6 are free: constants, copies, complements and sums modulo 2. Kinds 4, 5 and 7 multiply.
Whoever evaluates the list under encryption has to open one masked bit for each of them, and that bit goes on the board.
The copies are there because the lists of all shapes are built from the same blocks.

## The board under a tape

Jury A is run with the tape {tape}: one secret random bit for each conditional gate, used once. Each conditional gate
publishes its first operand plus its own tape bit, modulo 2. Here w{shown_wire} is {shown_value}, so board byte 0 is {shown}. The last two wires
follow:

    board of A   {board}
                 the masked bit {shown}, then the closing bytes {closing}

## The one tape that gives jury B the same board

    tape of A    {tape}
    tape of B    {counterpart}
    board of B   {board}

Bit i of B's tape has to be board byte i plus the wire that B shows there, modulo 2. So there is exactly one such
tape. In this small list w{shown_wire} is the same for both juries, and so is the tape. The list of 2 3 3 shows more bits. Here are
two juries of three jurors; blend 0 wins in both:

    ballots of A {larger_first}
    ballots of B {larger_second}
    tape of A    {larger_tape}
    tape of B    {larger_counterpart}
    common board {larger_board}

A tape is drawn at random, so both tapes are equally likely, and the board does not reveal which of the two juries
voted. Demand 3, [`BoardTellsNoMore`](../crates/tally/specs/Hiding.antt), says so for every list and every two juries
with equal closing bytes.

If the winners differ there is no such tape: a juror who likes only blend 0 ({other}) gives the closing bytes
{other_closing}, which no mask hides.

Try it with juries of your own: `tools/board A.txt B.txt`.

## A stranger's list

The core accepts any list, whoever wrote it, of k to 1,048,576 gates if each gate has a known kind and its operands name
earlier wires. This one is accepted for 2 2 1 and says for each blend whether it has the better grade:

    4 0 0
    2 2

Its first gate is conditional (w4 = w0 and w0), so its board has one masked bit and two closing bytes. It follows no
rule, so its closing bytes need not name winners: demand 2 is only about own lists. Demand 3 holds for it all the same:
its board reveals its closing bytes and nothing else about the ballots. Closing bytes can reveal much, though: these
two reveal the whole ballot. Before you run a stranger's list, find out what its closing bytes say.
"""


def main():
    if sys.argv[1:] == ["--check"]:
        if PAGE.read_text() != page():
            sys.exit("docs/example.py: docs/EXAMPLE.md is not what the library makes; run python3 docs/example.py")
    else:
        PAGE.write_text(page())


if __name__ == "__main__":
    main()
