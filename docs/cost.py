"""Makes the cost sheet, docs/COST.md, and its plot, docs/cost.svg, from the lists that the core writes.

    python3 docs/cost.py          builds the library if a source is newer, and writes both
    python3 docs/cost.py --check  fails if the two files are out of date
"""
import math
import pathlib
import sys

ROOT = pathlib.Path(__file__).resolve().parent.parent
sys.path.insert(0, str(ROOT / "python"))

from jugyvaros import GateList, Shape  # noqa: E402  (the line above is what finds it)

SHEET, PLOT = ROOT / "docs/COST.md", ROOT / "docs/cost.svg"
SHAPES = [(1, 2, 1), (2, 2, 1), (2, 3, 3), (3, 4, 10), (3, 5, 15), (5, 5, 31), (5, 6, 100), (5, 6, 255), (8, 7, 31),
          (8, 7, 127), (8, 7, 255)]
RANKED = [(1, 0, 1), (2, 0, 3), (3, 0, 15), (5, 0, 100), (8, 0, 127), (8, 0, 255)]
CURVES = [(3, 5), (5, 6), (8, 7)]


def measure(shape):
    """(G, C, I, rounds) of a shape's own list, as it is written."""
    gates = GateList.own(Shape(*shape))
    assert Shape(*shape).measure() == (len(gates), gates.conditional, gates.shape.inputs)
    return len(gates), gates.conditional, gates.shape.inputs, gates.levels


def bound(k, d, n):
    """The bound on G, with what request 2.1 adds; for a ranking, that of request 2.2."""
    w = n.bit_length()
    if d == 0:
        return 2 * k * k * n * w + k**3 * (12 * w + 4) + k * k * (20 * w + 20) + 2
    return 2 * k * d * n * w + k * d * (30 * w + 20) + k * k * (20 * w + 6 * d + 20) + 2 + k * d * (400 * w + 400)


def source_gates(k, d, n):
    """Cortier, Gaudry and Yang, figure 3, ElGamal: 60nkda + 40kmda(10 + d) exponentiations, at 20a for a conditional
    gate (figure 9)."""
    m = n.bit_length()
    return 3 * n * k * d + 2 * k * m * d * (10 + d)


def source_rounds(k, d, n):
    """The same row's communications: m(m + 1) and d(6m + 2 log k log m), of which the first is figure 9's Aggreg."""
    m = n.bit_length()
    return m * (m + 1) + d * (6 * m + 2 * math.log2(k) * math.log2(m))


def lent(shape, costs):
    """Bytes that a run is lent: list, ballots, tape, wire table, board."""
    gates, conditional, inputs, _ = costs
    return 16 * gates + inputs + conditional + (inputs + gates) + (conditional + shape[0])


HEAD = """# What a jury costs

`python3 docs/cost.py` makes this page from the lists that the core writes, and `tests/library` fails if it is out of
date. Whoever evaluates a list under encryption pays one opening for each conditional gate, so C is the price of a
jury. Rounds are the multiplicative depth, the longest chain of conditional gates: gates of one depth can be opened
together. The last three columns compare with the protocol of Cortier, Gaudry and Yang (CGY). The formulas are below
the table; the [glossary](../README.md#words) has the other letters.
"""
NOTES = """
- **Bound on G**: 2kdnw + kd(30w + 20) + k²(20w + 6d + 20) + 2 + kd(400w + 400).
- **CGY's gates**: Cortier, Gaudry and Yang (A toolbox for verifiable tally-hiding e-voting systems, 2021) evaluate
  majority judgment under ElGamal encryption. For A authorities it costs them 60nkdA + 40kmdA(10 + d) exponentiations
  (their figure 3); m is our width w. A conditional gate costs 20A (their figure 9). So it costs as much as
  3nkd + 2kmd(10 + d) conditional gates. They give leading terms only.
- **CGY's rounds**: the communications in the same row, read as the sum m(m + 1) + d(6m + 2 log k log m). The first
  term is for the aggregation.
- **A run is lent** 16 G bytes of list, I of ballots, C of tape, I + G of wires and C + k of board.

Rankings (d = 0), by Schulze's rule:
"""
END = """
- **Bound on G**: 2k²nw + k³(12w + 4) + k²(20w + 20) + 2.

![C against n](cost.svg)
"""
COLUMNS = ["k d n", "G", "C", "rounds", "I", "list, bytes", "a run is lent, bytes", "bound on G", "G / bound"]
SOURCE_COLUMNS = ["CGY's gates", "C / CGY's gates", "CGY's rounds"]


def row(cells):
    return "| " + " | ".join(cells) + " |"


def head(columns):
    return [row(columns), "|---|" + "--:|" * (len(columns) - 1)]


def own_cells(shape, cost):
    """What the own list of a shape costs, and the bound on its gates."""
    gates, conditional, inputs, rounds = cost
    numbers = [gates, conditional, rounds, inputs, 16 * gates, lent(shape, cost), bound(*shape)]
    return [" ".join(map(str, shape)), *(f"{x:,}" for x in numbers), f"{100 * gates / bound(*shape):.0f} %"]


def source_cells(shape, cost):
    """What the source's formulas give for the shape."""
    theirs = source_gates(*shape)
    return [f"{theirs:,}", f"{100 * cost[1] / theirs:.0f} %", f"{source_rounds(*shape):.0f}"]


def sheet(costs):
    """The page, docs/COST.md."""
    graded = [row(own_cells(shape, costs[shape]) + source_cells(shape, costs[shape])) for shape in SHAPES]
    ranked = [row(own_cells(shape, costs[shape])) for shape in RANKED]
    return "\n".join([HEAD, *head(COLUMNS + SOURCE_COLUMNS), *graded, NOTES, *head(COLUMNS), *ranked, END])


def plot():
    left, top, width, height = 70, 40, 620, 360
    most = max(source_gates(k, d, 255) for k, d in CURVES) * 1.05
    x = lambda n: left + width * n / 255
    y = lambda c: top + height * (1 - c / most)
    colours = ["#3182bd", "#31a354", "#d7301f"]
    out = [
        f'<svg xmlns="http://www.w3.org/2000/svg" width="{left + width + 190}" height="{top + height + 60}" '
        'font-family="sans-serif" font-size="12">',
        '<rect width="100%" height="100%" fill="white"/>',
        f'<text x="{left}" y="22" font-size="14">Conditional gates C of the own list against the ballots n</text>',
    ]
    for tick in range(0, int(most) + 1, 10000):
        out.append(f'<line x1="{left}" x2="{left + width}" y1="{y(tick):.1f}" y2="{y(tick):.1f}" stroke="#ddd"/>')
        out.append(f'<text x="{left - 8}" y="{y(tick) + 4:.1f}" text-anchor="end">{tick:,}</text>')
    for tick in range(0, 256, 32):
        out.append(f'<line x1="{x(tick):.1f}" x2="{x(tick):.1f}" y1="{y(0):.1f}" y2="{y(0) + 5:.1f}" stroke="#333"/>')
        out.append(f'<text x="{x(tick):.1f}" y="{y(0) + 20:.1f}" text-anchor="middle">{tick}</text>')
    out.append(f'<text x="{left + width / 2}" y="{y(0) + 42:.1f}" text-anchor="middle">ballots n</text>')
    middle = f'transform="translate(16 {top + height / 2:.1f}) rotate(-90)" text-anchor="middle"'
    out.append(f"<text {middle}>conditional gates C</text>")
    out.append(f'<line x1="{left}" x2="{left + width}" y1="{y(0):.1f}" y2="{y(0):.1f}" stroke="#333"/>')
    for i, (k, d) in enumerate(CURVES):
        own = " ".join(f"{x(n):.1f},{y(Shape(k, d, n).measure().conditional):.1f}" for n in range(1, 256))
        theirs = " ".join(f"{x(n):.1f},{y(source_gates(k, d, n)):.1f}" for n in range(1, 256))
        out.append(f'<polyline points="{own}" fill="none" stroke="{colours[i]}" stroke-width="2"/>')
        out.append(f'<polyline points="{theirs}" fill="none" stroke="{colours[i]}" stroke-dasharray="5 4"/>')
        for j, (text, dash) in enumerate(((f"k {k}, d {d}", ' stroke-width="2"'),
                                          ("CGY's formula", ' stroke-dasharray="5 4"'))):
            at = top + 20 + 50 * i + 18 * j
            ends = f'x1="{left + width + 15}" x2="{left + width + 40}" y1="{at}" y2="{at}"'
            out.append(f'<line {ends} stroke="{colours[i]}"{dash}/>')
            out.append(f'<text x="{left + width + 46}" y="{at + 4}">{text}</text>')
    out.append("</svg>")
    return "\n".join(out) + "\n"


def main():
    check = sys.argv[1:] == ["--check"]
    costs = {shape: measure(shape) for shape in SHAPES + RANKED}
    shapes = SHAPES + RANKED + [(k, d, n) for k, d in CURVES for n in range(1, 256)]
    over = [shape for shape in shapes if Shape(*shape).measure().gates > bound(*shape)]
    if over:
        sys.exit(f"docs/cost.py: above the bound: {over}")
    made = {SHEET: sheet(costs), PLOT: plot()}
    for path, text in made.items():
        if not check:
            path.write_text(text)
        elif not path.exists() or path.read_text() != text:
            name = path.relative_to(ROOT)
            sys.exit(f"docs/cost.py: {name} is not what the core's lists cost; make it anew: python3 docs/cost.py")


if __name__ == "__main__":
    main()
