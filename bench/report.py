"""Makes the benchmark's tables and plot from what bench/run measured. Standard library only."""
import os
import pathlib
import platform
import re
import statistics
import subprocess
import sys
import textwrap

HERE = pathlib.Path(__file__).parent
OPS = ["write", "test", "run", "count"]
# The largest time ratios that we accept.
GOALS = {"write": 2.0, "test": 1.1, "run": 1.1, "count": 1.1}
URN_GOAL = 1.2
TEXT_GOAL = 1.1
# The same for eight juries in rounds of 4,096 gates, compared with undivided runs.
DISPATCH_GOAL = (4096, 1.1)
# How many times faster 64 juries at once should be; request 2.11 asks for 8.
BATCH_GOAL, BATCH_ASKED = 32, 8


def read_times(folder, words):
    """By the first words of a line: gates, the least times, the median ratio, and the median of whatever follows.

    The file has each line several times, once for each address of the library.
    """
    lines = {}
    for line in (folder / "times").read_text().splitlines():
        fields = line.split()
        key = tuple(int(word) if word.isdigit() else word for word in fields[:words])
        lines.setdefault(key, []).append([float(number) for number in fields[words:]])

    def over_places(rows):
        gates, core, other, *middle = zip(*rows)
        return [int(gates[0]), min(core), min(other), *map(statistics.median, middle)]

    return {key: over_places(rows) for key, rows in lines.items()}


def read_counts(folder):
    """The instructions of one call, from callgrind's dumps, by operation, shape and who did it."""
    counts = {}
    for path in folder.glob("callgrind.*"):
        text = path.read_text()
        label = re.search(r"^desc: Trigger: Client Request: (\w+)-(\d+)-(\d+)-(\d+)-(\w+)$", text, re.M)
        total = re.search(r"^(?:summary|totals): (\d+)", text, re.M)
        if label and total:
            op, k, d, n, who = label.groups()
            counts[op, (int(k), int(d), int(n)), who] = int(total.group(1))
    return counts


def table_of(columns, rows, found=None, what="Time ratios above their goal"):
    """A table with columns of words, then of numbers, and a sentence that names the rows that miss their goal."""
    words, numbers = columns
    head, *body = ["| " + " | ".join(map(str, line)) + " |" for line in [[*words, *numbers], *rows]]
    text = "\n".join([head, "|" + "---|" * len(words) + "--:|" * len(numbers), *body])
    return text if found is None else text + f"\n\n{what}: " + (", ".join(found) or "none") + "."


def micro(nanoseconds):
    return f"{nanoseconds / 1000:.2f}"


def shape_of(numbers):
    return " ".join(map(str, numbers))


INSTRUCTIONS = ["core, instructions", "C, instructions", "ratio"]


def calls_table(times, counts):
    """Write, test, run and count compared with C."""
    rows, above = [], []
    for (op, *numbers), (gates, core, c, ratio) in sorted(times.items(), key=lambda row: OPS.index(row[0][0])):
        a, b, shape = counts[op, tuple(numbers), "core"], counts[op, tuple(numbers), "c"], shape_of(numbers)
        rows.append([op, shape, gates, micro(core), micro(c), f"{ratio:.2f}", GOALS[op], a, b, f"{a / b:.2f}"])
        if round(ratio, 2) > GOALS[op]:
            above.append(f"{op} at {shape}")
    columns = ["call", "shape"], ["gates", "core, µs", "C, µs", "time ratio", "goal", *INSTRUCTIONS]
    return table_of(columns, rows, above)


def urn_table(folder):
    """The calls on an urn compared with C, for several numbers of slots and ballots."""
    times, counts = read_times(folder, 4), read_counts(folder)
    rows, above = [], []
    for (op, *numbers), (ballots, core, c, ratio) in times.items():
        k, d, slots = numbers
        a, b = counts[op, tuple(numbers), "core"], counts[op, tuple(numbers), "c"]
        took = [f"{core:.0f}", f"{c:.0f}", f"{ratio:.2f}", URN_GOAL]
        rows.append([op, f"{k} {d}", slots, ballots, *took, a, b, f"{a / b:.2f}"])
        if round(ratio, 2) > URN_GOAL:
            above.append(f"{op} at {slots} slots")
    columns = ["call", "k d"], ["slots", "ballots", "core, ns", "C, ns", "time ratio", "goal", *INSTRUCTIONS]
    return table_of(columns, rows, above)


def urn_run_table(folder):
    """The run on an urn, and the run on the same ballots, both compared with the run on an urn in C."""
    rows, above = [], []
    for numbers, (gates, core, c, ratio, plain) in read_times(folder, 3).items():
        rows.append([shape_of(numbers), gates, micro(core), micro(c), f"{ratio:.2f}", URN_GOAL, f"{plain:.2f}"])
        if round(ratio, 2) > URN_GOAL:
            above.append(shape_of(numbers))
    columns = ["shape"], ["gates", "core, µs", "C, µs", "time ratio", "goal", "run, time ratio"]
    return table_of(columns, rows, above)


def text_table(folder):
    """Lists as text compared with C: the time for a line, and the characters a second."""
    rows, above = [], []
    times = sorted(read_times(folder, 4).items(), key=lambda row: row[0][0])
    for (op, *numbers), (gates, core, _, ratio, characters) in times:
        speed = [f"{core / gates:.1f}", f"{1000 * characters / core:.0f}"]
        rows.append([op, shape_of(numbers), gates, int(characters), *speed, f"{ratio:.2f}", TEXT_GOAL])
        if round(ratio, 2) > TEXT_GOAL:
            above.append(f"{op} at {shape_of(numbers)}")
    columns = ["call", "shape"], ["gates", "characters", "ns a line", "MB/s", "time ratio", "goal"]
    return table_of(columns, rows, above)


def trustees_table(folder):
    """The tally by 2 and by 5 trustees, and how its time grows between them."""
    times = read_times(folder, 4)
    rows = []
    for (trustees, *numbers), (gates, core, c, ratio) in times.items():
        growth = [f"{core / times[(2, *numbers)][1]:.2f}", f"{trustees / 2:.2f}"]
        rows.append([shape_of(numbers), gates, trustees, micro(core), micro(c), f"{ratio:.2f}", *growth])
    columns = ["shape"], ["gates", "trustees", "core, µs", "C, µs", "time ratio", "time / time of 2", "trustees / 2"]
    return table_of(columns, rows)


def dispatch_table(folder):
    """Eight juries in rounds compared with undivided runs, and whether the goal is met."""
    share, goal = DISPATCH_GOAL
    rows, above = [], []
    for (gates_per_round,), (gates, core, undivided, ratio) in read_times(folder, 1).items():
        here = goal if gates_per_round == share else ""
        rows.append([gates_per_round, gates, micro(core), micro(undivided), f"{ratio:.2f}", here])
        if here and round(ratio, 2) > here:
            above.append(f"rounds of {gates_per_round} gates")
    columns = [], ["gates a round", "gates", "in rounds, µs", "undivided, µs", "time ratio", "goal"]
    return table_of(columns, rows, above), not above


def batch_table(folder):
    """A run for 64 juries compared with 64 single runs of the same library, and whether the goal is met everywhere."""
    rows, below = [], []
    for numbers, (gates, batch, singles, faster) in read_times(folder, 3).items():
        rows.append([shape_of(numbers), gates, micro(batch), micro(singles), f"{faster:.1f}", BATCH_GOAL, BATCH_ASKED])
        if round(faster, 1) < BATCH_GOAL:
            below.append(shape_of(numbers))
    took = ["64 juries at once, µs", "64 single runs, µs", "times faster"]
    columns = ["shape"], ["gates", *took, "goal, at least", "asked, at least"]
    return table_of(columns, rows, below, "Below their goal"), not below


def plot(times, counts):
    """A bar for the time ratio, and a mark for the ratio of instructions, by call and shape."""
    times = {(op, tuple(shape)): row for (op, *shape), row in times.items()}
    shapes = sorted({shape for _, shape in times}, key=lambda s: s[0] * s[1] * s[2])
    left, top, height, bar, gap = 60, 40, 260, 22, 30
    group = bar * len(shapes) + gap
    width = left + group * len(OPS) + 170
    work = {call: counts[(*call, "core")] / counts[(*call, "c")] for call in times}
    most = max([1.5, *GOALS.values(), *(row[3] for row in times.values()), *work.values()]) * 1.08
    y = lambda v: top + height * (1 - v / most)
    colours = ["#c6dbef", "#9ecae1", "#6baed6", "#3182bd", "#08519c"]
    end = left + group * len(OPS)

    def line(x1, x2, at, look):
        return f'<line x1="{x1:.1f}" x2="{x2:.1f}" y1="{at:.1f}" y2="{at:.1f}" {look}/>'

    def text(x, at, words, look=""):
        return f'<text x="{x:.1f}" y="{at:.1f}"{look}>{words}</text>'

    middle, right = ' text-anchor="middle"', ' text-anchor="end"'
    dashed, red = 'stroke="#333" stroke-dasharray="4 3"', 'stroke="#d7301f" stroke-width="2"'
    out = [
        f'<svg xmlns="http://www.w3.org/2000/svg" width="{width}" height="{top + height + 50}" '
        'font-family="sans-serif" font-size="12">',
        '<rect width="100%" height="100%" fill="white"/>',
        text(left, 20, "The core against the same work in C (gcc -O2): ratio, 1 is equal", ' font-size="14"'),
    ]
    for tick in [0.5 * i for i in range(int(most / 0.5) + 1)]:
        out += [line(left, end, y(tick), 'stroke="#ddd"'), text(left - 8, y(tick) + 4, f"{tick:.1f}", right)]
    out.append(line(left, end, y(1), 'stroke="#333"'))
    for i, op in enumerate(OPS):
        for j, shape in enumerate(shapes):
            x, ratio = left + gap / 2 + i * group + j * bar, times[op, shape][3]
            size = f'width="{bar - 3}" height="{y(0) - y(ratio):.1f}"'
            out.append(f'<rect x="{x:.1f}" y="{y(ratio):.1f}" {size} fill="{colours[j]}"/>')
            out.append(line(x - 1, x + bar - 2, y(work[op, shape]), red))
        goal, until = y(GOALS[op]), left + (i + 1) * group
        out += [line(left + i * group + gap / 4, until, goal, dashed), text(until, goal - 4, GOALS[op], right)]
        out.append(text(left + i * group + group / 2, top + height + 18, op, middle))
    out.append(text(left + group * len(OPS) / 2, top + height + 40, "call, at each shape k d n", middle))
    out.append(f'<text transform="translate(18 {top + height / 2:.1f}) rotate(-90)"{middle}>core / C</text>')
    x = end + 15
    for j, shape in enumerate(shapes):
        out.append(f'<rect x="{x}" y="{top + 20 * j}" width="14" height="14" fill="{colours[j]}"/>')
        out.append(text(x + 20, top + 20 * j + 12, shape_of(shape)))
    below = top + 20 * len(shapes)
    out += [line(x, x + 14, below + 8, red), text(x + 20, below + 12, "instructions")]
    out += [line(x, x + 14, below + 28, dashed), text(x + 20, below + 32, "goal, by call")]
    out.append("</svg>")
    return "\n".join(out) + "\n"


def machine():
    """Processor and cores, as the system names them."""
    info = pathlib.Path("/proc/cpuinfo")
    names = re.findall(r"^model name\s*: (.*)$", info.read_text(), re.M) if info.exists() else []
    return f"{names[0] if names else platform.machine()}, {os.cpu_count()} cores"


def commit():
    """The commit that was measured: later ones may write other lists."""
    described = subprocess.run(
        ["git", "describe", "--always", "--dirty"], cwd=HERE, capture_output=True, text=True, check=False
    )
    return described.stdout.strip() or "unknown"


def kit():
    """The first word of the toolchain's line on itself: another one makes other code."""
    return subprocess.run(["rt", "version"], capture_output=True, text=True, check=True).stdout.split()[0]


INTRODUCTION = """\
# The core against the same work in C

Made by `bench/run` on {machine}, at commit {commit}, with the toolchain `{kit}`.
C is `bench/core.c`, compiled by `gcc -O2`; it makes the same tests.

- A time is the processor time of one call, the least over 201 short rounds of many calls each.
- The time ratio is the median over the rounds. Core and C take turns in each round, so that a slow phase of the machine
  slows both. The ratio may differ a little from the quotient of the two least times.
- A loop's time depends on its address. So each program is linked with the library at four addresses, 16 bytes apart:
  times are the least of the four, ratios the median. This holds for all tables below.
- The goal is the largest time ratio that we accept. Writing may take twice as long as in C, because a refusal must
  change nothing: the core first works out how long the list will be. For a graded list it adds up the sizes of the
  parts; for a ranked list it makes a dry run with an empty table.
- Instructions are those of one call, counted by callgrind. They are the same in every run.
"""

# Title, text, and the name of the table.
SECTIONS = [
    (
        "The urn",
        "C is `tests/library_c/urn_reference.c`. Half of the slots hold ballots; the withdrawn juror is the last in "
        "the chain.",
        "urn",
    ),
    (
        "The run on an urn",
        "C is `bench/urn_run.c`. The urn has one free slot. The last column compares `run` on the same ballots with "
        "the same C.",
        "urn_run",
    ),
    ("Lists as text", "C is `bench/text.c`. Shapes with 0 grades are rankings.", "text"),
    ("Trustees", "C is `bench/trustees.c`. The dealing is made beforehand; every call tests it.", "trustees"),
    (
        "A trustee on its own machine",
        "All rounds of one of three trustees, compared with the single call for all three. Each round goes through the "
        "whole list, so a trustee computes longer; in return it sends one message a round, not one a gate. These times "
        "are the least over 21 rounds, at one address.",
        "apart",
    ),
    (
        "Eight juries in rounds",
        "Compared with eight undivided runs of the same library. The shapes are in `bench/dispatch.c`.",
        "dispatch",
    ),
    (
        "The run for 64 juries",
        "Compared with 64 single runs of the same library. Every call makes all its tests and empties its wire table. "
        "Packing the juries into numbers is not timed: the fair draws them packed. Shapes with 0 grades are rankings.",
        "batch",
    ),
]


def wrapped(text, width=118):
    """A paragraph, broken into lines."""
    return textwrap.fill(text, width, break_long_words=False, break_on_hyphens=False)


def main():
    folder = pathlib.Path(sys.argv[1])
    times, counts = read_times(folder / "calls", 4), read_counts(folder / "calls")
    dispatch, dispatch_met = dispatch_table(folder / "dispatch")
    batch, batch_met = batch_table(folder / "batch")
    tables = {
        "urn": urn_table(folder / "urn"),
        "urn_run": urn_run_table(folder / "urn_run"),
        "text": text_table(folder / "text"),
        "trustees": trustees_table(folder / "trustees"),
        "apart": "\n".join("    " + line for line in (folder / "apart_times").read_text().splitlines()),
        "dispatch": dispatch,
        "batch": batch,
    }
    calls = calls_table(times, counts)
    print(calls, *tables.values(), sep="\n\n")
    text = INTRODUCTION.format(machine=machine(), commit=commit(), kit=kit()) + f"\n{calls}\n\n![ratios](result.svg)\n"
    text += "".join(f"\n## {title}\n\n{wrapped(said)}\n\n{tables[name]}\n" for title, said, name in SECTIONS)
    (HERE / "RESULT.md").write_text(text)
    (HERE / "result.svg").write_text(plot(times, counts))
    if not batch_met or not dispatch_met:
        sys.exit("bench/report.py: a goal is missed: see above")


if __name__ == "__main__":
    main()
