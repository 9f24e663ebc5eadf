"""tools/list: the own list as text and back, its errors for bad texts, and the exported circuit, evaluated here.

    python3 tests/text_tools.py    needs crates/jugyvaros/out/libjugyvaros.a
"""

import importlib.machinery
import importlib.util
import random
import subprocess
import sys

from core import ROOT
from jugyvaros import GateList, Shape, count
from random_juries import random_ballots

sys.path.insert(0, str(ROOT / "tools"))
TOOL = ROOT / "tools/list"
loader = importlib.machinery.SourceFileLoader("list_tool", str(TOOL))
list_tool = importlib.util.module_from_spec(importlib.util.spec_from_loader("list_tool", loader))
loader.exec_module(list_tool)


def evaluate(circuit, bits):
    """The output bits of a circuit in Bristol Fashion on its input bits. Nothing here knows our kinds of gates."""
    head, ins, outs, _, *lines = circuit.splitlines()
    many, total = map(int, head.split())
    assert len(lines) == many and int(ins.split()[1]) == len(bits)
    wires = dict(enumerate(bits))
    for line in lines:
        fields = line.split()
        used, made, kind = [int(x) for x in fields[2:-2]], int(fields[-2]), fields[-1]
        assert len(used) == int(fields[0]) and made not in wires
        values = [wires[wire] for wire in used]
        wires[made] = {"XOR": sum(values) % 2, "AND": min(values), "INV": 1 - values[0]}[kind]
    assert len(wires) == total
    return [wires[total - int(outs.split()[1]) + i] for i in range(int(outs.split()[1]))]


def circuits(rng):
    """The circuits of own lists tell who wins; that of a list with every kind has the closing bytes of a run."""
    for shape in (Shape(1, 2, 1), Shape(2, 3, 3), Shape(3, 5, 15), Shape(5, 6, 20), Shape(3, 0, 4)):
        circuit = list_tool.bristol(GateList.own(shape))
        for _ in range(20):
            bits = random_ballots(rng, *shape)
            assert evaluate(circuit, bits) == [int(i in count(shape, bytes(bits))) for i in range(shape.candidates)]
    shape = Shape(2, 2, 1)
    every_kind = GateList.from_text(shape, "0\n1\n2 1\n3 2\n4 6 7\n5 8 3\n6 9 0\n7 1 9 10\n")
    for bits in ([a, 1 - a, b, 1 - b] for a in (0, 1) for b in (0, 1)):
        assert evaluate(list_tool.bristol(every_kind), bits) == list(every_kind.run(bytes(bits)).closing)


def tool(*arguments, text=None):
    return subprocess.run([TOOL, *arguments], input=text, capture_output=True)


def main():
    circuits(random.Random(1))
    said = [
        (b"0\n02 1\n", "refused 23 1"),
        (b"2 9\n0\n", "refused 3 0"),
        (b"0\n0", "refused 23 1"),
        (b"0\n", "refused 2 0"),
    ]
    for text, words in said:
        run = tool("read", "2", "2", "1", "-", text=text)
        assert run.returncode == 1 and run.stderr.decode().startswith(f"tools/list: {words}: "), run
        assert run.stderr.count(b"\n") == 1 and not run.stdout, run
    written = tool("write", "2", "3", "3").stdout
    own = GateList.own(Shape(2, 3, 3))
    assert written == own.to_text()
    size = f"{len(own)} gates, {own.conditional} conditional, {own.levels} rounds\n"
    assert tool("read", "2", "3", "3", "-", text=written).stdout.decode() == f"accepted: {size}"
    for of in (tool("size", "2", "3", "3"), tool("size", "2", "3", "3", "-", text=written)):
        assert of.stdout.decode() == size
    assert tool("bristol", "2", "3", "3").stdout == tool("bristol", "2", "3", "3", "-", text=written).stdout
    print("tests/text_tools.py: ok")


if __name__ == "__main__":
    main()
