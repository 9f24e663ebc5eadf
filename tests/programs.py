"""Runs the built programs, and counts comparisons, for tests/rehearsal.py, tests/season.py and tests/tools.py."""

import subprocess
import sys
import time

from core import ROOT


class Program:
    """A program that reads standard input to its end and then prints its answer."""

    def __init__(self, name):
        self.path = ROOT / "crates" / name / "out" / name

    def said(self, data):
        return subprocess.run([self.path], input=data, stdout=subprocess.PIPE, check=True).stdout.decode()

    def said_in_pieces(self, pieces):
        program = subprocess.Popen([self.path], stdin=subprocess.PIPE, stdout=subprocess.PIPE)
        for piece in pieces:
            program.stdin.write(piece)
            program.stdin.flush()
            time.sleep(0.01)
        program.stdin.close()
        text = program.stdout.read().decode()
        assert program.wait() == 0
        return text


class Comparisons:
    """Counts comparisons, and prints those that differ."""

    def __init__(self):
        self.count = self.wrong = 0

    def compare(self, what, text, wanted):
        self.count += 1
        if text != wanted:
            self.wrong += 1
            print(f"{what}: {text!r}, not {wanted!r}")

    def inputs(self, program, inputs, expected, reasons):
        """What a program prints for each input. The wanted answers must be "accepted" and exactly these refusals."""
        seen = set()
        for data in inputs:
            wanted = expected(data)
            self.compare(f"{len(data)} bytes, {data[:24].hex(' ')}", program.said(data), wanted)
            seen.add(int(wanted.split()[1]) if wanted.startswith("refused") else "accepted")
        self.compare("every answer that there is", seen, {"accepted", *reasons})

    def in_pieces(self, program, data, expected, *ways):
        """What a program prints for an input that comes in pieces: a way has the places at which it is cut."""
        for way in ways:
            ends = [0, *way, len(data)]
            pieces = [data[start:end] for start, end in zip(ends, ends[1:])]
            self.compare("in pieces", program.said_in_pieces(pieces), expected(data))

    def end(self, name):
        """Prints how many there were, and ends the test."""
        print(f"{name}: {self.count} comparisons, {self.wrong} wrong")
        sys.exit(1 if self.wrong else 0)
