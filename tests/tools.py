#!/usr/bin/env python3
"""Tests how the tools behave: help, errors in one line, the same words for the same reason, and their status.

    python3 tests/tools.py    prints how many comparisons there were; needs the library and both programs, no network

Also: names of winners on a terminal and the program's own bytes elsewhere, boards that are equal and the one tape
that makes them so, pages that fetch nothing, and names that look like HTML.
"""

import html.parser
import os
import pathlib
import pty
import subprocess
import tempfile
import xml.etree.ElementTree

from core import ROOT
from jugyvaros import GateList, jury_file
from jugyvaros.reasons import ADVICE, REASONS
from programs import Comparisons, Program

EXAMPLES = ROOT / "examples"
NAMED, CLOSE = EXAMPLES / "named-blends.txt", EXAMPLES / "close-call.txt"
TOOLS = ("board", "jury", "list", "rehearse", "season")
# Calls that are wrong: status 2.
MISUSED = [
    ["board"], ["board", NAMED], ["board", NAMED, CLOSE, CLOSE], ["board", "--nonsense"],
    ["board", NAMED, CLOSE, "--html"], ["jury"], ["jury", NAMED, CLOSE], ["list"], ["list", "paint", "2", "3", "3"],
    ["list", "write", "2", "3"],
    ["list", "write", "2", "3", "x"], ["list", "write", "2", "3", "-3"], ["list", "read", "2", "3", "3"],
    ["rehearse", NAMED, CLOSE], ["rehearse", "--record"], ["season"], ["season", "sheet"], ["season", "burn", "x"],
    ["season", "sheet", "x", "y"],
]
# Calls that are refused or fail: status 1, and words that the line has.
NO_FILE = "No such file or directory"
FAILED = [
    (["board", NAMED, EXAMPLES / "even-jury.txt"], "the shapes differ, 3 5 7 and 2 3 4"),
    (["board", NAMED, "nowhere"], NO_FILE), (["jury", "nowhere"], f"nowhere: {NO_FILE}"),
    (["rehearse", "nowhere"], NO_FILE), (["season", "sheet", "nowhere"], NO_FILE),
    (["list", "read", "2", "2", "1", "nowhere"], NO_FILE), (["list", "write", "9", "2", "1"], 1),
    (["list", "size", "1", "2", "256"], 1), (["list", "bristol", "1", "1", "1"], 1),
]


def tool(*arguments, data=b""):
    return subprocess.run([ROOT / "tools" / arguments[0], *arguments[1:]], input=data, capture_output=True)


def words_of(reason):
    """What every tool prints for a reason: its words, and what to do."""
    return [f"refused {reason} ", REASONS[reason][1]]


def one_line(name, run):
    """Whether standard error is one line that begins with the tool's name."""
    text = run.stderr.decode()
    return text.startswith(f"tools/{name}") and text.count("\n") == 1 and text.endswith("\n")


def lacks(text, words):
    """Those of the words that the text does not have."""
    return [word for word in words if word not in text]


def manners(compare):
    for name in TOOLS:
        run = tool(name, "--help")
        compare(f"{name} --help", (run.returncode, run.stderr), (0, b""))
        compare(f"{name}'s help", lacks(run.stdout.decode(), [f"usage: tools/{name}"]), [])
    for arguments in MISUSED:
        run = tool(*arguments)
        compare(f"{arguments}", (run.returncode, run.stdout, one_line(arguments[0], run)), (2, b"", True))
    for arguments, words in FAILED:
        run = tool(*arguments)
        compare(f"{arguments}", (run.returncode, run.stdout, one_line(arguments[0], run)), (1, b"", True))
        wanted = words_of(words) + [ADVICE[words]] if isinstance(words, int) else [words]
        compare(f"{arguments} says", lacks(run.stderr.decode(), wanted), [])


def on_a_terminal(*arguments):
    """What a tool prints if its standard output is a terminal."""
    ours, theirs = pty.openpty()
    command = [ROOT / "tools" / arguments[0], *arguments[1:]]
    with subprocess.Popen(command, stdin=subprocess.DEVNULL, stdout=theirs) as process:
        os.close(theirs)
        read = b""
        while True:
            try:
                piece = os.read(ours, 4096)
            except OSError:                                  # how Linux says that the other end is closed
                break
            if not piece:
                break
            read += piece
    os.close(ours)
    return process.returncode, read.decode().replace("\r\n", "\n")


# Bytes that the rehearsal refuses, and the reason.
REFUSED = [(b"", 1), (bytes([9, 2, 1]), 1), (bytes([8, 7, 255]), 2), (bytes([1, 2, 1]), 4), (bytes([1, 2, 1, 2, 0]), 5),
           (bytes([1, 2, 1, 1, 1]), 6), (bytes([1, 0, 1, 1]), 11), (bytes([3, 0, 1, 0, 1, *[0] * 7]), 12)]


def rehearsals(compare):
    """The tool prints what the program prints, ends with 1 on a refusal, and names the winners on a terminal."""
    program = Program("rehearsal")
    for path in sorted(EXAMPLES.glob("*.txt")):
        said = program.said(jury_file.read(path).rehearsal_input)
        run = tool("rehearse", path)
        compare(path.name, (run.returncode, run.stdout.decode(), run.stderr), (0, said, b""))
        again = tool("rehearse", data=jury_file.read(path).rehearsal_input)
        compare(f"{path.name}, its bytes", (again.returncode, again.stdout.decode()), (0, said))
    for data, reason in REFUSED:
        run, said = tool("rehearse", data=data), program.said(data)
        compare(f"{data}", (run.returncode, run.stdout.decode(), one_line("rehearse", run)), (1, said, True))
        compare(f"{data} says", lacks(run.stderr.decode(), words_of(reason)), [])
    compare("every reason that the program has", {reason for _, reason in REFUSED}, {1, 2, 4, 5, 6, 11, 12})
    shared = [("ranked-cycle.txt", "a, b and c share the win"), ("shared-win.txt", "blend 0 and blend 1 share the win")]
    for path, words in [(NAMED, "bergamot wins"), *((EXAMPLES / name, words) for name, words in shared)]:
        said = program.said(jury_file.read(path).rehearsal_input)
        compare(f"{path.name} on a terminal", on_a_terminal("rehearse", path), (0, f"{said}{words}\n"))


class Fetched(html.parser.HTMLParser):
    """Whatever a page would fetch or run, and its text."""

    def __init__(self, text):
        super().__init__()
        self.found, self.words = [], []
        self.feed(text)

    def handle_starttag(self, tag, attributes):
        if tag in ("script", "link", "img", "iframe", "object", "embed", "base", "form"):
            self.found.append(tag)
        sources = ("src", "href", "srcset", "action")
        self.found += [name for name, value in attributes if name in sources or name.startswith("on")]
        self.found += [value for name, value in attributes if name == "style" and "url(" in value]

    def handle_data(self, data):
        self.words.append(data)


def stands_alone(compare, what, text):
    """Tests that a page is self-contained: it fetches nothing and runs no script. Returns its text."""
    compare(f"{what} fetches", (Fetched(text).found, "@import" in text, "url(" in text), ([], False, False))
    return " ".join(Fetched(text).words)


def boards(compare, folder):
    """Two juries with the same winners: the printed boards are equal, and are what the core gives under the tapes."""
    run = tool("board", NAMED, CLOSE)
    lines = run.stdout.decode().replace("tape   ", "tape  ").splitlines()
    said = dict(line.split("  ", 1) for line in lines if "  " in line)
    compare("board's status", (run.returncode, run.stderr), (0, b""))
    juries = [jury_file.read(path) for path in (NAMED, CLOSE)]
    gates = GateList.own(juries[0].shape)
    for name, jury in zip("AB", juries):
        tape = bytes(int(bit) for bit in said[f"{name}'s tape"].split()[0])
        if len(tape) == gates.conditional:
            board = gates.run(jury.ballots, tape)
            printed = said[f"{name}'s board"].replace(" | ", "")
            compare(f"{name}'s board", printed, "".join(map(str, bytes(board))))
    compare("both boards", said["A's board"], said["B's board"])
    tapes = [tool("board", NAMED, CLOSE).stdout for _ in range(2)]
    compare("a fresh tape each time", len(set(tapes)), 2)
    page = folder / "board.html"
    run = tool("board", NAMED, CLOSE, "--html", page)
    words = stands_alone(compare, "the board's page", page.read_text())
    compare("the page's words", lacks(words, ("bergamot", "yuzu", "lime", "close-call.txt", "wins")), [])
    compare("the page on standard output", tool("board", NAMED, CLOSE, "--html", "-").stdout[:15], b"<!DOCTYPE html>")
    other_winners(compare, folder)


def other_winners(compare, folder):
    """No tape makes these boards equal, and the tool says why; names that look like HTML stay text."""
    one, other, page = folder / "one.txt", folder / "other.txt", folder / "page.html"
    one.write_text("grades 2: <i y&z\n1 2\n")
    other.write_text("grades 2: <i y&z\n2 1\n")
    run = tool("board", one, other, "--html", page)
    compare("other winners", (run.returncode, run.stderr), (1, b""))
    said = run.stdout.decode()
    compare("why", lacks(said, ("The winners differ", "<i wins", "y&z wins", "10 and 01")), [])
    text = page.read_text()
    compare("names on the page", lacks(text, ("<i ", "&lt;i", "y&amp;z", "y&z")), ["<i ", "y&z"])
    stands_alone(compare, "the page of two boards", text)
    run = tool("board", one, one, "--html", page)
    compare("a jury beside itself", (run.returncode, "differ at 0 places" in run.stdout.decode()), (0, True))
    stands_alone(compare, "the page of one jury", page.read_text())
    ranked = EXAMPLES / "ranked-cycle.txt"
    compare("a ranked jury", tool("board", ranked, ranked, "--html", page).returncode, 0)
    stands_alone(compare, "the page of rankings", page.read_text())


def seasons(compare, folder):
    """A season as a page: sheet, drawing, and a row for each run; bad files are refused with their reasons."""
    season = folder / "season"
    recorded = [NAMED, EXAMPLES / "ranked-cycle.txt", EXAMPLES / "shared-win.txt"]
    for path in recorded:
        run = tool("rehearse", "--record", season, path)
        compare(f"{path.name} recorded", (run.returncode, run.stdout), (0, tool("rehearse", path).stdout))
    before = season.read_bytes()
    refused = tool("rehearse", "--record", season, data=bytes([9, 2, 1]))
    compare("a refused jury is not recorded", (refused.returncode, season.read_bytes()), (1, before))
    run = tool("season", "page", season)
    text = run.stdout.decode()
    words = stands_alone(compare, "the season's page", text)
    compare("the season's rows", (run.returncode, text.count("<tr>"), words.count("shared")), (0, 1 + len(recorded), 3))
    compare("its sheet", tool("season", "sheet", season).stdout.decode().strip() in words, True)
    start, end = text.index("<svg"), text.index("</svg>") + 6
    compare("its drawing", len(xml.etree.ElementTree.fromstring(text[start:end]).findall("{*}polyline")), 2)
    (folder / "empty").write_bytes(b"")
    statuses = [tool("season", what, folder / "empty").returncode for what in ("sheet", "draw", "page")]
    compare("an empty season", statuses, [0] * 3)
    for data, reason in ((before + b"\0", 21), (before + bytes([0]) + before[1:12], 22)):
        season.write_bytes(data)
        for what in ("sheet", "draw", "page", "append") if reason == 21 else ("sheet", "draw", "page"):
            run = tool("season", what, season, data=b"jury 1 2 1\nwinners 1\n")
            compare(f"{what} of a bad file", (run.returncode, run.stdout, one_line("season", run)), (1, b"", True))
            compare(f"{what} says", lacks(run.stderr.decode(), words_of(reason)), [])
    run = tool("season", "append", season, data=b"refused 1 0\n")
    compare("nothing to append", (run.returncode, one_line("season", run)), (1, True))


def main():
    compared = Comparisons()
    manners(compared.compare)
    rehearsals(compared.compare)
    with tempfile.TemporaryDirectory() as folder:
        boards(compared.compare, pathlib.Path(folder))
        seasons(compared.compare, pathlib.Path(folder))
    compared.end("tests/tools.py")


if __name__ == "__main__":
    main()
