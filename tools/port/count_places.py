#!/usr/bin/env python3
"""Counts places in the older forms in crates/*/src, one line a point, and lists them with --list.

    tools/port/count_places.py [--list] [POINT..]

1  own enums of the shape of Option or Result, flags with a value beside them, numbers for kinds
2  twins: functions that are the same but for names, types and constants
3  loops that count an index by hand
4  conversion, order, copying and equality written by hand
5  three or more parameters that travel together through three or more functions
6  buffers with a length beside them, parallel arrays
7  function pointers and switches on a step
"""

import argparse
import collections
import pathlib
import re

ROOT = pathlib.Path(__file__).resolve().parent.parent.parent
FUNCTION = re.compile(r"^( *)(?:pub(?:\([a-z]+\))? )?(?:const )?(?:extern \"C\" )?fn (\w+)", re.M)
WORD = re.compile(r"[A-Za-z_]\w*|\d\w*|\S")
KEPT_WORDS = {"let", "mut", "if", "else", "while", "for", "in", "return", "match", "as", "loop", "break", "true", "false"}


def sources():
    for path in sorted(ROOT.glob("crates/*/src/**/*.rt")):
        text = path.read_text()
        yield path.relative_to(ROOT).as_posix(), text, re.sub(r"//.*", lambda m: " " * len(m[0]), text)


def line_of(text, place):
    return text.count("\n", 0, place) + 1


def functions():
    """Each function's file, line, name, parameters and body."""
    for path, text, code in sources():
        for match in FUNCTION.finditer(code):
            close = re.compile("^" + match[1] + r"\}", re.M).search(code, match.end())
            head = code[match.end() : close.start()]
            opening = re.compile("^" + match[1] + r"\{$", re.M).search(head)
            if opening is None:
                opening = re.search(r"\{$", head, re.M)
            clauses = head[: opening.start()]
            yield path, line_of(text, match.start()), match[2], clauses, head[opening.end() :]


def lines_with(pattern):
    wanted = re.compile(pattern)
    for path, text, code in sources():
        for number, line in enumerate(code.split("\n"), 1):
            if wanted.search(line):
                yield f"{path}:{number}: {line.strip()}"


def own_enums():
    """Enums with two cases of which one says 'yes, with a value' or 'no', and enums with an accepted case."""
    for path, text, code in sources():
        for match in re.finditer(r"enum (\w+) \{(.*?)^\}", code, re.M | re.S):
            cases = re.findall(r"^ {4}(\w+)", match[2], re.M)
            if len(cases) == 2 or "Accepted" in cases:
                yield f"{path}:{line_of(text, match.start())}: enum {match[1]}: {', '.join(cases)}"
    yield from lines_with(r"^    pub(\([a-z]+\))? \w+: (bool|Verdict|JuriesVerdict|Answer),")
    yield from lines_with(r"^pub const (ZERO|ONE|COPY|NOT|AND|OR|XOR|CHOICE): u32")


def skeleton(body):
    """A body with its names numbered in the order in which they come, and all types and constants alike."""
    names = {}
    words = []
    for word in WORD.findall(body):
        if word in KEPT_WORDS:
            words.append(word)
        elif word[0].isdigit() or re.fullmatch(r"u8|u16|u32|u64|usize|[A-Z][A-Z_0-9]*", word):
            words.append("#")
        elif word[0].isalpha() or word[0] == "_":
            words.append(str(names.setdefault(word, len(names))))
        else:
            words.append(word)
    return " ".join(words)


def twins():
    groups = collections.defaultdict(list)
    for path, line, name, _, body in functions():
        if path.startswith("crates/jugyvaros/") or len(WORD.findall(body)) < 20:
            continue
        groups[skeleton(body)].append(f"{path}:{line}: {name}")
    for group in groups.values():
        if len(group) > 1:
            yield from (f"{place}, like {group[0].split(': ')[1]}" for place in group[1:])


def index_loops():
    yield from lines_with(r"^\s*while ")


def by_hand():
    """Functions that do what a derive, `From` or a method of the library does, and casts to types that have a `From`.

    A cast of a list's 32-bit number to a place is none: there is no `From<u32>` for `usize`.
    """
    names = "wide|rounds|larger|stronger|weaker|copy|copy_words|copy_part|empty_words|differs|due|power|is_digit"
    yield from lines_with(rf"^\s*(pub(\([a-z]+\))? )?fn ({names})\(|fn empty\(bytes")
    yield from lines_with(r" as (u8|u16|u64)\b")


def travelling():
    """Runs of three or more parameters, by name and type, that stand in three or more functions of the core."""
    runs = collections.defaultdict(set)
    for path, line, name, clauses, _ in functions():
        if re.match(r"crates/(jugyvaros|c_)", path):
            continue
        parameters = re.sub(r"\s+", " ", clauses)
        parameters = re.match(r"(?:<[^>]*>)?\((.*?)\)(?: ->| requires| ensures|$)", parameters)
        listed = [p.strip() for p in re.split(r",(?![^<\[]*[>\]])", parameters[1])] if parameters else []
        listed = [p for p in listed if ":" in p]
        for size in range(3, len(listed) + 1):
            for start in range(len(listed) - size + 1):
                runs[tuple(listed[start : start + size])].add(f"{path}:{line}: {name}")
    often = {run: where for run, where in runs.items() if len(where) >= 3}
    for run, where in sorted(often.items()):
        wider = any(len(other) > len(run) and ", ".join(run) in ", ".join(other) and often[other] >= where for other in often)
        if not wider:
            yield f"({', '.join(run)}) in {len(where)} functions"


def buffers():
    yield from lines_with(r"^\s*let mut \w+ = \[[^\];]*; ")


def switches():
    yield from lines_with(r"\bfn\(|\bdyn\b|match (step|op|which)\b")


POINTS = {"1": own_enums, "2": twins, "3": index_loops, "4": by_hand, "5": travelling, "6": buffers, "7": switches}


def main():
    parser = argparse.ArgumentParser(description=__doc__, formatter_class=argparse.RawDescriptionHelpFormatter)
    parser.add_argument("--list", action="store_true")
    parser.add_argument("points", nargs="*", default=sorted(POINTS))
    options = parser.parse_args()
    for point in options.points:
        places = list(POINTS[point]())
        print(f"{point}: {len(places)}")
        if options.list:
            print("\n".join("    " + place for place in places))


if __name__ == "__main__":
    main()
