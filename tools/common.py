"""What the tools share: the package on the path, one parser, and one way to end.

A tool ends with status 0 if it did what was asked, 1 if the core refused or a file was bad, and 2 if its arguments were
wrong. An error is one line on standard error that begins with the tool's name and says what to do.
"""

import argparse
import os
import pathlib
import sys

ROOT = pathlib.Path(__file__).resolve().parent.parent
sys.path.insert(0, str(ROOT / "python"))

from jugyvaros import NotBuilt, Refused  # noqa: E402  (the line above is what finds it)
from jugyvaros import jury_file  # noqa: E402


class Failure(Exception):
    """Ends the tool with status 1, and its message as the printed line."""


class Parser(argparse.ArgumentParser):
    """The standard parser, with errors in one line."""

    def __init__(self, **options):
        super().__init__(formatter_class=argparse.RawDescriptionHelpFormatter, **options)

    def error(self, message):
        self.exit(2, f"{self.prog}: {message}; {self.prog} --help says how\n")


def parser(name, description):
    """The parser of a tool, whose description is its docstring."""
    return Parser(prog=f"tools/{name}", description=description.strip())


def number(word):
    """A number in an argument: decimal digits and nothing else."""
    if not (word.isascii() and word.isdigit()):
        raise argparse.ArgumentTypeError(f"{word!r} is not a number")
    return int(word)


def between(low, high):
    """A reader for arguments that are a number from low to high."""
    def read(word):
        if not low <= number(word) <= high:
            raise argparse.ArgumentTypeError(f"{word} is not a number from {low} to {high}")
        return number(word)
    return read


def add_shape(of):
    """The three numbers of a shape, as arguments."""
    of.add_argument("candidates", metavar="K", type=number, help="candidates, 1 to 8")
    of.add_argument("grades", metavar="D", type=number, help="grades, 2 to 7, or 0 for a ranking")
    of.add_argument("ballots", metavar="N", type=number, help="ballots, 1 to 255")


def explain(refused, advice=None):
    """A refusal in one line: the reason's words, and what to do."""
    return f"{refused}; {advice or refused.advice}"


def read_bytes(name):
    """A file's bytes, or those of standard input if the name is `-`."""
    return sys.stdin.buffer.read() if name == "-" else pathlib.Path(name).read_bytes()


def read_jury(name):
    """The jury in a text file; a bad line ends the tool with the file's name and the line's number."""
    try:
        return jury_file.parse(read_bytes(name))
    except jury_file.BadJury as error:
        raise Failure(f"{name}: {error}") from None


def write_output(name, data):
    """Writes bytes to a file, or to standard output if there is no name or it is `-`."""
    if name in (None, "-"):
        sys.stdout.buffer.write(data)
    else:
        pathlib.Path(name).write_bytes(data)


def run(name, main):
    """Runs a tool's main function and ends the program with its status."""
    try:
        status = main()
        sys.stdout.flush()
    except Refused as refused:
        status = complain(name, explain(refused))
    except (Failure, NotBuilt) as error:
        status = complain(name, error)
    except BrokenPipeError:
        os.dup2(os.open(os.devnull, os.O_WRONLY), sys.stdout.fileno())
        status = 1
    except OSError as error:
        status = complain(name, f"{error.filename}: {error.strerror}" if error.filename else error.strerror)
    except KeyboardInterrupt:
        status = complain(name, "interrupted")
    sys.exit(status)


def complain(name, message):
    print(f"tools/{name}: {' '.join(str(message).split())}", file=sys.stderr)
    return 1
