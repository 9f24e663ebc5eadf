"""What is built from the sources if the package is used from a checkout of the repository.

An installed package has no sources: there `ROOT` is None and nothing can be built.
"""

from __future__ import annotations

import os
import pathlib
import re
import shutil
import subprocess
import sys
from typing import Union

_PARENT = pathlib.Path(__file__).resolve().parents[2]
_IS_CHECKOUT = (_PARENT / "tools/library").exists() and (_PARENT / "crates.txt").exists()
ROOT: pathlib.Path | None = _PARENT if _IS_CHECKOUT else None
Word = Union[str, pathlib.Path]
LAST_LINES = 20
# what a check says of a crate before its verdict, and what tools/library says of one that is proved
_CRATE = re.compile(r"crate (\w+): ")
_PROGRESS = re.compile(r"tools/library: \w+ is proved")


class NotBuilt(Exception):
    """The core is missing and cannot be built here; the message says what to do, in one line."""


def root() -> pathlib.Path:
    """The repository that the package is in."""
    if ROOT is None:
        raise NotBuilt("this package is not in a checkout, so it cannot build the core; run it from one")
    return ROOT


def _is_older(made: pathlib.Path) -> bool:
    """Whether a file is missing or older than a source of the core."""
    if not made.exists():
        return True
    when = made.stat().st_mtime
    if (root() / "crates.txt").stat().st_mtime > when:
        return True
    for folder, folders, names in os.walk(root() / "crates"):
        if "out" in folders:                                 # what rt made of a crate
            folders.remove("out")
        if any(os.stat(os.path.join(folder, name)).st_mtime > when for name in names):
            return True
    return False


def _build(*command: Word, below: str = ".", needs: str | None = None) -> None:
    """Runs a build command in a folder of the repository. Standard error gets a line for each crate that is proved, and
    the last lines of a failure. `needs` is the command of others that it calls."""
    seen, crate = [], ""
    try:
        if needs and shutil.which(needs) is None:
            raise FileNotFoundError
        process = subprocess.Popen(command, cwd=root() / below, stdin=subprocess.DEVNULL, stdout=subprocess.PIPE,
                                   stderr=subprocess.STDOUT, text=True)
    except FileNotFoundError:
        missing = f"{needs or command[0]} is not installed, and the core has to be built"
        raise NotBuilt(f"{missing}; put it on PATH, or set JUGYVAROS_LIBRARY") from None
    assert process.stdout is not None
    for line in process.stdout:
        seen.append(line)
        named = _CRATE.match(line)
        crate = named[1] if named else crate
        if line.startswith("logic=proved"):
            print(f"rt: {crate} is proved", file=sys.stderr, flush=True)
        elif _PROGRESS.match(line):
            print(line, end="", file=sys.stderr, flush=True)
    if process.wait():
        sys.stderr.write("".join(seen[-LAST_LINES:]))
        raise NotBuilt(f"{' '.join(map(str, command))} failed; its last lines are above")


def archive() -> pathlib.Path:
    """crates/jugyvaros/out/libjugyvaros.a, proved and built first if a source is newer."""
    made = root() / "crates/jugyvaros/out/libjugyvaros.a"
    if _is_older(made):
        _build(root() / "tools/library", needs="rt")
    return made


def shared_object() -> pathlib.Path:
    """The archive linked into a shared object, which ctypes can load."""
    source = archive()
    made = source.with_suffix(".so")
    if not made.exists() or made.stat().st_mtime <= source.stat().st_mtime:
        link(source, made)
    return made


def link(source: pathlib.Path, made: pathlib.Path) -> None:
    """Makes a shared object from an archive. A program that loads it meanwhile never finds a half-written one."""
    half = made.with_name(f".{made.name}.{os.getpid()}")
    _build("cc", "-shared", "-o", half, "-Wl,--whole-archive", source, "-Wl,--no-whole-archive")
    os.replace(half, made)


def program(name: str) -> pathlib.Path:
    """A program of the repository in its crate's out/, proved and built first if a source is newer."""
    made = root() / "crates" / name / "out" / name
    if _is_older(made):
        # this also runs it, on no input
        _build("rt", "run", below=f"crates/{name}")
        # the build does not rewrite a program whose sources were only touched; touch it, so that it is not built again
        made.touch()
    return made


def native(name: str) -> pathlib.Path:
    """A program of the Rust wrapper, linked with the archive; both are built first if a source is newer."""
    archive()
    folder = root() / "target/rust"
    _build("cargo", "build", "--quiet", "--release", "--offline", "--manifest-path", root() / "rust/Cargo.toml",
           "--target-dir", folder, "--bin", name)
    return folder / "release" / name
