"""Finds the core's library, calls its exported functions, and raises refusals as exceptions.

The library is, in this order,
  1. the shared object that the environment variable JUGYVAROS_LIBRARY names,
  2. in a checkout of the repository, crates/jugyvaros/out/libjugyvaros.so, built first if a source is newer,
  3. the copy that `pip install` put beside this file.
"""

from __future__ import annotations

import array
import ctypes
import functools
import os
import pathlib
from collections.abc import Callable
from typing import Any, Union

from . import repository
from ._header import SIGNATURES
from .reasons import Refused
from .repository import NotBuilt

Buffer = Union[bytes, bytearray, "array.array[int]"]
BUNDLED = pathlib.Path(__file__).with_name("libjugyvaros.so")
SHORT_ANSWER = 255
MOST_SIZE = ctypes.c_size_t(-1).value


def path() -> pathlib.Path:
    """The shared object; in a checkout it is built first if needed."""
    given = os.environ.get("JUGYVAROS_LIBRARY")
    if given:
        if not pathlib.Path(given).is_file():
            raise NotBuilt(f"JUGYVAROS_LIBRARY names {given}, which is not a file; name the core's shared object")
        return pathlib.Path(given)
    if repository.ROOT is not None:
        return repository.shared_object()
    if BUNDLED.exists():
        return BUNDLED
    raise NotBuilt("the core's shared object is missing; set JUGYVAROS_LIBRARY to it, or install again from a checkout")


@functools.lru_cache(maxsize=None)
def _loaded() -> ctypes.CDLL:
    return ctypes.CDLL(str(path()))


@functools.lru_cache(maxsize=None)
def function(name: str) -> Callable[..., int]:
    """An exported function with its parameters declared: numbers, and a pointer and a length for each buffer."""
    found = getattr(_loaded(), name)
    found.restype = ctypes.c_size_t
    pair: list[Any] = [ctypes.c_void_p, ctypes.c_size_t]
    found.argtypes = [kind for code in SIGNATURES[name] for kind in ([ctypes.c_size_t] if code == "n" else pair)]
    return found  # type: ignore[no-any-return]


# What an empty buffer points to, because no pointer may be null.
_NOTHING = ctypes.create_string_buffer(16)


def size(number: int) -> int:
    """A number as C takes it. One that does not fit becomes the largest, which is outside every limit of the core."""
    return number if 0 <= number <= MOST_SIZE else MOST_SIZE


def _code(argument: int | Buffer) -> str:
    """The code of an argument, as in SIGNATURES."""
    if isinstance(argument, int):
        return "n"
    return argument.typecode if isinstance(argument, array.array) else "B"


def _lent(data: Buffer) -> tuple[Any, int]:
    """Pointer and length of a buffer."""
    if not len(data):
        return _NOTHING, 0
    if isinstance(data, array.array):
        return data.buffer_info()
    if isinstance(data, bytearray):
        return (ctypes.c_ubyte * len(data)).from_buffer(data), len(data)
    return data, len(data)


def wipe(*buffers: bytearray | array.array[int]) -> None:
    """Fills buffers that held ballots or tapes with zeros."""
    for data in buffers:
        pointer, length = _lent(data)
        ctypes.memset(pointer, 0, length * (data.itemsize if isinstance(data, array.array) else 1))


def call(name: str, *arguments: int | Buffer, answers: int, place_of: str | None = None) -> list[int]:
    """Calls a function with numbers and buffers, and returns its answer without reason and place. `answers` is the
    length of the whole answer.

    A refusal is raised. `place_of` says what its place counts, if that is not what the header says.
    """
    answer = array.array("L", bytes(8 * answers))
    prepared: list[Any] = []
    given = (*arguments, answer)
    codes = "".join(map(_code, given))
    if codes != SIGNATURES[name]:
        raise TypeError(f"{name} takes {SIGNATURES[name]}, not {codes}")
    for argument in given:
        prepared.extend([size(argument)] if isinstance(argument, int) else _lent(argument))
    reason = function(name)(*prepared)
    if reason:
        raise Refused(reason, answer[1], place_of)
    return answer[2:].tolist()
