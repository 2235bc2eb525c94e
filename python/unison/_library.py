"""The shared object `libunison.so`: where it is found, and its calls (library/unison.h)."""

from __future__ import annotations

import ctypes
import os
from functools import lru_cache
from pathlib import Path
from typing import List

NAME = "libunison.so"
VARIABLE = "UNISON_LIBRARY"

U32 = ctypes.c_uint32
SIZE = ctypes.c_size_t
POINTER = ctypes.c_void_p
TEXT = [ctypes.c_char_p, SIZE]
PLAN = TEXT * 3
WORDS = [POINTER, SIZE, POINTER, POINTER]
LISTS = [POINTER, SIZE] * 3

CALLS = {
    "unison_check": TEXT + [POINTER, SIZE, POINTER],
    "unison_expand": TEXT * 2 + [POINTER, SIZE] * 2 + [POINTER],
    "unison_lockstep": PLAN + [U32] + WORDS,
    "unison_watch": PLAN + [POINTER, SIZE] + WORDS,
    "unison_settle": PLAN + [U32, POINTER, POINTER, POINTER],
    "unison_replay": PLAN + TEXT + [U32, POINTER, SIZE, POINTER, POINTER, SIZE] + WORDS,
    "unison_why": [U32] + PLAN + TEXT + [U32, POINTER, POINTER, SIZE, POINTER],
    "unison_large_check": LISTS + [POINTER],
    "unison_large_rounds": TEXT + LISTS + [U32, U32, POINTER, SIZE, POINTER],
    "unison_large_watch": TEXT + LISTS + [U32] + [POINTER, SIZE] * 3 + [POINTER],
    "unison_large_counts": TEXT + LISTS + [U32] + [POINTER, SIZE] * 2 + [U32] + [POINTER, SIZE] * 2 + [POINTER],
    "unison_part_round": TEXT + [POINTER, SIZE] + LISTS + [U32] + [POINTER, SIZE] * 2 + [POINTER],
}
EXPAND = "unison_expand"
#: Calls that an older library does not have.
LATER = (EXPAND,)


#: What is told where there is no library: how it comes here.
WAYS = (
    "In a checkout of unison library/build proves it and makes it, in half an hour or more; the wheel that ./release makes brings it along "
    "(pip install unison-VERSION-*.whl)"
)


class LibraryMissing(FileNotFoundError):
    """There is no `libunison.so` at any of the places where it is looked for, and no program that answers in its place."""


def places() -> List[Path]:
    """Where the library is looked for, in this order; the environment variable UNISON_LIBRARY alone where it is set."""
    named = os.environ.get(VARIABLE)
    if named:
        return [Path(named)]
    here = Path(__file__).resolve().parent
    return [here / NAME, here.parent.parent / "library" / "out" / NAME]


def find() -> Path:
    """The library's file."""
    looked = places()
    for place in looked:
        if place.is_file():
            return place
    raise LibraryMissing(
        f"{NAME}, the library of the package unison, is not there: looked for {' and '.join(map(str, looked))}. {WAYS}; "
        f"{VARIABLE} names one that stands elsewhere"
    )


def is_there() -> bool:
    return any(place.is_file() for place in places())


@lru_cache(maxsize=None)
def load() -> ctypes.CDLL:
    """The library, with the types of its calls. Each call gives the interpreter's lock back while it runs."""
    library = ctypes.CDLL(str(find()))
    for name, types in CALLS.items():
        if name in LATER and not hasattr(library, name):
            continue
        call = getattr(library, name)
        call.argtypes = types
        call.restype = U32
    return library


def has(name: str) -> bool:
    """Whether the library has a call that an older one does not have."""
    return hasattr(load(), name)
