"""The proved call that makes a part's round (library/unison.h, unison_part_round), on arrays of numpy."""

import ctypes
from typing import Any, Optional, Tuple

from .. import _arrays, _library, faults
from .network import Array
from .part import Rows


def pointer(values: Optional[Array]) -> Tuple[int, int]:
    """Where numbers stand in memory, one behind the other, and how many."""
    if values is None or not values.size:
        return _arrays.SOMEWHERE, 0
    assert values.flags.c_contiguous
    return values.ctypes.data, values.size


def part_round(program: bytes, rows: Rows, round: int, before: Array, after: Array) -> int:
    """Puts the states of a part's own nodes after the step from a round into `after`, and tells how many of them changed.

    `before`: (nodes, fields) uint32, the states of all nodes of the part; `after`: (own, fields) uint32.
    """
    changed = ctypes.c_size_t(0)
    if rows.own and after.size:
        lists = pointer(rows.offsets) + pointer(rows.neighbours) + pointer(rows.weights)
        ends = (*pointer(before), *pointer(after), ctypes.byref(changed))
        call = _library.load().unison_part_round
        answer = call(program, len(program), *pointer(rows.ids), *lists, round, *ends)
        if answer != 0:
            raise faults.fault_of(answer)
    return changed.value
