"""Which process has which node: parts by number, or those of a file, a line for each node with the number of its part, as METIS writes it."""

import warnings
from typing import Any, List

import numpy as np

from .faults import Refusal
from .network import Array, PackedFile


class ByNumber:
    """Part p has the nodes from bounds[p] up to, and without, bounds[p + 1]."""

    def __init__(self, bounds: List[int]) -> None:
        self.bounds = np.array(bounds, dtype=np.int64)

    def own(self, part: int) -> Array:
        """The numbers of a part's nodes, rising: uint32."""
        return np.arange(self.bounds[part], self.bounds[part + 1], dtype=np.uint32)

    def owner(self, numbers: Array) -> Array:
        """The part of each of these nodes."""
        return np.searchsorted(self.bounds, numbers, side="right") - 1

    def is_own(self, part: int, numbers: Array) -> Array:
        """Whether each of these nodes is in a part."""
        return (numbers >= self.bounds[part]) & (numbers < self.bounds[part + 1])

    def place(self, part: int, numbers: Array) -> Array:
        """The places of these nodes of a part among those that `own` lists."""
        return numbers - np.uint32(self.bounds[part])


class Listed:
    """A part for each node: (nodes,) of the smallest type of whole numbers that is enough."""

    def __init__(self, parts: Array) -> None:
        self.parts = parts

    def own(self, part: int) -> Array:
        return np.flatnonzero(self.parts == part).astype(np.uint32)

    def owner(self, numbers: Array) -> Array:
        return self.parts[numbers].astype(np.int64)

    def is_own(self, part: int, numbers: Array) -> Array:
        return self.parts[numbers] == part

    def place(self, part: int, numbers: Array) -> Array:
        return np.searchsorted(self.own(part), numbers)


def shares(file: PackedFile, count: int) -> ByNumber:
    """Parts by number with about as many nodes and neighbours together in each."""
    whole = file.nodes + file.ends
    return ByNumber([first_above(file, whole * part // count) for part in range(count)] + [file.nodes])


def first_above(file: PackedFile, load: int) -> int:
    """The first node before which stand so many nodes and neighbours, or more."""
    low, high = 0, file.nodes
    while low < high:
        middle = (low + high) // 2
        if middle + int(file.offsets[middle]) < load:
            low = middle + 1
        else:
            high = middle
    return low


def listed(path: str, nodes: int, count: int) -> Listed:
    """The parts that a file lists."""
    with open(path, "rb") as file:
        text = file.read()
    try:
        with warnings.catch_warnings():
            warnings.simplefilter("error")  # numpy warns where it meets what is no number
            found = np.fromstring(text, dtype=np.int64, sep="\n")
    except (ValueError, DeprecationWarning):
        found = np.zeros(0, dtype=np.int64)
    if found.size != nodes or text.count(b"\n") not in (nodes - 1, nodes) or np.any((found < 0) | (found >= count)):
        raise first_wrong(path, text, nodes, count)
    return Listed(found.astype(np.min_scalar_type(count)))


def first_wrong(path: str, text: bytes, nodes: int, count: int) -> Refusal:
    """What is wrong with a list of parts, by the first line at fault."""
    lines = text.splitlines()
    for place, line in enumerate(lines[:nodes], 1):
        if not line.strip().isdigit() or int(line) >= count:
            shown = line[:40].decode("utf-8", "replace")
            return Refusal(f"parts BadLine {place}", f"{path}:{place}: found `{shown}`, expected a part from 0 to {count - 1}: there are {count} processes")
    return Refusal("parts Count", f"{path}: found {len(lines)} lines, expected {nodes}, one for each node; unison.cluster parts makes such a file")


def grown(file: PackedFile, count: int) -> Array:
    """Parts that grow breadth first, one behind the other, each from where the last one ended: (nodes,) of parts' numbers."""
    parts = np.full(file.nodes, count, dtype=np.min_scalar_type(count))
    degrees = np.diff(file.offsets).astype(np.int64)
    front, seed, taken = np.zeros(0, dtype=np.int64), 0, 0
    for part in range(count):
        most = (file.nodes + file.ends) * (part + 1) // count
        while taken < most:
            front = front[parts[front] == count]
            if not front.size:
                seed = first_free(parts, seed, count)
                front = np.array([seed])
            load = taken + np.cumsum(degrees[front] + 1)
            chosen = front[: int(np.searchsorted(load, most)) + 1]
            parts[chosen] = part
            taken = int(load[chosen.size - 1])
            front = np.unique(np.concatenate((front[chosen.size :], file.rows_of(chosen.astype(np.uint32))[1])))
    return parts


def first_free(parts: Array, seed: int, free: int) -> int:
    """The first node from one on that is in no part."""
    while parts[seed] != free:
        step = parts[seed : seed + 65536] == free
        seed += int(step.argmax()) if step.any() else step.size
    return seed


def cut_ends(file: PackedFile, owner: Any) -> int:
    """How many ends lead to a node of another part; `owner` gives the parts of nodes."""
    cut, step = 0, 1 << 20
    for first in range(0, file.nodes, step):
        own = np.arange(first, min(first + step, file.nodes), dtype=np.uint32)
        offsets, neighbours, _ = file.rows_of(own)
        cut += int(np.count_nonzero(np.repeat(owner(own), np.diff(offsets)) != owner(neighbours)))
    return cut
