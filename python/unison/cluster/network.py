"""Packed network files (docs/formats.md, Binary network file), mapped: what is not asked for is not read."""

import os
import struct
from typing import Any, Optional, Tuple

import numpy as np

from .faults import Refusal

Array = Any  # an array of numpy
MAGIC, HEADER = b"UNISONW1", 32


class PackedFile:
    """A packed network in a file.

    - `offsets`: (nodes + 1,) uint64: where each node's neighbours begin
    - `neighbours`: (ends,) uint32
    - `weights`: (ends,) uint32, or None where each weight is 1
    - `settings`: the text with the initial values, or None where the network has none

    Its header and length are looked at here; its lists by `check_offsets`, and by who reads rows.
    """

    def __init__(self, path: str) -> None:
        self.path, size = path, os.path.getsize(path)
        with open(path, "rb") as file:
            head = file.read(HEADER)
        if head[:8] != MAGIC:
            raise self._refusal("Magic", f"it begins with {head[:8]!r}, expected {MAGIC!r}; unison pack makes such a file")
        if len(head) < HEADER or struct.unpack_from("<Q", head, 24)[0] > 3:
            raise self._refusal("Header", "expected 32 bytes, the last eight of them a number from 0 to 3; unison pack makes such a file")
        self.nodes, self.ends, flags = struct.unpack_from("<3Q", head, 8)
        if not 1 <= self.nodes <= 4294967295:
            raise self._refusal("NodeCount", f"found {self.nodes} nodes, expected 1 to 4294967295")
        asked = (first := HEADER + 8 * (self.nodes + 1)) + 4 * self.ends * (1 + flags % 2)
        if size < asked or size > asked and flags < 2:
            raise self._refusal("Length", f"the file has {size} bytes, and its header asks for {asked}; unison pack makes such a file")
        raw = np.memmap(path, dtype=np.uint8, mode="r").view(np.ndarray)
        self.offsets: Array = raw[HEADER:first].view("<u8")
        self.neighbours: Array = raw[first : first + 4 * self.ends].view("<u4")
        self.weights, self.settings = raw[first + 4 * self.ends : asked].view("<u4") if flags % 2 else None, raw[asked:].tobytes() if flags > 1 else None

    def _refusal(self, name: str, told: str) -> Refusal:
        return Refusal(f"network {name}", f"{self.path}: {told}")

    def check_offsets(self, share: int, shares: int) -> None:
        """Raises the first fault of the offsets in one of so many shares of them, which together are all."""
        first, last = self.nodes * share // shares, self.nodes * (share + 1) // shares
        offsets = self.offsets[first : last + 1]
        if share == 0 and offsets[0] != 0:
            raise self._refusal("Offsets", f"the neighbours of node 0 begin at {offsets[0]}, expected 0")
        falls = np.flatnonzero(offsets[1:] < offsets[:-1])
        if falls.size:
            node = first + int(falls[0])
            raise self._refusal("Offsets", f"node {node}: its neighbours begin at {offsets[falls[0]]} and end at {offsets[falls[0] + 1]}")
        if last == self.nodes and offsets[-1] != self.ends:
            raise self._refusal("Offsets", f"the last offset is {offsets[-1]}, expected {self.ends}, the number of neighbours")
        crowded = np.flatnonzero(offsets[1:] - offsets[:-1] > 4294967295)
        if crowded.size:
            raise self._refusal("TooManyNeighbours", f"node {first + int(crowded[0])} has more than 4294967295 neighbours")

    def rows_of(self, own: Array) -> Tuple[Array, Array, Optional[Array]]:
        """The rows of these nodes, by rising number: offsets (nodes + 1,) int64 from 0, neighbours and weights (ends,) uint32, copied.

        Raises where a neighbour is no node.
        """
        begins, ends = self.offsets[own].astype(np.int64), self.offsets[own + 1].astype(np.int64)
        offsets = np.concatenate(([0], np.cumsum(ends - begins)))
        if own.size and int(own[-1]) - int(own[0]) + 1 == own.size:
            chosen: Any = slice(begins[0], ends[-1])
        else:
            chosen = np.arange(offsets[-1]) + np.repeat(begins - offsets[:-1], ends - begins)
        neighbours = np.array(self.neighbours[chosen], dtype=np.uint32)
        if neighbours.size and neighbours.max() >= self.nodes:
            place = int(np.argmax(neighbours >= self.nodes))
            node = own[np.searchsorted(offsets, place, side="right") - 1]
            raise self._refusal("Neighbour", f"node {node}: found the neighbour {neighbours[place]}, expected one below {self.nodes}")
        return offsets, neighbours, None if self.weights is None else np.array(self.weights[chosen], dtype=np.uint32)
