"""A process's part of a network: the rows of its nodes, and what it reads of others and they of it.

The *rim* are the nodes of the part that read a node of another part or are read by one; its other nodes are *inner* ones. The *border* are the
nodes of other parts that the rim reads, the *near* nodes those inner ones that it reads. So a round takes two calls of the kernel: one makes
the inner nodes and reads [inner, rim], one makes the rim and reads [rim, near, border]. Each group stands by rising number, the border part
by part.
"""

from typing import Any, List, NamedTuple, Optional, Tuple

import numpy as np

from .faults import agreed
from .network import Array, PackedFile


class Rows(NamedTuple):
    """What one call of the kernel reads of the network: nodes of its own first, and behind them those that they read, with empty rows.

    - `own`: how many nodes it makes
    - `ids`: (nodes,) uint32: their numbers in the whole network
    - `offsets`: (nodes + 1,) uint64; `neighbours`: (ends,) uint32, as places in `ids`; `weights`: (ends,) uint32, or None for 1 each
    """

    own: int
    ids: Array
    offsets: Array
    neighbours: Array
    weights: Optional[Array]


class Border(NamedTuple):
    """What is exchanged with one process: the places in the rim of the nodes that it reads, and where those read of it stand in the border."""

    rank: int
    sent: Array
    first: int
    last: int


class Part(NamedTuple):
    """The nodes of a process.

    - `numbers`: (own,) uint32: their numbers in the whole network, inner ones first, then the rim
    - `near`: (near,) int64: the places of the near nodes among the inner ones
    - `inner`, `rim`: the rows for the two calls of a round
    - `borders`: one for each process that reads a node of this part, or that has one that this part reads
    """

    numbers: Array
    near: Array
    inner: Rows
    rim: Rows
    borders: List[Border]


def build(comm: Any, file: PackedFile, parts: Any) -> Part:
    """The part of this process. The offsets of the file have been looked at."""
    rank, own = comm.Get_rank(), parts.own(comm.Get_rank())
    offsets, neighbours, weights = agreed(comm, lambda: file.rows_of(own))
    lengths, foreign = np.diff(offsets), ~parts.is_own(rank, neighbours)
    border, counts = border_of(neighbours[foreign], parts, comm.Get_size())
    asked, wanted = exchange_wishes(comm, border, counts)
    sent = parts.place(rank, wanted)
    is_rim = rim_of(own.size, offsets, foreign, sent)
    order = np.concatenate((np.flatnonzero(~is_rim), np.flatnonzero(is_rim)))
    place = np.empty(own.size, dtype=np.uint32)
    place[order] = np.arange(own.size, dtype=np.uint32)
    by_number = np.argsort(border)
    neighbours[foreign] = by_number[np.searchsorted(border[by_number], neighbours[foreign])] + own.size
    neighbours[~foreign] = place[parts.place(rank, neighbours[~foreign])]  # all are places in [inner, rim, border] now
    of_rim = np.repeat(is_rim, lengths)
    inner = rows_for(own[order], lengths[~is_rim], neighbours[~of_rim], weights, ~of_rim)
    near, rim_ends = near_of(neighbours[of_rim], inner.own, own.size)
    rim = rows_for(np.concatenate((own[is_rim], inner.ids[near], border)), lengths[is_rim], rim_ends, weights, of_rim)
    return Part(inner.ids, near, inner, rim, borders_of(asked, counts, place[sent].astype(np.int64) - inner.own))


def rim_of(own: int, offsets: Array, foreign: Array, sent: Array) -> Array:
    """Whether each of so many nodes is one of the rim: (own,) bool. `foreign`: (ends,) bool; `sent`: the places of nodes that others read."""
    is_rim = np.zeros(own, dtype=bool)
    is_rim[np.searchsorted(offsets, np.flatnonzero(foreign), side="right") - 1] = True
    is_rim[sent] = True
    return is_rim


def border_of(numbers: Array, parts: Any, size: int) -> Tuple[Array, Array]:
    """The nodes of other parts that are read, by rising part and number: uint32; and how many of them each part has: (size,)."""
    border = np.unique(numbers)
    owners = parts.owner(border)
    return border[np.argsort(owners, kind="stable")], np.bincount(owners, minlength=size).astype(np.int64)


def exchange_wishes(comm: Any, border: Array, counts: Array) -> Tuple[Array, Array]:
    """How many nodes of this part each process reads: (size,); and which ones, process by process: uint32."""
    asked = np.empty_like(counts)
    comm.Alltoall(counts, asked)
    wanted = np.empty(int(asked.sum()), dtype=np.uint32)
    comm.Alltoallv([border, counts], [wanted, asked])
    return asked, wanted


def rows_for(ids: Array, lengths: Array, neighbours: Array, weights: Optional[Array], chosen: Array) -> Rows:
    """Rows of so many neighbours, and behind them empty ones. `chosen` are those of all weights that are theirs."""
    offsets = np.full(ids.size + 1, neighbours.size, dtype=np.uint64)
    offsets[0] = 0
    np.cumsum(lengths, out=offsets[1 : lengths.size + 1])
    return Rows(lengths.size, ids, offsets, neighbours, None if weights is None else weights[chosen])


def near_of(ends: Array, inner: int, own: int) -> Tuple[Array, Array]:
    """The near nodes; and the neighbours of the rim, given as places in [inner, rim, border], as places in [rim, near, border]."""
    near = np.unique(ends[ends < inner])
    shifted = np.where(ends < own, ends - np.uint32(inner), ends - np.uint32(inner) + np.uint32(near.size))
    places = np.where(ends < inner, own - inner + np.searchsorted(near, ends), shifted)
    return near.astype(np.int64), places.astype(np.uint32)


def borders_of(asked: Array, counts: Array, sent: Array) -> List[Border]:
    """The borders with the processes that read a node, or that have one that is read."""
    to = [0, *np.cumsum(asked).tolist()]
    fro = [0, *np.cumsum(counts).tolist()]
    return [Border(rank, sent[to[rank] : to[rank + 1]], fro[rank], fro[rank + 1]) for rank in np.flatnonzero(asked + counts).tolist()]
