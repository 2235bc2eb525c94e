"""Borders between processes: each round a message to each neighbouring process, and one from it.

A message is an array of uint32: the round, how many nodes it tells, and of these the words, node by node; before the words stand the
nodes' places in the border where not all are told, which is done where it is shorter.
"""

from typing import Any, Dict, List, Optional, Tuple

import numpy as np

from .network import Array
from .part import Border


class Exchange:
    """The messages of a process.

    `nodes`: (border, fields) uint32: the states of the border's nodes, which `take` keeps up to date.
    """

    def __init__(self, comm: Any, borders: List[Border], nodes: Array) -> None:
        self._comm, self._borders, self._nodes = comm, borders, nodes
        self._room = [np.empty(2 + nodes[border.first : border.last].size, dtype=np.uint32) for border in borders]
        self._awaited: List[Any] = []
        self._sent: Dict[Tuple[int, int], Tuple[Any, Array]] = {}
        self.bytes = 0  # sent up to now

    def send(self, round: int, rim: Array, changed: Optional[Array]) -> None:
        """Sends the states of the rim, (rim, fields), after a round, those of which `changed` holds, or all; and awaits the others' ones."""
        for border in self._borders:
            self._post(border.rank, round, message_of(round, rim, changed, border.sent))
        self._awaited = [self._comm.Irecv(room, source=border.rank) for border, room in zip(self._borders, self._room)]

    def _post(self, rank: int, round: int, message: Array) -> None:
        """Sends a message; the one before the last to this process has come by now, as it went on since."""
        key = (rank, round % 2)
        if key in self._sent:
            self._sent[key][0].Wait()
        self._sent[key] = (self._comm.Isend(message, dest=rank), message)
        self.bytes += message.nbytes

    def has_come(self) -> bool:
        """Whether the messages of this round are there from all neighbouring processes."""
        self._awaited = [request for request in self._awaited if not request.Test()]
        return not self._awaited

    def take(self, round: int) -> None:
        """Puts what came with the messages of a round in its place."""
        for border, room in zip(self._borders, self._room):
            if room[0] != round:
                raise RuntimeError(f"the process {border.rank} sent its border of round {room[0]}, expected {round}")
            put_message(room, self._nodes[border.first : border.last])

    def finish(self) -> None:
        """Waits until all that was sent has come."""
        for request, _ in self._sent.values():
            request.Wait()


def message_of(round: int, rim: Array, changed: Optional[Array], sent: Array) -> Array:
    """The message that tells the states of the nodes at these places of the rim."""
    width = rim.shape[1]
    if changed is None:
        told = None
    elif not changed.any():
        told = np.zeros(0, dtype=np.int64)
    else:
        told = np.flatnonzero(changed[sent])
    if told is None or told.size * (1 + width) >= sent.size * width > 0:
        return np.concatenate((np.array([round, sent.size], dtype=np.uint32), rim[sent].ravel()))
    return np.concatenate((np.array([round, told.size], dtype=np.uint32), told.astype(np.uint32), rim[sent[told]].ravel()))


def put_message(room: Array, nodes: Array) -> None:
    """Puts the states that a message tells in their places, (nodes, fields)."""
    count, width = int(room[1]), nodes.shape[1]
    if count == len(nodes):
        nodes[:] = room[2 : 2 + count * width].reshape(count, width)
    else:
        nodes[room[2 : 2 + count]] = room[2 + count : 2 + count * (1 + width)].reshape(count, width)
