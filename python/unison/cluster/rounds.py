"""The rounds of a process: it goes on as soon as the borders of its neighbouring processes have come, and waits for no other."""

from typing import Any, Dict, List, NamedTuple, Optional, Tuple

import numpy as np

from . import kernel
from .checkpoints import Checkpoints
from .exchange import Exchange
from .network import Array
from .part import Part
from .totals import Totals, wait_until

AHEAD = 256  # how many rounds a process goes beyond the last one whose totals are known
KEPT = 8  # the same where the states of these rounds are kept, since one of them may be the last


class Asked(NamedTuple):
    """What is asked of the rounds: the last one, the column and the value that end them, and the columns whose sums are wanted."""

    last: int
    until: Optional[Tuple[int, int]]
    sums: Tuple[int, ...]


class Rounds:
    """The rounds of a part.

    `words`: (own, fields) uint32, the states of the part's nodes after `round`. `waited` is how many seconds were spent waiting for others.
    """

    def __init__(self, comm: Any, program: bytes, part: Part, start: int, words: Array, asked: Asked) -> None:
        self._comm, self._program, self._part, self._asked = comm, program, part, asked
        self.round, self.words = start, np.ascontiguousarray(words)
        self._next = np.empty_like(self.words)
        self._inner = part.inner.own  # how many nodes stand before the rim
        width = words.shape[1]
        self._outer = np.empty((part.rim.ids.size, width), dtype=np.uint32)  # the rim, the near nodes and the border
        self._copy_outer()
        self.exchange = Exchange(comm, part.borders, self._outer[part.rim.own + part.near.size :])
        self._kept: Dict[int, Array] = {}
        self.changed, self.waited = 0, 0.0

    def _copy_outer(self) -> None:
        """Takes over the states of the rim and the near nodes for the round of the rim."""
        rim, near = self._part.rim.own, self._part.near
        self._outer[:rim] = self.words[self._inner :]
        self._outer[rim : rim + near.size] = self.words[near]

    def run(self, totals: Totals, checkpoints: Checkpoints) -> None:
        """Makes the rounds up to the last one, or the one that ends them."""
        self._totals, self._checkpoints = totals, checkpoints
        self._begin()
        while self.round < self._asked.last and self._step():
            pass
        self._end()

    def _begin(self) -> None:
        """Tells the neighbouring processes the first states, and all of them whether these are as `--until` asks."""
        if self.round < self._asked.last:
            self.exchange.send(self.round, self.words[self._inner :], None)
        if self._asked.until is not None:
            self._totals.begin(self.round, [1, *self._sums()])
            self._keep()

    def _step(self) -> bool:
        """Makes a round; False where the rounds ended before it."""
        exchange, ahead = self.exchange, AHEAD if self._asked.until is None else KEPT
        changed = None if exchange.has_come() else self._make_inner()
        self.waited += wait_until(lambda: self._totals.look() or (self.round - self._totals.known < ahead and exchange.has_come()))
        if self._totals.has_ended():
            return False
        exchange.take(self.round)
        self.changed = self._make_rim()
        self.changed += self._make_inner() if changed is None else changed
        self._go_on()
        return True

    def _make_inner(self) -> int:
        return kernel.part_round(self._program, self._part.inner, self.round, self.words, self._next[: self._inner])

    def _make_rim(self) -> int:
        """Makes the rim's round and sends its border."""
        after = self._next[self._inner :]
        changed = kernel.part_round(self._program, self._part.rim, self.round, self._outer, after)
        if self.round + 1 < self._asked.last:
            self.exchange.send(self.round + 1, after, np.any(after != self._outer[: len(after)], axis=1))
        return changed

    def _go_on(self) -> None:
        """Takes the new states for the present ones, and tells all processes what is asked of them."""
        self.words, self._next = self._next, self.words
        self.round += 1
        self._copy_outer()
        self._totals.begin(self.round, [self.changed, *self._sums()])
        if self._asked.until is not None:
            self._keep()
        self._checkpoints.reach(self.round, self.words)

    def _sums(self) -> List[int]:
        """How many nodes are not as `--until` asks, and the sums of columns."""
        until = self._asked.until
        unlike = 0 if until is None else int(np.count_nonzero(self.words[:, until[0]] != until[1]))
        return [unlike, *(int(self.words[:, column].sum(dtype=np.uint64)) for column in self._asked.sums)]

    def _keep(self) -> None:
        """Keeps the states of this round, and forgets those of rounds that were not the last."""
        kept = {round: words for round, words in self._kept.items() if round >= self._totals.known}
        self._kept = {**kept, self.round: self.words.copy()}

    def _end(self) -> None:
        """Ends the rounds with all other processes: each goes as far as the farthest one, without computing, so that no message is left."""
        farthest, last = max(self._comm.allgather(self.round)), self._asked.last
        for round in range(self.round, farthest):
            self.waited += wait_until(self.exchange.has_come)
            if round + 1 < last:
                self.exchange.send(round + 1, self.words, np.zeros(1, dtype=bool))
            self._totals.begin(round + 1, [0] * (2 + len(self._asked.sums)))
            self._checkpoints.reach(round + 1, None)
        if farthest < last:
            self.waited += wait_until(self.exchange.has_come)
        self.exchange.finish()
        self._totals.finish()
        self._checkpoints.finish()
        if self._totals.reached is not None:
            self.round = self._totals.reached
            self.words = self._kept[self.round]
