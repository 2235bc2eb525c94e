"""What all processes know of a round together, added up while the rounds go on: no process waits for it."""

import time
from collections import deque
from typing import Any, Callable, Deque, Dict, List, Optional, Tuple

import numpy as np

from .network import Array


class Totals:
    """Sums over all processes, a few for each round.

    The first is how many nodes the round changed, the second how many are not yet as `--until` asks; behind them those that are asked for.
    `settled` and `reached` are the first round from which on nothing changes, and the first one which is as `--until` asks.
    """

    def __init__(self, comm: Any, start: int, settles: bool, until: bool) -> None:
        self._comm, self._settles, self._until = comm, settles, until
        self._pending: Deque[Tuple[int, Any, Array, Array]] = deque()
        self.known = start  # the last round of which the sums are known
        self.settled: Optional[int] = None
        self.reached: Optional[int] = None
        self.sums: Dict[int, List[int]] = {}  # those that are asked for, of each round up to the end

    def begin(self, round: int, own: List[int]) -> None:
        """Begins to add up what each process has of a round."""
        mine, whole = np.array(own, dtype=np.uint64), np.empty(len(own), dtype=np.uint64)
        self._pending.append((round, self._comm.Iallreduce(mine, whole), mine, whole))

    def look(self) -> bool:
        """Looks at what is known by now; whether it ends the rounds."""
        while self._pending and self._pending[0][1].Test():
            round, _, _, whole = self._pending.popleft()
            self._learn(round, whole)
        return self.has_ended()

    def has_ended(self) -> bool:
        return self.settled is not None or self.reached is not None

    def _learn(self, round: int, whole: Array) -> None:
        """Takes the sums of a round; those behind the end are of no round."""
        self.known = round
        if self.has_ended():
            return
        self.sums[round] = whole[2:].tolist()
        if self._until and whole[1] == 0:
            self.reached = round
        elif self._settles and whole[0] == 0:
            self.settled = round - 1

    def finish(self) -> None:
        """Waits for all that is pending."""
        while self._pending:
            wait_until(self._pending[0][1].Test)
            self.look()


def wait_until(has_come: Callable[[], bool]) -> float:
    """Asks again and again, and rests in between, since there may be more processes than processors; how many seconds it took."""
    begun = time.perf_counter()
    asked = 0
    while not has_come():
        asked += 1
        time.sleep(0.00002 if asked > 100 else 0)
    return time.perf_counter() - begun
