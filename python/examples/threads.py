#!/usr/bin/env python3
"""How much more four threads do than one: each computes the same rounds again and again, until the time is over.

    python3 python/examples/threads.py [--seconds S] [--threads N]

While a call runs, Python's lock is free, so that threads use as many processors as there are.
"""

from __future__ import annotations

import argparse
import sys
import threading
import time
from pathlib import Path

try:
    import unison
except ImportError:  # from a checkout, without an install
    sys.path.insert(0, str(Path(__file__).resolve().parent.parent))
    import unison

SIDE = 64
PROGRAM = unison.Program("field s = 0; next s = ((total n.s + id) % 1009);")


def torus() -> unison.Network:
    """A torus of SIDE rows and columns."""
    nodes = [(row, column) for row in range(SIDE) for column in range(SIDE)]
    right = [((row, column), (row, (column + 1) % SIDE)) for row, column in nodes]
    below = [((row, column), ((row + 1) % SIDE, column)) for row, column in nodes]
    return unison.Network(nodes, right + below)


def calls_in(seconds: float, threads: int, network: unison.Network) -> int:
    """How many calls so many threads make in this time."""
    counts = [0] * threads
    end = time.perf_counter() + seconds

    def work(place: int) -> None:
        while time.perf_counter() < end:
            unison.lockstep(PROGRAM, network, 300)
            counts[place] += 1

    running = [threading.Thread(target=work, args=(place,)) for place in range(threads)]
    for thread in running:
        thread.start()
    for thread in running:
        thread.join()
    return sum(counts)


def main() -> None:
    parser = argparse.ArgumentParser(description=__doc__, formatter_class=argparse.RawDescriptionHelpFormatter)
    parser.add_argument("--seconds", type=float, default=3)
    parser.add_argument("--threads", type=int, default=4)
    asked = parser.parse_args()
    network = torus()
    alone = calls_in(asked.seconds, 1, network)
    together = calls_in(asked.seconds, asked.threads, network)
    print(f"1 thread: {alone} calls in {asked.seconds} s")
    print(f"{asked.threads} threads: {together} calls, {together / max(alone, 1):.1f} times as much")


if __name__ == "__main__":
    main()
