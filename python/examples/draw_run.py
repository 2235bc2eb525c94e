#!/usr/bin/env python3
"""Draws two runs: distances in Zachary's karate club, round by round, and the cells of rule 110, row by row.

    python3 python/examples/draw_run.py [FOLDER]

It writes karate.png and rule_110.png into the folder, the one that it is called in where none is named. It needs NetworkX; without
matplotlib it prints the same in letters.
"""

from __future__ import annotations

import sys
from pathlib import Path
from typing import Any, Tuple

try:
    import unison
except ImportError:  # from a checkout, without an install
    sys.path.insert(0, str(Path(__file__).resolve().parent.parent))
    import unison

import networkx

try:
    import matplotlib

    matplotlib.use("Agg")
    from matplotlib import pyplot
except ImportError:
    pyplot = None

DISTANCES = """
field dist = 4294967295;
next dist = (dist min least (n.dist + 1));
"""

# The program of the cookbook: on a ring the right neighbour of a cell has the next number, and that of the last cell is 0.
RULE_110 = """
field s = 0;
next s = ((s max any (n.s min ((n.id == (id + 1)) max ((n.id == 0) min (id > 1))))) min not (s min all n.s));
"""
CELLS, ROWS = 80, 60


def club() -> Tuple[Any, unison.Rounds]:
    """The club, and the distances from its member 0 after each round up to the one in which nothing changes any more."""
    graph = networkx.karate_club_graph()
    program = unison.Program(DISTANCES)
    network = unison.Network.from_networkx(graph, weight=None, set={"dist": {0: 0}})
    last = unison.settle(program, network).round
    return graph, unison.watch(program, network, range(last + 1))


def cells() -> Any:
    """The cells of rule 110 after each round, on a ring that opens with one live cell."""
    ring = unison.Network(CELLS, [(cell, (cell + 1) % CELLS) for cell in range(CELLS)], set={"s": {CELLS - 1: 1}})
    return unison.watch(unison.Program(RULE_110), ring, range(ROWS))["s"]


def draw_club(graph: Any, rounds: unison.Rounds, path: Path) -> None:
    places = networkx.spring_layout(graph, seed=4)
    figure, parts = pyplot.subplots(1, len(rounds), figsize=(4 * len(rounds), 4))
    for part, states in zip(parts, rounds):
        far = states.by_name("dist")
        colours = ["lightgrey" if far[node] == unison.NONE else pyplot.cm.viridis(far[node] / (len(rounds) - 1)) for node in graph]
        networkx.draw(graph, places, ax=part, node_color=colours, node_size=120, width=0.4)
        part.set_title(f"round {states.round}")
    figure.savefig(path, dpi=120)


def main() -> None:
    folder = Path(sys.argv[1] if len(sys.argv) > 1 else ".")
    graph, rounds = club()
    rows = cells()
    for states in rounds:
        reached = [far for far in states.by_name("dist").values() if far != unison.NONE]
        print(f"karate, round {states.round}: {len(reached)} of {len(graph)} are reached, the farthest at {max(reached)}")
    print(f"rule 110: {sum(map(sum, rows))} of {CELLS * ROWS} cells are live in {ROWS} rounds")
    if pyplot is None:
        print("\n".join("".join(" #"[cell] for cell in row) for row in rows))
        return
    draw_club(graph, rounds, folder / "karate.png")
    pyplot.imsave(folder / "rule_110.png", [[1 - int(cell) for cell in row for _ in range(8)] for row in rows for _ in range(8)], cmap="gray")
    print(f"karate.png and rule_110.png are in {folder}")


if __name__ == "__main__":
    main()
