#!/usr/bin/env python3
"""An epidemic in a small world: how many are infected by round, over several seeds, and three files to look at.

    python3 python/examples/epidemic.py [FOLDER] [--seeds N]

Prints the means and standard deviations of the seeds, and writes `curves.svg`, `run.svg` and `run.html` of the first seed to FOLDER, the
working folder where none is named."""

from __future__ import annotations

import argparse
import sys
from pathlib import Path

try:
    import unison
except ImportError:  # from a checkout, without an install
    sys.path.insert(0, str(Path(__file__).resolve().parent.parent))
    import unison

MODEL = """
# A susceptible node is infected by each infected neighbour with one chance; an infected one recovers with another.
const infection = chance(0.15);
const recovery = chance(0.2);
states person { susceptible, infected, recovered }
field state: person = susceptible;
let sick = state == infected;
next state = cases {
    state == susceptible and any(n.sick and link_random() < infection): infected;
    sick and random() < recovery: recovered;
    else: state;
};
"""
ROUNDS = 40


def main() -> None:
    words = argparse.ArgumentParser(description="An epidemic in a small world.")
    words.add_argument("folder", nargs="?", default=".", type=Path)
    words.add_argument("--seeds", type=int, default=20)
    asked = words.parse_args()

    model = unison.Model(MODEL)
    town = unison.Network.small_world(200, near=3, rewire=5, seed=1, set={"state": {0: 1}})
    means = unison.count(model, town, range(0, ROUNDS + 1, 10), constants={"seed": range(1, asked.seeds + 1)}, mean=True)
    print(f"{'round':>5} {'infected':>10} {'deviation':>10}")
    for row in means:
        deviation = row["infected deviation"]
        print(f"{row['round']:>5} {row['infected mean']:>10} {'-' if deviation is None else deviation:>10}")

    first = model.with_constants(seed=1)
    colours = {"infected": "#d55e00"}
    unison.count(first, town, ROUNDS).image().save(asked.folder / "curves.svg")
    unison.image(first, town, ROUNDS, colours=colours).save(asked.folder / "run.svg")
    unison.page(first, town, ROUNDS).save(asked.folder / "run.html")
    print(f"written: {', '.join(str(asked.folder / name) for name in ('curves.svg', 'run.svg', 'run.html'))}")


if __name__ == "__main__":
    main()
