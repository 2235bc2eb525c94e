"""What mpirun starts for the tests of `unison.cluster` (test_cluster.py, checks/cluster): random runs beside the interpreter in `reference`, and the
command with a process that is slow or that is killed.

    mpirun -n N python cluster_worker.py random --cases K --seed S [--keep FOLDER]
                                                                        a line for each difference, and `K agree, D differ` last; each run is kept
    mpirun -n N python cluster_worker.py commands FILE                  commands, of which FILE has a list of words each; behind each `== STATUS`
    mpirun -n N python cluster_worker.py slow SECONDS PROCESS WORDS..   the command, with a process that sleeps before each message
    mpirun -n N python cluster_worker.py kill MESSAGES PROCESS WORDS..  the command, with a process that is killed at its so many-th message
"""

import json
import os
import random
import signal
import sys
import time
import traceback
from pathlib import Path

from cluster_support import new_folder, packed
from support import reference

import numpy as np  # noqa: E402
from mpi4py import MPI  # noqa: E402

from unison import cluster  # noqa: E402
from unison.cluster import words  # noqa: E402

MOST = 4294967295


class Changed:
    """A communicator before whose messages something is done; those that are made of it are the same."""

    def __init__(self, comm, before):
        self.comm, self.before = comm, before

    def __getattr__(self, name):
        return getattr(self.comm, name)

    def Dup(self):
        return Changed(self.comm.Dup(), self.before)

    def Isend(self, *given, **named):
        self.before()
        return self.comm.Isend(*given, **named)

    def Iallreduce(self, *given):
        self.before()
        return self.comm.Iallreduce(*given)


SHAPES = [*2 * ["random", "directed", "one way", "ring", "grid", "grid", "hub"], "components", "none"]


def drawn_rows(draws):
    """Rows of a network: links one way, several between two nodes, of a node with itself; hubs, components, nodes without links."""
    nodes = draws.choice([1, 2, 9, 20, 45, 45, 100, 150, 150])
    weight = lambda: draws.choice([1, 1, 1, 0, 5, MOST]) if is_weighted else 1
    shape, is_weighted = draws.choice(SHAPES), draws.random() < 0.5
    rows = [[] for _ in range(nodes)]
    pairs = {
        "random": [(draws.randrange(nodes), draws.randrange(nodes)) for _ in range(2 * nodes)],
        "directed": [(draws.randrange(nodes), draws.randrange(nodes)) for _ in range(3 * nodes)],
        "one way": [(node, (node + 1) % nodes) for node in range(nodes)],
        "ring": [(node, (node + 1) % nodes) for node in range(nodes)],
        "grid": [(node, node + 1) for node in range(nodes - 1)] + [(node, node + 10) for node in range(nodes - 10)],
        "hub": [(0, node) for node in range(nodes)] + [(nodes - 1, node) for node in range(nodes)],
        "components": [(node, node + 1) for node in range(0, nodes - 1, 2)],
        "none": [],
    }[shape]
    for one, other in pairs:
        rows[one].append((other, weight()))
        if shape not in ("directed", "one way"):
            rows[other].append((one, weight()))
    return rows


#: Programs that settle, or that change few nodes in a round.
QUIET = [
    "field s = 9; next s = (s min least n.s);",
    "field a = 0; field b = 7; next a = (a max most n.a);",
    "field d = 4294967295; next d = (d min least (n.d + n.weight));",
    "field a = 5; field b = 0; field c = 1; next a = (a min least (n.a + 1)); next c = (c max a);",
    "field s = 0; next s = if (id == (round * 3)) then (1 + total n.s) else s;",
    "field s = 3; field t = 2; next s = (s max most n.t); next t = (t max most n.s);",
    "field s = 2; next s = ((s + total (n.s * n.weight)) % 1009);",
]


def drawn_program(draws, interpreter, compare):
    """A sound program's text and what it is for the interpreter."""
    while True:
        text = draws.choice(QUIET) if draws.random() < 0.65 else compare.program_text(draws, [])
        try:
            return text, interpreter.check(interpreter.read_items(text.encode()))
        except interpreter.Fault:
            continue


def drawn_settings(draws, program, nodes):
    """Words of --set, and the states that they ask for."""
    states, asked = [dict(program.fields) for _ in range(nodes)], []
    for name in program.fields:
        for _ in range(draws.randrange(1, 4)):
            first, value = draws.randrange(nodes), draws.choice([0, 1, draws.number()])
            last = draws.randrange(first, nodes)
            word, chosen = draws.choice([("*", range(nodes)), (f"{first}", [first]), (f"{first}..{last}", range(first, last + 1))])
            asked.append(f"{name}={word}:{value}")
            for node in chosen:
                states[node][name] = value
    return asked, states


def drawn_parts(draws, nodes, processes):
    """A part for each node, or None for those by number: by blocks, or each at random; now and then some parts are empty."""
    if draws.random() < 0.3:
        return None
    some = draws.sample(range(processes), draws.choice([processes, processes, draws.randrange(1, processes + 1)]))
    block = draws.choice([1, nodes // 8 + 1, nodes // 4 + 1])
    drawn = [draws.choice(some) for _ in range(nodes // block + 1)]
    return [drawn[node // block] for node in range(nodes)]


def wanted_of(interpreter, program, rows, states, rounds, until):
    """The states of the last round, that round, and where the rounds settle or reach what ends them; and all states up to there."""
    plan = interpreter.Plan(program, interpreter.Network(rows, 0, 0, {}), states)
    seen = [states]
    is_reached = lambda: until is not None and all(state[until[0]] == until[1] for state in seen[-1])
    while len(seen) <= rounds and not is_reached():
        seen.append(interpreter.round_after(plan, seen[-1], len(seen) - 1))
    reached = len(seen) - 1 if is_reached() else None
    same = [] if program.reads_round else [round for round in range(len(seen) - 1) if seen[round] == seen[round + 1]]
    return seen, reached, same[0] if same else None


class Case:
    """A random run: its texts and what it has to leave."""

    def __init__(self, number, seed, most, interpreter, compare):
        draws = self.draws = compare.Draws(seed * 1_000_003 + number)
        self.text, program = drawn_program(draws, interpreter, compare)
        self.rows, self.processes = drawn_rows(draws), draws.choice([1, *2 * list(range(2, most + 1))])
        self.fields, self.rounds = list(program.fields), draws.choice([0, 1, 2, 3, 5, 8, 8, 12, 12, 20])
        self.settings, states = drawn_settings(draws, program, len(self.rows))
        self.until = (draws.choice(self.fields), draws.choice([0, 0, 1, *program.fields.values()])) if self.fields and draws.random() < 0.5 else None
        self.parts = drawn_parts(draws, len(self.rows), self.processes)
        self.sums = draws.sample(self.fields, draws.randrange(len(self.fields) + 1))
        self.is_delayed = draws.random() < 0.5
        if MPI.COMM_WORLD.Get_rank() == 0:
            self.seen, self.reached, self.settled = wanted_of(interpreter, program, self.rows, states, self.rounds, self.until)

    def write(self, folder):
        (folder / "case.rules").write_text(self.text)
        (folder / "case.net").write_bytes(packed(self.rows))
        if self.parts is not None:
            (folder / "case.parts").write_text("".join(f"{part}\n" for part in self.parts))

    def run(self, comm, folder):
        """What is wrong with the run by these processes, as process 0 sees it; nothing where all is well."""
        if self.is_delayed:
            own = random.Random(self.draws.random() + comm.Get_rank())
            comm = Changed(comm, lambda: time.sleep(own.choice([0, 0, 0.0005, 0.002])))
        outcome = cluster.run(
            str(folder / "case.rules"), str(folder / "case.net"), self.rounds, comm=comm, set=self.settings, sums=self.sums,
            until=None if self.until is None else f"{self.until[0]}={self.until[1]}",
            parts_file=None if self.parts is None else str(folder / "case.parts"),
        )  # fmt: skip
        counts = [outcome.count(field) for field in self.fields]
        whole = np.full((len(self.rows), len(self.fields)), 99, dtype=np.uint32)
        for numbers, values in comm.allgather((outcome.numbers, outcome.values)):
            whole[numbers] = values
        self.whole, self.round = whole, outcome.round
        return "" if comm.Get_rank() else self.difference(outcome, whole, counts)

    def keep(self, folder):
        """Writes the run's texts, its words and the states that the processes left, for a comparison with `unison large lockstep`."""
        folder.mkdir(parents=True)
        self.write(folder)
        (folder / "words.json").write_text(json.dumps(["--rounds", str(self.round), *(part for it in self.settings for part in ("--set", it))]))
        np.save(folder / "states.npy", self.whole)

    def difference(self, outcome, whole, counts):
        after = self.seen[-1]
        round = self.rounds if self.reached is None else self.reached
        count = lambda field: {value: sum(state[field] == value for state in after) for value in sorted({state[field] for state in after})}
        first, last = int(self.until is None), self.reached if self.reached is not None else self.rounds if self.settled is None else self.settled + 1
        checks = {
            "states": (whole.tolist(), [list(state.values()) for state in after]),
            "round": (outcome.round, round),
            "reached": (outcome.reached, self.reached),
            "settled": (None if self.reached is not None else outcome.settled, None if self.reached is not None else self.settled),
            "counts": (counts, [count(field) for field in self.fields]),
            "sums": (outcome.sums, {at: [sum(state[field] for state in self.seen[at]) for field in self.sums] for at in range(first, last + 1)}),
        }
        wrong = [f"{what}: found {found}, expected {wanted}" for what, (found, wanted) in checks.items() if found != wanted]
        return "\n".join([*wrong, self.text, repr((self.rows, self.processes, self.parts, self.settings, self.until, self.rounds))]) if wrong else ""


def random_runs(cases, seed, kept=None):
    """Runs random cases, each of which is kept in a folder where one is given; how many differ."""
    interpreter, compare = reference()
    world = MPI.COMM_WORLD
    differ = 0
    folder = world.bcast(new_folder() if world.Get_rank() == 0 else None)
    for number in range(cases):
        case = Case(number, seed, world.Get_size(), interpreter, compare)
        if world.Get_rank() == 0:
            case.write(folder)
        comm = world.Split(int(world.Get_rank() < case.processes), world.Get_rank())
        wrong = case.run(comm, folder) if world.Get_rank() < case.processes else ""
        comm.Free()
        differ += bool(wrong)
        if wrong:
            print(f"case {number} of seed {seed}: {wrong}", flush=True)
        if kept and world.Get_rank() == 0:
            case.keep(Path(kept) / str(number))
        world.Barrier()
    if world.Get_rank() == 0:
        print(f"{cases - differ} agree, {differ} differ", flush=True)


def with_process(process, before, given):
    """The command, with something that one process does before each message."""
    if MPI.COMM_WORLD.Get_rank() == process:
        MPI.COMM_WORLD = Changed(MPI.COMM_WORLD, before)
    return words.main(given)


def killer(messages):
    """Kills this process at its so many-th message."""
    left = [messages]

    def before():
        left[0] -= 1
        if left[0] == 0:
            os.kill(os.getpid(), signal.SIGKILL)

    return before


def run_commands(path):
    """Runs commands, one after the other; behind the output of each, on both streams, stands its status."""
    for line in json.loads(Path(path).read_text()):
        status = words.main(line)
        for stream in (sys.stdout, sys.stderr):
            print(f"== {status}" if MPI.COMM_WORLD.Get_rank() == 0 else "", end="\n" if MPI.COMM_WORLD.Get_rank() == 0 else "", file=stream, flush=True)


def main(kind, *given):
    if kind == "commands":
        run_commands(given[0])
        return 0
    if kind == "random":
        random_runs(int(given[1]), int(given[3]), given[5] if len(given) > 5 else None)
        return 0
    before = killer(int(given[0])) if kind == "kill" else lambda: time.sleep(float(given[0]))
    return with_process(int(given[1]), before, list(given[2:]))


if __name__ == "__main__":
    try:
        status = main(*sys.argv[1:])
    except Exception:
        traceback.print_exc()
        MPI.COMM_WORLD.Abort(1)
    sys.exit(status)
