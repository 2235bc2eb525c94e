"""Times the product and the hand-written loops on the same files in one run, and prints the ratios."""
import os
import subprocess
import sys
import time

from slices import Call, in_slices

top, work, worlds = sys.argv[1:4]
KINDS = ("random", "torus", "path", "hubs")
LAST_ROUND = 1_000_000_000
# So many turns at most have calls that are compared, and fewer where those before took so many seconds.
TURNS = 3
ENOUGH = 30.0
ROUNDS = {"distance": 1000, "rule_110": 1000, "majority": 1000, "heavy": 40}
# Each program has, where a one is wanted, this word, which reads the round: so no round is left out where states stay as they are.
ONE = "(round < 4294967295)"
DISTANCE = "field dist = 4294967295;\nnext dist = (dist min least (n.dist + {}));\n"
MAJORITY = "field s = 0;\nnext s = if ((count n.s * 2) > degree) then {} else if ((count n.s * 2) < degree) then 0 else s;\n"
PROGRAMS = {
    "distance": DISTANCE.format(ONE),
    "rule_110": "field s = 0;\nnext s = (((s | any ((n.id > id) & n.s)) & not ((any ((n.id < id) & n.s) & s)"
    f" & any ((n.id > id) & n.s))) & {ONE});\n",
    "majority": MAJORITY.format(ONE),
}
SETS = {
    "distance": "dist = [[0, 0]]",
    "rule_110": "s = [[0, 1], [65534, 1]]",
    "majority": f"s = {[[node, 1] for node in range(65_536) if node * 7 % 5 < 2]}",
}
# What moves little: a program that does not read the round, a network, a last round, and the most that is wanted, of the seconds by
# hand or in seconds.
LITTLE = (
    ("distance", "path", LAST_ROUND, "1 s"),
    ("distance", "torus", LAST_ROUND, "0.33"),
    ("life", "cells", 10_000, "0.05"),
    ("drawn_majority", "torus", 10_000, ""),
)


def is_drawn(node):
    """Half of all numbers, without order: the last bit of what MurmurHash3 ends with, of the number after this one."""
    value = node + 1
    for shift, factor in ((16, 0x85EBCA6B), (13, 0xC2B2AE35)):
        value = (value ^ value >> shift) * factor % 2**32
    return (value ^ value >> 16) & 1 == 1


def little_program(name):
    """The text of a program that does not read the round, and its initial values."""
    if name == "distance":
        return DISTANCE.format(1), SETS["distance"]
    if name == "life":
        with open(f"{top}/examples/life.rules", encoding="ascii") as file:
            return file.read(), "live = [[1, 1], [258, 1], [512, 1], [513, 1], [514, 1]]"
    return MAJORITY.format(1), f"s = {[[node, 1] for node in range(65_536) if is_drawn(node)]}"


def written(name, text):
    """The path of a file with this text."""
    path = f"{work}/{name}"
    with open(path, "w", encoding="ascii") as out:
        out.write(text)
    return path


def called(call):
    """What a call prints, its seconds, and the greatest memory that it held, in MiB."""
    start = time.perf_counter()
    with subprocess.Popen(call, stdout=subprocess.PIPE) as process:
        output = process.stdout.read()
        _, status, usage = os.wait4(process.pid, 0)
        process.returncode = os.waitstatus_to_exitcode(status)
    if process.returncode != 0:
        sys.exit(f"{call[0]} ended with status {process.returncode}")
    return output, time.perf_counter() - start, usage.ru_maxrss / 1024


def least_of(call, calls=3, enough=15.0):
    """What a call prints, and the least seconds of three calls, or of fewer where those before took long."""
    made = [called(call)]
    while len(made) < calls and sum(seconds for _, seconds, _ in made) < enough:
        made.append(called(call))
    return made[0][0], min(seconds for _, seconds, _ in made)


def seconds_of(job, program, network, stop, workers=0):
    """The least seconds of some calls of world_bench, and the number that it prints."""
    output, seconds = least_of([worlds, job, program, network, str(stop), str(workers)])
    return seconds, int(output)


def rounds_of(job, program, network, rounds):
    """The seconds of rounds alone, without reading and the plan, and what they gave."""
    taken, answer = seconds_of(job, program, network, rounds)
    return taken - seconds_of(job, program, network, 0)[0], answer


def in_turns(*calls):
    """What each of these calls prints, and its seconds in the mean of some turns, in each of which all of them run in slices."""
    start, turns = time.perf_counter(), []
    while len(turns) < TURNS and (not turns or time.perf_counter() - start < ENOUGH):
        turns.append([Call(call, f"{work}/call{at}") for at, call in enumerate(calls)])
        in_slices(turns[-1])
    return [(made[0].out.read_bytes(), sum(call.seconds for call in made) / len(made)) for made in zip(*turns)]


def interleaved(*calls):
    """What each of these calls prints, and its least seconds of five turns, in each of which one is called after the other."""
    turns = [[called(call)[:2] for call in calls] for _ in range(5)]
    return [(made[0][0], min(seconds for _, seconds in made)) for made in zip(*turns)]


def ours(program, network, rounds):
    """The calls of the product for sequential rounds, for rounds by threads, and for none."""
    return [[worlds, way, program, network, str(stop), "0"] for way, stop in (("rounds", rounds), ("parallel", rounds), ("rounds", 0))]


def network_of(kind, sets):
    """The file of a network with these initial values."""
    with open(f"{work}/{kind}.toml", encoding="ascii") as file:
        return written("network.toml", file.read() + (f"[set]\n{sets}\n" if sets else ""))


def table(*names):
    """Begins a table, in the form of docs/speed.md."""
    print()
    line(*names)
    print("|---" * len(names) + "|")


def line(*cells):
    """A line of a table."""
    print(f"| {' | '.join(cells)} |", flush=True)


def long(seconds):
    return f"{seconds:.3f} s"


def beside(job, name, kind, network, program, rounds):
    """Sequential rounds and rounds by threads, beside a loop that is written by hand, all in slices: the cells of a line."""
    loops = [[f"{work}/loops", job, name, network, str(stop)] for stop in (rounds, 0)]
    by_hand, no_round, one, shared, none = in_turns(*loops, *ours(program, network, rounds))
    if not int(by_hand[0].split()[1]) == int(one[0]) == int(shared[0]):
        sys.exit(f"{name} on {kind}: the product and the loop differ")
    loop, seconds, seconds_shared = by_hand[1] - no_round[1], one[1] - none[1], shared[1] - none[1]
    ratios = f"{seconds / loop:.2f}", f"{seconds_shared / seconds:.2f}"
    return name, kind, f"{rounds:,}", long(loop), long(seconds), ratios[0], long(seconds_shared), ratios[1]


def lockstep():
    """Sequential rounds and rounds by threads, beside a loop that is written by hand for the one program."""
    table("program", "network", "rounds", "by hand", "sequential", "ratio", "threads", "to sequential")
    for name, rounds in ROUNDS.items():
        for kind in (*KINDS, "hub") if name == "heavy" else KINDS:
            line(*beside("run", name, kind, network_of(kind, SETS.get(name)), f"{work}/{name}.rules", rounds))


def little():
    """Rounds in which little moves, beside a loop that looks at all nodes and ends, as the product may, where a round changes nothing."""
    table("what moves little", "network", "rounds", "by hand", "sequential", "ratio", "threads", "to sequential", "wanted")
    for name, kind, rounds, wanted in LITTLE:
        text, sets = little_program(name)
        line(*beside("settle", name, kind, network_of(kind, sets), written("little.rules", text), rounds), wanted)


def processors():
    """How many times one processor's work the machine does when four sequential calls are made at once: what threads can gain at most."""
    name, rounds, calls = "heavy", ROUNDS["heavy"], 4
    table("program", "network", "one call alone", f"{calls} calls at once", "processors' worth")
    for kind in ("torus", "path"):
        call = [worlds, "rounds", f"{work}/{name}.rules", f"{work}/{kind}.toml", str(rounds), "0"]
        alone, together = [], []
        for _ in range(3):
            alone.append(called(call)[1])
            start = time.perf_counter()
            made = [subprocess.Popen(call, stdout=subprocess.DEVNULL) for _ in range(calls)]
            if any(process.wait() for process in made):
                sys.exit(f"{worlds} failed")
            together.append(time.perf_counter() - start)
        line(name, kind, long(min(alone)), long(min(together)), f"{calls * min(alone) / min(together):.1f}")


def small():
    """Sequential rounds and rounds by threads, interleaved, where a round is small: these calls end within a slice."""
    table("program", "nodes", "rounds", "sequential", "threads", "to sequential")
    for name in ("distance", "heavy"):
        for side, rounds in ((16, 4000), (32, 2000), (64, 1000), (96, 500)):
            network = written("small.toml", torus(side))
            one, shared, none = interleaved(*ours(f"{work}/{name}.rules", network, rounds))
            if one[0] != shared[0]:
                sys.exit(f"{name} on {side * side} nodes: threads differ")
            seconds, seconds_shared = one[1] - none[1], shared[1] - none[1]
            line(name, f"{side * side:,}", f"{rounds}", long(seconds), long(seconds_shared), f"{seconds_shared / seconds:.2f}")


def torus(side):
    """The network file of a torus."""
    place = lambda x, y: (y % side) * side + x % side
    links = [[place(x, y), place(*to)] for y in range(side) for x in range(side) for to in ((x + 1, y), (x, y + 1))]
    return f"nodes = {side * side}\nlinks = {links}\n"


def settled():
    """Distances on a path of 65,536 nodes to the last round: the rounds end where nothing changes any more."""
    program = written("settled.rules", DISTANCE.format(1))
    network = network_of("path", SETS["distance"])
    call = [f"{top}/unison", "lockstep", program, network, "--rounds", f"{LAST_ROUND}"]
    report, seconds, _ = called(call)
    if report != b"round 1000000000\n" + b"".join(b"%d dist=%d\n" % (node, node) for node in range(65_536)):
        sys.exit("the settled distances are not the numbers of the nodes")
    print(f"\ndistances on a path of 65,536 nodes to round 1,000,000,000: {seconds:.3f} s")


def memory():
    """The most memory that the product holds for the largest network."""
    table("program", "network", "bytes of the file", "memory, round 0", "memory, round 5")
    for name in ("distance", "heavy"):
        for kind in ("random", "hubs"):
            network = f"{work}/{kind}.toml"
            held = [
                called([f"{top}/unison", "lockstep", f"{work}/{name}.rules", network, "--rounds", str(rounds)])[2]
                for rounds in (0, 5)
            ]
            line(name, kind, f"{os.path.getsize(network):,}", f"{held[0]:.1f} MiB", f"{held[1]:.1f} MiB")


def reading():
    """The seconds in which the file of a network alone is read, and in which a report alone is made."""
    table("network", "bytes", "links", "reading the file alone")
    for kind in KINDS:
        network = f"{work}/{kind}.toml"
        seconds, links = seconds_of("read", "none", network, 0)
        line(kind, f"{os.path.getsize(network):,}", f"{links:,}", long(seconds))
    program, network = f"{work}/heavy.rules", f"{work}/path.toml"
    taken, length = seconds_of("report", program, network, 1)
    taken -= seconds_of("rounds", program, network, 1)[0]
    print(f"\nthe report of 65,536 nodes with 8 fields, {length:,} bytes: {taken:.3f} s")


def sweeps():
    """20 rounds by whole sweeps of a world, beside 20 lockstep rounds, a twentieth of the time of 400."""
    stop = 20
    program = f"{work}/distance.rules"
    table("network", "sweeps", "steps a second", "lockstep", "ratio")
    for kind in KINDS:
        network = f"{work}/{kind}.toml"
        swept, steps = rounds_of("sweeps", program, network, stop)
        rounds = rounds_of("rounds", program, network, 20 * stop)[0] / 20
        line(kind, long(swept), f"{steps / swept:,.0f}", long(rounds), f"{swept / rounds:.1f}")


def replays():
    """A schedule of about a million steps over a ring of 1,000 nodes, beside whole sweeps of the same plan."""
    nodes, stop = 1000, 333
    links = [[u, (u + 1) % nodes] for u in range(nodes)]
    network = written("ring.toml", f"nodes = {nodes}\nlinks = {links}\n")
    turns = "".join(f"read {u} 0\nread {u} 1\nwrite {u}\n" for u in range(nodes))
    schedule = written("ring.steps", turns * stop)
    program = f"{work}/distance.rules"
    made = [called([f"{top}/unison", "replay", program, network, schedule, "--stop", str(stop)]) for _ in range(3)]
    if any(f" moves {stop} " not in line for line in made[0][0].decode().splitlines()):
        sys.exit("the replay did not come to its stop")
    swept, steps = seconds_of("sweeps", program, network, stop)
    print(f"\nreplay of {steps:,} steps: {min(seconds for _, seconds, _ in made):.3f} s; whole sweeps of the same plan: {swept:.3f} s")


def runs():
    """A torus of 4,096 nodes to stop 50 by workers over one lock, beside whole sweeps."""
    program, network, stop = f"{work}/distance.rules", written("small.toml", torus(64)), 50
    swept, steps = seconds_of("sweeps", program, network, stop)
    print(f"\n{steps:,} steps by whole sweeps: {swept:.3f} s")
    table("workers", "seconds", "times the sweeps")
    for workers in (1, 2, 4):
        taken, _ = seconds_of("workers", program, network, stop, workers)
        line(f"{workers}", long(taken), f"{taken / swept:.1f}")


def main():
    for name, text in PROGRAMS.items():
        written(f"{name}.rules", text)
    lockstep()
    little()
    processors()
    small()
    settled()
    memory()
    reading()
    sweeps()
    replays()
    runs()


main()
