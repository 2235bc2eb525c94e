"""Networks, names and schedules that the checks and the pictures use, each a text as the programs read it. The same arguments give the same text."""

import random
from pathlib import Path


def missing(program, command):
    """What is told where a program, which has this command, is not there; else None."""
    return None if Path(program).is_file() else f"{program} is not there: ./unison {command} --help proves and builds it"


def network(nodes, links, sets=""):
    """A network file; links are pairs, or triples with a weight."""
    listed = ",".join(str(list(link)) for link in links)
    return f"nodes = {nodes}\nlinks = [{listed}]\n[set]\n{sets}\n"


def ring(nodes):
    return [(node, (node + 1) % nodes) for node in range(nodes)]


def path(nodes):
    return [(node, node + 1) for node in range(nodes - 1)]


def star(nodes):
    return [(0, node) for node in range(1, nodes)]


def complete(nodes):
    return [(one, other) for other in range(nodes) for one in range(other)]


def bipartite(left, right):
    return [(one, left + other) for one in range(left) for other in range(right)]


def tree(nodes, arity):
    return [((node - 1) // arity, node) for node in range(1, nodes)]


def hypercube(digits):
    return [(node, node | 1 << digit) for node in range(1 << digits) for digit in range(digits) if not node >> digit & 1]


def grid(width, height, diagonals=False):
    across = [(row * width + column, row * width + column + 1) for row in range(height) for column in range(width - 1)]
    slanted = [(row * width + column + far, (row + 1) * width + column + 1 - far) for row in range(height - 1) for column in range(width - 1) for far in (0, 1)]
    return across + [(node, node + width) for node in range(width * (height - 1))] + (slanted if diagonals else [])


def hexagons(width, height):
    """Rows of hexagonal cells, each second one shifted to the right by half a cell."""
    shifted = [(row * width + column, (row + 1) * width + column + (1 if row % 2 else -1)) for row in range(height - 1) for column in range(width)]
    return grid(width, height) + [(one, other) for one, other in shifted if other // width == one // width + 1]


def torus(width, height, diagonals=False):
    ways = [(1, 0), (0, 1)] + ([(1, 1), (-1, 1)] if diagonals else [])
    places = [(column, row) for row in range(height) for column in range(width)]
    return [
        (row * width + column, (row + down) % height * width + (column + across) % width) for column, row in places for across, down in ways
    ]


def random_links(nodes, links, seed=1):
    """So many different random links, by a seed."""
    draws = random.Random(seed)
    found = set()
    while len(found) < links:
        found.add(tuple(sorted(draws.sample(range(nodes), 2))))
    return sorted(found)


def rows_of(nodes, links):
    """For each node its neighbours by rising number."""
    rows = [[] for _ in range(nodes)]
    for one, other in (link[:2] for link in links):
        rows[one].append(other)
        rows[other].append(one)
    return [sorted(row) for row in rows]


class Counts:
    """The count machine of the pages: how often each node has moved, and which slots it has read since."""

    def __init__(self, rows, stop):
        self.rows, self.stop = rows, stop
        self.moves = [0] * len(rows)
        self.marks = [set() for _ in rows]

    def is_open(self, step):
        """Whether a step would change something."""
        node, *slot = step
        if self.moves[node] >= self.stop:
            return False
        if not slot:
            return len(self.marks[node]) == len(self.rows[node])
        is_behind = self.moves[self.rows[node][slot[0]]] < self.moves[node]
        return slot[0] not in self.marks[node] and not is_behind

    def make(self, step):
        node, *slot = step
        if slot:
            self.marks[node].add(slot[0])
        else:
            self.moves[node] += 1
            self.marks[node].clear()

    def steps_of(self, node):
        return [(node, slot) for slot in range(len(self.rows[node]))] + [(node,)]


class Registers:
    """Nodes with registers and desks, as they are built: a node shows a phase and two states, and a reader sees by the phases alone whether its neighbour is
    level, one ahead or one behind. A move goes to what `state_of(node, moves)` gives; states are lists of values of these fields."""

    def __init__(self, rows, phase, stop, fields, state_of):
        self.rows, self.stop, self.fields, self.state_of = rows, stop, fields, state_of
        self.moves = [0] * len(rows)
        self.phases = [phase] * len(rows)
        self.now = [state_of(node, 0) for node in range(len(rows))]
        self.before = list(self.now)
        self.desks = [[None] * len(row) for row in rows]

    def worded(self, state):
        return "".join(f" {name}={value}" for name, value in zip(self.fields, state))

    def read(self, node, slot):
        """Reads, and tells it."""
        if slot >= len(self.rows[node]):
            return f"node {node} has no slot {slot}: its slots are numbered below {len(self.rows[node])}"
        if self.moves[node] == self.stop:
            return f"node {node} does not read: it stands at the stop, round {self.stop}"
        other = self.rows[node][slot]
        front = f"node {node} reads node {other}, which"
        if self.desks[node][slot] is not None:
            return f"{front} it has read already: waits until it has moved itself"
        ahead = (self.phases[other] - self.phases[node]) % 3
        if ahead == 2:
            return f"{front} is one behind: waits until node {other} has moved"
        self.desks[node][slot] = self.before[other] if ahead == 1 else self.now[other]
        if ahead == 0:
            return f"{front} has moved as often: takes{self.worded(self.now[other])}"
        return f"{front} is one ahead: takes{self.worded(self.before[other])}, its previous state (it holds{self.worded(self.now[other])})"

    def write(self, node):
        """Moves, and tells it."""
        if self.moves[node] == self.stop:
            return f"node {node} does not move: it stands at the stop, round {self.stop}"
        if None in self.desks[node]:
            many, first = len(self.rows[node]), self.rows[node][self.desks[node].index(None)]
            return f"node {node} does not move: it has read {many - self.desks[node].count(None)} of {many} neighbours, and waits for node {first}"
        self.moves[node] += 1
        self.phases[node] = (self.phases[node] + 1) % 3
        self.before[node], self.now[node] = self.now[node], self.state_of(node, self.moves[node])
        self.desks[node] = [None] * len(self.rows[node])
        return f"node {node} moves:{self.worded(self.now[node])}, its state of round {self.moves[node]}"

    def make(self, step):
        """Makes a step, and tells it."""
        node, *slot = step
        if node >= len(self.rows):
            return f"there is no node {node}: nodes are numbered below {len(self.rows)}"
        return self.read(node, slot[0]) if slot else self.write(node)

    def shown(self):
        return [{"now": self.now[node], "before": self.before[node], "desk": self.desks[node]} for node in range(len(self.rows))]


def lines(steps):
    """The schedule of steps."""
    return "".join(f"read {step[0]} {step[1]}\n" if len(step) == 2 else f"write {step[0]}\n" for step in steps)


def starved(nodes, links, still, stop, refused=15, seed=4):
    """A random schedule in which one node makes no step, up to rest; so many in a hundred of the others' steps are refused."""
    draws = random.Random(seed)
    counts = Counts(rows_of(nodes, links), stop)
    others = [step for node in range(nodes) if node != still for step in counts.steps_of(node)]
    steps = []
    while possible := [step for step in others if counts.is_open(step)]:
        if draws.randrange(100) < refused:
            step = draws.choice(others)
            steps += [] if counts.is_open(step) else [step]
        else:
            steps.append(draws.choice(possible))
            counts.make(steps[-1])
    return lines(steps)


def random_steps(nodes, links, many, stop, seed=1):
    """A schedule of so many random steps, refused ones among them, some of nodes and slots that are not there."""
    draws = random.Random(seed)
    counts = Counts(rows_of(nodes, links), stop)
    steps = []
    while len(steps) < many:
        node = draws.randrange(nodes)
        if draws.randrange(60) == 0:
            steps.append(draws.choice([(nodes + draws.randrange(3),), (nodes, 0), (node, len(counts.rows[node]) + draws.randrange(2))]))
            continue
        steps.append(draws.choice(counts.steps_of(node)))
        if counts.is_open(steps[-1]):
            counts.make(steps[-1])
    return lines(steps)
