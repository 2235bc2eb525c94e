#!/usr/bin/env python3
"""Checks the cookbook's reports beside values that are computed here, by plain code on graphs, lists and tables of cells.

For each program the states after every round come from a function of its own below, which knows the problem and not the rule language: searches,
sorts, union-find, Dijkstra's algorithm, cells in rows and columns. The report must be that of its round; the values at the end must be right by
a second way where there is one; and what the page (docs/cookbook.md) says of the program, when it settles or repeats, must be so.
Nothing here runs a program or reads one. Prints a line for each, `NAME: ok` or `NAME: FAILED` with the reason; exits 1 where one failed.
"""

import heapq
import math
import re
import sys
import tomllib
from collections import deque
from itertools import count
from pathlib import Path

try:
    import networkx
except ImportError:
    networkx = None

HERE = Path(__file__).resolve().parent
ROOT = HERE.parent.parent
PAGE = ROOT / "docs" / "cookbook.md"
NONE = 4294967295


class Net:
    """A network file: how many nodes, for each its neighbours with the weights of the links, and the initial values that it sets."""

    def __init__(self, path):
        document = tomllib.loads(path.read_text())
        self.nodes = document["nodes"]
        self.links = [tuple(link) if len(link) == 3 else (*link, 1) for link in document["links"]]
        self.near = [{} for _ in range(self.nodes)]
        for one, other, weight in self.links:
            self.near[one][other] = weight
            self.near[other][one] = weight
        self.sets = {name: dict(pairs) for name, pairs in document.get("set", {}).items()}

    def initial(self, name, default):
        """The initial values of a field."""
        return [self.sets.get(name, {}).get(node, default) for node in range(self.nodes)]

    def degree(self, node):
        return len(self.near[node])

    def lesser(self, node):
        """The neighbours with lesser numbers."""
        return [other for other in self.near[node] if other < node]


def read_report(path):
    """The round of a report, and for each node its fields."""
    lines = path.read_text().splitlines()
    rows = [line.split() for line in lines[1:]]
    assert [row[0] for row in rows] == [str(node) for node in range(len(rows))], "the nodes are not in order"
    return int(lines[0].removeprefix("round ")), [{k: int(v) for k, v in (word.split("=") for word in row[1:])} for row in rows]


def columns(**fields):
    """The states of all nodes, of the lists of values of their fields."""
    return [dict(zip(fields, values)) for values in zip(*fields.values())]


def search(net, sources):
    """Breadth-first search: the distance in links from the nearest source, None where no way leads."""
    found = {source: 0 for source in sources}
    queue = deque(sources)
    while queue:
        node = queue.popleft()
        for other in net.near[node]:
            if other not in found:
                found[other] = found[node] + 1
                queue.append(other)
    return [found.get(node) for node in range(net.nodes)]


def between(net):
    """The distances between any two nodes."""
    return [search(net, [node]) for node in range(net.nodes)]


def within(distance, limit):
    return distance is not None and distance <= limit


def parts(net):
    """Union-find: for each node the least number in its part."""
    above = list(range(net.nodes))

    def top(node):
        while above[node] != node:
            node = above[node]
        return node

    for one, other, _ in net.links:
        least, greatest = sorted((top(one), top(other)))
        above[greatest] = least
    return [top(node) for node in range(net.nodes)]


def equal(found, right, what):
    assert found == right, f"{what}: {found} and not {right}"


# Each of the following gives the states after rounds 0, 1, 2, .. of one program on its network, for ever, and holds what is known
# of the end beside them.


def flooding(net):
    messages = net.sets["message"]
    nearest = search(net, messages)
    far = {source: search(net, [source]) for source in messages}
    heard = [max(messages[source] for source in messages if far[source][node] == nearest[node]) for node in range(net.nodes)]
    for now in count():
        yield columns(message=[heard[node] if nearest[node] <= now else 0 for node in range(net.nodes)])


def distances(net):
    nearest = search(net, net.sets["dist"])
    for now in count():
        yield columns(dist=[far if within(far, now) else NONE for far in nearest])


def parents(net):
    nearest = search(net, net.sets["dist"])
    above = [
        min((other for other in net.near[node] if within(far, math.inf) and nearest[other] == far - 1), default=NONE)
        for node, far in enumerate(nearest)
    ]
    if networkx:
        graph = networkx.Graph([link[:2] for link in net.links])
        equal(nearest, [networkx.shortest_path_length(graph, 0, node) for node in range(net.nodes)], "distances by networkx")
    for now in count():
        yield columns(
            dist=[far if within(far, now) else NONE for far in nearest],
            parent=[above[node] if within(far, now) else NONE for node, far in enumerate(nearest)],
        )


def dijkstra(net, source):
    """The least sums of weights from the source, NONE where no way leads."""
    least = {}
    heap = [(0, source)]
    while heap:
        far, node = heapq.heappop(heap)
        if node not in least:
            least[node] = far
            for other, weight in net.near[node].items():
                heapq.heappush(heap, (far + weight, other))
    return [least.get(node, NONE) for node in range(net.nodes)]


def shortest_paths(net):
    """The least sum over the ways of at most so many links; a node's parent goes by the sums of the round before."""
    (source,) = net.sets["dist"]
    right = dijkstra(net, source)
    sums = {source: 0}
    above = {}
    for now in count():
        if now == net.nodes:
            equal([sums.get(node, NONE) for node in range(net.nodes)], right, "least sums by Dijkstra's algorithm")
            for node in sums:
                way = [node]
                while way[-1] != source:
                    way.append(above[way[-1]])
                equal(sum(net.near[one][other] for one, other in zip(way, way[1:])), right[node], "the way by parents")
        yield columns(dist=[sums.get(node, NONE) for node in range(net.nodes)], parent=[above.get(node, NONE) for node in range(net.nodes)])
        above, longer = {}, dict(sums)
        for one in sums:
            for other, weight in net.near[one].items():
                if sums.get(other) == sums[one] + weight:
                    above[other] = min(one, above.get(other, one))
                longer[other] = min(longer.get(other, math.inf), sums[one] + weight)
        sums = longer


def components(net):
    far = between(net)
    for now in count():
        least = [min(other for other in range(net.nodes) if within(far[node][other], now)) for node in range(net.nodes)]
        if now == net.nodes:
            equal(least, parts(net), "least numbers by union-find")
        yield columns(part=least if now else [NONE] * net.nodes)


def leader(net):
    key = net.initial("key", 65535)
    far = between(net)
    bids = [[NONE] * net.nodes]
    for now in count():
        won = [NONE] * net.nodes if now < 2 else [bid % 65536 for bid in bids[now - 1]]
        if now == net.nodes:
            equal(set(won), {min(range(net.nodes), key=lambda node: (key[node], node))}, "the leader")
        yield columns(key=key, bid=bids[now], leader=won)
        ball = [[other for other in range(net.nodes) if within(far[node][other], now + 1)] for node in range(net.nodes)]
        bids.append([min(65536 * key[other] + other for other in near) for near in ball])


def spanning_tree(net):
    """A bid of round t is the least of the nodes at most t - 1 links away, each with its distance."""
    far = between(net)
    right = parts(net)
    bids = [[NONE] * net.nodes]
    above = [NONE] * net.nodes
    for now in count():
        told = bids[now - 1] if now else None
        root = [bid // 65536 for bid in told] if now else [NONE] * net.nodes
        if now == net.nodes:
            equal(root, right, "roots by union-find")
            tree = {(node, up) for node, up in enumerate(above) if up != NONE}
            equal(len(tree), net.nodes - len(set(right)), "links in the trees")
            assert all(far[root[node]][up] == far[root[node]][node] - 1 for node, up in tree), "a parent is not nearer to the root"
        yield columns(bid=bids[now], root=root, depth=[bid % 65536 for bid in told] if now else [NONE] * net.nodes, parent=above)
        above = [min((other for other in net.near[node] if bids[now][other] + 1 == bids[now][node]), default=NONE) for node in range(net.nodes)]
        above = above if now else [NONE] * net.nodes
        reach = [[other for other in range(net.nodes) if within(far[node][other], now)] for node in range(net.nodes)]
        bids.append([min(65536 * other + far[node][other] for other in near) for node, near in enumerate(reach)])


def eccentricity(net):
    nodes = net.nodes
    equal(net.sets["nodes"], {node: nodes for node in range(nodes)}, "the field `nodes`")
    far = between(net)
    right = [max(row) for row in far]
    if networkx:
        graph = networkx.Graph([link[:2] for link in net.links])
        equal(right, [networkx.eccentricity(graph)[node] for node in range(nodes)], "eccentricities by networkx")
    dist, most, told = [NONE] * nodes, [0] * nodes, [0] * nodes
    for now in count():
        if now == nodes * nodes + nodes:
            equal((most, told), (right, [max(right)] * nodes), "eccentricities and the diameter")
        yield columns(nodes=[nodes] * nodes, dist=dist, ecc=most, diameter=told)
        told = [max([told[node], most[node]] + [told[other] for other in net.near[node]]) for node in range(nodes)]
        most = [max(ecc, length) if length < NONE else ecc for ecc, length in zip(most, dist)]
        source, limit = divmod(now, nodes)
        dist = [far[source][node] if source < nodes and far[source][node] <= limit else NONE for node in range(nodes)]


def gossip(net):
    far = between(net)
    before = [0] * net.nodes
    for now in count():
        known = [{other for other in range(net.nodes) if within(far[node][other], now)} for node in range(net.nodes)]
        yield columns(heard=[sum(2**other for other in row) for row in known], count_heard=before)
        before = [len(row) for row in known]


def independent_set(net):
    """The set by rising numbers, and the round in which each node knows."""
    chosen, since = [], []
    for node in range(net.nodes):
        beside = [other for other in net.lesser(node) if chosen[other]]
        chosen.append(not beside)
        since.append(1 + (min(since[other] for other in beside) if beside else max((since[other] for other in net.lesser(node)), default=0)))
    assert not any(chosen[one] and chosen[other] for one, other, _ in net.links), "two in the set are linked"
    assert all(chosen[node] or any(chosen[other] for other in net.near[node]) for node in range(net.nodes)), "the set can grow"
    for now in count():
        yield columns(state=[(1 if chosen[node] else 2) if since[node] <= now else 0 for node in range(net.nodes)])


def colouring(net):
    """The least colour that no neighbour with a lesser number has, and the rounds in which a node begins and is done."""
    colour, begins, done = [], [], []
    for node in range(net.nodes):
        taken = {colour[other] for other in net.lesser(node)}
        colour.append(next(one for one in count() if one not in taken))
        begins.append(max((done[other] for other in net.lesser(node)), default=0))
        done.append(begins[node] + colour[node] + 1)
    assert all(colour[one] != colour[other] for one, other, _ in net.links), "two that are linked have one colour"
    for now in count():
        yield columns(
            colour=[min(colour[node], max(0, now - begins[node])) for node in range(net.nodes)],
            done=[int(done[node] <= now) for node in range(net.nodes)],
        )


def peeled(net):
    """Core numbers by peeling: the node with the fewest neighbours left is taken away, again and again."""
    left = {node: set(near) for node, near in enumerate(net.near)}
    core, level = [0] * net.nodes, 0
    while left:
        node = min(left, key=lambda one: len(left[one]))
        level = max(level, len(left[node]))
        core[node] = level
        for other in left.pop(node):
            left[other].discard(node)
    return core


def k_core(net):
    right = peeled(net)
    if networkx:
        numbers = networkx.core_number(networkx.Graph([link[:2] for link in net.links]))
        equal(right, [numbers[node] for node in range(net.nodes)], "core numbers by networkx")
    yield columns(core=[NONE] * net.nodes)
    guess = [net.degree(node) for node in range(net.nodes)]
    for now in count(1):
        if now == net.nodes:
            equal(guess, right, "core numbers by peeling")
        yield columns(core=guess)
        as_high = [sorted((guess[other] for other in net.near[node]), reverse=True)[: guess[node]] for node in range(net.nodes)]
        guess = [own - (own > 0 and row[-1] < own) for own, row in zip(guess, as_high)]


def is_grid(net, width, height, beside, wraps):
    """The network's links are those between a cell and the cells at these offsets, rows and columns being rings where it wraps."""
    links = set()
    for row in range(height):
        for column in range(width):
            for down, right in beside:
                if wraps or (0 <= row + down < height and 0 <= column + right < width):
                    links.add(frozenset((row * width + column, (row + down) % height * width + (column + right) % width)))
    equal({frozenset(link[:2]) for link in net.links}, links, "the links of the grid")
    equal(net.nodes, width * height, "the cells of the grid")


FOUR = [(0, 1), (1, 0), (0, -1), (-1, 0)]
EIGHT = FOUR + [(1, 1), (1, -1), (-1, 1), (-1, -1)]


def table(values, width):
    return [values[start : start + width] for start in range(0, len(values), width)]


def flat(rows):
    return [value for row in rows for value in row]


def around(rows, row, column, beside):
    """The values of the cells beside one, on a torus."""
    return [rows[(row + down) % len(rows)][(column + right) % len(rows[0])] for down, right in beside]


def cells(rows, beside, rule):
    """For ever the next table of cells on a torus: each by its value and the values beside it."""
    while True:
        yield rows
        rows = [[rule(value, around(rows, r, c, beside)) for c, value in enumerate(row)] for r, row in enumerate(rows)]


def majority(net):
    is_grid(net, 6, 6, FOUR, wraps=True)
    for rows in cells(table(net.initial("s", 0), 6), FOUR, lambda own, near: own if sum(near) == 2 else int(sum(near) > 2)):
        yield columns(s=flat(rows))


def threshold(net):
    """In rounds by a table with a border of cells that are never active; and by a list of work, in any order, for the end."""
    is_grid(net, 7, 6, FOUR, wraps=False)
    active, need = net.initial("active", 0), net.initial("need", 2)
    end = {node for node in range(net.nodes) if active[node]}
    work = list(range(net.nodes))
    while work:
        node = work.pop()
        if node not in end and len(end & set(net.near[node])) >= need[node]:
            end.add(node)
            work.extend(net.near[node])
    rows = [row + [0] for row in table(active, 7)] + [[0] * 8]
    wants = [row + [NONE] for row in table(need, 7)] + [[NONE] * 8]
    for now in count():
        state = flat(row[:7] for row in rows[:6])
        if now == net.nodes:
            equal({node for node in range(net.nodes) if state[node]}, end, "the active nodes at the end")
        yield columns(active=state, need=need)
        rows = [
            [max(own, int(sum(around(rows, r, c, FOUR)) >= wants[r][c])) for c, own in enumerate(row)] for r, row in enumerate(rows)
        ]


PAGES = {0: [1, 2], 1: [2], 2: [0], 3: [0, 2], 4: [3, 5], 5: [3, 4]}


def pagerank(net):
    """In whole numbers, beside the rank in fractions: each is less than it by no more than what rounding down can lose."""
    arcs = {(one, other) for one, other, weight in net.links if weight & (1 if one < other else 2)}
    arcs |= {(other, one) for one, other, weight in net.links if weight & (2 if one < other else 1)}
    equal(arcs, {(page, other) for page in PAGES for other in PAGES[page]}, "the links of the pages")
    into = {page: [other for other in PAGES if page in PAGES[other]] for page in PAGES}
    right, lost = [0.0] * 6, [0.0] * 6
    for _ in range(1000):
        right = [150000 + 0.85 * sum(right[other] / len(PAGES[other]) for other in into[page]) for page in PAGES]
        lost = [1 + 0.85 * sum(1 + lost[other] / len(PAGES[other]) for other in into[page]) for page in PAGES]
    rank, share = [0] * 6, [0] * 6
    for now in count():
        if now == 400:
            assert all(0 <= right[page] - rank[page] <= lost[page] for page in PAGES), f"ranks {rank}, and not {right}"
        yield columns(rank=rank, share=share)
        rank, share = (
            [150000 + 85 * sum(share[other] for other in into[page]) // 100 for page in PAGES],
            [rank[page] // len(PAGES[page]) for page in PAGES],
        )


def is_ring(net):
    links = {frozenset((node, (node + 1) % net.nodes)) for node in range(net.nodes)}
    equal({frozenset(link[:2]) for link in net.links}, links, "the links of the ring")


def by_table(number, cells_now):
    """An elementary automaton on a ring, by the binary digits of its number (Wolfram 1983)."""
    size = len(cells_now)
    return [number >> (4 * cells_now[i - 1] + 2 * cells_now[i] + cells_now[(i + 1) % size]) & 1 for i in range(size)]


def lasts_as_on_a_row(number, size):
    """The last round in which a ring of this size, opened with one living cell, shows all cells that live on an endless row."""
    middle = 2 * size
    ring, row = [0] * size, [0] * (4 * size)
    ring[0] = row[middle] = 1
    for now in count():
        alive = [place - middle for place, value in enumerate(row) if value]
        if alive[-1] - alive[0] >= size or {place % size for place in alive} != {place for place, value in enumerate(ring) if value}:
            return now - 1
        ring, row = by_table(number, ring), by_table(number, row)


def rule_90(net):
    """Pascal's triangle: after t rounds a cell lives by the sum of the binomials of t that fall on it, round the ring."""
    is_ring(net)
    (start,) = net.sets["s"]
    assert all(lasts_as_on_a_row(90, size) == (size - 1) // 2 for size in range(3, 40)), "how long the ring must be"
    for now in count():
        sums = [0] * net.nodes
        for place in range(now + 1):
            sums[(start + now - 2 * place) % net.nodes] += math.comb(now, place)
        yield columns(s=[value % 2 for value in sums])


def rule_110(net):
    is_ring(net)
    assert all(lasts_as_on_a_row(110, size) == size - 1 for size in range(3, 40)), "how long the ring must be"
    row = net.initial("s", 0)
    while True:
        yield columns(s=row)
        row = by_table(110, row)


def life(net):
    is_grid(net, 11, 11, EIGHT, wraps=True)
    for rows in cells(table(net.initial("live", 0), 11), EIGHT, lambda own, near: int(sum(near) + own == 3 or (own and sum(near) == 3))):
        yield columns(live=flat(rows))


def brians_brain(net):
    is_grid(net, 8, 8, EIGHT, wraps=True)
    for rows in cells(table(net.initial("s", 0), 8), EIGHT, lambda own, near: {1: 2, 2: 0}.get(own, int(near.count(1) == 2))):
        yield columns(s=flat(rows))


def wireworld(net):
    is_grid(net, 19, 5, EIGHT, wraps=True)
    rule = lambda own, near: [0, 2, 3, 1 if near.count(1) in (1, 2) else 3][own]
    for rows in cells(table(net.initial("s", 0), 19), EIGHT, rule):
        yield columns(s=flat(rows))


def cyclic(net):
    is_grid(net, 8, 8, FOUR, wraps=True)
    for rows in cells(table(net.initial("s", 0), 8), FOUR, lambda own, near: (own + 1) % 4 if (own + 1) % 4 in near else own):
        yield columns(s=flat(rows))


def snowflake(net):
    """On cells whose centres lie on a lattice of triangles: those at the distance 1 are neighbours."""
    centres = [(column + row % 2 / 2, row * math.sqrt(0.75)) for row in range(13) for column in range(13)]
    beside = [{node for node, there in enumerate(centres) if abs(math.dist(here, there) - 1) < 0.01} for here in centres]
    equal([set(net.near[node]) for node in range(net.nodes)], beside, "the cells beside each")
    ice = {node for node, value in enumerate(net.initial("ice", 0)) if value}
    while True:
        yield columns(ice=[int(node in ice) for node in range(net.nodes)])
        ice = ice | {node for node in range(net.nodes) if len(beside[node] & ice) == 1}


def wave(net):
    is_ring(net)
    for now in count():
        state = [0] * net.nodes
        state[now % net.nodes], state[(now - 1) % net.nodes] = 1, 2
        yield columns(s=state)


def firing_squad(net):
    """The order to count goes out in n rounds and comes back in n; it tells how many rounds are left up to 2 n."""
    size = net.nodes
    equal([link[:2] for link in net.links], [(node, node + 1) for node in range(size - 1)], "the links of the path")
    for now in count():
        yield columns(
            away=[node if now > node else NONE for node in range(size)],
            left=[max(0, 2 * size - now) if now >= 2 * size - node else NONE for node in range(size)],
            fire=[int(now > 2 * size)] * size,
        )


def sorting(net):
    value = net.initial("value", 0)
    right = sorted(value)
    for now in count():
        if now >= net.nodes:
            equal(value, right, "sorted values")
        yield columns(value=value)
        value = list(value)
        for place in range(now % 2, net.nodes - 1, 2):
            value[place : place + 2] = sorted(value[place : place + 2])


def die(node, now, seed):
    """The number of a node in a round."""
    word = (node * 52587) ^ (now % 65521 * 43779) ^ (seed % 65521 * 52573)
    for factor in (41075, 42565, 43707):
        word = word // 256 % 65536 * factor
    return word // 256 % 65536


def is_even():
    """Of 65,536 throws each of the hundred rests comes 655 times, give or take 130; so it is of the numbers of links."""
    throws = [[die(node, now, 1) for now in range(256)] for node in range(257)]
    for numbers in (flat(throws[:256]), [a ^ b for one, other in zip(throws, throws[1:]) for a, b in zip(one, other)]):
        rests = [0] * 100
        for number in numbers:
            rests[number % 100] += 1
        assert all(525 <= rest <= 785 for rest in rests), f"the dice are uneven: {rests}"


def epidemic(net):
    is_even()
    state, dice = net.initial("state", 0), [0] * net.nodes
    for now in count():
        yield columns(state=state, dice=dice, chance=[20] * net.nodes, recovery=[25] * net.nodes, seed=[1] * net.nodes)
        infected = {node for node in range(net.nodes) if state[node] == 1}
        if now > 0:
            catching = {o for node in infected for o in net.near[node] if state[o] == 0 and (dice[node] ^ dice[o]) % 100 < 20}
            recovering = {node for node in infected if dice[node] % 100 < 25}
            state = [1 if node in catching else 2 if node in recovering else state[node] for node in range(net.nodes)]
        dice = [die(node, now, 1) for node in range(net.nodes)]


def game(net):
    is_grid(net, 8, 8, EIGHT, wraps=True)
    coop, score = table(net.initial("coop", 1), 8), [[0] * 8 for _ in range(8)]
    for now in count():
        yield columns(coop=flat(coop), score=flat(score), gain=[16] * 64)
        together = [[(coop[r][c], around(coop, r, c, EIGHT)) for c in range(8)] for r in range(8)]
        if now % 2 == 0:
            score = [[10 * (1 + sum(near)) if own else 16 * sum(near) for own, near in row] for row in together]
        else:
            best = [
                [max(zip([score[r][c]] + around(score, r, c, EIGHT), [own] + near)) for c, (own, near) in enumerate(row)]
                for r, row in enumerate(together)
            ]
            coop = [[strategy for _, strategy in row] for row in best]


def argmin(net):
    value = net.initial("value", 0)
    low = [min((value[other] for other in near), default=NONE) for near in net.near]
    best = [min(((value[other], other) for other in near), default=None) for near in net.near]
    for now in count():
        yield columns(
            value=value,
            low=low if now > 0 else [NONE] * net.nodes,
            who=[pair[1] if pair and now > 1 else NONE for pair in best],
            packed=[65536 * pair[0] + pair[1] if pair and now > 0 else NONE for pair in best],
        )


def once(net):
    far = between(net)
    for now in count():
        reach = [[other for other in range(net.nodes) if within(far[node][other], now - 1)] for node in range(net.nodes)]
        yield columns(opened=[int(now > 0)] * net.nodes, least_degree=[min(map(net.degree, near), default=0) for near in reach])


EXAMPLES = [
    flooding, distances, parents, shortest_paths, components, leader, spanning_tree, eccentricity, gossip, independent_set, colouring, k_core,
    majority, threshold, pagerank, epidemic, life, rule_90, rule_110, brians_brain, wireworld, cyclic, snowflake, wave, firing_squad, sorting, game,
    argmin, once,
]
HORIZON = 420  # rounds that are looked at; all that settle here, or repeat, have done so long before


def settles(states):
    """The first round after which nothing changes, as the page says it."""
    return f"settles in round {max((now for now in range(1, len(states)) if states[now] != states[now - 1]), default=0)}"


def repeats(states, turn=1):
    """The first round that comes again, and after how many rounds, a multiple of the turn of the rule."""
    for now, state in enumerate(states):
        for before in range(now % turn, now, turn):
            if states[before] == state:
                return f"period {now - before} from round {before}" if now - before > turn else settles(states)
    return "does not repeat"


def ending(name, states):
    """What the page must say. A search in turns, a sort by pairs and the dice read the round, and are looked at to the horizon."""
    if name == "epidemic":
        return settles([[node["state"] for node in state] for state in states])
    if name in ("eccentricity", "sorting"):
        return settles(states)
    return repeats(states, turn=2 if name == "game" else 1)


def rows_of_page():
    """The rows of the page's table: the program, and its network, the round of its report, and when it settles."""
    row = re.compile(r"^\| \[`(\w+)`\]\(#[\w-]+\) \| `([\w./]+)` \| (\d+) \| ([^|(]*?) *(?:\([^|]*)?\|", re.MULTILINE)
    return {found[1]: found.groups()[1:] for found in row.finditer(PAGE.read_text())}


def without_comments(text):
    return [line for line in text.splitlines() if not line.startswith("#")]


def is_shown(name):
    """A section of the page shows the program, without its comments; where it shows a report, that is this one."""
    program = "\n".join(without_comments((HERE / f"{name}.rules").read_text()))
    report = (HERE / f"{name}.report").read_text().strip()
    for section in re.split(r"^#+ ", PAGE.read_text(), flags=re.MULTILINE):
        blocks = [block.replace("\n    ", "\n").strip() for block in re.findall(r"(?:^    .*\n)+", section, re.MULTILINE)]
        if program in blocks:
            assert all(block == report for block in blocks if block.startswith("round ")), "the page shows another report"
            return
    raise AssertionError("the page does not show the program")


def check(example, row):
    network, number, said = row
    is_shown(example.__name__)
    now, report = read_report(HERE / f"{example.__name__}.report")
    equal(now, int(number), "the round of the report")
    rounds = example(Net(ROOT / network))
    states = [next(rounds) for _ in range(HORIZON)]
    for node, (found, right) in enumerate(zip(report, states[now], strict=True)):
        equal(found, right, f"node {node}")
    equal(said, ending(example.__name__, states), "what the page says")


def main():
    rows = rows_of_page()
    failed = sorted(set(rows) - {example.__name__ for example in EXAMPLES})
    for name in failed:
        print(f"{name}: FAILED, the page has it and no check is here")
    for example in EXAMPLES:
        try:
            check(example, rows[example.__name__])
            print(f"{example.__name__}: ok")
        except (AssertionError, OSError, LookupError, ValueError) as reason:
            failed.append(example.__name__)
            print(f"{example.__name__}: FAILED, {reason!r}")
    return int(bool(failed))


if __name__ == "__main__":
    sys.exit(main())
