"""Networks by the proved makers: each shape by its definition, and what is promised of random ones."""

import itertools
import tempfile
from pathlib import Path

from support import library_alone, raised

import unison
from unison import _packed, _programs
from unison.network import Network

library_alone("many calls")


def pairs(network):
    """The links as a set of pairs of nodes, of which none stands twice."""
    found = {frozenset(link[:2]) for link in network.links}
    assert len(found) == len(network.links)
    return found


def linked(nodes, are_linked):
    """The pairs of nodes for which this holds, either way round."""
    return {frozenset(ends) for ends in itertools.combinations(range(nodes), 2) if are_linked(*ends)}


def near(width, one, other):
    """How far two nodes of a grid are apart, in columns and in rows."""
    return abs(one % width - other % width), abs(one // width - other // width)


def near_round(width, height, one, other):
    """The same on a torus."""
    across, down = near(width, one, other)
    return min(across, width - across), min(down, height - down)


def hex_linked(width, one, other):
    """Whether two hexagonal cells touch: in a row beside each other; in rows beside each other, of which each second one is shifted to the
    right by half a cell, half a cell apart."""
    (x, y), (u, v) = divmod(one, width)[::-1], divmod(other, width)[::-1]
    return abs(y - v) == 0 and abs(x - u) == 1 or abs(y - v) == 1 and abs((2 * x + y % 2) - (2 * u + v % 2)) == 1


#: A network, how many nodes it has, and which two are linked.
SHAPES = [
    (lambda: Network.path(5), 5, lambda a, b: b - a == 1),
    (lambda: Network.ring(5), 5, lambda a, b: b - a in (1, 4)),
    (lambda: Network.star(6), 6, lambda a, b: a == 0),
    (lambda: Network.complete(5), 5, lambda a, b: True),
    (lambda: Network.bipartite(2, 3), 5, lambda a, b: a < 2 <= b),
    (lambda: Network.tree(10, arity=3), 10, lambda a, b: a == (b - 1) // 3),
    (lambda: Network.hypercube(4), 16, lambda a, b: bin(a ^ b).count("1") == 1),
    (lambda: Network.grid(4, 3), 12, lambda a, b: sum(near(4, a, b)) == 1),
    (lambda: Network.grid(4, 3, diagonals=True), 12, lambda a, b: max(near(4, a, b)) == 1),
    (lambda: Network.hex(4, 3), 12, lambda a, b: hex_linked(4, a, b)),
    (lambda: Network.torus(5, 4), 20, lambda a, b: sum(near_round(5, 4, a, b)) == 1),
    (lambda: Network.torus(5, 4, diagonals=True), 20, lambda a, b: max(near_round(5, 4, a, b)) == 1),
    (lambda: Network.small_world(12, near=2, rewire=0, seed=1), 12, lambda a, b: min(b - a, 12 - b + a) <= 2),
    (lambda: Network.gnp(9, 1, 4), 9, lambda a, b: True),
    (lambda: Network.gnp(9, 0.0, 4), 9, lambda a, b: False),
    (lambda: Network.block([4, 0, 5], 1, 0, 4), 9, lambda a, b: (a < 4) == (b < 4)),
    (lambda: Network.block((2, 3), within=0, between=1.0, seed=4), 5, lambda a, b: (a < 2) != (b < 2)),
]


def test_each_shape_is_that_of_its_definition():
    for place, (make, nodes, are_linked) in enumerate(SHAPES):
        made = make()
        assert type(made) is Network and made.nodes == nodes and pairs(made) == linked(nodes, are_linked), place
        assert all(weight == 1 for *_, weight in made.links) and made.set == {}


def degrees(network):
    return [network.degree(node) for node in range(network.nodes)]


def reached(network):
    """How many nodes node 0 is joined with, itself too."""
    seen, todo = {0}, [0]
    while todo:
        for node in network.neighbours(todo.pop()):
            if node not in seen:
                seen.add(node)
                todo.append(node)
    return len(seen)


def test_what_is_promised_of_random_networks():
    some = Network.random(30, links=50, seed=7)
    assert some.nodes == 30 and len(pairs(some)) == 50
    regular = Network.regular(20, degree=4, seed=7)
    assert set(degrees(regular)) == {4} and len(pairs(regular)) == 40
    grown = Network.preferential(30, links_each=3, seed=7)
    assert len(pairs(grown)) == 1 + 2 + 27 * 3
    assert all(sum(other < node for other in grown.neighbours(node)) == min(node, 3) for node in range(30))
    tree = Network.random_tree(30, seed=7)
    assert len(pairs(tree)) == 29 and reached(tree) == 30
    world = Network.small_world(50, near=2, rewire=20.5, seed=7)
    assert len(pairs(world)) == 100 and pairs(world) != pairs(Network.small_world(50, near=2, rewire=0, seed=7))
    half = Network.gnp(40, probability=0.5, seed=7)
    assert 300 < len(pairs(half)) < 480, "780 pairs with the chance 1/2: six deviations of 14 either way"


def test_a_seed_gives_the_same_network_again():
    for make in (
        lambda seed: Network.random(30, 50, seed),
        lambda seed: Network.gnp(30, 0.1, seed),
        lambda seed: Network.block([10, 20], 0.2, 0.1, seed),
        lambda seed: Network.random_tree(30, seed),
        lambda seed: Network.preferential(30, 3, seed),
        lambda seed: Network.regular(30, 4, seed),
        lambda seed: Network.small_world(30, 2, 50, seed),
    ):
        assert make(3).text == make(3).text and make(3).text != make(4).text


def test_weights_are_drawn_by_the_seed():
    plain, weighted = Network.grid(5, 5), Network.grid(5, 5, weights=(3, 5), seed=2)
    assert pairs(plain) == pairs(weighted) and {weight for *_, weight in weighted.links} == {3, 4, 5}
    assert weighted.text == Network.grid(5, 5, weights=[3, 5], seed=2).text != Network.grid(5, 5, weights=(3, 5), seed=3).text
    assert {weight for *_, weight in Network.random(9, 9, 1, weights=(7, 7)).links} == {7}


def test_initial_values():
    assert Network.ring(4, set={"s": {2: 5}}).set == {"s": {2: 5}}
    assert Network.path(70_000, set={"s": {2: 5}}).with_set({"s": 3}).nodes == 70_000


def test_numbers_with_a_point_are_rounded_to_the_digits_that_there_are():
    from decimal import Decimal
    from fractions import Fraction

    for given, told in [(0.1, "0.100000000"), (1 / 3, "0.333333333"), (Fraction(2, 3), "0.666666667"), (Decimal("0.25"), "0.250000000"), (1, "1.000000000"), (0, "0.000000000")]:
        recipe = unison.makers.Recipe("gnp", "gnp", {"n": 9})
        recipe.decimal("probability", given, 1, 9)
        assert recipe.words[-1] == f"--probability={told}", given


def test_what_cannot_be_made_is_told():
    for make, told in [
        (lambda: Network.torus(2, 5), "Network.torus: a torus has 3 rows and 3 columns or more, and 65536 nodes at most"),
        (lambda: Network.grid(0, 5), "Network.grid: a grid has a row and a column, and 65536 nodes at most"),
    ]:
        error = raised(unison.UsageError, make)
        assert str(error) == told and (error.part, error.name) == ("usage", "Usage")
    for make in (lambda: Network.ring(2), lambda: Network.star(0), lambda: Network.regular(5, 3, 1), lambda: Network.tree(5, 0), lambda: Network.hypercube(32)):
        assert str(raised(unison.UsageError, make)).startswith("Network.")


def test_networks_beyond_the_limits_are_large():
    ring = Network.ring(70_000)
    assert type(ring) is unison.LargeNetwork and ring.nodes == 70_000 and ring.ends == 140_000
    assert ring.neighbours(0) == [1, 69_999] and ring.neighbours(69_999) == [0, 69_998] and ring.weights is None
    grid = Network.grid(300, 220)
    assert type(grid) is unison.LargeNetwork and sorted(grid.neighbours(301)) == [1, 300, 302, 601]
    star = Network.star(5_000)
    assert type(star) is unison.LargeNetwork and star.neighbours(0) == list(range(1, 5_000)) and star.neighbours(4_999) == [0]
    cube = Network.hypercube(16)
    assert type(cube) is unison.LargeNetwork and cube.neighbours(5) == sorted(5 ^ 2**digit for digit in range(16))


def words_of(make):
    """The words by which a maker runs a program; none is run."""
    seen = []

    class Stop(Exception):
        pass

    def stop(words):
        seen.extend(words)
        raise Stop

    before, _programs.run = _programs.run, stop
    try:
        raised(Stop, make)
    finally:
        _programs.run = before
    return seen


def test_which_networks_are_beyond_the_limits():
    """More than 65,536 nodes, 262,144 links or 4,096 neighbours of a node; not shapes with weights."""
    for make, words in [
        (lambda: Network.ring(65_536), "generate ring 65536"),
        (lambda: Network.ring(65_537), "generate ring 65537 --packed"),
        (lambda: Network.ring(65_537, weights=(1, 2), seed=1), "generate ring 65537 --seed=1 --weights=1..2"),
        (lambda: Network.torus(256, 256, diagonals=True), "generate torus 256 256 --diagonals"),
        (lambda: Network.torus(256, 257, True), "generate torus 256 257 --diagonals --packed"),
        (lambda: Network.grid(256, 257), "generate grid 256 257 --packed"),
        (lambda: Network.grid(256, 256, True), "generate grid 256 256 --diagonals"),
        (lambda: Network.grid(256, 257, True), "generate grid 256 257 --diagonals --packed"),
        (lambda: Network.hex(256, 256), "generate hex 256 256"),
        (lambda: Network.hex(256, 257), "generate hex 256 257 --packed"),
        (lambda: Network.star(4_097), "generate star 4097"),
        (lambda: Network.star(4_098), "generate star 4098 --packed"),
        (lambda: Network.star(4_098, weights=(1, 2), seed=1), "generate star 4098 --seed=1 --weights=1..2"),
        (lambda: Network.complete(724), "generate complete 724"),
        (lambda: Network.complete(725), "generate complete 725 --packed"),
        (lambda: Network.bipartite(512, 512), "generate bipartite 512 512"),
        (lambda: Network.bipartite(512, 513), "generate bipartite 512 513 --packed"),
        (lambda: Network.bipartite(1, 4_096), "generate bipartite 1 4096"),
        (lambda: Network.bipartite(4_097, 1), "generate bipartite 4097 1 --packed"),
        (lambda: Network.tree(65_537, 2), "generate tree 65537 --arity=2 --packed"),
        (lambda: Network.tree(5_000, 4_096), "generate tree 5000 --arity=4096"),
        (lambda: Network.tree(5_000, 4_097), "generate tree 5000 --arity=4097 --packed"),
        (lambda: Network.hypercube(15), "generate hypercube 15"),
        (lambda: Network.hypercube(16), "generate hypercube 16 --packed"),
        (lambda: Network.random_tree(65_536, 1), "generate random-tree 65536 --seed=1"),
        (lambda: Network.random_tree(65_537, 1), "generate random-tree 65537 --seed=1 --packed"),
        (lambda: Network.random(1000, 262_144, 1), "generate random 1000 --links=262144 --seed=1"),
        (lambda: Network.random(1000, 262_145, 1), "generate random 1000 --links=262145 --seed=1 --packed"),
        (lambda: Network.random(1000, 262_145, 1, weights=(2, 9)), "generate random 1000 --links=262145 --seed=1 --weights=2..9 --packed"),
        (lambda: Network.gnp(70_000, 1, 1), "generate gnp 70000 --probability=1.000000000 --seed=1"),
        (lambda: Network.block([3, 4], 0.25, 1, 1), "generate block 3,4 --within=0.250000000 --between=1.000000000 --seed=1"),
        (lambda: Network.small_world(1024, 256, 0, 1), "generate small-world 1024 --near=256 --rewire=0.000000% --seed=1"),
        (lambda: Network.small_world(1025, 256, 0, 1), "generate small-world 1025 --near=256 --rewire=0.000000% --seed=1 --packed"),
        (lambda: Network.preferential(65_538, 4, 1), "generate preferential 65538 --links-each=4 --seed=1 --packed"),
        (lambda: Network.preferential(65_536, 4, 1), "generate preferential 65536 --links-each=4 --seed=1"),
        (lambda: Network.preferential(65_536, 5, 1), "generate preferential 65536 --links-each=5 --seed=1 --packed"),
        (lambda: Network.regular(70_000, 2, 1), "generate regular 70000 --degree=2 --seed=1 --packed"),
        (lambda: Network.regular(65_536, 8, 1), "generate regular 65536 --degree=8 --seed=1"),
        (lambda: Network.regular(60_000, 9, 1), "generate regular 60000 --degree=9 --seed=1 --packed"),
    ]:
        assert words_of(make) == words.split(), words


def test_random_networks_with_weights_beyond_the_limits():
    tree = Network.random_tree(70_000, 1, weights=(7, 9))
    assert type(tree) is unison.LargeNetwork and tree.ends == 139_998 and set(tree.weights) == {7, 8, 9}
    assert all(tree.weight(0, node) == tree.weight(node, 0) for node in tree.neighbours(0))
    regular = Network.regular(70_000, 3, 1)
    assert {regular.degree(node) for node in (0, 1, 35_000, 69_999)} == {3} and regular.ends == 210_000
    complete = Network.gnp(800, 1, 1)
    assert type(complete) is unison.LargeNetwork and complete.ends == 800 * 799 and complete.neighbours(799) == list(range(799))
    assert type(Network.gnp(700, 1, 1)) is Network
    sides = Network.block([600, 600], 0, 1, 1, weights=(3, 3))
    assert type(sides) is unison.LargeNetwork and sides.ends == 720_000 and set(sides.weights) == {3}
    assert sides.neighbours(600) == list(range(600))


def test_large_makers_make_the_same_networks():
    """With `--packed` and without it, for the same numbers and seed."""
    for words, small in [
        (["ring", "9"], Network.ring(9)),
        (["torus", "5", "4", "--diagonals"], Network.torus(5, 4, diagonals=True)),
        (["grid", "5", "4", "--diagonals"], Network.grid(5, 4, diagonals=True)),
        (["hex", "5", "4"], Network.hex(5, 4)),
        (["star", "6"], Network.star(6)),
        (["complete", "6"], Network.complete(6)),
        (["bipartite", "3", "4"], Network.bipartite(3, 4)),
        (["tree", "20", "--arity", "3"], Network.tree(20, 3)),
        (["hypercube", "4"], Network.hypercube(4)),
        (["random", "30", "--links", "50", "--seed", "7"], Network.random(30, 50, 7)),
        (["preferential", "30", "--links-each", "3", "--seed", "7"], Network.preferential(30, 3, 7)),
        (["random-tree", "30", "--seed", "7"], Network.random_tree(30, 7)),
        (["small-world", "30", "--near", "2", "--rewire", "50%", "--seed", "7"], Network.small_world(30, 2, 50, 7)),
    ]:
        large = _packed.read(_programs.run(["generate", *words, "--packed"]))
        assert [sorted(large.neighbours(node)) for node in range(large.nodes)] == [small.neighbours(node) for node in range(small.nodes)], words


def test_arrays_are_written_as_generate_packs_them():
    assert _packed.write(unison.Network.from_edges([0, 1, 2, 3, 4], [1, 2, 3, 4, 0])) == _programs.run(["generate", "ring", "5", "--packed"])
    weighted = unison.Network.from_edges([0, 1], [1, 2], [7, 9])
    again = _packed.read(_packed.write(weighted), {"s": 4})
    assert (list(again.indptr), list(again.indices), list(again.weights)) == ([0, 1, 3, 4], [1, 0, 2, 1], [7, 7, 9, 9])


def test_packed_files():
    """What `save` writes is read again; a file that is none is refused as the commands refuse it."""
    with tempfile.TemporaryDirectory() as folder:
        file, names = Path(folder, "x.net"), Path(folder, "x.names")
        file.write_bytes(_programs.run(["generate", "path", "3", "--packed"]))
        names.write_text("ann\nbob\ncid\n")
        net = Network.from_file(file, names)
        assert type(net) is unison.LargeNetwork and net.neighbours("bob") == ["ann", "cid"] and net.weights is None
        weighted = unison.Network.from_edges([0, 1], [1, 2], [7, 9], set={"s": 1})
        again = Network.from_file(weighted.save(file))
        assert list(again.weights) == [7, 7, 9, 9] and again.neighbours(1) == [0, 2] and again.set == {"s": {0: 1, 1: 1, 2: 1}}
        file.write_bytes(_programs.run(["init", "-", "--set=t=2:5", "--phase=1", "--packed"], file.read_bytes()))
        told = Network.from_file(file)
        assert told.set == {"s": {0: 1, 1: 1, 2: 1}, "t": {2: 5}} and told.phase == 1 and told.text.startswith("links = [\n    [0, 1, 7],")
        program = unison.Program("field s = 0; field t = 3; next s = s; next t = t;")
        assert unison.lockstep(program, told, 0).by_name("t") == {0: 3, 1: 3, 2: 5}
        whole = weighted.with_set({}).save(file).read_bytes()
        for place, wrong, name in [
            (8, whole[:20], "Header"),
            (24, b"\4", "Header"),
            (24, b"\2", "Settings"),
            (0, whole[:24] + b"\3" + whole[25:] + b"nodes = 2\nlinks = []\n", "Settings"),
            (0, whole[:24] + b"\3" + whole[25:] + b"nodes = 1\nlinks = []\nset.s = [[3, 1]]\n", "BadNode"),
            (0, whole[:24] + b"\3" + whole[25:] + b"nodes = 1\nlinks = []\nset.s = [[0, 1], [0, 2]]\n", "SetTwice"),
            (8, bytes(8), "NodeCount"),
            (0, whole + b"x", "Length"),
            (0, whole[:-1], "Length"),
            (32, b"\1", "Offsets"),
            (64, b"\3", "Neighbour"),
        ]:
            file.write_bytes(wrong if len(wrong) > 9 else whole[:place] + wrong + whole[place + len(wrong) :])
            kind = unison.PlanError if name in ("BadNode", "SetTwice") else unison.NetworkError
            error = raised(kind, lambda: Network.from_file(file))
            assert error.name == name, (name, error)
        text = unison.Network.path(3).save(Path(folder, "x.toml"))
        assert Network.from_file(text).text == unison.Network.path(3).text


def test_a_network_that_is_too_large_becomes_a_large_one():
    """More than 65,536 nodes, than 262,144 links, or than 4,096 links of one node."""
    ring = Network(70_000, [(node, (node + 1) % 70_000) for node in range(70_000)], set={"dist": {0: 0}})
    assert type(ring) is unison.LargeNetwork and ring.neighbours(0) == [1, 69_999] and ring.nodes == 70_000
    star = Network(4098, ((0, node, node) for node in range(1, 4098)))
    assert type(star) is unison.LargeNetwork and star.degree(0) == 4097 and int(star.weights[4096]) == 4097
    assert type(Network(4097, [(0, node) for node in range(1, 4097)])) is Network
    named = Network([f"n{node}" for node in range(4098)], [("n0", f"n{node}") for node in range(1, 4098)], set={"dist": {"n0": 0}})
    distance = unison.Program("field dist = 4294967295; next dist = (dist min least (n.dist + 1));")
    assert unison.lockstep(distance, named, 1).by_name("dist")["n4097"] == 1 and named.neighbours("n5") == ["n0"]
    looped = [(0, node) for node in range(1, 4098)] + [(7, 7)]
    error = raised(unison.NetworkError, lambda: Network(4098, looped))
    assert (error.name, str(error)) == ("SelfLink", "Network: links[4097] joins node 7 with itself, and no link does (network SelfLink)")
    error = raised(unison.NetworkError, lambda: Network(4098, [*looped[:-1], (3, 0)]))
    assert (error.name, str(error)) == ("LinkTwice", "Network: links[4097] joins the same nodes as links[2], 3 and 0 (network LinkTwice)")
