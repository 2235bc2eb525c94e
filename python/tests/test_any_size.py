"""One kind of network: what is kept as arrays, of any size and of any rows, goes where a network file's network goes. Expected values are worked
out by hand, or are those of the same network as a file."""

import pickle
from array import array

from support import DISTANCE, SWAP, raised, wanted

import unison
from unison import Network, _files, schedule

FAR = unison.Program(DISTANCE)
SUM = unison.Program(SWAP)
TAKEN = "lockstep, watch, count, sweep, settle, cuts and image take any, explain and verify any size"


def one_way(**how):
    """Node 0 has the neighbour 1, and node 1 none."""
    return Network.from_arrays([0, 1, 1], [1], **how)


def row(**how):
    """Three nodes in a row, as arrays."""
    return Network.from_edges([0, 1], [1, 2], **how)


def test_all_networks_are_networks():
    star = Network(4098, [(0, node) for node in range(1, 4098)])
    for network in (star, one_way(), row(), unison.LargeNetwork([0, 1, 2], [1, 0]), Network.from_scipy(Rows())):
        assert isinstance(network, Network), network
        again = pickle.loads(pickle.dumps(network))
        assert isinstance(again, Network) and again.neighbours(0) == network.neighbours(0)
    assert repr(star) == "<Network of 4098 nodes and 8194 neighbours>"
    assert repr(Network(2, [(0, 1)])) == "<Network of 2 nodes and 1 links>"
    assert type(unison.LargeNetwork.ring(3)) is Network and unison.LargeNetwork.from_text("nodes = 1\nlinks = []\n").nodes == 1


class Rows:
    """What is taken of a sparse matrix of SciPy, of one entry."""

    shape, indptr, indices, data = (2, 2), [0, 1, 1], [1], [5]

    def tocsr(self):
        return self


def test_all_networks_tell_the_same():
    links, how = [(0, 1, 5), (1, 2, 7)], {"set": {"s": {0: 4}}}
    for network in (Network(3, links, **how), Network.from_arrays([0, 1, 3, 4], [1, 0, 2, 1], [5, 5, 7, 7], **how)):
        assert (network.nodes, network.ends, network.phase) == (3, 4, 0)
        assert (list(network.indptr), list(network.indices), list(network.weights)) == ([0, 1, 3, 4], [1, 0, 2, 1], [5, 5, 7, 7])
        assert network.links == tuple(links) and network.set == {"s": {0: 4}}
        assert network.neighbours(1) == [0, 2] and network.degree(1) == 2
        assert network.slot(1, 2) == 1 and network.weight(1, 2) == 7 and network.weight(1, 0) == 5
        assert str(raised(unison.faults.Missing, lambda: network.slot(0, 2))) == "node 0 has no neighbour 2"
        assert network.with_more({"t": 9}).set == {"s": {0: 4}, "t": {0: 9, 1: 9, 2: 9}}
        assert network.with_more({"s": [1, 2, 3]}).set == {"s": {0: 1, 1: 2, 2: 3}}
        assert network.with_set({"t": {1: 8}}).set == {"t": {1: 8}} and network.set == {"s": {0: 4}}
    named = [kind(["x", "y"]) for kind in (lambda names: Network(names, [("x", "y")]), lambda names: Network.from_edges([0], [1], names=names))]
    for network in named:
        assert network.with_more({"s": {"y": 3}}).set == {"s": {1: 3}} and network.slot("y", "x") == 0 and network.weight("y", "x") == 1


def test_links_of_arrays():
    assert Network.from_edges([0, 0, 1], [1, 1, 1]).links == ((0, 1, 1), (0, 1, 1), (1, 1, 1)), "two between two nodes, and one of a node with itself"
    assert Network.from_edges([2, 0], [1, 2], [3, 4]).links == ((0, 2, 4), (1, 2, 3))
    twice = Network.from_edges([0, 0, 0], [2, 1, 2], [3, 5, 9])
    assert twice.neighbours(0) == [1, 2, 2] and twice.slot(0, 2) == 1 and twice.weight(0, 2) == 3 and twice.weight(2, 0) == 3
    for bad in (one_way(), Network.from_arrays([0, 1, 2], [1, 0], [7, 8])):
        error = raised(unison.NetworkError, lambda: bad.links)
        assert (error.part, error.name) == ("network", "OneWay")
        assert str(error).startswith(f"Network.links: network is {bad!r}: expected a network whose links lead both ways, with one weight; ")


def test_graphs_of_networkx():
    networkx = wanted("networkx")
    arrays = Network.from_edges([0, 1], [1, 2], [5, 7], names=["ann", "bob", "cid"], set={"s": {"cid": 4}})
    graph = arrays.to_networkx(unison.lockstep(SUM, arrays, 0))
    assert list(graph.edges(data="weight")) == [("ann", "bob", 5), ("bob", "cid", 7)]
    assert networkx.get_node_attributes(graph, "s") == {"ann": 0, "bob": 0, "cid": 4}
    assert raised(unison.NetworkError, one_way().to_networkx).name == "OneWay"


def test_rounds_of_rows_that_no_network_file_says():
    """Node 0 sees node 1, which sees none: the distance goes one way."""
    network = one_way(set={"dist": {1: 0}})
    assert unison.lockstep(FAR, network, 1).by_name("dist") == {0: 1, 1: 0}
    assert unison.settle(FAR, network) == ("settles", 1, 0)
    assert unison.settle(FAR, network, limit=0) == ("open", 0, 0)
    counts = unison.count(FAR, network, 1, sum="dist", most="dist")
    assert counts.columns == ("round", "0", "1", "4294967295", "sum dist", "most dist")
    assert counts.rows == [(0, 1, 0, 1, 4294967295, 4294967295), (1, 1, 1, 0, 1, 1)]
    assert unison.count(FAR, network, 9, until={"none:dist": unison.NONE}).rows == [(0, 1, 0, 1), (1, 1, 1, 0)]
    assert unison.cuts(FAR, network, 1) == []
    place = DISTANCE.index("+") + 1
    assert unison.cuts(FAR, one_way(names=["x", "y"]), 2) == [(1, place, "+", 1, "x", 2)], "4294967295 and 1, at node 0 alone"
    assert unison.image(FAR, network, 1).svg.startswith("<svg ")
    assert counts.image() == unison.image(FAR, network, 1, counts=True)
    swap = Network.from_arrays([0, 1, 2], [1, 0], set={"s": [5, 7]})
    assert unison.settle(SUM, swap) == ("repeats", 0, 2)


def test_pictures_are_those_of_the_same_network_as_a_file():
    arrays, file = row(set={"dist": {0: 0}}), Network(3, [(0, 1), (1, 2)], set={"dist": {0: 0}})
    for how in ({}, {"grid": 3}, {"grid": 3, "animate": True}, {"counts": True}, {"colours": {0: "teal"}}):
        assert unison.image(FAR, arrays, 2, **how) == unison.image(FAR, file, 2, **how), how


def test_reports_to_go_on_from():
    network, text = one_way(set={"dist": {1: 0}}), "round 3\n0 dist=9\n1 dist=4\n"
    states = unison.States.from_values(FAR, [[9], [4]], round=3)
    for from_ in (text, text.encode(), states):
        assert unison.lockstep(FAR, network, 4, from_=from_).by_name("dist") == {0: 5, 1: 4}
        assert [list(seen["dist"]) for seen in unison.watch(FAR, network, [3, 5], from_=from_)] == [[9, 4], [5, 4]]
        assert unison.count(FAR, network, [3, 4], from_=from_).rows == [(3, 1, 0, 1), (4, 1, 1, 0)]
        assert unison.settle(FAR, network, from_=from_) == ("settles", 4, 0)
        assert unison.cuts(FAR, network, 4, from_=from_) == []
        assert raised(unison.RunError, lambda: unison.settle(FAR, network, 2, from_=from_)).name == "LimitBelowStart"
        assert raised(unison.RunError, lambda: unison.lockstep(FAR, network, 2, from_=from_)).name == "RoundsBelowStart"
    for bad in ("round 3\n0 dist=9\n", "round x\n", text + "2 dist=1\n"):
        for call in (unison.lockstep, unison.count, unison.cuts):
            assert raised(unison.ReportError, lambda: call(FAR, network, 4, from_=bad)).name == "BadLine", bad
    assert raised(unison.ReportError, lambda: unison.lockstep(FAR, network, 4, from_="round 1000000001\n0 dist=9\n1 dist=4\n")).name == "TooManyRounds"


def test_initial_values_of_each_form():
    """One for all, some, and all; some of them in a file, where they are many. Each is counted, so that a program has read it."""
    few = _files.FEW
    try:
        for _files.FEW in (few, 1):
            for given, rows in (
                (7, [(0, 0, 0, 3)]),
                ({0: 7, 2: 2}, [(0, 1, 1, 1)]),
                ([2, 2, 7], [(0, 0, 2, 1)]),
                (array("I", [1, 2, 7]), [(0, 1, 1, 1)]),
                ({}, [(0, 3, 0, 0)]),
            ):
                counts = unison.count(unison.Program("field s = 1;"), row(set={"s": given}), 0)
                found = dict(zip(counts.columns, counts.rows[0]))
                assert [(0, *(found.get(value, 0) for value in "127"))] == rows, (given, _files.FEW)
            model = unison.Model("const start = 0; field s = start; field t = 4; next s = s;")
            assert unison.count(model, row(set={"s": {0: 9, 2: 9}, "t": 1}), 0, "s", constants={"start": [5, 6]}, sum="t").rows == [
                (5, 0, 1, 0, 2, 3),
                (6, 0, 0, 1, 2, 3),
            ], "nodes without a value begin as each run's program says"
    finally:
        _files.FEW = few
    for call in (unison.settle, lambda rules, network: unison.cuts(rules, network, 1), lambda rules, network: unison.image(rules, network, 1)):
        assert raised(unison.PlanError, lambda: call(SUM, row(set={"t": 1}))).name == "UnknownField"


def test_what_needs_a_network_file_takes_what_one_says():
    names, how = ["ann", "bob", "cid"], {"s": {"ann": 1, "bob": 2, "cid": 4}}
    arrays = Network.from_edges([0, 1], [1, 2], [5, 6], names=names, set=how)
    file = Network(names, [("ann", "bob", 5), ("bob", "cid", 6)], set=how)
    steps = schedule.turn(arrays, "bob")
    assert steps == schedule.turn(file, "bob") and schedule.sweep(arrays) == schedule.sweep(file)
    assert unison.replay(SUM, arrays, steps).by_name("s") == {"ann": 1, "bob": 5, "cid": 4}
    trace = ["bob reads ann: s=1", "bob reads cid: s=4", "bob moves: s=5"]
    for call in (
        lambda network: unison.page(SUM, network, 1),
        lambda network: unison.explain(SUM, network, steps),
        lambda network: unison.naive(SUM, network, steps),
        lambda network: unison.verify(SUM, network, trace),
        lambda network: unison.why(SUM, network, rounds=2),
        lambda network: network.text,
    ):
        assert call(arrays) == call(file)
    assert unison.verify(SUM, arrays, trace).holds
    assert unison.replay(SUM, arrays.with_set({"s": 3}), steps).by_name("s") == {"ann": 3, "bob": 6, "cid": 3}, "no values of the network before"


def test_what_needs_a_network_file_refuses_others():
    parallel, self_loop = Network.from_edges([0, 0], [1, 1]), Network.from_edges([0, 1], [1, 1])
    for network, name, number, wanted in (
        (one_way(), "OneWay", 0, "whose links lead both ways, with one weight"),
        (parallel, "LinkTwice", 54, "with one link between two nodes"),
        (self_loop, "SelfLink", 53, "without links of a node with itself"),
        (Network.ring(65_537), "NodeCount", 51, "of 65536 nodes at most"),
    ):
        for call, ask in (("replay", lambda: unison.replay(SUM, network, "")), ("page", lambda: unison.page(SUM, network, 1)), ("why", lambda: unison.why(SUM, network))):
            error = raised(unison.NetworkError, ask)
            assert (error.part, error.name, error.number) == ("network", name, number)
            assert str(error) == f"{call}: network is {network!r}: expected a network {wanted}; {TAKEN} (network {name})"


def test_steps_on_networks_of_any_size():
    """A ring of 70,000 nodes, of which node 0 moves twice and its neighbours once."""
    ring = Network.ring(70_000, set={"s": {0: 5, 1: 7, 69_999: 9}})
    turns = [step for node in (0, 1, 69_999, 0) for step in schedule.turn(ring, node)]
    told = unison.explain(SUM, ring, turns).splitlines()
    assert told[0] == "1  node 0 reads node 1, which has moved as often: takes s=7"
    assert told[2] == "3  node 0 moves: s=16, its state of round 1", "7 and 9"
    assert told[5] == "6  node 1 moves: s=5, its state of round 1", "5 and 0"
    assert told[11] == "12  node 0 moves: s=10, its state of round 2", "5 and 5"
    trace = ["0 reads 1: s=7", "0 reads 69999: s=9", "0 moves: s=16", "1 reads 0: s=5", "1 reads 2: s=0", "1 moves: s=5"]
    assert unison.verify(SUM, ring, trace).holds
    verdict = unison.verify(SUM, ring, [*trace[:5], "1 moves: s=6"])
    assert (verdict.holds, verdict.line) == (False, 6)
    later = unison.lockstep(SUM, ring, 3)
    assert unison.verify(SUM, ring, ["0 reads 1: s=15"], from_=later).holds, "10 of node 0 and 5 of node 2 in round 2"
    assert unison.verify(SUM, ring, ["0 reads 1: s=14"], from_=later).line == 1


def test_steps_want_links_that_lead_both_ways():
    wanted = "expected a network whose links lead both ways, with one weight, and join two nodes once"
    for network, name, number, told in (
        (one_way(), "OneWay", 0, "node 0 has a link to node 1 that node 1 does not have, or has with another weight"),
        (Network.from_edges([0, 0], [1, 1]), "LinkTwice", 54, "two links join node 0 and node 1"),
        (Network.from_edges([0, 1], [1, 1]), "SelfLink", 53, "a link joins node 1 with itself"),
        (Network.from_arrays([0, 2, 3, 4], [2, 1, 0, 0]), "Unordered", 0, "the neighbours of node 0 do not stand by rising number"),
    ):
        for call, ask in (("explain", lambda: unison.explain(SUM, network, "")), ("verify", lambda: unison.verify(SUM, network, ""))):
            error = raised(unison.NetworkError, ask)
            assert (error.part, error.name, error.number) == ("network", name, number)
            assert str(error) == f"{call}: network: {told}: {wanted} (network {name})"
    assert raised(unison.PlanError, lambda: unison.explain(SUM, row(set={"t": 1}), "")).name == "UnknownField"


def test_texts_that_say_more_than_a_network_file_has():
    """A text of 65,537 nodes, which the programs refuse as a network file; what else is wrong with such a text is told."""
    head = "nodes = 65537\nlinks = [[0, 65536, 7], [65536, 5]]\n"
    network = Network.from_text(head + "phase = 0\n[set]\ns = [[0, 5], [65536, 9]]\n")
    assert network.nodes == 65_537 and network.links == ((0, 65_536, 7), (5, 65_536, 1)) and network.set == {"s": {0: 5, 65_536: 9}}
    assert Network.from_text(head, names=map(str, range(100, 65_637))).neighbours("65636") == ["100", "105"]
    assert str(raised(ValueError, lambda: Network.from_text(head, names=["x"]))) == "1 names are given, and there are 65537 nodes"
    for text, kind, name in (
        ("nodes = 65537\nlinks = [[0, 65537]]\n", unison.NetworkError, "BadLink"),
        ("nodes = 65537\nlinks = [[7, 7]]\n", unison.NetworkError, "SelfLink"),
        ("nodes = 65537\nlinks = [[0, 1], [1, 0, 4]]\n", unison.NetworkError, "LinkTwice"),
        ("nodes = 65537\nlinks = [[0, 1, -1]]\n", unison.NetworkError, "BadWeight"),
        ("nodes = 65537\nlinks = []\nphase = 3\n", unison.NetworkError, "BadPhase"),
        ("nodes = 65537\nlinks = [[0]]\n", unison.NetworkError, "BadShape"),
        ("nodes = 65537\n", unison.NetworkError, "BadShape"),
        ("nodes = 4294967296\nlinks = []\n", unison.NetworkError, "NodeCount"),
        (head + "[set]\ns = [[0, 1], [0, 2]]\n", unison.PlanError, "SetTwice"),
        (head + "[set]\ns = [[65537, 1]]\n", unison.faults.Missing, ""),
        (head + "[set]\ns = [[0, -1]]\n", ValueError, ""),
    ):
        error = raised(kind, lambda: Network.from_text(text))
        assert getattr(error, "name", "") == name, (text, error)


def test_more_nodes_than_a_network_file_has():
    """Distances from a node of a ring: 1, then 2 at each distance."""
    ring = Network.ring(70_000, set={"dist": {69_999: 0}})
    assert isinstance(ring, Network) and ring.slot(0, 69_999) == 1 and ring.set == {"dist": {69_999: 0}}
    assert unison.count(FAR, ring, [2]).at(2) == {"round": 2, "0": 1, "1": 2, "2": 2, str(unison.NONE): 69_995}
    found = unison.cuts(FAR, ring, 1)
    assert [(cut.operator, cut.round, cut.node, cut.times) for cut in found] == [("+", 1, 0, 70_000)], "each node has a neighbour that is not reached"
