"""Graphs of NetworkX: to and fro, and what NetworkX computes of them beside the cookbook's programs."""

from support import DISTANCE, EXAMPLES, library_alone, program, raised, skip, wanted

import unison

library_alone("many calls")


def graphs():
    """Graphs that NetworkX has, with names of all kinds."""
    nx = wanted("networkx")
    return {
        "karate": nx.karate_club_graph(),
        "florence": nx.florentine_families_graph(),
        "petersen": nx.petersen_graph(),
        "les miserables": nx.les_miserables_graph(),
        "southern women": nx.davis_southern_women_graph(),
        "grid": nx.grid_2d_graph(5, 4),
        "torus": nx.grid_2d_graph(4, 5, periodic=True),
        "hypercube": nx.hypercube_graph(4),
        "tree": nx.balanced_tree(3, 3),
        "barbell": nx.barbell_graph(5, 3),
        "parts": nx.disjoint_union_all([nx.path_graph(4), nx.cycle_graph(5), nx.empty_graph(2), nx.complete_graph(3)]),
        "drawn": nx.gnm_random_graph(60, 70, seed=3),
        "one": nx.empty_graph(1),
    }


def whole(name, graph, rules, **how):
    """The values at the end of a program on a graph, by field and name."""
    states = unison.lockstep(program(f"cookbook/{rules}"), unison.Network.from_networkx(graph, **how), 5000)
    return {field: states.by_name(field) for field in states.fields}


def test_graphs_go_to_and_fro():
    nx = wanted("networkx")
    for name, graph in graphs().items():
        net = unison.Network.from_networkx(graph)
        back = net.to_networkx()
        assert list(back) == list(graph), name
        assert nx.utils.edges_equal(
            [(one, other, {"weight": weight}) for one, other, weight in graph.edges(data="weight", default=1)],
            list(back.edges(data=True)),
        ), name
        assert {node: net.degree(node) for node in graph} == dict(graph.degree()), name
        assert all(set(net.neighbours(node)) == set(graph[node]) for node in graph), name
        again = unison.Network.from_networkx(back)
        assert unison.Network.from_networkx(again.to_networkx()).text == again.text, name


def test_distances_are_those_of_networkx():
    nx = wanted("networkx")
    for name, graph in graphs().items():
        for source in list(graph)[:: max(1, len(graph) // 4)]:
            found = whole(name, graph, "distances", weight=None, set={"dist": {source: 0}})["dist"]
            right = nx.single_source_shortest_path_length(graph, source)
            assert found == {node: right.get(node, unison.NONE) for node in graph}, (name, source)


def test_shortest_paths_are_those_of_networkx():
    nx = wanted("networkx")
    for name, graph in graphs().items():
        source = list(graph)[-1]
        found = whole(name, graph, "shortest_paths", set={"dist": {source: 0}})
        right = nx.single_source_dijkstra_path_length(graph, source)
        assert found["dist"] == {node: right.get(node, unison.NONE) for node in graph}, name
        order = list(graph)
        for node, number in found["parent"].items():
            if number == unison.NONE:
                assert node == source or node not in right, (name, node)
            else:
                parent = order[number]
                assert right[parent] + graph.edges[parent, node].get("weight", 1) == right[node], (name, node)


def test_components_are_those_of_networkx():
    nx = wanted("networkx")
    for name, graph in graphs().items():
        order = list(graph)
        found = whole(name, graph, "components")["part"]
        right = {node: min(map(order.index, part)) for part in nx.connected_components(graph) for node in part}
        assert found == right, name


def test_colourings_are_valid_and_greedy():
    nx = wanted("networkx")
    for name, graph in graphs().items():
        found = whole(name, graph, "colouring")
        assert all(found["done"].values()), name
        colour = found["colour"]
        assert all(colour[one] != colour[other] for one, other in graph.edges()), name
        assert colour == nx.greedy_color(graph, strategy=lambda graph, _: list(graph)), name


def test_cores_are_those_of_networkx():
    nx = wanted("networkx")
    for name, graph in graphs().items():
        assert whole(name, graph, "k_core")["core"] == nx.core_number(graph), name


def test_independent_sets_are_maximal():
    for name, graph in graphs().items():
        state = whole(name, graph, "independent_set")["state"]
        chosen = {node for node, value in state.items() if value == 1}
        assert set(state.values()) <= {1, 2}, name
        assert not any(one in chosen and other in chosen for one, other in graph.edges()), name
        assert all(node in chosen or chosen & set(graph[node]) for node in graph), name


def test_eccentricities_are_those_of_networkx():
    nx = wanted("networkx")
    for name in ("karate", "petersen", "grid", "barbell"):
        graph = graphs()[name]
        net = unison.Network.from_networkx(graph, weight=None, set={"nodes": len(graph)})
        states = unison.lockstep(program("cookbook/eccentricity"), net, (len(graph) + 1) * len(graph))
        assert states.by_name("ecc") == nx.eccentricity(graph), name
        assert set(states.by_name("diameter").values()) == {nx.diameter(graph)}, name


def test_values_go_into_the_graph():
    wanted("networkx")
    net = unison.Network(["ann", "bob", "cid"], [("ann", "bob", 3), ("bob", "cid")], set={"dist": {"ann": 0}})
    graph = net.to_networkx(unison.lockstep(unison.Program(DISTANCE), net, 2))
    assert dict(graph.nodes(data=True)) == {"ann": {"dist": 0}, "bob": {"dist": 1}, "cid": {"dist": 2}}
    assert sorted(graph.edges(data="weight")) == [("ann", "bob", 3), ("bob", "cid", 1)]
    watched = unison.watch(unison.Program(DISTANCE), net, [0, 1])
    assert net.to_networkx(watched.at(1)).nodes["bob"]["dist"] == 1
    raised(ValueError, lambda: unison.Network(2, []).to_networkx(watched.at(1)))


def test_attributes_of_nodes_are_initial_values():
    nx = wanted("networkx")
    graph = nx.path_graph(["x", "y", "z"])
    nx.set_node_attributes(graph, {"x": 5, "z": 2}, "s")
    net = unison.Network.from_networkx(graph, set={"s": nx.get_node_attributes(graph, "s")}, phase=1)
    assert (net.set, net.phase) == ({"s": {0: 5, 2: 2}}, 1)


def test_what_a_network_cannot_be_is_told():
    nx = wanted("networkx")
    self_loop = nx.Graph([("a", "a"), ("a", "b")])
    assert "'a' with itself" in str(raised(ValueError, lambda: unison.Network.from_networkx(self_loop)))
    assert unison.Network.from_networkx(self_loop, drop_loops=True).links == ((0, 1, 1),)
    both = nx.DiGraph([("a", "b", {"weight": 2}), ("b", "a", {"weight": 5})])
    assert "directed" in str(raised(ValueError, lambda: unison.Network.from_networkx(both)))
    assert "'a' and 'b'" in str(raised(ValueError, lambda: unison.Network.from_networkx(both, undirected=True)).args[0].replace("'b' and 'a'", "'a' and 'b'"))
    several = nx.MultiGraph([("a", "b", {"weight": 4}), ("b", "c", {"weight": 1}), ("b", "a", {"weight": 9}), ("a", "b", {"weight": 2})])
    raised(ValueError, lambda: unison.Network.from_networkx(several))
    for kept, old, weight in [("min", "least", 2), ("max", "most", 9), ("first", "first", 4)]:
        assert unison.Network.from_networkx(several, parallel=kept).links == ((0, 1, weight), (1, 2, 1)), kept
        assert unison.Network.from_networkx(several, merge_doubles=old).links == ((0, 1, weight), (1, 2, 1)), f"{old}, by an old name"
    assert unison.Network.from_networkx(both, undirected=True, parallel="max").links == ((0, 1, 5),)
    for wrong in ({"parallel": "sum"}, {"parallel": "least"}, {"merge_doubles": "sum"}, {"merge_doubles": "min"}, {"parallel": "min", "merge_doubles": "least"}):
        raised(ValueError, lambda: unison.Network.from_networkx(several, **wrong))
    half = nx.Graph([("a", "b", {"weight": 0.5})])
    assert "no whole number" in str(raised(ValueError, lambda: unison.Network.from_networkx(half)))
    assert unison.Network.from_networkx(half, scale=100).links == ((0, 1, 50),)
    assert unison.Network.from_networkx(half, weight=None).links == ((0, 1, 1),)
    large = nx.Graph([("a", "b", {"weight": 2**32})])
    assert raised(unison.NetworkError, lambda: unison.Network.from_networkx(large)).name == "BadWeight"
    assert raised(unison.NetworkError, lambda: unison.Network.from_networkx(nx.Graph())).name == "NodeCount"


def test_the_club_of_networkx_is_that_of_the_examples():
    """Zachary's club stands in examples/karate.txt, too: the same pairs by name, whatever the order."""
    nx = wanted("networkx")
    ours = unison.Network.from_file(EXAMPLES / "karate.toml", names=EXAMPLES / "karate.names")
    names = ours.names
    links = {frozenset((int(names[one]) - 1, int(names[other]) - 1)) for one, other, _ in ours.links}
    if nx.karate_club_graph().number_of_edges() != len(links):
        skip("this NetworkX has another club")
    assert links == {frozenset(edge) for edge in nx.karate_club_graph().edges()}
