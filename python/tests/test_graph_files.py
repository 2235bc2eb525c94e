"""Files of graphs that NetworkX reads and writes: GraphML, GEXF and Pajek."""

import pathlib
import tempfile

from support import DISTANCE, raised, wanted

import unison

GRAPHML = """<?xml version="1.0" encoding="UTF-8"?>
<graphml xmlns="http://graphml.graphdrawing.org/xmlns">
<key id="w" for="edge" attr.name="weight" attr.type="int"/>
<key id="l" for="node" attr.name="label" attr.type="string"/>
<graph edgedefault="{kind}">
<node id="n7"><data key="l">ann</data></node><node id="n3"><data key="l">bob</data></node><node id="n5"><data key="l">{third}</data></node>
<edge source="n7" target="n3"><data key="w">4</data></edge><edge source="n3" target="n5"/>{more}
</graph></graphml>
"""
GEXF = """<?xml version="1.0" encoding="UTF-8"?>
<gexf xmlns="http://www.gexf.net/1.2draft" version="1.2"><graph defaultedgetype="undirected">
<nodes><node id="10" label="ann"/><node id="11" label="bob"/><node id="12" label="cid"/></nodes>
<edges><edge id="0" source="10" target="11" weight="4.0"/><edge id="1" source="11" target="12" weight="2.0"/></edges>
</graph></gexf>
"""
PAJEK = '*Vertices 3\n1 "ann"\n2 "bob"\n3 "cid"\n*Edges\n1 2 4\n2 3 2\n'


def folder():
    return pathlib.Path(tempfile.mkdtemp())


def file_of(name, text):
    path = folder() / name
    path.write_text(text)
    return path


def graphml(kind="undirected", third="cid", more="", name="three.graphml"):
    return file_of(name, GRAPHML.format(kind=kind, third=third, more=more))


def test_a_graphml_file_is_read():
    wanted("networkx")
    network = unison.Network.from_graph_file(graphml())
    assert list(network.names) == ["ann", "bob", "cid"]
    assert network.links == ((0, 1, 4), (1, 2, 1))


def test_nodes_without_labels_of_their_own_have_their_ids():
    wanted("networkx")
    assert list(unison.Network.from_graph_file(graphml(third="bob")).names) == ["n7", "n3", "n5"]


def test_gexf_and_pajek_files_are_read():
    wanted("networkx")
    for name, text in (("three.gexf", GEXF), ("three.net", PAJEK), ("three.paj", PAJEK)):
        network = unison.Network.from_graph_file(file_of(name, text))
        assert list(network.names) == ["ann", "bob", "cid"], name
        assert network.links == ((0, 1, 4), (1, 2, 2)), name
        assert unison.Network.from_graph_file(file_of(name, text), weight=None).links == ((0, 1, 1), (1, 2, 1)), name


def test_the_format_may_be_named():
    wanted("networkx")
    assert unison.Network.from_graph_file(graphml(name="three.xml"), format="graphml").links == ((0, 1, 4), (1, 2, 1))
    told = raised(ValueError, lambda: unison.Network.from_graph_file(graphml(name="three.xml")))
    assert "three.xml' does not end in .graphml, .gexf, .paj, .net: format='graphml', 'gexf' or 'pajek' tells what it is" in str(told)
    raised(ValueError, lambda: unison.Network.from_graph_file(graphml(), format="dot"))
    raised(TypeError, lambda: unison.Network.from_graph_file(7))


def test_directed_and_parallel_edges_are_taken_where_it_is_asked_for():
    wanted("networkx")
    directed = graphml(kind="directed")
    assert "directed" in str(raised(ValueError, lambda: unison.Network.from_graph_file(directed)))
    assert unison.Network.from_graph_file(directed, undirected=True).links == ((0, 1, 4), (1, 2, 1))
    twice = graphml(more='<edge source="n3" target="n7"><data key="w">2</data></edge>')
    raised(ValueError, lambda: unison.Network.from_graph_file(twice))
    assert unison.Network.from_graph_file(twice, parallel="min").links == ((0, 1, 2), (1, 2, 1))


def test_what_is_no_such_file_is_told_with_its_name():
    wanted("networkx")
    for name, title in (("a.graphml", "GraphML"), ("a.gexf", "GEXF"), ("a.net", "Pajek")):
        for text in ("", "nodes = 2\n", "<graphml><unended>", "*Vertices 2\n*Edges\n1 9 x\n"):
            path = file_of(name, text)
            told = str(raised(ValueError, lambda path=path: unison.Network.from_graph_file(path)))
            assert f"{name}: no {title} file: " in told, (name, text, told)
    raised(FileNotFoundError, lambda: unison.Network.from_graph_file(folder() / "missing.graphml"))


def test_networks_go_into_files_and_back():
    nx = wanted("networkx")
    network = unison.Network(["ann", "bob", "cid", "dan"], [("ann", "bob", 4), ("bob", "cid", 4294967295), ("dan", "ann")], set={"dist": {"ann": 0}})
    states = unison.lockstep(unison.Program(DISTANCE), network, 2)
    for name, reader in (("a.graphml", nx.read_graphml), ("a.gexf", nx.read_gexf), ("a.net", nx.read_pajek)):
        path = network.save_graph(folder() / name, states)
        back = unison.Network.from_graph_file(path)
        assert list(back.names) == list(network.names), name
        links = {(frozenset((back.names[one], back.names[other])), weight) for one, other, weight in back.links}
        assert links == {(frozenset(pair), weight) for pair, weight in ((("ann", "bob"), 4), (("bob", "cid"), 4294967295), (("ann", "dan"), 1))}, name
        assert {node: int(data["dist"]) for node, data in reader(path).nodes(data=True)} == {"ann": 0, "bob": 1, "cid": 2, "dan": 1}, name


def test_graphml_from_networkx_and_back():
    nx = wanted("networkx")
    path = folder() / "cast.graphml"
    graph = nx.les_miserables_graph()
    nx.write_graphml(graph, path)
    network = unison.Network.from_graph_file(path)
    assert nx.utils.graphs_equal(network.to_networkx(), graph)
    again = nx.read_graphml(network.save_graph(folder() / "again.graphml"))
    assert list(again) == list(graph) and nx.utils.edges_equal(again.edges(data=True), graph.edges(data=True))
