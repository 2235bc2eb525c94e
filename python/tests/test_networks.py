"""Networks: what they are made of, their texts, names, slots and weights."""

from support import DISTANCE, SWAP, library_alone, raised, reference, wanted

import unison
from unison import _document
from unison.graphs import weight_of

library_alone("many calls")

CLUB = unison.Network(["ann", "bob", "cid", "dan"], [("ann", "bob", 3), ("cid", "bob"), ("dan", "bob", 0)])


def test_the_text_of_a_network():
    net = unison.Network(3, [(0, 1, 3), (2, 1)], set={"dist": {2: 7, 0: 0}, "a": 1}, phase=2)
    assert net.text == (
        "links = [\n    [0, 1, 3],\n    [2, 1],\n]\nnodes = 3\nphase = 2\n\n[set]\n"
        "a = [[0, 1], [1, 1], [2, 1]]\ndist = [[0, 0], [2, 7]]\n"
    )
    assert unison.Network(1, []).text == "links = []\nnodes = 1\nphase = 0\n"
    assert (net.nodes, net.links, net.phase) == (3, ((0, 1, 3), (2, 1, 1)), 2)
    assert net.set == {"dist": {0: 0, 2: 7}, "a": {0: 1, 1: 1, 2: 1}}
    assert repr(net) == "<Network of 3 nodes and 2 links>"


def test_initial_values_of_each_form():
    assert unison.network.Openings is unison.network.InitialValues  # an old name
    swap = unison.Program(SWAP)
    for given, expected in [({1: 5}, [0, 5, 0]), ([3, 1, 2], [3, 1, 2]), ((3, 1, 2), [3, 1, 2]), (9, [9, 9, 9]), ({}, [0, 0, 0])]:
        states = unison.lockstep(swap, unison.Network(3, [], set={"s": given}), 0)
        assert list(states.by_name("s").values()) == expected
    raised(ValueError, lambda: unison.Network(3, [], set={"s": [1, 2]}))
    raised(TypeError, lambda: unison.Network(3, [], set={"s": {0: 1.5}}))
    raised(TypeError, lambda: unison.Network(3, [], set={"s": {0: "1"}}))


def test_weights_of_each_form():
    for weights, expected in [(None, (1, 1)), (4, (4, 4)), ([5, 0], (5, 0)), (iter([5, 6]), (5, 6))]:
        assert tuple(link[2] for link in unison.Network(3, [(0, 1), (1, 2)], weights).links) == expected
    raised(ValueError, lambda: unison.Network(3, [(0, 1), (1, 2)], [5]))
    raised(TypeError, lambda: unison.Network(3, [(0, 1, 0.5)]))
    raised(unison.NetworkError, lambda: unison.Network(3, [(0, 1, 2**70)]))
    raised(ValueError, lambda: unison.Network(3, [(0, 1, 2, 3)]))


def test_names_of_nodes():
    assert CLUB.names == ("ann", "bob", "cid", "dan")
    assert CLUB.number("cid") == 2
    assert CLUB.neighbours("bob") == ["ann", "cid", "dan"]
    assert CLUB.neighbours("dan") == ["bob"]
    assert (CLUB.degree("bob"), CLUB.degree("ann")) == (3, 1)
    assert [CLUB.slot("bob", name) for name in ("ann", "cid", "dan")] == [0, 1, 2]
    assert (CLUB.weight("bob", "ann"), CLUB.weight("bob", "cid"), CLUB.weight("dan", "bob")) == (3, 1, 0)
    assert str(raised(unison.faults.Missing, lambda: CLUB.number("eve"))) == "there is no node 'eve'"
    raised(unison.faults.Missing, lambda: CLUB.slot("ann", "cid"))
    raised(unison.faults.Missing, lambda: CLUB.weight("ann", "cid"))
    raised(unison.faults.Missing, lambda: unison.Network(["ann"], [("ann", "eve")]))
    raised(unison.faults.Missing, lambda: unison.Network(["ann"], [], set={"s": {"eve": 1}}))
    raised(ValueError, lambda: unison.Network(["ann", "ann"], []))
    assert isinstance(raised(unison.faults.Missing, lambda: CLUB.number("eve")), KeyError)


def test_names_of_any_kind():
    net = unison.Network([(0, 0), (0, 1), None, 7], [((0, 0), (0, 1)), (None, 7)], set={"dist": {None: 0}})
    assert unison.lockstep(unison.Program(DISTANCE), net, 3).by_name("dist") == {(0, 0): unison.NONE, (0, 1): unison.NONE, None: 0, 7: 1}


def test_numbers_are_names_where_there_are_none():
    net = unison.Network(3, [(0, 2), (2, 1)])
    assert list(net.names) == [0, 1, 2]
    assert (net.neighbours(2), net.slot(2, 1), net.number(2)) == ([0, 1], 1, 2)
    for number in (3, -1, "0", None):
        raised(unison.faults.Missing, lambda: net.number(number))


def test_views_of_networkx_are_lists():
    graph = wanted("networkx").path_graph(["x", "y", "z"])
    net = unison.Network(graph.nodes, graph.edges)
    assert net.names == ("x", "y", "z") and net.links == ((0, 1, 1), (1, 2, 1))


def test_with_other_initial_values():
    net = CLUB.with_set({"dist": {"cid": 0}})
    assert unison.lockstep(unison.Program(DISTANCE), net, 2).by_name("dist") == {"ann": 2, "bob": 1, "cid": 0, "dan": 2}
    assert (net.links, net.names, net.set, CLUB.set) == (CLUB.links, CLUB.names, {"dist": {2: 0}}, {})
    assert net.with_set({}).text == CLUB.text
    assert unison.Network.from_text(net.text).with_set({"s": 2}).set == {"s": {0: 2, 1: 2, 2: 2, 3: 2}}


def test_names_for_a_text():
    net = unison.Network.from_text(CLUB.text, names=["a", "b", "c", "d"])
    assert (net.links, net.neighbours("b")) == (CLUB.links, ["a", "c", "d"])
    raised(ValueError, lambda: unison.Network.from_text(CLUB.text, names=["a"]))


def test_texts_in_the_ways_of_toml():
    """docs/formats.md: what a network file may be."""
    texts = [
        "nodes = 3\nlinks = [[0, 1, 7], [1, 2]]\nphase = 1\n[set]\ns = [[0, 5]]\n",
        "\ufeff# first\r\nlinks = [\r\n [0,1 , 0x7], # why\r\n [+1, 0b10],\r\n]\r\nphase=0o1\r\nnodes = 0b1_1\r\nset = {s = [[0, 5]]}\r\n",
        "set.s = [ [ 0 , 5 , ] , ]\nnodes = 3\n'phase' = 1\n\"links\" = [[0, 1, 7,], [1, 2,],]",
        "set . \"\\u0073\" = [[0, 5]]\nnodes = 3\nphase = 1\nlinks = [[0, 1, 7], [1, 2]]\n",
        "nodes = 3\nphase = 1\nlinks = [[0, 1, 7], [1, 2]]\n['set']\n's' = [[0, 5]]\n",
    ]
    for text in texts:
        for given in (text, text.encode()):
            net = unison.Network.from_text(given)
            assert (net.nodes, net.links, net.phase, net.set) == (3, ((0, 1, 7), (1, 2, 1)), 1, {"s": {0: 5}}), text
            assert unison.lockstep(unison.Program(SWAP), net, 1).by_name("s") == {0: 0, 1: 5, 2: 0}
            assert net.text == text


def test_keys_in_quotes():
    """Names that no program can declare: a network with them stands, and is refused beside each program."""
    for name in ["d d", 'a"b', "a\\b", "\u00e4", "a\nb\x7f", ""]:
        net = unison.Network(2, [], set={name: {1: 5}})
        assert unison.Network.from_text(net.text).set == {name: {1: 5}}
        error = raised(unison.PlanError, lambda: unison.lockstep(unison.Program(SWAP), net, 0))
        assert error.name == "UnknownField"


def test_texts_are_read_as_tomllib_reads_them():
    toml = wanted("tomllib")
    interpreter, compare = reference()
    seen = 0
    for number in range(400):
        draws = compare.Draws(f"networks {number}")
        text = compare.network_text(draws, ["s", "t", "dist"], [])
        net = unison.Network.from_text(text)
        whole = toml.loads(text)
        links = [tuple(link) if len(link) == 3 else (*link, 1) for link in whole["links"]]
        sets = {name: [tuple(pair) for pair in pairs] for name, pairs in whole.get("set", {}).items()}
        assert _document.read(text) == (whole["nodes"], links, whole.get("phase", 0), sets), text
        assert net.nodes == whole["nodes"]
        again = _document.read(_document.write(_document.read(text)))
        assert (again.nodes, again.links, again.phase) == (whole["nodes"], links, whole.get("phase", 0))
        seen += bool(sets)
    assert seen > 100


def test_the_greatest_networks():
    ring = unison.Network(65536, [(node, (node + 1) % 65536) for node in range(65536)], set={"dist": {0: 0}})
    states = unison.lockstep(unison.Program(DISTANCE), ring, 3)
    near = {node: min(node, 65536 - node) for node in range(65536)}
    assert states.by_name("dist") == {node: far if far <= 3 else unison.NONE for node, far in near.items()}


def test_arrays_of_numpy_are_taken():
    numpy = wanted("numpy")
    links = numpy.array([[0, 1], [1, 2]], dtype=numpy.int64)
    net = unison.Network(numpy.int64(3), links, weights=numpy.array([4, 5]), set={"s": numpy.array([1, 2, 3], dtype=numpy.uint32)})
    assert net.text == unison.Network(3, [(0, 1, 4), (1, 2, 5)], set={"s": [1, 2, 3]}).text
    assert unison.lockstep(unison.Program(SWAP), net, numpy.int32(1)).by_name("s") == {0: 2, 1: 4, 2: 2}
    named = unison.Network(numpy.array(["x", "y"]), [("x", "y")])
    assert named.names == ("x", "y")


def test_weights_that_are_scaled():
    from decimal import Decimal
    from fractions import Fraction

    for value, scale, expected in [
        (3, None, 3), (3.0, None, 3), (Fraction(6, 2), None, 3), (True, None, 1), (0.25, 100, 25), (Decimal("0.1"), 10, 1), (Fraction(1, 3), 3, 1),
        (1.25, 10, 13), (1.24, 10, 12), (0.04, 10, 0), (0.05, 10, 1), (Decimal("2.5"), 1, 3), ("1.5", 10, 15),
    ]:  # fmt: skip
        assert weight_of({"weight": value}, "weight", "(0, 1)", scale) == expected, (value, scale)
    assert weight_of({}, "weight", "(0, 1)", None) == 1 and weight_of({}, "weight", "(0, 1)", 7) == 7
    assert weight_of({"weight": 5}, None, "(0, 1)", None) == 1
    for bad in (0.5, None, "x", float("nan"), float("inf"), [1]):
        raised(ValueError, lambda: weight_of({"weight": bad}, "weight", "(0, 1)", None))


def test_a_text_is_read_once_for_many_calls():
    """Its lists are held against the library's own reading, once; a text that this package reads otherwise goes to the library each time."""
    from unison import _calls, _lists

    text = "nodes = 3\nlinks = [[0, 1, 7], [1, 2]]\n[set]\ns = [[0, 4], [2, 9]]\n"
    rule = unison.Program("field s = 1; next s = (total (n.s * n.weight) % 1009);")
    seen, given = [], _calls.lockstep
    watched = _calls.watch
    _calls.lockstep, _calls.watch = (lambda *texts: seen.append("lockstep") or given(*texts)), (lambda *texts: seen.append("watch") or watched(*texts))
    try:
        read = unison.Network.from_text(text)
        assert [unison.lockstep(rule, read, 1).by_name("s") for _ in range(3)] == [{0: 7, 1: 37, 2: 1}] * 3
        assert unison.watch(rule, read, [1])["s"][0][1] == 37
        assert seen == ["watch"], "the library reads the text once"
        wrong = unison.Network.from_text(text)
        wrong._links_held.append(_lists.links_of(unison.Network(3, [(0, 1, 6), (1, 2)])))
        assert unison.lockstep(rule, wrong, 1).by_name("s") == {0: 7, 1: 37, 2: 1}
        assert seen == ["watch", "watch", "lockstep"], "lists that are other than the text are not used"
        made = unison.Network(3, [(0, 1, 7), (1, 2)], set={"s": {0: 4, 2: 9}})
        assert unison.lockstep(rule, made, 1).by_name("s") == unison.lockstep(rule, made.with_set({"s": [4, 1, 9]}), 1).by_name("s") == {0: 7, 1: 37, 2: 1}
        assert made.with_set({})._links_held is made._links_held and len(seen) == 3
    finally:
        _calls.lockstep, _calls.watch = given, watched


def test_what_needs_a_text_still_goes_by_it():
    """A report to go on from, and whatever is refused: the library tells it of the texts."""
    rule, pair = unison.Program("field s = 0; next s = total n.s;"), unison.Network(2, [(0, 1)], set={"s": [5, 7]})
    assert unison.lockstep(rule, pair, 3, from_="round 2\n0 s=1\n1 s=2\n").by_name("s") == {0: 2, 1: 1}
    for call, kind, name in (
        (lambda: unison.lockstep(rule, pair.with_set({"t": 1}), 1), unison.PlanError, "UnknownField"),
        (lambda: unison.lockstep(rule, pair, 1_000_000_001), unison.RunError, "TooManyRounds"),
        (lambda: unison.watch(rule, pair, [1, 1]), unison.RunError, "NotRising"),
        (lambda: unison.lockstep(rule, pair, 1, from_=unison.lockstep(rule, pair, 2)), unison.RunError, "RoundsBelowStart"),
        (lambda: unison.lockstep(rule, pair, 9, from_="round 1000000001\n0 s=1\n1 s=2\n"), unison.ReportError, "TooManyRounds"),
    ):
        assert raised(kind, call).name == name
