"""Networks of any size: beside an evaluation in plain Python, and what is refused, by its place."""

import random
from array import array

from support import DISTANCE, SWAP, library_alone, network, program, raised, wanted

import unison
from unison import _calls

library_alone("many calls")

TOTALS = "field s = 3; field seen = 0; next s = (total (n.s + n.weight) % 1009); next seen = (seen max count n.s);"


def totals(rows, states):
    """One round of TOTALS: what the rule says, node by node."""
    most = unison.NONE
    after = []
    for row, (_, seen) in zip(rows, states):
        summed = min(sum(min(states[node][0] + weight, most) for node, weight in row), most)
        after.append((summed % 1009, max(seen, sum(states[node][0] != 0 for node, _ in row))))
    return after


def random_rows(seed, nodes):
    """For each node some neighbours with weights: links one way, of a node with itself, and twice."""
    draw = random.Random(seed)
    return [[(draw.randrange(nodes), draw.choice((0, 1, 7, unison.NONE))) for _ in range(draw.randrange(5))] for _ in range(nodes)]


def lists_of(rows):
    """Offsets, neighbours and weights of rows."""
    offsets = [sum(map(len, rows[:node])) for node in range(len(rows) + 1)]
    return offsets, [node for row in rows for node, _ in row], [weight for row in rows for _, weight in row]


def as_tuples(states):
    return [tuple(int(value) for value in states.state(node).values()) for node in range(states.nodes)]


def test_rounds_on_random_rows():
    rule = unison.Program(TOTALS)
    for seed in range(25):
        rows = random_rows(seed, 1 + seed % 9)
        given = unison.Network.from_arrays(*lists_of(rows), set={"s": [3 + node for node in range(len(rows))]})
        states = [(3 + node, 0) for node in range(len(rows))]
        for round in range(6):
            assert as_tuples(unison.lockstep(rule, given, round)) == states, (seed, round)
            states = totals(rows, states)


def test_watched_words_on_random_rows():
    rule = unison.Program(TOTALS)
    for seed in range(25):
        rows = random_rows(seed, 1 + seed % 9)
        given = unison.Network.from_arrays(*lists_of(rows))
        states, seen = [(3 + node, 0) for node in range(len(rows))], []
        initial = array("I", [word for state in states for word in state])
        for _ in range(6):
            seen.append([word for state in states for word in state])
            states = totals(rows, states)
        start = _calls.Start(given, 7, initial)
        assert list(_calls.large_watch(rule, start, [7, 9, 12])) == seen[0] + seen[2] + seen[5], seed
    assert len(_calls.large_watch(rule, start, [])) == 0
    refused = raised(unison.RunError, lambda: _calls.large_watch(rule, start, [9, 9]))
    assert refused.name == "NotRising"


def test_counted_nodes_on_random_rows():
    """Of each of two fields, beside the words of the same rounds: values in any order, twice, and that no node has."""
    rule = unison.Program(TOTALS)
    for seed in range(25):
        rows = random_rows(seed, 1 + seed % 9)
        given = unison.Network.from_arrays(*lists_of(rows))
        initial = array("I", [word for node in range(len(rows)) for word in (3 + node, 0)])
        asked, values = [7, 9, 12], [4, 0, 1008, 4, *range(1, seed)]
        start = _calls.Start(given, 7, initial)
        seen = _calls.large_watch(rule, start, asked)
        for first, field in enumerate(rule.fields):
            found = _calls.large_counts(rule, start, asked, field, values)
            columns = [seen[place * len(initial) + first : (place + 1) * len(initial) : 2] for place in range(len(asked))]
            expected = [[*(column.count(value) for value in values), sum(word not in values for word in column)] for column in columns]
            assert list(found) == [number for row in expected for number in row], (seed, field)
    call = lambda *rest: _calls.large_counts(rule, start, *rest)  # noqa: E731
    assert list(call([], "s", [1])) == [] and list(call([7], "s", [])) == [len(rows)]
    for name, asked in (("NotRising", ([9, 9], "s", [1])), ("TooManyValues", ([9], "seen", range(257)))):
        kind = unison.RunError if name == "NotRising" else unison.NetworkError
        assert raised(kind, lambda: call(*asked)).name == name


def test_large_and_small_networks_agree():
    for name, rule, rounds in (("karate", "distance", 3), ("votes", "majority", 4), ("weighted", "shortest_paths", 2), ("cells", "rule_110", 3)):
        small, rules = network(name), program(rule)
        ends, weights = zip(*(((one, other), weight) for one, other, weight in small.links))
        large = unison.Network.from_edges(*zip(*ends), weights, nodes=small.nodes, set=small.set)
        assert [large.neighbours(node) for node in range(large.nodes)] == [small.neighbours(node) for node in range(small.nodes)]
        assert unison.lockstep(rules, large, rounds) == unison.lockstep(rules, small, rounds), name


def test_rounds_go_on():
    rule = unison.Program("field s = 0; next s = (s + round);")
    lone = unison.Network.from_arrays([0, 0], [])
    assert [states.by_name("s")[0] for states in unison.watch(rule, lone, range(1, 5))] == [0, 1, 3, 6]
    third = unison.lockstep(rule, lone, 3)
    assert unison.lockstep(rule, lone, 5, from_=third).by_name("s") == {0: 3 + 3 + 4}
    given = unison.States.from_values(rule, [[100]], round=7)
    assert unison.lockstep(rule, lone, 8, from_=given).by_name("s") == {0: 107}
    assert given.by_name("s") == {0: 100}, "the states to go on from stay as they are"
    assert unison.watch(rule, lone, [8, 9], from_=given)["s"][1][0] == 115
    assert raised(unison.RunError, lambda: unison.lockstep(rule, lone, 6, from_=given)).name == "RoundsBelowStart"
    assert raised(unison.RunError, lambda: unison.lockstep(rule, lone, 1_000_000_001)).name == "TooManyRounds"
    assert raised(unison.RunError, lambda: unison.watch(rule, lone, [4, 4])).name == "NotRising"
    assert len(unison.watch(rule, lone, [])) == 0


def test_more_nodes_than_a_network_file_has():
    nodes = 70_000
    offsets, indices = array("Q", range(nodes + 1)), array("I", ((node + 1) % nodes for node in range(nodes)))
    ring = unison.Network.from_arrays(offsets, indices, set={"s": array("I", range(nodes))})
    states = unison.lockstep(unison.Program(SWAP), ring, 3)
    assert list(states["s"]) == [(node + 3) % nodes for node in range(nodes)]


def test_initial_values():
    pair = unison.Network.from_arrays([0, 1, 2], [1, 0], names=["x", "y"], set={"s": {"y": 7}})
    rule = unison.Program("field s = 5; next s = total n.s;")
    assert unison.lockstep(rule, pair, 0).by_name("s") == {"x": 5, "y": 7}
    assert unison.lockstep(rule, pair, 1).by_name("s") == {"x": 7, "y": 5}
    assert unison.lockstep(rule, pair.with_set({"s": 2}), 1).by_name("s") == {"x": 2, "y": 2}
    assert unison.lockstep(rule, pair.with_set({}), 0).by_name("s") == {"x": 5, "y": 5}
    assert raised(unison.PlanError, lambda: unison.lockstep(rule, pair.with_set({"t": 1}), 1)).name == "UnknownField"
    assert "initial values" in str(raised(ValueError, lambda: pair.with_set({"s": [1]})))
    assert "s[1]: found -1" in str(raised(ValueError, lambda: pair.with_set({"s": [1, -1]})))
    assert pair.neighbours("x") == ["y"] and pair.degree("y") == 1 and pair.number("y") == 1
    raised(unison.faults.Missing, lambda: pair.number("z"))
    raised(ValueError, lambda: unison.Network.from_arrays([0, 1, 2], [1, 0], names=["x", "x"]))


def test_bad_lists_are_told_by_their_place():
    for lists, number, told in (
        (([0, 1, 3, 4], [1, 0, 3, 1]), 147, "indices[2]: lists Neighbour: found 3, expected a node: there are 3, numbered from 0"),
        (([0, 2, 1, 4], [1, 0, 2, 1]), 145, "indptr[2]: lists Offsets: found 1, expected 2 or more, which stands before it"),
        (([1, 1, 3, 4], [1, 0, 2, 1]), 145, "indptr[0]: lists Offsets: found 1, expected 0"),
        (([0, 1, 3, 3], [1, 0, 2, 1]), 145, "indptr[3]: lists Offsets: found 3, expected 4, the number of indices, since it is the last"),
        (([0], []), 144, "indptr: lists NodeCount: found 1 entries, expected one more than there are nodes, so from 2 to 4294967296"),
        (([], []), 144, "indptr: lists NodeCount: found 0 entries, expected one more than there are nodes, so from 2 to 4294967296"),
        (([0, 1, 2], [0, 0], [1]), 148, "weights: lists WeightCount: found 1, expected one for each of the 2 indices, or none"),
    ):
        error = raised(unison.NetworkError, lambda: unison.Network.from_arrays(*lists))
        assert (error.number, str(error)) == (number, told)


def test_numbers_that_do_not_fit_are_told_by_their_place():
    for lists, told in (
        (([0, 1], [-1]), "indices[0]: found -1, expected a whole number from 0 to 4294967295"),
        (([0, 1], [2**32]), "indices[0]: found 4294967296, expected a whole number from 0 to 4294967295"),
        (([0, 1.5], [0]), "indptr[1]: found 1.5, expected a whole number from 0 to 18446744073709551615"),
        (([0, "1"], [0]), "indptr[1]: found '1', expected a whole number from 0 to 18446744073709551615"),
        (([0, 1, 2], [0, 0], [1, -3]), "weights[1]: found -3, expected a whole number from 0 to 4294967295"),
        (([0, 1, 2], [0, 0], []), "there are no weights: expected one for each of the 2 indices, or weights=None"),
    ):
        assert str(raised(ValueError, lambda: unison.Network.from_arrays(*lists))) == told
    told = str(raised(ValueError, lambda: unison.Network.from_edges([0, 1], [1, 2], nodes=2)))
    assert told == "b[1]: found 2, expected a node: there are 2, numbered from 0"
    raised(ValueError, lambda: unison.Network.from_edges([0, 1], [1]))
    raised(ValueError, lambda: unison.Network.from_edges([0], [1], [1, 2]))


def test_arrays_of_numpy():
    numpy = wanted("numpy")
    edges = ([0, 1, 2], [1, 2, 0], [4, 5, 6])
    plain = unison.Network.from_edges(*edges)
    for kind in ("int8", "uint8", "int32", "uint32", "int64", "uint64", "float64", ">u4"):
        arrays = [numpy.array(part, dtype=kind) for part in edges]
        given = unison.Network.from_edges(*arrays)
        assert (list(given.indptr), list(given.indices), list(given.weights)) == (list(plain.indptr), list(plain.indices), list(plain.weights)), kind
    for kind, found, at in (("int64", -5, 1), ("int64", 2**32, 1), ("float64", 0.5, 1), ("float64", float("nan"), 1), ("float64", 2.0**32, 1)):
        bad = numpy.array([0, found], dtype=kind)
        assert str(raised(ValueError, lambda: unison.Network.from_arrays([0, 1, 2], bad))).startswith(f"indices[{at}]: found {found}"), (kind, found)
    raised(ValueError, lambda: unison.Network.from_arrays(numpy.zeros((2, 2), dtype="uint64"), []))
    striped = numpy.arange(6, dtype="uint32")[::2]
    assert list(unison.Network.from_arrays([0, 1, 2, 3, 4, 5, 5], [*striped, 1, 1]).indices[:3]) == [0, 2, 4]


def test_arrays_that_fit_are_not_copied():
    numpy = wanted("numpy")
    for offsets_kind, kind in (("uint64", "uint32"), ("int64", "int32")):
        offsets, indices, weights = numpy.array([0, 1, 2], offsets_kind), numpy.array([1, 0], kind), numpy.array([2, 3], kind)
        given = unison.Network.from_arrays(offsets, indices, weights)
        for held, lent in ((given.indptr, offsets), (given.indices, indices), (given.weights, weights)):
            assert numpy.shares_memory(held, lent)
    offsets, indices = array("Q", [0, 1, 2]), array("I", [1, 0])
    given = unison.Network.from_arrays(offsets, indices)
    assert given.indptr is offsets and given.indices is indices
    raised(BufferError, lambda: indices.append(0))


def test_values_of_numpy_go_in_and_out():
    numpy = wanted("numpy")
    rule = unison.Program("field a = 0; field b = 0; next a = b; next b = total n.a;")
    path = unison.Network.from_arrays([0, 1, 3, 4], [1, 0, 2, 1])
    values = numpy.array([[1, 2], [3, 4], [5, 6]])
    first = unison.States.from_values(rule, values)
    after = unison.lockstep(rule, path, 1, from_=first).values
    assert after.dtype == numpy.uint32 and after.tolist() == [[2, 3], [4, 6], [6, 3]]
    assert values.tolist() == [[1, 2], [3, 4], [5, 6]]
    raised(ValueError, lambda: unison.States.from_values(rule, values.T))
    raised(ValueError, lambda: unison.lockstep(rule, path, 1, from_=unison.States.from_values(rule, values[:2])))


def test_rounds_beside_numpy():
    numpy = wanted("numpy")
    scipy_sparse = wanted("scipy.sparse")
    matrix = scipy_sparse.random(400, 400, density=0.02, format="csr", random_state=7, dtype=numpy.float64)
    matrix.data = numpy.floor(matrix.data * 10) + 1
    rule = unison.Program("field s = 1; next s = (total (n.s * n.weight) % 997);")
    given = unison.Network.from_scipy(matrix)
    values = numpy.ones(400, dtype=numpy.int64)
    whole = matrix.astype(numpy.int64)
    for round in range(5):
        assert unison.lockstep(rule, given, round)["s"].tolist() == values.tolist(), round
        values = (whole @ values) % 997
    plain = unison.Network.from_scipy(scipy_sparse.coo_matrix(matrix), weights=False)
    assert plain.weights is None and plain.ends == matrix.nnz
    raised(ValueError, lambda: unison.Network.from_scipy(matrix[:3]))
    matrix.data[5] = 2.5
    assert str(raised(ValueError, lambda: unison.Network.from_scipy(matrix))).startswith("weights[5]: found 2.5")


def test_large_graphs_of_networkx():
    networkx = wanted("networkx")
    graph = networkx.star_graph(5000)  # one node has more neighbours than a network file allows
    given = unison.Network.from_networkx(graph, set={"dist": {0: 0}})
    assert type(given) is unison.LargeNetwork and given.nodes == 5001 and given.ends == 10000
    assert unison.lockstep(unison.Program(DISTANCE), given, 9).by_name("dist") == dict(networkx.single_source_shortest_path_length(graph, 0))
    named = networkx.relabel_nodes(networkx.path_graph(66_000), str)
    ways = unison.Network.from_networkx(named, set={"dist": {"65999": 0}})
    assert unison.lockstep(unison.Program(DISTANCE), ways, 2).by_name("dist")["65997"] == 2
    assert type(unison.Network.from_networkx(networkx.path_graph(4))) is unison.Network


def test_large_networks_go_to_other_processes():
    """A copy lends its own memory, and not what lay there in the process that it comes from."""
    import copy
    import pickle

    rule = unison.Program(TOTALS)
    rows = random_rows(3, 9)
    given = unison.Network.from_arrays(*lists_of(rows), set={"s": list(range(9))})
    lent = unison.Network.from_arrays(array("Q", [0, 1, 2]), array("I", [1, 0]), set={"s": {1: 5}})
    for network in (given, lent):
        before = as_tuples(unison.lockstep(rule, network, 1))
        again = pickle.loads(pickle.dumps(network))
        copied = copy.deepcopy(network)
        for other in (again, copied):
            assert as_tuples(unison.lockstep(rule, other, 1)) == before
            assert other._neighbours_held.address != network._neighbours_held.address
            assert (list(other.indptr), list(other.indices)) == (list(network.indptr), list(network.indices))
    raised(BufferError, lambda: copied.indices.append(0))
