"""Mistakes in arguments are told by the call, the argument, what was given and what is wanted, before any text is made."""

import re

from support import DISTANCE, SWAP, raised

import unison
from unison import schedule
from unison.faults import Missing

MOST = 4294967295
LAST = 1_000_000_000
PROGRAM_WANTED = "a unison.Program or a unison.Model is wanted: unison.Program(text) makes one"
NETWORK_WANTED = "a unison.Network is wanted: unison.Network(nodes, links) makes one, unison.Network.from_text(text) that of a text"
ROUND_WANTED = f"a whole number from 0 to {LAST} is wanted"
RISING_WANTED = "a list of rising rounds, as range(0, 11) or [1, 10, 100], is wanted"
SPAN_WANTED = "a round up to which all are meant, or rounds that are evenly apart, as range(0, 101, 10), is wanted"
VALUE_WANTED = f"a whole number from 0 to {MOST} is wanted"
STEPS_WANTED = "the text of a schedule, or a list of steps, as unison.schedule makes them, is wanted"
FROM_WANTED = "a unison.States, as lockstep answers, or the text of a report, a str or bytes, is wanted"
NODES_WANTED = f"a whole number from 1 to {MOST}, or a list of names, is wanted"
LINKS_WANTED = "a list of pairs of nodes, or of triples of two nodes and a weight, is wanted"
LINK_WANTED = "a pair of nodes, or two nodes and a weight, is wanted"
SET_WANTED = "a dict from fields to their initial values, as {'dist': {0: 0}}, is wanted"

swap = unison.Program(SWAP)
two = unison.Program("field a = 0; field b = 0;")
pair = unison.Network(2, [(0, 1)], set={"s": [5, 7]})
ring = unison.Network.from_edges([0, 1, 2], [1, 2, 0])
first = unison.lockstep(swap, pair, 1)


class Graph:
    """What is no network."""

    def __repr__(self):
        return "<a graph>"


#: What is raised and told, and the call that does so.
CASES = [
    # Numbers
    (TypeError, f"lockstep: rounds is 2.5, a float: {ROUND_WANTED}", lambda: unison.lockstep(swap, pair, 2.5)),
    (TypeError, f"lockstep: rounds is 2.0, a float: {ROUND_WANTED}", lambda: unison.lockstep(swap, pair, 2.0)),
    (TypeError, f"lockstep: rounds is '2', a str: {ROUND_WANTED}", lambda: unison.lockstep(swap, pair, "2")),
    (TypeError, f"lockstep: rounds is True, a bool: {ROUND_WANTED}", lambda: unison.lockstep(swap, pair, True)),
    (TypeError, f"lockstep: rounds is None: {ROUND_WANTED}", lambda: unison.lockstep(swap, pair, None)),
    (TypeError, f"lockstep: rounds is [2], a list: {ROUND_WANTED}", lambda: unison.lockstep(swap, pair, [2])),
    (TypeError, f"lockstep: rounds is range(0, 3), a range: {ROUND_WANTED}", lambda: unison.lockstep(swap, pair, range(3))),
    (ValueError, f"lockstep: rounds is -1: {ROUND_WANTED}", lambda: unison.lockstep(swap, pair, -1)),
    (unison.RunError, f"lockstep: rounds is {2**70}: {ROUND_WANTED} (run TooManyRounds)", lambda: unison.lockstep(swap, pair, 2**70)),
    (unison.RunError, f"lockstep: rounds is {LAST + 1}: {ROUND_WANTED} (run TooManyRounds)", lambda: unison.lockstep(swap, ring, LAST + 1)),
    (TypeError, f"settle: limit is 1.5, a float: {ROUND_WANTED}", lambda: unison.settle(swap, pair, 1.5)),
    (unison.RunError, f"settle: limit is {LAST + 1}: {ROUND_WANTED} (run LimitTooLarge)", lambda: unison.settle(swap, pair, LAST + 1)),
    (TypeError, f"replay: stop is '1', a str: {ROUND_WANTED}", lambda: unison.replay(swap, pair, "", "1")),
    (unison.RunError, f"replay: stop is {LAST + 1}: {ROUND_WANTED} (run StopTooLarge)", lambda: unison.replay(swap, pair, "", LAST + 1)),
    (TypeError, f"cuts: rounds is 1.0, a float: {ROUND_WANTED}", lambda: unison.cuts(swap, pair, 1.0)),
    (TypeError, f"why: rounds is 0.5, a float: {VALUE_WANTED}", lambda: unison.why(swap, pair, rounds=0.5)),
    # Rounds
    (TypeError, f"watch: rounds is 5, an int: {RISING_WANTED}", lambda: unison.watch(swap, pair, 5)),
    (TypeError, f"watch: rounds is '1', a str: {RISING_WANTED}", lambda: unison.watch(swap, pair, "1")),
    (TypeError, f"watch: rounds is {{0}}, a set: {RISING_WANTED}", lambda: unison.watch(swap, pair, {0})),
    (TypeError, f"watch: rounds[1] is 2.5, a float: {ROUND_WANTED}", lambda: unison.watch(swap, pair, [1, 2.5])),
    (unison.RunError, "watch: rounds[2] is 1: a round above 4, which stands before it, is wanted (run NotRising)", lambda: unison.watch(swap, ring, [0, 4, 1])),
    (TypeError, f"count: rounds is 2.5, a float: {SPAN_WANTED}", lambda: unison.count(swap, pair, 2.5)),
    (ValueError, f"count: rounds is [0, 1, 3], a list: {SPAN_WANTED}", lambda: unison.count(swap, pair, [0, 1, 3])),
    (ValueError, f"image: rounds is [], a list: {SPAN_WANTED}", lambda: unison.image(swap, pair, [])),
    (ValueError, "page: either rounds or steps are wanted, and not both", lambda: unison.page(swap, pair)),
    # Programs and networks
    (TypeError, f"lockstep: program is 'field s = 0;', a str: {PROGRAM_WANTED}", lambda: unison.lockstep("field s = 0;", pair, 1)),
    (TypeError, f"watch: program is None: {PROGRAM_WANTED}", lambda: unison.watch(None, ring, [1])),
    (TypeError, f"count: program is 5, an int: {PROGRAM_WANTED}", lambda: unison.count(5, pair, 1)),
    (TypeError, f"lockstep: network is 'nodes = 1', a str: {NETWORK_WANTED}", lambda: unison.lockstep(swap, "nodes = 1", 1)),
    (TypeError, f"replay: network is <a graph>: {NETWORK_WANTED}", lambda: unison.replay(swap, Graph(), "")),
    (TypeError, "Program: text is 5, an int: a text, a str or bytes, is wanted", lambda: unison.Program(5)),
    (TypeError, "Model: text is None: a text, a str or bytes, is wanted", lambda: unison.Model(None)),
    (TypeError, "Program.from_file: path is 5, an int: the path of a file, a str or a pathlib.Path, is wanted", lambda: unison.Program.from_file(5)),
    (TypeError, "Network.from_text: text is 5, an int: a text, a str or bytes, is wanted", lambda: unison.Network.from_text(5)),
    (TypeError, "why: program is 5, an int: a unison.Program, or its text, a str or bytes, is wanted", lambda: unison.why(5)),
    (TypeError, "first_fault: network is 5, an int: a unison.Network, or the text of a network file, a str or bytes, is wanted", lambda: unison.first_fault("", 5)),
    # What a call goes on from, and schedules
    (TypeError, f"lockstep: from_ is 5, an int: {FROM_WANTED}", lambda: unison.lockstep(swap, pair, 1, from_=5)),
    (ValueError, "lockstep: from_ is an empty text: a unison.States, as lockstep answers, or the text of a report is wanted", lambda: unison.lockstep(swap, pair, 1, from_="")),
    (ValueError, "settle: from_ has 2 nodes with the fields s: 2 nodes with a, b are wanted", lambda: unison.settle(two, pair.with_set({}), from_=first)),
    (TypeError, f"replay: schedule is 5, an int: {STEPS_WANTED}", lambda: unison.replay(swap, pair, 5)),
    (TypeError, f"replay: schedule is Write(node=0), a Write: {STEPS_WANTED}", lambda: unison.replay(swap, pair, schedule.write(pair, 0))),
    (TypeError, "explain: schedule[1] is 'write 0', a str: a step, as unison.schedule.read and write make them, is wanted", lambda: unison.explain(swap, pair, [schedule.write(pair, 0), "write 0"])),
    (TypeError, "verify: trace is 5, an int: the text of a trace, or a list of its lines, is wanted", lambda: unison.verify(swap, pair, 5)),
    (TypeError, "verify: trace[1] is 5, an int: a line, or a dict as {'node': 0, 'reads': 1, 'state': {'s': 7}}, is wanted", lambda: unison.verify(swap, pair, ["0 reads 1", 5])),
    # Networks that are made
    (TypeError, f"Network: nodes is 2.5, a float: {NODES_WANTED}", lambda: unison.Network(2.5, [])),
    (TypeError, f"Network: nodes is 'ab', a str: {NODES_WANTED}", lambda: unison.Network("ab", [])),
    (TypeError, f"Network: nodes is True, a bool: {NODES_WANTED}", lambda: unison.Network(True, [])),
    (TypeError, "Network: nodes[1] is [1], a list: a name that can be the key of a dict is wanted", lambda: unison.Network(["a", [1]], [])),
    (ValueError, "Network: nodes[2] is 'a', a str: a name of its own is wanted, and nodes[0] has this one", lambda: unison.Network(["a", "b", "a"], [])),
    (TypeError, f"Network: links is 5, an int: {LINKS_WANTED}", lambda: unison.Network(3, 5)),
    (TypeError, f"Network: links is '01', a str: {LINKS_WANTED}", lambda: unison.Network(3, "01")),
    (TypeError, f"Network: links[0] is 5, an int: {LINK_WANTED}", lambda: unison.Network(3, [5])),
    (TypeError, f"Network: links[1] is 'ab', a str: {LINK_WANTED}", lambda: unison.Network(["a", "b"], [("a", "b"), "ab"])),
    (ValueError, f"Network: links[0] is (0,), a tuple: {LINK_WANTED}", lambda: unison.Network(3, [(0,)])),
    (TypeError, "Network: links[1][0] is 1.0, a float: a whole number from 0 to 2 is wanted", lambda: unison.Network(3, [(0, 1), (1.0, 2)])),
    (unison.NetworkError, "Network: links[0][1] is 3: a whole number from 0 to 2 is wanted (network BadLink)", lambda: unison.Network(3, [(0, 3)])),
    (unison.NetworkError, f"Network: links[0][2] is -1: {VALUE_WANTED} (network BadWeight)", lambda: unison.Network(3, [(0, 1, -1)])),
    (TypeError, f"Network: links[0][2] is 0.5, a float: {VALUE_WANTED}", lambda: unison.Network(3, [(0, 1, 0.5)])),
    (Missing, "Network: links[0][1] is 'eve', a str: the name of a node is wanted, and none is called so", lambda: unison.Network(["ann"], [("ann", "eve")])),
    (TypeError, "Network: weights is 1.5, a float: a whole number, or a list with one for each link, is wanted", lambda: unison.Network(2, [(0, 1)], 1.5)),
    (unison.NetworkError, f"Network: weights[0] is {MOST + 1}: {VALUE_WANTED} (network BadWeight)", lambda: unison.Network(2, [(0, 1)], [MOST + 1])),
    (ValueError, "Network: weights has 2 entries: one for each of the 1 links is wanted", lambda: unison.Network(2, [(0, 1)], [1, 2])),
    (TypeError, "Network: phase is 0.0, a float: a whole number from 0 to 2 is wanted", lambda: unison.Network(1, [], phase=0.0)),
    (unison.NetworkError, "Network: phase is 3: a whole number from 0 to 2 is wanted (network BadPhase)", lambda: unison.Network(1, [], phase=3)),
    # Initial values
    (TypeError, f"Network: set is 5, an int: {SET_WANTED}", lambda: unison.Network(1, [], set=5)),
    (TypeError, f"Network.with_set: set is [1], a list: {SET_WANTED}", lambda: pair.with_set([1])),
    (TypeError, f"Network.with_set: set is [1], a list: {SET_WANTED}", lambda: ring.with_set([1])),
    (TypeError, f"Network.with_more: set is [1], a list: {SET_WANTED}", lambda: pair.with_more([1])),
    (TypeError, "Network: set is {5: 1}, a dict: a dict is wanted whose keys are names of fields, and 5 is none", lambda: unison.Network(1, [], set={5: 1})),
    (TypeError, "Network: set['s'] is 1.5, a float: a whole number, a list with one for each node, or a dict from nodes to them is wanted", lambda: unison.Network(1, [], set={"s": 1.5})),
    (TypeError, f"Network: set['s'][1] is '2', a str: {VALUE_WANTED}", lambda: unison.Network(2, [], set={"s": [1, "2"]})),
    (unison.PlanError, f"Network: set['s'][1] is -1: {VALUE_WANTED} (plan BadValue)", lambda: unison.Network(2, [], set={"s": {1: -1}})),
    (unison.PlanError, "Network: a key of set['s'] is 2: a whole number from 0 to 1 is wanted (plan BadNode)", lambda: unison.Network(2, [], set={"s": {2: 1}})),
    (Missing, "Network: a key of set['s'] is 'eve', a str: the name of a node is wanted, and none is called so", lambda: unison.Network(["ann"], [], set={"s": {"eve": 1}})),
    (ValueError, "Network: set['s'] has 3 values: one for each of the 2 nodes is wanted", lambda: unison.Network(2, [], set={"s": [1, 2, 3]})),
    # Fields, flags and words
    (ValueError, "count: field is not given: one of the program's fields is wanted: a, b", lambda: unison.count(two, pair.with_set({}), 1)),
    (Missing, "image: field is 'c': a field of the program is wanted: a, b", lambda: unison.image(two, pair.with_set({}), 1, field="c")),
    (TypeError, "count: field is 5, an int: the name of a field is wanted", lambda: unison.count(swap, pair, 1, 5)),
    (Missing, "count: sum[1] is 't': a field of the program is wanted: s", lambda: unison.count(swap, pair, 1, sum=["s", "t"])),
    (ValueError, "count: most is ['s', 's'], a list: each field once is wanted", lambda: unison.count(swap, pair, 1, most=["s", "s"])),
    (TypeError, "count: until is 5, an int: a dict from one field to a value or a state, as {'none:state': 'infected'}, is wanted", lambda: unison.count(swap, pair, 1, until=5)),
    (Missing, "count: until['s'] is 'ill': a value of the field s is wanted, and it has no states, but numbers", lambda: unison.count(swap, pair, 1, until={"s": "ill"})),
    (ValueError, "count: constants are given, and the program is no unison.Model: a Program has none", lambda: unison.count(swap, pair, 1, constants={"seed": 1})),
    (ValueError, "count: mean is True, and no constant has several values, as constants={'seed': range(20)}, of which there are means", lambda: unison.count(swap, ring, 1, mean=True)),
    (ValueError, "count: constants are given, and the program is no unison.Model: a Program has none", lambda: unison.count(swap, ring, 1, constants={"seed": 1})),
    (TypeError, "cuts: below is 1, an int: True or False is wanted", lambda: unison.cuts(swap, pair, 1, below=1)),
    (TypeError, "image: grid is 1.5, a float: a whole number from 1 to 65536 is wanted", lambda: unison.image(swap, pair, 1, grid=1.5)),
    (ValueError, "image: frame_time is 0: a whole number from 1 to 60000 is wanted", lambda: unison.image(swap, pair, 1, grid=1, animate=True, frame_time=0)),
    (TypeError, "image: colours is 'red', a str: a dict from values or states to colours, as {1: 'teal', 0: '#fff8e7'}, is wanted", lambda: unison.image(swap, pair, 1, colours="red")),
    (TypeError, "image: colours[1] is 5, an int: the name of a colour, or #rrggbb, is wanted", lambda: unison.image(swap, pair, 1, colours={1: 5})),
    (TypeError, "Network.from_edges: directed is 1, an int: True or False is wanted", lambda: unison.Network.from_edges([0], [1], directed=1)),
    (TypeError, "Network.from_networkx: graph is 5, an int: a graph of NetworkX is wanted", lambda: unison.Network.from_networkx(5)),
    (TypeError, "Network.from_scipy: matrix is 5, an int: a sparse matrix of SciPy is wanted", lambda: unison.Network.from_scipy(5)),
    (TypeError, "indptr is 5: a list or an array of whole numbers is wanted", lambda: unison.Network.from_arrays(5, [0])),
    # Networks by the makers
    (TypeError, f"Network.ring: n is 5.0, a float: {VALUE_WANTED}", lambda: unison.Network.ring(5.0)),
    (ValueError, f"Network.ring: n is -1: {VALUE_WANTED}", lambda: unison.Network.ring(-1)),
    (TypeError, f"Network.small_world: near is '2', a str: {VALUE_WANTED}", lambda: unison.Network.small_world(9, "2", 10, 1)),
    (TypeError, "Network.small_world: rewire is '2', a str: a number from 0 to 100 is wanted", lambda: unison.Network.small_world(9, 2, "2", 1)),
    (ValueError, "Network.gnp: probability is 1.5, a float: a number from 0 to 1 is wanted", lambda: unison.Network.gnp(9, 1.5, 1)),
    (ValueError, "Network.gnp: probability is nan, a float: a number from 0 to 1 is wanted", lambda: unison.Network.gnp(9, float("nan"), 1)),
    (TypeError, "Network.block: sizes is 5, an int: a list, the number of nodes of each block, is wanted", lambda: unison.Network.block(5, 0, 0, 1)),
    (ValueError, f"Network.block: sizes[1] is -1: {VALUE_WANTED}", lambda: unison.Network.block([3, -1], 0, 0, 1)),
    (ValueError, "Network.block: sizes is [], a list: the number of nodes of one block or more is wanted", lambda: unison.Network.block([], 0, 0, 1)),
    (ValueError, "Network.block: between is 2, an int: a number from 0 to 1 is wanted", lambda: unison.Network.block([3], 0, 2, 1)),
    (TypeError, "Network.torus: diagonals is 4, an int: True or False is wanted", lambda: unison.Network.torus(4, 4, 4)),
    (ValueError, "Network.ring: weights=(LOW, HIGH) and seed are wanted together: the seed draws the weights", lambda: unison.Network.ring(5, weights=(1, 9))),
    (TypeError, "Network.random: weights is 5, an int: a pair, the least weight and the greatest, is wanted", lambda: unison.Network.random(9, 9, 1, weights=5)),
]  # fmt: skip


def test_each_mistake_is_told_in_words_of_python():
    wrong = []
    for kind, told, call in CASES:
        error = raised(kind, call)
        if str(error) != told:
            wrong.append(f"{error}\nand not\n{told}")
    assert not wrong, "\n\n".join(wrong)


def test_each_is_a_type_error_a_value_error_or_a_key_error():
    for kind, _, _ in CASES:
        assert issubclass(kind, (TypeError, ValueError, KeyError)), kind


def test_truth_values_are_values_of_fields_and_no_rounds():
    net = unison.Network(3, [(0, 1), (1, 2, True)], set={"dist": {0: False}, "s": [True, False, True]})
    assert net.set == {"dist": {0: 0}, "s": {0: 1, 1: 0, 2: 1}} and net.weight(1, 2) == 1
    assert unison.lockstep(unison.Program(DISTANCE), net.with_set({"dist": {0: False}}), 2).by_name("dist") == {0: 0, 1: 1, 2: 2}


def test_long_values_are_told_by_what_they_are():
    assert str(raised(TypeError, lambda: unison.lockstep(swap, pair, list(range(100))))) == f"lockstep: rounds is a list: {ROUND_WANTED}"
    assert str(raised(TypeError, lambda: unison.lockstep(swap, pair, {"a": "\n"}))) == f"lockstep: rounds is {{'a': '\\n'}}, a dict: {ROUND_WANTED}"


def test_numbers_of_numpy_are_whole_numbers():
    from support import wanted

    numpy = wanted("numpy")
    assert unison.lockstep(swap, pair, numpy.int64(2)).round == 2
    assert unison.watch(swap, pair, numpy.array([0, 2])).rounds == (0, 2)
    told = str(raised(TypeError, lambda: unison.lockstep(swap, pair, numpy.array([1, 2]))))
    assert told == f"lockstep: rounds is array([1, 2]), an array of shape (2,): {ROUND_WANTED}"
    assert str(raised(TypeError, lambda: unison.watch(swap, pair, numpy.array([0.5])))) == f"watch: rounds[0] is 0.5, a float: {ROUND_WANTED}"


def test_a_graph_of_networkx_is_told_how_it_becomes_a_network():
    from support import wanted

    graph = wanted("networkx").path_graph(3)
    told = str(raised(TypeError, lambda: unison.lockstep(swap, graph, 1)))
    assert told == "lockstep: network is a Graph of networkx: a unison.Network is wanted: unison.Network.from_networkx(graph) makes one"


#: What is given in place of each argument in turn: values of each kind, of which few are what is wanted.
OTHERS = [
    5, -1, 2.5, float("nan"), 2**80, True, None, "x", b"x", [], [1.5], [None], [[0]], [("a",)], (1, 2, 3), {"a": 1}, {1}, range(3),
    object(), lambda *_: 0, swap, pair, ring, first,
]  # fmt: skip
#: What Python itself says where a value is of the wrong kind.
WORDS_OF_PYTHON = re.compile(
    "has no attribute|object is not|not supported between|unhashable|required positional|unexpected keyword|has no len|"
    "cannot be interpreted|not subscriptable|must be|is not a mapping|invalid literal|out of range$|unpack"
)
named = unison.Network(["a", "b"], [("a", "b")])
seen = unison.watch(swap, pair, [0, 1])

#: Public calls, each with arguments that it takes, and those that may be left out.
CALLS = [
    (unison.lockstep, [swap, pair, 1], ["from_"]),
    (unison.lockstep, [swap, ring, 1], ["from_"]),
    (unison.watch, [swap, pair, [1]], ["from_"]),
    (unison.settle, [swap, pair, 10], ["from_"]),
    (unison.replay, [swap, pair, "", 5], ["from_"]),
    (unison.why, [swap, pair], ["rounds", "schedule", "stop", "from_"]),
    (unison.first_fault, [swap, pair], ["rounds", "schedule", "stop", "from_"]),
    (unison.sweep, [swap, pair, {"s": [1]}, 1], ["count", "sum", "least", "most", "of", "from_"]),
    (unison.Program, ["field s = 0;"], []),
    (unison.Network, [2, [(0, 1)], None], ["set", "phase"]),
    (unison.Network.from_text, [pair.text, None], []),
    (unison.Network.from_arrays, [[0, 1, 2], [1, 0], None], ["set", "names"]),
    (unison.Network.from_edges, [[0], [1], None], ["nodes", "directed", "set", "names"]),
    (unison.Network.from_networkx, [None, "weight"], []),
    (unison.Network.from_scipy, [None], ["weights"]),
    (pair.with_set, [{"s": 1}], []),
    (ring.with_set, [{"s": 1}], []),
    (named.number, ["a"], []),
    (named.neighbours, ["a"], []),
    (named.degree, ["a"], []),
    (named.slot, ["a", "b"], []),
    (named.weight, ["a", "b"], []),
    (ring.number, [1], []),
    (ring.neighbours, [1], []),
    (schedule.read, [pair, 0, 1], []),
    (schedule.write, [pair, 0], []),
    (schedule.turn, [pair, 0], []),
    (schedule.sweep, [pair, 1], []),
    (schedule.spell, [[schedule.Write(0)]], []),
    (schedule.parse, ["write 0\n"], []),
    (unison.States.from_values, [swap, [[1], [2]], 1], ["names"]),
    (first.state, [0], []),
    (first.by_name, ["s"], []),
    (first.column, ["s"], []),
    (first.difference, ["s", first], []),
    (seen.at, [1], []),
    (unison.count, [swap, pair, 1], []),
    (unison.image, [swap, pair, 1], []),
    (unison.cuts, [swap, pair, 1], []),
]  # fmt: skip


def tries(positional, optional):
    """Arguments of which one is another value."""
    for other in OTHERS:
        for place in range(len(positional)):
            yield [*positional[:place], other, *positional[place + 1 :]], {}
        for name in optional:
            yield positional, {name: other}


def test_no_call_answers_in_words_of_python():
    """Whatever is given, a call does what it is for, or says in words of its own what is wrong; programs are not run."""
    from unison import _programs

    def refuse(*_, **__):
        raise unison.ProgramsMissing("none is run here")

    ran, _programs.ran = _programs.ran, refuse
    wrong, told = set(), 0
    try:
        for call, positional, optional in CALLS:
            for given, more in tries(positional, optional):
                try:
                    call(*given, **more)
                except (TypeError, ValueError, KeyError, IndexError, unison.ProgramsMissing) as error:
                    told += 1
                    if WORDS_OF_PYTHON.search(str(error)):
                        wrong.add(f"{call.__qualname__}: {type(error).__name__}: {error}")
                except Exception as error:
                    wrong.add(f"{call.__qualname__}: {type(error).__name__}: {error}")
    finally:
        _programs.ran = ran
    assert not wrong, "\n".join(sorted(wrong))
    assert told > 1000
