"""Sweeps: all combinations, beside numbers found by reasoning, and what is refused before a run."""

import json
import threading

from support import DISTANCE, EXAMPLES, library_alone, network, raised, run_python, skip, wanted

import unison

library_alone("many calls")

STEP = unison.Program("field s = 0; field step = 1; next s = (s + step);")
SPREAD = unison.Program("field s = 0; field wanted = 1; next s = (s max (count n.s >= wanted));")


def model_of(name):
    """A model of the examples, where there is a program that expands it."""
    try:
        return unison.Model.from_file(EXAMPLES / "models" / f"{name}.model")
    except unison.ProgramsMissing as error:
        return skip(str(error))


PATH = unison.Network(5, [(node, node + 1) for node in range(4)], set={"s": {0: 1}})


def test_each_combination_has_a_row_for_each_round():
    found = unison.sweep(STEP, unison.Network(3, []), {"step": [1, 5], "s": (10, 20)}, [0, 2], sum="s")
    assert found.columns == ("step", "s", "round", "sum s")
    rows = [(step, s, round, 3 * (s + round * step)) for step in (1, 5) for s in (10, 20) for round in (0, 2)]
    assert [tuple(row.values()) for row in found.rows] == rows
    assert (found.constants, found.rounds, len(found)) == ({"step": (1, 5), "s": (10, 20)}, (0, 2), 8)
    assert found["sum s"] == [row[3] for row in rows] and list(found) == found.rows
    assert "there is no column 'least s'" in str(raised(unison.faults.Missing, lambda: found["least s"]))
    assert repr(found) == "<Sweep of step, s, 8 rows: step, s, round, sum s>"


def test_counts_of_a_spread():
    """From the end of a path each round reaches one node more, where one neighbour is enough."""
    found = unison.sweep(SPREAD, PATH, {"wanted": [1, 2, 0]}, 6, count="s")
    reached = {1: [min(round + 1, 5) for round in range(7)], 2: [1] * 7, 0: [1] + [5] * 6}
    for wanted_count, numbers in reached.items():
        rows = [row for row in found if row["wanted"] == wanted_count]
        assert [(row["round"], row["0"], row["1"]) for row in rows] == [(round, 5 - ones, ones) for round, ones in enumerate(numbers)]


def test_counts_of_values_of_every_size():
    """Few values, many, great ones, and none, each counted another way where numpy is there."""
    nodes = unison.Network(6, [])
    for values in ([0, 1, 1, 7, 7, 7], [0, 9, 9, 60000, 60000, 60000], [1, 70000, 70000, 5, 5, unison.NONE - 1], [unison.NONE] * 4 + [3, 3], [unison.NONE] * 6):
        found = unison.sweep(unison.Program("field s = 0;"), nodes, {"s": [values]}, [0], count="s").rows[0]
        assert {key: value for key, value in found.items() if key not in ("s", "round")} == {str(value): values.count(value) for value in sorted(set(values))}


def test_counts_are_the_same_whatever_values_the_library_is_asked_for():
    """Small values are asked for at first, then those that occurred, and no more where there are too many; without the call the words are counted."""
    from unison import _runs

    rule, nodes = STEP, unison.Network(5, [])
    before = _runs.counts_found
    for steps in ([1], [2, 9], [1000, 1, 0, 4294967295]):
        values = {"s": [[0, 1, 2, 3, 3], 7, [5, 5, 5, 5, 4294967290]], "step": steps}
        found = unison.sweep(rule, nodes, values, range(0, 9, 2), count="s", workers=1)
        _runs.counts_found = lambda *_: None
        try:
            assert unison.sweep(rule, nodes, values, range(0, 9, 2), count="s", workers=2).rows == found.rows, steps
        finally:
            _runs.counts_found = before
    known = _runs.Values(rule, "s")
    assert known.listed == tuple(range(8))
    known.add([_runs.Found({}, {("s", 700): 1, ("s", 9): 0})])
    assert known.listed == (*range(8), 700)
    known.add([_runs.Found({}, {("s", value): 1 for value in range(300)})])
    assert known.listed is None
    known.add([_runs.Found({}, {("s", 1): 1})])
    assert known.listed is None, "too many values stay too many"


def test_several_fields_are_counted_apart():
    two = unison.Program("field a = 1; field b = 2; next a = b; next b = a;")
    found = unison.sweep(two, unison.Network(2, []), {}, [0, 1], count=["a", "b"])
    assert found.columns == ("round", "a=1", "a=2", "b=1", "b=2")
    assert [list(row.values()) for row in found] == [[0, 2, 0, 0, 2], [1, 0, 2, 2, 0]]


def test_sums_least_and_most():
    rule = unison.Program("field s = 0; field up = 0; next s = (s + up);")
    values = {"s": [[4294967295, 4294967295, 7]], "up": [{0: 0, 1: 0, 2: 3}]}
    found = unison.sweep(rule, unison.Network(3, []), values, [0, 1], sum=["s", "up"], least="s", most="up")
    assert found.columns == ("s", "up", "round", "sum s", "sum up", "least s", "most up")
    assert [list(row.values())[3:] for row in found] == [[2 * 4294967295 + 7, 3, 7, 3], [2 * 4294967295 + 10, 3, 10, 3]], "a sum is not cut"


def test_functions_of_states():
    def reached(states):
        return sum(int(value) for value in states["s"])

    assert unison.sweep(SPREAD, PATH, {"wanted": 1}, [3], of=reached).rows == [{"wanted": 1, "round": 3, "reached": 4}]
    assert unison.sweep(SPREAD, PATH, {"wanted": 1}, [3], of=lambda states: states.round).rows == [{"wanted": 1, "round": 3, "of": 3}]
    parts = unison.sweep(SPREAD, PATH, {"wanted": [1]}, [0, 1], count="s", of=lambda states: {"first": states.state(0)["s"], "last": states.state(4)["s"]})
    assert parts.columns == ("wanted", "round", "0", "1", "first", "last") and [row["last"] for row in parts] == [0, 0]
    assert str(raised(ZeroDivisionError, lambda: unison.sweep(SPREAD, PATH, {"wanted": range(9)}, 1, of=lambda states: 1 // 0)))
    twice = raised(ValueError, lambda: unison.sweep(SPREAD, PATH, {"wanted": 1}, 1, of=lambda states: {"round": 1}))
    assert "two columns 'round'" in str(twice)


def test_states_where_nothing_is_asked_for():
    found = unison.sweep(SPREAD, PATH, {"wanted": [1, 2]}, 3)
    assert found.columns == ("wanted", "round", "states") and [row["round"] for row in found] == [3, 3]
    for row in found:
        assert row["states"] == unison.lockstep(SPREAD, PATH.with_set({"s": {0: 1}, "wanted": row["wanted"]}), 3)


def test_initial_values_of_each_form_by_names():
    names = ["ann", "bob", "cid"]
    row = unison.Network(names, [("ann", "bob"), ("bob", "cid")], set={"dist": {"ann": 0}})
    starts = [{"cid": 0}, [5, 4294967295, 4294967295], 9]
    found = unison.sweep(unison.Program(DISTANCE), row, {"dist": starts}, [2], of=lambda states: states.by_name("dist"))
    assert [[part[name] for name in names] for part in found] == [[2, 1, 0], [5, 6, 7], [9, 9, 9]]
    large = unison.Network.from_edges([0, 1], [1, 2], names=names)
    again = unison.sweep(unison.Program(DISTANCE), large, {"dist": starts}, [2], of=lambda states: states.by_name("dist"))
    assert again.rows == found.rows


def test_rounds_that_do_not_fit_into_one_block():
    from unison import _runs

    before = _runs.BLOCK
    expected = unison.sweep(SPREAD, PATH, {"wanted": [1, 0]}, range(1, 9, 2), count="s").rows
    _runs.BLOCK = 20  # two rounds of five nodes with two fields
    try:
        assert unison.sweep(SPREAD, PATH, {"wanted": [1, 0]}, range(1, 9, 2), count="s").rows == expected
    finally:
        _runs.BLOCK = before
    assert [row["1"] for row in expected] == [2, 4, 5, 5, 5, 5, 5, 5]


def test_states_to_go_on_from():
    start = unison.States.from_values(STEP, [[100, 3], [200, 4]], round=10)
    found = unison.sweep(STEP, unison.Network(2, []), {}, [10, 12], from_=start, sum="s")
    assert [list(row.values()) for row in found] == [[10, 300], [12, 314]]
    assert raised(unison.RunError, lambda: unison.sweep(STEP, unison.Network(2, []), {}, [9], from_=start)).name == "RoundsBelowStart"
    text = "round 0\n0 s=0 step=1\n1 s=0 step=1\n"
    assert "sweep: from_ is" in str(raised(TypeError, lambda: unison.sweep(STEP, unison.Network(2, []), {}, [9], from_=text)))
    assert "sweep: from_ has 2 nodes" in str(raised(ValueError, lambda: unison.sweep(STEP, unison.Network(3, []), {}, [12], from_=start)))


def test_runs_are_made_side_by_side():
    """Three runs wait for each other: alone, none would go on."""
    together = threading.Barrier(3, timeout=60)
    found = unison.sweep(STEP, unison.Network(1, []), {"step": range(3)}, [1], of=lambda states: together.wait() is not None, workers=3)
    assert [row["of"] for row in found] == [True] * 3
    seen = set()
    unison.sweep(STEP, unison.Network(1, []), {"step": range(5)}, [1], of=lambda states: seen.add(threading.get_ident()), workers=1)
    assert len(seen) == 1


def models():
    """Models of the examples, each with a network and values of its constants."""
    club = network("karate").with_set({"state": {0: 1, 33: 1}})
    yield "epidemic", club, {"infection": 9000, "seed": [1, 2, 3]}
    yield "epidemic", club, {"recovery": 30000, "infection": [0, 65536]}
    yield "colouring", network("karate").with_set({}), {"seed": range(2)}
    yield "majority", network("votes"), {"seed": [0, 7]}


def test_sweeps_of_models_beside_the_counts_of_the_proved_program():
    for name, net, values in models():
        model = model_of(name)
        field = model.fields[0]
        found = unison.sweep(model, net, values, 8, count=field, sum=field)
        counted = unison.count(model, net, 8, field, sum=field, constants=values)
        several = next(constant for constant, given in values.items() if not isinstance(given, int))
        columns = [several, *counted.columns[counted.columns.index("round") :]]
        assert set(found.columns) == {*values, *columns}, name
        assert [tuple(row[column] for column in columns) for row in found] == [tuple(row) for row in counted.rows], name


def test_a_model_and_the_fields_and_constants_that_are_swept():
    model = model_of("epidemic")
    path = unison.Network(4, [(0, 1), (1, 2), (2, 3)])
    found = unison.sweep(model, path, {"infection": [0, 65536], "state": [{0: 1}, {0: 1, 3: 1}], "recovery": 0}, [0, 1], count="state")
    infected = [(row["infection"], row["round"], row["infected"]) for row in found]
    assert infected == [(0, 0, 1), (0, 1, 1), (0, 0, 2), (0, 1, 2), (65536, 0, 1), (65536, 1, 2), (65536, 0, 2), (65536, 1, 4)]
    assert found.columns == ("infection", "state", "recovery", "round", "susceptible", "infected", "recovered")
    assert raised(unison.ModelError, lambda: unison.sweep(model, path, {"infektion": [1]}, 1)).part == "model"


def test_what_is_refused():
    lone = unison.Network(1, [])
    cases = [
        (TypeError, ("field s = 0;", lone, {}, 1), {}, "program is 'field s = 0;'"),
        (TypeError, (STEP, "nodes = 1", {}, 1), {}, "network is 'nodes = 1'"),
        (TypeError, (STEP, lone, [1], 1), {}, "constants is [1]"),
        (unison.faults.Missing, (STEP, lone, {"seed": range(3)}, 1), {}, "the constant 'seed' is 'seed': a field of the program is wanted: s, step"),
        (ValueError, (STEP, lone, {"step": []}, 1), {}, "constants['step'] is []"),
        (TypeError, (STEP, lone, {"step": "12"}, 1), {}, "constants['step'] is '12'"),
        (TypeError, (STEP, lone, {"step": {0: 1}}, 1), {}, "constants['step'] is {0: 1}"),
        (unison.PlanError, (STEP, lone, {"step": [-1]}, 1), {}, "constants['step'][0] is -1"),
        (unison.faults.Missing, (STEP, lone, {}, 1), {"count": "t"}, "count is 't'"),
        (unison.faults.Missing, (STEP, lone, {}, 1), {"sum": ["s", "t"]}, "sum[1] is 't'"),
        (TypeError, (STEP, lone, {}, 1), {"of": "s"}, "of is 's'"),
        (ValueError, (STEP, lone, {}, []), {}, "rounds is []"),
        (unison.RunError, (STEP, lone, {}, [2, 1]), {}, "NotRising"),
        (unison.RunError, (STEP, lone, {}, [1_000_000_001]), {}, "TooManyRounds"),
        (ValueError, (STEP, lone, {}, 1), {"workers": 0}, "workers is 0"),
        (unison.PlanError, (STEP, unison.Network(1, [], set={"t": 1}), {}, 1), {}, "plan UnknownField"),
        (ValueError, (unison.Program("field s = 0; next s = (s + 1);"), lone, {}, 300), {"count": "s"}, "301 values of s occur"),
        (ValueError, (unison.Program("field s = 0; next s = id;"), unison.Network(257, []), {}, 1), {"count": "s"}, "257 values of s occur"),
    ]
    for kind, given, more, told in cases:
        error = raised(kind, lambda: unison.sweep(*given, **more))
        assert told in str(error), (told, str(error))


def test_the_same_without_numpy():
    printed = run_python(
        "import sys; sys.modules['numpy'] = None; import json, unison\n"
        "rule = unison.Program('field s = 0; field up = 2; next s = (s + (up * id));')\n"
        "found = unison.sweep(rule, unison.Network(3, []), {'up': [1, 3]}, [0, 2], count='s', sum='s', least='s', most='s')\n"
        "print(json.dumps([list(row.values()) for row in found]))\n"
    )
    assert json.loads(printed) == [
        [1, 0, 3, 0, 0, 0, 0, 0, 0, 0], [1, 2, 1, 1, 1, 0, 0, 6, 0, 4], [3, 0, 3, 0, 0, 0, 0, 0, 0, 0], [3, 2, 1, 0, 0, 1, 1, 18, 0, 12],
    ]  # fmt: skip


def test_sweeps_as_tables():
    pandas = wanted("pandas")
    frame = unison.sweep(STEP, unison.Network(3, []), {"step": [1, 5]}, 2, sum="s").to_pandas()
    assert isinstance(frame, pandas.DataFrame) and list(frame.columns) == ["step", "round", "sum s"]
    assert frame.groupby("round")["sum s"].mean().tolist() == [0, 9, 18]
    shown = unison.sweep(STEP, unison.Network(3, []), {"step": range(20)}, [1], sum="s")._repr_html_()
    assert shown.count("<tr>") == 1 + 6 + 1 + 6 and "<th>sum s</th>" in shown and "20 rows" in shown
    assert "<tr><td>5</td><td>1</td><td>15</td></tr>" in shown and "<td>6</td><td>1</td>" not in shown and "<td>57</td>" in shown
