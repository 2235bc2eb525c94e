"""What calls answer: arrays with numpy, lists without it, names, tables of pandas."""

import json

from support import DISTANCE, SWAP, library_alone, raised, run_python, skip, wanted

import unison
from unison import _notebook, results

library_alone("many calls")

NAMED = unison.Network(["ann", "bob", "cid"], [("ann", "bob"), ("bob", "cid")], set={"a": {"ann": 7}, "b": [1, 2, 3]})
TWO = unison.Program("field a = 0; field b = 9; next a = (a max most n.a);")
WATCHED = [[[7, 1], [0, 2], [0, 3]], [[7, 1], [7, 2], [0, 3]], [[7, 1], [7, 2], [7, 3]]]


def plain(values):
    """Lists of plain numbers, of an array or of lists."""
    return values.tolist() if hasattr(values, "tolist") else values


def test_states_by_place_field_and_name():
    states = unison.lockstep(TWO, NAMED, 1)
    assert plain(states.values) == WATCHED[1]
    assert plain(states["a"]) == [7, 7, 0] and plain(states["b"]) == [1, 2, 3]
    assert states.by_name("a") == {"ann": 7, "bob": 7, "cid": 0}
    assert all(type(value) is int for value in states.by_name("a").values())
    assert states.state(1) == {"a": 7, "b": 2}
    assert (states.round, states.fields, states.nodes, tuple(states.names)) == (1, ("a", "b"), 3, ("ann", "bob", "cid"))
    assert states.report() == "round 1\n0 a=7 b=1\n1 a=7 b=2\n2 a=0 b=3\n"
    assert repr(states) == "<States of 3 nodes after round 1: a, b>"
    assert "the fields are a, b" in str(raised(unison.faults.Missing, lambda: states["c"]))
    raised(IndexError, lambda: states.state(3))
    raised(IndexError, lambda: states.state(-1))


def test_states_are_equal_by_round_and_values():
    first = unison.lockstep(TWO, NAMED, 1)
    assert first == unison.lockstep(TWO, unison.Network.from_text(NAMED.text), 1)
    assert first != unison.lockstep(TWO, NAMED, 2)
    assert first != unison.lockstep(TWO, NAMED.with_set({"a": 7}), 1)
    assert first != "round 1"


def test_rounds_by_place_field_and_round():
    watched = unison.watch(TWO, NAMED, [0, 1, 2])
    assert plain(watched.values) == WATCHED
    assert plain(watched["b"]) == [[1, 2, 3]] * 3
    assert plain(watched["a"]) == [[7, 0, 0], [7, 7, 0], [7, 7, 7]]
    assert watched.at(1) == unison.lockstep(TWO, NAMED, 1)
    assert [states.round for states in watched] == [0, 1, 2]
    raised(unison.faults.Missing, lambda: watched.at(3))
    raised(unison.faults.Missing, lambda: watched["c"])
    assert repr(watched) == "<3 rounds of 3 nodes: a, b>"


def test_rounds_that_are_far_apart():
    watched = unison.watch(TWO, NAMED, range(0, 1_000_000_001, 500_000_000))
    assert watched.rounds == (0, 500_000_000, 1_000_000_000)
    assert plain(watched.values) == [WATCHED[0], WATCHED[2], WATCHED[2]]


def test_no_rounds_no_fields():
    none = unison.watch(TWO, NAMED, [])
    assert (len(none), plain(none.values), list(none)) == (0, [], [])
    empty = unison.lockstep(unison.Program(""), unison.Network(2, [(0, 1)]), 3)
    assert (plain(empty.values), empty.fields, empty.report()) == ([[], []], (), "round 3\n0\n1\n")
    replayed = unison.replay(unison.Program(""), unison.Network(1, []), "write 0\n", stop=3)
    assert (replayed.report(), replayed.state(0)) == ("0 moves 1\n", {})


def test_replayed_by_name():
    net = unison.Network(["x", "y"], [("x", "y")], set={"s": [5, 7]})
    replayed = unison.replay(unison.Program(SWAP), net, "read 0 0\nwrite 0\n", stop=10)
    assert (plain(replayed.moves), replayed.moves_by_name(), replayed.by_name("s")) == ([1, 0], {"x": 1, "y": 0}, {"x": 7, "y": 7})
    assert replayed.report() == "0 moves 1 s=7\n1 moves 0 s=7\n"
    assert repr(replayed) == "<States of 2 nodes after 1 moves: s>"
    late = unison.replay(unison.Program(SWAP), net, "read 0 0\nwrite 0\n", 10, from_="round 3\n0 s=1\n1 s=2\n")
    assert late.report() == "0 moves 4 s=2\n1 moves 3 s=2\n"


def test_arrays_where_numpy_is_there():
    numpy = wanted("numpy")
    watched = unison.watch(TWO, NAMED, range(4))
    states = watched.at(2)
    replayed = unison.replay(TWO, NAMED, "", stop=1)
    for values, shape in [
        (states.values, (3, 2)), (states["a"], (3,)), (watched.values, (4, 3, 2)), (watched["a"], (4, 3)), (replayed.moves, (3,)), (replayed.values, (3, 2)),
        (unison.watch(TWO, NAMED, []).values, (0, 3, 2)), (unison.lockstep(unison.Program(""), NAMED.with_set({}), 0).values, (3, 0)),
    ]:  # fmt: skip
        assert isinstance(values, numpy.ndarray) and values.dtype == numpy.uint32 and values.shape == shape
        assert not values.flags.writeable
    assert (watched.values[2] == states.values).all()


def test_lists_where_numpy_is_not_there():
    """In a process whose numpy cannot be imported."""
    printed = run_python(
        "import sys; sys.modules['numpy'] = None; import json, unison\n"
        f"program, network = unison.Program({DISTANCE!r}), unison.Network(3, [(0, 1), (1, 2)], set={{'dist': {{0: 0}}}})\n"
        "watched = unison.watch(program, network, range(2)); states = watched.at(1)\n"
        "replayed = unison.replay(program, network, 'read 0 0\\nwrite 0\\n', 5)\n"
        "print(json.dumps([watched.values, watched['dist'], states.values, states['dist'], replayed.moves]))\n"
        "try:\n    states.to_pandas()\nexcept ImportError as error:\n    print(error)\n"
    )
    lists, told = printed.splitlines()
    m = unison.NONE
    assert json.loads(lists) == [[[[0], [m], [m]], [[0], [1], [m]]], [[0, m, m], [0, 1, m]], [[0], [1], [m]], [0, 1, m], [1, 0, 0]]
    assert told == "to_pandas needs pandas: install it by `pip install pandas` (Debian: `apt install python3-pandas`)"


def test_tables_of_pandas():
    pandas = wanted("pandas")
    frame = unison.lockstep(TWO, NAMED, 1).to_pandas()
    assert list(frame.index) == ["ann", "bob", "cid"] and frame.index.name == "node"
    assert {name: list(frame[name]) for name in frame} == {"a": [7, 7, 0], "b": [1, 2, 3]}
    assert [str(kind) for kind in frame.dtypes] == ["UInt32", "UInt32"]
    assert [str(kind) for kind in unison.lockstep(TWO, NAMED, 1).to_pandas(missing=False).dtypes] == ["uint32", "uint32"]
    rounds = unison.watch(TWO, NAMED, [0, 2]).to_pandas()
    assert rounds.index.names == ["round", "node"] and len(rounds) == 6
    assert rounds.loc[(2, "cid"), "a"] == 7 and rounds.loc[(0, "cid"), "a"] == 0
    assert list(rounds["a"].unstack("node").loc[2]) == [7, 7, 7]
    replayed = unison.replay(TWO, NAMED, "read 0 0\nwrite 0\n", 3).to_pandas()
    assert list(replayed.columns) == ["moves", "a", "b"] and list(replayed["moves"]) == [1, 0, 0]
    called = unison.replay(unison.Program("field moves = 4;"), unison.Network(1, []), "", 3).to_pandas()
    assert list(called.columns) == ["(moves)", "moves"] and called.loc[0, "moves"] == 4
    pairs = unison.Network([(0, 0), (0, 1)], [((0, 0), (0, 1))])
    assert list(unison.lockstep(unison.Program(SWAP), pairs, 0).to_pandas().index) == [(0, 0), (0, 1)]
    assert list(unison.watch(unison.Program(SWAP), pairs, [0]).to_pandas().index.get_level_values("node")) == [(0, 0), (0, 1)]
    assert unison.lockstep(unison.Program(""), pairs, 0).to_pandas().shape == (2, 0)
    assert isinstance(frame, pandas.DataFrame)


FAR = unison.Program(DISTANCE)
ROW = unison.Network(["ann", "bob", "cid"], [("ann", "bob"), ("bob", "cid")], set={"dist": {"ann": 0}})


def test_none_is_missing_where_that_is_asked_for():
    states, watched = unison.lockstep(FAR, ROW, 1), unison.watch(FAR, ROW, [0, 2])
    assert states.by_name("dist", missing=True) == {"ann": 0, "bob": 1, "cid": None}
    assert states.by_name("dist") == {"ann": 0, "bob": 1, "cid": 4294967295}
    found, rounds = states.column("dist", missing=True), watched.column("dist", missing=True)
    assert plain(found) == [0, 1, None] and plain(rounds) == [[0, None, None], [0, 1, 2]]
    assert plain(states.column("dist")) == plain(states["dist"]) == [0, 1, 4294967295]
    if results.numpy is not None:
        assert isinstance(found, results.numpy.ma.MaskedArray) and found.mask.tolist() == [False, False, True]
        assert found.mean() == 0.5 and rounds.count() == 4
    raised(unison.faults.Missing, lambda: states.column("far", missing=True))


def test_none_is_missing_in_tables_of_pandas():
    pandas = wanted("pandas")
    frame = unison.lockstep(FAR, ROW, 1).to_pandas()
    assert str(frame["dist"].dtype) == "UInt32" and frame["dist"].isna().tolist() == [False, False, True]
    assert frame["dist"].mean() == 0.5 and frame["dist"].iloc[2] is pandas.NA
    assert unison.lockstep(FAR, ROW, 1).to_pandas(missing=False)["dist"].tolist() == [0, 1, 4294967295]
    assert unison.watch(FAR, ROW, [0, 2]).to_pandas()["dist"].isna().sum() == 2
    assert unison.watch(FAR, ROW, [0, 2]).to_pandas(missing=False)["dist"].tolist() == [0, 4294967295, 4294967295, 0, 1, 2]
    assert unison.replay(FAR, ROW, "", 3).to_pandas()["dist"].isna().tolist() == [False, True, True]


def test_differences_have_a_sign():
    first, later = unison.lockstep(TWO, NAMED, 0), unison.lockstep(TWO, NAMED, 2)
    assert plain(first["a"]) == [7, 0, 0] and plain(later["a"]) == [7, 7, 7]
    assert plain(first.difference("a", "b")) == [6, -2, -3]
    assert plain(first.difference("a", later)) == [0, -7, -7] and plain(later.difference("a", first)) == [0, 7, 7]
    assert plain(first - later) == [[0, 0], [-7, 0], [-7, 0]]
    watched = unison.watch(TWO, NAMED, [0, 1])
    assert plain(watched.difference("a", "b")) == [[6, -2, -3], [6, 5, -3]]
    assert plain(watched - unison.watch(TWO, NAMED, [1, 2])) == [[[0, 0], [-7, 0], [0, 0]], [[0, 0], [0, 0], [-7, 0]]]
    far = unison.lockstep(FAR, ROW, 0), unison.lockstep(FAR, ROW, 1)
    assert plain(far[1].difference("dist", far[0])) == [0, 1 - 4294967295, 0]
    assert plain(far[1].difference("dist", far[0], missing=True)) == [0, None, None]
    raised(ValueError, lambda: first - far[0])
    raised(ValueError, lambda: first.difference("a", watched))
    raised(TypeError, lambda: first.difference("a", 3))
    raised(TypeError, lambda: first - 3)
    raised(unison.faults.Missing, lambda: first.difference("a", "c"))


def test_what_notebooks_show_of_results():
    """A table of the first and the last six nodes and rounds, where there is no page."""
    names = [f"<{place}>" for place in range(40)]
    path = unison.Network(names, list(zip(names, names[1:])), set={"dist": {"<0>": 0}})
    watched = unison.watch(FAR, path, range(30))
    watched._made_of = None
    shown, rounds = watched.at(29)._repr_html_(), watched._repr_html_()
    assert shown.count("<tr>") == 14 and "<td>&lt;5&gt;</td><td>5</td>" in shown and "<td>&lt;39&gt;</td><td>none</td>" in shown
    assert "&lt;6&gt;" not in shown and "&lt;33&gt;" not in shown and "&lt;34&gt;" in shown
    assert rounds.count("<tr>") == 14 and "<tr><td>2</td><td>0</td><td>1</td><td>2</td><td>none</td>" in rounds
    assert "<caption>dist: 30 rounds of 40 nodes: dist</caption>" in rounds
    assert unison.replay(FAR, ROW, "read 1 0\nwrite 1\n", 3)._repr_html_().count("<tr>") == 4


def test_small_runs_are_shown_as_pages():
    """The page that the proved program makes of the same rounds."""
    if not _notebook.is_at_hand():
        skip("there is no program unison_lab at hand")
    watched = unison.watch(FAR, ROW, range(3))
    assert watched._repr_html_() == unison.page(FAR, ROW, 2)._repr_html_() and watched._repr_html_().startswith("<iframe srcdoc=")
    assert watched.at(1)._repr_html_() == unison.page(FAR, ROW, [1])._repr_html_()
    later = unison.lockstep(FAR, ROW, 2, from_=watched.at(1))
    assert later._repr_html_() == unison.page(FAR, ROW, [2], from_=watched.at(1))._repr_html_()
    assert unison.watch(FAR, ROW, [0, 1, 5])._repr_html_().startswith("<table>"), "rounds that are not evenly apart"
    arrays = unison.Network.from_edges([0, 1], [1, 2], set={"dist": {0: 0}})
    assert unison.lockstep(FAR, arrays, 1)._repr_html_() == unison.page(FAR, arrays, [1])._repr_html_()
    one_way = unison.Network.from_arrays([0, 1, 1], [1])
    assert unison.lockstep(FAR, one_way, 1)._repr_html_().startswith("<table>"), "no network file says this network"


def test_results_do_not_share_what_they_hold():
    states = unison.lockstep(TWO, NAMED, 1)
    column = states["a"]
    if results.numpy is not None:
        column = column.copy()
    column[0] = 99
    assert states.by_name("a")["ann"] == 7
