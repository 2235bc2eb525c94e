"""Cuts, traces, and what is told of schedules: beside what is reasoned."""

from support import EXAMPLES, ROOT, SWAP, network, program, raised

import unison
from unison import schedule

swap = unison.Program(SWAP)
pair = unison.Network(["ann", "bob"], [("ann", "bob")], set={"s": [5, 7]})
MOST = 4294967295


def test_cuts_are_where_the_plain_number_is_greater():
    """s is 4294967290 and rises by 3: 4294967293 in round 1, cut in each round after it."""
    rising = unison.Program("field s = 4294967290;\nnext s = (s + 3);")
    net = unison.Network(["ann", "bob"], [])
    assert unison.cuts(rising, net, 1) == []
    assert unison.cuts(rising, net, 4) == [unison.Cut(2, 13, "+", 2, "ann", 6)]
    assert unison.cuts(rising, net, 4)[0].operator == "+"
    start = unison.States.from_values(rising, [[0], [MOST]], round=7)
    assert unison.cuts(rising, net, 8, from_=start) == [unison.Cut(2, 13, "+", 8, "bob", 1)]


def test_differences_below_zero_and_totals():
    rules = unison.Program("field s = 1; next s = (total n.s - 2);")
    assert unison.cuts(rules, unison.Network(2, [(0, 1)]), 1) == []
    assert unison.cuts(rules, unison.Network(2, [(0, 1)]), 1, below=True) == [unison.Cut(1, 34, "-", 1, 0, 2)]
    star = unison.Network(3, [(0, 1), (0, 2)], set={"s": {1: MOST, 2: 1}})
    assert unison.cuts(unison.Program("field s = 0; next s = total n.s;"), star, 1) == [unison.Cut(1, 23, "total", 1, 0, 1)]


def test_cuts_of_an_example():
    """What docs/commands/cuts.md shows: `+` in line 5 at column 37, four times."""
    text = (EXAMPLES / "distance.rules").read_text().splitlines()
    (cut,) = unison.cuts(program("distance"), network("path"), 2)
    assert text[cut.line - 1][cut.column - 1] == "+" and (cut.round, cut.node, cut.times) == (1, 0, 4)
    assert "examples/distance.rules:5:37: `+`" in (ROOT / "docs" / "commands" / "cuts.md").read_text() and (cut.line, cut.column) == (5, 37)


#: A trace of the pair, whether it holds, and the first line that does not.
TRACES = [
    ("ann reads bob: s=7\nann moves: s=7\nbob reads ann: s=5\nbob moves: s=5\n", True, None),
    ("", True, None),
    ("# nothing\n\nann reads bob\n", True, None),
    (b"ann reads bob: s=7\n", True, None),
    ("ann reads bob: s=5\n", False, 1),
    ("ann moves: s=7\n", False, 1),
    ("ann reads bob\nann moves: s=7\nbob reads ann: s=7\n", False, 3),
    ("ann reads bob\nann moves\nann reads bob\n", False, 3),
    (["ann reads bob: s=7", "ann moves: s=7\n"], True, None),
    ([{"node": "ann", "reads": "bob", "state": {"s": 7}}, {"node": "ann", "moves": True, "state": {"s": 7}}], True, None),
    ([{"node": "ann", "reads": "bob"}, {"node": "ann", "moves": True, "state": {"s": 8}}], False, 2),
    (iter(["ann reads bob", {"node": "bob", "moves": True}]), False, 2),
]


def test_traces_hold_or_do_not():
    for trace, holds, line in TRACES:
        verdict = unison.verify(swap, pair, trace)
        assert (verdict.holds, bool(verdict), verdict.line) == (holds, holds, line), (trace, verdict)
        assert verdict.text.startswith(f"trace.txt:{line}: `") or holds, verdict.text
    steps = [{"node": (0, 0), "reads": (0, 1)}, {"node": (0, 0), "moves": True}]
    assert unison.verify(swap, unison.Network([(0, 0), (0, 1)], [((0, 0), (0, 1))]), steps).holds
    numbers = unison.Network(2, [(0, 1)], set={"s": [5, 7]})
    assert unison.verify(swap, numbers, [{"node": 0, "reads": 1, "state": {"s": 7}}]).holds
    assert unison.verify(swap, pair, "ann reads bob: s=4\n", from_="round 3\n0 s=2\n1 s=4\n").holds


def test_what_says_no_step_is_refused():
    error = raised(unison.TraceError, lambda: unison.verify(swap, pair, "ann reads bob\nann rests\n"))
    assert error.part == "trace" and "line 2: " in str(error)
    raised(unison.faults.Missing, lambda: unison.verify(swap, pair, [{"node": "eve", "moves": True}]))


def test_a_trace_of_the_examples():
    """The traces that the pages tell of: a run, and one that is not."""
    folder = EXAMPLES / "asynchronous"
    assert folder.is_dir()
    text = "0 reads 1: s=7\n0 moves: s=7\n1 reads 0: s=5\n"
    assert unison.verify(program("swap"), network("pair"), text).text.startswith("3 steps hold: 2 reads, 1 move; 3 with values\n")


def test_what_a_schedule_does_is_told_by_names():
    told = unison.explain(swap, pair, schedule.sweep(pair)).splitlines()
    assert told[:4] == [
        "1  ann reads bob, which has moved as often: takes s=7",
        "2  ann moves: s=7, its state of round 1",
        "3  bob reads ann, which is one ahead: takes s=5, its previous state (it holds s=7)",
        "4  bob moves: s=5, its state of round 1",
    ]
    assert told[4:8] == ["", "steps 4", "reads 2", "moves 2"]
    assert unison.explain(swap, pair, "read 0 0\nwrite 0\n", slots=True).splitlines()[:2] == [
        "1  read 0 0  Taken: neighbour 1 at count 0",
        "2  write 0  Moved: node 0 at count 1",
    ]
    assert "stands at the stop, round 0" in unison.explain(swap, pair, "write 0\n", 0)


def test_nodes_that_do_not_wait_go_wrong():
    """Node 0 moves first, and node 1 reads it then: its 5 is lost."""
    told = unison.naive(swap, pair, schedule.sweep(pair), 1)
    assert told.splitlines()[:2] == ["0 moves 1 s=7", "1 moves 1 s=7  lockstep s=5"]
    assert told.splitlines()[-1] == "nodes that differ 1 of 2"
