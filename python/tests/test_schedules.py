"""Schedules: steps, their text, turns and sweeps, and what a replay makes of them."""

from support import EXAMPLES, SWAP, raised

import unison
from unison import schedule

ROW = unison.Network(["a", "b", "c"], [("a", "b"), ("b", "c")], set={"s": [1, 2, 4]})


def test_steps_by_name():
    assert schedule.read(ROW, "b", "a") == schedule.Read(1, 0)
    assert schedule.read(ROW, "b", "c") == schedule.Read(1, 1)
    assert schedule.read(ROW, "c", "b") == schedule.Read(2, 0)
    assert schedule.write(ROW, "c") == schedule.Write(2)
    raised(unison.faults.Missing, lambda: schedule.read(ROW, "a", "c"))
    raised(unison.faults.Missing, lambda: schedule.write(ROW, "d"))


def test_turns_and_sweeps():
    assert schedule.spell(schedule.turn(ROW, "b")) == "read 1 0\nread 1 1\nwrite 1\n"
    sweep = schedule.sweep(ROW)
    assert schedule.spell(sweep) == "read 0 0\nwrite 0\nread 1 0\nread 1 1\nwrite 1\nread 2 0\nwrite 2\n"
    assert len(sweep) == 2 * len(ROW.links) + ROW.nodes
    assert schedule.sweep(ROW, 3) == sweep * 3
    assert schedule.sweep(ROW, 0) == []
    replayed = unison.replay(unison.Program(SWAP), ROW, schedule.sweep(ROW, 3))
    assert replayed.moves_by_name() == {"a": 3, "b": 3, "c": 3}
    assert replayed.by_name("s") == unison.lockstep(unison.Program(SWAP), ROW, 3).by_name("s")


def test_texts_are_parsed_and_spelled():
    for path in sorted((EXAMPLES / "schedules").glob("*.txt")):
        text = path.read_text()
        assert schedule.spell(schedule.parse(text)) == text
        assert schedule.parse(text.encode()) == schedule.parse(text)
    assert schedule.parse("") == [] and schedule.spell([]) == ""
    assert schedule.parse("read 0 4294967295\nwrite 7\n") == [schedule.Read(0, 4294967295), schedule.Write(7)]


def test_bad_lines_are_those_of_the_library():
    """The first line that cannot stand, by `parse` and by `replay`."""
    lines = [
        "", " write 0", "write 0 ", "write  0", "write", "write 00", "write -1", "write 4294967296", "read 0", "read 0 0 0", "read 0 01", "Write 0",
        "write 0\r", "# write 0", "write 0;", "sweep", "write \u0661", "write 0x1",
    ]  # fmt: skip
    for line in lines:
        text = f"write 0\n{line}\nwrite 0\n"
        for call in (schedule.parse, lambda text: unison.replay(unison.Program(SWAP), ROW, text)):
            error = raised(unison.ScheduleError, lambda: call(text))
            assert error.number == 96 and error.place is not None and error.place[0] == 2, repr(line)
    for text in ("write 0", "write 0\nwrite 1"):
        error = raised(unison.ScheduleError, lambda: schedule.parse(text))
        assert str(error).startswith(f"schedule:{text.count(chr(10)) + 1}:")
        raised(unison.ScheduleError, lambda: unison.replay(unison.Program(SWAP), ROW, text))


def test_steps_that_are_none():
    raised(TypeError, lambda: schedule.spell([(0, 1)]))
    raised(ValueError, lambda: schedule.spell([schedule.Write(-1)]))
    raised(ValueError, lambda: schedule.spell([schedule.Read(0, 2**32)]))


def test_refused_steps_change_nothing():
    """docs/commands/explain.md: what a reader sees of a neighbour that is level, ahead, behind."""
    pair = unison.Network(2, [(0, 1)], set={"s": [5, 7]})
    swap = unison.Program(SWAP)
    ahead = [*schedule.turn(pair, 1), *schedule.turn(pair, 0)]
    assert unison.replay(swap, pair, ahead).report() == "0 moves 1 s=7\n1 moves 1 s=5\n"
    behind = [*schedule.turn(pair, 0), *schedule.turn(pair, 0)]
    assert unison.replay(swap, pair, behind).report() == "0 moves 1 s=7\n1 moves 0 s=7\n"
    none = [schedule.Write(2), schedule.Read(0, 1), schedule.Read(9, 0), schedule.Write(0)]
    assert unison.replay(swap, pair, none).report() == "0 moves 0 s=5\n1 moves 0 s=7\n"
    stopped = schedule.sweep(pair, 5)
    assert unison.replay(swap, pair, stopped, stop=2).moves_by_name() == {0: 2, 1: 2}
    assert unison.replay(swap, pair, iter(stopped), stop=0).moves_by_name() == {0: 0, 1: 0}


def test_a_starved_node_holds_the_others_back():
    """docs/commands/schedule.md: the counts of a ring of twenty come to rest at the distance from node 7, which makes no step."""
    ring = unison.Network(20, [(node, (node + 1) % 20) for node in range(20)])
    steps = [step for step in schedule.sweep(ring, 20) if step.node != 7]
    replayed = unison.replay(unison.Program("field s = 0; next s = most n.id;"), ring, steps)
    assert list(map(int, replayed.moves)) == [7, 6, 5, 4, 3, 2, 1, 0, 1, 2, 3, 4, 5, 6, 7, 8, 9, 10, 9, 8]
