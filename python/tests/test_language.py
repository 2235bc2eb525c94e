"""The worked values of docs/language.md, docs/formats.md and docs/commands."""

from support import DISTANCE, SWAP, raised

import unison

M = 4294967295
ONE = unison.Network(1, [])


def after(text, links, rounds):
    """The states after a round, each as the tuple of its values."""
    states = unison.lockstep(unison.Program(text), links, rounds)
    return [tuple(states.state(node).values()) for node in range(states.nodes)]


def test_the_first_example():
    path = unison.Network(3, [(0, 1), (1, 2)], set={"dist": {0: 0}})
    states = unison.lockstep(unison.Program(DISTANCE), path, 2)
    assert states.report() == "round 2\n0 dist=0\n1 dist=1\n2 dist=2\n"


def test_worked_examples_of_the_language():
    pair = unison.Network(2, [(0, 1)], set={"s": [5, 7]})
    assert after(SWAP, pair, 1) == [(7,), (5,)]
    assert after(SWAP, pair, 2) == [(5,), (7,)]
    four = "next a = (7 / 0); next b = (7 % 0); next c = (3 - 5); next d = (65536 * 65536);"
    assert after("field a = 9; field b = 9; field c = 9; field d = 9; " + four, ONE, 1) == [(0, 7, 0, M)]
    three = "field s = 0; field a = 5; field t = 5; next s = least n.s; next a = all n.s; next t = total n.s;"
    assert after(three, ONE, 1) == [(M, 1, 0)]
    assert [after("field s = 0; next s = (s + round);", ONE, t) for t in range(1, 5)] == [[(0,)], [(1,)], [(3,)], [(6,)]]
    assert after("next b = a; field a = 3; field b = 9; next a = b;", ONE, 1) == [(9, 3)]
    assert unison.lockstep(unison.Program(""), unison.Network(2, [(0, 1)]), 12).report() == "round 12\n0\n1\n"


def test_values_of_operators():
    for expression, expected in [
        ("(3 + 4)", 7), ("(4294967295 + 1)", M), ("(65536 * 65535)", 4294901760), ("(3 - 5)", 0), ("(7 / 2)", 3), ("(7 % 4)", 3),
        ("(1 & 2)", 0), ("(6 | 3)", 7), ("(6 ^ 3)", 5), ("(1 == 2)", 0), ("(1 != 2)", 1), ("(2 <= 2)", 1), ("(3 min 4)", 3), ("(3 max 4)", 4),
        ("not 0", 1), ("not 7", 0), ("if 2 then 8 else 9", 8), ("if 0 then 8 else 9", 9), ("degree", 0), ("id", 0),
    ]:  # fmt: skip
        assert after(f"field s = 3; next s = {expression};", ONE, 1) == [(expected,)], expression


def test_canonical_spelling():
    program = unison.Program("field  s=007;#x\nnext s=(s+not s);")
    assert program.canonical == "field s = 7;\nnext s = (s + not s);\n"
    assert unison.Program(program.canonical) == program
    assert hash(unison.Program(program.canonical)) == hash(program)
    assert program != unison.Program("field s = 7;")
    assert unison.Program(b"# \xff\n").canonical == ""
    longer = unison.Program("field s=0;" + "next s=" + "(" * 60 + "s" + "+s)" * 60 + ";")
    assert unison.Program(longer.canonical).canonical == longer.canonical


def test_fields_initial_values_and_the_round():
    program = unison.Program("next b = a; field a = 3; field b = 9; next a = b;")
    assert program.fields == ("a", "b")
    assert program.initial_values == {"a": 3, "b": 9}
    assert program.openings == program.initial_values  # an old name
    assert not program.reads_round
    assert unison.Program("field rounds = 0; next rounds = (rounds + 1);").reads_round is False
    assert unison.Program("field s = 0; next s = any (n.s + round);").reads_round is True
    assert unison.Program("").fields == ()


def test_distances_on_the_path_watched():
    """docs/commands/watch.md."""
    path = unison.Network(3, [(0, 1), (1, 2)], set={"dist": {0: 0}})
    watched = unison.watch(unison.Program(DISTANCE), path, range(3))
    assert [[int(value) for value in row] for row in watched["dist"]] == [[0, M, M], [0, 1, M], [0, 1, 2]]
    assert watched.rounds == (0, 1, 2) and len(watched) == 3


def test_the_three_manners_of_rounds():
    pair = unison.Network(2, [(0, 1)])
    assert unison.settle(unison.Program(SWAP), pair.with_set({"s": [5, 7]})) == ("repeats", 0, 2)
    assert unison.settle(unison.Program("field s = 0; next s = (s max (id max most n.s));"), pair) == ("settles", 2, 0)
    count = unison.Program("field s = 0; next s = (s + 1);")
    assert unison.settle(count, pair, limit=50) == ("open", 50, 0)
    assert unison.settle(count, pair, limit=0) == ("open", 0, 0)
    late = unison.lockstep(count, pair, 7)
    assert unison.settle(count, pair, limit=60, from_=late) == ("open", 60, 0)
    nearly = unison.Network(2, [(0, 1)], set={"s": 4294967290})
    assert unison.settle(count, nearly) == ("settles", 5, 0)


def test_a_late_round_is_answered_at_once():
    path = unison.Network(3, [(0, 1), (1, 2)], set={"dist": {0: 0}})
    assert unison.lockstep(unison.Program(DISTANCE), path, 1_000_000_000).by_name("dist") == {0: 0, 1: 1, 2: 2}


def test_numbers_that_are_none():
    pair, swap = unison.Network(2, [(0, 1)]), unison.Program(SWAP)
    raised(ValueError, lambda: unison.lockstep(swap, pair, -1))
    raised(TypeError, lambda: unison.lockstep(swap, pair, 1.0))
    raised(TypeError, lambda: unison.lockstep(SWAP, pair, 1))
    raised(TypeError, lambda: unison.lockstep(swap, pair.text, 1))
    raised(ValueError, lambda: unison.lockstep(swap, pair, 1, from_=""))
    assert raised(unison.RunError, lambda: unison.lockstep(swap, pair, 2**32)).name == "TooManyRounds"
    assert raised(unison.RunError, lambda: unison.lockstep(swap, pair, 2**200)).name == "TooManyRounds"
