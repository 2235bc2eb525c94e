"""Models: their programs, constants and states, and that they stand wherever a program may."""

import pickle
from collections import Counter

from support import EXAMPLES, library_alone, network, raised

import unison
from unison import _library, _programs
from unison.faults import Missing

library_alone("many calls")

MODELS = EXAMPLES / "models"

#: For each model of the examples its network, its rounds, and the name of its report in the cookbook.
REPORTS = [
    ("colouring", "petersen", 11),
    ("majority", "majority", 2),
    ("pagerank", "pagerank", 178),
    ("life", "life", 9),
    ("wireworld", "wireworld", 10),
    ("game", "game", 18),
    ("brians_brain", "brians_brain", 38),
    ("cyclic", "cyclic", 7),
]

LIGHTS = """
# const hidden = 9; states none_such { x }
const wanted = 2;
const half = chance(0.5);  # a chance
const more = wanted * 3 + 1;
states light { dark, bright }
field lamp: light = dark;
field n0 = more;
next lamp = if count(n.lamp == bright) >= wanted then bright else lamp;
"""


def test_each_model_has_the_report_of_the_cookbook():
    for name, net, rounds in REPORTS:
        model = unison.Model.from_file(MODELS / f"{name}.model")
        report = unison.lockstep(model, network(f"cookbook/{net}"), rounds).report()
        assert report == (EXAMPLES / "cookbook" / f"{name}.report").read_text(), name


def test_what_a_model_knows_of_itself():
    model = unison.Model(LIGHTS)
    assert model.fields == ("lamp", "n0") and model.initial_values == {"lamp": 0, "n0": 7}
    assert model.constants == {"wanted": 2, "half": 32768, "more": 7, "seed": 0}
    assert model.states == {"lamp": ("dark", "bright")}
    assert model.source == LIGHTS and not model.reads_round
    assert isinstance(model, unison.Program) and type(model.program) is unison.Program
    assert model.program == unison.Program(
        "field lamp = 0; field n0 = 7; next lamp = if (count (n.lamp == 1) >= 2) then 1 else lamp;"
    )
    assert repr(model) == "<Model with the fields lamp, n0>"


def test_constants_that_are_given_values():
    model = unison.Model(LIGHTS)
    other = model.with_constants(wanted=5, seed=3)
    assert other.constants == {"wanted": 5, "half": 32768, "more": 16, "seed": 3}
    assert other.initial_values["n0"] == 16 and model.initial_values["n0"] == 7, "the model itself stays as it is"
    assert other.with_constants({"half": 1}).constants == {"wanted": 5, "half": 1, "more": 16, "seed": 3}
    assert unison.Model(LIGHTS, {"wanted": 5}).constants["more"] == 16
    assert repr(other) == "<Model with the fields lamp, n0, wanted=5, seed=3>"
    error = raised(unison.ModelError, lambda: model.with_constants(wnated=3))
    assert (error.part, error.name) == ("model", "UnknownGiven") and "wanted" in str(error)
    assert str(raised(TypeError, lambda: model.with_constants(wanted=1.5))) == (
        "Model.with_constants: wanted is 1.5, a float: a whole number from 0 to 4294967295 is wanted, since the model does not say wanted = chance(..)"
    )
    assert str(raised(TypeError, lambda: unison.Model(LIGHTS, 5))) == (
        "Model: constants is 5, an int: a dict from names of constants to values is wanted"
    )


def test_chances_and_states_for_constants():
    model = unison.Model(LIGHTS)
    for chance, number in ((0.05, 3277), (0.0, 0), (1.0, 65536), (0.000007629, 0), (0.00000763, 1)):
        assert model.with_constants(half=chance).constants["half"] == number, chance
    assert model.with_constants(wanted="bright").constants["wanted"] == 1
    assert unison.Model(LIGHTS, {"wanted": "dark"}).constants["more"] == 1
    assert str(raised(ValueError, lambda: model.with_constants(half=1.5))) == "Model.with_constants: half is 1.5: a chance is a float from 0 to 1"
    raised(Missing, lambda: model.with_constants(wanted="dim"))
    raised(Missing, lambda: model.with_constants(wanted="x"))


def test_no_process_is_started_for_a_model():
    """Where the library is there: neither where it is made, nor where its constants are told; only why it is refused a program tells."""

    def stop(*_, **__):
        raise AssertionError("a process is started")

    before, _programs.called = _programs.called, stop
    try:
        model = unison.Model(LIGHTS)
        assert model.with_constants(wanted=5).initial_values["n0"] == 16
        assert model.constants == {"wanted": 2, "half": 32768, "more": 7, "seed": 0}
        assert unison.Model.from_file(MODELS / "epidemic.model").fields == ("state",)
        raised(AssertionError, lambda: unison.Model("field"))
    finally:
        _programs.called = before


def test_an_older_library_has_programs_expand_models():
    """One without the call that expands models, which came later than all others."""
    before, wanted = _library.has, unison.Model(LIGHTS, {"wanted": 5})
    _library.has = lambda name: False
    try:
        model = unison.Model(LIGHTS, {"wanted": 5})
        assert model.text == wanted.text and model.constants == wanted.constants
        assert raised(unison.ModelError, lambda: unison.Model("field")).name == "Syntax"
    finally:
        _library.has = before


def test_more_constants_than_a_program_has_fields():
    text = "".join(f"const c{place} = {place * place};\n" for place in range(20)) + "field probe = c3; const seed = 5;"
    model = unison.Model(text)
    assert model.constants == {**{f"c{place}": place * place for place in range(20)}, "seed": 5}
    assert unison.Model("field s = 0;").constants == {"seed": 0} and unison.Model("field s = 0;").states == {}


def test_all_states_have_names():
    names = [f"state_{place}" for place in range(256)]
    model = unison.Model(f"states many {{ {', '.join(names)} }} states few {{ on }} field a: many = state_255; field b = 0; field c: few = on;")
    assert model.states == {"a": tuple(names), "c": ("on",)} and model.initial_values == {"a": 255, "b": 0, "c": 0}


def test_mistakes_are_told_by_the_name_of_the_file():
    import tempfile
    from pathlib import Path

    with tempfile.TemporaryDirectory() as folder:
        path = Path(folder, "wrong one.model")
        path.write_text("field s = 0;\nnext s = if 2 * vote > degree then 1 else s;\nlet votes = count(n.s);\n")
        error = raised(unison.ModelError, lambda: unison.Model.from_file(path))
    assert (error.part, error.name, error.place, error.number) == ("model", "UnknownName", (2, 17), 170)
    assert isinstance(error, unison.ProgramError)
    assert str(error) == (
        "model UnknownName\nwrong one.model:2:17: nothing is called `vote`\n"
        "  2 | next s = if 2 * vote > degree then 1 else s;\n    |                 ^\n  did you mean `votes`?"
    )
    assert raised(unison.ModelError, lambda: unison.Model("field s = 0;\nnxt s = 1;")).place == (2, 1)
    raised(FileNotFoundError, lambda: unison.Model.from_file("/nowhere/x.model"))


def test_a_model_stands_wherever_a_program_may():
    model, pair = unison.Model("field s = 0; next s = total(n.s);"), unison.Network(2, [(0, 1)], set={"s": [5, 7]})
    large = unison.Network.from_edges([0], [1], set={"s": [5, 7]})
    assert unison.lockstep(model, pair, 1).by_name("s") == {0: 7, 1: 5}
    assert unison.lockstep(model, large, 1).by_name("s") == {0: 7, 1: 5}
    assert list(unison.watch(model, pair, [0, 1]).at(1)["s"]) == [7, 5]
    assert unison.settle(model, pair) == ("repeats", 0, 2)
    assert unison.replay(model, pair, unison.schedule.sweep(pair)).by_name("s") == {0: 7, 1: 5}
    assert unison.why(model, pair, rounds=5) == "nothing is wrong\n" and unison.first_fault(model, pair) is None
    assert unison.lockstep(model, pair, 5, from_=unison.States.from_values(model, [[1], [2]], round=4)).by_name("s") == {0: 2, 1: 1}
    assert model == unison.Program("field s = 0; next s = total n.s;") and len({model, model.program}) == 1
    again = pickle.loads(pickle.dumps(model.with_constants(seed=4)))
    assert again == model and again.constants == {"seed": 4}


def test_seeds_give_runs_that_differ_and_come_again():
    model, net = unison.Model.from_file(MODELS / "epidemic.model"), network("karate").with_set({"state": {0: 1, 16: 1, 33: 1}})
    ends = [tuple(unison.lockstep(model.with_constants(seed=seed), net, 20)["state"]) for seed in (1, 2, 3, 1)]
    assert ends[0] == ends[3] and len(set(ends)) == 3
    assert all(Counter(end)[1] + Counter(end)[2] >= 1 for end in ends), "the first one was infected"
