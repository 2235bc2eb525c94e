"""Counts of values: beside what is counted in Python from the states of the rounds, and beside numbers that are reasoned."""

import base64
import csv
import io
import re
import statistics
from collections import Counter

from support import DISTANCE, EXAMPLES, library_alone, network, program, raised, wanted

import unison
from unison.faults import Missing

library_alone("many calls")

SPREAD = """
const chance_of_catching = 65536;
states person { well, ill, over }
field state: person = well;
next state = cases {
    state == well and any(n.state == ill) and random() < chance_of_catching: ill;
    state == ill: over;
    else: state;
};
"""
RISE = "const start = 1; field s = start; next s = s + 1;"


def path(nodes, **sets):
    return unison.Network(nodes, [(node, node + 1) for node in range(nodes - 1)], set=sets)


def plain(column):
    return column if isinstance(column, list) else column.tolist()


def test_counts_are_those_of_the_states_of_the_rounds():
    """For each pair of example, field and rounds: the values of `watch`, counted here."""
    for name, net, rounds in [("distance", "karate", range(5)), ("majority", "votes", range(0, 5, 2)), ("cookbook/colouring", "cookbook/petersen", range(6))]:
        rules, links = program(name), network(net)
        field = rules.fields[0]
        counts = unison.count(rules, links, rounds, field, sum=field, least=field, most=field)
        seen = unison.watch(rules, links, rounds)
        values = sorted({value for states in seen for value in plain(states[field])})
        assert counts.columns == ("round", *map(str, values), f"sum {field}", f"least {field}", f"most {field}"), name
        for states, row in zip(seen, counts.rows):
            column = plain(states[field])
            expected = Counter(column)
            assert row == (states.round, *(expected[value] for value in values), sum(column), min(column), max(column)), (name, states.round)
        assert plain(counts.rounds) == list(rounds) and len(counts) == len(rounds) and counts.field == field


def test_states_are_columns_also_where_no_node_is_in_them():
    """On a path each round the next node is ill, and the one before is over it."""
    counts = unison.count(unison.Model(SPREAD), path(5, state={0: 1}), 3)
    assert counts.columns == ("round", "well", "ill", "over")
    assert counts.rows == [(0, 4, 1, 0), (1, 3, 1, 1), (2, 2, 1, 2), (3, 1, 1, 3)]
    nobody = unison.count(unison.Model(SPREAD), path(3), [0, 5])
    assert nobody.columns == ("round", "well", "ill", "over") and nobody.rows == [(0, 3, 0, 0), (5, 3, 0, 0)]
    above = unison.count(unison.Model(SPREAD), path(3, state={1: 7}), [0])
    assert above.columns == ("round", "well", "ill", "over", "7") and above.rows == [(0, 2, 0, 0, 1)]


def test_columns_and_rows_by_what_they_are_called():
    counts = unison.count(unison.Model(SPREAD), path(5, state={0: 1}), 3)
    assert plain(counts["ill"]) == [1, 1, 1, 1] and plain(counts["over"]) == [0, 1, 2, 3] and plain(counts["round"]) == [0, 1, 2, 3]
    assert counts.at(2) == {"round": 2, "well": 2, "ill": 1, "over": 2} and list(counts)[2] == counts.at(2)
    assert plain(counts[9]) == [0, 0, 0, 0], "a value that no node has"
    assert str(raised(Missing, lambda: counts["sick"])) == "there is no column 'sick': the columns are round, well, ill, over"
    assert str(raised(Missing, lambda: counts.at(4))) == "there is no row of round 4"
    assert str(raised(Missing, lambda: counts.run(1))) == "there is one run: no constant has several values"
    assert repr(counts) == "<Counts of state, 4 rows: round, well, ill, over>"
    numbers = unison.count(unison.Program(DISTANCE), path(3, dist={0: 0}), 2)
    assert plain(numbers[1]) == plain(numbers["1"]) == [0, 1, 1] and plain(numbers[unison.NONE]) == [2, 1, 0]


def test_a_list_of_rounds_and_what_ends_them():
    model, row = unison.Model(SPREAD), path(5, state={0: 1})
    assert unison.count(model, row, [1, 3]).rows == [(1, 3, 1, 1), (3, 1, 1, 3)]
    assert unison.count(model, row, range(2, 3)).rows == [(2, 2, 1, 2)]
    ended = unison.count(model, row, 50, until={"state": "ill"})
    assert ended.rows[-1] == (5, 0, 0, 5) and len(ended) == 6
    assert unison.count(model, row, 50, until={"state": 1}) == unison.count(model, row, 50, until={"none:state": "ill"}) == ended
    assert unison.count(model, row, 50, until={"all:state": "over"}) == ended, "all are over in the round in which none is ill any more"
    told = str(raised(Missing, lambda: unison.count(model, row, 50, until={"state": "sick"})))
    assert told == "count: until['state'] is 'sick': a value of the field state is wanted, and its states are well, ill, over"
    start = unison.lockstep(model, row, 2)
    assert unison.count(model, row, [2, 3], from_=start).rows == unison.count(model, row, [2, 3], from_=start.report()).rows == [(2, 2, 1, 2), (3, 1, 1, 3)]


def test_runs_by_several_values_of_a_constant():
    model, tree = unison.Model(RISE), network("tree")
    counts = unison.count(model, tree, 1, constants={"start": [1, 3]})
    assert counts.columns == ("start", "round", "1", "2", "3", "4")
    assert counts.rows == [(1, 0, 7, 0, 0, 0), (1, 1, 0, 7, 0, 0), (3, 0, 0, 0, 7, 0), (3, 1, 0, 0, 0, 7)]
    assert counts.run(3).columns == counts.columns[1:] and counts.run(3).rows == [(0, 0, 0, 7, 0), (1, 0, 0, 0, 7)]
    assert str(raised(Missing, lambda: counts.run(2))) == "there is no run with start=2"
    assert unison.count(model.with_constants(start=9), tree, 0, constants={"start": 3}).rows == [(0, 7)], "the value of this call counts"
    both = unison.count(model, tree, 1, constants={"start": [1, 2], "seed": [8, 9]})
    assert both.columns[:3] == ("start", "seed", "round")
    assert [row[:3] for row in both.rows] == [(start, seed, at) for start in (1, 2) for seed in (8, 9) for at in (0, 1)]
    assert both.run(2, 9) == both.run(2).run(9)
    assert str(raised(Missing, lambda: both.run(2, 7))) == "there is no run with start=2, seed=7"
    raised(TypeError, lambda: both.run(1, 8, 0))
    raised(unison.ModelError, lambda: unison.count(model, tree, 1, constants={"stat": 1}))
    raised(unison.UsageError, lambda: unison.count(model, tree, 1, constants={"start": [1, 1]}))


def test_runs_by_chances_and_states():
    model = unison.Model(
        "states person { well, ill } const first = well; const rate = chance(0.25);"
        " field state: person = first; field rest = rate;"
    )
    counts = unison.count(model, path(3), 0, "state", constants={"first": ["well", "ill"], "rate": [0.5, 1.0]})
    assert counts.rows == [("well", 0.5, 0, 3, 0), ("well", 1, 0, 3, 0), ("ill", 0.5, 0, 0, 3), ("ill", 1, 0, 0, 3)]
    rates = unison.count(model, path(3), 0, "rest", constants={"first": "ill", "rate": [0.05]}, sum="state")
    assert rates.columns == ("rate", "round", "3277", "sum state") and rates.rows == [(0.05, 0, 3, 3)]
    means = unison.count(model, path(3), 0, "state", constants={"first": ["well", "ill"], "seed": [1, 2]}, mean="first")
    assert means.columns[:3] == ("seed", "round", "runs") and [row[0] for row in means.rows] == [1, 2]
    assert plain(means["ill mean"]) == [1.5, 1.5]
    told = str(raised(ValueError, lambda: unison.count(model, path(3), 0, "state", constants={"seed": [1, 2]}, mean="first")))
    assert told == "count: mean is 'first', which is no constant that has several values: seed"
    raised(TypeError, lambda: unison.count(model, path(3), 0, "state", constants={"first": [0.5, 0.6]}))


def test_means_and_deviations():
    """The numbers of each run, and their mean and deviation by the module `statistics`."""
    model, tree = unison.Model.from_file(EXAMPLES / "models" / "epidemic.model"), network("karate").with_set({"state": {0: 1, 33: 1}})
    seeds, rounds = range(1, 6), [0, 4, 8]
    runs = unison.count(model, tree, rounds, constants={"seed": seeds})
    means = unison.count(model, tree, rounds, constants={"seed": seeds}, mean=True)
    names = ("susceptible", "infected", "recovered")
    assert means.columns == ("round", "runs", *(f"{name} {what}" for name in names for what in ("mean", "deviation")))
    for place, round in enumerate(rounds):
        row = dict(zip(means.columns, means.rows[place]))
        assert (row["round"], row["runs"]) == (round, 5)
        for name in names:
            column = [plain(runs.run(seed)[name])[place] for seed in seeds]
            assert abs(row[f"{name} mean"] - statistics.mean(column)) < 0.00006
            assert abs(row[f"{name} deviation"] - statistics.stdev(column)) < 0.00006
    one = unison.count(model, tree, 0, constants={"seed": [7]}, mean=True)
    assert one.rows == [(0, 1, 32.0, None, 2.0, None, 0.0, None)], "one run has no deviation"
    assert str(one["infected deviation"][0]) in ("nan", "None")
    assert unison.count(model, tree, 0, constants={"seed": [7]}).rows == [(7, 0, 32, 2, 0)]
    told = str(raised(ValueError, lambda: unison.count(model, tree, 0, constants={"seed": 7}, mean=True)))
    assert told.startswith("count: mean is True, and no constant has several values, as constants={'seed': range(20)}, ")


def test_quantiles():
    """The least number that so many percent of the runs do not exceed, by counting those that do not."""
    model, club = unison.Model.from_file(EXAMPLES / "models" / "epidemic.model"), network("karate").with_set({"state": {0: 1, 33: 1}})
    seeds, percents = range(1, 8), [0, 14, 15, 50, 95, 100]
    runs = unison.count(model, club, [0, 6], constants={"seed": seeds})
    means = unison.count(model, club, [0, 6], constants={"seed": seeds}, mean=True, quantiles=percents)
    assert means.columns[:8] == ("round", "runs", "susceptible mean", "susceptible deviation", *(f"susceptible {p}%" for p in percents[:4]))
    column = [plain(runs.run(seed)["infected"])[1] for seed in seeds]
    for percent in percents:
        wanted = min(number for number in column if 100 * sum(other <= number for other in column) >= percent * len(column))
        assert plain(means[f"infected {percent}%"])[1] == wanted, percent
    told = str(raised(ValueError, lambda: unison.count(model, club, 6, constants={"seed": seeds}, quantiles=[50])))
    assert told == "count: quantiles are told beside means alone: mean=True asks for these"
    raised(ValueError, lambda: unison.count(model, club, 6, constants={"seed": seeds}, mean=True, quantiles=[101]))
    raised(TypeError, lambda: unison.count(model, club, 6, constants={"seed": seeds}, mean=True, quantiles="5,50"))


def test_means_of_runs_that_have_ended():
    """A run that has ended keeps its last numbers: means by the module `statistics`, of runs that are counted to the end."""
    model, club = unison.Model.from_file(EXAMPLES / "models" / "epidemic.model"), network("karate").with_set({"state": {0: 1, 33: 1}})
    seeds, until = range(1, 7), {"none:state": "infected"}
    runs = unison.count(model, club, 60, constants={"seed": seeds}, until=until)
    means = unison.count(model, club, 60, constants={"seed": seeds}, until=until, mean=True)
    recovered = {seed: plain(runs.run(seed)["recovered"]) for seed in seeds}
    assert means.columns[:3] == ("round", "runs", "going") and len({len(column) for column in recovered.values()}) > 1
    for place, row in enumerate(dict(zip(means.columns, row)) for row in means.rows):
        column = [numbers[min(place, len(numbers) - 1)] for numbers in recovered.values()]
        assert (row["runs"], row["going"]) == (6, sum(place < len(numbers) for numbers in recovered.values()))
        assert abs(row["recovered mean"] - statistics.mean(column)) < 0.00006


def test_each_run_is_that_of_its_seed():
    model, club = unison.Model.from_file(EXAMPLES / "models" / "epidemic.model"), network("karate").with_set({"state": {0: 1, 33: 1}})
    counts = unison.count(model, club, [0, 6], constants={"seed": [4, 2]})
    for seed in (4, 2):
        end = Counter(plain(unison.lockstep(model.with_constants(seed=seed), club, 6)["state"]))
        assert counts.run(seed).rows[1] == (6, end[0], end[1], end[2]), seed


def test_many_values_have_rows():
    counts = unison.count(unison.Program("field s = 0; next s = id;"), path(70), [0, 1])
    assert counts.columns == ("round", "value", "nodes")
    assert counts.rows == [(0, 0, 70), *((1, node, 1) for node in range(70))]
    assert str(raised(Missing, lambda: counts[5])) == "there is no column 5: the columns are round, value, nodes"


def test_counts_of_a_large_network():
    """The same as on a small one, and where the sets of initial values are of each form."""
    model, row = unison.Model(SPREAD), path(5, state={0: 1})
    ends = ([0, 1, 2, 3], [1, 2, 3, 4])
    for given in ({0: 1}, [1, 0, 0, 0, 0]):
        large = unison.Network.from_edges(*ends, set={"state": given})
        assert unison.count(model, large, 3) == unison.count(model, row, 3)
    assert unison.count(model, unison.Network.from_edges(*ends, set={"state": 2}), 1).rows == [(0, 0, 0, 5), (1, 0, 0, 5)]
    plain_large = unison.Network.from_edges(*ends)
    assert unison.count(model, plain_large, [2]).rows == [(2, 5, 0, 0)]
    start = unison.lockstep(model, large, 2)
    assert unison.count(model, large, [2, 3], from_=start).rows == [(2, 2, 1, 2), (3, 1, 1, 3)]
    weighted = unison.Network.from_edges([0, 0], [1, 2], [5, 7])
    farthest = unison.Program("field s = 0; next s = most n.weight;")
    assert unison.count(farthest, weighted, [1]).rows == [(1, 1, 2)], "7 at the centre, 5 and 7 at its neighbours"
    many = unison.Network.from_edges(range(69), range(1, 70))
    assert unison.count(unison.Program("field s = 0; next s = id;"), many, [1]).rows == [(1, node, 1) for node in range(70)]
    assert unison.count(model, large, [2, 3], from_=start.report()).rows == [(2, 2, 1, 2), (3, 1, 1, 3)]
    assert raised(unison.ReportError, lambda: unison.count(model, large, 1, from_="round 0\n")).name == "BadLine"
    assert raised(unison.PlanError, lambda: unison.count(model, large.with_set({"stat": 1}), 1)).name == "UnknownField"


def test_all_that_is_asked_for_on_a_large_network():
    """The same as on a small one: figures, what ends the rounds, runs, and their means."""
    model, one = unison.Model.from_file(EXAMPLES / "models" / "epidemic.model"), network("karate").with_set({"state": {0: 1, 33: 1}})
    ends = [[link[part] for link in one.links] for part in range(2)]
    large = unison.Network.from_edges(*ends, set={"state": {0: 1, 33: 1}})
    for asked in (
        {"sum": "state", "least": "state", "most": ["state"]},
        {"until": {"state": "infected"}},
        {"until": {"state": 2}, "sum": "state"},
        {"constants": {"seed": 4}},
        {"constants": {"seed": [4, 2], "infection": 9000}, "until": {"state": "infected"}},
        {"constants": {"seed": [7]}, "mean": True},
        {"constants": {"seed": range(1, 6)}, "mean": True, "sum": "state"},
        {"constants": {"seed": range(1, 6)}, "mean": True, "until": {"state": "infected"}},
        {"constants": {"seed": range(1, 6)}, "until": {"all:state": "recovered"}},
    ):
        assert unison.count(model, large, range(0, 41, 2), **asked) == unison.count(model, one, range(0, 41, 2), **asked), asked
    many = unison.Model("const less = 0; field s = 0; next s = id - less;")
    edges = (range(69), range(1, 70))
    for asked in ({"sum": "s"}, {"constants": {"less": [0, 3]}, "most": "s"}, {"constants": {"less": [0, 3]}, "mean": True}):
        assert unison.count(many, unison.Network.from_edges(*edges), 1, **asked) == unison.count(many, path(70), 1, **asked), asked
    start = unison.lockstep(model, large, 2)
    assert unison.count(model, large, [2, 3], from_=start, sum="state") == unison.count(model, one, [2, 3], from_=start, sum="state")
    for seeds in ([3, 3], range(10001)):
        raised(unison.UsageError, lambda: unison.count(model, large, 1, constants={"seed": seeds}))


def test_the_curves_are_the_counts():
    """The points of the curves in the picture are rounds and counts."""
    counts = unison.count(unison.Program(DISTANCE), path(4, dist={0: 0}), 3)
    for svg in (counts.image().svg, counts._repr_svg_()):
        curves = dict(re.findall(r'<title>(\w+)</title><polyline class="edge" points="([^"]*)"', svg))
        assert set(curves) == {"0", "1", "2", "3", "none"}
        for name, points in curves.items():
            column = plain(counts[unison.NONE if name == "none" else int(name)])
            assert [tuple(map(int, point.split(","))) for point in points.split()] == list(enumerate(column)), name
    assert unison.count(unison.Program(DISTANCE), path(2), [1])._repr_svg_() is None, "curves need two rounds"
    runs = unison.count(unison.Model(RISE), path(2), 1, constants={"start": [1, 2]})
    assert runs._repr_svg_() is None and runs._repr_html_().startswith("<table>")
    assert str(raised(ValueError, runs.image)) == "Counts.image: curves are drawn of the counts of one run, on a unison.Network"


def test_tables_for_notebooks_and_others():
    counts = unison.count(unison.Program("field s = 0; next s = (s + 1);"), path(2), 20)
    curves, *lines = counts._repr_html_().splitlines()
    shown = re.fullmatch(r'<img src="data:image/svg\+xml;base64,([^"]*)" alt="curves">', curves)[1]
    assert base64.b64decode(shown).decode() == counts.image().svg
    assert lines[1] == "<tr><th>round</th>" + "".join(f"<th>{value}</th>" for value in range(21)) + "</tr>"
    assert lines[2].startswith("<tr><td>0</td><td>2</td><td>0</td>") and lines[-2] == "<tr><td colspan='22'>&hellip; 21 rows</td></tr>"
    assert len(lines) == 1 + 1 + 12 + 1 + 1
    rows = list(csv.reader(io.StringIO(counts.to_csv())))
    assert tuple(rows[0]) == counts.columns and [tuple(map(int, row)) for row in rows[1:]] == counts.rows


def test_a_frame_of_pandas():
    wanted("pandas")
    frame = unison.count(unison.Model(SPREAD), path(5, state={0: 1}), 3).to_pandas()
    assert frame.index.name == "round" and list(frame.columns) == ["well", "ill", "over"]
    assert frame["over"].tolist() == [0, 1, 2, 3] and frame.loc[2, "well"] == 2
    runs = unison.count(unison.Model(RISE), path(2), 1, constants={"start": [1, 3]}).to_pandas()
    assert runs.index.names == ["start", "round"] and runs.loc[(3, 1), "4"] == 2
    means = unison.count(unison.Model(RISE), path(2), 1, constants={"start": [1]}, mean=True).to_pandas()
    assert means["1 deviation"].isna().all() and means.loc[0, "1 mean"] == 2.0


def test_columns_are_arrays_of_numpy():
    numpy = wanted("numpy")
    counts = unison.count(unison.Model(SPREAD), path(5, state={0: 1}), 3)
    assert counts["ill"].dtype == numpy.int64 and counts["ill"].shape == (4,)
    assert (counts["over"] - counts["well"]).tolist() == [-4, -2, 0, 2]
