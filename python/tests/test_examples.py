"""The examples and the cookbook: each report that stands there, by Python."""

import re

from support import EXAMPLES, ROOT, library_alone, network, program, raised

import unison
from unison import schedule

library_alone("many calls")


def lists():
    """The first three lists of `examples/check`: programs, networks and rounds of the examples and of the cookbook, and replays; the others have
    pictures and models."""
    found = re.findall(r"<<LIST\n(.*?)\nLIST\n", (EXAMPLES / "check").read_text(), re.DOTALL)
    assert len(found) == 5, "examples/check has other lists"
    return [[line.split() for line in text.splitlines()] for text in found[:3]]


def runs():
    """For each example its program, network, round and report."""
    examples, cookbook, _ = lists()
    for name, net, rounds in examples:
        yield name, net, int(rounds), EXAMPLES / "reports" / f"{name}-{net}-{rounds}.txt"
    for name, net, rounds in cookbook:
        yield f"cookbook/{name}", net, int(rounds), EXAMPLES / "cookbook" / f"{name}.report"


def test_each_report_is_compared():
    named = {path for *_, path in runs()} | {replay[-1] for replay in replays()}
    there = {*(EXAMPLES / "reports").glob("*.txt"), *(EXAMPLES / "cookbook").glob("*.report")}
    assert named == there, named ^ there


def test_reports_of_the_examples_and_the_cookbook():
    for name, net, rounds, path in runs():
        report = unison.lockstep(program(name), network(net), rounds).report()
        assert report == path.read_text(), f"{name} {net} {rounds}"


def test_reports_gone_on_from_a_round_before():
    for name, net, rounds, path in runs():
        if rounds > 0:
            rules, links = program(name), network(net)
            before = unison.lockstep(rules, links, rounds - 1)
            for start in (before, before.report(), before.report().encode()):
                assert unison.lockstep(rules, links, rounds, from_=start).report() == path.read_text(), f"{name} {net} {rounds}"


def test_rounds_that_are_watched_are_the_reports():
    for name, net, rounds, path in runs():
        rules, links = program(name), network(net)
        watched = unison.watch(rules, links, range(rounds + 1))
        assert watched.at(rounds).report() == path.read_text(), f"{name} {net} {rounds}"
        assert watched.at(0) == unison.lockstep(rules, links, 0), f"{name} {net}"
    reports = "".join((EXAMPLES / "reports" / f"distance-path-{round}.txt").read_text() for round in range(3))
    watched = unison.watch(program("distance"), network("path"), range(3))
    assert "".join(states.report() for states in watched) == reports


def replays():
    for name, net, steps in lists()[2]:
        path = EXAMPLES / "reports" / f"replay-{name}-{net}-{steps}.txt"
        yield name, net, EXAMPLES / "schedules" / f"{steps}.txt", path


def test_replays_of_the_schedules():
    for name, net, steps, path in replays():
        text = steps.read_text()
        for given in (text, text.encode(), schedule.parse(text)):
            assert unison.replay(program(name), network(net), given, stop=10).report() == path.read_text(), steps.name


def test_replayed_sweeps_end_with_the_reports():
    """Each node has moved as often as there are rounds, and shows the state of the report."""
    for name, net, rounds, path in runs():
        rules, links = program(name), network(net)
        steps = schedule.sweep(links, rounds)
        if len(steps) <= 20000:
            replayed = unison.replay(rules, links, steps, stop=rounds)
            lines = path.read_text().splitlines()[1:]
            ends = "".join(re.sub(r"^\d+", rf"\g<0> moves {rounds}", line) + "\n" for line in lines)
            assert replayed.report() == ends, f"{name} {net} {rounds}"
            assert list(replayed.moves) == [rounds] * links.nodes


def test_what_becomes_of_each_program_of_the_cookbook():
    """The table of docs/cookbook.md tells it."""
    rows = re.findall(r"^\| \[`(\w+)`\].*?`examples/([\w/]+)\.toml` \|[^|]*\| ([^|]*) \|$", (ROOT / "docs" / "cookbook.md").read_text(), re.MULTILINE)
    assert len(rows) == 29
    refused = 0
    for name, net, outcome in rows:
        rules = program(f"cookbook/{name}")
        if rules.reads_round:
            error = raised(unison.ProgramError, lambda: unison.settle(rules, network(net)))
            assert (error.name, error.number) == ("ReadsRound", 128)
            refused += 1
            continue
        settles = re.match(r"settles in round (\d+)", outcome)
        repeats = re.match(r"period (\d+) from round (\d+)", outcome)
        expected = ("settles", int(settles[1]), 0) if settles else ("repeats", int(repeats[2]), int(repeats[1]))
        assert unison.settle(rules, network(net)) == expected, name
    assert 0 < refused < 5


def test_a_table_with_names():
    """The CSV that `unison names` prints."""
    club = unison.Network.from_file(EXAMPLES / "karate.toml", names=EXAMPLES / "karate.names")
    states = unison.lockstep(program("distance"), club, 3)
    lines = [f"{name},{value}\n" for name, value in states.by_name("dist").items()]
    assert "node,dist\n" + "".join(lines) == (EXAMPLES / "reports" / "distance-karate-3.csv").read_text()


def test_networks_are_written_as_they_stand():
    """Files that `unison` has made are written again, byte for byte, from what they say."""
    made = [*EXAMPLES.glob("*.toml"), *(EXAMPLES / "cookbook").glob("*.toml")]
    seen = 0
    for path in made:
        text = path.read_text()
        net = unison.Network.from_text(text)
        again = unison.Network(net.nodes, net.links, set=net.set, phase=net.phase)
        assert again.text.encode() == unison.Network.from_text(again.text).text.encode()
        assert (again.nodes, again.links, again.phase, again.set) == (net.nodes, net.links, net.phase, net.set), path.name
        if text.startswith("links = ["):
            assert again.text == text, path.name
            seen += 1
    assert seen > 20
