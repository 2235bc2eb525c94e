"""The back end that is the programs, where the library is not there: each call runs one of them once, on texts in a folder of its own. The
answers are the same. Where no program is proved in a checkout, quick ones answer, which are not proved (`_programs`)."""

from __future__ import annotations

import csv
import io
from array import array
from typing import TYPE_CHECKING, Dict, Iterator, List, Mapping, Sequence, Tuple

from . import _programs, faults
from ._calls import CHECK, LOCKSTEP, MOST, REPLAY, Refused, Replay, Start, Table, Texts, Told, room_for

if TYPE_CHECKING:
    from .large import LargeNetwork
    from .program import Program

PROGRAM, NETWORK, REPORT, SCHEDULE = "program", "network", "report", "schedule"  # the files, as the library calls the texts
LAST = 1_000_000_000  # the last round, stop and limit
MOST_VALUES = 256  # that are counted at once
JOBS = {CHECK: "check", LOCKSTEP: "lockstep", REPLAY: "replay"}
OPTIONS = {LOCKSTEP: "--rounds", REPLAY: "--stop"}
BEYOND = {LOCKSTEP: faults.NUMBERS["run", "TooManyRounds"], REPLAY: faults.NUMBERS["run", "StopTooLarge"]}
MANNERS = {"settles": 1, "repeats": 2, "open": 3}

Spans = Iterator[Tuple[int, int, int]]


def run(words: Sequence[str], files: Mapping[str, bytes]) -> bytes:
    """What a command prints that reads these files."""
    try:
        return _programs.run(words, files=files)
    except faults.UnisonError as error:
        if error.number == faults.NO_NUMBER:
            raise
        number = error.number
    raise Refused(number)


def files_of(texts: Texts, *names: str) -> Dict[str, bytes]:
    """The files that a command reads: those that are named, and a report to go on from, where there is one."""
    given = dict(zip((PROGRAM, NETWORK, REPORT, SCHEDULE), texts))
    return {name: given[name] for name in (*names, *([REPORT] if texts.report else []))}


def on_plan(command: str, texts: Texts, *words: str) -> bytes:
    """What a command prints of a program on a network."""
    from_ = [f"--from={REPORT}"] if texts.report else []
    return run([command, PROGRAM, NETWORK, *words, *from_], files_of(texts, PROGRAM, NETWORK))


def expand(model: bytes, constants: Mapping[str, int], called: str) -> bytes:
    """The program that a model in a file that is called so is expanded to; what is refused is raised with what is told of it."""
    words = [f"--const={name}={value}" for name, value in constants.items()]
    return _programs.run(["expand", *words, "--", called], files={called: model})


def values_of(cells: Sequence[str]) -> List[int]:
    """The values of `FIELD=VALUE`."""
    return [int(cell.partition("=")[2]) for cell in cells]


def table_of(reports: bytes) -> Table:
    """The words of reports, one behind the other."""
    rows = [line.split() for line in reports.decode("ascii").splitlines()]
    rounds = sum(row[0] == "round" for row in rows)
    states = [values_of(row[1:]) for row in rows if row[0] != "round"]
    fields = len(states[0]) if states else 0
    return Table(array("I", [value for state in states for value in state]), len(states) // max(rounds, 1), fields)


def settling_in(told: bytes) -> List[int]:
    """The manner, the round and the period of a line that tells what becomes of the rounds."""
    manner, *numbers = told.decode("ascii").split()
    round, period = (*map(int, numbers), 0)[:2]
    return [MANNERS[manner], round, period]


def fault_of_limit(number: int) -> int:
    """The number of the fault of a limit, of which programs say what they say of rounds."""
    below = faults.FAULTS.get(number) == ("run", "RoundsBelowStart")
    return faults.NUMBERS["run", "LimitBelowStart"] if below else number


def spans(rounds: Sequence[int]) -> Spans:
    """Rising rounds as few spans of rounds that are evenly apart: the first, the last and how far apart they are. Other rounds are refused."""
    if any(before >= after for before, after in zip(rounds, rounds[1:])):
        raise Refused(faults.NUMBERS["run", "NotRising"])
    place = 0
    while place < len(rounds):
        every = rounds[place + 1] - rounds[place] if place + 1 < len(rounds) else 1
        end = place + 1
        while end < len(rounds) and rounds[end] - rounds[end - 1] == every:
            end += 1
        yield rounds[place], rounds[end - 1], every
        place = end


def first_fault_of_lists(offsets: Sequence[int], neighbours: Sequence[int], weights: int) -> Tuple[str, int]:
    """The name of the first fault of the lists of a network, and its place, as library/unison.h tells them; no name where they have none."""
    nodes, ends = len(offsets) - 1, len(neighbours)
    if not 1 <= nodes <= MOST:
        return "NodeCount", max(nodes, 0)
    if weights not in (0, ends):
        return "WeightCount", weights
    for place in range(nodes + 1):
        is_bad = place == 0 and offsets[0] != 0 or place == nodes and offsets[nodes] != ends
        if is_bad or place < nodes and offsets[place + 1] < offsets[place]:
            return "Offsets", place
    for node in range(nodes):
        if offsets[node + 1] - offsets[node] > MOST:
            return "TooManyNeighbours", node
    bad = next((place for place, end in enumerate(neighbours) if end >= nodes), None)
    return ("", 0) if bad is None else ("Neighbour", bad)


class Rows:
    """Runs on the lists of a network, which are packed into a file once."""

    def __init__(self, program: Program, start: Start) -> None:
        from . import _packed

        self.program, self.nodes = program, start.lists.nodes
        self.files = {PROGRAM: program.text, NETWORK: _packed.write(start.lists)}
        self.go_on(start.round, start.words)

    def go_on(self, start: int, words: "array[int]") -> None:
        """The next command goes on from these states."""
        from . import _packed
        from .results import States

        fields, width = self.program.fields, len(self.program.fields)
        if start > 0:
            states = States(start, fields, self.nodes, words[: self.nodes * width], None)
            self.begin = {f"--from={REPORT}": (REPORT, states.report().encode("ascii"))}
            return
        columns = [_packed.column(words[place : self.nodes * width : width]) for place in range(width)]
        self.begin = {f"--set-file={field}=initial{place}": (f"initial{place}", columns[place]) for place, field in enumerate(fields)}

    def run(self, command: str, *words: str) -> bytes:
        """What `unison large` prints. It makes rounds by one thread, since there may be several such calls."""
        files = {**self.files, **dict(self.begin.values())}
        return run(["large", command, PROGRAM, NETWORK, *words, *self.begin, "--sequential"], files)

    def words(self, round: int) -> "array[int]":
        """The words of a round."""
        from . import _packed

        return _packed.values_in(self.run("lockstep", f"--rounds={round}", "--format=npy"))

    def span_words(self, first: int, last: int, every: int) -> "array[int]":
        """The words of rounds that are evenly apart, one behind the other."""
        from . import _packed

        width = len(self.program.fields)
        rounds = (last - first) // every + 1
        words = room_for(rounds * self.nodes * width)
        for place, field in enumerate(self.program.fields):
            words[place::width] = _packed.values_in(
                self.run("watch", f"--rounds={first}..{last}", f"--every={every}", f"--field={field}", "--format=npy")
            )
        return words


class Programs:
    """The programs `unison_cli` and `unison_lab`."""

    lends_lists = False

    def check(self, program: bytes) -> bytes:
        return run(["check", PROGRAM], {PROGRAM: program})

    def expand(self, model: bytes, constants: Mapping[str, int], called: str) -> bytes:
        return expand(model, constants, called)

    def sizes(self, texts: Texts) -> Tuple[int, int]:
        _, nodes, fields = self.lockstep(texts, 0, 0)
        return nodes, fields

    def lockstep(self, texts: Texts, asked: int, room: int) -> Table:
        return table_of(on_plan("lockstep", texts, f"--rounds={asked}"))

    def watch(self, texts: Texts, rounds: Sequence[int], room: int) -> Table:
        words = array("I")
        nodes, fields = (0, 0) if rounds else self.sizes(texts)
        for first, last, every in spans(rounds):
            report = on_plan("watch", texts, f"--rounds={first}..{last}", f"--every={every}")
            found, nodes, fields = table_of(report)
            words.extend(found)
            texts = texts._replace(report=report[report.rindex(b"round ") :])
        return Table(words, nodes, fields)

    def settle(self, texts: Texts, limit: int) -> List[int]:
        try:
            return settling_in(on_plan("settle", texts, f"--limit={limit}"))
        except Refused as refused:
            raise Refused(fault_of_limit(refused.number)) from None

    def replay(self, texts: Texts, stop: int, rooms: Tuple[int, int, int]) -> Replay:
        from_ = [f"--from={REPORT}"] if texts.report else []
        files = files_of(texts, PROGRAM, NETWORK, SCHEDULE)
        report = run(["replay", PROGRAM, NETWORK, SCHEDULE, f"--stop={stop}", *from_], files)
        rows = [line.split() for line in report.decode("ascii").splitlines()]
        states = [values_of(row[3:]) for row in rows]
        counts = array("I", [int(row[2]) for row in rows])
        return Replay(report, counts, Table(array("I", [value for state in states for value in state]), len(rows), len(states[0])))

    def why(self, job: int, texts: Texts, asked: int) -> Told:
        names = {CHECK: (PROGRAM,), LOCKSTEP: (PROGRAM, NETWORK), REPLAY: (PROGRAM, NETWORK, SCHEDULE)}[job]
        words = ["why", JOBS[job], *names]
        if job != CHECK:
            words += [f"{OPTIONS[job]}={min(asked, LAST)}", *([f"--from={REPORT}"] if texts.report else [])]
        done = _programs.called(words, files=files_of(texts, *names) if job != CHECK else {PROGRAM: texts.program})
        if done.status == 0 and asked > LAST:  # (a number that the command line does not have)
            part, name = faults.FAULTS[BEYOND[job]]
            return Told(BEYOND[job], f"{part} {name}: {faults.MEANINGS[BEYOND[job]]}\n")
        if done.status == 0:
            return Told(0, done.output.decode("utf-8", "replace"))
        error = _programs.refusal("why", done)
        if not isinstance(error, faults.UnisonError) or error.number == faults.NO_NUMBER:
            raise error
        return Told(error.number, done.output.decode("utf-8", "replace"))

    def large_check(self, lists: LargeNetwork) -> Tuple[int, int]:
        name, place = first_fault_of_lists(lists._offsets.held, lists._neighbours_held.held, lists._weights_held.count)
        return (faults.NUMBERS["lists", name] if name else 0), place

    def large_rounds(self, program: Program, start: Start, asked: int) -> None:
        size = start.size(program)
        if size:
            start.words[:size] = Rows(program, start).words(asked)

    def large_watch(self, program: Program, start: Start, rounds: Sequence[int]) -> "array[int]":
        words, size, rows = array("I"), start.size(program), Rows(program, start)
        for first, last, every in spans(rounds) if size else ():
            found = rows.span_words(first, last, every)
            words.extend(found)
            rows.go_on(last, found[len(found) - size :])
        return words

    def large_counts(self, program: Program, start: Start, rounds: Sequence[int], field: str, values: Sequence[int]) -> "array[int]":
        if len(values) > MOST_VALUES:
            raise Refused(faults.NUMBERS["lists", "TooManyValues"])
        counts, rows = array("I"), Rows(program, start)
        for first, last, every in spans(rounds):
            told = rows.run("watch", f"--rounds={first}..{last}", f"--every={every}", f"--count={field}").decode("ascii")
            found: Dict[int, Dict[int, int]] = {round: {} for round in range(first, last + 1, every)}
            for round, value, nodes in list(csv.reader(io.StringIO(told)))[1:]:
                found[int(round)][int(value)] = int(nodes)
            for nodes_with in found.values():
                listed = [nodes_with.get(value, 0) for value in values]
                counts.extend([*listed, rows.nodes - sum(nodes_with.get(value, 0) for value in {*values})])
        return counts
