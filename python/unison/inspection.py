"""What is told of runs: where values were cut, what a schedule does, where nodes that do not wait go wrong, and whether a trace is a run. All
of it is found by the proved program."""

from __future__ import annotations

import json
import re
from typing import Any, Hashable, Iterable, List, Mapping, NamedTuple, Optional, Union

from . import _checks, _files
from .network import Network
from .program import Program

Name = Hashable
TRACE, SCHEDULE = "trace.txt", "schedule.txt"
UNHELD = 1  # the status where a line of a trace does not hold


class Cut(NamedTuple):
    """An operator of a program whose values were cut."""

    #: Where the operator stands in the program's text, both from 1.
    line: int
    column: int
    #: `+`, `*`, `total`, or `-`.
    operator: str
    #: The first round in which it was cut, and the name of the first node in it.
    round: int
    node: Name
    #: In how many rounds at how many nodes in all.
    times: int


def cuts(program: Program, network: Network, rounds: int, *, below: bool = False, from_: Any = None) -> List[Cut]:
    """The sums, products and totals whose values were cut at 4294967295 up to a round; with `below` also the differences cut at 0.

    - `program`: a `Program`, or a `Model`, of which places are those of its program's text; `network`: a `Network`.
    - `rounds`: the last round that is looked at, counted from round 0, up to 1,000,000,000.
    - `from_`: a result of `lockstep`, or the text of a report, to go on from.

    >>> import unison
    >>> program = unison.Program("field s = 4294967290; next s = (s + 3);")
    >>> unison.cuts(program, unison.Network(1, []), 1)
    []
    >>> unison.cuts(program, unison.Network(1, []), 4)
    [Cut(line=1, column=35, operator='+', round=2, node=0, times=3)]
    """
    job = _files.job_of("cuts", program, network, from_)
    words = [f"--rounds={_checks.round_of('cuts', 'rounds', rounds)}", "--format=json"]
    told = json.loads(job.run("cuts", *words, *["--below"] * _checks.flag("cuts", "below", below)))
    return [cut_of(found, network) for found in told["cuts"]]


def cut_of(found: Mapping[str, Any], network: Network) -> Cut:
    """What is told of an operator, with the node by its name."""
    return Cut(**{**found, "node": network.names[found["node"]]})


class Verdict(NamedTuple):
    """Whether a trace is a run. It counts as true where all its lines hold."""

    #: Whether all lines hold.
    holds: bool
    #: The first line that does not, from 1; None where all hold.
    line: Optional[int]
    #: What is told: how many steps hold and how often nodes have moved; or why the line does not hold.
    text: str

    def __bool__(self) -> bool:
        return self.holds


Step = Union[str, Mapping[str, Any]]


def verify(program: Program, network: Network, trace: Union[str, bytes, Iterable[Step]], *, from_: Any = None) -> Verdict:
    """Whether a trace of an asynchronous run that was made elsewhere is a run, read by read and move by move (docs/commands/verify.md).

    - `program`: a `Program`, or a `Model`; `network`: a `Network` of any size, whose nodes are called by their names. Each of its
      links joins two nodes, leads both ways with one weight, and stands once.
    - `trace`: a text with a line for each step, as `ann reads bob: s=7` or `ann moves: s=7`; or a list of such lines, or of dicts as
      `{"node": "ann", "reads": "bob", "state": {"s": 7}}` and `{"node": "ann", "moves": True, "state": {"s": 7}}`.
    - `from_`: a result of `lockstep`, or the text of a report, from which the run goes on.

    Raises TraceError for a line that says no step.

    >>> import unison
    >>> program, pair = unison.Program("field s = 0; next s = total n.s;"), unison.Network(2, [(0, 1)], set={"s": [5, 7]})
    >>> bool(unison.verify(program, pair, "0 reads 1: s=7\\n0 moves: s=7\\n1 reads 0: s=5\\n"))
    True
    >>> verdict = unison.verify(program, pair, ["0 reads 1", "0 moves", {"node": 1, "reads": 0, "state": {"s": 7}}])
    >>> verdict.holds, verdict.line
    (False, 3)
    >>> print(verdict.text.splitlines()[-1])
    node 1 reads the state of node 0 before its last move, after round 0: s=5, not s=7
    """
    job = _files.steps_job_of("verify", program, network, from_)
    names = _files.names_file(network)
    if names is not None:
        job = job.naming("--names", _files.NAMES, names)
    done = job.reading(TRACE, trace_bytes(trace, network, names is not None)).ran(["verify"], (0, UNHELD))
    text = done.output.decode("utf-8", "replace")
    found = re.match(rf"{re.escape(TRACE)}:([0-9]+): ", text)
    return Verdict(done.status == 0, int(found[1]) if found and done.status else None, text)


def trace_bytes(trace: Any, network: Network, by_name: bool) -> bytes:
    """The text of a trace."""
    if isinstance(trace, (str, bytes, bytearray)):
        return _checks.text("verify", "trace", trace)
    steps = _checks.items("verify", "trace", trace, "the text of a trace, or a list of its lines,")
    return b"".join(line_of(place, step, network, by_name) for place, step in enumerate(steps))


def line_of(place: int, step: Any, network: Network, by_name: bool) -> bytes:
    """A line of a trace: a text, or a dict, in which nodes have names."""
    if isinstance(step, str):
        return step.rstrip("\n").encode("utf-8", "surrogateescape") + b"\n"
    if not isinstance(step, Mapping):
        _checks.refuse("verify", f"trace[{place}]", step, "a line, or a dict as {'node': 0, 'reads': 1, 'state': {'s': 7}}, is wanted")
    said = dict(step)
    for key in ("node", "reads"):
        if key in said:
            number = network.number(said[key])
            said[key] = str(network.names[number]) if by_name else number
    for field, value in dict(said.get("state", {})).items():
        said["state"] = {**said["state"], field: _checks.cell("verify", "trace", value, place, "state", field)}
    return json.dumps(said).encode("ascii") + b"\n"


def explain(
    program: Program,
    network: Network,
    schedule: Any,
    stop: int = 1_000_000_000,
    *,
    counts: bool = False,
    slots: bool = False,
    from_: Any = None,
) -> str:
    """What each step of a schedule does, a line each with a sentence, and below them a summary.

    - `network`: a `Network` of any size, each of whose links joins two nodes, leads both ways with one weight, and stands once.
    - `schedule`: the text of a schedule, or steps as `unison.schedule` makes them; `stop`: the count of moves at which nodes stop.
    - `counts`: all counts behind each step; `slots`: each step by node and slot, for programs that read it, and without names.

    >>> import unison
    >>> program, pair = unison.Program("field s = 0; next s = total n.s;"), unison.Network(["ann", "bob"], [("ann", "bob")], set={"s": [5, 7]})
    >>> print(unison.explain(program, pair, unison.schedule.turn(pair, "ann")).partition("\\n\\n")[0])
    1  ann reads bob, which has moved as often: takes s=7
    2  ann moves: s=7, its state of round 1
    """
    job = _files.steps_job_of("explain", program, network, from_).reading(SCHEDULE, _checks.schedule("explain", schedule))
    by_slots, names = _checks.flag("explain", "slots", slots), _files.names_file(network)
    if names is not None and not by_slots:
        job = job.naming("--names", _files.NAMES, names)
    words = ["--counts"] * _checks.flag("explain", "counts", counts) + ["--slots"] * by_slots
    return job.run("explain", f"--stop={_checks.round_of('explain', 'stop', stop)}", *words).decode("utf-8")


def naive(program: Program, network: Network, schedule: Any, stop: int = 1_000_000_000, *, from_: Any = None) -> str:
    """What becomes of the steps of a schedule where nodes do not wait: a line for each node, with the lockstep state of its count where it has
    another one, then the first step after which a node differs, and how many nodes differ at the end. Nodes have numbers.

    - `schedule`: the text of a schedule, or steps as `unison.schedule` makes them; `stop`: the count of moves at which nodes stop.

    >>> import unison
    >>> program, pair = unison.Program("field s = 0; next s = total n.s;"), unison.Network(2, [(0, 1)], set={"s": [5, 7]})
    >>> print(unison.naive(program, pair, unison.schedule.sweep(pair)).partition("\\n\\n")[0])
    0 moves 1 s=7
    1 moves 1 s=7  lockstep s=5
    """
    job = _files.file_job_of("naive", program, network, from_).reading(SCHEDULE, _checks.schedule("naive", schedule))
    return job.run("naive", f"--stop={_checks.round_of('naive', 'stop', stop)}").decode("utf-8")
