"""The jobs: rounds, what becomes of them, replays, and why one is refused."""

from __future__ import annotations

import re
from typing import Any, Iterable, List, Optional, Sequence, Tuple, Union

from . import _by_programs, _calls, _checks, _files, faults, large
from ._calls import Start, Texts
from ._lists import lists_of
from .large import LargeNetwork
from .network import Network
from .program import Program
from .results import Replayed, Rounds, Settling, States
from .schedule import Step

From = Union[None, States, str, bytes]
ROUND = re.compile(rb"round ([0-9]{1,10})\n")  # with which a report begins
MANNERS = {1: "settles", 2: "repeats", 3: "open"}


def texts_of(call: str, program: Any, network: Any, from_: From = None) -> Texts:
    """The texts of a job, whose arguments are looked at. It takes networks that a network file says."""
    rules, links = _checks.program(call, program), _checks.network(call, network)._file(call)
    return Texts(rules.text, links._bytes, _checks.report(call, from_, rules, links))


def start_of(call: str, program: Program, network: Network, rounds: Sequence[int], from_: From) -> Optional[Start]:
    """Where rounds begin that are made on lists, so that no text of a network is read; None where they are made of the text of a network, as
    they always are where no lists are lent."""
    if isinstance(network, LargeNetwork):
        return large.start_of(program, network, states_of_report(call, program, network, from_))
    return start_on_lists(call, program, network, rounds, from_) if _calls.backend().lends_lists else None


def states_of_report(call: str, program: Program, network: LargeNetwork, from_: From) -> Optional[States]:
    """The states to go on from, which a program reads where they are the text of a report."""
    if from_ is None or isinstance(from_, States):
        return from_
    job = _files.job_of(call, program, network, from_)
    found = ROUND.match(job.files[_files.REPORT])
    round = min(int(found[1]), _checks.LAST_ROUND) if found else 0
    read = _by_programs.table_of(job.run("watch", f"--rounds={round}..{round}"))
    return States(round, program.fields, read.nodes, read.words, network._names)


def start_on_lists(call: str, program: Program, network: Network, rounds: Sequence[int], from_: From) -> Optional[Start]:
    """Where rounds on the lists of a network file's network begin; None where a text is needed: a report to go on from, or the texts with
    which something is refused, since faults are told of texts."""
    links = _checks.network(call, network)
    states = from_ if isinstance(from_, States) else None
    if states is not None:
        _checks.states_fit(call, states, program, links)
    first = 0 if from_ is None else _checks.LAST_ROUND + 1 if states is None else states.round
    if first > _checks.LAST_ROUND or any(round < first for round in rounds[:1]) or not set(links._read().sets).issubset(program.fields):
        return None
    lists = lists_of(links)
    return None if lists is None else large.start_of(program, lists, states)


def lists_for(call: str, program: Program, network: Network) -> LargeNetwork:
    """The lists of a network for this program."""
    if isinstance(network, LargeNetwork):
        return network
    start = start_on_lists(call, program, network, [0], None)
    if start is None:  # the library tells what is wrong with the text
        lockstep(program, network, 0)
        raise RuntimeError(f"{call}: the library reads other links in the network's text: unison.Network(nodes, links) makes the network anew")
    return start.lists


def lockstep(program: Program, network: Network, rounds: int, from_: From = None) -> States:
    """The states of all nodes after a round.

    - `rounds`: the round, counted from round 0, up to 1,000,000,000. Where the program does not read `round`, and nothing changes any
      more, it is answered at once.
    - `from_`: a result of `lockstep`, or of `States.from_values`, or the text of a report, to go on from; `rounds` may not lie before its
      round.

    Raises PlanError, ReportError or RunError where it is refused.

    >>> import unison
    >>> program = unison.Program("field s = 0; next s = total n.s;")
    >>> network = unison.Network(2, [(0, 1)], set={"s": [5, 7]})
    >>> first = unison.lockstep(program, network, 1)
    >>> first.by_name("s"), unison.lockstep(program, network, 2, from_=first).by_name("s")
    ({0: 7, 1: 5}, {0: 5, 1: 7})
    """
    _checks.program("lockstep", program)
    asked = _checks.round_of("lockstep", "rounds", rounds)
    start = start_of("lockstep", program, network, [asked], from_)
    if start is None:
        words = _calls.lockstep(texts_of("lockstep", program, network, from_), asked, network.nodes * len(program.fields)).words
    else:
        words = large.words_after(program, start, asked)
    states = States(asked, program.fields, network.nodes, words, network._names)
    states._made_of = (program, network, from_)
    return states


def watch(program: Program, network: Network, rounds: Iterable[int], from_: From = None) -> Rounds:
    """The states of all nodes after each of some rounds, in one pass: no round is computed twice.

    `rounds` are rising, each above the one before: `range(0, 100)`, `[1, 10, 100]`. The result has 4 bytes for each field of each node in
    each round, and the call takes as much again while it runs.

    >>> import unison
    >>> program = unison.Program("field dist = 4294967295; next dist = (dist min least (n.dist + 1));")
    >>> network = unison.Network(3, [(0, 1), (1, 2)], set={"dist": {0: 0}})
    >>> watched = unison.watch(program, network, range(3))
    >>> [states.by_name("dist")[2] == unison.NONE for states in watched]
    [True, True, False]
    """
    _checks.program("watch", program)
    asked = _checks.rising_rounds("watch", "rounds", rounds)
    start = start_of("watch", program, network, asked, from_)
    if start is None:
        words = _calls.watch(texts_of("watch", program, network, from_), asked, len(asked) * network.nodes * len(program.fields)).words
    else:
        words = large.words_of_each(program, start, asked)
    seen = Rounds(asked, program.fields, network.nodes, words, network._names)
    seen._made_of = (program, network, from_)
    return seen


def settle(program: Program, network: Network, limit: int = 1_000_000, from_: From = None) -> Settling:
    """What becomes of the rounds up to a limit, a round counted from round 0, up to 1,000,000,000.

    Up to twice as many rounds as the limit has are computed for it. A program that reads `round` is refused: ProgramError, `ReadsRound`.

    >>> import unison
    >>> network = unison.Network(2, [(0, 1)])
    >>> unison.settle(unison.Program("field s = 0; next s = (s max (id max most n.s));"), network)
    Settling(manner='settles', round=2, period=0)
    >>> unison.settle(unison.Program("field s = 0; next s = not s;"), network)
    Settling(manner='repeats', round=0, period=2)
    >>> unison.settle(unison.Program("field s = 0; next s = (s + 1);"), network, limit=50)
    Settling(manner='open', round=50, period=0)
    """
    asked = _checks.round_of("settle", "limit", limit, _checks.LIMIT_TOO_LARGE)
    if isinstance(network, LargeNetwork):
        manner, round, period = settling_on_arrays(program, network, asked, from_)
    else:
        manner, round, period = _calls.settle(texts_of("settle", program, network, from_), asked)
    return Settling(MANNERS[manner], round, period)


def settling_on_arrays(program: Program, network: LargeNetwork, limit: int, from_: From) -> List[int]:
    """What becomes of the rounds on a network that is kept as arrays, as the proved program tells it: the manner, the round and the period."""
    job = _files.job_of("settle", program, network, from_)
    try:
        return _by_programs.settling_in(job.run("settle", f"--limit={limit}"))
    except faults.RunError as error:
        raise faults.error_of(_by_programs.fault_of_limit(error.number)) from None


def replay(
    program: Program, network: Network, schedule: Union[str, bytes, Iterable[Step]], stop: int = 1_000_000_000, from_: From = None
) -> Replayed:
    """Each node's count of moves and its state after the single steps of a schedule, made in order.

    - `schedule`: the text of a schedule (docs/formats.md), or steps as `unison.schedule` makes them: at most 1,000,000. A step that is
      refused, since a neighbour is behind, or a slot unread, changes nothing, and the replay goes on.
    - `stop`: no node moves past this count of moves, up to 1,000,000,000.

    Each node shows the lockstep state of its count, whatever the order of the steps: that is proved.

    >>> import unison
    >>> program = unison.Program("field s = 0; next s = total n.s;")
    >>> network = unison.Network(2, [(0, 1)], set={"s": [5, 7]})
    >>> print(unison.replay(program, network, unison.schedule.turn(network, 0)).report(), end="")
    0 moves 1 s=7
    1 moves 0 s=7
    """
    asked = _checks.round_of("replay", "stop", stop, _checks.STOP_TOO_LARGE)
    texts = texts_of("replay", program, network, from_)._replace(schedule=_checks.schedule("replay", schedule))
    nodes, width = network.nodes, len(program.fields)
    line = 24 + sum(len(field) + 12 for field in program.fields)
    found = _calls.replay(texts, asked, (nodes * line, nodes, nodes * width))
    table = found.table
    return Replayed(found.report.decode("ascii"), found.counts, program.fields, table.nodes, table.words, network._names)


TextOrProgram = Union[Program, str, bytes]
TextOrNetwork = Union[None, Network, str, bytes]
TextOrSteps = Union[None, str, bytes, Iterable[Step]]


def asked_of(
    call: str,
    program: TextOrProgram,
    network: TextOrNetwork,
    rounds: Optional[int],
    schedule: TextOrSteps,
    stop: Optional[int],
    from_: From,
) -> Tuple[int, Texts, int]:
    """The job that `why` looks at, its texts, and its round or stop. A round or a stop above the limit is one of the faults that it tells."""
    whole = Texts(
        program.text if isinstance(program, Program) else _checks.text(call, "program", program, "a unison.Program, or its text"),
        b"" if network is None else text_of_network(call, network),
        b"" if from_ is None else from_.report().encode("ascii") if isinstance(from_, States) else _checks.text(call, "from_", from_),
        b"" if schedule is None else _checks.schedule(call, schedule),
    )
    if network is None:
        return _calls.CHECK, whole, 0
    if schedule is None:
        return _calls.LOCKSTEP, whole, 0 if rounds is None else _checks.whole(call, "rounds", rounds)
    return _calls.REPLAY, whole, _checks.LAST_ROUND if stop is None else _checks.whole(call, "stop", stop)


def text_of_network(call: str, network: Union[Network, str, bytes]) -> bytes:
    """The text of a network, or the text that is given for one."""
    if isinstance(network, Network):
        return network._file(call)._bytes
    return _checks.text(call, "network", network, "a unison.Network, or the text of a network file")


def why(
    program: TextOrProgram,
    network: TextOrNetwork = None,
    *,
    rounds: Optional[int] = None,
    schedule: TextOrSteps = None,
    stop: Optional[int] = None,
    from_: From = None,
) -> str:
    """Why texts are refused: what is wrong, where, and what to do; or that nothing is wrong, with notes on what is rarely meant.

    With a program alone it looks at that; with a network at their rounds up to `rounds`, 0 where none is given; with a `schedule` at
    its replay up to `stop`. No round is computed. Texts need not have been made a `Program` or a `Network`.

    >>> import unison
    >>> print(unison.why("field s = 0; next s = s;"), end="")
    nothing is wrong
    """
    return _calls.why(*asked_of("why", program, network, rounds, schedule, stop, from_)).text


def first_fault(
    program: TextOrProgram,
    network: TextOrNetwork = None,
    *,
    rounds: Optional[int] = None,
    schedule: TextOrSteps = None,
    stop: Optional[int] = None,
    from_: From = None,
) -> Optional[faults.UnisonError]:
    """The error with which texts are refused, which is not raised; None where nothing refuses them. It looks at what `why` looks at.

    >>> import unison
    >>> unison.first_fault("field s = 0; next s = s;") is None
    True
    >>> unison.first_fault("field s = 0; next s = (s + 1;").name
    'Syntax'
    """
    told = _calls.why(*asked_of("first_fault", program, network, rounds, schedule, stop, from_))
    return faults.error_of(told.fault, told.text) if told.fault else None
