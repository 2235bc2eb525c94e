"""The arguments of the public calls, looked at before any text is made of them: a function for each kind of argument.

What is wrong is told by the call, the argument, what was given and what is wanted:
`lockstep: rounds is 2.5, a float: a whole number from 0 to 1000000000 is wanted`.
"""

from __future__ import annotations

import operator
import os
from typing import TYPE_CHECKING, Any, Dict, Iterable, List, Mapping, NoReturn, Optional, Sequence, Tuple, Type, Union

from . import faults

if TYPE_CHECKING:
    from .network import Network
    from .program import Program

GREATEST = 4294967295
LAST_ROUND = 1_000_000_000
LONGEST_SHOWN = 60

# Faults of the library (library/faults.toml) whose cause is seen in an argument
BAD_LINK, BAD_PHASE, BAD_WEIGHT, BAD_NODE, BAD_VALUE = 52, 57, 58, 65, 66
NOT_RISING, TOO_MANY_ROUNDS, STOP_TOO_LARGE, LIMIT_TOO_LARGE = 4, 80, 98, 129


def kind_of(value: Any) -> str:
    """What a value is, with its article: `a float`, `an int`, `a Graph of networkx`, `an array of shape (3, 2)`."""
    kind, module = type(value).__name__, type(value).__module__.partition(".")[0]
    if hasattr(value, "shape") and hasattr(value, "dtype") and kind == "ndarray":
        return f"an array of shape {value.shape}"
    named = kind if module in ("builtins", "unison", "__main__") else f"{kind} of {module}"
    return f"{'an' if named[0] in 'aeioAEIO' else 'a'} {named}"


def shown(value: Any) -> str:
    """A value as a message tells it: its spelling, where that is short, and what it is."""
    if value is None:
        return "None"
    spelled = repr(value)
    if len(spelled) > LONGEST_SHOWN or "\n" in spelled or " object at 0x" in spelled:
        return kind_of(value)
    return spelled if spelled.startswith("<") else f"{spelled}, {kind_of(value)}"


def refuse(call: str, name: str, value: Any, wanted: str, kind: Type[Exception] = TypeError) -> NoReturn:
    """Raises what is told of an argument."""
    raise kind(f"{call}: {name} is {shown(value)}: {wanted}")


def refuse_number(call: str, name: str, number: int, wanted: str, fault: int) -> NoReturn:
    """Raises what is told of a number that is out of its range, as the fault that the library would answer where there is one."""
    if not fault:
        raise ValueError(f"{call}: {name} is {number}: {wanted}")
    part, called = faults.FAULTS[fault]
    raise faults.error_of(fault, f"{call}: {name} is {number}: {wanted} ({part} {called})")


def is_whole(value: Any) -> bool:
    """Whether a value is one whole number, of Python or numpy, and no truth value."""
    return hasattr(value, "__index__") and not isinstance(value, bool) and not getattr(value, "shape", ())


def whole(call: str, name: str, value: Any, least: int = 0, most: int = GREATEST, fault: int = 0) -> int:
    """A whole number from `least` to `most`."""
    wanted = f"a whole number from {least} to {most} is wanted"
    if not is_whole(value):
        refuse(call, name, value, wanted)
    try:
        number = operator.index(value)
    except TypeError:
        refuse(call, name, value, wanted)
    if not least <= number <= most:
        refuse_number(call, name, number, wanted, fault)
    return number


def at(name: str, *places: Any) -> str:
    """How a message calls what stands at these places of an argument: `links[3][0]`, `set['dist'][2]`."""
    return name + "".join(f"[{place!r}]" for place in places)


def cell(call: str, name: str, value: Any, *places: Any, fault: int = BAD_VALUE) -> int:
    """A value of a field or a weight, from 0 to 4294967295; True is 1 and False is 0."""
    if type(value) is int and 0 <= value <= GREATEST:  # the usual case, for which no words are made
        return value
    return whole(call, at(name, *places), int(value) if isinstance(value, bool) else value, fault=fault)


def round_of(call: str, name: str, value: Any, fault: int = TOO_MANY_ROUNDS, least: int = 0) -> int:
    """A round, a stop or a limit, counted from round 0. One above the last round is a fault of the library, one below 0 is none."""
    above = is_whole(value) and operator.index(value) > LAST_ROUND
    return whole(call, name, value, least, LAST_ROUND, fault if above else 0)


def flag(call: str, name: str, value: Any) -> bool:
    """True or False."""
    if not isinstance(value, bool) and type(value).__name__ not in ("bool_", "bool"):
        refuse(call, name, value, "True or False is wanted")
    return bool(value)


def one_of(call: str, name: str, value: Any, choices: Sequence[str]) -> str:
    """One of some words."""
    if not isinstance(value, str) or value not in choices:
        wanted = " or ".join(map(repr, choices))
        refuse(call, name, value, f"{wanted} is wanted", ValueError if isinstance(value, str) else TypeError)
    return value


def text(call: str, name: str, value: Any, what: str = "a text") -> bytes:
    """A text, as a str or as bytes."""
    if isinstance(value, str):
        return value.encode("utf-8", "surrogateescape")
    if not isinstance(value, (bytes, bytearray)):
        refuse(call, name, value, f"{what}, a str or bytes, is wanted")
    return bytes(value)


def path(call: str, name: str, value: Any) -> Union[str, "os.PathLike[str]"]:
    """The path of a file."""
    if not isinstance(value, (str, os.PathLike)):
        refuse(call, name, value, "the path of a file, a str or a pathlib.Path, is wanted")
    return value


def items(call: str, name: str, value: Any, wanted: str) -> List[Any]:
    """The items of a list, or of all else that is gone through, but for texts and dicts."""
    if isinstance(value, (str, bytes, bytearray, dict)) or not isinstance(value, Iterable):
        refuse(call, name, value, f"{wanted} is wanted")
    try:
        return list(value.tolist() if hasattr(value, "tolist") else value)
    except TypeError:
        refuse(call, name, value, f"{wanted} is wanted")


def program(call: str, value: Any) -> "Program":
    """A program, or a model."""
    from .program import Program

    if not isinstance(value, Program):
        refuse(call, "program", value, "a unison.Program or a unison.Model is wanted: unison.Program(text) makes one")
    return value


def network(call: str, value: Any) -> "Network":
    """A network."""
    from .network import Network

    if not isinstance(value, Network):
        refuse(call, "network", value, network_wanted(value))
    return value


def network_wanted(value: Any) -> str:
    """What is told of a value that is no `Network`."""
    if type(value).__module__.startswith("networkx"):
        return "a unison.Network is wanted: unison.Network.from_networkx(graph) makes one"
    if type(value).__module__.startswith("scipy"):
        return "a unison.Network is wanted: unison.Network.from_scipy(matrix) makes one"
    return "a unison.Network is wanted: unison.Network(nodes, links) makes one, unison.Network.from_text(text) that of a text"


def rising_rounds(call: str, name: str, value: Any) -> List[int]:
    """Rounds of which each is above the one before it."""
    wanted = "a list of rising rounds, as range(0, 11) or [1, 10, 100],"
    if isinstance(value, (set, frozenset)):
        refuse(call, name, value, f"{wanted} is wanted")
    listed = items(call, name, value, wanted)
    rounds = [round_of(call, f"{name}[{place}]", round) for place, round in enumerate(listed)]
    for place, (before, after) in enumerate(zip(rounds, rounds[1:]), 1):
        if after <= before:
            refuse_number(call, f"{name}[{place}]", after, f"a round above {before}, which stands before it, is wanted", NOT_RISING)
    return rounds


def span(call: str, name: str, value: Any) -> Tuple[int, int, int]:
    """The first round, the last and how far apart they are, of a round up to which all are meant, or of rounds that are evenly apart."""
    wanted = "a round up to which all are meant, or rounds that are evenly apart, as range(0, 101, 10),"
    if is_whole(value):
        return 0, round_of(call, name, value), 1
    if not isinstance(value, Iterable) or isinstance(value, (str, bytes, Mapping)):
        refuse(call, name, value, f"{wanted} is wanted")
    rounds = rising_rounds(call, name, value)
    if not rounds:
        refuse(call, name, value, f"{wanted} is wanted", ValueError)
    every = rounds[1] - rounds[0] if len(rounds) > 1 else 1
    if rounds != list(range(rounds[0], rounds[-1] + 1, every)):
        refuse(call, name, value, f"{wanted} is wanted", ValueError)
    return rounds[0], rounds[-1], every


def field(call: str, name: str, value: Any, program: "Program") -> str:
    """A field of a program."""
    if not isinstance(value, str):
        refuse(call, name, value, "the name of a field is wanted")
    if value not in program.fields:
        raise faults.Missing(f"{call}: {name} is {value!r}: a field of the program is wanted: {', '.join(program.fields) or 'it has none'}")
    return value


def fields(call: str, name: str, value: Any, program: "Program") -> List[str]:
    """Fields of a program, each once: one alone, or a list."""
    listed = [value] if isinstance(value, str) else items(call, name, value, "the name of a field, or a list of such names,")
    names = [field(call, name if isinstance(value, str) else f"{name}[{place}]", given, program) for place, given in enumerate(listed)]
    if len(set(names)) < len(names):
        refuse(call, name, value, "each field once is wanted", ValueError)
    return names


def only_field(call: str, name: str, value: Any, program: "Program") -> str:
    """A field of a program, which may be left out where there is one alone."""
    if value is None and len(program.fields) == 1:
        return program.fields[0]
    if value is None:
        raise ValueError(f"{call}: {name} is not given: one of the program's fields is wanted: {', '.join(program.fields) or 'it has none'}")
    return field(call, name, value, program)


def report(call: str, value: Any, program: "Program", network: "Network") -> bytes:
    """The text of a report to go on from, `from_`; nothing for None."""
    from .results import States

    if value is None:
        return b""
    if isinstance(value, States):
        states_fit(call, value, program, network)
        return value.report().encode("ascii")
    whole_text = text(call, "from_", value, "a unison.States, as lockstep answers, or the text of a report")
    if not whole_text:
        raise ValueError(f"{call}: from_ is an empty text: a unison.States, as lockstep answers, or the text of a report is wanted")
    return whole_text


def states_fit(call: str, states: Any, program: "Program", network: "Network") -> None:
    """Looks whether states to go on from are of a program's fields and a network's nodes."""
    if states.fields != program.fields or states.nodes != network.nodes:
        raise ValueError(
            f"{call}: from_ has {states.nodes} nodes with the fields {', '.join(states.fields)}: "
            f"{network.nodes} nodes with {', '.join(program.fields)} are wanted"
        )


def schedule(call: str, value: Any) -> bytes:
    """The text of a schedule, or that of its steps."""
    from .schedule import Read, Write, spell

    if isinstance(value, (str, bytes, bytearray)):
        return text(call, "schedule", value)
    wanted = "the text of a schedule, or a list of steps, as unison.schedule makes them,"
    if isinstance(value, (Read, Write)):
        refuse(call, "schedule", value, f"{wanted} is wanted")
    steps = items(call, "schedule", value, wanted)
    for place, step in enumerate(steps):
        if not isinstance(step, (Read, Write)):
            refuse(call, f"schedule[{place}]", step, "a step, as unison.schedule.read and write make them, is wanted")
    return spell(steps).encode("ascii")


def initial_values(call: str, value: Any) -> Dict[str, Any]:
    """What `set` gives, by fields, of which each has one value, a value for each node, or a dict."""
    if value is None:
        return {}
    if not isinstance(value, Mapping):
        refuse(call, "set", value, "a dict from fields to their initial values, as {'dist': {0: 0}}, is wanted")
    for name, given in value.items():
        if not isinstance(name, str):
            refuse(call, "set", value, f"a dict is wanted whose keys are names of fields, and {name!r} is none")
        single = is_whole(given) or isinstance(given, (bool, Mapping))
        if not single and (isinstance(given, (str, bytes)) or not isinstance(given, Iterable)):
            refuse(call, f"set[{name!r}]", given, "a whole number, a list with one for each node, or a dict from nodes to them is wanted")
    return dict(value)


def nodes(call: str, value: Any) -> Union[int, Tuple[Any, ...]]:
    """How many nodes there are, or their names in order, each once."""
    wanted = f"a whole number from 1 to {GREATEST}, or a list of names,"
    if is_whole(value):
        return whole(call, "nodes", value)
    if isinstance(value, (set, frozenset)):
        refuse(call, "nodes", value, f"{wanted} is wanted")
    return each_once(call, "nodes", items(call, "nodes", value, wanted))


def each_once(call: str, what: str, names: Iterable[Any]) -> Tuple[Any, ...]:
    """The names of nodes, of which no two are the same."""
    seen: Dict[Any, int] = {}
    for place, name in enumerate(names):
        try:
            first = seen.setdefault(name, place)
        except TypeError:
            refuse(call, f"{what}[{place}]", name, "a name that can be the key of a dict is wanted")
        if first != place:
            refuse(call, f"{what}[{place}]", name, f"a name of its own is wanted, and {what}[{first}] has this one", ValueError)
    return tuple(seen)


def number_called(numbers: Mapping[Any, int], name: Any) -> Optional[int]:
    """The number of the node of this name; None where none is called so, since it may be no name at all."""
    try:
        return numbers.get(name)
    except TypeError:
        return None


def link(call: str, place: int, value: Any) -> None:
    """Looks whether a link is two nodes, or two nodes and a weight."""
    wanted = "a pair of nodes, or two nodes and a weight, is wanted"
    if isinstance(value, (str, bytes, Mapping)) or not hasattr(value, "__len__") or not hasattr(value, "__getitem__"):
        refuse(call, f"links[{place}]", value, wanted)
    if len(value) not in (2, 3):
        refuse(call, f"links[{place}]", value, wanted, ValueError)


def graph(call: str, value: Any) -> None:
    """Looks whether a value is a graph of NetworkX."""
    if not all(hasattr(value, part) for part in ("is_directed", "edges", "nodes")):
        refuse(call, "graph", value, "a graph of NetworkX is wanted")


def names(call: str, value: Any) -> Optional[Tuple[Any, ...]]:
    """What nodes are called, node 0 first, each once; None where they have no names."""
    return None if value is None else each_once(call, "names", items(call, "names", value, "a list of names, node 0 first,"))
