"""Schedules: lists of single steps, as `unison.replay` takes them (docs/formats.md).

A step is a read, by a node of the register of the neighbour at one of its slots, or a write, with which a node moves.

>>> import unison
>>> from unison import schedule
>>> network = unison.Network(["ann", "bob", "cid"], [("ann", "bob"), ("bob", "cid")])
>>> steps = [schedule.read(network, "bob", "cid"), schedule.write(network, "bob")]
>>> print(schedule.spell(steps), end="")
read 1 1
write 1
>>> schedule.parse("read 1 1\\nwrite 1\\n") == steps
True
>>> len(schedule.sweep(network))
7
"""

from __future__ import annotations

import re
from typing import TYPE_CHECKING, Any, Hashable, Iterable, List, NamedTuple, Union

from . import _checks, faults

if TYPE_CHECKING:
    from .network import Network

Name = Hashable

LINE = re.compile(r"(?:read (0|[1-9][0-9]*) (0|[1-9][0-9]*)|write (0|[1-9][0-9]*))\n")
GREATEST = 4294967295


class Read(NamedTuple):
    """A read by a node of the register of the neighbour at its slot. Both are numbers, from 0."""

    node: int
    slot: int


class Write(NamedTuple):
    """The write with which a node moves."""

    node: int


Step = Union[Read, Write]


def read(network: Network, node: Name, neighbour: Name) -> Read:
    """A read by a node of a neighbour, both called by their names."""
    _checks.network("schedule.read", network)
    return Read(network.number(node), network.slot(node, neighbour))


def write(network: Network, node: Name) -> Write:
    """The write of a node, called by its name."""
    _checks.network("schedule.write", network)
    return Write(network.number(node))


def turn(network: Network, node: Name) -> List[Step]:
    """A node reads all its neighbours, by rising number, and moves."""
    _checks.network("schedule.turn", network)
    number = network.number(node)
    return [*(Read(number, slot) for slot in range(network.degree(node))), Write(number)]


def sweep(network: Network, times: int = 1) -> List[Step]:
    """A turn of each node by rising number, so many times: 2 * links + nodes steps each time, after which each node has moved once
    more, if all were level before."""
    _checks.network("schedule.sweep", network)
    count = _checks.whole("schedule.sweep", "times", times)
    return [step for name in network.names for step in turn(network, name)] * count


def spell(steps: Iterable[Step]) -> str:
    """The text of a schedule.

    A number is 0 to 4294967295; the replay of a step of no node, or at no slot, changes nothing.
    """
    listed = _checks.items("schedule.spell", "steps", steps, "a list of steps, as schedule.read and write make them,")
    return "".join(line_of(place, step) for place, step in enumerate(listed))


def line_of(place: int, step: Any) -> str:
    """The line of the step at this place."""
    if not isinstance(step, (Read, Write)):
        _checks.refuse("schedule.spell", f"steps[{place}]", step, "a step, as schedule.read and write make them, is wanted")
    if not all(type(number) is int and 0 <= number <= GREATEST for number in step):
        for part, number in zip(step._fields, step):
            _checks.whole("schedule.spell", f"steps[{place}].{part}", number)
    return f"read {step.node} {step.slot}\n" if isinstance(step, Read) else f"write {step.node}\n"


def parse(text: Union[str, bytes]) -> List[Step]:
    """The steps of a schedule's text. Raises ScheduleError at the first line that is none."""
    whole = _checks.text("schedule.parse", "text", text).decode("utf-8", "surrogateescape")
    return [step_of(number, line) for number, line in enumerate(re.findall(r"[^\n]*\n|[^\n]+", whole), 1)]


def step_of(number: int, line: str) -> Step:
    found = LINE.fullmatch(line)
    words = [int(word) for word in found.groups() if word is not None] if found else []
    if not words or max(words) > GREATEST:
        raise faults.ScheduleError(96, f"schedule:{number}:1: schedule BadLine: a line is `read NODE SLOT` or `write NODE`, with one space between, and ends in LF\n")
    return Read(*words) if len(words) == 2 else Write(*words)
