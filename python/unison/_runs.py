"""The runs of a sweep: made side by side by threads, and what is told of each round."""

from __future__ import annotations

import os
from collections import Counter
from concurrent.futures import ThreadPoolExecutor
from typing import Any, Callable, Dict, Iterator, List, Mapping, NamedTuple, Optional, Sequence, Tuple

from . import _calls, large
from ._calls import Start
from .large import LargeNetwork
from .model import Model
from .network import Network
from .program import Program
from .results import NONE, Rounds, States, numpy

Row = Dict[str, Any]

BLOCK = 1 << 22  # words of rounds that a thread holds at once, if a round has no more
MOST_VALUES = 256  # with a column each: as many as a model names states
FEW = 8  # values below this are counted one by one
DENSE = 1 << 16  # and values below this by a list of counts


class Asked(NamedTuple):
    """What is told of each round."""

    counted: Tuple[str, ...]  # fields whose values are counted
    totals: Tuple[Tuple[str, str], ...]  # one of TOTALS and a field
    of: Optional[Callable[[States], Any]]

    def is_nothing(self) -> bool:
        return not self.counted and not self.totals and self.of is None

    def is_one_count(self) -> bool:
        return len(self.counted) == 1 and not self.totals and self.of is None


class Found(NamedTuple):
    """What was found in a round: numbers by their columns, and how many nodes have a value, by field and value."""

    numbers: Row
    counts: Dict[Tuple[str, int], int]


class Values:
    """The values of a field that the library is asked to count, for all runs of a sweep: the states that the model names, or small ones, and
    then also those that occurred. None where there are too many."""

    def __init__(self, program: Program, field: str) -> None:
        states = program.states.get(field, ()) if isinstance(program, Model) else ()
        self.field = field
        self.listed: Optional[Tuple[int, ...]] = tuple(range(len(states) or FEW))

    def add(self, found: Sequence[Found]) -> None:
        """Takes up the values that occurred in a run."""
        occurred = {value for part in found for (_, value), nodes in part.counts.items() if nodes}
        values = sorted(occurred.union(self.listed or ()))
        self.listed = tuple(values) if self.listed is not None and len(values) <= MOST_VALUES else None


class Plan(NamedTuple):
    """What all runs of a sweep have in common."""

    program: Program
    network: Network
    lists: LargeNetwork
    rounds: List[int]
    from_: Optional[States]
    asked: Asked
    values: Optional[Values]  # of the field that is counted, where nothing else is told of a round


def processors() -> int:
    """How many processors this process has."""
    return len(os.sched_getaffinity(0)) if hasattr(os, "sched_getaffinity") else os.cpu_count() or 1


def in_threads(call: Callable[[Any], Any], given: Sequence[Any], workers: int) -> List[Any]:
    """What a call answers for each of some things, in their order. The first error ends all."""
    with ThreadPoolExecutor(max_workers=min(workers, max(len(given), 1))) as threads:
        try:
            return list(threads.map(call, given))
        except BaseException:
            threads.shutdown(wait=True, cancel_futures=True)
            raise


def rounds_found(plan: Plan, run: Dict[str, Any]) -> List[Found]:
    """What is found in the rounds of one combination of values."""
    fields = plan.program.fields
    constants = {name: value for name, value in run.items() if name not in fields}
    program = plan.program.with_constants(constants) if isinstance(plan.program, Model) and constants else plan.program
    lists = with_values(plan, {name: value for name, value in run.items() if name in fields})
    start = large.start_of(program, lists, plan.from_)
    counted = None if plan.values is None else counts_found(program, start, plan.rounds, plan.values)
    if counted is not None:
        return counted
    found: List[Found] = []
    for block in blocks_of_rounds(program, start, plan.rounds, plan.network._names):
        found.extend(told_of(block, plan.asked))
    if plan.values is not None:
        plan.values.add(found)
    return found


def counts_found(program: Program, start: Start, rounds: Sequence[int], values: Values) -> Optional[List[Found]]:
    """How many nodes have each value of a field, as the library counts them, which lays out no words of all nodes. None where a node has
    a value that the library was not asked for, or where there are too many values."""
    listed = values.listed
    if listed is None:
        return None
    width = len(listed) + 1
    counts = large.counts_after_each(program, start, rounds, values.field, listed)
    if any(counts[width - 1 :: width]):
        return None
    return [
        Found({}, {(values.field, value): nodes for value, nodes in zip(listed, counts[place : place + width]) if nodes})
        for place in range(0, len(counts), width)
    ]


def with_values(plan: Plan, values: Mapping[str, Any]) -> LargeNetwork:
    """The network with these initial values in place of its own of the same fields. Lists that are made of it know none of its names."""
    if plan.lists is not plan.network:
        values = {field: numbered(plan.network, given) if isinstance(given, Mapping) else given for field, given in values.items()}
    return plan.lists.with_more(values) if values else plan.lists


def numbered(network: Network, values: Mapping[Any, int]) -> Dict[int, int]:
    """Values by the nodes' numbers in place of their names."""
    return {network.number(node): value for node, value in values.items()}


def blocks_of_rounds(program: Program, start: Start, asked: Sequence[int], names: Optional[Sequence[Any]]) -> Iterator[Rounds]:
    """The rounds, as many at once as are held in memory."""
    nodes, size = start.lists.nodes, start.lists.nodes * len(program.fields)
    several = max(1, BLOCK // max(size, 1))
    for place in range(0, len(asked), several):
        rounds = asked[place : place + several]
        words = large.words_of_each(program, start, rounds)
        yield Rounds(rounds, program.fields, nodes, words, names)
        start = Start(start.lists, rounds[-1], words[len(words) - size :] or _calls.room_for(0))


def told_of(block: Rounds, asked: Asked) -> List[Found]:
    """What is found in each of some rounds."""
    columns = {field: block[field] for field in {field for _, field in asked.totals}}
    nodes_with = {field: counts_of_each(block[field]) for field in asked.counted}
    for field, rounds in nodes_with.items():
        check_few(field, max(map(len, rounds)))
    found = []
    for place, round in enumerate(block.rounds):
        counts = {(field, value): nodes for field in asked.counted for value, nodes in nodes_with[field][place].items()}
        numbers: Row = {f"{kind} {field}": TOTALS[kind](columns[field][place]) for kind, field in asked.totals}
        if asked.of is not None:
            numbers.update(answer_of(asked.of, block.at(round)))
        elif asked.is_nothing():
            numbers["states"] = block.at(round)
        found.append(Found(numbers, counts))
    return found


def check_few(field: str, values: int) -> None:
    """Refuses so many values of a field, of which each would have a column."""
    if values > MOST_VALUES:
        raise ValueError(
            f"sweep: {values} values of {field} occur, and {MOST_VALUES} have columns at most: "
            "a field of fewer values is wanted, or sum, least, most, or a function as `of`"
        )


def answer_of(of: Callable[[States], Any], states: States) -> Row:
    """What a function answers, by its columns."""
    answer = of(states)
    if isinstance(answer, Mapping):
        return {str(column): value for column, value in answer.items()}
    name = getattr(of, "__name__", "of")
    return {"of" if name == "<lambda>" else name: answer}


def counts_of_each(values: Any) -> List[Dict[int, int]]:
    """How many nodes have each value, round by round: 0 of some values that do not occur."""
    if numpy is None:
        return [dict(Counter(row)) for row in values]
    most = int(values.max(initial=0))
    if most >= FEW:
        return [counted(row) for row in values]
    small = values.astype(numpy.uint8)
    marks = [small == value for value in range(most + 1)]
    return [{value: int(numpy.count_nonzero(mark[place])) for value, mark in enumerate(marks)} for place in range(len(values))]


def counted(values: Any) -> Dict[int, int]:
    """How many nodes have each of some values."""
    absent = int(numpy.count_nonzero(values == NONE))
    if absent:
        return {**counted(values[values != NONE]), NONE: absent}
    if int(values.max(initial=0)) < DENSE:
        each = numpy.bincount(values).tolist()
        return {value: nodes for value, nodes in enumerate(each) if nodes}
    found, nodes = numpy.unique(values, return_counts=True)
    return dict(zip(found.tolist(), nodes.tolist()))


def sum_of(values: Any) -> int:
    return int(sum(values) if numpy is None else values.sum(dtype=numpy.uint64))


TOTALS: Dict[str, Callable[[Any], int]] = {
    "sum": sum_of,
    "least": lambda values: int(min(values) if numpy is None else values.min()),
    "most": lambda values: int(max(values) if numpy is None else values.max()),
}
