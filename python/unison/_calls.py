"""The calls, from bytes to Python's values, by one of two back ends: the proved library, or programs where it is not there. What is refused
is raised, with what is told of it."""

from __future__ import annotations

import os
from array import array
from functools import lru_cache
from typing import TYPE_CHECKING, Callable, List, Mapping, NamedTuple, Protocol, Sequence, Tuple, TypeVar

from . import _library, _programs, faults

if TYPE_CHECKING:
    from .large import LargeNetwork
    from .program import Program

CHECK, LOCKSTEP, REPLAY = 1, 2, 3
MOST = 4294967295
assert array("I").itemsize == 4, "unison needs a machine whose C `unsigned int` has four bytes"

Answer = TypeVar("Answer")


class Texts(NamedTuple):
    """What a call reads. An empty report is none."""

    program: bytes
    network: bytes = b""
    report: bytes = b""
    schedule: bytes = b""


class Table(NamedTuple):
    """Words by nodes and fields: those of a round, or of several, one behind the other."""

    words: "array[int]"
    nodes: int
    fields: int


class Start(NamedTuple):
    """Where rounds on lists begin: a round, and the words of its states, which a call may change. There may be more room than words."""

    lists: LargeNetwork
    round: int
    words: "array[int]"

    def size(self, program: Program) -> int:
        """How many words a round has."""
        return self.lists.nodes * len(program.fields)


class Replay(NamedTuple):
    """What a replay gives."""

    report: bytes
    counts: "array[int]"
    table: Table


class Told(NamedTuple):
    """What is told of a job."""

    fault: int  # the number of the first fault with which it would end; 0 where nothing refuses it
    text: str


class Refused(Exception):
    """A back end refuses what it was asked for."""

    def __init__(self, number: int) -> None:
        super().__init__(number)
        self.number = number  # of the fault, as in library/unison.h


class Backend(Protocol):
    """Who answers. Each call raises `Refused` with the number of its fault, or MemoryError; the two back ends have the same answers."""

    #: Whether rounds on the network of a network file are best made on lists in memory: else they are made of its text.
    lends_lists: bool

    def check(self, program: bytes) -> bytes:
        """The canonical spelling of a program."""

    def expand(self, model: bytes, constants: Mapping[str, int], called: str) -> bytes:
        """The text of the program that a model is expanded to, where constants have these values. Why there is none the program `expand`
        tells, by the name of the model's file; what it tells is raised."""

    def sizes(self, texts: Texts) -> Tuple[int, int]:
        """How many nodes and fields a program on a network has; no round is computed."""

    def lockstep(self, texts: Texts, asked: int, room: int) -> Table:
        """The words of a round; `room` is how many are expected."""

    def watch(self, texts: Texts, rounds: Sequence[int], room: int) -> Table:
        """The words of some rising rounds, one round behind the other."""

    def settle(self, texts: Texts, limit: int) -> List[int]:
        """What becomes of the rounds: the manner (1 settles, 2 repeats, 3 open), the round and the period."""

    def replay(self, texts: Texts, stop: int, rooms: Tuple[int, int, int]) -> Replay:
        """What stands after a schedule; the rooms are those expected for the report, the counts and the words."""

    def why(self, job: int, texts: Texts, asked: int) -> Told:
        """Why a job is refused, as a number and in words."""

    def large_check(self, lists: LargeNetwork) -> Tuple[int, int]:
        """The number of the first fault of the lists of a network, 0 where they have none, and its place."""

    def large_rounds(self, program: Program, start: Start, asked: int) -> None:
        """Puts the words of a round in place of those of the start."""

    def large_watch(self, program: Program, start: Start, rounds: Sequence[int]) -> "array[int]":
        """The words of some rising rounds, one round behind the other."""

    def large_counts(self, program: Program, start: Start, rounds: Sequence[int], field: str, values: Sequence[int]) -> "array[int]":
        """How many nodes have each of some values in a field after each of some rising rounds, and last in each round how many have none of
        them."""


@lru_cache(maxsize=None)
def backend() -> Backend:
    """The proved library; where it is not there, and UNISON_BUILD does not ask for what is proved, the programs, where these are. They also
    answer where UNISON_BUILD asks for quick programs."""
    from ._by_library import Library
    from ._by_programs import Programs

    asked = os.environ.get("UNISON_BUILD")
    if asked == "quick":
        return Programs()
    is_missing = not os.environ.get(_library.VARIABLE) and not _library.is_there()
    if is_missing and asked != "proved" and _programs.are_there():
        return Programs()
    return Library()


def room_for(count: int) -> "array[int]":
    """Room for so many words; for none there is one, since no pointer may be null."""
    return array("I", [0]) * max(count, 1)


def cut(words: "array[int]", count: int) -> "array[int]":
    """The first so many words."""
    del words[count:]
    return words


def diagnosis_of(number: int, job: int, texts: Texts, asked: int) -> str:
    """What `why` tells of a fault; nothing where it cannot tell anything, or finds another fault."""
    if number == faults.MEMORY:
        return ""
    try:
        told = why(job, texts, asked)
    except (MemoryError, faults.UnisonError):
        return ""
    return told.text if told.fault == number else ""


def answer_of(call: Callable[[Backend], Answer], job: int, texts: Texts, asked: Callable[[int], int] = lambda number: 0) -> Answer:
    """What the back end answers; its fault is raised, with what is told of it: `asked` has the round or stop at which `why` has to look."""
    try:
        return call(backend())
    except Refused as refused:
        number = refused.number
    raise faults.fault_of(number, diagnosis_of(number, job, texts, asked(number)))


def check(program: bytes) -> bytes:
    """The canonical spelling of a program."""
    return answer_of(lambda it: it.check(program), CHECK, Texts(program))


def expand(model: bytes, constants: Mapping[str, int], called: str) -> bytes:
    """The text of the program that a model, in a file that is called so, is expanded to."""
    try:
        return backend().expand(model, constants, called)
    except Refused as refused:
        raise faults.fault_of(refused.number) from None


def sizes(texts: Texts) -> Tuple[int, int]:
    """How many nodes and fields a program on a network has."""
    return answer_of(lambda it: it.sizes(texts), LOCKSTEP, texts)


def lockstep(texts: Texts, asked: int, room: int) -> Table:
    """The words of a round."""
    return answer_of(lambda it: it.lockstep(texts, asked, room), LOCKSTEP, texts, lambda number: asked)


def watch(texts: Texts, rounds: Sequence[int], room: int) -> Table:
    """The words of some rounds, one round behind the other."""
    return answer_of(lambda it: it.watch(texts, rounds, room), LOCKSTEP, texts, lambda number: at_fault(number, rounds))


def at_fault(number: int, rounds: Sequence[int]) -> int:
    """The round of a list at which `why` has to look."""
    is_too_late = faults.FAULTS.get(number) == ("run", "TooManyRounds")
    return max(rounds, default=0) if is_too_late else min(rounds, default=0)


def settle(texts: Texts, limit: int) -> List[int]:
    """What becomes of the rounds: the manner, the round and the period."""
    return answer_of(lambda it: it.settle(texts, limit), LOCKSTEP, texts, lambda number: limit)


def replay(texts: Texts, stop: int, rooms: Tuple[int, int, int]) -> Replay:
    """What stands after a schedule."""
    return answer_of(lambda it: it.replay(texts, stop, rooms), REPLAY, texts, lambda number: stop)


def why(job: int, texts: Texts, asked: int) -> Told:
    """Why a job is refused, as a number and in words."""
    try:
        return backend().why(job, texts, asked)
    except Refused as refused:
        raise faults.fault_of(refused.number) from None


def large_check(lists: LargeNetwork) -> Tuple[int, int]:
    """The first fault of the lists of a network, 0 where they have none, and its place."""
    return backend().large_check(lists)


def large_rounds(program: Program, start: Start, asked: int) -> None:
    """Puts the words of a round in place of those of the start."""
    answer_of(lambda it: it.large_rounds(program, start, asked), CHECK, Texts(program.text))


def large_watch(program: Program, start: Start, rounds: Sequence[int]) -> "array[int]":
    """The words of some rounds, one round behind the other."""
    return answer_of(lambda it: it.large_watch(program, start, rounds), CHECK, Texts(program.text))


def large_counts(program: Program, start: Start, rounds: Sequence[int], field: str, values: Sequence[int]) -> "array[int]":
    """How many nodes have each of some values in a field after each of some rounds, and how many have none of them."""
    return answer_of(lambda it: it.large_counts(program, start, rounds, field, values), CHECK, Texts(program.text))
