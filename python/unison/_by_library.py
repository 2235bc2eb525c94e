"""The back end that is the proved library: room is made for what its calls write, and pointers are lent to them."""

from __future__ import annotations

import ctypes
from array import array
from typing import TYPE_CHECKING, Any, Callable, List, Mapping, Sequence, Tuple

from . import _by_programs, _library, faults
from ._calls import Refused, Replay, Start, Table, Texts, Told, cut, room_for

if TYPE_CHECKING:
    from .large import LargeNetwork
    from .program import Program

MOST_BYTES = 65536  # of the text of a program


def plan(texts: Texts) -> Tuple[Any, ...]:
    """The arguments for program, network and report."""
    return (texts.program, len(texts.program), texts.network, len(texts.network), texts.report, len(texts.report))


def begin(program: Program, start: Start) -> Tuple[Any, ...]:
    """The arguments for a program, the lists of a network and the round at which rounds on them begin."""
    return (program.text, len(program.text), *start.lists._arguments(), start.round)


def address(words: "array[int]") -> int:
    return words.buffer_info()[0]


def listed(numbers: Sequence[int]) -> Tuple[Any, int]:
    """Numbers as words, which have to be held while a call runs, and how many there are."""
    return (array("I", numbers) if numbers else room_for(0)), len(numbers)


def accept(answer: int) -> None:
    """Raises what an answer tells."""
    if answer != 0:
        raise Refused(answer)


def text_of(call: Callable[[Any, int, Any], int], room: int) -> Tuple[int, bytes]:
    """The answer of a call that writes a text, and the text. It is made again where the text needs more room."""
    length = ctypes.c_size_t(0)
    while True:
        text = ctypes.create_string_buffer(max(room, 1))
        answer = call(text, room, ctypes.byref(length))
        if answer != faults.ROOM:
            return answer, text.raw[: length.value] if answer == 0 else b""
        room = max(length.value, 2 * room)


def expanded(model: bytes, constants: Mapping[str, int]) -> Tuple[int, bytes]:
    """The answer of the call that expands a model, and the text of the program."""
    names = "".join(f"{name}\n" for name in constants).encode("utf-8", "surrogateescape")
    values, count = listed([*constants.values()])
    given = (model, len(model), names, len(names), address(values), count)
    return text_of(lambda *room: _library.load().unison_expand(*given, *room), MOST_BYTES)


def table_of(call: Callable[[Any, int, Any, Any], int], rounds: int, room: int) -> Table:
    """The words of so many rounds that a call writes. It is made again where they need more room."""
    nodes, fields = ctypes.c_uint32(0), ctypes.c_uint32(0)
    while True:
        words = room_for(room)
        answer = call(address(words), room, ctypes.byref(nodes), ctypes.byref(fields))
        count = rounds * nodes.value * fields.value
        if answer != faults.ROOM:
            accept(answer)
            return Table(cut(words, count), nodes.value, fields.value)
        room = max(count, room + 1)


class Library:
    """The proved calls of `libunison.so`."""

    lends_lists = True

    def check(self, program: bytes) -> bytes:
        call = _library.load().unison_check
        answer, text = text_of(lambda *room: call(program, len(program), *room), 2 * len(program) + 64)
        accept(answer)
        return text

    def expand(self, model: bytes, constants: Mapping[str, int], called: str) -> bytes:
        if _library.has(_library.EXPAND):
            answer, program = expanded(model, constants)
            if answer == 0:
                return program
            if answer == faults.MEMORY:
                raise Refused(answer)
        return _by_programs.expand(model, constants, called)

    def sizes(self, texts: Texts) -> Tuple[int, int]:
        nodes, fields, none = ctypes.c_uint32(0), ctypes.c_uint32(0), room_for(0)
        answer = _library.load().unison_lockstep(*plan(texts), 0, address(none), 0, ctypes.byref(nodes), ctypes.byref(fields))
        if answer != faults.ROOM:
            accept(answer)
        return nodes.value, fields.value

    def lockstep(self, texts: Texts, asked: int, room: int) -> Table:
        call = _library.load().unison_lockstep
        return table_of(lambda *rest: call(*plan(texts), asked, *rest), 1, room)

    def watch(self, texts: Texts, rounds: Sequence[int], room: int) -> Table:
        wanted, count = listed(rounds)
        call = _library.load().unison_watch
        return table_of(lambda *rest: call(*plan(texts), address(wanted), count, *rest), count, room)

    def settle(self, texts: Texts, limit: int) -> List[int]:
        found = [ctypes.c_uint32(0) for _ in range(3)]
        accept(_library.load().unison_settle(*plan(texts), limit, *map(ctypes.byref, found)))
        return [part.value for part in found]

    def replay(self, texts: Texts, stop: int, rooms: Tuple[int, int, int]) -> Replay:
        length, nodes, fields = ctypes.c_size_t(0), ctypes.c_uint32(0), ctypes.c_uint32(0)
        call = _library.load().unison_replay
        while True:
            report, counts, words = ctypes.create_string_buffer(max(rooms[0], 1)), room_for(rooms[1]), room_for(rooms[2])
            answer = call(
                *plan(texts), texts.schedule, len(texts.schedule), stop,
                report, rooms[0], ctypes.byref(length), address(counts), rooms[1],
                address(words), rooms[2], ctypes.byref(nodes), ctypes.byref(fields),
            )  # fmt: skip
            if answer != faults.ROOM:
                break
            needed = (length.value, nodes.value, nodes.value * fields.value)
            rooms = needed if needed != rooms else (2 * rooms[0], 2 * rooms[1], 2 * rooms[2])
        accept(answer)
        table = Table(cut(words, nodes.value * fields.value), nodes.value, fields.value)
        return Replay(report.raw[: length.value], cut(counts, nodes.value), table)

    def why(self, job: int, texts: Texts, asked: int) -> Told:
        call, fault = _library.load().unison_why, ctypes.c_uint32(0)
        given = (*plan(texts), texts.schedule, len(texts.schedule), asked, ctypes.byref(fault))
        answer, text = text_of(lambda *room: call(job, *given, *room), 4096)
        accept(answer)
        return Told(fault.value, text.decode("utf-8", "replace"))

    def large_check(self, lists: LargeNetwork) -> Tuple[int, int]:
        place = ctypes.c_size_t(0)
        return _library.load().unison_large_check(*lists._arguments(), ctypes.byref(place)), place.value

    def large_rounds(self, program: Program, start: Start, asked: int) -> None:
        fields, call = ctypes.c_uint32(0), _library.load().unison_large_rounds
        accept(call(*begin(program, start), asked, address(start.words), start.size(program), ctypes.byref(fields)))

    def large_watch(self, program: Program, start: Start, rounds: Sequence[int]) -> "array[int]":
        wanted, many = listed(rounds)
        size, fields = start.size(program), ctypes.c_uint32(0)
        words, room = room_for(many * size), many * size
        answer = _library.load().unison_large_watch(
            *begin(program, start), address(start.words), size, address(wanted), many, address(words), room, ctypes.byref(fields)
        )
        accept(answer)
        return cut(words, room)

    def large_counts(self, program: Program, start: Start, rounds: Sequence[int], field: str, values: Sequence[int]) -> "array[int]":
        (wanted, many), (counted, kinds) = listed(rounds), listed(values)
        room, fields = many * (kinds + 1), ctypes.c_uint32(0)
        counts = room_for(room)
        answer = _library.load().unison_large_counts(
            *begin(program, start), address(start.words), start.size(program), address(wanted), many,
            program.fields.index(field), address(counted), kinds, address(counts), room, ctypes.byref(fields),
        )  # fmt: skip
        accept(answer)
        return cut(counts, room)
