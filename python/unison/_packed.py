"""Packed network files (docs/formats.md, Binary network file): those that commands write are read, and a network that is kept as arrays is
written, with its initial values and its phase behind the rows, or with them in words and files beside it."""

from __future__ import annotations

import sys
from array import array
from typing import Any, Dict, Iterable, List, Mapping, NamedTuple, Optional, Sequence, Tuple

from . import _document, faults
from .faults import NO_NUMBER, NetworkError
from ._arrays import LONG, WORD
from .large import LargeNetwork
from .results import numpy

MAGIC = b"UNISONW1"
HEAD = 32  # bytes before the offsets
MOST_NODES = 4294967295
MOST = 4294967295  # the greatest value
WEIGHTED, SET = 1, 2  # flags: weights follow, and behind the rows a network file of one node, with the phase and the initial values
CODES = {WORD: "I", LONG: "Q"}


class Head(NamedTuple):
    """What the first 32 bytes say."""

    nodes: int
    ends: int
    flags: int

    @property
    def length(self) -> int:
        """How many bytes there are up to the end of the rows."""
        return HEAD + LONG * (self.nodes + 1) + WORD * self.ends * (2 if self.flags & WEIGHTED else 1)


class Settings(NamedTuple):
    """What a network sets: its phase, and the initial values by fields and nodes."""

    phase: int
    values: Dict[str, Dict[int, int]]


class Columns(NamedTuple):
    """Initial values as arrays of numpy: the place of each column, the nodes that have a value in it, by rising number, and these values."""

    columns: List[Tuple[int, Any, Any]]

    def put(self, words: Any, numbers: Any) -> None:
        """Puts the values into the states of those of these nodes that have one: (nodes, fields) uint32."""
        for place, nodes, values in self.columns:
            if nodes.size:
                at = numpy.minimum(numpy.searchsorted(nodes, numbers), nodes.size - 1)
                has = nodes[at] == numbers
                words[has, place] = values[at[has]]


def part_of(packed: bytes, place: int, count: int, size: int) -> Any:
    """So many numbers of a file from a place on: an array of numpy over the same bytes, else an `array`."""
    if numpy is not None:
        return numpy.frombuffer(packed, dtype=f"<u{size}", count=count, offset=place)
    words = array(CODES[size])
    words.frombytes(memoryview(packed)[place : place + count * size])
    if sys.byteorder == "big":
        words.byteswap()
    return words


def read(packed: bytes, set: Optional[Mapping[str, Any]] = None, names: Optional[Iterable[Any]] = None) -> LargeNetwork:
    """The network of a file's bytes. Raises NetworkError where they are none."""
    head = head_of(packed)
    nodes, ends, flags = head
    offsets = part_of(packed, HEAD, nodes + 1, LONG)
    place = HEAD + LONG * (nodes + 1)
    weights = part_of(packed, place + WORD * ends, ends, WORD) if flags & WEIGHTED else None
    network = LargeNetwork(offsets, part_of(packed, place, ends, WORD), weights, set=set, names=names)
    if not flags & SET:
        return network
    settings = settings_in(packed[head.length :], nodes)
    return network._settled(settings.phase, {**settings.values, **network._set})


def settings_in(text: bytes, nodes: int) -> Settings:
    """The settings of a network of so many nodes, which stand behind its rows. Raises NetworkError where the text is no network file of one node,
    and PlanError where a number is no node or no value, or a node has two values."""
    from .network import accept

    try:
        accept(text.decode("utf-8"), {})
    except faults.PlanError:
        pass  # it is a network file, with initial values
    except (UnicodeDecodeError, NetworkError) as error:
        raise no_settings(str(error)) from None
    document = _document.read(text.decode("utf-8").removeprefix("\ufeff"))
    if document.nodes != 1:
        raise no_settings(f"it has {document.nodes} nodes")
    for field, pairs in document.sets.items():
        check_pairs(field, pairs, nodes)
    return Settings(document.phase, {field: dict(pairs) for field, pairs in document.sets.items()})


def columns_in(text: Optional[bytes], nodes: int, fields: Sequence[str]) -> Columns:
    """The initial values that stand behind the rows of a network of so many nodes, where something does, by the columns of a program's fields.
    Raises as `settings_in`, and PlanError for another field."""
    values = {} if text is None else settings_in(text, nodes).values
    for field in values:
        if field not in fields:
            raise faults.error_of(faults.NUMBERS["plan", "UnknownField"], f"set.{field}: the program has no such field; its fields are {', '.join(fields) or 'none'}")
    return Columns([column_in(fields.index(field), pairs) for field, pairs in values.items()])


def column_in(place: int, pairs: Mapping[int, int]) -> Tuple[int, Any, Any]:
    """The values of the column at a place."""
    rising = sorted(pairs.items())
    return place, numpy.array([node for node, _ in rising], dtype="int64"), numpy.array([value for _, value in rising], dtype="uint32")


def no_settings(why: str) -> NetworkError:
    """The fault of a file behind whose rows something else stands."""
    return refused("Settings", f"behind the rows a network file of one node is wanted, for the phase and the initial values: {why}")


def check_pairs(field: str, pairs: Any, nodes: int) -> None:
    """Raises the first fault of the initial values of a field."""
    seen: Dict[int, int] = {}
    for node, value in pairs:
        name = "BadNode" if not 0 <= node < nodes else "BadValue" if not 0 <= value <= MOST else "SetTwice" if node in seen else None
        if name is not None:
            raise faults.error_of(faults.NUMBERS["plan", name], f"set.{field}: [{node}, {value}], and there are {nodes} nodes (plan {name})")
        seen[node] = value


def head_of(packed: bytes) -> Head:
    """How many nodes there are, how many neighbours they have together, and what follows: the file is as long as that asks for."""
    if packed[:8] != MAGIC:
        raise refused("Magic", f"a binary network file begins with {MAGIC!r}, and this one with {packed[:8]!r}")
    if len(packed) < HEAD:
        raise refused("Header", f"a binary network file has {HEAD} bytes or more, and this one {len(packed)}")
    head = Head(*(int(word) for word in part_of(packed, 8, 3, LONG)))
    nodes, ends, flags = head
    if flags > WEIGHTED | SET:
        raise refused("Header", f"the flags are 0 to 3, and here {flags}")
    if not 1 <= nodes <= MOST_NODES:
        raise refused("NodeCount", f"there are 1 to {MOST_NODES} nodes, and here {nodes}")
    if len(packed) < head.length or len(packed) > head.length and not flags & SET:
        raise refused("Length", f"a file of {nodes} nodes and {ends} neighbours has {head.length} bytes, and this one {len(packed)}")
    return head


def refused(name: str, why: str) -> NetworkError:
    """The fault of a file, called as the commands call it."""
    return NetworkError(NO_NUMBER, f"network {name}: {why}", ("network", name))


def bytes_of(values: Any, size: int) -> bytes:
    """Numbers as a file has them."""
    if numpy is not None:
        return bytes(numpy.asarray(values, dtype=f"<u{size}").tobytes())
    words = array(CODES[size], values)
    if sys.byteorder == "big":
        words.byteswap()
    return words.tobytes()


def settings_text(network: LargeNetwork) -> bytes:
    """What a network sets, as it stands behind the rows: nothing in phase 0 without initial values."""
    sets = {field: sorted(values.items()) for field, values in network.set.items()}
    if not sets and not network.phase:
        return b""
    return _document.write(_document.Document(1, [], network.phase, sets)).encode("utf-8")


def write(network: LargeNetwork, settings: bytes = b"") -> bytes:
    """The file of a network's links, and behind them its settings, where they are not left out."""
    weighted = network.ends > 0 and network.weights is not None
    head = [network.nodes, network.ends, (WEIGHTED if weighted else 0) | (SET if settings else 0)]
    parts = [MAGIC, bytes_of(head, LONG), bytes_of(network.indptr, LONG), bytes_of(network.indices, WORD)]
    if weighted:
        parts.append(bytes_of(network.weights, WORD))
    return b"".join([*parts, settings])


def column(values: Any) -> bytes:
    """Values as a file of an array of NumPy with one axis."""
    about = f"{{'descr': '<u4', 'fortran_order': False, 'shape': ({len(values)},), }}"
    padded = about + " " * (-(len(about) + 11) % 64) + "\n"
    return b"\x93NUMPY\x01\x00" + len(padded).to_bytes(2, "little") + padded.encode("ascii") + bytes_of(values, WORD)


def values_in(npy: bytes) -> "array[int]":
    """The values of an array of NumPy of words, in their order."""
    words = array("I")
    words.frombytes(npy[10 + int.from_bytes(npy[8:10], "little") :])
    if sys.byteorder == "big":
        words.byteswap()
    return words

