"""Arrays of numbers for the library: without a copy where they lie in memory as it reads them, else converted. A value that does not
fit is told by its place."""

from __future__ import annotations

import operator
from array import array
from collections import Counter
from itertools import repeat
from typing import Any, Iterable, List, Mapping, NamedTuple, Optional, Sequence, Tuple

from . import faults
from .results import numpy

WORD, LONG = 4, 8  # how many bytes a number has
CODES = {WORD: "I", LONG: "Q"}
assert array("I").itemsize == WORD and array("Q").itemsize == LONG
NOTHING = array("Q", [0])
SOMEWHERE = NOTHING.buffer_info()[0]  # where no number lies: no pointer may be null


class Numbers(NamedTuple):
    """Numbers that lie one behind the other in memory: how many, where, and what holds them there."""

    count: int  # type: ignore[assignment]  # not the method of tuples
    address: int
    held: Any  # an array of numpy, or an `array`: it answers `held[place]`
    lock: Any = None  # while it is held, an `array` grows and shrinks not

    def __reduce__(self) -> Tuple[Any, ...]:
        """A copy, also in another process, lies elsewhere."""
        return held_numbers, (self.held,)


def held_numbers(held: Any) -> Numbers:
    """The numbers of an `array`, or of an array of numpy, that lie one behind the other."""
    if isinstance(held, array):
        return Numbers(len(held), held.buffer_info()[0] or SOMEWHERE, held, memoryview(held))
    return Numbers(held.size, held.__array_interface__["data"][0], held)


def refused(what: str, place: int, found: Any, most: int) -> ValueError:
    return ValueError(f"{what}[{place}]: found {found!r}, expected a whole number from 0 to {most}")


def first_wrong(values: Any, size: int) -> Any:
    """The place of the first number of an array of numpy that has no such size, is negative or not whole; None where there is none."""
    kind, most = values.dtype.kind, 2 ** (8 * size) - 1
    if kind == "f":
        wrong = ~((values >= 0) & (values < float(most + 1)) & (values == numpy.floor(values)))
    elif kind == "b" or (kind == "u" and values.dtype.itemsize <= size):
        return None
    else:
        wrong = values < 0
        if values.dtype.itemsize > size:
            wrong |= values > most
    return int(wrong.argmax()) if wrong.any() else None


def of_numpy(values: Any, size: int, what: str) -> Any:
    """An array of numpy with numbers of this size: the same memory where it has such numbers, one behind the other."""
    if values.ndim != 1:
        raise ValueError(f"{what} has the shape {values.shape}: expected one number behind the other")
    place = first_wrong(values, size)
    if place is not None:
        raise refused(what, place, values[place].item(), 2 ** (8 * size) - 1)
    if values.dtype.kind == "i" and values.dtype.itemsize == size and values.dtype.isnative:
        values = values.view(f"u{size}")  # no number is negative: the bytes are the same
    return numpy.ascontiguousarray(values, dtype=f"u{size}")


def whole(value: Any) -> int:
    """A number that is whole, a float too."""
    return int(value) if isinstance(value, float) and value.is_integer() else operator.index(value)


def of_list(values: Any, size: int, what: str) -> "array[int]":
    """Numbers of this size, one after the other."""
    found, most = array(CODES[size]), 2 ** (8 * size) - 1
    for place, value in enumerate(values):
        try:
            found.append(whole(value))
        except (TypeError, OverflowError):
            raise refused(what, place, value, most) from None
    return found


def is_lent(values: Any, size: int) -> bool:
    """Whether values are an `array` of such numbers."""
    return isinstance(values, array) and values.typecode in "ILQ" and values.itemsize == size


def numbers(values: Any, size: int, what: str) -> Numbers:
    """Numbers of so many bytes each. `what` is how a fault calls them."""
    if is_lent(values, size):
        return held_numbers(values)
    if numpy is not None and (hasattr(values, "__array_interface__") or isinstance(values, array)):
        given = numpy.asarray(values)
        if given.dtype.kind in "biuf":
            return held_numbers(of_numpy(given, size, what))
    if isinstance(values, (str, bytes, Mapping)) or not isinstance(values, Iterable):
        raise TypeError(f"{what} is {values!r}: a list or an array of whole numbers is wanted")
    return held_numbers(of_list(values, size, what))


def text_of_fault(number: int, place: int, offsets: Numbers, neighbours: Numbers, weights: Numbers) -> str:
    """Where lists are wrong, by which fault, and what was expected: for the answer and the place of `unison_large_check`."""
    part, name = faults.FAULTS[number]
    if name == "NodeCount":
        where, why = "indptr", f"found {offsets.count} entries, expected one more than there are nodes, so from 2 to 4294967296"
    elif name == "WeightCount":
        where, why = "weights", f"found {weights.count}, expected one for each of the {neighbours.count} indices, or none"
    elif name == "Neighbour":
        nodes = offsets.count - 1
        where, why = f"indices[{place}]", f"found {neighbours.held[place]}, expected a node: there are {nodes}, numbered from 0"
    elif name == "TooManyNeighbours":
        where, why = f"indptr[{place + 1}]", f"node {place} has more than 4294967295 neighbours"
    else:
        where, why = offset_fault(place, offsets, neighbours.count)
    return f"{where}: {part} {name}: {why}"


def offset_fault(place: int, offsets: Numbers, ends: int) -> Tuple[str, str]:
    """The offset at fault and what is wrong: the last is not the number of neighbours, the first is not 0, or the next is lower."""
    found = int(offsets.held[place])
    if place + 1 == offsets.count:
        return f"indptr[{place}]", f"found {found}, expected {ends}, the number of indices, since it is the last"
    if place == 0 and found != 0:
        return "indptr[0]", f"found {found}, expected 0"
    return f"indptr[{place + 1}]", f"found {int(offsets.held[place + 1])}, expected {found} or more, which stands before it"


def rows_of_edges(nodes: int, ends: Tuple[Any, Any], weights: Any, directed: bool) -> Tuple[Any, Any, Any]:
    """Offsets, neighbours and weights of the edges from one end to the other, and back where they have no direction: the neighbours of a
    node by rising number, those of one number in the order of their edges. An edge of a node with itself stands once."""
    if numpy is None:
        return rows_of_lists(nodes, ends, weights, directed)
    one, other = ends
    place = numpy.arange(one.size)
    if not directed:
        back = one != other
        one, other, place = (numpy.concatenate(pair) for pair in ((one, other[back]), (other, one[back]), (place, place[back])))
    order = numpy.lexsort((place, other, one))
    offsets = numpy.zeros(nodes + 1, dtype=numpy.uint64)
    numpy.cumsum(numpy.bincount(one, minlength=nodes), out=offsets[1:], dtype=numpy.uint64)
    return offsets, other[order], None if weights is None else weights[place[order]]


def rows_of_lists(nodes: int, ends: Tuple[Any, Any], weights: Any, directed: bool) -> Tuple[Any, Any, Any]:
    """The same, without numpy."""
    rows: List[List[Tuple[int, int]]] = [[] for _ in range(nodes)]
    for place, (one, other) in enumerate(zip(*ends)):
        rows[one].append((other, place))
        if not directed and one != other:
            rows[other].append((one, place))
    offsets, neighbours = array("Q", [0]), array("I")
    order: List[int] = []
    for row in rows:
        row.sort()
        neighbours.extend(node for node, _ in row)
        order.extend(place for _, place in row)
        offsets.append(len(neighbours))
    return offsets, neighbours, None if weights is None else array("I", (weights[place] for place in order))


def links_in_rows(offsets: Any, neighbours: Any, weights: Any) -> Optional[List[Tuple[int, int, int]]]:
    """The links of rows, node by node, each at the lower one of its ends; None where one leads one way, or has two weights."""
    ends = [node for node in range(len(offsets) - 1) for _ in range(int(offsets[node]), int(offsets[node + 1]))]
    ways = list(zip(ends, map(int, neighbours), repeat(1) if weights is None else map(int, weights)))
    if Counter(ways) != Counter((other, one, weight) for one, other, weight in ways):
        return None
    return [way for way in ways if way[0] <= way[1]]


def row_of(row: Any, what: str) -> Tuple[Any, ...]:
    """The values of a node."""
    if isinstance(row, (str, bytes)) or not isinstance(row, Iterable):
        raise TypeError(f"{what} are {row!r}: expected a list with a value for each field")
    return tuple(row)


def values_of(values: Any, fields: Sequence[str]) -> Tuple["array[int]", int]:
    """The words of values by node and field, and how many nodes there are."""
    what = f"the values by node and field ({', '.join(fields)})"
    if numpy is not None and hasattr(values, "__array_interface__"):
        given = numpy.asarray(values)
        if given.ndim != 2 or given.shape[1] != len(fields):
            raise ValueError(f"{what} have the shape {given.shape}: expected (nodes, {len(fields)})")
        words = array("I")
        words.frombytes(of_numpy(given.reshape(-1), WORD, what).tobytes())
        return words, given.shape[0]
    if isinstance(values, (str, bytes)) or not isinstance(values, Iterable):
        raise TypeError(f"{what} are {values!r}: expected a list with a list for each node, or an array")
    rows = [row_of(row, f"{what}: those of node {node}") for node, row in enumerate(values)]
    for node, row in enumerate(rows):
        if len(row) != len(fields):
            raise ValueError(f"{what}: node {node} has {len(row)}, expected {len(fields)}")
    return of_list((value for row in rows for value in row), WORD, what), len(rows)
