"""Networks of any size, which are kept as arrays."""

from __future__ import annotations

import re
from array import array
from itertools import repeat
from typing import Any, Dict, Hashable, Iterable, List, Mapping, Optional, Sequence, Tuple, Union

from . import _calls, _checks, _programs, faults
from ._arrays import LONG, WORD, Numbers, links_in_rows, numbers, rows_of_edges, text_of_fault
from ._calls import Start
from ._document import Link
from .network import InitialValues, Network, blank, is_number
from .program import Program
from .results import States, numpy

Name = Hashable
FILE = "network.net"  # how programs call a network that has no file
TAKES = re.compile(r"this command takes networks ([^;]+);")  # with which they refuse one that no network file says
ANY = "lockstep, watch, count, sweep, settle, cuts and image take any, explain and verify any size"


class LargeNetwork(Network):
    """A `Network` that is kept as arrays, of up to 4,294,967,295 nodes, whose links may lead one way, join a node with itself and stand several
    times. `Network.from_arrays`, `from_edges` and `from_scipy` make one, and so do `Network(nodes, links)`, its makers, `from_networkx` and
    `from_file` where there are more nodes or links than a network file has. This name for it is an old one: `LargeNetwork(..)` is
    `Network.from_arrays(..)`.

    >>> import unison
    >>> network = unison.Network.from_arrays([0, 1, 3, 4], [1, 0, 2, 1], set={"dist": {0: 0}})
    >>> network.nodes, network.ends, list(network.neighbours(1)), isinstance(network, unison.Network)
    (3, 4, [0, 2], True)
    >>> program = unison.Program("field dist = 4294967295; next dist = (dist min least (n.dist + 1));")
    >>> unison.lockstep(program, network, 2).by_name("dist")
    {0: 0, 1: 1, 2: 2}
    """

    _offsets: Numbers
    _neighbours_held: Numbers
    _weights_held: Numbers
    _set: Dict[str, Any]
    _phase: int
    _said: Optional[Network]  # by a network file, where a call has needed it

    def __new__(
        cls,
        indptr: Any,
        indices: Any,
        weights: Any = None,
        *,
        set: Optional[Mapping[str, InitialValues]] = None,
        names: Optional[Iterable[Name]] = None,
    ) -> LargeNetwork:
        network = blank(cls)
        network._offsets = numbers(indptr, LONG, "indptr")
        network._neighbours_held = numbers(indices, WORD, "indices")
        network._weights_held = numbers((), WORD, "weights") if weights is None else numbers(weights, WORD, "weights")
        if weights is not None and network._weights_held.count == 0 < network.ends:
            raise ValueError(f"there are no weights: expected one for each of the {network.ends} indices, or weights=None")
        called = _checks.names("Network", names)
        network._look()
        network._call_nodes(called)
        if called is not None and len(called) != network.nodes:
            raise ValueError(f"Network: names has {len(called)} names: one for each of the {network.nodes} nodes is wanted")
        network._set = network._values_of("Network", set)
        network._phase = 0
        network._said = None
        return network

    @classmethod
    def from_text(cls, text: Union[str, bytes], names: Optional[Iterable[Name]] = None) -> Network:
        """The network of a network file's text: see `Network.from_text`."""
        return Network.from_text(text, names)

    @classmethod
    def from_networkx(cls, graph: Any, weight: Optional[str] = "weight", **how: Any) -> Network:
        """The network of a graph of NetworkX: see `Network.from_networkx`."""
        return Network.from_networkx(graph, weight, **how)

    def _look(self) -> None:
        """Raises the first fault of the lists."""
        answer, place = _calls.large_check(self)
        if answer != 0:
            raise faults.error_of(answer, text_of_fault(answer, place, self._offsets, self._neighbours_held, self._weights_held))

    def _arguments(self) -> Tuple[Any, ...]:
        """The arguments of the library's calls for the three lists."""
        lists = (self._offsets, self._neighbours_held, self._weights_held)
        return tuple(part for given in lists for part in (given.address, given.count))

    def _values_of(self, call: str, sets: Optional[Mapping[str, InitialValues]]) -> Dict[str, Any]:
        """The initial values of each field."""
        return {field: self._values(field, given) for field, given in _checks.initial_values(call, sets).items()}

    def _values(self, field: str, given: Any) -> Any:
        """The initial values of a field: one, some by the nodes' numbers, or all."""
        what = f"the initial values of {field}"
        if is_number(given):
            return numbers([given], WORD, what).held[0]
        if isinstance(given, Mapping):
            values = numbers(list(given.values()), WORD, what).held
            return {self.number(node): value for node, value in zip(given, values)}
        listed = numbers(given, WORD, what)
        if listed.count != self.nodes:
            raise ValueError(f"{field} has {listed.count} initial values, and there are {self.nodes} nodes")
        return listed

    def with_set(self, set: Mapping[str, InitialValues]) -> LargeNetwork:
        """The same nodes and links with these initial values, and no others."""
        return self._with_values(self._values_of("Network.with_set", set))

    def with_more(self, set: Mapping[str, InitialValues]) -> LargeNetwork:
        """The same nodes and links with these initial values, and for all other fields those that it has."""
        return self._with_values({**self._set, **self._values_of("Network.with_more", set)})

    def _with_values(self, values: Dict[str, Any]) -> LargeNetwork:
        other = blank(type(self))
        other.__dict__.update(self.__dict__, _set=values, _said=None)
        return other

    def _settled(self, phase: int, values: Dict[str, Any]) -> LargeNetwork:
        """The same nodes and links with this phase and these initial values."""
        other = self._with_values(values)
        other._phase = phase
        return other

    def _file(self, call: str) -> Network:
        if self._said is None:
            self._said = file_of(self, call)
        return self._said

    @property
    def text(self) -> str:
        """The text of the network file that says the network. Raises NetworkError where none does."""
        return self._file("Network.text").text

    @property
    def _bytes(self) -> bytes:
        from . import _packed

        return _packed.write(self)

    @property
    def _saved(self) -> bytes:
        from . import _packed

        return _packed.write(self, _packed.settings_text(self))

    @property
    def nodes(self) -> int:
        """How many nodes there are."""
        return self._offsets.count - 1

    @property
    def links(self) -> Tuple[Link, ...]:
        """The links, node by node, each at the lower one of its ends: the numbers of both ends, and the weight. Raises NetworkError where one leads
        one way, or has two weights."""
        found = links_in_rows(self.indptr, self.indices, self.weights)
        if found is None:
            raise no_file("Network.links", self, "OneWay", "whose links lead both ways, with one weight", "indptr, indices and weights are those of any")
        return tuple(found)

    @property
    def phase(self) -> int:
        """The initial phase of the nodes' registers, 0, 1 or 2."""
        return self._phase

    @property
    def set(self) -> Dict[str, Dict[int, int]]:
        """For each field that is named the initial values by the nodes' numbers."""
        return {field: self._values_by_number(given) for field, given in self._set.items()}

    def _values_by_number(self, given: Any) -> Dict[int, int]:
        """The initial values of a field by the nodes' numbers."""
        if isinstance(given, Numbers):
            return {node: int(value) for node, value in enumerate(given.held)}
        return dict(given) if isinstance(given, dict) else dict.fromkeys(range(self.nodes), int(given))

    @property
    def ends(self) -> int:
        """How many neighbours the nodes have together: a link that leads both ways counts twice."""
        return self._neighbours_held.count

    @property
    def indptr(self) -> Any:
        """Where each node's part of the indices begins, and last where they end."""
        return self._offsets.held

    @property
    def indices(self) -> Any:
        """The neighbours of all nodes, node by node."""
        return self._neighbours_held.held

    @property
    def weights(self) -> Any:
        """The weights of the links to them; None where each is 1."""
        return self._weights_held.held if self._weights_held.count == self.ends else None

    def _place(self, name: Name) -> slice:
        """Where a node's neighbours stand among those of all."""
        number = self.number(name)
        return slice(int(self.indptr[number]), int(self.indptr[number + 1]))

    def _row(self, name: Name) -> List[int]:
        return [int(number) for number in self.indices[self._place(name)]]

    def _neighbours(self, name: Name) -> Dict[int, int]:
        row = self._row(name)
        weights = repeat(1) if self.weights is None else self.weights[self._place(name)]
        first: Dict[int, int] = {}
        for node, weight in zip(row, weights):
            first.setdefault(node, int(weight))
        return first

    def _column(self, field: str, first: int) -> Any:
        """The initial value of a field at each node, where that of nodes that have none is `first`."""
        given = self._set[field]
        if isinstance(given, Numbers):
            return given.held
        values = array("I", [first]) * self.nodes
        for node, value in given.items():
            values[node] = value
        return values

    def _check_fields(self, program: Program) -> None:
        """Looks whether each field that has initial values is one of the program."""
        unknown = [field for field in self._set if field not in program.fields]
        if unknown:
            raise faults.PlanError(64, f"set: plan UnknownField: found {unknown[0]!r}, and the fields are {', '.join(program.fields) or 'none'}")

    def _initial_words(self, program: Program) -> "array[int]":
        """The words of the initial states."""
        self._check_fields(program)
        width = len(program.fields)
        words = _calls.room_for(self.nodes * width)
        for place, (field, first) in enumerate(program.initial_values.items()):
            given = self._set.get(field, first)
            put_column(words, place, width, self.nodes, first if isinstance(given, dict) else given)
            for node, value in given.items() if isinstance(given, dict) else ():
                words[node * width + place] = value
        return words

    def __repr__(self) -> str:
        return f"<Network of {self.nodes} nodes and {self.ends} neighbours>"


def file_of(network: LargeNetwork, call: str) -> Network:
    """The network file's network with the same links, names and initial values, as the proved program writes it. Raises NetworkError where a
    network file cannot say it."""
    try:
        text = _programs.run(["init", FILE], files={FILE: network._saved})
    except faults.NetworkError as error:
        found = TAKES.search(error.diagnosis)
        if found is None:
            raise
        raise no_file(call, network, error.name, found[1], ANY) from None
    return Network.from_text(text, network._names)


def no_file(call: str, network: LargeNetwork, name: str, wanted: str, others: str) -> faults.NetworkError:
    """The fault of this name of a network that a call does not take: which ones it takes, and what takes others."""
    number = faults.NUMBERS.get(("network", name), faults.NO_NUMBER)
    return faults.NetworkError(number, f"{call}: network is {network!r}: expected a network {wanted}; {others} (network {name})", ("network", name))


def put_column(words: "array[int]", place: int, width: int, nodes: int, values: Any) -> None:
    """Puts the values of a field, or one for all nodes, into the words."""
    held = values.held if isinstance(values, Numbers) else values
    if numpy is not None:
        numpy.frombuffer(words, dtype=numpy.uint32)[place : nodes * width : width] = held
    else:
        words[place : nodes * width : width] = held if isinstance(values, Numbers) else array("I", [held]) * nodes


def from_edges(nodes: Optional[int], one: Any, other: Any, weights: Any, directed: bool, **how: Any) -> LargeNetwork:
    """The network of edges: see `Network.from_edges`."""
    ends = [numbers(given, WORD, what) for given, what in ((one, "a"), (other, "b"))]
    if ends[0].count != ends[1].count:
        raise ValueError(f"a has {ends[0].count} entries and b has {ends[1].count}: expected one of each for an edge")
    listed = None if weights is None else numbers(weights, WORD, "weights")
    if listed is not None and listed.count != ends[0].count:
        raise ValueError(f"there are {listed.count} weights: expected one for each of the {ends[0].count} edges")
    count = nodes_of(nodes, ends)
    held = (ends[0].held, ends[1].held) if numpy is None else (numpy.asarray(ends[0].held), numpy.asarray(ends[1].held))
    loose = None if listed is None else listed.held if numpy is None else numpy.asarray(listed.held)
    return LargeNetwork(*rows_of_edges(count, held, loose, directed), **how)


def nodes_of(nodes: Optional[int], ends: Sequence[Numbers]) -> int:
    """How many nodes there are: as many as are told, or one more than the greatest end."""
    tops = [int(max(given.held) if numpy is None else numpy.max(given.held)) for given in ends if given.count]
    if nodes is None:
        return max(tops, default=-1) + 1
    for given, what in zip(ends, "ab"):
        for place, end in enumerate(given.held if max(tops, default=0) >= nodes else ()):
            if end >= nodes:
                raise ValueError(f"{what}[{place}]: found {end}, expected a node: there are {nodes}, numbered from 0")
    return nodes


def from_scipy(matrix: Any, weights: bool, **how: Any) -> LargeNetwork:
    """The network of a sparse matrix of SciPy: see `Network.from_scipy`."""
    if len(matrix.shape) != 2 or matrix.shape[0] != matrix.shape[1]:
        raise ValueError(f"the matrix has the shape {matrix.shape}: expected as many columns as rows")
    rows = matrix.tocsr()  # the matrix itself, where it is one by rows
    return LargeNetwork(rows.indptr, rows.indices, rows.data if weights else None, **how)


def start_of(program: Program, network: LargeNetwork, from_: Optional[States]) -> Start:
    """The initial states, or those to go on from."""
    if from_ is None:
        return Start(network, 0, network._initial_words(program))
    if from_.fields != program.fields or from_.nodes != network.nodes:
        raise ValueError(
            f"the states to go on from are of {from_.nodes} nodes with the fields {', '.join(from_.fields)}: "
            f"expected {network.nodes} nodes with {', '.join(program.fields)}"
        )
    return Start(network, from_.round, from_._words[:] or _calls.room_for(0))


def words_after(program: Program, start: Start, round: int) -> "array[int]":
    """The words after a round."""
    _calls.large_rounds(program, start, round)
    return _calls.cut(start.words, start.size(program))


def counts_after_each(program: Program, start: Start, rounds: Sequence[int], field: str, values: Sequence[int]) -> "array[int]":
    """How many nodes have each of some values of a field after each of some rounds, and last in each round how many have none of them, one
    round behind the other, all in one pass."""
    check_rising(rounds)
    return _calls.large_counts(program, start, rounds, field, values)


def is_rising(rounds: Sequence[int]) -> bool:
    """Whether each round is above the one before it."""
    return all(before < after for before, after in zip(rounds, rounds[1:]))


def check_rising(rounds: Sequence[int]) -> None:
    """Raises RunError where a round is not above the one before it."""
    if not is_rising(rounds):
        raise faults.error_of(4)


def words_of_each(program: Program, start: Start, rounds: Sequence[int]) -> "array[int]":
    """The words after each of some rounds, one round behind the other, all in one pass."""
    check_rising(rounds)
    return _calls.large_watch(program, start, rounds)
