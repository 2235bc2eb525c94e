"""Networks."""

from __future__ import annotations

import operator
import os
from array import array
from collections import Counter
from pathlib import Path
from typing import TYPE_CHECKING, Any, Collection, Dict, Hashable, Iterable, List, Mapping, Optional, Sequence, Tuple, Type, TypeVar, Union

from . import _calls, _checks, faults
from ._document import Document, Link, Sets, read, write
from .makers import MOST_LINKS, MOST_NEIGHBOURS, MOST_NODES, Makers

if TYPE_CHECKING:
    from .large import LargeNetwork

Name = Hashable
#: Initial values of a field: one for all nodes, one for each node by rising number, or some by the names of their nodes.
InitialValues = Union[int, Sequence[int], Mapping[Any, int]]
Openings = InitialValues  # an old name
Kind = TypeVar("Kind", bound="Network")
BEYOND = ("NodeCount", "TooManyLinks", "TooManyNeighbours")  # faults of a text that says more than a network file has


def is_number(value: Any) -> bool:
    """Whether a value is one whole number, and no array or list."""
    return hasattr(value, "__index__") and not hasattr(value, "__len__")


def plain(values: Any) -> Any:
    """An array of numpy as lists, which are read faster; all else as it is."""
    return values.tolist() if hasattr(values, "tolist") else values


class Network(Makers):
    """Nodes, numbered from 0, and undirected links between them, with weights and initial values, of any size. Shapes and random networks are
    made by `Network.ring(n)`, `grid`, `torus`, `hex`, `small_world` and others (`unison.makers.Makers`); `Network.from_arrays`, `from_edges`,
    `from_scipy` and `from_networkx` take what other packages have, also links that lead one way, join a node with itself, or stand several
    times.

    - `nodes`: how many there are; or their names in order, any values that can be keys of a dict, each once. With names, links and initial
      values name their nodes by them.
    - `links`: pairs of nodes, or triples of two nodes and a weight; none of a node with itself, none twice. A weight is a whole number from
      0 to 4294967295, and 1 where none is given.
    - `weights`: one for all links, or one for each link in their order; then links are pairs.
    - `set`: for each field its initial values: one for all nodes, one for each node in order, or a dict from nodes to values.
      Nodes and fields that are not named open as the program says. A network without `set` serves all programs.
    - `phase`: the initial phase of the nodes' registers, 0, 1 or 2; no result depends on it.

    A network file has 65,536 nodes, 262,144 links and 4,096 links of one node at most. A network that has more is kept as arrays, and so is
    what `from_arrays`, `from_edges` and `from_scipy` make. `lockstep`, `watch`, `count`, `sweep`, `settle`, `cuts` and `image` take it as any
    other; what needs a network file (`replay`, `page`, `verify`, `explain`, `naive`, `why`, `text`) takes it where a network file can say it,
    and else raises NetworkError. Its `phase` is 0.

    Raises TypeError, ValueError or KeyError for an argument that cannot be, `NetworkError` or `PlanError` where it is refused.

    >>> import unison
    >>> network = unison.Network(["ann", "bob", "cid"], [("ann", "bob", 3), ("bob", "cid")], set={"dist": {"ann": 0}})
    >>> network.nodes, network.links, network.number("cid"), network.slot("bob", "cid")
    (3, ((0, 1, 3), (1, 2, 1)), 2, 1)
    >>> print(network.text, end="")
    links = [
        [0, 1, 3],
        [1, 2],
    ]
    nodes = 3
    phase = 0
    <BLANKLINE>
    [set]
    dist = [[0, 0]]
    """

    _names: Optional[Tuple[Name, ...]]
    _numbers: Optional[Dict[Name, int]]
    _text: str
    _count: Optional[int]
    _document: Optional[Document]
    _rows: Optional[List[Dict[int, int]]]
    _lists: Optional[LargeNetwork] = None  # the same as lists in memory, where a call has needed them
    _links_held: List[LargeNetwork]  # its links alone, shared by all networks that differ in `set`
    _is_read = False  # it is what the library and this package read in a text

    def __new__(
        cls,
        nodes: Union[int, Iterable[Name]],
        links: Iterable[Sequence[Any]],
        weights: Union[None, int, Iterable[int]] = None,
        *,
        set: Optional[Mapping[str, InitialValues]] = None,
        phase: int = 0,
    ) -> Network:
        network = blank(cls)
        called = _checks.nodes("Network", nodes)
        network._call_nodes(None if isinstance(called, int) else called)
        network._count = count = called if isinstance(called, int) else len(called)
        wanted = "a list of pairs of nodes, or of triples of two nodes and a weight,"
        listed = [network._link(place, link) for place, link in enumerate(_checks.items("Network", "links", links, wanted))]
        if weights is not None:
            listed = weighted(listed, weights)
        sets = _checks.initial_values("Network", set)
        document = Document(count, listed, _checks.whole("Network", "phase", phase, 0, 2, _checks.BAD_PHASE), {})
        if is_beyond(count, listed):
            return large_of(network._names, document, sets)
        network._adopt(document._replace(sets=network._sets("Network", sets)))
        return network

    def __reduce__(self) -> Tuple[Any, ...]:
        """How a network goes to other processes."""
        return blank, (type(self),), self.__dict__

    def _call_nodes(self, names: Optional[Tuple[Name, ...]]) -> None:
        """Takes the nodes' names, where they have any."""
        self._links_held = []
        self._names = names
        self._numbers = None if names is None else {name: number for number, name in enumerate(names)}

    def _adopt(self, document: Document) -> None:
        """Takes what the network is, where the library accepts it."""
        self._document = document
        self._text = write(document)
        self._rows = None
        accept(self._text, document.sets)

    def _link(self, place: int, given: Any) -> Link:
        _checks.link("Network", place, given)
        weight = _checks.cell("Network", "links", given[2], place, 2, fault=_checks.BAD_WEIGHT) if len(given) == 3 else 1
        one, other = (self._end("Network", "links", given[end], place, end, fault=_checks.BAD_LINK) for end in (0, 1))
        return one, other, weight

    def _end(self, call: str, name: str, node: Any, *places: Any, fault: int) -> int:
        """The number of a node, called by its name, or by the number itself where nodes have no names."""
        if self._numbers is None:
            if type(node) is int and 0 <= node < self.nodes:  # the usual case, for which no words are made
                return node
            return _checks.whole(call, _checks.at(name, *places), node, 0, self.nodes - 1, fault)
        number = _checks.number_called(self._numbers, node)
        if number is None:
            where = _checks.at(name, *places)
            raise faults.Missing(f"{call}: {where} is {_checks.shown(node)}: the name of a node is wanted, and none is called so")
        return number

    def _sets(self, call: str, sets: Mapping[str, InitialValues]) -> Sets:
        return {field: self._pairs(call, field, given) for field, given in sets.items()}

    def _pairs(self, call: str, field: str, given: Any) -> List[Tuple[int, int]]:
        """The entries of a field, by rising number."""
        if isinstance(given, Mapping):
            pairs = given.items()
            ends = [self._end(call, f"a key of set[{field!r}]", node, fault=_checks.BAD_NODE) for node, _ in pairs]
            return sorted(zip(ends, (_checks.cell(call, "set", value, field, node) for node, value in pairs)))
        if _checks.is_whole(given) or isinstance(given, bool):
            value = _checks.cell(call, "set", given, field)
            return [(node, value) for node in range(self.nodes)]
        values = [_checks.cell(call, "set", value, field, place) for place, value in enumerate(plain(given))]
        if len(values) != self.nodes:
            raise ValueError(f"{call}: set[{field!r}] has {len(values)} values: one for each of the {self.nodes} nodes is wanted")
        return list(enumerate(values))

    @classmethod
    def from_text(cls, text: Union[str, bytes], names: Optional[Iterable[Name]] = None) -> Network:
        """The network of a network file's text (docs/formats.md), whose nodes may be given names, node 0 first. A text that says more nodes or links
        than a network file has is taken, too, and kept as arrays.

        >>> import unison
        >>> unison.Network.from_text("nodes = 2\\nlinks = [[0, 1, 7]]\\n").links
        ((0, 1, 7),)
        """
        network = blank(cls)
        network._text = _checks.text("Network.from_text", "text", text).decode("utf-8", "surrogateescape")
        network._document = None
        network._is_read = True
        network._rows = None
        network._call_nodes(_checks.names("Network.from_text", names))
        try:
            network._count = accept(network._text, {})
        except faults.PlanError:  # it is a network, with initial values for fields
            network._count = network._read().nodes
            accept(network._text, network._read().sets)
        except faults.NetworkError as error:
            if error.name not in BEYOND or not 0 < network._read().nodes <= _checks.GREATEST:
                raise
            network = as_arrays(network)
        if network._names is not None and len(network._names) != network.nodes:
            raise ValueError(f"{len(network._names)} names are given, and there are {network.nodes} nodes")
        return network

    @classmethod
    def from_file(cls, path: Union[str, os.PathLike[str]], names: Union[None, str, os.PathLike[str]] = None) -> Network:
        """The network in a file; `names` is a file with a name for each node, a line each, as `unison import` writes it. The file is a network
        file, or a packed one of any size, as commands write it with `--packed`; which it is, its first bytes tell.

        `unison.Network.from_file("examples/karate.toml", names="examples/karate.names")`
        """
        from . import _packed

        content = Path(_checks.path("Network.from_file", "path", path)).read_bytes()
        called = None if names is None else lines_of(Path(_checks.path("Network.from_file", "names", names)))
        if content.startswith(_packed.MAGIC):
            return _packed.read(content, names=called)
        return cls.from_text(content, called)

    def save(self, path: Union[str, os.PathLike[str]]) -> Path:
        """Writes the network file, `text`, and answers its path. It has numbers, and no names. A network that is kept as arrays is written as a
        packed network file; `from_file` reads both."""
        file = Path(_checks.path("Network.save", "path", path))
        file.write_bytes(self._saved)
        return file

    @classmethod
    def from_networkx(cls, graph: Any, weight: Optional[str] = "weight", **how: Any) -> Network:
        """The network of a graph of NetworkX, of any size, whose nodes keep their names: see `unison.graphs.from_networkx`."""
        from .graphs import from_networkx

        return from_networkx(graph, weight, kind=cls, **how)

    @classmethod
    def from_graph_file(cls, path: Union[str, os.PathLike[str]], weight: Optional[str] = "weight", **how: Any) -> Network:
        """The network of a GraphML, GEXF or Pajek file, by NetworkX: see `unison.graph_files.from_graph_file`."""
        from .graph_files import from_graph_file

        return from_graph_file(path, weight, kind=cls, **how)

    @staticmethod
    def from_arrays(indptr: Any, indices: Any, weights: Any = None, **how: Any) -> Network:
        """The network of any size whose node u has the neighbours `indices[indptr[u]:indptr[u + 1]]`, as in a sparse matrix of SciPy by rows, with
        a weight for each of them, 1 where none are given. Links may lead one way, join a node with itself, and stand several times.

        - `set`: initial values, as `Network` takes them; `names`: what the nodes are called, node 0 first.

        Arrays of numpy, or of `array`, are lent and not copied where `indptr` has numbers of 64 bits, the two others of 32 bits, signed or
        not; they may not be changed while a call runs. All others are copied. The lists are looked at when the network is made, and again in
        each call.

        Raises `NetworkError` where the lists are no network, ValueError where a number does not fit; both tell the place.

        >>> import unison
        >>> network = unison.Network.from_arrays([0, 1, 3, 4], [1, 0, 2, 1], [5, 5, 7, 7])
        >>> network, network.neighbours(1), network.links
        (<Network of 3 nodes and 4 neighbours>, [0, 2], ((0, 1, 5), (1, 2, 7)))
        """
        from .large import LargeNetwork

        return LargeNetwork(indptr, indices, weights, **how)

    @staticmethod
    def from_edges(
        a: Any, b: Any, weights: Any = None, *, nodes: Optional[int] = None, directed: bool = False, **how: Any
    ) -> Network:
        """The network of any size of the edges from `a[i]` to `b[i]`, with the weight `weights[i]`, 1 where none are given.

        The neighbours of a node stand by rising number. Where edges are not `directed`, each makes both ends neighbours of each other. An
        edge that joins a node with itself makes it its own neighbour, once; edges that join the same two nodes all stay. There are
        as many `nodes` as are told, or one more than the greatest number.

        >>> import unison
        >>> network = unison.Network.from_edges([0, 1], [1, 2])
        >>> network.neighbours(1), unison.Network.from_edges([0, 1], [1, 2], directed=True).neighbours(1)
        ([0, 2], [2])
        """
        from .large import from_edges

        count = None if nodes is None else _checks.whole("Network.from_edges", "nodes", nodes, 1)
        return from_edges(count, a, b, weights, _checks.flag("Network.from_edges", "directed", directed), **how)

    @staticmethod
    def from_scipy(matrix: Any, *, weights: bool = True, **how: Any) -> Network:
        """The network of any size of a sparse matrix of SciPy: the entries of row u are the links of node u to its neighbours, and their
        values the weights, which are whole; `weights=False` makes each weight 1. An entry that is there counts, whatever its value.

        `unison.Network.from_scipy(scipy.sparse.csr_matrix([[0, 2], [2, 0]]))`
        """
        from .large import from_scipy

        if not hasattr(matrix, "tocsr"):
            _checks.refuse("Network.from_scipy", "matrix", matrix, "a sparse matrix of SciPy is wanted")
        return from_scipy(matrix, _checks.flag("Network.from_scipy", "weights", weights), **how)

    def to_networkx(self, values: Any = None) -> Any:
        """The network as a graph of NetworkX: see `unison.graphs.to_networkx`."""
        from .graphs import to_networkx

        return to_networkx(self, values)

    def save_graph(self, path: Union[str, os.PathLike[str]], values: Any = None, *, format: Optional[str] = None) -> Path:
        """Writes a GraphML, GEXF or Pajek file by NetworkX: see `unison.graph_files.save_graph`."""
        from .graph_files import save_graph

        return save_graph(self, path, values, format=format)

    def with_set(self, set: Mapping[str, InitialValues]) -> Network:
        """The same nodes and links with these initial values, and no others.

        >>> import unison
        >>> network = unison.Network(2, [(0, 1)], set={"s": 1})
        >>> network.with_set({"t": {1: 5}}).set
        {'t': {1: 5}}
        """
        return self._with_sets(self._sets("Network.with_set", _checks.initial_values("Network.with_set", set)))

    def with_more(self, set: Mapping[str, InitialValues]) -> Network:
        """The same nodes and links with these initial values, and for all other fields those that it has."""
        sets = self._sets("Network.with_more", _checks.initial_values("Network.with_more", set))
        return self._with_sets({**self._read().sets, **sets})

    def _with_sets(self, sets: Sets) -> Network:
        """The same nodes and links with these initial values by the nodes' numbers, and no others."""
        other = blank(type(self))
        other._names, other._numbers, other._count = self._names, self._numbers, self.nodes
        other._links_held = self._links_held
        other._adopt(self._read()._replace(sets=sets))
        return other

    def _file(self, call: str) -> Network:
        """The network file's network that a call needs: it is one. Raises NetworkError where no network file says the network."""
        return self

    def _read(self) -> Document:
        if self._document is None:
            self._document = read(self._text.removeprefix("\ufeff"))
        return self._document

    @property
    def text(self) -> str:
        """The text of the network file. It has numbers, and no names."""
        return self._text

    @property
    def _bytes(self) -> bytes:
        """The file of the network, as programs read it."""
        return self._text.encode("utf-8", "surrogateescape")

    @property
    def _saved(self) -> bytes:
        """The file of the network, with its initial values."""
        return self._bytes

    @property
    def nodes(self) -> int:
        """How many nodes there are."""
        return self._read().nodes if self._count is None else self._count

    @property
    def links(self) -> Tuple[Link, ...]:
        """The links in the order in which they were given: the numbers of both ends, and the weight. Those of arrays stand node by node, each
        at the lower one of its ends; NetworkError is raised where one leads one way, or has two weights."""
        return tuple(self._read().links)

    @property
    def ends(self) -> int:
        """How many neighbours the nodes have together: a link that leads both ways counts twice."""
        return 2 * len(self._read().links)

    @property
    def indptr(self) -> Any:
        """Where each node's part of `indices` begins, and last where they end."""
        return self._arrays().indptr

    @property
    def indices(self) -> Any:
        """The numbers of the neighbours of all nodes, node by node, in the order of the slots."""
        return self._arrays().indices

    @property
    def weights(self) -> Any:
        """The weights of the links to them; None where each is 1."""
        return self._arrays().weights

    def _arrays(self) -> LargeNetwork:
        """The links as arrays."""
        from ._lists import links_of

        return links_of(self)

    @property
    def phase(self) -> int:
        """The initial phase of the nodes' registers."""
        return self._read().phase

    @property
    def set(self) -> Dict[str, Dict[int, int]]:
        """For each field that is named the initial values by the nodes' numbers."""
        return {field: dict(pairs) for field, pairs in self._read().sets.items()}

    @property
    def names(self) -> Sequence[Name]:
        """What the nodes are called, node 0 first: their numbers where they have no names."""
        return range(self.nodes) if self._names is None else self._names

    def number(self, name: Name) -> int:
        """The number of the node of this name; where nodes have no names, the number itself."""
        if self._numbers is not None:
            number = _checks.number_called(self._numbers, name)
        else:
            number = operator.index(name) if is_number(name) else None  # type: ignore[arg-type]
        if number is None or not 0 <= number < self.nodes:
            raise faults.Missing(f"there is no node {name!r}")
        return number

    def _neighbours(self, name: Name) -> Dict[int, int]:
        """The neighbours of a node, by slots, each with the weight of the link, of the first where there are several."""
        if self._rows is None:
            rows: List[Dict[int, int]] = [{} for _ in range(self.nodes)]
            for one, other, weight in self._read().links:
                rows[one][other] = weight
                rows[other][one] = weight
            self._rows = [dict(sorted(row.items())) for row in rows]
        return self._rows[self.number(name)]

    def _row(self, name: Name) -> Collection[int]:
        """The numbers of a node's neighbours, by slots."""
        return self._neighbours(name)

    def neighbours(self, name: Name) -> List[Name]:
        """The names of a node's neighbours: the one at place j is at slot j. They stand by rising number, those of arrays in their order."""
        names = self.names
        return [names[number] for number in self._row(name)]

    def degree(self, name: Name) -> int:
        """How many neighbours a node has."""
        return len(self._row(name))

    def slot(self, name: Name, neighbour: Name) -> int:
        """The slot of a node at which a neighbour is, counted from 0: its place among the neighbours, the first where it has several."""
        number = self.number(neighbour)
        row = self._row(name)
        if number not in row:
            raise faults.Missing(f"node {name!r} has no neighbour {neighbour!r}")
        return list(row).index(number)

    def weight(self, name: Name, neighbour: Name) -> int:
        """The weight of the link from a node to a neighbour, of the first where there are several."""
        row = self._neighbours(name)
        number = self.number(neighbour)
        if number not in row:
            raise faults.Missing(f"node {name!r} has no neighbour {neighbour!r}")
        return row[number]

    def __repr__(self) -> str:
        return f"<Network of {self.nodes} nodes and {len(self._read().links)} links>"


def lines_of(path: Path) -> List[str]:
    """The lines of a file of names."""
    lines = path.read_text(encoding="utf-8").split("\n")
    return lines[:-1] if lines[-1] == "" else lines


def blank(kind: Type[Kind]) -> Kind:
    """A network of which nothing is told yet."""
    return object.__new__(kind)


def weighted(links: List[Link], weights: Any) -> List[Link]:
    """The links with these weights: one for all, or one for each."""
    if _checks.is_whole(weights):
        numbers = [_checks.cell("Network", "weights", weights, fault=_checks.BAD_WEIGHT)] * len(links)
    else:
        listed = _checks.items("Network", "weights", weights, "a whole number, or a list with one for each link,")
        numbers = [_checks.cell("Network", "weights", weight, place, fault=_checks.BAD_WEIGHT) for place, weight in enumerate(listed)]
    if len(numbers) != len(links):
        raise ValueError(f"Network: weights has {len(numbers)} entries: one for each of the {len(links)} links is wanted")
    return [(one, other, weight) for (one, other, _), weight in zip(links, numbers)]


def is_beyond(nodes: int, links: Sequence[Tuple[Any, Any, int]]) -> bool:
    """Whether so many nodes with these links are more than a network file has."""
    if nodes > MOST_NODES or len(links) > MOST_LINKS:
        return True
    degrees: Counter[Any] = Counter(end for link in links for end in link[:2]) if len(links) > MOST_NEIGHBOURS else Counter()
    return max(degrees.values(), default=0) > MOST_NEIGHBOURS


def as_arrays(network: Network) -> Network:
    """The network of a text that says more than a network file has, kept as arrays. The library has looked at the form of the text, and at nothing
    behind the fault, so that links and initial values are looked at as those of `Network(nodes, links)`."""
    document = network._read()
    for field, pairs in document.sets.items():
        if len(dict(pairs)) < len(pairs):
            raise faults.error_of(67, f"Network.from_text: set[{field!r}] has a value for a node twice (plan SetTwice)")
    sets = {field: dict(pairs) for field, pairs in document.sets.items()}
    made = type(network)(document.nodes, document.links, set=sets, phase=document.phase)
    made._call_nodes(network._names)
    return made


def large_of(names: Optional[Sequence[Name]], document: Document, sets: Mapping[str, InitialValues]) -> Network:
    """The network of any size with these links, of which none joins a node with itself, and none stands twice."""
    from .large import from_edges

    seen: Dict[Tuple[int, int], int] = {}
    for place, (one, other, _) in enumerate(document.links):
        first = seen.setdefault((min(one, other), max(one, other)), place)
        if one == other:
            raise faults.error_of(53, f"Network: links[{place}] joins node {one} with itself, and no link does (network SelfLink)")
        if first != place:
            raise faults.error_of(54, f"Network: links[{place}] joins the same nodes as links[{first}], {one} and {other} (network LinkTwice)")
    columns = [array("I", (link[part] for link in document.links)) for part in range(3)]
    return from_edges(document.nodes, columns[0], columns[1], columns[2], False, names=names, set=sets)


def accept(text: str, sets: Sets) -> Optional[int]:
    """How many nodes a network has, which the library looks at with its initial values, where a program can have fields of these
    names; else its initial values are looked at when it is used, and None is answered."""
    network = text.encode("utf-8", "surrogateescape")
    program = "".join(f"field {name} = 0;\n" for name in sets).encode("utf-8", "surrogateescape")
    try:
        return _calls.sizes(_calls.Texts(program, network))[0]
    except faults.ProgramError:
        return accept_links(network)


def accept_links(network: bytes) -> Optional[int]:
    """How many nodes a network has, or None where initial values are in the way of being told."""
    try:
        return _calls.sizes(_calls.Texts(b"", network))[0]
    except faults.PlanError:
        return None
