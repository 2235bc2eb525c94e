"""Graphs of NetworkX, to and fro. NetworkX is not needed for the way here, and is loaded for the way back."""

from __future__ import annotations

from fractions import Fraction
from typing import Any, Callable, Dict, FrozenSet, List, Mapping, Optional, Tuple, Type

from . import _checks
from .network import InitialValues, Network
from .results import Table

KEPT: Dict[str, Callable[[int, int], int]] = {"min": min, "max": max, "first": lambda first, _: first}
OLD_WORDS = {"least": "min", "most": "max", "first": "first"}  # of `merge_doubles`, an old name of `parallel`


def weight_of(data: Mapping[str, Any], weight: Optional[str], ends: str, scale: Any) -> int:
    """The weight of an edge, which is 1 where it has none: a whole number, or with `scale` the one that is nearest, half up."""
    value = data.get(weight, 1) if weight is not None else 1
    try:
        number = Fraction(value) * Fraction(1 if scale is None else scale)
    except (TypeError, ValueError, OverflowError):
        raise ValueError(f"the weight of the edge {ends} is no number: {value!r}") from None
    if scale is not None:
        return int((number + Fraction(1, 2)) // 1)
    if number.denominator != 1:
        raise ValueError(f"the weight of the edge {ends} is no whole number: {value!r}; with `scale` weights are multiplied and rounded")
    return int(number)


def parallel_of(parallel: Optional[str], merge_doubles: Optional[str]) -> Optional[str]:
    """What is asked for of parallel edges, by either name."""
    if parallel is not None:
        _checks.one_of("Network.from_networkx", "parallel", parallel, tuple(KEPT))
    if merge_doubles is None:
        return parallel
    if parallel is not None or merge_doubles not in OLD_WORDS:
        raise ValueError(f"merge_doubles, an old name of parallel, is 'least', 'most' or 'first' where there is no parallel, and not {merge_doubles!r}")
    return OLD_WORDS[merge_doubles]


def merged(edges: List[Tuple[Any, Any, int]], parallel: Optional[str]) -> List[Tuple[Any, Any, int]]:
    """The edges, where of parallel ones the first stays, with the weight that is asked for."""
    kept: Dict[FrozenSet[Any], Tuple[Any, Any, int]] = {}
    for one, other, weight in edges:
        ends = frozenset((one, other))
        if ends not in kept:
            kept[ends] = (one, other, weight)
        elif parallel is None:
            raise ValueError(
                f"two edges join {one!r} and {other!r}, and a network has one link between two nodes: "
                "parallel='min', 'max' or 'first' keeps one of them"
            )
        else:
            kept[ends] = (*kept[ends][:2], KEPT[parallel](kept[ends][2], weight))
    return list(kept.values())


def from_networkx(
    graph: Any,
    weight: Optional[str] = "weight",
    *,
    set: Optional[Mapping[str, InitialValues]] = None,
    phase: int = 0,
    scale: Any = None,
    undirected: bool = False,
    drop_loops: bool = False,
    parallel: Optional[str] = None,
    merge_doubles: Optional[str] = None,
    kind: Type[Network] = Network,
) -> Network:
    """The network of a graph of NetworkX, of any size. Nodes are numbered in the graph's order, and called as in the graph.

    - `weight`: the attribute of edges that is the weight of the link, 1 where an edge has none; None: all weights are 1. Weights
      are whole numbers from 0 to 4294967295.
    - `set`: initial values by the nodes' names, as in `Network`; `networkx.get_node_attributes(graph, "s")` gives such a dict.
    - `scale`: weights are multiplied by this number and rounded to the nearest whole number, half up; floats count as what they
      are in binary: `Fraction("0.1")` and `Decimal("0.1")` are exact.
    - `undirected`: a directed graph is taken, its edges as links; else it is refused.
    - `drop_loops`: self-loops are left out; else they are refused.
    - `parallel`: of parallel edges (in a multigraph, or both ways in a directed graph) the first stays, with the least of their
      weights (`min`), the greatest (`max`), or its own (`first`); else they are refused.

    Raises ValueError for what is refused here, NetworkError for what the library refuses.

        import networkx, unison
        network = unison.Network.from_networkx(networkx.karate_club_graph(), weight=None)
    """
    _checks.graph("Network.from_networkx", graph)
    flags = {"undirected": undirected, "drop_loops": drop_loops}
    undirected, drop_loops = (_checks.flag("Network.from_networkx", name, value) for name, value in flags.items())
    if weight is not None and not isinstance(weight, str):
        _checks.refuse("Network.from_networkx", "weight", weight, "the name of an attribute, or None, is wanted")
    if graph.is_directed() and not undirected:
        raise ValueError("the graph is directed, and links have no direction: undirected=True takes its edges as links")
    parallel = parallel_of(parallel, merge_doubles)
    edges = []
    for one, other, data in graph.edges(data=True):
        if one == other and not drop_loops:
            raise ValueError(f"an edge joins {one!r} with itself, a self-loop, and no link does: drop_loops=True leaves it out")
        if one != other:
            edges.append((one, other, weight_of(data, weight, f"({one!r}, {other!r})", scale)))
    return kind(list(graph), merged(edges, parallel), set=set, phase=phase)


def to_networkx(network: Network, values: Optional[Table] = None) -> Any:
    """The network as a graph of NetworkX: nodes called by their names, in their order, edges with the attribute `weight`.

    With `values`, a result of `lockstep` or `replay` on the network, or the states of one round of `watch`, each node has the value
    of each field as an attribute.

        graph = network.to_networkx(unison.lockstep(program, network, 5))
        graph.nodes["ann"]["dist"]
    """
    try:
        import networkx
    except ImportError:
        raise ImportError("to_networkx needs NetworkX: install it by `pip install networkx` (Debian: `apt install python3-networkx`)") from None
    names = network.names
    graph = networkx.Graph()
    graph.add_nodes_from(names)
    graph.add_weighted_edges_from((names[one], names[other], weight) for one, other, weight in network.links)
    if values is not None:
        if not isinstance(values, Table):
            _checks.refuse("to_networkx", "values", values, "the States of a round, or what replay answers, is wanted")
        if values.nodes != network.nodes:
            raise ValueError(f"the values are of {values.nodes} nodes, and the network has {network.nodes}")
        for field in values.fields:
            networkx.set_node_attributes(graph, dict(zip(names, values.by_name(field).values())), field)
    return graph
