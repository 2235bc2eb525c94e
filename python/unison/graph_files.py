"""Files of graphs that NetworkX reads and writes: GraphML, GEXF and Pajek. NetworkX is loaded by the first call."""

from __future__ import annotations

import os
from pathlib import Path
from typing import Any, Dict, NamedTuple, Optional, Type, Union

from . import _checks
from .graphs import from_networkx, to_networkx
from .network import Network
from .results import Table

GraphPath = Union[str, "os.PathLike[str]"]


class Format(NamedTuple):
    """How NetworkX calls a format: what reads it, what writes it, and the attribute of a node that is its label."""

    title: str
    reader: str
    writer: str
    label: Optional[str]


FORMATS: Dict[str, Format] = {
    "graphml": Format("GraphML", "read_graphml", "write_graphml", "label"),
    "gexf": Format("GEXF", "read_gexf", "write_gexf", "label"),
    "pajek": Format("Pajek", "read_pajek", "write_pajek", None),
}
ENDINGS = {".graphml": "graphml", ".gexf": "gexf", ".paj": "pajek", ".net": "pajek"}


def format_of(call: str, path: GraphPath, format: Optional[str]) -> Format:
    """The format of a file: the one that is named, else that of its ending."""
    if format is not None:
        return FORMATS[_checks.one_of(call, "format", format, tuple(FORMATS))]
    ending = Path(path).suffix.lower()
    if ending not in ENDINGS:
        raise ValueError(
            f"{call}: the name {str(path)!r} does not end in {', '.join(ENDINGS)}: format='graphml', 'gexf' or 'pajek' tells what it is"
        )
    return FORMATS[ENDINGS[ending]]


def networkx_for(call: str) -> Any:
    """NetworkX, which reads and writes these files."""
    try:
        import networkx
    except ImportError:
        raise ImportError(f"{call} needs NetworkX: install it by `pip install networkx` (Debian: `apt install python3-networkx`)") from None
    return networkx


def labelled(networkx: Any, graph: Any, label: Optional[str]) -> Any:
    """The graph with its nodes called by their labels, where each has one and no two have the same; else as it is."""
    labels = dict(graph.nodes(data=label)) if label is not None else {}
    if not labels or None in labels.values() or len(set(labels.values())) < len(labels):
        return graph
    return networkx.relabel_nodes(graph, labels)


def read_graph(networkx: Any, path: GraphPath, form: Format) -> Any:
    """The graph in a file. Raises ValueError, which names the file, where it is no file of this format."""
    try:
        graph = getattr(networkx, form.reader)(path)
    except OSError:
        raise
    except Exception as error:  # each reader has errors of its own: of XML, of NetworkX, of what a line lacks
        raise ValueError(f"{os.fspath(path)}: no {form.title} file: {error}") from error
    if not graph:
        raise ValueError(f"{os.fspath(path)}: no {form.title} file: there are no nodes")
    return labelled(networkx, graph, form.label)


def from_graph_file(
    path: GraphPath, weight: Optional[str] = "weight", *, format: Optional[str] = None, kind: Type[Network] = Network, **how: Any
) -> Network:
    """The network of a GraphML, GEXF or Pajek file, as NetworkX reads it. Nodes are numbered in the order of the file, and called by their
    labels where each has one of its own (of Pajek always), else by their ids.

    - `format`: `"graphml"`, `"gexf"` or `"pajek"`; else the ending tells: `.graphml`, `.gexf`, `.paj` or `.net`.
    - All else as in `unison.graphs.from_networkx`. A file of directed edges is refused without `undirected=True`, one of parallel edges
      without `parallel`.

    Raises ImportError where there is no NetworkX, OSError where the file cannot be read, ValueError where it is no file of its format.

        network = unison.Network.from_graph_file("friends.graphml", weight=None)
    """
    call = "Network.from_graph_file"
    form = format_of(call, _checks.path(call, "path", path), format)
    return from_networkx(read_graph(networkx_for(call), path, form), weight, kind=kind, **how)


def in_words(networkx: Any, graph: Any) -> Any:
    """The graph as Pajek writes it: names and attributes of nodes are words there."""
    words = networkx.Graph()
    words.add_nodes_from((str(node), {name: str(value) for name, value in data.items()}) for node, data in graph.nodes(data=True))
    words.add_weighted_edges_from((str(one), str(other), weight) for one, other, weight in graph.edges(data="weight"))
    return words


def save_graph(network: Network, path: GraphPath, values: Optional[Table] = None, *, format: Optional[str] = None) -> Path:
    """Writes a GraphML, GEXF or Pajek file by NetworkX, and answers its path: the nodes by their names, the links with their weights, and
    with `values`, as in `to_networkx`, the value of each field as an attribute of each node.

    - `format`: as in `from_graph_file`.

    Raises ImportError where there is no NetworkX, OSError where the file cannot be written.

        network.save_graph("spread.graphml", unison.lockstep(program, network, 5))
    """
    call = "Network.save_graph"
    form = format_of(call, _checks.path(call, "path", path), format)
    networkx = networkx_for(call)
    graph = to_networkx(network, values)
    getattr(networkx, form.writer)(in_words(networkx, graph) if form.label is None else graph, path)
    return Path(path)
