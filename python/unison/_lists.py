"""The links of a network file's network as lists in memory, made at the first call that makes rounds on it, and looked at once."""

from __future__ import annotations

from array import array
from typing import Any, Dict, List, Optional

from . import _calls
from .large import LargeNetwork, from_edges
from .network import Network
from .program import Program


def lists_of(network: Network) -> Optional[LargeNetwork]:
    """The network as lists; None where they are not what the library reads in its text.

    The lists of a network that was made of numbers are made of the same numbers. Those of a text are what this package reads in it, so the
    library's own reading is held against them, once.
    """
    if network._lists is None:
        lists = links_of(network).with_set(initial_values(network))
        if network._is_read and not agree(network, lists):
            return None
        network._lists = lists
    return network._lists


def links_of(network: Network) -> LargeNetwork:
    """The links alone, which networks that differ in their initial values share."""
    if not network._links_held:
        links = network.links
        one, other = (array("I", [link[place] for link in links]) for place in (0, 1))
        weights = array("I", [link[2] for link in links])
        plain = weights.count(1) == len(weights)
        network._links_held.append(from_edges(network.nodes, one, other, None if plain else weights, False))
    return network._links_held[0]


def initial_values(network: Network) -> Dict[str, Any]:
    """The initial values as arrays take them: all of a field in order, or some by the nodes' numbers."""
    sets = network._read().sets
    return {
        field: array("I", [value for _, value in sorted(pairs)]) if len(pairs) == network.nodes else dict(pairs)
        for field, pairs in sets.items()
    }


def agree(network: Network, lists: LargeNetwork) -> bool:
    """Whether the library reads the same links, weights and initial values in the text: by the initial states, and by a round in which each
    node mixes what it sees of its neighbours into one number."""
    program = seeing(list(lists._set) or ["seen"])
    size = network.nodes * len(program.fields)
    read = _calls.watch(_calls.Texts(program.text, network._bytes), [0, 1], 2 * size).words
    words = lists._initial_words(program)
    initial = words[:size]
    _calls.large_rounds(program, _calls.Start(lists, 0, words), 1)
    return bool(read == initial + words[:size])


def seeing(fields: List[str]) -> Program:
    """A program with these fields, the first of which becomes a mixture of a node's neighbours, weights and degree."""
    mixture = "(total (((n.id * 40507) ^ n.weight) % 1048573) ^ (degree * 1048583))"
    return Program("".join(f"field {field} = 0;\n" for field in fields) + f"next {fields[0]} = {mixture};\n")
