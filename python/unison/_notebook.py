"""What notebooks show of results: pages of small runs, tables of the first and the last nodes and rounds."""

from __future__ import annotations

import html
import os
from typing import Any, Iterable, List, Sequence

from . import _programs
from ._calls import MOST as NONE

MOST_NODES, MOST_VALUES = 2_000, 50_000  # of a run that is shown as a page
ENDS = 6  # how many of the first, and how many of the last, are shown
GAP = "&hellip;"


def page_of(result: Any, rounds: Any) -> str:
    """The page of the rounds of a small run in a frame; empty where there is none to be had at once."""
    if result._made_of is None or rounds is None or result.nodes > MOST_NODES or len(result._words) > MOST_VALUES:
        return ""
    program, network, from_ = result._made_of
    shown = range(rounds, rounds + 1) if isinstance(rounds, int) else rounds
    from . import pictures  # which stands above the results

    try:
        return str(pictures.page(program, network, shown, from_=from_)._repr_html_()) if is_at_hand() else ""
    except (OSError, RuntimeError, TypeError, ValueError):  # networks that no network file says, rounds that are not evenly apart
        return ""


def is_at_hand() -> bool:
    """Whether the proved program of pages stands there, so that none is built first."""
    places = [folder / "unison_lab" for folder in _programs.folders()]
    own = _programs.launcher()
    if own is not None:
        places += [own.parent / part / "unison_lab" for part in ("crates/unison_lab/out", "quick/out")]
    return any(os.access(place, os.X_OK) for place in places)


def ends_of(count: int) -> List[Any]:
    """The places that are shown of so many, with None for those that are left out."""
    if count <= 2 * ENDS + 1:
        return list(range(count))
    return [*range(ENDS), None, *range(count - ENDS, count)]


def cell(value: Any) -> str:
    return "none" if isinstance(value, int) and value == NONE else html.escape(str(value))


def row(kind: str, cells: Iterable[str]) -> str:
    return "<tr>" + "".join(f"<{kind}>{part}</{kind}>" for part in cells) + "</tr>\n"


def table(caption: str, heads: Sequence[str], rows: Iterable[Sequence[str]]) -> str:
    body = "".join(row("td", cells) for cells in rows)
    return f"<table>\n<caption>{html.escape(caption)}</caption>\n{row('th', heads)}{body}</table>\n"


def table_of_nodes(result: Any) -> str:
    """A row for each node that is shown, a column for each field."""
    names = result.names
    rows = [
        [GAP] * (1 + len(result.fields)) if place is None else [cell(names[place]), *map(cell, result._row(place))]
        for place in ends_of(result.nodes)
    ]
    return table(repr(result).strip("<>"), ["node", *map(cell, result.fields)], rows)


def table_of_rounds(result: Any) -> str:
    """For each field a table: a row for each round that is shown, a column for each node."""
    names, nodes = result.names, ends_of(result.nodes)
    heads = ["round", *(GAP if node is None else cell(names[node]) for node in nodes)]
    parts = []
    for field in result.fields:
        values = result._column(field)
        rows = [[GAP] * len(heads) if place is None else [cell(result.rounds[place]), *cells_of(values, place, result.nodes, nodes)] for place in ends_of(len(result))]
        parts.append(table(f"{field}: {repr(result).strip('<>')}", heads, rows))
    return "".join(parts) or table(repr(result).strip("<>"), ["round"], [])


def cells_of(values: Any, place: int, nodes: int, shown: Sequence[Any]) -> List[str]:
    """The values of the nodes that are shown after the round at this place."""
    return [GAP if node is None else cell(values[place * nodes + node]) for node in shown]
