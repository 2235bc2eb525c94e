"""Sweeps: one model on one network with many values of its constants, side by side."""

from __future__ import annotations

import itertools
from typing import Any, Callable, Dict, Iterable, Iterator, List, Mapping, Optional, Sequence, Tuple, Union

from . import _checks, _notebook, faults, jobs
from ._runs import Asked, Found, Plan, Row, Values, check_few, in_threads, processors, rounds_found
from .model import Model
from .network import Network
from .program import Program
from .results import States, pandas_or_tell

Fields = Union[None, str, Sequence[str]]

class Sweep:
    """What a sweep found: a row for each combination of constants and each round. `unison.sweep` answers it.

    Columns, from the left: the constants; `round`, the round, counted from round 0; then what was asked for.

    >>> import unison
    >>> rule = unison.Program("field s = 0; field step = 1; next s = (s + step);")
    >>> found = unison.sweep(rule, unison.Network(3, []), {"step": [1, 5]}, rounds=[2], sum="s")
    >>> found.columns
    ('step', 'round', 'sum s')
    >>> found.rows
    [{'step': 1, 'round': 2, 'sum s': 6}, {'step': 5, 'round': 2, 'sum s': 30}]
    """

    def __init__(self, constants: Mapping[str, Sequence[Any]], rounds: Sequence[int], columns: Sequence[str], rows: Sequence[Row]) -> None:
        self._constants = {name: tuple(values) for name, values in constants.items()}
        self._rounds = tuple(rounds)
        self._columns = tuple(columns)
        self._rows = list(rows)

    @property
    def constants(self) -> Dict[str, Tuple[Any, ...]]:
        """The values of each constant, of which all combinations were run."""
        return dict(self._constants)

    @property
    def rounds(self) -> Tuple[int, ...]:
        """The rounds of which each combination has a row, counted from round 0."""
        return self._rounds

    @property
    def columns(self) -> Tuple[str, ...]:
        """What the columns are called, from the left."""
        return self._columns

    @property
    def rows(self) -> List[Row]:
        """The rows, each a dict from columns to values: combinations in the order in which constants and values were given, and in each
        the rounds, rising."""
        return [dict(row) for row in self._rows]

    def __getitem__(self, column: str) -> List[Any]:
        """The values of a column, one for each row."""
        if column not in self._columns:
            raise faults.Missing(f"there is no column {column!r}: the columns are {', '.join(self._columns)}")
        return [row[column] for row in self._rows]

    def __len__(self) -> int:
        """How many rows there are."""
        return len(self._rows)

    def __iter__(self) -> Iterator[Row]:
        """The rows, each a dict from columns to values."""
        return iter(self.rows)

    def to_pandas(self) -> Any:
        """A frame with a row for each combination of constants and each round, and a column for each constant, `round`, and each number that
        was asked for. Needs pandas."""
        pandas = pandas_or_tell()
        return pandas.DataFrame({column: self[column] for column in self._columns}, columns=list(self._columns))

    def _repr_html_(self) -> str:
        """The first and the last rows as a table."""
        rows = [
            [_notebook.GAP] * len(self._columns) if place is None else [_notebook.cell(self._rows[place][column]) for column in self._columns]
            for place in _notebook.ends_of(len(self._rows))
        ]
        return _notebook.table(repr(self).strip("<>"), [_notebook.cell(column) for column in self._columns], rows)

    def __repr__(self) -> str:
        return f"<Sweep of {', '.join(self._constants) or 'no constant'}, {len(self._rows)} rows: {', '.join(self._columns)}>"


def sweep(
    program: Program,
    network: Network,
    constants: Mapping[str, Any],
    rounds: Union[int, Iterable[int]],
    *,
    count: Fields = None,
    sum: Fields = None,
    least: Fields = None,
    most: Fields = None,
    of: Optional[Callable[[States], Any]] = None,
    workers: Optional[int] = None,
    from_: Optional[States] = None,
) -> Sweep:
    """Runs of a model or a program on a network with all combinations of values of constants, side by side on all processors.

    - `program`: a `Model`, or a `Program`; `network`: a `Network`, of which nothing is read again.
    - `constants`: for each constant of the model, also `seed`, its values: `{"seed": range(20), "infection": [3000, 6000]}`. In place of a
      constant a field may stand, whose initial values they are, as in `set` of a network: each value is one for all nodes, a list with
      one for each node, or a dict from nodes to values.
    - `rounds`: the last round, counted from round 0: all up to it have a row; or rounds, rising, as `range(0, 151, 10)` or `[150]`.
    - `count`: a field, or several: a column for each value that occurs, called as the value is, or as the state of the model: how many nodes
      have it; with several fields `FIELD=VALUE`. More than 256 values are refused: ValueError.
    - `sum`, `least`, `most`: a field, or several: a column `sum FIELD`, `least FIELD`, `most FIELD`: over all nodes. A sum is not cut.
    - `of`: a function of the `States` after a round, called in several threads: what it answers stands in a column called as the function
      is, or, where it is a dict, in a column for each key.
    - `workers`: how many threads, as many as there are processors where it is left out. While a run is computed Python's lock is free.
    - `from_`: `States` to go on from.

    Where nothing is asked for, each combination has one row, with the `States` after the last round in the column `states`.

    Raises what `watch` raises, KeyError for a constant that is not there, and what `of` raises.

    >>> import unison
    >>> ring = unison.Network(5, [(node, (node + 1) % 5) for node in range(5)], set={"s": {0: 1}})
    >>> spread = unison.Program("field s = 0; field wanted = 1; next s = (s max (count n.s >= wanted));")
    >>> for row in unison.sweep(spread, ring, {"wanted": [1, 2]}, rounds=[0, 2], count="s"):
    ...     print(row)
    {'wanted': 1, 'round': 0, '0': 4, '1': 1}
    {'wanted': 1, 'round': 2, '0': 0, '1': 5}
    {'wanted': 2, 'round': 0, '0': 4, '1': 1}
    {'wanted': 2, 'round': 2, '0': 4, '1': 1}
    """
    rules, links = _checks.program("sweep", program), _checks.network("sweep", network)
    values = values_of_each(rules, constants)
    asked = asked_of(rules, count, {"sum": sum, "least": least, "most": most}, of)
    listed = rounds_of(rounds)
    shown = listed[-1:] if asked.is_nothing() else listed
    check_start(rules, links, from_)
    counted = Values(rules, asked.counted[0]) if asked.is_one_count() else None
    plan = Plan(rules, links, jobs.lists_for("sweep", rules, links), shown, from_, asked, counted)
    runs = list(itertools.product(*values.values()))
    found = in_threads(lambda run: rounds_found(plan, dict(zip(values, run))), runs, workers_of(workers))
    heads = [{**dict(zip(values, run)), "round": round} for run in runs for round in shown]
    return Sweep(values, shown, *table_of(rules, asked, heads, list(itertools.chain.from_iterable(found))))


def values_of_each(program: Program, constants: Any) -> Dict[str, List[Any]]:
    """The values of each constant of a model, or of each field of which there is one of this name."""
    if not isinstance(constants, Mapping):
        _checks.refuse("sweep", "constants", constants, "a dict from names to values, as {'seed': range(20)}, is wanted")
    for name in constants:
        if not isinstance(program, Model):
            _checks.field("sweep", f"the constant {name!r}", name, program)
    return {name: one_or_more(f"constants[{name!r}]", given) for name, given in constants.items()}


def one_or_more(name: str, given: Any) -> List[Any]:
    """The values of a constant: one number is one value."""
    wanted = "a whole number, or a list of one value or more, as range(20) or [1, 5],"
    values = [given] if _checks.is_whole(given) else _checks.items("sweep", name, given, wanted)
    if not values:
        _checks.refuse("sweep", name, given, f"{wanted} is wanted", ValueError)
    return [_checks.cell("sweep", f"{name}[{place}]", value) if _checks.is_whole(value) else value for place, value in enumerate(values)]


def asked_of(program: Program, count: Fields, totals: Mapping[str, Fields], of: Any) -> Asked:
    """What is told of each round."""
    if of is not None and not callable(of):
        _checks.refuse("sweep", "of", of, "a function of States is wanted; fields are told by count, sum, least and most")
    pairs = [(kind, field) for kind, given in totals.items() for field in fields_of(program, kind, given)]
    return Asked(fields_of(program, "count", count), tuple(pairs), of)


def fields_of(program: Program, name: str, given: Fields) -> Tuple[str, ...]:
    """The fields that are asked for."""
    return () if given is None else tuple(_checks.fields("sweep", name, given, program))


def rounds_of(rounds: Any) -> List[int]:
    """The rounds that are told: all up to one, or those of a rising list."""
    if _checks.is_whole(rounds):
        return list(range(_checks.round_of("sweep", "rounds", rounds) + 1))
    listed = _checks.rising_rounds("sweep", "rounds", rounds)
    if not listed:
        _checks.refuse("sweep", "rounds", rounds, "the last round, or one round or more, is wanted", ValueError)
    return listed


def check_start(program: Program, network: Network, from_: Any) -> None:
    """Looks at the states to go on from."""
    if isinstance(from_, States):
        _checks.states_fit("sweep", from_, program, network)
    elif from_ is not None:
        _checks.refuse("sweep", "from_", from_, "a unison.States, as lockstep answers, is wanted")


def workers_of(workers: Any) -> int:
    """How many threads there are: as many as this process has processors, where it is not told."""
    if workers is None:
        return processors()
    return _checks.whole("sweep", "workers", workers, 1)


def table_of(program: Program, asked: Asked, heads: Sequence[Row], found: Sequence[Found]) -> Tuple[List[str], List[Row]]:
    """The columns, and the rows that have them: those of the constants and the round, of counted values, and of all else."""
    named = list(heads[0]) if heads else []
    values = columns_of_values(program, asked, found, named)
    others = list(dict.fromkeys(column for part in found for column in part.numbers))
    twice = [column for column in others if column in named or column in values.values()]
    if twice:
        raise ValueError(f"sweep: there are two columns {twice[0]!r}: expected that what `of` answers is called by other names")
    rows = [
        {
            **head,
            **{column: part.counts.get(key, 0) for key, column in values.items()},
            **{column: part.numbers.get(column) for column in others},
        }
        for head, part in zip(heads, found)
    ]
    return [*named, *values.values(), *others], rows


def columns_of_values(program: Program, asked: Asked, found: Sequence[Found], named: Sequence[str]) -> Dict[Tuple[str, int], str]:
    """What the column of each counted value is called, by field and value: states first, then other values that occur, rising."""
    states = program.states if isinstance(program, Model) and asked.counted else {}
    columns: Dict[Tuple[str, int], str] = {}
    occur = {key for part in found for key, nodes in part.counts.items() if nodes}
    for field in asked.counted:
        names = states.get(field, ())
        names = () if set(names) & set(named) else names
        others = sorted(value for counted_field, value in occur if counted_field == field and value >= len(names))
        check_few(field, len(names) + len(others))
        head = f"{field}=" if len(asked.counted) > 1 else ""
        columns.update({(field, state): f"{head}{name}" for state, name in enumerate(names)})
        columns.update({(field, value): f"{head}{value}" for value in others})
    return columns
