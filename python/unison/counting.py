"""How many nodes have each value of a field, round by round: counted by the proved program."""

from __future__ import annotations

import csv
import html
import io
from base64 import b64encode
from decimal import Decimal
from typing import Any, Dict, Iterator, List, Mapping, NamedTuple, Optional, Sequence, Tuple, Union

from . import _checks, _files
from .faults import Missing
from .model import COMMENT, Model, Value, number_of
from .network import Network
from .pictures import Image, image, value_of
from .program import Program
from .results import numpy, pandas_or_tell

Values = Union[Value, Sequence[Value]]
Cell = Union[int, float, str, None]
CountTable = Tuple[List[str], List[List[Cell]]]
SHOWN = 12  # rows in a table of a notebook
LEFT_OUT = "&hellip;"
ADDRESS = "data:image/svg+xml;base64,"  # of a picture that stands in a page, apart from the page's own styles


class Asked(NamedTuple):
    """What was counted: all that a picture of the counts is made of."""

    program: Program
    network: Network
    rounds: range
    field: str
    from_: Any


class Counts:
    """How many nodes have each value of a field: a row for each round, and a column for each value, called as the value is, or as the state
    of a `Model`. `unison.count` answers it.

    Columns, from the left: the constants that have several values; `round`, the round, counted from round 0; the values,
    each the number of nodes that have it; `sum FIELD`, `least FIELD` and `most FIELD`, where they were asked for. A state that no node is in
    has a column of zeros. Where more than 64 values occur, each value has a row, with the columns `round`, `value` and `nodes`. With
    `mean=True` there are `round`, `runs`, and two columns for each of the others, `.. mean` and `.. deviation`, numbers with a point, and one
    for each of the `quantiles`, as `.. 5%`.

    >>> import unison
    >>> path = unison.Network(4, [(0, 1), (1, 2), (2, 3)], set={"s": {0: 1}})
    >>> counts = unison.count(unison.Program("field s = 0; next s = (s max most n.s);"), path, 3)
    >>> counts.columns, list(counts.rounds), list(counts[1])
    (('round', '0', '1'), [0, 1, 2, 3], [1, 2, 3, 4])
    >>> counts.at(2)
    {'round': 2, '0': 1, '1': 3}
    """

    def __init__(self, columns: Sequence[str], rows: Sequence[Sequence[Cell]], field: str, asked: Optional[Asked] = None) -> None:
        self._columns = tuple(columns)
        self._rows = [tuple(row) for row in rows]
        self._field = field
        self._asked = asked

    @property
    def columns(self) -> Tuple[str, ...]:
        """What the columns are called, from the left."""
        return self._columns

    @property
    def field(self) -> str:
        """The field whose values are counted."""
        return self._field

    @property
    def rounds(self) -> Any:
        """The round of each row: whole numbers, an array of shape (rows,), else a list."""
        return self["round"]

    @property
    def rows(self) -> List[Tuple[Cell, ...]]:
        """The rows, each with a cell for each column."""
        return list(self._rows)

    def __getitem__(self, column: Union[str, int]) -> Any:
        """A column, a number for each row: an array of shape (rows,) of type int64, float64 for means, else a list. A value may be given as
        the number that it is; one that no node has in any of the rounds has zeros."""
        name = column if isinstance(column, str) else str(_checks.whole("Counts[..]", "column", column))
        if name in self._columns:
            place = self._columns.index(name)
            return listed([row[place] for row in self._rows])
        if isinstance(column, str) or not self._has_columns_of_values():
            raise Missing(f"there is no column {column!r}: the columns are {', '.join(self._columns)}")
        return listed([0] * len(self._rows))

    def _has_columns_of_values(self) -> bool:
        return not {"value", "runs"} & set(self._columns)

    def at(self, round: int) -> Dict[str, Cell]:
        """The row of a round, by columns: the first one where several rows have it."""
        asked = _checks.round_of("Counts.at", "round", round)
        place = self._columns.index("round")
        for row in self._rows:
            if row[place] == asked:
                return dict(zip(self._columns, row))
        raise Missing(f"there is no row of round {asked}")

    def run(self, *values: Cell) -> Counts:
        """The rows of one run, or with `mean` of one choice, where constants have several values: those in whose first columns these values
        stand, one for each constant or for the first ones alone."""
        constants = self._columns.index("round")
        if constants == 0:
            raise Missing("there is one run: no constant has several values")
        if not 0 < len(values) <= constants:
            raise TypeError(f"Counts.run: a value for each of {', '.join(self._columns[:constants])} is wanted, or for the first ones")
        rows = [row[len(values) :] for row in self._rows if row[: len(values)] == values]
        if not rows:
            asked = ", ".join(f"{name}={value}" for name, value in zip(self._columns, values))
            raise Missing(f"there is no run with {asked}")
        return Counts(self._columns[len(values) :], rows, self._field)

    def __len__(self) -> int:
        """How many rows there are."""
        return len(self._rows)

    def __iter__(self) -> Iterator[Dict[str, Cell]]:
        """The rows, each a dict from columns to cells."""
        return (dict(zip(self._columns, row)) for row in self._rows)

    def __eq__(self, other: object) -> bool:
        """The same columns with the same rows."""
        return isinstance(other, Counts) and (self._columns, self._rows) == (other._columns, other._rows)

    __hash__ = None  # type: ignore[assignment]

    def to_pandas(self) -> Any:
        """A frame with a column for each column, whose index is `round`, or the constants that have several values and `round`. Needs
        pandas."""
        pandas = pandas_or_tell()
        frame = pandas.DataFrame({name: self._series(place) for place, name in enumerate(self._columns)}, columns=list(self._columns))
        return frame.set_index(list(self._columns[: self._columns.index("round") + 1]))

    def _series(self, place: int) -> List[Cell]:
        return [float("nan") if row[place] is None else row[place] for row in self._rows]

    def to_csv(self) -> str:
        """The table as CSV: a line of columns, then a line for each row."""
        out = io.StringIO()
        csv.writer(out, lineterminator="\n").writerows([self._columns, *(["" if cell is None else cell for cell in row] for row in self._rows)])
        return out.getvalue()

    def image(self) -> Image:
        """The counts as curves, over the rounds: drawn by the proved program. Raises PictureError where there are no two rounds, or too many
        values or rounds."""
        if self._asked is None:
            raise ValueError("Counts.image: curves are drawn of the counts of one run, on a unison.Network")
        program, network, rounds, field, from_ = self._asked
        return image(program, network, rounds, field=field, counts=True, from_=from_)

    def _repr_svg_(self) -> Optional[str]:
        """The counts as curves; None where there are none to draw."""
        try:
            return None if self._asked is None or len(self._asked.rounds) < 2 else self.image().svg
        except (ValueError, OSError):
            return None

    def _repr_html_(self) -> str:
        """The curves, where there are any, and the first rows as a table."""
        curves = self._repr_svg_()
        return (f'<img src="{ADDRESS}{b64encode(curves.encode()).decode()}" alt="curves">\n' if curves else "") + self._table()

    def _table(self) -> str:
        """The first rows as a table."""
        rows = [self._columns, *self._rows[:SHOWN]]
        lines = [row_of("th" if place == 0 else "td", row) for place, row in enumerate(rows)]
        if len(self._rows) > SHOWN:
            lines.append(f"<tr><td colspan='{len(self._columns)}'>{LEFT_OUT} {len(self._rows)} rows</td></tr>\n")
        return f"<table>\n{''.join(lines)}</table>\n"

    def __repr__(self) -> str:
        return f"<Counts of {self._field}, {len(self._rows)} rows: {', '.join(self._columns)}>"


def row_of(kind: str, cells: Sequence[Any]) -> str:
    """A row of a table in HTML."""
    return "<tr>" + "".join(f"<{kind}>{'' if cell is None else html.escape(str(cell))}</{kind}>" for cell in cells) + "</tr>\n"


def listed(cells: List[Cell]) -> Any:
    """The cells of a column as an array, where numpy is there and they are numbers; else as a list."""
    if numpy is None or any(isinstance(cell, str) for cell in cells):
        return cells
    if all(isinstance(cell, int) for cell in cells):
        return numpy.array(cells, dtype=numpy.int64)
    return numpy.array([float("nan") if cell is None else cell for cell in cells], dtype=numpy.float64)


def cell_of(text: str, column: str) -> Cell:
    """A cell of CSV: a whole number, one with a point, nothing, or the name of a state."""
    if column.endswith((" mean", " deviation")):
        return float(text) if text else None
    return number_in(text)


def number_in(text: str) -> Cell:
    """A whole number, one with a point, or else the text."""
    if text.isdigit():
        return int(text)
    whole, _, rest = text.partition(".")
    return float(text) if whole.isdigit() and rest.isdigit() else text


def table_of(text: str) -> CountTable:
    """The columns and the rows of a table in CSV."""
    columns, *rows = csv.reader(io.StringIO(text))
    return columns, [[cell_of(cell, column) for cell, column in zip(row, columns)] for row in rows]


def count(
    program: Program,
    network: Network,
    rounds: Any,
    field: Optional[str] = None,
    *,
    sum: Union[str, Sequence[str]] = (),
    least: Union[str, Sequence[str]] = (),
    most: Union[str, Sequence[str]] = (),
    until: Optional[Mapping[str, Union[int, str]]] = None,
    constants: Optional[Mapping[str, Values]] = None,
    mean: Union[bool, str] = False,
    quantiles: Sequence[int] = (),
    from_: Any = None,
) -> Counts:
    """How many nodes have each value of a field, round by round: counted by the proved program in one pass.

    - `program`: a `Program`, or a `Model`, whose states are the names of columns; `network`: a `Network`.
    - `rounds`: the last round, counted from round 0, 1,000,000,000 at most: all up to it are counted; or rounds that are evenly apart, as
      `range(0, 101, 10)`.
    - `field`: the field whose values are counted; may be left out where the program has one alone.
    - `sum`, `least`, `most`: fields whose sum, least and greatest value over all nodes have a column each.
    - `until`: `{"none:state": "infected"}` or `{"all:state": "recovered"}`, a value or a state: the counts end behind the first round in
      which no node, or every node, has it. `{"state": "infected"}` is the first of them.
    - `constants`: values for constants of a `Model`, as `{"seed": range(1, 21), "infection": [0.1, 0.2]}`: whole numbers, floats for chances,
      names of states. Where a constant has several, a run is counted for each, and of several such constants for each choice of their values,
      10,000 at most, by several threads.
    - `mean`: in place of the runs their means and standard deviations over the values of `seed`, or of the only constant that has several;
      or the name of another constant over whose values they are, 1000 at most. Each choice of the others has means of its own. A run that
      has ended keeps the numbers of its last round; with `until` the column `going` says how many runs go on to a round.
    - `quantiles`: percents, as `[5, 50, 95]`, whole numbers from 0 to 100: with `mean`, columns `.. 5%` and so on of the least number that at
      least so many percent of the runs do not exceed.
    - `from_`: a result of `lockstep`, or the text of a report, to go on from.

    Raises TypeError, ValueError or KeyError for an argument that cannot be, ModelError, PlanError, ReportError or RunError where it is
    refused, ProgramsMissing where the proved program is nowhere.

    >>> import unison
    >>> pair = unison.Network(2, [(0, 1)], set={"s": [5, 7]})
    >>> unison.count(unison.Program("field s = 0; next s = total n.s;"), pair, [0, 2], sum="s").rows
    [(0, 1, 1, 12), (2, 1, 1, 12)]
    """
    rules = _checks.program("count", program)
    named = _checks.only_field("count", "field", field, rules)
    given, several = constants_given(rules, constants), constants_of_several(constants)
    means = mean_words(mean, several)
    means += quantile_words(quantiles, bool(means))
    job = _files.job_of("count", rules, network, from_, given)
    words = ["count", *_files.span_words("count", rounds), f"--field={named}", *column_words(rules, sum, least, most)]
    if until is not None:
        words.append(until_word(rules, until))
    if means:
        return Counts(*table_of(job.run(*words, *means).decode("utf-8")), named)
    table = table_of(job.run(*words).decode("utf-8"))
    asked = None if given or until is not None else Asked(rules, network, range_of("count", rounds), named, from_)
    return counts_of(table, rules, named, asked)


def range_of(call: str, rounds: Any) -> range:
    """The rounds that are meant."""
    first, last, every = _checks.span(call, "rounds", rounds)
    return range(first, last + 1, every)


def counts_of(table: CountTable, program: Program, field: str, asked: Optional[Asked]) -> Counts:
    """The counts of a table, with a column for each state of the field, also for one that no node is in. Where values have lines, and
    where a run's constant is called as a state is, so that values are numbers, columns stay as they are."""
    columns, rows = table
    states = program.states.get(field, ()) if isinstance(program, Model) else ()
    ahead = columns.index("round") + 1
    if columns[ahead : ahead + 2] == ["value", "nodes"] or set(states) & set(columns[:ahead]):
        return Counts(columns, rows, field, asked)
    order = [*columns[:ahead], *states, *(column for column in columns[ahead:] if column not in states)]
    places = [columns.index(column) if column in columns else None for column in order]
    return Counts(order, [[0 if place is None else row[place] for place in places] for row in rows], field, asked)


def constants_given(program: Program, constants: Optional[Mapping[str, Values]]) -> Dict[str, str]:
    """The values for constants of a model, as words have them."""
    if constants is None:
        return {}
    if not isinstance(constants, Mapping):
        _checks.refuse("count", "constants", constants, "a dict from names of constants to values is wanted")
    if not isinstance(program, Model):
        raise ValueError("count: constants are given, and the program is no unison.Model: a Program has none")
    return {name: constant_text(program, name, value) for name, value in constants.items()}


def is_value(value: Any) -> bool:
    """Whether this is one value of a constant."""
    return isinstance(value, (float, str)) or _checks.is_whole(value)


def value_text(program: Model, name: str, value: Any) -> str:
    """A value of a constant, as a word has it: a chance as a decimal, a state by its name."""
    number = number_of("count", COMMENT.sub("", program.source), name, value)
    if isinstance(value, float):
        return f"{Decimal(repr(value)):.9f}"
    return value if isinstance(value, str) else str(number)


def constant_text(program: Model, name: str, value: Any) -> str:
    """One value of a constant, or several, each with a comma behind it."""
    if is_value(value):
        return value_text(program, name, value)
    values = _checks.items("count", f"constants[{name!r}]", value, "a value, or a list of them,")
    if not values:
        raise ValueError(f"count: constants[{name!r}] has no value: a value, or a list of them, is wanted")
    return "".join(f"{value_text(program, name, one)}," for one in values)


def mean_words(mean: Any, several: Sequence[str]) -> List[str]:
    """The words for means over the values of one of these constants."""
    if isinstance(mean, str):
        if mean not in several:
            raise ValueError(f"count: mean is {mean!r}, which is no constant that has several values: {', '.join(several) or 'none has'}")
        return ["--mean", f"--over={mean}"]
    if not _checks.flag("count", "mean", mean):
        return []
    if not several:
        raise ValueError("count: mean is True, and no constant has several values, as constants={'seed': range(20)}, of which there are means")
    return ["--mean"]


def quantile_words(quantiles: Any, means: bool) -> List[str]:
    """The word for the quantiles beside means."""
    listed = _checks.items("count", "quantiles", quantiles, "a list of percents, as [5, 50, 95],")
    percents = [_checks.whole("count", f"quantiles[{place}]", percent, 0, 100) for place, percent in enumerate(listed)]
    if percents and not means:
        raise ValueError("count: quantiles are told beside means alone: mean=True asks for these")
    return [f"--quantiles={','.join(map(str, percents))}"] if percents else []


def column_words(program: Program, sum: Any, least: Any, most: Any) -> List[str]:
    """The words for the further columns."""
    asked = {"sum": sum, "least": least, "most": most}
    return [f"--{name}={field}" for name, given in asked.items() for field in _checks.fields("count", name, given, program)]


def until_word(program: Program, until: Any) -> str:
    """The word for when the counts end."""
    if not isinstance(until, Mapping) or len(until) != 1:
        _checks.refuse("count", "until", until, "a dict from one field to a value or a state, as {'none:state': 'infected'}, is wanted")
    ((key, value),) = until.items()
    holders, name = split_holders(key)
    field = _checks.field("count", "until", name, program)
    return f"--until={holders}:{field}={value_of('count', f'until[{key!r}]', program, field, value)}"


def split_holders(key: Any) -> Tuple[str, Any]:
    """At which nodes a value is to stand, none or all, and the field: `none:` may be left out."""
    if isinstance(key, str) and key.startswith(("none:", "all:")):
        holders, field = key.split(":", 1)
        return holders, field
    return "none", key


def constants_of_several(constants: Optional[Mapping[str, Values]]) -> List[str]:
    """The constants that have several values."""
    return [name for name, value in (constants or {}).items() if not is_value(value)]
