"""What calls answer: states of nodes, as arrays where numpy is there, else as lists."""

from __future__ import annotations

import importlib
from array import array
from typing import Any, Dict, Hashable, Iterator, List, NamedTuple, Optional, Sequence, Tuple, Union

from . import _checks, _notebook
from ._calls import MOST
from .faults import Missing

#: The greatest number there is. Programs use it for "none" and "not reached".
NONE = MOST

Name = Hashable


def module_or_none(name: str) -> Any:
    """A module, or None where it is not there."""
    try:
        return importlib.import_module(name)
    except ImportError:
        return None


numpy = module_or_none("numpy")


def pandas_or_tell() -> Any:
    """The module pandas, or an error that says what to install."""
    try:
        import pandas
    except ImportError:
        raise ImportError("to_pandas needs pandas: install it by `pip install pandas` (Debian: `apt install python3-pandas`)") from None
    return pandas


def shaped(words: "array[int]", shape: Tuple[int, ...]) -> Any:
    """Words in a shape: an array of numpy that cannot be written, or lists of lists."""
    if numpy is not None:
        values = numpy.frombuffer(words, dtype=numpy.uint32) if words else numpy.zeros(0, dtype=numpy.uint32)
        values = values.reshape(shape)
        values.flags.writeable = False
        return values
    return nested(list(words), shape)


def nested(values: List[int], shape: Tuple[int, ...]) -> List[Any]:
    if len(shape) == 1:
        return values
    size = len(values) // shape[0] if shape[0] else 0
    return [nested(values[place * size : (place + 1) * size], shape[1:]) for place in range(shape[0])]


def with_missing(values: Any) -> Any:
    """Values in which `NONE` is no number: a masked array of numpy, or lists with None."""
    if isinstance(values, list):
        return [with_missing(value) for value in values]
    if isinstance(values, int):
        return None if values == NONE else values
    return numpy.ma.array(values, mask=values == NONE)


def minus(values: Any, others: Any) -> Any:
    """What is left of values of the same shape: a signed array of numpy, or lists. What is missing on one side is missing."""
    if isinstance(values, list):
        return [minus(value, other) for value, other in zip(values, others)]
    if values is None or others is None:
        return None
    if isinstance(values, int):
        return values - others
    return values.astype(numpy.int64) - others.astype(numpy.int64)


class Columns:
    """What fields and nodes there are, and their words, one table of nodes and fields behind the other."""

    _made_of: Any = None  # the program, the network and the states to go on from, of which a call has made it

    def __init__(self, fields: Sequence[str], nodes: int, words: "array[int]", names: Optional[Sequence[Name]] = None) -> None:
        self._fields = tuple(fields)
        self._nodes = nodes
        self._words = words
        self._names = names

    def __getstate__(self) -> Dict[str, Any]:
        """A copy in another process has the values alone."""
        return {name: value for name, value in self.__dict__.items() if name != "_made_of"}

    @property
    def fields(self) -> Tuple[str, ...]:
        """The names of the fields, in order of declaration."""
        return self._fields

    @property
    def nodes(self) -> int:
        """How many nodes there are."""
        return self._nodes

    @property
    def names(self) -> Sequence[Name]:
        """What the nodes are called, node 0 first: their numbers where the network has no names."""
        return range(self._nodes) if self._names is None else self._names

    @property
    def _shape(self) -> Tuple[int, ...]:
        """How many values a field has along each side."""
        return (self._nodes,)

    def __getitem__(self, field: str) -> Any:
        """The values of a field: `column(field)`."""
        return self.column(field)

    def column(self, field: str, missing: bool = False) -> Any:
        """The values of a field, numbers from 0 to 4294967295: an array of shape (nodes,), or (rounds, nodes) of `Rounds`, and type uint32,
        else a list, or a list of lists.

        With `missing`, `NONE` is no number: the array is a masked one of numpy, and a list has None in its place.

        Raises KeyError for a field that is not there.
        """
        self._check_field(field)
        if numpy is None:
            values = shaped(self._column(field), self._shape)
        else:
            values = shaped(self._words, (*self._shape, len(self._fields)))[..., self._fields.index(field)]
        return with_missing(values) if missing else values

    def difference(self, field: str, other: Union[str, "Columns"], missing: bool = False) -> Any:
        """How much greater the values of a field are than those of another field, or than those of the same field in another result of the
        same shape: signed numbers, an array of type int64, else a list or a list of lists. Numbers of type uint32 wrap below 0.

        With `missing`, what is `NONE` on one side is missing, as in `column`.

            states.difference("pushed", "pulled")
            unison.lockstep(program, network, 9).difference("dist", unison.lockstep(program, network, 8))

        Raises KeyError for a field that is not there, ValueError where the shapes differ.
        """
        if isinstance(other, str):
            return minus(self.column(field, missing), self.column(other, missing))
        self._check_like(other)
        return minus(self.column(field, missing), other.column(field, missing))

    def _check_like(self, other: Any) -> None:
        if not isinstance(other, Columns):
            raise TypeError(f"{type(other).__name__} is no result: expected the name of a field, or a result of the same shape")
        if (self._shape, self._fields) != (other._shape, other._fields):
            raise ValueError(f"the results differ in shape or fields: {self!r} and {other!r}")

    @property
    def values(self) -> Any:
        """All values by node and field."""
        return shaped(self._words, (*self._shape, len(self._fields)))

    def __sub__(self, other: Columns) -> Any:
        """How much greater all values are than those of another result of the same shape and fields: signed numbers in the shape of
        `values`, an array of type int64, else lists."""
        if not isinstance(other, Columns):
            return NotImplemented
        self._check_like(other)
        return minus(self.values, other.values)

    def _check_field(self, field: str) -> None:
        if field not in self._fields:
            raise Missing(f"there is no field {field!r}: the fields are {', '.join(self._fields) or 'none'}")

    def _column(self, field: str) -> "array[int]":
        self._check_field(field)
        return self._words[self._fields.index(field) :: len(self._fields)]

    def _frame(self, pandas: Any, index: Any, missing: bool) -> Any:
        columns = {field: self._series(pandas, field, missing) for field in self._fields}
        return pandas.DataFrame(columns, index=index, columns=list(self._fields))

    def _series(self, pandas: Any, field: str, missing: bool) -> Any:
        """A field as a column: of type UInt32, in which `NONE` is missing, or of type uint32."""
        values = numpy.array(self._column(field), dtype=numpy.uint32)
        return pandas.arrays.IntegerArray(values, values == NONE) if missing else values


class Table(Columns):
    """The values of all fields of all nodes. `States` and `Replayed` are tables."""

    @property
    def values(self) -> Any:
        """All values by node and field, numbers from 0 to 4294967295: an array of shape (nodes, fields) and type uint32, else a
        list of a list for each node."""
        return super().values

    def by_name(self, field: str, missing: bool = False) -> Dict[Name, Any]:
        """The value of a field at each node, by the node's name, or by its number where the network has no names. With `missing`, None stands
        in place of `NONE`. Raises KeyError for a field that is not there."""
        values = self._column(field).tolist()
        return dict(zip(self.names, with_missing(values) if missing else values))

    def state(self, number: int) -> Dict[str, int]:
        """The value of each field at the node of this number. Raises IndexError where there is none."""
        if not _checks.is_whole(number):
            _checks.refuse("state", "number", number, f"the number of a node, from 0 to {self._nodes - 1}, is wanted")
        if not 0 <= number < self._nodes:
            raise IndexError(f"there is no node {number}: nodes are numbered from 0 to {self._nodes - 1}")
        return dict(zip(self._fields, self._row(number)))

    def _row(self, number: int) -> "array[int]":
        width = len(self._fields)
        return self._words[number * width : (number + 1) * width]

    def to_pandas(self, missing: bool = True) -> Any:
        """A frame with a row for each node, called by its name, and a column for each field, of type UInt32, in which `NONE` is missing
        (`<NA>`). With `missing=False` all values are numbers, of type uint32. Needs pandas, and raises ImportError where it is not there."""
        pandas = pandas_or_tell()
        return self._frame(pandas, pandas.Index(list(self.names), name="node", tupleize_cols=False), missing)

    def _repr_html_(self) -> str:
        """What a notebook shows: of a small run a page of the round, made by the proved program where it is at hand; else a table of the first
        and the last nodes."""
        return _notebook.page_of(self, getattr(self, "_round", None)) or _notebook.table_of_nodes(self)


def row_text(fields: Sequence[str], row: Sequence[int]) -> str:
    return "".join(f" {field}={value}" for field, value in zip(fields, row))


class States(Table):
    """The states of all nodes after a round.

    >>> import unison
    >>> program = unison.Program("field dist = 4294967295; next dist = (dist min least (n.dist + 1));")
    >>> network = unison.Network(["ann", "bob", "cid"], [("ann", "bob"), ("bob", "cid")], set={"dist": {"ann": 0}})
    >>> states = unison.lockstep(program, network, 2)
    >>> states.round, states.by_name("dist")
    (2, {'ann': 0, 'bob': 1, 'cid': 2})
    >>> print(states.report(), end="")
    round 2
    0 dist=0
    1 dist=1
    2 dist=2
    """

    def __init__(
        self, round: int, fields: Sequence[str], nodes: int, words: "array[int]", names: Optional[Sequence[Name]] = None
    ) -> None:
        super().__init__(fields, nodes, words, names)
        self._round = round

    @classmethod
    def from_values(cls, program: Any, values: Any, round: int = 0, names: Optional[Sequence[Name]] = None) -> States:
        """The states that have these values by node and field: an array of shape (nodes, fields), or a list of a list for each node. A call
        goes on from them (`from_`) at this round.

        >>> import unison
        >>> states = unison.States.from_values(unison.Program("field s = 0; next s = s;"), [[5], [7]], round=3)
        >>> states.round, states.by_name("s")
        (3, {0: 5, 1: 7})
        """
        from ._arrays import values_of

        fields = _checks.program("States.from_values", program).fields
        asked = _checks.round_of("States.from_values", "round", round)
        words, nodes = values_of(values, fields)
        return cls(asked, fields, nodes, words, _checks.names("States.from_values", names))

    @property
    def round(self) -> int:
        """The round, counted from round 0, at which the states are the initial ones."""
        return self._round

    def report(self) -> str:
        """The report of the round (docs/formats.md): what `unison lockstep` prints, and what `from_` takes."""
        rows = (f"{node}{row_text(self._fields, self._row(node))}\n" for node in range(self._nodes))
        return f"round {self._round}\n" + "".join(rows)

    def __eq__(self, other: object) -> bool:
        """The same round of the same fields, with the same values; names play no part."""
        if not isinstance(other, States):
            return NotImplemented
        return (self._round, self._fields, self._words) == (other._round, other._fields, other._words)

    __hash__ = None  # type: ignore[assignment]

    def __repr__(self) -> str:
        return f"<States of {self._nodes} nodes after round {self._round}: {', '.join(self._fields)}>"


class Rounds(Columns):
    """The states of all nodes after each of some rounds.

    >>> import unison
    >>> program = unison.Program("field s = 0; next s = (s + round);")
    >>> rounds = unison.watch(program, unison.Network(1, []), range(1, 5))
    >>> [states.by_name("s")[0] for states in rounds]
    [0, 1, 3, 6]
    """

    def __init__(
        self, rounds: Sequence[int], fields: Sequence[str], nodes: int, words: "array[int]", names: Optional[Sequence[Name]] = None
    ) -> None:
        super().__init__(fields, nodes, words, names)
        self._rounds = tuple(rounds)

    @property
    def rounds(self) -> Tuple[int, ...]:
        """The rounds, rising."""
        return self._rounds

    @property
    def values(self) -> Any:
        """All values by round, node and field: an array of shape (rounds, nodes, fields) and type uint32, else lists of lists of
        lists."""
        return super().values

    @property
    def _shape(self) -> Tuple[int, ...]:
        return (len(self._rounds), self._nodes)

    def _states(self, place: int) -> States:
        size = self._nodes * len(self._fields)
        words = self._words[place * size : (place + 1) * size]
        states = States(self._rounds[place], self._fields, self._nodes, words, self._names)
        states._made_of = self._made_of
        return states

    def at(self, round: int) -> States:
        """The states after one of the rounds. Raises KeyError for one that was not watched."""
        if _checks.round_of("at", "round", round) not in self._rounds:
            raise Missing(f"round {round} was not watched: there is no such round among those that were asked for")
        return self._states(self._rounds.index(round))

    def __iter__(self) -> Iterator[States]:
        """The states after each round, in rising order."""
        return (self._states(place) for place in range(len(self._rounds)))

    def __len__(self) -> int:
        """How many rounds there are."""
        return len(self._rounds)

    def to_pandas(self, missing: bool = True) -> Any:
        """A frame with a row for each node in each round, whose index is round and node, and a column for each field, of type UInt32, in which
        `NONE` is missing (`<NA>`). With `missing=False` all values are numbers, of type uint32. Needs pandas, and raises ImportError where it
        is not there."""
        pandas = pandas_or_tell()
        numbers = [round for round in self._rounds for _ in range(self._nodes)]
        called = pandas.Index(list(self.names) * len(self._rounds), tupleize_cols=False)
        return self._frame(pandas, pandas.MultiIndex.from_arrays([numbers, called], names=["round", "node"]), missing)

    def _repr_html_(self) -> str:
        """What a notebook shows: of a small run a page to step through it, made by the proved program where it is at hand; else a table of the
        first and the last nodes and rounds."""
        return _notebook.page_of(self, self._rounds) or _notebook.table_of_rounds(self)

    def __repr__(self) -> str:
        return f"<{len(self._rounds)} rounds of {self._nodes} nodes: {', '.join(self._fields)}>"


class Settling(NamedTuple):
    """What becomes of the rounds."""

    #: `settles`: from `round` on no state changes. `repeats`: from `round` on the states come again every `period` rounds, and no
    #: earlier. `open`: up to `round`, the limit, no two rounds have the same states.
    manner: str
    round: int
    #: How many rounds later the states come again, two or more, where they repeat; else 0.
    period: int


class Replayed(Table):
    """What stands there after the steps of a schedule: each node's count of moves, and its state.

    >>> import unison
    >>> program = unison.Program("field s = 0; next s = total n.s;")
    >>> network = unison.Network(2, [(0, 1)], set={"s": [5, 7]})
    >>> replayed = unison.replay(program, network, "read 0 0\\nwrite 0\\n", stop=10)
    >>> replayed.moves_by_name(), replayed.by_name("s")
    ({0: 1, 1: 0}, {0: 7, 1: 7})
    """

    def __init__(
        self,
        report: str,
        counts: "array[int]",
        fields: Sequence[str],
        nodes: int,
        words: "array[int]",
        names: Optional[Sequence[Name]] = None,
    ) -> None:
        super().__init__(fields, nodes, words, names)
        self._report = report
        self._counts = counts

    @property
    def moves(self) -> Any:
        """How often each node has moved, counted from round 0: an array of shape (nodes,) and type uint32, else a list."""
        return shaped(self._counts[:], (self._nodes,))

    def moves_by_name(self) -> Dict[Name, int]:
        """How often each node has moved, by its name."""
        return dict(zip(self.names, self._counts))

    def report(self) -> str:
        """The replay report (docs/formats.md): what `unison replay` prints."""
        return self._report

    def to_pandas(self, missing: bool = True) -> Any:
        """A frame with a row for each node, a column `moves` (`(moves)` where a field is called so) and one for each field, as those of
        `States`. Needs pandas."""
        pandas = pandas_or_tell()
        frame = super().to_pandas(missing)
        called = "(moves)" if "moves" in self._fields else "moves"
        frame.insert(0, called, pandas.array(list(self._counts), dtype="uint32"))
        return frame

    def __repr__(self) -> str:
        return f"<States of {self._nodes} nodes after {sum(self._counts)} moves: {', '.join(self._fields)}>"
