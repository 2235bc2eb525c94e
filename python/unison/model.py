"""Models: programs as people write them (docs/models.md), expanded by the proved library."""

from __future__ import annotations

import json
import os
import re
from decimal import Decimal
from functools import cached_property
from pathlib import Path
from typing import Any, Dict, List, Mapping, Optional, Sequence, Tuple, Union

from . import _calls, _checks, _programs
from ._document import Document, write
from .faults import Missing
from .program import Program

FILE = "text.model"  # how messages call a model that has no file
MOST_STATES = 256
MOST_FIELDS = 8
COMMENT = re.compile(r"#[^\n]*")
CONSTANT = re.compile(r"\bconst\s+([A-Za-z]\w*)\s*=[^;]*;")
STATES = re.compile(r"\bstates\s+[A-Za-z]\w*\s*\{[^}]*\}")
SEED = "seed"  # the constant that every model has
CHANCE = r"\bconst\s+{}\s*=[\s(]*chance\b"  # a constant of this name that is a chance
MEMBERS = re.compile(r"\bstates\s+[A-Za-z]\w*\s*\{([^}]*)\}")
WANTED = "a whole number from 0 to 4294967295, a float from 0 to 1 for a chance, or the name of a state is wanted"
Value = Union[int, float, str]


class Model(Program):
    """A model: a program with names for constants, states and parts, and operators without brackets. It is expanded to a program when it is
    made, and stands wherever a `Program` may.

    - `text`: the model, as text or bytes (docs/models.md).
    - `constants`: values for constants of the model, in place of those that its text gives them: whole numbers from 0 to 4294967295, a float
      from 0 to 1 where the constant is a chance, or the name of a state.

    Raises `ModelError`, with the place, where the text is no model, or has no such constant.

    >>> import unison
    >>> model = unison.Model('''
    ...     const wanted = 2;
    ...     states light { dark, bright }
    ...     field lamp: light = dark;
    ...     next lamp = if count(n.lamp == bright) >= wanted then bright else lamp;
    ... ''')
    >>> model.fields, model.states, model.constants
    (('lamp',), {'lamp': ('dark', 'bright')}, {'wanted': 2, 'seed': 0})
    >>> print(model.with_constants(wanted=1).canonical, end="")
    field lamp = 0;
    next lamp = if (count (n.lamp == 1) >= 1) then 1 else lamp;
    """

    def __init__(self, text: Union[str, bytes], constants: Optional[Mapping[str, Value]] = None) -> None:
        source = _checks.text("Model", "text", text)
        self._take(source, constants_of("Model", constants, source), FILE)

    def _take(self, source: bytes, given: Dict[str, int], called: str) -> None:
        """Takes the program to which a model of this text, in a file that is called so, is expanded."""
        self._source, self._given, self._called = source, given, called
        super().__init__(_calls.expand(source, given, called))

    @classmethod
    def from_file(cls, path: Union[str, os.PathLike[str]], constants: Optional[Mapping[str, Value]] = None) -> Model:
        """The model in a file, by whose name mistakes are told.

        `unison.Model.from_file("examples/models/epidemic.model", {"seed": 3})`
        """
        file = Path(_checks.path("Model.from_file", "path", path))
        model = cls.__new__(cls)
        called = file.name if file.suffix == ".model" else f"{file.name}.model"
        source = file.read_bytes()
        model._take(source, constants_of("Model.from_file", constants, source), called)
        return model

    def with_constants(self, constants: Optional[Mapping[str, Value]] = None, **more: Value) -> Model:
        """The same model with these values for these constants, given by name or in a dict; constants that are not named keep theirs.

        Each model has the constant `seed`, 0 where its text has none, by which its random numbers are drawn.
        """
        call = "Model.with_constants"
        given = {**constants_of(call, constants, self._source), **constants_of(call, more, self._source)}
        other = type(self).__new__(type(self))
        other._take(self._source, {**self._given, **given}, self._called)
        return other

    @property
    def source(self) -> str:
        """The text of the model. `text` is that of its program."""
        return self._source.decode("utf-8", "surrogateescape")

    @property
    def program(self) -> Program:
        """The program to which the model is expanded. Its text has comments with the lines of the model."""
        return Program(self.text)

    @cached_property
    def constants(self) -> Dict[str, int]:
        """The value of each constant, in the order of the text, and of `seed`. A chance is the number nearest to 65536 times it."""
        bare = COMMENT.sub("", self.source)
        items = [found[0] for pattern in (CONSTANT, STATES) for found in pattern.finditer(bare)]
        names = [found[1] for found in CONSTANT.finditer(bare)]
        values = values_of(items, names, self._given)
        return {**values, **({} if SEED in values else {SEED: self._given.get(SEED, 0)})}

    @cached_property
    def states(self) -> Dict[str, Tuple[str, ...]]:
        """The names of the states of each field that has states, that of state 0 first."""
        every = [(state, state) for state in range(MOST_STATES)]
        network = write(Document(MOST_STATES, [], 0, {field: every for field in self.fields}))
        words = ["watch", *self._words(), "--rounds", "0..0", "--format", "json", "--", self._called, "states.toml"]
        told = _programs.run(words, files={**self._files(), "states.toml": network.encode("ascii")})
        return states_in(told.decode("utf-8"), self.fields)

    def _words(self) -> List[str]:
        """The words that give constants their values."""
        return [f"--const={name}={value}" for name, value in self._given.items()]

    def _files(self) -> Dict[str, bytes]:
        return {self._called: self._source}

    def __repr__(self) -> str:
        given = "".join(f", {name}={value}" for name, value in self._given.items())
        return f"<Model with the fields {', '.join(self.fields)}{given}>"


def constants_of(call: str, given: Any, source: bytes) -> Dict[str, int]:
    """Values for constants of a model of this text, by their names; none for None."""
    if given is None:
        return {}
    if not isinstance(given, Mapping):
        _checks.refuse(call, "constants", given, "a dict from names of constants to values is wanted")
    for name in given:
        if not isinstance(name, str):
            _checks.refuse(call, "constants", given, f"a dict is wanted whose keys are names of constants, and {name!r} is none")
    text = COMMENT.sub("", source.decode("utf-8", "surrogateescape"))
    return {name: number_of(call, text, name, value) for name, value in given.items()}


def number_of(call: str, text: str, name: str, value: Any) -> int:
    """The number of a value for a constant: a chance is the number nearest to 65536 times it, a state is counted from 0 among those that stand
    with it."""
    if isinstance(value, str):
        return state_number(call, text, name, value)
    if isinstance(value, float):
        return chance_number(call, text, name, value)
    return _checks.whole(call, name, value)


def is_chance(text: str, name: str) -> bool:
    """Whether the constant of this name is a chance in a model's text without comments; one that is not there may be."""
    return bool(re.search(CHANCE.format(re.escape(name)), text)) or name not in (found[1] for found in CONSTANT.finditer(text))


def chance_number(call: str, text: str, name: str, value: float) -> int:
    """The number nearest to 65536 times a float from 0 to 1, for a constant that is a chance."""
    if not is_chance(text, name):
        _checks.refuse(call, name, value, f"a whole number from 0 to 4294967295 is wanted, since the model does not say {name} = chance(..)")
    if not 0 <= value <= 1:
        raise ValueError(f"{call}: {name} is {value}: a chance is a float from 0 to 1")
    return int(Decimal(value) * 65536 + Decimal("0.5"))


def state_number(call: str, text: str, name: str, value: str) -> int:
    """The number of a state of this name."""
    for found in MEMBERS.finditer(text):
        members = [member.strip() for member in found[1].split(",")]
        if value in members:
            return members.index(value)
    raise Missing(f"{call}: {name} is {value!r}, which is no state of the model: {WANTED}")


def values_of(items: Sequence[str], names: Sequence[str], given: Mapping[str, int]) -> Dict[str, int]:
    """The values of constants, which the items of a model declare, where some are given: each is the initial value of a field of a model of
    these items alone."""
    values: Dict[str, int] = {}
    probe = "probe"
    while any(probe in item for item in items):
        probe += "e"
    for first in range(0, len(names), MOST_FIELDS):
        part = names[first : first + MOST_FIELDS]
        text = "\n".join([*items, *(f"field {probe}{place} = {name};" for place, name in enumerate(part))])
        told = _calls.expand(text.encode("utf-8"), given, FILE)
        values.update(zip(part, Program(told).initial_values.values()))
    return values


def states_in(told: str, fields: Sequence[str]) -> Dict[str, Tuple[str, ...]]:
    """The names of states, which `watch` tells of nodes that have them one after the other."""
    nodes = [json.loads(line) for line in told.splitlines()]
    named = {field: tuple(node[field] for node in nodes if isinstance(node[field], str)) for field in fields}
    return {field: names for field, names in named.items() if names}
