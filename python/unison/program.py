"""Programs."""

from __future__ import annotations

import os
import re
from pathlib import Path
from typing import Dict, Tuple, Union

from . import _calls, _checks

FIELD = re.compile(r"^field ([A-Za-z0-9_]+) = ([0-9]+);$", re.MULTILINE)


class Program:
    """A program text, checked when it is made.

    `text` is a program in the rule language (docs/language.md), as text or bytes. Raises `ProgramError` where it is refused.

    >>> import unison
    >>> program = unison.Program("field dist=4294967295; next dist = (dist min least (n.dist + 1));  # distances")
    >>> program.fields
    ('dist',)
    >>> print(program.canonical, end="")
    field dist = 4294967295;
    next dist = (dist min least (n.dist + 1));
    """

    def __init__(self, text: Union[str, bytes]) -> None:
        self._text = _checks.text("Program", "text", text)
        self._canonical = _calls.check(self._text).decode("ascii")
        self._initial = {name: int(value) for name, value in FIELD.findall(self._canonical)}

    @classmethod
    def from_file(cls, path: Union[str, os.PathLike[str]]) -> Program:
        """The program in a file.

        `unison.Program.from_file("examples/distance.rules")`
        """
        return cls(Path(_checks.path("Program.from_file", "path", path)).read_bytes())

    @property
    def text(self) -> bytes:
        """The text that the program was made of."""
        return self._text

    @property
    def canonical(self) -> str:
        """The program in its one canonical spelling: each item on a line, without comments."""
        return self._canonical

    @property
    def fields(self) -> Tuple[str, ...]:
        """The names of the fields, in order of declaration: at most eight."""
        return tuple(self._initial)

    @property
    def initial_values(self) -> Dict[str, int]:
        """The initial value of each field, which a network's `set` replaces node by node."""
        return dict(self._initial)

    openings = initial_values  # an old name

    @property
    def reads_round(self) -> bool:
        """Whether an expression reads the number of the round. `unison.settle` refuses such a program."""
        return re.search(r"\bround\b", self._canonical) is not None

    def __eq__(self, other: object) -> bool:
        """Programs are equal where their canonical spellings are."""
        if not isinstance(other, Program):
            return NotImplemented
        return self._canonical == other._canonical

    def __hash__(self) -> int:
        return hash(self._canonical)

    def __repr__(self) -> str:
        return f"Program({self._canonical!r})"
