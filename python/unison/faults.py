"""Why a call was refused: the numbers of the library's faults, and the exceptions that they are raised as."""

from __future__ import annotations

import re
from typing import Dict, Optional, Tuple, Type

MEMORY = 1
ROOM = 2

#: For each number that the library answers (library/unison.h) the part and the name of the fault, as in docs/formats.md.
FAULTS: Dict[int, Tuple[str, str]] = {
    # Made from library/faults.toml by library/faults:
    3: ("library", "Never"),
    4: ("run", "NotRising"),
    5: ("library", "NoJob"),
    16: ("program", "TooLong"),
    17: ("program", "Lex"),
    18: ("program", "Syntax"),
    32: ("program", "TooManyFields"),
    33: ("program", "FieldTwice"),
    34: ("program", "NextTwice"),
    35: ("program", "UnknownName"),
    36: ("program", "NeighbourOutside"),
    37: ("program", "NestedAggregate"),
    38: ("program", "TooManyAggregates"),
    48: ("network", "NotToml"),
    49: ("network", "UnknownKey"),
    50: ("network", "BadShape"),
    51: ("network", "NodeCount"),
    52: ("network", "BadLink"),
    53: ("network", "SelfLink"),
    54: ("network", "LinkTwice"),
    55: ("network", "TooManyLinks"),
    56: ("network", "TooManyNeighbours"),
    57: ("network", "BadPhase"),
    58: ("network", "BadWeight"),
    64: ("plan", "UnknownField"),
    65: ("plan", "BadNode"),
    66: ("plan", "BadValue"),
    67: ("plan", "SetTwice"),
    80: ("run", "TooManyRounds"),
    81: ("run", "RoundsBelowStart"),
    96: ("schedule", "BadLine"),
    97: ("schedule", "TooManySteps"),
    98: ("run", "StopTooLarge"),
    99: ("run", "StopBelowStart"),
    112: ("report", "BadLine"),
    113: ("report", "TooManyRounds"),
    128: ("program", "ReadsRound"),
    129: ("run", "LimitTooLarge"),
    130: ("run", "LimitBelowStart"),
    144: ("lists", "NodeCount"),
    145: ("lists", "Offsets"),
    146: ("lists", "TooManyNeighbours"),
    147: ("lists", "Neighbour"),
    148: ("lists", "WeightCount"),
    149: ("lists", "WordCount"),
    150: ("lists", "NumberCount"),
    151: ("lists", "RoomCount"),
    152: ("lists", "NoField"),
    153: ("lists", "TooManyValues"),
    160: ("model", "TooLong"),
    161: ("model", "Lex"),
    162: ("model", "Syntax"),
    163: ("model", "TooManyFields"),
    164: ("model", "TooManyStates"),
    165: ("model", "NameTwice"),
    166: ("model", "NextTwice"),
    167: ("model", "NoField"),
    168: ("model", "UnknownStates"),
    169: ("model", "UnknownGiven"),
    170: ("model", "UnknownName"),
    171: ("model", "UnknownNear"),
    172: ("model", "WrongCount"),
    173: ("model", "WrongArguments"),
    174: ("model", "NeighbourOutside"),
    175: ("model", "NestedAggregate"),
    176: ("model", "NotSeen"),
    177: ("model", "Ring"),
    178: ("model", "NotConstant"),
    179: ("model", "OutOfRange"),
    180: ("model", "NoState"),
    181: ("model", "TooDeep"),
    182: ("model", "TooManyAggregates"),
    192: ("constants", "NotUtf8"),
    193: ("constants", "Unended"),
    194: ("constants", "ValueCount"),
    # (end of what is made)
}

#: What is told where the library's `unison_why` finds no such fault: it looks at checks, rounds and replays alone.
MEANINGS = {
    # Made from library/faults.toml by library/faults:
    4: "a round of the list is not above the one before it",
    80: "the round is above 1000000000",
    81: "the round lies before that of the report to go on from",
    98: "the stop is above 1000000000",
    99: "the stop lies before the round of the report to go on from",
    128: "the program reads the number of the round, so that equal states need not lead to equal states",
    129: "the limit is above 1000000000",
    130: "the limit lies before the round of the report to go on from",
    # (end of what is made)
}

PLACE = re.compile(r"[^:\n]*:([0-9]+):([0-9]+): ")
TOLD = re.compile(r"fault: (\S+)(?: ([A-Z]\w*))?([^\n]*)\n?")
OPTION = re.compile(r"--([a-z]+(?:-[a-z]+)*)")
OPTIONS = {"const": "constants", "every": "a range by steps of"}  # how arguments are called that are not called as the option
NO_NUMBER = 0  # of a fault that a program tells, and that no call of the library has


def place_in(diagnosis: str) -> Optional[Tuple[int, int]]:
    """Line and column that a diagnosis tells, in its first line, or in the second where the first is the fault's name."""
    found = [place for place in map(PLACE.match, diagnosis.splitlines()[:2]) if place]
    return (int(found[0][1]), int(found[0][2])) if found else None


class UnisonError(ValueError):
    """A text, or a number, that the library refuses, or one of the proved programs. Its subclasses say which part is at fault.

    >>> import unison
    >>> try:
    ...     unison.Program("field s = 0; next s = (s + 1;")
    ... except unison.UnisonError as error:
    ...     print(error.part, error.name, error.number, error.place)
    program Syntax 18 (1, 29)
    """

    #: The part at fault: `program`, `network`, `lists` of arrays, `plan`, `report`, `schedule` or `run`; `model`, `trace`, `image`,
    #: `page`, `usage` and others where a proved program tells it.
    part: str
    #: The fault's name, as in docs/formats.md: `Syntax`, `BadLink`, ..
    name: str
    #: The fault's number, as in library/unison.h; 0 where no call of the library has it.
    number: int
    #: What is wrong, where, and what to do: some lines of text; empty where there is nothing to be told.
    diagnosis: str
    #: Line and column of the text at fault, both from 1; None where the fault has no place in a text.
    place: Optional[Tuple[int, int]]

    def __init__(self, number: int, diagnosis: str = "", called: Optional[Tuple[str, str]] = None) -> None:
        self.number = number
        self.part, self.name = FAULTS.get(number, ("library", f"Fault{number}")) if called is None else called
        self.diagnosis = diagnosis
        self.place = place_in(diagnosis)
        super().__init__(number, diagnosis, called)

    def __str__(self) -> str:
        if self.diagnosis:
            return self.diagnosis.rstrip("\n")
        meaning = MEANINGS.get(self.number)
        return f"{self.part} {self.name}" + (f": {meaning}" if meaning else "")


class Missing(KeyError):
    """There is no node, field or round of this name. The text is shown as it is, where KeyError shows it in quotes."""

    def __str__(self) -> str:
        return str(self.args[0])


class ProgramError(UnisonError):
    """A program's text is refused."""


class ModelError(ProgramError):
    """A model's text, or a value for one of its constants, is refused."""


class NetworkError(UnisonError):
    """A network is refused."""


class PlanError(UnisonError):
    """The initial values of a network are refused, beside the program that they are for."""


class ReportError(UnisonError):
    """A report to go on from is refused."""


class ScheduleError(UnisonError):
    """A schedule is refused."""


class RunError(UnisonError):
    """A round, a stop or a limit is refused."""


class TraceError(UnisonError):
    """A line of a trace says no step."""


class PictureError(UnisonError):
    """A picture or a page is refused, since it would have more than it can show."""


class UsageError(UnisonError):
    """The arguments of a call do not go together."""


KINDS: Dict[str, Type[UnisonError]] = {
    "program": ProgramError,
    "network": NetworkError,
    "lists": NetworkError,
    "plan": PlanError,
    "report": ReportError,
    "schedule": ScheduleError,
    "run": RunError,
    "model": ModelError,
    "trace": TraceError,
    "image": PictureError,
    "page": PictureError,
    "usage": UsageError,
}
NUMBERS = {called: number for number, called in FAULTS.items()}


def error_of(number: int, diagnosis: str = "") -> UnisonError:
    """The exception for the number of a fault."""
    part, _ = FAULTS.get(number, ("library", ""))
    return KINDS.get(part, UnisonError)(number, diagnosis)


def fault_of(number: int, diagnosis: str = "") -> Exception:
    """The exception for an answer of the library."""
    return MemoryError("unison: out of memory") if number == MEMORY else error_of(number, diagnosis)


def in_words_of_calls(error: UnisonError, call: str) -> UnisonError:
    """The fault of a program with the arguments of a call in place of the options of a command line."""
    if not isinstance(error, (UsageError, PictureError)):
        return error
    told = OPTION.sub(lambda found: OPTIONS.get(found[1], found[1].replace("-", "_")), error.diagnosis)
    if isinstance(error, UsageError):
        told = f"{call}: {told}"
    return type(error)(error.number, told, (error.part, error.name))


def told_by_program(text: str) -> Exception:
    """The exception for what a program tells on standard error: `fault: PART NAME`, and below it where and what to do."""
    found = TOLD.match(text)
    if found is None:
        return UnisonError(NO_NUMBER, text, ("program", "Unknown"))
    part, name = found[1], found[2] or found[1].capitalize()
    if part == "memory":
        return MemoryError("unison: out of memory")
    below = text[found.end() :]
    diagnosis = below if part == "usage" and below else f"{part} {name}{found[3]}\n{below}"
    return KINDS.get(part, UnisonError)(NUMBERS.get((part, name), NO_NUMBER), diagnosis, (part, name))
