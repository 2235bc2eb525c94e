"""The words that give nodes initial values, FIELD=NODE:VALUE, with * for all nodes and A..B for those from A to B; and other words."""

import re
from typing import Any, List, Mapping, Sequence, Tuple

import numpy as np

from .faults import usage
from .network import Array

MOST, MOST_ROUNDS = 4294967295, 1_000_000_000
WORD = re.compile(r"(?P<field>[^=]+)=(?P<nodes>\*|[0-9]{1,12}|[0-9]{1,12}\.\.[0-9]{1,12}):(?P<value>[0-9]{1,12})")
Setting = Tuple[int, int, int, int]  # the nodes from the second to the third, both included, get the fourth in the column that is the first


def number(option: str, word: Any, least: int, most: int = MOST_ROUNDS) -> int:
    """The number that a word is to be."""
    if not re.fullmatch("[0-9]{1,12}", str(word)) or not least <= int(word) <= most:
        raise usage(f"{option}: expected a whole number from {least} to {most}, found `{word}`")
    return int(word)


def column_of(option: str, field: str, fields: Sequence[str]) -> int:
    """Which of the program's fields this is."""
    if field not in fields:
        raise usage(f"{option}: the program has no field `{field}`; its fields are {', '.join(fields) or 'none'}")
    return fields.index(field)


def setting_of(word: str, fields: Sequence[str], nodes: int) -> Setting:
    """What a word of --set asks for."""
    found = WORD.fullmatch(word)
    if found is None or int(found["value"]) > MOST:
        raise usage(f"--set: expected FIELD=NODE:VALUE, with a whole number from 0 to {MOST} behind the last colon, found `{word}`")
    column = column_of("--set", found["field"], fields)
    first, _, last = ("0", "..", str(nodes - 1)) if found["nodes"] == "*" else found["nodes"].partition("..")
    if not int(first) <= int(last or first) < nodes:
        raise usage(f"--set: {found['field']}: expected * or a node's number below {nodes}, or A..B, found `{found['nodes']}`")
    return column, int(first), int(last or first), int(found["value"])


def until_of(word: str, fields: Sequence[str]) -> Tuple[int, int]:
    """The column and the value of a word of --until."""
    field, _, value = word.partition("=")
    return column_of("--until", field, fields), number(f"--until FIELD=VALUE: {field}", value, 0, MOST)


def initial_words(numbers: Array, initial: Mapping[str, int], columns: Any, settings: List[Setting]) -> Array:
    """The initial states of these nodes: (nodes, fields) uint32. Of several words the last counts, and words count over what the network sets."""
    words = np.tile(np.array(list(initial.values()), dtype=np.uint32), (numbers.size, 1))
    columns.put(words, numbers)
    for column, first, last, value in settings:
        words[(numbers >= first) & (numbers <= last), column] = value
    return words
