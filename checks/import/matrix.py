"""Matrix Market, read as docs/commands/import.md describes it. Where a line has several faults, docs/commands/import.md does not say which is told: all are allowed."""

import re

from edges import line_fault, rows
from network import Fault, Item, number_of, weight_of


def field_of(line, options):
    """What the first line says the values are."""
    words = re.sub(rb"[\t\r,]", b" ", line.lower()).split(b" ")
    words = [word for word in words if word]
    if words[:2] != [b"%%matrixmarket", b"matrix"]:
        raise Fault("?header" if line_fault(line) else "NoHeader", 1)
    if len(words) != 5 or line_fault(line) or words[2] not in (b"coordinate", b"array"):
        raise Fault("?header", 1)
    kinds = {
        "ArrayFormat": words[2] == b"array",
        "UnknownField": words[3] not in (b"pattern", b"integer", b"real"),
        "UnknownSymmetry": words[4] not in (b"symmetric", b"general"),
        "Directed": words[4] == b"general" and not options.undirected,
    }
    if any(kinds.values()):
        raise Fault("|".join(kind for kind, holds in kinds.items() if holds), 1)
    return words[3]


def size_of(number, line, words, end):
    """How many nodes and entries there are."""
    kinds = {line_fault(line), {1: "OneWord", 2: None, 3: None}.get(len(words), "TooManyWords")} - {None}
    if kinds or len(words) != 3 or not all(word.isdigit() for word in words):
        raise Fault("|".join({"BadSize", *kinds}), number)
    across, down, entries = map(number_of, words)
    kinds = {"NotSquare": across != down, "NoNodes": 0 in (across, down), "TooManyNodes": max(across, down) > 65536}
    if any(kinds.values()):
        raise Fault("|".join(kind for kind, holds in kinds.items() if holds), number, *([0] if kinds["NoNodes"] else []))
    if entries >= 2**64:  # docs/commands/import.md sets no bound: nobody has so many
        raise Fault("BadSize|TooFewEntries", number, *end)
    return across, entries


def entry_of(line, words, field, nodes, scale):
    """The two nodes of an entry, its weight and whether that was rounded; and the kinds of its faults."""
    pattern = field == b"pattern"
    good = [word.isdigit() and 1 <= number_of(word) <= nodes for word in words[:2]]
    weight = weight_of(words[2], scale) if len(words) == 3 and not pattern else (scale or 1, False)
    kinds = {
        line_fault(line): True,
        "OneWord": len(words) == 1,
        "TooManyWords": len(words) > 3,
        "ValueInPattern": pattern and len(words) > 2,
        "NoValue": not pattern and len(words) == 2,
        "BadIndex": not all(good),
        weight if isinstance(weight, str) else None: True,
    }
    kinds = {kind for kind, holds in kinds.items() if kind and holds}
    return (words[:2], weight, kinds)


def read(text, options):
    """The size of a matrix, as its last node, and its entries as edges."""
    first, _, rest = text.partition(b"\n")
    field = field_of(first, options)
    lines, end = rows(rest, 2), {0, text.count(b"\n"), text.count(b"\n") + 1}
    size = next(lines, None)
    if size is None:
        raise Fault("NoSize", *end)
    nodes, entries = size_of(*size, end)
    yield Item({size[0]}, [nodes - 1])
    found = 0
    for number, line, words in lines:
        found += 1
        ends, weight, kinds = entry_of(line, words, field, nodes, options.scale)
        if kinds or found > entries:
            raise Fault("|".join({*kinds, *(["TooManyEntries"] if found > entries else [])}), number)
        yield Item({number}, [number_of(end) - 1 for end in ends], *weight)
    if found < entries:
        raise Fault("TooFewEntries", *end, size[0])
