"""What all formats share: weights, refusals, and the network that the edges of a text make."""

import collections
import fractions
import re
import types

MOST = 4294967295
NUMBER = re.compile(rb"(?:([0-9]+)(?:\.([0-9]*))?|\.([0-9]+))(?:[eE]([+-]?)([0-9]+))?")
MERGED = {"min": min, "max": max, "first": lambda old, new: old}
OLD_WORDS = {"least": "min", "most": "max", "first": "first"}  # of `--merge-doubles`, an old name of `--parallel`

# A node, which has one end, or an edge, which has two. An end is a name, or a number of a node.
Item = collections.namedtuple("Item", "lines ends weight rounded", defaults=(1, False))


class Fault(Exception):
    """A refusal: the kinds that it may have, `?WHAT` where docs/commands/import.md names none, and the lines that may be told, 0 for none; of a parallel edge also the lines of
    the earlier edge."""

    def __init__(self, kinds, *lines, earlier=()):
        super().__init__()
        self.kinds, self.lines, self.earlier = set(kinds.split("|")), set(lines), earlier

    def __str__(self):
        return "|".join(sorted(self.kinds)) + " " + "|".join(map(str, sorted(self.lines)))


class Taken:
    """A text that is taken: its network, the names of its nodes, and how many edges were dropped, merged and rounded."""

    def __init__(self, count, names, links, counts):
        self.links = [(one, other) if weight == 1 else (one, other, weight) for one, other, weight, _ in links]
        rows = "".join(f"    {list(link)},\n" for link in self.links)
        self.network = f"links = [\n{rows}]\nnodes = {count}\nphase = 0\n".encode()
        self.count, self.called, self.counts = count, names, +counts
        self.names = None if names is None else b"".join(name + b"\n" for name in names)

    def __str__(self):
        names = f"#{self.count}" if self.called is None else b"|".join(self.called).decode()
        links = ", ".join(" ".join(map(str, link)) for link in self.links)
        return f"{names}: {links}" + "".join(f"; {key} {self.counts[key]}" for key in sorted(self.counts))

    def by_name(self):
        """The nodes, and the links between their names, without an order."""
        return set(self.called), {(frozenset(self.called[end] for end in link[:2]), *link[2:]) for link in self.links}


def options_of(words):
    """The options that the words of a command say."""
    words = words.split()
    value = {option: words[at + 1] for at, option in enumerate(words[:-1])}
    flags = {key: f"--{word}" in words for key, word in
             {"header": "header", "numbers": "numbers", "undirected": "undirected", "drop": "drop-loops"}.items()}
    scale = int(value["--scale"]) if "--scale" in value else None
    parallel = value.get("--parallel", OLD_WORDS.get(value.get("--merge-doubles")))
    gaps = value.get("--delimiter", value.get("--separator")) in ("any", "blank")
    columns = value["--columns"].split(",") if "--columns" in value else None
    return types.SimpleNamespace(scale=scale, parallel=parallel, gaps=gaps, columns=columns, **flags)


def number_of(digits):
    """The number that digits say, or a very large one where they are very many."""
    digits = digits.lstrip(b"0")
    return int(digits or b"0") if len(digits) <= 30 else 10**30


def weight_of(word, scale):
    """The weight that a word says and whether it was rounded, or the kind of its fault."""
    found = NUMBER.fullmatch(word)
    if not found:
        return "Negative" if word[:1] == b"-" and NUMBER.fullmatch(word[1:]) else "BadWeight"
    if scale is None and not word.isdigit():
        return "Decimal"
    if scale is None:
        return (number_of(word), False) if number_of(word) <= MOST else "WeightTooLarge"
    whole, part, only, sign, exponent = (piece or b"" for piece in found.groups())
    digits = number_of(whole + part + only)
    if digits >= 2**64:
        return "TooManyDigits"
    power = number_of(exponent) * (-1 if sign == b"-" else 1) - len(part + only)
    exact = digits * scale * fractions.Fraction(10) ** max(-60, min(60, power))
    nearest = int(exact + fractions.Fraction(1, 2))
    return (nearest, nearest != exact) if nearest <= MOST else "WeightTooLarge"


def weighed(word, scale, *lines):
    """The weight that a word says, and whether it was rounded."""
    answer = weight_of(word, scale)
    if isinstance(answer, str):
        raise Fault(answer, *lines)
    return answer


class Join:
    """Numbers the nodes, and settles self-loops and parallel edges. Of each sort of fault the first is kept."""

    def __init__(self, options):
        self.options, self.count, self.names, self.pairs = options, 0, {}, {}
        self.counts, self.faults = collections.Counter(), {}

    def number(self, end, lines):
        """The number of the node that an end names."""
        if isinstance(end, bytes) and self.options.numbers:
            large = number_of(end) > 65535 if end.isdigit() else None
            if large is not False:
                self.faults.setdefault("name", Fault("NumberTooLarge" if large else "NoNumber", *lines))
                return end
            end = number_of(end)
        if end == b"":
            self.faults.setdefault("name", Fault("BadName", *lines))
        if isinstance(end, int):
            self.count = max(self.count, end + 1)
            return end
        if end not in self.names and self.count == 65536:
            self.faults.setdefault("name", Fault("TooManyNodes", *lines))
        number = self.names.setdefault(end, len(self.names))
        self.count = len(self.names)
        return number

    def add(self, item):
        ends = [self.number(end, item.lines) for end in item.ends]
        if len(ends) == 1:
            return
        self.counts["rounded"] += item.rounded
        pair = frozenset(ends)
        if len(pair) == 1:
            self.counts["dropped"] += 1
            if not self.options.drop:
                self.faults.setdefault("self-loop", Fault("?self-loop", *item.lines))
        elif pair in self.pairs:
            self.counts["merged"] += 1
            link = self.pairs[pair]
            link[2] = MERGED[self.options.parallel or "first"](link[2], item.weight)
            if not self.options.parallel:
                self.faults.setdefault("parallel", Fault("?parallel", *item.lines, earlier=link[3]))
        else:
            self.pairs[pair] = [*ends, item.weight, item.lines]

    def bounds(self):
        """The fault of a network that is beyond the bounds, which is told without a line, or None."""
        near = collections.Counter(end for pair in self.pairs for end in pair)
        broken = {"?no-nodes": self.count == 0, "?links": len(self.pairs) > 262144, "?neighbours": max(near.values(), default=0) > 4096}
        kinds = [kind for kind, holds in broken.items() if holds]
        return Fault("|".join(kinds), 0) if kinds else None


def outcome_of(items, options, named):
    """What becomes of the items that a reader yields: a fault of the text comes first, then one of names, of self-loops, of parallel edges, of the bounds."""
    join = Join(options)
    try:
        for item in items:
            join.add(item)
    except Fault as fault:
        return fault
    fault = next((join.faults[sort] for sort in ("name", "self-loop", "parallel") if sort in join.faults), None) or join.bounds()
    names = list(join.names) if named and not options.numbers else None
    return fault or Taken(join.count, names, join.pairs.values(), join.counts)
