"""Networks of shapes, and random ones, made by the proved makers: `unison generate`, which packs those that are more than a network file has."""

from __future__ import annotations

from fractions import Fraction
from numbers import Rational, Real
from typing import TYPE_CHECKING, Any, Iterable, Mapping, Optional, Tuple

from . import _checks, _programs, faults

if TYPE_CHECKING:
    from .network import InitialValues, Network

    Sets = Optional[Mapping[str, InitialValues]]

MOST_NODES, MOST_LINKS, MOST_NEIGHBOURS = 65536, 262144, 4096  # of a network file
PACKED = "it is written as a packed network"  # what is told where only a packed network has what is asked for
Weights = Optional[Tuple[int, int]]


class Recipe:
    """What is asked of a maker: the words of the command, and how large the network becomes."""

    def __init__(self, call: str, shape: str, sizes: Mapping[str, Any]) -> None:
        self.call, self.shape = f"Network.{call}", shape
        self.sizes = [_checks.whole(self.call, name, value) for name, value in sizes.items()]
        self.words = [shape, *map(str, self.sizes)]
        self.links = 0  # how many, where they may be too many for a network file though its nodes are not
        self.neighbours = 0  # how many a node has at most, where they may be too many for a network file though its links are not
        self.has_weighted_shape = False  # of which none is made that is more than a network file has

    def number(self, name: str, value: Any) -> int:
        """A whole number that an option has."""
        number = _checks.whole(self.call, name, value)
        self.words.append(f"--{name.replace('_', '-')}={number}")
        return number

    def decimal(self, name: str, value: Any, most: int, digits: int, unit: str = "") -> None:
        """A number with a point that an option has, rounded to so many digits behind the point, and its unit."""
        wanted = f"a number from 0 to {most} is wanted"
        if isinstance(value, bool) or not (isinstance(value, Real) or hasattr(value, "as_integer_ratio")):
            _checks.refuse(self.call, name, value, wanted)
        try:
            number = Fraction(value if isinstance(value, Rational) or hasattr(value, "quantize") else float(value))
        except (ValueError, OverflowError):
            _checks.refuse(self.call, name, value, wanted, ValueError)
        if not 0 <= number <= most:
            _checks.refuse(self.call, name, value, wanted, ValueError)
        before, behind = divmod(round(number * 10**digits), 10**digits)
        self.words.append(f"--{name}={before}.{behind:0{digits}d}{unit}")

    def blocks(self, value: Any) -> None:
        """The number of nodes of each block."""
        sizes = _checks.items(self.call, "sizes", value, "a list, the number of nodes of each block,")
        if not sizes:
            _checks.refuse(self.call, "sizes", value, "the number of nodes of one block or more is wanted", ValueError)
        self.words.append(",".join(str(_checks.whole(self.call, f"sizes[{place}]", size)) for place, size in enumerate(sizes)))

    def diagonals(self, value: Any) -> bool:
        """Whether nodes are linked across corners, too."""
        asked = _checks.flag(self.call, "diagonals", value)
        self.words += ["--diagonals"] * asked
        return asked

    def weights(self, weights: Any, seed: Any) -> None:
        """The weights of a shape, which are drawn by the seed."""
        if (weights is None) != (seed is None):
            raise ValueError(f"{self.call}: weights=(LOW, HIGH) and seed are wanted together: the seed draws the weights")
        if seed is not None:
            self.has_weighted_shape = True
            self.drawn(weights, seed)

    def drawn(self, weights: Any, seed: Any) -> None:
        """The seed, and the weights that are drawn by it, too."""
        self.number("seed", seed)
        if weights is None:
            return
        ends = _checks.items(self.call, "weights", weights, "a pair, the least weight and the greatest,")
        if len(ends) != 2:
            _checks.refuse(self.call, "weights", weights, "a pair, the least weight and the greatest, is wanted", ValueError)
        low, high = (_checks.whole(self.call, f"weights[{place}]", end) for place, end in enumerate(ends))
        self.words.append(f"--weights={low}..{high}")

    def is_large(self, nodes: int) -> bool:
        """Whether the network is more than a network file has, and one is made of any size."""
        beyond = nodes > MOST_NODES or self.links > MOST_LINKS or self.neighbours > MOST_NEIGHBOURS
        return beyond and not self.has_weighted_shape

    def told(self, *options: str) -> bytes:
        """What the command prints."""
        try:
            return _programs.run(["generate", *self.words, *options])
        except faults.UsageError as error:
            raise faults.in_words_of_calls(error, self.call) from None

    def made(self, kind: Any, set: Sets) -> Network:
        """The network, with these initial values."""
        network: Network = kind.from_text(self.told())
        return network if set is None else network.with_set(set)

    def made_as_drawn(self, kind: Any, set: Sets) -> Network:
        """The network, with these initial values: as arrays where what is drawn is more than a network file has."""
        try:
            return self.made(kind, set)
        except faults.UsageError as error:
            if PACKED not in error.diagnosis:
                raise
        from . import _packed

        return _packed.read(self.told("--packed"), set)

    def made_of_any_size(self, kind: Any, set: Sets, nodes: Optional[int] = None) -> Network:
        """The network, with these initial values: as arrays where it is more than a network file has."""
        if not self.is_large(self.sizes[0] if nodes is None else nodes):
            return self.made(kind, set)
        from . import _packed

        return _packed.read(self.told("--packed"), set)


class Makers:
    """The makers of a `Network`. Each takes `set`, initial values as `Network` takes them.

    Links have the weight 1; with `weights=(LOW, HIGH)` each link has one of these and those between them, drawn by `seed`, a whole number
    from 0 to 4294967295: the same seed gives the same network on every machine. Nodes are numbered from 0.

    Each may have any size that memory holds, but shapes whose weights are drawn: these have 65,536 nodes, 262,144 links and 4,096 links of one
    node at most. Raises UsageError, with what is possible, for numbers of which no network can be made.
    """

    @classmethod
    def path(cls, n: int, *, weights: Weights = None, seed: Optional[int] = None, set: Sets = None) -> Network:
        """Each of `n` nodes is linked with the next one."""
        recipe = Recipe("path", "path", {"n": n})
        recipe.weights(weights, seed)
        return recipe.made_of_any_size(cls, set)

    @classmethod
    def ring(cls, n: int, *, weights: Weights = None, seed: Optional[int] = None, set: Sets = None) -> Network:
        """A path of `n` nodes, 3 or more, whose last node is linked with the first.

        >>> import unison
        >>> unison.Network.ring(4).links
        ((0, 1, 1), (1, 2, 1), (2, 3, 1), (3, 0, 1))
        """
        recipe = Recipe("ring", "ring", {"n": n})
        recipe.weights(weights, seed)
        return recipe.made_of_any_size(cls, set)

    @classmethod
    def star(cls, n: int, *, weights: Weights = None, seed: Optional[int] = None, set: Sets = None) -> Network:
        """Node 0 is linked with each other of `n` nodes."""
        recipe = Recipe("star", "star", {"n": n})
        recipe.neighbours = recipe.sizes[0] - 1
        recipe.weights(weights, seed)
        return recipe.made_of_any_size(cls, set)

    @classmethod
    def complete(cls, n: int, *, weights: Weights = None, seed: Optional[int] = None, set: Sets = None) -> Network:
        """Each of `n` nodes is linked with each other one."""
        recipe = Recipe("complete", "complete", {"n": n})
        recipe.links = recipe.sizes[0] * (recipe.sizes[0] - 1) // 2
        recipe.weights(weights, seed)
        return recipe.made_of_any_size(cls, set)

    @classmethod
    def bipartite(cls, a: int, b: int, *, weights: Weights = None, seed: Optional[int] = None, set: Sets = None) -> Network:
        """Each of the first `a` nodes is linked with each of the `b` others."""
        recipe = Recipe("bipartite", "bipartite", {"a": a, "b": b})
        recipe.links, recipe.neighbours = recipe.sizes[0] * recipe.sizes[1], max(recipe.sizes)
        recipe.weights(weights, seed)
        return recipe.made_of_any_size(cls, set, sum(recipe.sizes))

    @classmethod
    def tree(cls, n: int, arity: int, *, weights: Weights = None, seed: Optional[int] = None, set: Sets = None) -> Network:
        """Each of `n` nodes has `arity` children, as far as there are nodes, numbered level by level: node 0 is the root."""
        recipe = Recipe("tree", "tree", {"n": n})
        children = recipe.number("arity", arity)
        others = recipe.sizes[0] - 1
        recipe.neighbours = max(min(children, others), 1 + min(children, max(others - children, 0)))
        recipe.weights(weights, seed)
        return recipe.made_of_any_size(cls, set)

    @classmethod
    def hypercube(cls, d: int, *, weights: Weights = None, seed: Optional[int] = None, set: Sets = None) -> Network:
        """Two to the power of `d` nodes, 31 at most, of which those are linked whose numbers differ in one binary digit."""
        recipe = Recipe("hypercube", "hypercube", {"d": d})
        nodes = 2 ** min(recipe.sizes[0], 32)
        recipe.links = recipe.sizes[0] * nodes // 2
        recipe.weights(weights, seed)
        return recipe.made_of_any_size(cls, set, nodes)

    @classmethod
    def grid(
        cls, w: int, h: int, diagonals: bool = False, *, weights: Weights = None, seed: Optional[int] = None, set: Sets = None
    ) -> Network:
        """`w` nodes in each of `h` rows, row by row, each linked with those beside it, above it and below it; with `diagonals` with the
        four beside its corners, too."""
        recipe = Recipe("grid", "grid", {"w": w, "h": h})
        recipe.diagonals(diagonals)
        recipe.weights(weights, seed)
        return recipe.made_of_any_size(cls, set, recipe.sizes[0] * recipe.sizes[1])

    @classmethod
    def torus(
        cls, w: int, h: int, diagonals: bool = False, *, weights: Weights = None, seed: Optional[int] = None, set: Sets = None
    ) -> Network:
        """A grid of `w` nodes in each of `h` rows, 3 or more each, whose rows and columns are rings.

        >>> import unison
        >>> unison.Network.torus(3, 3).neighbours(0)
        [1, 2, 3, 6]
        """
        recipe = Recipe("torus", "torus", {"w": w, "h": h})
        recipe.links = (4 if recipe.diagonals(diagonals) else 2) * recipe.sizes[0] * recipe.sizes[1]
        recipe.weights(weights, seed)
        return recipe.made_of_any_size(cls, set, recipe.sizes[0] * recipe.sizes[1])

    @classmethod
    def hex(cls, w: int, h: int, *, weights: Weights = None, seed: Optional[int] = None, set: Sets = None) -> Network:
        """`w` hexagonal cells in each of `h` rows, of which each second one is shifted to the right by half a cell: up to six neighbours
        each."""
        recipe = Recipe("hex", "hex", {"w": w, "h": h})
        recipe.weights(weights, seed)
        return recipe.made_of_any_size(cls, set, recipe.sizes[0] * recipe.sizes[1])

    @classmethod
    def random(cls, n: int, links: int, seed: int, *, weights: Weights = None, set: Sets = None) -> Network:
        """`links` links between `n` nodes, all sets of so many equally likely."""
        recipe = Recipe("random", "random", {"n": n})
        recipe.links = recipe.number("links", links)
        recipe.drawn(weights, seed)
        return recipe.made_of_any_size(cls, set)

    @classmethod
    def gnp(cls, n: int, probability: float, seed: int, *, weights: Weights = None, set: Sets = None) -> Network:
        """Each pair of `n` nodes is linked with the chance `probability`, 0 to 1, which is rounded to nine digits behind the point
        (Gilbert 1959). A number is drawn for each pair, so the time grows with the square of `n`; that of `random` grows with its links."""
        recipe = Recipe("gnp", "gnp", {"n": n})
        recipe.decimal("probability", probability, 1, 9)
        recipe.drawn(weights, seed)
        return recipe.made_as_drawn(cls, set)

    @classmethod
    def block(cls, sizes: Iterable[int], within: float, between: float, seed: int, *, weights: Weights = None, set: Sets = None) -> Network:
        """Nodes in blocks of these sizes, those of the first block first: two nodes of one block are linked with the chance `within`, two of
        different blocks with the chance `between`, each 0 to 1 and rounded to nine digits behind the point (the stochastic block model,
        Holland, Laskey and Leinhardt 1983). A number is drawn for each pair, as for `gnp`.

        >>> import unison
        >>> unison.Network.block([2, 1, 2], within=1, between=0, seed=7).links
        ((0, 1, 1), (3, 4, 1))
        """
        recipe = Recipe("block", "block", {})
        recipe.blocks(sizes)
        recipe.decimal("within", within, 1, 9)
        recipe.decimal("between", between, 1, 9)
        recipe.drawn(weights, seed)
        return recipe.made_as_drawn(cls, set)

    @classmethod
    def random_tree(cls, n: int, seed: int, *, weights: Weights = None, set: Sets = None) -> Network:
        """Each of `n` nodes but node 0 is linked with one before it, all of which are equally likely."""
        recipe = Recipe("random_tree", "random-tree", {"n": n})
        recipe.drawn(weights, seed)
        return recipe.made_of_any_size(cls, set)

    @classmethod
    def preferential(cls, n: int, links_each: int, seed: int, *, weights: Weights = None, set: Sets = None) -> Network:
        """Each of `n` nodes is linked with `links_each` before it, or with all of them while they are fewer, each drawn with a chance in
        proportion to the links that it has (Barabási and Albert 1999)."""
        recipe = Recipe("preferential", "preferential", {"n": n})
        each = min(recipe.number("links_each", links_each), recipe.sizes[0])
        recipe.links = each * recipe.sizes[0] - each * (each + 1) // 2
        recipe.drawn(weights, seed)
        return recipe.made_of_any_size(cls, set)

    @classmethod
    def regular(cls, n: int, degree: int, seed: int, *, weights: Weights = None, set: Sets = None) -> Network:
        """Each of `n` nodes is linked with `degree` others."""
        recipe = Recipe("regular", "regular", {"n": n})
        recipe.links = recipe.number("degree", degree) * recipe.sizes[0] // 2
        recipe.drawn(weights, seed)
        return recipe.made_of_any_size(cls, set)

    @classmethod
    def small_world(cls, n: int, near: int, rewire: float, seed: int, *, weights: Weights = None, set: Sets = None) -> Network:
        """Each node of a ring of `n` is linked with the `near` that follow it; then each link is led to another node with a chance of
        `rewire` in 100, a percentage that is rounded to six digits behind the point (Watts and Strogatz 1998).

        >>> import unison
        >>> world = unison.Network.small_world(100, near=2, rewire=10, seed=7)
        >>> world.nodes, len(world.links)
        (100, 200)
        """
        recipe = Recipe("small_world", "small-world", {"n": n})
        recipe.links = recipe.number("near", near) * recipe.sizes[0]
        recipe.decimal("rewire", rewire, 100, 6, "%")
        recipe.drawn(weights, seed)
        return recipe.made_of_any_size(cls, set)
