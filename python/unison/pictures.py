"""Pictures and pages of runs, made by the proved program."""

from __future__ import annotations

import html
import os
from pathlib import Path
from typing import Any, List, Mapping, Optional, Sequence, Union

from . import _checks, _files
from .faults import Missing
from .model import Model
from .network import Network
from .program import Program

LONGEST_FRAME = 60_000  # milliseconds
WIDEST = 65536
#: Colours by values, or by states of a model.
Colours = Union[Mapping[int, str], Mapping[str, str], Mapping[Union[int, str], str]]
HEIGHT = 640  # of a page in a notebook


class Image:
    """A picture in SVG. A notebook shows it; `save` writes it to a file."""

    def __init__(self, svg: str) -> None:
        self._svg = svg

    @property
    def svg(self) -> str:
        """The text of the picture."""
        return self._svg

    def save(self, path: Union[str, "os.PathLike[str]"]) -> Path:
        """Writes the picture to a file, and answers its path."""
        return saved(path, self._svg)

    def _repr_svg_(self) -> str:
        return self._svg

    def __eq__(self, other: object) -> bool:
        """The same text."""
        return isinstance(other, Image) and self._svg == other._svg

    def __hash__(self) -> int:
        return hash(self._svg)

    def __repr__(self) -> str:
        return f"<Image of {len(self._svg)} bytes: .svg, .save(path)>"


class Page:
    """A page in HTML on which a run is stepped through. A notebook shows it in a frame; `save` writes it to a file, which any browser opens,
    also without a connection."""

    def __init__(self, text: str) -> None:
        self._html = text

    @property
    def html(self) -> str:
        """The text of the page."""
        return self._html

    def save(self, path: Union[str, "os.PathLike[str]"]) -> Path:
        """Writes the page to a file, and answers its path."""
        return saved(path, self._html)

    def _repr_html_(self) -> str:
        inner = html.escape(self._html)
        return f'<iframe srcdoc="{inner}" width="100%" height="{HEIGHT}" style="border: 0" sandbox="allow-scripts"></iframe>'

    def __eq__(self, other: object) -> bool:
        """The same text."""
        return isinstance(other, Page) and self._html == other._html

    def __hash__(self) -> int:
        return hash(self._html)

    def __repr__(self) -> str:
        return f"<Page of {len(self._html)} bytes: .html, .save(path)>"


def saved(path: Any, text: str) -> Path:
    """The path of the file to which a text is written."""
    file = Path(_checks.path("save", "path", path))
    file.write_text(text, encoding="utf-8")
    return file


def grid_words(call: str, grid: Optional[int]) -> List[str]:
    """The words for how many cells stand in a row."""
    return [] if grid is None else [f"--grid={_checks.whole(call, 'grid', grid, 1, WIDEST)}"]


def image(
    program: Program,
    network: Network,
    rounds: Any,
    field: Optional[str] = None,
    *,
    grid: Optional[int] = None,
    animate: bool = False,
    frame_time: Optional[int] = None,
    counts: bool = False,
    colours: Optional[Colours] = None,
    from_: Any = None,
) -> Image:
    """A picture of a run in SVG, made by the proved program: nodes across, rounds down, each cell in the colour of the field's value.

    - `program`: a `Program`, or a `Model`; `network`: a `Network`.
    - `rounds`: the last round, counted from round 0: all up to it are shown; or rounds that are evenly apart, as `range(0, 101, 10)`; with
      `grid` and without `animate` the one round that is shown.
    - `field`: the field whose values give the colours; may be left out where the program has one alone.
    - `grid`: the nodes of one round as cells, so many across, node 0 first; `animate`: the rounds one after the other, each for
      `frame_time` milliseconds, 1 to 60000, 100 where it is left out.
    - `counts`: how many nodes have each value, as curves over two rounds or more.
    - `colours`: colours of their own for some values, or states of a `Model`: `{1: "teal", 0: "#fff8e7"}`.
    - `from_`: a result of `lockstep`, or the text of a report, to go on from.

    Raises PictureError where there are more cells, rounds or values than a picture has; UsageError where arguments do not go together.

    >>> import unison
    >>> ring = unison.Network(3, [(0, 1), (1, 2), (2, 0)], set={"s": {0: 1}})
    >>> unison.image(unison.Program("field s = 0; next s = (s max most n.s);"), ring, 1).svg.startswith("<svg ")
    True
    """
    job = _files.job_of("image", program, network, from_)
    named = _checks.only_field("image", "field", field, program)
    words = [f"--field={named}", *grid_words("image", grid)]
    words += ["--animate"] * _checks.flag("image", "animate", animate) + ["--counts"] * _checks.flag("image", "counts", counts)
    if grid is not None and not animate and _checks.is_whole(rounds):
        rounds = [rounds]
    if frame_time is not None:
        words.append(f"--frame-time={_checks.whole('image', 'frame_time', frame_time, 1, LONGEST_FRAME)}")
    if colours is not None:
        words.append(f"--colours={colours_text(program, named, colours)}")
    return Image(job.run("image", *_files.span_words("image", rounds), *words).decode("utf-8"))


def colours_text(program: Program, field: str, colours: Any) -> str:
    """The colours of values, as words have them."""
    if not isinstance(colours, Mapping) or not colours:
        _checks.refuse("image", "colours", colours, "a dict from values or states to colours, as {1: 'teal', 0: '#fff8e7'}, is wanted")
    parts = []
    for value, colour in colours.items():
        if not isinstance(colour, str):
            _checks.refuse("image", f"colours[{value!r}]", colour, "the name of a colour, or #rrggbb, is wanted")
        parts.append(f"{value_of('image', 'a key of colours', program, field, value)}:{colour}")
    return ",".join(parts)


def value_of(call: str, name: str, program: Program, field: str, value: Any) -> int:
    """A value of a field: a number, or the name of a state of the field."""
    if not isinstance(value, str):
        return _checks.whole(call, name, value)
    states = program.states.get(field, ()) if isinstance(program, Model) else ()
    if value not in states:
        there = f"its states are {', '.join(states)}" if states else "it has no states, but numbers"
        raise Missing(f"{call}: {name} is {value!r}: a value of the field {field} is wanted, and {there}")
    return states.index(value)


def page(
    program: Program,
    network: Network,
    rounds: Any = None,
    *,
    steps: Any = None,
    stop: Optional[int] = None,
    naive: bool = False,
    only: Union[None, str, Sequence[str]] = None,
    node_fields: Union[str, Sequence[str]] = (),
    grid: Optional[int] = None,
    from_: Any = None,
) -> Page:
    """A page in HTML on which a run is stepped through or played, made by the proved program: of rounds, or of the steps of a schedule.

    - `program`: a `Program`, or a `Model`; `network`: a `Network` that a network file says, whose nodes are called by their names.
    - `rounds`: the last round, counted from round 0: all up to it are shown; or rounds that are evenly apart.
    - `steps`: in place of rounds the text of a schedule, or steps as `unison.schedule` makes them; `stop` the count of moves at which a node
      stops; `naive` shows beside them the same steps by nodes that do not wait.
    - `only`: the fields that are shown, in this order; `node_fields`: those whose values are numbers of nodes, which are shown by names.
    - `grid`: nodes are drawn as cells, so many across.
    - `from_`: a result of `lockstep`, or the text of a report, to go on from.

    Raises PictureError where the page would hold more than 20,000,000 values.

    >>> import unison
    >>> ring = unison.Network(3, [(0, 1), (1, 2), (2, 0)], set={"s": {0: 1}})
    >>> unison.page(unison.Program("field s = 0; next s = (s max most n.s);"), ring, 2).html.startswith("<!doctype html>")
    True
    """
    job = _files.file_job_of("page", program, network, from_)
    if (rounds is None) == (steps is None):
        raise ValueError("page: either rounds or steps are wanted, and not both")
    if steps is None:
        job = job.saying(*_files.span_words("page", rounds))
    else:
        job = job.naming("--steps", "steps.txt", _checks.schedule("page", steps))
        job = job.saying(f"--stop={_checks.round_of('page', 'stop', _checks.LAST_ROUND if stop is None else stop)}")
    if _checks.flag("page", "naive", naive):
        job = job.saying("--naive")
    if only is not None:
        job = job.saying(f"--only={','.join(_checks.fields('page', 'only', only, program))}")
    names = _files.names_file(network)
    if names is not None:
        job = job.naming("--names", _files.NAMES, names)
        job = job.saying(*(f"--node-field={field}" for field in _checks.fields("page", "node_fields", node_fields, program)))
    return Page(job.run("page", *grid_words("page", grid)).decode("utf-8"))
