"""Pictures and pages: what stands in them, beside states that are reasoned."""

import json
import re
import tempfile
from pathlib import Path

from support import DISTANCE, SWAP, raised

import unison

ROW = unison.Network(["ann", "bob", "cid"], [("ann", "bob"), ("bob", "cid")], set={"dist": {"ann": 0}})
distance = unison.Program(DISTANCE)


def colours_of_cells(svg):
    """The class of each cell by column and row; the grey one, of 4294967295, is c24."""
    return {(int(x), int(y)): name for name, runs in re.findall(r'<path class="(c\d+)" d="([^"]*)"', svg) for x, y in re.findall(r"M(\d+) (\d+)h1", runs)}


def test_a_picture_of_rounds():
    """Distances on a path of three: node k is reached in round k."""
    image = unison.image(distance, ROW, 2)
    cells = colours_of_cells(image.svg)
    assert set(cells) == {(node, round) for node in range(3) for round in range(3)}
    for (node, round), colour in cells.items():
        assert (colour == "c24") == (node > round), (node, round)
        assert colour == cells[(node, node)] or node > round, "a node keeps its colour once it is reached"
    assert len({cells[(node, node)] for node in range(3)}) == 3
    assert colours_of_cells(unison.image(distance, ROW, range(0, 3, 2)).svg).keys() == {(node, round) for node in range(3) for round in range(2)}


def test_a_picture_of_cells():
    cells = colours_of_cells(unison.image(distance, ROW, 1, grid=3).svg)
    assert set(cells) == {(0, 0), (1, 0), (2, 0)} and cells[(2, 0)] == "c24" and "c24" not in (cells[(0, 0)], cells[(1, 0)])
    moving = unison.image(distance, ROW, 2, grid=3, animate=True, frame_time=250).svg
    assert "0.75s" in moving or "750ms" in moving, "three rounds, a quarter of a second each"


def test_colours_of_values_and_of_states():
    model = unison.Model("states light { dark, bright } field lamp: light = dark; field other = 0;")
    net = unison.Network(2, [], set={"lamp": {1: 1}})
    for given in ({"bright": "#123456"}, {1: "#123456"}):
        assert "#123456" in unison.image(model, net, [0], "lamp", colours=given).svg
    told = str(raised(unison.faults.Missing, lambda: unison.image(model, net, 1, "lamp", colours={"red": "red"})))
    assert told == "image: a key of colours is 'red': a value of the field lamp is wanted, and its states are dark, bright"
    raised(unison.UsageError, lambda: unison.image(model, net, 1, "lamp", colours={1: "nocolour"}))


def test_pictures_that_are_too_large_are_refused():
    error = raised(unison.PictureError, lambda: unison.image(distance, ROW, 1_000_000))
    assert (error.part, error.name) == ("image", "TooManyCells") and "1000000 cells" in str(error)
    assert raised(unison.PictureError, lambda: unison.image(distance, ROW, [3], counts=True)).name == "OneRound"


def test_pictures_are_shown_and_written():
    image = unison.image(distance, ROW, 2)
    assert image._repr_svg_() == image.svg and image.svg.startswith("<svg ") and image == unison.image(distance, ROW, 2)
    assert repr(image) == f"<Image of {len(image.svg)} bytes: .svg, .save(path)>"
    with tempfile.TemporaryDirectory() as folder:
        path = image.save(Path(folder, "run.svg"))
        assert path.read_text(encoding="utf-8") == image.svg
        assert str(raised(TypeError, lambda: image.save(5))) == "save: path is 5, an int: the path of a file, a str or a pathlib.Path, is wanted"


def data_of(page):
    """What a page knows of its run."""
    return json.loads(re.search(r'<script[^>]*type="application/json"[^>]*>(.*?)</script>', page.html, re.DOTALL)[1])


def words_of(texts):
    """Texts, which a page has as lists of their bytes."""
    return [bytes(text).decode("utf-8") for text in texts]


def test_a_page_of_rounds():
    """viewer/README.md tells what stands in a page."""
    page = unison.page(distance, ROW, 2)
    assert page.html.startswith("<!doctype html>")
    data, none = data_of(page), unison.NONE
    assert data["manner"] == "rounds" and data["rounds"] == [0, 1, 2] and data["links"] == [[0, 1, 1], [1, 2, 1]]
    assert data["states"] == [[0, none, none], [0, 1, none], [0, 1, 2]]
    assert words_of(data["names"]) == ["ann", "bob", "cid"] and words_of(data["fields"]) == ["dist"]
    some = data_of(unison.page(distance, ROW, range(1, 6, 2), grid=3))
    assert some["rounds"] == [1, 3, 5] and some["grid"] == 3 and some["settling"] == ["settles", 2]


def test_a_page_of_steps():
    pair = unison.Network(2, [(0, 1)], set={"s": [5, 7]})
    swap, steps = unison.Program(SWAP), unison.schedule.sweep(pair)
    page = unison.page(swap, pair, steps=steps, stop=1)
    assert data_of(page)["manner"] == "steps"
    assert data_of(page) == data_of(unison.page(swap, pair, steps=unison.schedule.spell(steps), stop=1))
    assert data_of(unison.page(swap, pair, steps=steps, stop=1, naive=True)) != data_of(page)
    raised(ValueError, lambda: unison.page(swap, pair, 1, steps=steps))


def test_a_page_stands_in_a_frame_of_a_notebook():
    import html

    page = unison.page(distance, ROW, 1, only="dist", grid=3)
    shown = page._repr_html_()
    assert shown.startswith('<iframe srcdoc="') and html.unescape(re.search(r'srcdoc="([^"]*)"', shown)[1]) == page.html
    with tempfile.TemporaryDirectory() as folder:
        assert page.save(str(Path(folder, "run.html"))).read_text(encoding="utf-8") == page.html
    assert repr(page) == f"<Page of {len(page.html)} bytes: .html, .save(path)>" and page == unison.page(distance, ROW, 1, only="dist", grid=3)


def test_fields_that_are_numbers_of_nodes_are_shown_by_names():
    rules = unison.Program("field parent = 0; next parent = least n.id;")
    data = data_of(unison.page(rules, ROW.with_set({}), 1, node_fields="parent"))
    assert [words_of(legend) for legend in data["legend"]] == [["ann", "bob", "cid"]]
    assert data["states"] == [[0, 0, 0], [1, 0, 1]]
    raised(unison.faults.Missing, lambda: unison.page(rules, ROW.with_set({}), 1, node_fields="parents"))
