"""The notebooks: what their code finds, beside NetworkX and numpy, and that they run where notebooks do."""

import contextlib
import io
import json
import os
import subprocess
import sys
import tempfile
from pathlib import Path

from support import PYTHON, library_alone, skip, wanted

import unison

library_alone("many calls")

FOLDER = PYTHON / "examples"
NAMES = ["epidemic_sweep", "label_propagation", "million_edges", "pagerank"]


def cells_of(path, kind="code"):
    """The texts of a notebook's cells."""
    return ["".join(cell["source"]) for cell in json.loads(path.read_text(encoding="utf-8"))["cells"] if cell["cell_type"] == kind]


def found_by(name):
    """What the names of a notebook stand for behind its last cell, and what it printed."""
    for module in ("numpy", "pandas", "networkx", "scipy", "matplotlib"):
        wanted(module)
    wanted("matplotlib").use("Agg")
    before, told, names = os.getcwd(), io.StringIO(), {}
    os.chdir(FOLDER)
    try:
        with contextlib.redirect_stdout(told):
            for cell in cells_of(FOLDER / f"{name}.ipynb"):
                exec(compile(cell, name, "exec"), names)
    except FileNotFoundError as error:
        if type(error).__name__ != "ProgramsMissing":
            raise
        skip(str(error))
    finally:
        os.chdir(before)
    return names, told.getvalue()


def test_each_notebook_is_short():
    assert sorted(path.stem for path in FOLDER.glob("*.ipynb")) == NAMES
    for name in NAMES:
        path = FOLDER / f"{name}.ipynb"
        lines = [line for cell in cells_of(path) for line in cell.splitlines() if line.strip()]
        assert 0 < len(lines) <= 10, name
        assert cells_of(path, "markdown")[0].startswith("# "), name
        assert all(not cell.get("outputs") for cell in json.loads(path.read_text(encoding="utf-8"))["cells"]), name


def test_the_notebook_of_pagerank():
    names, _ = found_by("pagerank")
    networkx, graph, frame = wanted("networkx"), names["graph"], names["frame"]
    ranks = networkx.pagerank(graph, tol=1e-12)
    assert max(abs(frame["rank"][node] / (200 * 1_000_000) - ranks[node]) for node in graph) < 1e-6
    assert frame["rank"].sum() < 200 * 1_000_000 < frame["rank"].sum() + 200 * 1_000, "what is rounded down is lost, and no more"


def labels_after(graph, rounds):
    """The labels after so many rounds, by the rule that the notebook tells."""
    labels = {node: {0: 1, 33: 2}.get(node, 0) for node in graph}
    for _ in range(rounds):
        before = dict(labels)
        for node in set(graph) - {0, 33}:
            weights = {label: sum(data["weight"] for other, data in graph[node].items() if before[other] == label) for label in (1, 2)}
            if weights[1] != weights[2]:
                labels[node] = 1 if weights[1] > weights[2] else 2
    return labels


def test_the_notebook_of_labels():
    names, told = found_by("label_propagation")
    graph = names["graph"]
    labels = labels_after(graph, 20)
    assert names["labels"] == labels and set(labels.values()) == {1, 2}
    right = sum(labels[node] == (1 if graph.nodes[node]["club"] == "Mr. Hi" else 2) for node in graph)
    assert told == f"{right} of 34\n" and right > 30


def test_the_notebook_of_a_million_edges():
    names, told = found_by("million_edges")
    numpy, sparse, graphs = wanted("numpy"), wanted("scipy.sparse"), wanted("scipy.sparse.csgraph")
    a, b = names["a"], names["b"]
    matrix = sparse.coo_matrix((numpy.ones(a.size), (a, b)), shape=(250_000, 250_000)).tocsr()
    far = graphs.shortest_path(matrix, directed=False, unweighted=True, indices=0)
    reached = numpy.isfinite(far)
    assert (names["far"].filled(unison.NONE) == numpy.where(reached, far, unison.NONE)).all()
    assert f"{reached.sum()} nodes are reached, the farthest at {far[reached].max():.0f}, {far[reached].mean():.2f} on average" in told


def test_the_notebook_of_an_epidemic():
    names, _ = found_by("epidemic_sweep")
    frame = names["found"].to_pandas()
    assert list(frame.columns) == ["infection", "seed", "round", "susceptible", "infected", "recovered"] and len(frame) == 3 * 20 * 81
    assert (frame[["susceptible", "infected", "recovered"]].sum(axis=1) == 1000).all()
    first = frame[frame["round"] == 0]
    assert (first["infected"] == 1).all() and (first["recovered"] == 0).all()
    for _, run in frame.groupby(["infection", "seed"]):
        assert (run["susceptible"].diff().dropna() <= 0).all() and (run["recovered"].diff().dropna() >= 0).all()
    ends = frame[frame["round"] == 80].groupby("infection")["recovered"].mean().tolist()
    assert ends == sorted(ends) and ends[2] > 500 > ends[0], "the more infectious, the more people catch it"


def test_notebooks_run_where_notebooks_do():
    wanted("nbconvert")
    wanted("ipykernel")
    for module in ("numpy", "pandas", "networkx", "scipy", "matplotlib"):
        wanted(module)
    here = {**os.environ, "PYTHONPATH": str(PYTHON), "UNISON_LIBRARY": str(unison._library.find())}
    for name in NAMES:
        with tempfile.TemporaryDirectory() as folder:
            words = ["nbconvert", "--to", "notebook", "--execute", "--output-dir", folder, str(FOLDER / f"{name}.ipynb")]
            done = subprocess.run([sys.executable, "-m", *words], env=here, capture_output=True, text=True, timeout=900)
            assert done.returncode == 0, f"{name}: {done.stderr[-3000:]}"
            cells = json.loads(Path(folder, f"{name}.ipynb").read_text(encoding="utf-8"))["cells"]
        outputs = [output for cell in cells if cell["cell_type"] == "code" for output in cell["outputs"]]
        assert not [output for output in outputs if output["output_type"] == "error"], name
        assert any("image/png" in output.get("data", {}) for output in outputs), f"{name} shows no picture"
