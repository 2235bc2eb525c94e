"""What the pages and docstrings show runs, and gives what they say."""

import contextlib
import doctest
import importlib
import io
import os
import re
import tempfile
from pathlib import Path

from support import PYTHON, ROOT, library_alone, run_python, skip, wanted

import unison

MODULES = ["", *(f".{path.stem}" for path in sorted((PYTHON / "unison").glob("[a-z]*.py")))]


def test_examples_in_docstrings():
    seen = 0
    for name in MODULES:
        told = io.StringIO()
        with contextlib.redirect_stdout(told):
            failed, tried = doctest.testmod(importlib.import_module(f"unison{name}"))
        assert failed == 0, told.getvalue()
        seen += tried
    assert seen > 50


def test_all_that_is_public_has_words_and_types():
    for name in unison.__all__:
        thing = getattr(unison, name)
        if name != "NONE":
            assert thing.__doc__, name
        for part, value in vars(thing).items() if isinstance(thing, type) else ():
            if not part.startswith("_") and (callable(value) or isinstance(value, (property, classmethod))):
                assert value.__doc__, f"{name}.{part}"
                call = value.fget if isinstance(value, property) else getattr(value, "__func__", value)
                assert "return" in getattr(call, "__annotations__", {"return": None}), f"{name}.{part}"
    assert (PYTHON / "unison" / "py.typed").is_file()


def shown(page):
    """The pieces of Python that a page shows, each with what it says that they print."""
    text = page.read_text()
    return re.findall(r"```python\n(.*?)```(?:\n+```text\n(.*?)```)?", text, re.DOTALL)


def run_piece(piece, names):
    told = io.StringIO()
    with contextlib.redirect_stdout(told):
        exec(compile(piece, "page", "exec"), names)
    return told.getvalue()


@contextlib.contextmanager
def at_the_top():
    """The repository's top is the working folder, as the pages say."""
    before = os.getcwd()
    os.chdir(ROOT)
    try:
        yield
    finally:
        os.chdir(before)


@at_the_top()
def run_page(path):
    """The pieces of a page run one after the other, and print what it shows."""
    names = {}
    pieces = shown(path)
    assert len(pieces) > 5
    for piece, printed in pieces:
        for module in re.findall(r"import (networkx|pandas|numpy|matplotlib)", piece):
            wanted(module)
        found = run_piece(piece, names)
        assert printed == "" or found == printed, f"{piece}\nprints\n{found}"


def test_the_page_of_the_package():
    run_page(PYTHON / "README.md")


def test_the_tutorial():
    run_page(ROOT / "docs" / "tutorials" / "python.md")


def test_the_page_of_all_calls_is_that_of_the_docstrings():
    """`python/api_page --write` makes it anew."""
    import subprocess
    import sys

    done = subprocess.run([sys.executable, str(PYTHON / "api_page")], capture_output=True, text=True, timeout=120)
    assert done.returncode == 0, done.stdout + done.stderr
    page = (ROOT / "docs" / "python_api.md").read_text()
    for name in unison.__all__:
        assert name == "NONE" or f"\n## {name}\n" in page, name
    assert all(len(line) <= 120 for line in page.splitlines() if not line.startswith((">>>", "...")))


def test_the_version_stands_once():
    project = (PYTHON / "pyproject.toml").read_text()
    assert 'dynamic = ["version"]' in project and not re.search(r"(?m)^version\b", project)
    assert re.fullmatch(r"[0-9]+[.][0-9]+[.][0-9]+", unison.__version__)


def test_the_examples_of_the_package():
    wanted("networkx")
    library_alone("how much more several threads do")
    told = run_python(f"import runpy, sys; sys.argv = ['threads.py', '--seconds', '0.2']; runpy.run_path({str(PYTHON / 'examples' / 'threads.py')!r}, run_name='__main__')")
    assert re.search(r"4 threads: .* times as much", told), told
    with tempfile.TemporaryDirectory() as folder:
        path = str(PYTHON / "examples" / "draw_run.py")
        told = run_python(f"import runpy, sys; sys.argv = ['draw_run.py', {folder!r}]; runpy.run_path({path!r}, run_name='__main__')")
        assert "karate" in told and "rule 110" in told, told


def test_the_example_of_an_epidemic():
    """Of three seeds each begins with one infected node; the files are those that are named."""
    with tempfile.TemporaryDirectory() as folder:
        path = str(PYTHON / "examples" / "epidemic.py")
        told = run_python(f"import runpy, sys; sys.argv = ['epidemic.py', {folder!r}, '--seeds', '3']; runpy.run_path({path!r}, run_name='__main__')")
        assert [line.split()[0] for line in told.splitlines()] == ["round", "0", "10", "20", "30", "40", "written:"]
        assert told.splitlines()[1].split() == ["0", "1.0", "0.0"]
        assert {path.name for path in Path(folder).iterdir()} == {"curves.svg", "run.svg", "run.html"}
