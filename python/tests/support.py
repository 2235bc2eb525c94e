"""What the tests share: where things stand, what is expected to be raised, and modules that may not be there."""

import importlib
import importlib.machinery
import importlib.util
import subprocess
import sys
import unittest
from pathlib import Path

HERE = Path(__file__).resolve().parent
PYTHON = HERE.parent
ROOT = PYTHON.parent
EXAMPLES = ROOT / "examples"
sys.path.insert(0, str(PYTHON))

import unison  # noqa: E402


def library_missing():
    """Why there is no library, or nothing where there is one."""
    try:
        unison._library.find()
    except unison.LibraryMissing as error:
        return str(error)
    return ""


#: Whether the library answers; else programs do, which takes longer.
IS_LIBRARY = unison._calls.backend().lends_lists


def missing():
    """Why nothing answers here, neither the library nor programs in its place; nothing where one does."""
    return library_missing() if IS_LIBRARY else ""


def library_alone(why):
    """Skips a test, or a module of tests, where programs answer in the place of the library."""
    if not IS_LIBRARY:
        skip(f"by the library alone: {why}")


def skip(reason):
    raise unittest.SkipTest(reason)


def wanted(name):
    """A module, or the test is skipped where it is not there."""
    try:
        return importlib.import_module(name)
    except ImportError:
        return skip(f"there is no {name}")


def raised(kind, call):
    """What a call raises, which must be of this very class."""
    try:
        call()
    except Exception as error:
        assert type(error) is kind, f"{type(error).__name__} and not {kind.__name__}: {error}"
        return error
    raise AssertionError(f"no {kind.__name__} is raised")


def source(path, name):
    """A file of Python as a module of this name, though another module may be called as the file is."""
    loader = importlib.machinery.SourceFileLoader(name, str(path))
    module = importlib.util.module_from_spec(importlib.util.spec_from_loader(name, loader))
    loader.exec_module(module)
    return module


def reference():
    """The interpreter in `reference`, and its `compare`, which makes random texts. It needs Python 3.11."""
    wanted("tomllib")
    here = sys.modules["unison"]
    interpreter = source(ROOT / "reference" / "unison.py", "unison")
    sys.modules["unison"] = interpreter  # `compare` imports it under this name
    try:
        return interpreter, source(ROOT / "reference" / "compare", "compare")
    finally:
        sys.modules["unison"] = here


def run_python(text, *options, **how):
    """What a program prints, run by this Python in a process of its own."""
    done = subprocess.run([sys.executable, *options, "-c", text], cwd=PYTHON, capture_output=True, text=True, timeout=600, **how)
    assert done.returncode == 0, done.stderr
    return done.stdout


def program(name):
    """A program in the folder of examples."""
    return unison.Program.from_file(EXAMPLES / f"{name}.rules")


def network(name):
    """A network in the folder of examples."""
    return unison.Network.from_file(EXAMPLES / f"{name}.toml")


DISTANCE = "field dist = 4294967295; next dist = (dist min least (n.dist + 1));"
SWAP = "field s = 0; next s = total n.s;"
