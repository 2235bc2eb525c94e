"""What the tests of `unison.cluster` share with checks/cluster: how mpirun is called, and how lines of code are counted."""

import ast
import atexit
import io
import os
import shutil
import struct
import subprocess
import sys
import tempfile
import tokenize
from pathlib import Path

from support import HERE, PYTHON, skip, wanted

WORKER = HERE / "cluster_worker.py"
PACKAGE = PYTHON / "unison" / "cluster"
SILENT = {tokenize.COMMENT, tokenize.NL, tokenize.NEWLINE, tokenize.INDENT, tokenize.DEDENT, tokenize.ENDMARKER}


def new_folder():
    """A folder that is there until the tests have ended."""
    folder = Path(tempfile.mkdtemp())
    atexit.register(shutil.rmtree, folder, ignore_errors=True)
    return folder


def packed(rows):
    """The binary file of rows of (neighbour, weight), by docs/formats.md."""
    ends = [end for row in rows for end in row]
    offsets = [sum(map(len, rows[:node])) for node in range(len(rows) + 1)]
    flag = int(any(weight != 1 for _, weight in ends))
    columns = [struct.pack(f"<{len(ends)}I", *(end[column] for end in ends)) for column in range(1 + flag)]
    return b"".join([b"UNISONW1", struct.pack("<3Q", len(rows), len(ends), flag), struct.pack(f"<{len(offsets)}Q", *offsets), *columns])


def needs_mpi():
    """Skips the test where something is missing."""
    wanted("numpy")
    wanted("mpi4py")
    if shutil.which("mpirun") is None:
        skip("there is no mpirun")


def mpirun(processes, *words, folder=None, launch=(), seconds=600):
    """What so many processes of this Python print, and their status."""
    needs_mpi()
    started = {"OMPI_ALLOW_RUN_AS_ROOT": "1", "OMPI_ALLOW_RUN_AS_ROOT_CONFIRM": "1", "PYTHONPATH": str(PYTHON), "PYTHONDONTWRITEBYTECODE": "1"}
    command = ["mpirun", "--oversubscribe", *launch, "-n", str(processes), sys.executable, *map(str, words)]
    return subprocess.run(command, cwd=folder, env={**os.environ, **started}, capture_output=True, text=True, timeout=seconds, check=False)


def lines_of_code(path: Path) -> int:
    """How many lines of a file have code: no blank lines, comments or docstrings."""
    text = path.read_text(encoding="utf-8")
    described = set()
    for part in ast.walk(ast.parse(text)):
        body = getattr(part, "body", None)
        first = body[0] if isinstance(body, list) and body else None
        if isinstance(first, ast.Expr) and isinstance(first.value, ast.Constant) and isinstance(first.value.value, str):
            described |= set(range(first.lineno, first.end_lineno + 1))
    tokens = [token for token in tokenize.generate_tokens(io.StringIO(text).readline) if token.type not in SILENT]
    return len({line for token in tokens for line in range(token.start[0], token.end[0] + 1)} - described)
