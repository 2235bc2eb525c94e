"""Type hints: mypy, by its strict rules, over the package, its examples, and uses that it has to refuse."""

import re
import shutil
import subprocess
import tempfile
from pathlib import Path

from support import PYTHON, skip

#: Uses, each with a word of what mypy says of it; nothing where it is right.
USES = [
    ("unison.lockstep(program, network, 3).round + 1", ""),
    ("unison.lockstep(program, network, 3).round.upper()", '"int" has no attribute "upper"'),
    ("unison.lockstep(program, network, '3')", 'incompatible type "str"'),
    ("unison.lockstep(network, program, 3)", 'expected "Program"'),
    ("unison.sweep(program, network, {'seed': range(9)}, 3, count='s').rows[0]['round']", ""),
    ("unison.sweep(program, network, {}, 3).columns.sort()", 'has no attribute "sort"'),
    ("unison.Network(3)", 'Missing positional argument "links"'),
    ("unison.watch(program, network, range(3)).at(1).by_name('s', missing=True)", ""),
    ("unison.page(program, unison.Network.ring(5), 3).html.upper()", ""),
    ("unison.settle(program, unison.Network.from_edges([0], [1]), 3).round + 1", ""),
]


def looked(*words):
    """The lines that mypy tells."""
    command = shutil.which("mypy") or skip("there is no mypy (Debian: apt install mypy)")
    with tempfile.TemporaryDirectory() as cache:
        done = subprocess.run([command, "--config-file", "mypy.ini", "--cache-dir", cache, *words], cwd=PYTHON, capture_output=True, text=True, timeout=600)
    return done.stdout.splitlines() + done.stderr.splitlines()


def test_types_of_the_package_and_its_examples():
    examples = sorted(path.relative_to(PYTHON) for path in (PYTHON / "examples").glob("*.py"))
    assert len(examples) >= 2
    with tempfile.TemporaryDirectory() as folder:
        uses = Path(folder, "uses.py")
        head = ["import unison", "program = unison.Program('')", "network = unison.Network(1, [])"]
        uses.write_text("\n".join([*head, *(use for use, _ in USES)]) + "\n")
        lines = looked("unison", *map(str, examples), str(uses))
    told = {}
    for line in lines:
        if found := re.match(r".*uses\.py:([0-9]+): error: ", line):
            told[int(found[1])] = told.get(int(found[1]), "") + line
    others = [line for line in lines if "error: " in line and "uses.py" not in line and not line.startswith("Found ")]
    assert not others, "\n".join(others)
    for place, (use, wrong) in enumerate(USES, len(head) + 1):
        assert (wrong in told.get(place, "no error")) if wrong else place not in told, (use, told.get(place))
