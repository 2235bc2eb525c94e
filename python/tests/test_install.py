"""pip installs the package without a network, with the library in it."""

import os
import subprocess
import sys
import tempfile
from pathlib import Path

from support import EXAMPLES, PYTHON, library_alone, skip

import unison

library_alone("pip puts it into the package")


def ran(*words, **how):
    done = subprocess.run([str(word) for word in words], capture_output=True, text=True, timeout=600, **how)
    assert done.returncode == 0, f"{' '.join(map(str, words))}\n{done.stdout}{done.stderr}"
    return done.stdout


def test_pip_installs_the_package():
    environment = {**os.environ, "UNISON_LIBRARY": str(unison._library.find())}
    with tempfile.TemporaryDirectory() as folder:
        place = Path(folder)
        made = subprocess.run([sys.executable, "-m", "venv", place], capture_output=True, text=True)
        if made.returncode != 0:
            skip("venv makes none here")
        python = place / "bin" / "python"
        ran(python, "-m", "pip", "install", "--no-index", "--disable-pip-version-check", PYTHON, env=environment)
        environment.pop("UNISON_LIBRARY")
        text = (
            "import unison; print(unison._library.find()); "
            f"print(unison.lockstep(unison.Program.from_file({str(EXAMPLES / 'distance.rules')!r}), "
            f"unison.Network.from_file({str(EXAMPLES / 'path.toml')!r}), 2).report(), end='')"
        )
        found, report = ran(python, "-c", text, env=environment, cwd=folder).split("\n", 1)
        assert Path(found).parts[-2:] == ("unison", "libunison.so") and place.resolve() in Path(found).resolve().parents, found
        assert report == (EXAMPLES / "reports" / "distance-path-2.txt").read_text()
        ran(python, "-m", "pip", "uninstall", "-y", "unison", env=environment)
        ran(python, "-m", "pip", "install", "--no-index", "--disable-pip-version-check", "-e", PYTHON, env=environment)
        assert ran(python, "-c", "import unison; print(unison.__file__)", env=environment, cwd=folder).strip() == str(PYTHON / "unison" / "__init__.py")


def test_a_wheel_without_the_library_is_not_made():
    code = "import wheel_maker; wheel_maker.build_wheel('/nowhere')"
    environment = {**os.environ, "UNISON_LIBRARY": "/nowhere/libunison.so"}
    done = subprocess.run([sys.executable, "-c", code], cwd=PYTHON, env=environment, capture_output=True, text=True)
    assert done.returncode != 0 and "run library/build first" in done.stderr
