"""The studio: a page in the browser on which a model, its constants and a network are changed, and what becomes of them is shown at once."""

from __future__ import annotations

import atexit
import html
import os
import signal
import subprocess
import tempfile
from pathlib import Path
from typing import Any, List, Optional, Union

from . import _checks, _programs
from .model import Model
from .network import Network
from .program import Program

MOST_PORT = 65535
PATIENCE = 10  # seconds in which a studio that is closed ends


class Studio:
    """A studio that answers at its link until it is closed, or Python ends. A notebook shows the link. It is a context manager, too."""

    def __init__(self, process: "subprocess.Popen[str]", link: str) -> None:
        self._process, self._link = process, link
        atexit.register(self.close)

    @property
    def link(self) -> str:
        """The link to the page, with the token without which nothing is answered."""
        return self._link

    @property
    def is_open(self) -> bool:
        """Whether it still answers."""
        return self._process.poll() is None

    def close(self) -> None:
        """Ends the studio, and all that it runs."""
        atexit.unregister(self.close)
        if self.is_open:
            self._process.send_signal(signal.SIGINT)
            try:
                self._process.wait(PATIENCE)
            except subprocess.TimeoutExpired:
                self._process.kill()
                self._process.wait()
        if self._process.stdout:
            self._process.stdout.close()

    def __enter__(self) -> Studio:
        return self

    def __exit__(self, *_: Any) -> None:
        self.close()

    def _repr_html_(self) -> str:
        return f'<a href="{html.escape(self._link)}" target="_blank" rel="noreferrer">the studio</a>'

    def __repr__(self) -> str:
        return f"<Studio at {self._link}: .close()>" if self.is_open else "<Studio, closed>"


def studio(
    model: Union[Program, str, "os.PathLike[str]", None] = None,
    network: Union[Network, str, "os.PathLike[str]", None] = None,
    *,
    port: int = 0,
    show: bool = True,
) -> Studio:
    """Opens [the studio](studio.md): a page in the browser on which a model and a network are changed, and what becomes of them is shown at
    once.

    - `model`: a `Model`, whose constants begin as its text says, or a `Program`, or the path of one; an epidemic where none is given
    - `network`: a `Network`, or the path of a network file
    - `port`: the port on this machine; one that is free where it is 0
    - `show`: whether a browser is opened; the link is that of the answer in any case

    It answers on this machine alone, until `close()`, or until Python ends. Raises `ValueError` where `network` is given without `model`,
    `ProgramsMissing` where there is no command that it could run, and `RuntimeError` where the studio does not begin.
    """
    words = [] if show else ["--no-open"]
    if network is not None and model is None:
        raise ValueError("studio: network is given, and model is not: a model is wanted with it")
    if not 0 <= _checks.whole("studio", "port", port) <= MOST_PORT:
        _checks.refuse("studio", "port", port, f"0 to {MOST_PORT} is wanted", ValueError)
    with tempfile.TemporaryDirectory(prefix="unison-") as folder:
        named = [path for path in (model_file(model, folder), network_file(network, folder)) if path]
        return begun([*words, f"--port={port}", "--", *named])


def model_file(model: Any, folder: str) -> Optional[str]:
    """The path of a model or a program, which is written into a folder where it is none."""
    if isinstance(model, Program):
        name = "own.model" if isinstance(model, Model) else "own.rules"
        Path(folder, name).write_text(model.source if isinstance(model, Model) else model.canonical, encoding="utf-8")
        return os.path.join(folder, name)
    return None if model is None else os.fspath(model)


def network_file(network: Any, folder: str) -> Optional[str]:
    """The path of a network file, which is written into a folder where it is none."""
    if isinstance(network, Network):
        Path(folder, "network.toml").write_text(network.text, encoding="utf-8")
        return os.path.join(folder, "network.toml")
    return None if network is None else os.fspath(network)


def begun(words: List[str]) -> Studio:
    """The studio of these words, once it has said its link."""
    from .command import launchers  # (which is run as a module, and so is not taken up with the package)

    launcher = next((path for path in launchers() if path.is_file()), None)
    if launcher is None:
        raise _programs.ProgramsMissing(_programs.missing("unison_lab"))
    process = subprocess.Popen(["bash", str(launcher), "studio", *words], stdin=subprocess.DEVNULL, stdout=subprocess.PIPE, text=True)
    link = process.stdout.readline().strip() if process.stdout else ""
    if link.startswith("http://"):
        return Studio(process, link)
    raise RuntimeError(f"studio: it ended with status {process.wait()}; what is wrong stands on standard error")
