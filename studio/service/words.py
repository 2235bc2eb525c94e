"""The command line of the studio."""

from __future__ import annotations

import argparse
import signal
import sys
import threading
import webbrowser
from pathlib import Path
from typing import List, NoReturn, Optional, Sequence, Tuple

from .serving import Server
from .studio import Beginning, Places, Studio

HOME = Path(__file__).resolve().parent.parent
MOST_TEXT = 16 << 20  # bytes of a file that is named

EXAMPLE = """\
The page stays on this machine, and its link has a token without which nothing is answered. Files that are named are read once; what is
changed is saved from the page. It ends with Ctrl-C.

An example: {called} studio examples/models/epidemic.model
Another one: {called} studio examples/models/life.model examples/glider.toml --no-open"""


def refuse(called: str, words: str, status: int = 2) -> NoReturn:
    """Ends with what is wrong, as commands tell it."""
    kind = "usage" if status == 2 else "file"
    print(f"fault: {kind}\n{words}", file=sys.stderr)
    sys.exit(status)


class Words(argparse.ArgumentParser):
    """Reads the words; what is wrong with them is told as commands tell it."""

    def error(self, message: str) -> NoReturn:
        refuse(self.prog, f"{message}: {self.prog} --help tells the words")


def reader(called: str) -> Words:
    """What the words may be. Those that begin with --its are given by the script that starts the studio."""
    words = Words(
        prog=f"{called} studio",
        usage=f"{called} studio [MODEL [NETWORK]] [--port N] [--no-open]",
        description="Change a model, its constants and its network in a browser, and see what becomes of it at once",
        epilog=EXAMPLE.format(called=called),
        formatter_class=argparse.RawDescriptionHelpFormatter,
        allow_abbrev=False,
    )
    words.add_argument("model", metavar="MODEL", nargs="?", help="a model (NAME.model) or a program to begin with")
    words.add_argument("network", metavar="NETWORK", nargs="?", help="a network file to begin with")
    words.add_argument("--port", metavar="N", type=int, default=0, help="the port: 1 to 65535, and one that is free where it is left out")
    words.add_argument("--no-open", action="store_true", help="print the link, and open no browser")
    for hidden in ("program", "viewer", "modules", "top", "called", "version", "note", "proved"):
        words.add_argument(f"--its-{hidden}", default="", help=argparse.SUPPRESS)
    return words


def read_text(called: str, name: Optional[str]) -> Tuple[str, str]:
    """The text of a file that is named, and what it is called; nothing where none is."""
    if not name:
        return "", ""
    try:
        content = Path(name).read_bytes()
    except OSError as error:
        refuse(called, f"{name}: {error.strerror}", 1)
    if len(content) > MOST_TEXT or b"\0" in content[:64]:
        refuse(called, f"{name} is no text of {MOST_TEXT} bytes at most: the studio takes models, programs and network files", 1)
    return content.decode("utf-8", "replace"), Path(name).name


def begun(words: argparse.Namespace) -> Studio:
    """The studio that the words ask for."""
    called = words.its_called
    model, model_name = read_text(called, words.model)
    network, network_name = read_text(called, words.network)
    places = Places(HOME, Path(words.its_viewer), Path(words.its_modules), Path(words.its_top), Path(words.its_program))
    program = (words.its_version, words.its_note, words.its_proved == "yes")
    return Studio(places, Beginning(called, *program, model, model_name, network, network_name))


def served(studio: Studio, port: int) -> Server:
    """The server of a studio, at the port that is asked for."""
    try:
        return Server(studio, port)
    except OSError as error:
        studio.close()
        refuse(studio.beginning.called, f"port {port}: {error.strerror}; leave --port out, and a free one is taken", 1)


def called_of(words: Sequence[str]) -> str:
    """As what the command is called, which its help has to know before the words are read."""
    return next((word.split("=", 1)[1] for word in words if word.startswith("--its-called=")), "unison")


def main(given: Optional[List[str]] = None) -> int:
    """Serves the page until Ctrl-C, or until the process is asked to end."""
    asked = sys.argv[1:] if given is None else given
    words = reader(called_of(asked)).parse_args(asked)
    if not 0 <= words.port <= 65535:
        refuse(words.its_called, f"--port {words.port}: a port is 1 to 65535")
    server = served(begun(words), words.port)
    ends = threading.Event()
    for number in (signal.SIGINT, signal.SIGTERM, signal.SIGHUP):
        signal.signal(number, lambda *_: ends.set())
    threading.Thread(target=server.serve_forever, daemon=True).start()
    print(server.link, flush=True)
    if not words.no_open:
        webbrowser.open(server.link)
    print("unison: the studio answers at this link until Ctrl-C", file=sys.stderr, flush=True)
    while not ends.wait(0.5):
        pass
    server.close()
    return 0
