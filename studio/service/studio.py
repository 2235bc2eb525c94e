"""A studio: its token, its files, what it begins with, and its runs."""

from __future__ import annotations

import base64
import hashlib
import re
import secrets
import threading
from pathlib import Path
from typing import Any, Dict, List, NamedTuple, Optional

from . import tables
from .gallery import Gallery
from .limits import Limits
from .runs import Runs


class Places(NamedTuple):
    """Where the parts of a studio stand."""

    home: Path  # this folder, with `page` below it
    viewer: Path  # the file into which pages are put
    modules: Path  # the folder of the viewer's modules and its style
    top: Path  # the folder with `examples` and `docs`
    program: Path  # that which answers


class Beginning(NamedTuple):
    """With what a studio begins: as it is called, what is told of the program, and the texts that were named."""

    called: str = "./unison"
    version: str = ""
    note: str = ""  # of a program that is not proved
    is_proved: bool = False  # where that is known
    model: str = ""
    model_name: str = ""
    network: str = ""
    network_name: str = ""


def page_files(places: Places) -> Dict[str, Path]:
    """The files that the page asks for, by their names: those of the page, and the modules of the viewer. Nothing else is served."""
    own = {path.name: path for path in (places.home / "page").iterdir() if path.suffix in (".html", ".js", ".css")}
    viewer = {f"viewer/{path.name}": path for path in places.modules.glob("*.js")}
    return {**own, **viewer, "viewer.css": places.modules / "style.css"}


def script_hash(page: Path) -> str:
    """The hash of the one script of a page of `unison page`, which its own policy names: the studio shows such pages in a frame."""
    found = re.search(r"script-src '(sha256-[^']+)'; style-src '(sha256-[^']+)'", page.read_text(encoding="utf-8"))
    return f"'{found.group(1)}' '{found.group(2)}'" if found else "'none'"


class Studio:
    """All that the server answers from."""

    def __init__(self, places: Places, beginning: Beginning, limits: Optional[Limits] = None) -> None:
        self.places, self.beginning = places, beginning
        self.limits = limits or Limits()
        self.token = secrets.token_urlsafe(24)
        self.files = page_files(places)
        self.runs = Runs(places.program, places.viewer, self.limits)
        self.gallery = Gallery(places.top, places.home / "gallery.json")
        self.tables: Dict[str, List[Dict[str, Any]]] = {}
        self.lock = threading.Lock()
        shown = script_hash(places.viewer)
        self.policy = (
            f"default-src 'none'; script-src 'self' {shown}; style-src 'self' {shown}; connect-src 'self'; img-src blob: data:; "
            "frame-src blob:; base-uri 'none'; form-action 'none'; frame-ancestors 'none'"
        )

    def start(self, rest: str) -> Optional[Dict[str, Any]]:
        """What the page begins with."""
        if rest:
            return None
        begin = self.beginning
        return {
            "called": begin.called,
            "version": begin.version,
            "answers": self.answers(),
            "model": begin.model,
            "modelName": begin.model_name,
            "network": begin.network,
            "networkName": begin.network_name,
            "gallery": self.gallery.entries,
        }

    def answers(self) -> str:
        """What is told of the program that answers."""
        begin = self.beginning
        if begin.is_proved:
            return "Answers come from the proved program."
        if begin.note:
            return f"Answers come from a program that is not proved, and slow: {begin.note}"
        return f"Answers come from {self.places.program}, of which it is not known here whether it is proved."

    def table(self, command: str) -> Optional[List[Dict[str, Any]]]:
        """The manners of a command, asked of it once."""
        if command not in tables.ASKED:
            return None
        with self.lock:
            if command not in self.tables:
                self.tables[command] = tables.table(self.places.program, command)
            return self.tables[command]

    def gallery_entry(self, name: str) -> Optional[Dict[str, Any]]:
        return self.gallery.entry(name)

    def close(self) -> None:
        self.runs.close()
