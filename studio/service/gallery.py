"""The gallery: programs and models to begin with, each with a sentence, a network and how many rounds suit it."""

from __future__ import annotations

import json
import re
from pathlib import Path
from typing import Any, Dict, List, NamedTuple, Optional

#: The pages whose tables tell which network and which round belong to a program.
PAGES = ("examples/README.md", "docs/cookbook.md")
FOLDERS = {"examples/models": "Models", "examples/cookbook": "Cookbook", "examples": "Examples"}
LINE = re.compile(r"lockstep (examples/\S+\.(?:rules|model)) (examples/\S+\.toml) --rounds (\d+)")
ROW = re.compile(r"^\| \[`(\w+)`\]\S* \| `(examples/\S+\.toml)` \| (\d+) \|", re.MULTILINE)
MORE_ROUNDS = 12  # than those of the report that a page tells of


class Start(NamedTuple):
    """With what a program begins: a network file, or the commands that make one; how many rounds; values of constants."""

    network: str
    made: List[List[str]]
    rounds: int


def starts(top: Path) -> Dict[str, Start]:
    """For each program of the pages the first network that they name."""
    found: Dict[str, Start] = {}
    for page in PAGES:
        text = (top / page).read_text(encoding="utf-8") if (top / page).is_file() else ""
        rows = [(f"examples/cookbook/{name}.rules", network, rounds) for name, network, rounds in ROW.findall(text)]
        for program, network, rounds in LINE.findall(text) + rows:
            found.setdefault(program, Start(network, [], int(rounds)))
    return found


def sentence(text: str) -> str:
    """The first comment of a program, up to the end of its first sentence or line."""
    lines = [line.lstrip("# ").rstrip() for line in text.splitlines() if line.startswith("#")]
    first = re.split(r"(?<=\.) ", " ".join(lines[:3]))[0] if lines else ""
    return first[:160]


class Gallery:
    """The programs of a folder in which `examples` and `docs` stand, as a checkout is one; where there is none, the gallery is empty."""

    def __init__(self, top: Path, own: Path) -> None:
        self.top = top
        self.starts = starts(top)
        self.starts.update({name: Start("", it["made"], it["rounds"]) for name, it in json.loads(own.read_text(encoding="utf-8")).items()})
        self.entries = [entry for folder, part in FOLDERS.items() for entry in self.listed(folder, part)]

    def listed(self, folder: str, part: str) -> List[Dict[str, Any]]:
        """The entries of a folder that have a network."""
        paths = sorted(path for path in (self.top / folder).glob("*.*") if path.suffix in (".model", ".rules"))
        names = [f"{folder}/{path.name}" for path in paths]
        return [{"name": name, "part": part, "about": sentence((self.top / name).read_text(encoding="utf-8"))} for name in names if name in self.starts]

    def entry(self, name: str) -> Optional[Dict[str, Any]]:
        """A program with its network and its rounds; None where the gallery has none of this name."""
        if name not in [entry["name"] for entry in self.entries]:
            return None
        start = self.starts[name]
        names = (self.top / start.network).with_suffix(".names") if start.network else None
        return {
            "name": Path(name).name,
            "model": (self.top / name).read_text(encoding="utf-8"),
            "network": (self.top / start.network).read_text(encoding="utf-8") if start.network else "",
            "networkName": Path(start.network).name if start.network else "network.toml",
            "names": names.read_text(encoding="utf-8") if names and names.is_file() else "",
            "made": start.made,
            "rounds": start.rounds + (0 if start.made else MORE_ROUNDS),
        }
