"""What the words of a command can be, asked of the command itself by its help: so a form of the page has what the program takes."""

from __future__ import annotations

import re
import subprocess
from concurrent.futures import ThreadPoolExecutor
from pathlib import Path
from typing import Any, Dict, List

#: The commands whose forms the page makes.
ASKED = ("generate", "schedule", "import")

ROW = re.compile(r"^ +(\S.*?)(?:  +(\S.*))?$")
OPTION = re.compile(r"^(?:-\w, )?(--[a-z-]+)(?: \[?<(.+?)>\]?)?")
LEFT_OUT = ("--help", "--packed", "--quiet", "--keep-loops", "--directed", "--reverse")


def help_of(program: Path, *words: str) -> str:
    """The help of a command."""
    done = subprocess.run([str(program), *words, "--help"], stdin=subprocess.DEVNULL, capture_output=True, text=True, check=False, timeout=60)
    return done.stdout


def sections(text: str) -> Dict[str, List[List[str]]]:
    """The rows of each section of a help: a heading with a colon, and below it names and what they are."""
    found: Dict[str, List[List[str]]] = {}
    rows: List[List[str]] = []
    for line in text.splitlines():
        row = ROW.match(line)
        if re.fullmatch(r"[A-Z][a-z]+:", line):
            rows = found.setdefault(line[:-1], [])
        elif row:
            rows.append([row.group(1), row.group(2) or ""])
    return found


def usage(text: str) -> str:
    return next((line for line in text.splitlines() if line.startswith("Usage: ")), "")


def option(row: List[str], line: str) -> Dict[str, Any]:
    """An option of a table's row: its name, what stands after it, what it is, and whether it has to be given."""
    found = OPTION.match(row[0])
    name, value = (found.group(1), found.group(2) or "") if found else (row[0], "")
    return {"name": name, "value": value, "about": row[1], "isNeeded": f"] {name} " in line or f"> {name} " in line}


def manner(program: Path, command: str, row: List[str]) -> Dict[str, Any]:
    """One manner of a command, as a shape: its name, what it is, its arguments and its options."""
    text = help_of(program, command, row[0])
    parts = sections(text)
    options = [option(it, usage(text)) for it in parts.get("Options", [])]
    return {
        "name": row[0],
        "about": row[1],
        "arguments": [{"name": name.strip("<>[]"), "about": about} for name, about in parts.get("Arguments", [])],
        "options": [it for it in options if it["name"] not in LEFT_OUT],
    }


def table(program: Path, command: str) -> List[Dict[str, Any]]:
    """All manners of a command."""
    rows = [row for row in sections(help_of(program, command)).get("Commands", []) if row[0] != "help"]
    with ThreadPoolExecutor(4) as several:
        return list(several.map(lambda row: manner(program, command, row), rows))
