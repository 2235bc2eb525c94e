"""What a page asks for: a command, its words, and the files that they name. A run sees these files and no others."""

from __future__ import annotations

import re
from typing import Any, Dict, List, NamedTuple

from .limits import Limits

#: The commands that a page may run. Each reads what it is given and prints an answer; none builds, proves or goes on for ever.
COMMANDS = frozenset(
    "cells check count csv cuts dot expand explain generate image import info init life-rule lockstep naive page replay schedule settle verify "
    "watch why".split()
)

#: Options that no page may give: they write many files, or name what is the studio's own.
NEVER = ("--frames", "--viewer", "--packed", "--trace")

#: The command whose words name no files, so that a rule may be written as B36/S23.
WITHOUT_FILES = "life-rule"

NAME = re.compile(r"[A-Za-z0-9_][A-Za-z0-9_.-]{0,63}")  # of a file
LONGEST_WORD = 65536


class Refused(Exception):
    """What is wrong with what a page asks for, in words."""


class Order(NamedTuple):
    """A command to run for a page: `tab` and `lane` tell which earlier run it takes the place of."""

    tab: str
    lane: str
    words: List[str]
    files: Dict[str, bytes]
    input: bytes


def demand(condition: bool, why: str) -> None:
    if not condition:
        raise Refused(why)


def read_order(asked: Any, limits: Limits) -> Order:
    """The order that the JSON of a page says. Raises `Refused`."""
    demand(isinstance(asked, dict), "an object is wanted, with tab, lane and words")
    tab, lane = (named(asked.get(key), key) for key in ("tab", "lane"))
    words = asked.get("words")
    demand(isinstance(words, list) and 0 < len(words) <= limits.words, f"words is a list of 1 to {limits.words} texts")
    files = asked.get("files", {})
    demand(isinstance(files, dict) and len(files) <= limits.files, f"files is an object of {limits.files} texts at most")
    given = asked.get("input", "")
    demand(isinstance(given, str), "input is a text")
    return Order(tab, lane, read_words(words), {name: read_file(name, text) for name, text in files.items()}, bytes_of(given))


def named(text: Any, what: str) -> str:
    demand(isinstance(text, str) and NAME.fullmatch(text) is not None, f"{what} is a name of 1 to 64 letters, digits, dots, - and _")
    return str(text)


def read_words(words: List[Any]) -> List[str]:
    """The words of a command, none of which names a file outside the folder of its run."""
    for word in words:
        demand(isinstance(word, str) and len(word) <= LONGEST_WORD, f"a word is a text of {LONGEST_WORD} characters at most")
        demand("\0" not in word, "a word has no zero character")
        demand("/" not in word or words[0] == WITHOUT_FILES, f"`{word[:80]}` has a /: a run sees the files that it is given alone, which are named without folders")
        demand(not word.startswith(NEVER), f"{word[:80]} is not for pages: give the command in a terminal")
    demand(words[0] in COMMANDS, f"`{words[0][:80]}` is no command that the studio runs; it runs {', '.join(sorted(COMMANDS))}")
    return words


def read_file(name: str, text: Any) -> bytes:
    named(name, "the name of a file")
    demand(isinstance(text, str), f"what stands in {name} is a text")
    return bytes_of(text)


def bytes_of(text: str) -> bytes:
    return text.encode("utf-8", "replace")
