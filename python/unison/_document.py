"""The text of a network file: written, and read where the library has accepted it."""

from __future__ import annotations

import json
import re
from typing import Any, Dict, List, NamedTuple, Tuple

Link = Tuple[int, int, int]
Sets = Dict[str, List[Tuple[int, int]]]

BARE = re.compile(r"[A-Za-z0-9_-]+")
#: Links as `write` spells them, at the head of a text.
LINKS = re.compile(r"links = \[\n((?:    \[[0-9]+, [0-9]+(?:, [0-9]+)?\],\n)+)\]\n")
ESCAPES = {"b": "\b", "t": "\t", "n": "\n", "f": "\f", "r": "\r", "e": "\x1b"}
ESCAPE = re.compile(r"\\(?:u([0-9A-Fa-f]{4})|U([0-9A-Fa-f]{8})|x([0-9A-Fa-f]{2})|(.))", re.DOTALL)
TOKEN = re.compile(
    r"""[ \t\r]+|\#[^\n]*|(?P<basic>"(?:[^"\\\n]|\\.)*")|(?P<literal>'[^'\n]*')|(?P<word>[A-Za-z0-9_+-]+)|(?P<sign>[][{},=.\n])"""
)


class Document(NamedTuple):
    """What a network file says."""

    nodes: int
    links: List[Link]
    phase: int
    sets: Sets


def key_text(name: str) -> str:
    """A key of a table: bare where it may be, else in quotes."""
    if BARE.fullmatch(name):
        return name
    escaped = name.replace("\\", "\\\\").replace('"', '\\"')
    return '"' + re.sub("[\x00-\x1f\x7f]", lambda found: f"\\u{ord(found[0]):04X}", escaped) + '"'


def write(document: Document) -> str:
    """The text of a network file, as `unison make` and `unison open` write it."""
    rows = [f"    [{one}, {other}],\n" if weight == 1 else f"    [{one}, {other}, {weight}],\n" for one, other, weight in document.links]
    links = f"links = [\n{''.join(rows)}]\n" if rows else "links = []\n"
    sets = "".join(f"{key_text(name)} = {[list(pair) for pair in pairs]}\n" for name, pairs in sorted(document.sets.items()))
    return f"{links}nodes = {document.nodes}\nphase = {document.phase}\n" + (f"\n[set]\n{sets}" if sets else "")


def unescaped(found: re.Match[str]) -> str:
    digits = found[1] or found[2] or found[3]
    return chr(int(digits, 16)) if digits else ESCAPES.get(found[4], found[4])


class Reader:
    """Reads a text that the library has accepted: a TOML document with the four keys of a network file, whose values are whole
    numbers, arrays of arrays of whole numbers, and tables of these."""

    def __init__(self, text: str) -> None:
        self.tokens = [(found.lastgroup, found[0]) for found in TOKEN.finditer(text) if found.lastgroup]
        self.place = 0

    def at(self) -> str:
        return self.tokens[self.place][1] if self.place < len(self.tokens) else ""

    def take(self) -> Tuple[Any, str]:
        self.place += 1
        return self.tokens[self.place - 1]

    def takes(self, sign: str) -> bool:
        """Whether this sign stands here; it is passed over."""
        if self.place < len(self.tokens) and self.tokens[self.place] == ("sign", sign):
            self.place += 1
            return True
        return False

    def pass_lines(self) -> None:
        while self.takes("\n"):
            pass

    def key(self) -> str:
        kind, word = self.take()
        if kind == "basic":
            return ESCAPE.sub(unescaped, word[1:-1])
        return word[1:-1] if kind == "literal" else word

    def member(self, table: Dict[str, Any]) -> None:
        """A key, parts of it joined by points, and its value."""
        name = self.key()
        while self.takes("."):
            table = table.setdefault(name, {})
            name = self.key()
        self.takes("=")
        table[name] = self.value()

    def value(self) -> Any:
        if self.takes("["):
            return self.array()
        if self.takes("{"):
            return self.inline()
        return int(self.take()[1], 0)

    def array(self) -> List[Any]:
        """The values up to `]`, whose `[` was taken."""
        values: List[Any] = []
        while True:
            self.pass_lines()
            if self.takes("]"):
                return values
            values.append(self.value())
            self.pass_lines()
            self.takes(",")

    def inline(self) -> Dict[str, Any]:
        """The members up to `}`, whose `{` was taken."""
        table: Dict[str, Any] = {}
        while True:
            self.pass_lines()
            if self.takes("}"):
                return table
            self.member(table)
            self.pass_lines()
            self.takes(",")

    def document(self) -> Dict[str, Any]:
        whole: Dict[str, Any] = {}
        table = whole
        while self.place < len(self.tokens):
            if self.takes("\n"):
                continue
            if self.takes("["):
                table = whole.setdefault(self.key(), {})
                self.takes("]")
            else:
                self.member(table)
        return whole


def read(text: str) -> Document:
    """What the text of a network file says. The library has accepted it."""
    found = LINKS.match(text)  # most texts begin so, and are read faster
    whole = Reader(text[found.end() :] if found else text).document()
    listed = json.loads(f"[{found[1].rstrip()[:-1]}]") if found else whole["links"]
    links = [(link[0], link[1], link[2] if len(link) == 3 else 1) for link in listed]
    sets = {name: [(node, value) for node, value in pairs] for name, pairs in whole.get("set", {}).items()}
    return Document(whole["nodes"], links, whole.get("phase", 0), sets)
