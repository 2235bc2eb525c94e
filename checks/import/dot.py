"""Graphs of Graphviz, read as docs/commands/import.md describes them, and as the language's own grammar has it where that says more."""

import collections
import re

from edges import is_utf8
from network import Fault, Item, weighed

Token = collections.namedtuple("Token", "kind text line last")
KEYWORDS = (b"strict", b"graph", b"digraph", b"node", b"edge", b"subgraph")
TOKEN = re.compile(rb"""
    (?P<blank>   [ \t\r\n]+ | //[^\n]* | /\*.*?\*/ | (?:\A|(?<=\n))\#[^\n]* )
  | (?P<word>    [A-Za-z_\x80-\xff][A-Za-z_0-9\x80-\xff]* )
  | (?P<number>  -?(?: [0-9]+(?:\.[0-9]*)? | \.[0-9]+ ) )
  | (?P<string>  "[^"\\]*(?:\\.[^"\\]*)*" )
  | (?P<html>    < )
  | (?P<mark>    --|->|[{}\[\];,=:] )
""", re.X | re.S)


def html_end(text, at):
    """Where a string in angle brackets ends, or None."""
    deep = 0
    for bracket in re.compile(rb"[<>]").finditer(text, at):
        deep += 1 if bracket[0] == b"<" else -1
        if deep == 0:
            return bracket.end()
    return None


def refuse_at(text, at, line, ends):
    """Refuses a text where no token begins."""
    kinds = {b'"': "UnclosedString", b"/*": "UnclosedComment", b"<": "UnclosedHtml"}
    for start, kind in kinds.items():
        if text.startswith(start, at):
            raise Fault(kind, line, *ends)
    raise Fault("?syntax", line)


def tokens(text):
    """The tokens of a text, and one that says its end."""
    at, line = 0, 1
    ends = {text.count(b"\n"), text.count(b"\n") + 1} - {0}
    while at < len(text):
        found = TOKEN.match(text, at)
        kind = found.lastgroup if found else None
        end = html_end(text, at) if kind == "html" else found.end() if found else None
        if end is None:
            refuse_at(text, at, line, ends)
        last = line + text.count(b"\n", at, end)
        if kind == "number" and re.compile(rb"[A-Za-z_0-9.\x80-\xff]").match(text, end):
            raise Fault("BadNumeral", line)
        if kind in ("word", "string", "html") and not is_utf8(text[at:end]):
            raise Fault("NotUtf8", *range(line, last + 1))
        if kind != "blank":
            yield Token(kind, text[at:end], line, last)
        at, line = end, last
    yield Token("end", b"", min(ends), max(ends))


class Reader:
    """The tokens of a text, from the first to the last."""

    def __init__(self, text, options):
        self.tokens, self.options = tokens(text), options
        self.next, self.last, self.opened, self.joins = None, None, None, b"--"

    def peek(self):
        if self.next is None:
            self.next = next(self.tokens)
        return self.next

    def take(self):
        token, self.next = self.peek(), None
        if token.kind != "end":
            self.last = token
        return token

    def at(self, *marks):
        return self.peek().kind == "mark" and self.peek().text in marks

    def word(self, *words):
        """The keyword that stands here, or None."""
        token = self.peek()
        return token.text.lower() if token.kind == "word" and token.text.lower() in (words or KEYWORDS) else None

    def is_name(self):
        return self.peek().kind in ("word", "number", "string", "html") and not self.word()

    def refuse(self, *kinds):
        """Refuses the next token."""
        token = self.peek()
        if token.kind != "end":
            raise Fault("|".join(kinds or ["?syntax"]), token.line)
        lines = {token.line, token.last, *([self.last.line, self.last.last, self.opened or 1] if self.last else [1])}
        raise Fault("|".join(["UnclosedGraph" if self.opened else "?syntax", *kinds]), *lines, *([] if self.opened else [0]))

    def expect(self, mark):
        if not self.at(mark):
            self.refuse()
        return self.take()

    def name(self):
        if not self.is_name():
            self.refuse()
        return self.take()

    def graph(self):
        """The whole text."""
        if self.word(b"strict"):
            self.take()
        kind = self.word(b"graph", b"digraph") or self.refuse()
        if kind == b"digraph" and not self.options.undirected:
            raise Fault("Directed", self.peek().line)
        self.joins = b"--" if kind == b"graph" else b"->"
        self.take()
        if self.is_name():
            self.take()
        yield from self.statements(0)
        self.opened = None
        if self.peek().kind != "end":
            self.refuse()

    def statements(self, deep):
        """The statements between two braces."""
        brace = self.expect(b"{")
        self.opened = self.opened or brace.line
        if deep > 64:
            raise Fault("TooDeep", brace.line)
        while not self.at(b"}"):
            yield from self.statement(deep)
            if self.at(b";"):
                self.take()
        self.take()

    def statement(self, deep):
        if self.at(b"{") or self.word(b"subgraph"):
            return self.subgraph(deep)
        if self.word(b"node", b"edge", b"graph"):
            return self.defaults()
        first = self.name()
        try:
            is_key = self.at(b"=")
        except Fault:
            self.plain(first)  # what is wrong with it stands before
            raise
        if is_key:
            self.take()
            if not self.is_name():
                self.refuse("?syntax")
            self.take()
            return ()
        return self.chain(first)

    def subgraph(self, deep):
        begin = self.peek().line
        if self.word():
            self.take()
            if self.is_name():
                self.take()
        yield from self.statements(deep + 1)
        if self.at(b"--", b"->"):
            lines = range(begin, self.peek().line + 1)
            raise Fault("SubgraphEnd" if self.at(self.joins) else "SubgraphEnd|WrongEdge", *lines)

    def defaults(self):
        """`node`, `edge` or `graph` with attributes."""
        keyword = self.take()
        if not self.at(b"["):
            self.refuse()
        self.attributes(keyword.line, keyword.text.lower() == b"edge")
        return ()

    def plain(self, token):
        """The name of a node."""
        lines = range(token.line, token.last + 1)
        if token.kind == "html":
            raise Fault("HtmlName", *lines)
        text = token.text[1:-1] if token.kind == "string" else token.text
        kinds = {"Escape": b"\\" in text, "ControlCharacter": re.search(rb"[\x00-\x1f\x7f]", text)}
        if any(kinds.values()):
            raise Fault("|".join(kind for kind, holds in kinds.items() if holds), *lines)
        return text

    def node(self, token):
        """The name of a node, behind which a port may stand."""
        text = self.plain(token)
        for _ in range(2):
            if self.at(b":"):
                self.take()
                self.name()
        return text

    def chain(self, first):
        """A node, or a chain of edges."""
        ends, lasts = [self.node(first)], [first.last]
        while self.at(b"--", b"->"):
            wrong = [] if self.at(self.joins) else ["WrongEdge"]
            begin = self.take()
            if self.at(b"{") or self.word(b"subgraph"):
                raise Fault("|".join(["SubgraphEnd", *wrong]), *range(begin.line, self.peek().line + 1))
            if wrong:
                raise Fault("WrongEdge", begin.line)
            lasts.append(self.peek().last)
            ends.append(self.node(self.name()))
        value = self.attributes(first.line, False, len(ends) > 1) if self.at(b"[") else None
        if len(ends) == 1:
            yield Item({first.line}, ends)
            return
        value = value or (self.options.scale or 1, False)
        for one, other, last in zip(ends, ends[1:], lasts[1:]):
            yield Item(set(range(first.line, last + 1)), [one, other], *value)

    def weight(self, begin, value):
        """The weight that the value of an attribute says."""
        lines = range(begin, value.last + 1)
        word = value.text[1:-1] if value.kind == "string" else value.text
        if value.kind == "html" or not word or b"\\" in word:
            raise Fault("?weight", *lines)
        return weighed(word, self.options.scale, *lines)

    def attributes(self, begin, default, weighs=False):
        """Some lists of attributes, of an edge or not; answers the last of an edge's weights, each of which has to be one."""
        weight = None
        while self.at(b"["):
            self.take()
            while not self.at(b"]"):
                name = self.name()
                is_weight = name.text in (b"weight", b'"weight"')
                refused = ["DefaultWeight"] if default and is_weight else []
                if not self.at(b"="):
                    valueless = self.at(b"]", b",", b";") or self.is_name()
                    if valueless:
                        raise Fault("|".join(["NoValue", *refused]), *range(name.line, self.peek().line + 1))
                    self.refuse("NoValue", "?syntax", *refused)
                self.take()
                if not self.is_name():
                    self.refuse("?value", *refused)
                value = self.take()
                if refused:
                    raise Fault("DefaultWeight", *range(begin, value.last + 1))
                if weighs and is_weight:
                    weight = self.weight(begin, value)
                if self.at(b",", b";"):
                    self.take()
            self.take()
        return weight


def read(text, options):
    """The nodes and edges of a text."""
    yield from Reader(text, options).graph()
