#!/usr/bin/env python3
"""The mean of a ring, by processes that know no common clock: `nodes.py TRACE [--rounds N] [--wrong]` runs mean.rules on ring.toml, and leaves a
trace that `unison verify` reads.

Each node is a process with a register: how often it has moved, modulo three, its value, and the value before its last move. It answers who asks
for the register on a socket of its own. To move, it asks each neighbour once, and again as long as the neighbour is behind; of one that has moved
as often as itself it takes the value, of one that has moved once more the value before. With --wrong it always takes the value."""

import argparse
import json
import os
import random
import socket
import sys
import threading
import time
import tomllib
from pathlib import Path

HERE = Path(__file__).resolve().parent


class Node:
    """A node: its register, its neighbours' sockets, and the trace."""

    def __init__(self, number, level, neighbours, trace, wrong):
        self.number = number
        self.neighbours = neighbours
        self.trace = trace
        self.wrong = wrong
        self.register = {"phase": 0, "level": level, "before": level}

    def serve(self, listening):
        """Answers each that asks with the register as it stands."""
        while True:
            asking, _ = listening.accept()
            with asking:
                asking.sendall(json.dumps(self.register).encode())

    def tell(self, line):
        """Puts a line behind those of all nodes: one write to a file that is open for appending is whole."""
        os.write(self.trace, f"{line}\n".encode())

    def ask(self, port):
        """The register of a neighbour."""
        with socket.create_connection(("127.0.0.1", port)) as asked, asked.makefile() as answer:
            return json.load(answer)

    def taken(self, register):
        """The neighbour's value that belongs to the node's own round; none where the neighbour is behind."""
        ahead = (register["phase"] - self.register["phase"]) % 3
        if ahead == 2:
            return None
        return register["level"] if ahead == 0 or self.wrong else register["before"]

    def read(self, neighbour, port):
        """Reads a neighbour, as soon as it is not behind. The line comes after the read."""
        while (level := self.taken(self.ask(port))) is None:
            time.sleep(0.001)
        self.tell(f"{self.number} reads {neighbour}: level={level}")
        return level

    def move(self, levels):
        """Moves. The line comes before any neighbour can see the new register."""
        old = self.register
        level = (old["level"] + sum(levels)) // (len(levels) + 1)
        self.tell(f"{self.number} moves: level={level}")
        self.register = {"phase": (old["phase"] + 1) % 3, "level": level, "before": old["level"]}

    def run(self, rounds):
        """Reads all neighbours, in any order, and moves, so many times."""
        for _ in range(rounds):
            asked = random.sample(list(self.neighbours.items()), len(self.neighbours))
            levels = []
            for neighbour, port in asked:
                levels.append(self.read(neighbour, port))
                time.sleep(random.random() * (0.01 if self.number == 0 else 0.001))  # node 0 is slow, so that others get ahead of it
            self.move(levels)


def start(node, listening, rounds, done):
    """Starts the process of a node. It writes a byte when it has moved for the last time, and answers on."""
    child = os.fork()
    if child:
        return child
    threading.Thread(target=node.serve, args=[listening], daemon=True).start()
    node.run(rounds)
    os.write(done, b".")
    time.sleep(60)
    os._exit(1)


def main():
    parser = argparse.ArgumentParser(description=__doc__.split("\n\n")[0])
    parser.add_argument("trace")
    parser.add_argument("--rounds", type=int, default=20)
    parser.add_argument("--wrong", action="store_true")
    asked = parser.parse_args()
    network = tomllib.loads((HERE / "ring.toml").read_text())
    levels = dict(network["set"]["level"])
    listening = [socket.create_server(("127.0.0.1", 0)) for _ in range(network["nodes"])]
    ports = [one.getsockname()[1] for one in listening]
    trace = os.open(asked.trace, os.O_WRONLY | os.O_CREAT | os.O_TRUNC | os.O_APPEND, 0o666)
    ends, done = os.pipe()
    children = []
    for number, level in sorted(levels.items()):
        near = {b if a == number else a for a, b in network["links"] if number in (a, b)}
        node = Node(number, level, {neighbour: ports[neighbour] for neighbour in near}, trace, asked.wrong)
        children.append(start(node, listening[number], asked.rounds, done))
    for _ in children:
        os.read(ends, 1)
    for child in children:
        os.kill(child, 9)
        os.waitpid(child, 0)


if __name__ == "__main__":
    sys.exit(main())
