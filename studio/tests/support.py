"""What the tests of the studio share: a real server at a port of its own, calls to it, and programs that misbehave."""

import http.client
import json
import os
import shutil
import subprocess
import sys
import tempfile
import threading
import time
import unittest
from pathlib import Path

TOP = Path(__file__).resolve().parent.parent.parent
sys.dont_write_bytecode = True
sys.path.insert(0, str(TOP / "studio"))
from service.limits import Limits  # noqa: E402
from service.serving import Server  # noqa: E402
from service.studio import Beginning, Places, Studio  # noqa: E402

#: The program that answers: it is named by studio/check.
PROGRAM = Path(os.environ.get("STUDIO_PROGRAM", TOP / "quick/out/unison_lab"))
JSON = {"Content-Type": "application/json"}
PATIENCE = 120  # seconds in which something has to come


def place_of(program=PROGRAM):
    return Places(TOP / "studio", TOP / "viewer" / "page.html", TOP / "viewer", TOP, Path(program))


def until(holds, seconds=PATIENCE):
    """Waits until something holds; whether it did in time."""
    end = time.monotonic() + seconds
    while not holds():
        if time.monotonic() > end:
            return False
        time.sleep(0.02)
    return True


def run(*words, files=None, input=b"", program=PROGRAM):
    """What the program itself prints of these words, in a folder with these files: its status, its output, what it told, and what it wrote."""
    with tempfile.TemporaryDirectory() as folder:
        for name, text in (files or {}).items():
            Path(folder, name).write_text(text)
        done = subprocess.run([program, *words], cwd=folder, input=input, capture_output=True)
        written = {path.name: path.read_text() for path in Path(folder).iterdir() if path.name not in (files or {})}
    return done.returncode, done.stdout, done.stderr.decode(), written


def children():
    """The processes that this one has started and that are still there, but for those that have ended."""
    found = []
    for path in Path("/proc").glob("[0-9]*/stat"):
        try:
            state, parent = path.read_text().rsplit(")", 1)[1].split()[:2]
        except OSError:
            continue
        if int(parent) == os.getpid() and state != "Z":
            found.append(int(path.parent.name))
    return found


class Case(unittest.TestCase):
    """A test with a server, which ends after it."""

    limits = Limits()
    program = PROGRAM

    def setUp(self):
        self.folder = Path(tempfile.mkdtemp(prefix="studio-test-"))
        self.addCleanup(shutil.rmtree, self.folder, True)
        self.serve(self.program)

    def serve(self, program, limits=None, beginning=Beginning()):
        """Starts a server, in the place of `self.server`."""
        self.studio = Studio(place_of(program), beginning, limits or self.limits)
        self.server = Server(self.studio)
        thread = threading.Thread(target=self.server.serve_forever, kwargs={"poll_interval": 0.02}, daemon=True)
        thread.start()
        self.addCleanup(self.server.close)
        return self.server

    def script(self, text):
        """A program of the shell that stands in for the one that answers."""
        path = self.folder / f"program{len(list(self.folder.iterdir()))}"
        path.write_text(f"#!/bin/sh\n{text}\n")
        path.chmod(0o755)
        return path

    @property
    def host(self):
        return f"127.0.0.1:{self.server.server_port}"

    @property
    def origin(self):
        return f"http://{self.host}"

    def call(self, method, path, body=None, headers=None, token=None, host=None):
        """A call below the token: its status, its headers and its body."""
        there = http.client.HTTPConnection("127.0.0.1", self.server.server_port, timeout=PATIENCE)
        front = f"/{self.studio.token if token is None else token}/" if token != "" else "/"
        there.putrequest(method, front + path, skip_host=True)
        given = {"Host": host or self.host, **(headers or {})}
        if body is not None and "Content-Length" not in given:
            given["Content-Length"] = str(len(body))
        for name, value in given.items():
            there.putheader(name, value)
        there.endheaders()
        if body:
            there.send(body)
        reply = there.getresponse()
        got = reply.status, dict(reply.getheaders()), reply.read()
        there.close()
        return got

    def get(self, path, **more):
        return self.call("GET", path, **more)

    def post(self, path, value, headers=None, **more):
        return self.call("POST", path, json.dumps(value).encode(), {**JSON, "Origin": self.origin, **(headers or {})}, **more)

    def order(self, *words, tab="tab", lane="lane", files=None, input=""):
        return {"tab": tab, "lane": lane, "words": list(words), "files": files or {}, "input": input}

    def answer(self, *words, **more):
        """What becomes of a run: what the server says of it, and what it printed."""
        status, _, body = self.post("run", self.order(*words, **more))
        self.assertIn(status, (200, 503), body[:300])
        front, output = body.split(b"\n", 1)
        return json.loads(front), output

    def beside(self, *words, **more):
        """A run that is asked for beside what goes on here; gives a function that waits for its answer."""
        kept = []
        thread = threading.Thread(target=lambda: kept.append(self.answer(*words, **more)), daemon=True)
        thread.start()

        def wait():
            thread.join(PATIENCE)
            self.assertTrue(kept, "no answer came")
            return kept[0]

        return wait
