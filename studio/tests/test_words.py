"""The command line: what it takes, what it refuses, and that it ends with nothing left."""

import json
import os
import signal
import subprocess
import sys
import tempfile
import threading
import unittest
import urllib.request
from pathlib import Path

from support import PATIENCE, PROGRAM, TOP, until

KNOWN = {"called": "./unison", "program": PROGRAM, "viewer": TOP / "viewer/page.html", "modules": TOP / "viewer", "top": TOP}
START = [sys.executable, str(TOP / "studio/start"), *(f"--its-{name}={value}" for name, value in KNOWN.items())]


def ended(*words, start=START, folder=TOP):
    """What becomes of a command line that ends by itself."""
    done = subprocess.run([*start, *words], cwd=folder, capture_output=True, text=True, timeout=PATIENCE)
    return done.returncode, done.stdout, done.stderr


class Words(unittest.TestCase):
    def test_help_has_an_example(self):
        status, output, _ = ended("--help")
        self.assertEqual(status, 0)
        self.assertIn("An example: ./unison studio examples/models/epidemic.model", output)
        self.assertNotIn("--its-", output)

    def test_the_launcher_tells_of_it(self):
        for words in (["studio", "--help"], ["help", "studio"]):
            status, output, _ = ended(*words, start=["./unison"])
            self.assertEqual((status, output.split("\n")[0]), (0, "usage: ./unison studio [MODEL [NETWORK]] [--port N] [--no-open]"))

    def test_words_that_are_refused(self):
        for words in (["--port", "x"], ["--port", "70000"], ["--port=-1"], ["--nothing"], ["a", "b", "c"], ["--po", "5"]):
            status, output, told = ended(*words)
            self.assertEqual((status, output, told.split("\n")[0]), (2, "", "fault: usage"), words)
            self.assertTrue(told.split("\n")[1], words)

    def test_files_that_cannot_be_read(self):
        with tempfile.TemporaryDirectory() as folder:
            Path(folder, "binary").write_bytes(b"UNISONW1\0\0")
            for name, words in (("nothing.model", "No such file"), (folder, "Is a directory"), (f"{folder}/binary", "is no text")):
                status, output, told = ended(name)
                self.assertEqual((status, output, told.split("\n")[0]), (1, "", "fault: file"), name)
                self.assertIn(words, told)

    def test_a_port_that_is_taken(self):
        with Studio() as studio:
            port = studio.link.split(":")[2].split("/")[0]
            status, output, told = ended("--no-open", "--port", port)
            self.assertEqual((status, output, told.split("\n")[0]), (1, "", "fault: file"))
            self.assertIn(f"port {port}", told)


class Studio:
    """A studio of a command line, with a folder for what it leaves."""

    def __init__(self, *words):
        self.folder = tempfile.TemporaryDirectory()
        env = {**os.environ, "TMPDIR": self.folder.name}
        self.process = subprocess.Popen([*START, "--no-open", *words], cwd=TOP, env=env, stdout=subprocess.PIPE, stderr=subprocess.PIPE, text=True)
        self.link = self.process.stdout.readline().strip()

    def __enter__(self):
        return self

    def __exit__(self, *_):
        self.end(signal.SIGKILL)
        self.folder.cleanup()

    def end(self, number):
        """Ends it by a signal; its status."""
        if self.process.poll() is None:
            self.process.send_signal(number)
        status = self.process.wait(PATIENCE)
        self.process.stdout.close()
        self.process.stderr.close()
        return status


class Ends(unittest.TestCase):
    def test_it_ends_by_a_signal_with_nothing_left(self):
        for number in (signal.SIGINT, signal.SIGTERM, signal.SIGHUP):
            with Studio() as studio:
                self.assertEqual(urllib.request.urlopen(studio.link, timeout=PATIENCE).status, 200)
                self.assertEqual(len(os.listdir(studio.folder.name)), 1)
                self.assertEqual(studio.end(number), 0)
                self.assertEqual(os.listdir(studio.folder.name), [])

    def test_a_run_ends_with_it(self):
        order = b'{"tab": "a", "lane": "b", "words": ["lockstep", "a.rules", "n.toml", "--rounds", "1000000000"], "files": {"a.rules": "field s = 0;\\nnext s = (s + 1);\\n", "n.toml": "nodes = 1\\nlinks = []\\n"}}'
        with Studio() as studio:
            origin = studio.link.rsplit("/", 2)[0]
            request = urllib.request.Request(f"{studio.link}run", order, {"Content-Type": "application/json", "Origin": origin})
            threading.Thread(target=lambda: self.quietly(request), daemon=True).start()
            self.assertTrue(until(lambda: self.children(studio.process.pid)))
            runs = self.children(studio.process.pid)
            self.assertEqual(studio.end(signal.SIGINT), 0)
            self.assertTrue(until(lambda: not any(os.path.exists(f"/proc/{run}") for run in runs)))

    @staticmethod
    def quietly(request):
        try:
            urllib.request.urlopen(request, timeout=PATIENCE).read()
        except OSError:
            pass

    @staticmethod
    def children(parent):
        found = []
        for path in Path("/proc").glob("[0-9]*/stat"):
            try:
                if int(path.read_text().rsplit(")", 1)[1].split()[1]) == parent:
                    found.append(path.parent.name)
            except OSError:
                pass
        return found

    def test_the_launcher_says_which_program_answers(self):
        builds = {TOP / "quick/out": ("quick", "a program that is not proved, and slow"), TOP / "crates/unison_lab/out": ("proved", "the proved program.")}
        if PROGRAM.parent not in builds:
            self.skipTest("the program stands elsewhere")
        build, words = builds[PROGRAM.parent]
        process = subprocess.Popen(["./unison", "studio", "--no-open"], cwd=TOP, env={**os.environ, "UNISON_BUILD": build}, stdout=subprocess.PIPE, stderr=subprocess.DEVNULL, text=True)
        link = process.stdout.readline().strip()
        start = json.loads(urllib.request.urlopen(f"{link}start", timeout=PATIENCE).read())
        process.send_signal(signal.SIGINT)
        self.assertEqual(process.wait(PATIENCE), 0)
        process.stdout.close()
        self.assertIn(words, start["answers"])
        self.assertRegex(start["version"], r"^unison \d")

    def test_what_is_named_is_there(self):
        with Studio("examples/models/life.model", "examples/glider.toml") as studio:
            start = json.loads(urllib.request.urlopen(f"{studio.link}start", timeout=PATIENCE).read())
            self.assertEqual((start["modelName"], start["networkName"]), ("life.model", "glider.toml"))
            self.assertEqual(start["model"], (TOP / "examples/models/life.model").read_text())
            self.assertEqual(start["network"], (TOP / "examples/glider.toml").read_text())


if __name__ == "__main__":
    unittest.main()
