"""Runs have limits of time, memory, output and number; each ends with the page that asked for it."""

import json
import os
import socket
import threading
import time
import unittest
from collections import Counter

from support import JSON, PATIENCE, Case, children, until

FOREVER = "exec sleep 1000"
COUNTER = {"a.rules": "field s = 0;\nnext s = (s + 1);\n", "n.toml": "nodes = 3\nlinks = [[0, 1], [1, 2]]\n"}
ENDLESS = ("lockstep", "a.rules", "n.toml", "--rounds", "1000000000")


class Ends(Case):
    limits = Case.limits._replace(seconds=600)

    def none_left(self):
        self.assertTrue(until(lambda: not children()), children())
        self.assertTrue(until(lambda: not self.studio.runs.present))
        self.assertEqual(os.listdir(self.studio.runs.room), [])

    def test_a_run_that_never_ends_is_ended(self):
        self.serve(self.program, self.limits._replace(seconds=1.0))
        begin = time.monotonic()
        front, output = self.answer(*ENDLESS, files=COUNTER)
        self.assertEqual((front["ended"], output), ("late", b""))
        self.assertLess(time.monotonic() - begin, PATIENCE)
        self.none_left()

    def test_a_run_that_heeds_no_signal_is_ended_with_all_that_it_started(self):
        self.serve(self.script("trap '' TERM INT HUP\n(sleep 1000)\nsleep 1000"), self.limits._replace(seconds=0.5))
        self.assertEqual(self.answer("info", "x")[0]["ended"], "late")
        self.none_left()

    def test_a_run_that_closes_its_output_and_goes_on_is_ended(self):
        self.serve(self.script("exec >&- 2>&-\nexec sleep 1000"))
        self.answer("info", "x")
        self.none_left()

    def test_a_run_that_prints_for_ever_is_ended(self):
        self.serve(self.script("exec cat /dev/zero"), self.limits._replace(output=1 << 20))
        front, output = self.answer("info", "x")
        self.assertEqual((front["ended"], len(output)), ("large", 1 << 20))
        self.none_left()

    def test_what_a_run_tells_is_cut(self):
        self.serve(self.script("head -c 10000000 /dev/zero | tr '\\0' x >&2"))
        front, _ = self.answer("info", "x")
        self.assertEqual((front["ended"], front["status"], len(front["told"])), ("", 0, 1 << 16))

    def test_a_run_that_takes_too_much_memory_is_ended(self):
        self.serve(self.script("exec python3 -c 'import time; kept = bytearray(300 << 20); time.sleep(1000)'"), self.limits._replace(memory=150 << 20))
        self.assertEqual(self.answer("info", "x")[0]["ended"], "heavy")
        self.none_left()

    def test_a_run_that_writes_a_large_file_is_ended(self):
        self.serve(self.script("exec head -c 5000000 /dev/zero > written"), self.limits._replace(output=1 << 20))
        front, _ = self.answer("info", "x")
        self.assertNotEqual(front["status"], 0)
        self.none_left()

    def test_a_later_run_takes_the_place_of_an_earlier_one(self):
        first = self.beside(*ENDLESS, files=COUNTER)
        self.assertTrue(until(children))
        front, output = self.answer("lockstep", "a.rules", "n.toml", "--rounds", "2", files=COUNTER)
        self.assertEqual((front["ended"], output), ("", b"round 2\n0 s=2\n1 s=2\n2 s=2\n"))
        self.assertEqual(first()[0]["ended"], "superseded")
        self.none_left()

    def test_runs_of_other_lanes_and_tabs_go_on(self):
        waits = [self.beside(*ENDLESS, files=COUNTER, tab=tab, lane=lane) for tab, lane in (("a", "x"), ("a", "y"), ("b", "x"))]
        self.assertTrue(until(lambda: len(self.studio.runs.present) == 3))
        time.sleep(0.3)
        self.assertEqual(len(self.studio.runs.present), 3)
        self.assertEqual(self.post("gone", {"tab": "a"})[0], 200)
        self.assertEqual([waits[at]()[0]["ended"] for at in (0, 1)], ["left", "left"])
        self.assertTrue(until(lambda: list(self.studio.runs.present) == [("b", "x")]))
        self.assertEqual(self.post("gone", {"tab": "b"})[0], 200)
        self.assertEqual(waits[2]()[0]["ended"], "left")
        self.none_left()

    def test_a_browser_that_goes_away_takes_its_run_with_it(self):
        body = json.dumps(self.order(*ENDLESS, files=COUNTER)).encode()
        away = socket.create_connection(("127.0.0.1", self.server.server_port), timeout=PATIENCE)
        headers = "".join(f"{name}: {value}\r\n" for name, value in {"Host": self.host, "Origin": self.origin, "Content-Length": len(body), **JSON}.items())
        away.sendall(f"POST /{self.studio.token}/run HTTP/1.1\r\n{headers}\r\n".encode() + body)
        self.assertTrue(until(children))
        away.close()
        self.none_left()
        self.assertEqual(self.get("start")[0], 200)

    def test_the_end_of_the_studio_ends_its_runs(self):
        wait = self.beside(*ENDLESS, files=COUNTER)
        self.assertTrue(until(children))
        room = self.studio.runs.room
        self.studio.close()
        self.assertEqual(wait()[0]["ended"], "closed")
        self.assertTrue(until(lambda: not children()))
        self.assertFalse(os.path.exists(room))


class Many(Case):
    def test_a_hundred_calls_at_once(self):
        limits = self.limits._replace(at_once=3, waiting=40)
        self.serve(self.script("sleep 0.05\necho $1"), limits)
        kept = []

        def ask(number):
            kept.append(self.answer("info", str(number), tab=f"tab{number}"))

        threads = [threading.Thread(target=ask, args=(number,)) for number in range(100)]
        for thread in threads:
            thread.start()
        for thread in threads:
            thread.join(PATIENCE)
        ends = Counter(front["ended"] for front, _ in kept)
        self.assertEqual(set(ends) | {"busy"}, {"", "busy"})
        self.assertEqual(sum(ends.values()), 100)
        self.assertGreaterEqual(ends[""], 43)  # those that may run and those that may wait, at least
        self.assertEqual(self.studio.runs.most, 3)
        self.assertTrue(all(output == b"info\n" for front, output in kept if not front["ended"]))
        self.assertEqual(self.answer("info", "x")[1], b"info\n")

    def test_a_run_that_waits_in_vain_is_told_so(self):
        self.serve(self.script(FOREVER), self.limits._replace(at_once=1, waiting=1))
        first, second = (self.beside("info", "x", tab=tab) for tab in ("a", "b"))
        self.assertTrue(until(lambda: self.studio.runs.working == 1 and self.studio.runs.waiting == 1))
        status, _, body = self.post("run", self.order("info", "x", tab="c"))
        self.assertEqual((status, json.loads(body.split(b"\n")[0])["ended"]), (503, "busy"))
        for tab in ("b", "a"):
            self.post("gone", {"tab": tab})
        self.assertEqual({first()[0]["ended"], second()[0]["ended"]}, {"left"})

    def test_a_run_that_waits_may_be_superseded(self):
        self.serve(self.script(FOREVER), self.limits._replace(at_once=1, waiting=3))
        first = self.beside("info", "x", tab="a")
        self.assertTrue(until(lambda: self.studio.runs.working == 1))
        second = self.beside("info", "x", tab="b")
        self.assertTrue(until(lambda: self.studio.runs.waiting == 1))
        third = self.beside("info", "x", tab="b")
        self.assertEqual(second()[0]["ended"], "superseded")
        self.assertTrue(until(lambda: self.studio.runs.waiting == 1))
        for tab in ("a", "b"):
            self.post("gone", {"tab": tab})
        self.assertEqual({first()[0]["ended"], third()[0]["ended"]}, {"left"})


if __name__ == "__main__":
    unittest.main()
