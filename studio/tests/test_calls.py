"""Who is answered: the page of the link alone, on this machine; what comes in is bounded, and nothing outside is read."""

import json
import socket
import time
import unittest

from support import JSON, TOP, Case

SECRET = "root:"  # what /etc/passwd begins with
CLIMBING = [
    "../../etc/passwd", "../../../../../../etc/passwd", "viewer/../../unison", "viewer/../style.css", "..%2f..%2fetc%2fpasswd", "%2e%2e/%2e%2e/etc/passwd",
    "/etc/passwd", "//etc/passwd", "viewer//etc/passwd", "gallery/../../../etc/passwd", "gallery//etc/passwd", "gallery/examples/../check", "table/../start",
    "service/serving.py", "page/main.js", "start/..", "viewer/page.html", "gallery/examples/models/../../unison",
]  # fmt: skip


class Doors(Case):
    def test_the_page_is_answered_to_its_link(self):
        status, headers, body = self.get("")
        self.assertEqual(status, 200)
        self.assertIn(b"<title>Unison studio</title>", body)
        self.assertEqual(headers["Cache-Control"], "no-store")
        self.assertEqual(headers["Referrer-Policy"], "no-referrer")
        self.assertIn("default-src 'none'", headers["Content-Security-Policy"])
        self.assertIn("frame-ancestors 'none'", headers["Content-Security-Policy"])

    def test_the_modules_are_those_of_the_page_and_of_the_viewer(self):
        for place, path in {"main.js": "studio/page/main.js", "viewer/colours.js": "viewer/colours.js", "viewer.css": "viewer/style.css"}.items():
            status, headers, body = self.get(place)
            self.assertEqual((status, body), (200, (TOP / path).read_bytes()), place)
            self.assertEqual(headers["Content-Type"].split(";")[0], "text/css" if place.endswith("css") else "text/javascript")

    def test_a_call_without_the_token_is_refused(self):
        for path in ("", "start", "main.js", "run", "favicon.ico"):
            self.assertEqual(self.get(path, token="")[0], 403, path)
        self.assertEqual(self.post("run", self.order("generate", "ring", "5"), token="")[0], 403)

    def test_a_call_with_another_token_is_refused(self):
        token = self.studio.token
        others = [token[:-1], token + "A", token[:-1] + ("A" if token[-1] != "A" else "B"), token.swapcase(), "x", "%00", "é".encode().hex()]
        for other in others:
            self.assertEqual(self.get("start", token=other)[0], 403, other)
            self.assertEqual(self.post("run", self.order("generate", "ring", "5"), token=other)[0], 403, other)

    def test_tokens_are_long_and_differ(self):
        first = self.studio.token
        self.serve(self.program)
        self.assertNotEqual(first, self.studio.token)
        self.assertGreaterEqual(len(first), 32)

    def test_another_host_is_refused(self):
        port = self.server.server_port
        for host in ("evil.example", f"evil.example:{port}", "127.0.0.1", f"127.0.0.1:{port + 1}", f"[::1]:{port}", f"0.0.0.0:{port}", " "):
            self.assertEqual(self.get("start", host=host)[0], 403, host)
        self.assertEqual(self.get("start", host=f"localhost:{port}")[0], 200)

    def test_another_origin_is_refused(self):
        port = self.server.server_port
        for origin in ("https://evil.example", f"http://evil.example:{port}", "null", f"https://127.0.0.1:{port}", f"http://127.0.0.1:{port + 1}", ""):
            self.assertEqual(self.get("start", headers={"Origin": origin})[0], 403, origin)
            self.assertEqual(self.post("run", self.order("generate", "ring", "5"), {"Origin": origin})[0], 403, origin)
        self.assertEqual(self.get("start", headers={"Origin": self.origin})[0], 200)

    def test_a_call_that_has_something_done_says_its_origin(self):
        self.assertEqual(self.call("POST", "run", b"{}", JSON)[0], 403)

    def test_a_part_of_another_page_is_refused_and_a_link_is_not(self):
        for site in ("cross-site", "same-site"):
            self.assertEqual(self.get("main.js", headers={"Sec-Fetch-Site": site, "Sec-Fetch-Mode": "no-cors"})[0], 403)
            self.assertEqual(self.get("", headers={"Sec-Fetch-Site": site, "Sec-Fetch-Mode": "navigate"})[0], 200)

    def test_it_listens_at_the_loopback_address_alone(self):
        self.assertEqual(self.server.server_address[0], "127.0.0.1")
        with self.assertRaises(OSError):
            socket.create_connection(("127.0.0.2", self.server.server_port), timeout=2)

    def test_paths_that_climb_find_nothing(self):
        for path in CLIMBING:
            status, _, body = self.get(path)
            self.assertEqual(status, 404, path)
            self.assertNotIn(SECRET, body.decode())

    def test_other_methods_do_nothing(self):
        for method in ("PUT", "DELETE", "OPTIONS", "HEAD", "TRACE"):
            self.assertEqual(self.call(method, "run")[0], 501, method)


class Bodies(Case):
    def test_a_body_of_a_gigabyte_is_refused_unread(self):
        status, _, body = self.call("POST", "run", None, {**JSON, "Origin": self.origin, "Content-Length": str(1 << 30)})  # and nothing more
        self.assertEqual(status, 413)
        self.assertIn(str(self.limits.body), body.decode())

    def test_a_body_one_byte_too_long_is_refused(self):
        headers = {**JSON, "Origin": self.origin}
        self.assertEqual(self.call("POST", "run", None, {**headers, "Content-Length": str(self.limits.body + 1)})[0], 413)
        self.assertEqual(self.call("POST", "run", None, {**headers, "Content-Length": "9" * 40})[0], 413)

    def test_a_body_of_no_length_is_refused(self):
        headers = {**JSON, "Origin": self.origin}
        self.assertEqual(self.call("POST", "run", None, headers)[0], 411)
        self.assertEqual(self.call("POST", "run", None, {**headers, "Transfer-Encoding": "chunked"})[0], 411)
        for length in ("-1", "+5", "5.0", "x", "²"):
            self.assertEqual(self.call("POST", "run", None, {**headers, "Content-Length": length.encode("latin-1")})[0], 411, length)

    def test_a_body_of_another_kind_is_refused(self):
        for kind in ("text/plain", "application/x-www-form-urlencoded", "multipart/form-data"):
            self.assertEqual(self.call("POST", "run", b"{}", {"Content-Type": kind, "Origin": self.origin})[0], 415)

    def test_a_body_that_is_no_order_is_refused(self):
        headers = {**JSON, "Origin": self.origin}
        for body in (b"", b"{", b"\xff\xfe", b"[" * 200000, b"[]", b"5", b'{"tab": "a"}'):
            self.assertEqual(self.call("POST", "run", body, headers)[0], 400, body[:20])

    def test_a_body_that_does_not_come_holds_up_nobody(self):
        self.serve(self.program, self.limits._replace(patience=0.5))
        with socket.create_connection(("127.0.0.1", self.server.server_port), timeout=20) as slow:
            front = f"POST /{self.studio.token}/run HTTP/1.1\r\nHost: {self.host}\r\nOrigin: {self.origin}\r\nContent-Type: application/json\r\n"
            slow.sendall(f"{front}Content-Length: 100\r\n\r\n{{".encode())
            self.assertEqual(self.get("start")[0], 200)
            self.assertIn(slow.recv(100)[9:12], (b"400", b""))

    def test_calls_beyond_the_most_are_closed(self):
        self.serve(self.program, self.limits._replace(calls=3, patience=5))
        idle = [socket.create_connection(("127.0.0.1", self.server.server_port), timeout=20) for _ in range(3)]
        time.sleep(0.3)
        with self.assertRaises(OSError):
            self.get("start")
        for one in idle:
            one.close()
        time.sleep(0.3)
        self.assertEqual(self.get("start")[0], 200)


class Orders(Case):
    def refused(self, order):
        status, _, body = self.post("run", order)
        self.assertEqual(status, 400, (order, body[:200]))
        self.assertNotIn(SECRET, body.decode())
        return body.decode()

    def test_words_that_climb_are_refused(self):
        for word in ("/etc/passwd", "../network.toml", "--from=/etc/passwd", "dist=@/etc/passwd", "--from=../../x", "./x", "a/b", "dist=x\0y"):
            self.refused(self.order("watch", "a.rules", word, "--rounds", "0..1"))

    def test_names_of_files_that_climb_are_refused(self):
        outside = self.folder / "outside"
        for name in ("../x", "/etc/x", "a/b", ".x", "..", "-x", "", "x" * 65, str(outside), "a\nb"):
            self.refused(self.order("check", "a.rules", files={name: "x"}))
        self.assertFalse(outside.exists())

    def test_a_file_that_was_not_given_is_not_there(self):
        front, output = self.answer("info", "passwd")
        self.assertEqual((front["status"], output), (1, b""))
        self.assertIn("No such file", front["told"])

    def test_other_commands_are_refused(self):
        for command in ("prove", "status", "run", "compare", "large", "pack", "studio", "--program", "--help", "sh", ""):
            self.assertIn("the studio runs", self.refused(self.order(command)))

    def test_options_that_write_files_or_name_the_viewer_are_refused(self):
        for word in ("--frames", "--frames=x", "--viewer", "--viewer=x", "--packed", "--trace=x"):
            self.assertIn("not for pages", self.refused(self.order("image", word)))

    def test_orders_of_other_shapes_are_refused(self):
        good = self.order("generate", "ring", "5")
        for change in (
            {"words": []}, {"words": "generate"}, {"words": [5]}, {"words": ["generate"] * 5001}, {"words": ["x" * 70000]}, {"tab": ""}, {"tab": "a b"},
            {"lane": 5}, {"files": []}, {"files": {"a": 5}}, {"files": {f"f{at}": "" for at in range(17)}}, {"input": 5}, {"tab": None},
        ):  # fmt: skip
            self.refused({**good, **change})

    def test_a_refusal_runs_nothing(self):
        self.serve(self.script("echo ran > ran"))
        self.refused(self.order("generate", "/x"))
        self.assertEqual(self.studio.runs.most, 0)

    def test_letters_of_all_kinds_come_through(self):
        network = 'nodes = 1\nlinks = []\n# é ☃ \U0001f600 \ud800'
        front, output = self.answer("info", "n.toml", files={"n.toml": network})
        self.assertEqual(front["status"], 0, front)
        self.assertIn(b"nodes 1", output)
        self.assertEqual(json.loads(json.dumps(front))["ended"], "")


if __name__ == "__main__":
    unittest.main()
