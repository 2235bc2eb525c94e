"""The server: it answers a page of its own on this machine alone, and everything else with the reason why not.

Each call names the token of the link, which stands at the front of its path; so a page of another origin, which cannot know it, gets nothing. Besides
that the `Host` of a call has to be that of the link (a name that was made to point here is refused), and its `Origin`, where there is one, too.
"""

from __future__ import annotations

import hmac
import json
import select
import socket
import threading
from http.server import BaseHTTPRequestHandler, ThreadingHTTPServer
from typing import Any, Dict, Optional, Tuple

from . import orders
from .limits import Limits
from .runs import BUSY, Answer
from .studio import Studio

LOOPBACK = "127.0.0.1"
KINDS = {".html": "text/html", ".js": "text/javascript", ".css": "text/css", ".json": "application/json", ".svg": "image/svg+xml"}
SITES = ("same-origin", "none")  # from which a browser says that a call comes

Reply = Tuple[int, str, bytes]


def told(status: int, words: str) -> Reply:
    """A reply of a sentence."""
    return status, "text/plain", f"{words}\n".encode()


def as_json(value: Any) -> Reply:
    return 200, "application/json", json.dumps(value).encode()


def answered(answer: Answer) -> Reply:
    """What became of a run: a line of JSON, and then the bytes that it printed."""
    front = {"status": answer.status, "told": answer.told, "files": answer.files, "seconds": round(answer.seconds, 4), "ended": answer.ended}
    return 503 if answer.ended == BUSY else 200, "application/octet-stream", json.dumps(front).encode() + b"\n" + answer.output


class Server(ThreadingHTTPServer):
    """The server of a studio, with so many calls open at once."""

    daemon_threads = True
    block_on_close = False
    request_queue_size = 256

    def __init__(self, studio: Studio, port: int = 0) -> None:
        self.studio = studio
        self.open_calls = threading.BoundedSemaphore(studio.limits.calls)
        super().__init__((LOOPBACK, port), Handler)
        self.hosts = [f"{name}:{self.server_port}" for name in (LOOPBACK, "localhost")]

    @property
    def link(self) -> str:
        """The link to the page."""
        return f"http://{self.hosts[0]}/{self.studio.token}/"

    def process_request_thread(self, request: Any, client_address: Any) -> None:
        """Answers a call; where too many are open, it is closed at once."""
        if not self.open_calls.acquire(blocking=False):
            self.shutdown_request(request)
            return
        try:
            super().process_request_thread(request, client_address)
        finally:
            self.open_calls.release()

    def handle_error(self, request: Any, client_address: Any) -> None:
        """A browser that goes away in the middle of an answer is no error to tell of."""

    def close(self) -> None:
        """Ends the server and all that it runs."""
        self.studio.close()
        self.shutdown()
        self.server_close()


class Handler(BaseHTTPRequestHandler):
    """One call."""

    server: Server
    server_version = "unison"
    sys_version = ""
    protocol_version = "HTTP/1.0"

    def setup(self) -> None:
        self.request.settimeout(self.limits.patience)
        super().setup()

    @property
    def limits(self) -> Limits:
        return self.server.studio.limits

    def log_message(self, *words: Any) -> None:
        """Nothing is told of calls."""

    def do_GET(self) -> None:
        refused = self.refused()
        self.send(refused if refused else self.got(self.place()))

    def do_POST(self) -> None:
        refused = self.refused() or self.refused_body()
        if refused:
            self.send(refused)
            return
        try:
            asked = json.loads(self.rfile.read(int(self.headers["Content-Length"])))
        except (ValueError, RecursionError, OSError):
            self.send(told(400, "the body of this call is no JSON, or was cut"))
            return
        try:
            self.send(self.posted(self.place(), asked))
        except orders.Refused as fault:
            self.send(told(400, str(fault)))

    def place(self) -> str:
        """What stands after the token in the path, without what stands after a ?."""
        return self.path.split("?")[0].split("/", 2)[2]

    def refused(self) -> Optional[Reply]:
        """Why this call is refused, whatever it asks for; None where it is not."""
        host, origin = self.headers.get("Host", ""), self.headers.get("Origin")
        if host not in self.server.hosts:
            return told(403, f"this studio answers calls to {self.server.hosts[0]} alone, and this one is to `{host[:80]}`")
        if origin is not None and origin != f"http://{host}":
            return told(403, "this studio answers its own page alone, and this call comes from another")
        if self.headers.get("Sec-Fetch-Site", "none") not in SITES and self.headers.get("Sec-Fetch-Mode") != "navigate":
            return told(403, "this studio answers its own page alone, and this call comes from another")
        parts = self.path.split("?")[0].split("/", 2)
        if len(parts) < 3 or not hmac.compare_digest(parts[1].encode(), self.server.studio.token.encode()):
            return told(403, "this call has not the token of the link that unison studio printed: open that link")
        return None

    def refused_body(self) -> Optional[Reply]:
        """Why the body of this call is refused, before it is read; None where it is not."""
        length = self.headers.get("Content-Length", "")
        if self.headers.get("Origin") is None:
            return told(403, "this call does not say from which page it comes")
        if self.headers.get("Transfer-Encoding") or not (length.isascii() and length.isdigit()):
            return told(411, "this call does not say how long its body is")
        if len(length) > 12 or int(length) > self.limits.body:
            return told(413, f"a body has {self.limits.body} bytes at most")
        if self.headers.get("Content-Type", "").split(";")[0] != "application/json":
            return told(415, "a body is JSON, and says so: Content-Type: application/json")
        return None

    def got(self, place: str) -> Reply:
        """The reply to a call that reads."""
        studio = self.server.studio
        front, _, rest = place.partition("/")
        asked: Dict[str, Any] = {"start": studio.start, "table": studio.table, "gallery": studio.gallery_entry}
        file = studio.files.get(place or "index.html")
        if file:
            return 200, KINDS[file.suffix], file.read_bytes()
        value = asked[front](rest) if front in asked else None
        return told(404, "there is nothing of this name here") if value is None else as_json(value)

    def posted(self, place: str, asked: Any) -> Reply:
        """The reply to a call that has something done."""
        studio = self.server.studio
        if place == "run":
            return answered(studio.runs.make(orders.read_order(asked, self.limits), self.is_there))
        if place == "gone":
            studio.runs.end_tab(orders.named(asked.get("tab") if isinstance(asked, dict) else None, "tab"))
            return as_json({})
        return told(404, "there is nothing of this name here")

    def is_there(self) -> bool:
        """Whether the browser still waits for the answer: one that goes away closes its end."""
        try:
            ready, _, _ = select.select([self.connection], [], [], 0)
            return not ready or self.connection.recv(1, socket.MSG_PEEK) != b""
        except (OSError, ValueError):
            return False

    def send(self, reply: Reply) -> None:
        """Sends a reply, which no other page may show and nothing may keep."""
        status, kind, body = reply
        self.send_response(status)
        self.send_header("Content-Type", f"{kind}; charset=utf-8" if kind.startswith("text/") else kind)
        self.send_header("Content-Length", str(len(body)))
        self.send_header("Cache-Control", "no-store")
        self.send_header("X-Content-Type-Options", "nosniff")
        self.send_header("Referrer-Policy", "no-referrer")
        self.send_header("Cross-Origin-Resource-Policy", "same-origin")
        self.send_header("Cross-Origin-Opener-Policy", "same-origin")
        self.send_header("Content-Security-Policy", self.server.studio.policy)
        self.end_headers()
        self.wfile.write(body)
