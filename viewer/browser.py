"""A headless Chromium, driven over a pair of pipes by the DevTools protocol: messages of JSON, each ended by a zero byte."""

import base64
import fcntl
import json
import os
import queue
import shutil
import signal
import tempfile
import threading
import time

NAMES = ("chromium", "chromium-browser", "google-chrome", "google-chrome-stable")
FLAGS = (
    "--headless=new --no-sandbox --remote-debugging-pipe --disable-gpu --hide-scrollbars --no-first-run --disable-extensions "
    "--disable-background-networking --disable-component-update --disable-dev-shm-usage --mute-audio --force-color-profile=srgb"
).split()
KEYS = {  # the code and the number of keys that have no letter
    "ArrowLeft": ("ArrowLeft", 37), "ArrowUp": ("ArrowUp", 38), "ArrowRight": ("ArrowRight", 39), "ArrowDown": ("ArrowDown", 40),
    "Home": ("Home", 36), "End": ("End", 35), "PageUp": ("PageUp", 33), "PageDown": ("PageDown", 34), "Tab": ("Tab", 9), " ": ("Space", 32),
}  # fmt: skip


def find():
    """The path of a Chromium, or None."""
    return next((path for path in map(shutil.which, NAMES) if path), None)


class Refused(Exception):
    """The browser refuses a call, or says nothing."""


class Browser:
    """A browser with one tab. What the tab said and asked for stands in `problems` and `requests`."""

    def __init__(self, patience=60):
        self.patience = patience
        self.folder = tempfile.mkdtemp(prefix="viewer-")
        self.messages = queue.Queue()
        self.number = 0
        self.problems = []
        self.requests = []
        self.loaded = False
        self.start()
        target = self.call("Target.createTarget", url="about:blank")["targetId"]
        self.session = self.call("Target.attachToTarget", targetId=target, flatten=True)["sessionId"]
        for part in ("Page", "Runtime", "Log", "Network"):
            self.call(f"{part}.enable")

    def start(self):
        """Starts the browser in a process group of its own, with the two pipes as its files 3 and 4."""
        theirs_in, self.out = os.pipe()
        self.into, theirs_out = os.pipe()
        high = [fcntl.fcntl(file, fcntl.F_DUPFD_CLOEXEC, 20) for file in (theirs_in, theirs_out)]
        null = [(os.POSIX_SPAWN_OPEN, file, os.devnull, os.O_RDWR, 0) for file in (0, 1, 2)]
        pipes = [(os.POSIX_SPAWN_DUP2, file, number) for file, number in zip(high, (3, 4))]
        words = [find(), *FLAGS, f"--user-data-dir={self.folder}", "about:blank"]
        self.process = os.posix_spawn(words[0], words, os.environ, file_actions=null + pipes, setpgroup=0)
        for file in (theirs_in, theirs_out, *high):
            os.close(file)
        threading.Thread(target=self.listen, daemon=True).start()

    def listen(self):
        """Puts each message of the browser into the queue, and None at the end."""
        rest = b""
        while part := os.read(self.into, 1 << 20):
            *whole, rest = (rest + part).split(b"\0")
            for message in whole:
                self.messages.put(json.loads(message))
        self.messages.put(None)

    def take(self, message):
        """Notes what the tab says on the side."""
        method, params = message.get("method"), message.get("params", {})
        if method == "Runtime.exceptionThrown":
            details = params["exceptionDetails"]
            self.problems.append(details.get("exception", {}).get("description") or details.get("text"))
        elif method == "Runtime.consoleAPICalled" and params["type"] in ("error", "warning", "assert"):
            self.problems.append(" ".join(str(value.get("value", value.get("description"))) for value in params["args"]))
        elif method == "Log.entryAdded" and params["entry"]["level"] in ("error", "warning"):
            self.problems.append(params["entry"]["text"])
        elif method == "Network.requestWillBeSent":
            self.requests.append(params["request"]["url"])
        elif method == "Page.loadEventFired":
            self.loaded = True

    def next(self, end):
        """The next message, noted; refused where the browser has ended or time is over."""
        try:
            message = self.messages.get(timeout=max(0.01, end - time.monotonic()))
        except queue.Empty:
            raise Refused("the browser says nothing") from None
        if message is None:
            raise Refused("the browser has ended")
        self.take(message)
        return message

    def call(self, method, **params):
        """Calls a method, in the tab where there is one, and returns what it gives."""
        self.number += 1
        message = {"id": self.number, "method": method, "params": params}
        if hasattr(self, "session"):
            message["sessionId"] = self.session
        text = json.dumps(message).encode() + b"\0"
        while text:
            text = text[os.write(self.out, text) :]
        end = time.monotonic() + self.patience
        while (answer := self.next(end)).get("id") != self.number:
            pass
        if "error" in answer:
            raise Refused(f"{method}: {answer['error'].get('message')}")
        return answer["result"]

    def resize(self, width, height, dots=1, mobile=False):
        """Gives the tab a size in pixels, with so many dots each."""
        self.call("Emulation.setDeviceMetricsOverride", width=width, height=height, deviceScaleFactor=dots, mobile=mobile)

    def dark(self, is_dark):
        """Says which scheme the system has."""
        features = [{"name": "prefers-color-scheme", "value": "dark" if is_dark else "light"}]
        self.call("Emulation.setEmulatedMedia", features=features)

    def open(self, path):
        """Opens a file and waits until it is loaded; answers how many seconds that took."""
        self.problems.clear()
        self.requests.clear()
        self.loaded = False
        begin = time.monotonic()
        self.call("Page.navigate", url=path.as_uri())
        while not self.loaded:
            self.next(begin + self.patience)
        self.run("1")
        return time.monotonic() - begin

    def run(self, expression):
        """The value of an expression in the page, a promise waited for."""
        answer = self.call("Runtime.evaluate", expression=expression, returnByValue=True, awaitPromise=True)
        if "exceptionDetails" in answer:
            details = answer["exceptionDetails"]
            raise Refused(details.get("exception", {}).get("description") or details["text"])
        return answer["result"].get("value")

    def frame(self):
        """Waits until the page has been drawn anew."""
        self.run("new Promise((done) => requestAnimationFrame(() => requestAnimationFrame(() => done(1))))")

    def key(self, key):
        """Presses a key and lets it go."""
        code, number = KEYS[key]
        text = {"text": " "} if key == " " else {}
        self.call("Input.dispatchKeyEvent", type="keyDown", key=key, code=code, windowsVirtualKeyCode=number, **text)
        self.call("Input.dispatchKeyEvent", type="keyUp", key=key, code=code, windowsVirtualKeyCode=number)

    def move(self, spot):
        """Moves the pointer to a point of the window."""
        self.call("Input.dispatchMouseEvent", type="mouseMoved", x=spot["x"], y=spot["y"])

    def click(self, spot):
        """Clicks at a point of the window."""
        self.move(spot)
        for kind in ("mousePressed", "mouseReleased"):
            self.call("Input.dispatchMouseEvent", type=kind, x=spot["x"], y=spot["y"], button="left", clickCount=1)

    def picture(self, path):
        """Writes what the window shows as PNG."""
        path.write_bytes(base64.b64decode(self.call("Page.captureScreenshot", format="png")["data"]))

    def close(self):
        """Ends the browser and takes its folder away."""
        os.close(self.out)
        try:
            os.killpg(self.process, signal.SIGKILL)
        except ProcessLookupError:
            pass
        os.waitpid(self.process, 0)
        shutil.rmtree(self.folder, ignore_errors=True)
