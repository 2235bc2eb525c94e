"""Chromium and Firefox, each with one way to do what the tests of the page do: open, look, type, press, click, drag."""

import base64
import json
import os
import shutil
import signal
import socket
import subprocess
import sys
import tempfile
import time
from pathlib import Path

from support import TOP

sys.path.insert(0, str(TOP / "viewer"))
import browser as viewer_browser  # noqa: E402

FIREFOX = ("firefox-esr", "firefox")
KEYS = {"ArrowLeft": "\ue012", "ArrowUp": "\ue013", "ArrowRight": "\ue014", "ArrowDown": "\ue015", "Home": "\ue011", "End": "\ue010", "Tab": "\ue004", " ": " ", "Enter": "\ue007"}
viewer_browser.KEYS.setdefault("Enter", ("Enter", 13))


class Link:
    """A link, as the viewer's browser opens a path."""

    def __init__(self, text):
        self.text = text

    def as_uri(self):
        return self.text


class Chromium(viewer_browser.Browser):
    """Chromium, by the DevTools protocol, as the viewer's tests have it."""

    name = "Chromium"

    @staticmethod
    def find():
        return viewer_browser.find()

    def go(self, link):
        self.open(Link(link))

    def reload(self):
        self.loaded = False
        self.call("Page.reload")
        end = time.monotonic() + self.patience
        while not self.loaded:
            self.next(end)

    def type(self, text):
        self.call("Input.insertText", text=text)

    def mouse(self, kind, spot, buttons):
        self.call("Input.dispatchMouseEvent", type=kind, x=spot["x"], y=spot["y"], button="left", buttons=buttons, clickCount=1)

    def drag(self, spots):
        self.move(spots[0])
        self.mouse("mousePressed", spots[0], 1)
        for spot in spots[1:]:
            self.mouse("mouseMoved", spot, 1)
        self.mouse("mouseReleased", spots[-1], 0)

    def press(self, key):
        """Presses a key and lets it go; Enter types a line end, too, by which buttons are pressed."""
        code, number = viewer_browser.KEYS[key]
        text = {" ": {"text": " "}, "Enter": {"text": "\r"}}.get(key, {})
        self.call("Input.dispatchKeyEvent", type="keyDown", key=key, code=code, windowsVirtualKeyCode=number, **text)
        self.call("Input.dispatchKeyEvent", type="keyUp", key=key, code=code, windowsVirtualKeyCode=number)

    def tab(self):
        """Opens another tab, and takes it; gives a function that goes back."""
        before = self.session
        del self.session
        target = self.call("Target.createTarget", url="about:blank")["targetId"]
        self.session = self.call("Target.attachToTarget", targetId=target, flatten=True)["sessionId"]
        for part in ("Page", "Runtime", "Log", "Network"):
            self.call(f"{part}.enable")

        def back():
            self.session = before
            self.call("Page.bringToFront")

        return back


class Firefox:
    """Firefox, by its Marionette protocol: messages of JSON, each after its length."""

    name = "Firefox"
    problems: list = []
    requests: list = []

    @staticmethod
    def find():
        return next((path for path in map(shutil.which, FIREFOX) if path), None)

    def __init__(self, patience=60):
        self.patience = patience
        self.folder = tempfile.mkdtemp(prefix="studio-firefox-")
        with socket.create_server(("127.0.0.1", 0)) as free:
            port = free.getsockname()[1]
        Path(self.folder, "user.js").write_text(f'user_pref("marionette.port", {port});\nuser_pref("browser.shell.checkDefaultBrowser", false);\nuser_pref("datareporting.policy.dataSubmissionEnabled", false);\n')
        words = [self.find(), "--headless", "--marionette", "--no-remote", "--profile", self.folder, "about:blank"]
        self.process = subprocess.Popen(words, stdout=subprocess.DEVNULL, stderr=subprocess.DEVNULL, start_new_session=True, env={**os.environ, "HOME": self.folder})
        self.number = 0
        self.socket = self.connected(port)
        self.rest = b""
        self.read()
        self.call("WebDriver:NewSession", capabilities={"alwaysMatch": {"unhandledPromptBehavior": "accept"}})
        self.call("WebDriver:SetTimeouts", script=patience * 1000, pageLoad=patience * 1000)

    def connected(self, port):
        end = time.monotonic() + self.patience
        while True:
            try:
                return socket.create_connection(("127.0.0.1", port), timeout=self.patience)
            except OSError:
                if time.monotonic() > end:
                    raise
                time.sleep(0.1)

    def read(self):
        """The next message."""
        while b":" not in self.rest:
            self.rest += self.received()
        length, self.rest = self.rest.split(b":", 1)
        while len(self.rest) < int(length):
            self.rest += self.received()
        message, self.rest = self.rest[: int(length)], self.rest[int(length) :]
        return json.loads(message)

    def received(self):
        part = self.socket.recv(1 << 16)
        if not part:
            raise viewer_browser.Refused("Firefox has ended")
        return part

    def call(self, method, **params):
        self.number += 1
        message = json.dumps([0, self.number, method, params]).encode()
        self.socket.sendall(str(len(message)).encode() + b":" + message)
        _, _, error, result = self.read()
        if error:
            raise viewer_browser.Refused(f"{method}: {error.get('message')}")
        return result

    def go(self, link):
        self.call("WebDriver:Navigate", url=link)

    def reload(self):
        self.call("WebDriver:Refresh")

    def resize(self, width, height, dots=1, mobile=False):
        self.call("WebDriver:SetWindowRect", width=width, height=height)
        inner = self.run("[innerWidth, innerHeight]")
        self.call("WebDriver:SetWindowRect", width=2 * width - inner[0], height=2 * height - inner[1])

    def run(self, expression):
        script = f"const done = arguments[arguments.length - 1]; Promise.resolve(eval({json.dumps(expression)})).then(done, (fault) => done('fault: ' + fault));"
        return self.call("WebDriver:ExecuteAsyncScript", script=script, args=[], sandbox=None, newSandbox=False)["value"]

    def keys(self, text):
        actions = [{"type": kind, "value": letter} for letter in text for kind in ("keyDown", "keyUp")]
        self.call("WebDriver:PerformActions", actions=[{"type": "key", "id": "keys", "actions": actions}])

    def type(self, text):
        self.keys(text.replace("\n", KEYS["Enter"]))

    def press(self, key):
        self.keys(KEYS[key])

    def drag(self, spots):
        move = [{"type": "pointerMove", "x": round(spot["x"]), "y": round(spot["y"]), "duration": 0} for spot in spots]
        actions = [move[0], {"type": "pointerDown", "button": 0}, *move[1:], {"type": "pointerUp", "button": 0}]
        self.call("WebDriver:PerformActions", actions=[{"type": "pointer", "id": "mouse", "parameters": {"pointerType": "mouse"}, "actions": actions}])
        self.call("WebDriver:ReleaseActions")

    def click(self, spot):
        self.drag([spot])

    def frame(self):
        self.run("new Promise((done) => requestAnimationFrame(() => requestAnimationFrame(() => done(1))))")

    def picture(self, path):
        path.write_bytes(base64.b64decode(self.call("WebDriver:TakeScreenshot", full=False)["value"]))

    def tab(self):
        before = self.call("WebDriver:GetWindowHandle")["value"]
        self.call("WebDriver:SwitchToWindow", handle=self.call("WebDriver:NewWindow", type="tab")["handle"])
        return lambda: self.call("WebDriver:SwitchToWindow", handle=before)

    def close(self):
        self.socket.close()
        os.killpg(self.process.pid, signal.SIGKILL)
        self.process.wait()
        shutil.rmtree(self.folder, ignore_errors=True)
