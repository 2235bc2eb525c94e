"""Runs of commands: each is a process in a folder of its own, with limits of time, memory and output, that ends with what asked for it."""

from __future__ import annotations

import os
import resource
import selectors
import shutil
import signal
import subprocess
import tempfile
import threading
import time
from pathlib import Path
from typing import Callable, Dict, List, NamedTuple, Optional, Tuple

from .limits import Limits
from .orders import Order

MOST_TOLD = 1 << 16  # bytes of what a run says on standard error
LOOK = 0.05  # seconds between two looks at whether a run is still wanted

SUPERSEDED = "superseded"  # a later run took its place
LEFT = "left"  # its page is gone
CLOSED = "closed"  # the studio ends
LATE = "late"  # out of time
LARGE = "large"  # too much output
HEAVY = "heavy"  # too much memory
BUSY = "busy"  # too many runs wait


class Answer(NamedTuple):
    """What became of a run. `ended` says why it was ended before its time, or nothing."""

    status: int
    output: bytes
    told: str
    files: Dict[str, str]  # that it wrote
    seconds: float
    ended: str = ""


def without_run(ended: str) -> Answer:
    """The answer of a run that was not started."""
    return Answer(-1, b"", "", {}, 0.0, ended)


class Run:
    """A run that is wanted, and its process once there is one."""

    def __init__(self) -> None:
        self.ended = ""
        self.process: Optional["subprocess.Popen[bytes]"] = None
        self.lock = threading.Lock()

    def start(self, words: List[str], folder: str) -> bool:
        """Starts the process, in a group of its own, where the run is still wanted."""
        with self.lock:
            if not self.ended:
                self.process = subprocess.Popen(
                    words,
                    cwd=folder,
                    env={**os.environ, "UNISON_QUIET": "1"},
                    stdin=subprocess.PIPE,
                    stdout=subprocess.PIPE,
                    stderr=subprocess.PIPE,
                    start_new_session=True,
                )
            return not self.ended

    def end(self, why: str) -> None:
        """Ends the run for this reason, where none came first."""
        with self.lock:
            self.ended = self.ended or why
            self.kill()

    def kill(self) -> None:
        """Ends the process with all that it started, where it has not been waited for."""
        if self.process and self.process.returncode is None:
            try:
                os.killpg(self.process.pid, signal.SIGKILL)
            except ProcessLookupError:
                pass

    def close(self) -> int:
        """Ends what is left of the process, and gives its status."""
        with self.lock:
            if self.process is None:
                return -1
            if self.process.poll() is None:
                self.kill()
            return self.process.wait()


class Runs:
    """The runs of a studio: so many at once, the others wait; a later one takes the place of an earlier one of its tab and lane."""

    def __init__(self, program: Path, viewer: Path, limits: Limits) -> None:
        self.program, self.viewer, self.limits = program, viewer, limits
        self.room = tempfile.mkdtemp(prefix="unison-studio-")
        self.present: Dict[Tuple[str, str], Run] = {}
        self.free = threading.Condition()
        self.working = self.waiting = self.most = 0
        self.is_closed = False

    def make(self, order: Order, is_wanted: Callable[[], bool]) -> Answer:
        """Runs an order, as long as it is wanted, and gives what became of it."""
        run = self.take_place(order)
        try:
            if not self.take_turn(run, is_wanted):
                return without_run(run.ended)
            try:
                return self.done(run, order, is_wanted)
            finally:
                self.give_turn()
        finally:
            self.leave_place(order, run)

    def take_place(self, order: Order) -> Run:
        """A run in the place of the earlier one of its tab and lane, which ends."""
        run = Run()
        with self.free:
            before = self.present.get((order.tab, order.lane))
            self.present[order.tab, order.lane] = run
            if self.is_closed:
                run.ended = CLOSED
        if before:
            before.end(SUPERSEDED)
        return run

    def leave_place(self, order: Order, run: Run) -> None:
        with self.free:
            if self.present.get((order.tab, order.lane)) is run:
                del self.present[order.tab, order.lane]

    def take_turn(self, run: Run, is_wanted: Callable[[], bool]) -> bool:
        """Waits until so few runs work that this one may; whether it comes to that."""
        with self.free:
            if self.working >= self.limits.at_once and self.waiting >= self.limits.waiting:
                run.ended = run.ended or BUSY
                return False
            self.waiting += 1
            try:
                while self.working >= self.limits.at_once and not run.ended and is_wanted():
                    self.free.wait(LOOK)
            finally:
                self.waiting -= 1
            if not run.ended and not is_wanted():
                run.ended = LEFT
            if run.ended:
                return False
            self.working += 1
            self.most = max(self.most, self.working)
            return True

    def give_turn(self) -> None:
        with self.free:
            self.working -= 1
            self.free.notify()

    def done(self, run: Run, order: Order, is_wanted: Callable[[], bool]) -> Answer:
        """Runs the process of an order in a folder of its own, which is removed afterwards."""
        begin = time.monotonic()
        folder = tempfile.mkdtemp(dir=self.room)
        try:
            for name, content in order.files.items():
                Path(folder, name).write_bytes(content)
            if not run.start(self.words_of(order), folder):
                return without_run(run.ended)
            output, told = self.followed(run, order.input, is_wanted)
            status = run.close()
            files = {} if run.ended else written(folder, order, self.limits.output)
            return Answer(status, output, told, files, time.monotonic() - begin, run.ended)
        finally:
            run.close()
            shutil.rmtree(folder, ignore_errors=True)

    def words_of(self, order: Order) -> List[str]:
        """The words of the process."""
        command, *others = order.words
        viewer = ["--viewer", str(self.viewer)] if command == "page" else []
        return [str(self.program), command, *others, *viewer]

    def followed(self, run: Run, given: bytes, is_wanted: Callable[[], bool]) -> Tuple[bytes, str]:
        """What a run prints and tells, up to its end, or to that which its limits or its page make."""
        process = run.process
        assert process and process.stdin and process.stdout and process.stderr
        bound(process.pid, self.limits)
        feeder = threading.Thread(target=feed, args=(process, given), daemon=True)
        feeder.start()
        last = time.monotonic() + self.limits.seconds
        parts: Dict[str, List[bytes]] = {"output": [], "told": []}
        room = {"output": self.limits.output, "told": MOST_TOLD}
        with selectors.DefaultSelector() as pipes:
            pipes.register(process.stdout, selectors.EVENT_READ, "output")
            pipes.register(process.stderr, selectors.EVENT_READ, "told")
            while pipes.get_map():
                for key, _ in pipes.select(LOOK):
                    take(run, key, parts, room, pipes)
                if why := self.beyond(process.pid, last, is_wanted):
                    run.end(why)
        feeder.join()
        process.stdout.close()
        process.stderr.close()
        return b"".join(parts["output"]), b"".join(parts["told"]).decode("utf-8", "replace")

    def beyond(self, process: int, last: float, is_wanted: Callable[[], bool]) -> str:
        """Why a run ends before its time, or nothing."""
        if time.monotonic() > last:
            return LATE
        if memory_of(process) > self.limits.memory:
            return HEAVY
        return "" if is_wanted() else LEFT

    def end_tab(self, tab: str) -> None:
        """Ends all runs of a tab, which is closed."""
        with self.free:
            runs = [run for (owner, _), run in self.present.items() if owner == tab]
        for run in runs:
            run.end(LEFT)

    def close(self) -> None:
        """Ends all runs, lets none begin, and removes what they left."""
        with self.free:
            self.is_closed = True
            runs = list(self.present.values())
        for run in runs:
            run.end(CLOSED)
        end = time.monotonic() + 5
        while self.present and time.monotonic() < end:
            time.sleep(0.01)
        shutil.rmtree(self.room, ignore_errors=True)


def take(run: Run, key: selectors.SelectorKey, parts: Dict[str, List[bytes]], room: Dict[str, int], pipes: selectors.BaseSelector) -> None:
    """Takes what stands in a pipe; of output beyond its room the run ends, of what is told the rest is left out."""
    part = os.read(key.fd, 1 << 18)
    if not part:
        pipes.unregister(key.fileobj)
        return
    parts[key.data].append(part[: room[key.data]])
    room[key.data] -= len(part)
    if room[key.data] < 0:
        room[key.data] = 0
        if key.data == "output":
            run.end(LARGE)


def feed(process: "subprocess.Popen[bytes]", given: bytes) -> None:
    """Gives a process its standard input; one that ends early needs none."""
    assert process.stdin
    try:
        process.stdin.write(given)
        process.stdin.close()
    except OSError:
        pass


def memory_of(process: int) -> int:
    """The bytes of memory that a process has in use; 0 where it has ended. (A limit of addresses would not do: quick programs reserve
    terabytes of them, which they do not use.)"""
    try:
        pages = Path(f"/proc/{process}/statm").read_text(encoding="ascii").split()[1]
    except (OSError, IndexError):
        return 0
    return int(pages) * resource.getpagesize()


def bound(process: int, limits: Limits) -> None:
    """Sets the limits of a process that has begun; one that has ended needs none."""
    for what, most in ((resource.RLIMIT_FSIZE, limits.output), (resource.RLIMIT_CORE, 0)):
        try:
            resource.prlimit(process, what, (most, most))
        except (ProcessLookupError, PermissionError, ValueError):
            pass


def written(folder: str, order: Order, most: int) -> Dict[str, str]:
    """The files that a run wrote beside those that it was given, as texts."""
    found = [path for path in sorted(Path(folder).iterdir()) if path.name not in order.files and path.is_file() and not path.is_symlink()]
    return {path.name: path.read_bytes().decode("utf-8", "replace") for path in found if path.stat().st_size <= most}
