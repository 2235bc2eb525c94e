"""Calls that run side by side, but one at a time: each takes slices of a tenth of a second, in an order that is drawn, and is stopped in between.
So a slow second of the machine meets all of them alike."""
import os
import random
import select
import shlex
import signal
import subprocess
import sys
import time
from pathlib import Path

SLICE = 0.1  # seconds


class Call:
    """A program that runs in slices, and is stopped in between; it writes to a file."""

    def __init__(self, words, out):
        self.out, self.seconds = Path(out), 0.0
        with open(self.out, "wb") as it:
            self.process = subprocess.Popen(words, stdout=it, stderr=subprocess.DEVNULL)
        self.end = os.pidfd_open(self.process.pid)
        self.process.send_signal(signal.SIGSTOP)

    def ends_in_slice(self):
        """Lets it run for a slice; whether it ended then."""
        begin = time.perf_counter()
        self.process.send_signal(signal.SIGCONT)
        ended, _, _ = select.select([self.end], [], [], SLICE)
        if not ended:
            self.process.send_signal(signal.SIGSTOP)
        self.seconds += time.perf_counter() - begin
        if ended:
            os.close(self.end)
        if ended and self.process.wait():
            sys.exit(f"{shlex.join(map(str, self.process.args))}: status {self.process.returncode}")
        return bool(ended)


def in_slices(calls):
    """Runs calls side by side, one at a time, slice by slice."""
    draws, left = random.Random(6), list(calls)
    try:
        while left:
            draws.shuffle(left)
            left = [call for call in left if not call.ends_in_slice()]
    finally:
        for call in left:
            call.process.kill()
