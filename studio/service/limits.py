"""What the studio lets a page ask for, and how much of it: one table, so that each bound stands once."""

from __future__ import annotations

import os
from typing import NamedTuple

MEGABYTE = 1 << 20


class Limits(NamedTuple):
    """The bounds of a studio. Tests take smaller ones."""

    seconds: float = 120.0  # that a run may take
    memory: int = 4096 * MEGABYTE  # that a run may use
    output: int = 96 * MEGABYTE  # that a run may print, and that a file may have that it writes
    body: int = 24 * MEGABYTE  # of what a page sends
    patience: float = 20.0  # seconds in which a request has to come
    at_once: int = max(2, (os.cpu_count() or 2))  # runs side by side
    waiting: int = 24  # runs that wait for one of these to end
    calls: int = 160  # requests that are open at the same time
    words: int = 5000  # of a command
    files: int = 16  # that a run is given
