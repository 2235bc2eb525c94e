"""Synchronous programs on networks, run by the proved library of Unison.

    import unison
    program = unison.Program("field dist = 4294967295; next dist = (dist min least (n.dist + 1));")
    network = unison.Network(["ann", "bob", "cid"], [("ann", "bob"), ("bob", "cid")], set={"dist": {"ann": 0}})
    print(unison.lockstep(program, network, rounds=2).by_name("dist"))

Values are whole numbers from 0 to 4294967295, which is `unison.NONE`. Rounds are counted from round 0, at which the states are the
initial ones. Calls give the interpreter's lock back: several threads may call at once.
"""

from . import schedule
from ._library import LibraryMissing
from ._programs import ProgramsMissing
from .counting import Counts, count
from .faults import (
    ModelError,
    NetworkError,
    PictureError,
    PlanError,
    ProgramError,
    ReportError,
    RunError,
    ScheduleError,
    TraceError,
    UnisonError,
    UsageError,
)
from .inspection import Cut, Verdict, cuts, explain, naive, verify
from .jobs import first_fault, lockstep, replay, settle, watch, why
from .large import LargeNetwork as LargeNetwork  # an old name
from .model import Model
from .network import Network
from .pictures import Image, Page, image, page
from .program import Program
from .results import NONE, Replayed, Rounds, Settling, States, Table
from .studio import Studio, studio
from .sweep import Sweep, sweep

__version__ = "0.1.0"

__all__ = [
    "NONE",
    "Counts",
    "Cut",
    "Image",
    "LibraryMissing",
    "Model",
    "ModelError",
    "Network",
    "NetworkError",
    "Page",
    "PictureError",
    "PlanError",
    "Program",
    "ProgramError",
    "ProgramsMissing",
    "Replayed",
    "ReportError",
    "Rounds",
    "RunError",
    "ScheduleError",
    "Settling",
    "States",
    "Studio",
    "Sweep",
    "Table",
    "TraceError",
    "UnisonError",
    "UsageError",
    "Verdict",
    "count",
    "cuts",
    "explain",
    "first_fault",
    "image",
    "lockstep",
    "naive",
    "page",
    "replay",
    "schedule",
    "settle",
    "studio",
    "sweep",
    "verify",
    "watch",
    "why",
]
