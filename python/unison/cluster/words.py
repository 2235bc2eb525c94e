"""The command: its words, what it prints, and its status (docs/formats.md)."""

import argparse
import contextlib
import os
import signal
import sys
import threading
import traceback
from typing import Any, Dict, List, NoReturn, Optional

import numpy as np

from . import checkpoints, parts
from .faults import FAULT, Refusal, refusal_of, usage
from .initial import number
from .network import PackedFile
from .running import Outcome, run

USAGE = "mpirun -n N python -m unison.cluster PROGRAM NETWORK --rounds T [WORDS]\n       python -m unison.cluster parts NETWORK -n N"
OPTIONS = {
    "--rounds": "the last round, counted from round 0",
    "--set": "FIELD=NODE:VALUE: an initial value of a node, of those from A to B as A..B, or of all as *; as often as wanted",
    "--count": "show how many nodes have each value of this field, as CSV",
    "--sum": "show the sum of this field over all nodes after each round, as CSV",
    "--until": "FIELD=VALUE: end with the first round in which each node has this value",
    "--npy": "FIELD=FILE: write a field of all nodes as an array of NumPy; as often as wanted",
    "--parts": "a file with a line for each node: the number of its process, from 0",
    "--checkpoint": "write the states into this folder, each --every rounds",
    "--every": "how many rounds lie between two checkpoints; 1000 where it is left out",
    "--resume": "go on from the last complete checkpoint in this folder",
}


class Words(argparse.ArgumentParser):
    """Refuses invalid arguments by raising, so that one process tells it."""

    def error(self, message: str) -> NoReturn:
        raise usage(f"{message}; --help tells the words")


def parser_of(names: List[str], options: Dict[str, str]) -> Words:
    """Reads these words, of which the first option has to be there."""
    parser = Words(usage=USAGE, add_help=False, allow_abbrev=False)
    for name in names:
        parser.add_argument(name)
    for place, (option, told) in enumerate(options.items()):
        often: Any = {"action": "append", "default": []} if option in ("--set", "--npy") else {}
        parser.add_argument(option, help=told, required=place == 0, metavar="", **often)
    return parser


RUN, PARTS = parser_of(["program", "network"], OPTIONS), parser_of(["network"], {"-n": "for how many processes"})


def main(words: List[str]) -> int:
    """Does what the words ask for; the status."""
    comm: Any = None
    try:
        if "--help" in words:
            print(RUN.format_help() if os.environ.get("OMPI_COMM_WORLD_RANK", "0") == "0" else "", end="")
        elif words[:1] == ["parts"]:
            print_parts(words[1:])
        else:
            from mpi4py import MPI

            comm = MPI.COMM_WORLD
            run_words(words, comm)
        return 0
    except Exception as error:
        return told(error, comm)


def told(error: Exception, comm: Any) -> int:
    """Tells why the work is not done: by one process, where all know it, else by this one, which ends the others. The status."""
    refusal = refusal_of(error)
    if comm is None and refusal is not None or isinstance(error, Refusal):
        if comm is None or comm.Get_rank() == 0:
            print(refusal, file=sys.stderr, flush=True)
        return refusal.status if refusal else FAULT
    traced = "".join(traceback.format_exception(type(error), error, error.__traceback__))
    print(f"process {comm.Get_rank() if comm else 0}: {refusal or traced}", file=sys.stderr, flush=True)
    return int(comm.Abort(FAULT) or FAULT) if comm else FAULT


def run_words(words: List[str], comm: Any) -> None:
    """Makes the rounds that the words ask for, and prints what is to be shown."""
    asked = RUN.parse_args(words)
    if asked.every and asked.checkpoint is None or asked.count and asked.sum:
        raise usage("--every stands with --checkpoint FOLDER alone, and one of --count and --sum at a time")
    watch_for_end(asked.checkpoint or asked.resume, comm.Get_rank() == 0)
    shown = [word.partition("=")[::2] for word in asked.npy]
    for field, path in shown:
        if not path or os.path.isdir(path) or not os.access(os.path.dirname(path) or ".", os.W_OK):
            raise usage(f"--npy: expected FIELD=FILE, with a file that can be written, found `{field}={path}`")
    outcome = run(
        asked.program, asked.network, number("--rounds", asked.rounds, 0), comm=comm, set=asked.set, until=asked.until,
        sums=[] if asked.sum is None else [asked.sum], parts_file=asked.parts, checkpoint=asked.checkpoint,
        every=number("--every", asked.every or "1000", 1), resume=asked.resume,
        shown={"--npy": [field for field, _ in shown], "--count": [] if asked.count is None else [asked.count]},
    )  # fmt: skip
    for field, path in shown:
        outcome.write_npy(field, path)
    counts = None if asked.count is None else outcome.count(asked.count)
    if comm.Get_rank() == 0:
        print(text_of(outcome, asked, counts), flush=True)


def text_of(outcome: Outcome, asked: argparse.Namespace, counts: Any) -> str:
    """Counts or sums as CSV, or what became of the rounds: `settles R`, `reached R`, `open T`, or `round T`."""
    if counts is not None:
        return "\n".join(["round,value,nodes", *(f"{outcome.round},{value},{count}" for value, count in counts.items())])
    if asked.sum is not None:
        return "\n".join([f"round,{asked.sum}", *(f"{round},{line[0]}" for round, line in outcome.sums.items())])
    if outcome.reached is not None:
        return f"reached {outcome.reached}"
    if outcome.settled is not None:
        return f"settles {outcome.settled}"
    return f"{'round' if asked.until is None else 'open'} {outcome.round}"


def watch_for_end(folder: Optional[str], is_told: bool) -> None:
    """Lets a thread wait until mpirun asks this process to end, which it does where another one was killed; it says then how to go on."""
    heard, written = os.pipe()
    os.set_blocking(written, False)
    signal.set_wakeup_fd(written)  # whichever thread gets the signal, and also while a call of the library runs
    signal.signal(signal.SIGTERM, lambda *_: None)

    def wait() -> None:
        while os.read(heard, 1)[0] != signal.SIGTERM:
            pass
        if is_told:
            told = "no complete checkpoint is there, so the run has to begin anew; --checkpoint FOLDER writes some"
            with contextlib.suppress(OSError, Refusal):
                told = f"--resume {folder} goes on from round {checkpoints.complete(folder or '')['round']}"
            print(f"fault: run Ended\nanother process, or mpirun, ended: {told}", file=sys.stderr, flush=True)
        os._exit(FAULT)

    threading.Thread(target=wait, daemon=True).start()


def print_parts(words: List[str]) -> None:
    """Prints parts that grow breadth first, and tells how many ends lead from one to another."""
    asked = PARTS.parse_args(words)
    count, file = number("-n", asked.n, 1, 1_000_000), PackedFile(asked.network)
    file.check_offsets(0, 1)
    grown = parts.Listed(parts.grown(file, count))
    cut, by_number = parts.cut_ends(file, grown.owner), parts.cut_ends(file, parts.shares(file, count).owner)
    sizes = np.bincount(grown.parts, minlength=count)
    np.savetxt(sys.stdout, grown.parts, fmt="%d")
    shown = f"{cut} of {file.ends} neighbours are in another part, by number {by_number}"
    print(f"{shown}; parts have {sizes.min()} to {sizes.max()} nodes", file=sys.stderr)
