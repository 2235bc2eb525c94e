"""Checkpoints: the states of all nodes after a round, a file for each process, and a file `complete` which names the last whole one.

A file is a line of JSON, its head, which says of what it is; the words of the process's nodes, in the order of `Part.numbers`, each with its
lowest byte first; and the SHA-256 of all before it.
"""

import hashlib
import json
import os
import zlib
from functools import partial
from pathlib import Path
from typing import Any, Dict, Optional, Tuple

import numpy as np

from .faults import FAULT, Refusal, agreed
from .network import Array
from .part import Part
from .totals import wait_until

Head = Dict[str, Any]
DIGEST = 32  # how many bytes a SHA-256 has


def head_of(comm: Any, canonical: str, fields: Tuple[str, ...], part: Part) -> Head:
    """What a checkpoint is of, but for its run and round."""
    digest = 0
    for rows in (part.inner, part.rim):
        for values in (rows.ids, rows.offsets, rows.neighbours, rows.weights):
            digest = digest if values is None else zlib.crc32(values, digest)
    program = hashlib.sha256(canonical.encode()).hexdigest()
    of_part = {"processes": comm.Get_size(), "process": comm.Get_rank(), "nodes": len(part.numbers), "rows": digest}
    return {**of_part, "program": program, "fields": list(fields)}


def file_of(folder: str, round: int, process: int) -> Path:
    return Path(folder) / f"round-{round}.process-{process}"


def write_whole(path: Path, *parts: bytes) -> None:
    """Writes a file that is there whole or not at all."""
    draft = path.with_name(path.name + ".draft")
    with open(draft, "wb") as file:
        file.writelines(parts)
        file.flush()
        os.fsync(file.fileno())
    os.replace(draft, path)


class Checkpoints:
    """Writes a checkpoint each so many rounds, none where no folder is given. It is complete when all processes have written it, which none of
    them waits for. `before` is the round of one that stands there and is gone on from."""

    def __init__(self, comm: Any, folder: Optional[str], every: int, head: Head, before: Optional[int]) -> None:
        self._comm, self._folder, self._every, self._before = comm, folder or "", every if folder else 2**40, before
        self._head = {**head, "run": comm.bcast(os.urandom(8).hex())}
        self._pending: Optional[Tuple[int, Any, Array, Array]] = None
        if folder:
            agreed(comm, self._prepare)

    def _prepare(self) -> None:
        """Makes the folder; where this run does not go on from what stands in it, that counts no more."""
        os.makedirs(self._folder, exist_ok=True)
        if self._before is None and self._comm.Get_rank() == 0:
            (Path(self._folder) / "complete").unlink(missing_ok=True)

    def reach(self, round: int, words: Optional[Array]) -> None:
        """Writes the states of a round, where it is one of those to be written; without states the others are told that it is not complete."""
        if self._pending is not None and self._pending[1].Test():
            self.finish()
        if round % self._every == 0:
            self.finish()
            if words is not None:
                head = json.dumps({**self._head, "round": round}).encode() + b"\n"
                body = np.ascontiguousarray(words, dtype="<u4").tobytes()
                digest = hashlib.sha256(head + body).digest()
                write_whole(file_of(self._folder, round, self._comm.Get_rank()), head, body, digest)
            self._begin(round, int(words is not None))

    def _begin(self, round: int, has_written: int) -> None:
        mine, whole = np.array([has_written], dtype=np.uint64), np.empty(1, dtype=np.uint64)
        self._pending = (round, self._comm.Iallreduce(mine, whole), mine, whole)

    def finish(self) -> None:
        """Waits until the others have written the last checkpoint. All have named the one before it complete then, so older ones can go."""
        if self._pending is None:
            return
        round, request, _, whole = self._pending
        wait_until(request.Test)
        self._pending = None
        if whole[0] != self._comm.Get_size():
            return
        if self._comm.Get_rank() == 0:
            named = {"round": round, "run": self._head["run"], "processes": self._comm.Get_size()}
            write_whole(Path(self._folder) / "complete", json.dumps(named).encode() + b"\n")
        kept = {file_of(self._folder, kept, self._comm.Get_rank()) for kept in (round, self._before) if kept is not None}
        for path in Path(self._folder).glob(f"round-*.process-{self._comm.Get_rank()}"):
            if path not in kept:
                path.unlink()
        self._before = round


def complete(folder: str) -> Head:
    """The round, the run and the number of processes that the file `complete` of a folder names."""
    path = Path(folder) / "complete"
    try:
        named = json.loads(path.read_bytes())
        return {"round": int(named["round"]), "run": str(named["run"]), "processes": int(named["processes"])}
    except FileNotFoundError:
        raise Refusal("checkpoint Missing", f"{folder}: there is no complete checkpoint: no file `complete` stands there", FAULT) from None
    except (ValueError, KeyError, TypeError):
        raise damaged(path, "it is no line of JSON with a round, a run and a number of processes") from None


def last_words(comm: Any, folder: str, head: Head, rounds: int) -> Tuple[int, Array]:
    """The round of the last complete checkpoint, as process 0 finds it, and the states of this process's nodes, (own, fields) uint32."""
    named = agreed(comm, lambda: complete(folder) if comm.Get_rank() == 0 else {})
    round, run, processes = comm.bcast(tuple(named.values()))
    if processes != comm.Get_size():
        told = f"it is of {processes} processes, and there are {comm.Get_size()}; mpirun -n {processes} goes on"
        raise Refusal("checkpoint Other", f"{folder}: {told}")
    if round > rounds:
        raise Refusal("run RoundsBelowStart", f"{folder}: the checkpoint is of round {round}, and the rounds end with {rounds}", FAULT)
    return round, agreed(comm, partial(read_words, folder, {**head, "round": round, "run": run}))


def damaged(path: Path, why: str) -> Refusal:
    return Refusal("checkpoint Damaged", f"{path}: {why}; an undamaged copy of the file is needed, or the run begins anew")


def read_words(folder: str, head: Head) -> Array:
    """The states of a process's nodes from the checkpoint with this head."""
    path = file_of(folder, head["round"], head["process"])
    whole = path.read_bytes()
    if hashlib.sha256(whole[:-DIGEST]).digest() != whole[-DIGEST:]:
        raise damaged(path, "its checksum is not that of its bytes")
    line, _, body = whole[:-DIGEST].partition(b"\n")
    found: Head = json.loads(line)
    for key, value in head.items():
        if found.get(key) != value:
            told = "the network or the parts are others" if key in ("nodes", "rows") else f"its {key} is another one"
            raise Refusal("checkpoint Other", f"{path}: {told}; a run goes on with the program, the network and the parts that it began with")
    return np.frombuffer(body, dtype="<u4").astype(np.uint32).reshape(head["nodes"], len(head["fields"]))
