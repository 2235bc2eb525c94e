"""A run as a call: `unison.cluster.run`."""

import os
import time
from dataclasses import dataclass
from typing import Any, Dict, List, Mapping, Optional, Sequence, Tuple

import numpy as np

from .. import _packed
from ..program import Program
from . import checkpoints, initial, parts
from .faults import Refusal, agreed, usage
from .network import Array, PackedFile
from .part import Part, build
from .rounds import Asked, Rounds
from .totals import Totals


@dataclass
class Outcome:
    """What a run leaves in each process.

    - `round`: the round of the states; `settled`: the first from which on nothing changes, `reached`: the first that is as `until` asks, or None
    - `numbers`: (own,) uint32: the numbers of this process's nodes; `values`: (own, fields) uint32: their states
    - `sums`: for each round that was made the sums over all nodes of the fields that were asked for
    - `seconds`: how long the rounds took; `waited`: how many of these this process waited for others; `sent`: how many bytes it sent to them
    """

    fields: Tuple[str, ...]
    nodes: int
    round: int
    settled: Optional[int]
    reached: Optional[int]
    numbers: Array
    values: Array
    sums: Dict[int, List[int]]
    seconds: float
    waited: float
    sent: int
    comm: Any

    def count(self, field: str) -> Dict[int, int]:
        """How many nodes of the whole network have each value of a field, by rising value. All processes call it together."""
        whole: Dict[int, int] = {}
        for part in self.comm.allgather(np.unique(self.values[:, self.fields.index(field)], return_counts=True)):
            for value, count in zip(*(given.tolist() for given in part)):
                whole[value] = whole.get(value, 0) + count
        return dict(sorted(whole.items()))

    def write_npy(self, field: str, path: str) -> None:
        """Writes a field of all nodes as an array of NumPy (nodes,), by process 0, to which the others send. All processes call it together."""
        mine = (self.numbers, np.ascontiguousarray(self.values[:, self.fields.index(field)]))
        make: Any = np.lib.format.open_memmap
        column = agreed(self.comm, lambda: None if self.comm.Get_rank() else make(path, mode="w+", dtype="<u4", shape=(self.nodes,)))
        if column is None:
            self.comm.send(mine, 0)
            return
        for rank in range(self.comm.Get_size()):
            numbers, values = self.comm.recv(source=rank) if rank else mine
            column[numbers] = values


def run(
    program: str, network: str, rounds: int, *, comm: Any = None, set: Sequence[str] = (), until: Optional[str] = None,
    sums: Sequence[str] = (), shown: Mapping[str, Sequence[str]] = {}, parts_file: Optional[str] = None,
    checkpoint: Optional[str] = None, every: int = 1000, resume: Optional[str] = None,
) -> Outcome:  # fmt: skip
    """Makes rounds on a packed network by all processes of a communicator, which call it together with the same arguments.

    - `program`, `network`: the paths of a program and of a packed network, which each process can read
    - `rounds`: the last round, counted from round 0; `until`: FIELD=VALUE ends them with the first round in which each node has that value
    - `comm`: the communicator of mpi4py, all processes where it is left out
    - `set`: initial values, as words FIELD=NODE:VALUE; `resume`: a folder with a checkpoint to go on from, in place of them
    - `sums`: fields that are added up over all nodes after each round; `shown`: for words of a command fields that must be there
    - `parts_file`: a file with a line for each node, the number of its process; else each has nodes that follow each other
    - `checkpoint`, `every`: the folder into which all states are written each so many rounds

    Raises `Refusal` in all processes where one of them refuses.
    """
    if comm is None:
        from mpi4py import MPI

        comm = MPI.COMM_WORLD

    def look() -> Tuple[Program, PackedFile, Asked, Any, Any]:
        text, file = Program.from_file(program), PackedFile(network)
        for option, wanted in {**shown, "--sum": sums}.items():
            for field in wanted:
                initial.column_of(option, field, text.fields)
        settings = _packed.columns_in(file.settings, file.nodes, text.fields), [initial.setting_of(word, text.fields, file.nodes) for word in set]
        end = None if until is None else initial.until_of(until, text.fields)
        asked = Asked(initial.number("--rounds", rounds, 0), end, tuple(map(text.fields.index, sums)))
        file.check_offsets(comm.Get_rank(), comm.Get_size())
        by = parts.shares(file, comm.Get_size()) if parts_file is None else parts.listed(parts_file, file.nodes, comm.Get_size())
        return text, file, asked, by, settings

    if resume is not None and set:
        raise usage("--resume: the states of the checkpoint are the initial values, so that there is no --set")
    text, file, asked, by, settings = agreed(comm, look)
    if len({*comm.allgather((file.nodes, file.ends))}) > 1:
        raise Refusal("network Other", f"{network}: not all processes have the same file there")
    part = build(comm, file, by)
    head = checkpoints.head_of(comm, text.canonical, text.fields, part) if checkpoint or resume else {}
    if resume is None:
        start, words = 0, initial.initial_words(part.numbers, text.initial_values, *settings)
    else:
        start, words = checkpoints.last_words(comm, resume, head, rounds)
    is_same = resume is not None and checkpoint is not None and os.path.realpath(resume) == os.path.realpath(checkpoint)
    return made(comm, text, file.nodes, part, start, words, asked, (checkpoint, every, head, start if is_same else None))


def made(comm: Any, text: Program, nodes: int, part: Part, start: int, words: Array, asked: Asked, writing: Any) -> Outcome:
    """Makes the rounds, with communicators of their own, so that no other message comes between."""
    own = [comm.Dup() for _ in range(3)]
    totals = Totals(own[1], start, settles=not text.reads_round, until=asked.until is not None)
    writer = checkpoints.Checkpoints(own[2], *writing)
    rounds = Rounds(own[0], text.text, part, start, words, asked)
    begun = time.perf_counter()
    rounds.run(totals, writer)
    times = (time.perf_counter() - begun, rounds.waited)
    for each in own:
        each.Free()
    ends = (asked.last if totals.reached is None else totals.reached, totals.settled, totals.reached)
    return Outcome(text.fields, nodes, *ends, part.numbers, rounds.words, totals.sums, *times, rounds.exchange.bytes, comm)
