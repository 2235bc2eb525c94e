"""The texts of a job as files for the proved programs: a program or a model, a network, and what else a command reads."""

from __future__ import annotations

import re
from typing import Any, Dict, List, Mapping, NamedTuple, Optional, Sequence

from . import _calls, _checks, _packed, _programs, faults
from ._arrays import Numbers
from .large import FILE, LargeNetwork
from .model import Model
from .network import Network
from .program import Program

PROGRAM, NETWORK, REPORT, NAMES = "program.rules", "network.toml", "report.txt", "names.txt"
LAST = _checks.LAST_ROUND
SIMPLE = re.compile(rf"{re.escape(FILE)}: (.*); this command takes networks ([^;\n]*)$", re.M)  # where nodes cannot move at their own pace
FEW = 1000  # nodes whose initial values words tell; those of more stand in a file, with those of all others


class Job(NamedTuple):
    """A command's words on what it works on, and the files that they name."""

    call: str
    options: List[str]
    positions: List[str]  # the program and the network, then what else the command reads
    files: Dict[str, bytes]
    texts: Optional[_calls.Texts] = None  # by which the library tells where initial values or a report are wrong

    def run(self, *words: str) -> bytes:
        """What the command prints that begins with these words."""
        return self.ran(words, (0,)).output

    def ran(self, words: Sequence[str], answers: Sequence[int]) -> _programs.Done:
        """Its status, one of those that are answers, and what it prints."""
        try:
            return _programs.ran([*words, *self.options, "--", *self.positions], files=self.files, answers=answers)
        except faults.UnisonError as error:
            raise self.told(error) from None

    def told(self, error: faults.UnisonError) -> faults.UnisonError:
        """The fault in words of the call; that of a plan, a report or a run as the library tells it."""
        error = faults.in_words_of_calls(error, self.call)
        found = SIMPLE.search(error.diagnosis) if error.part == "network" else None
        if found is not None:
            told = f"{self.call}: network: {found[1]}: expected a network {found[2]} (network {error.name})"
            return faults.NetworkError(error.number, told, (error.part, error.name))
        if self.texts is None or error.number == faults.NO_NUMBER or error.part not in ("plan", "report", "run"):
            return error
        in_texts = error.part != "run"
        return faults.error_of(error.number, _calls.diagnosis_of(error.number, _calls.LOCKSTEP, self.texts, LAST) if in_texts else "")

    def reading(self, name: str, content: bytes) -> Job:
        """The same job of a command that reads a file besides."""
        return self._replace(positions=[*self.positions, name], files={**self.files, name: content})

    def naming(self, option: str, name: str, content: bytes) -> Job:
        """The same job with a file that an option names."""
        return self._replace(options=[*self.options, f"{option}={name}"], files={**self.files, name: content})

    def saying(self, *words: str) -> Job:
        """The same job with these options."""
        return self._replace(options=[*self.options, *words])


def job_of(call: str, program: Any, network: Any, from_: Any = None, constants: Optional[Mapping[str, str]] = None) -> Job:
    """The job of a call that takes any network, whose arguments are looked at. `constants` stand before those that the model was given."""
    rules, links = _checks.program(call, program), _checks.network(call, network)
    report = _checks.report(call, from_, rules, links)
    job = program_job(call, rules, constants or {})
    if isinstance(links, LargeNetwork):
        links._check_fields(rules)
        job = job.reading(FILE, links._bytes)
        job = job if report else beginning(job, rules, links, bool(constants))
    else:
        job = job.reading(NETWORK, links._bytes)._replace(texts=_calls.Texts(rules.text, links._bytes, report))
    return job.naming("--from", REPORT, report) if report else job


def file_job_of(call: str, program: Any, network: Any, from_: Any = None) -> Job:
    """The job of a call that takes a network file."""
    return job_of(call, program, _checks.network(call, network)._file(call), from_)


def steps_job_of(call: str, program: Any, network: Any, from_: Any = None) -> Job:
    """The job of a call on steps of single nodes, which takes a network of any size whose links lead both ways. What is kept as arrays stands with
    its initial values in one file."""
    rules, links = _checks.program(call, program), _checks.network(call, network)
    if not isinstance(links, LargeNetwork):
        return job_of(call, rules, links, from_)
    report = _checks.report(call, from_, rules, links)
    links._check_fields(rules)
    job = program_job(call, rules, {}).reading(FILE, links._saved)
    return job.naming("--from", REPORT, report) if report else job


def beginning(job: Job, program: Program, network: LargeNetwork, in_words: bool) -> Job:
    """The job with the initial values of a network that is kept as arrays, which its file does not have. Those of some nodes go in words where
    they are few, or where they have to: other nodes begin as the program says, which constants may change."""
    for place, (field, given) in enumerate(network._set.items()):
        if isinstance(given, dict) and (in_words or len(given) <= FEW):
            job = job.saying(*(f"--set={field}={node}:{value}" for node, value in given.items()))
        elif isinstance(given, (dict, Numbers)):
            values = network._column(field, program.initial_values[field])
            job = job.naming(f"--set-file={field}", f"initial{place}.npy", _packed.column(values))
        else:
            job = job.saying(f"--set={field}=*:{given}")
    return job


def program_job(call: str, program: Program, constants: Mapping[str, str]) -> Job:
    """The part of a job that is the program, or the model with values for its constants. A model is called as its own file is."""
    if not isinstance(program, Model):
        return Job(call, [], [], {}).reading(PROGRAM, program.text)
    given = {**{name: str(value) for name, value in program._given.items()}, **constants}
    options = [f"--const={name}={value}" for name, value in given.items()]
    return Job(call, options, [], {}).reading(program._called, program._source)


def span_words(call: str, rounds: Any, name: str = "rounds") -> List[str]:
    """The words for the rounds that are shown."""
    first, last, every = _checks.span(call, name, rounds)
    return [f"--rounds={first}..{last}", *([f"--every={every}"] if every > 1 else [])]


def names_file(network: Network) -> Optional[bytes]:
    """The names of the nodes, a line each; None where nodes have none, or one that no line can be."""
    names = None if network._names is None else [str(name) for name in network._names]
    if names is None or len(set(names)) < len(names) or any(not name or len(name.splitlines()) != 1 for name in names):
        return None
    return "".join(f"{name}\n" for name in names).encode("utf-8", "surrogateescape")
