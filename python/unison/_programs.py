"""The programs `unison_cli` and `unison_lab`: where they are found, and how they are run.

They are looked for in this order: in the folder that the environment variable UNISON_PROGRAMS names, and in no other where it is set; in
`programs/` of the installed package, by levels of processor, the best one that this processor has first; by the launcher `./unison` of the
checkout, which names the proved programs where they are built, and else builds quick ones, which are not proved.
"""

from __future__ import annotations

import os
import subprocess
import sys
import tempfile
from functools import lru_cache
from pathlib import Path
from typing import Collection, Dict, FrozenSet, List, Mapping, NamedTuple, Optional, Sequence

from . import _library, faults

VARIABLE = "UNISON_PROGRAMS"
LEVEL = "UNISON_CPU"  # names the one level that is looked at, where it is set
LAUNCHER = "unison"
VIEWER = "page.html"  # into which `unison page` puts a run
HERE = Path(__file__).resolve().parent

#: The levels of processors for which programs are built, the best first, each with what it needs, in the words of /proc/cpuinfo.
LEVELS: Dict[str, FrozenSet[str]] = {
    "x86-64-v3": frozenset(("avx", "avx2", "bmi1", "bmi2", "f16c", "fma", "abm", "movbe", "xsave")),
    "default": frozenset(),
}
#: The commands that a program has; `unison_lab` has all others.
COMMANDS = {
    **dict.fromkeys(("check", "lockstep", "run", "replay", "compare"), "unison_cli"),
}
QUIET = "UNISON_QUIET"  # leaves out what is told of quick programs, where it is 1


class ProgramsMissing(FileNotFoundError):
    """There is no program at any of the places where it is looked for."""


class Done(NamedTuple):
    """What a program that has ended left."""

    status: int
    output: bytes
    told: str  # on standard error


@lru_cache(maxsize=None)
def features() -> FrozenSet[str]:
    """What this processor has, in the words of /proc/cpuinfo; nothing where that cannot be read."""
    try:
        lines = Path("/proc/cpuinfo").read_text(encoding="utf-8", errors="replace").splitlines()
    except OSError:
        return frozenset()
    return next((frozenset(line.split()) for line in lines if line.startswith("flags")), frozenset())


def folders() -> List[Path]:
    """The folders in which programs are looked for; that of UNISON_PROGRAMS alone where it is set, of the level of UNISON_CPU where that is."""
    named = os.environ.get(VARIABLE)
    if named:
        return [Path(named)]
    asked = os.environ.get(LEVEL)
    levels = [asked] if asked else [level for level, needs in LEVELS.items() if needs <= features()]
    return [HERE / "programs" / level for level in levels]


def launcher() -> Optional[Path]:
    """The checkout's `./unison`, where the package stands in one."""
    top = HERE.parent.parent
    there = (top / LAUNCHER).is_file() and (top / "crates.txt").is_file() and not os.environ.get(VARIABLE)
    return top / LAUNCHER if there else None


def are_there() -> bool:
    """Whether all programs are, or can be built."""
    names = ("unison_cli", "unison_lab")
    return launcher() is not None or all(any(is_program(folder / name) for folder in folders()) for name in names)


def is_program(path: Path) -> bool:
    return os.access(path, os.X_OK) and path.is_file()


def path_of(name: str) -> Path:
    """The file of a program. Raises `ProgramsMissing`."""
    for folder in folders():
        if is_program(folder / name):
            return folder / name
    own = launcher()
    if own is None:
        raise ProgramsMissing(missing(name))
    return named_by(own, name)


@lru_cache(maxsize=None)
def named_by(own: Path, name: str) -> Path:
    """The program that a checkout's launcher names, which it builds where it has to, with a line of progress. Of a quick one it is told once
    what it is."""
    with subprocess.Popen(
        [str(own), "--program", name],
        env={**os.environ, QUIET: "1"},
        stdin=subprocess.DEVNULL,
        stdout=subprocess.PIPE,
        stderr=None if sys.stderr is sys.__stderr__ and sys.stderr.isatty() else subprocess.PIPE,
    ) as asked:
        told = "".join(passed_on(line) for line in asked.stderr or ())
        path = Path(os.fsdecode(asked.stdout.read().rstrip(b"\n"))) if asked.stdout else own
    if asked.returncode != 0:
        why = told.rstrip("\n") or f"{own} has no program {name}"
        raise ProgramsMissing(why if _library.is_there() else f"{why}\n{_library.WAYS}")
    if path.parent == own.parent / "quick" / "out":
        tell_of_quick()
    return path


def passed_on(line: bytes) -> str:
    """A line of the launcher, once it is told on standard error."""
    text = line.decode("utf-8", "replace")
    print(text, end="", file=sys.stderr, flush=True)
    return text


@lru_cache(maxsize=None)
def tell_of_quick() -> None:
    """Tells on standard error, once, that quick programs answer, and what makes the proved ones."""
    if os.environ.get(QUIET) == "1":
        return
    ways, why = _library.WAYS, f"there is no {_library.NAME}, so "
    if _library.is_there():
        ways, why = "./unison prove proves and builds them", ""
    print(f"unison: {why}quick programs answer, which are not proved, and slow on large networks. {ways}", file=sys.stderr, flush=True)


def missing(name: str) -> str:
    """What is told where a program is nowhere."""
    looked = " and ".join(str(folder / name) for folder in folders())
    return (
        f"the program {name} is not there: looked for {looked}. A wheel of unison brings its programs along; in a checkout ./unison "
        f"prove makes them, and `pip install -e ./python` takes them from there; {VARIABLE} names a folder that has {name}"
    )


def viewer_words(program: Path) -> List[str]:
    """The words that name the viewer of pages: it stands beside a program, or one folder above; in a checkout in `viewer`."""
    own = launcher()
    places = [program.parent, program.parent.parent, *([own.parent / "viewer"] if own else [])]
    for folder in places:
        if (folder / VIEWER).is_file():
            return ["--viewer", str(folder / VIEWER)]
    raise ProgramsMissing(f"{VIEWER}, the viewer of pages, is not there: looked for it in {' and '.join(map(str, places))}")


def run(words: Sequence[str], input: Optional[bytes] = None, files: Optional[Mapping[str, bytes]] = None) -> bytes:
    """What a command prints: `run(["generate", "ring", "5"])`. Its words may name the files that are given, each by its name and bytes.

    Raises `UnisonError`, or MemoryError, where the command is refused, `ProgramsMissing` where its program is nowhere.
    """
    return ran(words, input, files).output


def ran(
    words: Sequence[str],
    input: Optional[bytes] = None,
    files: Optional[Mapping[str, bytes]] = None,
    answers: Collection[int] = (0,),
) -> Done:
    """The status of a command, one of those that are answers, and what it prints; else its fault is raised."""
    done = called(words, input, files)
    if done.status in answers and not fault_in(done.told).startswith("fault: "):
        return done
    raise refusal(words[0], done)


def called(words: Sequence[str], input: Optional[bytes] = None, files: Optional[Mapping[str, bytes]] = None) -> Done:
    """What a command leaves, whatever it is."""
    command, *others = words
    program = path_of(COMMANDS.get(command, "unison_lab"))
    if command == "page":
        others = [*viewer_words(program), *others]
    with tempfile.TemporaryDirectory(prefix="unison-") as folder:
        for name, content in (files or {}).items():
            Path(folder, name).write_bytes(content)
        done = subprocess.run(
            [str(program), command, *others],
            cwd=folder,
            env={**os.environ, QUIET: "1"},
            input=input or b"",
            stdout=subprocess.PIPE,
            stderr=subprocess.PIPE,
            check=False,
        )
    return Done(done.returncode, done.stdout, done.stderr.decode("utf-8", "replace"))


def fault_in(told: str) -> str:
    """What a program says on standard error but for its notes, and those of the launcher."""
    return "\n".join(line for line in told.splitlines() if not line.startswith(("unison: ", "note: ")))


def refusal(command: str, done: Done) -> Exception:
    """What is raised for the words with which a program ended, of which the first line that is no note is its fault."""
    fault = fault_in(done.told)
    if fault.startswith("fault: "):
        return faults.told_by_program(fault)
    if done.told.startswith("unison: "):  # a launcher has no program, and tells why
        return ProgramsMissing(done.told.rstrip("\n"))
    how = f"status {done.status}" if done.status >= 0 else f"signal {-done.status}"
    return RuntimeError(f"unison {command} ended with {how}: {done.told.strip() or 'it said nothing'}")
