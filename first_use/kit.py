"""What the scripts share that build programs: the kit's own module, the repository's crates, the level of the processor, and the notes that
stand beside built programs: of which sources they were built, by which kit and for which processor, and what the prover said of them."""

import hashlib
import json
import os
import pathlib
import shutil
import subprocess
import sys
import threading

TOP = pathlib.Path(__file__).resolve().parent.parent
PROGRAMS = ("unison_cli", "unison_lab")
LEVELS = {  # what the levels name, in the words of /proc/cpuinfo
    "x86-64-v3": {"avx", "avx2", "bmi1", "bmi2", "f16c", "fma", "abm", "movbe", "xsave"},
}
DEFAULT_LEVEL = "default"
CHOICES = (DEFAULT_LEVEL, "x86-64-v2", *LEVELS)  # what UNISON_CPU may say


def root_of_kit():
    """The folder of the kit. Ends with a clear line where there is none."""
    try:
        page = subprocess.run(["rt", "doc"], capture_output=True, text=True, check=True).stdout.strip()
    except (OSError, subprocess.CalledProcessError):
        sys.exit("unison: there is no `rt` here, the command of Rattle's kit, by which programs are built: put it on the PATH")
    return pathlib.Path(page).parent


def version_of_kit():
    return subprocess.run(["rt", "version"], capture_output=True, text=True, check=True).stdout.strip()


def rtlib_of_kit():
    """The kit's own module, by which `rt` finds crates and builds them."""
    sys.dont_write_bytecode = True
    sys.path.insert(0, str(root_of_kit() / "bin"))
    import rtlib

    sum_each_crate_once(rtlib)
    return rtlib


def sum_each_crate_once(rtlib):
    """Has the kit's sum of a crate and of those below it (`Crate.stamp`) look at each crate once. By itself it goes along each way from a crate to
    those below, some 18,000 for the program of most commands, and reads their files each time."""
    if hasattr(rtlib.Crate.stamp, "along_each_way"):
        return
    along_each_way, here = rtlib.Crate.stamp, threading.local()

    def stamp(crate):
        if getattr(here, "sums", None) is None:
            here.sums = {}
            try:
                return stamp(crate)
            finally:
                here.sums = None
        if crate.folder not in here.sums:
            here.sums[crate.folder] = along_each_way(crate)
        return here.sums[crate.folder]

    stamp.along_each_way = along_each_way
    rtlib.Crate.stamp = stamp


def crates(rtlib):
    """The repository's crates by their names. The working folder is the repository's top from here on."""
    os.chdir(TOP)
    return {it.name: it for it in rtlib.crates_below(str(TOP))}


def level():
    """For which processor programs are built: what UNISON_CPU says, else the highest level that this one has, else the kit's default."""
    if asked := os.environ.get("UNISON_CPU"):
        if asked not in CHOICES:
            sys.exit(f"unison: UNISON_CPU is {asked}, and it is one of {', '.join(CHOICES)}")
        return asked
    with open("/proc/cpuinfo") as lines:
        flags = next((set(line.split()) for line in lines if line.startswith("flags")), set())
    return next((name for name, needs in LEVELS.items() if needs <= flags), DEFAULT_LEVEL)


def words_of_level(name):
    """The words by which `rt run` and `rattle build` compile for a level."""
    return [] if name == DEFAULT_LEVEL else ["--cpu", name]


def note_of(program):
    """Where the note on a built program stands."""
    return program.with_name(program.name + ".note")


def sum_of(program):
    return hashlib.sha256(program.read_bytes()).hexdigest()


def verdict_in(lines):
    """The last verdict among lines that the prover printed, as it stands there, or None."""
    return next((line.rstrip("\n") for line in reversed(list(lines)) if line.startswith("logic=proved ")), None)


def write_note(program, sources, cpu, verdict=None):
    """Notes of which sources a program was built, by which kit and for which processor, and the prover's verdict, where it is proved."""
    note = {"sources": sources, "kit": version_of_kit(), "processor": cpu, "program": sum_of(program), "verdict": verdict}
    note_of(program).write_text(json.dumps(note) + "\n")


def kept_for(program, cpu):
    """Where a program is kept for a level, beside the one that was built last, which may be for another."""
    return program.parent / cpu / program.name


def keep(program, cpu):
    """Keeps a program with its note for its level."""
    kept = kept_for(program, cpu)
    kept.parent.mkdir(exist_ok=True)
    shutil.copy2(program, kept)
    shutil.copy2(note_of(program), note_of(kept))


def read_note(program):
    """The note on a program, or None where there is none that is this program's."""
    try:
        note = json.loads(note_of(program).read_text())
    except (OSError, ValueError):
        return None
    return note if note.get("program") == sum_of(program) else None


def sources_of(crate):
    """The files of a crate, and of those that it stands on, of which a program is built."""
    folders = [pathlib.Path(it.folder) / part for it in [crate, *crate.below()] for part in ("src", "specs")]
    return sorted(file for folder in folders if folder.is_dir() for file in folder.rglob("*") if file.is_file())


def sum_of_sources(crate):
    """A sum of the names and texts of these files."""
    said = hashlib.sha256()
    for file in sources_of(crate):
        said.update(repr((str(file.relative_to(TOP)), file.read_bytes())).encode())
    return said.hexdigest()


def verdict_on(program):
    """The verdict that the note on a program has. Where it has none the program is removed, so that it is compiled again and the verdict said."""
    verdict = (read_note(program) or {}).get("verdict") if program.is_file() else None
    if verdict is None:
        program.unlink(missing_ok=True)
    return verdict


def is_newer(crate, program):
    """Whether a source of a program, or a folder of them, was changed after it was made."""
    made, files = program.stat().st_mtime, sources_of(crate)
    times = (it.stat() for it in {*files, *(file.parent for file in files)})
    return any(max(it.st_mtime, it.st_ctime) > made for it in times)


def is_fresh(crate, program):
    """Whether a program is that of the sources at hand: its note has their sum or, where it has no note, none was changed since it was made."""
    if not program.is_file():
        return False
    note = read_note(program)
    return note["sources"] == sum_of_sources(crate) if note else not is_newer(crate, program)
