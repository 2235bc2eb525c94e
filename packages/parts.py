"""What packages are made of: the proved programs of each level and the proved library with their notes, and the files of the repository."""

import pathlib
import re
import subprocess
import sys

TOP = pathlib.Path(__file__).resolve().parent.parent
sys.dont_write_bytecode = True
sys.path[:0] = [str(TOP / "first_use"), str(TOP / "python")]
import kit  # noqa: E402
import wheel_maker  # noqa: E402

VERDICT = r"logic=proved |rt: \w+ is kept: "  # how a line begins that says of a program that it is proved (first_use/noted)
LIBRARIES = ("libunison.so", "libunison.a")
HOME = TOP / "packages"


class Refused(Exception):
    """Why no package is made, and what to do."""


class Repository:
    """The commit of the repository, its time, and the files that are under version control."""

    def __init__(self):
        self.commit = self.git("log", "-1", "--format=%H of %cs").strip()
        self.time = int(self.git("log", "-1", "--format=%ct"))
        if self.git("status", "--porcelain").strip():
            self.commit += ", with changes"

    def git(self, *words):
        done = subprocess.run(["git", *words], cwd=TOP, capture_output=True, text=True)
        if done.returncode:
            raise Refused(f"a package names the commit that it is made of, and git says: {done.stderr.strip()}")
        return done.stdout

    def files(self, *folders):
        """Paths below the top, sorted."""
        return sorted(pathlib.Path(it) for it in self.git("ls-files", "-z", *folders).split("\0") if it)


def is_proved(note):
    """Whether a note has a verdict by which a program is proved."""
    return bool(re.match(VERDICT, note.get("verdict") or ""))


class Proved:
    """A program or library with its level and its note."""

    def __init__(self, path, level, note):
        self.path, self.name, self.level, self.note = path, path.name, level, note
        self.content = path.read_bytes()

    def is_proved(self):
        return is_proved(self.note)


def levels(asked):
    """The levels that a package has, the highest first: each that there is, or the kit's default alone where UNISON_CPU says so."""
    if asked not in (None, "", kit.DEFAULT_LEVEL):
        wanted = f"a package has programs for {kit.DEFAULT_LEVEL} alone where it is that, and for all levels where it is not set"
        raise Refused(f"UNISON_CPU is {asked}: {wanted}")
    return [*([] if asked else kit.LEVELS), kit.DEFAULT_LEVEL]


def proved(path, level, sources, way_on):
    """A program or library of these sources, for a level. Refused where it is none that was proved: quick ones have no verdict in their notes."""
    if not path.is_file():
        raise Refused(f"{named(path)} is not there: {way_on}")
    note = kit.read_note(path)
    if note is None:
        raise Refused(f"{named(path)} has no note that is its own, so nothing tells of what it was built: {way_on}")
    if not is_proved(note):
        raise Refused(f"{named(path)} is not proved: its note has no verdict of the prover: {way_on}")
    if note["processor"] != level:
        raise Refused(f"{named(path)} is for {note['processor']}, and one for {level} is wanted: {way_on}")
    if note["sources"] != sources:
        raise Refused(f"{named(path)} was proved of other sources than those at hand: {way_on}")
    if note["kit"] != kit.version_of_kit():
        raise Refused(f"{named(path)} was proved by {note['kit']}, and `rt version` says {kit.version_of_kit()}: {way_on}")
    return Proved(path, level, note)


def named(path):


    """A path as it stands below the top of the repository."""
    return path.relative_to(TOP) if TOP in path.parents else path


def proved_program(crate, level):
    """The proved program of a crate for a level: the one that was built last, else the one that is kept for the level."""
    last = pathlib.Path(crate.folder, "out", crate.name)
    note = kit.read_note(last) if last.is_file() else None
    path = last if note and note["processor"] == level else kit.kept_for(last, level)
    way_on = f"UNISON_CPU={level} ./unison prove {crate.name.removeprefix('unison_')}"
    return proved(path if path.is_file() else last, level, kit.sum_of_sources(crate), way_on)


def proved_library(crate, name):
    """The proved library, which is for the default level, since it does not choose."""
    return proved(TOP / "library" / "out" / name, kit.DEFAULT_LEVEL, kit.sum_of_sources(crate), "UNISON_CPU=default ./unison prove library")


class Parts:
    """All of which packages are made. The functions that find a program and a library are those of this module but in tests of the layout."""

    def __init__(self, asked, find_program=proved_program, find_library=proved_library):
        crates = kit.crates(kit.rtlib_of_kit())
        self.repository = Repository()
        self.version = wheel_maker.version()
        self.kit = kit.version_of_kit()
        self.levels = levels(asked)
        self.programs = [find_program(crates[name], level) for level in self.levels for name in kit.PROGRAMS]
        self.libraries = [it for it in (find_library(crates["unison_c"], name) for name in LIBRARIES) if it]

    def completion(self):
        """The script for Bash, as the program prints it."""
        program = next(it.path for it in self.programs if (it.name, it.level) == ("unison_lab", kit.DEFAULT_LEVEL))
        return subprocess.run([program, "completion", "bash"], stdin=subprocess.DEVNULL, capture_output=True, check=True).stdout

    def glibc(self):
        """The lowest version of the C library that has what programs and library ask of it, as 2 and 34."""
        asked = [it for part in [*self.programs, *self.libraries] for it in re.findall(rb"GLIBC_(\d+)\.(\d+)", part.content)]
        return max((int(major), int(minor)) for major, minor in asked)


def lines(texts):


    """Texts as lines."""
    return "".join(f"{it}\n" for it in texts).encode()
