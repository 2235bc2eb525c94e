"""What ./release refuses: programs that are not there, not proved, of other sources, for another level, or by another kit; and which
verdicts are noted of what the gate proves, by which it is told."""

import importlib.machinery
import importlib.util
import os
import subprocess
import sys

import parts
from parts import TOP, kit

SOURCES, WAY_ON = "5" * 64, "what to do"
VERDICT = "logic=proved functions=1"
SAID = """== below
logic=proved functions=2
rt: below proved
== program: its tests
logic=proved tests=3 functions=3
rt: program: its tests are proved
== program
fn program::main: proved
logic=proved functions=1
rt: program proved
rt: other is kept: an earlier run on this machine proved the same files over the same libraries
== wrong
logic=not-proved functions=4
rt: wrong NOT PROVED
"""


class Note:
    """A program of a text, with a note beside it."""

    def __init__(self, folder):
        self.path = folder / "program"
        self.path.write_text("text")

    def refused(self, level=kit.DEFAULT_LEVEL, **changes):
        """Why the program is refused with a note that differs so from the one that passes; None where it is not."""
        kit.write_note(self.path, SOURCES, kit.DEFAULT_LEVEL, VERDICT)
        note = {**kit.json.loads(kit.note_of(self.path).read_text()), **changes}
        kit.note_of(self.path).write_text(kit.json.dumps(note))
        try:
            parts.proved(self.path, level, SOURCES, WAY_ON)
        except parts.Refused as refusal:
            return str(refusal)
        return None


def tell(tally, what, refused, reason):


    """A refusal says the reason and what to do, in one line."""
    well = refused is not None and reason in refused and refused.endswith(f": {WAY_ON}") and "\n" not in refused
    tally.tell(f"refused: {what}", well, f"{refused}")


def try_noted(tally):
    """The verdict of a crate is that of its own part of what `rt ci` said, not that of its tests."""
    loader = importlib.machinery.SourceFileLoader("noted", str(TOP / "first_use" / "noted"))
    noted = importlib.util.module_from_spec(importlib.util.spec_from_loader("noted", loader))
    loader.exec_module(noted)
    wanted = {"below": "logic=proved functions=2", "program": VERDICT, "other": SAID.splitlines()[10]}
    tally.equal("the verdicts of the gate", noted.verdicts_of(SAID.splitlines()), wanted)


def all_of(tally, work):


    """Each reason for which a program is refused, and the one that is taken."""
    try_noted(tally)
    note = Note(work)
    tally.equal("a proved program is taken", note.refused(), None)
    tally.equal("a program is taken that the gate kept", note.refused(verdict="rt: program is kept: an earlier run proved the same files"), None)
    tell(tally, "a quick program, of which there is no verdict", note.refused(verdict=None), "is not proved: its note has no verdict of the prover")
    tell(tally, "a program whose proof failed", note.refused(verdict="logic=not-proved functions=1"), "is not proved")
    tell(tally, "a program of other sources", note.refused(sources="6" * 64), "was proved of other sources than those at hand")
    tell(tally, "a program for another level", note.refused("x86-64-v3"), "is for default, and one for x86-64-v3 is wanted")
    tell(tally, "a program of another kit", note.refused(kit="another kit"), "was proved by another kit, and `rt version` says")
    tell(tally, "a program with the note of another", note.refused(program="7" * 64), "has no note that is its own")
    note.path.unlink()
    try:
        parts.proved(note.path, kit.DEFAULT_LEVEL, SOURCES, WAY_ON)
        told = None
    except parts.Refused as refusal:
        told = str(refusal)
    tell(tally, "a program that is not there", told, "is not there")
    words, environment = [sys.executable, TOP / "release", work / "none"], {**os.environ, "UNISON_CPU": "x86-64-v3"}
    done = subprocess.run(words, env=environment, capture_output=True, text=True)
    refused = done.returncode == 1 and done.stderr.startswith("unison: UNISON_CPU is x86-64-v3: a package has") and not (work / "none").exists()
    tally.tell("refused: a package for one level above the default", refused, done.stderr)
