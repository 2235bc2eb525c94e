"""Where the proved programs are found, how they are run, and what becomes of their faults."""

import contextlib
import io
import os
import tempfile
from pathlib import Path

from support import EXAMPLES, PYTHON, ROOT, program, raised, skip

import unison
from unison import _library, _programs, faults


@contextlib.contextmanager
def folder_of(*names, script="exit 0"):
    """A folder with programs of these names, which run a script of the shell, and in which UNISON_PROGRAMS looks."""
    with tempfile.TemporaryDirectory() as folder:
        for name in names:
            path = Path(folder, name)
            path.parent.mkdir(parents=True, exist_ok=True)
            path.write_text(f"#!/bin/sh\n{script}\n")
            path.chmod(0o755)
        yield Path(folder)


@contextlib.contextmanager
def named(folder):
    """UNISON_PROGRAMS names a folder."""
    before = os.environ.get(_programs.VARIABLE)
    os.environ[_programs.VARIABLE] = str(folder)
    try:
        yield
    finally:
        if before is None:
            del os.environ[_programs.VARIABLE]
        else:
            os.environ[_programs.VARIABLE] = before


@contextlib.contextmanager
def package_in(folder, has):
    """The package stands in this folder, and the processor has these features."""
    before = _programs.HERE, _programs.features
    _programs.HERE, _programs.features = folder, lambda: frozenset(has)
    set_before = {name: os.environ.pop(name) for name in (_programs.VARIABLE, _programs.LEVEL) if name in os.environ}
    try:
        yield
    finally:
        _programs.HERE, _programs.features = before
        os.environ.pop(_programs.LEVEL, None)
        os.environ.update(set_before)


V3 = _programs.LEVELS["x86-64-v3"]


def test_the_folder_of_the_variable_comes_first():
    with folder_of("unison_lab") as folder, named(folder):
        assert _programs.path_of("unison_lab") == folder / "unison_lab"
        told = str(raised(unison.ProgramsMissing, lambda: _programs.path_of("unison_cli")))
        assert told.startswith(f"the program unison_cli is not there: looked for {folder / 'unison_cli'}. ")
        assert "UNISON_PROGRAMS" in told and "./unison prove" in told


def test_the_best_level_that_the_processor_can_run_is_taken():
    both = ("programs/x86-64-v3/unison_lab", "programs/default/unison_lab", "programs/default/unison_cli")
    for has, name, level in [
        (V3, "unison_lab", "x86-64-v3"),
        (V3 | {"avx512f"}, "unison_lab", "x86-64-v3"),
        (V3 - {"avx2"}, "unison_lab", "default"),
        ((), "unison_lab", "default"),
        (V3, "unison_cli", "default"),
    ]:
        with folder_of(*both) as folder, package_in(folder, has):
            assert _programs.path_of(name) == folder / "programs" / level / name, (sorted(has), name)


def test_a_level_that_is_named_is_taken():
    with folder_of("programs/x86-64-v3/unison_lab", "programs/default/unison_lab") as folder, package_in(folder, V3):
        os.environ[_programs.LEVEL] = "default"
        assert _programs.path_of("unison_lab") == folder / "programs" / "default" / "unison_lab"
        os.environ[_programs.LEVEL] = "x86-64-v2"
        raised(unison.ProgramsMissing, lambda: _programs.path_of("unison_lab"))


def test_what_cannot_be_run_is_passed_over():
    with folder_of("programs/x86-64-v3/unison_lab", "programs/default/unison_lab") as folder, package_in(folder, V3):
        (folder / "programs" / "x86-64-v3" / "unison_lab").chmod(0o644)
        if os.access(folder / "programs" / "x86-64-v3" / "unison_lab", os.X_OK):
            skip("any file can be run here")
        assert _programs.path_of("unison_lab") == folder / "programs" / "default" / "unison_lab"


@contextlib.contextmanager
def checkout(script):
    """A checkout whose launcher is this script, in which the package stands."""
    with folder_of("unison", "python/unison/x", script=script) as folder, package_in(folder / "python" / "unison", ()):
        (folder / "crates.txt").touch()
        yield folder


@contextlib.contextmanager
def standard_error():
    """What is told on standard error."""
    told = io.StringIO()
    _programs.tell_of_quick.cache_clear()
    quiet = os.environ.pop(_programs.QUIET, None)
    try:
        with contextlib.redirect_stderr(told):
            yield told
    finally:
        if quiet is not None:
            os.environ[_programs.QUIET] = quiet


def test_the_launcher_of_a_checkout_names_the_program():
    with folder_of("python/unison/x") as folder, package_in(folder / "python" / "unison", ()):
        raised(unison.ProgramsMissing, lambda: _programs.path_of("unison_lab"))
    with checkout('echo "$0.$1.$2"') as folder, standard_error() as told:
        assert _programs.path_of("unison_lab") == folder / "unison.--program.unison_lab"
        assert told.getvalue() == ""
    assert _programs.HERE == PYTHON / "unison" and _programs.HERE.parent.parent == ROOT


def test_quick_programs_are_told_of_once():
    """With what the launcher tells while it builds one."""
    script = 'echo "unison: building $2" >&2; echo "${0%/*}/quick/out/$2"'
    with checkout(script) as folder, standard_error() as told:
        for name in ("unison_lab", "unison_cli", "unison_lab"):
            assert _programs.path_of(name) == folder / "quick" / "out" / name
        lines = told.getvalue().splitlines()
        assert [line for line in lines if "building" in line] == ["unison: building unison_lab", "unison: building unison_cli"]
        (note,) = (line for line in lines if "building" not in line)
        assert "quick programs answer, which are not proved, and slow on large networks" in note


def test_a_launcher_without_programs_says_why():
    with checkout("echo 'unison: there is no python3 here' >&2; exit 1"), standard_error():
        told = str(raised(unison.ProgramsMissing, lambda: _programs.path_of("unison_lab"))).splitlines()
        assert told[0] == "unison: there is no python3 here" and told[1:] in ([], [_library.WAYS])


def test_each_command_goes_to_its_program():
    with folder_of("unison_cli", "unison_lab", script='echo "${0##*/} $*"; cat') as folder, named(folder):
        assert _programs.run(["generate", "ring", "5"]) == b"unison_lab generate ring 5\n"
        assert _programs.run(["pack", "ring", "5"], b"more") == b"unison_lab pack ring 5\nmore"
        assert _programs.run(["check", "x"]) == b"unison_cli check x\n"


def test_files_are_there_by_their_names_and_gone_afterwards():
    with folder_of("unison_lab", script='pwd; cat "$2"') as folder, named(folder):
        where, text = _programs.run(["expand", "a b.model"], files={"a b.model": b"\x00text\xff"}).split(b"\n", 1)
        assert text == b"\x00text\xff" and not Path(os.fsdecode(where)).exists()


def test_the_viewer_of_pages_is_named():
    script = 'echo "$*"'
    with folder_of("unison_lab", script=script) as folder, named(folder):
        told = str(raised(unison.ProgramsMissing, lambda: _programs.run(["page", "x"])))
        assert told.startswith("page.html, the viewer of pages, is not there")
        (folder / "page.html").touch()
        assert _programs.run(["page", "x"]).decode() == f"page --viewer {folder / 'page.html'} x\n"
    with folder_of("programs/default/unison_lab", script=script) as folder, package_in(folder, ()):
        (folder / "programs" / "page.html").touch()
        assert _programs.run(["page", "x"]).decode() == f"page --viewer {folder / 'programs' / 'page.html'} x\n"


#: What a program prints on standard error and its status: what is raised, with its part, name, number and place, and the message.
FAULTS = [
    ("fault: model UnknownName\\nx.model:2:17: nothing is called `vote`\\n", 3, unison.ModelError, ("model", "UnknownName", 170, (2, 17)), "model UnknownName\nx.model:2:17: nothing is called `vote`"),
    ("fault: usage\\na torus has 3 rows\\n", 2, unison.UsageError, ("usage", "Usage", 0, None), "a torus has 3 rows"),
    ("fault: report BadLine 4\\n", 3, unison.ReportError, ("report", "BadLine", 112, None), "report BadLine 4"),
    ("fault: image TooManyCells\\nat most\\n", 3, unison.PictureError, ("image", "TooManyCells", 0, None), "image TooManyCells\nat most"),
    ("fault: page TooManyValues\\n", 3, unison.PictureError, ("page", "TooManyValues", 0, None), "page TooManyValues"),
    ("fault: trace\\nline 1: expected\\n", 3, unison.TraceError, ("trace", "Trace", 0, None), "trace Trace\nline 1: expected"),
    ("fault: plan UnknownField\\n", 3, unison.PlanError, ("plan", "UnknownField", 64, None), "plan UnknownField"),
    ("fault: run RoundsBelowStart\\n", 1, unison.RunError, ("run", "RoundsBelowStart", 81, None), "run RoundsBelowStart"),
    ("fault: large Magic\\n", 3, unison.UnisonError, ("large", "Magic", 0, None), "large Magic"),
    ("unison: a note\\nfault: usage\\nwhy\\n", 2, unison.UsageError, ("usage", "Usage", 0, None), "why"),
]  # fmt: skip


def test_faults_are_raised_with_part_and_name():
    for told, status, kind, what, message in FAULTS:
        with folder_of("unison_lab", script=f"printf '{told}' >&2; exit {status}") as folder, named(folder):
            error = raised(kind, lambda: _programs.run(["count"]))
            assert (error.part, error.name, error.number, error.place) == what, told
            assert str(error) == message, told


def test_faults_go_to_other_processes():
    import pickle

    for told in ("fault: model UnknownName\nx.model:2:17: nothing\n", "fault: plan UnknownField\n"):
        error = faults.told_by_program(told)
        again = pickle.loads(pickle.dumps(error))
        assert (type(again), again.part, again.name, again.number, again.place, str(again)) == (
            type(error), error.part, error.name, error.number, error.place, str(error),
        )  # fmt: skip


#: What a program tells in words of a command line, and what a call tells.
WORDS = [
    ("fault: usage\n--animate: the cells of a grid move, so --grid WIDTH is wanted\n", "image: animate: the cells of a grid move, so grid WIDTH is wanted"),
    ("fault: usage\n--frame-time: a picture that moves is wanted, by --animate\n", "image: frame_time: a picture that moves is wanted, by animate"),
    ("fault: usage\n--const: `seed` is given a value twice\n", "image: constants: `seed` is given a value twice"),
    ("fault: image TooManyCells\nat most; --every K shows fewer rounds\n", "image TooManyCells\nat most; a range by steps of K shows fewer rounds"),
    ("fault: model Syntax\nx.model:1:1: found `--every`\n", "model Syntax\nx.model:1:1: found `--every`"),
]


def test_faults_are_told_in_words_of_the_call():
    for told, message in WORDS:
        error = faults.in_words_of_calls(faults.told_by_program(told), "image")
        assert str(error) == message and type(error) is type(faults.told_by_program(told))
    pair = unison.Network(2, [(0, 1)])
    told = str(raised(unison.UsageError, lambda: unison.image(program("swap"), pair, 3, animate=True)))
    assert told.startswith("image: animate: ") and "--" not in told


def test_other_ends_are_told():
    with folder_of("unison_lab", script="echo 'fault: memory Memory' >&2; exit 1") as folder, named(folder):
        assert str(raised(MemoryError, lambda: _programs.run(["count"]))) == "unison: out of memory"
    with folder_of("unison_lab", script="echo oh >&2; exit 7") as folder, named(folder):
        assert str(raised(RuntimeError, lambda: _programs.run(["count"]))) == "unison count ended with status 7: oh"
    with folder_of("unison_lab", script="kill -9 $$") as folder, named(folder):
        assert str(raised(RuntimeError, lambda: _programs.run(["count"]))) == "unison count ended with signal 9: it said nothing"
    with folder_of("unison_lab", script="echo 'unison: there is no python3 here' >&2; exit 1") as folder, named(folder):
        assert str(raised(unison.ProgramsMissing, lambda: _programs.run(["count"]))) == "unison: there is no python3 here"


def test_a_call_without_programs_says_what_to_do():
    network = unison.Network(2, [(0, 1)])
    with tempfile.TemporaryDirectory() as folder, named(folder):
        for call in (
            lambda: unison.Model("field s = 0;").states,
            lambda: unison.Model("field"),
            lambda: unison.Network.ring(5),
            lambda: unison.count(unison.Program("field s = 0;"), network, 1),
        ):
            assert "UNISON_PROGRAMS names a folder" in str(raised(unison.ProgramsMissing, call))


def test_a_plan_that_is_refused_is_told_with_its_place():
    """The program only names the fault; the library tells where it is."""
    wrong = unison.Network(2, [(0, 1)], set={"dits": {0: 1}})
    error = raised(unison.PlanError, lambda: unison.count(program("distance"), wrong, 3))
    assert (error.name, error.number, error.place) == ("UnknownField", 64, (8, 1))
    assert str(error).startswith("network:8:1: plan UnknownField: `dits` in `set` is no field of the program\n")
    later = (EXAMPLES / "reports" / "distance-path-2.txt").read_text()
    error = raised(unison.RunError, lambda: unison.count(program("distance"), unison.Network.from_file(EXAMPLES / "path.toml"), [1], from_=later))
    assert str(error) == "run RoundsBelowStart: the round lies before that of the report to go on from"
