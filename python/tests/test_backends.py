"""Which back end answers, what is told where none does, and what programs answer beside what the package needs of them."""

import os
import random
import subprocess
import sys

from support import DISTANCE, EXAMPLES, PYTHON, SWAP

import unison
from unison import _by_programs, _calls, _packed, model

PAIR = b"nodes = 2\nlinks = [[0, 1]]\n[set]\ns = [[0, 5], [1, 7]]\n"


def told(code, **environment):
    """What a program prints, in a process of its own with these variables, and what it says on standard error."""
    names = {"UNISON_LIBRARY", "UNISON_PROGRAMS", "UNISON_BUILD", "UNISON_QUIET"}
    kept = {name: value for name, value in os.environ.items() if name not in names}
    done = subprocess.run([sys.executable, "-c", code], cwd=PYTHON, env={**kept, **environment}, capture_output=True, text=True)
    return done.stdout, done.stderr


WHICH = "from unison import _calls; print(type(_calls.backend()).__name__)"


def test_what_is_asked_for_answers():
    assert told(WHICH, UNISON_BUILD="quick")[0] == "Programs\n"
    assert told(WHICH, UNISON_BUILD="proved")[0] == "Library\n"
    assert told(WHICH, UNISON_LIBRARY="/nowhere/libunison.so")[0] == "Library\n"


def test_a_missing_library_is_told_with_all_that_makes_it():
    _, error = told("import unison; unison.Program('field s = 0;')", UNISON_LIBRARY="/nowhere/libunison.so")
    last = error.splitlines()[-1]
    assert last.startswith("unison._library.LibraryMissing: libunison.so, the library of the package unison, is not there: ")
    for words in ("/nowhere/libunison.so", "library/build", "half an hour or more", "the wheel", "pip install"):
        assert words in last, words


def test_rounds_are_asked_for_by_as_few_spans_as_there_are():
    for rounds, spans in [
        ([], []),
        ([5], [(5, 5, 1)]),
        ([0, 1, 2, 3], [(0, 3, 1)]),
        ([1, 10, 100], [(1, 10, 9), (100, 100, 1)]),
        ([0, 2, 4, 5, 6, 9], [(0, 4, 2), (5, 6, 1), (9, 9, 1)]),
    ]:
        assert list(_by_programs.spans(rounds)) == spans


def test_lists_that_are_no_network():
    """Where each fault stands, worked out by hand."""
    for offsets, neighbours, weights, found in [
        ([0, 1, 2], [1, 0], 0, ("", 0)),
        ([0, 1, 2], [1, 0], 2, ("", 0)),
        ([0], [], 0, ("NodeCount", 0)),
        ([], [], 0, ("NodeCount", 0)),
        ([0, 1, 2], [1, 0], 1, ("WeightCount", 1)),
        ([1, 1, 2], [1, 0], 0, ("Offsets", 0)),
        ([0, 2, 1], [0], 0, ("Offsets", 1)),
        ([0, 1, 3], [1, 0], 0, ("Offsets", 2)),
        ([0, 1, 2], [1, 2], 0, ("Neighbour", 1)),
    ]:
        assert _by_programs.first_fault_of_lists(offsets, neighbours, weights) == found, (offsets, neighbours, weights)


def test_arrays_of_numpy_are_read_back():
    values = _calls.array("I", [0, 7, 4294967295])
    assert _packed.values_in(_packed.column(values)) == values


def test_programs_answer_what_the_library_answers():
    """Texts and lists by the programs, beside the back end that the package chooses."""
    programs, chosen = _by_programs.Programs(), _calls.backend()
    texts = _calls.Texts(SWAP.encode(), PAIR)
    late = texts._replace(report=b"round 7\n0 s=1\n1 s=2\n", schedule=b"read 0 0\nwrite 0\n")
    for ask in (
        lambda it: it.check(DISTANCE.encode()),
        lambda it: it.sizes(texts),
        lambda it: it.lockstep(late, 8, 2),
        lambda it: it.watch(texts, [], 0),
        lambda it: it.watch(texts, [0, 1, 2, 5], 8),
        lambda it: it.watch(late, [7, 20], 4),
        lambda it: it.settle(texts, 9),
        lambda it: it.replay(late, 9, (0, 0, 0)),
        lambda it: it.why(_calls.LOCKSTEP, texts, 5),
    ):
        assert ask(programs) == ask(chosen)


def outcome(call):
    """What a call answers, or all that its exception tells."""
    try:
        return call()
    except (unison.UnisonError, UnicodeError) as error:
        return type(error), str(error), getattr(error, "number", None), getattr(error, "place", None)


def expansions():
    """Models, whole and refused, with constants that are set, whole and refused."""
    for path in sorted((EXAMPLES / "models").glob("*.model")):
        text = path.read_bytes()
        names = model.CONSTANT.findall(text.decode())
        yield text, {}
        yield text, {"seed": 4294967295}
        yield text, {name: place + 1 for place, name in enumerate(names)}
        yield text, {name: place + 1 for place, name in reversed([*enumerate(names)])}
        yield text, {**dict.fromkeys(names, 7), "none_such": 1}
        yield text[: len(text) // 2], {}
    steps = b"const step = 2;\nfield s = step;\nnext s = s + step;\n"
    for name in ("s", "", "step\r", "step\nseed", "\n", "ste", "schritt\xfc", "\udcff", "a=b", "-h"):
        yield steps, {name: 3}
        yield steps, {"step": 5, name: 3}
    yield b"#" * 65536, {}
    yield b"#" * 65537, {}
    yield b"#" * 65537, {"none_such": 1}
    yield b"\xff", {}
    yield b"field s = 0; # \xff\0", {}
    yield "".join(f"field f{place} = 0;\n" for place in range(9)).encode(), {}


def test_models_are_expanded_alike():
    """The text of the program, or all that is told of the fault."""
    programs, chosen = _by_programs.Programs(), _calls.backend()
    for text, constants in expansions():
        found, wanted = (outcome(lambda: it.expand(text, constants, "a b.model")) for it in (chosen, programs))
        assert found == wanted, (text, constants)


def test_lists_by_programs_are_texts_by_programs():
    """The same random networks as lists and as texts, from round 0 and from a later one."""
    draws, programs = random.Random(5), _by_programs.Programs()
    rule = unison.Program("field a = 1; field b = 2; next a = ((total n.b + id) % 1009); next b = (a + (round + most n.a));")
    for _ in range(3):
        nodes = draws.randint(2, 9)
        links = [(one, other) for one in range(nodes) for other in range(one) if draws.random() < 0.5]
        network = unison.Network(nodes, links, set={"a": {0: 5}})
        text = _calls.Texts(rule.text, network._bytes)
        lists = unison._lists.lists_of(network)
        wanted = programs.watch(text, [0, 3, 4, 5], 0).words
        start = _calls.Start(lists, 0, lists._initial_words(rule))
        assert programs.large_watch(rule, start, [0, 3, 4, 5]) == wanted
        third = _calls.Start(lists, 3, wanted[2 * nodes : 4 * nodes])
        programs.large_rounds(rule, third, 5)
        assert third.words == wanted[6 * nodes :]
        counts = programs.large_counts(rule, start, [0, 3], "a", [1, 5])
        column = [wanted[place : 2 * nodes + place : 2] for place in (0, 2 * nodes)]
        assert list(counts) == [number for rows in column for number in (rows.count(1), rows.count(5), nodes - rows.count(1) - rows.count(5))]
