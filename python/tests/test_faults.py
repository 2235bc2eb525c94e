"""Each fault by its number, part, name and place, and what is told of it."""

import itertools
import re

from support import DISTANCE, IS_LIBRARY, ROOT, SWAP, library_alone, raised, skip

import unison
from unison import faults

PAIR = "nodes = 2\nlinks = [[0, 1]]\n"


def lockstep(program, network, rounds=0, **how):
    return lambda: unison.lockstep(unison.Program(program), unison.Network.from_text(network), rounds, **how)


def replay(schedule, stop=10, **how):
    return lambda: unison.replay(unison.Program(SWAP), unison.Network.from_text(PAIR), schedule, stop, **how)


def settle(program, limit, **how):
    return lambda: unison.settle(unison.Program(program), unison.Network.from_text(PAIR), limit, **how)


def watch(rounds, **how):
    return lambda: unison.watch(unison.Program(SWAP), unison.Network.from_text(PAIR), rounds, **how)


def program(text):
    return lambda: unison.Program(text)


def model(text, **constants):
    return lambda: unison.Model(text, constants)


def network(text):
    return lambda: unison.Network.from_text(text)


def file(text):
    """A text that is refused as a network file, and that Python keeps as arrays."""

    def call():
        raise unison.first_fault("", text)

    return call


EIGHT = "".join(f"field f{number} = 0; " for number in range(8))
LATER = "round 7\n0 s=1\n1 s=2\n"

#: The number of a fault, what is refused with it, where, and the beginning of what is told.
CASES = [
    (4, watch([3, 3]), None, "watch: rounds[1] is 3: a round above 3, which stands before it, is wanted (run NotRising)"),
    (16, program("#" * 65537), (1, 65537), "program:1:65537: program TooLong: the text has more than 65536 bytes\n"),
    (17, program("field s = 1.5;"), (1, 12), "program:1:12: program Lex: found `.`, with which nothing begins\n  1 | field s = 1.5;\n"),
    (18, program("field s = 0;\nnext s = (s + 1;"), (2, 16), "program:2:16: program Syntax: expected `)`, found `;`\n  2 | next s = (s + 1;\n"),
    (32, program(EIGHT + "field late = 0;"), (1, 119), "program:1:119: program TooManyFields: "),
    (33, program("field s = 0;\nfield s = 1;"), (2, 7), "program:2:7: program FieldTwice: "),
    (34, program("field s = 0;\nnext s = 1;\nnext s = 2;"), (3, 6), "program:3:6: program NextTwice: "),
    (35, program("field dist = 0;\nnext dist = dits;"), (2, 13), "program:2:13: program UnknownName: "),
    (36, program("field s = 0;\nnext s = n.s;"), (2, 10), "program:2:10: program NeighbourOutside: "),
    (37, program("field s = 0;\nnext s = any (1 + any n.s);"), (2, 19), "program:2:19: program NestedAggregate: "),
    (38, program("field s = 0; next s = " + "(any 1 + " * 16 + "any 1" + ")" * 16 + ";"), (1, 167), "program:1:167: program TooManyAggregates: "),
    (48, network("nodes = 3\nlinks = [[0, 1]\n"), None, "network:"),
    (49, network("node = 3\nlinks = []\n"), (1, 1), "network:1:1: network UnknownKey: "),
    (50, network("nodes = 2\nlinks = []\nphase = \"1\"\n"), (3, 9), "network:3:9: network BadShape: `phase` is no whole number\n"),
    (51, network("nodes = 0\nlinks = []\n"), (1, 9), "network:1:9: network NodeCount: there are 0 nodes\n  1 | nodes = 0\n"),
    (51, file("nodes = 65537\nlinks = []\n"), (1, 9), "network:1:9: network NodeCount: there are 65537 nodes\n"),
    (52, network("nodes = 3\nlinks = [[0, 1], [1, 3]]\n"), (2, 18), "network:2:18: network BadLink: link 1, [1, 3], has an end that is no node\n"),
    (53, lambda: unison.Network(3, [(0, 1), (2, 2)]), (3, 5), "network:3:5: network SelfLink: link 1, [2, 2], joins a node with itself\n"),
    (54, lambda: unison.Network(3, [(0, 1), (1, 0, 5)]), (3, 5), "network:3:5: network LinkTwice: link 1, [1, 0, 5], joins the same nodes as link 0, [0, 1]\n"),
    (55, file(f"nodes = 725\nlinks = {[[*ends] for ends in itertools.combinations(range(725), 2)]}\n"), None, "network"),
    (56, file(f"nodes = 4098\nlinks = {[[0, node] for node in range(1, 4098)]}\n"), None, "network"),
    (57, network("nodes = 2\nlinks = []\nphase = 3\n"), (3, 9), "network:3:9: network BadPhase: the phase is 3\n"),
    (58, network("nodes = 2\nlinks = [[0, 1, -1]]\n"), (2, 10), "network:2:10: network BadWeight: link 0, [0, 1, -1], has no weight from 0 to 4294967295\n"),
    (64, lockstep(DISTANCE, PAIR + "[set]\ndits = [[0, 1]]\n"), (4, 1), "network:4:1: plan UnknownField: `dits` in `set` is no field of the program\n"),
    (65, network("nodes = 3\nlinks = []\n[set]\ndist = [[0, 1], [3, 1]]\n"), None, "network:"),
    (66, network("nodes = 3\nlinks = []\n[set]\ndist = [[0, -1]]\n"), None, "network:"),
    (67, network("nodes = 3\nlinks = []\n[set]\ndist = [[0, 1], [1, 1], [0, 2]]\n"), (4, 25), "network:4:25: plan SetTwice: "),
    (80, lockstep(SWAP, PAIR, 1000000001), None, "lockstep: rounds is 1000000001: "),
    (80, watch([1, 1000000001]), None, "watch: rounds[1] is 1000000001: "),
    (81, lockstep(SWAP, PAIR, 6, from_=LATER), None, "run RoundsBelowStart: round 6 was asked for, and the report to go on from is of round 7\n"),
    (81, watch([6, 8], from_=LATER), None, "run RoundsBelowStart: round 6 was asked for, and the report to go on from is of round 7\n"),
    (96, replay("read 0 0\nwrite x\n"), (2, 7), "schedule:2:7: schedule BadLine: "),
    (97, replay("write 0\n" * 1000001), None, "schedule"),
    (98, replay("", stop=1000000001), None, "replay: stop is 1000000001: "),
    (99, replay("", stop=6, from_=LATER), None, "run StopBelowStart: round 6 was asked for, and the report to go on from is of round 7\n"),
    (112, lockstep(SWAP, PAIR, 9, from_="round 7\n0 s=1\n"), (3, 1), "report:3:1: report BadLine: a line is missing: the text ends here\n"),
    (113, lockstep(SWAP, PAIR, 9, from_="round 1000000001\n0 s=1\n1 s=2\n"), (1, 7), "report:1:7: report TooManyRounds: the round of the report is above 1000000000\n"),
    (128, settle("field s = 0; next s = round;", 9), None, "program ReadsRound: the program reads the number of the round, so that"),
    (129, settle(SWAP, 1000000001), None, "settle: limit is 1000000001: "),
    (130, settle(SWAP, 6, from_=LATER), None, "run LimitBelowStart: the limit lies before the round of the report"),
    (144, lambda: unison.Network.from_arrays([0], []), None, "indptr: lists NodeCount: found 1 entries"),
    (145, lambda: unison.Network.from_arrays([0, 2, 1], [0]), None, "indptr[2]: lists Offsets: found 1, expected 2 or more"),
    (147, lambda: unison.Network.from_arrays([0, 1], [1]), None, "indices[0]: lists Neighbour: found 1, expected a node"),
    (148, lambda: unison.Network.from_arrays([0, 2], [0, 0], [7]), None, "weights: lists WeightCount: found 1, expected one for each of the 2"),
    (160, model("#" * 65537), None, "model TooLong\ntext.model: a model has 65536 bytes at most"),
    (161, model("field s = 0;\nnext s = !s;"), (2, 10), "model Lex\ntext.model:2:10: found `!`, with which nothing begins\n"),
    (162, model("field s = 0;\nnext s := 1;"), (2, 8), "model Syntax\ntext.model:2:8: expected `=`, found `:`\n"),
    (163, model(EIGHT + "field late = 0;"), (1, 119), "model TooManyFields\n"),
    (164, model(f"states many {{ {', '.join(f's{place}' for place in range(257))} }}"), None, "model TooManyStates\n"),
    (165, model("const a = 1;\nconst a = 2;"), (2, 7), "model NameTwice\n"),
    (166, model("field s = 0;\nnext s = 1;\nnext s = 2;"), (3, 6), "model NextTwice\n"),
    (167, model("field s = 0;\nnext t = 1;"), (2, 6), "model NoField\n"),
    (168, model("field s: light = 0;"), (1, 10), "model UnknownStates\n"),
    (169, model("field s = 0;", x=1), None, "model UnknownGiven\ntext.model: --const: the model has no constant `x`"),
    (170, model("field s = 0;\nnext s = what;"), (2, 10), "model UnknownName\ntext.model:2:10: nothing is called `what`\n"),
    (171, model("field s = 0;\nnext s = total(n.t);"), (2, 16), "model UnknownNear\ntext.model:2:16: no field and no let is called `t`\n"),
    (172, model("field s = 0;\nlet f(x) = x;\nnext s = f;"), (3, 10), "model WrongCount\n"),
    (173, model("field s = 0;\nnext s = difference(s);"), (2, 10), "model WrongArguments\n"),
    (174, model("field s = 0;\nnext s = n.s + 1;"), (2, 10), "model NeighbourOutside\n"),
    (175, model("field s = 0;\nnext s = total(count(n.s));"), (2, 16), "model NestedAggregate\n"),
    (176, model("field s = 0;\nlet d = degree;\nnext s = total(n.d);"), (3, 16), "model NotSeen\n"),
    (177, model("field s = 0;\nlet a = a + 1;"), (2, 9), "model Ring\n"),
    (178, model("const a = 1 == 1;"), (1, 7), "model NotConstant\n"),
    (179, model("const a = 1 - 2;"), (1, 7), "model OutOfRange\n"),
    (180, model("states cell { dead, alive }\nfield s: cell = 2;"), (2, 7), "model NoState\n"),
    (181, model("field s = 0;\nnext s = " + "1 + " * 70 + "s;"), (2, 6), "model TooDeep\n"),
    (182, model("field s = 0;\nnext s = " + "total(n.s) + " * 16 + "total(n.s);"), (2, 6), "model TooManyAggregates\n"),
]  # fmt: skip


#: Numbers of faults whose texts are so long that quick programs need minutes for them.
LONG = {55, 56, 97}


def test_each_fault_has_its_number_name_and_place():
    for number, call, place, told in (case for case in CASES if IS_LIBRARY or case[0] not in LONG):
        part, name = faults.FAULTS[number]
        error = raised(faults.KINDS[part], call)
        assert (error.number, error.part, error.name) == (number, part, name), error
        assert str(error).startswith(told), f"{error}\nand not\n{told}"
        assert place is None or error.place == place, f"{error}: {error.place}"
        assert f"{part} {name}" in str(error).partition("\n")[0], error


def test_each_number_is_met():
    """All but Memory and Room, which are other things to Python, the three that no call of the package can have, those of parts, which it
    does not call, that of a node with more than 4,294,967,295 neighbours, which would take 16 GiB, and those of names and values that do not
    go together, of which the program that expands models tells."""
    assert {number for number, *_ in CASES} | {3, 5, 146, 149, 150, 151, 152, 153, 192, 193, 194} == set(faults.FAULTS)


def test_the_numbers_are_those_of_the_header():
    header = ROOT / "library" / "unison.h"
    if not header.is_file():
        skip("there is no library/unison.h")
    enum = re.search(r"enum unison_fault \{(.*?)\};", header.read_text(), re.DOTALL)[1]
    there = {int(number): name for name, number in re.findall(r"UNISON_(\w+) = (\d+)", enum)}
    assert (there.pop(1), there.pop(2)) == ("MEMORY", "ROOM")
    assert set(there) == set(faults.FAULTS)
    for number, (part, name) in faults.FAULTS.items():
        words = re.sub("(?<!^)([A-Z])", r"_\1", name).upper()
        assert there[number] in (words, f"{part.upper()}_{words}"), number


def test_faults_are_value_errors_of_unison():
    error = raised(unison.ProgramError, program("field"))
    assert isinstance(error, unison.UnisonError) and isinstance(error, ValueError)
    assert error.diagnosis.startswith("program:1:6: program Syntax: expected a name, found the end of the text\n  1 | field\n")
    assert str(error) == error.diagnosis.rstrip("\n")


def test_a_diagnosis_says_what_to_do():
    """Whole texts, as `unison why` tells them."""
    error = raised(unison.ProgramError, program("field s = 0;\nnext s = (s + 1;\n"))
    assert error.diagnosis == (
        "program:2:16: program Syntax: expected `)`, found `;`\n"
        "  2 | next s = (s + 1;\n"
        "    |                ^\n"
        "  an operator stands between two parts in brackets: (A + B)\n"
    )
    error = raised(unison.NetworkError, network("nodes = 3\nlinks = [[0, 1], [2, 2]]\n"))
    assert error.diagnosis == (
        "network:2:18: network SelfLink: link 1, [2, 2], joins a node with itself\n"
        "  2 | links = [[0, 1], [2, 2]]\n"
        "    |                  ^\n"
        "  leave it out: a node always reads its own state\n"
    )


def test_why_without_a_fault():
    assert unison.why(DISTANCE) == "nothing is wrong\n"
    assert unison.why(unison.Program(DISTANCE)) == "nothing is wrong\n"
    path = unison.Network(3, [(0, 1), (1, 2)], set={"dist": {0: 0}})
    assert unison.why(DISTANCE, path, rounds=5) == "nothing is wrong\n"
    assert unison.why(DISTANCE, path.text, schedule="write 0\n", stop=5) == "nothing is wrong\n"
    assert unison.why(DISTANCE, path, rounds=1, from_="round 1\n0 dist=0\n1 dist=1\n2 dist=9\n") == "nothing is wrong\n"


def test_why_tells_the_first_fault_of_texts():
    assert unison.why(b"field").startswith("program:1:6: program Syntax: ")
    assert unison.why(DISTANCE, "nodes = 0\nlinks = []\n").startswith("network:1:9: network NodeCount: ")
    assert unison.why("field", "nodes = 0\n").startswith("program:1:6: program Syntax: ")
    assert unison.why(DISTANCE, PAIR, rounds=1000000001).startswith("run TooManyRounds: ")
    assert unison.why(DISTANCE, PAIR, schedule="move 0\n", stop=5).startswith("schedule:1:1: schedule BadLine: ")
    assert unison.why(DISTANCE, PAIR, rounds=5, from_="round 07\n").startswith("report:1:")


def test_the_first_fault_has_its_number():
    """With its number, its kind and its place, and not raised."""
    late = "round 7\n0 dist=0\n1 dist=1\n"
    cases = [
        (18, (1, 6), lambda: unison.first_fault("field")),
        (18, (1, 6), lambda: unison.first_fault("field", "nodes = 0\n")),
        (51, (1, 9), lambda: unison.first_fault(DISTANCE, "nodes = 0\nlinks = []\n")),
        (64, (4, 1), lambda: unison.first_fault(DISTANCE, PAIR + "[set]\ndits = [[0, 1]]\n", rounds=3)),
        (80, None, lambda: unison.first_fault(DISTANCE, PAIR, rounds=1000000001)),
        (81, None, lambda: unison.first_fault(DISTANCE, PAIR, rounds=6, from_=late)),
        (96, (1, 1), lambda: unison.first_fault(DISTANCE, PAIR, schedule="move 0\n", stop=5)),
        (98, None, lambda: unison.first_fault(DISTANCE, PAIR, schedule="", stop=1000000001)),
        (99, None, lambda: unison.first_fault(DISTANCE, PAIR, schedule="", stop=6, from_=late)),
        (112, (3, 1), lambda: unison.first_fault(DISTANCE, PAIR, rounds=9, from_="round 7\n0 dist=1\n")),
        (113, (1, 7), lambda: unison.first_fault(DISTANCE, PAIR, rounds=9, from_="round 1000000001\n0 dist=1\n1 dist=2\n")),
    ]
    for number, place, find in cases:
        error, (part, name) = find(), faults.FAULTS[number]
        assert type(error) is faults.KINDS[part], error
        assert (error.number, error.part, error.name, error.place) == (number, part, name, place), error
        assert f"{part} {name}" in error.diagnosis.partition("\n")[0], error


def test_there_is_no_first_fault_where_nothing_is_wrong():
    assert unison.first_fault(DISTANCE) is None
    assert unison.first_fault(unison.Program(DISTANCE), PAIR, rounds=5) is None
    assert unison.first_fault(DISTANCE, unison.Network.from_text(PAIR), schedule="write 0\n", stop=5) is None
    assert unison.first_fault(DISTANCE, schedule="no schedule", rounds=1000000001) is None, "a program alone is looked at by itself"
    assert unison.first_fault("field s = 0; next s = round;", PAIR, rounds=5) is None


def test_first_faults_are_those_that_are_raised():
    """The exception of a call on made texts, and `first_fault` of the same texts."""
    cases = [
        (unison.RunError, PAIR, 6, LATER),
        (unison.ReportError, PAIR, 9, "round 7\n0 s=1\n"),
        (unison.PlanError, PAIR + "[set]\nt = [[0, 1]]\n", 1, None),
    ]
    for kind, text, rounds, from_ in cases:
        error = raised(kind, lockstep(SWAP, text, rounds, from_=from_))
        found = unison.first_fault(SWAP, text, rounds=rounds, from_=from_)
        assert (type(found), found.number, str(found)) == (kind, error.number, str(error))


def test_long_names_are_told_whole_or_cut_as_the_library_does():
    """What is told needs more room than is made at first, or the library shortens it: the package takes either."""
    library_alone("a name of 20,000 letters takes quick programs a minute")
    name = "x" * 20000
    assert "UnknownName" in unison.why(f"field {name} = 0; next {name} = {name}y;")
