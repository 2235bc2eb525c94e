#!/usr/bin/env python3
"""The worked values of the pages, the faults in their order, and the reports of the examples. Run by `python3 reference/test_unison.py`."""

import itertools
import random
import re
import subprocess
import sys
import tempfile
import unittest
from pathlib import Path
from unittest import mock

sys.dont_write_bytecode = True
sys.path.insert(0, str(Path(__file__).resolve().parent))
import unison  # noqa: E402

TOP = Path(__file__).resolve().parent.parent
EXAMPLES = TOP / "examples"
M = 4294967295
ONE = "nodes = 1\nlinks = []\n"
PAIR = "nodes = 2\nlinks = [[0, 1]]\n"
PATH = "nodes = 3\nlinks = [[0, 1], [1, 2]]\n"
SWAP = "field s = 0; next s = total n.s;"


def plan(program, network, report=None):
    """The plan of texts."""
    texts = {"program": program.encode(), "network": network.encode()}
    return unison.plan_of(texts | ({} if report is None else {"from": report.encode()}))


def states(program, network, rounds):
    """The states after so many rounds, each as the list of its values."""
    return [list(state.values()) for state in unison.lockstep(plan(program, network), rounds)]


def report(program, network, rounds):
    return unison.report_text(rounds, unison.lockstep(plan(program, network), rounds))


def replay(program, network, schedule, stop):
    return unison.replay_text(plan(program, network), unison.read_schedule(schedule.encode()), stop)


def fault_of(call, *arguments):
    """The fault line of a call without its first word, or None where it returns."""
    try:
        call(*arguments)
    except unison.Fault as fault:
        return fault.line.removeprefix("fault: ")
    return None


def program_fault(text):
    return fault_of(lambda: unison.check(unison.read_items(text if isinstance(text, bytes) else text.encode())))


def canonical(text):
    return unison.canonical_text(unison.read_items(text.encode()))


class Tokens(unittest.TestCase):
    """language.md, Tokens."""

    def test_longest_token(self):
        for text, tokens in [
            (b"12ab", [("number", 12), ("word", "ab")]),
            (b"n n.s xn", [("word", "n"), ("near", "s"), ("word", "xn")]),
            (b"007", [("number", 7)]),
            (b"<=<==>>===!=", [("sign", sign) for sign in ["<=", "<=", "=", ">", ">=", "==", "!="]]),
            (b"a#\xff !.\n\r\tb # end", [("word", "a"), ("word", "b")]),
            (b"", []),
        ]:
            self.assertEqual(unison.tokens_of(text), tokens, text)

    def test_faults(self):
        for text in [b"!", b"a ! = b", b".", b"xn.s", b"n.1", b"n. s", b"n.n.s", b"4294967296", b"@", b"\xff", b"_a", b"'", b"a\x0bb"]:
            self.assertEqual(fault_of(unison.tokens_of, text), "program Lex", text)
        self.assertEqual(unison.tokens_of(b"0" * 9999 + b"4294967295"), [("number", M)])


class Grammar(unittest.TestCase):
    """language.md, Grammar and Canonical spelling."""

    def test_canonical_spelling(self):
        self.assertEqual(canonical("field  s=007;#x\nnext s=(s+not s);"), "field s = 7;\nnext s = (s + not s);\n")
        self.assertEqual(canonical(" # nothing"), "")
        for text in sorted(EXAMPLES.glob("*.rules")):
            spelled = canonical(text.read_text())
            self.assertEqual(canonical(spelled), spelled)

    def test_reserved_words_and_names(self):
        words = "field next id degree not min max total least most count any all if then else round weight"
        for word in words.split():
            self.assertEqual(program_fault(f"field {word} = 0;"), "program Syntax", word)
            if word not in ("id", "weight"):
                self.assertEqual(program_fault(f"field a = 0; next a = any n.{word};"), "program Syntax", word)
        self.assertIsNone(program_fault("field n = 1; field Id = 2; field n1_ = 3; next n = any n.n;"))

    def test_brackets(self):
        for text in ["(s)", "s + 1", "(s + 1 + 2)", "((s + 1)", "(s + 1))", "any(n.s)", "not", "if s then 1", "-1", "(s = 1)", "", "(s n.min s)"]:
            self.assertEqual(program_fault(f"field s = 0; next s = {text};"), "program Syntax", text)
        for text in ["any (n.s + 1)", "not not s", "if s then 1 else if s then 2 else 3", "any not n.s", "(s min s)"]:
            self.assertIsNone(program_fault(f"field s = 0; next s = {text};"), text)
        for text in ["field s = 0", "field s = (0);", "field s = s;", "next = 1;", "s = 1;", "; field s = 0;", "field s = 0;;"]:
            self.assertEqual(program_fault(text), "program Syntax", text)

    def test_depth(self):
        for form in ["not {}", "({} + 1)", "(1 + {})", "if {} then 1 else 2", "if 1 then {} else 2", "if 1 then 2 else {}"]:
            text = "1"
            for _ in range(63):
                text = form.replace("{}", text)
            self.assertIsNone(program_fault(f"field s = 0; next s = {text};"), form)
            self.assertEqual(program_fault(f"field s = 0; next s = {form.replace('{}', text)};"), "program Syntax", form)
        self.assertIsNone(program_fault("field s = 0; next s = any " + "not " * 62 + "n.s;"))
        self.assertEqual(program_fault("field s = 0; next s = any " + "not " * 63 + "n.s;"), "program Syntax")

    def test_length(self):
        self.assertIsNone(program_fault(b"#" * 65536))
        self.assertEqual(program_fault(b"#" * 65537), "program TooLong")
        self.assertEqual(program_fault(b"!" * 65537), "program TooLong")
        self.assertEqual(program_fault("field ( !"), "program Lex")


class WellFormed(unittest.TestCase):
    """language.md, Well-formed programs."""

    CAUSES = [
        ("Syntax", "field e = ;"),
        ("TooManyFields", "".join(f"field f{number} = 0; " for number in range(5))),
        ("FieldTwice", "field a = 1;"),
        ("NextTwice", "next a = 1; next a = 2;"),
        ("UnknownName", "next b = any n.unknown;"),
        ("NeighbourOutside", "next c = (any n.a + n.weight);"),
        ("NestedAggregate", "next d = total not (1 + least n.a);"),
        ("TooManyAggregates", "next g = " + "(any 1 + " * 16 + "any 1" + ")" * 16 + ";"),
    ]
    FIELDS = "field a = 0; field b = 0; field c = 0; field d = 0; field g = 0;"

    def test_each_cause_and_their_order(self):
        for place, (name, text) in enumerate(self.CAUSES):
            self.assertEqual(program_fault(self.FIELDS + text), f"program {name}")
            later = [text for _, text in self.CAUSES[place:]]
            self.assertEqual(program_fault(" ".join(reversed([self.FIELDS] + later))), f"program {name}")

    def test_limits(self):
        self.assertIsNone(program_fault("".join(f"field f{number} = 0;" for number in range(8))))
        self.assertIsNone(program_fault("field s = 0; next s = " + "(any 1 + " * 15 + "any 1" + ")" * 15 + ";"))
        self.assertEqual(program_fault("next s = 1;"), "program UnknownName")
        self.assertEqual(program_fault("field s = 0; next s = any t;"), "program UnknownName")
        self.assertEqual(program_fault("field s = 0; next s = n.s;"), "program NeighbourOutside")


class Values(unittest.TestCase):
    """language.md, Values."""

    # Node 1 between node 0 (s 7, weight 4) and node 2 (s 0, weight 9), in the step from round 6; its own s is 5.
    NETWORK = "nodes = 3\nlinks = [[0, 1, 4], [2, 1, 9]]\n[set]\ns = [[0, 7], [2, 0], [1, 5]]\n"

    def value(self, expression):
        program = plan(f"field s = 0; field x = 0; next x = {expression};", self.NETWORK)
        program.start = 6
        return unison.lockstep(program, 7)[1]["x"]

    def test_operators(self):
        for expression, expected in [
            ("(3 + 4)", 7), (f"({M} + 1)", M), (f"({M} + {M})", M), ("(3 * 4)", 12), ("(65536 * 65536)", M), ("(65536 * 65535)", 4294901760),
            ("(3 - 5)", 0), ("(5 - 3)", 2), ("(7 / 2)", 3), ("(7 / 0)", 0), ("(7 % 4)", 3), ("(7 % 0)", 7), ("(1 & 2)", 0), ("(6 & 3)", 2),
            ("(6 | 3)", 7), ("(6 ^ 3)", 5), ("(1 == 1)", 1), ("(1 == 2)", 0), ("(1 != 1)", 0), ("(1 != 2)", 1), ("(1 < 2)", 1), ("(2 < 2)", 0),
            ("(2 <= 2)", 1), ("(3 <= 2)", 0), ("(3 > 2)", 1), ("(2 > 2)", 0), ("(2 >= 2)", 1), ("(1 >= 2)", 0), ("(3 min 4)", 3), ("(3 max 4)", 4),
            ("not 0", 1), ("not 7", 0), ("if 2 then 8 else 9", 8), ("if 0 then 8 else 9", 9), ("(1 min 2)", 1), ("(0 max 2)", 2),
        ]:
            self.assertEqual(self.value(expression), expected, expression)

    def test_leaves_and_aggregates(self):
        for expression, expected in [
            ("s", 5), ("id", 1), ("degree", 2), ("round", 6), ("total n.s", 7), ("total n.id", 2), ("total n.weight", 13), ("total id", 2),
            ("total s", 10), ("total round", 12), ("total degree", 4), (f"total {M}", M), ("least n.s", 0), ("least (n.s + 3)", 3),
            ("most n.weight", 9), ("count n.s", 1), ("count 1", 2), ("count 0", 0), ("count (n.s + 8)", 2), ("any n.s", 1), ("any 0", 0),
            ("all n.s", 0), ("all n.weight", 1), ("total (n.weight * (n.id == 2))", 9),
        ]:
            self.assertEqual(self.value(expression), expected, expression)

    def test_without_neighbours(self):
        for word, expected in [("total", 0), ("least", M), ("most", 0), ("count", 0), ("any", 0), ("all", 1)]:
            self.assertEqual(states(f"field s = 3; next s = {word} n.s;", ONE, 1), [[expected]], word)
        self.assertEqual(states("field s = 3; next s = degree;", ONE, 1), [[0]])
        self.assertEqual(states("field dist = 3; next dist = (dist min least (n.dist + 1));", ONE, 1), [[3]])


class Worked(unittest.TestCase):
    """language.md, the first example and Worked examples; formats.md and docs/commands, their reports."""

    def test_language_page(self):
        two = PAIR + "[set]\ns = [[0, 5], [1, 7]]\n"
        self.assertEqual([states(SWAP, two, 1), states(SWAP, two, 2)], [[[7], [5]], [[5], [7]]])
        four = "next a = (7 / 0); next b = (7 % 0); next c = (3 - 5); next d = (65536 * 65536);"
        self.assertEqual(states("field a = 9; field b = 9; field c = 9; field d = 9; " + four, ONE, 1), [[0, 7, 0, M]])
        three = "field s = 0; field a = 5; field t = 5; next s = least n.s; next a = all n.s; next t = total n.s;"
        self.assertEqual(states(three, ONE, 1), [[M, 1, 0]])
        self.assertEqual([states("field s = 0; next s = (s + round);", ONE, t)[0][0] for t in range(1, 5)], [0, 1, 3, 6])
        self.assertEqual(report("next b = a; field a = 3; field b = 9; next a = b;", ONE, 1), "round 1\n0 a=9 b=3\n")
        self.assertEqual(report("", PAIR, 12), "round 12\n0\n1\n")
        self.assertEqual(report("field s = 4;", ONE, 9), "round 9\n0 s=4\n")
        self.assertEqual(replay("", PAIR, "read 0 0\nwrite 0\n", 3), "0 moves 1\n1 moves 0\n")

    def test_formats_page(self):
        page = (TOP / "docs/formats.md").read_text()
        network = indented(page, "    nodes = 3")
        self.assertEqual(report((EXAMPLES / "distance.rules").read_text(), network, 2), indented(page, "    round 2"))
        schedule = indented(page, "    read 0 0")
        self.assertEqual(schedule, (EXAMPLES / "schedules/ahead.txt").read_text())
        self.assertEqual(replay(SWAP, (EXAMPLES / "pair.toml").read_text(), schedule, 10), indented(page, "    0 moves 1 s=7"))

    def test_command_pages(self):
        """docs/commands: each command of the five on its page, and what the page shows of it; but where it has options that are not of the five,
        which another program answers."""
        seen = 0
        with tempfile.TemporaryDirectory() as folder:
            for name in ("check", "lockstep", "run", "replay", "compare"):
                page = (TOP / "docs/commands" / f"{name}.md").read_text()
                lines = re.findall(r"^    (?:\$ )?./unison ((?:check|lockstep|run|replay|compare) .*)\n((?:    (?!\$ |\./).*\n)*)", page, re.MULTILINE)
                for line, shown in lines:
                    words, _, into = line.partition(" > ")
                    if set(re.findall(r"--[a-z-]+", words)) - {"--rounds", "--stop", "--workers", "--trace", "--from"}:
                        continue
                    words = [str(TOP / word) if word.startswith("examples/") else word for word in words.split()]
                    words = [f"{folder}/{word}" if word in ("steps.txt", "report.txt") else word for word in words]
                    status, printed, told = unison.answer(words)
                    self.assertEqual((status, told), (0, ""), line)
                    if into:
                        Path(folder, into).write_text(printed)
                    if shown:
                        self.assertEqual(printed, re.sub("^    ", "", shown, flags=re.MULTILINE), line)
                    seen += 1
        self.assertGreaterEqual(seen, 8)

    def test_stays_as_it_is(self):
        program = (EXAMPLES / "distance.rules").read_text()
        network = (EXAMPLES / "path.toml").read_text()
        self.assertEqual(states(program, network, 1000000000), [[0], [1], [2]])


def indented(page, first):
    """The indented block of a page that begins with this line, without the indent."""
    lines = itertools.takewhile(lambda line: line.startswith("    "), page[page.index("\n" + first + "\n") + 1 :].split("\n"))
    return "".join(line[4:] + "\n" for line in lines)


class Examples(unittest.TestCase):
    """Each report in examples/reports, by the commands of examples/check."""

    def answered(self, *words):
        status, printed, told = unison.answer([str(word) for word in words])
        self.assertEqual((status, told), (0, ""), words)
        return printed

    def test_every_report_is_looked_at(self):
        looked_at = sum(1 for path in EXAMPLES.glob("reports/*.txt") if re.fullmatch(r"(\w+-\w+-\d+|replay-\w+-\w+-\w+)", path.stem))
        self.assertEqual(looked_at, len(list(EXAMPLES.glob("reports/*.txt"))))
        self.assertGreaterEqual(looked_at, 27)

    def test_lockstep(self):
        for path in sorted(EXAMPLES.glob("reports/*.txt")):
            if path.stem.startswith("replay-"):
                continue
            program, network, rounds = path.stem.rsplit("-", 2)
            files = [EXAMPLES / f"{program}.rules", EXAMPLES / f"{network}.toml"]
            self.assertEqual(self.answered("lockstep", *files, "--rounds", rounds), path.read_text(), path)
            self.gone_on(files, int(rounds), path.read_text())
            self.replayed(files, int(rounds), path.read_text())

    def gone_on(self, files, rounds, expected):
        """The round before, saved and gone on from."""
        if rounds == 0:
            return
        with tempfile.TemporaryDirectory() as folder:
            before = Path(folder, "before")
            before.write_text(self.answered("lockstep", *files, "--rounds", rounds - 1))
            self.assertEqual(self.answered("lockstep", *files, "--rounds", rounds, "--from", before), expected)

    def replayed(self, files, rounds, expected):
        """A trace is replayed to the round's states, each node having moved so often."""
        with tempfile.TemporaryDirectory() as folder:
            trace = Path(folder, "trace")
            printed = self.answered("run", *files, "--rounds", rounds, "--workers", 2, "--trace", trace)
            ends = re.sub(r"(?m)^(\d+)", rf"\1 moves {rounds}", expected.split("\n", 1)[1])
            self.assertEqual(printed, expected)
            self.assertEqual(self.answered("replay", *files, trace, "--stop", rounds), ends)

    def test_replay(self):
        for path in sorted(EXAMPLES.glob("reports/replay-*.txt")):
            _, program, network, schedule = path.stem.split("-")
            files = [EXAMPLES / f"{program}.rules", EXAMPLES / f"{network}.toml", EXAMPLES / f"schedules/{schedule}.txt"]
            self.assertEqual(self.answered("replay", *files, "--stop", 10), path.read_text(), path)


class Networks(unittest.TestCase):
    """formats.md, Network file."""

    def fault(self, text):
        return fault_of(unison.read_network, text if isinstance(text, bytes) else text.encode())

    def test_shapes(self):
        for text in [
            "links = []", "nodes = 1", "nodes = 1.0\nlinks = []", "nodes = true\nlinks = []", "nodes = [1]\nlinks = []", "nodes = 1\nlinks = {}",
            "nodes = 2\nlinks = [[0]]", "nodes = 2\nlinks = [[0, 1, 2, 3]]", "nodes = 2\nlinks = [0, 1]", "nodes = 2\nlinks = [[0, 1.0]]",
            "nodes = 2\nlinks = [['0', 1]]", ONE + "phase = '0'", ONE + "phase = 1.0", ONE + "set = []", ONE + "set = {s = 1}", ONE + "set = {s = [0]}",
            ONE + "set = {s = [[0]]}", ONE + "set = {s = [[0, 1, 2]]}", ONE + "set = {s = [[0, true]]}", ONE + "[set.s]", ONE + "[[set]]",
        ]:
            self.assertEqual(self.fault(text), "network BadShape", text)
        for text in [b"\xff", "nodes", "nodes = 1\nnodes = 1\nlinks = []", "nodes = 9223372036854775808\nlinks = []"]:
            self.assertEqual(self.fault(text), "network NotToml", text)

    def test_causes_in_their_order(self):
        star = ", ".join(f"[0, {other}]" for other in range(1, 4098))
        late = "4098", f"[7, 8, {M + 1}]", "3"  # nodes, links, phase: BadWeight and BadPhase
        for name, (nodes, links, phase), more in [
            ("NotToml", ("0", "[9, 9], [1]", "3"), "other = 1\n]"),
            ("UnknownKey", ("0", "[9, 9], [1]", "3"), "other = 1\n"),
            ("BadShape", ("0", "[9, 9], [1]", "3"), ""),
            ("NodeCount", ("0", "[9, 9], [1, 2]", "3"), ""),
            ("NodeCount", ("65537", "[9, 9], [1, 70000]", "3"), ""),
            ("BadLink", ("5", "[1, 1], [2, 3], [3, 2], [0, 5]", "3"), ""),
            ("BadLink", ("5", "[1, 1], [-1, 3]", "3"), ""),
            ("SelfLink", ("4098", f"[2, 3], [3, 2, 7], [1, 1], {star}, {late[1]}", "3"), ""),
            ("LinkTwice", ("4098", f"{star}, [7, 0, 2], {late[1]}", "3"), ""),
            ("TooManyNeighbours", ("4098", f"{star}, {late[1]}", "3"), ""),
            ("BadPhase", late, ""),
            ("BadPhase", ("9", "[7, 8, -1]", "-1"), ""),
            ("BadWeight", ("9", late[1], "2"), ""),
            ("BadWeight", ("9", "[7, 8, -1]", "0"), ""),
        ]:
            self.assertEqual(self.fault(f"nodes = {nodes}\nlinks = [{links}]\nphase = {phase}\n{more}"), f"network {name}", name)

    def test_too_many_links(self):
        """The reader of TOML, slow on so long a text, is passed over. Nodes 0 to 3 have too many neighbours as well."""
        links = [[near, far] for near in range(5) for far in range(5, 53000)]
        for count, name in [(262145, "TooManyLinks"), (262144, "TooManyNeighbours")]:
            document = {"nodes": 65536, "links": links[:count], "phase": 3}
            with mock.patch.object(unison.tomllib, "loads", return_value=document):
                self.assertEqual(self.fault(""), f"network {name}")

    def test_limits_that_are_allowed(self):
        star = ", ".join(f"[0, {other}]" for other in range(1, 4097))
        self.assertIsNone(self.fault(f"nodes = 65536\nlinks = [{star}, [5, 6, {M}], [7, 8, 0]]\nphase = 2"))
        self.assertEqual(unison.read_network(b"nodes=4\nlinks=[[2,3],[2,0,8],[1,2,9]]").rows[2], [(0, 8), (1, 9), (3, 1)])


class Plans(unittest.TestCase):
    """formats.md, the second table of the network file."""

    def test_causes_in_their_order(self):
        program = "field a = 1; field b = 2; field c = 3;"
        causes = [("UnknownField", "z = []"), ("BadNode", "c = [[2, 0]]"), ("BadValue", "b = [[0, 4294967296]]"), ("SetTwice", "a = [[0, 1], [0, 1]]")]
        for place, (name, _) in enumerate(causes):
            texts = [text for _, text in causes[place:]]
            self.assertEqual(fault_of(plan, program, PAIR + "[set]\n" + "\n".join(reversed(texts))), f"plan {name}")
        self.assertEqual(fault_of(plan, program, PAIR + "[set]\na = [[-1, 0]]"), "plan BadNode")
        self.assertEqual(fault_of(plan, program, PAIR + "[set]\na = [[0, -1]]"), "plan BadValue")
        self.assertEqual(fault_of(plan, "", PAIR + "[set]\ns = []"), "plan UnknownField")
        self.assertEqual(states(program, PAIR + "[set]\nb = [[1, 9]]", 0), [[1, 2, 3], [1, 9, 3]])


class Reports(unittest.TestCase):
    """formats.md, Report."""

    def test_bad_lines(self):
        good = "round 4\n0 s=1\n1 s=22\n"
        self.assertEqual(plan(SWAP, PAIR, good).start, 4)
        for text, line in [
            ("", 1), ("round 4", 1), ("round 04\n0 s=1\n1 s=2\n", 1), ("Round 4\n", 1), ("round  4\n", 1), ("round 4294967296\n", 1), ("\n" + good, 1),
            ("round 4\n", 2), ("round 4\n1 s=1\n", 2), ("round 4\n0 t=1\n1 s=2\n", 2), ("round 4\n0\n1\n", 2), ("round 4\r\n", 1),
            ("round 4\n0 s=1\n", 3), ("round 4\n0 s=1\n1 s=2", 3), ("round 4\n0 s=1\n1 s=02\n", 3), ("round 4\n0 s=1\n1 s=4294967296\n", 3),
            ("round 4\n0 s=1\n1 s=2 \n", 3), ("round 4\n0 s=1\n1 s=-2\n", 3), (good + "\n", 4), (good + "2 s=1\n", 4), (good + "x", 4),
            ("round 1000000001\n0 s=1\n1 s=02\n", 3),
        ]:
            self.assertEqual(fault_of(plan, SWAP, PAIR, text), f"report BadLine {line}", text)
        self.assertEqual(fault_of(plan, SWAP, PAIR, "round 1000000001\n0 s=1\n1 s=2\n"), "report TooManyRounds")
        self.assertIsNone(fault_of(plan, SWAP, PAIR, "round 1000000000\n0 s=1\n1 s=2\n"))

    def test_fields_in_their_order(self):
        program = "field a = 0; field b = 0;"
        self.assertIsNone(fault_of(plan, program, ONE, "round 0\n0 a=1 b=2\n"))
        self.assertEqual(fault_of(plan, program, ONE, "round 0\n0 b=1 a=2\n"), "report BadLine 2")
        self.assertIsNone(fault_of(plan, "", PAIR, "round 12\n0\n1\n"))
        self.assertIsNone(fault_of(plan, "field N = 0; field x_1N = 0;", ONE, "round 0\n0 N=1 x_1N=2\n"))


class Schedules(unittest.TestCase):
    """formats.md, Schedule; definitions.md, the count machine."""

    def test_bad_lines(self):
        self.assertEqual(unison.read_schedule(b""), [])
        self.assertEqual(unison.read_schedule(b"read 0 4294967295\nwrite 7\n"), [[0, M], [7]])
        for text, line in [
            (b"\n", 1), (b"write 0", 1), (b"write 0 \n", 1), (b"write 0\r\n", 1), (b"Write 0\n", 1), (b"write 00\n", 1), (b"write 4294967296\n", 1),
            (b"write  0\n", 1), (b" write 0\n", 1), (b"read 0\n", 1), (b"write 0 0\n", 1), (b"write 0\n\nwrite 0\n", 2), (b"write 0\nread 1 1", 2),
            (b"# no comments\n", 1), (b"write 0\n\xff\n", 2),
        ]:
            self.assertEqual(fault_of(unison.read_schedule, text), f"schedule BadLine {line}", text)

    def test_too_many_steps(self):
        self.assertEqual(fault_of(unison.read_schedule, b"write 0\n" * 1000001), "schedule TooManySteps")
        self.assertEqual(fault_of(unison.read_schedule, b"write 0\n" * 1000001 + b"x"), "schedule BadLine 1000002")

    def answers(self, network, stop, *steps):
        machine = unison.Machine(plan(SWAP, network).network, 0, stop)
        return [machine.step(step) for step in steps]

    def test_answers(self):
        self.assertEqual(self.answers(PAIR, 1, (2, 0), (0, 1), (2,), (0,), (0, 0)), ["NoNode", "NoSlot", "NoNode", "NotReady", "Taken"])
        self.assertEqual(self.answers(PAIR, 2, (0, 0), (0, 0), (0,), (0, 0), (0,)), ["Taken", "Already", "Moved", "Behind", "NotReady"])
        self.assertEqual(self.answers(PAIR, 1, (0, 0), (0,), (0, 0), (0,), (1, 0), (1,)), ["Taken", "Moved", "Stopped", "Stopped", "Taken", "Moved"])
        self.assertEqual(self.answers(ONE, 2, (0,), (0,), (0,)), ["Moved", "Moved", "Stopped"])
        self.assertEqual(self.answers(ONE, 0, (0,)), ["Stopped"])

    def test_moves_count_from_round_0(self):
        gone_on = plan(SWAP, PAIR, "round 5\n0 s=1\n1 s=2\n")
        self.assertEqual(unison.replay_text(gone_on, [(0, 0), (0,)], 9), "0 moves 6 s=2\n1 moves 5 s=2\n")

    def test_steps_from_start(self):
        """(stop - start) * (2 * links + nodes) steps lead from the start to the stop, each Taken or Moved."""
        drawn = random.Random(4)
        made = plan(SWAP, "nodes = 5\nlinks = [[0, 1], [1, 2], [2, 0], [2, 3]]\n")
        machine = unison.Machine(made.network, 3, 7)
        changed = 0
        while min(machine.counts) < 7:
            node = drawn.randrange(5)
            step = (node, drawn.randrange(4)) if drawn.randrange(2) else (node,)
            changed += machine.step(step) in ("Taken", "Moved")
            counts = machine.counts
            self.assertTrue(all(abs(counts[node] - counts[other]) <= 1 for node in range(5) for other, _ in made.network.rows[node]))
        self.assertEqual(changed, (7 - 3) * (2 * 4 + 5))
        self.assertEqual(len(list(unison.sweeps(made, 4))), 4 * (2 * 4 + 5))


class Registers(unittest.TestCase):
    """definitions.md, Registers, Desks, and Why single steps give the rounds: nodes that look at phases modulo three, and no counts."""

    def test_what_nodes_show(self):
        drawn = random.Random(11)
        program = "field s = 0; next s = ((s + total (n.s + n.id)) + round);"
        made = plan(program, "nodes = 5\nlinks = [[0, 1], [1, 2], [2, 0], [2, 3]]\nphase = 2\n[set]\ns = [[0, 9], [3, 4]]\n")
        rounds = dict(unison.configurations(made, 60))
        nodes = [Shown(2, state) for state in made.states]
        machine = unison.Machine(made.network, 0, 60)
        for _ in range(3000):
            node = drawn.randrange(5)
            step = (node, drawn.randrange(4)) if drawn.randrange(3) else (node,)
            self.assertEqual(self.made(made, nodes, machine.counts[node], step), machine.step(step))
            self.assertEqual([shown.now for shown in nodes], [rounds[count][number] for number, count in enumerate(machine.counts)])
        self.assertGreater(min(machine.counts), 10)

    def made(self, made, nodes, count, step):
        """Makes a step by registers; only the round in the rule, and the stop, are taken from the count."""
        node, row = nodes[step[0]], made.network.rows[step[0]]
        if len(step) == 2 and step[1] >= len(row):
            return "NoSlot"
        if count >= 60:
            return "Stopped"
        if len(step) == 1:
            return self.moved(made, node, row, count, step[0])
        if step[1] in node.read:
            return "Already"
        other = nodes[row[step[1]][0]]
        ahead = (other.phase - node.phase) % 3
        if ahead == 2:
            return "Behind"
        node.read[step[1]] = other.now if ahead == 0 else other.before
        return "Taken"

    def moved(self, made, node, row, count, number):
        if len(node.read) < len(row):
            return "NotReady"
        neighbours = [unison.Neighbour(other, weight, node.read[slot]) for slot, (other, weight) in enumerate(row)]
        after = unison.next_state(made.program, unison.Here(count, number, node.now, neighbours))
        node.phase, node.before, node.now, node.read = (node.phase + 1) % 3, node.now, after, {}
        return "Moved"


class Shown:
    """A register, and the states that its node has read."""

    def __init__(self, phase, state):
        self.phase, self.now, self.before, self.read = phase, state, state, {}


class CommandLine(unittest.TestCase):
    """formats.md, The program."""

    def setUp(self):
        self.folder = tempfile.TemporaryDirectory()
        self.addCleanup(self.folder.cleanup)

    def file(self, name, text):
        path = Path(self.folder.name, name)
        path.write_text(text)
        return str(path)

    def told(self, *words):
        status, printed, told = unison.answer([str(word) for word in words])
        return status, printed, told.split("\n")[0]

    def test_invalid_arguments(self):
        for words in [
            [], ["chekc"], ["check"], ["check", "a", "b"], ["lockstep", "a", "b"], ["lockstep", "a", "b", "--rounds"], ["check", "a", "--from", "b"],
            ["lockstep", "a", "b", "--rounds", "1", "--stop", "1"], ["run", "a", "b", "--rounds", "1"], ["replay", "a", "b", "--stop", "1"],
            ["check", "\udcff"], ["check", "--program", "a"],
        ]:
            self.assertEqual(self.told(*words), (2, "", "fault: usage"), words)
        for word in ["1000000001", "-1", "+1", "1.0", "", "x", "9" * 5000]:
            self.assertEqual(unison.answer(["lockstep", "a", "b", "--rounds", word])[2], "fault: usage\nrounds\n", word)
            self.assertEqual(unison.answer(["replay", "a", "b", "c", "--stop", word])[2], "fault: usage\nstop\n", word)
        for word in ["0", "65"]:
            self.assertEqual(unison.answer(["run", "a", "b", "--rounds", "1", "--workers", word])[2], "fault: usage\nworkers\n", word)
        self.assertEqual(self.told("lockstep", "a", "b", "--rounds", "0" * 5000 + "1"), (1, "", "fault: file"))
        self.assertEqual(unison.answer(["--help"])[0], 0)

    def test_files_before_faults(self):
        bad, none = self.file("bad", "!"), "/none/such"
        for words in [["check", none], ["lockstep", bad, none, "--rounds", 1], ["lockstep", bad, bad, "--rounds", 1, "--from", none], ["replay", bad, bad, none, "--stop", 1]]:
            self.assertEqual(self.told(*words), (1, "", "fault: file"), words)

    def test_order_of_the_parts(self):
        """Program, network, plan, report, schedule, run: each told before the next ones."""
        faults = ["program Lex", "network NotToml", "plan UnknownField", "report BadLine 1", "schedule BadLine 1", "run StopBelowStart"]
        bad = [self.file("p", "!"), self.file("n", "!"), self.file("s", PAIR + "[set]\nz = []"), self.file("r", "!"), self.file("l", "!")]
        good = [self.file("gp", SWAP), self.file("gn", PAIR), None, self.file("gr", "round 5\n0 s=1\n1 s=2\n"), self.file("gl", "")]
        for place, fault in enumerate(faults):
            program, _, _, start, schedule = good[:place] + bad[place:]
            network = bad[1] if place < 2 else bad[2] if place == 2 else good[1]
            status = 1 if fault.startswith("run") else 3
            self.assertEqual(self.told("replay", program, network, schedule, "--stop", 4, "--from", start), (status, "", f"fault: {fault}"))

    def test_faults_of_a_run(self):
        program, network, start = self.file("p", SWAP), self.file("n", PAIR), self.file("r", "round 5\n0 s=1\n1 s=2\n")
        for command, name in [("lockstep", "RoundsBelowStart"), ("compare", "RoundsBelowStart"), ("run", "StopBelowStart")]:
            workers = [] if command == "lockstep" else ["--workers", 2]
            self.assertEqual(self.told(command, program, network, "--rounds", 4, "--from", start, *workers), (1, "", f"fault: run {name}"))
        trace = Path(self.folder.name, "trace")
        words = ["run", program, network, "--workers", 1, "--from", start, "--trace", trace, "--rounds"]
        self.assertEqual(self.told(*words, 5 + 250001), (1, "", "fault: run TraceFull"))
        self.assertFalse(trace.exists())
        self.assertEqual(self.told(*words, 6), (0, "round 6\n0 s=2\n1 s=1\n", ""))
        self.assertEqual(trace.read_text(), "read 0 0\nwrite 0\nread 1 0\nwrite 1\n")
        unwritten = self.told(*words[:-2], "/none/such", "--rounds", 6)
        self.assertEqual(unwritten, (1, "round 6\n0 s=2\n1 s=1\n", "fault: file"))

    def test_schedule_that_cannot_be_read_on(self):
        program, network = self.file("p", SWAP), self.file("n", PAIR)
        self.assertEqual(self.told("replay", program, network, self.folder.name, "--stop", 1), (1, "", "fault: device Read"))

    def test_as_a_command(self):
        words = [sys.executable, TOP / "reference/unison.py", "lockstep", EXAMPLES / "distance.rules", EXAMPLES / "path.toml", "--rounds"]
        done = subprocess.run([*words, "2"], capture_output=True)
        self.assertEqual((done.returncode, done.stdout, done.stderr), (0, b"round 2\n0 dist=0\n1 dist=1\n2 dist=2\n", b""))
        done = subprocess.run([*words, "x"], capture_output=True)
        self.assertEqual((done.returncode, done.stdout, done.stderr), (2, b"", b"fault: usage\nrounds\n"))


if __name__ == "__main__":
    unittest.main()
