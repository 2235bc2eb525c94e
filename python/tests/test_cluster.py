"""Rounds by many processes: random runs beside the interpreter, what is refused, checkpoints with a process that is killed, files and messages."""

import json
import random
import re
import shutil
import struct
import threading
from concurrent.futures import ThreadPoolExecutor

from cluster_support import PACKAGE, WORKER, lines_of_code, mpirun, new_folder, packed
from support import DISTANCE, ROOT, library_alone, raised, wanted

import unison

library_alone("the engine of many processes calls it")

SUMS = "field s = 1; next s = ((total n.s + (id * round)) % 1000003);"
TORUS = (8, 9)


def torus():
    """The rows of a torus, and its packed file, by docs/formats.md."""
    wide, high = TORUS
    steps = ((1, 0), (-1, 0), (0, 1), (0, -1))
    rows = [sorted((column + x) % wide + (row + y) % high * wide for x, y in steps) for row in range(high) for column in range(wide)]
    return rows, packed([[(node, 1) for node in row] for row in rows])


def folder_with(**programs):
    """A new folder with a torus and programs."""
    folder = new_folder()
    (folder / "torus.net").write_bytes(torus()[1])
    for name, text in programs.items():
        (folder / f"{name}.rules").write_text(text)
    return folder


def distances():
    """How far each node of the torus is from node 0: known without a round."""
    wide, high = TORUS
    return [min(node % wide, wide - node % wide) + min(node // wide, high - node // wide) for node in range(wide * high)]


def sums_after(rounds):
    """The states of SUMS on the torus, worked out here."""
    rows, states = torus()[0], [1] * (TORUS[0] * TORUS[1])
    for round in range(rounds):
        states = [(min(sum(states[other] for other in row), unison.NONE) + min(node * round, unison.NONE)) % 1000003 for node, row in enumerate(rows)]
    return states


def with_settings(file, text):
    """A packed file with settings behind its rows."""
    return file[:24] + bytes([file[24] | 2]) + file[25:] + text.encode()


def test_cluster_random_runs_beside_the_interpreter():
    wanted("tomllib")
    done = mpirun(4, WORKER, "random", "--cases", 12, "--seed", 3)
    assert done.stdout.endswith("12 agree, 0 differ\n"), done.stdout + done.stderr


def commands(folder, processes, lines):
    """The status, standard output and standard error of each of some commands, all by one mpirun."""
    (folder / "commands.json").write_text(json.dumps(lines))
    done = mpirun(processes, WORKER, "commands", "commands.json", folder=folder)
    parts = [re.split(r"^== (\d+)\n", text, flags=re.MULTILINE)[:-1] for text in (done.stdout, done.stderr)]
    assert len(parts[0]) == len(parts[1]) == 2 * len(lines), done.stdout + done.stderr
    return [(int(parts[0][at + 1]), parts[0][at], parts[1][at]) for at in range(0, 2 * len(lines), 2)]


def test_cluster_command():
    numpy = wanted("numpy")
    folder = folder_with(distance=DISTANCE, sums=SUMS)
    far = distances()
    base = ["distance.rules", "torus.net", "--set", "dist=0:0", "--rounds"]
    counted = "round,value,nodes\n" + "".join(f"3,{value},{far.count(value)}\n" for value in range(4))
    counted += f"3,{unison.NONE},{sum(value > 3 for value in far)}\n"
    sums = "round,s\n" + "".join(f"{round},{sum(sums_after(round))}\n" for round in range(1, 6))
    (folder / "striped.txt").write_text("".join(f"{node % 3}\n" for node in range(len(far))))
    settled = "".join(f"[{node}, {value}], " for node, value in ((0, 0), (40, 7)))
    (folder / "set.net").write_bytes(with_settings(torus()[1], f"nodes = 1\nlinks = []\nphase = 1\nset.dist = [{settled}]\n"))
    calls = [
        (["distance.rules", "set.net", "--rounds", "100", "--set", f"dist=40:{unison.NONE}"], f"settles {max(far)}\n"),
        (["distance.rules", "set.net", "--rounds", "0", "--count", "dist"], f"round,value,nodes\n0,0,1\n0,7,1\n0,{unison.NONE},{len(far) - 2}\n"),
        ([*base, "100"], f"settles {max(far)}\n"),
        ([*base, "3"], "round 3\n"),
        ([*base, "3", "--count", "dist"], counted),
        ([*base, "100", "--until", "dist=0"], f"settles {max(far)}\n"),
        (["distance.rules", "torus.net", "--rounds", "100", "--set", "dist=3..5:0", "--set", "dist=*:7", "--until", "dist=7"], "reached 0\n"),
        (["sums.rules", "torus.net", "--rounds", "5", "--sum", "s"], sums),
        (["sums.rules", "torus.net", "--rounds", "5", "--until", "s=0"], "open 5\n"),
        ([*base, "100", "--npy", "dist=far.npy", "--parts", "striped.txt"], f"settles {max(far)}\n"),
    ]
    for (line, wanted_text), (status, shown, told) in zip(calls, commands(folder, 3, [line for line, _ in calls])):
        assert (status, shown, told) == (0, wanted_text, ""), (line, shown, told)
    assert numpy.load(folder / "far.npy").tolist() == far


def test_cluster_refusals():
    folder = folder_with(distance=DISTANCE, bad="field s = 0; next s = (s + ;")
    (folder / "short.net").write_bytes(torus()[1][:100])
    (folder / "lines.txt").write_text("0\n1\n2\n")
    for name, text in (("none.net", "nodes = 2\nlinks = []\n"), ("other.net", "nodes = 1\nlinks = []\nset.t = []\n"), ("far.net", "nodes = 1\nlinks = []\nset.dist = [[72, 0]]\n")):
        (folder / name).write_bytes(with_settings(torus()[1], text))
    (folder / "parts.txt").write_text("0\n" * 5 + "3\n" + "1\n" * 66)
    base = ["distance.rules", "torus.net", "--rounds", "3"]
    expected = [
        (["distance.rules", "torus.net"], 2, "usage", "--rounds"),
        ([*base, "--sett", "dist=0:0"], 2, "usage", "--sett"),
        ([*base[:3], "1000000001"], 2, "usage", "--rounds: expected a whole number from 0 to 1000000000, found `1000000001`"),
        ([*base, "--set", "dist=0"], 2, "usage", "found `dist=0`"),
        ([*base, "--set", "dist=72:1"], 2, "usage", "a node's number below 72, or A..B, found `72`"),
        ([*base, "--set", "dist=5..4:1"], 2, "usage", "found `5..4`"),
        ([*base, "--set", "dist=1:4294967296"], 2, "usage", "found `dist=1:4294967296`"),
        ([*base, "--set", "s=0:0"], 2, "usage", "--set: the program has no field `s`; its fields are dist"),
        ([*base, "--count", "s"], 2, "usage", "--count: the program has no field `s`"),
        ([*base, "--npy", "s=s.npy"], 2, "usage", "--npy: the program has no field `s`"),
        ([*base, "--npy", "dist=nowhere/s.npy"], 2, "usage", "--npy: expected FIELD=FILE, with a file that can be written, found `dist=nowhere/s.npy`"),
        ([*base, "--until", "dist"], 2, "usage", "--until FIELD=VALUE: dist: expected a whole number from 0 to 4294967295, found ``"),
        ([*base, "--every", "5"], 2, "usage", "--every stands with --checkpoint FOLDER alone"),
        ([*base, "--resume", "none", "--set", "dist=0:0"], 2, "usage", "--resume"),
        (["bad.rules", *base[1:]], 3, "program Syntax", "program:1:28"),
        (["missing.rules", *base[1:]], 1, "file", "missing.rules: No such file or directory"),
        (["distance.rules", "missing.net", *base[2:]], 1, "file", "missing.net: No such file or directory"),
        (["distance.rules", "short.net", *base[2:]], 3, "network Length", "short.net: the file has 100 bytes"),
        (["distance.rules", "none.net", *base[2:]], 3, "network Settings", "it has 2 nodes"),
        (["distance.rules", "other.net", *base[2:]], 3, "plan UnknownField", "set.t: the program has no such field; its fields are dist"),
        (["distance.rules", "far.net", *base[2:]], 3, "plan BadNode", "set.dist: [72, 0], and there are 72 nodes"),
        ([*base, "--parts", "lines.txt"], 3, "parts Count", "lines.txt: found 3 lines, expected 72"),
        ([*base, "--parts", "parts.txt"], 3, "parts BadLine 6", "parts.txt:6: found `3`, expected a part from 0 to 2"),
        ([*base, "--resume", "none"], 1, "checkpoint Missing", "none: there is no complete checkpoint"),
    ]
    for (line, *wanted_answer), (status, shown, told) in zip(expected, commands(folder, 3, [line for line, *_ in expected])):
        first, _, rest = told.partition("\n")
        assert [status, first] == [wanted_answer[0], f"fault: {wanted_answer[1]}"] and wanted_answer[2] in rest and not shown, (line, status, told)
        assert told.count("fault:") == 1, told


def test_cluster_goes_on_after_a_process_is_killed():
    numpy = wanted("numpy")
    folder = folder_with(sums=SUMS)
    words = ["sums.rules", "torus.net", "--rounds", "60", "--npy", "s=s.npy"]
    killed = mpirun(3, WORKER, "kill", 90, 1, *words, "--checkpoint", "saved", "--every", "4", folder=folder)
    assert killed.returncode != 0 and not (folder / "s.npy").exists()
    named = json.loads((folder / "saved" / "complete").read_text())
    assert f"fault: run Ended\nanother process, or mpirun, ended: --resume saved goes on from round {named['round']}\n" in killed.stderr, killed.stderr
    assert 0 < named["round"] < 60 and named["round"] % 4 == 0
    lines = [[*words, "--resume", "saved"], ["sums.rules", "torus.net", "--rounds", "3", "--resume", "saved"]]
    (went_on, shown, told), before = commands(folder, 3, lines)
    assert (went_on, shown) == (0, "round 60\n"), told
    assert numpy.load(folder / "s.npy").tolist() == sums_after(60)
    assert before[0] == 1 and before[2].startswith("fault: run RoundsBelowStart\n")


def test_cluster_checkpoints_that_are_no_longer_whole_are_named():
    folder = folder_with(sums=SUMS, other=SUMS.replace("1000003", "1000033"))
    base = ["--rounds", "9", "--checkpoint", "saved", "--every", "3"]
    made = commands(folder, 2, [["sums.rules", "torus.net", *base]])
    assert made[0][:2] == (0, "round 9\n"), made
    assert sorted(path.name for path in (folder / "saved").iterdir()) == ["complete", *(f"round-{round}.process-{p}" for round in (6, 9) for p in (0, 1))]
    state = (folder / "saved" / "round-9.process-1").read_bytes()
    lines, expected = [["other.rules", "torus.net", "--rounds", "9", "--resume", "saved"]], ["Other\nsaved/round-9.process-0: its program is another one"]
    damaged = [("round-9.process-1", state[:at] + bytes([state[at] ^ 1]) + state[at + 1 :]) for at in (3, len(state) // 2, len(state) - 1)]
    for number, (name, data) in enumerate([*damaged, ("complete", b"{}")]):
        shutil.copytree(folder / "saved", folder / f"saved{number}")
        (folder / f"saved{number}" / name).write_bytes(data)
        lines.append(["sums.rules", "torus.net", "--rounds", "9", "--resume", f"saved{number}"])
        expected.append(f"Damaged\nsaved{number}/{name}: ")
    for (status, shown, told), wanted_text in zip(commands(folder, 2, lines), expected):
        assert (status, shown) == (3, "") and told.startswith(f"fault: checkpoint {wanted_text}"), (told, wanted_text)


def test_cluster_files_are_refused_by_their_first_fault():
    numpy = wanted("numpy")
    from unison.cluster.faults import Refusal
    from unison.cluster.network import PackedFile

    whole = torus()[1]
    path = new_folder() / "n.net"
    with_number = lambda at, kind, number: whole[:at] + struct.pack(kind, number) + whole[at + struct.calcsize(kind) :]
    for data, line, told in (
        (b"", "network Magic", "it begins with b''"),
        (b"UNISONW2" + whole[8:], "network Magic", "UNISONW2"),
        (whole[:31], "network Header", "32 bytes"),
        (with_number(24, "<Q", 4), "network Header", "0 to 3"),
        (with_number(8, "<Q", 0), "network NodeCount", "found 0 nodes"),
        (with_number(8, "<Q", 2**32), "network NodeCount", "found 4294967296 nodes"),
        (whole + b"\0", "network Length", f"has {len(whole) + 1} bytes, and its header asks for {len(whole)}"),
        (with_number(32, "<Q", 1), "network Offsets", "node 0 begin at 1, expected 0"),
        (with_number(40, "<Q", 9), "network Offsets", "node 1: its neighbours begin at 9 and end at 8"),
        (with_number(32 + 8 * 72, "<Q", 284), "network Offsets", "the last offset is 284, expected 288"),
        (with_number(32 + 8 * 73 + 4 * 5, "<I", 72), "network Neighbour", "node 1: found the neighbour 72, expected one below 72"),
    ):
        path.write_bytes(data)

        def read(file_path=str(path)):
            file = PackedFile(file_path)
            for share in range(5):
                file.check_offsets(share, 5)
            file.rows_of(numpy.arange(72, dtype="uint32"))

        refusal = raised(Refusal, read)
        assert (refusal.line, refusal.status) == (line, 3) and told in refusal.told, refusal


def test_cluster_messages_bring_the_states():
    numpy = wanted("numpy")
    from unison.cluster.exchange import message_of, put_message

    draws = random.Random(5)
    for _ in range(300):
        rim, width = draws.randrange(1, 30), draws.randrange(0, 4)
        before = numpy.array([[draws.randrange(9) for _ in range(width)] for _ in range(rim)], dtype="uint32").reshape(rim, width)
        after = before.copy()
        for node in draws.sample(range(rim), draws.choice([0, 1, rim // 2, rim])):
            after[node] += draws.randrange(3)
        sent = numpy.array(sorted(draws.sample(range(rim), draws.randrange(rim + 1))), dtype="int64")
        changed = draws.choice([None, (before != after).any(axis=1)])
        message = message_of(7, after, changed, sent)
        received = before[sent]
        room = numpy.full(2 + received.size, 99, dtype="uint32")
        assert message.size <= room.size, "no message is longer than one with all states"
        room[: message.size] = message
        put_message(room, received)
        assert room[0] == 7 and (received == after[sent]).all()


class Threads:
    """A communicator between threads, for what is done by all together."""

    def __init__(self, rank, shared, barrier):
        self.rank, self.shared, self.barrier = rank, shared, barrier

    def Get_rank(self):
        return self.rank

    def Get_size(self):
        return len(self.shared)

    def allgather(self, value):
        self.shared[self.rank] = value
        self.barrier.wait()
        found = list(self.shared)
        self.barrier.wait()
        return found

    def Alltoall(self, mine, into):
        into[:] = [numbers[self.rank] for numbers in self.allgather(mine.tolist())]

    def Alltoallv(self, mine, into):
        data, counts = (given.tolist() for given in mine)
        pieces = [data[sum(counts[:to]) : sum(counts[: to + 1])] for to in range(len(counts))]
        received = [piece[self.rank] for piece in self.allgather(pieces)]
        assert [len(piece) for piece in received] == into[1].tolist()
        into[0][:] = [number for piece in received for number in piece]


class Alone(Threads):
    """A communicator for one of two processes; `others` are what the other one adds to each sum, in order."""

    def __init__(self, others):
        super().__init__(0, [None, None], threading.Barrier(1))
        self.others = others

    def bcast(self, value):
        return value

    def Iallreduce(self, mine, whole):
        whole[:] = mine + mine.dtype.type(self.others.pop(0))
        return self

    def Test(self):
        return True


def test_cluster_checkpoint_that_not_all_have_written_is_not_named():
    numpy = wanted("numpy")
    from unison.cluster.checkpoints import Checkpoints

    folder, words = new_folder(), numpy.zeros((3, 1), dtype="uint32")
    writer = Checkpoints(Alone([1, 0]), str(folder), 2, {"process": 0}, None)
    for round, own in ((1, words), (2, words), (3, words), (4, words)):
        writer.reach(round, own)
    writer.finish()
    assert json.loads((folder / "complete").read_text())["round"] == 2
    assert {path.name for path in folder.iterdir()} == {"complete", "round-2.process-0", "round-4.process-0"}


def built_parts(path, owners, processes):
    """The parts of all processes, built by a thread each."""
    from unison.cluster import part, parts
    from unison.cluster.network import PackedFile

    shared, barrier = [None] * processes, threading.Barrier(processes, timeout=60)
    file = PackedFile(str(path))
    by = parts.shares(file, processes) if owners is None else parts.Listed(owners)
    build = lambda rank: part.build(Threads(rank, shared, barrier), file, by)
    with ThreadPoolExecutor(processes) as pool:
        return list(pool.map(build, range(processes)))


def rows_in(rows):
    """The rows of a call's own nodes by the numbers of the whole network: for each node its number, and its neighbours with weights."""
    weights = [1] * rows.neighbours.size if rows.weights is None else rows.weights.tolist()
    ends = list(zip(rows.ids[rows.neighbours].tolist(), weights))
    offsets = rows.offsets.tolist()
    assert len(offsets) == rows.ids.size + 1 and set(offsets[rows.own :]) == {len(ends)}, "nodes behind have no rows"
    return {int(rows.ids[node]): ends[offsets[node] : offsets[node + 1]] for node in range(rows.own)}


def test_cluster_parts_have_the_rows_of_the_network():
    numpy = wanted("numpy")
    draws, path = random.Random(11), new_folder() / "n.net"
    for _ in range(150):
        nodes, processes = draws.choice([1, 2, 7, 30]), draws.randrange(1, 6)
        weight = lambda: draws.choice([1, 1, 9]) if nodes % 2 else 1
        rows = [[(draws.randrange(nodes), weight()) for _ in range(draws.choice([0, 0, 1, 3]))] for _ in range(nodes)]
        rows[0] = draws.choice([rows[0], [(node, weight()) for node in range(nodes)]])
        path.write_bytes(packed(rows))
        owners = draws.choice([None, numpy.array([draws.randrange(processes) for _ in range(nodes)], dtype="uint8")])
        built = built_parts(path, owners, processes)
        found = {}
        for part in built:
            own = part.numbers.tolist()
            assert part.inner.ids.tolist() == own and rows_in(part.inner).keys() | rows_in(part.rim).keys() == set(own)
            near = part.numbers[part.near].tolist()
            assert part.rim.ids.tolist()[: part.rim.own + len(near)] == own[part.inner.own :] + near, "what the rounds copy there"
            found.update({**rows_in(part.inner), **rows_in(part.rim)})
        assert sum(len(part.numbers) for part in built) == nodes and found == dict(enumerate(rows))
        pairs = {(here, border.rank): border for here, part in enumerate(built) for border in part.borders}
        for (here, there), border in pairs.items():
            other = pairs[there, here]
            sent = built[here].numbers[built[here].inner.own :][border.sent].tolist()
            border_nodes = built[there].rim.ids[built[there].rim.own + built[there].near.size :]
            assert sent == border_nodes[other.first : other.last].tolist() and sorted(sent) == sent, "what is sent is what is read"
        for part in built:
            read = part.rim.ids.size - part.rim.own - part.near.size
            assert sum(border.last - border.first for border in part.borders) == read


def test_cluster_parts_have_each_node_and_about_as_much():
    wanted("numpy")
    from unison.cluster import parts
    from unison.cluster.network import PackedFile

    rows, data = torus()
    path = new_folder() / "n.net"
    path.write_bytes(data)
    file = PackedFile(str(path))
    for count in (1, 2, 3, 5, 72, 100):
        grown = parts.grown(file, count)
        sizes = [int((grown == part).sum()) for part in range(count)]
        assert sum(sizes) == 72 and max(sizes) <= 72 // count + 1, (count, sizes)
        by_number = parts.shares(file, count)
        listed = [node for part in range(count) for node in by_number.own(part).tolist()]
        assert listed == list(range(72)) and by_number.owner(by_number.own(count - 1)).tolist() == [count - 1] * by_number.own(count - 1).size
        cut = sum(grown[node] != grown[other] for node, row in enumerate(rows) for other in row)
        assert parts.cut_ends(file, parts.Listed(grown).owner) == cut


def test_cluster_page_tells_how_many_lines_are_trusted():
    lines = sum(lines_of_code(path) for path in sorted(PACKAGE.glob("*.py")))
    page = (ROOT / "docs" / "cluster.md").read_text(encoding="utf-8")
    told = re.search(r"(\d+) lines of Python", page)
    assert told is not None and int(told[1]) == lines < 800, f"the page tells {told and told[1]}, counted were {lines}"


def test_cluster_lines_are_counted_without_what_says_nothing_to_python():
    path = new_folder() / "m.py"
    path.write_text('"""A module.\n\nIt does.\n"""\n\n# a comment\nimport os\n\n\ndef f(\n    a,\n):\n    """Says."""\n    return "x" """\ny"""  # so\n')
    assert lines_of_code(path) == 6
