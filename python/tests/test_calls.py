"""Calls at once in several threads, the memory that many calls leave behind, room that is made, and where the library is found."""

import os
import threading
import time
from pathlib import Path

from support import DISTANCE, EXAMPLES, PYTHON, SWAP, library_alone, program, raised, run_python, skip

import unison
from unison import _by_library, _calls, _library

library_alone("threads and memory in one process")

GRID = 40


def grid():
    links = [(row * GRID + column, row * GRID + column + 1) for row in range(GRID) for column in range(GRID - 1)]
    links += [(row * GRID + column, row * GRID + column + GRID) for row in range(GRID - 1) for column in range(GRID)]
    return unison.Network(GRID * GRID, links, set={"dist": {0: 0}})


def test_threads_at_once_have_each_its_own_answer():
    """Eight threads, each with a source of its own on the same grid, again and again."""
    distance, net = unison.Program(DISTANCE), grid()
    wrong = []

    def work(source):
        own = net.with_set({"dist": {source: 0}})
        row, column = divmod(source, GRID)
        right = {node: abs(node // GRID - row) + abs(node % GRID - column) for node in range(GRID * GRID)}
        for _ in range(5):
            if unison.lockstep(distance, own, 2 * GRID).by_name("dist") != right:
                wrong.append(source)
            error = raised(unison.ProgramError, lambda: unison.Program(f"field s{source} = 0; next s{source} = n.x;"))
            if error.name != "UnknownName":
                wrong.append(str(error))

    threads = [threading.Thread(target=work, args=(source,)) for source in range(0, GRID * GRID, GRID * GRID // 8)]
    for thread in threads:
        thread.start()
    for thread in threads:
        thread.join()
    assert not wrong, wrong


def test_a_call_gives_the_lock_back():
    """While a long call runs in one thread, this one goes on: it counts, and the call has not ended."""
    counting = unison.Program("field s = 0; next s = ((s + id) + 1);")
    net, ended = grid().with_set({}), threading.Event()
    rounds = 200
    while True:  # as many rounds as take a processor half a second
        began = time.process_time()
        unison.lockstep(counting, net, rounds)
        if time.process_time() - began > 0.5 or rounds > 10_000_000:
            break
        rounds *= 2
    thread = threading.Thread(target=lambda: (unison.lockstep(counting, net, rounds), ended.set()))
    thread.start()
    steps = 0
    while not ended.is_set() and steps < 5:
        time.sleep(0.01)
        steps += 1
    during = not ended.is_set()
    thread.join()
    assert steps == 5 and during, "this thread stood still while the call ran"


def memory():
    """What of this process is in memory, in KiB."""
    for line in Path("/proc/self/status").read_text().splitlines():
        if line.startswith("VmRSS:"):
            return int(line.split()[1])
    return skip("there is no VmRSS in /proc/self/status")


def test_memory_does_not_grow_over_ten_thousand_calls():
    if not os.path.exists("/proc/self/status"):
        skip("there is no /proc/self/status")
    rules, net, swap = unison.Program(DISTANCE), unison.Network(200, [(node, node + 1) for node in range(199)], set={"dist": {0: 0}}), unison.Program(SWAP)

    def calls(times):
        for _ in range(times // 10):
            unison.Program(DISTANCE)
            unison.lockstep(rules, net, 3)
            unison.lockstep(rules, net, 4, from_=unison.lockstep(rules, net, 3))
            unison.watch(rules, net, range(3))
            unison.settle(swap, unison.Network(2, [(0, 1)]))
            unison.replay(rules, net, "read 0 0\nwrite 0\n")
            raised(unison.ProgramError, lambda: unison.Program("field s = 0; next s = (s;"))
            raised(unison.PlanError, lambda: unison.lockstep(swap, net, 1))

    calls(1000)
    before = memory()
    calls(10000)
    grown = memory() - before
    assert grown < 2048, f"{grown} KiB more are held after 10,000 calls"


def test_room_is_made_where_there_is_too_little():
    """Rooms that are too small, of each kind, and the same answers."""
    texts = _calls.Texts(DISTANCE.encode(), b"nodes = 3\nlinks = [[0, 1], [1, 2]]\n[set]\ndist = [[0, 0]]\n", b"", b"read 0 0\nwrite 0\n")
    for room in (0, 1, 2, 3, 100):
        assert _calls.lockstep(texts, 2, room).words.tolist() == [0, 1, 2]
        assert _calls.watch(texts, [1, 2], room).words.tolist() == [0, 1, unison.NONE, 0, 1, 2]
        for other in (0, 3):
            found = _calls.replay(texts, 5, (room, other, other))
            assert found.report.decode() == f"0 moves 1 dist=0\n1 moves 0 dist={unison.NONE}\n2 moves 0 dist={unison.NONE}\n"
            assert (found.counts.tolist(), found.table.words.tolist()) == ([1, 0, 0], [0, unison.NONE, unison.NONE])
    found = _by_library.text_of(lambda *room: _library.load().unison_check(texts.program, len(texts.program), *room), 0)
    assert found == (0, unison.Program(DISTANCE).canonical.encode())
    assert _calls.sizes(texts) == (3, 1)
    assert _calls.watch(texts, [], 0).words.tolist() == []


def test_out_of_memory_is_a_memory_error():
    """In a process that may have little more memory than it has: calls end with MemoryError, or well."""
    ring = 65536
    printed = run_python(
        "import resource, unison\n"
        f"program = unison.Program({DISTANCE!r})\n"
        f"network = unison.Network({ring}, [(node, (node + 1) % {ring}) for node in range({ring})])\n"
        "right = unison.lockstep(program, network, 1).values\n"
        "pages = int(open('/proc/self/statm').read().split()[0]) * resource.getpagesize()\n"
        "for more in (0, 1, 2, 4, 8, 16, 32, 64, 128, 256, 512):\n"
        "    resource.setrlimit(resource.RLIMIT_AS, (pages + (more << 20), resource.RLIM_INFINITY))\n"
        "    try:\n        unison._calls.lockstep(unison.jobs.texts_of('test', program, network), 1, 65536); print('done')\n"
        "    except MemoryError as error:\n        print(str(error) or 'python')\n"
    )
    lines = printed.splitlines()
    assert lines[-1] == "done" and set(lines) <= {"done", "unison: out of memory", "python"}, lines
    if "unison: out of memory" not in lines:
        skip("memory was never short in the library")


def test_where_the_library_is_found():
    place = str(_library.find())
    printed = run_python("import unison; print(unison._library.find())", env={**os.environ, "UNISON_LIBRARY": place})
    assert printed == f"{place}\n"
    told = run_python(
        "import unison\n"
        "try:\n    unison.Program('')\nexcept unison.LibraryMissing as error:\n    print(error)\n",
        env={**os.environ, "UNISON_LIBRARY": "/nowhere/libunison.so"},
    )
    looked = "libunison.so, the library of the package unison, is not there: looked for /nowhere/libunison.so. "
    assert told.startswith(looked) and "library/build" in told
    without = {name: value for name, value in os.environ.items() if name != "UNISON_LIBRARY"}
    places = run_python("import unison; print(*unison._library.places(), sep='\\n')", env=without).splitlines()
    assert places == [str(PYTHON / "unison" / "libunison.so"), str(PYTHON.parent / "library" / "out" / "libunison.so")]


def test_programs_and_networks_go_to_other_processes():
    import pickle

    rules, net = program("distance"), unison.Network.from_file(EXAMPLES / "karate.toml", names=EXAMPLES / "karate.names")
    states = unison.lockstep(rules, net, 3)
    again, links, found = pickle.loads(pickle.dumps((rules, net, states)))
    assert again == rules and links.text == net.text and links.names == net.names
    assert found == states == unison.lockstep(again, links, 3)
