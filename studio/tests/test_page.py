"""The page in Chromium and in Firefox: a fault and its mark, sliders, cells that are drawn, steps by hand, command lines that are run, two tabs."""

import json
import os
import re
import shutil
import subprocess
import tempfile
import time
import unittest
from pathlib import Path

from browsers import Chromium, Firefox
from support import TOP, Beginning, Case, children, run, until

MODEL = """const infection = chance(0.2);
states person { well, ill }
field state: person = well;
next state = if state == well and any(n.state == ill and link_random() < infection) then ill else state;
"""
NETWORK = run("generate", "random", "30", "--links", "60", "--seed", "3")[1].decode() + "\n[set]\nstate = [[0, 1]]\n"
EPIDEMIC = {"modelName": "spread.model", "model": MODEL, "network": NETWORK, "rounds": 9}
PATH = "links = [[0, 1], [1, 2]]\nnodes = 3\n[set]\ndist = [[0, 0]]\n"
DISTANCE = {"modelName": "distance.rules", "model": "field dist = 4294967295;\nnext dist = (dist min least (n.dist + 1));\n", "network": PATH, "rounds": 3}
LIFE = (TOP / "examples/models/life.model").read_text()
QUIET = "!!window.studio && !!window.studio.run && !window.studio.isBusy()"


def counts(*words, parts=EPIDEMIC):
    """The counts that the program itself prints, by the names of their columns."""
    files = {parts["modelName"]: parts["model"], "network.toml": parts["network"]}
    output = run("count", parts["modelName"], "network.toml", "--rounds", f"0..{parts['rounds']}", *words, "--quiet", files=files)[1].decode()
    heads, *rows = [line.split(",") for line in output.splitlines()]
    return {name: [float(row[at]) for row in rows] for at, name in enumerate(heads) if at > 0}


class Page(Case):
    """The tests of the page, in a browser that a class below names."""

    kind = None
    browser = None

    @classmethod
    def setUpClass(cls):
        if cls.kind is None:
            raise unittest.SkipTest("a browser is named below")
        if cls.kind.find() is None:
            raise unittest.SkipTest(f"there is no {cls.kind.name} here")
        cls.browser = cls.kind()

    @classmethod
    def tearDownClass(cls):
        if cls.browser:
            cls.browser.close()

    def setUp(self):
        super().setUp()
        self.browser.resize(1400, 900)
        small = {"model": DISTANCE["model"], "model_name": DISTANCE["modelName"], "network": PATH, "network_name": "network.toml"}
        self.serve(self.program, beginning=Beginning(**small))

    def open(self, parts=None):
        """Opens the page, with this workspace where one is given."""
        self.browser.go(self.server.link)
        self.until("!!window.studio && !!window.studio.workspace && window.studio.workspace.model.length > 40")
        if parts:
            self.do(f"studio.begin({json.dumps(parts)})")
        self.settled()

    def look(self, expression):
        return self.browser.run(expression)

    def do(self, expression):
        """Has something done in the page, whose value is not looked at."""
        self.browser.run(f"({expression}, 1)")

    def until(self, expression, seconds=90):
        end = time.monotonic() + seconds
        while not self.look(expression):
            if time.monotonic() > end:
                self.fail(f"it never came to {expression}: {self.look('document.getElementById(`trouble`)?.textContent')}")
            time.sleep(0.05)

    def settled(self):
        """Waits until nothing runs any more and all is drawn."""
        self.until(QUIET)
        time.sleep(0.1)
        self.until(QUIET)
        self.browser.frame()

    def spot(self, id):
        """The middle of a part of the page, brought into sight."""
        script = f"(() => {{ const it = document.getElementById('{id}'); it.scrollIntoView({{block: 'center'}}); const box = it.getBoundingClientRect(); return {{x: box.x + box.width / 2, y: box.y + box.height / 2}}; }})()"
        return self.look(script)

    def click(self, id):
        self.browser.click(self.spot(id))

    def text(self, id):
        return self.look(f"document.getElementById('{id}').textContent")

    def choose(self, id, value):
        self.do(f"(() => {{ const it = document.getElementById('{id}'); it.value = {json.dumps(value)}; it.dispatchEvent(new Event('change', {{bubbles: true}})); }})()")

    def curves(self, chart="curves-chart"):
        return {curve["name"]: curve for curve in self.look(f"studio.curves()['{chart}'] ?? []")}

    def node_spots(self, nodes):
        """The points of the window at which nodes stand in the frame."""
        return self.look(f"(() => {{ const frame = document.querySelector('iframe.seen'); frame.scrollIntoView({{block: 'center'}}); const box = frame.getBoundingClientRect(); return {json.dumps(nodes)}.map((node) => {{ const spot = studio.run.nodeSpot(node); return {{x: box.x + spot.x, y: box.y + spot.y}}; }}); }})()")

    def quiet_console(self):
        self.assertEqual([it for it in self.browser.problems if "favicon" not in it], [])


class Tests(Page):
    def test_it_begins_with_a_run_and_asks_for_nothing_else(self):
        self.serve(self.program)
        self.open()
        self.assertEqual(self.look("studio.workspace.modelName"), "epidemic.model")
        self.assertEqual(self.look("studio.run.nodes"), 200)
        self.assertEqual(self.look("studio.faults()"), [])
        self.assertEqual([it for it in self.browser.requests if not it.startswith((self.server.link, "blob:"))], [])
        self.quiet_console()

    def test_curves_are_the_counts(self):
        self.open(EPIDEMIC)
        expected = counts()
        self.assertEqual({name: curve["ys"] for name, curve in self.curves().items()}, expected)
        self.assertEqual(dict(self.look("studio.run.counts()")), {0: expected["well"], 1: expected["ill"]})
        self.assertEqual(self.look("[...document.querySelectorAll('#curves-chart polyline.curve')].map((it) => it.dataset.name)"), ["well", "ill"])

    def test_a_state_has_one_colour_everywhere(self):
        self.open(EPIDEMIC)
        colours = "[...document.querySelectorAll('#curves-chart .swatch')].map((it) => it.style.background)"
        shown = "[...document.querySelector('iframe.seen').contentDocument.querySelectorAll('#legend .swatch')].map((it) => it.style.background || it.style.backgroundColor)"
        self.assertEqual(self.look(colours), self.look(shown))

    def test_a_fault_is_marked_as_it_is_typed_and_mended(self):
        self.open(EPIDEMIC)
        faulty = MODEL.replace("any(n.state", "any(n.stat_x")
        files = {"spread.model": faulty, "network.toml": NETWORK}
        told = run("why", "lockstep", "spread.model", "network.toml", "--rounds", "9", files=files)[1].decode()
        line, column, words = re.match(r"spread\.model:(\d+):(\d+): (.*)", told).groups()
        self.do(f"(() => {{ const area = document.querySelector('#model-editor textarea'); area.focus(); const at = area.value.indexOf('n.state') + 6; area.setSelectionRange(at, at + 1); }})()")
        before = self.look("studio.run.nodes")
        self.browser.type("_")
        self.browser.type("x")
        self.until("studio.faults().length > 0")
        self.assertEqual(self.look("document.querySelector('#model-editor textarea').getAttribute('aria-invalid')"), "true")
        self.assertEqual(self.look("[...document.querySelectorAll('#model-editor .lines .wrong')].map((it) => it.textContent.trim())"), [line])
        self.assertEqual(self.look("[...document.querySelectorAll('#model-editor .back .wrong')].map((it) => it.textContent).join('')"), "n.stat_x")
        self.assertIn(words, self.text("faults"))
        self.assertIn(f"line {line}", self.text("faults"))
        self.assertFalse(self.look("document.getElementById('old').hidden"))
        self.assertEqual(self.look("studio.run.nodes"), before)
        self.assertEqual(column, str(MODEL.splitlines()[3].index("n.state") + 1))
        self.do("(() => { const area = document.querySelector('#model-editor textarea'); const at = area.value.indexOf('_x'); area.setSelectionRange(at, at + 2); })()")
        self.browser.type("e")
        self.until("studio.faults().length === 0")
        self.settled()
        self.assertEqual(self.look("document.querySelectorAll('.wrong').length"), 0)
        self.assertTrue(self.look("document.getElementById('old').hidden"))
        self.assertEqual(self.look("studio.workspace.model"), MODEL)

    def test_a_fault_of_the_network_is_marked_in_its_file(self):
        self.open(DISTANCE)
        self.do("(document.getElementById('network-details').open = true)")
        self.do("(() => { const area = document.querySelector('#network-editor textarea'); area.focus(); const at = area.value.indexOf('2]'); area.setSelectionRange(at, at + 1); })()")
        self.browser.type("7")
        self.until("studio.faults().length > 0")
        self.assertEqual(self.look("document.querySelector('#network-editor .back .wrong').textContent"), "[")
        self.assertIn("7", self.text("faults"))
        self.assertIn("network.toml, line 1", self.text("faults"))
        self.assertEqual(self.look("document.querySelectorAll('#model-editor .wrong').length"), 0)

    def test_a_slider_moves_the_curves(self):
        self.open(EPIDEMIC)
        before = self.curves()["ill"]["ys"]
        self.do("document.querySelector('#constants input[type=range]').focus()")
        self.browser.press("End")
        self.until("document.querySelector('#constants input[type=text]').value === '1.0'")
        self.settled()
        expected = counts("--const", "infection=1.0")
        self.assertEqual(self.curves()["ill"]["ys"], expected["ill"])
        self.assertNotEqual(before, expected["ill"])
        self.assertIn("--const infection=1.0", self.text("outputs"))
        for _ in range(3):
            self.browser.press("ArrowLeft")
        self.settled()
        self.assertEqual(self.curves()["ill"]["ys"], counts("--const", "infection=0.997")["ill"])

    def test_the_next_seed_is_another_run(self):
        self.open(EPIDEMIC)
        self.click("seed-next")
        self.settled()
        self.assertEqual(self.curves()["ill"]["ys"], counts("--const", "seed=1")["ill"])

    def test_a_band_over_seeds(self):
        self.open(EPIDEMIC)
        self.click("band")
        self.until("document.querySelectorAll('#curves-chart .band').length === 2")
        expected = counts("--const", "seed=0..19", "--mean")
        self.assertEqual(self.curves()["ill"]["ys"], expected["ill mean"])
        self.assertEqual(self.curves()["ill"]["offs"], expected["ill deviation"])

    def test_a_sweep_of_a_constant(self):
        self.open(EPIDEMIC)
        self.do("document.getElementById('sweep-part').open = true")
        for part, value in {"from": "0.1", "to": "0.5", "many": "3", "seeds": "4"}.items():
            self.choose(f"sweep-{part}", value)
        self.do("document.getElementById('sweep-form').requestSubmit()")
        self.until("document.querySelectorAll('#sweep-chart .curve').length === 2")
        files = {"spread.model": MODEL, "network.toml": NETWORK}
        words = ["count", "spread.model", "network.toml", "--rounds", "9..9", "--const", "infection=0.1,0.3,0.5", "--const", "seed=0..3", "--mean", "--quiet"]
        rows = [line.split(",") for line in run(*words, files=files)[1].decode().splitlines()]
        at = rows[0].index("ill mean")
        curve = self.curves("sweep-chart")["ill"]
        self.assertEqual(curve["xs"], [float(row[0]) for row in rows[1:]])
        self.assertEqual(curve["ys"], [float(row[at]) for row in rows[1:]])

    def test_a_shape_is_made_by_its_form(self):
        self.open(DISTANCE)
        self.choose("shape", "ring")
        self.settled()
        self.assertEqual(self.look("studio.workspace.network"), run("generate", "ring", "100")[1].decode())
        self.do("(() => { const it = document.querySelector('#shape-form input[name=N]'); it.value = '12'; it.dispatchEvent(new Event('change', {bubbles: true})); })()")
        self.settled()
        self.assertEqual(self.look("studio.workspace.network"), run("generate", "ring", "12")[1].decode())
        self.assertEqual(self.look("studio.run.nodes"), 12)
        self.assertIn("./unison generate ring 12 > network.toml", self.text("outputs"))

    def test_a_glider_is_drawn_and_runs(self):
        torus = run("generate", "torus", "10", "8", "--diagonals")[1].decode()
        self.open({"modelName": "life.model", "model": LIFE, "network": torus, "rounds": 4, "isCells": True})
        self.choose("click", "draw")
        glider = [(2, 1), (3, 2), (1, 3), (2, 3), (3, 3)]
        spots = self.node_spots([10 * row + column for column, row in glider])
        for at in (0, 1):
            self.browser.click(spots[at])
            self.settled()
        self.browser.drag(spots[2:])
        self.settled()
        self.do("studio.run.go(4)")
        alive = {node for node, values in enumerate(self.look("studio.run.shown().values")) if values == [1]}
        self.assertEqual(alive, {10 * (row + 1) + column + 1 for column, row in glider})
        self.do("studio.run.go(0)")
        alive = {node for node, values in enumerate(self.look("studio.run.shown().values")) if values == [1]}
        self.assertEqual(alive, {10 * row + column for column, row in glider})

    def test_no_stroke_is_lost(self):
        torus = run("generate", "torus", "10", "8", "--diagonals")[1].decode()
        self.open({"modelName": "life.model", "model": LIFE, "network": torus, "rounds": 1, "isCells": True})
        self.choose("click", "draw")
        nodes = [11, 33, 55, 77, 15, 28]
        for spot in self.node_spots(nodes):
            self.browser.click(spot)
        self.settled()
        self.do("studio.run.go(0)")
        alive = [node for node, values in enumerate(self.look("studio.run.shown().values")) if values == [1]]
        self.assertEqual(alive, sorted(nodes))

    def test_a_value_is_given_by_the_form_and_by_keys(self):
        self.open(DISTANCE)
        self.choose("node", "2")
        self.choose("value", "0")
        self.do("document.getElementById('set').focus()")
        self.browser.press("Enter")
        self.settled()
        self.do("studio.run.go(0)")
        self.assertEqual(self.look("studio.run.shown().values"), [[0], [4294967295], [0]])

    def test_links_and_nodes_by_hand(self):
        self.open(DISTANCE)
        self.click("add-node")
        self.settled()
        self.choose("link-from", "3")
        self.choose("link-to", "0")
        self.click("link")
        self.settled()
        self.do("studio.run.go(3)")
        self.assertEqual(self.look("studio.run.shown().values"), [[0], [1], [2], [1]])
        self.choose("link-from", "0")
        self.choose("link-to", "1")
        self.click("unlink")
        self.settled()
        self.do("studio.run.go(3)")
        self.assertEqual(self.look("studio.run.shown().values"), [[0], [4294967295], [4294967295], [1]])
        self.click("remove-node")
        self.settled()
        self.assertEqual(self.look("studio.run.nodes"), 3)

    def test_two_nodes_are_linked_by_clicks(self):
        self.open(DISTANCE)
        self.choose("click", "link")
        spots = self.node_spots([0, 2])
        self.browser.click(spots[0])
        self.browser.click(spots[1])
        self.settled()
        self.do("studio.run.go(3)")
        self.assertEqual(self.look("studio.run.shown().values"), [[0], [1], [1]])

    def test_steps_by_hand(self):
        self.open(DISTANCE)
        self.choose("manner", "write")
        self.settled()
        self.choose("hand-node", "0")
        told = []
        for button in ("hand-read", "hand-move", "hand-move"):
            self.click(button)
            self.settled()
            told.append(self.look("studio.run.shown().step.told"))
        self.assertEqual(told[0], "node 0 reads node 1, which has moved as often: takes dist=4294967295")
        self.assertEqual(told[1], "node 0 moves: dist=0, its state of round 1")
        self.assertEqual(told[2], "node 0 does not move: it has read 0 of 1 neighbours, and waits for node 1")
        self.click("hand-back")
        self.settled()
        self.assertEqual(self.look("studio.run.last"), 2)
        self.assertEqual(self.look("studio.workspace.script"), "0 reads all\n0 moves\n")

    def test_a_node_that_is_clicked_makes_the_next_step(self):
        self.open({**DISTANCE, "manner": "write"})
        self.browser.click(self.node_spots([2])[0])
        self.assertEqual(self.look("document.getElementById('hand-node').value"), "2")

    def test_schedules_of_a_daemon_and_nodes_that_do_not_wait(self):
        self.open(DISTANCE)
        self.choose("manner", "central")
        self.settled()
        files = {"distance.rules": DISTANCE["model"], "network.toml": PATH}
        schedule = run("schedule", "central", "distance.rules", "network.toml", "--stop", "3", "--count", "5000", files=files)[1].decode()
        self.assertEqual(self.look("studio.run.last"), len(schedule.splitlines()))
        self.click("naive")
        self.settled()
        self.assertNotEqual(self.look("studio.run.naive()"), None)

    def test_command_lines_do_the_same(self):
        self.open(EPIDEMIC)
        self.choose("shape", "random-tree")
        self.settled()
        self.choose("node", "0..3")
        self.click("set")
        self.settled()
        self.do("(() => { const it = document.querySelector('#constants input[type=text]'); it.value = '0.4'; it.dispatchEvent(new Event('change')); })()")
        self.settled()
        lines = self.look("[...document.querySelectorAll('#outputs code')].map((it) => it.textContent)")
        with tempfile.TemporaryDirectory() as folder:
            Path(folder, "unison").write_text(f'#!/bin/sh\n[ "$1" != page ] || set -- "$@" --viewer {TOP}/viewer/page.html\nexec {self.program} "$@"\n')
            Path(folder, "unison").chmod(0o755)
            Path(folder, "spread.model").write_text(MODEL)
            for line in lines:
                subprocess.run(["sh", "-ec", line], cwd=folder, check=True)
            self.assertEqual(Path(folder, "network.toml").read_text(), self.look("studio.workspace.network"))
            rows = [row.split(",") for row in Path(folder, "counts.csv").read_text().splitlines()]
            self.assertEqual(self.curves()["ill"]["ys"], [float(row[rows[0].index("ill")]) for row in rows[1:]])
            html = Path(folder, "run.html").read_text()
            shown = self.look("document.querySelector('iframe.seen').contentDocument.getElementById('run').textContent")
            self.assertEqual(re.search(r'id="run">(.*?)</script>', html, re.DOTALL).group(1), shown)
            self.assertGreaterEqual({path.suffix for path in Path(folder).iterdir()}, {".svg", ".csv", ".html", ".toml"})

    def test_a_command_line_is_copied(self):
        self.open(DISTANCE)
        self.do("[...document.querySelectorAll('#outputs button')].find((it) => it.textContent === 'Copy').id = 'copies'")
        self.click("copies")
        self.until("document.getElementById('copied').textContent === 'the command line is copied'")

    def test_files_are_saved(self):
        self.open(DISTANCE)
        self.do("(() => { window.saved = []; const made = URL.createObjectURL; URL.createObjectURL = (blob) => { saved.push(blob); return made.call(URL, blob); }; })()")
        self.do("[...document.querySelectorAll('#outputs button')].filter((it) => it.textContent === 'Save').forEach((it) => it.click())")
        titles = self.look("[...document.querySelectorAll('#outputs .name')].map((it) => it.textContent)")
        self.until(f"saved.length >= {len(titles)}")
        texts = self.look("Promise.all(saved.map((blob) => blob.text()))")
        files = {"distance.rules": DISTANCE["model"], "network.toml": PATH}
        self.assertIn(PATH, texts)
        self.assertIn("round,0,1,2,4294967295\n0,1,0,0,2\n1,1,1,0,1\n2,1,1,1,0\n3,1,1,1,0\n", texts)
        self.assertIn(run("image", "distance.rules", "network.toml", "--rounds", "0..3", files=files)[1].decode(), texts)
        self.assertTrue(any(text.startswith("\ufffdPNG") for text in texts))

    def test_a_workspace_is_saved_and_opens_again(self):
        self.open({**EPIDEMIC, "values": {"infection": "0.5"}, "seed": "3"})
        text = self.look("(() => { document.getElementById('save'); return JSON.stringify({kind: 'unison workspace', version: 1, ...studio.workspace}); })()")
        expected = self.curves()
        self.do(f"studio.begin({json.dumps(DISTANCE)})")
        self.settled()
        drop = f"(() => {{ const data = new DataTransfer(); data.items.add(new File([{json.dumps(text)}], 'spread.unison')); document.dispatchEvent(new DragEvent('drop', {{dataTransfer: data, cancelable: true}})); }})()"
        self.do(drop)
        self.until("studio.workspace.modelName === 'spread.model'")
        self.settled()
        self.assertEqual(self.curves(), expected)
        self.assertEqual(self.look("document.getElementById('seed').value"), "3")

    def test_a_list_that_is_dropped_is_imported(self):
        self.open(EPIDEMIC)
        drop = "(() => { const data = new DataTransfer(); data.items.add(new File(['ann bob\\nbob cid\\n'], 'friends.txt')); document.dispatchEvent(new DragEvent('drop', {dataTransfer: data, cancelable: true})); })()"
        self.do(drop)
        self.until("studio.workspace.names === 'ann\\nbob\\ncid\\n'")
        self.settled()
        self.assertEqual(self.look("studio.run.names"), ["ann", "bob", "cid"])
        self.assertIn("./unison import edges friends.txt --names network.names > network.toml", self.text("outputs"))

    def test_a_pattern_that_is_dropped_is_laid_on_the_grid(self):
        torus = run("generate", "torus", "10", "8", "--diagonals")[1].decode()
        self.open({"modelName": "life.model", "model": LIFE, "network": torus, "rounds": 4, "isCells": True})
        pattern = (TOP / "examples/glider.rle").read_text()
        self.do(f"(() => {{ const data = new DataTransfer(); data.items.add(new File([{json.dumps(pattern)}], 'glider.rle')); document.dispatchEvent(new DragEvent('drop', {{dataTransfer: data, cancelable: true}})); }})()")
        self.until("studio.workspace.network.includes('[set]')")
        self.settled()
        words = ("init", "n.toml", "--cells", "live=glider.rle@1,1", "--width", "10")
        self.assertEqual(self.look("studio.workspace.network"), run(*words, files={"n.toml": torus, "glider.rle": pattern})[1].decode())

    def test_a_rule_of_cells_is_a_model(self):
        self.open(DISTANCE)
        self.choose("rule", "B36/S23")
        self.do("document.getElementById('rule-form').requestSubmit()")
        self.until("studio.workspace.modelName === 'rule.model' && studio.workspace.network.includes('[set]')")
        self.settled()
        self.assertEqual(self.look("studio.workspace.model"), run("life-rule", "B36/S23")[1].decode())
        self.assertEqual(self.look("studio.run.nodes"), 576)
        self.choose("rule", "nothing")
        self.do("document.getElementById('rule-form').requestSubmit()")
        self.until("document.getElementById('trouble').textContent !== ''")

    def test_notes_of_cuts_stand_below_the_model(self):
        self.open({**DISTANCE, "modelName": "rank.rules", "model": "field dist = 1;\nnext dist = (total (n.dist * 850) / 100);\n"})
        faults = self.look("studio.faults()")
        files = {"rank.rules": self.look("studio.workspace.model"), "network.toml": PATH}
        told = run("why", "lockstep", "rank.rules", "network.toml", "--rounds", "3", files=files)[1].decode()
        notes = [line.split(": ", 2)[2] for line in told.splitlines() if line.startswith("note: ")]
        self.assertEqual(len(notes), 2)
        self.assertEqual([fault.split(", line 2 ")[1] for fault in faults], notes)
        self.assertEqual(self.look("document.querySelectorAll('#model-editor .back .wrong').length"), 0)
        self.assertGreater(self.look("document.querySelectorAll('#model-editor .back .noted').length"), 0)

    def test_a_file_of_no_known_kind_is_told(self):
        self.open(DISTANCE)
        self.do("(() => { const data = new DataTransfer(); data.items.add(new File(['x'], 'x.exe')); document.dispatchEvent(new DragEvent('drop', {dataTransfer: data, cancelable: true})); })()")
        self.until("document.getElementById('trouble').textContent.startsWith('x.exe: a workspace (.unison)')")

    def test_it_is_there_when_the_page_is_loaded_again(self):
        self.open({**EPIDEMIC, "values": {"infection": "0.5"}})
        expected = self.curves()
        self.browser.reload()
        self.settled()
        self.assertEqual(self.look("studio.workspace.values"), {"infection": "0.5"})
        self.assertEqual(self.curves(), expected)

    def test_two_tabs_are_two_workspaces(self):
        self.open(EPIDEMIC)
        back = self.browser.tab()
        self.open(DISTANCE)
        self.assertEqual(self.look("studio.run.nodes"), 3)
        back()
        self.assertEqual(self.look("[studio.workspace.modelName, studio.run.nodes]"), ["spread.model", 30])

    def test_runs_end_with_the_page(self):
        self.open(DISTANCE)
        before = set(children())
        endless = {**DISTANCE, "modelName": "a.rules", "model": "field dist = 0;\nnext dist = (dist + 1);\n", "rounds": 100000}
        self.do(f"studio.begin({json.dumps(endless)})")
        self.assertTrue(until(lambda: self.studio.runs.present))
        self.browser.go("about:blank")
        self.assertTrue(until(lambda: not self.studio.runs.present, 20), self.studio.runs.present)
        self.assertTrue(until(lambda: set(children()) <= before, 20))

    def test_a_studio_that_has_ended_is_told(self):
        self.open(DISTANCE)
        self.server.close()
        self.click("seed-next") if self.look("!document.getElementById('seed-label').hidden") else self.choose("rounds", "5")
        self.until("document.getElementById('trouble').textContent.startsWith('The studio does not answer')")

    def test_it_is_readable_at_320_pixels(self):
        self.browser.resize(500 if self.kind is Firefox else 320, 700)
        self.open(EPIDEMIC)
        if self.kind is Firefox:  # (whose windows are no narrower than 450 pixels)
            self.do("(document.documentElement.style.width = '320px')")
        wide = self.look("Math.max(document.getElementById('studio').scrollWidth, ...[...document.querySelectorAll('#studio section, #studio form, .editor')].map((it) => it.getBoundingClientRect().right))")
        self.assertLessEqual(wide, 500 if self.kind is Firefox else 320)

    def test_each_control_has_a_name_and_is_reached_by_tab(self):
        self.open(EPIDEMIC)
        bare = "[...document.querySelectorAll('input, select, textarea, button, iframe')].filter((it) => !(it.labels?.length || it.getAttribute('aria-label') || it.textContent.trim() || it.title)).map((it) => it.outerHTML.slice(0, 90))"
        self.assertEqual(self.look(bare), [])
        stuck = "[...document.querySelectorAll('button, select, input, textarea')].filter((it) => it.tabIndex < 0 && it.id !== 'opened').length"
        self.assertEqual(self.look(stuck), 0)
        self.assertEqual(self.look("['faults', 'copied', 'running'].map((id) => document.getElementById(id).getAttribute('role'))"), ["status"] * 3)
        self.do("document.getElementById('gallery').focus()")
        seen = []
        for _ in range(12):
            self.browser.press("Tab")
            seen.append(self.look("document.activeElement.id || document.activeElement.tagName"))
        self.assertIn("rounds", seen)
        self.assertIn("seed-next", seen)

    def test_typing_moves_no_round(self):
        self.open(EPIDEMIC)
        self.do("(() => { const area = document.querySelector('#model-editor textarea'); area.focus(); area.setSelectionRange(0, 0); })()")
        self.browser.press("ArrowRight")
        self.browser.type(" ")
        self.settled()
        self.assertEqual(self.look("studio.run.shown().at"), 0)
        self.assertEqual(self.look("studio.workspace.model.length"), len(MODEL) + 1)

    def test_the_place_stays_between_runs(self):
        self.open(EPIDEMIC)
        self.do("studio.run.go(5)")
        self.click("seed-next")
        self.settled()
        self.assertEqual(self.look("studio.run.shown().at"), 5)


class InChromium(Tests):
    kind = Chromium


class InFirefox(Tests):
    kind = Firefox


def load_tests(loader, _, pattern):
    """The tests in each browser, and not those of the classes above them."""
    return unittest.TestSuite(loader.loadTestsFromTestCase(case) for case in (InChromium, InFirefox))


if __name__ == "__main__":
    unittest.main()
