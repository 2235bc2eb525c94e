"""What the server answers: of each command the bytes of the program, run by itself; by hand where that is short; tables and gallery as the pages say."""

import json
import re
import unittest

from support import TOP, Beginning, Case, run

DISTANCE = {
    "d.rules": "field dist = 4294967295;\nnext dist = (dist min least (n.dist + 1));\n",
    "p.toml": "links = [[0, 1], [1, 2]]\nnodes = 3\n[set]\ndist = [[0, 0]]\n",
}
MODEL = {
    "m.model": "const p = chance(0.5);\nstates person { well, ill }\nfield state: person = well;\nnext state = if random() < p then ill else state;\n",
    "p.toml": DISTANCE["p.toml"].split("[set]")[0],
}
FAULTY = {**MODEL, "m.model": "field s = 0;\nnext s = if votes > 1 then 1 else s;\n"}
EDGES = {"friends.txt": "ann bob 3\nbob, cid\n"}
SAME = [
    (DISTANCE, "count d.rules p.toml --rounds 0..5"),
    (DISTANCE, "watch d.rules p.toml --rounds 0..3 --format csv"),
    (DISTANCE, "image d.rules p.toml --rounds 0..3"),
    (DISTANCE, "image d.rules p.toml --rounds 1..1 --links"),
    (DISTANCE, "settle d.rules p.toml --rounds 9"),
    (DISTANCE, "cuts d.rules p.toml --rounds 2"),
    (DISTANCE, "info p.toml"),
    (DISTANCE, "schedule random d.rules p.toml --stop 2 --seed 3"),
    (MODEL, "count m.model p.toml --rounds 0..4 --const p=0.25 --const seed=1..20 --mean"),
    (MODEL, "expand m.model"),
    (MODEL, "why lockstep m.model p.toml --rounds 3"),
    (FAULTY, "why lockstep m.model p.toml --rounds 3"),
    (FAULTY, "count m.model p.toml --rounds 0..3"),
    (EDGES, "import edges friends.txt --names network.names"),
    ({}, "generate torus 4 5 --diagonals"),
    ({}, "generate random 20 --links 30 --seed 7"),
    ({}, "generate nothing 5"),
    ({}, "life-rule B36/S23"),
]


class Answers(Case):
    def test_answers_are_those_of_the_program(self):
        for files, line in SAME:
            words = line.split()
            status, output, told, written = run(*words, files=files)
            front, answered = self.answer(*words, files=files)
            with self.subTest(line):
                self.assertEqual((front["status"], answered, front["told"], front["files"]), (status, output, told, written))

    def test_standard_input_is_given(self):
        network = self.answer("generate", "path", "3")[1].decode()
        words = ("init", "-", "--set", "s=1:5")
        self.assertEqual(self.answer(*words, input=network)[1], run(*words, input=network.encode())[1])

    def test_pages_are_put_into_the_viewer(self):
        words = ("page", "d.rules", "p.toml", "--rounds", "0..2")
        viewer = TOP / "viewer" / "page.html"
        output = self.answer(*words, files=DISTANCE)[1]
        self.assertEqual(output, run(*words, "--viewer", str(viewer), files=DISTANCE)[1])
        before, after = viewer.read_text().split("@RUN@")
        data = json.loads(output.decode().removeprefix(before).removesuffix(after))
        self.assertEqual(data["states"], [[0, 4294967295, 4294967295], [0, 1, 4294967295], [0, 1, 2]])

    def test_a_count_worked_out_by_hand(self):
        output = self.answer("count", "d.rules", "p.toml", "--rounds", "0..2", "--quiet", files=DISTANCE)[1]
        self.assertEqual(output, b"round,0,1,2,4294967295\n0,1,0,0,2\n1,1,1,0,1\n2,1,1,1,0\n")

    def test_a_fault_has_its_place(self):
        front, output = self.answer("why", "lockstep", "m.model", "p.toml", "--rounds", "3", files=FAULTY)
        self.assertEqual(front["status"], 3)
        self.assertTrue(output.startswith(b"m.model:2:13: "), output)

    def test_names_come_along(self):
        front, _ = self.answer("import", "edges", "friends.txt", "--names", "network.names", files=EDGES)
        self.assertEqual(front["files"], {"network.names": "ann\nbob\ncid\n"})


class Tables(Case):
    def test_shapes_are_those_of_the_page_of_the_command(self):
        page = (TOP / "docs/commands/generate.md").read_text()
        listed = {line.split()[1].strip("`") for line in page.splitlines() if re.match(r"\| `[a-z-]+ [A-Z]", line)}
        table = json.loads(self.get("table/generate")[2])
        self.assertEqual({shape["name"] for shape in table}, listed)
        torus = next(shape for shape in table if shape["name"] == "torus")
        self.assertEqual([it["name"] for it in torus["arguments"]], ["W", "H"])
        self.assertIn("--diagonals", [it["name"] for it in torus["options"]])
        random = next(shape for shape in table if shape["name"] == "random")
        self.assertEqual([it["name"] for it in random["options"] if it["isNeeded"]], ["--links", "--seed"])

    def test_daemons_are_those_of_the_page_of_the_command(self):
        page = (TOP / "docs/commands/schedule.md").read_text()
        names = {it["name"] for it in json.loads(self.get("table/schedule")[2])}
        self.assertTrue(all(f"`{name}" in page for name in names), names)
        self.assertLess({"sweeps", "random", "starve", "central", "synchronous", "distributed", "adversary", "write"}, names)

    def test_other_tables_are_not_there(self):
        for name in ("page", "../start", ""):
            self.assertEqual(self.get(f"table/{name}")[0], 404)

    def test_what_the_page_begins_with(self):
        start = json.loads(self.get("start")[2])
        self.assertEqual(start["called"], "./unison")
        self.assertEqual({entry["part"] for entry in start["gallery"]}, {"Models", "Cookbook", "Examples"})


    def told(self, **known):
        self.serve(self.program, beginning=Beginning(**known))
        return json.loads(self.get("start")[2])["answers"]

    def test_the_page_says_which_program_answers(self):
        self.assertEqual(self.told(is_proved=True), "Answers come from the proved program.")
        note = "this is the quick program; ./unison prove makes the proved one"
        self.assertEqual(self.told(note=note), f"Answers come from a program that is not proved, and slow: {note}")
        self.assertEqual(self.told(), f"Answers come from {self.program}, of which it is not known here whether it is proved.")


class Gallery(Case):
    def test_each_entry_runs(self):
        entries = json.loads(self.get("start")[2])["gallery"]
        self.assertGreaterEqual(len(entries), 35)
        for entry in entries:
            with self.subTest(entry["name"]):
                self.assertTrue(entry["about"], "no sentence")
                got = json.loads(self.get(f"gallery/{entry['name']}")[2])
                self.assertEqual(got["model"], (TOP / entry["name"]).read_text())
                files, network = {got["name"]: got["model"]}, got["network"]
                for words in got["made"]:
                    network = self.answer(*words, files=files, input=network)[1].decode()
                files[got["networkName"]] = network
                words = ("why", "lockstep", got["name"], got["networkName"], "--rounds", str(got["rounds"]))
                self.assertEqual(self.answer(*words, files=files)[0]["status"], 0)

    def test_all_models_and_programs_are_in_it(self):
        entries = {entry["name"] for entry in json.loads(self.get("start")[2])["gallery"]}
        there = {str(path.relative_to(TOP)) for folder in ("models", "cookbook", ".") for path in (TOP / "examples" / folder).glob("*.*") if path.suffix in (".model", ".rules")}
        self.assertEqual(entries, there)


if __name__ == "__main__":
    unittest.main()
