"""Words that are not given: files named after those that are, SUMO's configuration in the place of the network, the end
of a run; and times and seeds as people write them."""
import csv
import gzip
import json
import os
import shlex
import shutil
import subprocess
import unittest
from argparse import Namespace

from support import FORK, MAP, NUMBERED, PROGRAM, TOOLS, Case, needs_simulator

from streetsim.base.files import Fault, read_json
from streetsim.base.seeds import seeds_of, seeds_text
from streetsim.cli.defaults import map_beside, name_of_network, stem_of

CONFIGURATION = (
    '<configuration><input><net-file value="x.net.xml"/><route-files value="x.rou.xml"/></input>'
    '<time><begin value="10"/><end value="{end}"/></time></configuration>'
)
ROUTES = '<routes><vehicle id="v" depart="12"><route edges="a b"/></vehicle></routes>'
CORRIDOR = TOOLS / "examples/corridor"


class Names(Case):
    def test_names_of_files_are_made_of_those_that_are_given(self):
        for path, name in (
            ("day/zero.jsonl", "zero"), ("zero.jsonl.gz", "zero"), ("a.net.xml.gz", "a"), ("b/x.sumocfg", "x"),
            ("run/", "run"), ("two.parts", "two.parts"), ("study.toml", "study"),
        ):
            self.assertEqual(stem_of(path), name)
        self.assertEqual(map_beside("day/zero.jsonl.gz"), "day/zero.map.json")
        for configuration, name in ((None, "town"), ("b/x.sumocfg", "x")):
            words = Namespace(net="day/town.net.xml.gz", configuration=configuration)
            self.assertEqual(name_of_network(words), name)

    def test_seeds_are_numbers_and_ranges(self):
        self.assertEqual(list(seeds_of("1,4,7-9", "--seeds")), [1, 4, 7, 8, 9])
        self.assertEqual(list(seeds_of("7-9,1", "--seeds")), [1, 7, 8, 9])
        for text in ("1,,2", "1,1", "1-3,2", "3-1", "1;2", "1-600,700-1300", str(2**64)):
            with self.subTest(text), self.assertRaisesRegex(Fault, "--seeds '.*': expected FIRST-LAST, or such"):
                seeds_of(text, "--seeds")
        for text in ("1,4,7-9", "3", "1-2", "5,7"):
            self.assertEqual(seeds_text(seeds_of(text, "--seeds")), text)


class InAFolder(Case):
    """Tools that run in a folder of their own, as a user's shell does."""

    def tool_here(self, name, *words, status=0):
        done = subprocess.run(
            [TOOLS / f"streetsim-{name}", *map(str, words)], cwd=self.folder, capture_output=True, text=True,
            check=False, env={**os.environ, **({"STREETSIM_PROGRAM": PROGRAM} if PROGRAM else {})},
        )  # fmt: skip
        if status is not None:
            self.assertEqual(done.returncode, status, done.stderr)
        return done.stdout, done.stderr

    def given(self, end=60):
        self.write("x.net.xml", FORK)
        self.write("x.rou.xml", ROUTES)
        self.write("x.sumocfg", CONFIGURATION.format(end=end))

    def test_an_import_is_called_by_its_network_or_configuration(self):
        self.given()
        _, said = self.tool_here("import", "x.net.xml", "--routes", "x.rou.xml")
        self.assertIn("written: --output x.jsonl, --map x.map.json\n", said)
        os.rename(self.folder / "x.sumocfg", self.folder / "y.sumocfg")
        self.tool_here("import", "y.sumocfg")
        self.assertEqual(read_json(self.folder / "y.map.json", ["cars"])["cars"], ["v"])
        _, said = self.tool_here("import", "x.net.xml", "-o", "r.jsonl", "--map", "m.json")
        self.assertNotIn("written: ", said)

    def test_the_end_of_a_configuration_is_in_the_map(self):
        self.given()
        for words, end in ((["x.sumocfg"], 60), (["-c", "x.sumocfg"], 60), (["x.net.xml"], 0)):
            self.tool_here("import", *words, "-o", "r.jsonl")
            self.assertEqual(read_json(self.folder / "r.map.json", ["nodes"]).get("end", 0), end)
        self.given(end="-1")
        self.tool_here("import", "x.sumocfg", "-o", "r.jsonl")
        self.assertNotIn("end", read_json(self.folder / "r.map.json", ["nodes"]))

    def test_a_run_without_its_map_says_where_it_was_looked_for(self):
        self.write("r.jsonl", json.dumps({"cmd": "load", **NUMBERED}))
        for tool in ("run", "live"):
            _, said = self.tool_here(tool, "r.jsonl", status=2)
            told = f"streetsim-{tool}: r.jsonl: there is no map r.map.json beside it: give --map\n"
            self.assertEqual(said, told)
        self.assertEqual(sorted(path.name for path in self.folder.iterdir()), ["r.jsonl"])

    def test_a_search_for_routes_needs_trips_or_a_configuration(self):
        self.given()
        _, said = self.tool_here("route", "x.net.xml", status=2)
        self.assertIn("no trips: give --trips FILE", said)

    @needs_simulator
    def test_a_run_finds_its_map_and_has_a_folder_of_its_name(self):
        self.given()
        self.tool_here("import", "x.sumocfg")
        told, said = self.tool_here("run", "x.jsonl")
        self.assertRegex(told, "^1 vehicles, 1 arrived, mean trip [0-9.]+ s, 0 rescues\n$")
        self.assertIn("written: --out x-run\n", said)
        self.assertEqual((self.folder / "x-run/summary.csv").read_text().splitlines()[-1].split(",")[0], "60")
        self.tool_here("run", "x.jsonl", "--until", "00:01:30", "--seeds", "1,3")
        self.assertEqual(sorted(path.name for path in (self.folder / "x-seeds").glob("seed-*")), ["seed-1", "seed-3"])
        last = (self.folder / "x-seeds/seed-3/summary.csv").read_text().splitlines()[-1]
        self.assertEqual(last.split(",")[0], "90")

    @needs_simulator
    def test_a_study_ends_with_the_configuration(self):
        self.given(end=14)
        self.tool_here("import", "x.sumocfg")
        text = 'run = "x.jsonl"\nmap = "x.map.json"\nseeds = "1,3"\n[variant.a]\n[variant.b]\ndawdle = 0\n'
        self.write("s.toml", text)
        self.tool_here("study", "s.toml")
        with open(self.folder / "s-answer/runs.csv", encoding="utf-8") as file:
            rows = list(csv.DictReader(file))
        self.assertEqual([(row["variant"], row["seed"], row["arrived"]) for row in rows], [
            ("a", "1", "0"), ("a", "3", "0"), ("b", "1", "0"), ("b", "3", "0"),
        ])  # fmt: skip
        self.write("s.toml", "until = 60\n" + text)
        self.tool_here("study", "s.toml", "--out", "o")
        self.assertIn(",1,", (self.folder / "o/runs.csv").read_text().splitlines()[1])

    @needs_simulator
    def test_seeds_with_gaps_can_be_checked(self):
        self.given()
        self.tool_here("import", "x.sumocfg")
        self.tool_here("run", "x.jsonl", "--seeds", "1,3", "--out", "o")
        self.assertIn("is that of a run", self.tool_here("check", "o")[0])

    @needs_simulator
    def test_pages_and_pictures_are_called_by_their_run(self):
        self.given()
        self.tool_here("import", "x.sumocfg")
        self.tool_here("run", "x.jsonl", "--every", 1)
        self.tool_here("play", "x-run")
        self.assertTrue((self.folder / "x-run.play.html").exists())

    @needs_simulator
    def test_routes_are_found_for_a_configuration(self):
        self.given()
        self.write("x.rou.xml", '<routes><trip id="v" depart="12" from="a" to="b"/></routes>')
        self.tool_here("route", "x.sumocfg", "--iterations", 1, "--check", "2-3")
        self.assertIn('edges="a b"', (self.folder / "x.found.rou.xml").read_text())
        self.assertTrue((self.folder / "x-routes").is_dir())

    @needs_simulator
    def test_a_search_for_signals_needs_the_run_and_the_network(self):
        for name in ("corridor.net.xml.gz", "corridor.rou.xml"):
            shutil.copy(CORRIDOR / name, self.folder)
        with gzip.open(self.folder / "corridor.net.xml.gz") as file:
            self.assertIn(b"tlLogic", file.read())
        self.write("c.sumocfg", CONFIGURATION.replace("x.net.xml", "corridor.net.xml.gz").format(end=600).replace(
            "x.rou.xml", "corridor.rou.xml"
        ))  # fmt: skip
        self.tool_here("import", "c.sumocfg")
        words = "c.jsonl", "--plans", "c.sumocfg", "--budget", 3, "--check", "101-102"
        told, said = self.tool_here("signals", *words, status=None)
        self.assertTrue((self.folder / "c.found.add.xml").exists(), told)
        self.assertTrue((self.folder / "c-signals").is_dir())
        self.its_commands_show_the_plan(said)

    def its_commands_show_the_plan(self, said):
        """The commands that a search prints import the plan found, run both plans, and make a report of them."""
        commands = [shlex.split(line)[1:] for line in said.splitlines() if line.startswith("$ ")]
        tools = [name.removeprefix("streetsim-") for name, *_ in commands]
        self.assertEqual(tools, ["import", "run", "run", "report"])
        for name, (_, *words) in zip(tools, commands):
            self.tool_here(name, *words)
        found = [json.loads((self.folder / name).read_text())["options"] for name in ("c.map.json", "c.found.map.json")]
        self.assertEqual(*found)
        self.assertEqual(len(list(self.folder.glob("*.html"))), 1)


if __name__ == "__main__":
    unittest.main()
