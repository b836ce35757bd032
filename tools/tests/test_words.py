"""The words of the commands: faults in one line, times and lists as SUMO reads them,
and output that cannot be written."""
import argparse
import json
import re
import subprocess
import unittest

from support import FORK, MAP, NUMBERED, PROGRAM, TOOLS, Case, needs_simulator
from streetsim.base.files import Fault, read_json
from streetsim.base.words import Parser, integer_within, names_in, paths_in, time_within
from streetsim.cli.given_words import given_words
from streetsim.model.folder import read_folder

ENTER = {"cmd": "enter", "plan": [0, 1], "lane": 0, "depart": 0}
VERSION_1 = {  # the options that tools of 1.0.0 told in their --help
    "run": "close counted edges every jobs joint junctions lights lost map merge out period priority program rescue "
    "rounds seeds seen stops sumo-output until workers works-limit",
    "study": "cluster jobs out precision program rounds",
    "compare": "attribute counts out sumo",
    "route": "anew before begin buffer change check classes close cluster dawdle end gap ignore-route-errors "
    "iterations jobs joint knowing lights lost map out output permissive program residence rounds run seed seeds share "
    "sign sizes slice tried trips turns until zone",
}


class Given(unittest.TestCase):
    def test_words_that_say_what_was_given(self):
        """What is as by default is not said, nor a word that is left out."""
        made = argparse.ArgumentParser()
        made.add_argument("files", nargs="*")
        made.add_argument("--seed", type=int, default=3)
        made.add_argument("--anew", action="store_true")
        made.add_argument("--close", action="append", default=[])
        made.add_argument("--routes", nargs="+")
        made.add_argument("--out", default="x")
        words = ["--seed=4", "--anew", "--close=a", "--close=b", "--routes", "r", "s"]
        self.assertEqual(given_words(made, made.parse_args(["f", *words, "--out", "y"]), ["out"]), words)
        self.assertEqual(given_words(made, made.parse_args(["f", "--seed", "3"]), ["out"]), [])


    def test_the_first_word_that_a_command_does_not_have(self):
        """Short forms are known, and what stands behind a word is not looked at."""
        made = Parser(prog="streetsim-x", description="x")
        made.add_argument("--until")
        for words, told in ((["--until", "--colour"], None), (["--unt=9", "x"], None), (["--", "--colour"], None),
                            (["--until", "9", "--colour", "red"], "unrecognized arguments: --colour")):  # fmt: skip
            self.assertEqual(made.unknown_in(words), told)


class Words(Case):
    def test_faults_are_one_line(self):
        for tool, words in (
            ("import", ["x.net.xml", "--routs", "x.rou.xml"]),
            ("run", ["x.jsonl", "--map", "m", "--out", "o", "--until", "soon"]),
            ("run", ["x.jsonl", "--map", "m", "--out", "o", "--until", 9, "--colour", "red"]),
            ("plot", ["kites", "out"]),
            ("play", ["out", "-o", "x.html", "--first", "x"]),
            ("compare", ["out"]),
            ("signals", ["x"]),
            ("study", []),
        ):
            with self.subTest(tool=tool, words=words):
                told, said = self.tool(tool, *words, status=2)
                self.assertEqual((told, said.count("\n"), said.split(": ")[0]), ("", 1, f"streetsim-{tool}"))
                self.assertTrue(said.endswith(f"(what may be given: streetsim-{tool} --help)\n"), said)

    def test_words_of_version_1(self):
        """Each of them is still told, or the page of changes says what replaces it."""
        changes = (TOOLS.parent / "CHANGELOG.md").read_text(encoding="utf-8").partition("## 1.0.0")[0]
        for tool, names in VERSION_1.items():
            told, _ = self.tool(tool, "--help")
            gone = [name for name in names.split() if not re.search(rf"--{name}\b(?!-)", told)]
            self.assertEqual([name for name in gone if f"`--{name}`" not in changes], [], tool)

    def test_words_without_a_name(self):
        """As a variable of the shell leaves one that is not set."""
        run = ["x.jsonl", "--map", "m", "--out", "o"]
        for tool, words, told in (
            ("run", [*run, "--close", ""], "--close: '' names nothing"),
            ("run", [*run, "--edges= ,"], "--edges: ' ,' names nothing"),
            ("run", [*run, "--seeds", ""], "--seeds: '' names nothing"),
            ("import", ["x.net.xml", "--routes", "", "-o", "x", "--map", "m"], "--routes: '' names nothing"),
            ("import", ["x.net.xml", "", "-o", "x", "--map", "m"], "'' names nothing"),
            ("compare", ["out", "--sumo", ","], "--sumo: ',' names nothing"),
            ("plot", ["fundamental", "out", "--edges", "", "-o", "x.png"], "--edges: '' names nothing"),
            ("signals", ["x", "--map", "m", "--until", 9, "--out", "o", "--plans", ""], "--plans: '' names nothing"),
        ):
            with self.subTest(tool=tool, words=words):
                self.assertIn(f"streetsim-{tool}: {told} (what may be given: ", self.tool(tool, *words, status=2)[1])
        made = Parser(prog="x")
        made.add_argument("--title", default="a")
        self.assertEqual(made.parse_args(["--title", ""]).title, "")

    def test_names_that_begin_with_a_dash(self):
        """As the other direction of an edge of SUMO's; not as the options -h and -o, with something right behind."""
        made = Parser(prog="x")
        for name, more in (("net", {}), ("--close", {}), ("--sign", {"nargs": "+"}), ("-o", {})):
            made.add_argument(name, **more)
        for name in ("-12", "-hill_0:0-20:30-40", "-office", "-J1"):
            with self.subTest(name):
                words = made.parse_args([name, "--close", name, "--sign", name, "-13", "-o", name])
                self.assertEqual(vars(words), {"net": name, "close": name, "sign": [name, "-13"], "o": name})
        for name in ("-o", "--12"):
            self.assertEqual(made.parse_args(["net", f"--close={name}"]).close, name)
            with self.assertRaisesRegex(Fault, "--close: expected one argument, which goes as --close=-.. where it"):
                made.parse_args(["net", "--close", name])

    def test_outputs_that_are_read(self):
        run, mapped = self.write("x.jsonl", json.dumps({"cmd": "load", **NUMBERED})), self.write("x.json", "{}")
        told = self.tool("live", run, "--map", mapped, "--keep", run, status=2)[1]
        self.assertIn("--keep names a file that is read", told)

    def test_outputs_whose_folder_is_not_there(self):
        """Told before anything is written, or read."""
        lost = self.folder / "none"
        outputs = "-o", self.folder / "x.jsonl", "--map", self.folder / "x.json", "--warnings", lost / "w.csv"
        said = self.tool("import", self.write("x.net.xml", FORK), *outputs, status=2)[1]
        self.assertEqual(said, f"streetsim-import: {lost}/w.csv: there is no folder {lost}\n")
        said = self.tool("report", "out", "-o", self.folder / "x.html", "--csv", lost / "c.csv", status=2)[1]
        self.assertEqual(said, f"streetsim-report: {lost}/c.csv: there is no folder {lost}\n")
        self.assertEqual([path.name for path in self.folder.iterdir()], ["x.net.xml"])

    def test_times(self):
        time = time_within(0, 100_000)
        told = [time(text) for text in ("90", "90.0", "01:00:00", "00:01:30", "1:00:00:01", "7:30")]
        self.assertEqual(told, [90, 90, 3600, 90, 86_401, 27_000])
        made = Parser(prog="x")
        made.add_argument("--until", type=time_within(1, 86_400))
        for text in ("0", "1.5", "24:00:01", "24:01", "soon", "2:60", "2:0", "1:2:3:4:5", "nan"):
            with self.subTest(text), self.assertRaisesRegex(Fault, f"--until: '{text}' is not 1 to 86,400 s"):
                made.parse_args(["--until", text])

    def test_lists(self):
        self.assertEqual(names_in(" A B,C ,D"), ["A", "B", "C", "D"])
        made = Parser(prog="x")
        made.add_argument("--n", type=integer_within(1, 3))
        self.assertEqual(made.parse_args(["--n", "3"]).n, 3)
        comma = self.write("a,b.xml", "")
        self.assertEqual(paths_in([comma, "c.xml,d.xml", "e.xml"]), [comma, "c.xml", "d.xml", "e.xml"])


@needs_simulator
class Runs(Case):
    def words(self, *more):
        run = self.write("run.jsonl", f"{json.dumps({'cmd': 'load', **NUMBERED})}\n{json.dumps(ENTER)}\n")
        mapping = self.write("map.json", json.dumps({**MAP, "cars": ["v"]}))
        return [run, "--map", mapping, "--program", PROGRAM, "--out", self.folder / "out", *more]

    def test_times_and_lists_of_a_run(self):
        self.tool("run", *self.words("--until", "00:01:00", "--close", "b_0:0-75:00:00:10-00:00:50", "--edges", "a,b"))
        self.assertEqual((self.folder / "out/summary.csv").read_text().splitlines()[-1].split(",")[0], "60")
        self.assertEqual(read_json(self.folder / "out/setting.json", ["every"])["every"], 10)
        _, said = self.tool("run", *self.words("--until", 60, "--edges", "a,z"), status=2)
        self.assertEqual(said, "streetsim-run: --edges: the map has no edge 'z'\n")
        _, said = self.tool("run", *self.words("--until", 60, "--edges", "a", "--every", 0), status=2)
        self.assertEqual(said, "streetsim-run: --edges are those whose lanes are polled, and --every 0 polls none\n")

    def test_nothing_is_polled(self):
        """A run that ends before its first poll; one at the last second is enough."""
        _, said = self.tool("run", *self.words("--until", 100, "--every", 200), status=2)
        told = "the first poll of the lanes is at 200 s, and the run ends at 100 s"
        advice = "take --every 100 or less, or --every 0, which polls none"
        self.assertEqual(said, f"streetsim-run: --every 200: {told}: {advice}\n")
        for words in (("--until", 100, "--every", 100), ("--until", 100, "--every", 0)):
            self.assertEqual(self.tool("run", *self.words(*words))[1], "")
        _, said = self.tool("run", *self.words("--every", 600))
        self.assertEqual(said, "lanes were never polled: the run ended at 60 s, and the first poll is at 600 s\n")

    def test_stretches_with_commas(self):
        """Both lanes are closed in the last step; an edge is told its lanes."""
        works = "a_0:0-75:20-30,b_0:0-75:00:00:10-00:00:50"
        self.tool("run", *self.words("--until", 25, "--every", 1, "--close", works))
        *_, last = read_folder(self.folder / "out").polls()
        self.assertEqual([(lane[0], lane[4]) for lane in last["lanes"]], [(0, [[0, 9]]), (1, [[0, 9]])])
        _, said = self.tool("run", *self.words("--until", 60, "--close", "b:0-75:10-50"), status=2)
        self.assertEqual(said, "streetsim-run: --close 'b:0-75:10-50': the map has no lane 'b', but b_0\n")

    def test_times_of_a_study(self):
        self.words()
        text = (
            'run = "run.jsonl"\nmap = "map.json"\nuntil = "00:01:00"\nseeds = "1"\n'
            'departures = "listed"\n[variant.given]\n'
        )
        words = [self.write("study.toml", text), "--program", PROGRAM, "--jobs", 1, "--out", self.folder / "out"]
        self.assertRegex(self.tool("study", *words)[0], "given: mean trip [0-9.]+ s")

    def test_standard_output_that_is_full(self):
        for words in ([TOOLS / "streetsim-run", *self.words("--until", 60)], [TOOLS / "streetsim-run", "--help"]):
            with open("/dev/full", "w") as full:
                done = subprocess.run(
                    list(map(str, words)), stdout=full, stderr=subprocess.PIPE, text=True, check=False
                )
            self.assertEqual(
                (done.returncode, done.stderr), (2, "streetsim-run: standard output: No space left on device\n")
            )


if __name__ == "__main__":
    unittest.main()
