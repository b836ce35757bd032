"""Installing by pip without a network, and which program the tools run."""
import json
import os
import re
import shutil
import subprocess
import sys
import tempfile
import tomllib
import unittest
from contextlib import redirect_stderr
from importlib.util import find_spec
from io import StringIO
from pathlib import Path
from unittest.mock import patch

from support import DATA, MAP, NUMBERED, PROGRAM, TOOLS, Case, lane, needs_package, needs_simulator, net, shown_run
from streetsim.base.files import Fault
from streetsim.base import program
from streetsim.base.program import BUILT, MARK, UNPROVED, find_program, is_marked

COMMANDS = (
    "calibrate", "check", "compare", "demand", "example", "export", "import", "junction", "live", "open",
    "play", "plot", "report", "route", "run", "signals", "study", "sumo",
)
PIP = [sys.executable, "-m", "pip"] if find_spec("pip") else [shutil.which("pip")] if shutil.which("pip") else None


def environment(**values):
    """This one's, without a program, be it one that is built here."""
    kept = {name: value for name, value in os.environ.items() if name != "STREETSIM_PROGRAM"}
    return {**kept, "STREETSIM_UNBUILT": "1", **values}


class Commands(Case):
    def test_each_tool_is_installed(self):
        project = tomllib.loads((TOOLS / "pyproject.toml").read_text())["project"]
        self.assertEqual(sorted(project["scripts"]), sorted(path.name for path in TOOLS.glob("streetsim-*")))


@needs_package("python3-pip", PIP)
class Install(Case):
    def test_commands_and_package(self):
        """Without an index, so that nothing can be downloaded, NumPy neither; nothing is left beside the sources."""
        before = {path for path in TOOLS.iterdir() if path.name != "__pycache__"}
        place = self.folder / "place"
        words = [*PIP, "install", "--quiet", "--no-deps", "--target", place, "./tools"]
        variables = environment(PIP_NO_INDEX="1", PIP_FIND_LINKS="", PYTHONPATH=str(place))
        subprocess.run(words, cwd=TOOLS.parent, env=variables, check=True, capture_output=True)
        self.assertEqual({path for path in TOOLS.iterdir() if path.name != "__pycache__"}, before)
        self.assertEqual(
            sorted(path.name for path in (place / "bin").iterdir()), [f"streetsim-{name}" for name in COMMANDS]
        )
        for name in COMMANDS:
            told = subprocess.run(
                [place / f"bin/streetsim-{name}", "--help"], env=variables, capture_output=True, text=True, check=True
            )
            self.assertTrue(told.stdout.startswith(f"usage: streetsim-{name} "), told.stdout)
        given = self.write("x.net.xml", net([("a", "A", "B", [lane("a", 0)])], []))
        words = [
            place / "bin/streetsim-import", given, "-o", self.folder / "run.jsonl", "--map", self.folder / "map.json",
        ]
        told = subprocess.run(words, env=variables, capture_output=True, text=True, check=True).stderr
        self.assertIn("2 nodes, 1 links, 0 turns, 0 signals, 0 vehicles", told)
        words = [place / "bin/streetsim-junction", "--template", "tee", "-o", self.folder / "tee.csv"]
        subprocess.run(words, env=variables, check=True, capture_output=True)
        self.assertIn("JUNCTIONS", (self.folder / "tee.csv").read_text(encoding="utf-8"))


@needs_package("python3-pip", PIP)
@needs_simulator
class Installed(Case):
    """In an environment of its own, as tools/README.md makes it, far from the sources."""

    @classmethod
    def setUpClass(cls):
        made = tempfile.TemporaryDirectory()
        cls.addClassCleanup(made.cleanup)
        cls.place = Path(made.name).resolve() / "installed"
        cls.do([sys.executable, "-m", "venv", "--system-site-packages", "--without-pip", cls.place])
        cls.do(
            [
                *PIP, "--python", cls.place / "bin/python", "install", "--quiet", "--no-index", "--no-deps",
                "--no-build-isolation", TOOLS,
            ]
        )

    @staticmethod
    def do(words, folder="/"):
        """Runs a command where no path leads to the sources; gives what it prints."""
        variables = environment(STREETSIM_PROGRAM=PROGRAM)
        variables.pop("PYTHONPATH", None)
        done = subprocess.run(
            [*map(str, words)], cwd=folder, env=variables, capture_output=True, text=True, check=False
        )
        if done.returncode:
            raise AssertionError(f"{words[0]}: status {done.returncode}: {done.stderr}")
        return done.stdout

    def installed(self, name, *words):
        return self.do([self.place / f"bin/streetsim-{name}", *words], self.folder)

    def imported(self):
        corridor = TOOLS / "examples/corridor"
        words = [
            corridor / "corridor.net.xml.gz", "--routes", corridor / "corridor.rou.xml", "-o", "zero.jsonl",
            "--map", "zero.map.json",
        ]
        self.installed("import", *words)
        return words

    def test_what_is_imported_lies_in_the_environment(self):
        told = self.do(
            [
                self.place / "bin/python",
                "-c",
                "import streetsim.client, streetsim.traci; print(streetsim.client.__file__)",
            ]
        )
        self.assertTrue(Path(told.strip()).resolve().is_relative_to(self.place), told)

    def test_walk(self):
        """The figures are those of the walk in tools/README.md."""
        words = self.imported()
        told = self.installed(
            "run", "zero.jsonl", "--map", "zero.map.json", "--until", 4500, "--sumo-output", "tripinfo", "--out", "zero"
        )
        self.assertEqual(told, shown_run())
        mean = told.split("mean trip ")[1].split(",")[0]
        told = self.installed("compare", "zero", "--sumo", "zero/sumo/tripinfo.xml")
        self.assertIn(f"mean trip of these: {mean} here, {mean} in SUMO (+0.0 %)\ntrip by trip: r = 1.00\n", told)
        self.assertIn(" steps, ", self.installed("play", "zero", "--first", 1800, "--last", 1810, "-o", "zero.html"))
        page = (self.folder / "zero.html").read_text()
        self.assertIn((TOOLS / "streetsim/report/player.js").read_text(), page)
        made = (self.folder / "zero.jsonl").read_bytes()
        self.tool("import", *words[:3], "-o", self.folder / "own.jsonl", "--map", self.folder / "own.map.json")
        self.assertEqual((self.folder / "own.jsonl").read_bytes(), made)

    @needs_package("python3-matplotlib", find_spec("matplotlib"))
    def test_a_picture(self):
        self.imported()
        self.installed("run", "zero.jsonl", "--map", "zero.map.json", "--until", 300, "--out", "zero")
        self.installed("plot", "map", "zero", "-o", "map.svg")
        self.assertIn("Mean density", (self.folder / "map.svg").read_text())


class Examples(Case):
    def test_all_but_pictures_go_into_a_folder(self):
        told, _ = self.tool("example", "corridor", "--out", self.folder / "walk")
        self.assertEqual(told, f"6 files in {self.folder / 'walk'}\n")
        for name in ("corridor.net.xml.gz", "corridor.rou.xml", "wave.add.xml", "counts.csv", "study.toml", "field.py"):
            given = (TOOLS / "examples/corridor" / name).read_bytes()
            self.assertEqual((self.folder / "walk" / name).read_bytes(), given)
        self.tool("example", "sessions", "--out", self.folder / "walk")
        self.assertTrue((self.folder / "walk/clients/planner.jsonl").exists())

    def test_networks_with_their_demand(self):
        """They are those of the tests: copies, as the gate refuses links."""
        for name in ("town", "grid"):
            self.tool("example", name, "--out", self.folder / name)
            for end in ("net.xml.gz", "rou.xml.gz"):
                copy = self.folder / name / f"{name}.{end}"
                self.assertFalse(copy.is_symlink())
                self.assertEqual(copy.read_bytes(), (DATA / copy.name).read_bytes())
            self.tool("import", self.folder / name / f"{name}.sumocfg", "-o", self.folder / f"{name}.jsonl")

    def test_nothing_is_written_over(self):
        given = self.write("wave.add.xml", "mine")
        told, said = self.tool("example", "corridor", "--out", self.folder, status=2)
        why = f"streetsim-example: {given} is there, and is another file; give another folder by --out\n"
        self.assertEqual((told, said), ("", why))
        self.assertEqual([path.name for path in self.folder.iterdir()], ["wave.add.xml"])

    def test_which_there_are(self):
        told, _ = self.tool("example")
        self.assertIn("corridor: 6 files\n", told)
        self.assertIn("signal_policies: 1 file\n", told)
        _, said = self.tool("example", "corridors", status=2)
        self.assertIn("there is no example 'corridors', but actuated, corridor, ", said)


class WhichProgram(Case):
    def program(self, path):
        path.parent.mkdir(parents=True, exist_ok=True)
        path.write_text("#!/bin/sh\n")
        path.chmod(0o755)
        return str(path.resolve())

    def set(self, value, **more):
        """Names a program in the environment, or none."""
        values = {**environment(**more), **({"STREETSIM_PROGRAM": value} if value else {})}
        changed = patch.dict(os.environ, {name: text for name, text in values.items() if text}, clear=True)
        changed.start()
        self.addCleanup(changed.stop)

    def words(self):
        run = self.write("run.jsonl", json.dumps({"cmd": "load", **NUMBERED}) + "\n")
        return [run, "--map", self.write("map.json", json.dumps(MAP)), "--until", "60", "--out", self.folder / "out"]

    def test_the_one_given_goes_before_that_of_the_environment(self):
        one, other = (self.program(self.folder / name) for name in ("one", "other"))
        self.set(one)
        self.assertEqual((find_program(), find_program(other)), (one, other))

    def test_none_names_the_command_that_builds(self):
        self.set(None)
        with self.assertRaisesRegex(Fault, "give --program PATH or set STREETSIM_PROGRAM; `./build`"):
            find_program()
        with self.assertRaisesRegex(Fault, "none: no program that can be run; `./build`"):
            find_program(str(self.folder / "none"))

    def test_the_repositorys_script_starts_no_build(self):
        script = self.program(self.folder / "streetsim")
        (self.folder / "crates/street_sim").mkdir(parents=True)
        with self.assertRaisesRegex(Fault, "not built: run `./build` there first"):
            find_program(script)
        built = self.program(self.folder / BUILT)
        self.assertEqual(find_program(script), built)

    def test_what_is_built_beside_the_tools_is_found_the_proved_one_first(self):
        self.set(None, STREETSIM_UNBUILT="")
        with patch.object(program, "TOP", self.folder.resolve()), patch.object(program, "PREFIX", None):
            with self.assertRaisesRegex(Fault, "no simulator"):
                find_program()
            without = self.program(self.folder / UNPROVED)
            self.assertEqual(find_program(), without)
            proved = self.program(self.folder / BUILT)
            self.assertEqual(find_program(), proved)

    def test_a_program_without_proofs_is_told_once_wherever_it_was_copied_to(self):
        copy, other = self.program(self.folder / "copy"), self.program(self.folder / "other")
        with open(copy, "ab") as file:
            file.write(MARK)
        self.assertEqual((is_marked(copy), is_marked(other), is_marked("none")), (True, False, False))
        with patch.dict(sys.modules), redirect_stderr(StringIO()) as said:
            sys.modules.pop("streetsim.cli.commands", None)  # as in a script
            self.assertEqual((find_program(copy), find_program(copy), find_program(other)), (copy, copy, other))
        first, second = said.getvalue().splitlines()
        self.assertIn("NOT PROVED", first)
        self.assertIn("not known to be proved", second)

    def test_a_command_says_at_its_end_that_nothing_is_known_of_a_program(self):
        """So that a fault is one line; a script in Python is told at once."""
        other = self.program(self.folder / "other")
        with patch.object(program, "AT_END", []), redirect_stderr(StringIO()) as said:
            with patch.dict(sys.modules, {"streetsim.cli.commands": program}):
                self.assertEqual(find_program(other), other)
                self.assertEqual(said.getvalue(), "")
                program.tell_at_end()
        self.assertRegex(said.getvalue(), r"^streetsim: not known to be proved: no record names this program: .*\n$")

    def test_who_has_no_repository_is_to_ask_for_a_package(self):
        """In a clone, and for a program in one, `./build` is named; of what is installed it is not."""
        for place, top, told in (
            ("a", TOOLS.parent, "`./build` makes the proved one"), ("b", None, "ask for a package that was proved"),
            ("clone/out", None, "`./build` makes the proved one"),
        ):  # fmt: skip
            made = self.program(self.folder / place / "program")
            (self.folder / "clone").mkdir(exist_ok=True)
            (self.folder / "clone/build").touch()
            with open(made, "ab") as file:
                file.write(MARK)
            prefix = None if top else self.folder
            with redirect_stderr(StringIO()) as said, patch.object(program, "PREFIX", prefix):
                program.warn_of_proof(Path(made))
            self.assertEqual(said.getvalue(), f"streetsim: NOT PROVED: this program was built without proofs: {told}\n")

    def test_a_run_without_a_program_ends_at_once(self):
        done = subprocess.run(
            [TOOLS / "streetsim-run", *self.words()], env=environment(), capture_output=True, text=True, check=False
        )
        self.assertEqual((done.returncode, done.stdout, len(done.stderr.splitlines())), (2, "", 1))
        self.assertIn("`./build`", done.stderr)
        self.assertFalse((self.folder / "out").exists())

    @needs_simulator
    def test_a_run_takes_that_of_the_environment(self):
        variables = environment(STREETSIM_PROGRAM=PROGRAM)
        done = subprocess.run(
            [TOOLS / "streetsim-run", *self.words()], env=variables, capture_output=True, text=True, check=False
        )
        self.assertEqual((done.returncode, done.stdout), (0, "0 vehicles, 0 arrived, no trip, 0 rescues\n"))

    @needs_simulator
    def test_a_run_on_another_machine(self):
        """By the script of docs/REMOTE.md, with an ssh that stays here, and hands its words to a shell as ssh does."""
        page = (TOOLS.parent / "docs/REMOTE.md").read_text()
        [script] = re.findall(r"^```sh\n(#!/bin/sh\n.*?)^```$", page, re.M | re.S)
        far = self.folder / "far"
        for name, text in (
            ("ssh", '#!/bin/sh\n[ "$1 $2" = "-T host" ] && shift 2 && exec sh -c "$*"\n'),
            ("streetsim", f'#!/bin/sh\nexec {PROGRAM} "$@"\n'),
            ("there", script),
        ):
            Path(self.program(far / name)).write_text(text)
        variables = environment(PATH=f"{far}:{os.environ['PATH']}", STREETSIM_PROGRAM=str(far / "there"))
        done = subprocess.run(
            [TOOLS / "streetsim-run", *self.words()], env=variables, capture_output=True, text=True, check=False
        )
        self.assertEqual((done.returncode, done.stdout), (0, "0 vehicles, 0 arrived, no trip, 0 rescues\n"))


if __name__ == "__main__":
    unittest.main()
