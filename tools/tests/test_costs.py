"""bench/run costs: the table of what the gate costs, of made-up gates;
figures of what was kept are those of the run that proved it."""
import importlib.util
import json
import os
import re
import shutil
import subprocess
import sys
import unittest

from support import TOOLS, Case

sys.path.insert(0, str(TOOLS.parent / "bench"))  # which has what costs.py imports

BENCH = TOOLS.parent / "bench"
COSTS = "repository/costs.py"
# What rt ci prints: of a crate and its tests that were proved, and of one that an earlier run proved.
PROVED = """== street_base
logic=proved functions=43 sum=dac8208d650f15bf
rt: street_base proved
== street_base: its tests
logic=proved tests=7 functions=50 sum=dac8208d650f15bf
rt: street_base: its tests are proved
"""
KEPT = "rt: street_base is kept: an earlier run on this machine proved the same files over the same libraries\n"
PROGRAM = "== street_sim\nlogic=proved functions=3 main=Threads+Wait\nrt: street_sim proved\n"
TRIED = (
    "rt: must-fail street_base/one.edit: refused, as it must be: src/lib.rt:1:1: error\n"
    "rt: must-fail street_base/two.edit: refused, as it must be\n"
)
KNOWN = (
    "rt: street_base: {} of its 2 must-fail edits were tried by an earlier run on this machine, "
    "and nothing that they stand on has changed\n"
)
PASSED = "rt: ok; handles allowed: Threads, Wait; must-fail edits: 2 refused\n4 passed, 0 failed\n"


SCRIPT = """\
import os, subprocess, sys
busy = "import time\\nwhile time.process_time() < {seconds}: pass"
for folder, words in {checks}:
    os.makedirs(folder, exist_ok=True)
    subprocess.run([{rattle!r}, "-c", busy, *words.split()], cwd=folder, check=True)
print({prints!r}, end="")
"""


class Costs(Case):
    def setUp(self):
        super().setUp()
        self.top = self.folder / "clone"
        for path, text in (
            ("crates.txt", "street_base: rand\nstreet_sim: street_base\n"),
            ("crates/street_base/src/lib.rt", "//! base\n#[test]\nfn works() {}\n"),
            ("crates/street_base/proofs/Base.antt", "-- a\n-- b\n"),
            ("crates/street_base/must-fail/one.edit", ""),
            ("crates/street_base/must-fail/two.edit", ""),
            ("crates/street_sim/src/main.rt", "fn main() {}\n"),
            ("docs/DECISIONS.md", ""),
        ):
            (self.top / path).parent.mkdir(parents=True, exist_ok=True)
            (self.top / path).write_text(text)
        (self.top / "bench/repository").mkdir(parents=True)
        for name in ("run", "shared.py", COSTS):
            shutil.copy(BENCH / name, self.top / "bench" / name)
        (self.folder / "rattle").symlink_to(os.path.realpath(sys.executable))
        spec = importlib.util.spec_from_file_location("costs", self.top / "bench" / COSTS)
        self.costs = importlib.util.module_from_spec(spec)
        spec.loader.exec_module(self.costs)

    def gate(self, prints, checks=(), status=0, words=(), seconds=0.5):
        """Runs a made-up gate: checks that take some processor time, (folder, words),
        and what it prints. What costs.py says."""
        rattle = str(self.folder / "rattle")
        (self.top / "gate.py").write_text(
            SCRIPT.format(seconds=seconds, checks=list(checks), rattle=rattle, prints=prints)
        )
        command = [sys.executable, "bench/run", "costs", *words, sys.executable, "gate.py"]
        done = subprocess.run(command, cwd=self.top, capture_output=True, text=True, check=False)
        self.assertEqual((done.returncode, done.stdout), (status, prints), done.stderr)
        return done.stderr

    def notes(self):
        return json.loads((self.top / "out/costs.json").read_text())

    def earlier(self, *runs):
        """Notes of earlier runs, of (command, parts): a part is (crate, kind, seconds, count)."""
        made = []
        for command, parts in runs:
            parts = [
                dict(zip(("crate", "kind", "seconds", "count", "sum"), (*part, self.costs.sum_of(part[0]))))
                for part in parts
            ]
            made.append({"command": command, "minutes": 12.0, "load": 4.0, "parts": parts})
        (self.top / "out").mkdir(exist_ok=True)
        (self.top / "out/costs.json").write_text(json.dumps(made))

    def row(self, crate):
        """The cells of a crate's row."""
        text = (self.top / "docs/COSTS.md").read_text()
        return [cell.strip() for cell in re.search(rf"^\| {crate} \|(.*)\|$", text, re.M)[1].split("|")]

    def test_one_gate(self):
        checks = [
            (str(self.folder), "check --crate-name street_base"),
            (str(self.folder), "build --crate-name street_base --test"),
            (str(self.folder / "rt-edit-1-x"), "check --crate-name street_base"),
            (str(self.folder), "check --crate-name street_sim"),
            (str(self.folder), "build --crate-name street_sim --crate-checked x"),
        ]
        self.gate(PROVED + PROGRAM + TRIED + PASSED, checks)
        [run] = self.notes()
        counts = {(part["crate"], part["kind"]): part["count"] for part in run["parts"]}
        base, sim = ({(crate, kind): number for kind, number in kinds.items()} for crate, kinds in (
            ("street_base", {"proof": 43, "tests": 7, "edits": 2}), ("street_sim", {"proof": 3, "compiled": 0}),
        ))  # fmt: skip
        self.assertEqual(counts, base | sim)
        for part in run["parts"]:  # a process is seen up to a moment before its end
            self.assertTrue(0.1 <= part["seconds"] <= 1.0, part)
        self.assertEqual(self.row("street_base")[:5], ["3", "2", "43", "7", "2"])
        self.assertIn("in which all was proved", (self.top / "docs/COSTS.md").read_text())

    def test_parts_that_were_kept_have_the_figures_of_the_run_that_proved_them(self):
        base = [("street_base", "proof", 61.4, 43), ("street_base", "tests", 1002.0, 7)]
        sim = [("street_sim", "proof", 9.0, 3), ("street_sim", "compiled", 4.6, 0)]
        self.earlier(
            ("rt ci street_base", base),
            ("rt ci street_other", []),
            ("./test", [("street_base", "edits", 30.0, 2), *sim]),
        )
        self.gate(KEPT + KNOWN.format(2) + TRIED + PASSED)
        self.assertEqual(self.row("street_base"), ["3", "2", "43", "7", "2", "61", "1,002", "30", "", "1, 2"])
        self.assertEqual(self.row("street_sim"), ["1", "", "3", "", "", "9", "", "", "5", "2"])
        self.assertEqual(self.row("all crates"), ["4", "2", "46", "7", "2", "70", "1,002", "30", "5"])
        told = (self.top / "docs/COSTS.md").read_text()
        self.assertIn("| 1 | `rt ci street_base` | 12 | 18 | 4.0 |\n| 2 | `./test` | 12 | 1 | 4.0 |\n", told)

    def test_the_newest_run_counts(self):
        whole = [
            ("street_base", "proof", 50.0, 43),
            ("street_base", "tests", 60.0, 7),
            ("street_base", "edits", 70.0, 2),
        ]
        sim = [("street_sim", "proof", 9.0, 3), ("street_sim", "compiled", 4.6, 0)]
        self.earlier(("./test", [*whole, *sim]), ("rt ci street_base", [("street_base", "proof", 51.0, 44)]))
        self.gate(KEPT + KNOWN.format(2) + TRIED + PASSED)
        self.assertEqual(self.row("street_base")[2:9], ["44", "7", "2", "51", "60", "70", ""])

    def test_edits_of_several_runs(self):
        whole = [
            ("street_base", "proof", 50.0, 43),
            ("street_base", "tests", 60.0, 7),
            ("street_base", "edits", 40.0, 1),
        ]
        self.earlier(("rt ci street_base", whole))
        self.gate(KEPT + PROGRAM + KNOWN.format(1) + TRIED + PASSED)
        self.assertEqual([part["count"] for part in self.notes()[-1]["parts"] if part["kind"] == "edits"], [1])
        self.assertEqual(self.row("street_base")[-1], "1, 2")
        self.assertEqual(self.row("street_base")[7], "40")

    def test_refuses_what_no_watched_run_has(self):
        said = self.gate(KEPT + PROGRAM + KNOWN.format(2) + TRIED + PASSED, status=1)
        self.assertIn(
            "no watched run has what the gate took from earlier ones: street_base (proof), street_base (tests), "
            "street_base (edits)\n",
            said,
        )
        self.assertFalse((self.top / "docs/COSTS.md").exists())
        self.gate(KEPT + PROGRAM + KNOWN.format(2) + TRIED + PASSED, words=["--gaps"])
        self.assertEqual(self.row("street_base")[5:9], ["not known", "not known", "not known", ""])

    def test_figures_of_other_sources_do_not_count(self):
        self.gate(PROVED + PROGRAM + TRIED + PASSED)
        (self.top / "crates/street_base/proofs/Base.antt").write_text("-- c\n")
        self.assertIn("street_base (proof)", self.gate(KEPT + PROGRAM + TRIED + PASSED, status=1))

    def test_a_part_and_a_gate_that_has_not_passed(self):
        part = PROVED + "3 passed, 0 failed (street_base and the crates below alone: not the gate)\n"
        for prints in (part, PROVED + "rt: FAILED: street_sim\n2 passed, 1 failed\n"):
            self.assertIn("docs/COSTS.md stays", self.gate(prints, status=1))
            self.assertFalse((self.top / "docs/COSTS.md").exists())
        self.assertEqual([len(run["parts"]) for run in self.notes()], [2, 2])

    def test_rows_of_some_crates(self):
        """They stand with their run; all others stay, with theirs, and the sums are of all."""
        base = [("street_base", "proof", 61.4, 43), ("street_base", "tests", 1002.0, 7)]
        sim = [("street_sim", "proof", 9.0, 3), ("street_sim", "compiled", 4.6, 0)]
        self.earlier(("rt ci street_base", base), ("./test", [("street_base", "edits", 30.0, 2), *sim]))
        self.gate(KEPT + KNOWN.format(2) + TRIED + PASSED)
        with (self.top / "crates.txt").open("a") as file:
            file.write("street_more: street_base\n")
        for name in ("street_sim", "street_more"):
            (self.top / f"crates/{name}/src").mkdir(parents=True, exist_ok=True)
            (self.top / f"crates/{name}/src/main.rt").write_text("fn main() {}\n// more\n")
        more = [("street_more", "proof", 20.0, 1), ("street_more", "compiled", 3.0, 0)]
        self.earlier(("rt ci street_more", more))
        words = [sys.executable, "bench/run", "costs", "--rows"]
        subprocess.run([*words, "street_more"], cwd=self.top, check=True)
        self.assertEqual(self.row("street_more"), ["2", "", "1", "", "", "20", "", "", "3", "3"])
        self.assertEqual(self.row("street_base"), ["3", "2", "43", "7", "2", "61", "1,002", "30", "", "1, 2"])
        self.assertEqual(self.row("all crates"), ["6", "2", "47", "7", "2", "90", "1,002", "30", "8"])
        text = (self.top / "docs/COSTS.md").read_text()
        self.assertIn("| 2 | `./test` | 12 | 1 | 4.0 |\n| 3 | `rt ci street_more` | 12 | 0 | 4.0 |\n", text)
        done = subprocess.run([*words, "street_sim"], cwd=self.top, capture_output=True, text=True, check=False)
        self.assertEqual(
            (done.returncode, done.stderr), (1, "costs: no watched run has street_sim (proof), street_sim (compiled)\n")
        )
        self.assertEqual((self.top / "docs/COSTS.md").read_text(), text)

    def test_beside(self):
        log = self.write("log", PROVED + PROGRAM + TRIED + PASSED)
        with subprocess.Popen([sys.executable, "-c", "import time; time.sleep(5)"]) as gate:
            words = [sys.executable, "bench/run", "costs", "--beside", str(gate.pid), "--log", log]
            # The gate is this process's child, and is gone only once it was waited for.
            with subprocess.Popen(words, cwd=self.top, stderr=subprocess.DEVNULL) as costs:
                gate.wait()
                self.assertEqual(costs.wait(timeout=60), 0)
        self.assertEqual(self.row("street_base")[2:5], ["43", "7", "2"])
        (self.top / "docs/COSTS.md").unlink()
        subprocess.run([sys.executable, "bench/run", "costs", "--log", log], cwd=self.top, check=True)
        self.assertEqual(self.row("street_base")[2:5], ["43", "7", "2"])
        self.assertEqual(len(self.notes()), 1)


if __name__ == "__main__":
    unittest.main()
