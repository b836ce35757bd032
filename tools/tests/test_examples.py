"""The examples, against SUMO 1.15 and planning tables."""
import csv
import subprocess
import unittest
from statistics import fmean

from support import PROGRAM, TOOLS, Case, needs_simulator

EXAMPLES = TOOLS / "examples"


@needs_simulator
class Examples(Case):
    def run_example(self, network, *additional, routes, until, more=()):
        run, mapped, out = self.folder / "run.jsonl", self.folder / "map.json", self.folder / "out"
        self.tool("import", network, *additional, "--routes", routes, "-o", run, "--map", mapped, "--strict")
        self.tool("run", run, "--map", mapped, "--until", until, *more, "--out", out, "--program", PROGRAM)
        return out

    def eastward(self, *additional):
        folder = EXAMPLES / "corridor"
        out = self.run_example(
            folder / "corridor.net.xml.gz", *additional, routes=folder / "corridor.rou.xml", until=4500
        )
        with open(out / "trips.csv", encoding="utf-8") as file:
            return fmean(int(row["duration"]) for row in csv.DictReader(file) if row["id"].startswith("east"))

    def test_green_wave(self):
        # SUMO with its defaults: mean trips eastward of 235.0 s with offsets 0 and of 166.5 s with the wave.
        self.assertAlmostEqual(self.eastward() / 235.0, 1, delta=0.15)
        self.assertAlmostEqual(self.eastward(EXAMPLES / "corridor/wave.add.xml") / 166.5, 1, delta=0.15)

    def test_road_works(self):
        folder = EXAMPLES / "road_works"
        out = self.run_example(
            folder / "street.net.xml",
            routes=folder / "street.rou.xml",
            until=5400,
            more=("--close", "works_0:300-450:1800-3600", "--rescue", 0),
        )
        passed = {900: 0, 2700: 0, 4500: 0}
        with open(out / "counts.csv", encoding="utf-8") as file:
            for row in csv.DictReader(file):
                if row["edge"] == "after" and int(row["begin"]) in passed:
                    passed[int(row["begin"])] += 4 * int(row["vehicles"])
        # Planning tables: about 1,600 vehicles an hour pass where one lane of two is closed, about 1,600 a lane else.
        for begin, expected in ((900, 3200), (2700, 1600), (4500, 3200)):
            self.assertAlmostEqual(passed[begin] / expected, 1, delta=0.05, msg=str(begin))

    def test_actuated(self):
        folder, run, mapped = EXAMPLES / "actuated", self.folder / "run.jsonl", self.folder / "map.json"
        network = folder / "cross.net.xml.gz"
        self.tool("import", network, "--routes", folder / "cross.rou.xml", "-o", run, "--map", mapped)
        words = [folder / "actuated", run, mapped, network, PROGRAM]
        told = subprocess.run(words, capture_output=True, text=True, check=True).stdout.split()
        fixed, actuated = float(told[4]), float(told[9])
        self.assertLess(actuated, fixed)

    def test_refused_closures(self):
        folder = EXAMPLES / "road_works"
        run, mapped = self.folder / "run.jsonl", self.folder / "map.json"
        self.tool("import", folder / "street.net.xml", "-o", run, "--map", mapped)
        for text, words in (
            ("works_0:300-450", "expected LANE:METRES-METRES:S-S, whole numbers that rise"),
            ("works_0:450-300:0-9", "expected LANE:METRES-METRES:S-S, whole numbers that rise"),
            ("works_2:0-9:0-9", "the map has no lane 'works_2'"),
        ):
            told = self.tool(
                "run", run, "--map", mapped, "--until", 9, "--close", text, "--out", self.folder / "out", status=2
            )
            self.assertIn(words, told[1])


if __name__ == "__main__":
    unittest.main()
