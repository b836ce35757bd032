"""Samples of lanes, and runs by hand and of many lanes."""
import csv
import json
import unittest
from collections import Counter
from types import SimpleNamespace

import numpy

from seen import kernel_of, show
from support import DATA, MAP, NUMBERED, PROGRAM, RED, Case, needs_simulator
from streetsim.base.client import Client
from streetsim.kernel.seconds import Takeout
from streetsim.model.mapping import map_from
from streetsim.model.runs import read_with_map
from streetsim.observe.counts import Counts
from streetsim.observe.sampling import Samples, samples_of


class Schedules(Case):
    def test_samples(self):
        """As many in each period, one in each equal part, and no two parts at the same place."""
        samples = Samples(0, 900, 0, 5)
        clocks = numpy.arange(9001)
        times = clocks[samples.among(clocks)].tolist()
        self.assertEqual(
            [sum(begin < time <= begin + 180 for time in times) for begin in range(0, 9000, 180)], [1] * 50
        )
        places = [(time - 1) % 180 for time in times]
        # Spread over a cycle of 90 s: each third has about a third.
        for third in range(3):
            self.assertAlmostEqual(sum(30 * third <= place % 90 < 30 * third + 30 for place in places), 50 / 3, delta=2)
        # Of any stretch of seconds those that are in it, but for its first.
        parts = clocks[:701], clocks[700:4001], clocks[4000:]
        found = numpy.concatenate([part[samples.among(part)] for part in parts])
        self.assertEqual(found.tolist(), times)

    def test_polls_are_the_samples_where_there_are_enough(self):
        for every, period, count in ((10, 900, 90), (90, 900, 10), (91, 900, 30), (0, 900, 30), (0, 7, 3), (0, 1, 0)):
            clocks = numpy.arange(period + 1)
            self.assertEqual(int(samples_of(0, period, every).among(clocks).sum()), count, (every, period))

    def test_edge_rows(self):
        """One vehicle was there at the begin; nine left, one was taken out, three are there at the end: twelve entered.
        Samples saw 2 and 4 vehicles on 75 m, which are 40 a kilometre, at 18 cells a step in all: 3 cells a step or
        22.5 m/s, so 75 m take 10 / 3 s."""
        counts = Counts(900, Samples(0, 900, 0, 0))
        counts.samples = SimpleNamespace(among=lambda clocks: numpy.isin(clocks, (1000, 1100)), has_samples=True)
        seen = {1000: [[7, 3, 2], [8, 2, 4]], 1100: [[7, 3, 3], [8, 2, 3], [9, 1, 3], [10, 0, 3]]}
        seen |= {900: [[7, 3, 2]], 1800: [[1, 9, 1], [2, 2, 2], [3, 1, 3]]}
        passing = {1200 + car: car for car in range(7, 16)}  # in each second one, who joins the buffer behind the line
        frames = [
            (clock, [[0, 0, seen.get(clock, []), [passing[clock]] if clock in passing else []]])
            for clock in range(1, 1801)
        ]
        kernel = kernel_of(map_from("map", MAP), [[0, 1]] * 16)
        kernel.vehicles.takeouts.append(Takeout(950, 7, 16, 0, True))
        show(kernel, frames, counts, parts=7)
        row = next(row for row in counts.edge_rows() if row[0] == 900)
        self.assertEqual(row, (900, 1800, "a", 12, 9, "40.00", "81.00", "3.33"))


@needs_simulator
class ByHand(Case):
    def given(self, *commands, cars):
        lines = [{"cmd": "load", **NUMBERED}, *commands]
        run = self.write("run.jsonl", "".join(json.dumps(line) + "\n" for line in lines))
        return run, "--map", self.write("map.json", json.dumps({**MAP, "cars": cars})), "--program", PROGRAM

    def table(self, name, out="out"):
        with open(self.folder / out / name, encoding="utf-8") as file:
            return list(csv.DictReader(file))

    def test_who_stands_is_rescued(self):
        """At red for ever: the first look that sees it stand is at 60 s, and 120 s later it is put on the second link,
        where it arrives in step 184."""
        words = self.given(RED, {"cmd": "enter", "plan": [0, 1], "lane": 0, "depart": 0}, cars=["v"])
        told, _ = self.tool(
            "run", *words, "--until", 6000, "--rescue", 120, "--every", 6000, "--out", self.folder / "out"
        )
        self.assertEqual(told, "1 vehicles, 1 arrived, mean trip 185.0 s, 1 rescues\n")

    def test_edges_by_hand(self):
        """Cells 0, 1, 3, 6 at clocks 1 to 4, then out: 4 of 60 polls see it on 75 m,
        at 1.5 cells a step or 40.5 km/h."""
        words = self.given({"cmd": "enter", "plan": [0], "lane": 0, "depart": 0}, cars=["v"])
        self.tool("run", *words, "--until", 60, "--every", 1, "--out", self.folder / "out")
        row = self.table("edges.csv")[0]
        self.assertEqual(
            list(row.values()), ["0", "60", "a", "1", "1", f"{4 / 60 / 0.075:.2f}", "40.50", f"{10 / 1.5:.2f}"]
        )


@needs_simulator
class Many(Case):
    """The samples' grid with a junction that is red from 60 s on, so that vehicles are rescued."""

    def import_grid(self):
        run, mapped = self.folder / "run.jsonl", self.folder / "map.json"
        self.tool("import", DATA / "grid.net.xml.gz", "--routes", DATA / "grid.rou.xml.gz", "-o", run, "--map", mapped)
        node = json.loads(mapped.read_text())["signals"]["node"][14]
        with open(run, "a", encoding="utf-8") as file:
            file.write(
                json.dumps({"cmd": "signal", "node": node, "offset": 0, "phases": [[600, []]], "at": 60}) + "\n"
            )

    def run_grid(self, out, *words):
        run, mapped = self.folder / "run.jsonl", self.folder / "map.json"
        if not run.exists():
            self.import_grid()
        arguments = [run, "--map", mapped, "--program", PROGRAM, "--until", 900, "--period", 300, "--rescue", 60]
        return self.tool("run", *arguments, "--out", self.folder / out, *words)

    def table(self, name):
        with open(self.folder / "one" / name, encoding="utf-8") as file:
            return list(csv.DictReader(file))

    def test_counts_are_those_of_the_program(self):
        """Its own detectors at the ends of lanes see the same vehicles, speeds and seconds, where nobody gives way at
        lights: the program alone knows of no such thing."""
        self.import_grid()
        mapped = self.folder / "map.json"
        content = json.loads(mapped.read_text())
        self.assertTrue(content.pop("lit_ways"))
        mapped.write_text(json.dumps(content))
        self.run_grid("one", "--rescue", 0)
        run, mapping = read_with_map(self.folder / "run.jsonl", self.folder / "map.json")
        places = mapping.lanes()
        with Client(PROGRAM) as sim:
            sim.batch(line.text for line in (run.load, *run.first, *run.enters))
            for link, lane in places:
                sim.meter(link, lane, mapping.links[link].cells - 1, 300)
            sim.advance(60)
            sim.batch(line.text for _, line in run.timed)
            sim.advance(840)
            metres = [mapping.links[link].cell_metres for link, _ in places]
            seen = [(row, long) for number, long in enumerate(metres) for row in sim.read(number).rows]
        rows = self.table("counts.csv")
        self.assertEqual(len(rows), 3 * 240)
        for row, (one, long) in zip(rows, seen, strict=True):
            found = row["begin"], row["vehicles"], row["mean_speed_kmh"], row["occupancy_percent"]
            self.assertEqual(found, (str(one.start), str(one.passes), one.kmh(long), f"{one.density * 100:.1f}"))
        self.assertGreater(sum(one.passes for one, _ in seen), 1000)

    def test_who_is_rescued_leaves_no_edge(self):
        """Of each edge in each period: who left it passed a stop line, and who came to it left it, was taken out of it
        or is still there."""
        self.run_grid("one")
        self.assertGreater(sum(int(row["rescues"]) for row in self.table("trips.csv")), 0)
        passed, came = Counter(), Counter()
        for row in self.table("counts.csv"):
            passed[row["begin"], row["edge"]] += int(row["vehicles"])
        for row in self.table("edges.csv"):
            self.assertEqual(passed.pop((row["begin"], row["edge"]), 0), int(row["left"]))
            came[row["edge"]] += int(row["entered"]) - int(row["left"])
        self.assertEqual(+passed, Counter())
        taken = sum(int(row["rescues"]) for row in self.table("trips.csv"))
        there = int(self.table("summary.csv")[-1]["on_cells"])
        self.assertAlmostEqual(sum(came.values()), there + taken, delta=taken)  # some were taken out of junctions

    def test_a_word_of_earlier_versions(self):
        _, told = self.run_grid("one", "--counted", "busiest")
        self.assertEqual(told, "--counted has no effect any more: every lane is counted, in one run\n")
        self.assertEqual(len(self.table("counts.csv")), 3 * 240)


if __name__ == "__main__":
    unittest.main()
