"""Seconds from stop line to stop line: they add up to each vehicle's trip."""
import csv
import json
import statistics
import unittest
from collections import defaultdict
from itertools import pairwise

import numpy

from adding import wrong_sums
from seen import kernel_of, show
from support import DATA, MAP, PROGRAM, Case, needs_simulator
from streetsim.base.files import Fault
from streetsim.control.settings import Settings
from streetsim.control.steering import Steering
from streetsim.kernel.loop import Kernel
from streetsim.kernel.seconds import Takeout
from streetsim.kernel.serving import serving_program
from streetsim.model.folder import read_folder
from streetsim.model.mapping import map_from
from streetsim.model.rows import frames_in
from streetsim.model.runs import read_with_map
from streetsim.model.service import percentile
from streetsim.observe.segments import Segments, travel_time_columns
from streetsim.observe.trips import TripsTable


class ByHand(unittest.TestCase):
    """Two vehicles that wish to depart at 1 and 2 pass the line of a at 5 and 9 s, and arrive at the end of b at 11 and
    21 s. A third one, of 3 s, is still on a at the end, at 21 s, and a fourth one departs later."""

    def setUp(self):
        frames = [(clock, [[0, 0, [[2, 0, 1]], []]]) for clock in range(1, 22)]
        for clock, car in ((5, 0), (9, 1)):
            frames[clock - 1][1][0][3].append(car)
        for clock, car in ((11, 0), (21, 1)):
            frames[clock - 1][1].append([1, 0, [], [], [(car, 2)]])
        self.segments, self.kernel = Segments(), kernel_of(map_from("", MAP), [[0, 1]] * 4, departs=[1, 2, 3, 21])
        self.frames = frames

    def rows(self, period, **more):
        show(self.kernel, self.frames, self.segments, **more)
        return [*self.segments.segment_rows(period)]

    def test_rows(self):
        """Of 4 and 7 s the mean is 5.5, the deviation of the sample 1.5 times the root of 2; 15 % lie below 4.45."""
        self.assertEqual(self.rows(900)[0], (0, 21, "", "", 1, "18.0", "", "18.0", "18.0", "18.0", "18.0"))
        self.assertEqual(self.rows(900)[1], (0, 21, "", "a", 2, "5.5", "2.1", "4.5", "5.5", "6.5", "6.8"))
        self.assertEqual([row[2:6] for row in self.rows(900)[2:]], [("a", "b", 2, "9.0")])

    def test_a_segment_counts_where_it_ends(self):
        found = [row[:5] for row in self.rows(10, parts=4)]
        ended = [(0, 10, "", "a", 2), (10, 20, "a", "b", 1), (20, 21, "", "", 1), (20, 21, "a", "b", 1)]
        self.assertEqual(found, ended)
        self.assertEqual([row[5:] for row in self.rows(10)][-1], ("12.0", "", "12.0", "12.0", "12.0", "12.0"))

    def test_who_is_rescued(self):
        """The first one is taken out on b at 8 s, 3 s behind the line of a, and comes to the end of b 3 s later. One
        who is taken out behind the line of a, at 9 s, has passed it."""
        self.kernel.vehicles.takeouts += [Takeout(8, 0, 4, 2, True), Takeout(9, 1, 5, 0, False)]
        rows = [("", "", 1, "18.0"), ("", "a", 2, "5.5"), ("", "b", 1, "3.0")]
        rows += [("a", "", 1, "3.0"), ("a", "b", 1, "12.0")]
        self.assertEqual([row[2:6] for row in self.rows(900)], rows)

    def test_routes(self):
        self.rows(900)
        rows = [*self.segments.route_rows([["a", "b"], ["b", "a"]], 900)]
        self.assertEqual([row[:5] for row in rows], [(0, 21, "a b", 2, "9.0")])

    def test_shares(self):
        """As the percentiles and deviations of other tables, and of Python's own library."""
        values = sorted([3, 9, 4, 4, 17, 40, 1])
        columns = travel_time_columns(numpy.array([*values, 2]), numpy.array([0, len(values)]))
        [(count, mean, deviation, *shares), _] = columns
        self.assertEqual((count, mean), (7, f"{statistics.fmean(values):.1f}"))
        self.assertEqual(deviation, f"{statistics.stdev(values):.1f}")
        self.assertEqual(shares, [f"{percentile(values, share):.1f}" for share in (0.15, 0.5, 0.85, 0.95)])


@needs_simulator
class OfARun(Case):
    """The samples' grid with a junction that is red from 60 s on, so that vehicles are rescued."""

    def setUp(self):
        super().setUp()
        self.run_file, self.mapped = self.folder / "run.jsonl", self.folder / "map.json"
        words = [DATA / "grid.net.xml.gz", "--routes", DATA / "grid.rou.xml.gz", "-o", self.run_file]
        self.tool("import", *words, "--map", self.mapped)
        node = json.loads(self.mapped.read_text())["signals"]["node"][14]
        red = {"cmd": "signal", "node": node, "offset": 0, "phases": [[600, []]], "at": 60}
        with open(self.run_file, "a", encoding="utf-8") as file:
            file.write(json.dumps(red) + "\n")

    def test_each_vehicle_adds_up_to_its_trip(self):
        """From its wished departure to its arrival, or to the run's end; of those, too, that were rescued. Edges follow
        one another as in its plan, but for one from which it was rescued, whose line it never passed."""
        run, mapping = read_with_map(self.run_file, self.mapped)
        segments, trips = Segments(), TripsTable()
        steering = Steering(run, mapping, Settings(1200, rescue=60))
        with serving_program(PROGRAM, run.path) as program:
            Kernel(program, run, mapping, steering.controllers, [segments, trips]).go(1200)
        own, ends, rescues = defaultdict(list), segments.ends(), 0
        columns = (ends.owner, ends.line_before, ends.edge, ends.since, ends.clock)
        for owner, *segment in zip(*(one.tolist() for one in columns), strict=True):
            own[owner].append(segment)
        departs = {at: line.command["depart"] for at, line in enumerate(run.enters)}
        self.assertEqual(own.keys(), {owner for owner, depart in departs.items() if depart < 1200})
        for owner, each in own.items():
            arrival = int(trips.arrival[owner])
            self.assertEqual(sum(clock - since for *_, since, clock in each), (arrival or 1200) - departs[owner])
            self.assertEqual((each[0][0], each[0][2]), (-1, departs[owner]))
            self.assertTrue(all(one[1::2] == other[::2] for one, other in pairwise(each)), each)
            plan = [mapping.links[link].edge for link in run.enters[owner].command["plan"]]
            passed = [segments.edges[edge] for _, edge, *_ in each if edge >= 0]
            way = iter(plan)
            self.assertTrue(all(edge in way for edge in passed), (plan, passed))
            skipped = len(each) - len(passed) - (arrival == 0)  # edges from which it was rescued
            rescues += skipped
            self.assertEqual(arrival > 0, len(passed) + skipped == len(plan))
        self.assertGreater(rescues, 5)
        self.assertLessEqual(rescues, steering.rescue.count.total())
        # What the other tests ask of each of their runs.
        self.assertEqual(wrong_sums(segments, trips, 1200), [])
        trips.arrival[[3, 8]] += 1
        self.assertEqual(wrong_sums(segments, trips, 1200), [3, 8])

    def test_tables(self):
        words = ["--map", self.mapped, "--program", PROGRAM, "--until", 900, "--rescue", 60]
        words += ["--out", self.folder / "out"]
        edges = sorted(link.edge for link in map_from("", json.loads(self.mapped.read_text())).links)[:2]
        self.tool("run", self.run_file, *words, "--along", ",".join(edges), "--polls")
        with open(self.folder / "out/segments.csv", encoding="utf-8") as file:
            rows = list(csv.DictReader(file))
        with open(self.folder / "out/edges.csv", encoding="utf-8") as file:
            left = {row["edge"]: int(row["left"]) for row in csv.DictReader(file)}
        passed = defaultdict(int)
        for row in rows:
            passed[row["to"]] += int(row["vehicles"])
        with open(self.folder / "out/trips.csv", encoding="utf-8") as file:
            trips = list(csv.DictReader(file))
        ended = passed.pop("")  # who was rescued on an edge, or was under way at the end
        self.assertGreater(ended, sum(not row["arrival"] and int(row["depart"]) < 900 for row in trips))
        self.assertEqual({edge: count for edge, count in left.items() if count}, passed)
        seconds = sum((int(row["arrival"] or 900)) - int(row["depart"]) for row in trips if int(row["depart"]) < 900)
        told = sum(int(row["vehicles"]) * float(row["mean_s"]) for row in rows)
        self.assertAlmostEqual(told / seconds, 1, delta=0.001)  # means are rounded to tenths
        self.assertTrue((self.folder / "out/routes.csv").exists())
        polls = [*read_folder(self.folder / "out").polls()]
        self.assertEqual(polls, [*frames_in(self.folder / "out/rows.bin", 10)])
        self.assertEqual([poll["clock"] for poll in polls], [*range(10, 901, 10)])
        self.tool("run", self.run_file, *words)
        self.assertFalse((self.folder / "out/routes.csv").exists())
        self.assertFalse((self.folder / "out/lanes.jsonl.gz").exists())
        self.assertEqual([*read_folder(self.folder / "out").polls()], polls)

    def test_words_that_name_no_route(self):
        words = ["--map", self.mapped, "--program", PROGRAM, "--until", 900, "--out", self.folder / "out"]
        edge = map_from("", json.loads(self.mapped.read_text())).links[0].edge
        for text, said in ((edge, f"--along {edge!r}: a route has two edges or more"),
                           (f"{edge} x", "--along: the map has no edge 'x'")):  # fmt: skip
            _, told = self.tool("run", self.run_file, *words, "--along", text, status=2)
            self.assertEqual(told, f"streetsim-run: {said}\n")


class Rows(Case):
    def test_a_file_that_is_none(self):
        for data in (b"no rows of a run at all", b"\x05"):
            path = self.folder / "rows.bin"
            path.write_bytes(data)
            with self.assertRaisesRegex(Fault, "rows.bin: not whole, or no rows of a run"):
                list(frames_in(path, 1))


if __name__ == "__main__":
    unittest.main()
