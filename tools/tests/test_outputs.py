"""SUMO's output files: against hand reckoning, the folder's own tables, SUMO's schemas and SUMO's scripts."""
import gzip
import json
import os
import shutil
import subprocess
import unittest
from pathlib import Path
from xml.etree import ElementTree

from support import MAP, NUMBERED, PROGRAM, TOOLS, Case, needs_package, needs_simulator, needs_sumo_tools
from streetsim.control.bus_fleet import Dwell, StopOutcome
from streetsim.model.folder import read_folder
from streetsim.model.mapping import map_from
from streetsim.model.tables import AREAS, EDGES, LOOPS, SUMMARY, read_table
from streetsim.model.stops import STANDING, Visit
from streetsim.observe.sumo_kinds import KINDS, OutputFile
from streetsim.observe.sumo_writing import Outputs

SUMO = Path("/usr/share/sumo")
SCHEMAS = {
    "tripinfo": "tripinfo_file",
    "summary": "summary_file",
    "edgedata": "meandata_file",
    "fcd": "fcd_file",
    "queue": "queue_file",
    "e1": "det_e1_file",
    "e2": "det_e2_file",
    "vehroute": "routes_file",
    "stop": "stopinfo_file",
}  # SUMO has no schema of lanechange, and that of statistic is none itself
CORRIDOR = TOOLS / "examples/corridor"
DETECTORS = """<additional>
  <inductionLoop id="loop" lane="J2J3_0" pos="-40" period="300" file="x.xml"/>
  <inductionLoop id="other" lane="J3J2_1" pos="200" period="450" file="x.xml"/>
  <laneAreaDetector id="area" lane="J2J3_1" pos="100" endPos="280" period="300" file="x.xml"/>
</additional>"""


def draws():
    words = ["/usr/bin/python3", "-c", "import matplotlib"]
    return subprocess.run(words, capture_output=True, check=False).returncode == 0


# Scripts of SUMO with their words, a file that each makes, and what it says.
SCRIPTS = (
    ("visualization/plot_summary.py -i {summary} -m running --blind -o a.png", "a.png", ""),
    ("visualization/plot_tripinfo_distributions.py -i {tripinfo} -m duration --blind -o b.png", "b.png", ""),
    ("visualization/plot_net_dump.py -n {net} -m speed,entered -i {edgedata},{edgedata} --blind -o c%s.png", "", ""),
    ("visualization/plotXMLAttributes.py -x depart -y duration -o d.png {tripinfo}", "d.png", ""),
    ("plot_trajectories.py -t td -o e.png {fcd}", "e.png", ""),
    ("traceExporter.py -i {fcd} -n {net} --gpx-output f.gpx", "f.gpx", ""),
    ("xml/xml2csv.py {tripinfo} -o g.csv", "g.csv", ""),
    ("output/tripStatistics.py -t {tripinfo} -o h.txt", "h.txt", ""),
    ("output/edgeDataDiff.py {edgedata} {edgedata} i.xml", "i.xml", ""),
    ("output/tripinfoDiff.py {tripinfo} {tripinfo} j.xml", "j.xml", "duration differences"),
    ("output/attributeStats.py {tripinfo} -e tripinfo -a duration", "", "count {arrived}"),
    ("output/vehrouteDiff.py {vehroute} {vehroute} k.xml", "k.xml", ""),
    ("output/accelerations.py {fcd}", "", "Accelerations"),
    ("output/computeCoordination.py -f {fcd} --filter-route J1J2,J2J3", "", "coordinationFactor"),
)

# Two links of 10 cells of 7.5 m, limit 5; a loop at cell 3 and an area of cells 0 to 5 of the first.
MAPPING = {**MAP, "cars": ["v", "w"], "detectors": [["loop", "e1", 0, 0, 3, 3, 10], ["area", "e2", 0, 0, 0, 5, 10]]}
# Vehicle 0 departs in second 0, wished so; drives 3 cells, stands a second, drives on past the loop, through the
# junction and arrives. Vehicle 1 wished second 0 too and departs in second 2.
FRAMES = [
    (1, [[0, 0, [[0, 0, 0]], []]], ()),
    (2, [[0, 0, [[0, 3, 3]], []]], ()),
    (3, [[0, 0, [[0, 3, 0], [1, 0, 0]], []]], ()),
    (4, [[0, 0, [[0, 7, 4], [1, 2, 2]], []]], ()),
    (5, [[0, 0, [[1, 2, 0]], [0]]], ()),
    (6, [[0, 0, [[1, 4, 2]], []], [1, 0, [[0, 0, 1]], []]], ()),
    (7, [[0, 0, [[1, 8, 4]], []], [1, 0, [[0, 4, 4]], []]], ()),
    (8, [[0, 0, [[1, 8, 0]], []]], (0,)),
]


class ByHand(Case):
    def setUp(self):
        super().setUp()
        paths = {kind: str(self.folder / f"{kind}.xml") for kind in KINDS}
        with Outputs(paths, map_from("", MAPPING), 0.0, period=4) as outputs:
            outputs.expect_vehicle(0, "v", 0)
            outputs.expect_vehicle(1, "w", 0)
            for clock, lanes, arrived in FRAMES:
                outputs.add_second(clock, lanes, arrived)

    def rows(self, kind, tag):
        root = ElementTree.parse(self.folder / f"{kind}.xml").getroot()
        return [element.attrib for element in root.iter(tag)]

    def test_tripinfo(self):
        """Seconds 0 to 8, of which two standing: at its departure and in second 2. The road alone takes 10/5 s for each
        link and 1 s for the junction."""
        [row] = self.rows("tripinfo", "tripinfo")
        self.assertEqual([row[name] for name in ("id", "departLane", "arrivalLane")], ["v", "a_0", "b_0"])
        names = ("depart", "departDelay", "arrival", "duration", "waitingTime", "routeLength", "timeLoss")
        self.assertEqual([float(row[name]) for name in names], [0, 0, 8, 8, 2, 142.5, 3])
        self.assertEqual(row["waitingCount"], "2")

    def test_a_stop_of_its_own(self):
        """In second 2 it stands at a bus stop for a second."""
        with Outputs({"tripinfo": str(self.folder / "tripinfo.xml")}, map_from("", MAPPING), 0.0) as outputs:
            outputs.dwells[0] = [Dwell(0, 2, 3, 1)]
            outputs.expect_vehicle(0, "v", 0)
            for clock, lanes, arrived in FRAMES:
                outputs.add_second(clock, lanes, arrived)
        [row] = self.rows("tripinfo", "tripinfo")
        self.assertEqual([float(row[name]) for name in ("stopTime", "waitingTime", "timeLoss")], [1, 1, 2])
        self.assertEqual(row["waitingCount"], "1")

    def test_ways(self):
        """Vehicle 0 leaves its first edge as it enters the second, in second 5, and that as it arrives."""
        [row] = self.rows("vehroute", "vehicle")
        self.assertEqual(row, {"id": "v", "depart": "0.00", "arrival": "8.00"})
        [route] = self.rows("vehroute", "route")
        self.assertEqual(route, {"edges": "a b"})
        details = {f"vehroute-output.{name}" for name in ("exit-times", "write-unfinished", "sorted", "route-length")}
        details |= {"tripinfo-output.write-unfinished"}
        files = [OutputFile(kind, f"{self.folder}/{kind}.xml", details) for kind in ("vehroute", "tripinfo")]
        with Outputs(files, map_from("", MAPPING), 0.0) as outputs:
            for clock, lanes, arrived in FRAMES:
                outputs.add_second(clock, lanes, arrived)
        self.assertEqual([row["exitTimes"] for row in self.rows("vehroute", "route")], ["6.00 8.00", "-1"])
        self.assertEqual([row.get("arrival") for row in self.rows("vehroute", "vehicle")], ["8.00", None])
        trips = [(row["arrival"], row["routeLength"], row["vaporized"]) for row in self.rows("tripinfo", "tripinfo")]
        self.assertEqual(trips, [("8.00", "142.50", ""), ("-1.00", "60.00", "end")])

    def test_statistics(self):
        """One trip of 142.5 m, from the end of its first cell, and 8 s; the other vehicle has departed 2 s late,
        and nobody waits."""
        [root] = self.rows("statistic", "statistics")
        [counts], [means] = self.rows("statistic", "vehicles"), self.rows("statistic", "vehicleTripStatistics")
        self.assertEqual(counts, {"loaded": "2", "inserted": "2", "running": "1", "waiting": "0"})
        names = ("count", "routeLength", "speed", "duration", "waitingTime", "timeLoss", "departDelay")
        self.assertEqual([float(means[name]) for name in names], [1, 142.5, 17.81, 8, 2, 3, 0])
        self.assertEqual(means["departDelayWaiting"], "-1.00")

    def test_stops(self):
        """Who has left a stop is told, with how late it left; who stands at one is not."""
        visit = Visit(0, 0, "bs", 0, 0, 2, 3, 1, 2, 0.0, 0.0)
        with Outputs({"stop": f"{self.folder}/stop.xml"}, map_from("", MAPPING), 0.0) as outputs:
            outputs.expect_vehicle(0, "v", 0, "bus")
            for clock, lanes, arrived in FRAMES:
                outputs.add_second(clock, lanes, arrived)
            outputs.note_stops([StopOutcome(visit, "made", 0, 2, 3), StopOutcome(visit, STANDING, 0, 5)])
        [row] = self.rows("stop", "stopinfo")
        names = ("id", "type", "lane", "pos", "started", "ended", "delay", "busStop")
        self.assertEqual([row[name] for name in names], ["v", "bus", "a_0", "30.00", "2.00", "3.00", "1.00", "bs"])

    def test_lane_changes(self):
        two = [["a", [0, 1], 0, 1, 10, 5, 75.0, [[0, 0], [75, 0]]], MAPPING["links"][1]]
        paths = {"lanechange": f"{self.folder}/lanechange.xml"}
        with Outputs(paths, map_from("", {**MAPPING, "links": two}), 0.0) as outputs:
            for clock, lane, cell in ((1, 0, 0), (2, 1, 2), (3, 1, 4)):
                outputs.add_second(clock, [[0, lane, [[0, cell, 2]], []]], ())
        [row] = self.rows("lanechange", "change")
        names = ("id", "time", "from", "to", "dir", "speed", "pos")
        self.assertEqual([row[name] for name in names], ["#0", "1.00", "a_0", "a_1", "1", "15.00", "22.50"])

    def test_files_of_additional_files(self):
        """Several of a kind: a span of time without edges on which nobody was, and some detectors."""
        further = [
            OutputFile("edgedata", f"{self.folder}/ed.xml", name="ed", period=2, begin=2, end=5, has_empty=False),
            OutputFile("e1", f"{self.folder}/loop.xml", detectors=("loop",)),
            OutputFile("e1", f"{self.folder}/no.xml", detectors=("x",)),
            OutputFile("e2", f"{self.folder}/none/x.xml", is_needed=False),
        ]  # fmt: skip
        with Outputs(further, map_from("", MAPPING), 0.0) as outputs:
            for clock, lanes, arrived in FRAMES:
                outputs.add_second(clock, lanes, arrived)
        spans = [(row["begin"], row["end"], row["id"]) for row in self.rows("ed", "interval")]
        self.assertEqual(spans, [("2.00", "4.00", "ed"), ("4.00", "5.00", "ed")])
        rows = [(row["id"], row["sampledSeconds"]) for row in self.rows("ed", "edge")]
        self.assertEqual(rows, [("a", "4.00"), ("a", "1.00")])
        self.assertEqual(self.rows("loop", "interval"), self.rows("e1", "interval"))
        self.assertEqual(self.rows("no", "interval"), [])
        self.assertRegex(*outputs.unopened, "x.xml: .*: it is not written")

    def test_summary(self):
        rows = self.rows("summary", "step")
        self.assertEqual([row["time"] for row in rows], [f"{second}.00" for second in range(8)])
        self.assertEqual([row["inserted"] for row in rows], ["1", "1", "2", "2", "2", "2", "2", "2"])
        self.assertEqual([row["waiting"] for row in rows], ["1", "1", "0", "0", "0", "0", "0", "0"])
        self.assertEqual([row["halting"] for row in rows], ["1", "0", "2", "0", "1", "0", "0", "1"])
        # 4 and 2 cells a second.
        self.assertEqual((rows[3]["meanSpeed"], rows[3]["meanSpeedRelative"]), ("22.50", "0.60"))
        # Vehicle 1 waited 2 s.
        last = rows[-1]
        self.assertEqual((last["meanWaitingTime"], last["meanTravelTime"], last["arrived"]), ("1.00", "8.00", "1"))

    def test_rescues(self):
        """Who is taken out of a junction looks as if it drove on."""
        with Outputs({"summary": f"{self.folder}/x.xml"}, map_from("", MAPPING), 0.0, rescued=[5]) as outputs:
            for clock, lanes, arrived in FRAMES:
                outputs.add_second(clock, lanes, arrived)
        self.assertEqual([row["teleports"] for row in self.rows("x", "step")], [*"00000111"])
        self.assertEqual({row["teleports"] for row in self.rows("summary", "step")}, {"0"})

    def test_who_is_taken_out_has_not_passed_the_loop(self):
        """Vehicle 0 stood on it and is on the next edge a second later, 1 stood before it and is nowhere; 2 arrives."""
        paths = {kind: f"{self.folder}/{kind}.xml" for kind in ("e1", "edgedata")}
        with Outputs(paths, map_from("", MAPPING), 0.0) as outputs:
            outputs.add_second(1, [[0, 0, [[2, 3, 2], [0, 3, 0], [1, 2, 0]], []]], ())
            outputs.add_second(2, [[1, 0, [[0, 0, 0]], []]], (2,))
        [row] = self.rows("e1", "interval")
        self.assertEqual((row["nVehContrib"], row["speed"]), ("1", "15.00"))
        self.assertEqual(self.rows("edgedata", "edge")[0]["teleported"], "2")

    def test_fcd(self):
        times = ElementTree.parse(self.folder / "fcd.xml").getroot()
        at = {(float(time.get("time")), one.get("id")): one.attrib for time in times for one in time}
        self.assertEqual(len(at), 13)
        front = [float(at[3.0, "v"][name]) for name in ("x", "y", "angle", "pos", "speed")]
        self.assertEqual(front, [60, 0, 90, 60, 30])
        self.assertEqual((at[4.0, "v"]["lane"], at[4.0, "v"]["pos"]), ("a_0", "75.00"))

    def test_queue(self):
        """In second 2 the rear one stands with its rear at the lane's begin; the front one since that second alone."""
        times = ElementTree.parse(self.folder / "queue.xml").getroot()
        lanes = [[lane.attrib for lane in time.iter("lane")] for time in times]
        told = {"queueing_length": "75.00", "queueing_time": "1.00", "queueing_length_experimental": "75.00"}
        self.assertEqual(lanes[2], [{"id": "a_0", **told}])
        self.assertEqual(lanes[1], [])
        self.assertEqual([lane["queueing_length"] for lane in lanes[7]], ["15.00"])

    def test_edgedata(self):
        """In the first four seconds vehicle 0 is 4 s on the edge for 7 cells,
        and vehicle 1 is 2 s there for 2 cells."""
        first, _, second, other = self.rows("edgedata", "edge")
        self.assertEqual((first["id"], first["sampledSeconds"]), ("a", "6.00"))
        self.assertEqual((first["departed"], first["left"]), ("2", "0"))
        self.assertEqual((first["speed"], first["waitingTime"]), (f"{9 * 7.5 / 6:.2f}", "3.00"))
        self.assertEqual(first["density"], f"{6 / 4 / 0.075:.2f}")
        self.assertEqual(second["left"], "1")
        self.assertEqual((other["entered"], other["arrived"], other["left"]), ("1", "1", "0"))

    def test_detectors(self):
        """Both pass cell 3: the first at 4 cells a second, the other at 2. The area has cells 0 to 5."""
        [loop] = self.rows("e1", "interval")
        self.assertEqual((loop["nVehContrib"], loop["flow"]), ("2", "900.00"))
        self.assertEqual((loop["speed"], loop["harmonicMeanSpeed"]), ("22.50", "20.00"))
        self.assertEqual(loop["occupancy"], f"{2 / 8 * 100:.2f}")
        [area] = self.rows("e2", "interval")
        self.assertEqual((area["sampledSeconds"], area["startedHalts"]), ("7.00", "4.00"))
        self.assertEqual((area["nVehSeen"], area["nVehLeft"]), ("2", "2"))

    def test_a_halt_that_goes_on_into_the_next_interval(self):
        """Vehicle 0 stands in the area from second 2 to second 6: 2 s in the first four seconds, and 3 s in the others,
        where the halt is of 5 s in all."""
        mapping = map_from("", {**MAPPING, "detectors": [["area", "e2", 0, 0, 0, 5, 4]]})
        with Outputs({"e2": str(self.folder / "e2.xml")}, mapping, 0.0) as outputs:
            outputs.expect_vehicle(0, "v", 0)
            for clock in range(1, 9):
                outputs.add_second(clock, [[0, 0, [[0, 3, 0 if 3 <= clock <= 7 else 1]], []]], ())
        names = "startedHalts", "haltingDurationSum", "intervalHaltingDurationSum", "maxIntervalHaltingDuration"
        found = [[float(row[name]) for name in names] for row in self.rows("e2", "interval")]
        self.assertEqual(found, [[1, 2, 2, 2], [0, 5, 3, 3]])

    def test_intervals_end_with_the_run(self):
        paths = {"edgedata": str(self.folder / "edgedata.xml")}
        for seconds, ends in ((8, ["4.00", "8.00"]), (7, ["4.00", "7.00"]), (4, ["4.00"]), (0, [])):
            with Outputs(paths, map_from("", MAPPING), 0.0, period=4) as outputs:
                outputs.expect_vehicle(0, "v", 0)
                outputs.expect_vehicle(1, "w", 0)
                for clock, lanes, arrived in FRAMES[:seconds]:
                    outputs.add_second(clock, lanes, arrived)
            self.assertEqual([row["end"] for row in self.rows("edgedata", "interval")], ends)

    def test_nothing_is_left_after_a_fault(self):
        before = sorted(self.folder.iterdir())
        paths = {"fcd": str(self.folder / "y.xml")}
        with self.assertRaises(ZeroDivisionError), Outputs(paths, map_from("", MAPPING), 0.0) as outputs:
            outputs.add_second(1, [], ())
            raise ZeroDivisionError
        self.assertEqual(sorted(self.folder.iterdir()), before)


class Faults(Case):
    def test_kinds(self):
        words = ("run", "x.jsonl", "--map", "x.json", "--until", 10, "--out", self.folder / "out")
        told = self.tool(*words, "--sumo-output", "fcd,trip", status=2)[1]
        self.assertIn("'trip' is none of tripinfo, summary", told)

    def test_detectors_that_are_not_there(self):
        run = self.write("x.jsonl", json.dumps({"cmd": "load", **NUMBERED}))
        mapped = self.write("x.json", json.dumps(MAP))
        words = (run, "--map", mapped, "--until", 10, "--out", self.folder / "out", "--program", "/bin/true")
        missing = "--sumo-output e2: the map has no laneAreaDetector: import an additional file that has one"
        for kinds in ("e2", "fcd,e2,e1"):
            self.assertIn(missing, self.tool("run", *words, "--sumo-output", kinds, status=2)[1])
        self.assertFalse((self.folder / "out").exists())


@needs_simulator
class OfARun(Case):
    """The corridor in its first ten minutes."""

    @classmethod
    def setUpClass(cls):
        cls.made = Case()
        cls.made.setUp()
        cls.addClassCleanup(cls.made.doCleanups)
        cls.base = cls.made.folder
        extra = cls.made.write("detectors.add.xml", DETECTORS)
        network, routes = CORRIDOR / "corridor.net.xml.gz", CORRIDOR / "corridor.rou.xml"
        run, mapped = cls.base / "run.jsonl", cls.base / "map.json"
        cls.made.tool("import", network, extra, "--routes", routes, "-o", run, "--map", mapped)
        words = ("--map", mapped, "--until", 600, "--period", 300, "--program", PROGRAM)
        cls.made.tool("run", run, *words, "--out", cls.base / "out", "--sumo-output", ",".join(KINDS))
        cls.made.tool("run", run, *words, "--out", cls.base / "polled", "--every", 1)
        cls.sumo, cls.out = cls.base / "out/sumo", read_folder(cls.base / "out")

    def rows(self, kind, tag):
        return [element.attrib for element in ElementTree.parse(self.sumo / f"{kind}.xml").getroot().iter(tag)]

    def test_trips_are_those_of_the_table(self):
        trips = {row["id"]: row for row in self.out.trips() if row["arrival"]}
        told = {row["id"]: row for row in self.rows("tripinfo", "tripinfo")}
        self.assertEqual(trips.keys(), told.keys())
        self.assertGreater(len(trips), 200)
        for name, row in told.items():
            self.assertEqual(float(row["duration"]) + float(row["departDelay"]), float(trips[name]["duration"]))
            self.assertEqual(float(row["arrival"]), float(trips[name]["arrival"]))

    def test_edges_are_those_of_the_table(self):
        table = {(float(row["begin"]), row["edge"]): row for row in read_table(f"{self.out.path}/edges.csv", EDGES)}
        seen = 0
        for interval in ElementTree.parse(self.sumo / "edgedata.xml").getroot():
            for edge in interval:
                row = table[float(interval.get("begin")), edge.get("id")]
                self.assertEqual(int(edge.get("left")) + int(edge.get("arrived")), int(row["left"]))
                self.assertEqual(int(edge.get("entered")) + int(edge.get("departed")), int(row["entered"]))
                seen += int(row["left"])
        self.assertGreater(seen, 900)

    def test_detectors_are_those_of_the_tables(self):
        loops = {(float(row["begin"]), row["id"]): row for row in read_table(f"{self.out.path}/detectors.csv", LOOPS)}
        rows = self.rows("e1", "interval")
        self.assertEqual(len(rows), 4)
        for row in rows:
            table = loops[float(row["begin"]), row["id"]]
            self.assertEqual(row["nVehContrib"], table["vehicles"])
            self.assertEqual(f"{float(row['occupancy']):.1f}", table["occupancy_percent"])
            # The loop counts cells of 7.5 m a second.
            self.assertAlmostEqual(float(row["speed"]) * 3.6, float(table["mean_speed_kmh"]), delta=1.0)
        areas = read_table(f"{self.out.path}/areas.csv", AREAS)
        for row, table in zip(self.rows("e2", "interval"), areas, strict=True):
            self.assertAlmostEqual(float(row["meanVehicleNumber"]), float(table["mean_vehicles"]), delta=0.25)

    def test_the_summary_is_that_of_the_table(self):
        steps = {float(row["time"]): row for row in self.rows("summary", "step")}
        for row in read_table(f"{self.out.path}/summary.csv", SUMMARY):
            step = steps[float(row["time"]) - 1]
            self.assertEqual(int(step["running"]), int(row["on_cells"]) + int(row["in_buffers"]))
            self.assertEqual(step["arrived"], row["arrived"])

    def test_a_folder_with_every_second_gives_the_same(self):
        polled, paths = read_folder(self.base / "polled"), {kind: self.folder / f"{kind}.xml" for kind in KINDS}
        details = {"vehroute-output.exit-times"}
        files = [OutputFile(kind, path, details, period=polled.period) for kind, path in paths.items()]
        with Outputs(files, polled.mapping, polled.dawdle / 1000) as outputs:
            outputs.write_run(polled.trips(), polled.polls())
        for kind, path in paths.items():
            self.assertEqual(path.read_text(), (self.sumo / f"{kind}.xml").read_text(), kind)

    @needs_package("libxml2-utils", shutil.which("xmllint"))
    @needs_package("sumo", (SUMO / "data/xsd").is_dir())
    def test_they_are_valid_by_the_schemas_of_sumo(self):
        shutil.copytree(SUMO / "data/xsd", self.folder / "xsd")
        summary = self.folder / "xsd/summary_file.xsd"  # SUMO 1.15 names a type in it that it does not define
        summary.write_text(summary.read_text().replace('"nonNegativeFloat"', '"nonNegativeFloatType"'))
        for kind in SCHEMAS:
            schema, output = self.folder / f"xsd/{SCHEMAS[kind]}.xsd", self.sumo / f"{kind}.xml"
            words = ["xmllint", "--nonet", "--noout", "--schema", schema, output]
            done = subprocess.run(words, capture_output=True, text=True, check=False)
            self.assertEqual(done.returncode, 0, done.stderr)

    @needs_sumo_tools
    @needs_package("python3-matplotlib", draws())
    def test_scripts_of_sumo(self):
        """Each runs unchanged, ends with status 0, makes its file and says what it should."""
        network = self.folder / "net.xml"
        network.write_bytes(gzip.decompress((CORRIDOR / "corridor.net.xml.gz").read_bytes()))
        kinds = {**{kind: self.sumo / f"{kind}.xml" for kind in KINDS}, "net": network}
        arrived = len(self.rows("tripinfo", "tripinfo"))
        for line, made, told in SCRIPTS:
            with self.subTest(line):
                script, *words = line.format(**kinds).split()
                done = subprocess.run(
                    ["/usr/bin/python3", SUMO / "tools" / script, *words],
                    cwd=self.folder,
                    env={**os.environ, "SUMO_HOME": str(SUMO), "MPLBACKEND": "Agg"},
                    capture_output=True,
                    text=True,
                    check=False,
                )
                self.assertEqual((done.returncode, "Traceback" in done.stderr), (0, False), done.stderr + done.stdout)
                self.assertIn(told.format(arrived=arrived), done.stdout)
                self.assertTrue(not made or (self.folder / made).stat().st_size > 100)


if __name__ == "__main__":
    unittest.main()
