"""SUMO's e1 and e2 of additional files: where they are placed, and their tables, by hand and beside SUMO's."""
import csv
import gzip
import unittest
import xml.etree.ElementTree as ElementTree
from operator import mul
from statistics import fmean

from support import DATA, PROGRAM, Case, lane, needs_simulator, net
from streetsim.base.files import read_json
from streetsim.model.detectors import Detector, longest_jam
from streetsim.simulation.tally import key_of

# One lane of 10 cells, 5 cells a step.
STREET = net([("a", "A", "B", [lane("a", 0, speed=37.0)])], [])
LOOPS = """<additional>
<inductionLoop id="loop" lane="a_0" pos="29" freq="10" file="x.xml"/>
<e1Detector id="end" lane="a_0" pos="-1" freq="60" file="x.xml"/>
<laneAreaDetector id="area" lane="a_0" pos="0" endPos="75" freq="10" file="x.xml"/>
<e2Detector id="part" lane="a_0" pos="15" length="15" freq="60" file="x.xml"/>
</additional>"""


class Keys(unittest.TestCase):
    def test_cells_stand_by_lanes_and_on_each_by_cells(self):
        places = (0, 0, 3), (0, 0, 5), (0, 1, 0), (1, 0, 0), (1, 1, 9)
        keys = [key_of(Detector("d", "e1", *place, place[-1], 60)) for place in places]
        self.assertEqual(keys, sorted({*keys}))


class Detectors(Case):
    def run_import(self, additional, status=0, network=STREET):
        words = [self.write("x.net.xml", network), self.write("x.add.xml", additional), "--dawdle", 0]
        # One of this type takes as long to 75 m in SUMO as here, so the street has as many cells as it is long.
        routes = '<routes><vType id="t" accel="5.6" sigma="0" speedDev="0"/>'
        routes += '<vehicle id="v" type="t" depart="0"><route edges="a"/></vehicle></routes>'
        words += ["--routes", self.write("x.rou.xml", routes), "-o", self.folder / "run.jsonl"]
        return self.tool("import", *words, "--map", self.folder / "map.json", status=status)[1]

    def test_longest_jam(self):
        cells = ((1, 9, 0), (2, 8, 0, 2), (3, 6, 0), (4, 5, 1), (5, 4, 0), (6, 2, 0))
        self.assertEqual((longest_jam(cells), longest_jam(())), (3, 0))

    def test_faults(self):
        for element, told in (
            ('<inductionLoop id="x" lane="z_0" pos="0" freq="60" file="f"/>', "the network has no lane 'z_0'"),
            ('<inductionLoop id="x" lane="a_0" pos="0" freq="0" file="f"/>', "freq='0' is no period"),
            ('<inductionLoop id="x" lane="a_0" freq="60" file="f"/>', "no attribute 'pos'"),
            (
                '<inductionLoop id="x" lane="a_0" pos="1"/><inductionLoop id="x" lane="a_0" pos="2"/>',
                "a second detector",
            ),
            ('<inductionLoop id="x" lane="a_0" pos="76"/>', "begins at 76 m, and lane 'a_0' is 75 m long"),
            ('<inductionLoop id="x" lane="a_0" pos="-76"/>', "begins at -76 m, and lane 'a_0' is 75 m long"),
            ('<e2Detector id="x" lane="a_0" pos="90" length="10"/>', "begins at 90 m, and lane 'a_0' is 75 m long"),
            ('<e2Detector id="x" lane="a_0" pos="10" endPos="90"/>', "ends at 90 m, and lane 'a_0' is 75 m long"),
            ('<e2Detector id="x" lane="a_0" pos="50" endPos="20"/>', "ends at 20 m, and begins at 50 m"),
            ('<e2Detector id="x" lane="a_0" pos="-20" endPos="-20"/>', "ends at 55 m, and begins at 55 m"),
        ):
            with self.subTest(told):
                self.assertIn(told, self.run_import(f"<additional>{element}</additional>", status=2))
        for place in ('pos="10" length="90"', 'pos="-15" length="20"', 'endPos="15" length="20"'):
            told = self.run_import(f'<additional><e2Detector id="x" lane="a_0" {place}/></additional>')
            self.assertIn("warning: detector x reaches beyond a_0, and sees what is on that lane alone", told)
        self.assertIn(
            "<inductionLoop 'x'>: the network has no lane 'a_7'",
            self.run_import('<additional><inductionLoop id="x" lane="a_7" pos="0"/></additional>', status=2),
        )

    def test_lanes_that_are_left_out(self):
        """A bus lane beside another one, and the only lane of an edge."""
        bus = 'allow="bus"'
        edges = [("a", "A", "B", [lane("a", 0, more=bus), lane("a", 1)]), ("b", "B", "C", [lane("b", 0, more=bus)])]
        for name in ("a_0", "b_0"):
            loop = f'<additional><inductionLoop id="x" lane="{name}" pos="0"/></additional>'
            self.assertIn(
                f"warning: detector x lies on {name}, which is left out",
                self.run_import(loop, network=net(edges, [("a", 0, "b", 0, "")])),
            )

    def test_places(self):
        """Cells of 7.5 m; SUMO takes each of these, with friendlyPos also those beyond the lane."""
        area, friendly = '<e2Detector id="x" lane="a_0" {}/>', 'friendlyPos="true"'
        for element, cells in (
            (area.format('pos="15" length="15"'), [2, 3]),
            (area.format('endPos="-45" length="15"'), [2, 3]),
            (area.format('pos="-15" length="15"'), [8, 9]),
            (area.format('pos="-15" length="20"'), [8, 9]),
            (area.format('endPos="15" length="20"'), [0, 1]),
            (area.format('pos="15" length="15" endPos="75"'), [2, 3]),
            (area.format('pos="60" length="0"'), [8, 9]),
            (area.format(f'pos="60" endPos="90" {friendly}'), [8, 9]),
            (f'<e1Detector id="x" lane="a_0" pos="90" {friendly}/>', [9, 9]),
        ):
            with self.subTest(element):
                self.run_import(f"<additional>{element}</additional>")
                found = read_json(self.folder / "map.json", ["detectors"])["detectors"]
                self.assertEqual([*found["first"], *found["last"]], cells)

    @needs_simulator
    def test_tables(self):
        """The vehicle is in cells 0, 1, 3 and 6 at clocks 1 to 4 and out in the fifth step with speed 4. It stands in
        cell 3, at 29 m, at clock 3 and goes on from it with speed 3; the area sees it four times in ten polls, at 0 to
        3 cells a step, with its 5 m on 75; cells 2 and 3 see it once in sixty, at 2 cells a step, with 5 of 15 m."""
        self.run_import(LOOPS)
        words = [self.folder / "run.jsonl", "--map", self.folder / "map.json", "--until", 60, "--every", 1]
        self.tool("run", *words, "--program", PROGRAM, "--out", self.folder / "out")
        loops, areas = self.table("detectors.csv"), self.table("areas.csv")
        self.assertEqual(loops[0], ["0", "10", "loop", "1", "360.0", "81.0", "10.0"])
        self.assertEqual(loops[1], ["10", "20", "loop", "0", "0.0", "", "0.0"])
        self.assertEqual([row for row in loops if row[2] == "end"], [["0", "60", "end", "1", "60.0", "108.0", "0.0"]])
        self.assertEqual(areas[0], ["0", "10", "area", "0.40", "1", "40.5", "2.7", "0.10", "1"])
        self.assertEqual(areas[-1], ["0", "60", "part", "0.02", "1", "54.0", "0.6", "0.00", "0"])

    @needs_simulator
    def test_beside_sumo(self):
        """The grid's 240 lanes with a loop in the middle and an area on the last 100 m of each, four quarter hours;
        the means of SUMO 1.15 are printed by bench/run detectors."""
        with gzip.open(DATA / "grid.net.xml.gz", "rt", encoding="utf-8") as file:
            lanes = [
                (lane.get("id"), float(lane.get("length")))
                for lane in ElementTree.parse(file).iterfind("edge[@from]/lane")
            ]
        self.assertEqual(len(lanes), 240)
        added = "".join(
            f'<inductionLoop id="{name}" lane="{name}" pos="{metres / 2}" freq="900" file="x"/>'
            f'<laneAreaDetector id="area {name}" lane="{name}" pos="{max(0, metres - 100)}" endPos="{metres}" '
            'freq="900" file="x"/>'
            for name, metres in lanes
        )
        run, mapped = self.folder / "run.jsonl", self.folder / "map.json"
        words = [DATA / "grid.net.xml.gz", self.write("x.add.xml", f"<additional>{added}</additional>")]
        self.tool("import", *words, "--routes", DATA / "grid.rou.xml.gz", "-o", run, "--map", mapped)
        self.tool("run", run, "--map", mapped, "--until", 3600, "--program", PROGRAM, "--out", self.folder / "out")
        loops, areas = self.table("detectors.csv"), self.table("areas.csv")
        self.assertEqual((len(loops), len(areas)), (960, 960))
        for rows, column, expected, share in ((loops, 3, 21.90, 0.02), (areas, 3, 0.50, 0.1), (areas, 6, 2.28, 0.15)):
            mean = fmean(float(row[column]) for row in rows)
            self.assertAlmostEqual(mean, expected, delta=share * expected, msg=column)
        vehicles = [float(row[3]) for row in areas if row[5]]
        speeds = [float(row[5]) for row in areas if row[5]]
        self.assertAlmostEqual(sum(map(mul, vehicles, speeds)) / sum(vehicles), 19.03, delta=0.1 * 19.03)

    def table(self, name):
        with open(self.folder / "out" / name, encoding="utf-8") as file:
            return list(csv.reader(file))[1:]


if __name__ == "__main__":
    unittest.main()
