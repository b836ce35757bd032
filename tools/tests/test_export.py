"""Exports for geographic information systems: places on Earth, values by hand, and what ogr2ogr reads."""
import json
import shutil
import subprocess
import unittest
from types import SimpleNamespace

from support import MAP, PROGRAM, Case, needs_package, needs_simulator
from streetsim.base.report import Report
from streetsim.model.service import COLOURS
from streetsim.model.tables import APPROACHES, EDGES, JUNCTIONS, MOVEMENTS, write_table
from streetsim.report.edge_values import traffic_of
from streetsim.report.gis_export import export_told
from streetsim.sumo.net import read_net

OGR = shutil.which("ogr2ogr")
HAS_PYPROJ = (
    subprocess.run(["/usr/bin/python3", "-c", "import pyproj"], capture_output=True, check=False).returncode == 0
)
needs_pyproj = needs_package("python3-pyproj", HAS_PYPROJ)
UTM = "+proj=utm +zone=32 +ellps=WGS84 +datum=WGS84 +units=m +no_defs"
# The point (500000, 0) of each UTM zone is the equator at its central meridian, 9 degrees east in zone 32.
LOCATION = {"offset": [-500000.0, 0.0], "projection": UTM}
QUEUED = {
    "nearly_full": "", "full_percent": 0, "blocked_percent": "", "doubt": "", "queue_50_m": 7.5, "queue_95_m": 15.0,
    "queue_max_m": 22.5, "storage_m": 75.0,
}
LOST = {"vehicles": 10, "stopped_delay_s": 5.0, "stops_per_vehicle": 0.5, "error_s": ""}


class Numbers(Case):
    def test_periods_by_their_share(self):
        """Half of the first period and all of the second: 5 + 20 vehicles in 1,350 s; 10 vehicles a kilometre for 450 s
        and 20 for 900 are 16.67; speeds by vehicles: (4,500 * 30 + 18,000 * 45) / 22,500."""
        rows = [
            {"begin": "0", "end": "900", "edge": "a", "left": "10", "density_per_km": "10", "mean_speed_kmh": "30"},
            {"begin": "900", "end": "1800", "edge": "a", "left": "20", "density_per_km": "20", "mean_speed_kmh": "45"},
            {"begin": "1800", "end": "2700", "edge": "a", "left": "99", "density_per_km": "99", "mean_speed_kmh": "99"},
        ]
        seen = traffic_of(rows, 450, 1800)["a"]
        self.assertAlmostEqual(seen.flow, 25 * 3600 / 1350)
        self.assertAlmostEqual(seen.density, 22500 / 1350)
        self.assertAlmostEqual(seen.speed, 42.0)

    def test_the_import_keeps_the_place(self):
        lane = '<lane id="a_0" index="0" speed="13.9" length="75" shape="0,0 75,0"/>'
        place = f'<location netOffset="-604099.60,-5792153.74" projParameter="{UTM}"/>'
        text = f'<net>{place}<edge id="a" from="A" to="B">{lane}</edge></net>'
        net = read_net(self.write("x.net.xml", text), ("passenger",), Report())
        self.assertEqual(net.location, {"offset": (-604099.6, -5792153.74), "projection": UTM})


class Told(unittest.TestCase):
    def test_rows_and_intervals(self):
        runs = SimpleNamespace(folders={}, rows=[0], first_folder=SimpleNamespace(unproved=""))
        for begins, text in (((0, 0), "2 rows of edges and junctions in 1 interval"), ((0, 900), "in 2 intervals")):
            told = export_told("x.geojson", runs, [{"properties": {"begin": begin}} for begin in begins])
            self.assertTrue(told.endswith(text), told)


class Given(Case):
    """A run of one hour written by hand, with junction tables of half hours, on the equator."""

    def setUp(self):
        super().setUp()
        self.write_setting(LOCATION)
        edges = [(0, 1800, "a", 5, 10, "4.00", "30.00", "9.0"), (1800, 3600, "a", 5, 30, "", "", "")]
        write_table(f"{self.folder}/edges.csv", EDGES, edges)
        for table, columns in (("movements", MOVEMENTS), ("approaches", APPROACHES), ("junctions", JUNCTIONS)):
            rows = []
            for begin, delay in ((0, 20.5), (1800, 36.0)):
                row = {
                    **LOST, **QUEUED, "begin": begin, "end": begin + 1800, "control_delay_s": delay, "v_c": 0.5,
                    "los": "?",
                }
                row.update(junction="B", control="signals", approach="a", to="b", movement="T", vehicles_per_hour=20)
                rows.append([{**row, "saturation_flow": 1760, "capacity_per_hour": 40}[column] for column in columns])
            write_table(f"{self.folder}/{table}.csv", columns, rows)

    def write_setting(self, location):
        setting = {"map": {**MAP, "location": location}, "signals": [], "dawdle": 170, "every": 10, "period": 1800}
        self.write("setting.json", json.dumps(setting))

    def export(self, *words, name="x.geojson"):
        told = self.tool("export", self.folder, "-o", self.folder / name, *words)[0]
        return told, self.folder / name


@needs_pyproj
class Files(Given):
    def test_content(self):
        told, path = self.export()
        self.assertIn("6 rows of edges and junctions in 2 intervals", told)
        rows = json.loads(path.read_text())["features"]
        kinds = [(row["properties"]["kind"], row["properties"]["name"], row["properties"]["begin"]) for row in rows]
        edges = [("edge", "a"), ("edge", "b"), ("junction", "B")]
        self.assertEqual(kinds, [(*one, begin) for begin in (0, 1800) for one in edges])
        first, other, junction, later, *_ = (row["properties"] for row in rows)
        self.assertEqual(
            (first["vehicles_per_hour"], first["mean_speed_kmh"], first["los"], first["to"]), (20.0, 30.0, "C", "B")
        )
        self.assertEqual((later["vehicles_per_hour"], later["mean_speed_kmh"], later["los"]), (60.0, None, "D"))
        self.assertEqual((other["vehicles_per_hour"], other["control_delay_s"], other["los"]), (None, None, None))
        self.assertEqual((junction["control_delay_s"], junction["v_c"], first["queue_95_m"]), (20.5, 0.5, 15.0))

    def test_places(self):
        """On the equator a metre of the projection is 1 / 0.9996 m, and a degree 111,319.49 m."""
        rows = json.loads(self.export()[1].read_text())["features"]
        (west, south), (east, north) = rows[0]["geometry"]["coordinates"]
        self.assertEqual((west, south, north), (9.0, 0.0, 0.0))
        self.assertAlmostEqual(east, 9 + 75 / 0.9996 / 111319.49, places=6)

    def test_without_junctions(self):
        for table in ("movements", "approaches", "junctions"):
            (self.folder / f"{table}.csv").unlink()
        told, path = self.export()
        self.assertIn("the run had no --junctions", told)
        self.assertEqual(len(json.loads(path.read_text())["features"]), 4)

    def test_faults(self):
        for location, words, told in (
            (
                {"offset": [0, 0], "projection": "!"},
                (),
                "the network has no projection: say where it lies by --projection",
            ),
            ({}, (), "import again"),
            (LOCATION, ("--projection", "+proj=none"), "'+proj=none' is no projection of points that pyproj knows"),
            (LOCATION, ("--projection", "EPSG:5773"), "'EPSG:5773' is no projection of points that pyproj knows"),
            ({"offset": [-9e9, 0], "projection": UTM}, (), "nowhere on Earth"),
        ):
            with self.subTest(told):
                self.write_setting(location)
                words = (self.folder, "-o", self.folder / "x.geojson", *words)
                self.assertIn(told, self.tool("export", *words, status=2)[1])
                self.assertFalse((self.folder / "x.geojson").exists())
        words = (self.folder, "-o", self.folder / "x.shp")
        self.assertIn("ends with .geojson, .gpkg or .xlsx", self.tool("export", *words, status=2)[1])

    def test_a_projection_told_by_hand(self):
        self.write_setting({"offset": [-500000.0, 0.0], "projection": "!"})
        rows = json.loads(self.export("--projection", "EPSG:32632")[1].read_text())["features"]
        self.assertEqual(rows[0]["geometry"]["coordinates"][0], [9.0, 0.0])

    @needs_package("gdal-bin", OGR)
    def test_ogr2ogr_reads_it(self):
        """As a table of the letters, from GeoJSON and from each layer of a GeoPackage, which is the same each time."""
        path = self.export()[1]
        package = self.export(name="x.gpkg")[1]
        content = package.read_bytes()
        self.assertEqual(self.export(name="x.gpkg")[1].read_bytes(), content)
        for source, layers, rows in ((path, (), 6), (package, ("edges",), 4), (package, ("junctions",), 2)):
            words = ["ogr2ogr", "-f", "CSV", "/vsistdout/", source, *layers, "-select", "name,los,control_delay_s"]
            table = subprocess.run(words, capture_output=True, text=True, check=True).stdout.splitlines()
            self.assertEqual(len(table), rows + 1)
            self.assertIn("B,C,20.5" if "junctions" in layers else "a,C,20.5", table)


@needs_simulator
@needs_pyproj
class Whole(Case):
    def test_seeds_of_a_run(self):
        """The example corridor tells no projection; with one by hand each edge has its mean over two seeds."""
        from test_reports import CORRIDOR

        run, mapped, out = self.folder / "run.jsonl", self.folder / "map.json", self.folder / "out"
        self.tool(
            "import", CORRIDOR / "corridor.net.xml.gz", "--routes", CORRIDOR / "corridor.rou.xml", "-o", run,
            "--map", mapped,
        )
        words = (run, "--map", mapped, "--until", 600, "--period", 600, "--program", PROGRAM, "--out", out)
        self.tool("run", *words, "--seeds", "1-2", "--departures", "listed", "--junctions", "600")
        told = self.tool("export", out, "-o", self.folder / "x.geojson", "--projection", "EPSG:32632")[0]
        self.assertIn("37 rows of edges and junctions in 1 interval", told)
        rows = [row["properties"] for row in json.loads((self.folder / "x.geojson").read_text())["features"]]
        counted = [(out / f"seed-{seed}/edges.csv").read_text().splitlines() for seed in (1, 2)]
        left = [int(line.split(",")[4]) for table in counted for line in table if line.split(",")[2] == "J1J2"]
        edge = next(row for row in rows if row["name"] == "J1J2")
        self.assertAlmostEqual(edge["vehicles_per_hour"], sum(left) / 2 * 6, delta=0.05)


@needs_package(
    "python3-matplotlib",
    subprocess.run(
        ["/usr/bin/python3", "-c", "import matplotlib, PIL"], capture_output=True, check=False
    ).returncode == 0,
)
class Maps(Given):
    def drawn(self, what, *words):
        path = self.folder / f"{what}.svg"
        self.tool("plot", "map", self.folder, "--what", what, *words, "-o", path)
        return path.read_text()

    def test_each_is_drawn_with_its_units(self):
        """The texts of an SVG stand beside its glyphs as comments; the busiest interval is the first of two alike."""
        for what, told in (
            ("delay", "seconds"), ("vc", "v/c"), ("flow", "vehicles/h"), ("queue", "metres"),
            ("los", "Level of service"),
        ):
            with self.subTest(what):
                text = self.drawn(what)
                self.assertIn(told, text)
                self.assertIn("0:00 to 0:30", text)

    def test_letters_have_the_reports_colours(self):
        """20.5 s are C on the edge and the junction, 36 s are D: besides the legend's,
        two marks more of that colour."""
        for begin, letter, other in ((0, "C", "D"), (1800, "D", "C")):
            text = self.drawn("los", "--begin", begin).lower()
            self.assertEqual(text.count(COLOURS[letter]) - text.count(COLOURS[other]), 2)

    def test_faults(self):
        for words, told in (
            (("--what", "delay", "--begin", 5), "--interval 5: no interval begins there, of 0, 1800"),
            (("--begin", 0), "--interval: the map of density is of all polls"),
        ):
            with self.subTest(told):
                self.assertIn(
                    told, self.tool("plot", "map", self.folder, *words, "-o", self.folder / "x.png", status=2)[1]
                )
        (self.folder / "junctions.csv").unlink()
        said = self.tool("plot", "map", self.folder, "--what", "los", "-o", self.folder / "x.png", status=2)[1]
        self.assertIn("a map of los needs streetsim-run --junctions", said)
        write_table(f"{self.folder}/edges.csv", EDGES, [])
        said = self.tool("plot", "map", self.folder, "--what", "flow", "-o", self.folder / "x.png", status=2)[1]
        self.assertIn("nothing is known of any interval", said)

    def test_an_interval_below_a_minute(self):
        (self.folder / "junctions.csv").unlink()
        write_table(f"{self.folder}/edges.csv", EDGES, [(0, 30, "a", 5, 10, "4.00", "30.00", "9.0")])
        self.assertIn("0:00 to 0:00:30", self.drawn("flow"))
