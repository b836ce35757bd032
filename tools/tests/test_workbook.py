"""streetsim-export: a run as a workbook, with units, doubts and timing sheets."""
import unittest
from importlib.util import find_spec

from support import DATA, PROGRAM, Case, needs_package, needs_simulator

from streetsim.report.workbook import in_unit, unit_of

needs_openpyxl = needs_package("python3-openpyxl", find_spec("openpyxl"))


class Units(unittest.TestCase):
    def test_columns_have_their_units(self):
        for column, unit in (("begin", "s"), ("control_delay_s", "s"), ("queue_95_m", "m"), ("vehicles", "vehicles"),
                             ("capacity_per_hour", "veh/h"), ("mean_speed_kmh", "km/h"), ("full_percent", "%"),
                             ("v_c", "1"), ("junction", ""), ("los", ""), ("id", "")):
            self.assertEqual(unit_of(column), unit, column)

    def test_numbers_are_numbers_where_there_is_a_unit(self):
        self.assertEqual([in_unit("12", "s"), in_unit("12", ""), in_unit("", "m"), in_unit("B2", "m")],
                         [12.0, "12", None, "B2"])


@needs_openpyxl
@needs_simulator
class Workbook(Case):
    def test_the_offices_run_is_one_workbook(self):
        import openpyxl

        run, out = self.folder / "o.jsonl", self.folder / "o"
        self.tool("import", DATA / "office.net.xml.gz", DATA / "office-90.add.xml", "--routes",
                  DATA / "office.rou.xml.gz", "--begin", 24300, "-o", run, "--map", self.folder / "o.map.json")
        self.tool("run", run, "--until", 26100, "--junctions", 900, "--rounds", 0, "--out", out, "--program", PROGRAM)
        told, _ = self.tool("export", out, "-o", self.folder / "o.xlsx")
        self.assertIn("worksheets: Run, Doubts, junctions, approaches, movements, ", told)
        book = openpyxl.load_workbook(self.folder / "o.xlsx")
        run_rows = {row[0]: row[1] for row in book["Run"].iter_rows(values_only=True)}
        self.assertEqual((run_rows["run"], run_rows["until"]), ("o.jsonl", 26100))
        head, units, first, *_ = book["movements"].iter_rows(values_only=True)
        self.assertEqual(dict(zip(head, units))["control_delay_s"], "s")
        self.assertIsInstance(dict(zip(head, first))["vehicles"], int | float)
        # From the plan's file by hand: straight on along the main street 0 to 35 s, its lefts 40 to 52 s, of 90 s.
        light = [row[3:8] for row in book["Light C"].iter_rows(values_only=True)]
        self.assertIn(("4 5", 0, 35, 35, 3), light)
        self.assertIn(("6", 40, 52, 12, 3), light)
        self.assertIn(("cycle", 90, "s"), [row[:3] for row in book["Light C"].iter_rows(values_only=True)])

    def test_what_does_not_go_together_is_one_line(self):
        for words, told in ((("-o", "x.ods"), "ends with .geojson, .gpkg or .xlsx"),
                            (("-o", "x.xlsx", "--projection", "EPSG:25832"), "--projection is of maps")):
            said = self.tool("export", self.folder, *words, status=2)[1]
            self.assertEqual(said.count("\n"), 1)
            self.assertIn(told, said)


if __name__ == "__main__":
    unittest.main()
