"""Comparing with SUMO: its files, GEH, correlation, arrival curves."""
import io
import json
import time
import unittest

from support import MAP, Case
from streetsim.base.files import Fault
from streetsim.base.progress import Slow
from streetsim.model.tables import EDGES, TRIPS
from streetsim.report import beside_sumo


class Compare(Case):
    def test_geh(self):
        # sqrt(2 * 100^2 / 1900)
        self.assertEqual(round(beside_sumo.geh(1000, 900), 3), 3.244)
        self.assertEqual(beside_sumo.geh(0, 0), 0)

    def test_correlation(self):
        self.assertEqual(beside_sumo.correlation([1, 2, 3], [2, 4, 6]), 1)
        self.assertEqual(round(beside_sumo.correlation([1, 2, 3], [1, 3, 2]), 3), 0.5)
        self.assertIsNone(beside_sumo.correlation([1, 1], [1, 2]))

    def test_greatest_gap(self):
        # After 10 there are two of four against none.
        self.assertEqual(beside_sumo.greatest_gap([5, 10, 40, 40], [20, 20, 40, 40], 4), 0.5)
        self.assertEqual(beside_sumo.greatest_gap([], [], 0), 0)

    def test_tripinfo(self):
        path = self.write(
            "t.xml",
            '<tripinfos><tripinfo id="v" depart="12.00" arrival="80.00" departDelay="2.00"/>'
            '<tripinfo id="w" depart="3.00" arrival="-1.00"/></tripinfos>',
        )
        self.assertEqual(beside_sumo.read_tripinfo(path), {"v": (10.0, 80.0)})

    def test_edgedata(self):
        path = self.write(
            "e.xml",
            '<meandata><interval begin="0.00" end="900.00" id="e">'
            '<edge id="a" left="3" arrived="2" entered="9" sampledSeconds="71.5"/><edge id="b"/></interval></meandata>',
        )
        self.assertEqual(beside_sumo.read_edges(path), {(0.0, 900.0, "a"): (5, 71.5), (0.0, 900.0, "b"): (0, 0.0)})

    def test_a_count_that_is_no_number(self):
        edge = '<edge id="a" left="x"/>'
        path = self.write("e.xml", f'<meandata><interval begin="0" end="9">{edge}</interval></meandata>')
        with self.assertRaisesRegex(Fault, "<edge 'a'>: left='x' cannot be read"):
            beside_sumo.read_edges(path)

    def test_no_period_and_edge_in_common(self):
        """Though one edge and one period are in both."""
        here = {(0, 9, "a"): (1, None), (9, 18, "b"): (1, None)}
        told = list(beside_sumo.compare_edges(here, {(0, 9, "b"): (1, 1.0)}, 9, 2))
        self.assertEqual(told, ["counts: no period of 9 s and edge in common"])

    def test_lines(self):
        here, there = {"v": (0, 90), "w": (0, 50)}, {"v": (0, 100), "w": (0, 60), "x": (0, 5)}
        self.assertEqual(
            list(beside_sumo.compare_trips(here, there, "vwx"))[:2],
            ["arrived: 2 here, 3 in SUMO, 2 in both", "mean trip of these: 70.0 s here, 80.0 s in SUMO (-12.5 %)"],
        )
        # One that the import skipped is in neither number nor curve.
        told = list(beside_sumo.compare_trips(here, {**there, "bus.1": (0, 9000)}, "vwx"))
        self.assertEqual(told[0], "left out: 1 vehicles of SUMO that the run does not have (bus.1)")
        self.assertEqual(told[1:], list(beside_sumo.compare_trips(here, there, "vwx")))

    def test_edges(self):
        # Quarter hours: 25 against 20 is 100 against 80 an hour, GEH 2.1; 30 against 90 is 120 against 360, GEH 15.5.
        # The second period is not SUMO's; of edge c no lane is known here; d is not SUMO's.
        here = {
            (0, 900, "a"): (25, 1800.0),
            (0, 900, "b"): (30, None),
            (900, 1800, "a"): (9, 9.0),
            (0, 900, "d"): (7, 7.0),
        }
        there = {(0, 900, "a"): (20, 1440.0), (0, 900, "b"): (90, 5.0), (0, 900, "c"): (50, 5.0)}
        judged, counted, spent = beside_sumo.compare_edges(here, there, 900, 4)
        self.assertEqual(judged, "edges: 2 of 4 judged, in 1 periods of 900 s")
        self.assertIn("GEH below 5 for 50.0 % of 2 counts of 900 s", counted)
        self.assertEqual(spent, "time on these edges: 0.5 vehicle hours here, 0.4 in SUMO (+25.0 %)")
        [line] = beside_sumo.compare_edges(here, {(0, 300, "a"): (1, 1.0)}, 900, 4)
        self.assertEqual(line, "counts: no period of 900 s and edge in common")

    def test_a_line_after_a_while_on_a_terminal(self):
        class Terminal(io.StringIO):
            def isatty(self):
                return True

        for stream, wait, told in (
            (Terminal(), 0.01, "\rreading x, 0 s\r              \r"),
            (Terminal(), 9, ""),
            (io.StringIO(), 0.01, ""),
        ):
            with Slow("reading x", stream, wait):
                time.sleep(0.2)
            self.assertEqual(stream.getvalue(), told)

    def test_nothing_in_common(self):
        self.write("setting.json", json.dumps({"map": MAP, "signals": [], "dawdle": 0, "every": 1, "period": 900}))
        self.write("trips.csv", ",".join(TRIPS) + "\nv,0,30,30,4,26,2,0,arrived\n")
        self.write("edges.csv", ",".join(EDGES) + "\n0,900,a,1,1,0.50,40.50,6.67\n")
        trips = '<tripinfos><tripinfo id="{}" depart="0.00" arrival="40.00"/></tripinfos>'
        edges = (
            '<meandata><interval begin="0.00" end="{}.00"><edge id="a" left="1" '
            'sampledSeconds="9"/></interval></meandata>'
        )
        for name, end, status in (("v", 900, 0), ("other", 900, 1), ("v", 300, 1)):
            files = self.write("t.xml", trips.format(name)), self.write("e.xml", edges.format(end))
            told = self.tool("compare", self.folder, "--sumo", *files, status=status)
            self.assertEqual(told[1], "nothing is common to both\n" if status else "")
        self.assertIn("arrived: 1 here, 1 in SUMO, 1 in both", told[0])


if __name__ == "__main__":
    unittest.main()
