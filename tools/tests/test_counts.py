"""Counts, zones, matrices and turn ratios as planners and SUMO write them, the fit and its whole vehicles."""
import gzip
import io
import json
import os
import random
import sys
import unittest
from contextlib import redirect_stderr, redirect_stdout
from importlib.util import find_spec
from itertools import pairwise
from types import SimpleNamespace
from unittest import mock

import numpy

from support import DATA, FORK, MAP, NUMBERED, PROGRAM, Case, lane, needs_package, needs_simulator, net
from streetsim.base.files import Fault
from streetsim.base.report import Report
from streetsim.cli import compare, demand
from streetsim.demand import (
    candidates, checking, correcting, demanding, judging, making, matrices, ratios, reading, science, zones,
)  # fmt: skip
from streetsim.demand.candidates import End, Pair, Way, with_given_routes
from streetsim.demand.cells import clock_of
from streetsim.demand.correcting import corrected_counts, full_edges
from streetsim.demand.fitting import Expecting, smallest_vehicles
from streetsim.demand.judging import ComparedCount, differences_of, is_part_of, without_parts
from streetsim.demand.passing import CountsByEdges, Slices, slices_of
from streetsim.demand.pictures import draw_fit
from streetsim.demand.seen import NEVER, Visits, edge_rows, movement_rows, passed_by_rows, passed_in
from streetsim.demand.values import Count, Ratio
from streetsim.demand.walking import Turns
from streetsim.model.folder import read_folder
from streetsim.model.mapping import map_from
from streetsim.model.tables import EDGES, TRIPS
from streetsim.search.route_loading import read_town
from streetsim.sumo.network import Options
from streetsim.sumo.way_costs import TURN_BACK
from streetsim.sumo.way_graph import Graph

try:
    science.numpy_and_scipy()
    SCIPY = True
except Fault:
    SCIPY = False
needs_scipy = needs_package("python3-scipy", SCIPY)

HEAD = "begin,end,from,to,vehicles\n"
LOAD, ENTER = map(json.dumps, ({"cmd": "load", **NUMBERED}, {"cmd": "enter", "plan": [0, 1], "lane": 0, "depart": 0}))

# Two entries and two exits, and a street between them that all use.
HOURGLASS = net(
    [
        ("w", "W", "A", [lane("w", 0)]),
        ("n", "N", "A", [lane("n", 0)]),
        ("m", "A", "B", [lane("m", 0)]),
        ("e", "B", "E", [lane("e", 0)]),
        ("s", "B", "S", [lane("s", 0)]),
    ],
    [("w", 0, "m", 0, ""), ("n", 0, "m", 0, ""), ("m", 0, "e", 0, ""), ("m", 0, "s", 0, "")],
)


class Tool(Case):
    """A tool run inside the test, which is faster."""

    def run_tool(self, main, *words, status=0):
        out, error = io.StringIO(), io.StringIO()
        with redirect_stdout(out), redirect_stderr(error):
            self.assertEqual(main([str(word) for word in words]), status, error.getvalue())
        return out.getvalue(), error.getvalue()

    def demand(self, network, *words, status=0):
        outputs = "-o", self.folder / "o.rou.xml", "--out", self.folder / "out"
        return self.run_tool(demand.main, self.write("n.net.xml", network), *outputs, *words, status=status)

    def table(self, name):
        head, *rows = (self.folder / "out" / name).read_text().splitlines()
        return [dict(zip(head.split(","), row.split(","), strict=True)) for row in rows]

    def edges(self):
        """The routes of the vehicles, in order."""
        lines = (self.folder / "o.rou.xml").read_text().splitlines()
        return [line.split('edges="')[1].split('"')[0] for line in lines if "<vehicle" in line]


class Inputs(Case):
    def test_times(self):
        for text, value in (("900", 900), ("900.00", 900), ("07:30", 27_000), ("0:07:30:00", 27_000), ("00:00:10", 10)):
            self.assertEqual(clock_of(text), value)
        for text in ("", "7.5", "25:61", "-1", "nan", "1:2:3:4:5", "seven"):
            self.assertRaises(ValueError, clock_of, text)

    def test_csv(self):
        head = "\ufeffbegin;end;from;to;vehicles;class;group\n"
        path = self.write("c.csv", f"{head}07:00;07:15;a;b;12.5;truck;north\n\n7:15;7:30;a;;3;;\n")
        self.assertEqual(
            reading.read_counts([path]),
            [
                Count(25_200, 26_100, ("a", "b"), 12.5, f"{path}: line 2", "truck", "north"),
                Count(26_100, 27_000, ("a",), 3.0, f"{path}: line 4"),
            ],
        )

    def test_lines_of_rows(self):
        """Blank lines and remarks stand before the columns, a value goes over two lines, and a remark has a quote."""
        path = self.write("z.csv", '\n# of "1\nzone,edges\n1,"a\nb"\n#,"\n2,c\n')
        found = [(zone.name, list(zone.sources), zone.location) for zone in zones.read_zones([path]).values()]
        self.assertEqual(found, [("1", ["a", "b"], f"{path}: line 4"), ("2", ["c"], f"{path}: line 7")])

    def test_sumo(self):
        text = (
            '<data>\n<interval begin="0.00" end="900.00">\n'
            '<edge id="a" left="5" arrived="2" entered="9" departed="1"/>\n'
            '<edge id="b" entered="9"/>\n<edgeRelation from="a" via="b" to="c" count="4"/>\n</interval></data>'
        )
        path = self.folder / "c.xml.gz"
        path.write_bytes(gzip.compress(text.encode()))
        self.assertEqual(
            [(one.edges, one.vehicles, one.location) for one in reading.read_counts([str(path)])],
            [
                (("a",), 7.0, f"{path}: line 3"), (("b",), 9.0, f"{path}: line 4"),
                (("a", "b", "c"), 4.0, f"{path}: line 5"),
            ],
        )
        edge = '<edge id="a" entered="7" seen="2"/>'
        path = self.write("d.xml", f'<data><interval begin="0" end="9">{edge}</interval></data>')
        self.assertEqual(reading.read_counts([path], "seen")[0].vehicles, 2)

    def test_xml_of_another_encoding(self):
        path, text = self.folder / "z.xml", '<tazs><taz id="Süd" edges="a"/></tazs>'
        for head, encoding in (('<?xml version="1.0" encoding="ISO-8859-1"?>', "latin-1"), ("\r\n ", "utf-8-sig")):
            path.write_bytes((head + text).encode(encoding))
            self.assertEqual(list(zones.read_zones([path])), ["Süd"])

    def test_zones(self):
        table = zones.read_zones([self.write("z.csv", "zone,edges\n1,a b\n2,c\n")])
        self.assertEqual((dict(table["1"].sources), dict(table["2"].sinks)), ({"a": 1, "b": 1}, {"c": 1}))
        taz = (
            '<additional><tazs><taz id="1"><tazSource id="a" weight="3"/><tazSink id="b" weight="0.5"/></taz>'
            '<taz id="2" edges="c d"/></tazs></additional>'
        )
        found = zones.read_zones([self.write("z.xml", taz)])
        self.assertEqual((dict(found["1"].sources), dict(found["1"].sinks)), ({"a": 3}, {"b": 0.5}))
        self.assertEqual(dict(found["2"].sources), {"c": 1, "d": 1})

    def test_weights_of_an_edge_add_up(self):
        # As od2trips of SUMO 1.15 has it: of 1,000 vehicles 900 begin on a and 100 on b.
        taz = '<tazs><taz id="1" edges="a b"><tazSource id="a" weight="7"/><tazSource id="a" weight="1"/></taz></tazs>'
        [zone] = zones.read_zones([self.write("z.xml", taz)]).values()
        self.assertEqual((zone.sources, zone.sinks), ({"a": 9, "b": 1}, {"a": 1, "b": 1}))

    def test_matrices(self):
        # As SUMO's pages on od2trips show these formats; the factor is 2.
        o = "$OR;D2\n* From-Time  To-Time\n7.00 8.00\n* Factor\n2.00\n* some\n* comments\n  1 1 1.00\n  1 2 2.00\n"
        v = (
            "$VMR;D2\n* vehicle type\n4\n* From-Time  To-Time\n7.00 8.00\n* Factor\n2.00\n*\n* District number\n2\n"
            "* names:\n1 2\n*\n* District 1 Sum = 3.00\n1.00\n2.00\n* District 2\n 0 4\n"
        )
        x = (
            '<data><interval begin="25200" end="28800"><tazRelation from="1" to="1" count="2"/>'
            '<tazRelation from="1" to="2" count="4"/></interval></data>'
        )
        c = "from,to,vehicles,begin,end\n1,1,2,07:00,08:00\n1,2,4,07:00,08:00\n"
        for name, text in (("o", o), ("v", v), ("x", x), ("c", c)):
            cells = matrices.read_matrices([self.write(name, text)], None)
            known = [(one.begin, one.end, one.source, one.target, one.vehicles) for one in cells]
            self.assertEqual(known[:2], [(25_200, 28_800, "1", "1", 2.0), (25_200, 28_800, "1", "2", 4.0)])
        for lines in (v.splitlines(), o[: o.index("* some")].splitlines()):
            for count in range(1, len(lines)):
                cut = self.write("cut", "\n".join(lines[:count]))
                with self.subTest(cut=lines[:count]), self.assertRaisesRegex(Fault, "ends (before|after)|from-time"):
                    matrices.read_matrices([cut], None)
        cells = matrices.read_matrices([self.write("p", "from,to,vehicles\n1,2,7\n")], (0, 900))
        self.assertEqual((cells[0].begin, cells[0].end), (0, 900))

    def test_inflows(self):
        # As jtrrouter of SUMO 1.15 has them depart.
        flows = '<flow id="f" from="a" number="4"/><flow id="g" from="b" begin="20" period="15"/>'
        text = f'<flows><interval begin="10" end="50">{flows}</interval></flows>'
        found = ratios.read_inflows([self.write("f.xml", text)], 1, Report())
        self.assertEqual([(one.edge, one.departs) for one in found], [("a", [10, 20, 30, 40]), ("b", [20, 35])])

    def test_ratios(self):
        old = (
            '<turns><interval begin="0" end="900"><fromEdge id="a"><toEdge id="b" probability="0.7"/>'
            '<toEdge id="c" probability="0.3"/></fromEdge></interval><sink edges="b c"/></turns>'
        )
        new = (
            '<edgeRelations><interval begin="0" end="900"><edgeRelation from="a" to="b" probability="0.7"/>'
            '<edgeRelation from="a" to="c" probability="0.3"/></interval><sink edges="b c"/></edgeRelations>'
        )
        for text in (old, new):
            found, sinks = ratios.read_ratios([self.write("r.xml", text)])
            known = [(one.source, one.target, one.weight) for one in found]
            self.assertEqual(known, [("a", "b", 0.7), ("a", "c", 0.3)])
            self.assertEqual(sinks, {"b", "c"})

    def test_what_stands_behind_an_interval(self):
        interval, turn = '<interval begin="0" end="900"/>', '<edgeRelation from="a" to="b" probability="1"/>'
        [one], _ = ratios.read_ratios([self.write("r.xml", f"<turns>{interval}{turn}</turns>")])
        self.assertGreater(one.end, 100 * 86_400)
        with self.assertRaisesRegex(Fault, "<edge> stands in no <interval>"):
            reading.read_counts([self.write("c.xml", f'<data>{interval}<edge id="a" count="3"/></data>')])

    def test_ratios_whose_intervals_overlap_hold_together(self):
        """As in SUMO's jtrrouter, which looks at each turn by itself: to b in the whole time, to c in a part of it."""
        town = read_town(self.write("n.net.xml", FORK), [], Options(), Report())
        some = [Ratio(0, 900, "a", "b", 1.0, ""), Ratio(300, 600, "a", "c", 1.0, "")]
        turns, draws = Turns(some, set(), town.net, town.graph), random.Random(1)
        for clock, ends in ((100, {"b"}), (400, {"b", "c"}), (700, {"b"})):
            self.assertEqual({town.graph.edges[turns.next_edge(0, clock, draws)] for _ in range(50)}, ends)

    def test_ratios_before_any_interval_hold_at_any_time(self):
        # As jtrrouter takes them, which leads vehicles of each second of a run on by them.
        text = '<turns><edgeRelation from="a" to="b" probability="1"/></turns>'
        [one], _ = ratios.read_ratios([self.write("r.xml", text)])
        self.assertTrue(one.begin == 0 and one.end > 100 * 86_400)

    def test_a_map_has_each_vehicle_once(self):
        # At a all vehicles and the trucks among them are counted, at b trucks alone, at a in another hour too.
        hourly = [
            ComparedCount(begin, begin + 3600, (edge,), kind, "", 9.0, 8.0, 3600)
            for begin, edge, kind in ((0, "a", ""), (0, "a", "truck"), (0, "b", "truck"), (3600, "a", "truck"))
        ]
        found = [(one.begin, one.edges[0], one.kind) for one in without_parts(hourly)]
        self.assertEqual(found, [(0, "a", ""), (0, "b", "truck"), (3600, "a", "truck")])
        # One fewer in each of two hours at a, and in one of the two at b.
        self.assertEqual(differences_of(hourly), {"a": -1.0, "b": -0.5})

    def test_a_map_has_turns_where_their_edge_is_not_counted(self):
        # The edge is counted in the first hour, a turn in both, and ways over that turn as well.
        hourly = [
            ComparedCount(begin, begin + 3600, tuple(edges), "", "", 9.0, passed, 3600)
            for begin, edges, passed in ((0, "a", 8.0), (0, "ab", 2.0), (3600, "ab", 5.0), (3600, "abc", 1.0))
        ]
        self.assertEqual([one.vehicles_passed for one in without_parts(hourly)], [8.0, 5.0])
        self.assertEqual(differences_of(hourly), {"a": (-1 - 4) / 2})
        self.assertEqual(differences_of([]), {})

    def test_a_map_of_periods_of_other_lengths(self):
        # Ten fewer in two hours, of all vehicles: five an hour. The trucks of the second hour are among these.
        both = ComparedCount(0, 7200, ("a",), "", "", 90.0, 80.0, 7200)
        hourly = [both, *(ComparedCount(at, at + 3600, ("b",), "", "", 9.0, 8.0, 3600) for at in (0, 3600))]
        hourly.append(ComparedCount(3600, 7200, ("a",), "truck", "", 9.0, 0.0, 3600))
        self.assertEqual(differences_of(hourly), {"a": -5.0, "b": -1.0})
        # Ten fewer in a quarter of an hour.
        self.assertEqual(differences_of([ComparedCount(0, 900, ("a",), "", "", 90.0, 80.0, 900)]), {"a": -40.0})

    def test_a_map_of_many_hours_looks_at_those_in_common(self):
        """An edge and its turn in each of 300 hours: of each the two of its hour are looked at."""
        hourly = [
            ComparedCount(at * 3600, (at + 1) * 3600, tuple(edges), "", "", 9.0, 8.0, 3600)
            for at in range(300) for edges in ("a", "ab")
        ]  # fmt: skip
        with mock.patch("streetsim.demand.judging.is_part_of", wraps=is_part_of) as looks:
            self.assertEqual([one.edges for one in without_parts(hourly)], [("a",)] * 300)
        self.assertLessEqual(looks.call_count, 2 * len(hourly))

    def test_a_count_is_part_of_one_with_time_in_common(self):
        """The turns from a and the trucks on it are parts of the count on a of the same hour, not of those beside."""
        def count(hour, edges, kind=""):
            return ComparedCount(hour * 3600, hour * 3600 + 3600, edges, kind, "", 9.0, 8.0, 3600)

        for part in (("a", "b"), ""), (("a",), "truck"), (("a", "b"), "truck"):
            found = [is_part_of(count(1, *part), count(hour, ("a",))) for hour in (0, 1, 2)]
            self.assertEqual(found, [False, True, False], part)
        self.assertFalse(is_part_of(count(1, ("a",)), count(1, ("a", "b"))))

    def test_edges_that_are_full(self):
        """Those of which a movement loses more than 120 s."""
        graph = Graph("abc", [("a", "b"), ("a", "c"), ("b", "c")], {name: (name, name + "+") for name in "abc"})
        lost = dict.fromkeys(graph.movements, 0.0) | {(0, 1): 120.5, (0, 2): 150.0, (1, 2): 120.0}
        self.assertEqual(full_edges(graph, list(lost.values())), {0: 150.0})

    def test_counts_that_the_next_fit_is_to_meet(self):
        """100 were counted on each edge, and the last fit was to meet 80 and 100; by the seconds of its run 100 would
        pass, and 120 and 90 did: 90 less half of 20, and 100 more half of 10. At a full edge it is what was counted."""
        counts = [Count(0, 900, (edge,), 100, "") for edge in "ab"]
        graph = Graph("ab", [], {name: (name, name + "+") for name in "ab"})
        basis = SimpleNamespace(counts=counts, town=SimpleNamespace(graph=graph))
        fitted = SimpleNamespace(whole_vehicles=numpy.array([100.0, 100.0]))
        for full, wanted in (({}, [80, 105]), ({0: 150.0}, [100, 105])):
            one = SimpleNamespace(fitted=fitted, counts_passed=[120.0, 90.0], full=full)
            with mock.patch("streetsim.demand.correcting.passing_by_class", return_value=numpy.eye(2)):
                found = corrected_counts(basis, one, None, numpy.array([100.0, 100.0]), numpy.array([80.0, 100.0]))
            self.assertEqual(found.tolist(), wanted)

    def test_ratios_of_many_periods_are_read_once_each(self):
        class Watched(Ratio):
            """A ratio that counts how often its begin is asked for."""

            asked = 0

            def __getattribute__(self, name):
                Watched.asked += name == "begin"
                return super().__getattribute__(name)

        town = read_town(self.write("n.net.xml", FORK), [], Options(), Report())
        some = [Watched(at * 900, (at + 1) * 900, "a", "b", 1.0, "") for at in range(300)]
        self.assertEqual(len(Turns(some, set(), town.net, town.graph).by_edge[0]), 300)
        self.assertLess(Watched.asked, 10 * len(some))

    def test_flows_begin_at_times_as_sumo_writes_them(self):
        flow = '<routes><flow id="f" from="a" begin="00:30:00" end="01:00:00" number="{}"/></routes>'
        [one] = ratios.read_inflows([self.write("f.xml", flow.format(2))], 0, Report())
        self.assertEqual(one.departs, [1800, 2700])
        [none] = ratios.read_inflows([self.write("f.xml", flow.format(0))], 0, Report())
        self.assertEqual(none.departs, [])

    def test_slices_begin_with_the_soonest_departure(self):
        # Two flows, the second of which begins first; the count is of 900 to 1800 s.
        counts = [Count(900, 1800, ("a",), 5.0, "")]
        self.assertEqual(demanding.slice_bounds(counts, [], [(950.0, 0), (300.5, 1)]), [300, 900, 1800])

    def test_slices_end_with_the_latest_departure(self):
        """It departs after the counts, and not among those who are counted."""
        self.assertEqual(demanding.slice_bounds([Count(0, 900, ("a",), 5.0, "")], [], [(2700.5, 0)]), [0, 900, 2701])
        self.assertEqual(demanding.slice_bounds([], [], [(2700.5, 0)]), [2700, 2701])


class Contradictions(Case):
    def contradictions(self, network, *rows, begins=(), ends=()):
        town = read_town(self.write("n.net.xml", network), [], Options(), Report())
        path = self.write("c.csv", HEAD + "".join(f"0,900,{row}\n" for row in rows))
        counts = reading.read_counts([path])
        checking.check_counts(counts, town.net, town.graph)
        where = ({town.graph.number[name] for name in names} for names in (begins, ends))
        return [(one.first, one.second) for one in checking.contradictions(counts, town.graph, *where)]

    def test_in_and_out(self):
        into, out = ("w,m,60", "n,m,40"), ("m,e,50", "m,s,50")
        self.assertEqual(self.contradictions(HOURGLASS, *into, *out), [])
        # 100 come in, and 120 go out.
        self.assertEqual(self.contradictions(HOURGLASS, *into, "m,e,70", "m,s,50"), [(100, 120)])
        self.assertEqual(self.contradictions(HOURGLASS, "m,,130", *out), [(130, 100)])
        self.assertEqual(self.contradictions(HOURGLASS, "m,,130", *into), [(130, 100)])
        # Edges alone: of the first junction 100 in and 130 out.
        self.assertEqual(self.contradictions(HOURGLASS, "w,,60", "n,,40", "m,,130"), [(100, 130)])
        # One turn is not counted: nothing is known.
        self.assertEqual(self.contradictions(HOURGLASS, "w,m,60", *out), [])
        # Who begins on the street between turns at its end and not into it; who ends there is counted, and does not.
        self.assertEqual(self.contradictions(HOURGLASS, *into, "m,e,70", "m,s,50", begins={"m"}), [])
        self.assertEqual(self.contradictions(HOURGLASS, "m,,130", *out, begins={"m"}), [(130, 100)])
        self.assertEqual(self.contradictions(HOURGLASS, "m,,130", *out, ends={"m"}), [])
        self.assertEqual(self.contradictions(HOURGLASS, "w,,60", "n,,40", "m,,130", begins={"m"}), [])
        # A tenth of few vehicles is chance.
        self.assertEqual(self.contradictions(HOURGLASS, "m,,12", "m,e,4", "m,s,4"), [])


class Judging(Case):
    def test_criteria(self):
        counts = [Count(900 * at, 900 * at + 900, ("a",), 100, "", group="north") for at in range(4)]
        counts += [Count(0, 3600, ("b",), 400, "", group="north"), Count(3600, 7200, ("a",), 0, "")]
        fit = judging.judge_counts(counts, [90, 110, 100, 104, 500, 0])
        # GEH of 404 and 400 is 0.2; of 500 and 400 it is sqrt(2 * 100^2 / 900) = 4.71.
        self.assertEqual([round(one.geh, 2) for one in fit.hourly], [0.2, 4.71, 0])
        self.assertEqual([one.meets_criteria for one in (fit, judging.judge_counts(counts[1:2], [101]))], [False, True])
        hours = [(one.counts, one.good, one.meets_criteria) for one in fit.hours]
        self.assertEqual(hours, [(2, 2, False), (1, 1, True)])
        rows = [(one.group, one.vehicles_counted, one.vehicles_passed) for one in fit.groups]
        self.assertEqual(rows, [("north", 800, 904)])
        # GEH of 904 and 800 is sqrt(2 * 104^2 / 1704) = 3.56.
        self.assertEqual(fit.groups[0].group_row(), (0, 3600, "north", 2, "800", "904", "13.0", "3.56"))
        self.assertIn("does not fit (totals within 5 %)", next(fit.lines()))
        # A quarter of an hour: 90 of 100 are 360 of 400 an hour, sqrt(2 * 40^2 / 760) = 2.05.
        self.assertEqual(round(fit.compared[0].geh, 2), 2.05)

    def test_quarters_of_an_hour_with_one_between_that_is_not_counted(self):
        # 100 in each of two quarters are 400 an hour, and 120 are 480: sqrt(2 * 80^2 / 880) = 3.81.
        counts = [Count(at, at + 900, ("a",), 100, "", group="north") for at in (0, 1800)]
        fit = judging.judge_counts(counts, [120, 120])
        self.assertEqual([(one.begin, one.end, round(one.geh, 2)) for one in fit.hourly], [(0, 2700, 3.81)])
        self.assertEqual(fit.groups[0].group_row(), (0, 2700, "north", 1, "200", "240", "20.0", "3.81"))

    def test_slope(self):
        counts = [Count(0, 3600, (name,), value, "") for name, value in (("a", 100), ("b", 200), ("c", 300))]
        fit, single = judging.judge_counts(counts, [110, 210, 310]), judging.judge_counts(counts[:1], [1])
        r, slope = judging.correlation_and_slope(fit.compared)
        self.assertEqual((round(r, 6), round(slope, 6)), (1, 1))
        self.assertEqual([*fit.lines()][1:], ["all 3 counts: r = 1.000, slope 1.000"])
        self.assertIsNone(judging.correlation_and_slope(single.compared))
        self.assertEqual([*single.lines()][1:], [])


class Pictures(Case):
    @needs_package("python3-matplotlib", find_spec("matplotlib"))
    def test_a_fit_is_drawn_where_matplotlib_is(self):
        fit, links = judging.judge_counts([Count(0, 3600, ("a",), 100, "")], [110]), map_from("", MAP).links
        with mock.patch("streetsim.report.picture_files.pyplot_if_installed", return_value=None):
            draw_fit(str(self.folder), fit, links, "passed in the run")
        self.assertEqual(list(self.folder.iterdir()), [])
        draw_fit(str(self.folder), fit, links, "passed in the run")
        begins = {path.name: path.read_bytes()[:8] for path in self.folder.iterdir()}
        self.assertEqual(begins, dict.fromkeys(("fit.png", "differences.png"), b"\x89PNG\r\n\x1a\n"))


class Passing(unittest.TestCase):
    """Edges a, b, .. have the numbers 0, 1, .."""

    def shares(self, counts, path, begin, end):
        """(place of the count, share) of those who pass all places of a path between two clocks."""
        made = CountsByEdges(counts, SimpleNamespace(number={name: at for at, name in enumerate("abc")}))
        return [pair for some, _ in made.counts_along(path) for pair in made.shares_in_periods(some, begin, end)]

    def test_trucks_by_the_quarter_of_an_hour_and_all_by_the_hour(self):
        trucks = [Count(900 * at, 900 * at + 900, ("a",), 1, "", "truck") for at in range(4)]
        counts = [Count(0, 3600, ("a",), 9, ""), *trucks]
        self.assertEqual(sorted(self.shares(counts, (0,), 1000, 2000)), [(0, 1.0), (2, 0.8), (3, 0.2)])

    def test_a_place_that_is_passed_twice_or_never_or_at_once(self):
        counts = [Count(0, 900, ("a",), 9, ""), Count(0, 900, ("a", "b"), 9, "")]
        self.assertEqual(self.shares(counts, (0, 2, 0, 1), 0, 900), [(0, 1.0), (0, 1.0), (1, 1.0)])
        self.assertEqual(self.shares(counts, (1, 0, 2), 900, 1800), [])
        self.assertEqual(self.shares(counts, (1, 2), 0, 900), [])
        self.assertEqual(self.shares(counts, (0,), 899.5, 899.5), [(0, 0.5)])


class Following(Case):
    """What passed in a run, by its tables and by its rows."""

    def test_ways(self):
        """One drives over edges 0, 1 and 2, one is rescued on 0 and goes on on 2, and one has come to 1."""
        columns = [0, 0, 0, 1, 1, 2, 2], [0, 1, 2, 0, 2, 0, 1], [5, 9, 20, NEVER, 12, 6, NEVER]
        visits = Visits(*map(numpy.array, columns))
        for edges, vehicles, clocks in (
            ([0], [0, 1, 2], [5, NEVER, 6]), ([0, 1], [0, 2], [5, 6]), ([0, 1, 2], [0], [9]), ([0, 2], [1], [NEVER]),
            ([2, 0], [], []), ([0] * 9, [], []),
        ):  # fmt: skip
            found = [one.tolist() for one in visits.clocks_of(edges)]
            self.assertEqual(found, [vehicles, clocks], edges)

    @needs_simulator
    def test_rows_as_the_tables_of_a_run(self):
        """Of the samples' town: all periods of edges; and turns in the whole run, as junction tables count a vehicle
        when it has left the junction."""
        files = [self.folder / "run.jsonl", "--map", self.folder / "map.json"]
        town = [DATA / "town.net.xml.gz", "--routes", DATA / "town.rou.xml.gz"]
        self.tool("import", *town, "-o", *files)
        words = ["--until", 1800, "--period", 600, "--junctions", "--rescue", 0, "--program", PROGRAM]
        self.tool("run", *files, *words, "--out", self.folder / "out")
        folder = read_folder(str(self.folder / "out"))
        edges, turns = edge_rows(folder), movement_rows(folder)
        self.assertGreater((len(edges), len(turns)), (300, 700))
        counts = [Count(begin, end, key, 1, "") for key, rows in edges.items() for begin, end, _ in rows]
        self.assertEqual([*passed_by_rows(folder, counts)], [value for rows in edges.values() for *_, value in rows])
        whole = [Count(0, 1800, key, 1, "") for key in turns]
        found = [*passed_by_rows(folder, whole)]
        self.assertEqual(found, [sum(value for *_, value in rows) for rows in turns.values()])
        cars = [Count(0, 1800, key, 1, "", kind) for key in turns for kind in ("passenger", "truck")]
        self.assertEqual([*passed_by_rows(folder, cars)], [one for value in found for one in (value, 0)])

    @needs_simulator
    def test_rows_of_some_edges(self):
        files = [self.write("run.jsonl", f"{LOAD}\n{ENTER}\n"), "--map", self.write("map.json", json.dumps(MAP))]
        words = ["--until", 60, "--program", PROGRAM, "--out", self.folder / "out"]
        self.tool("run", *files, *words)
        quarter = [Count(0, 30, ("b",), 1, "c.csv: line 2"), Count(30, 60, ("b",), 1, "c.csv: line 3")]
        self.assertEqual(passed_in(read_folder(str(self.folder / "out")), quarter), [1, 0])
        self.tool("run", *files, *words, "--edges", "a")
        with self.assertRaisesRegex(Fault, "c.csv: line 2: .* nor rows.bin of all edges: run it with --junctions 30"):
            passed_in(read_folder(str(self.folder / "out")), quarter)

    def test_a_turn_that_nobody_takes_for_a_while(self):
        """movements.csv has no row of that turn then, and there are no polls."""
        path, setting = str(self.folder), {"map": MAP, "signals": [], "dawdle": 0, "every": 0, "period": 900}
        self.write("setting.json", json.dumps(setting))
        self.write("trips.csv", ",".join(TRIPS) + "\n")
        self.write("edges.csv", ",".join(EDGES) + "\n0,1800,a,1,1,0.50,40.50,6.67\n")
        self.write("movements.csv", "begin,end,approach,to,vehicles\n0,900,a,b,3\n900,1800,b,a,2\n")
        counts = [Count(begin, begin + 900, ("a", "b"), 1, "") for begin in (0, 900)]
        self.assertEqual(passed_in(read_folder(path), counts), [3, 0])

    def test_a_period_that_goes_on_after_the_run(self):
        """The run ended at 1,080 s, and there are no polls; what passed until then counts."""
        self.write("setting.json", json.dumps({"map": MAP, "signals": [], "dawdle": 0, "every": 0, "period": 900}))
        self.write("trips.csv", ",".join(TRIPS) + "\n")
        rows = "0,900,a,7,7,0.50,40.50,6.67\n900,1080,a,2,2,0.50,40.50,6.67\n"
        self.write("edges.csv", f"{','.join(EDGES)}\n{rows}")
        self.write("movements.csv", "begin,end,approach,to,vehicles\n0,900,a,b,6\n900,1080,a,b,1\n")
        hour, quarter = Count(0, 3600, ("a",), 1, ""), Count(900, 1800, ("a",), 1, "")
        day = Count(0, 86_400, ("a", "b"), 1, "")
        self.assertEqual(passed_in(read_folder(str(self.folder)), [hour, day]), [9, 7])
        self.assertEqual(passed_in(read_folder(str(self.folder)), [quarter]), [2])


class Missing(Tool):
    def test_without_scipy(self):
        with mock.patch.dict(sys.modules, {"scipy": None, "scipy.optimize": None}), self.assertRaises(Fault) as raised:
            self.demand(FORK, "--counts", self.write("c.csv", HEAD + "0,900,a,b,3\n"))
        self.assertEqual(str(raised.exception), "the fit needs Debian's python3-scipy: apt install python3-scipy")


@needs_scipy
class Fit(Tool):
    def test_counts_of_a_fork(self):
        counts = self.write("c.csv", HEAD + "0,900,a,b,30\n0,900,a,c,10\n900,1800,a,b,20\n900,1800,a,c,40\n")
        out, _ = self.demand(FORK, "--counts", counts)
        self.assertIn("100 vehicles from 0 to 1,800 s", out)
        self.assertEqual(self.edges().count("a b"), 50)
        self.assertEqual(self.edges().count("a c"), 50)
        self.assertEqual([round(float(row["passed"])) for row in self.table("hours.csv")], [100])

    def test_counts_later_in_the_day_have_vehicles_that_lead_in(self):
        counts = self.write("c.csv", HEAD + "7:00,7:15,m,,90\n07:15,07:30,m,,90\n")
        out, _ = self.demand(HOURGLASS, "--counts", counts)
        self.assertIn("vehicles from 24,300 to 27,000 s", out)
        lines = (self.folder / "o.rou.xml").read_text().splitlines()
        begins = [float(line.split('depart="')[1].split('"')[0]) for line in lines if "<vehicle" in line]
        self.assertLess(begins[0], 25_200)
        self.assertEqual(begins, sorted(begins))

    def test_a_matrix_is_kept_where_counts_say_nothing_else(self):
        zones_file = self.write("z.csv", "zone,edges\nwest,w\nnorth,n\neast,e\nsouth,s\n")
        rows = "west,east,40\nwest,south,20\nnorth,east,10\nnorth,south,30\n"
        matrix = self.write("m.csv", "begin,end,from,to,vehicles\n" + "".join(f"0,900,{row}\n" for row in rows.split()))
        self.demand(HOURGLASS, "--matrix", matrix, "--zones", zones_file)
        pairs = {(row["from"], row["to"]): int(row["vehicles"]) for row in self.table("pairs.csv")}
        wanted = [tuple(row.split(",")) for row in rows.split()]
        self.assertEqual(pairs, {(source, target): int(vehicles) for source, target, vehicles in wanted})
        self.assertEqual(len(self.edges()), 100)

    def test_a_pair_without_a_way_is_told(self):
        matrix = self.write("m.csv", "begin,end,from,to,vehicles\n0,900,w,e,40\n0,900,e,w,10\n0,900,e,n,0\n")
        _, error = self.demand(HOURGLASS, "--matrix", matrix)
        self.assertEqual(error, "warning: no way leads from e to w: vehicles of the matrix are left out\n")
        self.assertEqual(self.edges(), ["w m e"] * 40)

    def test_near_a_matrix(self):
        # 120 are counted on the street between, and the matrix has 100: each pair gets some more.
        matrix = self.write("m.csv", "begin,end,from,to,vehicles\n0,3600,w,e,60\n0,3600,n,s,40\n")
        counts = self.write("c.csv", HEAD + "0,3600,m,,120\n")
        self.demand(HOURGLASS, "--matrix", matrix, "--counts", counts)
        pairs = {(row["from"], row["to"]): int(row["vehicles"]) for row in self.table("pairs.csv")}
        self.assertTrue(65 < pairs["w", "e"] < 75 and 42 < pairs["n", "s"] < 52, pairs)

    def test_classes(self):
        counts = self.write(
            "c.csv", "begin,end,from,to,vehicles,class\n0,900,a,b,30,\n0,900,a,b,10,truck\n0,900,a,c,20,\n"
        )
        self.demand(FORK, "--counts", counts)
        text = (self.folder / "o.rou.xml").read_text()
        self.assertIn('<vType id="truck" vClass="truck"/>', text)
        lines = [line for line in text.splitlines() if 'edges="a b"' in line]
        self.assertEqual((len(lines), sum('type="truck"' in line for line in lines)), (30, 10))

    def test_turn_ratios(self):
        flows = self.write("f.xml", '<routes><flow id="f" from="a" begin="0" end="900" number="100"/></routes>')
        turns = self.write(
            "t.xml",
            '<turns><interval begin="0" end="900"><fromEdge id="a"><toEdge id="b" probability="80"/>'
            '<toEdge id="c" probability="20"/></fromEdge></interval></turns>',
        )
        self.demand(FORK, "--flows", flows, "--ratios", turns)
        found = self.edges()
        self.assertEqual((len(found), set(found)), (100, {"a b", "a c"}))
        self.assertTrue(65 < found.count("a b") < 92)

    def test_what_has_no_effect_is_told(self):
        """A rerouter of an additional file, and the type of a flow: its vehicles are cars here."""
        flow = '<vType id="t" vClass="truck"/><flow id="f" from="w" begin="0" end="900" number="9" type="t"/>'
        turns = '<turns><interval begin="0" end="900"><fromEdge id="m"><toEdge id="e" probability="1"/></fromEdge>'
        files = "--flows", self.write("f.xml", f"<routes>{flow}</routes>")
        files += "--ratios", self.write("t.xml", f"{turns}</interval></turns>")
        more = self.write("m.add.xml", '<additional><rerouter id="r" edges="m"/></additional>')
        outputs = "-o", self.folder / "o.rou.xml", "--out", self.folder / "out"
        _, error = self.run_tool(demand.main, self.write("n.net.xml", HOURGLASS), more, *files, *outputs)
        [warning, *ignored] = error.splitlines()
        self.assertTrue(warning.startswith(f"warning: {more}: <rerouter> does nothing here: r"), warning)
        self.assertEqual(ignored, ["ignored: 1 x <vType> of files of flows", "ignored: 1 x type of flows"])

    def test_routes_of_a_file_alone(self):
        routes = self.write("r.rou.xml", '<routes><route id="x" edges="w m e"/><route id="y" edges="n m s"/></routes>')
        counts = self.write("c.csv", HEAD + "0,900,m,e,30\n0,900,m,s,20\n")
        self.demand(HOURGLASS, "--counts", counts, "--candidates", routes)
        # Who departs last passes after the period.
        self.assertIn((self.edges().count("w m e"), self.edges().count("n m s")), [(30, 20), (31, 20), (31, 21)])

    def test_routes_with_errors_are_no_candidates_where_these_are_ignored(self):
        routes = "".join(f'<route id="{edges}" edges="{edges}"/>' for edges in ("w m e", "n m", "e m n s"))
        counts = self.write("c.csv", HEAD + "0,900,m,e,30\n")
        words = "--counts", counts, "--candidates", self.write("r.rou.xml", f"<routes>{routes}</routes>")
        with self.assertRaisesRegex(Fault, "no connection leads from edge 'e' to 'm'"):
            self.demand(HOURGLASS, *words)
        _, error = self.demand(HOURGLASS, *words, "--ignore-route-errors")
        self.assertIn("warning: 1 routes have edges without a connection, and are no candidates\n", error)
        self.assertEqual(set(self.edges()) - {"n m"}, {"w m e"})

    def test_equal_words_give_equal_bytes(self):
        counts = self.write("c.csv", HEAD + "0,900,m,e,31\n0,900,m,s,17\n")
        self.demand(HOURGLASS, "--counts", counts)
        first = (self.folder / "o.rou.xml").read_bytes()
        self.demand(HOURGLASS, "--counts", counts)
        self.assertEqual((self.folder / "o.rou.xml").read_bytes(), first)
        self.demand(HOURGLASS, "--counts", counts, "--seed", 2)
        self.assertNotEqual((self.folder / "o.rou.xml").read_bytes(), first)

    def test_trucks_by_the_quarter_of_an_hour_among_all_by_the_hour(self):
        """Of 400 vehicles 100 are trucks, so that 300 of no class are expected."""
        numpy, _ = science.numpy_and_scipy()
        trucks = [Count(900 * at, 900 * at + 900, ("a",), 25, "", "truck") for at in range(4)]
        counts = [Count(0, 3600, ("a",), 400, ""), *trucks]
        basis = SimpleNamespace(given_vehicles={}, counts=counts, ways=[], pairs=[], slices=[])
        with mock.patch.object(demanding, "Expecting") as made:
            counted = numpy.array([count.vehicles for count in counts])
            demanding.expected_vehicles(basis, demanding.DemandInputs(), "", numpy.eye(5), counted)
        _, own = made.return_value.vehicles_by_counts.call_args.args
        self.assertEqual(own.tolist(), [300.0])

    def test_drivers_who_do_not_reckon_with_waits(self):
        """Each pair has a way of 60 s with 40 s at signals, and one of 90 s without any. Of the first pair nine in ten
        are counted on the former; of the second one both ways together."""
        numpy, scipy = science.numpy_and_scipy()
        pairs = [Pair(source, target, {}, {}) for source, target in ("ab", "cd")]
        ways = [
            Way(at, (4 * at, 4 * at + between, 4 * at + 3), seconds, 0.5, driven, 1.0)
            for at in range(2) for between, seconds, driven in ((1, 100.0, 60.0), (2, 90.0, 90.0))
        ]  # fmt: skip
        passing = scipy.sparse.csr_matrix([[1.0, 0, 0, 0], [0, 1, 0, 0], [0, 0, 1, 1]])
        expecting = Expecting(ways, pairs, Slices((0, 900), False), 0.05)
        found = expecting.vehicles_by_counts(passing, numpy.array([90.0, 10.0, 100.0]))
        self.assertGreater(found[2], 2 * found[3])

    def test_ends_outside_double_what_is_expected(self):
        """Of three ways one has both ends at the border, one its begin, and one none: four, two and one."""
        outside, within = End(1.0, True), End(1.0, False)
        ends = (outside, outside), (outside, within), (within, within)
        pairs = [Pair(f"from {at}", f"to {at}", {}, {}, *both) for at, both in enumerate(ends)]
        ways = [Way(at, (2 * at, 2 * at + 1), 60.0, 1.0, 60.0, 1.0) for at in range(3)]
        self.assertEqual(Expecting(ways, pairs, Slices((0, 900), False), 0.05).outside.tolist(), [4, 2, 1])

    def test_the_smallest_demand_goes_through_all_counts(self):
        """Two counts one behind the other; one way through both, one through each. By hand: who may pass both does, and
        of two counts of one way that differ the firmer one holds."""
        numpy, scipy = science.numpy_and_scipy()
        passing = scipy.sparse.csr_matrix([[1.0, 1, 0], [1, 0, 1]])
        for targets, vehicles in (([100.0, 100.0], [100, 0, 0]), ([100.0, 40.0], [40, 60, 0]), ([0.0, 7.0], [0, 0, 7])):
            found = smallest_vehicles(passing, numpy.array(targets), numpy.array([5.0, 5.0]))
            self.assertEqual([round(number) for number in found], vehicles)
        twice = scipy.sparse.csr_matrix([[1.0], [1.0]])
        found = smallest_vehicles(twice, numpy.array([100.0, 110.0]), numpy.array([1.0, 9.0]))
        self.assertEqual([round(number) for number in found], [100])

    def test_the_smallest_demand_is_of_counts_alone(self):
        counts = self.write("c.csv", HEAD + "0,900,a,b,30\n0,900,a,c,10\n")
        out, _ = self.demand(FORK, "--counts", counts, "--smallest")
        self.assertIn("40 vehicles from 0 to 900 s", out)
        with self.assertRaisesRegex(Fault, "--smallest is of counts alone"):
            self.demand(FORK, "--smallest", "--flows", counts)

    def test_a_part_of_the_way_to_the_smallest_demand(self):
        """What is expected then lies as far between what counts alone give and the smallest numbers."""
        numpy, scipy = science.numpy_and_scipy()
        pairs = [Pair(f"from {at}", f"to {at}", {}, {}) for at in range(3)]
        ways = [Way(at, (2 * at, 2 * at + 1), 60.0, 1.0, 60.0, 1.0) for at in range(3)]
        passing, targets = scipy.sparse.csr_matrix([[1.0, 1, 0], [1, 0, 1]]), numpy.array([100.0, 100.0])
        found = [
            Expecting(ways, pairs, Slices((0, 900), False), 0.05, part).vehicles_by_counts(passing, targets)
            for part in (0.0, 0.5, 1.0)
        ]
        self.assertEqual([round(number) for number in found[2]], [100, 0, 0])
        self.assertGreater(found[0].sum(), 120)
        numpy.testing.assert_allclose(found[1], (found[0] + found[2]) / 2, atol=1e-5)

    def chain(self, *words):
        """The demand of a street of seven edges of which one is counted; what is told, and where trips begin and
        end."""
        names = "abcdefg"
        edges = [(name, name.upper(), chr(ord(name) + 1).upper(), [lane(name, 0)]) for name in names]
        street = net(edges, [(name, 0, next_name, 0, "") for name, next_name in pairwise(names)])
        counts = self.write("c.csv", HEAD + "0,900,d,,90\n")
        out, error = self.demand(street, "--counts", counts, *words)
        return out + error, {(row["from"], row["to"]) for row in self.table("pairs.csv") if float(row["vehicles"])}

    def test_few_counts_have_trips_from_any_edge(self):
        """One edge of seven is counted: trips begin and end on any edge, where no word says otherwise."""
        told, ends = self.chain("--runs", 0)
        with mock.patch.dict(os.environ, {"STREETSIM_PROGRAM": "/no/program"}):
            self.assertIn("(--ends); no simulator is there to see whether it locks", self.chain()[0])
        self.assertNotIn("few edges are counted", told)
        self.assertGreater(len(ends), 1)
        self.assertEqual(self.chain("--runs", 0, "--ends", "fringe")[1], {("a", "g")})

    def test_ends_by_the_class_of_their_streets(self):
        """Two edges that lead in at 50 and 30 km/h, and one of 100 m within: metres a second, and seconds."""
        edges = [("a", "A", "C", [lane("a", 0, speed=13.89)]), ("b", "B", "C", [lane("b", 0, speed=8.33)])]
        edges.append(("c", "C", "D", [lane("c", 0, metres=100, speed=8.33)]))
        town = read_town(self.write("n.net.xml", net(edges, [])), [], Options(), Report())
        found = candidates.expected_ends(town.graph, town.net, [town.graph.number[name] for name in "ab"])
        by_name = {name: (round(end.weight, 2), end.outside) for name, end in zip(town.graph.edges, found, strict=True)}
        self.assertEqual(by_name, {"a": (13.89, True), "b": (8.33, True), "c": (12.0, False)})

    def test_a_demand_that_locks_is_made_smaller(self):
        """Runs of the larger ones lock: halfway to the smallest, and then the smallest, which is the best."""
        judged = SimpleNamespace(meets_criteria=True, good_share=1.0, greatest_difference=0.0)
        inputs, asked = demanding.DemandInputs(counts=("c.csv",)), []

        def run(basis, inputs, ground, number, fitted):
            asked.append(inputs.smallness)
            ran = SimpleNamespace(arrivals=[1], rescues=9 * (inputs.smallness < 1), most_waiting=(0, 0), at_works=())
            return correcting.Attempt(number, inputs.smallness, [None], fitted, judged, None, ran, [], {})

        basis = SimpleNamespace(town=SimpleNamespace(graph=None), counts=[], free_costs=lambda: None)
        with mock.patch.multiple(correcting, try_demand=run, fit_to_counts=mock.DEFAULT):
            tried = list(correcting.try_demands(basis, inputs, None, 3, None, lambda text: None))
        self.assertEqual(asked, [0.0, 0.5, 1.0])
        self.assertIs(max(tried, key=correcting.Attempt.rank), tried[2])
        self.assertIn("run 2, 50 % of the way to the smallest demand: 1 vehicles", tried[1].line())

    def test_what_leads_in_is_a_quarter_of_an_hour_at_most(self):
        self.assertEqual(slices_of([7200, 3600], 1700.0, 0).bounds, (2700, 3600, 7200))

    def test_pairs_without_a_way_are_told(self):
        """Those of a matrix that no way joins."""
        pairs = [Pair(source, target, {}, {}) for source, target in ("ab", "cd")]
        town = SimpleNamespace(types=SimpleNamespace(report=Report()))
        basis = SimpleNamespace(
            town=town, contradictions=[], counts=[], ways=[SimpleNamespace(pair=0)], pairs=pairs, given_vehicles=True,
            kept_pairs=(2, 2),
        )  # fmt: skip
        with mock.patch.object(making, "unreachable_counts", return_value=[]), redirect_stderr(io.StringIO()) as said:
            making.print_input_notes(basis, SimpleNamespace(passing=None))
        told = "warning: no way leads from c to d: vehicles of the matrix are left out\n"
        self.assertEqual(said.getvalue(), told)

    def test_runs_go_on_behind_the_last_slice(self):
        """By two hours at most, in which those who are on their way arrive."""
        basis = SimpleNamespace(slices=Slices((0, 900, 1800), False), town=SimpleNamespace(graph=None))
        wanted = SimpleNamespace(program="p", runs=1, rounds=0)
        names = "RunGround", "program_digest", "correcting"
        with mock.patch.multiple(making, **dict.fromkeys(names, mock.DEFAULT)) as made:
            made["correcting"].LONGEST_AFTER, made["correcting"].try_demands.return_value = correcting.LONGEST_AFTER, []
            self.assertEqual(making.run_attempts(basis, None, wanted, None, None, None), [])
        self.assertEqual(made["RunGround"].call_args.args[4], 1800 + 2 * 3600)

    def test_slices_have_their_seconds(self):
        self.assertEqual(Slices((0, 900, 1200), False).widths(), [900, 300])

    def test_a_route_of_a_file_that_turns_back(self):
        """10 s on each of both edges, and TURN_BACK between, as by the costs of the fit."""
        graph = Graph("ab", [("a", "b")], {"a": ("P", "Q"), "b": ("Q", "P")})
        [pair], [way] = with_given_routes(graph, [], [], [("a", "b")], [10.0] * 3)
        self.assertEqual((pair.source, pair.target, way.seconds), ("a", "b", 20 + TURN_BACK))

    def test_whole_vehicles_keep_sums(self):
        from streetsim.demand.rounding import whole_vehicles

        numpy, scipy = science.numpy_and_scipy()
        values = numpy.random.default_rng(4).random(2000) * 0.3
        passing = scipy.sparse.csr_matrix((numpy.random.default_rng(5).random((40, 2000)) < 0.2).astype(float))
        whole = whole_vehicles(values, passing, 1, 0.05)
        self.assertTrue((numpy.abs(whole - values) < 1).all())
        self.assertLess(abs(whole.sum() - values.sum()), 1)
        # By chance alone they would differ by 8 or so.
        self.assertLess(numpy.abs(passing @ whole - passing @ values).max(), 2)

    def test_counts_that_cannot_be_met(self):
        counts = self.write("c.csv", HEAD + "0,900,a,b,100\n0,900,b,,40\n")
        out, error = self.demand(FORK, "--counts", counts, status=1)
        self.assertIn("does not fit", out)
        self.assertIn(f"40 counted on it, 100 turn into it ({counts}: lines 3, 2)", error)
        routes = self.write("r.rou.xml", '<routes><route id="x" edges="a b"/></routes>')
        counts = self.write("c.csv", HEAD + "0,900,a,b,30\n0,900,a,c,20\n")
        out, error = self.demand(FORK, "--counts", counts, "--candidates", routes, status=1)
        self.assertEqual(error, f"warning: no way passes a c from 0 to 900 s: {counts}: line 3\n")

    @needs_simulator
    def test_in_the_simulation(self):
        rows = "".join(f"{900 * at},{900 * at + 900},a,{to}\n" for at in range(4) for to in ("b,50", "c,70"))
        counts = self.write("c.csv", HEAD + rows)
        made = "--run", self.folder / "x.jsonl", "--map", self.folder / "x.json"
        out, error = self.demand(FORK, "--counts", counts, "--runs", 3, *made)
        self.assertIn("0 to 3,600 s: GEH below 5 for 100.0 % of 2 counts", out)
        self.assertRegex(error, r"^run 1: 4\d\d vehicles, 4\d\d arrived, 0 rescues")
        self.tool("run", made[1], "--map", made[3], "--out", self.folder / "run")
        told, _ = self.run_tool(compare.main, self.folder / "run", "--counts", counts, "--out", self.folder / "out")
        self.assertRegex(told, r"^0 to 3,600 s: GEH below 5 for 100.0 % of 2 counts, 4\d\d passed of 480 counted")
        names = {path.name for path in (self.folder / "out").iterdir()}
        self.assertTrue({"fit.csv", "hours.csv", "pairs.csv", "candidates.rou.xml", "runs.csv"} <= names, names)

    @needs_simulator
    def test_more_than_a_light_lets_pass(self):
        light = 'tl="L" linkIndex="0"'
        program = (
            '<tlLogic id="L" type="static" programID="0" offset="0"><phase duration="8" state="G"/>'
            '<phase duration="82" state="r"/></tlLogic>'
        )
        edges = [("a", "A", "B", [lane("a", 0, metres=600)]), ("b", "B", "C", [lane("b", 0)])]
        street = net(edges, [("a", 0, "b", 0, light)], program)
        counts = self.write("c.csv", HEAD + "0,3600,a,b,500\n")
        out, _ = self.demand(street, "--counts", counts, "--runs", 2, "--rounds", 0, status=1)
        self.assertIn("were on their way there, and a queue holds them", out)
        self.assertIn("1 counted places lie at or behind edges that are full in the run (a)", out)
        self.assertIn("not to be trusted", out)


if __name__ == "__main__":
    unittest.main()
