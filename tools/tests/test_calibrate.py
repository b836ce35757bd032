"""streetsim-calibrate: the field's files and what is wrong with them, the fit, and a truth that it finds again."""
import csv
import json
import sys
import unittest
from contextlib import redirect_stderr, redirect_stdout
from io import StringIO
from math import sqrt

import numpy

from support import DATA, FORK, PROGRAM, TOOLS, Case, needs_simulator
from test_counts import needs_scipy
from streetsim.base.files import Fault
from streetsim.cli import calibrate, import_
from streetsim.cli.calibrating import check_words
from streetsim.demand.calibration_criteria import flow_mark, time_criteria
from streetsim.demand.calibration_field import (
    TRIP, FieldDay, TravelTime, counts_as_demand, period_in, pooled, read_lanes, read_times,
)
from streetsim.demand.calibration_fit import CUT, DAWDLE, SPEED, Fit, FittedValue, classes_of, values_of
from streetsim.demand.calibration_model import FittedDrivers, MeasuredRun
from streetsim.demand.calibration_page import sum_of_input
from streetsim.demand.calibration_survey import SurveyedLane, discharge, drivers_of
from streetsim.model.saturation import flow_here
from streetsim.sumo.driver_words import cut_at, factor_of, with_cut

CORRIDOR = TOOLS / "examples/corridor"
TIMES = "segment,time,mean,sd,n\na>b,0,20,5,30\n"
SURVEY = "street,flow,vehicles_per_green,green,greens\na,1800,18,36,30\n"
COUNTS = "time,from,to,count\n0,a,b,30\n"

# What a user slips in, and what the one line then says.
TIMES_SLIPS = (
    ("segment,mean,sd,n\na>b,20,5,30\n", "no column of time (as time, begin, start); it has segment,mean,sd,n"),
    ("segment,time,sd,n\na>b,0,5,30\n", "no column of travel time"),
    ("time,mean,n\n0,20,5\n", "no column of a segment"),
    ("segment,time,mean,n\na,0,20,5\n", "line 2: segment 'a' is no segment as EDGE>EDGE"),
    ("segment,time,mean,n\na>q,0,20,5\n", "--times and --queues: the network has no edge 'q'"),
    ("segment,time,mean,n\na>b,0,0,5\n", "line 2: mean '0' is not above 0"),
    ("segment,time,mean,n\na>b,0,fast,5\n", "line 2: mean 'fast'"),
    ("segment,time,mean,n\na>b,0,20,2.5\n", "line 2: n '2.5' is no whole number from 0 on"),
    ("segment,time,mean,sd,n\na>b,0,20,-1,5\n", "line 2: sd '-1' is below 0"),
    ("segment,begin,end,mean,n\na>b,900,0,20,5\n", "line 2: the period ends at 0 s, and begins at 900 s"),
    ("", "nothing is in it"),
    ("segment,time,mean,n\n", "no travel time is in it"),
    ("segment,time,mean,n\na>b,0,20\n", "line 2: 3 values, and the first line has 4 columns"),
    ("segment,time,mean,mean\na>b,0,20,5\n", "a column twice"),
    ("segment,time,mean,n\na>b,7:61,20,5\n", "line 2: time '7:61' is no time"),
    ("<meandata/>", "the root is <meandata>, expected <tripinfos> or <routes>"),
    ('<tripinfos><tripinfo id="v" depart="0" arrival="9" departLane="a_0"/></tripinfos>', "no attribute 'arrivalLane'"),
)
SURVEY_SLIPS = (
    ("street,vehicles_per_green,green,greens\na,18,36,30\n", "no column of a flow"),
    ("street,flow,vehicles_per_green,green,greens\na,20,18,36,30\n", "a lane has no saturation flow of 20 vehicles"),
    ("street,flow,vehicles_per_green,green,greens\na,1800,40,36,30\n", "line 2: 40 vehicles in a green of 36 s"),
    ("street,flow,vehicles_per_green,green,greens\na,1800,18,36,-1\n", "greens '-1' is no whole number"),
    ("street,flow,vehicles_per_green,green,greens\n", "no lane is in it"),
)
QUEUES_SLIPS = (
    ("mean_of_cycles,max\n30,50\n", "no column of an edge"),
    ("edge,mean_of_cycles,max\na,-3,50\n", "mean_of_cycles '-3' is below 0"),
    ("edge,mean_of_cycles,max\nq,30,50\n", "the network has no edge 'q'"),
)
COUNTS_SLIPS = (
    ("time,from,to,seen\n0,a,b,30\n", "no column of a count"),
    ("time,from,to,count\n0,a,b,-3\n", "count '-3' is no number of vehicles"),
)
DRIVERS_SLIPS = (
    ("dawdle 170", "no JSON"),
    ("{}", "no drivers in it: none of dawdle, cut, speeds, shares"),
    ('{"dawdle": 1200}', "dawdle: 1200 is not 0 to 1000"),
    ('{"dawdle": 12.5}', "dawdle: 12.5 is no whole number"),
    ('{"cut": "x"}', "cut: 'x' is not -10 to 20"),
    ('{"speeds": 0.9}', "speeds: '0.9' is no table"),
    ('{"speeds": {"50": 9}}', "speeds, '50': 9 is not 0.2 to 3"),
    ('{"speeds": {"fast": 0.9}}', "speeds: 'fast' is no limit of a street in whole km/h"),
    ('{"shares": {"a": 1.2}}', "shares, 'a': 1.2 is not 0 to 1"),
    ('{"shares": {"q": 0.2}}', "--permissive: the network has no edge 'q'"),
)
WORDS_SLIPS = (
    (["--permissive", "a=2"], "--permissive a=2: '2' is not 0 to 1"),
    (["--permissive", "a=0.4,a=0.5"], "--permissive: a is given twice"),
    (["--permissive", "q=0.4"], "--permissive: the network has no edge 'q'"),
    (["--speed-factor", "55=0.9"], "--speed-factor: no street has a limit of 55 km/h; there are 50"),
    (["--speed-factor", "main=0.9"], "'main' is no limit of a street in whole km/h"),
    (["--speed-factor", "0"], "--speed-factor 0: '0' is not 0.2 to 3"),
    (["--cut", "soon"], "--cut: 'soon' is not -10 to 20"),
)


class Slips(Case):
    def said(self, **files):
        """The Fault of the command with some files in place of good ones."""
        known = {"times": TIMES, "saturation": SURVEY, "counts": COUNTS, **files}
        words = [self.write("x.net.xml", FORK), "--program", sys.executable]
        for name, text in known.items():
            words += [f"--{name}", self.write(name, text)]
        return self.fault(words)

    def fault(self, words):
        words = [*words, "-o", str(self.folder / "drivers.json"), "--out", str(self.folder / "out")]
        with self.assertRaises(Fault) as raised, redirect_stdout(StringIO()), redirect_stderr(StringIO()):
            calibrate.main(words)
        self.assertNotIn("\n", str(raised.exception))
        self.assertFalse((self.folder / "out").exists() or (self.folder / "drivers.json").exists())
        return str(raised.exception)

    def test_a_slip_in_a_file_is_one_line(self):
        all_ = {"times": TIMES_SLIPS, "saturation": SURVEY_SLIPS, "queues": QUEUES_SLIPS, "counts": COUNTS_SLIPS}
        for name, slips in all_.items():
            for text, told in slips:
                with self.subTest(file=name, told=told):
                    self.assertIn(told, self.said(**{name: text}))

    def test_words_that_do_not_fit(self):
        net, times = self.write("x.net.xml", FORK), self.write("times", TIMES)
        counts = ["--counts", self.write("counts", COUNTS)]
        for words, told in (
            (counts, "--times: no travel times"),
            (["--times", times], "the demand: give --counts, of which it is made, or --routes"),
            (["--times", times, *counts, "--validate", times], "--validate: the counts, the times, and maybe"),
            (["--times", times, *counts, "--free", "speed,colour"], "--free: 'colour' is none of dawdle, speed, lost"),
            (["--times", times, *counts, "--check", "2-4"], "--seeds 1-2 and --check-seeds 2-4 overlap"),
        ):
            with self.subTest(told=told):
                self.assertIn(told, self.fault([net, *words]))

    def test_drivers_that_an_import_refuses(self):
        net = self.write("x.net.xml", FORK)
        for text, told in DRIVERS_SLIPS:
            with self.subTest(told=told):
                self.assertIn(told, self.refused([net, "--drivers", self.write("drivers", text)]))
        for words, told in WORDS_SLIPS:
            with self.subTest(told=told):
                self.assertIn(told, self.refused([net, *words]))

    def refused(self, words):
        with self.assertRaises(Fault) as raised:
            import_.main([*words, "-o", str(self.folder / "run.jsonl"), "--map", str(self.folder / "map.json")])
        self.assertNotIn("\n", str(raised.exception))
        self.assertFalse((self.folder / "run.jsonl").exists())
        return str(raised.exception)


class Files(Case):
    def times(self, text):
        return read_times([self.write("times", text)], [])

    def test_spellings_of_travel_times(self):
        plain = self.times("segment,time,mean,sd,n\na>b,900,90,6,3\na>b,1800,60,6,3\n")
        self.assertEqual(plain[0], TravelTime(("a", "b"), 900, 1800, 90.0, 6.0, 3))
        minutes = "From;To;Interval begin;travel_time_min;std;matches\na;b;00:15;1.5;0.1;3\na;b;00:30;1;0.1;3\n"
        self.assertEqual(self.times(minutes), plain)
        route = self.times("route,begin,end,tt_s,samples\na>b>c,0,300,45,7\n")
        self.assertEqual(route, [TravelTime(("a", "b", "c"), 0, 300, 45.0, 0.0, 7)])

    def test_single_vehicles_count_by_quarters(self):
        found = self.times("from,to,time,seconds\na,b,100,20\na,b,800,30\na,b,1000,40\n")
        self.assertEqual(found[0], TravelTime(("a", "b"), 0, 900, 25.0, sqrt(50), 2))
        self.assertEqual(found[1], TravelTime(("a", "b"), 900, 1800, 40.0, 0.0, 1))

    def test_notes_say_the_units(self):
        notes = []
        read_times([self.write("times", "segment,time,travel_time_min,n\na>b,0,2,5\n")], notes)
        self.assertIn("travel_time_min in minutes, of n vehicles", notes[0])
        counts_as_demand([self.write("counts", "time,detector,flow\n0,a,400\n900,a,200\n")], str(self.folder), notes)
        self.assertIn("flow as vehicles an hour", notes[1])

    def test_spellings_of_counts(self):
        paths = [self.write("one", "time,detector,flow\n0,a,400\n900,a,200\n"), self.write("two", COUNTS)]
        own = self.write("three", "begin,end,from,to,vehicles\n0,900,a,b,3\n")
        first, second, third = counts_as_demand([*paths, own], str(self.folder), [])
        with open(first, encoding="utf-8") as file:
            self.assertEqual(file.read(), "begin,end,from,to,vehicles\n0,900,a,,100\n900,1800,a,,50\n")
        with open(second, encoding="utf-8") as file:
            self.assertEqual(file.read().splitlines()[1], "0,900,a,b,30")
        self.assertEqual(third, own)

    def test_sumos_outputs_are_a_field(self):
        trips = (
            '<tripinfos><tripinfo id="v" depart="10" departDelay="4" arrival="70" departLane="a_0" arrivalLane="c_1"/>'
            '<tripinfo id="w" depart="10" departDelay="0" arrival="-1" departLane="a_0" arrivalLane=""/></tripinfos>'
        )
        self.assertEqual(self.times(trips), [TravelTime(("a", "c"), 0, 900, 64.0, 0.0, 1, True)])
        self.assertEqual(self.times(trips)[0].key, (TRIP, "a", "c"))
        ways = '<routes><vehicle id="v"><route edges="a b c" exitTimes="20.00 50.50 61.00"/></vehicle></routes>'
        found = {one.edges: one.mean for one in self.times(ways)}
        self.assertEqual(found, {("a", "b"): 30.5, ("b", "c"): 10.5})

    def test_pooling_keeps_means_and_spread(self):
        """10 and 30 s, each of two with a deviation of 0: a mean of 20 and a deviation of 10."""
        found = pooled([TravelTime(("a", "b"), 0, 900, 10.0, 0.0, 2), TravelTime(("a", "b"), 900, 1800, 30.0, 0.0, 2)])
        self.assertEqual(found, {("a", "b"): (20.0, 10.0, 4)})


class Survey(Case):
    def test_headways_count_from_the_fourth_vehicle_on(self):
        """Two greens of seven vehicles, each 2 s behind the one before, but for the first three."""
        times = [begin + clock for begin in (0, 80) for clock in (1, 5, 9, 12, 14, 16, 18)]
        self.assertEqual(discharge(times, [0, 80], 80), (2.0, 7.0))

    def test_a_lane_of_the_table_is_its_own_dawdle(self):
        """A lane that passes as many as one here at 0.3, and in 36 s of green as many vehicles, is that one, with
        nothing cut; two seconds less of green that is used are two that are cut."""
        flow = flow_here(0.3, 2)
        lane = SurveyedLane("a", flow, 15.22 * 2.4218 * flow / 3600, 36, 30)
        dawdle, cut = drivers_of(lane)
        self.assertAlmostEqual(dawdle, 0.3, places=6)
        self.assertAlmostEqual(cut, (36 - 15.22 * 2.4218) - (36 - 15.22 * 2.4218), delta=0.35)
        later = SurveyedLane("a", flow, lane.per_green - 2 * flow / 3600, 36, 30)
        self.assertAlmostEqual(drivers_of(later)[1] - cut, 2.0)

    def test_lanes_of_a_file(self):
        [lane] = read_lanes(self.write("survey", SURVEY), {"a": 3})
        self.assertEqual(lane, SurveyedLane("a", 1800.0, 18.0, 36.0, 30, 3))


class Fields(Case):
    def test_periods_of_a_table(self):
        """The least between its times; a quarter of an hour where it has one alone."""
        self.assertEqual([period_in(times) for times in ([0, 900, 1800], [1800, 0, 300], [0, 0, 900, 3600], [7])],
                         [900, 300, 900, 900])

    def test_sums_of_inputs(self):
        """The SHA-256 of "abc", as the standard (FIPS 180-2) prints it."""
        known = "ba7816bf8f01cfea414140de5dae2223b00361a396177a9cb410ff61f20015ad"
        self.assertEqual(sum_of_input(self.write("x", "abc")), known)

    def test_files_of_another_day(self):
        """The counts and the times, or the queues too."""
        words = ["x.net.xml", "--times", "t", "--counts", "c", "-o", str(self.folder / "drivers.toml")]
        words += ["--out", str(self.folder / "fit"), "--validate"]
        for count in (1, 4):
            with self.subTest(count), self.assertRaisesRegex(Fault, "--validate: .* two or three files"):
                check_words(calibrate.parser().parse_args([*words, *"abcd"[:count]]))
        for count in (2, 3):
            check_words(calibrate.parser().parse_args([*words, *"abcd"[:count]]))


class Words(unittest.TestCase):
    def test_a_factor_is_of_the_class_of_a_street_or_of_all(self):
        speeds = (("", 0.9), ("50", 0.8))
        self.assertEqual([factor_of(speeds, speed) for speed in (13.89, 16.67)], [0.8, 0.9])
        self.assertEqual(factor_of((), 13.89), 1.0)

    def test_a_fraction_is_cut_at_as_many_nodes(self):
        found = [cut_at(1.25, node) for node in range(400)]
        self.assertEqual({*found}, {1, 2})
        self.assertAlmostEqual(sum(found) / 400, 1.25, delta=0.01)
        self.assertEqual({cut_at(-0.5, node) for node in range(400)}, {-1, 0})

    def test_greens_begin_later_or_end_later(self):
        letters = "rrGGGGyyrr"
        shown = [letter == "G" for letter in letters]
        later = with_cut(shown, [(2, 4)], letters, 2)
        self.assertEqual([at for at, on in enumerate(later) if on], [4, 5])
        self.assertEqual(sum(with_cut(shown, [(2, 4)], letters, 9)), 1)
        longer = with_cut(shown, [(2, 4)], letters, -5)
        self.assertEqual([at for at, on in enumerate(longer) if on], [2, 3, 4, 5, 6])


def value(name, center, spread, step, street=""):
    return FittedValue(name, center, spread, spread, step, -9.0, 9.0, street)


class Fitting(unittest.TestCase):
    """A field whose seconds are known functions of the values, in place of runs."""

    def day(self, seconds, lanes=()):
        ways = {(f"a{at}", f"b{at}"): mean for at, mean in enumerate(seconds)}
        times = [TravelTime(key, 0, 900, mean, 1.0, 100) for key, mean in ways.items()]
        return FieldDay([], times, list(lanes))

    def fit(self, day, seconds_of, most=100):
        def measure(all_):
            made = []
            for drivers in all_:
                means = seconds_of(drivers)
                times = {(f"a{at}", f"b{at}"): (100 * mean, 100 * mean**2, 100) for at, mean in enumerate(means)}
                made.append([MeasuredRun(times, {}, {}, 0.0, 0)])
            return made

        return Fit(day, FittedDrivers(), measure, most, 1)

    def test_what_the_times_tell_is_found(self):
        """Free seconds over a factor of 0.8, beside 10 s of waiting: the prior of 1 ± 0.1 pulls a little."""
        def seconds_of(drivers):
            return [10 + 30 / dict(drivers.speeds)[""] for _ in range(8)]

        result = self.fit(self.day([10 + 30 / 0.8] * 8), seconds_of).solve([value(SPEED, 1.0, 0.1, 0.04)])
        self.assertAlmostEqual(dict(result.drivers.speeds)[""], 0.8, delta=0.02)
        self.assertLess(result.errors[0], 0.05)
        self.assertEqual(result.untold, [])

    def test_the_cost_is_of_squares(self):
        """Eight ways of 50 s, each measured 100 times with a deviation of 1 s, and a model that is off by 7 %: an error
        of (0.1^2 + 3.5^2)^0.5 = 3.50143 s. All slower by two errors, and a speed that is off by its spread, are 33."""
        fit = self.fit(self.day([50.0] * 8), lambda _: [50 + 2 * 3.50143] * 8)
        values = [value(SPEED, 1.0, 0.1, 0.04)]
        fit.run_missing([fit.drivers(values, numpy.array([1.1]))])
        self.assertAlmostEqual(fit.cost(values, numpy.array([1.1]), numpy.array([1.0])), 8 * 2**2 + 1, places=3)

    def test_what_they_do_not_tell_stays_at_its_prior(self):
        def seconds_of(drivers):
            return [40 / dict(drivers.speeds)[""]] * 8

        both = [value(DAWDLE, 0.17, 0.08, 0.03), value(SPEED, 1.0, 0.1, 0.04)]
        result = self.fit(self.day([50.0] * 8), seconds_of).solve(both)
        self.assertEqual([one.name for one in result.untold], [DAWDLE])
        self.assertEqual(result.drivers.dawdle, 0.17)
        self.assertAlmostEqual(dict(result.drivers.speeds)[""], 0.8, delta=0.02)

    def test_runs_are_no_more_than_asked_for(self):
        def seconds_of(drivers):
            return [40 / dict(drivers.speeds)[""]] * 8

        fit = self.fit(self.day([50.0] * 8), seconds_of, most=3)
        self.assertLessEqual(fit.solve([value(SPEED, 1.0, 0.1, 0.04)]).runs, 3)

    def test_without_a_survey_the_speed_alone_is_fitted(self):
        day = self.day([50.0])
        self.assertEqual([one.name for one in values_of(day, [""], ("dawdle", "speed", "lost"))], [SPEED])
        day.lanes = [SurveyedLane("a", 1800.0, 18.0, 36.0, 30)]
        found = [one.name for one in values_of(day, [""], ("dawdle", "speed", "lost"))]
        self.assertEqual(found, [DAWDLE, CUT, SPEED])

    def test_a_class_of_street_needs_five_ways(self):
        day = self.day([50.0] * 10)
        fast = {f"b{at}": "60" for at in range(10)}
        self.assertEqual(classes_of(day, fast), [""])
        self.assertEqual(classes_of(day, {**fast, "b8": "40", "b9": "40"}), [""])
        self.assertEqual(classes_of(day, {**fast, **{f"b{at}": "40" for at in range(5)}}), ["40", "60"])


class Criteria(unittest.TestCase):
    def test_marks_of_flows(self):
        self.assertEqual([flow_mark(hourly) for hourly in (100, 699, 1000, 2700, 3000)], [100, 100, 150, 405, 400])

    def test_segments_have_no_minute_and_routes_have(self):
        """A route that is 50 s off in 200 s is within a minute, a segment that is 20 s off in 100 s is not within
        15 %."""
        times = [TravelTime(("a", "b"), 0, 900, 100.0, 5.0, 30), TravelTime(("a", "b", "c"), 0, 900, 200.0, 5.0, 30)]
        made = MeasuredRun({("a", "b"): (1200, 0, 10), ("a", "b", "c"): (2500, 0, 10)}, {}, {}, 0.0, 0)
        found = {one.name: one.share for one in time_criteria(FieldDay([], times), [made])}
        self.assertEqual(found, {"routes within 15 % or a minute": 1.0, "segments within 15 %": 0.0})


@needs_simulator
@needs_scipy
class Truth(Case):
    def test_drivers_that_a_run_had_are_found_again(self):
        """The example's street with free speeds of 0.8, as a field of its segments; seeds of others."""
        net, routes = CORRIDOR / "corridor.net.xml.gz", CORRIDOR / "corridor.rou.xml"
        run, mapping, out = self.folder / "run.jsonl", self.folder / "map.json", self.folder / "run"
        words = ["--routes", routes, "--end", 1200, "-o", run, "--map", mapping]
        self.tool("import", net, *words, "--speed-factor", 0.8)
        self.tool("run", run, "--map", mapping, "--until", 1800, "--every", 0, "--out", out, "--program", PROGRAM)
        with open(out / "segments.csv", encoding="utf-8") as file:
            rows = [row for row in csv.DictReader(file) if row["from"] and row["to"] and float(row["sd_s"] or 0)]
        text = "segment,time,mean,sd,n\n" + "".join(
            f"{row['from']}>{row['to']},{row['begin']},{row['mean_s']},{row['sd_s']},{row['vehicles']}\n"
            for row in rows
        )
        words = [net, "--routes", routes, "--end", 1200, "--times", self.write("times.csv", text), "--seeds", "5"]
        words += ["-o", self.folder / "drivers.json", "--out", self.folder / "out", "--program", PROGRAM, "--jobs", 2]
        told, _ = self.tool("calibrate", *words, status=1)
        self.assertIn("saturation was not surveyed: dawdle and cut stay as they are", told)
        self.assertEqual(told.splitlines()[-1], "The base is fitted, and not validated: no other day was given")
        found = json.loads((self.folder / "drivers.json").read_text(encoding="utf-8"))
        self.assertEqual((found["dawdle"], found["cut"]), (170, 0.0))
        self.assertAlmostEqual(found["speeds"][""], 0.8, delta=0.04)
        page = (self.folder / "out/report.html").read_text(encoding="utf-8")
        heads = ["Criteria", "Travel times", "What was fitted", "What the calibration does not vouch for", "Seeds"]
        places = [page.index(f">{head}") for head in heads]
        self.assertEqual(places, sorted(places))
        anew = self.folder / "anew.jsonl", "--map", self.folder / "anew.json", "--routes", routes, "--end", 1200
        self.tool("import", net, "--drivers", self.folder / "drivers.json", "-o", *anew)
        loads = [json.loads(path.read_text().partition("\n")[0]) for path in (run, anew[0])]
        cells = [sum(link[4] for link in load["links"]) for load in loads]
        self.assertAlmostEqual(cells[1] / cells[0], 0.8 / found["speeds"][""], delta=0.01)

    def test_a_demand_of_counts_and_another_day(self):
        """A lone cross, whose field is a run of it, also as the other day: what is fitted stays where it is, counts and
        segments are met, and both days have all criteria."""
        net = DATA / "cross1.net.xml.gz"
        flows = (("l", "wc cn", 45), ("s", "wc ce", 9), ("o", "ec cw", 9), ("r", "nc cw", 30), ("n", "sc cn", 15))
        text = "".join(
            f'<flow id="{name}" begin="0" end="1800" period="{period}"><route edges="{edges}"/></flow>'
            for name, edges, period in flows
        )
        run, mapping, out = self.folder / "run.jsonl", self.folder / "map.json", self.folder / "run"
        routes = self.write("x.rou.xml", f"<routes>{text}</routes>")
        self.tool("import", net, "--routes", routes, "-o", run, "--map", mapping)
        self.tool("run", run, "--map", mapping, "--until", 1800, "--every", 0, "--out", out, "--program", PROGRAM)
        with open(out / "segments.csv", encoding="utf-8") as file:
            rows = [row for row in csv.DictReader(file) if row["from"] and row["to"]]
        seen = {(row["from"], row["to"], row["begin"]): row for row in rows}
        counts, times = ["time,from,to,count"], ["segment,time,mean,sd,n"]
        for pair in ((one + "c", "c" + other) for one in "nesw" for other in "nesw" if one != other):
            for begin in ("0", "900"):
                row = seen.get((*pair, begin))
                counts.append(f"{begin},{pair[0]},{pair[1]},{row['vehicles'] if row else 0}")
                if row:
                    cells = row["mean_s"], row["sd_s"] or 0, row["vehicles"]
                    times.append(f"{pair[0]}>{pair[1]},{begin},{','.join(map(str, cells))}")
        counts, times = self.write("counts.csv", "\n".join(counts)), self.write("times.csv", "\n".join(times))
        words = [net, "--counts", counts, "--times", times, "--saturation", self.write("survey.csv", SURVEY)]
        words += ["--validate", counts, times, "--runs", 8, "--seeds", 1, "--check", 2, "--jobs", 2]
        words += ["-o", self.folder / "drivers.json", "--out", self.folder / "out", "--program", PROGRAM]
        told, _ = self.tool("calibrate", *words, status=None)
        with open(self.folder / "out/criteria.csv", encoding="utf-8") as file:
            found = [(row["criterion"], row["day"], row["drivers"]) for row in csv.DictReader(file)]
        names = ["GEH below 5", "flows within 15 %", "segments within 15 %", "saturation within 5 %"]
        both = [(day, way) for day in ("fitted", "other") for way in ("uncalibrated", "calibrated")]
        self.assertEqual(found, [(name, *pair) for pair in both for name in names])
        self.assertIn("other day: GEH below 5: 100 % of 12, held", told)
        for name in ("fitted.rou.xml", "other.rou.xml", "report.html", "runs.csv", "segments.csv"):
            self.assertTrue((self.folder / "out" / name).exists(), name)
        self.assertEqual({*json.loads((self.folder / "drivers.json").read_text())}, {"dawdle", "cut", "speeds"})


if __name__ == "__main__":
    unittest.main()
