"""streetsim-signals: bounds and formulas, waves known from textbooks, repetition, bad input, an end by Ctrl-C."""
import csv
import json
import os
import pty
import signal
import subprocess
import sys
import time
import unittest
import xml.etree.ElementTree as ElementTree
from argparse import Namespace
from collections import Counter
from contextlib import redirect_stderr
from dataclasses import asdict, replace
from io import StringIO
from itertools import permutations
from math import exp, lgamma, pi, sqrt
from unittest import mock
from unittest.mock import Mock

from support import MAP, NUMBERED, PROGRAM, TOOLS, Case, lane, needs_package, needs_simulator, needs_sumo, net
from test_works import fan, flows
from streetsim.base.files import Fault
from streetsim.base.seeds import runs_needed, seeds_for, seeds_of, student
from streetsim.cli.import_ import parser as import_parser
from streetsim.cli.importing import options_of
from streetsim.cli.plan_commands import found_run, import_words
from streetsim.control.settings import Settings
from streetsim.model.mapping import map_from, read_map
from streetsim.model.runs import Line, Run, read_run
from streetsim.model.trust import missing_doubts
from streetsim.observe.giving_way_rounds import Yielding
from streetsim.search import run_giving_way
from streetsim.search.run_giving_way import (
    for_search, gap_lines, giving_session, outcome_giving_way, seconds_of_run, with_gap_lines,
)
from streetsim.search.run_prepared import Giving, Outcome, outcome, session_of, vehicle_seconds
from streetsim.search.signal_formulas import Hop, StreetFlows, heaviest_tree, waved, webster_cycle
from streetsim.search.signal_found import cycles_told, doubts_of, verdict
from streetsim.search.signal_in_sumo import mean_trip, sumo_for
from streetsim.search.signal_lines import LightLines, read_plans
from streetsim.search.signal_plans import PlannedLight, PlannedTiming, light_and_timing, rounded_durations, spread
from streetsim.search.signal_search import PlanSearch, climb, search_plan, shift_of
from streetsim.search.signal_town import SignalTown
from streetsim.sumo.net import LightProgram
from streetsim.sumo.network import Options

CORRIDOR = TOOLS / "examples/corridor"
STREET = ("W", "J1", "J2", "J3", "J4", "J5", "E")


def has_matplotlib():
    """Whether Debian's Python, by which the tools go, has it."""
    return not subprocess.run(
        ["/usr/bin/python3", "-c", "import matplotlib"], capture_output=True, check=False
    ).returncode


def street(two_way=False, green=37):
    """Five signals on a street of two lanes, with a side street at each: 38 cells between signals, 39 at the ends. The
    metres are such that an import makes these cells, where vehicles do not dawdle and are in a junction for 3 s."""
    edges, connections, lights = [], [], ""
    for index, names in enumerate((STREET, STREET[::-1]) if two_way else (STREET,)):
        along = [(f"{here}{there}", here, there) for here, there in zip(names, names[1:])]
        for edge, here, there in along:
            metres = 273.0 if here in "WE" else 255.0 if there in "WE" else 283.5
            edges.append((edge, here, there, [lane(edge, 0, metres), lane(edge, 1, metres)]))
        for (edge, _, there), (following, *_) in zip(along, along[1:]):
            connections += [(edge, at, following, at, f'tl="{there}" linkIndex="{index}"') for at in (0, 1)]
    ways = 2 if two_way else 1
    for name in STREET[1:-1]:
        edges += [
            (f"{name}in", f"{name}S", name, [lane(f"{name}in", 0)]),
            (f"{name}out", name, f"{name}N", [lane(f"{name}out", 0)]),
        ]
        connections.append((f"{name}in", 0, f"{name}out", 0, f'tl="{name}" linkIndex="{ways}"'))
        shown = ((green, "G" * ways + "r"), (3, "y" * ways + "r"), (green, "r" * ways + "G"), (3, "r" * ways + "y"))
        phases = "".join(f'<phase duration="{duration}" state="{state}"/>' for duration, state in shown)
        lights += f'<tlLogic id="{name}" type="static" programID="0" offset="0">{phases}</tlLogic>'
    return net(edges, connections, lights)


def flow(name, names, period):
    edges = " ".join(f"{here}{there}" for here, there in zip(names, names[1:]))
    return f'<flow id="{name}" begin="0" end="3600" period="{period}"><route edges="{edges}"/></flow>'


class Bounds(unittest.TestCase):
    def light(self, *phases, bounds=(), kind="static"):
        return light_and_timing("L", LightProgram(0.0, list(phases), kind, list(bounds)))

    def test_phases_that_may_be_stretched(self):
        # Green without yellow, of 5 s at least; minDur and maxDur bound it.
        phases = (37, "Gr"), (3, "yr"), (2, "rr"), (4, "rG"), (30, "rG"), (3, "Gy")
        light, timing = self.light(*phases, bounds=[(20, 40), *[(None, None)] * 5])
        self.assertEqual(light.bounds, ((20, 40), (3, 3), (2, 2), (4, 4), (5, 600), (3, 3)))
        self.assertEqual((light.free, light.fixed_seconds(timing), timing.cycle), ([0, 4], 12, 79))

    def test_another_cycle(self):
        light, timing = self.light((30, "Gr"), (5, "yr"), (10, "rG"), (5, "ry"))
        # 40 s of green become 80: three quarters and one.
        self.assertEqual(light.scaled(PlannedTiming(25, timing.durations), 90), PlannedTiming(45, (60, 5, 20, 5)))
        # 10 s of green: 5 s each at least.
        self.assertEqual(light.scaled(timing, 20).durations, (5, 5, 5, 5))
        self.assertIsNone(light.scaled(timing, 19))
        self.assertEqual(light.scaled(timing, 50, [1, 9, 3, 9]).durations, (10, 5, 30, 5))
        self.assertIsNone(light.with_green_moved(timing, 2, 0, 6))
        self.assertEqual(light.with_green_moved(timing, 2, 0, 5).durations, (35, 5, 5, 5))

    def test_shares_within_bounds(self):
        self.assertEqual(spread([1, 1, 1], 100, [(5, 20), (5, 600), (5, 600)]), [20, 40, 40])
        self.assertEqual(sum(spread([7, 11, 13], 101, [(5, 600)] * 3)), 101)
        self.assertIsNone(spread([1, 1], 9, [(5, 600)] * 2))
        self.assertEqual(rounded_durations([10.4, 10.4, 10.4]), (10, 11, 10))


    def test_an_offset_stays_within_the_cycle(self):
        timing = PlannedTiming(10, (30, 20))
        self.assertEqual([timing.shifted(by).offset for by in (0, 39, 40, 45, -10, -20)], [10, 49, 0, 5, 0, 40])


class Formulas(unittest.TestCase):
    def test_webster(self):
        # Webster 1958: (1.5 L + 5) / (1 - Y), for 10 s lost and Y = 0.75.
        self.assertAlmostEqual(webster_cycle(10, 0.75), 80)
        self.assertIsNone(webster_cycle(10, 1.0))

    def test_student(self):
        # Tables of Student's t at 97.5 %.
        for degrees, quantile in (
            (1, 12.706), (19, 2.093), (30, 2.042), (40, 2.021), (60, 2.000), (120, 1.980), (1000, 1.962),
        ):
            self.assertAlmostEqual(student(degrees), quantile, delta=0.0006)

    def test_student_by_its_density(self):
        """Between 0 and each quantile lies 0.475 of the density (1 + x^2 / n)^(-(n + 1) / 2), by Simpson's rule."""
        for degrees in range(1, 60):
            power, end, steps = -(degrees + 1) / 2, student(degrees), 2000
            whole = exp(lgamma((degrees + 1) / 2) - lgamma(degrees / 2)) / sqrt(pi * degrees)
            values = [(1 + (end * at / steps) ** 2 / degrees) ** power for at in range(steps + 1)]
            area = (values[0] + 4 * sum(values[1::2]) + 2 * sum(values[2:-1:2]) + values[-1]) * end / steps / 3
            self.assertAlmostEqual(whole * area, 0.475, delta=3e-5, msg=degrees)

    def test_runs_that_a_precision_needs(self):
        # s = 1, e = 0.5: 18 runs reach 2.110 / sqrt(18) = 0.497, and 17 reach 2.120 / sqrt(17) = 0.514.
        self.assertEqual(runs_needed(1.0, 0.5), 18)
        self.assertEqual(runs_needed(0.0, 0.5), 2)
        # The normal quantile squared: 1.96^2 * 100^2 = 38,415.
        self.assertAlmostEqual(runs_needed(100.0, 1.0), 38_415, delta=5)

    def test_seeds_of_a_search(self):
        # Standard deviations of 0.2, 0.7 and 3 percent.
        self.assertEqual([seeds_for([100 - spread, 100, 100 + spread]) for spread in (0.2, 0.7, 3.0)], [1, 2, 9])
        with self.assertRaisesRegex(Fault, "--seeds '5-4': expected FIRST-LAST"):
            seeds_of("5-4", "--seeds")

    def test_tree_of_the_heaviest_flows(self):
        # a-b 9, b-c 5, a-c 4 (closes a ring), d alone.
        ways = {("a", "b"): Counter({(1,): 9}), ("c", "b"): Counter({(2,): 5}), ("a", "c"): Counter({(3,): 4})}
        parents, behind = heaviest_tree(["b", "a", "c", "d"], ways)
        self.assertEqual(parents, {"a": "b", "c": "b"})
        self.assertEqual(behind, {"b": ["b", "c", "a"], "a": ["a"], "c": ["c"], "d": ["d"]})

    def test_equal_flows_are_taken_by_names(self):
        """Of the ring a-b, a-c, b-c, each of 5, the first two are the tree, whichever was seen first."""
        ways = [(pair, Counter({(at,): 5})) for at, pair in enumerate((("a", "b"), ("a", "c"), ("c", "b")))]
        for seen in permutations(ways):
            self.assertEqual(heaviest_tree(["a", "b", "c"], dict(seen))[0], {"b": "a", "c": "a"})

    def test_green_comes_when_the_platoon_does(self):
        """It leaves L in its third phase, at 10 + 33 s, and comes 22 s later to M's second one, 30 s into M's cycle: an
        offset of 35 s."""
        plan = {"L": PlannedTiming(10, (30, 3, 20, 3)), "M": PlannedTiming(7, (30, 26))}
        streets = StreetFlows(["L", "M"], {"L": ["L", "M"], "M": ["M"]}, {"M": Hop("L", 22.0, 2, 1)}, {})
        self.assertEqual(waved(plan, streets), {**plan, "M": PlannedTiming(35, (30, 26))})


class GivingWay(unittest.TestCase):
    def test_rounds_are_made_where_somebody_gives_way(self):
        """By runs without rescues, from the search's first clock to its last; without a giving there are none."""
        giving = Giving(mock.sentinel.run, mock.sentinel.map, 600, frozenset(), 2)
        parts = dict.fromkeys(("gaps_of", "with_load", "with_signals"), mock.DEFAULT)
        with mock.patch.multiple(run_giving_way, **parts) as made:
            self.assertEqual(gap_lines(Mock(giving=None), b"", 7), ([], Yielding()))
            made["gaps_of"].assert_not_called()
            self.assertIs(gap_lines(Mock(giving=giving), b"", 7), made["gaps_of"].return_value)
        made["with_load"].assert_called_with(mock.sentinel.run, seed=7)
        _, mapping, settings, rounds, *_ = made["gaps_of"].call_args.args
        self.assertEqual((mapping, settings.until, settings.rescue, rounds), (mock.sentinel.map, 600, 0, 2))


class Climbing(unittest.TestCase):
    """The search over a value that is known: how far offsets are from 30 and 50."""

    light = PlannedLight("L", ("G", "y"), ((5, 600), (3, 3)))
    plan = {"L": PlannedTiming(0, (77, 3)), "M": PlannedTiming(0, (77, 3))}

    def search(self, budget):
        asked = []

        def values(plans):
            for plan in plans:
                asked.append(plan)
                yield abs(plan["L"].offset - 30) + abs(plan["M"].offset - 50)

        return PlanSearch(values, budget, 1), asked

    def test_climbs_to_the_best_and_asks_once(self):
        search, asked = self.search(1000)
        plan = self.plan
        for light in "LM":
            for seconds in (20, 10, 5, 1):
                plan = climb(search, plan, "offset", shift_of([light], seconds))
        self.assertEqual((plan["L"].offset, plan["M"].offset), (30, 50))
        self.assertEqual(len({(one["L"].offset, one["M"].offset) for one in asked}), len(asked))

    def streets(self):
        lights_behind = {"L": ["L", "M"], "M": ["M"]}
        return type("Streets", (), {"order": ["L", "M"], "lights_behind": lights_behind, "hops": {}, "loads": {}})

    def test_how_many_climbs_there_are_is_known_before(self):
        for changed in (["offsets"], ["offsets", "splits"]):
            search, _ = self.search(1000)
            search_plan(search, self.plan, {"L": self.light, "M": self.light}, self.streets(), changed, [])
            self.assertEqual(len(search.climbed) - 1, search.climbs)
            self.assertEqual(search.expected(), search.simulations)

    def test_climbs_from_the_best_proposal(self):
        """A wave with M 50 s behind L is 30 off and the given plan 80: the first step moves L, with M at 50."""
        search, asked = self.search(3)
        streets = StreetFlows(["L", "M"], {"L": ["L", "M"], "M": ["M"]}, {"M": Hop("L", 50.0, 0, 0)}, {})
        search_plan(search, self.plan, {"L": self.light, "M": self.light}, streets, ["offsets"], [])
        self.assertEqual([plan["M"].offset for plan in asked], [0, 50, 50])

    def test_ends_with_its_budget(self):
        search, asked = self.search(7)
        streets = self.streets()
        search_plan(search, self.plan, {"L": self.light, "M": self.light}, streets, ["offsets"], [])
        self.assertEqual((len(asked), search.simulations), (7, 7))
        self.assertEqual(search.best[0], min(trial.mean_trip for trial in search.trials))


class Searching(Case):
    """Runs of streetsim-signals on a net and routes of a test."""

    def given(self, network, routes, *words):
        self.net = self.write("x.net.xml", network)
        routes = self.write("x.rou.xml", f"<routes>{routes}</routes>")
        self.run_file, self.map_file = self.folder / "run.jsonl", self.folder / "map.json"
        self.tool("import", self.net, "--routes", routes, "-o", self.run_file, "--map", self.map_file, *words)

    def words(self, *words, until=5400, out="out", plans=()):
        return [
            self.run_file, "--map", self.map_file, "--plans", self.net, *plans, "--until", until,
            "--program", PROGRAM, "--jobs", 1, "-o", self.folder / f"{out}.add.xml", "--out", self.folder / out, *words,
        ]  # fmt: skip

    def search(self, *words, status=0, **more):
        return self.tool("signals", *self.words(*words, **more), status=status)

    def table(self, name, out="out"):
        with open(self.folder / out / name, encoding="utf-8") as file:
            return list(csv.DictReader(file))

    def offsets(self, out="out"):
        root = ElementTree.parse(self.folder / f"{out}.add.xml").getroot()
        return [int(light.get("offset")) for light in root]


@needs_simulator
class Waves(Searching):
    def test_one_way_street(self):
        """38 cells at 2 cells a step and 3 s at a signal are 22 s from green to green. Free trips take 130.0 s, and a
        vehicle waits 43^2 / (2 * 80) = 11.6 s at the first red, besides its queue: 143.5 s in place of 211.5."""
        self.given(street(), flow("east", STREET, 8), "--dawdle", 0, "--residence", 3)
        self.search("--change", "offsets", "--budget", 300, "--check", "101-102")
        offsets = self.offsets()
        self.assertEqual([(there - here) % 80 for here, there in zip(offsets, offsets[1:])], [22] * 4)
        trip, loss, arrived, _ = self.table("before-after.csv")
        self.assertAlmostEqual(float(trip["before"]), 211.5, delta=1)
        self.assertAlmostEqual(float(trip["after"]), 143.5, delta=1)
        self.assertAlmostEqual(float(trip["after"]) - float(loss["after"]), 130.0)
        self.assertEqual((float(arrived["before"]), float(arrived["after"])), (450, 450))

    def test_two_way_street(self):
        """With a cycle of twice the way from signal to signal every other signal is half a cycle behind: the alternate
        system of the textbooks."""
        self.given(street(True, 19), flow("e", STREET, 8) + flow("w", STREET[::-1], 8), "--dawdle", 0, "--residence", 3)
        self.search("--change", "offsets", "--budget", 300, "--check", "101-102")
        offsets = self.offsets()
        self.assertEqual([(offset - offsets[0]) % 44 for offset in offsets], [0, 22, 0, 22, 0])


class Corridor(Searching):
    def corridor(self):
        """The example's run and map."""
        self.net = str(CORRIDOR / "corridor.net.xml.gz")
        self.run_file, self.map_file = self.folder / "run.jsonl", self.folder / "map.json"
        routes = CORRIDOR / "corridor.rou.xml"
        self.tool("import", self.net, "--routes", routes, "-o", self.run_file, "--map", self.map_file)
        return read_run(self.run_file), read_map(self.map_file)


@needs_simulator
class Values(Corridor):
    """What one run tells, beside the import and streetsim-run."""

    def test_signal_lines_are_the_imports(self):
        run, mapping = self.corridor()
        for paths in ([self.net], [self.net, str(CORRIDOR / "wave.add.xml")]):
            programs = read_plans(paths, mapping)
            lights = {name: light_and_timing(name, programs.programs[name]) for name, _ in mapping.signals}
            lines = LightLines(mapping)
            text = lines.signal_lines(
                {name: timing for name, (_, timing) in lights.items()},
                {name: light for name, (light, _) in lights.items()},
            )
            out = self.folder / "other.jsonl"
            self.tool(
                "import", *paths, "--routes", CORRIDOR / "corridor.rou.xml", "-o", out, "--map", self.folder / "m.json"
            )
            theirs = [json.loads(line) for line in out.read_text().splitlines() if '"signal"' in line[:20]]
            self.assertEqual([json.loads(line) for line in text.splitlines()], theirs)

    def test_area_is_the_sum_of_the_trips(self):
        run, mapping = self.corridor()
        session = session_of(PROGRAM, run, 4500)
        exact = outcome(session, b"", 7)
        self.assertEqual(exact, outcome(session, b"", 7))
        # Counts each ten seconds of arrivals that come with a cycle of 80 s: each is off by up to 5 s of some 136.
        self.assertAlmostEqual(vehicle_seconds(session, b"", 7) / exact.seconds, 1, delta=0.01)
        words = [self.run_file, "--map", self.map_file, "--until", 4500, "--rescue", 0, "--seeds", 7]
        words += ["--departures", "listed"]
        self.tool("run", *words, "--out", self.folder / "run", "--program", PROGRAM)
        [row] = self.table("seeds.csv", "run")
        self.assertEqual(int(row["arrived"]), exact.arrived)
        self.assertAlmostEqual(float(row["mean_trip_s"]), exact.seconds / 2400)

    def test_lines_in_time_and_vehicles_after_the_end(self):
        # Closed from 0 to 100, so that the one vehicle arrives at 103 (test_runs); another departs after the end.
        close = {"cmd": "close", "link": 0, "lane": 0, "first": 5, "last": 9}
        lines = [{"cmd": "load", **NUMBERED}, {**close, "at": 0}, {**close, "cmd": "reopen", "at": 100}]
        lines += [{"cmd": "enter", "plan": [0], "lane": 0, "depart": depart} for depart in (0, 500)]
        run = read_run(self.write("run.jsonl", "".join(json.dumps(line) + "\n" for line in lines)))
        self.write("map.json", json.dumps(MAP))
        session = session_of(PROGRAM, run, 120)
        made = outcome(session, b"", 0)
        self.assertEqual((made.arrived, made.seconds), (1, 103))
        # Counts at 100 and 110 say that it arrived between: at 105.5 in the mean.
        self.assertEqual(vehicle_seconds(session, b"", 0), 105.5)

    def test_vehicles_merge_before_works_in_a_search_too(self):
        """Its runs give what the report's do; without merging somebody waits for a gap, and all take longer."""
        paths = [self.write("x.net.xml", fan(2)), "--routes", self.write("x.rou.xml", flows(2, 850)), "--joint", "a"]
        files = self.folder / "run.jsonl", self.folder / "map.json"
        self.tool("import", *paths, "-o", files[0], "--map", files[1])
        run, mapping = read_run(files[0]), read_map(files[1])
        place = {"link": mapping.links_of["a"][0], "lane": 0, "first": 20, "last": 26}
        works = [(clock, {"cmd": name, **place}) for clock, name in ((100, "close"), (500, "reopen"))]
        run.timed += [(clock, Line(0, json.dumps(command), command)) for clock, command in works]
        session = giving_session(PROGRAM, run, mapping, Settings(600), 0)
        exact = outcome_giving_way(session, b"", 7).seconds
        self.assertEqual(seconds_of_run(for_search(session, []), b"", 7), exact)
        self.assertGreater(vehicle_seconds(with_gap_lines(session, []), b"", 7), 1.02 * exact)

    def test_refused_line_is_a_fault(self):
        # The load is the first call, the five signals of the run are the next.
        run, _ = self.corridor()
        wrong = b'{"cmd":"signal","node":99,"offset":0,"phases":[[5,[]]]}\n'
        with self.assertRaisesRegex(Fault, 'refused call 7 of a run: {"error":4,"name":"NoNode"}'):
            vehicle_seconds(session_of(PROGRAM, run, 4500), wrong, 7)


@needs_simulator
class Tool(Searching):
    def small(self):
        """Two signals on one way, a vehicle each 10 s for 10 minutes."""
        self.given(street(), flow("east", STREET, 20).replace("3600", "900"), "--residence", 3)

    def test_repeats_for_any_jobs(self):
        self.small()
        made = {}
        for jobs in (1, 3):
            self.search("--budget", 60, "--check", "101-103", "--jobs", jobs, until=1500, out=f"jobs{jobs}")
            files = [self.folder / f"jobs{jobs}.add.xml", *sorted((self.folder / f"jobs{jobs}").iterdir())]
            made[jobs] = [path.read_bytes() for path in files]
        self.assertEqual(made[1], made[3])

    def test_tables(self):
        self.small()
        told, _ = self.search("--budget", 60, "--check", "101-103", "--fixed", "J2 J3", "--cycle", "40-70", until=1500)
        self.assertRegex(
            told,
            r"mean trip [\d.]+ s as given, [\d.]+ s as found: -[\d.]+ s ± [\d.]+ "
            r"\(95 % interval of the mean change by dawdling alone, 3 seeds",
        )
        self.assertRegex(told, r"\ncycle 80 s as given, \d+ s as found")
        self.assertEqual([row["light"] for row in self.table("lights.csv")], ["J1", "J4", "J5"])
        trials = self.table("search.csv")
        self.assertEqual(trials[0]["step"], "given")
        best = [float(row["best_s"]) for row in trials]
        self.assertEqual(best, sorted(best, reverse=True))
        root = ElementTree.parse(self.folder / "out.add.xml").getroot()
        for light, row in zip(root, self.table("lights.csv"), strict=True):
            durations = [int(phase.get("duration")) for phase in light]
            self.assertEqual(sum(durations), int(row["cycle_after"]))
            self.assertEqual((durations[1], durations[3]), (3, 3))
            self.assertEqual([phase.get("state") for phase in light], ["Gr", "yr", "rG", "ry"])
            self.assertGreaterEqual(min(durations[0], durations[2]), 5)

    def test_the_search_has_a_reserve_and_the_report_none(self):
        """The plan given alone is run: trips of the search are longer by it, those of the report are the same."""
        self.small()
        given, searched = {}, {}
        for reserve in (0, 80):
            words = ("--budget", 1, "--seeds", "1-1", "--check", "101-103", "--reserve", reserve)
            self.search(*words, until=1500, out=f"reserve{reserve}", status=1)
            given[reserve] = self.table("before-after.csv", f"reserve{reserve}")[0]
            searched[reserve] = float(self.table("search.csv", f"reserve{reserve}")[0]["mean_trip_s"])
        self.assertEqual(given[0], given[80])
        self.assertAlmostEqual(searched[0], float(given[0]["before"]), delta=0.02 * searched[0])
        self.assertGreater(searched[80], searched[0])

    def test_not_shown_to_be_better(self):
        """Where nothing may be changed that helps: one signal, offsets alone, few vehicles far apart."""
        one = net(
            [("a", "A", "B", [lane("a", 0)]), ("b", "B", "C", [lane("b", 0)])],
            [("a", 0, "b", 0, 'tl="L" linkIndex="0"')],
            '<tlLogic id="L" type="static" programID="0" offset="0"><phase duration="60" state="G"/></tlLogic>',
        )
        self.given(one, '<flow id="f" begin="0" end="600" period="60"><route edges="a b"/></flow>')
        told, _ = self.search("--change", "offsets", "--check", "101-103", until=900, status=1)
        self.assertEqual(told.splitlines()[-1], "not shown to be better")
        self.assertTrue((self.folder / "out.add.xml").exists())

    def test_bad_input(self):
        self.small()
        other = self.write("other.net.xml", net([("a", "A", "B", [lane("a", 0)])], []))
        for words, told in (
            (["--fixed", "J1 J9"], "--fixed: the map has no light 'J9'"),
            (["--cycle", "5-15"], "--cycle 5-15: no light can keep such a cycle"),
            (["--cycle", "90-60"], "--cycle '90-60': expected S-S, rising"),
            (["--budget", 0], "--budget 0: one plan takes 1 simulations"),
            (["--seeds", "1-4", "--budget", 3], "--budget 3: one plan takes 4 simulations"),
            (["--seeds", "1-4", "--check", "4-8"], "--seeds 1-4 and --check-seeds 4-8 overlap"),
            (["--check", "4"], "--check-seeds 4: an interval needs two seeds at least"),
            (["--change", "offset"], "--vary: 'offset' is none of offsets, splits, cycle"),
            (["--cycle", "60-90", "--change", "offsets"], "--vary offsets leaves the cycles as they are"),
            (["--last", 900], "--last is of the pictures: give --edges too"),
            (["--bounds", "--first", 9], "--first is of the pictures: give --edges too"),
            (["--bounds", "--edges", "WJ1"], "--edges draws plans of seconds, and --bounds finds none"),
            (["--fixed", "J1 J2 J3 J4 J5"], "no light whose plan may be changed"),
            (["--plans", other], "no program of light 'J1'"),
            (["--until", 0], "'0' is not 1 to"),
            (["--edges", "WJ1 J2J3"], "--edges: no turn leads from 'WJ1' to 'J2J3'"),
            (["--edges", "WJ9"], "the map has no edge 'WJ9'"),
        ):
            with self.subTest(words=words):
                _, said = self.search(*words, until=1500, status=2)
                self.assertIn(told, said.splitlines()[-1])
                self.assertEqual([path.name for path in self.folder.glob("out*")], [])

    def test_actuated_lights_are_left_as_they_are(self):
        text = street().replace('id="J3" type="static"', 'id="J3" type="actuated"')
        self.given(text, flow("east", STREET, 20).replace("3600", "900"), "--residence", 3)
        _, said = self.search("--budget", 30, "--check", "101-103", until=1500)
        self.assertIn("not changed, it is actuated: J3\n", said)
        self.assertEqual([row["light"] for row in self.table("lights.csv")], ["J1", "J2", "J4", "J5"])

    def test_ctrl_c_writes_the_best_so_far(self):
        """On a terminal: the line is shown, and Ctrl-C (which all processes of the terminal get) ends the search."""
        self.given(street(True), flow("e", STREET, 8) + flow("w", STREET[::-1], 8), "--residence", 3)
        terminal, other_side = pty.openpty()
        words = [TOOLS / "streetsim-signals", *self.words("--budget", 100_000, "--check", "101-103", "--seeds", "1-5")]
        with subprocess.Popen(
            list(map(str, words)), stdout=subprocess.PIPE, stderr=other_side, start_new_session=True, text=True
        ) as tool:
            os.close(other_side)
            shown = read_until(terminal, "best", 120)
            os.killpg(tool.pid, signal.SIGINT)
            told = tool.stdout.read()
        os.close(terminal)
        self.assertRegex(
            shown, r"\[#* *\] [\d,]+ of [\d,]+ simulations, best [\d.]+ s \([-+][\d.]+ %\), [\d.]+ (s|min|h) left"
        )
        self.assertTrue(told.startswith("stopped: the best plan found so far is written\nmean trip "), told)
        trials = self.table("search.csv")
        self.assertLess(len(trials), 2000)
        self.assertIn(tool.returncode, (0, 1))
        self.assertEqual(len(self.offsets()), 5)


class Commands(Case):
    """What a search prints at its end: how its plan is shown."""

    def test_an_import_is_made_again_by_the_words_of_its_options(self):
        words = [
            *("net.xml", "--classes", "passenger,bus", "--turns", "strict", "--sizes", "off", "--joint", "-a,b_1"),
            *("--begin", "60", "--end", "900", "--ignore-route-errors", "--dawdle", "100", "--residence", "3"),
            *("--permissive", "x=0.25", "--speed-factor", "0.9,50=1.1", "--cut", "-0.5", "--seed", "7"),
        ]
        for given in (words, ["net.xml"]):
            options = options_of(import_parser().parse_args(given))
            again = import_parser().parse_args(["net.xml", *import_words(json.loads(json.dumps(asdict(options))))])
            self.assertEqual(options_of(again), options)
        slow = asdict(replace(Options(), slow=("a:0-9:30", "b:0-9:30")))
        self.assertEqual(list(import_words(slow)), ["--slow=a:0-9:30,b:0-9:30"])

    def test_what_was_found_has_a_name_of_its_own(self):
        for output, given, run in (
            ("found.add.xml", "zero.jsonl", "found.jsonl"), ("d/plan.xml", "zero.jsonl", "d/plan.jsonl"),
            ("zero.add.xml", "day/zero.jsonl", "zero.found.jsonl"),
        ):  # fmt: skip
            self.assertEqual(found_run(output, given), run)


@needs_simulator
class Verdicts(Searching):
    """What the last line says, and what it rests on."""

    def test_the_budget_is_named_with_the_plans(self):
        """Three seeds a plan: of 10 simulations three plans."""
        self.given(street(), flow("east", STREET, 20).replace("3600", "900"), "--residence", 3)
        told, _ = self.search("--budget", 10, "--seeds", "1-3", "--check", "101-103", until=1500)
        self.assertIn("; 9 simulations, where --budget ended the search after 3 plans\n", told)

    def test_sumo_that_is_not_there(self):
        self.given(street(), flow("east", STREET, 20).replace("3600", "900"), "--residence", 3)
        with mock.patch.dict(os.environ, PATH="/nowhere"):
            words = [sys.executable, TOOLS / "streetsim-signals", *self.words("--verify-sumo", until=1500)]
            done = subprocess.run(list(map(str, words)), capture_output=True, text=True, check=False)
        said = "streetsim-signals: --verify-sumo: SUMO is not installed here (Debian: apt install sumo)"
        self.assertEqual((done.returncode, done.stderr.splitlines()[-1]), (2, said))

    def test_both_must_say_better(self):
        rows = {"better": (-9.0, 2.0), "worse": (7.0, 4.0), "level": (-1.0, 2.0)}
        for here, there, told in (
            ("better", "better", "shown to be better here and in SUMO: -9.0 s ± 2.0 here, -9.0 s ± 2.0 in SUMO"),
            ("better", "worse", "not shown to be better in SUMO: -9.0 s ± 2.0 here, +7.0 s ± 4.0 in SUMO"),
            ("level", "better", "not shown to be better here: -1.0 s ± 2.0 here, -9.0 s ± 2.0 in SUMO"),
            ("level", "worse", "not shown to be better here or in SUMO: -1.0 s ± 2.0 here, +7.0 s ± 4.0 in SUMO"),
        ):
            found = {"here": rows[here], "in SUMO": rows[there]}
            worse = [where for where, (difference, half) in found.items() if difference + half >= 0]
            self.assertEqual(verdict(found, worse, PlanSearch(None, 1, 1)), told)

    def test_cycles_are_named_and_the_end_of_those_that_were_tried(self):
        """Two lights of 90 and 80 s; both at 60, the shortest; one at 60; between; and where only the given one is."""
        timings = {cycle: PlannedTiming(0, (cycle - 3, 3)) for cycle in (60, 70, 80, 90, 120)}
        given = {"L": timings[90], "M": timings[80]}
        others = "that was tried (--cycle S-S tries others)"
        for tried, found, told in (
            ((60, 70), (60, 60), f"90 s as given, 60 s as found, the shortest {others}"),
            ((120,), (120, 120), f"90 s as given, 120 s as found, the longest {others}"),
            ((60, 120), (70, 70), "90 s as given, 70 s as found"),
            ((), (90, 80), "90 s as given, 80 to 90 s as found"),
            ((60, 120), (60, 70), f"90 s as given, 60 to 70 s as found, at 1 of 2 lights the shortest {others}"),
        ):
            with self.subTest(told):
                search = PlanSearch(lambda plans: (1.0 for _ in plans), 100, 1)
                plans = [given, *({"L": timings[one], "M": timings[one]} for one in tried)]
                plans.append(dict(zip("LM", (timings[one] for one in found))))
                search.mean_trips([("", plan) for plan in plans])
                search.best = 1.0, plans[-1]
                self.assertEqual(cycles_told(given, search), "cycle 80 to " + told)

    def test_trips_in_sumo_are_over_the_vehicles_of_the_run(self):
        """Trips of 100 and 50 s; one that has not arrived counts from 400 to 1,000;
        a vehicle that the run has not is left out."""
        trips = {"a": (0.0, 100.0), "b": (100.0, 150.0), "bicycle": (0.0, 900.0)}
        self.assertEqual(mean_trip(trips, {"a": 0, "b": 100, "c": 400}, 1000), 250)

    def test_queues_at_entries(self):
        """Two of 20 vehicles, a tenth, waited to enter under the plan given, and none under the plan found."""
        mapping = map_from("map", MAP)
        run = Run(
            "run", Line(1, "", {"dawdle": 0}), enters=[Line(at, "", {"plan": [0], "depart": 0}) for at in range(20)]
        )
        town = Mock(
            session=Mock(clocks=(0, 1000), departs=20 * (0,)), settings=Settings(1000), run=run, mapping=mapping,
        )  # fmt: skip
        given, found = ([Outcome("", 20, 9, 1000, waiting, 120)] for waiting in (2, 0))
        told = "as given 2 of 20 vehicles waited to enter at some 120 s, and are in no queue or count"
        self.assertEqual(list(doubts_of(town, given, found)), [told])

    def test_who_has_not_arrived(self):
        """Ten had the time; more than a tenth of them have not."""
        self.assertEqual(missing_doubts({"as given": 9.0, "as found": 10.0}, 10), [])
        self.assertEqual(
            missing_doubts({"as given": 8.0, "as found": 9.0}, 10),
            ["as given 2 of 10 vehicles that had the time to arrive have not"],
        )


def read_until(terminal, word, seconds):
    """What a terminal shows up to a word."""
    shown, end = "", time.monotonic() + seconds
    while not ("left" in shown and word in shown) and time.monotonic() < end:
        shown += os.read(terminal, 4096).decode()
    return shown


@needs_sumo
class Trips(Case):
    def test_vehicles_of_trips_drive_in_sumo(self):
        """On the ways that the import found; a vehicle of routes, and types, are as in their files."""
        network, run, mapped = CORRIDOR / "corridor.net.xml.gz", self.folder / "x.jsonl", self.folder / "x.map.json"
        trips = self.write("x.trips.xml", """<routes><vType id="van" vClass="delivery"/>
            <trip id="t" type="van" depart="0" from="WJ1" to="J5E"/>
            <flow id="f" begin="5" end="65" number="2" from="N1J1" to="J2J3"/></routes>""")
        routes = '<routes><vehicle id="v" depart="1"><route edges="EJ5 J5J4"/></vehicle></routes>'
        words = "--routes", self.write("x.rou.xml", routes), "--trips", trips
        self.tool("import", network, *words, "-o", run, "--map", mapped)
        mapping = read_map(str(mapped))
        reading = Mock(map=str(mapped), run=str(run), plans=[str(network)], until=600)
        in_sumo = sumo_for(reading, mapping, read_run(str(run)))
        ways = in_sumo.with_ways(mapping, str(self.folder / "ways.rou.xml"))
        root = ElementTree.parse(self.folder / "ways.rou.xml").getroot()
        self.assertEqual(
            {one.get("id"): (one.get("type"), one.find("route").get("edges")) for one in root.iter("vehicle")},
            {
                "t": ("van", "WJ1 J1J2 J2J3 J3J4 J4J5 J5E"), "v": (None, "EJ5 J5J4"),
                "f.0": (None, "N1J1 J1J2 J2J3"), "f.1": (None, "N1J1 J1J2 J2J3"),
            },
        )
        arrived, _ = ways.run_sumo(self.write("none.add.xml", "<additional/>"), 1)
        self.assertEqual(set(arrived), {"t", "v", "f.0", "f.1"})


@needs_simulator
@needs_sumo
@needs_package("python3-matplotlib", has_matplotlib())
class InSumo(Corridor):
    def test_offsets_of_the_corridor(self):
        """SUMO's own tlsCoordinator comes to 120.9 s there (139.3 s with the plan given)."""
        self.corridor()
        words = "--change", "offsets", "--edges", "WJ1 J1J2 J2J3", "--check", "101-103", "--verify-sumo"
        said, _ = self.search(*words, until=7200)
        self.assertRegex(
            said.splitlines()[-1],
            r"^shown to be better here and in SUMO: -[\d.]+ s ± [\d.]+ here, -[\d.]+ s ± [\d.]+ in SUMO",
        )
        told = self.folder / "told.xml"
        words = ["-n", self.net, "-r", CORRIDOR / "corridor.rou.xml", "-a", self.folder / "out.add.xml", "--end", 7200]
        words += ["--statistic-output", told, "--duration-log.statistics", "--no-step-log", "--no-warnings"]
        subprocess.run(
            ["sumo", *map(str, words)],
            check=True,
            stdout=subprocess.DEVNULL,
            env={"SUMO_HOME": "/usr/share/sumo", **os.environ},
        )
        trips = ElementTree.parse(told).getroot().find("vehicleTripStatistics")
        self.assertEqual(trips.get("count"), "2400")
        self.assertLess(float(trips.get("duration")) + float(trips.get("departDelay")), 120.9)
        for name in ("before.png", "after.png"):
            self.assertGreater((self.folder / "out" / name).stat().st_size, 10_000)


if __name__ == "__main__":
    unittest.main()
