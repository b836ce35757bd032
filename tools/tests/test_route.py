"""streetsim-route: shortest ways and passing times by hand, an equilibrium that is known, bad input,
interrupts, equal bytes."""
import contextlib
import csv
import gzip
import io
import json
import math
import os
import signal
import subprocess
import time
import unittest
import unittest.mock
import xml.etree.ElementTree as ElementTree
from array import array
from collections import Counter
from types import SimpleNamespace

from clusters import ClusterCase, needs_distributed
from support import DATA, PROGRAM, SCENARIOS, TOOLS, Case, lane, needs_simulator, needs_sumo_tools, net
from streetsim.base import limits
from streetsim.base.files import Fault
from streetsim.base.report import Report
from streetsim.cli import route
from streetsim.model.mapping import Map, MapLink, read_map
from streetsim.model.runs import Line, Run, read_run
from streetsim.model.waiting import Gap
from streetsim.search.route_diverting import Diverted
from streetsim.search.route_job import tell_found
from streetsim.search.route_loading import read_town
from streetsim.search.route_search import (
    RouteSearch, RouteSettings, SeenCosts, give_ways, has_stalled, paths_after, relative_gap, those_who_change,
    trials_of,
)
from streetsim.search.route_watching import observed_in
from streetsim.sumo.net import SumoNet
from streetsim.sumo.network import Options
from streetsim.sumo.router import FAR, FoundPath, Router, Wish, wish_parts
from streetsim.sumo.trips import Trip, Trips, read_trips, vehicles_from_trips, write_routes
from streetsim.sumo.types import DEFAULT
from streetsim.sumo.way_costs import Costs, Table, costs_of, flat_costs, nothing_observed
from streetsim.sumo.way_graph import END, Graph
from streetsim.sumo.way_minor import Minor
from streetsim.sumo.way_seconds import free_seconds, red_lengths
from streetsim.sumo.way_unloaded import map_without_routes, times_and_capacities_without_routes

# From a to d by b or by c; from b to c as well. Nobody may go from c to d's twin e.
GRAPH = Graph(
    "abcde",
    [("a", "b"), ("a", "c"), ("b", "d"), ("c", "d"), ("b", "e")],
    {name: (name, name + "'") for name in "abcde"},
)


def way(edge, following=None):
    return GRAPH.movement_of["abcde".index(edge), END if following is None else "abcde".index(following)]


def costs_with(seconds, slices=4, width=100):
    """Costs of 10 s, but for some movements that have their own means."""
    means = [10.0] * len(GRAPH.movements)
    for movement, own in seconds.items():
        means[movement] = array("d", own)
    return Costs(width, slices, means)


class Routing(unittest.TestCase):
    def test_shortest_way_by_the_clock(self):
        # By b: 10, then 90 s in the first two slices and 10 s later; by c: 10, then 30 s at all times.
        router = Router(GRAPH, costs_with({way("b", "d"): [90, 90, 10, 10], way("c", "d"): [30] * 4}))
        a, d = GRAPH.number["a"], GRAPH.number["d"]
        self.assertEqual(router.search(a, d, 0.0), (tuple(map(GRAPH.number.get, "acd")), 10 + 30 + 10))
        self.assertEqual(router.search(a, d, 300.0), (tuple(map(GRAPH.number.get, "abd")), 10 + 10 + 10))

    def test_turns_that_are_missing(self):
        router = Router(GRAPH, flat_costs(GRAPH, [10.0] * len(GRAPH.movements)))
        c, e = GRAPH.number["c"], GRAPH.number["e"]
        self.assertEqual(router.search(c, e, 0.0), ((), FAR))

    def test_who_sets_out_at_the_last_clock_has_a_way(self):
        router = Router(GRAPH, flat_costs(GRAPH, [10.0] * len(GRAPH.movements)))
        a, d = GRAPH.number["a"], GRAPH.number["d"]
        self.assertEqual(router.search(a, d, float(limits.CLOCK)), (tuple(map(GRAPH.number.get, "abd")), 30.0))

    def test_an_edge_that_is_shut_for_a_time(self):
        costs, number = costs_with({way("c", "d"): [30] * 4}), GRAPH.number
        router = Router(GRAPH, costs, {number["b"]: [(0, 150)]})
        # Who sets out at 100 s would come to b at 110.
        self.assertEqual(router.search(number["a"], number["d"], 100.0)[0], tuple(map(number.get, "acd")))
        self.assertEqual(router.search(number["a"], number["d"], 160.0)[0], tuple(map(number.get, "abd")))
        both = Router(GRAPH, costs, {number[name]: [(0, 150)] for name in "bc"})
        self.assertEqual(both.search(number["a"], number["d"], 100.0), ((), FAR))

    def test_a_movement_that_is_barred_for_a_time(self):
        """From a to b nobody turns who would come there before 150 s; from elsewhere b is open."""
        costs, number = costs_with({way("c", "d"): [30] * 4}), GRAPH.number
        a, b, d = (number[name] for name in "abd")
        router, path = Router(GRAPH, costs, {(a, b): [(0, 150)]}), tuple(map(number.get, "abd"))
        self.assertEqual(router.search(a, d, 100.0)[0], tuple(map(number.get, "acd")))
        self.assertEqual(router.search(a, d, 160.0)[0], path)
        self.assertEqual(router.search(b, d, 100.0)[0], path[1:])
        met = [router.first_shut(*one) for one in ((path, 100.0), (path, 160.0), (path[1:], 100.0))]
        self.assertEqual(met, [1, None, None])
        self.assertEqual(router.clocks(path, 100.0)[1], 150.0, "who has that way waits")

    def test_one_closure_after_another(self):
        """Who waits goes on where all is open, not at the end of the first closure, at which the next one has begun."""
        costs, number = costs_with({way("c", "d"): [30] * 4}), GRAPH.number
        a, b = number["a"], number["b"]
        router = Router(GRAPH, costs, {b: [(0, 300), (20, 150), (300, 350)], (a, b): [(340, 400)]})
        clocks = router.clocks(tuple(map(number.get, "abd")), 100.0)
        self.assertEqual((clocks[1], router.when_open(10.0, b), router.when_open(400.0, b)), (400.0, 350.0, 400.0))

    def test_a_trip_of_one_edge(self):
        router = Router(GRAPH, costs_with({way("a"): [20] * 4}))
        found = router.best_path(Wish(7, 0, 0, 50.0, (0,)))
        self.assertEqual((found.path, found.seconds, found.own_seconds), ((0,), 20, 20))

    def test_straight_lines_between_slices(self):
        # Middles of slices at 50, 150, 250 and 350 s; five parts of 20 s, each with the value of its middle.
        table = Table(costs_with({0: [10, 20, 40, 40]}))
        self.assertEqual(
            [table.seconds_at(0, clock) for clock in (0, 55, 95, 150, 205, 399, 9999)], [10, 10, 14, 20, 32, 40, 40]
        )

    def test_parts_hold_each_wish_once(self):
        wishes = [Wish(at, 0, at % 3, 0.0, ()) for at in range(10)]
        for count in (1, 2, 4, 20):
            parts = wish_parts(wishes, count)
            self.assertLessEqual(len(parts), count)
            self.assertEqual(sorted(wish.trip for part in parts for wish in part), list(range(10)))


class Words(unittest.TestCase):
    def test_slices_are_of_a_minute_to_a_day(self):
        made = route.parser()
        found = [made.parse_args(["x.net.xml", "--slice", text]).slice for text in ("60", "86400")]
        self.assertEqual(found, [60, 86_400])
        for text in ("59", "86401"):
            with self.assertRaisesRegex(Fault, "is not 60 to 86,400 s"):
                made.parse_args(["x.net.xml", "--slice", text])


class Seconds(unittest.TestCase):
    def test_reds_round_a_cycle(self):
        # Green in the seconds 2, 3 and 5 of 8: red for 6, 7, 0, 1, and for 4.
        self.assertEqual(sorted(red_lengths(0b101100, 8)), [1, 4])
        self.assertEqual(red_lengths(0, 8), [8])
        self.assertEqual(red_lengths(0xFF, 8), [])

    def test_costs_of_what_was_observed(self):
        # Of 5 vehicles on a-b three lost 20 s and two nothing: mean delay of the edge 60 / (5 + 1) = 10 s,
        # of the movement (60 + 2 * 10) / (5 + 2). On a-c nobody was seen: (0 + 2 * 10) / (0 + 2).
        observed = nothing_observed(len(GRAPH.movements), 2)
        for seconds in (30, 30, 30, 10, 10):
            observed.add(way("a", "b"), 0, seconds)
        costs = costs_of(GRAPH, [10.0] * len(GRAPH.movements), observed, 300)
        self.assertAlmostEqual(costs.means[way("a", "b")][0], 10 + 80 / 7)
        self.assertAlmostEqual(costs.means[way("a", "c")][0], 10 + 10)
        self.assertEqual(costs.means[way("b", "d")], 10.0)

    def test_what_nobody_takes_yet_costs_the_wait_for_a_gap(self):
        """From b to d one crosses those from c to d, 360 an hour in the first slice and nobody later: of whom each
        needs 5 s, so in traffic at random (e^0.5 - 1) / 0.1 - 5 s pass on the mean."""
        minor = Minor(GRAPH, SumoNet())
        minor.foes = {way("b", "d"): [(way("c", "d"), Gap(5.0, 0.0, 0.0))]}
        observed = nothing_observed(len(GRAPH.movements), 2)
        for _ in range(30):
            observed.add(way("c", "d"), 0, 10)
        means = costs_of(GRAPH, [10.0] * len(GRAPH.movements), observed, 300, minor).means[way("b", "d")]
        self.assertAlmostEqual(means[0], 10 + (math.exp(0.5) - 1) / 0.1 - 5)
        self.assertEqual(means[1], 10)

    def test_costs_do_not_fall_faster_than_time_goes_by(self):
        observed = nothing_observed(len(GRAPH.movements), 3)
        for _ in range(98):
            observed.add(way("a", "b"), 0, 1000)
        means = costs_of(GRAPH, [10.0] * len(GRAPH.movements), observed, 300).means[way("a", "b")]
        self.assertEqual([round(first - second, 6) for first, second in zip(means, means[1:])], [270, 270])

    def test_who_changes(self):
        found = [FoundPath(at, (0,), 100.0, 100.0 + gain) for at, gain in enumerate((0, 40, 0.4, 10, 20))]
        self.assertEqual([one.trip for one in those_who_change(found, 0.4)], [1, 4])
        self.assertEqual([one.trip for one in those_who_change(found, 1.0)], [1, 3, 4])
        steps = [[one.trip for one in step.trips] for step in trials_of(found, 0.8, 4)]
        self.assertEqual(steps, [[1, 3, 4], [1, 4], [1]])
        self.assertAlmostEqual(relative_gap(found), 70.4 / 500)
        self.assertEqual(relative_gap([]), 0.0)


STREET = net(
    [(name, *ends, [lane(name, 0)]) for name, ends in (("a", "AB"), ("b", "BC"), ("c", "CD"), ("side", "BE"))],
    [("a", 0, "b", 0, ""), ("b", 0, "c", 0, ""), ("a", 0, "side", 0, "")],
)


class Written(Case):
    def test_routes_keep_what_their_vehicles_have(self):
        """Attributes that have no effect here, the line, and the stops that lie on the way that was found; a flow's
        stop is for a departure at its begin."""
        text = """<routes><vType id="bus" vClass="bus" decel="4"/>
        <vehicle id="v" type="bus" depart="7" departSpeed="max" departLane="0" arrivalPos="9" color="red" line="12">
        <route edges="a b c"/><stop lane="b_0" endPos="50" duration="20" until="99"/></vehicle>
        <trip id="t" depart="8" from="a" to="c" departPos="3"/>
        <flow id="f" begin="10" end="40" number="2" from="a" to="c" departSpeed="5">
        <stop lane="c_0" duration="5" until="30"/><stop lane="side_0" duration="9"/></flow></routes>"""
        report = Report()
        town = read_town(self.write("x.net.xml", STREET), [], Options(classes=("passenger", "bus")), report)
        files = [self.write("r.rou.xml", text)]
        trips = read_trips(files, town.net, town.graph, town.types, town.options, report)
        for trip in trips.trips:
            trip.path = tuple(town.graph.number[name] for name in "abc")
        write_routes(str(self.folder / "out.xml"), trips, town.graph)
        read = {one.get("id"): one for one in ElementTree.parse(self.folder / "out.xml").iter("vehicle")}
        given = {"departLane": "0", "departSpeed": "max", "arrivalPos": "9", "color": "red", "line": "12"}
        self.assertEqual(read["v"].attrib, {"id": "v", "type": "bus", "depart": "7.00", **given})
        self.assertEqual(read["t"].attrib, {"id": "t", "depart": "8.00", "departLane": "best", "departPos": "3"})
        self.assertEqual(read["f.1"].attrib, {"id": "f.1", "depart": "25.00", "departLane": "best", "departSpeed": "5"})
        made = {name: list(one.iter("stop")) for name, one in read.items()}
        stops = {name: [(stop.get("lane"), stop.get("until")) for stop in those] for name, those in made.items()}
        self.assertEqual(stops, {"v": [("b_0", "99")], "t": [], "f.0": [("c_0", "30")], "f.1": [("c_0", "45")]})
        self.assertEqual(report.ignored["decel of vTypes"], 1)
        self.assertEqual([one.line for one in vehicles_from_trips(trips.trips, town.graph)], ["12", "", "", ""])


    def test_departures_are_in_the_second_in_which_they_were(self):
        """An import and SUMO have vehicles depart at the first whole second that is not before."""
        town = read_town(self.write("x.net.xml", STREET), [], Options(), Report())
        path = tuple(town.graph.number[name] for name in "abc")
        departs = (8.0, 8.004, 8.1, 8.996)
        made = [Trip(str(at), depart, path[0], path[-1], DEFAULT, path, depart) for at, depart in enumerate(departs)]
        write_routes(str(self.folder / "out.xml"), Trips(made, []), town.graph)
        read = [one.get("depart") for one in ElementTree.parse(self.folder / "out.xml").iter("vehicle")]
        self.assertEqual(read, ["8.00", "8.01", "8.10", "9.00"])


class Stepping(RouteSearch):
    """A search of 100 trips whose iterations show given gaps, and trips that did not arrive. The best way of each trip
    is the number of the iteration, or less 1 where that was taken back; its own is half as long again."""

    def __init__(self, *seen):
        trips = [Trip(str(at), 0.0, 0, 3, "", (100,), 0.0) for at in range(100)]
        super().__init__(None, None, trips, None, lambda _: False)
        self.given = iter(enumerate(seen))
        self.place = 0  # of the step that is best

    def run_best_trial(self, _, steps):
        number, (gap, lacking) = next(self.given)
        step = steps[min(self.place, len(steps) - 1)]
        ways = [(path, 0.0) for path in paths_after(self.trips, step.trips)]
        give_ways(self.trips, ways)
        outcome = SimpleNamespace(mean=100.0, arrived=100 - lacking, rescues=0, calls=0)
        self.number = number - 1
        return SeenCosts(ways, [outcome], None, self.ways_of(number), [], gap, lacking), step.fraction

    def best_ways(self, _):
        return self.ways_of(self.number)

    def ways_of(self, number):
        return [FoundPath(at, (number,), 100.0, 150.0) for at in range(100)]

    def improved(self, iterations, gap=0.0):
        """For each iteration how many change, and whether it was taken back;
        and how many trips have which way in the end."""
        self.improve(RouteSettings(iterations, gap, 0.4, range(1, 2)))
        return [(one.changed, one.taken_back) for one in self.iterations], Counter(trip.path[0] for trip in self.trips)


class Steps(unittest.TestCase):
    def test_a_step_that_is_taken_back(self):
        """7 is more than 1.3 times 5, and 6 is not. Those who change are a tenth fewer each time,
        and half as many after a step that was taken back, which begins at the ways of the least gap."""
        search = Stepping((10, 0), (5, 0), (7, 0), (6, 0), (4, 0))
        expected = [(40, False), (36, False), (16, True), (16, False), (0, False)], {3: 16, 0: 24, 100: 60}
        self.assertEqual(search.improved(4), expected)
        self.assertEqual(search.best.number, 4)

    def test_a_share_is_that_of_the_step_that_was_best(self):
        """Two of eight trips gain: they change by the whole share, by a half and by a quarter, of which one step is
        kept, and one of them by an eighth. Where this is best, the share is 0.9 / 8 from then on, by which one changes;
        by 0.9 / 2 there would be two."""
        search = Stepping((10, 0), (5, 0), (4, 0))
        search.place = 1
        search.ways_of = lambda number: [FoundPath(at, (number,), 100.0, 150.0 if at < 2 else 100.0) for at in range(8)]
        self.assertEqual([one.fraction for one in trials_of(search.ways_of(0), 1.0, 4)], [1.0, 0.125])
        search.improve(RouteSettings(2, 0.0, 1.0, range(1, 2), 4))
        self.assertEqual([one.changed for one in search.iterations], [2, 1, 0])

    def test_the_least_gap_is_kept(self):
        search = Stepping((5, 0), (4, 0), (4.5, 0))
        self.assertEqual(search.improved(2), ([(40, False), (36, False), (0, False)], {0: 40, 100: 60}))
        self.assertEqual(search.best.number, 1)

    def test_more_who_arrive_are_better_than_a_smaller_gap(self):
        search = Stepping((1, 3), (9, 0), (8, 1))
        self.assertEqual(search.improved(2)[0], [(40, False), (36, False), (0, True)])
        self.assertEqual(search.best.number, 1)

    def test_a_search_tries_other_ways_before_it_ends(self):
        """A gap that is small enough at once ends it after a step, whose ways are kept where they are better."""
        self.assertEqual(Stepping((1, 0), (0.5, 0)).improved(3, gap=8), ([(40, False), (0, False)], {0: 40, 100: 60}))
        self.assertEqual(Stepping((1, 0), (2, 0)).improved(3, gap=8), ([(40, False), (0, True)], {100: 100}))

    def test_a_search_ends_at_half_the_gap_asked_for(self):
        """By its own seed the gap is too good."""
        search = Stepping((10, 0), (5, 0), (4, 0), (1, 0))
        self.assertEqual(search.improved(3, gap=8)[0], [(40, False), (36, False), (0, False)])


class Doubts(unittest.TestCase):
    def told(self, arrived=1000, rescues=0, waiting=0):
        seen = {"arrived": arrived, "rescues": rescues, "most_waiting": (waiting, 600), "at_works": ()}
        outcomes = [SimpleNamespace(**seen) for _ in range(2)]
        outcomes[1].arrived, outcomes[1].rescues = 1000, 0
        by_list = SimpleNamespace(listed_lights=lambda _mapping: ())
        ground = SimpleNamespace(until=9000, lights=lambda _run, _mapping: by_list)
        search = SimpleNamespace(ground=ground, town=SimpleNamespace(works=()))
        loaded = SimpleNamespace(run=Run("run", Line(1, "", {})), mapping=Map([], [], [], [], [], {}, []))
        judged = SimpleNamespace(outcomes=outcomes, loaded=loaded)
        return Diverted(None, range(1000), search, judged).named_doubts()

    def test_what_speaks_against_routes(self):
        self.assertEqual(self.told(), [])
        self.assertEqual(self.told(arrived=997), ["3 of 1,000 trips have not arrived at 9,000 s (--until)"])
        self.assertEqual(self.told(rescues=10), [])
        self.assertEqual(
            self.told(rescues=11), ["11 rescues of 1,000 trips, so the network locks in part, and the gap says little"]
        )
        self.assertEqual(
            self.told(waiting=51), ["51 of 1,000 vehicles waited to enter at some 600 s, and are in no queue or count"]
        )

    def test_a_gap_that_does_not_fall(self):
        search = SimpleNamespace(
            iterations=[SimpleNamespace(number=number) for number in range(11)], best=SimpleNamespace(number=6)
        )
        self.assertFalse(has_stalled(search))
        search.best.number = 5
        self.assertTrue(has_stalled(search))

    def test_the_best_iteration_need_not_have_the_least_gap(self):
        """More trips arrive in it; so it is told as the best, and nothing is said of its gap."""
        judged = SimpleNamespace(gap=0.2, outcomes=[SimpleNamespace(mean=60.0)])
        iterations = [SimpleNamespace(number=number, gap=1 - number / 10) for number in range(9)]
        search = SimpleNamespace(iterations=iterations, best=SimpleNamespace(number=2))
        one, said = Diverted(None, [], search, judged), io.StringIO()
        with contextlib.redirect_stdout(io.StringIO()), contextlib.redirect_stderr(said):
            self.assertEqual(tell_found(SimpleNamespace(settings=RouteSettings(8, 0.1, 0.5, [1])), one, one), 1)
        self.assertEqual(
            said.getvalue(), "warning: the ways get no better any more: the best were those of iteration 2\n"
        )


class SecondsOfMovements(unittest.TestCase):
    def test_of_each_movement_by_the_time_of_its_begin(self):
        """The first one arrives, the second one is on its second link at the run's end, the third one never departs."""
        links = [MapLink(name, (0,), at, at + 1, 10, 1, 75.0, ()) for at, name in enumerate("abd")]
        enters = [Line(0, "", {"cmd": "enter", "plan": [0, 1, 2]})] * 3
        ground = SimpleNamespace(graph=GRAPH, width=100, slices=4, until=399)
        run, mapping = SimpleNamespace(enters=enters), SimpleNamespace(links=links)
        seen = observed_in(ground, run, mapping, [[90, 105, 130], [190, 210], []], [199, None, None])
        found = {at: (seen.seconds[at], seen.counts[at]) for at in range(len(seen.counts)) if seen.counts[at]}
        first, second, last = (4 * movement for movement in (way("a", "b"), way("b", "d"), way("d")))
        self.assertEqual(found, {
            first: (15, 1), first + 1: (20, 1), second + 1: (25, 1), second + 2: (189, 1), last + 1: (69, 1),
        })  # fmt: skip


def two_ways(light="", cycle=""):
    """From a to b over a short way with a light, and over one of 900 m."""
    ends = {"in": ("W", "A"), "short": ("A", "B"), "far": ("A", "M"), "long": ("M", "B"), "out": ("B", "E")}
    metres = {"in": 300.0, "short": 300.0, "far": 450.0, "long": 450.0, "out": 300.0}
    edges = [(name, *ends[name], [lane(name, 0, metres[name])]) for name in ends]
    ways = [("in", 0, "short", 0, ""), ("in", 0, "far", 0, ""), ("far", 0, "long", 0, ""), ("long", 0, "out", 0, "")]
    return net(edges, [*ways, ("short", 0, "out", 0, light)], cycle)


def lit(*phases):
    shown = "".join(f'<phase duration="{duration}" state="{state}"/>' for duration, state in phases)
    return two_ways('tl="B" linkIndex="0"', f'<tlLogic id="B" type="static" programID="0" offset="0">{shown}</tlLogic>')


def joining(main, minor, end):
    """A street w, e with so many vehicles an hour goes first at C, where o, s joins it; o also leads round C,
    by 22 s more. Gives the network and its trips."""
    ends = {
        "w": ("W", "C"), "e": ("C", "B"), "o": ("O", "D"), "s": ("D", "C"), "far": ("D", "F"), "on": ("F", "B"),
        "out": ("B", "E"),
    }
    metres = {"far": 450.0, "on": 450.0}
    ways = [("o", "s", ""), ("o", "far", ""), ("far", "on", ""), ("on", "out", ""), ("e", "out", "")]
    yields = [("w", "e", "0"), ("s", "e", "1")]
    inside = "".join(
        f'<edge id=":C_{at}" function="internal"><lane id=":C_{at}_0" index="0" speed="9" length="9" '
        'shape="0,0 9,0"/></edge>'
        for at in "01"
    )
    edges = "".join(
        f'<edge id="{name}" from="{begin}" to="{end}">{lane(name, 0, metres.get(name, 300.0))}</edge>'
        for name, (begin, end) in ends.items()
    )
    junctions = "".join(f'<junction id="{name}" type="dead_end" x="0" y="0"/>' for name in "WBODFE")
    junctions += (
        '<junction id="C" type="priority" x="0" y="0"><request index="0" response="00"/><request index="1" '
        'response="01"/></junction>'
    )
    listed = "".join(
        f'<connection from="{one}" to="{other}" fromLane="0" toLane="0" state="M"/>' for one, other, _ in ways
    )
    listed += "".join(
        f'<connection from="{one}" to="{other}" fromLane="0" toLane="0" via=":C_{at}_0" state="{"Mm"[int(at)]}"/>'
        for one, other, at in yields
    )
    flows = "".join(
        f'<flow id="{name}" begin="0" end="{end}" number="{count * end // 3600}" from="{name}" to="out"/>'
        for name, count in (("w", main), ("o", minor))
    )
    return f'<net version="1.9">{inside}{edges}{junctions}{listed}</net>', f"<routes>{flows}</routes>"


def ring():
    """A ring of four short edges; at each corner one leads in, one out, and one goes to the third corner from it."""
    edges, ways = [], []
    for here, there, third in zip("ABCD", "BCDA", "DABC"):
        edges += [
            (here + there, here, there, [lane(here + there, 0, 37.5)]),
            (f"in{here}", f"I{here}", here, [lane(f"in{here}", 0, 150.0)]),
        ]
        edges += [
            (f"out{here}", here, f"O{here}", [lane(f"out{here}", 0, 150.0)]),
            (f"far{here}", here, third, [lane(f"far{here}", 0, 900.0)]),
        ]
        ways += [
            (f"in{here}", 0, here + there, 0, ""),
            (f"in{here}", 0, f"far{here}", 0, ""),
            (f"far{here}", 0, f"out{third}", 0, ""),
        ]
        ways += [(third + here, 0, here + there, 0, ""), (third + here, 0, f"out{here}", 0, "")]
    return net(sorted(edges, key=lambda edge: edge[0][:2] != "in"), ways)


def ring_trips(number, end):
    flows = (
        f'<flow id="{here}" begin="0" end="{end}" number="{number}" from="in{here}" to="out{third}"/>'
        for here, third in zip("ABCD", "DABC")
    )
    return f"<routes>{''.join(flows)}</routes>"


def flow(number, end, more=""):
    return f'<routes><flow id="f" begin="0" end="{end}" number="{number}" from="in" to="out" {more}/></routes>'


@needs_simulator
class Commands(Case):
    def given(self, network, trips):
        self.net, self.trips = self.write("x.net.xml", network), self.write("x.trips.xml", trips)

    def words(self, *words, out="out"):
        return [self.net, "--trips", self.trips, "-o", self.folder / f"{out}.rou.xml", "--out", self.folder / out,
                "--program", PROGRAM, "--jobs", 1, *words]  # fmt: skip

    def route(self, *words, out="out", status=0):
        return self.tool("route", *self.words(*words, out=out), status=status)

    def table(self, name, out="out"):
        with open(self.folder / out / name, encoding="utf-8") as file:
            return list(csv.DictReader(file))

    def routes(self, out="out"):
        """The ways of the vehicles, by name."""
        root = ElementTree.parse(self.folder / f"{out}.rou.xml").getroot()
        return {vehicle.get("id"): vehicle.find("route").get("edges").split() for vehicle in root.iter("vehicle")}

    def files(self, out="out"):
        """All bytes that were written."""
        written = sorted(path for path in (self.folder / out).iterdir())
        found = self.folder / f"{out}.rou.xml"
        return [path.name for path in written], [path.read_bytes() for path in (found, *written)]

    def check_refused(self, told, *words):
        _, said = self.route(*words, status=2)
        self.assertEqual(len(said.splitlines()), 1, said)
        self.assertIn(told, said)
        self.assertEqual([path for path in self.folder.iterdir() if path.name.startswith(("out", ".out", "run"))], [])


class Equilibria(Commands):
    def test_two_ways(self):
        """720 vehicles an hour on a short way whose green of 15 s lets 16.35 / 2.07 = 7.9 pass in 60 s, and less
        its hidden seconds: at most 474 an hour take it in equilibrium, and most of those that it lets pass, since
        the other way is 44 s longer. By the chance of one seed a search ends too early for the seeds that judge it."""
        self.given(lit((15, "G"), (45, "r")), flow(720, 3600))
        told, said = self.route("--gap", 0.08, "--seeds", "1-3")
        short = sum("short" in edges for edges in self.routes().values())
        self.assertTrue(300 <= short <= 500, short)
        gaps = [float(row["relative_gap"]) for row in self.table("iterations.csv")]
        self.assertLess(min(gaps), 0.08)
        self.assertRegex(
            told, r"mean trip [\d.]+ s, gap [\d.]+ % by 3 seeds that the search did not see; routes of iteration \d+\n"
        )
        self.assertRegex(said, r"0: mean trip [\d.]+ s, gap [\d.]+ %, \d+ of 720 change, 0 rescues\n")
        setting = json.loads((self.folder / "out/setting.json").read_text())
        self.assertEqual((setting["arrived"], setting["check_seeds"]), (720, "101-103"))
        means = [float(row["mean_trip_s"]) for row in self.table("check.csv")]
        self.assertAlmostEqual(setting["mean_trip_s"], sum(means) / 3, delta=0.01)
        counted = sum(
            float(row["vehicles"])
            for row in self.table("movements.csv")
            if (row["edge"], row["next_edge"]) == ("short", "out")
        )
        self.assertAlmostEqual(counted, short, delta=1)
        self.assertEqual(len(self.table("trips.csv")), 720)

    def test_a_start_that_locks(self):
        """Who comes into the ring goes first, and all go round three quarters of it: it fills up and stands.
        Ways of 900 m lead round it."""
        self.given(ring(), ring_trips(150, 720))
        self.route("--until", 2400, "--iterations", 7, "--gap", 0.05, status=1)
        rows, setting = self.table("iterations.csv"), json.loads((self.folder / "out/setting.json").read_text())
        self.assertLess(int(rows[0]["arrived"]), 300)
        self.assertEqual((setting["arrived"], setting["rescues"]), (600, [0, 0, 0]))
        self.assertLess(setting["mean_trip_s"], 120)

    def test_a_light_that_is_never_green(self):
        self.given(lit((60, "r")), flow(60, 600))
        self.route()
        self.assertEqual({tuple(edges) for edges in self.routes().values()}, {("in", "far", "long", "out")})

    def test_status_1_where_the_gap_is_not_reached(self):
        self.given(lit((15, "G"), (45, "r")), flow(300, 900))
        told, _ = self.route("--gap", 0, "--iterations", 1, status=1)
        self.assertIn(": the gap of 0 % is not reached; routes of iteration", told)
        self.assertEqual(len(self.routes()), 300)

    def test_one_trip_and_trips_of_one_edge(self):
        self.given(two_ways(), '<routes><trip id="t" depart="5" from="in" to="out"/></routes>')
        self.route()
        self.assertEqual(self.routes(), {"t": ["in", "short", "out"]})
        self.given(
            two_ways(),
            '<routes><trip id="t" depart="5" from="in" to="in"/><trip id="u" depart="5" from="out" to="out"/></routes>',
        )
        self.route()
        self.assertEqual(self.routes(), {"t": ["in"], "u": ["out"]})

    def test_routes_that_are_given(self):
        edges = "in far long out"
        self.given(two_ways(), f'<routes><vehicle id="v" depart="0"><route edges="{edges}"/></vehicle></routes>')
        self.route("--iterations", 0, status=1)
        self.assertEqual(self.routes(), {"v": edges.split()})
        self.route("--iterations", 0, "--anew")
        self.assertEqual(self.routes(), {"v": ["in", "short", "out"]})

    def test_a_route_back_to_its_begin(self):
        """Its shortest way would be one edge."""
        way = "AB BC CD DA AB"
        self.given(ring(), f'<routes><vehicle id="v" depart="0"><route edges="{way}"/></vehicle></routes>')
        _, said = self.route("--iterations", 1, "--anew")
        self.assertIn("warning: 1 vehicles have a route back to the edge where it begins, which they keep\n", said)
        self.assertEqual(self.routes(), {"v": way.split()})

    def test_the_run_and_its_map_are_those_of_streetsim_import(self):
        types = '<vType id="truck" length="12"/>'
        self.given(lit((15, "G"), (45, "r")), flow(100, 600, 'type="truck"').replace("<routes>", f"<routes>{types}"))
        self.route("--iterations", 2, "--run", self.folder / "a.jsonl", "--map", self.folder / "a.json", "--gap", 1)
        self.tool(
            "import", self.net, "--routes", self.folder / "out.rou.xml", "-o", self.folder / "b.jsonl",
            "--map", self.folder / "b.json",
        )
        for name in ("jsonl", "json"):
            self.assertEqual((self.folder / f"a.{name}").read_bytes(), (self.folder / f"b.{name}").read_bytes())
        closed = "--close", "short_0:100-200:60-120", "--works-limit", 30  # for which the files are imported anew
        words = [self.folder / "a.jsonl", "--map", self.folder / "a.json", *closed, "--program", PROGRAM]
        self.tool("run", *words, "--out", self.folder / "closed")


class GivingWay(Commands):
    """720 vehicles an hour go first, one every 5 s. Before each 3.9 s have to be free, and it is in the way for 1 s."""

    def short(self, *words, out="out"):
        self.route("--gap", 0.2, "--iterations", 6, *words, out=out)
        return sum("s" in edges for name, edges in self.routes(out).items() if name.startswith("o"))

    def test_those_who_wait_too_long_take_another_way(self):
        self.given(*joining(20, 360, 1800))
        self.assertEqual(self.short(out="free"), 180)
        self.given(*joining(720, 360, 1800))
        self.assertLess(self.short(), 90)
        setting = json.loads((self.folder / "out/setting.json").read_text())
        self.assertEqual((setting["rounds"], setting["arrived"]), (2, 540))
        self.assertLess(setting["mean_trip_s"], 120)

    def test_check_runs_are_those_of_streetsim_run(self):
        self.given(*joining(540, 360, 900))
        run, mapped = self.folder / "run.jsonl", self.folder / "map.json"
        self.route("--iterations", 2, "--gap", 1, "--until", 4000, "--run", run, "--map", mapped)
        self.tool(
            "run", run, "--map", mapped, "--seeds", "101-103", "--departures", "listed", "--until", 4000,
            "--out", self.folder / "runs",
            "--program", PROGRAM,
        )
        here = [(row["seed"], float(row["mean_trip_s"])) for row in self.table("check.csv")]
        there = [(row["seed"], round(float(row["mean_trip_s"]), 3)) for row in self.table("seeds.csv", "runs")]
        self.assertEqual(here, there)


class LongCycles(Case):
    def test_a_light_whose_phases_are_sent_one_by_one(self):
        """Green and red for 5,000 s by turns: red for 5000 * 5001 / 2 / 10000 = 1,250 s on the mean, of 1,700 an hour
        half; the starts that greens leave out are a second or two. Without vehicles, and with those of a run."""
        for phases in (((5000, "G"), (5000, "r")), ((5000, "r"), (5000, "G"))):
            town = read_town(self.write("x.net.xml", lit(*phases)), [], Options(), Report())
            numbers = [town.graph.number[name] for name in ("in", "short", "far", "long", "out")]
            short = town.graph.movement_of[numbers[1], numbers[4]]
            dark = free_seconds(town.graph, map_without_routes(town.net, town.options), [], town.dawdle)
            free, capacity = times_and_capacities_without_routes(town.net, town.graph, town.options)
            trip = Trip("v", 0.0, numbers[0], numbers[4], DEFAULT, (numbers[0], numbers[1], numbers[4]), 0.0)
            for seconds in (free, town.loaded([trip]).free):
                self.assertAlmostEqual(seconds[short] - dark[short], 1250, delta=3)
            self.assertAlmostEqual(capacity[short], 850, delta=3)


class Imports(Case):
    """streetsim-import --trips"""

    def imported(self, trips, *more, network=None, status=0):
        """The edges of each vehicle by name, what is said, and the paths of run and map."""
        paths = self.folder / "run.jsonl", self.folder / "map.json"
        words = [
            self.write("x.net.xml", network or lit((15, "G"), (45, "r"))),
            "--trips",
            self.write("x.trips.xml", trips),
            *more,
        ]
        _, said = self.tool("import", *words, "-o", paths[0], "--map", paths[1], status=status)
        if status == 2:
            return {}, said, paths
        mapping = read_map(paths[1])
        plans = [line.command["plan"] for line in read_run(paths[0]).enters]
        return (
            {name: [mapping.links[link].edge for link in plan] for name, plan in zip(mapping.cars, plans, strict=True)},
            said,
            paths,
        )

    def test_few_take_the_short_way(self):
        """The mean wait at the light is 45 * 46 / 120 = 17 s, and the other way is 46 s longer."""
        edges, _, _ = self.imported(flow(60, 3600), "--strict")
        self.assertEqual({tuple(way) for way in edges.values()}, {("in", "short", "out")})
        self.assertEqual(len(edges), 60)

    def test_many_go_on_both_ways(self):
        """The light lets 425 an hour pass by 1,700 and its share of green."""
        edges, _, _ = self.imported(flow(1200, 3600))
        short = sum("short" in way for way in edges.values())
        self.assertTrue(300 <= short <= 900, short)

    def test_routes_that_are_given_stay(self):
        given = (
            '<routes><route id="r" edges="in far long out"/><vehicle id="v" depart="3" route="r"/><trip id="t" '
            'depart="3" from="in" to="out"/></routes>'
        )
        edges, _, paths = self.imported(given)
        self.assertEqual(edges, {"v": ["in", "far", "long", "out"], "t": ["in", "short", "out"]})
        self.assertEqual(read_map(paths[1]).kinds["route"], ["r", ""])

    def test_no_way(self):
        trips = (
            '<routes><trip id="t" depart="0" from="out" to="in"/><trip id="u" depart="0" from="in" to="out"/></routes>'
        )
        edges, said, _ = self.imported(trips, "--strict", status=1)
        self.assertEqual(list(edges), ["u"])
        self.assertIn("skipped: 1 vehicles: no way from where the trip begins to where it ends", said)

    def test_persons_who_ride_are_left_out(self):
        """They are in vehicles that the files have; who has a trip of his own may take a car, and is refused."""
        rides = '<person id="p" depart="0"><walk edges="in"/><ride from="in" to="out" lines="ANY"/></person>'
        edges, said, _ = self.imported(f'<routes>{rides}<trip id="t" depart="0" from="in" to="out"/></routes>')
        self.assertEqual(list(edges), ["t"])
        self.assertIn("skipped: 1 vehicles: a person, which streetsim does not have", said)

    @needs_sumo_tools
    def test_a_bus_that_is_sent_while_sumo_runs(self):
        """The game of a bus on demand: its persons ride, and its only vehicle has stops and no way."""
        shipped = SCENARIOS.parents[3] / "game/DRT.sumocfg"
        _, said = self.tool(
            "import", "-c", shipped, "-o", self.folder / "run.jsonl", "--map", self.folder / "map.json", status=2
        )
        self.assertIn("DRT/drt.rou.xml: <trip 'DRT2'>: drives from stop to stop without from and to", said)
        self.assertFalse((self.folder / "run.jsonl").exists())

    @needs_simulator
    def test_road_works_import_the_trips_anew(self):
        ends = {"in": ("W", "A", 2), "b": ("A", "B", 1), "c": ("A", "C", 1)}
        edges = [
            (name, begin, end, [lane(name, at, 300.0) for at in range(count)])
            for name, (begin, end, count) in ends.items()
        ]
        fork = net(edges, [("in", 0, "b", 0, ""), ("in", 1, "c", 0, "")])
        trips = '<routes><trip id="b" depart="0" from="in" to="b"/><trip id="c" depart="0" from="in" to="c"/></routes>'
        _, _, (run, mapped) = self.imported(trips, network=fork)
        words = [
            run, "--map", mapped, "--until", 900, "--close", "in_0:100-200:0-900", "--out", self.folder / "out",
            "--program", PROGRAM,
        ]
        told, said = self.tool("run", *words)
        self.assertIn("joint for this run", said)
        self.assertIn("2 vehicles, 2 arrived", told)


class BadInput(Commands):
    def test_trips(self):
        for trips, told in (
            ('<trip id="t" depart="0" from="out" to="in"/>', "trip 't': no way from out to in"),
            ('<trip id="t" depart="0" from="in" to="x"/>', "<trip 't'>: the network has no edge 'x'"),
            ('<trip id="t" depart="0" from="in"/>', "<trip 't'>: a trip needs from and to"),
            ('<trip id="t" depart="0" fromTaz="1" toTaz="2"/>', "let od2trips or duarouter choose edges"),
            ('<trip id="t" depart="0" from="in" to="out" via="far"/>', "via is not routed here"),
            ('<trip id="t" depart="soon" from="in" to="out"/>', "depart='soon' cannot be read"),
            ('<trip id="t" type="" depart="0" from="in" to="out"/>', "<trip 't'>: type='' cannot be read"),
            ('<person id="p" depart="0"><personTrip from="in" to="out"/></person>', "persons are not routed here"),
            (
                '<trip id="t" depart="0"><stop lane="in_0" duration="9"/></trip>',
                "<trip 't'>: drives from stop to stop without from and to",
            ),
            ('<trip id="t" depart="0" from="in" to="out"/>' * 2, "two vehicles are named 't'"),
            ("", "no trip that can drive"),
            (
                '<trip id="t" depart="9e9" from="in" to="out"/>',
                "no trip that can drive; 1 left out: departs after 1,000,000,000 s",
            ),
        ):
            with self.subTest(told):
                self.given(two_ways(), f"<routes>{trips}</routes>")
                self.check_refused(told)

    def test_routes_without_a_connection(self):
        given = (
            '<vehicle id="v" depart="0"><route edges="in long out"/></vehicle><trip id="t" depart="5" '
            'from="in" to="out"/>'
        )
        self.given(two_ways(), f"<routes>{given}</routes>")
        self.check_refused("trip 'v': the network has no connection from edge 'in' to edge 'long'")
        _, said = self.route("--ignore-route-errors")
        self.assertIn("skipped: 1 vehicles: two edges of the route have no connection\n", said)
        self.assertEqual(list(self.routes()), ["t"])
        self.route("--anew")
        self.assertEqual(self.routes(), {name: ["in", "short", "out"] for name in "vt"})

    def test_more_trips_than_enter_in_a_run(self):
        one = flow(600_000, 86_400)
        self.given(two_ways(), one.replace("</routes>", one.replace("<routes>", "").replace('id="f"', 'id="g"')))
        self.check_refused("1,200,000 trips, and at most 1,000,000 vehicles enter in a run")

    def test_words(self):
        self.given(two_ways(), flow(10, 60))
        for words, told in (
            (("--run", self.folder / "run.jsonl"), "--run and --map are given together or not at all"),
            (("--seeds", "100-102"), "--seeds 100-102 and --check-seeds 101-103 overlap"),
            (("--until", 20), "--until 20: the last trip departs at 54 s"),
            (("--program", self.folder / "none"), "none: no program that can be run"),
            (("--classes", "tank"), "SUMO has no vehicle class 'tank'"),
            (("--map", self.trips, "--run", self.folder / "run.jsonl"), "--map names a file that is read"),
        ):
            with self.subTest(told):
                self.check_refused(told, *words)
        self.check_refused("--share: '2' is not 0 to 1", "--share", 2)
        _, said = self.tool("route", status=2)
        self.assertIn("the following arguments are required: NET (", said)


class Ends(Commands):
    def begun(self, *more, until="0: mean trip", alone=False):
        """A search that has ended an iteration. alone: in a process group of its own."""
        self.given(lit((15, "G"), (45, "r")), flow(720, 3600))
        words = [TOOLS / "streetsim-route", *self.words("--gap", 0, *more)]
        search = subprocess.Popen(
            list(map(str, words)), stdout=subprocess.PIPE, stderr=subprocess.PIPE, text=True, start_new_session=alone
        )
        while not (line := search.stderr.readline()).startswith(until):
            self.assertNotEqual(line, "", f"ended before {until!r}")
        return search

    def test_ctrl_c_ends_with_the_best_so_far(self):
        search = self.begun()
        os.kill(search.pid, signal.SIGINT)
        told, _ = search.communicate(timeout=60)
        self.assertEqual(search.returncode, 1)
        self.assertIn("is not reached; routes of iteration", told)
        self.assertLess(len(self.table("iterations.csv")), 5)
        self.assertEqual(len(self.routes()), 720)

    WORKS = ("--close", "short_0:100-200:600-1800", "--knowing", "0,1")

    def test_ctrl_c_before_works(self):
        """What is left ends with its first iteration: all files are there."""
        search = self.begun(*self.WORKS, until="before, 0: mean trip")
        os.kill(search.pid, signal.SIGINT)
        told, _ = search.communicate(timeout=120)
        self.assertEqual(search.returncode, 1)
        self.assertRegex(told, r"^knowing 0: mean trip .*\nknowing 1: mean trip .*\n$")
        self.assertEqual([row["knowing"] for row in self.table("knowing.csv")], ["", "0", "1"])
        for share in ("0", "1"):
            self.assertEqual(len(self.table("iterations.csv", f"out/knowing-{share}")), 1)
            self.assertEqual(len(self.routes(f"out-{share}")), 720)

    def test_ctrl_c_among_works(self):
        search = self.begun(*self.WORKS, "--iterations", 2, until="knowing 0, 0: mean trip")
        os.kill(search.pid, signal.SIGINT)
        search.communicate(timeout=120)
        self.assertEqual(search.returncode, 1)
        counts = [len(self.table("iterations.csv", f"out/knowing-{share}")) for share in ("0", "1")]
        self.assertLessEqual(counts[0], 2)
        self.assertEqual(counts[1], 1)

    def test_a_signal_among_works_leaves_nothing(self):
        search = self.begun(*self.WORKS, "--iterations", 1, until="knowing 0, 0: mean trip")
        os.kill(search.pid, signal.SIGTERM)
        search.communicate(timeout=60)
        self.assertNotEqual(search.returncode, 0)
        self.assertEqual([path for path in self.folder.iterdir() if path.name.startswith(("out", ".out"))], [])

    def test_a_signal_to_all_its_processes(self):
        """As `timeout` and batch systems send it, here while the check runs wait for the one process: each is
        more than a pipe holds."""
        search = self.begun("--iterations", 0, "--check", "101-130", alone=True)
        time.sleep(0.5)
        os.killpg(search.pid, signal.SIGTERM)
        search.communicate(timeout=120)
        self.assertNotEqual(search.returncode, 0)
        self.assertEqual([path for path in self.folder.iterdir() if path.name.startswith(("out", ".out"))], [])

    def test_a_signal_leaves_nothing(self):
        search = self.begun()
        os.kill(search.pid, signal.SIGTERM)
        search.communicate(timeout=60)
        self.assertNotEqual(search.returncode, 0)
        self.assertEqual([path for path in self.folder.iterdir() if path.name.startswith(("out", ".out"))], [])


class EqualBytes(Commands):
    TRIPS = flow(300, 900)

    def check_equal(self, *words, status=0):
        for jobs in (1, 2, 4):
            self.route("--jobs", jobs, *words, out=f"out{jobs}", status=status)
        self.assertEqual(self.files("out2"), self.files("out1"))
        self.assertEqual(self.files("out4"), self.files("out1"))

    def test_for_any_number_of_jobs(self):
        self.given(lit((15, "G"), (45, "r")), self.TRIPS)
        self.check_equal("--iterations", 3, "--gap", 0.2, "--seeds", "1-2")

    def test_with_works(self):
        self.given(lit((15, "G"), (45, "r")), self.TRIPS)
        self.check_equal(
            "--iterations", 2, "--gap", 1, "--close", "short_0:100-200:200-600", "--knowing", 0.5, "--sign", "in"
        )
        self.assertEqual(len(self.table("knowing.csv", "out1")), 2)

    def test_shares_side_by_side(self):
        self.given(lit((15, "G"), (45, "r")), self.TRIPS)
        self.check_equal("--iterations", 2, "--gap", 1, "--share", 1, "--tried", 3)
        one, other = (json.loads((self.folder / f"{out}/setting.json").read_text()) for out in ("out1", "out4"))
        self.assertEqual((one["tried"], one), (3, other))

    def test_where_roads_give_way(self):
        self.given(*joining(540, 360, 900))
        self.check_equal("--iterations", 2, "--gap", 1)


@needs_simulator
@needs_distributed
class OnACluster(ClusterCase, Commands):
    def test_a_worker_is_killed(self):
        port, workers = self.cluster()
        self.net, self.trips = DATA / "town.net.xml.gz", self.folder / "town.trips.xml"
        self.tool_trips()
        works = ("--close", "13_0:20-140:900-2700", "--close=-13_0:20-140:900-2700", "--knowing", 0.3)
        more = ("--iterations", 1, "--gap", 1, "--until", 4000, *works)
        self.route(*more, out="alone")
        words = self.words(*more, "--cluster", f"127.0.0.1:{port}", out="killed")
        self.kill_worker_during(workers, [TOOLS / "streetsim-route", *words])
        self.assertEqual(self.files("killed"), self.files("alone"))

    def tool_trips(self):
        """A fifth of the town's vehicles as trips, but for those from and to its street 13."""
        with gzip.open(DATA / "town.rou.xml.gz") as file:
            vehicles = list(ElementTree.parse(file).getroot().iter("vehicle"))[::5]
        ends = [(one.get("id"), one.get("depart"), one.find("route").get("edges").split()) for one in vehicles]
        ends = [one for one in ends if {one[2][0], one[2][-1]}.isdisjoint({"13", "-13"})]
        rows = (
            f'<trip id="{name}" depart="{depart}" from="{edges[0]}" to="{edges[-1]}"/>' for name, depart, edges in ends
        )
        self.trips.write_text(f"<routes>{''.join(rows)}</routes>", encoding="utf-8")


if __name__ == "__main__":
    unittest.main()
