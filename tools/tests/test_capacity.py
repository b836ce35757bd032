"""Vehicles that leave in each green of a lone cross, beside SUMO 1.15 on the same demand; who gives way to whom."""
import unittest
import xml.etree.ElementTree as ElementTree
from types import SimpleNamespace
from unittest import mock

from crosses import LAST, a_green, cases, demand
from support import DATA, PROGRAM, Case, lane, needs_simulator, net
from streetsim.base import limits
from streetsim.base.report import Report
from streetsim.model.folder import read_folder
from streetsim.report.beside_sumo import trip_times_of
from streetsim.sumo.across import may_turn_on_red
from streetsim.sumo.crossing import CrossingMovement, wait_together
from streetsim.sumo.driving import driving_of
from streetsim.sumo.full import full_at_light
from streetsim.sumo.gaps import gap_capacity, until_first
from streetsim.sumo.greens import green_here, hidden_middle, hidden_start, passing_here, vehicles_leaving
from streetsim.sumo.import_files import convert
from streetsim.sumo.lane_capacity import capacity, passing_alone, weights_of_waiting
from streetsim.sumo.net import NetConnection, NetEdge, SumoNet, request_of, wait_inside
from streetsim.sumo.network import Options
from streetsim.sumo.paces import Drivers
from streetsim.sumo.way_minor import Minor

# SUMO's vehicles a green by case and way, of the demand with seed 1; a tenth or 0.6 of a vehicle off is allowed.
SUMO = {
    "straight, nobody against": {"straight": 21.1},
    "right, nobody against": {"right": 16.4},
    "left, nobody against": {"left": 16.6},
    "left against 200": {"left": 10.7},
    "left against 600": {"left": 4.0},
    "left against 800": {"left": 1.3},
    "10 % left against 600": {"straight": 11.6, "left": 1.3},
    "30 % left against 600": {"straight": 4.9, "left": 2.3},
    "60 % left on both sides": {"straight": 4.8, "left": 6.9},
    "turn lane, straight alone": {"straight": 19.9},
    "turn lane, 20 % left against 300": {"straight": 21.4, "left": 8.8},
}
# Where more than a tenth, or 0.6 vehicles, is allowed: few gaps, which here are of whole seconds.
FURTHER = {"left against 600": 0.16}


@needs_simulator
class Cross(Case):
    def passing(self, network, flows):
        run, mapped, out = self.folder / "run.jsonl", self.folder / "map.json", self.folder / "out"
        routes = self.write("x.rou.xml", demand(flows))
        self.tool("import", DATA / f"{network}.net.xml.gz", "--routes", routes, "-o", run, "--map", mapped)
        words = ["--until", LAST, "--every", 900, "--rescue", 0, "--out", out, "--program", PROGRAM]
        self.tool("run", run, "--map", mapped, *words)
        return a_green(trip_times_of(read_folder(out)))

    def test_vehicles_a_green(self):
        for name, network, flows in cases():
            if name in SUMO:
                with self.subTest(name):
                    passing = self.passing(network, flows)
                    for way, expected in SUMO[name].items():
                        delta = max(0.6, FURTHER.get(name, 0.1) * expected)
                        self.assertAlmostEqual(passing[way], expected, delta=delta, msg=way)


class Formulas(unittest.TestCase):
    def test_gaps(self):
        # By the Highway Capacity Manual's formula with 4.5 and 2.5 s: 400 e^-0.5 / (1 - e^-0.2778) = 1000.3 an hour;
        # 1,000 e^-1.25 / (1 - e^-0.6944) = 572.3; without traffic one each 2.5 s.
        self.assertAlmostEqual(gap_capacity(400), 1000.3, delta=0.5)
        self.assertAlmostEqual(gap_capacity(1000), 572.3, delta=0.5)
        self.assertAlmostEqual(gap_capacity(0.001), 1440, delta=1)
        # Also of flows that are no more than a rounding error.
        for flow in (1e-9, 1e-14, 1e-300):
            self.assertAlmostEqual(gap_capacity(flow), 1440, delta=0.01)
        self.assertEqual(gap_capacity(0), float("inf"))

    def test_starts(self):
        # SUMO's vehicles a green at the lone cross, straight on and to the right (6.5 m/s), by seconds of green.
        straight = {9: 4.0, 12: 5.5, 20: 10.0, 42: 21.1, 60: 30.2}
        right = {9: 3.7, 12: 4.9, 20: 7.9, 42: 16.4, 60: 23.2}
        for speed, measured in ((13.89, straight), (6.5, right)):
            for seconds, vehicles in measured.items():
                self.assertAlmostEqual(vehicles_leaving(seconds, speed), vehicles, delta=0.4)
                first, after = hidden_middle(seconds, speed, 2)
                whole, parts = passing_here(seconds, 2), passing_here(first, 2) + passing_here(seconds - after, 2)
                self.assertAlmostEqual(parts if after > first else whole, vehicles_leaving(seconds, speed), delta=0.6)
                shown = min(seconds, green_here(vehicles_leaving(seconds, speed), 2))
                self.assertEqual(seconds - hidden_start(seconds, speed, 2), shown)
        self.assertEqual([hidden_start(1, 13.89, 2), hidden_start(0, 13.89, 2)], [0, 0])
        for seconds, left_out in {0: (0, 0), 1: (0, 0), 8: (0, 2), 42: (21, 21)}.items():
            self.assertEqual(hidden_middle(seconds, 13.89, 2), left_out)

    def test_queues_by_sigma(self):
        """SUMO's vehicles of a full lane in 12 and 42 s of green, straight on at 50 km/h."""
        for sigma, passed in {0.0: (7.0, 24.7), 0.3: (6.0, 22.9), 0.8: (4.4, 17.9), 1.0: (3.7, 15.5)}.items():
            element = ElementTree.fromstring(f'<vType id="t" sigma="{sigma}"/>')
            drivers = Drivers({driving_of("x.rou.xml", element, 2.6, "passenger"): 1})
            for seconds, vehicles in zip((12, 42), passed, strict=True):
                own = vehicles_leaving(seconds, 13.89, drivers.accel, drivers.apart)
                self.assertAlmostEqual(own, vehicles, delta=0.9, msg=sigma)

    def test_requests_of_inner_lanes(self):
        # The lanes of one inner edge follow each other: ":c_13_1" is the connection after ":c_13_0".
        self.assertEqual([request_of(name) for name in (":c_9_0", ":c_13_1", ":a_b_2_0")], [9, 14, 2])
        self.assertEqual([request_of(name) for name in ("", "x", ":c_1")], [None, None, None])
        # Lanes of crossings and of places to walk have no request of vehicles.
        self.assertEqual([request_of(name) for name in (":c_c0_0", ":c_w1_0")], [None, None])

    def test_who_turns_on_red(self):
        """The connection whose letter is SUMO's s in some phase: goes after a stop."""
        net_ = SumoNet(programs={"L": SimpleNamespace(phases=[(30, "Grs"), (30, "rGr")])})
        found = [may_turn_on_red(NetConnection("a", "b", 0, 0, "L", at, "m"), net_) for at in range(3)]
        self.assertEqual(found, [False, False, True])
        self.assertFalse(may_turn_on_red(NetConnection("a", "b", 0, 0, None, 2, "m"), net_))

    def test_who_turns_into_one_street_waits_inside(self):
        """At a cross the left turn from the south and the right turn from the north lead to the west; in SUMO one waits
        for the other inside. Not where one gives way already, at no light, or into another street."""

        def waiting(foe="north", direction="r", target="west", light="L", yields=()):
            left = NetConnection("south", "west", 0, 0, "L", 0, "M", 3, direction="l")
            right = NetConnection(foe, target, 0, 0, light, 1, "M", 5, direction=direction)
            made = SumoNet(connections=[left, right], yields={"c": {3: {*yields}}}, waits_inside={"c": {3: {5}}})
            made.edges = {name: NetEdge(name, "", "c", 1, []) for name in ("north", "south")}
            wait_inside(made)
            return made.yields["c"][3]

        self.assertEqual(waiting(), {5})
        for more in ({"foe": "south"}, {"direction": "s"}, {"target": "east"}, {"light": None}):
            self.assertEqual(waiting(**more), set(), more)
        self.assertEqual(waiting(yields=[7]), {5, 7})


# The lanes to which ways lead.
TARGETS = {("w", "on"): ("e", 0), ("w", "left"): ("n", 0), ("e", "on"): ("w", 0), ("e", "left"): ("s", 0)}


class LaneCapacity(unittest.TestCase):
    """A cross of one lane an arm, 42 s of 90 green, each vehicle of a queue 2 s."""

    def movement(self, way, lane, flow, runs=()):
        green = (1 << 42) - 1
        runs = {start: 42 for start in runs}
        return CrossingMovement(way, lane, TARGETS[way], 90, 0 if runs else green, green, [(0, 48)], flow, 2.0, runs)

    def lanes(self, *flows):
        """Straight on and left from the west, and from the east, by vehicles an hour."""
        west, left, east, other = (
            self.movement((arm, way), (arm, 0), flow, [0] * (way == "left"))
            for (arm, way), flow in zip((("w", "on"), ("w", "left"), ("e", "on"), ("e", "left")), flows, strict=True)
        )
        for one, foe in ((left, east), (other, west)):
            one.foes = [foe] if foe.flow else []
        return west, left, east, other

    def test_a_lane_that_never_has_green_is_full(self):
        """As one of a network that sumo-tools ships: 30 an hour wish to pass, and nobody can; one is counted."""
        shut = self.movement(("w", "on"), ("w", 0), 30)
        shut.green = shut.sure = 0
        ((full_lane, _),) = full_at_light("c", [shut], {shut.pair: "s"})
        self.assertEqual((full_lane.junction, full_lane.demand), ("c", 30.0))

    def test_wait_without_a_light(self):
        """For a gap of 6.5 s by Adams' formula; nobody waits where nobody comes, and none for minutes."""
        # (e^1.0833 - 1) * 6 - 6.5 and (e^0.65 - 1) * 10 - 6.5 seconds.
        minor, gap = Minor.__new__(Minor), SimpleNamespace(seconds_needed=lambda *_: 6.5)
        minor.foes = {7: [(1, gap), (2, gap)]}
        for flows, wait in (((600, 0), 5.227), ((180, 180), 2.655), ((0, 0), 0), ((3600, 3600), 150)):
            self.assertAlmostEqual(minor.wait(7, [None, *flows].__getitem__), wait, places=3)
        self.assertEqual(minor.wait(8, None), 0)

    def test_until_the_first_that_waits(self):
        # Of three with a share of a half: 1/2 + 1/4 + 1/8.
        self.assertEqual([until_first(3, 0.5), until_first(0, 0.5), until_first(5, 1.0)], [0.875, 0, 0])

    def test_lefts_alone(self):
        # The queue of 360 leaves in 2 + 48 * 0.2 / 0.8 = 14 s. 28 s are left, in which 360 e^-0.45 / (1 - e^-0.25)
        # = 1,037.7 an hour find a gap, 8.071; and one goes at the end.
        _, left, *_ = self.lanes(80, 20, 360, 0)
        self.assertAlmostEqual(passing_alone(left), 9.071, places=3)
        _, left, *_ = self.lanes(80, 20, 0, 0)
        self.assertEqual((passing_alone(left), left.waits), (21.0, False))  # 42 s of 2 s each
        _, left, *_ = self.lanes(80, 20, 1700, 0)
        self.assertEqual(passing_alone(left), 1.0)  # the queue takes all of the green

    def test_a_shared_lane(self):
        # Of five four go straight on, 21 in a cycle, one turns left, 9.071: 1 / (0.8 / 21 + 0.2 / 9.071) = 16.627
        # in a cycle, 665.1 an hour. Nobody waits: 21 in a cycle, 840.
        west, left, *_ = self.lanes(80, 20, 360, 0)
        self.assertAlmostEqual(capacity([west, left], 100), 665.1, delta=0.1)
        self.assertAlmostEqual(capacity([west], 80), 840)
        self.assertAlmostEqual(weights_of_waiting([west, left])["w", "left"], 21 / 9.071, places=3)

    def test_lanes_that_go_apart_hold_each_other(self):
        # Half of them have green for half of the time: (1 - 1/2)(1 - 1/2^10.5) / (1/2) pass before one of the others.
        west, left, *_ = self.lanes(50, 50, 0, 0)
        left.green, left.sure, left.runs = (1 << 21) - 1, (1 << 21) - 1, {}
        self.assertAlmostEqual(capacity([west, left], 100), (10.5 + 1 - 2 ** -10.5) * 40, delta=0.1)

    def test_who_waits_together(self):
        # By request: straight on and left from the west, and from the east. Both left turns give way to the straight
        # ones, and by the bits one also to the other.
        found = dict(enumerate(self.lanes(100, 100, 100, 100)))
        yields = {1: [2, 3], 3: [0]}
        self.assertTrue(wait_together(1, 3, found, yields))
        self.assertFalse(wait_together(1, 2, found, yields))  # who goes straight on waits for nobody
        self.assertFalse(wait_together(1, 3, found, {1: [3], 3: [0]}))  # for nobody else of the other's street


class Shown(Case):
    def greens(self, network, flows, **options):
        """The seconds of green of each way from the west in a cycle, by {way: seconds}."""
        net, routes = str(DATA / f"{network}.net.xml.gz"), [self.write("x.rou.xml", demand(flows))] if flows else []
        made, _, commands, _ = convert(net, [], routes, Options(**options), Report())
        [command] = [one for one in commands if one["cmd"] == "signal"]
        seconds = {}
        for duration, greens in command["phases"]:
            ways = {made.links[following].edge for link, _, following in greens if made.links[link].edge == "wc"}
            for way in ways:
                seconds[way] = seconds.get(way, 0) + duration
        return seconds

    def test_permissive_greens_are_whole(self):
        """Whatever the demand: runs close them where no gap is."""
        for flows in (None, *({("w", "left"): 300, ("e", "straight"): hourly} for hourly in (0, 600, 1200))):
            self.assertEqual(self.greens("cross1", flows)["cn"], 42)

    def test_share_of_a_surveyed_approach(self):
        """A quarter of 42 s where it is said, also with routes."""
        flows = {("w", "left"): 300, ("e", "straight"): 600}
        for demand_flows in (None, flows):
            self.assertEqual(self.greens("cross1", demand_flows, shares=(("wc", 0.25),))["cn"], 42 - round(42 * 0.75))

    def test_arrow_after_a_permissive_green(self):
        # Nine seconds of arrow are shown whole, as the gaps before them hold no queue back.
        self.assertGreaterEqual(self.greens("cross3", {("w", "left"): 300, ("e", "straight"): 1200})["cn"], 9)


class Lanes(Case):
    def links(self, connections, edges, flows=()):
        """The lanes of the links of edge a, which has so many lanes as are connected."""
        count = 1 + max(lane for lane, _ in connections)
        text = net(
            [("a", "A", "B", [lane("a", at) for at in range(count)])]
            + [(one, "B", one, [lane(one, 0)]) for one in edges],
            [("a", source, target, 0, "") for source, target in connections],
        )
        routes = "".join(
            f'<vehicle id="{target}" depart="0"><route edges="a {target}"/></vehicle>' for target in flows
        )
        paths = self.write("x.net.xml", text), self.write("x.rou.xml", f"<routes>{routes}</routes>")
        network, *_ = convert(paths[0], [], [paths[1]], Options(), Report())
        return [link.lanes for link in network.links if link.edge == "a"]

    def test_lanes_that_lead_apart_are_links_of_their_own(self):
        straight_and_left = [(0, "b"), (1, "c")]
        self.assertEqual(self.links(straight_and_left, "bc"), [(0,), (1,)])
        self.assertEqual(self.links(straight_and_left, "bc", "b"), [(0,), (1,)])
        self.assertEqual(self.links([(0, "b"), (1, "b"), (1, "c")], "bc", "bc"), [(0, 1)])

    def test_only_ways_that_routes_take_count(self):
        # Both lanes lead to b, and nobody goes there.
        both = [(0, "b"), (0, "c"), (1, "b"), (1, "d")]
        self.assertEqual(self.links(both, "bcd", "bcd"), [(0, 1)])
        self.assertEqual(self.links(both, "bcd", "cd"), [(0,), (1,)])

    def test_as_few_links_as_may_be(self):
        four = [(0, "b"), (1, "c"), (2, "c"), (3, "d")]
        self.assertEqual(self.links(four, "bcd", "bcd"), [(0,), (1, 2), (3,)])
        self.assertEqual(self.links([(at, "b") for at in range(5)], "b", "b"), [(0, 1), (2, 3), (4,)])

    def test_turn_lanes_are_joined_where_links_would_be_too_many(self):
        # 1,365 edges with two lanes that lead apart, to two edges each: 4,095 edges, and 5,460 links with turn lanes.
        edges, turns = [], []
        for at in range(1365):
            edges.append((f"a{at}", "A", f"B{at}", [lane(f"a{at}", 0), lane(f"a{at}", 1)]))
            edges += [(f"{to}{at}", f"B{at}", "C", [lane(f"{to}{at}", 0)]) for to in "bc"]
            turns += [(f"a{at}", index, f"{to}{at}", 0, "") for index, to in enumerate("bc")]
        report = Report()
        network, *_ = convert(self.write("x.net.xml", net(edges, turns)), [], [], Options(), report)
        self.assertEqual((len(network.links), list(network.over_limits())), (4095, []))
        for most, told in ((4095, []), (4094, ["4,095 links, at most 4,094"])):
            with mock.patch.object(limits, "LINKS", most):
                self.assertEqual(list(network.over_limits()), told)
        self.assertIn("turn lanes are joined with the lanes beside them", report.warnings[0])


if __name__ == "__main__":
    unittest.main()
