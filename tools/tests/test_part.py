"""A part of a network: which edges it has, who drives there, when and under which name, and the doors that take it."""
import json
import subprocess
import unittest
from itertools import pairwise

from support import TOOLS, Case, lane, net
from streetsim.base.files import Fault
from streetsim.base.report import Report
from streetsim.model.detectors import E1
from streetsim.sumo.bus_stops import BusStop
from streetsim.sumo.demand import DemandVehicle
from streetsim.sumo.detectors import SumoDetector
from streetsim.sumo.net import LightProgram, NetConnection, NetEdge, NetLane, SumoNet
from streetsim.sumo.network import Options
from streetsim.sumo.part import part_edges, with_part
from streetsim.sumo.stops import Stop

METRES, SPEED = 400.0, 10.0  # of each edge of the street
# 400 m at 10 m/s; in whole cells a step and with some dawdling a few seconds more or less.
LEAST_SECONDS, MOST_SECONDS = 30, 50
USUAL = Options(part=("b", "c"))


def street():
    """Edges a to e in a row, from junction 0 to 5, a light with 45 of 90 s of green behind d."""
    made = SumoNet(junctions={str(at): (at * METRES, 0.0) for at in range(6)})
    for at, name in enumerate("abcde"):
        shape = [(at * METRES, 0.0), ((at + 1) * METRES, 0.0)]
        made.edges[name] = NetEdge(name, str(at), str(at + 1), 1, [NetLane(0, SPEED, METRES, shape)])
    lit = {"d": "L"}
    made.connections = [NetConnection(*pair, 0, 0, lit.get(pair[0]), 0, "M", 0) for pair in pairwise("abcde")]
    made.programs = {"L": LightProgram(0.0, [(45.0, "G"), (45.0, "r")], "static", [(None, None)] * 2, [(), ()])}
    return made


def vehicle(name, edges, depart=100.0, **more):
    return DemandVehicle(name, depart, tuple(edges), "", **more)


class Edges(unittest.TestCase):
    def test_a_box_takes_what_begins_or_ends_in_it(self):
        self.assertEqual(part_edges(street(), ("700", "-1", "1300", "1")), {"b", "c", "d"})
        self.assertEqual(part_edges(street(), ("1300.0", "1", "700", "-1")), {"b", "c", "d"})

    def test_edges_are_taken_by_name_alone(self):
        self.assertEqual(part_edges(street(), ("d", "b")), {"b", "d"})

    def test_what_is_no_part(self):
        numbers = street()
        numbers.edges |= {str(at): numbers.edges["a"] for at in range(1, 5)}
        for network, names, words in (
            (street(), ("b", "z"), "the import has no edge 'z'"),
            (street(), ("1", "2", "3", "4"), "no street has a junction in x 1 to 3, y 2 to 4; all have x 0 to 2000"),
            (numbers, ("1", "2", "3", "4"), "four edges, or a box"),
        ):
            with self.assertRaisesRegex(Fault, words):
                part_edges(network, names)


class Vehicles(unittest.TestCase):
    def part(self, *vehicles, options=USUAL, network=None):
        self.report = Report()
        return with_part(network or street(), vehicles, options, self.report)[1]

    def test_who_stays_inside_is_as_in_the_whole(self):
        own = vehicle("v", "bc", route="r", further_attributes=(("departSpeed", "3"),))
        self.assertEqual(self.part(own), [own])

    def test_who_comes_from_outside_comes_as_without_traffic(self):
        """And at its speed: one edge later by the seconds of that edge, two edges by twice as many."""
        one, two = self.part(vehicle("v", "abcd")), self.part(vehicle("v", "abcd"), options=Options(part=("c",)))
        for found, edges, count in ((one, "bc", 1), (two, "c", 2)):
            (cut,) = found
            self.assertEqual((cut.name, "".join(cut.edges)), ("v#1", edges))
            self.assertEqual(cut.further_attributes, (("departSpeed", "max"),))
            self.assertTrue(count * LEAST_SECONDS <= cut.depart - 100 <= count * MOST_SECONDS, cut.depart)

    def test_the_wait_at_a_light_counts(self):
        """In the mean of a cycle one waits half of 45 s of red, half of the time: 11.25 s."""
        (before,) = self.part(vehicle("v", "de"), options=Options(part=("e",)))
        (plain,) = self.part(vehicle("v", "cd"), options=Options(part=("d",)))
        self.assertAlmostEqual(before.depart - plain.depart, 11.25, delta=1.5)

    def test_who_begins_inside_keeps_its_departure(self):
        (cut,) = self.part(vehicle("v", "cde"))
        self.assertEqual((cut.name, cut.depart, cut.edges, cut.further_attributes), ("v#1", 100.0, ("c",), ()))

    def test_who_comes_back_is_two(self):
        first, second = self.part(vehicle("v", "bcdebc"))
        self.assertEqual((first.name, first.edges, second.name, second.edges), ("v#1", ("b", "c"), "v#2", ("b", "c")))
        self.assertGreater(second.depart - first.depart, 4 * LEAST_SECONDS)

    def test_who_does_not_come_is_left_out_and_all_is_told(self):
        found = self.part(vehicle("away", "de"), vehicle("in", "bc"), vehicle("by", "ab"))
        self.assertEqual([one.name for one in found], ["in", "by#1"])
        told = "a part of the network: 2 of 5 edges; 1 vehicles stay inside, 1 are cut to their 1 stays there"
        self.assertIn(told, self.report.warnings[0])
        self.assertIn("1 do not drive there", self.report.warnings[0])

    def test_they_are_in_order_of_departure(self):
        found = self.part(vehicle("far", "ab", 100.0), vehicle("near", "b", 110.0))
        self.assertEqual([one.name for one in found], ["near", "far#1"])

    def test_stops(self):
        """One before the part makes who comes later; one in it stays; one behind it does not count."""
        stops = [Stop("", "", BusStop(f"{edge}_0", 10, 20), seconds, None) for edge, seconds in zip("abd", (60, 7, 9))]
        (plain,), (stopping,) = self.part(vehicle("v", "abcd")), self.part(vehicle("v", "abcd", stops=tuple(stops)))
        self.assertEqual((stopping.depart - plain.depart, stopping.stops), (60, (stops[1],)))

    def test_who_would_not_drive_at_all_does_not_drive_here(self):
        network = street()
        network.dropped = {"x"}
        self.assertEqual(self.part(vehicle("v", "abx"), network=network), [])
        self.assertEqual(self.part(vehicle("v", "abc", 5.0), options=Options(part=("b",), begin=10)), [])
        self.assertEqual(sum(self.report.skipped.values()), 1)

    def test_names_that_are_taken(self):
        with self.assertRaisesRegex(Fault, "two vehicles are named 'v#1'"):
            self.part(vehicle("v", "abc"), vehicle("v#1", "bc"))

    def test_lights_and_detectors_outside(self):
        network = street()
        network.detectors = [SumoDetector("here", edge, E1, f"{edge}_0", 10.0, None, 60, False, False) for edge in "ab"]
        made, _ = with_part(network, [], USUAL, report := Report())
        self.assertEqual((list(made.edges), made.programs, len(made.connections)), (["b", "c"], {}, 1))
        self.assertEqual([one.name for one in made.detectors], ["b"])
        self.assertIn("1 detectors are not in the part", report.warnings)


class Doors(Case):
    """Streets a to d in a row, and those who drive along them."""

    def setUp(self):
        super().setUp()
        edges = [(name, str(at), str(at + 1), [lane(name, 0, METRES, SPEED)]) for at, name in enumerate("abcd")]
        turns = [(edge, 0, following, 0, "") for edge, following in pairwise("abcd")]
        self.net = self.write("x.net.xml", net(edges, turns))
        ways = ("a b c d", "b c", "d")
        rows = [f'<vehicle id="v{at}" depart="{at}"><route edges="{way}"/></vehicle>' for at, way in enumerate(ways)]
        self.routes = self.write("r.rou.xml", f"<routes>{''.join(rows)}</routes>")
        self.run_file = str(self.folder / "x.jsonl")

    def imported(self, *words, status=0):
        return self.tool("import", self.net, "--routes", self.routes, "-o", self.run_file, *words, status=status)[1]

    def mapping(self):
        return json.loads((self.folder / "x.map.json").read_text(encoding="utf-8"))

    def test_all_edges_are_the_whole(self):
        self.imported()
        whole, mapping = (self.folder / "x.jsonl").read_bytes(), self.mapping()
        self.assertNotIn("part", mapping["options"])
        told = self.imported("--part", "a,b,c,d")
        self.assertIn("4 of 4 edges; 3 vehicles stay inside", told)
        self.assertEqual((self.folder / "x.jsonl").read_bytes(), whole)

    def test_the_map_keeps_the_part(self):
        self.assertIn("2 of 4 edges; 1 vehicles stay inside, 1 are cut", self.imported("--part", "b,c"))
        mapping = self.mapping()
        self.assertEqual((mapping["cars"], mapping["options"]["part"]), (["v1", "v0#1"], ["b", "c"]))
        told = self.tool("route", self.net, "--trips", self.routes, "--part", "b", "-o", "z.xml", status=2)[1]
        self.assertIn("--part", told)

    def test_open_hands_it_on(self):
        words = [TOOLS / "streetsim-open", self.net, self.routes, "--part", "b,c", "--no-open", "--program", "none"]
        done = subprocess.run(words, cwd=self.folder, capture_output=True, text=True, check=False)
        self.assertEqual(done.returncode, 2)
        self.assertIn("--part=b,c", done.stdout)
        self.imported()
        told = self.tool("open", self.run_file, "--part", "b", status=2)[1]
        self.assertIn("--part is of a network", told)

    def test_a_network_that_is_too_large_names_it(self):
        edges = [(f"e{at}", "A", "B", [lane(f"e{at}", 0)]) for at in range(4097)]
        large = self.write("large.net.xml", net(edges, []))
        told = self.tool("import", large, "-o", self.folder / "large.jsonl", status=2)[1]
        self.assertIn("4,097 links, at most 4,096", told)
        self.assertIn("streetsim-import --part", told)
        self.tool("import", large, "-o", self.folder / "large.jsonl", "--part", "e1,e2")


if __name__ == "__main__":
    unittest.main()
