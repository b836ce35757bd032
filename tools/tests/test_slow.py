"""A lower limit along works: the edge in parts, the works on two of them, and what it costs those who pass."""
import csv
import unittest
from dataclasses import replace

from support import PROGRAM, Case, lane, needs_simulator, net
from streetsim.base.files import Fault
from streetsim.base.report import Report
from streetsim.control.works_asked import sites_of, works_of
from streetsim.control.works_closures import begun_here
from streetsim.control.works_lowering import limits_of, works_on_parts
from streetsim.control.works_movements import closures_at
from streetsim.model.detectors import E1, E2
from streetsim.model.mapping import Map, MapLink, MapTurn, read_map
from streetsim.sumo.bus_stops import BusStop
from streetsim.sumo.demand import DemandVehicle
from streetsim.sumo.detectors import SumoDetector
from streetsim.sumo.net import NetConnection, NetEdge, NetLane, SumoNet
from streetsim.sumo.slowing import EdgePart, SlowStretch, parts_of, slow_of, with_lower_limits
from streetsim.sumo.stops import Stop


def street(metres=600):
    """Edges z, a and t of two lanes at 50 km/h; a has some metres."""
    ends = (("z", "YA", 500), ("a", "AB", metres), ("t", "BC", 500))
    edges = [(name, *way, [lane(name, at, length) for at in (0, 1)]) for name, way, length in ends]
    return net(edges, [(one, at, other, at, "") for one, other in ("za", "at") for at in (0, 1)])


def net_of(shape=((0, 0), (0, 300), (300, 300))):
    """An edge a of 600 m that turns at its middle, and one t behind it, with a light between."""
    made = SumoNet(junctions={"A": (0, 0), "B": (300, 300), "C": (900, 300)})
    made.edges["a"] = NetEdge("a", "A", "B", 3, [NetLane(at, 13.89, 600.0, list(shape)) for at in (0, 1)])
    made.edges["t"] = NetEdge("t", "B", "C", 3, [NetLane(0, 13.89, 600.0, [(300, 300), (900, 300)])])
    made.connections = [NetConnection("a", "t", 1, 0, "B", 4, "O", 2)]
    made.closed_movements = {("a", "u")}
    return made


class Parts(unittest.TestCase):
    def test_none_before_or_behind_is_short(self):
        names = {(120, 300): "a a.120 a.300", (20, 300): "a a.300", (120, 580): "a a.120", (0, 600): "a"}
        for (begin, end), expected in names.items():
            found = parts_of(SlowStretch("a", begin, end, 30), 600)
            self.assertEqual(" ".join(part.name for part in found), expected)
            self.assertEqual((found[0].begin, found[-1].end, sum(part.slow for part in found)), (0, 600, 1))
        self.assertEqual(parts_of(SlowStretch("a", 20, 300, 30), 600)[0], EdgePart("a", 0, 300, True))

    def test_a_network_in_parts(self):
        made, [one, other] = with_lower_limits(
            net_of(), [DemandVehicle("v", 0, ("a", "t"), ""), DemandVehicle("w", 0, ("t",), "")], ["a:150-450:30"],
            Report(),
        )
        self.assertEqual((one.edges, other.edges), (("a", "a.150", "a.450", "t"), ("t",)))
        self.assertEqual(list(made.edges), ["a", "a.150", "a.450", "t"])
        middle = made.edges["a.150"]
        self.assertEqual((middle.begin, middle.end), ("a.150", "a.450"))
        self.assertEqual(middle.lanes[0].shape, [(0, 150), (0, 300), (150, 300)])
        speeds = [round(edge.lanes[0].speed * 3.6) for edge in made.edges.values()]
        self.assertEqual(speeds, [50, 30, 50, 50])
        self.assertEqual([edge.lanes[0].metres for edge in made.edges.values()], [150, 300, 150, 600])
        ways = [(one.source, one.source_lane, one.target, one.light, one.request) for one in made.connections]
        self.assertEqual(ways[0], ("a.450", 1, "t", "B", 2), "the light is at the last part")
        self.assertEqual(ways[1:], [(*way, None, None) for way in (
            ("a", 0, "a.150"), ("a", 1, "a.150"), ("a.150", 0, "a.450"), ("a.150", 1, "a.450"),
        )])  # fmt: skip
        self.assertEqual((made.junctions["a.150"], made.closed_movements), ((0, 150), {("a.450", "u")}))

    def test_detectors_keep_their_places(self):
        def placed(kind, begin, end=None):
            made = net_of()
            made.detectors = [SumoDetector("here", "d", kind, "a_1", begin, end, 60, False, False)]
            report = Report()
            [one] = with_lower_limits(made, [], ["a:150-450:30"], report)[0].detectors
            return (one.lane, one.begin, one.end), " ".join(report.lines())

        self.assertEqual(placed(E1, 100.0), (("a_1", 100.0, None), ""))
        self.assertEqual(placed(E1, 200.0), (("a.150_1", 50.0, None), ""))
        self.assertEqual(placed(E1, -50.0), (("a.450_1", 100.0, None), ""))
        self.assertEqual(placed(E2, 200.0, 300.0), (("a.150_1", 50.0, 150.0), ""))
        where, told = placed(E2, 200.0, 500.0)
        self.assertEqual(where, ("a.150_1", 50.0, 300.0))
        self.assertIn("detector d reaches beyond a.150_1", told)

    def test_stops_keep_their_places(self):
        """Each lies on the part on which it ends, as far from the edge's begin."""
        stops = {
            BusStop("a_1", 90.0, 110.0): BusStop("a_1", 90.0, 110.0),
            BusStop("a_1", 400.0, 420.0): BusStop("a.150_1", 250.0, 270.0),
            BusStop("a_1", 140.0, 160.0): BusStop("a.150_1", 0.0, 10.0),
            BusStop("a_0", -30.0, None): BusStop("a.450_0", 120.0, 150.0),
            BusStop("t_0", 400.0, 420.0): BusStop("t_0", 400.0, 420.0),
        }
        net = net_of()
        net.bus_stops = {str(at): place for at, place in enumerate(stops)}
        own = tuple(Stop("here", "", place, 20, None) for place in stops)
        driven = [DemandVehicle("v", 0, ("a", "t"), "", stops=own)]
        made, [vehicle] = with_lower_limits(net, driven, ["a:150-450:30"], Report())
        self.assertEqual([one.bus_stop for one in vehicle.stops], list(stops.values()))
        self.assertEqual(list(made.bus_stops.values()), list(stops.values()))

    def test_refused(self):
        for text in ("a", "a:1-2", "a:2-1:30", "a:1-2:x", "a:1-2:4", "a:1-2:131", "a:-1-2:30"):
            with self.assertRaisesRegex(Fault, "expected EDGE:METRES-METRES:KMH, metres that rise and 5 to 130 km/h"):
                slow_of(text)
        for texts, told in (
            (["u:1-200:30"], "30 km/h on u: the import has no edge 'u'"),
            (["a:100-700:30"], "30 km/h on a: the edge ends at 600 m"),
            (["a:600-601:30"], "30 km/h on a: the edge ends at 600 m"),
            (["a:100-300:60"], "60 km/h on a: its limit is 50 km/h, which is lower"),
            (["a:100-300:30", "a:400-500:30"], "30 km/h on a: it has another lower limit"),
        ):
            with self.assertRaisesRegex(Fault, told):
                with_lower_limits(net_of(), [], texts, Report())


def mapped(*metres, turns=(), options=()):
    """Edges a, a.115, .. of two lanes, of some metres."""
    names = ["a", *(f"a.{sum(metres[:at])}" for at in range(1, len(metres)))]
    links = [
        MapLink(name, (0, 1), at, at + 1, round(length / 7.5), 2, float(length), ((0, 0), (length, 0)))
        for at, (name, length) in enumerate(zip(names, metres, strict=True))
    ]
    nodes = [[str(at), 0, 0, 1] for at in range(len(metres) + 1)]
    return Map(nodes, links, list(turns), [], [], dict(options), [])


class Lowered(unittest.TestCase):
    WHOLE = mapped(600)

    def limits(self, *texts, mapping=WHOLE):
        return limits_of([works_of(text, mapping) for text in texts], mapping, 30)

    def test_where_the_limit_begins(self):
        for works, expected in (("a_0:100-300", (115, 300)), ("a_0:0-300", (45, 300)), ("a_1:500-600", (515, 600))):
            [slow] = self.limits(f"{works}:60-900")
            self.assertEqual((slow.begin, slow.end), expected)

    def test_refused(self):
        for texts, told in (
            (["a_0:100-120:60-900"], ": works to 120 m are too short for a limit, which would begin at 115 m"),
            (["a_0:100-200:60-900", "a_1:300-400:60-900"], " has works on several stretches"),
        ):
            with self.assertRaisesRegex(Fault, f"--works-limit 30: edge 'a'{told}"):
                self.limits(*texts)
        known = mapped(600, options={"slow": ["a:100-200:20"]})
        with self.assertRaisesRegex(Fault, r"--works-limit 30: edge 'a' has another lower limit since its import"):
            self.limits("a_0:300-400:60-900", mapping=known)

    def test_works_on_two_parts(self):
        """They are seen where they begin; on the next part they go on, and a cell stays open."""
        turns = [MapTurn(link, at, link + 1, at, None, 0, False) for link in (0, 1) for at in (0, 1)]
        mapping = mapped(120, 180, 300, turns=turns)
        works = [works_of("a_0:105-300:60-900", self.WHOLE)]
        found = sites_of(works_on_parts(works, [SlowStretch("a", 120, 300, 30)], self.WHOLE), mapping)
        self.assertEqual([(site.link, site.lane, site.cells) for site in found], [(0, 0, (14, 15)), (1, 0, (1, 23))])
        closures = closures_at(found)
        [begun] = begun_here(closures, mapping)
        self.assertEqual((begun.link, begun.metres(mapping)), (0, (105, 300)))
        self.assertEqual(begun_here(closures[1:], mapping), closures[1:])
        others = [replace(closures[0], end=800), closures[1]]
        self.assertEqual(begun_here(others, mapping), others, "at other times it is a place of its own")


@needs_simulator
class Runs(Case):
    def setUp(self):
        super().setUp()
        self.write("x.net.xml", street())
        each = 'begin="0" end="1800" vehsPerHour="120"'
        self.write("x.rou.xml", f'<routes><flow id="f" {each}><route edges="z a t"/></flow></routes>')
        self.imported()

    def imported(self, *words):
        files = [self.folder / "x.net.xml", "--routes", self.folder / "x.rou.xml"]
        self.tool("import", *files, *words, "-o", self.folder / "run.jsonl", "--map", self.folder / "map.json")

    def mean(self, *words):
        """The mean trip, what is said before the run, and the rows of its works."""
        files = [self.folder / "run.jsonl", "--map", self.folder / "map.json", "--out", self.folder / "out"]
        _, told = self.tool("run", *files, "--until", 2400, "--every", 0, "--program", PROGRAM, *words)
        with open(self.folder / "out/trips.csv", encoding="utf-8") as file:
            trips = [int(row["duration"]) for row in csv.DictReader(file)]
        works = self.folder / "out/works.csv"
        with open(works if works.exists() else self.folder / "out/trips.csv", encoding="utf-8") as file:
            return sum(trips) / len(trips), told, list(csv.DictReader(file))

    def test_along_works(self):
        """285 m at 30 km/h in the place of 50 take 285 * (3.6 / 30 - 3.6 / 50) = 13.7 s more."""
        works = ("--close", "a_0:100-400:0-2400")
        as_it_is, _, _ = self.mean(*works)
        slower, told, rows = self.mean(*works, "--works-limit", 30)
        self.assertAlmostEqual(slower - as_it_is, 13.7, delta=2)
        self.assertIn("edge a: 30 km/h from 115 to 400 m for the whole run, as a limit cannot change in a run; ", told)
        self.assertEqual({(row["edge"], row["lane"]) for row in rows}, {("a", "0")})

    def test_parts_alone_cost_nothing(self):
        before = self.mean()[0]
        self.imported("--slow", "a:100-400:50")
        self.assertEqual(read_map(self.folder / "map.json").links_of.keys(), {"z", "a", "a.100", "a.400", "t"})
        self.assertAlmostEqual(self.mean()[0], before, delta=1)
        told = self.tool("import", self.folder / "x.net.xml", "--slow", "a:1-2", "-o", "x", "--map", "y", status=2)[1]
        self.assertEqual(told.count("\n"), 1, told)


if __name__ == "__main__":
    unittest.main()
