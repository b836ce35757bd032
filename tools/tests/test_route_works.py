"""streetsim-route with road works: who knows of them, where the others turn off, and what is written."""
import csv
import importlib.util
import json
import unittest
from dataclasses import replace
from types import SimpleNamespace

from support import DATA, PROGRAM, Case, lane, needs_package, needs_simulator, net
from test_route import Commands, flow, lit, two_ways
from streetsim.base.files import Fault
from streetsim.base.report import Report
from streetsim.control.works_movements import in_common
from streetsim.model.mapping import MapLink, read_map
from streetsim.search.route_closing import Closing, knows_of_works, turn_off
from streetsim.search.route_diverting import check_works, why_within_gap
from streetsim.search.route_drawing import scale_of_counts
from streetsim.search.route_loading import read_town
from streetsim.search.route_underway import Diversion, PlannedVehicle, WaysRound, impassable_edges, turning_to
from streetsim.sumo.network import Options
from streetsim.sumo.trips import Trip
from streetsim.sumo.way_costs import flat_costs
from streetsim.sumo.way_graph import Graph
from streetsim.sumo.way_unloaded import map_without_routes

# From p to z over q, r and x; q also leads to w and z, and p to y and z.
GRAPH = Graph(
    "pqrxwyz",
    [("p", "q"), ("q", "r"), ("r", "x"), ("x", "z"), ("q", "w"), ("w", "z"), ("p", "y"), ("y", "z")],
    {name: (name, name + "'") for name in "pqrxwyz"},
)
FREE = [10.0] * len(GRAPH.movements)
X = GRAPH.number["x"]


ONE = '<vehicle id="v" depart="0"><route edges="in long out"/></vehicle>'


def numbers(names):
    return tuple(map(GRAPH.number.get, names))


class TurningOff(unittest.TestCase):
    def turned(self, entry=0.0, names="pqrxz", signs="", shut=(0, 1000), seconds=FREE):
        path, costs = numbers(names), flat_costs(GRAPH, seconds)
        trip = Trip("t", entry, path[0], path[-1], "", path, entry)
        closing = Closing({X: [shut]}, frozenset(numbers(signs)), FREE)
        self.assertEqual(turn_off([trip], closing, GRAPH, costs, True), trip.path != path)
        self.assertEqual(turn_off([trip], closing, GRAPH, costs, True), 0)
        return trip.path

    def test_at_the_last_crossing(self):
        self.assertEqual(self.turned(), numbers("pqwz"))

    def test_at_a_sign(self):
        self.assertEqual(self.turned(signs="p"), numbers("pyz"))

    def test_those_alone_who_come_meanwhile(self):
        # x is reached after 30 s.
        self.assertEqual(self.turned(shut=(31, 1000)), numbers("pqrxz"))
        self.assertEqual(self.turned(entry=970.0), numbers("pqrxz"))
        self.assertEqual(self.turned(entry=969.0), numbers("pqwz"))

    def test_who_comes_while_it_is_shut_for_it_is_late(self):
        """Without traffic x is reached after 30 s, and from q to r it takes 10 s more."""
        seconds = [20.0 if movement == numbers("qr") else 10.0 for movement in GRAPH.movements]
        self.assertEqual(self.turned(shut=(31, 1000), seconds=seconds), numbers("pqwz"))

    def test_a_movement_that_is_barred(self):
        """From r one turns to x alone, and from q to w as well."""
        for way, expected in (("rx", "pqwz"), ("qr", "pqwz"), ("pq", "pyz")):
            path = numbers("pqrxz")
            trip = Trip("t", 0.0, path[0], path[-1], "", path, 0.0)
            closing = Closing({numbers(way): [(0, 1000)]}, frozenset(), FREE)
            self.assertEqual(turn_off([trip], closing, GRAPH, flat_costs(GRAPH, FREE), True), 1)
            self.assertEqual(trip.path, numbers(expected))
        trip = Trip("t", 0.0, numbers("r")[0], X, "", numbers("rx"), 0.0)
        closing = Closing({numbers("rx"): [(0, 1000)]}, frozenset(), FREE)
        with self.assertRaisesRegex(Fault, "'t' has no way but to turn from edge 'r' to 'x', whose lane is closed"):
            turn_off([trip], closing, GRAPH, flat_costs(GRAPH, FREE), True)

    def test_no_way_round(self):
        for names, told in (
            ("pqrx", "'t' ends on edge 'x' while it is closed"),
            ("xz", "begins on edge 'x'"),
            ("rxz", "has no way round edge 'x'"),
        ):
            with self.assertRaisesRegex(Fault, told):
                self.turned(names=names)

    def test_all_keep_their_ways_where_one_has_none(self):
        paths = [numbers(names) for names in ("pqrxz", "rxz")]
        trips = [Trip(str(path), 0.0, path[0], path[-1], "", path, 0.0) for path in paths]
        closing = Closing({X: [(0, 1000)]}, frozenset(), FREE)
        self.assertRaises(Fault, turn_off, trips, closing, GRAPH, flat_costs(GRAPH, FREE), True)
        self.assertEqual([trip.path for trip in trips], paths)

    def test_times_in_common(self):
        self.assertEqual(list(in_common([[(0, 10), (20, 30)], [(5, 25)]])), [(5, 10), (20, 25)])

    def test_who_knows_does_so_with_each_greater_share(self):
        names = list(map(str, range(1000)))
        some, more = ({name for name in names if knows_of_works(name, share, 1)} for share in (0.3, 0.6))
        self.assertLess(some, more)
        self.assertTrue(250 < len(some) < 350 and 550 < len(more) < 650, (len(some), len(more)))


class Bases(unittest.TestCase):
    def test_the_runs_without_works_have_the_same_joint_lanes(self):
        """Lanes of a grid are links of their own; works on one of them join it to the other, in the runs with works and
        in those without."""
        town = read_town(str(DATA / "grid.net.xml.gz"), [], Options(), Report())

        def lanes():
            """By link of a street its lanes, in a run without works."""
            mapping = map_without_routes(town.net, town.own_options())
            return [tuple(mapping.links[link].lanes) for link in mapping.links_of["A0B0"]]

        self.assertEqual(lanes(), [(0,), (1,)])
        town.joint = check_works(["A0B0_0:20-40:0-600"], (), (), town, 900)
        self.assertEqual((town.joint, lanes()), (("A0B0_0",), [(0, 1)]))


class WithinTheGap(unittest.TestCase):
    def told(self, before, there):
        """What is said of mean trips and gaps (in hundredths) without works and with them."""
        made = (
            SimpleNamespace(mean_trips=lambda mean=mean: [mean - 1, mean + 1], judged=SimpleNamespace(gap=gap / 100))
            for mean, gap in (there, before)
        )
        return why_within_gap(*made)

    def test_works_that_add_less_than_what_all_could_gain(self):
        self.assertIsNone(self.told((300, 2), (306.5, 2)))
        told = (
            "what the works add ({}) is less than what all could gain by other ways {} them ({} s), "
            "and says little: find ways with a smaller --gap"
        )
        self.assertEqual(self.told((300, 2), (305, 1)), told.format("+5.0 s", "without", "6.0"))
        self.assertEqual(self.told((300, 2), (295, 1)), told.format("-5.0 s", "without", "6.0"))
        self.assertEqual(self.told((300, 1), (305, 2)), told.format("+5.0 s", "with", "6.1"))


class Colours(unittest.TestCase):
    @needs_package("python3-matplotlib", importlib.util.find_spec("matplotlib"))
    def test_flows_are_darker_for_more(self):
        """The most has the first colour of matplotlib's viridis, #440154; of fewer each is lighter than the next."""
        from matplotlib.colors import to_hex

        for most in (2, 3, 8, 600):
            colours = scale_of_counts(most).colours.colors
            self.assertEqual(to_hex(colours[-1]), "#440154", most)
            light = [0.2126 * red + 0.7152 * green + 0.0722 * blue for red, green, blue, _ in colours]
            self.assertEqual(light, sorted(light, reverse=True))
        self.assertEqual(len(scale_of_counts(1).colours.colors), 1)


class UnderWay(Case):
    """From in to out over short, or over one of two ways that are nearly alike."""

    def setUp(self):
        super().setUp()
        ends = {"in": ("W", "A"), "short": ("A", "B"), "out": ("B", "E"), "one": ("A", "B"), "other": ("A", "B")}
        metres = {"one": 600.0, "other": 630.0}
        edges = [(name, *ends[name], [lane(name, 0, metres.get(name, 300.0))]) for name in ends]
        between = ("short", "one", "other")
        ways = [("in", 0, name, 0, "") for name in between] + [(name, 0, "out", 0, "") for name in between]
        routes = '<routes><vehicle id="v" depart="0"><route edges="in short out"/></vehicle></routes>'
        words = [self.write("x.net.xml", net(edges, ways)), "--routes", self.write("x.rou.xml", routes)]
        self.tool("import", *words, "-o", self.folder / "run.jsonl", "--map", self.folder / "map.json")
        self.map = read_map(self.folder / "map.json")

    def plans(self, vehicles, shut=("short",), times=(0, 10_000)):
        return WaysRound(self.map, 0.1).new_plans(vehicles, (), shut, times, 1)

    def links(self, edges):
        return tuple(link for edge in edges.split() for link in self.map.links_of[edge])

    def test_few_take_one_way_and_many_both(self):
        """1,800 an hour, of 1,700 that a lane lets pass."""
        plan = self.links("in short out")
        for count, ways in ((10, 1), (1800, 2)):
            found = self.plans([PlannedVehicle(str(at), at * 3600 // count, plan) for at in range(count)])
            self.assertEqual((len(found), len(set(found.values()))), (count, ways))

    def test_those_alone_who_would_come_there(self):
        past = PlannedVehicle("past", 500, self.links("in short out"))
        others = [past, PlannedVehicle("elsewhere", 0, self.links("in one out"))]
        ends = [PlannedVehicle("begins", 0, self.links("short out")), PlannedVehicle("ends", 0, self.links("in short"))]
        found = self.plans([*others, *ends, PlannedVehicle("comes", 0, self.links("in short out"))], times=(0, 400))
        self.assertEqual(list(found), ["comes"])

    def test_no_way(self):
        vehicle = PlannedVehicle("v", 0, self.links("in short out"))
        self.assertEqual(self.plans([vehicle], ("short", "one", "other")), {})

    def test_where_another_way_begins(self):
        """Three links of 40 cells and 2 cells a second: who is on cell 9 of the first is behind the
        second in 35 s at least."""
        links = [MapLink(str(at), (0,), at, at + 1, 40, 2, 300.0, ()) for at in range(3)]
        found = turning_to((0, 1, 2), (0, 1, 5, 6), 100)
        self.assertEqual(found, Diversion((0, 1), (5, 6), 100))
        self.assertEqual(
            [found.least_steps(links, *place) for place in ((0, 9), (0, None), (1, 39), (1, None))], [35, 20, 1, 1]
        )
        self.assertEqual(turning_to((0, 1), (7, 6), 0), Diversion((0,), (6,), 0))  # on the link beside

    def test_an_edge_is_shut_where_all_its_lanes_are(self):
        link = self.map.links_of["one"][0]
        self.assertEqual(impassable_edges(self.map, ["one"], {(link, 0): [(3, 5)]}), ["one"])
        self.assertEqual(impassable_edges(self.map, ["one"], {}), [])
        self.map.links[link] = replace(self.map.links[link], lanes=(0, 1))
        for second, shut in (((8, 9), []), ((6, 9), ["one"]), ((4, 4), ["one"])):
            self.assertEqual(impassable_edges(self.map, ["one"], {(link, 0): [(3, 5)], (link, 1): [second]}), shut)


@needs_simulator
class WithWorks(Commands):
    WORKS = ("--close", "short_0:100-200:120-900", "--iterations", 2, "--gap", 1)

    @needs_package("python3-matplotlib", importlib.util.find_spec("matplotlib"))
    def test_each_share_of_those_who_know(self):
        """The short way is reached some 24 s after the departure."""
        self.given(two_ways(), flow(60, 1200))
        told, said = self.route(*self.WORKS, "--knowing", "0,0.5,1")
        for share in ("0", "0.5", "1"):
            ways = self.routes(f"out-{share}")
            for at in range(60):
                if 120 <= 20 * at <= 840 or not 80 <= 20 * at <= 900:
                    expected = "far" if 120 <= 20 * at <= 840 else "short"
                    self.assertIn(expected, ways[f"f.{at}"], (share, at))
        rows = self.table("knowing.csv")
        self.assertEqual([row["knowing"] for row in rows], ["", "0", "0.5", "1"])
        self.assertEqual([row["arrived"] for row in rows], ["60"] * 4)
        self.assertEqual([rows[1]["trips_that_know"], rows[3]["trips_that_know"]], ["0", "60"])
        self.assertGreater(float(rows[1]["difference_s"]), 10)
        self.assertIn("knowing 0.5: mean trip", told)
        self.assertIn("before, 0: mean trip", said)
        self.assertEqual({row["arrived"] for row in self.table("check.csv", "out/knowing-1")}, {"60"})
        flows = {(row["edge"], row["case"]): int(row["trips"]) for row in self.table("flows.csv")}
        self.assertEqual((flows["short", "before"], flows["far", "before"]), (60, 0))
        with open(self.folder / "out/knowing-0.5/flows.png", "rb") as picture:
            self.assertEqual(picture.read(4), b"\x89PNG")
        self.assertEqual(flows["far", "knowing 1"] + flows["short", "knowing 1"], 60)

    def test_the_run_has_the_works(self):
        self.given(two_ways(), flow(20, 600))
        self.route(*self.WORKS, "--run", self.folder / "a.jsonl", "--map", self.folder / "a.json")
        words = [
            self.folder / "a.jsonl", "--map", self.folder / "a.json", "--until", 1500, "--out", self.folder / "b",
            "--program", PROGRAM,
        ]
        told, _ = self.tool("run", *words)
        self.assertIn("20 vehicles, 20 arrived", told)
        lines = [json.loads(line) for line in (self.folder / "a.jsonl").read_text().splitlines()]
        self.assertEqual([(one["at"], one["cmd"]) for one in lines if "at" in one], [(120, "close"), (900, "reopen")])

    def test_who_loses_the_only_lane(self):
        """The left lane leads to the short way and the right one to the far way. With --lost bar all go there who come
        while the left one is closed at its end, whether they know of it or not; else none does."""
        ends = {"in": ("W", "A"), "short": ("A", "B"), "far": ("A", "M"), "long": ("M", "B"), "out": ("B", "E")}
        metres = {"far": 450.0, "long": 450.0}
        edges = [
            (name, *ends[name], [lane(name, at, metres.get(name, 300.0)) for at in range(1 + (name == "in"))])
            for name in ends
        ]
        ways = [("in", 1, "short"), ("in", 0, "far"), ("far", 0, "long"), ("long", 0, "out"), ("short", 0, "out")]
        self.given(net(edges, [(*way, 0, "") for way in ways]), flow(60, 1200))
        works = ("--close", "in_1:100-300:00:05-00:15", "--iterations", 2, "--gap", 1)
        only = "works on in_1 close the only lane from which 3\\d vehicles turn to short while they last: "
        led = "these are led from in_0, for that time alone"
        for words, told in (((), led), (("--lost", "bar"), "ways round are")):
            _, said = self.route(*works, "--knowing", "0,1", *words)
            self.assertRegex(said, only + told)
            for share in ("0", "1"):
                ways = self.routes(f"out-{share}")
                for at in range(60):
                    if 300 <= 20 * at <= 840 or not 240 <= 20 * at <= 900:
                        barred = 300 <= 20 * at <= 840 and words
                        self.assertIn("far" if barred else "short", ways[f"f.{at}"], (words, share, at))
        setting = json.loads((self.folder / "out/knowing-1/setting.json").read_text())
        self.assertEqual((setting["lost"], setting["not_trusted"]), ("bar", []))

    def test_ways_before_that_are_given(self):
        self.given(two_ways(), flow(10, 100))
        before = self.write(
            "before.rou.xml",
            "<routes>"
            + "".join(
                f'<vehicle id="f.{at}" depart="{10 * at}"><route edges="in far long out"/></vehicle>'
                for at in range(10)
            )
            + "</routes>",
        )
        self.route(*self.WORKS, "--knowing", 0, "--before", before)
        self.assertEqual({tuple(way) for way in self.routes().values()}, {("in", "far", "long", "out")})

    STUDY = """
run = "run.jsonl"
map = "map.json"
until = 2400
seeds = "1-2"
departures = "listed"
[variant.base]
[variant.works]
close = ["short_0:100-200:120-900"]
[variant.round]
close = ["short_0:100-200:120-900"]
route = true
knowing = 0.5
"""

    def test_a_study_with_ways_round_works(self):
        """All who come meanwhile go round by 46 s, whether they know of the works or turn off before them."""
        self.given(two_ways(), flow(60, 1200))
        self.tool(
            "import", self.net, "--trips", self.trips, "-o", self.folder / "run.jsonl",
            "--map", self.folder / "map.json",
        )
        study = [
            self.write("study.toml", self.STUDY), "--out", self.folder / "study", "--program", PROGRAM, "--jobs", 2,
        ]
        said, _ = self.tool("study", *study)
        self.assertIn(
            "round: its ways were found by seed 1, which is one of the study's: give others", said.splitlines()[-1]
        )
        with open(self.folder / "study/differences.csv", encoding="utf-8") as file:
            means = {row["variant"]: float(row["mean_trip_s"]) for row in csv.DictReader(file)}
        self.assertTrue(means["base"] + 15 < means["round"] < means["base"] + 60, means)
        self.assertGreater(means["works"], means["round"] + 100)
        with open(self.folder / "study/runs.csv", encoding="utf-8") as file:
            self.assertEqual({row["arrived"] for row in csv.DictReader(file)}, {"60"})
        for more, told in (
            ("knowing = 2", "knowing = 2 is not 0 to 1"),
            ("route = 1", "route = 1 is neither true nor false"),
            ("knowing = 0.5", "close = [..] and route = true are needed too"),
        ):
            study[0] = self.write("study.toml", f"{self.STUDY}[variant.bad]\n{more}\n")
            self.assertIn(told, self.tool("study", *study, status=2)[1])

    def test_refused_before_anything_runs(self):
        self.given(two_ways(), flow(10, 100))
        gap = '<vehicle id="f.0" depart="0"><route edges="in long out"/></vehicle>'
        given = {
            name: self.write(f"{name}.rou.xml", f"<routes>{text}</routes>")
            for name, text in (("gap", gap), ("other", ONE))
        }
        for words, told in (
            (("--knowing", 0.5), "--knowing is of road works: give --close too"),
            ((*self.WORKS, "--knowing", ","), "--knowing: ',' names nothing"),
            (("--close", "none_0:1-2:3-4"), "the map has no lane 'none_0'"),
            (("--close", "short_0:100-400:3-4"), "the lane ends at 300 m"),
            (
                ("--close", "short_0:100-200:9-900", "--until", 800, "--sign", "none"),
                "--sign: the network has no edge 'none'",
            ),
            (("--close", "short_0:100-200:900-990", "--until", 800), "begins after the end of the runs, 800 s"),
            (("--close", "in_0:100-200:50-900"), "trip 'f.3' begins on edge 'in' while it is closed"),
            (
                (*self.WORKS, "--before", given["gap"]),
                "the route of 'f.0' has two edges that follow each other and have no connection",
            ),
            ((*self.WORKS, "--before", given["other"]), "no route of 'f.0'"),
        ):
            with self.subTest(told):
                self.check_refused(told, *words)

    def test_over_at_the_start(self):
        self.given(two_ways(), flow(10, 100))
        _, said = self.route("--close", "short_0:100-200:0-9", "--begin", 9, status=2)
        self.assertIn("--close 'short_0:100-200:0-9': ends at the start, 9 s, or earlier", said)

    def test_who_ends_on_a_closed_edge(self):
        self.given(two_ways(), flow(10, 100))
        _, said = self.route("--close", "out_0:100-200:0-900", "--iterations", 0, status=2)
        self.assertIn("ends on edge 'out' while it is closed", said)

    def test_ways_without_works_that_miss_the_gap(self):
        """Who asks for the way round is none, so that the gap with works is 0."""
        self.given(lit((15, "G"), (45, "r")), flow(300, 900))
        words = ("--close", "short_0:100-200:120-900", "--knowing", 0, "--gap", 0.001, "--iterations", 1)
        told, _ = self.route(*words, status=1)
        self.assertRegex(
            told, r"gap 0.00 % by 3 seeds .*: the gap of 0.1 % is not reached without works \([\d.]+ %\); "
        )
        setting = json.loads((self.folder / "out/setting.json").read_text())
        self.assertGreater(setting["without_works"]["relative_gap"], 0.001)

    def test_works_that_meet_nobody(self):
        self.given(two_ways(), flow(10, 100))
        words = ("--close", "short_0:100-200:3000-3600", "--knowing", 0, "--gap", 1, "--iterations", 0)
        why = "works on short_0 begin at 3,000 s, and met nobody in 3 of 3 runs, as all vehicles had arrived by then"
        told, _ = self.route(*words)
        self.assertEqual(told.splitlines()[-1], f"not to be trusted: knowing 0: {why}")
        self.assertEqual(json.loads((self.folder / "out/setting.json").read_text())["not_trusted"], [why])

    def test_more_come_than_the_open_lanes_pass(self):
        """Of three lanes two are one link; one of them is closed."""
        ends = {"in": ("W", "A", 3), "a": ("A", "B", 3), "out": ("B", "E", 3)}
        edges = [
            (name, begin, end, [lane(name, at, 300.0) for at in range(count)])
            for name, (begin, end, count) in ends.items()
        ]
        ways = [(name, at, following, at, "") for name, following in (("in", "a"), ("a", "out")) for at in range(3)]
        self.given(net(edges, ways), flow(1000, 900))
        told, _ = self.route("--close", "a_0:100-200:0-900", "--iterations", 0, "--gap", 1)
        self.assertRegex(
            told,
            r"\nnot to be trusted: .*knowing 1: works on a: some [\d,]+ vehicles an hour come to works that "
            r"leave 1 of 2 lanes",
        )
        setting = json.loads((self.folder / "out/setting.json").read_text())
        self.assertRegex(setting["not_trusted"][-1], "^works on a: ")


del Commands  # whose own tests stand in test_route


if __name__ == "__main__":
    unittest.main()
