"""Vehicles of 1 to 4 cells: the sizes that an import gives, and what the tools say and draw of long vehicles. Lengths
and gaps of classes are SUMO 1.15's defaults."""
import unittest
from collections import Counter

from support import FORK, PROGRAM, STREET, Case, needs_simulator
import test_pictures
from test_pictures import Given, needs_chromium, needs_matplotlib
from test_runs import Runs, enter
from streetsim.base.client import BadRange, Client
from streetsim.base.files import Fault
from streetsim.base.report import Report
from streetsim.model.folder import read_folder
from streetsim.report import run_series
from streetsim.scenario import Scenario
from streetsim.sumo.import_files import convert
from streetsim.sumo.network import Options


def vehicles(count, kind, first=0):
    return "".join(
        f'<vehicle id="{kind}.{at}" type="{kind}" depart="{first + at}"><route edges="a b"/></vehicle>'
        for at in range(count)
    )


class Import(Case):
    def sizes(self, text, additional=(), **options):
        """The sizes of the vehicles in the order of departure."""
        self.report = Report()
        net, routes = self.write("x.net.xml", FORK), self.write("r.rou.xml", f"<routes>{text}</routes>")
        more = [self.write(f"more{at}.add.xml", f"<additional>{one}</additional>") for at, one in enumerate(additional)]
        _, _, commands, _ = convert(net, more, [routes], Options(**options), self.report)
        return [command.get("size", 1) for command in commands if command["cmd"] == "enter"]

    def test_classes(self):
        # Length and gap of SUMO's classes: 7.5 m one cell; bicycle 2.1 and motorcycle 4.7, less than one; delivery 9,
        # truck 9.6, bus 14.5, coach 16.5, trailer 19, tram 24.5 m; rail 140 m, more than four.
        kinds = "passenger bicycle motorcycle taxi delivery truck bus coach trailer tram rail".split()
        types = "".join(f'<vType id="{kind}" vClass="{kind}"/>' for kind in kinds)
        one_each = "".join(vehicles(1, kind, at) for at, kind in enumerate(kinds))
        self.assertEqual(self.sizes(types + one_each), [1, 1, 1, 1, 1, 1, 2, 2, 3, 3, 4])
        self.assertIn("1 vehicles are longer than 4 cells of 7.5 m and take 4: types rail", self.report.warnings)

    def test_former_names_of_classes(self):
        """SUMO 1.15 takes public_transport for bus, which is 12 m long, and rail_slow for rail."""
        types = (
            '<vType id="x" vClass="public_transport"/><vType id="y" vClass="rail_slow"/><vType id="z" '
            'vClass="ignoring"/>'
        )
        self.assertEqual(self.sizes(types + "".join(vehicles(1, kind, at) for at, kind in enumerate("xyz"))), [2, 4, 1])

    def test_the_rest_is_carried_on(self):
        # 9.6 m are 1.28 cells: 960 m are 128 cells, and so for each first part of the vehicles to half a cell.
        types = '<vType id="truck" vClass="truck"/><vType id="long" length="18"/>'
        sizes = self.sizes(types + vehicles(100, "truck"))
        self.assertEqual(Counter(sizes), {1: 72, 2: 28})
        for count in range(1, 101):
            self.assertLessEqual(abs(sum(sizes[:count]) - 1.28 * count), 0.5 + 1e-9)
        # 18 m and 2.5: 307.5 m of 15 vehicles are 41 cells. Cars between them change nothing: rests go by type.
        mixed = vehicles(15, "long") + vehicles(15, "DEFAULT_VEHTYPE")
        sizes = self.sizes(types + mixed)
        self.assertEqual((sum(sizes[::2]), set(sizes[::2]), set(sizes[1::2])), (41, {2, 3}, {1}))

    def test_what_is_told(self):
        types = '<vType id="bus" vClass="bus"/>'
        self.sizes(types + vehicles(3, "bus") + '<vehicle id="car" depart="9"><route edges="a b"/></vehicle>')
        # 3 buses of 14.5 m and a car of 7.5 m: 51 m. 5.8 cells are owed: two, two and two.
        self.assertIn(
            "vehicles by cells: 1 of 1, 3 of 2; 52 m of road here, 51 m in SUMO with the gaps",
            list(self.report.lines()),
        )
        self.sizes(vehicles(3, "DEFAULT_VEHTYPE"))
        self.assertEqual(self.report.notes, [])

    def test_off(self):
        types = '<vType id="bus" vClass="bus"/>'
        self.assertEqual(self.sizes(types + vehicles(3, "bus"), sizes=False), [1, 1, 1])
        self.assertEqual(self.report.notes, [])

    def test_types_of_additional_files_and_flows(self):
        types = '<vType id="long" length="20" minGap="1"/>'
        flow = '<flow id="f" type="long" begin="0" end="4" period="1"><route edges="a b"/></flow>'
        # 21 m are 2.8 cells: 3, 3 (2.6), 2 (2.4), 3 (3.2).
        self.assertEqual(self.sizes(flow, [types]), [3, 3, 2, 3])

    def test_distributions(self):
        # A quarter of 2,000 vehicles is long: 500 expected, with a standard deviation of 19.
        inner = '<vType id="car" probability="3"/><vType id="long" length="20" minGap="2.5" probability="1"/>'
        named = inner + '<vTypeDistribution id="mix" vTypes="car long" probabilities="0.75 0.25"/>'
        flow = '<flow id="f" type="mix" begin="0" end="2000" period="1"><route edges="a b"/></flow>'
        for text in (f'<vTypeDistribution id="mix">{inner}</vTypeDistribution>', named):
            sizes = self.sizes(text + flow)
            self.assertEqual(set(sizes), {1, 3})
            self.assertTrue(420 < sizes.count(3) < 580, sizes.count(3))
            self.assertEqual(sizes, self.sizes(text + flow))

    def test_unknown_types_and_faults(self):
        self.assertEqual(self.sizes(vehicles(1, "ghost")), [1])
        self.assertIn("vehicle types that no file defines are taken for cars: ghost", self.report.warnings)
        for text, words in (
            ('<vType id="t" length="-1"/>', "<vType 't'>: length='-1' cannot be read"),
            ('<vType id="t" minGap="wide"/>', "<vType 't'>: minGap='wide' cannot be read"),
            ('<vType length="5"/>', "<vType>: no attribute 'id'"),
            ('<vType id="t" vClass="lorry"/>', "<vType 't'>: SUMO has no vehicle class 'lorry'"),
            ('<vTypeDistribution id="m" vTypes="t"/>', "<vTypeDistribution 'm'>: there is no type 't'"),
            ('<vTypeDistribution id="m"/>', "<vTypeDistribution 'm'>: a distribution without a type"),
        ):
            with self.subTest(text), self.assertRaisesRegex(Fault, words):
                self.sizes(text)


@needs_simulator
class InPython(Case):
    def test_client(self):
        # A vehicle of three cells goes to cell 6 in four steps from standing (1, 3, 6 after the first, limit 5); the
        # one behind it enters when its rear has left cell 0.
        with Client(PROGRAM) as sim:
            sim.load(**STREET)
            self.assertEqual([sim.enter([10], size=3), sim.enter([10])], [0, 1])
            sim.advance(4)
            long, short = sim.vehicle(0), sim.vehicle(1)
            self.assertEqual((long.cell, long.speed, long.size), (6, 3, 3))
            self.assertEqual((short.cell, short.speed, short.size), (0, 0, 1))
            self.assertEqual(sim.lane(10, 0).cells, ((0, 6, 3, 3), (1, 0, 0)))
            for size in (0, 5):
                with self.assertRaises(BadRange):
                    sim.enter([10], size=size)

    def test_scenario(self):
        # SUMO's car is 5 m long with a gap of 2.5 m; three cells are 22.5 m.
        types = '<vType id="long" length="20"/>'
        run, mapped = self.folder / "run.jsonl", self.folder / "map.json"
        routes = self.write("x.rou.xml", f"<routes>{types}{vehicles(1, 'long')}</routes>")
        words = [self.write("x.net.xml", FORK), "--routes", routes, "-o", run, "--map", mapped, "--dawdle", 0]
        self.tool("import", *words)
        with Scenario(run, mapped, PROGRAM) as sim:
            self.assertEqual((sim.vehicle.getLength("long.0"), sim.vehicle.getMinGap("long.0")), (20.0, 2.5))
            sim.route.add("way", ["a", "b"])
            sim.vehicle.add("car", "way")
            sim.vehicle.add("bus", "way", size=2)
            self.assertEqual((sim.vehicle.getLength("car"), sim.vehicle.getLength("bus")), (5.0, 12.5))
            sim.simulationStep(3)
            self.assertEqual(sim.lane.getLastStepVehicleIDs("a_0"), ("car", "long.0"))
            # The long one is at cell 3 with 2 cells a step, the car has just entered behind its rear in cell 1.
            self.assertEqual(sim.edge.getLastStepHaltingNumber("a"), 1)
            self.assertEqual(sim.lane.getLastStepMeanSpeed("a_0"), 7.5)


@needs_simulator
class Tables(Runs):
    def test_queue_and_rescue(self):
        # Red for ever: a vehicle of three cells and one of two stand at the stop line, 37.5 m. Both are taken out after
        # five minutes each and arrive with their size.
        red = {"cmd": "signal", "node": 1, "offset": 0, "phases": [[600, []]]}
        self.given(red, {**enter([0, 1]), "size": 3}, {**enter([0, 1]), "size": 2}, cars=["long", "bus"])
        self.run_tool("--until", 900, "--every", 100)
        self.assertIn(["100", "a", "0", "2", "37.5", "stop line", ""], self.table("queues.csv"))
        trips = self.table("trips.csv")
        self.assertEqual([trip[-2:] for trip in trips], [["1", "arrived"]] * 2)
        polls = [*read_folder(self.folder / "out").polls()]
        self.assertEqual(polls[0]["lanes"][0][2], [[0, 9, 0, 3], [1, 6, 0, 2]])


class Shown(Given):
    def setUp(self):
        super().setUp()
        places = ((1, 4), (2, 6))
        self.write_polls(
            [{"clock": clock, "lanes": [[0, 0, [[0, cell, 1, 3], [1, 0, 0]], [], []]]} for clock, cell in places]
        )

    def test_corridor(self):
        # The front goes from 37.5 to 52.5 m, the rear 22.5 m behind it; the car is a line alone.
        pieces = run_series.trajectories(self.given, ["a", "b"], 0, 10)
        self.assertEqual(pieces[0], ((1, 37.5), (2, 52.5), 1, 22.5))
        self.assertEqual(list(run_series.long_vehicle_strips(pieces)), [((1, 37.5), (2, 52.5), (2, 30.0), (1, 15.0))])

    @needs_matplotlib
    def test_picture(self):
        path = self.folder / "corridor.png"
        self.tool("plot", "corridor", self.folder, "--edges", "a b", "--last", 40, "-o", path)
        self.assertEqual(path.read_bytes()[:8], b"\x89PNG\r\n\x1a\n")


class Played(Given):
    page, dom = test_pictures.Player.page, test_pictures.Player.dom
    shown, shown_in = test_pictures.Player.shown, test_pictures.Player.shown_in

    @needs_chromium
    def test_covered_cells(self):
        # Three cells and one; at clock 2 the rear of the long one is at the begin of the lane: two cells and one.
        places = ((1, 4), (2, 1))
        self.write_polls(
            [{"clock": clock, "lanes": [[0, 0, [[0, cell, 1, 3], [1, 9, 0]], [], []]]} for clock, cell in places]
        )
        page = self.page()
        self.assertEqual([self.shown(page, clock)["covered"] for clock in (1, 2)], [4, 3])


if __name__ == "__main__":
    unittest.main()
