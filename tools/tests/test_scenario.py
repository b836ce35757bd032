"""Scenarios: SUMO's names and units, TraCI's calls."""
import json
import unittest

from support import DATA, FORK, PROGRAM, Case, needs_simulator
from test_route import two_ways
from streetsim import client
from streetsim.model.mapping import read_map
from streetsim.model.tables import TRIPS, read_table
from streetsim.scenario import NOWHERE, NotHere, Scenario
from streetsim.simulation.signals_in_force import SignalsInForce

# One that in SUMO takes as long on streets of 75 m, with its start, as one takes for 10 cells here.
EVEN = '<vType id="even" accel="2.08" sigma="0" speedFactor="1.08" speedDev="0"/>'
ROUTES = f'<routes>{EVEN}<vehicle id="v" type="even" depart="0"><route edges="a b"/></vehicle></routes>'


@needs_simulator
class Scenarios(Case):
    def setUp(self):
        super().setUp()
        run, mapped = self.folder / "run.jsonl", self.folder / "map.json"
        self.tool(
            "import",
            self.write("x.net.xml", FORK),
            "--routes",
            self.write("x.rou.xml", ROUTES),
            "-o",
            run,
            "--map",
            mapped,
            "--dawdle",
            0,
        )
        self.sim = self.enterContext(Scenario(run, mapped, PROGRAM))

    def test_vehicle(self):
        # Limit 2 cells a step: cells 0, 1, 3 after steps 0 to 2. The front of a vehicle in cell 3 is 30 m from the
        # begin.
        sim, vehicle = self.sim, self.sim.vehicle
        self.assertEqual(
            (vehicle.getIDList(), vehicle.getRoadID("v"), vehicle.getSpeed("v"), vehicle.getLanePosition("v")),
            ((), "", NOWHERE, NOWHERE),
        )
        sim.simulationStep(3)
        self.assertEqual((sim.simulation.getTime(), vehicle.getIDList()), (3.0, ("v",)))
        self.assertEqual(
            (
                vehicle.getRoadID("v"),
                vehicle.getLaneID("v"),
                vehicle.getLaneIndex("v"),
                vehicle.getLanePosition("v"),
                vehicle.getSpeed("v"),
            ),
            ("a", "a_0", 0, 30.0, 15.0),
        )
        self.assertEqual(vehicle.getRoute("v"), ("a", "b"))
        # Cells 5, 7, 9, and into the junction in step 6.
        sim.simulationStep(7)
        self.assertEqual((vehicle.getRoadID("v"), vehicle.getIDList()), (":B", ("v",)))
        sim.simulationStep(30)
        self.assertEqual(
            (vehicle.getRoadID("v"), vehicle.getIDList(), sim.simulation.getMinExpectedNumber()), ("", (), 0)
        )

    def test_added_and_removed(self):
        self.sim.route.add("way", ["a", "c"])
        self.sim.vehicle.add("mine", "way", depart=1.5)
        self.sim.simulationStep(3)
        self.assertEqual(self.sim.vehicle.getIDList(), ("v", "mine"))
        self.sim.vehicle.remove("mine")
        self.assertEqual(self.sim.vehicle.getIDList(), ("v",))
        with self.assertRaisesRegex(ValueError, "already"):
            self.sim.vehicle.add("mine", "way")
        with self.assertRaisesRegex(ValueError, "no way along b c"):
            self.sim.route.add("none", ["b", "c"])

    def test_lane(self):
        self.sim.simulationStep(3)
        lane = self.sim.lane
        self.assertEqual(
            (
                lane.getLastStepVehicleIDs("a_0"),
                lane.getLastStepVehicleNumber("a_0"),
                lane.getLastStepHaltingNumber("a_0"),
                lane.getLastStepMeanSpeed("a_0"),
            ),
            (("v",), 1, 0, 15.0),
        )
        self.assertEqual(
            (lane.getLastStepMeanSpeed("a_1"), lane.getLength("a_1"), self.sim.edge.getLastStepVehicleNumber("a")),
            (-1.0, 75.0, 1),
        )

    def test_closing(self):
        self.sim.lane.setDisallowed("b_0", ["bus"])
        self.assertEqual(self.sim.lane_state("b_0").closed, ())
        self.sim.lane.setDisallowed("b_0", ["passenger", "bus"])
        self.assertEqual(self.sim.lane_state("b_0").closed, ((0, 9),))
        self.sim.lane.setAllowed("b_0", ["all"])
        self.sim.close("c_0", 15, 45)
        # Of 11 cells on 75 m.
        self.assertEqual((self.sim.lane_state("b_0").closed, self.sim.lane_state("c_0").closed), ((), ((2, 6),)))
        with self.assertRaisesRegex(ValueError, "the map has no lane 'z_0'"):
            self.sim.close("z_0")
        for places, told in (
            ((45, 15), "45 m to 15 m"),
            ((15, 15), "15 m to 15 m"),
            ((-9, 15), "-9 m to 15 m"),
            ((15, float("nan")), "15 m to nan m"),
        ):
            with self.assertRaisesRegex(ValueError, f"lane 'b_0': from {told} there are no works"):
                self.sim.close("b_0", *places)
        for change in (self.sim.close, self.sim.reopen):
            with self.assertRaisesRegex(ValueError, "lane 'b_0' ends at 75 m, before 76 m"):
                change("b_0", 0, 76)
        self.assertEqual(self.sim.lane_state("b_0").closed, ())
        self.sim.close("b_0", 74.5)
        self.assertEqual(self.sim.lane_state("b_0").closed, ((9, 9),))

    def test_steps_until_a_time(self):
        """None where it is reached; 602.4 s is only when 603 are (in SUMO as well: test_traci)."""
        for time, clock in ((600, 600), (300, 600), (600, 600), (-5, 600), (0, 601), (600.5, 601), (602.4, 603)):
            self.sim.simulationStep(time)
            self.assertEqual((time, self.sim.simulation.getTime()), (time, clock))

    def test_detector(self):
        self.sim.inductionloop.add("d", "a_0", 29.0, 10)  # cell 3
        loop = self.sim.inductionloop
        self.assertEqual((loop.getLastIntervalVehicleNumber("d"), loop.getLastIntervalMeanSpeed("d")), (0, -1.0))
        self.sim.simulationStep(10)
        # It stands in cell 3 after step 2 and goes on from it in step 3 with 2 cells a step.
        self.assertEqual(
            (
                loop.getLastIntervalVehicleNumber("d"),
                loop.getLastIntervalMeanSpeed("d"),
                loop.getLastIntervalOccupancy("d"),
            ),
            (1, 15.0, 10.0),
        )

    def test_what_is_refused(self):
        sim = self.sim
        sim.route.add("way", ["a", "c"])
        for size in (0, -1, 5):
            with self.subTest(size), self.assertRaises(client.Refused):
                sim.vehicle.add("mine", "way", size=size)
        for place in (-1, 76):
            with self.subTest(place), self.assertRaisesRegex(ValueError, "lane 'a_0' has no place at"):
                sim.inductionloop.add("loop", "a_0", place, 60)
        for call in (
            lambda: sim.trafficlight.setProgramLogic("none", [(10, "G")]),
            lambda: sim.vehicle.getLength("none"),
            lambda: sim.vehicle.getMinGap("none"),
        ):
            with self.assertRaises(KeyError):
                call()
        self.assertEqual((sim.vehicle.getLength("v"), sim.inductionloop.getIDList()), (5.0, ()))

    def test_missing_calls_say_what_to_do(self):
        with self.assertRaisesRegex(NotHere, "vehicle.setSpeed is not here: speeds follow the rules alone"):
            self.sim.vehicle.setSpeed("v", 3)
        self.assertFalse(hasattr(self.sim.lane, "getCO2Emission"))


@needs_simulator
class Lights(Case):
    def test_program(self):
        light = '<tlLogic id="L" type="static" programID="0" offset="0"><phase duration="10" state="G"/></tlLogic>'
        text = FORK.replace(
            'fromLane="0" toLane="0" state="M"', 'fromLane="0" toLane="0" state="M" tl="L" linkIndex="0"'
        ).replace("<junction", light + "<junction", 1)
        run, mapped = self.folder / "run.jsonl", self.folder / "map.json"
        self.tool(
            "import",
            self.write("x.net.xml", text),
            "--routes",
            self.write("x.rou.xml", ROUTES),
            "-o",
            run,
            "--map",
            mapped,
            "--dawdle",
            0,
        )
        self.assertEqual(json.loads(mapped.read_text())["signals"], {"light": ["L"], "node": [1]})
        with Scenario(run, mapped, PROGRAM) as sim:
            self.assertEqual(sim.trafficlight.getIDList(), ("L",))
            warnings = sim.trafficlight.setProgramLogic("L", [(20, "r"), (5, "G")])
            self.assertEqual(warnings, [])
            sim.simulationStep(20)
            self.assertEqual(sim.lane.getLastStepHaltingNumber("a_0"), 1)
            sim.simulationStep(22)
            self.assertEqual(sim.vehicle.getRoadID("v"), ":B")
        # Lines of the file for the light, at 3 always red, at 30 green: they are sent,
        # but not once the script has set it.
        turns = json.loads(mapped.read_text())["turns"]
        turns = list(zip(turns["link"], turns["lane"], turns["next"], strict=True))
        later = [
            {"cmd": "signal", "node": 1, "offset": 0, "phases": [[600, green]], "at": at}
            for at, green in ((3, []), (30, turns))
        ]
        with open(run, "a", encoding="utf-8") as file:
            file.writelines(json.dumps(line) + "\n" for line in later)
        for set_by_script, place in ((False, "a"), (True, ":B")):
            with self.subTest(set_by_script), Scenario(run, mapped, PROGRAM) as sim:
                if set_by_script:
                    sim.trafficlight.setProgramLogic("L", [(20, "r"), (5, "G")])
                sim.simulationStep(22)
                self.assertEqual(sim.vehicle.getRoadID("v"), place)
                sim.simulationStep(40)
                self.assertNotEqual(sim.vehicle.getRoadID("v"), "a")
        self.check_long_programs(run, mapped)

    def check_long_programs(self, run, mapped):
        """Phases above 600 s, in a cycle that fits in one plan and in one that does not: red until 700 s,
        and from 800 s or 9,800 s on for 700 s more. A second vehicle comes in the second red."""
        for green in (100, 9100):
            with self.subTest(green), Scenario(run, mapped, PROGRAM) as sim:
                warnings = sim.trafficlight.setProgramLogic("L", [(700, "r"), (green, "G")])
                told = ["light 'L': a cycle of 9,800 s does not fit in one plan; its phases are sent one by one"]
                self.assertEqual(warnings, told if green > 100 else [])
                sim.route.add("way", ["a", "b"])
                sim.vehicle.add("second", "way", depart=700 + green)
                for clock, standing, roads in (
                    (699, 1, ("a", "")),
                    (701, 0, (":B", "")),
                    (1399, 1, ("", "a")),
                    (1401, 0, ("", ":B")),
                ):
                    sim.simulationStep(clock + (green if clock > 1000 else 0))
                    self.assertEqual(sim.lane.getLastStepHaltingNumber("a_0"), standing, clock)
                    self.assertEqual(tuple(map(sim.vehicle.getRoadID, ("v", "second"))), roads, clock)
        with Scenario(run, mapped, PROGRAM) as sim:  # a program that fits ends one that is sent phase by phase
            sim.trafficlight.setProgramLogic("L", [(700, "r"), (9100, "G")])
            sim.trafficlight.setProgramLogic("L", [(60, "G")])
            sim.simulationStep(30)
            self.assertNotEqual(sim.vehicle.getRoadID("v"), "a")


class LongPrograms(Case):
    def test_goes_on_where_another_light_is_set(self):
        run, mapped = self.folder / "run.jsonl", self.folder / "map.json"
        self.tool("import", DATA / "grid.net.xml.gz", "-o", run, "--map", mapped)
        mapping = read_map(str(mapped))
        first, second = (name for name, _ in mapping.signals[:2])
        shown = SignalsInForce(mapping, [])
        long, short = [(700.0, "r" * 64), (9100.0, "G" * 64)], [(60.0, "G" * 64)]
        shown.program_lines(first, long, 0.0, 0)
        coming = shown.next_clock(5000)
        self.assertLess(coming, 5000)
        shown.program_lines(second, short, 0.0, 0)
        self.assertEqual(shown.next_clock(5000), coming)
        shown.constant_lines(second, "r" * 64, 10.0)
        self.assertEqual(shown.next_clock(5000), coming)
        shown.program_lines(first, short, 0.0, 0)
        self.assertEqual(shown.next_clock(5000), 5000)


@needs_simulator
class Diverting(Case):
    """A short way of 300 m, reached some 22 s after the departure, and one of 900 m beside it."""

    SHORT, FAR = ("in", "short", "out"), ("in", "far", "long", "out")

    def begun(self, *departs, network=None, edges="in short out"):
        vehicles = (
            f'<vehicle id="{at}" depart="{depart}"><route edges="{edges}"/></vehicle>'
            for at, depart in enumerate(departs)
        )
        paths = self.folder / "run.jsonl", self.folder / "map.json"
        words = [
            self.write("x.net.xml", network or two_ways()),
            "--routes",
            self.write("x.rou.xml", f"<routes>{''.join(vehicles)}</routes>"),
        ]
        self.tool("import", *words, "-o", paths[0], "--map", paths[1])
        return self.enterContext(Scenario(*paths, PROGRAM))

    def test_who_has_not_passed_takes_another_way(self):
        """At 130 s the vehicle of 100 s is on the short way, and that of 120 s has that ahead;
        it goes on to the crossing."""
        sim = self.begun(*range(0, 1200, 20))
        sim.simulationStep(130)
        other = sim.close("short_0", 100, 200, divert=True)
        self.assertEqual(other, [str(at) for at in range(6, 60)])
        self.assertEqual({sim.vehicle.getRoute(name) for name in other[1:]}, {self.FAR})
        self.assertEqual({sim.vehicle.getRoute(str(at)) for at in range(7)}, {self.SHORT})
        sim.simulationStep(1400)
        self.assertEqual(sim.vehicle.getRoute("6"), self.FAR)
        rows = [dict(zip(TRIPS, row, strict=True)) for row in sim.trips()]
        self.assertEqual([row["id"] for row in rows], [str(at) for at in range(60)])
        self.assertEqual({row["state"] for row in rows[6:]}, {"arrived"})
        self.assertEqual([(row["depart"], row["edges"]) for row in rows[5:8]], [(100, 3), (120, 4), (140, 4)])
        self.assertEqual(rows[5]["state"], "cell")  # stands before the works
        times = [row["duration"] for row in rows[6:]]
        self.assertLess(abs(times[0] - sum(times) / len(times)), 10)
        census = sim.client.count()
        self.assertEqual(
            (census.admitted, census.taken, census.arrived),
            (60 + 54, 54, sum(row["state"] == "arrived" for row in rows)),
        )
        self.assertEqual(sim.simulation.getMinExpectedNumber(), 60 - census.arrived)
        sim.reopen("short_0", 100, 200)
        sim.simulationStep(1600)
        sim.write_trips(self.folder / "trips.csv")
        self.assertEqual({row["state"] for row in read_table(self.folder / "trips.csv", TRIPS)}, {"arrived"})

    def test_a_vehicle_that_is_refused_is_not_sent_round(self):
        sim = self.begun(0, 120)
        sim.route.add("way", self.SHORT)
        with self.assertRaises(client.BadRange):
            sim.vehicle.add("mine", "way", 60, size=5)
        self.assertEqual(sim.close("short_0", 100, 200, divert=True), ["0", "1"])

    def test_works_whose_end_is_known(self):
        sim = self.begun(*range(0, 1200, 20))
        sim.simulationStep(130)
        self.assertEqual(sim.close("short_0", 100, 200, divert=True, until=610), [str(at) for at in range(6, 30)])

    def test_works_whose_end_is_over(self):
        """Nobody comes before it: nothing is closed."""
        sim = self.begun(0, 120)
        sim.simulationStep(130)
        told = "until 130 s nobody can take another way: the clock is at 130 s"
        with self.assertRaisesRegex(ValueError, told):
            sim.close("short_0", 100, 200, divert=True, until=130)
        self.assertEqual(sim.lane_state("short_0").closed, ())
        with self.assertRaisesRegex(ValueError, told):
            sim.divert("short", 130)
        self.assertEqual(sim.close("short_0", 100, 200, until=130), [])

    def test_further_works_before_the_other_way_begins(self):
        """Who is on its way to the crossing hears of the second works there, and takes the short way after all."""
        sim = self.begun(0, 120)
        sim.simulationStep(130)
        self.assertEqual(sim.close("short_0", 100, 200, divert=True), ["1"])
        sim.reopen("short_0", 100, 200)
        self.assertEqual(sim.close("long_0", 100, 200, divert=True), ["1"])
        sim.simulationStep(300)
        self.assertEqual((sim.vehicle.getRoute("1"), sim.client.count().taken), (self.SHORT, 0))
        self.assertEqual([row[-1] for row in sim.trips()], ["arrived", "arrived"])

    def test_further_works_on_the_other_way(self):
        """Who has entered anew behind the crossing, and who waits for room there, has no way round."""
        sim = self.begun(0, 120)
        sim.simulationStep(130)
        sim.close("short_0", 100, 200, divert=True)
        sim.simulationStep(150)
        self.assertEqual((sim.vehicle.getRoute("1"), sim.vehicle.getRoadID("1")), (self.FAR, "far"))
        self.assertEqual(sim.close("long_0", 100, 200, divert=True), [])
        sim.reopen("long_0", 100, 200)
        sim.simulationStep(400)
        self.assertEqual([(row[0], row[6], row[-1]) for row in sim.trips()], [("0", 3, "arrived"), ("1", 4, "arrived")])

    def test_who_waits_for_room(self):
        """Its time has come; its trip lasts from then on."""
        sim = self.begun(0, 0, 0)
        sim.simulationStep(1)
        self.assertEqual(sim.close("short_0", divert=True), ["0", "1", "2"])
        sim.simulationStep(2)
        self.assertEqual(sim.vehicle.getIDList(), ("0", "1"))
        self.assertEqual([row[1] for row in sim.trips()], [0, 0, 0])
        sim.simulationStep(300)
        self.assertEqual([(row[6], row[-1]) for row in sim.trips()], [(4, "arrived")] * 3)

    def test_equal_runs_give_equal_rows(self):
        rows = []
        for _ in range(2):
            sim = self.begun(*range(0, 1200, 5))
            sim.simulationStep(300)
            sim.close("short_0", divert=True)
            sim.simulationStep(2000)
            rows.append(sim.trips())
        self.assertEqual(*rows)

    def test_no_way_round(self):
        sim = self.begun(0, 50, network=FORK, edges="a b")
        self.assertEqual(sim.close("b_0", divert=True), [])
        sim.simulationStep(100)
        self.assertEqual([row[-1] for row in sim.trips()], ["buffer", "buffer"])

    def test_nobody_is_left(self):
        sim = self.begun(0)
        sim.simulationStep(300)
        self.assertEqual(sim.close("short_0", divert=True), [])

    def test_no_other_way_is_asked_for(self):
        sim = self.begun(50)
        self.assertEqual(sim.close("short_0"), [])
        self.assertEqual(sim.vehicle.getRoute("0"), self.SHORT)


if __name__ == "__main__":
    unittest.main()
