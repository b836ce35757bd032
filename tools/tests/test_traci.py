"""TraCI's calls: by hand on small streets, and three scripts as its users write them, beside SUMO's own."""
import gzip
import importlib.util
import inspect
import json
import os
import re
import resource
import shutil
import subprocess
import sys
import time
import unittest
import unittest.mock
import xml.etree.ElementTree as ElementTree
from contextlib import redirect_stderr
from io import StringIO
from pathlib import Path
from types import SimpleNamespace

import numpy

from support import (
    DATA, FORK, MAP, PROGRAM, SCENARIOS, TOOLS, Case, lane, needs_package, needs_simulator, needs_sumo,
    needs_sumo_tools, net,
)
from streetsim.base.files import Fault
from streetsim.model.detectors import Detector
from streetsim.model.mapping import map_from
from streetsim.report.beside_sumo import geh
from streetsim.scenario import TrafficLight
from streetsim.simulation import tally
from streetsim.simulation.fleet import OnRoad
from streetsim.simulation.lights import LightShow
from streetsim.simulation.options import OUTPUT, SHORT, check_option, usual_name
from streetsim.simulation.session import TraciSession
from streetsim.simulation.street_facts import read_facts
from streetsim.simulation.view import View
from streetsim.traci import constants as tc
import streetsim.traci as traci
from streetsim.traci.advice import NOTHING
from streetsim.traci.answering import read_set_command
from streetsim.traci.checking import ScriptCall, classify_call
from streetsim.traci.names import sumo_name
from streetsim.traci.protocol import ValueReader, text
from streetsim.traci.roads import InductionLoopDomain

SCRIPTS, ACTUATED = TOOLS / "examples/traci", TOOLS / "examples/actuated"
USERS = DATA / "traci"  # scripts of users, for SUMO's traci
SUMO = Path("/usr/share/sumo")
DOMAINS = (
    "simulation", "vehicle", "edge", "lane", "trafficlight", "inductionloop", "lanearea", "route", "multientryexit",
    "junction",
)
DOMAINS += (
    "person", "vehicletype", "variablespeedsign", "meandata", "overheadwire", "rerouter", "routeprobe", "calibrator",
)
DOMAINS += ("busstop", "chargingstation", "parkingarea")
WAITING = ("Could not connect to TraCI server", "Retrying in")  # SUMO's traci, while sumo starts
needs_traci = needs_package("sumo-tools", (SUMO / "tools/traci").exists())

LIGHT = """<tlLogic id="L" type="static" programID="day" offset="5">
<phase duration="10" state="Gr"/><phase duration="5" state="yr"/><phase duration="15" state="rG"/></tlLogic>"""
SIGNALLED = FORK.replace("<junction", LIGHT + "<junction", 1)
for index, name in enumerate("bc"):
    SIGNALLED = SIGNALLED.replace(
        f'to="{name}" fromLane="{index}" toLane="0" state="M"',
        f'to="{name}" fromLane="{index}" toLane="0" state="M" tl="L" linkIndex="{index}"',
    )
ROUTES = """<routes><vehicle id="v" depart="0"><route edges="a b"/></vehicle>
<vehicle id="later" depart="50"><route edges="a c"/></vehicle></routes>"""
AREAS = """<additional><inductionLoop id="loop" lane="a_0" pos="29" freq="10" file="x"/>
<laneAreaDetector id="area" lane="a_0" pos="60" endPos="75" freq="10" file="x"/></additional>"""


@needs_simulator
class Started(Case):
    def setUp(self):
        super().setUp()
        os.environ["STREETSIM_PROGRAM"] = PROGRAM
        self.addCleanup(lambda: traci.isLoaded() and traci.close())

    def start(self, text=SIGNALLED, routes=ROUTES, additional=AREAS):
        words = ["sumo", "-n", self.write("x.net.xml", text), "-r", self.write("x.rou.xml", routes)]
        self.assertEqual(traci.start([*words, "-a", self.write("x.add.xml", additional), "-W"])[1], "streetsim")

    def steps(self, count):
        for _ in range(count):
            traci.simulationStep()


class Loops(unittest.TestCase):
    def test_occupancy_is_of_the_vehicle_on_the_loop_alone(self):
        """One drove over cell 3 at 15 m/s and is now in cell 3 of the next link; the loop was covered by its 5 m."""
        detector = Detector("loop", "e1", 0, 0, 3, 3, 60)
        driving = 100 * 5 / 15
        for where, percent in ((OnRoad(1, 0, 3, 2), driving), (OnRoad(0, 1, 3, 2), driving), (OnRoad(0, 0, 3, 0), 100)):
            view, fleet = SimpleNamespace(positions={7: where}, positions_before={}), SimpleNamespace(size={7: 1}.get)
            loops = SimpleNamespace(vehicles_on={"loop": [7]}.__getitem__)
            mapping = SimpleNamespace(links=[SimpleNamespace(cell_metres=7.5)])
            session = SimpleNamespace(view=view, fleet=fleet, detectors={"loop": detector}, loops=loops, map=mapping)
            loop = InductionLoopDomain(lambda session=session: session)
            self.assertAlmostEqual(loop.getLastStepOccupancy("loop"), percent)


class Vehicles(Started):
    def test_one_vehicle(self):
        """It departs in the first step, whatever the draws, and stands in cell 0."""
        self.start()
        cell = 75 / traci.vehicle.session().map.links[0].cells
        self.assertEqual((traci.vehicle.getIDList(), traci.simulation.getMinExpectedNumber()), ((), 2))
        traci.simulationStep()
        self.assertEqual(
            (traci.vehicle.getIDList(), traci.vehicle.getIDCount(), traci.simulation.getDepartedIDList()),
            (("v",), 1, ("v",)),
        )
        self.assertEqual(
            (
                traci.vehicle.getRoadID("v"),
                traci.vehicle.getLaneID("v"),
                traci.vehicle.getLanePosition("v"),
                traci.vehicle.getSpeed("v"),
            ),
            ("a", "a_0", cell, 0.0),
        )
        self.assertEqual((traci.vehicle.getPosition("v"), traci.vehicle.getRoute("v")), ((cell, 0.0), ("a", "b")))
        self.assertEqual(traci.vehicle.getAllowedSpeed("later"), traci.constants.INVALID_DOUBLE_VALUE)  # as in SUMO
        traci.simulationStep()
        self.assertEqual((traci.simulation.getTime(), traci.simulation.getDepartedIDList()), (2.0, ()))
        arrived = []
        for _ in range(60):
            traci.simulationStep()
            arrived += traci.simulation.getArrivedIDList()
        self.assertEqual((arrived, traci.vehicle.getIDList()), (["v"], ("later",)))
        with self.assertRaisesRegex(traci.TraCIException, "Vehicle 'v' is not known."):
            traci.vehicle.getSpeed("v")

    def test_lists_are_of_all_steps_of_a_call(self):
        """As in SUMO; a call that makes no step empties them, and a vehicle of the script is loaded until the next."""
        self.start(routes=f"""<routes><route id="r" edges="a b"/>{"".join(
            f'<vehicle id="{name}" depart="{depart}" route="r"/>' for name, depart in (("v", 0), ("w", 3), ("x", 5))
        )}</routes>""")
        simulation = traci.simulation

        def lists():
            return simulation.getLoadedIDList(), simulation.getDepartedIDList(), simulation.getArrivedIDList()

        traci.simulationStep()
        self.assertEqual(lists(), (("v",), ("v",), ()))
        traci.simulationStep(7)
        self.assertEqual((*lists(), simulation.getDepartedNumber()), (("w", "x"), ("w", "x"), (), 2))
        traci.vehicle.add("own", "r", depart="8")
        self.assertEqual(lists(), (("w", "x", "own"), ("w", "x"), ()))
        traci.simulationStep(7)
        self.assertEqual(lists(), ((), (), ()))
        traci.simulationStep(200)
        self.assertEqual((lists()[:2], sorted(lists()[2])), (((), ("own",)), ["own", "v", "w", "x"]))
        self.assertEqual((simulation.getArrivedNumber(), simulation.getLoadedNumber()), (4, 0))
        self.steps(1)
        self.assertEqual(lists(), ((), (), ()))

    def test_a_way_that_ends_where_the_vehicle_is(self):
        """It drives to the end of its edge, past the light, and arrives a second later; the run goes on."""
        self.start()
        traci.simulationStep()
        traci.vehicle.changeTarget("v", "a")
        self.assertEqual(traci.vehicle.getRoute("v"), ("a",))
        seen, arrived = [], []
        for _ in range(60):
            traci.simulationStep()
            seen += [traci.vehicle.getRoadID("v")] if "v" in traci.vehicle.getIDList() else []
            arrived += [name for name in traci.simulation.getArrivedIDList() if name == "v"]
        self.assertEqual((set(seen), arrived), ({"a"}, ["v"]))
        self.assertEqual(traci.simulation.getPendingVehicles(), ())
        self.assertEqual((traci.simulation.getTime(), traci.simulation.getMinExpectedNumber()), (61.0, 1))

    def test_who_is_told_for_a_later_second(self):
        """It is not pending before its second, also where it gets another way, and has not ended either."""
        self.start()
        traci.route.add("whole", ["a", "b"])
        traci.route.add("short", ["a"])
        traci.vehicle.add("x", "whole", depart=9)
        for change in (lambda: None, lambda: traci.vehicle.setRouteID("x", "short")):
            change()
            self.steps(3)
            self.assertEqual((traci.simulation.getPendingVehicles(), traci.lane.getPendingVehicles("a_0")), ((), ()))
            self.assertEqual(traci.simulation.getMinExpectedNumber(), 3)
            self.assertNotIn("x", traci.vehicle.getIDList())
        self.steps(4)
        self.assertIn("x", traci.vehicle.getIDList())

    def test_who_has_not_departed(self):
        self.start()
        traci.simulationStep()
        self.assertEqual(traci.vehicle.getSpeed("later"), tc.INVALID_DOUBLE_VALUE)
        self.assertEqual((traci.vehicle.getRoadID("later"), traci.vehicle.getRoute("later")), ("", ("a", "c")))
        self.assertEqual(traci.vehicle.getIDList(), ("v",))

    def test_waiting_at_red(self):
        """The light is red for all; at the stop line the vehicle stands, and all that tells of it says so."""
        self.start()
        traci.trafficlight.setRedYellowGreenState("L", "rr")
        self.steps(30)
        before = traci.vehicle.getWaitingTime("v")
        self.steps(10)
        self.assertEqual(traci.vehicle.getWaitingTime("v") - before, 10)
        self.assertEqual(
            (traci.vehicle.getLanePosition("v"), traci.vehicle.getSpeed("v"), traci.edge.getLastStepHaltingNumber("a")),
            (75.0, 0.0, 1),
        )
        self.assertEqual(
            (traci.lane.getLastStepVehicleIDs("a_0"), traci.lane.getLastStepMeanSpeed("a_0")), (("v",), 0.0)
        )
        self.assertEqual(
            (traci.lanearea.getJamLengthVehicle("area"), traci.lanearea.getLastStepVehicleIDs("area")), (1, ("v",))
        )
        self.assertEqual((traci.edge.getLastStepMeanSpeed("b"), traci.edge.getTraveltime("b")), (13.89, 75 / 13.89))
        self.assertEqual(traci.vehicle.getWaitingTime("v"), traci.edge.getWaitingTime("a"))
        self.assertEqual((traci.edge.getLastStepPersonIDs("a"), traci.edge.getLastStepVehicleIDs("a")), ((), ("v",)))

    def test_junctions(self):
        """Their outlines are closed, as SUMO's are."""
        outline = SIGNALLED.replace('<junction id="B"', '<junction id="B" shape="0,0 5,0 5,5"')
        self.start(outline)
        self.assertEqual(traci.junction.getIDList(), ("A", "B", "C", "D"))
        shapes = [tuple(traci.junction.getShape(name)) for name in "AB"]
        self.assertEqual(shapes, [(), ((0, 0), (5, 0), (5, 5), (0, 0))])

    def test_waiting_is_summed_up_in_parts(self):
        self.start()
        with unittest.mock.patch.object(tally, "MOST_SECONDS", 3):
            traci.trafficlight.setRedYellowGreenState("L", "rr")
            self.steps(30)
            before = traci.vehicle.getWaitingTime("v")
            self.steps(10)
            self.assertEqual(traci.vehicle.getWaitingTime("v") - before, 10)
            self.assertEqual(traci.vehicle.getAccumulatedWaitingTime("v"), traci.vehicle.getWaitingTime("v") + 1)

    def test_loop(self):
        """Each vehicle is seen, and the time since counts from the step at which it last was."""
        self.start()
        seen = []
        for _ in range(30):
            traci.simulationStep()
            if traci.inductionloop.getLastStepVehicleNumber("loop"):
                seen.append(traci.simulation.getTime())
                self.assertEqual(traci.inductionloop.getLastStepVehicleIDs("loop"), ("v",))
                self.assertEqual(traci.inductionloop.getTimeSinceDetection("loop"), 0)
        self.assertTrue(0 < len(seen) <= 4, seen)
        self.assertEqual(traci.inductionloop.getTimeSinceDetection("loop"), 30 - seen[-1])
        self.assertEqual(traci.inductionloop.getLastStepMeanSpeed("loop"), -1)

    def test_added_and_removed(self):
        self.start()
        traci.route.add("way", ["a", "c"])
        traci.vehicle.add("mine", "way")
        self.steps(8)
        self.assertIn("mine", traci.vehicle.getIDList())
        traci.vehicle.remove("mine")
        self.assertNotIn("mine", traci.vehicle.getIDList())
        for call in (lambda: traci.vehicle.add("v", "way"), lambda: traci.vehicle.add("x", "none")):
            with self.assertRaises(traci.TraCIException):
                call()

    def test_who_was_removed_is_on_no_lane(self):
        """Also before the next step: the one behind it, which had it as its leader, has none, and lists lack it."""
        self.start()
        traci.route.add("way", ["a", "b"])
        self.steps(3)
        traci.vehicle.add("behind", "way")
        self.steps(2)
        self.assertEqual(traci.vehicle.getLeader("behind")[0], "v")
        self.assertEqual(traci.vehicle.getFollower("v")[0], "behind")
        lane = traci.vehicle.getLaneID("v")
        traci.vehicle.remove("v")
        self.assertIsNone(traci.vehicle.getLeader("behind"))
        self.assertEqual(traci.lane.getLastStepVehicleIDs(lane), ("behind",))
        self.assertEqual(traci.lane.getLastStepVehicleNumber(lane), 1)
        self.assertEqual(traci.simulation.findRoute("a", "b").edges, ("a", "b"))
        traci.vehicle.remove("behind")
        self.assertEqual(traci.lane.getLastStepMeanSpeed(lane), traci.lane.getMaxSpeed(lane))

    def test_a_vehicle_that_is_refused(self):
        """It changes nothing of one that has its name, and the run goes on."""
        self.start()
        traci.route.add("way", ["a", "b"])
        traci.route.add("other", ["a", "c"])
        traci.vehicle.add("w", "way")
        with self.assertRaisesRegex(traci.TraCIException, "'w' exists already"):
            traci.vehicle.add("w", "other")
        with self.assertRaisesRegex(traci.TraCIException, "'later' exists already"):
            traci.vehicle.add("later", "other")
        self.assertEqual(traci.vehicle.getRouteID("w"), "way")
        for depart in ("x", "nan", float("inf"), -5, "1e12"):
            with self.subTest(depart), self.assertRaisesRegex(traci.TraCIException, "Invalid departure time"):
                traci.vehicle.add("x", "way", depart=depart)
        traci.simulationStep(3)
        self.assertEqual(set(traci.vehicle.getIDList()), {"v", "w"})

    def test_a_name_is_free_again_when_its_vehicle_has_ended(self):
        """As in SUMO, of the file and of a script; nothing of the one before is left but that it has arrived."""
        self.start()
        traci.route.add("way", ["a", "c"])
        traci.simulationStep()
        traci.vehicle.subscribe("v", [tc.VAR_ROAD_ID])
        traci.vehicle.setParameter("v", "key", "text")
        traci.vehicle.setColor("v", (1, 2, 3, 4))
        while "v" not in traci.simulation.getArrivedIDList():
            traci.simulationStep()
        for _ in range(2):
            traci.vehicle.add("v", "way")
            with self.assertRaisesRegex(traci.TraCIException, "'v' exists already"):
                traci.vehicle.add("v", "way")
            traci.simulationStep()
            self.assertEqual((traci.vehicle.getIDList(), traci.simulation.getDepartedIDList()), (("v",), ("v",)))
            self.assertEqual((traci.vehicle.getRoute("v"), traci.vehicle.getLaneID("v")), (("a", "c"), "a_1"))
            self.assertEqual(traci.vehicle.getAllSubscriptionResults(), {})
            self.assertEqual(traci.vehicle.getParameter("v", "key"), "")
            self.assertEqual((traci.vehicle.getColor("v"), traci.vehicle.getWaitingTime("v")), ((255, 255, 0, 255), 1))
            traci.vehicle.remove("v")
            self.assertEqual((traci.vehicle.getIDList(), traci.simulation.getMinExpectedNumber()), ((), 1))
        with self.assertRaisesRegex(traci.TraCIException, "Vehicle 'v' is not known"):
            traci.vehicle.getSpeed("v")

    def test_an_empty_lane_counts_for_an_edge_as_one_vehicle_at_the_limit(self):
        """As in SUMO's edge.getLastStepMeanSpeed and getTraveltime; v stands in the first cell of one of two lanes."""
        self.start()
        traci.simulationStep()
        self.assertEqual((traci.lane.getLastStepMeanSpeed("a_0"), traci.lane.getLastStepMeanSpeed("a_1")), (0, 13.89))
        self.assertEqual(traci.edge.getLastStepMeanSpeed("a"), 13.89 / 2)
        self.assertEqual(traci.edge.getTraveltime("a"), 150 / 13.89)

    def test_subscriptions(self):
        self.start()
        traci.vehicle.subscribe("v", [tc.VAR_SPEED, tc.VAR_ROAD_ID])
        traci.simulation.subscribe([tc.VAR_DEPARTED_VEHICLES_IDS, tc.VAR_TIME])
        traci.simulationStep()
        self.assertEqual(traci.vehicle.getSubscriptionResults("v"), {tc.VAR_SPEED: 0.0, tc.VAR_ROAD_ID: "a"})
        self.assertEqual(traci.vehicle.getAllSubscriptionResults().keys(), {"v"})
        self.assertEqual(
            traci.simulation.getSubscriptionResults(), {tc.VAR_DEPARTED_VEHICLES_IDS: ("v",), tc.VAR_TIME: 1.0}
        )
        with self.assertRaisesRegex(traci.TraCIException, "Vehicle 'z' is not known"):
            traci.vehicle.subscribe("z")
        with self.assertRaisesRegex(traci.NotHere, "variable 0x61 cannot be subscribed to"):
            traci.vehicle.subscribe("v", [0x61])

    def test_what_is_not_here(self):
        self.start()
        for call, told in (
            (lambda: traci.vehicle.setSpeed("v", 3), "vehicle.setSpeed is not here: speeds follow the rules alone"),
            (lambda: traci.gui.screenshot("View #0", "x.png"), "gui.screenshot is not here"),
            (
                lambda: traci.vehicle.getCO2Emission("v"),
                "vehicle.getCO2Emission is not here: emissions are not reckoned",
            ),
            (lambda: traci.person.getRoadID("p"), "person.getRoadID is not here: there are no persons"),
            (lambda: traci.trafficlight.setProgram("L", "off"), "no light is off here; hold states"),
            (lambda: traci.lane.setMaxSpeed("a_0", 3), "limits are the network's; change them there"),
        ):
            with self.assertRaisesRegex(traci.TraCIException, told):
                call()
        for domain, kind in (
            (traci.edge, "Edge"),
            (traci.lane, "Lane"),
            (traci.inductionloop, "Induction loop"),
            (traci.lanearea, "Lane area"),
        ):
            with self.assertRaisesRegex(traci.TraCIException, f"{kind}.* 'z' is not known"):
                domain.getLastStepVehicleNumber("z")
        self.assertFalse(hasattr(traci.lane, "getCO2Emission"))

    def test_one_run_at_a_time(self):
        with self.assertRaisesRegex(traci.FatalTraCIError, "Not connected"):
            traci.simulationStep()
        self.start()
        with self.assertRaisesRegex(traci.TraCIException, "one at a time"):
            traci.start(["sumo", "-n", "x"])
        traci.close()
        for words, told in (
            ([], "no network"),
            (["-n", "none.xml"], "No such file"),
            (["-n", "x", "--step-length", "0.5"], "steps are of one second"),
        ):
            with self.assertRaisesRegex(traci.FatalTraCIError, told):
                traci.start(["sumo", *words])

    def test_configuration(self):
        self.write("x.net.xml", SIGNALLED)
        self.write("x.rou.xml", ROUTES)
        text = (
            '<configuration><input><net-file value="x.net.xml"/><route-files '
            'value="x.rou.xml"/></input></configuration>'
        )
        traci.start(["sumo", "-c", self.write("x.sumocfg", text), "-W"])
        traci.simulationStep(60)
        self.assertEqual((traci.simulation.getTime(), traci.vehicle.getIDList()), (60.0, ("later",)))
        self.assertEqual(traci.simulation.getPendingVehicles(), ())
        with self.assertRaisesRegex(traci.TraCIException, "Vehicle 'v' is not known."):
            traci.vehicle.getRoadID("v")

    def test_configurations_and_additional_files_as_scenarios_have_them(self):
        """Any root, paths beside the file, short names; types and lights under the root <routes>."""
        self.write("x.net.xml", SIGNALLED)
        self.write("x.rou.xml", ROUTES)
        self.write("x.add.xml", '<routes><vType id="truck" length="12"/></routes>')
        inputs = '<net value="x.net.xml"/><route-files v="x.rou.xml"/><additional-files>x.add.xml</additional-files>'
        text = f'<c>{inputs}<vehroutes value="ways.xml"/><tripinfo value="old.xml"/><log value="log.txt"/></c>'
        words = ["sumo", "-c", self.write("x.sumo.cfg", text), "-W"]
        traci.start([*words, "--tripinfo-output", "/dev/null", "--end", "01:30:00"])
        self.assertEqual(traci.simulation.getEndTime(), 5400.0)
        self.assertEqual(traci.simulation.getOption("log"), str(self.folder / "log.txt"))
        traci.simulationStep(60)
        self.assertEqual(traci.vehicle.getIDList(), ("later",))
        traci.close()
        ways = ElementTree.parse(self.folder / "ways.xml").getroot()
        self.assertEqual([(one.get("id"), one.find("route").get("edges")) for one in ways], [("v", "a b")])
        self.assertFalse((self.folder / "old.xml").exists())

    @needs_sumo_tools
    def test_scenarios_of_bologna_open(self):
        """Their additional files have the roots <add> and <routes>; one has detectors with a file beside it."""
        for name in ("acosta", "joined", "pasubio"):
            parts = [f"{name}_{part}.add.xml" for part in ("vtypes", "detectors", "tls")]
            paths = [shutil.copy(SCENARIOS / name / part, self.folder) for part in parts]
            words = [
                "-n",
                str(SCENARIOS / f"{name}/{name}_buslanes.net.xml"),
                "-r",
                str(SCENARIOS / f"{name}/{name}.rou.xml"),
            ]
            traci.start(["sumo", *words, "-a", ",".join(paths), "--rounds", "0", "-W"])
            traci.simulationStep(60)
            self.assertGreater(traci.vehicle.getIDCount(), 20)
            traci.close()

    def test_options(self):
        """What SUMO does not know is refused by name."""
        given = ["sumo", "-n", self.write("x.net.xml", SIGNALLED), "-r", self.write("x.rou.xml", ROUTES)]
        for words, told in (
            (["--no-such-option"], "No option with the name 'no-such-option' exists."),
            (["-Z"], "No option with the name 'Z' exists."),
            (["--scale", "1.5"], "--scale 1.5: streetsim has nothing for it"),
            (["--step-length", "fast"], "steps are of one second"),
            (["--seed", "x"], "--seed: 'x' is not 0 to"),
            (["--end", "x"], "--end x: is no time"),
            (["--classes", "passenger,foo"], "--classes: SUMO has no vehicle class 'foo'"),
            (["--start", "true", "x.xml"], "'x.xml' is no option"),
        ):
            with self.subTest(words), self.assertRaisesRegex(traci.FatalTraCIError, re.escape(told)):
                traci.start([*given, *words])

    def test_what_is_told_at_the_start(self):
        skipped = '<vehicle id="bus" depart="1"><route edges="a b c"/></vehicle></routes>'
        words = [
            "sumo",
            "-n",
            self.write("x.net.xml", SIGNALLED),
            "-r",
            self.write("x.rou.xml", ROUTES.replace("</routes>", skipped)),
        ]
        words += ["--time-to-teleport", "-1", "--lateral-resolution", "0.8", "--no-step-log", "true", "--end", "90"]
        words += ["--ignore-route-errors"]
        for more, told in (([], True), (["--no-warnings"], False)):
            with redirect_stderr(StringIO()) as said:
                traci.start([*words, *more, "--log", str(self.folder / "log.txt"), "--classes", "passenger"])
            traci.close()
            text = (self.folder / "log.txt").read_text()
            self.assertIn("warning: --lateral-resolution 0.8 has no effect here: vehicles fill their lane", text)
            self.assertIn("skipped: 1 vehicles: ", text)
            self.assertNotIn("teleport", text)
            self.assertEqual(said.getvalue(), text if told else "")

    def test_files_that_are_not_written_are_told(self):
        """Files of additional files lie beside these, as in SUMO; what is not written is told by name, also without
        warnings, and the run goes on."""
        more = """<edgeData id="e" file="edges.xml" period="30"/><edgeData id="f" file="more.xml" begin="10" end="50"
            excludeEmpty="true"/><edgeData id="g" file="gas.xml" type="emissions"/><e3Detector id="h" file="e3.xml"/>
            <edgeData id="i" file="none/i.xml"/></additional>"""
        words = ["sumo", "-n", self.write("x.net.xml", SIGNALLED), "-r", self.write("x.rou.xml", ROUTES)]
        with redirect_stderr(StringIO()) as said:
            additional = self.write("x.add.xml", AREAS.replace("</additional>", more))
            traci.start([*words, "-a", additional, "-W", "--output-prefix", "my-", "--emission-output", "s.xml"])
        told = [line for line in said.getvalue().splitlines() if "not written" in line]
        for part in (
            "--emission-output s.xml is not written: emissions",
            "x of <laneAreaDetector> is not written: another element",
            "gas.xml of <edgeData> is not written: edgeData of type emissions",
            "e3.xml of <e3Detector> is not written:",
            "i.xml: ",
        ):  # fmt: skip
            self.assertEqual(sum(part in line for line in told), 1, told)
        self.assertEqual(len(told), 5)
        self.steps(60)
        traci.close()
        names = "edges.xml", "more.xml", "x"
        read = {name: ElementTree.parse(self.folder / f"my-{name}").getroot() for name in names}
        spans = {name: [(one.get("begin"), one.get("end")) for one in root] for name, root in read.items()}
        self.assertEqual(spans["edges.xml"], [("0.00", "30.00"), ("30.00", "60.00")])
        self.assertEqual(spans["more.xml"], [("10.00", "50.00")])
        self.assertEqual((len(spans["x"]), {one.get("id") for one in read["x"]}), (6, {"loop"}))
        self.assertEqual(read["edges.xml"][0].find("edge[@id='a']").get("departed"), "1")
        self.assertEqual([edge.get("id") for edge in read["more.xml"][0]], ["b"])

    def test_classes(self):
        """Buses alone may use the left lane, so that the network has it with --classes bus."""
        text = SIGNALLED.replace('id="a_1" index="1"', 'id="a_1" index="1" allow="bus"')
        for classes, lanes in (("passenger", {"a_0", "b_0", "c_0"}), ("passenger,bus", {"a_0", "a_1", "b_0", "c_0"})):
            traci.start(["sumo", "-n", self.write("x.net.xml", text), "--classes", classes, "-W"])
            self.assertEqual(set(traci.lane.getIDList()), lanes)
            traci.close()

    def test_types_and_routes_of_the_files(self):
        """What the files say of a vehicle, and what of it SUMO's words call;
        a vehicle is added on a route of the file."""
        routes = '''<routes><vType id="lorry" vClass="truck" length="12" maxSpeed="20"/><route id="way" edges="a b"/>
<vehicle id="l" type="lorry" depart="0" route="way"/>\
<vehicle id="own" depart="3"><route edges="a c"/></vehicle></routes>'''
        self.start(routes=routes)
        self.steps(3)
        self.assertEqual((traci.vehicle.getTypeID("l"), traci.vehicle.getVehicleClass("l")), ("lorry", "truck"))
        self.assertEqual((traci.vehicle.getRouteID("l"), traci.vehicle.getRouteID("own")), ("way", "!own"))
        self.assertEqual((traci.vehicle.getMaxSpeed("l"), traci.vehicle.getAllowedSpeed("l")), (20.0, 13.89))
        self.assertEqual(traci.vehicletype.getIDList(), ("DEFAULT_VEHTYPE", "lorry"))
        self.assertEqual((traci.vehicletype.getLength("lorry"), traci.vehicletype.getMinGap("lorry")), (12.0, 2.5))
        traci.vehicle.add("new", "way", typeID="lorry")
        self.steps(10)
        self.assertEqual((traci.vehicle.getLength("new"), traci.vehicle.getRouteID("new")), (12.5, "way"))
        self.assertIn("way", traci.route.getIDList())
        self.assertEqual(traci.route.getEdges("way"), ("a", "b"))
        with self.assertRaisesRegex(traci.TraCIException, "type 'none' is not known"):
            traci.vehicle.add("x", "way", typeID="none")

    def test_ahead_and_behind(self):
        """At red one stands behind the other: 5 m of a vehicle and no free cell between them;
        what lies ahead is told in metres."""
        self.start(routes=ROUTES.replace('depart="50"', 'depart="4"').replace("a c", "a b"))
        traci.trafficlight.setRedYellowGreenState("L", "rr")
        self.steps(40)
        self.assertEqual(traci.vehicle.getLeader("later"), ("v", 0.0))
        self.assertIsNone(traci.vehicle.getLeader("v"))
        self.assertEqual(
            (traci.vehicle.getFollower("v"), traci.vehicle.getFollower("later")), (("later", 0.0), ("", -1.0))
        )
        self.assertEqual(traci.vehicle.getNextTLS("v"), (("L", 0, 0.0, "r"),))
        [(*light, metres, state)] = traci.vehicle.getNextTLS("later")
        self.assertEqual((light, state), (["L", 0], "r"))
        cells = traci.vehicle.session().map.links[0].cells
        self.assertAlmostEqual(metres, 75 / cells)
        self.assertEqual(
            (traci.vehicle.getDrivingDistance("v", "b", 30), traci.vehicle.getDrivingDistance("v", "a", 10)),
            (30.0, tc.INVALID_DOUBLE_VALUE),
        )
        driven = 75 * (cells - 1) / cells
        self.assertEqual((traci.vehicle.getDistance("v"), traci.vehicle.getAngle("v")), (driven, 90.0))
        self.assertFalse(traci.vehicle.isStopped("v"))
        lost = traci.vehicle.getTimeLoss("v")
        self.steps(10)
        self.assertEqual((traci.vehicle.getTimeLoss("v"), traci.vehicle.getAcceleration("v")), (lost + 10, 0.0))

    def test_links_and_junctions(self):
        self.start()
        traci.simulationStep()
        self.assertEqual([link[0] for link in traci.lane.getLinks("a_0")], ["b_0"])
        self.assertEqual((traci.lane.getLinkNumber("a_0"), traci.lane.getShape("a_0")), (1, ((0.0, 0.0), (75.0, 0.0))))
        self.assertIn("b", {link.edge for link in traci.junction.session().map.links})
        node = traci.junction.session().map.nodes[traci.junction.session().map.links[0].end][0]
        traci.junction.subscribeContext(node, tc.CMD_GET_VEHICLE_VARIABLE, 1000, [tc.VAR_SPEED])
        self.assertEqual(traci.junction.getContextSubscriptionResults(node), {"v": {tc.VAR_SPEED: 0.0}})
        self.assertEqual(traci.junction.getAllContextSubscriptionResults(), {node: {"v": {tc.VAR_SPEED: 0.0}}})
        traci.junction.subscribeContext(node, tc.CMD_GET_VEHICLE_VARIABLE, 5, [tc.VAR_SPEED])
        self.assertEqual(traci.junction.getContextSubscriptionResults(node), {})
        with self.assertRaisesRegex(traci.NotHere, "nothing is looked for, but of vehicles"):
            traci.junction.subscribeContext(node, 0xAA, 30)
        traci.junction.unsubscribeContext(node, tc.CMD_GET_VEHICLE_VARIABLE, 30)
        self.assertEqual(traci.junction.getContextSubscriptionResults(node), {})

    def test_parameters(self):
        self.start()
        traci.vehicle.setParameter("v", "owner", "post")
        self.assertEqual(
            (traci.vehicle.getParameter("v", "owner"), traci.vehicle.getParameter("v", "none")), ("post", "")
        )
        self.assertEqual(traci.vehicle.getParameterWithKey("v", "owner"), ("owner", "post"))
        with self.assertRaisesRegex(traci.NotHere, "a model of SUMO's"):
            traci.vehicle.setParameter("v", "device.rerouting.period", "10")

    def test_other_ways(self):
        """One that has not departed, and one on its link, which is taken out at the node and goes on under its name."""
        self.start()
        traci.vehicle.setRoute("later", ["a", "b"])
        self.assertEqual(traci.vehicle.getRoute("later"), ("a", "b"))
        self.steps(3)
        traci.vehicle.changeTarget("v", "c")
        self.assertEqual((traci.vehicle.getRoute("v"), traci.vehicle.getRouteIndex("v")), (("a", "c"), 0))
        roads, arrived = [], []
        for _ in range(120):
            traci.simulationStep()
            arrived += traci.simulation.getArrivedIDList()
            self.assertNotIn("v", traci.simulation.getDepartedIDList())
            roads += [traci.vehicle.getRoadID("v")] if "v" in traci.vehicle.getIDList() else []
        self.assertEqual((arrived, traci.simulation.getMinExpectedNumber()), (["v", "later"], 0))
        self.assertEqual([road for road in dict.fromkeys(roads) if not road.startswith(":")], ["a", "c"])
        with self.assertRaisesRegex(traci.TraCIException, "Vehicle 'v' is not known"):
            traci.vehicle.setRoute("v", ["a", "b"])

    def test_other_ways_in_a_junction(self):
        """Of several the last one is driven, though the vehicle is already to enter on the first."""
        self.start()
        while not traci.vehicle.getRoadID("v").startswith(":"):
            traci.simulationStep()
        for edges in (["a", "c"], ["a", "b"], ["a", "c"], ["a", "b"]):
            traci.vehicle.setRoute("v", edges)
            self.assertEqual((traci.vehicle.getRoute("v"), traci.vehicle.getRoadID("v")), (tuple(edges), ":B"))
        self.assertEqual((traci.vehicle.getIDList(), traci.simulation.getMinExpectedNumber()), (("v",), 2))
        traci.simulationStep()
        self.assertEqual((traci.vehicle.getRoadID("v"), traci.vehicle.getRouteIndex("v")), ("b", 1))
        traci.vehicle.setRoute("v", ["b"])
        self.steps(20)
        self.assertEqual((traci.vehicle.getIDList(), traci.simulation.getMinExpectedNumber()), ((), 1))

    def test_ways_by_travel_times(self):
        self.start()
        stage = traci.simulation.findRoute("a", "c")
        self.assertEqual((stage.edges, stage.length), (("a", "c"), 150.0))
        traci.edge.adaptTraveltime("c", 400)
        self.assertEqual(traci.edge.getAdaptedTraveltime("c", 0), 400.0)
        self.assertGreater(traci.simulation.findRoute("a", "c").travelTime, 400)
        self.assertEqual(traci.simulation.getDistanceRoad("a", 10, "c", 5, True), 70.0)
        with self.assertRaisesRegex(traci.TraCIException, "No way from edge 'b' to edge 'c'"):
            traci.simulation.findRoute("b", "c")
        with self.assertRaisesRegex(traci.TraCIException, "must begin with the edge 'a'"):
            traci.vehicle.setRoute("later", ["b"])

    def test_rounds(self):
        """A vehicle that comes to an edge again is there for the second time, for its way ahead too."""
        ring = net(
            [("a", "A", "B", [lane("a", 0)]), ("b", "B", "A", [lane("b", 0)]), ("c", "B", "C", [lane("c", 0)])],
            [("a", 0, "b", 0, ""), ("b", 0, "a", 0, ""), ("a", 0, "c", 0, "")],
        )
        self.start(ring, '<routes><vehicle id="v" depart="0"><route edges="a b a b a c"/></vehicle></routes>', "<add/>")
        vehicle, seen = traci.vehicle, []
        for _ in range(60):
            traci.simulationStep()
            here = vehicle.getRouteIndex("v"), vehicle.getRoadID("v")
            if ":" not in here[1] and here not in seen:
                seen.append(here)
            if here == (2, "a"):
                break
        self.assertEqual(seen, [(0, "a"), (1, "b"), (2, "a")])
        to_c = 75 - vehicle.getLanePosition("v") + 75 + 75 + 10  # by b and a
        self.assertAlmostEqual(vehicle.getDrivingDistance("v", "c", 10), to_c)
        vehicle.setRoute("v", ["a", "b", "a", "b", "a", "c"])  # a round more than it has left
        self.assertEqual(vehicle.getRoute("v"), ("a", "b", "a", "b", "a", "b", "a", "c"))
        path = str(self.folder / "state.json")
        traci.simulation.saveState(path)
        traci.simulation.loadState(path)
        self.assertEqual(vehicle.getRouteIndex("v"), 2)
        while traci.simulation.getMinExpectedNumber():
            at = vehicle.getRouteIndex("v")
            traci.simulationStep()
        self.assertEqual(at, 7)

    def test_places_on_edges(self):
        """Lane a is drawn half as long as it is; back along it a vehicle goes round by b, of 75 m."""
        drawn = lane("a", 0).replace('length="75.0"', 'length="150"')
        ring = net(
            [("a", "A", "B", [drawn]), ("b", "B", "A", [lane("b", 0).replace("0,0 75.0,0", "75,9 0,9")])],
            [("a", 0, "b", 0, ""), ("b", 0, "a", 0, "")],
        )
        self.start(ring, "<routes/>", "<additional/>")
        simulation = traci.simulation
        self.assertEqual(simulation.convert2D("a", 60), (30, 0))
        self.assertEqual(simulation.convertRoad(30, 0), ("a", 60, 0))
        self.assertEqual(simulation.getDistanceRoad("a", 20, "a", 50, True), 30)
        self.assertEqual(simulation.getDistanceRoad("a", 50, "a", 20, True), 100 + 75 + 20)
        self.assertEqual(simulation.getDistanceRoad("b", 50, "a", 20, True), 25 + 20)
        for place in (-1, 151):
            with self.assertRaisesRegex(traci.TraCIException, "no place at"):
                simulation.convert2D("a", place)
            with self.assertRaisesRegex(traci.TraCIException, "no place at"):
                simulation.getDistanceRoad("b", 0, "a", place, True)
        traci.close()
        self.start()
        with self.assertRaisesRegex(traci.TraCIException, "No way from edge 'a' to edge 'a'"):
            simulation.getDistanceRoad("a", 50, "a", 20, True)
        with self.assertRaisesRegex(traci.TraCIException, "Lane 'a_7' is not known"):
            simulation.convert2D("a", 50, 7)

    def test_places_on_edges_with_a_pavement(self):
        """Places count along lane 0, as in SUMO, also where that is for others than those who are imported."""
        two = {name: [lane(name, 0, more='allow="pedestrian"'), lane(name, 1)] for name in "ab"}
        paved = [two["a"][0].replace("a_", "p_")]
        edges = [("a", "A", "B", two["a"]), ("b", "B", "C", two["b"]), ("p", "C", "A", paved)]
        self.start(net(edges, [("a", 1, "b", 1, "")]), "<routes/>", "<additional/>")
        simulation = traci.simulation
        self.assertEqual(traci.lane.getIDList(), ("a_1", "b_1"))
        self.assertEqual(simulation.getDistanceRoad("a", 20, "a", 50, True), 30)
        self.assertEqual(simulation.getDistanceRoad("a", 20, "b", 5, True), 55 + 5)
        self.assertEqual(simulation.getDistance2D(20, 0, 50, 0, isDriving=True), 30)
        self.assertEqual((simulation.convert2D("a", 20), simulation.convert2D("a", 20, 1)), ((20, 0), (20, 0)))
        with self.assertRaisesRegex(traci.TraCIException, "Lane 'p_0' is not known"):
            simulation.convert2D("p", 20)

    def test_states(self):
        """What follows a state is the same, in this run and in another one that loads it."""

        def trace():
            seen = []
            for _ in range(60):
                traci.simulationStep()
                seen.append(
                    [
                        (name, traci.vehicle.getPosition(name), traci.vehicle.getWaitingTime(name))
                        for name in traci.vehicle.getIDList()
                    ]
                )
                seen.append(
                    (traci.simulation.getTime(), traci.trafficlight.getPhase("L"), traci.simulation.getArrivedIDList())
                )
            return seen

        self.start()
        traci.trafficlight.setPhaseDuration("L", 40)
        self.steps(20)
        path = str(self.folder / "state.json")
        traci.simulation.saveState(path)
        first = trace()
        traci.simulation.loadState(path)
        self.assertEqual(traci.simulation.getTime(), 20)
        self.assertEqual(trace(), first)
        traci.close()
        self.start()
        traci.simulation.loadState(path)
        self.assertEqual(trace(), first)
        traci.close()
        self.start()
        traci.simulation.loadState(path)
        traci.simulationStep(200)  # all have arrived meanwhile
        self.assertEqual((traci.simulation.getPendingVehicles(), traci.vehicle.getIDList()), ((), ()))
        for name in ("v", "later"):
            with self.assertRaisesRegex(traci.TraCIException, f"Vehicle '{name}' is not known."):
                traci.vehicle.getRoadID(name)
        with self.assertRaisesRegex(traci.TraCIException, "not a state"):
            traci.simulation.loadState(self.write("x.json", "{}"))
        traci.close()
        self.start(routes=ROUTES.replace("later", "other"))
        with self.assertRaisesRegex(traci.TraCIException, "state.json: a state of other routes"):
            traci.simulation.loadState(path)

    def test_output_files_are_those_of_a_run_that_came_to_the_state(self):
        """What was written after the state that is loaded is not in them; also in another run, and of detectors."""
        words = ["sumo", "-n", self.write("x.net.xml", SIGNALLED), "-r", self.write("x.rou.xml", ROUTES), "-W"]
        words += ["-a", self.write("x.add.xml", AREAS)]
        path, kinds, told = str(self.folder / "state.json"), ("fcd", "tripinfo", "vehroute", "statistic"), []
        for how in ("straight", "back", "loaded"):
            files = [self.folder / f"{how}.{kind}" for kind in kinds]
            outputs = [word for kind, file in zip(kinds, files) for word in (f"--{kind}-output", str(file))]
            with redirect_stderr(StringIO()):
                traci.start([*words, *outputs])
            if how == "back":
                self.steps(20)
                traci.simulation.saveState(path)
                traci.trafficlight.setRedYellowGreenState("L", "rr")
                self.steps(70)
            if how != "straight":
                traci.simulation.loadState(path)
            traci.simulationStep(150)
            traci.close()
            told.append([file.read_bytes() for file in [*files, self.folder / "x"]])
        self.assertEqual(told[1:], [told[0]] * 2)
        self.assertIn(b'<timestep time="149.00">', told[0][0])

    def test_a_state_that_was_changed_by_hand_is_a_fault(self):
        self.start()
        self.steps(2)
        path = self.folder / "state.json"
        traci.simulation.saveState(str(path))
        state = json.loads(path.read_text())
        deeds = [["hold", ["K", "rr"]], ["hold", ["L", "x"]], ["close", []], ["hold", []]]
        changed = [{"done": [[0, "control", *one]]} for one in deeds]
        changed += [{"of": None}, {"done": [[1]]}, {"done": [[0, "lights", "hold", ["L", "rr"]]]}, {"clock": -1}]
        for other in (*changed, *({name: ...} for name in state if name != "format")):
            [(name, value)] = other.items()
            rest = {key: own for key, own in state.items() if key != name}
            with self.subTest(name), self.assertRaisesRegex(Fault, "x.json: was changed after saveState wrote it"):
                traci.simulation.loadState(self.write("x.json", json.dumps(rest | ({} if value is ... else other))))

    def test_a_state_has_what_a_script_made(self):
        """Routes, programs of lights and travel times go with it into another run; what was made after it does not."""
        self.start()
        program = traci.trafficlight.Logic("mine", 0, 0, [traci.trafficlight.Phase(20, "Gr", name="own")])
        traci.trafficlight.setProgramLogic("L", program)
        traci.trafficlight.setProgram("L", "day")
        traci.route.add("way", ["a", "c"])
        traci.vehicle.add("w", "way")
        traci.edge.adaptTraveltime("c", 90)
        traci.simulationStep(3)
        path = str(self.folder / "state.json")
        traci.simulation.saveState(path)
        for anew in (False, True):
            if anew:
                traci.close()
                self.start()
            traci.route.add("late", ["a", "b"])
            traci.edge.adaptTraveltime("b", 70)
            traci.simulation.loadState(path)
            self.assertEqual(traci.route.getIDList(), ("way",))
            self.assertEqual(traci.route.getEdges(traci.vehicle.getRouteID("w")), ("a", "c"))
            self.assertEqual([traci.edge.getAdaptedTraveltime(name, 0) for name in "bc"], [-1.0, 90.0])
            traci.trafficlight.setProgram("L", "mine")
            light = traci.trafficlight
            self.assertEqual((light.getPhaseName("L"), light.getPhaseDuration("L")), ("own", 20))

    def test_steps_into_the_past_are_none_and_listeners_are_told(self):
        class Listener(traci.StepListener):
            def __init__(self):
                self.times = []

            def step(self, t=0):
                self.times.append(traci.simulation.getTime())
                return len(self.times) < 2

        self.start()
        listener = Listener()
        self.assertEqual((traci.addStepListener(listener), listener.getID()), (0, 0))
        traci.simulationStep(10)
        traci.simulationStep(3)
        self.assertEqual(traci.simulation.getTime(), 10)
        traci.simulationStep()
        self.assertEqual(listener.times, [10.0, 10.0])
        self.assertFalse(traci.removeStepListener(0))

    def test_a_listener_cleans_up_while_the_run_answers(self):
        ended = []

        class Listener(traci.StepListener):
            def __init__(self, times):
                self.times = times

            def step(self, t=0):
                self.times -= 1
                return self.times > 0

            def cleanUp(self):
                ended.append((self.getID(), traci.simulation.getTime()))

        self.start()
        for times in (1, 9, 9):
            traci.addStepListener(Listener(times))
        traci.simulationStep()
        self.assertTrue(traci.removeStepListener(2))
        traci.simulationStep()
        traci.close()
        self.assertEqual(ended, [(0, 1.0), (2, 1.0), (1, 2.0)])

    def test_a_run_ends_also_where_a_listener_fails(self):
        class Listener(traci.StepListener):
            def cleanUp(self):
                raise LookupError

        self.start()
        process = traci._current_session().client.process
        traci.addStepListener(Listener())
        with self.assertRaises(LookupError):
            traci.close()
        self.assertEqual((process.poll(), traci.isLoaded()), (0, False))
        self.start()
        traci.close()  # the listener is no longer there

    def test_a_run_whose_outputs_cannot_be_written_ends(self):
        words = ["sumo", "-n", self.write("x.net.xml", SIGNALLED), "-r", self.write("x.rou.xml", ROUTES), "-W"]
        for option in ("--tripinfo-output", "--log"):
            really = TraciSession.finish
            with unittest.mock.patch.object(TraciSession, "finish", autospec=True, side_effect=really) as finish:
                with self.assertRaisesRegex(traci.FatalTraCIError, "No such file or directory"):
                    traci.start([*words, option, str(self.folder / "no/x.xml")])
            finish.assert_called_once()

    def test_a_run_ends_also_where_its_outputs_fail(self):
        words = ["sumo", "-n", self.write("x.net.xml", SIGNALLED), "-r", self.write("x.rou.xml", ROUTES), "-W"]
        traci.start([*words, "--summary-output", str(self.folder / "x.xml")])
        session = traci._current_session()
        self.addCleanup(session.writer.close)
        with unittest.mock.patch.object(session.writer, "close", side_effect=Fault("full")):
            with self.assertRaisesRegex(Fault, "full"):
                traci.close()
        self.assertEqual(session.client.process.poll(), 0)

    def test_labels(self):
        words = ["sumo", "-n", self.write("x.net.xml", SIGNALLED), "-r", self.write("x.rou.xml", ROUTES), "-W"]
        traci.start(words, label="one")
        connection = traci.getConnection("one")
        connection.simulationStep()
        self.assertEqual((connection.simulation.getTime(), traci.getLabel()), (1.0, "one"))
        with self.assertRaisesRegex(traci.TraCIException, "'two' is not known"):
            traci.getConnection("two")
        connection.close()
        self.assertFalse(traci.isLoaded())

    def test_what_nothing_shows(self):
        self.start()
        with redirect_stderr(StringIO()) as said:
            traci.gui.setZoom("View #0", 500)
            traci.gui.trackVehicle("View #0", "v")
            traci.vehicle.setColor("v", (255, 0, 0, 255))
        self.assertEqual(said.getvalue().count("shows nothing here"), 1)
        self.assertEqual(traci.vehicle.getColor("v"), (255, 0, 0, 255))
        self.assertEqual(traci.vehicle.getParameter("v", "color"), "")
        traci.vehicle.setParameter("later", "color", "red")
        self.assertEqual(traci.vehicle.getColor("later"), (255, 255, 0, 255))

    def test_outputs(self):
        """Tripinfo and summary of two vehicles, one of which a script sends another way; half a file is none."""
        words = ["sumo", "-n", self.write("x.net.xml", SIGNALLED), "-r", self.write("x.rou.xml", ROUTES), "-W"]
        for kind in ("tripinfo", "summary", "fcd"):
            words += [f"--{kind}-output", str(self.folder / f"{kind}.xml")]
        traci.start([*words, "--output-prefix", "my-"])
        self.steps(3)
        traci.vehicle.setRoute("v", ["a", "c"])
        while traci.simulation.getMinExpectedNumber() > 0:
            traci.simulationStep()
        self.assertFalse((self.folder / "my-tripinfo.xml").exists())
        end = int(traci.simulation.getTime())
        traci.close()
        trips = {one.get("id"): one for one in ElementTree.parse(self.folder / "my-tripinfo.xml").getroot()}
        self.assertEqual({name: one.get("arrivalLane") for name, one in trips.items()}, {"v": "c_0", "later": "c_0"})
        self.assertEqual({float(one.get("depart")) for one in trips.values()}, {0.0, 50.0})
        steps = ElementTree.parse(self.folder / "my-summary.xml").getroot()
        self.assertEqual((len(steps), steps[-1].get("arrived")), (end, "2"))


class Lights(Started):
    def test_states(self):
        """Offset 5: the first phase runs from 5 to 14, the second from 15 to 19, the third from 20 to 34 and so from 0
        to 4; as in SUMO, a clock tells the step that ends there, and the first one that which begins."""
        self.start()
        told = []
        for _ in range(35):
            told.append(
                (
                    traci.trafficlight.getPhase("L"),
                    traci.trafficlight.getRedYellowGreenState("L"),
                    traci.trafficlight.getNextSwitch("L"),
                )
            )
            traci.simulationStep()
        third, first, second = (2, "rG"), (0, "Gr"), (1, "yr")
        expected = [(*third, 5.0)] * 6 + [(*first, 15.0)] * 10 + [(*second, 20.0)] * 5 + [(*third, 35.0)] * 14
        self.assertEqual(told, expected)
        self.assertEqual(
            (traci.trafficlight.getControlledLanes("L"), traci.trafficlight.getProgram("L")), (("a_0", "a_1"), "day")
        )

    def test_phase(self):
        self.start()
        traci.simulationStep(7)
        traci.trafficlight.setPhase("L", 2)
        self.assertEqual((traci.trafficlight.getPhase("L"), traci.trafficlight.getNextSwitch("L")), (2, 22.0))
        traci.simulationStep(22)
        self.assertEqual((traci.trafficlight.getPhase("L"), traci.trafficlight.getNextSwitch("L")), (2, 22.0))
        traci.trafficlight.setPhaseDuration("L", 1)  # it is still to end, so it may go on
        traci.simulationStep(24)
        self.assertEqual((traci.trafficlight.getPhase("L"), traci.trafficlight.getNextSwitch("L")), (0, 33.0))
        traci.trafficlight.setPhaseDuration("L", 3)
        self.assertEqual((traci.trafficlight.getPhase("L"), traci.trafficlight.getNextSwitch("L")), (0, 27.0))
        traci.simulationStep(28)
        self.assertEqual((traci.trafficlight.getPhase("L"), traci.trafficlight.getNextSwitch("L")), (1, 32.0))

    def test_an_offset_that_another_file_gives(self):
        """As SUMO's tlsCoordinator writes it: of 30 s the first phase begins at 12. A program off is no other one."""
        alone, off = '<tlLogic id="L" programID="day" offset="12"/>', LIGHT.replace('"day"', '"off"')
        self.start(additional=f"<additional>{alone}{off}</additional>")
        light = traci.trafficlight
        self.assertEqual((light.getProgram("L"), light.getPhase("L"), light.getNextSwitch("L")), ("day", 2, 12.0))
        traci.simulationStep(13)
        self.assertEqual((light.getPhase("L"), light.getRedYellowGreenState("L")), (0, "Gr"))
        self.assertEqual([one.programID for one in light.getAllProgramLogics("L")], ["day"])

    def test_a_phase_that_is_extended_stays(self):
        """Beyond its end by the program, also where a script sets the end anew there; SUMO 1.15 tells the same."""
        self.start()
        light = traci.trafficlight

        def told():
            return light.getPhase("L"), light.getRedYellowGreenState("L"), light.getNextSwitch("L")

        traci.simulationStep(7)
        light.setPhaseDuration("L", 30)
        traci.simulationStep(30)
        self.assertEqual(told(), (0, "Gr", 37.0))
        light.setPhaseDuration("L", 4)
        traci.simulationStep(33)
        self.assertEqual(told(), (0, "Gr", 34.0))
        traci.simulationStep(35)
        self.assertEqual(told(), (1, "yr", 39.0))

    def test_a_phase_that_is_set_anew_while_it_is_shown_goes_on(self):
        """It ends its seconds from then on, as in SUMO; who gives way in it goes, though it never comes to its end."""
        self.start(SIGNALLED.replace('state="Gr"', 'state="gr"'))
        light = traci.trafficlight
        traci.simulationStep(6)
        for clock in range(6, 40):
            light.setPhase("L", 0)
            self.assertEqual((light.getPhase("L"), light.getNextSwitch("L")), (0, clock + 10))
            traci.simulationStep()
        self.assertNotIn("v", traci.vehicle.getIDList())
        traci.simulationStep(48)
        self.assertEqual((light.getPhase("L"), light.getNextSwitch("L")), (0, 49.0))
        traci.simulationStep(50)
        self.assertEqual((light.getPhase("L"), light.getNextSwitch("L")), (1, 54.0))

    def test_programs_go_on_unseen_from_where_a_script_left_them(self):
        """As in SUMO: the third phase is set at 7 s, so that a cycle of 30 s begins at 22; a cycle of 28 s of a program
        of the script begins at 10 s, as its second phase does at 30; and a phase is told to end at 100 s."""
        self.start()
        light, state = traci.trafficlight, str(self.folder / "state.json")

        def told():
            return light.getProgram("L"), light.getPhase("L"), light.getNextSwitch("L")

        traci.simulationStep(7)
        light.setPhase("L", 2)
        traci.simulationStep(8)
        light.setProgram("L", "day")
        self.assertEqual(told(), ("day", 2, 22.0))
        light.setRedYellowGreenState("L", "rr")
        traci.simulationStep(25)
        light.setProgram("L", "day")
        self.assertEqual(told(), ("day", 0, 32.0))
        traci.simulationStep(30)
        phases = [light.Phase(20, "rr"), light.Phase(8, "GG")]
        light.setProgramLogic("L", light.Logic("mine", 0, 1, phases))
        traci.simulationStep(33)
        light.setProgram("L", "day")
        traci.simulation.saveState(state)
        traci.close()
        self.start()
        traci.simulation.loadState(state)
        traci.simulationStep(60)
        light.setProgram("L", "mine")
        self.assertEqual(told(), ("mine", 1, 66.0))
        traci.simulationStep(90)
        light.setProgram("L", "day")
        self.assertEqual(told(), ("day", 0, 92.0))
        light.setPhaseDuration("L", 10)
        light.setProgram("L", "mine")
        traci.simulationStep(101)
        light.setProgram("L", "day")
        self.assertEqual(told(), ("day", 1, 105.0))

    def test_program(self):
        self.start()
        logic = traci.trafficlight.Logic(
            "mine", 0, 1, [traci.trafficlight.Phase(20, "rr"), traci.trafficlight.Phase(8, "GG")]
        )
        traci.trafficlight.setProgramLogic("L", logic)
        self.assertEqual(
            (
                traci.trafficlight.getProgram("L"),
                traci.trafficlight.getRedYellowGreenState("L"),
                traci.trafficlight.getNextSwitch("L"),
            ),
            ("mine", "GG", 8.0),
        )
        shown, *_ = traci.trafficlight.getAllProgramLogics("L")
        self.assertEqual([(phase.duration, phase.state) for phase in shown.phases], [(20, "rr"), (8, "GG")])

    def test_a_program_that_is_refused_changes_nothing(self):
        self.start()
        light, phase = traci.trafficlight, traci.trafficlight.Phase

        def told():
            programs = [one.programID for one in light.getAllProgramLogics("L")]
            return light.getProgram("L"), light.getRedYellowGreenState("L"), light.getNextSwitch("L"), programs

        traci.simulationStep(7)
        before = told()
        self.assertEqual(before, ("day", "Gr", 15.0, ["day"]))
        for seconds in (300_000, 0.2, float("inf"), float("nan")):
            with self.subTest(seconds), self.assertRaises(traci.TraCIException):
                light.setProgramLogic("L", light.Logic("mine", 0, 0, [phase(seconds, "GG")]))
            self.assertEqual(told(), before)
        with self.assertRaisesRegex(traci.TraCIException, "has no phase 1"):
            light.setProgramLogic("L", light.Logic("mine", 0, 1, [phase(9, "GG")]))
        for seconds in (-1, float("inf"), float("nan")):
            with self.subTest(seconds), self.assertRaisesRegex(traci.TraCIException, "a phase of"):
                light.setPhaseDuration("L", seconds)
        self.assertEqual(told(), before)

    def test_a_program_that_does_not_fit_in_one_plan(self):
        """Red for 700 s of 9,800; a state that is saved within goes on with it, also in another run."""
        self.start()
        phases = [traci.trafficlight.Phase(700, "rr"), traci.trafficlight.Phase(9100, "GG")]
        traci.trafficlight.setProgramLogic("L", traci.trafficlight.Logic("long", 0, 0, phases))
        traci.simulationStep(300)
        path = str(self.folder / "state.json")
        traci.simulation.saveState(path)
        for anew in (False, True):
            if anew:
                traci.close()
                self.start()
                traci.simulation.loadState(path)
            traci.simulationStep(700)
            self.assertEqual((traci.vehicle.getRoadID("v"), traci.trafficlight.getNextSwitch("L")), ("a", 700.0))
            traci.simulationStep(703)
            self.assertEqual(traci.trafficlight.getNextSwitch("L"), 9800.0)
            self.assertNotEqual(traci.vehicle.getRoadID("v"), "a")

    def test_vehicles_of_an_edge_and_how_full_it_is(self):
        """As in SUMO: lane after lane, the rearmost first; the occupancy of lanes and edges is a share, not percent."""
        self.start(routes=f"""<routes>{"".join(
            f'<vehicle id="{name}" depart="{depart}"><route edges="a {to}"/></vehicle>'
            for name, depart, to in (("v", 0, "b"), ("w", 1, "c"), ("x", 9, "b"))
        )}</routes>""")
        traci.trafficlight.setRedYellowGreenState("L", "rr")
        traci.simulationStep(60)
        self.assertEqual(traci.edge.getLastStepVehicleIDs("a"), ("x", "v", "w"))
        metres = traci.lane.getLength("a_0")
        self.assertAlmostEqual(traci.lane.getLastStepOccupancy("a_0"), 2 * 5 / metres)
        self.assertAlmostEqual(traci.edge.getLastStepOccupancy("a"), 3 * 5 / (2 * metres))
        area = 100 * 2 * 5 / traci.lanearea.getLength("area")
        self.assertAlmostEqual(traci.lanearea.getLastStepOccupancy("area"), area)

    def test_what_is_shown_is_driven(self):
        self.start()
        traci.trafficlight.setRedYellowGreenState("L", "rr")
        self.steps(40)
        self.assertEqual(traci.vehicle.getRoadID("v"), "a")
        traci.trafficlight.setRedYellowGreenState("L", "gr")
        self.steps(6)
        self.assertNotEqual(traci.vehicle.getRoadID("v"), "a")

    def test_a_state_is_sent_as_a_whole_program_of_it(self):
        """By setProgramLogic of Scenario, which looks at each second; in less than a millisecond, the least of many."""
        self.start()
        session, states = traci._current_session(), ("rr", "Gr", "yG", "GG", "sO", "uU", "or")
        for clock, state in enumerate(states):
            traci.simulationStep(3 * clock + 1)
            traci.trafficlight.setRedYellowGreenState("L", state)
            TrafficLight(session).setProgramLogic("L", [(600, state)], session.clock % 600)
        sent = [line for line in session.client.changes if line.startswith(b'{"cmd":"signal"')][-2 * len(states) :]
        self.assertEqual(sent[::2], sent[1::2])
        times = []
        for state in 100 * ["GG", "rr"]:
            begin = time.perf_counter()
            traci.trafficlight.setRedYellowGreenState("L", state)
            times.append(time.perf_counter() - begin)
        self.assertLess(min(times), 0.001)

    def test_refused(self):
        self.start()
        phase = traci.trafficlight.Phase
        for call, told in (
            (lambda: traci.trafficlight.setRedYellowGreenState("L", "Gx"), "'x' is no state of a signal"),
            (lambda: traci.trafficlight.setRedYellowGreenState("L", "G"), "has 2 signals, the state 'G' has 1"),
            (lambda: traci.trafficlight.setRedYellowGreenState("Z", "GG"), "Traffic light 'Z' is not known"),
            (lambda: traci.trafficlight.setPhase("L", 3), "has no phase 3"),
            (
                lambda: traci.trafficlight.setProgramLogic("L", traci.trafficlight.Logic("x", 0, 0, [phase(5, "GGG")])),
                "has 2 signals",
            ),
            (
                lambda: traci.trafficlight.setProgramLogic("L", traci.trafficlight.Logic("x", 0, 0, [phase(0, "GG")])),
                "a phase of 0.0 s",
            ),
            (
                lambda: traci.trafficlight.setProgramLogic("L", traci.trafficlight.Logic("x", 0, 0, [])),
                "without phases",
            ),
        ):
            with self.subTest(told), self.assertRaisesRegex(traci.TraCIException, told):
                call()
        self.assertEqual(traci.trafficlight.getProgram("L"), "day")

    def test_light(self):
        light = LightShow([(10, "G"), (20, "r")], 95, "0")
        told = [light.phase_at(clock) for clock in (95, 96, 105, 106, 125, 126)]
        self.assertEqual(told, [(1, 0), (0, 9), (0, 0), (1, 19), (1, 0), (0, 9)])
        light.since = 105  # a script has set its second phase then
        self.assertEqual([light.phase_at(clock) for clock in (105, 106)], [(1, 20), (1, 19)])


class Seen(unittest.TestCase):
    def test_who_is_seen_first_departed_a_second_before(self):
        view, nobody = View(map_from("", MAP)), numpy.zeros(0, int)
        for clock, numbers in ((7, [3]), (8, [3, 5])):
            rows = dict.fromkeys(("slot", "cell", "speed"), numpy.zeros(len(numbers), int))
            view.note_second(SimpleNamespace(clock=clock, number=numpy.array(numbers), arrived=nobody, **rows))
        self.assertEqual((view.departed, view.departure[[3, 5]].tolist()), ([3, 5], [6, 7]))


class Facts(Case):
    def test_types_and_routes_of_files(self):
        path = self.write("r.xml", '<routes><vType id="t" accel="1"/><route id="r" edges="a b"/><vType/></routes>')
        facts = read_facts(self.write("x.net.xml", FORK), [], [path])
        self.assertEqual((facts.types, facts.routes), ({"t": {"id": "t", "accel": "1"}}, {"r": ("a", "b")}))


class Spoilt(Case):
    def test_an_attribute_that_cannot_be_read(self):
        text = SIGNALLED.replace("<junction", '<location convBoundary="0,0,1,1"/><junction', 1).replace(
            ' y="0"', ' y="0" shape="0,0 1,1"', 1
        )
        asked = '<additional><edgeData id="e" file="x" period="60"/></additional>'
        self.assertEqual(read_facts(self.write("x.net.xml", text), [], []).boundary, ((0, 0), (1, 1)))
        for name in ("shape", "convBoundary", "linkIndex", "offset", "speed"):
            path = self.write("y.net.xml", re.sub(f' {name}="[^"]*"', f' {name}="1,x"', text, count=1))
            with self.subTest(name), self.assertRaisesRegex(Fault, f"y.net.xml: .*{name}='1,x' cannot be read"):
                read_facts(path, [], [])
        path = self.write("y.net.xml", text.replace('type="priority" x="0" y="0" shape="0,0', 'x="0" y="0" shape="0'))
        with self.assertRaisesRegex(Fault, "y.net.xml: .*shape='0 1,1' cannot be read"):
            read_facts(path, [], [])
        for period in ("x", "-60"):
            path = self.write("y.add.xml", asked.replace("60", period))
            with self.subTest(period), self.assertRaisesRegex(Fault, f"y.add.xml: .*period='{period}' cannot be read"):
                read_facts(self.write("x.net.xml", text), [path], [])


class Constants(unittest.TestCase):
    @needs_sumo
    def test_all_options_of_sumo_are_known(self):
        for program in ("sumo", "sumo-gui"):
            told = subprocess.run([program, "--help"], capture_output=True, text=True, check=False).stdout
            names = set(re.findall(r"^  (?:-., )?--([\w.:-]+)", told, re.MULTILINE)) - {"help", "version"}
            self.assertEqual(len(names) > 300, bool(told))
            for name in names:
                number = name in ("step-length", "scale", "end")
                value = "1" if number else "/dev/null" if OUTPUT.fullmatch(name) else "false"
                check_option(name, value)
            letters = re.findall(r"^  -(.), --([\w.:-]+)", told, re.MULTILINE)
            self.assertEqual(
                {f"-{letter}": name for letter, name in letters if name not in ("help", "version")}.items()
                - SHORT.items(),
                set(),
            )

    @needs_sumo
    def test_all_names_of_sumos_options_are_known(self):
        """SUMO's own template tells by which further names it has an option."""
        told = subprocess.run(["sumo", "--save-template", "/dev/stdout"], capture_output=True, text=True, check=False)
        names = re.findall(r'<([\w.:-]+) value="[^"]*" synonymes="([^"]*)"', told.stdout)
        further = [(word, name) for name, words in names for word in words.split() if len(word) > 1]
        self.assertGreater(len(further), 40)
        for word, name in further:
            self.assertEqual(usual_name(word), name)

    @needs_sumo
    @needs_traci
    def test_are_sumos(self):
        spec = importlib.util.spec_from_file_location("constants", SUMO / "tools/traci/constants.py")
        theirs = importlib.util.module_from_spec(spec)
        spec.loader.exec_module(theirs)
        ours, of_sumo = ({name: one for name, one in vars(it).items() if name[0] != "_"} for it in (tc, theirs))
        self.assertEqual(ours, of_sumo)
        self.assertEqual(len(ours), 535)

    @needs_traci
    def test_what_is_said_of_a_call_that_is_not_here_names_it(self):
        """By the variables that SUMO's own client asks for; several of its calls may have one variable."""
        with unittest.mock.patch.object(sys, "path", [str(SUMO / "tools"), *sys.path]):
            theirs = importlib.import_module("traci")
        names = {}
        for domain, call in ((domain, call) for domain in DOMAINS for call in vars(type(getattr(theirs, domain)))):
            source = inspect.getsource(getattr(type(getattr(theirs, domain)), call)) if call[0].islower() else ""
            found = re.search(r"(_getUniversal|_getCmd|_setCmd|_sendCmd)\(\s*(?:tc\.CMD_\w+, )?tc\.(\w+)", source)
            if found and classify_call(ScriptCall(domain, call, 1))[0] == "not here":
                how = "get" if found[1].startswith("_get") or "CMD_GET" in source else "set"
                names.setdefault((domain, getattr(tc, found[2]), how), set()).add(call)
        self.assertGreater(len(names), 170)
        for (domain, variable, how), calls in names.items():
            self.assertIn(sumo_name(domain, variable, how), calls)
        with self.assertRaisesRegex(traci.NotHere, "vehicle.setLaneChangeMode is not here: lanes are changed by"):
            words = bytes((tc.VAR_LANECHANGE_MODE,)) + text("v")
            read_set_command(tc.CMD_SET_VEHICLE_VARIABLE, ValueReader(words, 0, len(words)))

    @needs_traci
    def test_each_call_of_sumo_is_here_or_says_what_to_do_instead(self):
        with unittest.mock.patch.object(sys, "path", [str(SUMO / "tools"), *sys.path]):
            theirs = importlib.import_module("traci")
        here, count = [], 0
        for name in DOMAINS:
            domain = getattr(theirs, name)
            for call in (call for call in dir(domain) if call[0].islower() and callable(getattr(domain, call))):
                count += 1
                if hasattr(type(vars(traci).get(name)), call):
                    here.append(f"{name}.{call}")
                    continue
                with self.assertRaisesRegex(traci.NotHere, "(?s)is not here: .*(;|use|subscribe)") as raised:
                    getattr(getattr(traci, name), call)
                self.assertNotIn(NOTHING, str(raised.exception))
        page = (TOOLS / "PYTHON.md").read_text(encoding="utf-8")
        told = f"\n{len(here)} of the {count} calls of SUMO 1.15's domains are here."
        self.assertTrue(told in page, told)


def processor_seconds():
    """Those of all processes that ended so far and were waited for, by whoever started them."""
    used = resource.getrusage(resource.RUSAGE_CHILDREN)
    return used.ru_utime + used.ru_stime


@needs_simulator
class Scripts(Case):
    """The scripts of examples/traci, over streetsim and over SUMO's own traci: the line that
    imports is all that differs."""

    def run_script(self, name, *words, sumo=False):
        path = SCRIPTS / f"{name}.py" if (SCRIPTS / f"{name}.py").exists() else USERS / f"{name}.py"
        text = path.read_text()
        if sumo:
            text = text.replace("import streetsim.traci as traci", "import traci")
            text = text.replace("from streetsim.traci import", "from traci import")
        else:
            text = re.sub(
                "^import traci(.constants)?( as .*)?$",
                lambda line: f"import streetsim.traci{line[1] or ''}{line[2] or ' as traci'}",
                text,
                flags=re.MULTILINE,
            )
        run = f"exec(compile({text!r}, {str(path)!r}, 'exec'), {{'__name__': '__main__', '__file__': {str(path)!r}}})"
        paths = SUMO / "tools" if sumo else TOOLS
        variables = {**os.environ, "PYTHONPATH": str(paths), "SUMO_HOME": str(SUMO), "STREETSIM_PROGRAM": PROGRAM}
        begin = processor_seconds()
        done = subprocess.run(
            [sys.executable, "-c", run, *map(str, words)], env=variables, capture_output=True, text=True, check=False
        )
        self.assertEqual(done.returncode, 0, done.stderr)
        told = [line for line in done.stdout.splitlines() if not line.strip().startswith(WAITING)]
        return told, processor_seconds() - begin

    def mean_trip(self, *words, sumo=False):
        [line], _ = self.run_script("actuated", *words, sumo=sumo)
        vehicles, mean = re.fullmatch(r"(\d+) vehicles, mean trip (.*) s", line).groups()
        self.assertEqual(int(vehicles), 980)
        return float(mean)

    def cross(self, demand="cross", share=1.0):
        """The words of a cross: its network, an hour's demand or a share of it, and loops."""
        text = (ACTUATED / "cross.rou.xml" if demand == "cross" else USERS / f"{demand}.rou.xml").read_text()
        text = re.sub('vehsPerHour="(.*?)"', lambda rate: f'vehsPerHour="{float(rate[1]) * share:g}"', text)
        return [
            "-n", ACTUATED / "cross.net.xml.gz", "-r", self.write("x.rou.xml", text), "-a", SCRIPTS / "cross.add.xml",
        ]

    def compare(self, name, *words, within=0.15):
        """The means that a script of users' prints, here and in SUMO; gives what it says here."""
        (here, _), (there, _) = (self.run_script(name, *words, sumo=sumo) for sumo in (False, True))
        (count, mean), (counted, theirs) = (map(float, told[0].split()) for told in (here, there))
        self.assertAlmostEqual(count / counted, 1, delta=0.02)
        self.assertAlmostEqual(mean / theirs, 1, delta=within, msg=f"{here} {there}")
        return here, there

    @needs_sumo
    @needs_traci
    def test_tutorial_as_in_sumo(self):
        """With 60 % of the demand: with all of it the script leaves the main street too little green,
        and SUMO's own mean trip jumps by a quarter if the demand changes by a tenth."""
        self.compare("tutorial", self.folder / "trips.xml", *self.cross(share=0.6))

    @needs_sumo
    @needs_traci
    def test_bus_priority_as_in_sumo(self):
        (here, there) = self.compare("bus_priority", *self.cross("bus"))
        (buses, mean), (counted, theirs) = (map(float, told[1].split()) for told in (here, there))
        self.assertEqual((buses, counted), (30, 30))
        self.assertAlmostEqual(mean / theirs, 1, delta=0.15)

    @needs_sumo
    @needs_traci
    def test_learning_as_in_sumo(self):
        (here, there) = self.compare("learning", *self.cross(share=0.6))
        near, theirs = (float(told[1].split()[0]) for told in (here, there))
        self.assertAlmostEqual(near / theirs, 1, delta=0.15)

    @needs_sumo
    @needs_traci
    def test_calls_say_what_they_say_in_sumo(self):
        """Word for word, of a network, of eight vehicles and of their ways."""
        (here, _), (there, _) = (self.run_script("facts", *self.cross("bus")[:4], sumo=sumo) for sumo in (False, True))
        self.assertGreater(len(here), 70)
        for one, other in zip(here, there, strict=True):
            self.assertEqual(one, other)

    @needs_sumo
    @needs_traci
    def test_steps_as_in_sumo(self):
        """Until a time that is over there is none."""
        (here, _), (there, _) = (self.run_script("steps", *self.cross()[:4], sumo=sumo) for sumo in (False, True))
        self.assertEqual(here, there)
        self.assertEqual(here[1], "300 600.0")

    @needs_sumo
    @needs_traci
    def test_progress_as_in_sumo(self):
        """Metres and gaps, through a junction too. A gap is of cells, which are 6.7 m here, as vehicles depart on these
        streets; a queue begins a metre nearer to the stop line, and its third is 0.8 m nearer for each before it; and
        as vehicles brake and start at once, those who stop lose some seconds less."""
        (here, _), (there, _) = (self.run_script("progress", *self.cross()[:4], sumo=sumo) for sumo in (False, True))
        (equal, queues, stood, whole), (wanted, *theirs) = (list(map(json.loads, told)) for told in (here, there))
        off, of_sumo = equal.pop(3), wanted.pop(3)
        self.assertEqual((equal, of_sumo), (wanted, [0.0]))
        self.assertTrue(all(0 <= metres <= 1 for metres in off), off)
        for at, (one, other) in enumerate(zip(queues, theirs[0], strict=True)):
            most = 2 + 0.85 * (at // 2)  # of one from the east and one from the west in turn
            self.assertTrue(
                all(abs(metres - those) < most for metres, those in zip(one, other, strict=True)), (one, other)
            )
        self.assertAlmostEqual(whole[0] / theirs[2][0], 1, delta=0.05)
        for less in ((sum(theirs[1]) - sum(stood)) / len(stood), theirs[2][1] - whole[1]):
            self.assertTrue(0 < less < 6, (stood, whole, theirs))

    def test_speed_advice_is_not_here(self):
        with self.assertRaisesRegex(
            AssertionError, "NotHere: vehicle.setSpeed is not here: speeds follow the rules alone"
        ):
            self.run_script("speed_advice", *self.cross())

    @needs_sumo
    @needs_traci
    def test_max_pressure_as_in_sumo_and_as_fast(self):
        """The first 600 s of the grid; the time is that of the whole script, each of whose steps may set all lights."""
        words = ["600", "-n", *self.grid("-r")]
        (here, seconds), (there, theirs) = (
            self.run_script("max_pressure", *words, sumo=sumo) for sumo in (False, True)
        )
        (count, mean), (counted, other) = (map(float, told[0].split()) for told in (here, there))
        self.assertAlmostEqual(count / counted, 1, delta=0.1)
        self.assertAlmostEqual(mean / other, 1, delta=0.15, msg=f"{here} {there}")
        self.assertLess(seconds, theirs)

    @needs_sumo
    @needs_traci
    def test_diversion_as_in_sumo(self):
        """SUMO refuses ways of others that a closed lane cuts, if it is not told to go on."""
        words = ["C2C3", "1500", "-n", *self.grid("-r"), "--ignore-route-errors"]
        there, _ = self.run_script("diversion", "reroute", *words, sumo=True)
        for mode in ("reroute", "route"):
            here, _ = self.run_script("diversion", mode, *words, "--joint", "C2C3_0")
            (count, mean), (counted, theirs) = (map(float, told[0].split()) for told in (here, there))
            self.assertAlmostEqual(count / counted, 1, delta=0.1)
            self.assertAlmostEqual(mean / theirs, 1, delta=0.15, msg=f"{mode} {counted}")

    def grid(self, between):
        """The grid's network, a word, and its demand."""
        return DATA / "grid.net.xml.gz", between, DATA / "grid.rou.xml.gz"

    def test_actuated(self):
        self.assertLess(self.mean_trip(), self.mean_trip("fixed"))

    @needs_sumo
    @needs_traci
    def test_actuated_as_in_sumo(self):
        self.assertAlmostEqual(self.mean_trip() / self.mean_trip(sumo=True), 1, delta=0.15)

    @needs_sumo
    @needs_traci
    def test_bottleneck_as_in_sumo(self):
        here, there = (self.run_script("bottleneck", sumo=sumo)[0] for sumo in (False, True))
        self.assertEqual(len(here), 4)
        for one, other in zip(here, there, strict=True):
            counts = [int(line.split()[0]) for line in (one, other)]
            self.assertLess(geh(4 * counts[0], 4 * counts[1]), 5, (one, other))

    @needs_sumo
    @needs_traci
    def test_speeds_within_twice_sumos_time(self):
        """5,400 vehicles an hour on the grid, 900 steps; the mean speed is SUMO's within 10 %, as vehicles brake and
        start at once."""
        with gzip.open(DATA / "grid.rou.xml.gz", "rt", encoding="utf-8") as file:
            text = file.read()
        vehicles = re.findall("<vehicle .*?</vehicle>", text, re.DOTALL)
        vehicles = [
            copy
            for at, one in enumerate(vehicles)
            for copy in ([one, one.replace('id="', 'id="again', 1)] if at % 2 else [one])
        ]
        self.assertEqual(len(vehicles), 5400)
        routes = self.write("more.rou.xml", f"<routes>{''.join(vehicles)}</routes>")
        network = self.write("grid.net.xml", gzip.open(DATA / "grid.net.xml.gz", "rt", encoding="utf-8").read())
        (here, time_here), (there, time_there) = (
            self.run_script("speeds", network, routes, sumo=sumo) for sumo in (False, True)
        )
        speeds = [float(told[0].split()[2]) for told in (here, there)]
        self.assertAlmostEqual(speeds[0] / speeds[1], 1, delta=0.10, msg=f"{here} {there}")
        self.assertLess(time_here, 2 * time_there)


if __name__ == "__main__":
    unittest.main()
