"""Lights that detectors drive under scripts, scenarios, searches for routes and on pages."""
import json
import os
import unittest

from pages import told_by
from support import PROGRAM, Case, needs_simulator
from test_actuated import PHASES, street
from test_nema import street as ringed
from streetsim import traci
from streetsim.base import limits
from streetsim.base.files import Fault
from streetsim.control.actuated_lights import NONE_DRIVEN, driven_lights
from streetsim.control.settings import Settings
from streetsim.live.page import page_data
from streetsim.live.session import PageSession
from streetsim.live.world import PageRun
from streetsim.model.mapping import read_map
from streetsim.model.runs import read_run
from streetsim.scenario import ListedScenario, NotHere, Scenario
from streetsim.search.route_watching import RunGround

NOBODY = '<routes><vehicle id="v" depart="900"><route edges="a b"/></vehicle></routes>'
FIXED = """<additional><tlLogic id="L" type="static" programID="fixed" offset="0">
<phase duration="20" state="G"/><phase duration="3" state="y"/><phase duration="17" state="r"/>
</tlLogic></additional>"""


@needs_simulator
class Scripts(Case):
    def setUp(self):
        super().setUp()
        os.environ["STREETSIM_PROGRAM"] = PROGRAM
        self.addCleanup(lambda: traci.isLoaded() and traci.close())

    def start(self, net, *more):
        words = ["sumo", "-n", self.write("x.net.xml", net), "-r", self.write("x.rou.xml", NOBODY), "-W", *more]
        traci.start(words)

    def told(self):
        light = traci.trafficlight
        return light.getPhase("L"), light.getRedYellowGreenState("L"), light.getNextSwitch("L")

    def test_phases_as_detectors_end_them(self):
        # Each green has its least of 5 s, as nobody comes; then come 3 and 20 s as listed.
        self.start(street(PHASES))
        self.assertEqual(self.told(), (0, "G", 5.0))
        traci.simulationStep(5)
        self.assertEqual(self.told(), (0, "G", 5.0))  # the step that ends there, as in SUMO
        traci.simulationStep(6)
        self.assertEqual(self.told(), (1, "y", 8.0))
        traci.simulationStep(29)
        self.assertEqual(self.told(), (0, "G", 33.0))
        self.assertEqual(traci.trafficlight.getPhaseDuration("L"), 30.0)  # as listed, as in SUMO
        [logic] = traci.trafficlight.getAllProgramLogics("L")
        self.assertEqual((logic.type, logic.phases[0].minDur, logic.phases[0].maxDur), (3, 5, 40))

    def test_detectors_go_on_after_a_program_that_is_refused(self):
        self.start(street(PHASES))
        light = traci.trafficlight
        with self.assertRaisesRegex(traci.TraCIException, "at most 200,000 s"):
            light.setProgramLogic("L", light.Logic("mine", 0, 0, [light.Phase(300_000, "G")]))
        traci.simulationStep(57)
        self.assertEqual((light.getProgram("L"), self.told()), ("0", (0, "G", 61.0)))

    def test_a_script_changes_a_program_that_detectors_drive(self):
        self.start(street(PHASES))
        light = traci.trafficlight
        [logic] = light.getAllProgramLogics("L")
        logic.phases = [light.Phase(10, "G"), light.Phase(10, "r")]
        light.setProgramLogic("L", logic)
        state = str(self.folder / "state.json")
        traci.simulation.saveState(state)
        for _ in range(2):
            [found] = light.getAllProgramLogics("L")
            self.assertEqual((found.type, [(one.minDur, one.maxDur) for one in found.phases]), (0, [(10, 10)] * 2))
            light.setProgram("L", "0")
            traci.simulationStep(15)
            self.assertEqual(self.told(), (1, "r", 20.0))
            traci.simulation.loadState(state)

    def test_a_phase_that_a_script_chooses(self):
        # When the light is looked at next stays, as in SUMO: at 61 s it ends the phase that was set at 57.
        self.start(street(PHASES))
        traci.simulationStep(57)
        sent = list(traci._current_session().client.changes)
        traci.trafficlight.setPhase("L", 0)  # which is shown: nothing changes, and no green begins anew
        self.assertEqual((self.told(), traci._current_session().client.changes), ((0, "G", 61.0), sent))
        traci.trafficlight.setPhase("L", 2)
        self.assertEqual(self.told(), (2, "r", 61.0))
        traci.simulationStep(62)
        self.assertEqual(traci.trafficlight.getPhase("L"), 0)
        traci.trafficlight.setPhaseDuration("L", 11)
        self.assertEqual(self.told(), (0, "G", 73.0))
        traci.simulationStep(74)
        self.assertEqual(traci.trafficlight.getPhase("L"), 1)
        traci.trafficlight.setPhaseDuration("L", 0)  # the next step is of the next phase, as in SUMO
        traci.simulationStep()
        self.assertEqual(self.told(), (2, "r", 94.0))

    def test_there_and_back_between_programs(self):
        # The fixed one is loaded last, so it runs. The other goes on unseen: it has a cycle of 5 + 3 + 20 s, of
        # which the yellow is from 61 to 64.
        self.start(street(PHASES), "-a", self.write("x.add.xml", FIXED))
        self.assertEqual((traci.trafficlight.getProgram("L"), self.told()), ("fixed", (0, "G", 20.0)))
        traci.simulationStep(62)
        traci.trafficlight.setProgram("L", "0")
        self.assertEqual((traci.trafficlight.getProgram("L"), self.told()), ("0", (1, "y", 64.0)))
        traci.simulationStep(85)
        traci.trafficlight.setProgram("L", "fixed")
        self.assertEqual(self.told(), (0, "G", 100.0))
        traci.trafficlight.setRedYellowGreenState("L", "r")
        traci.simulationStep(200)
        self.assertEqual(traci.trafficlight.getRedYellowGreenState("L"), "r")

    def test_rings(self):
        self.start(ringed())
        light = traci.trafficlight
        self.assertEqual((light.getPhaseName("L"), light.getRedYellowGreenState("L")), ("2+6", "G"))
        traci.simulationStep(6)
        self.assertEqual((light.getPhaseName("L"), light.getRedYellowGreenState("L")), ("2+6", "y"))
        traci.simulationStep(11)
        self.assertEqual((light.getPhaseName("L"), light.getRedYellowGreenState("L")), ("4+8", "r"))
        with self.assertRaisesRegex(traci.TraCIException, "NEMA, whose rings choose its phases"):
            light.setPhase("L", 0)

    def test_a_state_that_is_saved_and_loaded(self):
        cars = "".join(
            f'<vehicle id="v{at}" depart="{at}"><route edges="a b"/></vehicle>' for at in (*range(0, 90, 3), 150, 190)
        )
        routes, path = self.write("y.rou.xml", f"<routes>{cars}</routes>"), str(self.folder / "state.json")

        def trace():
            """What the light and the vehicles do from now on."""
            told = []
            for _ in range(150):
                traci.simulationStep()
                told.append((self.told(), traci.simulation.getArrivedIDList(), traci.vehicle.getIDCount()))
            return told

        for net in (street(PHASES), ringed()):
            with self.subTest(net[:0] + net[-80:]):
                words = ["sumo", "-n", self.write("x.net.xml", net), "-r", routes, "-W"]
                words += ["-a", self.write("x.add.xml", FIXED.replace("fixed", "other"))] if "NEMA" not in net else []
                traci.start(words)
                if "NEMA" not in net:
                    traci.trafficlight.setProgram("L", "0")
                traci.simulationStep(67)
                traci.simulation.saveState(path)
                first = trace()
                traci.simulation.loadState(path)
                self.assertEqual(trace(), first)
                traci.close()
                traci.start(words)
                traci.simulation.loadState(path)
                self.assertEqual(trace(), first)
                traci.close()
                traci.start([*words, "--lights", "listed"])
                with self.assertRaisesRegex(traci.TraCIException, "state.json: a state of another --lights"):
                    traci.simulation.loadState(path)
                traci.close()

    def test_listed_seconds_by_a_word(self):
        self.start(street(PHASES), "--lights", "listed")
        traci.simulationStep(54)
        self.assertEqual(self.told(), (0, "G", 83.0))
        traci.close()
        with self.assertRaisesRegex(traci.FatalTraCIError, "--lights soon: is not actuated or listed"):
            self.start(street(PHASES), "--lights", "soon")


@needs_simulator
class Runs(Case):
    def imported(self):
        run, mapping = self.folder / "run.jsonl", self.folder / "map.json"
        paths = self.write("x.net.xml", street(PHASES)), "--routes", self.write("x.rou.xml", NOBODY)
        self.tool("import", *paths, "-o", run, "--map", mapping)
        return run, mapping

    def test_a_scenario(self):
        with Scenario(*self.imported(), PROGRAM) as sim:
            sim.simulationStep(61)
            with self.assertRaisesRegex(Fault, "at most 200,000 s"):
                sim.trafficlight.setProgramLogic("L", [(300_000, "G"), (30, "r")])
            sim.simulationStep(62)
            self.assertEqual(sim.trafficlight.getRedYellowGreenState("L"), "y")
            sim.trafficlight.setProgramLogic("L", [(30, "G"), (30, "r")])
            with self.assertRaisesRegex(NotHere, "detectors do not drive 'L'"):
                sim.trafficlight.getRedYellowGreenState("L")
        with ListedScenario(*self.imported(), PROGRAM) as sim, self.assertRaises(NotHere):
            sim.trafficlight.getRedYellowGreenState("L")

    def test_a_search_for_routes(self):
        run, mapping = self.imported()
        read, found = read_run(run), read_map(mapping)
        ground = RunGround(PROGRAM, None, None, 300, 3600)
        self.assertEqual([one.name for one in ground.lights(read, found).driven], ["L"])
        listed = RunGround(PROGRAM, None, None, 300, 3600, driven=False)
        self.assertEqual(listed.lights(read, found).listed_lights(found), ["L"])

    def test_a_plan_by_time_of_day_takes_the_place_of_detectors(self):
        # A line of the run's own at 63 s: until then the light is driven, as above.
        run, mapping = self.imported()
        plan = {"cmd": "signal", "node": 1, "offset": 0, "phases": [[30, [[0, 0, 1]]], [30, []]], "at": 63}
        with open(run, "a", encoding="utf-8") as file:
            file.write(json.dumps(plan) + "\n")
        out = self.folder / "out"
        said, _ = self.tool("run", run, "--map", mapping, "--out", out, "--until", 1200)
        self.assertNotIn("listed seconds", said)
        rows = (out / "phases.csv").read_text(encoding="utf-8").splitlines()
        self.assertEqual(rows[-1], "61,L,1,y,2,")
        signals = json.loads((out / "setting.json").read_text(encoding="utf-8"))["signals"]
        self.assertIn("[[30, [[0, 0, 1]]], [30, []]]", json.dumps(signals))

    def page_session(self):
        run, mapping = map(str, self.imported())
        read = read_run(run), read_map(mapping)
        settings = Settings(limits.CLOCK, 0, rescue=0, lights=driven_lights(*read))
        session = PageSession(PageRun(*read, settings, PROGRAM))
        self.addCleanup(session.close)
        session.begin()
        return session

    def test_a_page(self):
        # As above: 5 s of green, 3 of yellow, 20 of red; a message has what is shown from then on.
        session, shown = self.page_session(), []
        for _ in range(60):
            [world] = told_by(session.step(1))["worlds"]
            shown += [world["clock"]] * len(world["shown"])
        self.assertEqual(shown, [5, 8, 28, 33, 36, 56])
        # Of many steps at once the last; a plan that is set ends it, and one that is refused does not.
        [world] = told_by(session.step(22))["worlds"]
        self.assertEqual((world["clock"], len(world["shown"])), (82, 1))
        plan = {"cmd": "signal", "node": 1, "offset": 0, "phases": [[0, []]]}
        self.assertIn("BadSignal", self.set_plan(session, plan)["refused"])
        self.assertEqual(len(told_by(session.step(8))["worlds"][0]["shown"]), 1)
        self.assertEqual(self.set_plan(session, {**plan, "phases": [[60, []]]})["refused"], "")
        self.assertEqual(told_by(session.step(300))["worlds"][0]["shown"], [])

    def set_plan(self, session, command):
        change = [{"clock": session.current.clock, "command": command}]
        return told_by(session.change("plan", change))

    def test_a_plan_that_is_undone_gives_the_light_back(self):
        session = self.page_session()
        session.step(40)
        plan = {"cmd": "signal", "node": 1, "offset": 0, "phases": [[60, []]]}
        now, was = self.set_plan(session, plan)["worlds"]
        self.assertEqual((now["plans"][0]["phases"], now["shown"]), ([[60, []]], []))
        # As it was it goes on to be driven.
        now, was = told_by(session.step(60))["worlds"]
        self.assertEqual(([], 1), (now["shown"], len(was["shown"])))
        [now] = told_by(session.undo(0))["worlds"]
        self.assertEqual((now["clock"], now["shown"]), (100, was["shown"]))

    def test_what_a_page_says_of_its_lights(self):
        run, mapping = map(str, self.imported())
        read = read_run(run), read_map(mapping)
        for lights, told in (
            (NONE_DRIVEN, "One light shows listed seconds on this page, where SUMO's detectors would time it: L."),
            (driven_lights(*read), "Detectors drive one light, until a plan is set there."),
        ):
            claim = page_data(PageRun(*read, Settings(limits.CLOCK, lights=lights), ""))["claim"]
            self.assertTrue(claim.endswith(f"not proved. {told}"), claim)


if __name__ == "__main__":
    unittest.main()
