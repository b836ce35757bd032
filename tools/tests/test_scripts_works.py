"""Works that scripts close: vehicles merge before them by the same lines as in a run; states and diversions let go."""
import json
import unittest

from seen import made
from support import PROGRAM, Case, needs_simulator
from test_works import fan
import streetsim.traci as traci
from streetsim.model.runs import Line, read_with_map
from streetsim.control.settings import Settings
from streetsim.scenario import Scenario

FIRST, LAST, UNTIL = 60, 500, 600
# 1,700 vehicles an hour to one lane beside the works.
ROUTES = "".join(
    f'<flow id="f{at}" begin="0" end="600" vehsPerHour="850"><route edges="z a to{at}"/></flow>' for at in range(2)
)


@needs_simulator
class Scripts(Case):
    def setUp(self):
        super().setUp()
        self.write("x.net.xml", fan(2))
        self.write("x.rou.xml", f"<routes>{ROUTES}</routes>")
        words = [self.folder / "x.net.xml", "--routes", self.folder / "x.rou.xml", "--joint", "a"]
        self.tool("import", *words, "-o", self.folder / "run.jsonl", "--map", self.folder / "map.json")
        self.files = self.folder / "run.jsonl", self.folder / "map.json"

    def works(self):
        """The cells that are closed, as a run has them."""
        run, mapping = read_with_map(*self.files)
        link, lane = mapping.place_of("a_0")
        first, last = mapping.links[link].closed_between(150, 200)
        return run, mapping, {"link": link, "lane": lane, "first": first, "last": last}

    def in_run(self):
        """What streetsim-run sends beside steps, by clock."""
        run, mapping, place = self.works()
        run.timed = [
            (clock, Line(0, "", {"cmd": name, **place})) for clock, name in ((FIRST, "close"), (LAST, "reopen"))
        ]
        for _, line in run.timed:
            line.text = json.dumps(line.command)
        kernel, _ = made(PROGRAM, run, mapping, Settings(UNTIL, 0, rescue=0))
        return [(one.clock, one.line.command) for one in kernel.sent_lines]

    def test_scenario_sends_what_a_run_sends(self):
        expected, sent = self.in_run(), []
        self.assertGreater(len(expected), 20)
        with Scenario(*self.files, PROGRAM) as sim:
            exchange = sim.client.exchange

            def noting(lines):
                lines = list(lines)
                sent.extend((sim.clock, line) for line in lines if b'"close"' in line or b'"reopen"' in line)
                return exchange(lines)

            sim.client.exchange = noting
            sim.simulationStep(FIRST)
            sim.close("a_0", 150, 200)
            while sim.clock < LAST:
                sim.simulationStep(min(LAST, sim.clock + 7))
            sim.reopen("a_0", 150, 200)
            sim.simulationStep(UNTIL)
        self.assertEqual([(clock, json.loads(line)) for clock, line in sent], expected)

    def standing(self, sim):
        """The longest that anybody stands in one cell before works that are closed for 400 s, and what is held then."""
        since, longest, held = {}, 0, 0
        sim.simulationStep(FIRST)
        sim.close("a_0", 150, 200)
        while sim.clock < FIRST + 400:
            sim.simulationStep()
            lanes = [sim.client.lane(*sim.lane_of[name]) for name in ("a_0", "a_1")]
            now = {(car, cell) for car, cell, speed, *_ in lanes[0].cells if not speed}
            since = {key: since.get(key, sim.clock) for key in now}
            longest = max([longest, *(sim.clock - first for first in since.values())])
            held += bool(lanes[1].closed)
        return longest, held

    def test_without_merging(self):
        with Scenario(*self.files, PROGRAM) as sim:
            longest, held = self.standing(sim)
            self.assertLess(longest, 60)
            self.assertGreater(held, 20)
        with Scenario(*self.files, PROGRAM) as sim:
            sim.stop_merging()
            longest, held = self.standing(sim)
            self.assertEqual(held, 0)
            self.assertGreater(longest, 60)

    def test_nothing_is_held_where_others_look(self):
        """A lane that is held is not taken for works: nobody is diverted, and it is open when a state is saved."""
        with Scenario(*self.files, PROGRAM) as sim:
            sim.simulationStep(FIRST)
            sim.close("a_0", 150, 200)
            while not sim.lane_state("a_1").closed:
                sim.simulationStep()
            self.assertEqual(sim.divert("a", UNTIL), [])
            self.assertEqual(sim.lane_state("a_1").closed, ())
            self.assertNotEqual(sim.lane_state("a_0").closed, ())

    def started(self, *more):
        """A session of TraCI with the lane a_0 disallowed from second 60 on, at second 300."""
        words = ["sumo", "-n", str(self.folder / "x.net.xml"), "-r", str(self.folder / "x.rou.xml"), "--joint", "a"]
        traci.start([*words, "-W", *more])
        self.addCleanup(lambda: traci.isLoaded() and traci.close())
        traci.simulationStep(60)
        traci.lane.setDisallowed("a_0", "all")
        traci.simulationStep(300)
        return traci._current_session()

    def test_traci(self):
        self.assertGreater(self.held(self.started()), 2)
        traci.close()
        self.assertEqual(self.held(self.started("--merge", "none")), 0)

    def held(self, session):
        """How often a lane was held that far: other lines than that of the works."""
        return sum(line.startswith(b'{"cmd":"close"') for line in session.client.changes) - 1

    def test_states(self):
        """What is held is let go when a state is saved; a session that goes on from it merges before the same works."""
        session, path = self.started(), str(self.folder / "state.json")
        link, _ = session.lane_of["a_0"]
        for _ in range(60):
            if any(session.merges.links[link].merging.held_cells):
                break
            traci.simulationStep()
        self.assertTrue(session.client.lane(link, 1).closed)
        traci.simulation.saveState(path)
        works = session.merges.links[link].closed
        self.assertEqual(session.client.lane(link, 1).closed, ())
        traci.simulationStep()
        traci.simulation.loadState(path)
        self.assertEqual(session.merges.links[link].closed, works)
        before = self.held(session)
        traci.simulationStep(session.clock + 200)
        self.assertGreater(self.held(session), before)


if __name__ == "__main__":
    unittest.main()
