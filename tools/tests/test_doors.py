"""Each feature of a run at every door: the record, and the lines that change something, are equal, or a line of
DOORS.md says why the door does not have it."""
import os
import unittest
from dataclasses import replace
from unittest import mock

from doors import BUSES, DOORS, FEATURES, PAGE, SEARCHES, Feature, Files, all_in, by_live, by_run, refusals, vehicles
from support import FORK, PROGRAM, Case, needs_simulator
from test_buses import STOPS, STREET
from streetsim.kernel.loop import NEVER, Controller, Observer
from streetsim.scenario import Scenario
import streetsim.traci as traci

MOST = 12  # refusals


@needs_simulator
class Doors(Case):
    """Each test is of one feature."""

    def check(self, name):
        """One feature at all doors that have it."""
        files, refused = Files(self, FEATURES[name]), refusals()
        found = {door: files.through(make) for door, make in DOORS.items() if (door, name) not in refused}
        first = next(iter(found.values()))
        for door, digests in found.items():
            with self.subTest(door):
                self.assertEqual(digests, first)
        for door, (search, run_of_plan) in SEARCHES.items():
            if (door, name) not in refused:
                with self.subTest(door):
                    self.check_search(name, search, run_of_plan)

    def check_search(self, name, search, run_of_plan):
        """A run that a search made, and one of what it found, are equal as far as the shorter one goes."""
        files = Files(self, FEATURES[name])
        (record, made, end), (again, anew, last) = files.seen(search), files.seen(run_of_plan)
        size, end = min(len(record), len(again)), min(end, last)
        self.assertEqual(record[:size], again[:size])
        self.assertEqual(*((enters, [one for one in others if one[0] < end]) for enters, others in (made, anew)))


def test_of(name):
    """The test of a feature."""

    def test(self):
        self.check(name)

    return test


for feature in FEATURES:
    setattr(Doors, f"test_{feature.replace(' ', '_')}", test_of(feature))


@needs_simulator
class SwitchedOff(Case):
    """What a word switches off is not made by the run, nor by the live page."""

    def check(self, name, *words):
        feature = FEATURES[name]
        files = Files(self, replace(feature, words=(*feature.words, *words)))
        wanted = files.through(by_run)
        self.assertEqual(files.through(by_live), wanted)
        self.assertNotEqual(Files(self, feature).through(by_run), wanted)

    def test_merging(self):
        self.check("merging", "--merge", "none")

    def test_lights_by_detectors(self):
        self.check("lights by detectors", "--lights", "listed")

    def test_stops(self):
        self.check("bus stops", "--stops", "none")


class Passed(Observer):
    """How many vehicles there are in each second."""

    def begin(self, kernel):
        self.count, self.ended = {}, None

    def see(self, seconds):
        for second in range(1, len(seconds.clocks)):
            self.count[int(seconds.clocks[second])] = int(seconds.first[second + 1] - seconds.first[second])

    def end(self, clock):
        self.ended = clock


class Closing(Controller):
    """Closes the last cell of a lane at a second."""

    def __init__(self, clock):
        self.clock = clock

    def begin(self, kernel):
        self.kernel = kernel

    def next_clock(self):
        return self.clock

    def act(self, clock, now):
        self.clock = NEVER
        self.kernel.send([{"cmd": "close", "link": 0, "lane": 0, "first": 9, "last": 9}])


@needs_simulator
class Own(Case):
    """A user's own observers and controllers, and what scripts tell of stops."""

    def files(self):
        return Files(self, Feature(FORK, all_in(vehicles(3, "a b", 10))))

    def test_observers_and_controllers_of_a_scenario(self):
        """The lane is closed at 3 s, where nobody can have come to its end, and three vehicles stand before that, which
        depart at 0, 10 and 20 s; observers get each second once."""
        files, passed = self.files(), Passed()
        with Scenario(files.run, files.map, PROGRAM, observers=[passed], controllers=[Closing(3)]) as sim:
            sim.simulationStep(15)
            for _ in range(35):
                sim.simulationStep()
            sim.simulationStep(200)
            self.assertEqual(sim.lane.getLastStepHaltingNumber("a_0"), 3)
        self.assertEqual((sorted(passed.count), passed.ended), ([*range(1, 201)], 200))
        self.assertEqual([passed.count[clock] for clock in (1, 11, 21, 200)], [1, 2, 3, 3])

    def test_a_script_sees_a_vehicle_at_its_stop(self):
        stops = f"<additional>{STOPS}</additional>"
        files = Files(self, Feature(STREET, all_in(BUSES), stops))
        with mock.patch.dict(os.environ, STREETSIM_PROGRAM=PROGRAM):
            traci.start(["sumo", *files.sumo_words()])
        self.addCleanup(lambda: traci.isLoaded() and traci.close())
        began, ended, vehicle, state = [], [], traci.vehicle, str(self.folder / "state.json")
        for clock in range(1, 90):
            traci.simulationStep()
            began += [clock] * ("bus30" in traci.simulation.getStopStartingVehiclesIDList())
            ended += [clock] * ("bus30" in traci.simulation.getStopEndingVehiclesIDList())
            if clock == 35:
                [stop] = vehicle.getStops("bus30")
                self.assertEqual((stop.lane, stop.stoppingPlaceID, stop.duration), ("a_0", "first", 20.0))
                self.assertEqual((vehicle.isStopped("bus30"), vehicle.getStopState("bus30")), (False, 0))
            if began == [clock]:
                self.assertEqual((vehicle.isStopped("bus30"), vehicle.isAtBusStop("bus30")), (True, True))
                self.assertEqual(vehicle.getStopState("bus30"), 17)
                traci.simulation.saveState(state)
        self.assertEqual((len(began), len(ended)), (1, 1))
        self.assertGreaterEqual(ended[0] - began[0], 20)
        traci.simulation.loadState(state)
        while not traci.simulation.getStopEndingVehiclesNumber():
            self.assertTrue(vehicle.isStopped("bus30"))
            traci.simulationStep()
        self.assertEqual(traci.simulation.getTime(), ended[0])

    def test_a_bus_that_goes_another_way_makes_no_stop(self):
        files = Files(self, Feature(STREET, all_in(BUSES), f"<additional>{STOPS}</additional>"))
        with Scenario(files.run, files.map, PROGRAM) as sim:
            sim.simulationStep(60)
            while not sim.steering.buses.fleet.is_holding:
                sim.simulationStep()
            held = sim.lane_state("a_0").closed
            sim.vehicle.remove("bus30")
            self.assertEqual((len(held) > 0, sim.lane_state("a_0").closed), (True, ()))
            self.assertEqual(sim.trips()[0][-1], "taken")


class Refusals(unittest.TestCase):
    def test_are_few_and_of_what_there_is(self):
        refused = refusals()
        self.assertLessEqual(len(refused), MOST)
        self.assertEqual({door for door, _ in refused} - {*DOORS, *SEARCHES}, set())
        self.assertEqual({name for _, name in refused} - {*FEATURES}, set())

    def test_the_page_names_each_feature(self):
        text = PAGE.read_text(encoding="utf-8")
        self.assertEqual([name for name in FEATURES if f"| {name} |" not in text], [])


if __name__ == "__main__":
    unittest.main()
