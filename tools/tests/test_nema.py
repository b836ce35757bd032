"""NEMA lights: two rings on sequences of detections, written by hand from SUMO's rules, and SUMO's own states; areas;
whole runs."""
import csv
import json
import unittest
from itertools import chain, repeat
from pathlib import Path
from types import SimpleNamespace

from support import Case, lane, needs_simulator, net
from streetsim.base.client import Lane
from streetsim.base.report import Report
from streetsim.control.actuated_driver import present_by
from streetsim.control.actuated_kept import DetectorArea
from streetsim.control.actuated_lights import driven_lights
from streetsim.control.nema_lights import barriers_of, digits, phases_with_areas
from streetsim.control.nema_logic import Nema
from streetsim.control.nema_phases import GREEN, YELLOW, RingPhase, Rings, letters_together
from streetsim.control.nema_showing import cycle_of, green_in_remaining_seconds
from streetsim.model.mapping import map_from
from streetsim.model.runs import run_of_texts
from streetsim.sumo.converting import run_and_map
from streetsim.sumo.import_files import convert
from streetsim.sumo.network import Options

DATA = Path(__file__).parent / "data"
ALWAYS = range(10_000)


def rings(recall=(2, 4, 6, 8), most_recall=(), latching=(), orders=((0, 2, 0, 4), (0, 6, 0, 8))):
    """Greens of 5 to 20 s with 2 s of extension, 3 of yellow and 2 of red; phase N has area N alone."""
    states = {1: "rrrG", 2: "Grrg", 4: "rGrr", 5: "rrrr", 6: "rrGr", 8: "rrrr"}
    phases = [
        RingPhase(name, state, 5, 20, 2, 3, 2, (name,), name in recall, name in most_recall, name in latching)
        for name, state in states.items()
    ]
    return Rings(phases, orders, ((2, 6), (4, 8)))


def drive(program, seen, until, calls=()):
    """The greens that ended until a second: (phase, begin, seconds, why). seen: by area the seconds in which somebody
    is on it; calls: by second the phases that buses call from then on."""
    light, calls = Nema(program), dict(calls)
    light.begin_at(0)
    for clock in range(1, until + 1):
        if clock in calls:
            light.call(clock, calls[clock])
        if light.due <= clock:
            light.moves_on(clock, lambda area, now=clock: now in seen.get(area, ()))
    return [tuple(row) for row in light.ended_phases]


class Logic(unittest.TestCase):
    def test_nobody(self):
        # Recalls alone: each green has its least, both rings together, and 5 s of yellow and red follow.
        told = drive(rings(), {}, 15)
        self.assertEqual(told, [(2, 0, 5, "gap"), (6, 0, 5, "gap"), (4, 10, 5, "gap"), (8, 10, 5, "gap")])

    def test_a_green_lasts_an_extension_longer_than_somebody_is_seen(self):
        # Seen at 4 s: until 6. Ring 2 waits for it at the barrier, and both change together.
        self.assertEqual(drive(rings(), {2: (4,)}, 6), [(2, 0, 6, "gap"), (6, 0, 6, "barrier")])
        # Seen at 3 s: 2 s after that the least is over.
        self.assertEqual(drive(rings(), {2: (3,)}, 6)[0], (2, 0, 5, "gap"))
        # Seen at 4 and 6 s: at 6 s it is seen before it ends.
        self.assertEqual(drive(rings(), {2: (4, 6)}, 8)[0], (2, 0, 8, "gap"))

    def test_never_longer_than_its_most(self):
        self.assertEqual(drive(rings(), {2: ALWAYS}, 20), [(2, 0, 20, "most"), (6, 0, 20, "barrier")])

    def test_a_most_recall_lasts_its_most_though_nobody_comes(self):
        self.assertEqual(drive(rings(most_recall=(6,)), {}, 20), [(2, 0, 20, "barrier"), (6, 0, 20, "most")])

    def test_areas_of_other_phases_do_not_extend_it(self):
        self.assertEqual(drive(rings(), {4: ALWAYS}, 5), [(2, 0, 5, "gap"), (6, 0, 5, "gap")])

    def test_a_phase_that_nobody_calls_is_left_out(self):
        # Ring 1 goes from 2 to 4 and back; 1 comes first once somebody waits there.
        program = rings(recall=(2, 4, 6, 8), orders=((1, 2, 0, 4), (0, 6, 0, 8)))
        names = [row[0] for row in drive(program, {1: range(12, 31)}, 66) if row[0] in (1, 2, 4)]
        self.assertEqual(names, [1, 2, 4, 1, 2, 4, 2])

    def test_rings_are_apart_between_barriers(self):
        # 1 ends at 5 s, and 2 begins at 10; 6 is held by traffic until 12. Both end when 2 has had its least.
        program = rings(recall=(1, 2, 4, 6, 8), orders=((1, 2, 0, 4), (0, 6, 0, 8)))
        told = drive(program, {6: range(11)}, 15)
        self.assertEqual(told, [(1, 0, 5, "gap"), (2, 10, 5, "gap"), (6, 0, 15, "barrier")])

    def test_a_green_is_thought_to_last_the_mean_of_its_bounds(self):
        self.assertEqual(RingPhase(2, "G", 5.0, 41.0, 2.0, 3.0, 1.0, ()).usual, 23.0)

    def test_greens_under_way_end_with_the_run(self):
        """Of one from 100 s on 30 are told up to 130 s; none of one that begins then, nor of a yellow."""
        def running(number, began, green):
            return SimpleNamespace(phase=SimpleNamespace(number=number), began=began, is_green=green)

        logic = Nema(rings())
        logic.active = [running(2, 100, True), running(6, 130, True), running(4, 100, False)]
        [(row, _)] = logic.phases_until(130)
        self.assertEqual(row, (2, 100, 30, ""))

    def test_who_alone_has_a_recall_rests_in_green(self):
        # Nobody else: no end. At 30 s somebody comes to 4, and has it at once; where traffic is on 2 the most of this,
        # 20 s, is counted from then on.
        program = rings(recall=(2, 6))
        self.assertEqual(drive(program, {}, 200), [])
        self.assertEqual(drive(program, {4: range(30, 90)}, 60)[0], (2, 0, 30, "call"))
        self.assertEqual(drive(program, {2: ALWAYS, 4: range(30, 90)}, 60)[0], (2, 0, 49, "call"))
        # One that only passes the area is forgotten.
        self.assertEqual(drive(program, {2: ALWAYS, 4: (30, 31)}, 200), [])

    def test_a_call_that_is_kept(self):
        program = rings(recall=(2, 6), latching=(4,))
        self.assertEqual(drive(program, {2: ALWAYS, 4: (30,)}, 60)[0], (2, 0, 49, "call"))

    def test_a_bus_keeps_its_green(self):
        # Seen from 3 to 12 s: an extension of 2 s follows it. Ring 2 waits for it at the barrier.
        self.assertEqual(drive(rings(), {}, 14, {3: (2,), 12: ()}), [(2, 0, 13, "gap"), (6, 0, 13, "barrier")])
        # Also where the green is over, and waits for the other ring: 6 ends at 7 s, and 2 not before the bus has gone.
        told = drive(rings(), {6: range(6)}, 12, {6: (2,), 10: ()})
        self.assertEqual(told, [(2, 0, 10, "barrier"), (6, 0, 10, "barrier")])
        # Never longer than its most.
        self.assertEqual(drive(rings(), {}, 30, {3: (2,)})[0], (2, 0, 20, "most"))

    def test_a_bus_fetches_its_green_when_those_in_its_way_had_their_least(self):
        # Traffic would hold 2 and 6 until 20 s. The bus comes at 2 s, before their least, or at 9 s, after it.
        busy = {2: ALWAYS, 6: ALWAYS}
        self.assertEqual(drive(rings(), busy, 9, {2: (4,)}), [(2, 0, 5, "bus"), (6, 0, 5, "bus")])
        self.assertEqual(drive(rings(), busy, 14, {9: (4,)}), [(2, 0, 9, "bus"), (6, 0, 9, "bus")])
        # In its own ring alone: 1 ends for 2, and 6 beside it stays.
        program = rings(recall=(1, 2, 4, 6, 8), orders=((1, 2, 0, 4), (0, 6, 0, 8)))
        self.assertEqual(drive(program, {1: ALWAYS, 6: ALWAYS}, 19, {7: (2,)}), [(1, 0, 7, "bus")])

    def test_a_bus_has_a_phase_shown_that_nobody_calls(self):
        # From rest, without any call: at its least, and with the yellow and red of 5 s the bus has green from 15 s on.
        told = drive(rings(recall=(2, 6)), {}, 60, {10: (4,), 20: ()})
        self.assertEqual([row[:3] for row in told[:3]], [(2, 0, 10), (6, 0, 10), (4, 15, 6)])

    def test_what_two_phases_show_together(self):
        program = rings()
        first, left = program.phase(2), program.phase(1)
        self.assertEqual(letters_together([(first, GREEN), (program.phase(6), GREEN)]), "GrGg")
        self.assertEqual(letters_together([(first, YELLOW), (program.phase(6), GREEN)]), "yrGy")
        # Signal 3 is green in phase 1 first: phase 1 alone says what it shows, also in its yellow.
        self.assertEqual(letters_together([(left, YELLOW), (first, GREEN)])[3], "y")

    def test_states_of_sumo(self):
        with open(DATA / "nema.json", encoding="utf-8") as file:
            kept = json.load(file)
        program, number = kept["program"], {name: at for at, name in enumerate(kept["lanes"])}
        orders = tuple(digits(program["parameters"][f"ring{ring}"]) for ring in (1, 2))
        light = Nema(Rings(phases_with_areas(program, number), orders, barriers_of(program["parameters"], orders)))
        light.begin_at(0)
        seen = chain.from_iterable(repeat(lanes, count) for lanes, count in kept["seen"])
        states = chain.from_iterable(repeat(state, count) for state, count in kept["states"])
        for clock, (lanes, state) in enumerate(zip(seen, states, strict=True)):
            if light.due <= clock:
                light.moves_on(clock, lambda area: lanes[area] == "1")
            self.assertEqual(light.state(), state, clock)
        self.assertGreater(len(light.ended_phases), 50)


class Showing(unittest.TestCase):
    def test_a_cycle_of_both_rings(self):
        states = cycle_of(rings(), {1: 5, 2: 9, 4: 5, 5: 5, 6: 6, 8: 5})
        # 9 s of both, of which 6 is done after 6 s and waits; 5 s of yellow and red; and the other side.
        self.assertEqual(states[:9], ["GrGg"] * 9)
        self.assertEqual(states[9:14], ["yryy"] * 3 + ["rrrr"] * 2)
        self.assertEqual((states[14], len(states)), ("rGrr", 9 + 5 + 5 + 5))

    def test_a_green_goes_on_where_it_is_and_stays(self):
        shown = [True, True, False, True, False, False]
        self.assertEqual(green_in_remaining_seconds("GGGGrr", shown, "G", 1), [True, False, True])
        self.assertEqual(green_in_remaining_seconds("GGGGrr", shown, "G", 9), [True])


def street(kind="NEMA", parameters=""):
    """One edge that leads to another through a light; 200 m at 50 km/h."""
    phases = "".join(
        f'<phase duration="30" state="{state}" minDur="5" maxDur="40" vehext="2" yellow="3" red="2" name="{name}"/>'
        for name, state in ((2, "G"), (4, "r"), (6, "G"), (8, "r"))
    )
    values = {"ring1": "0,2,0,4", "ring2": "0,6,0,8", "barrierPhases": "4,8", "barrier2Phases": "2,6"}
    told = "".join(f'<param key="{key}" value="{value}"/>' for key, value in values.items())
    light = f'<tlLogic id="L" type="{kind}" programID="0" offset="0">{phases}{told}{parameters}</tlLogic>'
    edges = [("a", "A", "B", [lane("a", 0, 200)]), ("b", "B", "C", [lane("b", 0, 200)])]
    return net(edges, [("a", 0, "b", 0, 'tl="L" linkIndex="0" dir="s"')], light)


class Runs(Case):
    def lights(self, parameters=""):
        """Of a run of one vehicle, an hour long."""
        routes = '<routes><vehicle id="v" depart="0"><route edges="a b"/></vehicle></routes>'
        paths = self.write("x.net.xml", street(parameters=parameters)), [], [self.write("x.rou.xml", routes)]
        lines, mapping = run_and_map(convert(*paths, Options(), Report()), Report())
        read = map_from("map", json.loads(json.dumps(mapping.written())))
        return driven_lights(run_of_texts("run", lines), read)

    def test_areas_before_the_stop_line(self):
        # 20 m before the end of 200 m, which are 30 cells: who stands there is 1, 7.7 and 14.3 m before it.
        self.assertEqual(self.lights().driven[0].areas, (DetectorArea(0, 0, 27, 29),))
        shorter = '<param key="detector-length" value="10"/>'
        self.assertEqual(self.lights(shorter).driven[0].areas, (DetectorArea(0, 0, 28, 29),))
        longer = '<param key="detector-length" value="1e308"/>'
        self.assertEqual(self.lights(longer).driven[0].areas, (DetectorArea(0, 0, 0, 29),), "the whole lane")

    def test_parameters_that_change_its_phases_are_told(self):
        for parameter, why in (
            ('key="coordinate-mode" value="true"', "coordinate-mode=true is not driven here"),
            ('key="crossPhaseSwitching:2" value="4"', "crossPhaseSwitching:2=4 is not driven here"),
            ('key="ring1" value="0,3,0,4"', "they have no phase 3, which SUMO asks for"),
            ('key="barrierPhases" value="2,6"', "both their barriers are on one side, which SUMO refuses"),
            ('key="barrier2Phases" value="0,6"', "their barriers do not have a phase of each ring"),
            ('key="a_0" value="mine"', "the map has no laneAreaDetector mine"),
            ('key="detector-length" value="inf"', "'inf' of their parameters is no number"),
            ('key="detector-length" value="nan"', "'nan' of their parameters is no number"),
        ):
            with self.subTest(why):
                found = self.lights(f"<param {parameter}/>")
                self.assertEqual((found.driven, found.listed), ((), {"L": f"as {why}"}))

    def test_who_has_passed_the_stop_line_is_on_the_area_for_a_second(self):
        lanes = {(0, 0): Lane(((7, 22, 2),), (), (), ()), (1, 0): Lane((), ((8, 2, 61),), (), ())}
        areas = DetectorArea(0, 0, 24, 26), DetectorArea(1, 0, 24, 26), DetectorArea(2, 0, 24, 26)
        self.assertEqual([present_by(60, lanes.get, areas)(at) for at in range(3)], [False, True, False])
        self.assertFalse(present_by(61, lanes.get, areas)(1))

    @needs_simulator
    def test_a_run_whose_light_has_two_rings(self):
        vehicles = "".join(
            f'<vehicle id="v{at}" depart="{at}"><route edges="a b"/></vehicle>' for at in range(0, 200, 2)
        )
        paths = self.write("x.net.xml", street()), "--routes", self.write("x.rou.xml", f"<routes>{vehicles}</routes>")
        run, mapping, out = self.folder / "run.jsonl", self.folder / "map.json", self.folder / "out"
        self.tool("import", *paths, "-o", run, "--map", mapping)
        said, _ = self.tool("run", run, "--map", mapping, "--out", out, "--until", 200)
        self.assertNotIn("show their listed seconds", said)
        with open(out / "phases.csv", encoding="utf-8") as file:
            rows = [[row["begin"], row["phase"], row["seconds"], row["ended"]] for row in csv.DictReader(file)]
        # The first vehicle comes after some 15 s: the least alone at first, and then traffic holds phase 2.
        self.assertEqual(rows[:3], [["0", "2", "5", "gap"], ["0", "6", "5", "gap"], ["10", "4", "5", "gap"]])
        self.assertIn("most", [row[3] for row in rows if row[1] == "2"])


if __name__ == "__main__":
    unittest.main()
