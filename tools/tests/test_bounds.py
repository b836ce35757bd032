"""Bounds and gaps of actuated lights: what a search changes, and what it writes."""
import csv
import unittest
from dataclasses import replace
from types import SimpleNamespace

from support import PROGRAM, Case, needs_simulator
from test_actuated import PHASES, street
from test_nema import rings, street as ringed
from streetsim.base.files import Fault
from streetsim.control.actuated_kept import Cell
from streetsim.control.actuated_lights import ActuatedLights, Driven, driven_lights
from streetsim.control.actuated_logic import ActuatedPhase
from streetsim.control.nema_lights import DrivenRings
from streetsim.control.nema_phases import Rings
from streetsim.model.mapping import read_map
from streetsim.model.runs import read_run
from streetsim.search.signal_bounded import BoundsSettings, searched_bounds
from streetsim.search.signal_bounds import (
    Bounds, bounds_text, given_bounds, kept_with, key_of, lowest_greens, search_bounds, with_bounds,
)
from streetsim.search.signal_search import PlanSearch

OWN = Bounds(((0, 5, 40), (2, 5, 30)), (3.0,))


class Gaps(unittest.TestCase):
    def test_one_for_all_greens_or_one_for_each(self):
        self.assertEqual([OWN.gap_of(at) for at in (0, 1)], [3.0, 3.0])
        self.assertEqual([replace(OWN, gaps=(3.0, 4.0)).gap_of(at) for at in (0, 1)], [3.0, 4.0])


class Changing(unittest.TestCase):
    def test_a_gap_and_a_green(self):
        self.assertEqual(OWN.with_gap(0, 2.5), Bounds(OWN.greens, (2.5,)))
        self.assertIsNone(OWN.with_gap(0, 8.5))
        self.assertEqual(OWN.with_green(1, 7, 35, 5), Bounds(((0, 5, 40), (2, 7, 35)), (3.0,)))
        # No least below the lowest, and none as long as the most.
        self.assertIsNone(OWN.with_green(0, 4, 40, 5))
        self.assertIsNone(OWN.with_green(0, 40, 40, 5))
        # One that was lower before stays as it is allowed.
        low = Bounds(((0, 3, 40),), (3.0,))
        self.assertEqual(low.with_green(0, 3, 50, 5), Bounds(((0, 3, 50),), (3.0,)))

    def test_what_no_detector_extends_is_not_searched(self):
        """It ends at its least, whatever its most and the gap are."""
        phases = ActuatedPhase("Gr", 30, 5, 40, (0,)), ActuatedPhase("rG", 30, 5, 40)
        light = Driven("L", 0, phases, 2.0, (Cell(0, 0, 3),), (4.0,), ())
        self.assertEqual(given_bounds(ActuatedLights((light,)), ()), {"L": Bounds(((0, 5, 40),), (4.0,))})
        self.assertEqual(given_bounds(ActuatedLights((replace(light, phases=phases[1:], cells=(), gaps=()),)), ()), {})

    def test_greens_of_a_ring_that_no_area_extends_are_not_searched(self):
        """Without an area a green lasts its least, and with a recall of its most that, whoever comes."""
        program = rings(most_recall=(6,))
        phases = [replace(one, areas=()) if one.number == 4 else one for one in program.phases]
        light = DrivenRings("L", Rings(phases, program.orders, program.barriers), (), ())
        given = Bounds(tuple((number, 5, 20) for number in (1, 2, 5, 8)), (2,) * 4)
        self.assertEqual(given_bounds(ActuatedLights((light,)), ()), {"L": given})

    def test_the_search_finds_the_least_of_a_bowl(self):
        # The value is least at a gap of 2 s, a most of 55 s and a least of 9 s.
        def value(bounded):
            [own] = bounded.values()
            [(_, least, most)] = own.greens
            return 100 + (own.gap_of(0) - 2) ** 2 + abs(most - 55) + abs(least - 9)

        search = PlanSearch(lambda plans: (value(one) for one in plans), 500, 1, key_of=key_of)
        search_bounds(search, {"L": Bounds(((0, 5, 40),), (3.0,))}, {("L", 0): 5})
        [own] = search.best[1].values()
        self.assertEqual(own, Bounds(((0, 9, 56 if own.greens[0][2] == 56 else 55),), (2.0,)))
        self.assertEqual(search.trials[0].step, "given")

    def test_a_budget_below_the_seeds_that_the_runs_ask_for(self):
        spread = (100, 120, 140, 90, 80, 150, 100, 110, 90, 130)
        workers = SimpleNamespace(ordered=lambda tasks: (SimpleNamespace(seconds=one) for one in spread))
        ground = SimpleNamespace(town=SimpleNamespace(session=SimpleNamespace(departs=[0])), given_bounds={})
        with self.assertRaisesRegex(Fault, "--budget 9: one plan takes 10 simulations"):
            searched_bounds(BoundsSettings(9, (), 5), workers, ground, range(1, 11))


    def test_a_given_least_is_kept_but_where_a_word_says_so(self):
        """Of 9 s at the phase 0, and of pedestrians who need 12 s at the phase 2."""
        kept = {"light": "L", "parameters": {"pedestrians.2": "12"}}
        mapping, given = SimpleNamespace(programs=[kept]), {"L": Bounds(((0, 9, 40), (2, 5, 30)), (3.0,))}
        self.assertEqual(lowest_greens(mapping, given, None), {("L", 0): 9, ("L", 2): 12})
        self.assertEqual(lowest_greens(mapping, given, 6), {("L", 0): 6, ("L", 2): 12})
        # The shorter the least the better: it stays at the given one.
        search = PlanSearch(lambda plans: (one["L"].greens[0][1] for one in plans), 200, 1, key_of=key_of)
        search_bounds(search, given, lowest_greens(mapping, given, None))
        self.assertEqual(search.best[1]["L"].greens[0][1], 9)


@needs_simulator
class Runs(Case):
    def imported(self, departs=range(0, 300, 4)):
        run, mapping = self.folder / "run.jsonl", self.folder / "map.json"
        vehicles = "".join(
            f'<vehicle id="v{at}" depart="{at}"><route edges="a b"/></vehicle>' for at in departs
        )
        net = self.write("x.net.xml", street(PHASES + '<param key="max-gap" value="4"/>'))
        routes = self.write("x.rou.xml", f"<routes>{vehicles}</routes>")
        self.tool("import", net, "--routes", routes, "-o", run, "--map", mapping)
        return net, run, mapping

    def test_bounds_of_a_map(self):
        _, run, path = self.imported()
        mapping = read_map(str(path))
        lights = driven_lights(read_run(str(run)), mapping)
        self.assertEqual(given_bounds(lights, ()), {"L": Bounds(((0, 5, 40),), (4.0,))})
        self.assertEqual(given_bounds(lights, ("L",)), {})
        [made] = with_bounds(lights, mapping, {"L": Bounds(((0, 8, 60),), (2.0,))}).driven
        self.assertEqual((made.phases[0].least_seconds, made.phases[0].most_seconds, made.gaps), (8, 60, (2.0,)))
        self.assertEqual(kept_with(mapping.programs[0], OWN)["parameters"], {"max-gap": "3"})
        self.write("x.add.xml", bounds_text(mapping, {"L": Bounds(((0, 8, 60),), (2.0,))}))
        text = (self.folder / "x.add.xml").read_text(encoding="utf-8")
        self.assertIn('<tlLogic id="L" type="actuated" programID="streetsim" offset="0">', text)
        self.assertIn('<param key="max-gap" value="2"/>', text)
        self.assertIn('<phase duration="30" state="G" minDur="8" maxDur="60"/>', text)
        self.assertIn('<phase duration="3" state="y"/>', text)

    def test_bounds_of_a_light_of_two_rings(self):
        run, path = self.folder / "run.jsonl", self.folder / "map.json"
        routes = '<routes><vehicle id="v" depart="0"><route edges="a b"/></vehicle></routes>'
        paths = self.write("x.net.xml", ringed()), "--routes", self.write("x.rou.xml", routes)
        self.tool("import", *paths, "-o", run, "--map", path)
        mapping = read_map(str(path))
        lights = driven_lights(read_run(str(run)), mapping)
        given = Bounds(((2, 5, 40), (6, 5, 40)), (2.0,) * 2)  # 4 and 8 have green on no lane, so no area
        self.assertEqual(given_bounds(lights, ()), {"L": given})
        found = Bounds(((2, 7, 40), (6, 5, 30)), (2.0, 3.5))
        [made] = with_bounds(lights, mapping, {"L": found}).driven
        phases = [(one.number, one.least_seconds, one.most_seconds, one.extension) for one in made.rings.phases]
        self.assertEqual(phases, [(2, 7, 40, 2.0), (4, 5, 40, 2.0), (6, 5, 30, 3.5), (8, 5, 40, 2.0)])
        self.write("x.add.xml", bounds_text(mapping, {"L": found}))
        text = (self.folder / "x.add.xml").read_text(encoding="utf-8")
        self.assertIn('<tlLogic id="L" type="NEMA" programID="streetsim" offset="0">', text)
        more = 'name="6" vehext="3.5" yellow="3" red="2"'
        self.assertIn(f'<phase duration="30" state="G" minDur="5" maxDur="30" {more}/>', text)
        # What was written is read as these bounds.
        again = self.folder / "again.json"
        self.tool("import", paths[0], self.folder / "x.add.xml", *paths[1:], "-o", run, "--map", again)
        read = read_map(str(again))
        self.assertEqual(given_bounds(driven_lights(read_run(str(run)), read), ()), {"L": found})

    def test_the_command(self):
        # A vehicle each 4 s, and nobody crosses: the longer the green the better, so its most goes up.
        net, run, mapping = self.imported()
        words = run, "--map", mapping, "--plans", net, "--until", 900, "--bounds", "--budget", 12, "--seeds", 1
        out = self.folder / "out"
        places = "-o", self.folder / "found.add.xml", "--out", out, "--jobs", 2, "--program", PROGRAM
        said, _ = self.tool("signals", *words, "--check", "101-102", "--cycle", "40-60", *places)
        self.assertIn("the best plan of seconds: ", said)
        with open(out / "lights.csv", encoding="utf-8") as file:
            [row] = csv.DictReader(file)
        self.assertEqual((row["most_before"], row["gap_before"]), ("40", "4"))
        self.assertTrue(int(row["most_after"]) >= 40 or float(row["gap_after"]) != 4)
        with open(out / "before-after.csv", encoding="utf-8") as file:
            self.assertEqual([one["figure"] for one in csv.DictReader(file)], [
                "mean_trip_s", "mean_trip_of_best_fixed_s",
            ])


if __name__ == "__main__":
    unittest.main()
