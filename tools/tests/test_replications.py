"""Departures that are drawn by the seed: their numbers, seconds and names, and what intervals of a day are."""
import json
import unittest
from collections import Counter
from statistics import fmean, pvariance, stdev

from doors import lit
from support import MAP, NUMBERED, PROGRAM, Case, needs_proved, needs_simulator
from streetsim.base.files import Fault
from streetsim.base.seeds import mean_and_day, mean_and_half_width
from streetsim.cli.running import mean_trip_line
from streetsim.model.mapping import map_from
from streetsim.model.replications import DRAWN, drawn, listed_in_map
from streetsim.model.runs import run_of_texts, with_load
from streetsim.model.stops import Visit

TYPES = [["DEFAULT_VEHTYPE", "passenger", 5.0, 2.5, None], ["truck", "truck", 7.5, 2.5, None]]


def made(departs, lines=(), types=(), visits=(), plan=(0, 1), seed=1):
    """The run of vehicles v0, v1, .. that depart at such clocks, and its map."""
    enters = [{"cmd": "enter", "plan": [*plan], "lane": 0, "depart": depart} for depart in departs]
    texts = [json.dumps({"cmd": "load", **NUMBERED, "seed": seed}), *map(json.dumps, enters)]
    cars = [f"v{number}" for number in range(len(departs))]
    kinds = {"types": TYPES, "type": list(types) or [0] * len(cars), "route": [], "line": list(lines)}
    mapping = map_from("map", {**MAP, "cars": cars, "vehicles": kinds})
    mapping.visits = list(visits)
    return run_of_texts("run", texts), mapping


def departures(run, mapping):
    return dict(zip(mapping.cars, (line.command["depart"] for line in run.enters), strict=True))


class Drawn(unittest.TestCase):
    def test_numbers_are_poisson_around_those_of_the_file(self):
        """Of 400 seeds, 60 and 20 vehicles in two quarters: mean and variance are the file's number. The standard error
        of a mean of 400 is a twentieth of the deviation, that of a variance a fourteenth of it (four are allowed)."""
        run, mapping = made([*range(0, 900, 15), *range(900, 1800, 45)])
        counts = []
        for seed in range(400):
            own = departures(*drawn(with_load(run, seed=seed), mapping))
            counts.append(Counter(depart // 900 for depart in own.values()))
        for quarter, number in ((0, 60), (1, 20)):
            found = [one[quarter] for one in counts]
            self.assertAlmostEqual(fmean(found), number, delta=4 * number**0.5 / 20)
            self.assertAlmostEqual(pvariance(found), number, delta=4 * number / 14)
        self.assertEqual({quarter for one in counts for quarter in one}, {0, 1})

    def test_seconds_are_uniform_in_a_quarter(self):
        """All depart at 10 and 890 s in the file: in a draw each tenth of the quarter has a tenth."""
        run, mapping = made([10] * 3000 + [890] * 3000)
        found = Counter((depart - 10) // 89 for depart in departures(*drawn(run, mapping)).values())
        self.assertEqual(sorted(found), [*range(9), 9][: len(found)])
        for share in range(9):
            self.assertAlmostEqual(found[share], 6000 * 89 / 881, delta=110)

    def test_nobody_departs_before_the_first_or_after_the_last_of_the_file(self):
        run, mapping = made([*range(300, 1200, 9)])
        found = departures(*drawn(run, mapping)).values()
        self.assertTrue(300 <= min(found) and max(found) < 1200)
        self.assertEqual(list(found), sorted(found))

    def test_names_types_and_seeds(self):
        run, mapping = made([*range(0, 900, 3)], types=[number % 3 == 0 for number in range(300)])
        own, names = drawn(run, mapping)
        for name in names.cars:
            self.assertRegex(name, r"^v\d+(#[2-9])?$")
        self.assertEqual(len(set(names.cars)), len(own.enters))
        for name, kind in zip(names.cars, names.kinds["type"], strict=True):
            self.assertEqual(kind, int(name[1:].partition("#")[0]) % 3 == 0)
        self.assertEqual(departures(own, names), departures(*drawn(run, mapping)))
        self.assertNotEqual(departures(own, names), departures(*drawn(with_load(run, seed=2), mapping)))
        self.assertEqual(departures(run, mapping)["v5"], 15)

    def test_variants_with_other_ways_and_further_vehicles_have_the_same(self):
        first = departures(*drawn(*made([*range(0, 900, 3)])))
        other = departures(*drawn(*made([*range(0, 900, 3)], plan=(0,))))
        self.assertEqual(other, first)
        more = departures(*drawn(*made([*range(0, 900, 3), *range(1, 898, 3)])))
        self.assertEqual({name: more[name] for name in first}, first)

    def test_lines_and_stops_keep_their_times(self):
        visits = [Visit(number, 0, "stop", 0, 0, 3, 4, 20, None, 0.0, 0.0) for number in (7, 8)]
        lines = ["4" if number < 5 else "" for number in range(100)]
        run, mapping = made([*range(0, 900, 9)], lines=lines, visits=visits)
        for seed in range(20):
            own, names = drawn(with_load(run, seed=seed), mapping)
            found = departures(own, names)
            for number in (0, 1, 2, 3, 4, 7, 8):
                self.assertEqual(found[f"v{number}"], 9 * number)
                self.assertNotIn(f"v{number}#2", found)
            self.assertEqual([names.cars[visit.vehicle] for visit in names.visits], ["v7", "v8"])
            lines = {name for name, line in zip(names.cars, names.kinds["line"], strict=True) if line}
            self.assertEqual(lines, {f"v{number}" for number in range(5)})

    def test_what_the_file_says_is_kept(self):
        run, mapping = made([0, 1, 2])
        self.assertEqual(listed_in_map(mapping)["cars"], ["v0", "v1", "v2"])
        texts = [json.dumps({"cmd": "load", **NUMBERED}), '{"cmd":"meter","car":1,"at":5}'.replace("meter", "vehicle")]
        with self.assertRaises(Fault) as raised:
            drawn(run_of_texts("run", texts), mapping)
        self.assertIn("a line names a vehicle by its number", str(raised.exception))


class Intervals(unittest.TestCase):
    def test_a_day_is_wider_than_the_mean(self):
        """t s sqrt(1 + 1/n): of four values with the deviation 2 and t = 3.182."""
        values = [8.0, 10.0, 10.0, 12.0]
        mean, half = mean_and_day(values)
        self.assertEqual(mean, 10.0)
        self.assertAlmostEqual(half, 3.182 * stdev(values) * (1 + 1 / 4) ** 0.5)
        self.assertAlmostEqual(half, mean_and_half_width(values)[1] * 5**0.5)
        self.assertIsNone(mean_and_day([3.0])[1])

    def test_listed_runs_call_nothing_sure(self):
        told = "mean trip 102.0 s, 95 % interval of the mean 76.6 to 127.4 s, of one day 58.0 to 146.0 s"
        self.assertEqual(mean_trip_line([100.0, 104.0], True), told)
        told = mean_trip_line([100.0, 104.0], False)
        self.assertIn("of another day nothing is sure", told)
        self.assertNotIn("95 %", told)


@needs_simulator
class Commands(Case):
    def given(self):
        network = self.write("x.net.xml", lit([(30, "G"), (3, "y"), (40, "r")]))
        flow = '<routes><flow id="f" begin="0" end="900" period="6"><route edges="a b"/></flow></routes>'
        self.run_file, self.map_file = self.folder / "run.jsonl", self.folder / "map.json"
        routes = self.write("x.rou.xml", flow)
        self.tool("import", network, "--routes", routes, "-o", self.run_file, "--map", self.map_file)

    def made(self, name, *words):
        words = [self.run_file, "--map", self.map_file, "--until", 1500, "--program", PROGRAM, "--every", 0, *words]
        return self.tool("run", *words, "--out", self.folder / name)[0].splitlines()

    def trips(self, name):
        return (self.folder / name / "trips.csv").read_text(encoding="utf-8").splitlines()

    def test_a_seed_of_several_is_the_run_of_this_seed(self):
        self.given()
        told = self.made("several", "--seeds", "1-2")
        spans = r"-?[\d.]+ to [\d.]+ s"
        self.assertRegex(told[-1], rf"^mean trip [\d.]+ s, 95 % interval of the mean {spans}, of one day {spans}$")
        self.made("one", "--departures", "drawn")
        self.assertEqual(self.trips("one"), self.trips("several/seed-1"))
        self.assertNotEqual(self.trips("one")[1:], self.trips("several/seed-2")[1:])
        self.made("single")
        self.assertEqual(len(self.trips("single")), 151)
        told = self.made("listed", "--seeds", "1-2", "--departures", "listed")
        self.assertIn("of another day nothing is sure", told[-1])
        self.assertEqual(self.trips("listed/seed-1"), self.trips("single"))

    @needs_proved
    def test_drawn_runs_are_made_again_from_what_their_folder_keeps(self):
        self.given()
        self.made("several", "--seeds", "1-2", "--junctions")
        self.made("one", "--departures", "drawn")
        page = self.folder / "page.html"
        self.tool("report", self.folder / "several", "--sealed", "-o", page)
        self.assertIn("intervals are of the mean", page.read_text(encoding="utf-8"))
        for name in ("several", "several/seed-2", "one", page):
            told, _ = self.tool("check", self.folder / name, "--program", PROGRAM)
            self.assertIn("is that of a run", told)
        setting = json.loads((self.folder / "one/setting.json").read_text(encoding="utf-8"))
        self.assertEqual(len(setting["listed"]["cars"]), 150)
        self.assertIn(f"--departures={DRAWN}", setting["made"]["words"])

    def test_drawn_runs_are_not_compared_with_sumo(self):
        self.given()
        self.made("one", "--departures", "drawn")
        trips = self.write("trips.xml", '<tripinfos><tripinfo id="f.0" depart="0" arrival="9"/></tripinfos>')
        _, said = self.tool("compare", self.folder / "one", "--sumo", trips, status=2)
        self.assertIn("its departures were drawn, and SUMO had those of the file", said)
        self.assertEqual(len(said.splitlines()), 1)


if __name__ == "__main__":
    unittest.main()
