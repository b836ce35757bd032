"""The report of runs: differences by hand, what the page says, and how Chromium shows and prints it."""
import html
import json
import re
import shutil
import subprocess
import unittest
from dataclasses import asdict, replace
from types import SimpleNamespace
from unittest import mock

from support import MAP, PROGRAM, TOOLS, Case, needs_package, needs_simulator
from streetsim.base.files import Fault
from streetsim.cli import report
from streetsim.cli.report import path_and_way_back
from streetsim.model.doubts import ALL, MOVEMENT, Doubt
from streetsim.model.folder import Folder
from streetsim.model.fullness import STRAIGHT, FullLane, Fullness
from streetsim.model.mapping import map_from
from streetsim.model.names import Names
from streetsim.model.replications import WORD
from streetsim.model.rows import part_of_frame
from streetsim.model.service import COLOURS, WHITE_LETTERS
from streetsim.model.tables import APPROACHES, JUNCTIONS, MOVEMENTS, SEEDS, TRIPS, write_table
from streetsim.report.forecast_errors import PAGE, errors_table
from streetsim.report.page_choice import RowChange
from streetsim.report.page_drawings import QueueBar, anchor, letter_mark, queue_picture
from streetsim.report.page_junctions import doubt_mark
from streetsim.report.page_state import state_verdict
from streetsim.report.page_summary import groups_table, places_table, trips_told, why
from streetsim.report.plan_costs import PlanCosts
from streetsim.report.plan_differences import difference_of, mean_delays
from streetsim.report.run_tables import ResultRow, Runs, of_most, read_runs
from streetsim.report.works_queues import LinkOnWay, note_standing

CHROMIUM = shutil.which("chromium") or shutil.which("chromium-browser")
CORRIDOR = TOOLS / "examples/corridor"
LOST = {"vehicles": 10, "vehicles_per_hour": 40, "stopped_delay_s": 5.0, "stops_per_vehicle": 0.5}
QUEUED = {
    "nearly_full": "", "full_percent": 0, "blocked_percent": "", "doubt": "", "queue_50_m": 7.5, "queue_95_m": 15.0,
    "queue_max_m": 22.5, "storage_m": 75.0,
}
WARNINGS = ["ignored: 3 x stops", "warning: 2 <turns> & more", "skipped: 4 vehicles: no route", "1 light"]
# How many pixels of a picture have each colour.
COUNT = """import json, sys
from PIL import Image
image = Image.open(sys.argv[1]).convert("RGB")
print(json.dumps({"#%02x%02x%02x" % colour: count for count, colour in image.getcolors(1 << 24)}))"""


def has_pillow():
    words = ["/usr/bin/python3", "-c", "import PIL"]
    return subprocess.run(words, capture_output=True, check=False).returncode == 0


def luminance(colour):
    """Relative luminance, as WCAG 2 defines it, of #rrggbb."""
    parts = [int(colour[place : place + 2], 16) / 255 for place in (1, 3, 5)]
    red, green, blue = (part / 12.92 if part <= 0.03928 else ((part + 0.055) / 1.055) ** 2.4 for part in parts)
    return 0.2126 * red + 0.7152 * green + 0.0722 * blue


class Numbers(unittest.TestCase):
    def test_paired_differences(self):
        """Changes of -2, -4 and -3 s: mean -3, deviation 1, quantile of two degrees of freedom 4.303."""
        values = {1: 10.0, 2: 12.0, 3: 11.0, 9: 99.0}, {1: 8.0, 2: 8.0, 3: 8.0}
        one = difference_of(*values, drawn=False)
        self.assertEqual((one.mean_before, one.mean_after, one.change), (11.0, 8.0, -3.0))
        self.assertAlmostEqual(one.half, 4.303 / 3**0.5)
        self.assertTrue(one.stands_out())
        # That of one day, t s sqrt(1 + 1/n), within which is 0, warns, and that of the mean decides.
        day = difference_of(*values, drawn=True)
        self.assertEqual((day.change, day.half, day.stands_out(), day.word()), (-3.0, one.half, True, "better"))
        self.assertAlmostEqual(day.day, 4.303 * (4 / 3) ** 0.5)
        self.assertIsNone(one.day)
        self.assertEqual(difference_of({1: 1.0}, {1: 3.0}, drawn=False).in_words(), "+2.0")
        self.assertIsNone(difference_of({1: 1.0}, {2: 1.0}, drawn=True))

    def test_who_arrives_with_one_plan_alone_is_told(self):
        # Where no trip arrived with both plans, too.
        alone = "2 trips arrived before and do not now, 3 the other way round."
        self.assertEqual(trips_told(PlanCosts(lost=2, won=3)), ["No trip arrived with both plans.", alone])
        self.assertEqual(trips_told(PlanCosts([20], lost=2, won=3))[1:], [alone])
        self.assertEqual(trips_told(PlanCosts()), ["No trip arrived with both plans."])

    def test_flows_that_lose_and_that_win(self):
        """Six flows all stand in the table; of seven the three that lose most and the three that win most."""
        def shown(count):
            sides = {f"f{at}": ({1: 50.0, 2: 50.0}, {1: 50.0 + at, 2: 50.0 + at}) for at in range(count)}
            flows = {name: (10, difference_of(*both, drawn=False)) for name, both in sides.items()}
            text = groups_table(PlanCosts(groups=flows))
            return "".join(re.findall(r"f\d", text)), re.findall(r"\d of [\d,]+", text)

        self.assertEqual(shown(6), ("f5f4f3f2f1f0", []))
        self.assertEqual(shown(7), ("f6f5f4f2f1f0", ["6 of 7"]))
        self.assertEqual(groups_table(PlanCosts()), "")

    def test_who_stands_at_works(self):
        """The works begin at 30 m: who stands on the cell from 22.5 to 30 m is right before them, and one on the next
        cell stands in them. Before they begin, and behind their end, nobody does."""
        polls = [{"clock": clock, "lanes": [[0, 0, [[1, 3, 0], [2, 4, 0], [3, 1, 0], [4, 0, 2]], [], []]]}
                 for clock in (290, 300, 600, 610)]  # fmt: skip
        mapping = SimpleNamespace(links=[SimpleNamespace(metres=75.0, cells=10)])
        place = SimpleNamespace(begin=300, end=600, way=[LinkOnWay(0, -45.0, 30.0)], standing=[])
        parts = [(part_of_frame(poll), [{}]) for poll in polls]
        note_standing(SimpleNamespace(mapping=mapping, polled_parts=lambda: parts), [place])
        self.assertEqual(place.standing, [(300, 0), (300, 15), (600, 0), (600, 15)])

    def test_what_is_told_of_a_movement(self):
        """E and F are worse than D; a change is told from 5 s on, or where it comes with another level of service."""
        def row(letter, before="C", seconds=0.0):
            own = [SimpleNamespace(letter=lambda one=one: one) for one in (letter, before)]
            delays = [dict.fromkeys((1, 2), delay) for delay in (50.0, 50.0 + seconds)]
            return RowChange((), *own, difference_of(*delays, drawn=False))

        self.assertEqual([letter for letter in "ABCDEF" if row(letter).is_bad], ["E", "F"])
        self.assertEqual([letter_mark(letter) for letter in "AF"],
                         [f'<span class="los los-{letter}">{letter}</span>' for letter in "AF"])
        noticed = row("C", seconds=5.0), row("C", seconds=-5.0), row("D", seconds=4.9)
        self.assertEqual([one.changes_noticeably for one in noticed], [True] * 3)
        self.assertEqual([one.changes_noticeably for one in (row("C", seconds=4.9), row("D"))], [False] * 2)

    def test_queues(self):
        """Bars of 350 pixels for the longest: 75 of 150 m are 175. A full lane has the gap behind its last vehicle."""
        rows = [("a", 30, 75, 147.5, 150), ("b", 0, 0, 0, 75), ("c", 9, 9, 140, 150), ("d", 9, 9, 196.7, 199.2)]
        bars = [QueueBar(*one) for one in rows]
        picture = queue_picture([*bars[:3], QueueBar("d", 0, 0, 0, 2)])
        self.assertIn('width="175.0" height="12" fill="#9ecae1"', picture)
        self.assertIn("30, 75, 148 of 150 m, filled once", picture)
        self.assertEqual(picture.count("filled"), 1)
        self.assertEqual(queue_picture(bars).count("filled"), 2)
        spilling = bars[1]._replace(spills="full in 4 % of cycles")
        self.assertIn("of 75 m, full in 4 % of cycles", queue_picture([spilling]))

    def test_names_before_bars_have_room(self):
        """Of 40 letters at 7 pixels: 280 pixels, and 500 are left for names and bars."""
        picture = queue_picture([QueueBar("along the long street, from the north-east"[:40], 0, 0, 0, 100)])
        self.assertIn('<text x="280"', picture)
        self.assertIn('<rect width="220.0" height="18"', picture)

    def test_letters_in_grey(self):
        """Each letter is darker than the better one, and its writing has the contrast 4.5 that WCAG 2 asks for."""
        bright = {letter: luminance(colour) + 0.05 for letter, colour in COLOURS.items()}
        for better, worse in zip("ABCDE", "BCDEF"):
            self.assertGreater(bright[better] / bright[worse], 1.25, worse)
        for letter, light in bright.items():
            self.assertGreater(1.05 / light if letter in WHITE_LETTERS else light / 0.05, 4.5, letter)

    def test_places_in_the_page(self):
        self.assertEqual(anchor('a "1"'), "junction-a-20--22-1-22-")


class Given(Case):
    """Two plans of two seeds each, written by hand: delays of 90 and 94 s, then 30 and 32 s, at one junction."""

    def setUp(self):
        super().setUp()
        for name, delays in (("before", (90.0, 94.0)), ("after", (30.0, 32.0))):
            for seed, delay in enumerate(delays, 1):
                self.write_folder(f"{name}/seed-{seed}", seed, delay)

    def draw_departures(self, *names):
        """Lets the runs of some plans be such whose departures were drawn."""
        for setting in (path for name in names for path in (self.folder / name).glob("seed-*/setting.json")):
            value = json.loads(setting.read_text())
            value["made"]["words"] = [WORD]
            setting.write_text(json.dumps(value))

    def write_folder(self, name, seed, delay, doubts=()):
        folder = self.folder / name
        folder.mkdir(parents=True)
        made = {"run": "x.jsonl", "seed": seed, "start": 0, "until": 1800, "vehicles": 2, "program": "abc"}
        setting = {"map": {**MAP, "warnings": WARNINGS}, "signals": [], "dawdle": 170, "every": 10, "period": 900}
        (folder / "setting.json").write_text(json.dumps({**setting, "made": made, "not_trusted": list(doubts)}))
        (folder / "trips.csv").write_text(",".join(TRIPS) + f"\nv,0,{100 + seed},{100 + seed},4,26,2,0,arrived\n")
        rows = {
            **LOST, **QUEUED, "control_delay_s": delay, "error_s": "", "saturation_flow": 1760,
            "capacity_per_hour": 800,
        }
        rows.update(junction="B", control="signals", approach="a", to="b", movement="T", v_c=0.05, los="?")
        for table, columns in (("movements", MOVEMENTS), ("approaches", APPROACHES), ("junctions", JUNCTIONS)):
            rows.update(begin=0, end=900)
            first = [rows[column] for column in columns]
            rows.update(begin=900, end=1800)
            later = [{**rows, "vehicles_per_hour": 30}[column] for column in columns]
            write_table(f"{folder}/{table}.csv", columns, [first, later])

    def page(self, *words):
        path = self.folder / "page.html"
        self.tool("report", *words, "-o", path)
        return path

    def plans(self):
        return self.folder / "before", self.folder / "after"


class Marks(unittest.TestCase):
    def test_rows_that_are_doubted(self):
        marked, usual = (ResultRow(("B",), "signals", "", {"control_delay_s": 9.0}, {}, why) for why in ("<full>", ""))
        self.assertIn("doubted: &lt;full&gt;", doubt_mark(marked))
        self.assertEqual(doubt_mark(usual), "")

    def test_why_a_place_is_doubted(self):
        """A councillor's words first; what has no size has its own."""
        said = {1.2: "1.20 times as many wish to pass as can", 0.93: "nearly as many wish to pass as can (93 %)"}
        for size, told in said.items():
            self.assertIn(told, why(Doubt(MOVEMENT, "B", "a", f"v/c {size:.2f}", ALL, target="b", size=size)))
        self.assertEqual(why(Doubt(MOVEMENT, "B", "a", "two rescues", ALL)), "two rescues")
        waiting = Doubt(MOVEMENT, "B", "a", "v/c 0.62", ALL, target="b", size=0.62)
        self.assertEqual(why(waiting), "a vehicle that turns here waits for gaps (62 % of what can pass)")

    def test_doubted_places_of_two_plans(self):
        """Of each place the worst, with the plans that have it."""
        one = Doubt(MOVEMENT, "B", "a", "v/c 0.93", ALL, target="b", size=0.93, vehicles=9)
        mapping = map_from("", MAP)
        plans = [
            Runs(name, {1: Folder("x", mapping, [], 0, 0, 900, places=places)})
            for name, places in (("before", [one]), ("after", [replace(one, why="v/c 1.20", size=1.2)]))
        ]
        text = places_table(plans)
        self.assertEqual(text.count("<tr>"), 2)
        self.assertIn("before (0.93) and after (1.20)", text)
        self.assertIn("1.20 times as many wish to pass as can", text)
        self.assertEqual(places_table([Runs("a", {1: Folder("x", mapping, [], 0, 0, 900)})]), "")

    def test_a_doubt_of_some_seeds(self):
        """Of less than half of the runs it is none."""
        for doubts, told in ((["a", "b"], "a"), (["a"], "a (in 1 of 2 runs)"), ([], "")):
            self.assertEqual(of_most(doubts, (1, 2)), told)
        self.assertEqual(of_most(["a"], (1, 2, 3)), "")


class Pages(Given):
    def test_the_verdict_of_one_plan_names_the_worst_junction(self):
        runs, shown = read_runs(str(self.folder / "before")), (0, 900)
        junctions = runs.rows["junctions", *shown]
        self.assertIn("Junction B has level of service F.", state_verdict(runs, shown))
        level = {"vehicles": 9.0, "vehicles_per_hour": 99.0}
        for name, delay in (("C", 40.0), ("D", 20.0)):
            junctions[name,] = ResultRow((name,), "signals", "", {**level, "control_delay_s": delay}, {})
        told = "One of three junctions has a level of service worse than D; the worst is F, at Junction B."
        self.assertIn(told, state_verdict(runs, shown))
        del junctions["B",]
        told = "Every junction has level of service D or better; the worst is Junction C."
        self.assertIn(told, state_verdict(runs, shown))

    def test_means_over_seeds(self):
        runs = read_runs(str(self.folder / "before"))
        row = runs.rows["movements", 0, 900]["B", "a", "b"]
        self.assertEqual((row.delay, row.letter(), list(runs.folders)), (92.0, "F", [1, 2]))
        self.assertEqual(mean_delays(runs.rows["junctions", 0, 900].values()), {1: 90.0, 2: 94.0})
        self.assertEqual((runs.busiest(), runs.mean_trips()), ((0, 900), {1: 101.0, 2: 102.0}))

    def test_what_the_page_says(self):
        text = re.sub("<[^>]*>", " ", self.page(*self.plans()).read_text().partition("<header")[2])
        text = html.unescape(re.sub(r"\s+", " ", text))
        for told in (
            "What was asked: What changes if the plan 'after' takes the place of the plan 'before'?",
            "1 vehicle from 0:00 to 0:30; one junction, shown from 0:00 to 0:15; two runs of each plan",
            "before: nothing that a run checks of itself speaks against it.",
            "Undecided for all, better in the worst time, from 0:00 to 0:15, with these departures alone.",
            "With 'after' a trip takes 101.5 s in place of 101.5 s on average: not shown to differ",
            # Changes of -60 and -62, quantile 12.706.
            "A vehicle's mean delay at a junction is 31.0 s in place of 92.0 s in the worst time, 0:00 to 0:15: 61.0 s "
            "less (95 % interval of the mean change by dawdling alone: 48.3 to 73.7 s less).",
            "from the west to the east at Junction B, waits 31 s in place of 92 s (C, v/c 0.05), 61.0 s less",
            "two runs of each plan, simulated by streetsim; departures as listed: the seeds differ by dawdling alone, "
            "so nothing is sure of another day.",
            "2 vehicles, departures as listed",
            "Longest delay: from the west to the east at Junction B, 31 s, level of service C",
            "No movement is shown to lose by more than chance.",
            "Junction B 40 92.0 31.0 -61.0 ± 12.7 F to C",
            "from the west to the east B: a to b 92.0 31.0",
            "Junction B: 31.0 s C , 40 vehicles an hour, signals",
            "program SHA-256 abc",
            "0:00 to 0:30, seeds 1, 2, dawdle 170 (in each second 17 % of drivers slow down by chance)",
            "2 <turns> & more",
            "8, 15, 22 of 75 m",
            "as a share of the room. Queues: what half of the cycles",
        ):
            self.assertIn(told, text)
        places = [text.index(told) for told in ("no route", "2 <turns>", "3 x stops", "1 light")]
        self.assertEqual(places, sorted(places))

    def test_runs_as_listed_call_nothing_sure(self):
        text = self.page(*self.plans()).read_text()
        self.assertNotIn("for sure", text)
        self.assertIn("<li>Departures as listed: the seeds differ by dawdling alone, so nothing is sure", text)
        self.assertIn("± is the 95 % interval of the mean change by dawdling alone", text)
        alone = self.page(self.plans()[0]).read_text()
        told = "junction on average, 92.0 ± 25.4 s in the worst time, 0:00 to 0:15 (±: 95 % interval of the mean by "
        self.assertIn(told + "dawdling alone)", alone)

    def test_drawn_runs_have_two_intervals(self):
        """Changes of -60 and -62 s: t s / sqrt(2) is 12.7 s for the mean, and t s sqrt(1 + 1/2), 12.706 times 1.414
        times 1.225, 22.0 s for one day."""
        self.draw_departures("before", "after")
        text = re.sub(r"\s+", " ", re.sub("<[^>]*>", " ", self.page(*self.plans()).read_text()))
        for told in (
            "departures drawn by each of 2 seeds: intervals are of the mean",
            "61.0 s less (95 % interval of the mean change: 48.3 to 73.7 s less; of one day: 39.0 to 83.0 s less)",
            "No movement is shown to lose.",
            "± is the 95 % interval of the mean change, and changes beyond it are bold",
            "Junction B 40 92.0 31.0 -61.0 ± 12.7 F to C",
            "2 vehicles, departures drawn by each seed",
        ):
            self.assertIn(told, text)
        self.assertNotIn("as listed", text)
        alone = self.page(self.plans()[0]).read_text()
        told = "junction on average, 92.0 ± 25.4 s in the worst time, 0:00 to 0:15 (±: 95 % interval of the mean)"
        self.assertIn(told, alone)

    def test_runs_of_other_vehicles_are_not_compared(self):
        self.draw_departures("after")
        told = self.tool("report", *self.plans(), "-o", self.folder / "x.html", status=2)[1]
        self.assertIn("departures of 'before' are as listed, those of 'after' drawn: other vehicles drive there", told)

    def test_a_forecast_has_the_models_own_error(self):
        page = self.page(*self.plans()).read_text()
        self.assertIn("Beside chance the model has an error of its own:", page)
        self.assertIn(errors_table(), page)
        self.assertIn(PAGE, page)
        self.assertNotIn(errors_table(), self.page(self.plans()[0]).read_text())

    def test_growth_near_capacity_is_doubted(self):
        """Three vehicles in place of two, and a lane of which 0.95 of what passes come."""
        lane = FullLane("B", "a_0", STRAIGHT, "a", "b", 0.95, 3)
        for path in (self.folder / "after").glob("seed-*/setting.json"):
            value = json.loads(path.read_text())
            value["made"]["vehicles"] = 3
            value["map"]["full"] = asdict(Fullness((lane,), 3, 3))
            path.write_text(json.dumps(value))
        told = "<li>after: growth above 0.9 of what passes, where forecasts came out too small: straight on from a to b"
        self.assertIn(told, self.page(*self.plans()).read_text())
        after, before = self.plans()[::-1]
        self.assertNotIn("growth above", self.page(after, before).read_text())
        self.assertNotIn("growth above", self.page(after).read_text())

    def test_buses_and_cars_apart(self):
        kinds = {"types": [["DEFAULT_VEHTYPE", "passenger"], ["bus", "bus"]], "type": [0, 1]}
        for name, bus in (("before", "w,0,205,205,4,30,2,0,arrived"), ("after", "w,0,195,195,4,20,2,0,arrived")):
            for seed in (1, 2):
                place = self.folder / f"{name}/seed-{seed}"
                setting = json.loads((place / "setting.json").read_text())
                setting["map"] |= {"vehicles": kinds, "cars": ["v", "w"]}
                (place / "setting.json").write_text(json.dumps(setting))
                with open(place / "trips.csv", "a", encoding="utf-8") as file:
                    file.write(f"{bus}\n")
        text = re.sub(r"\s+", " ", re.sub("<[^>]*>", " ", self.page(*self.plans()).read_text()))
        # Buses take 205 s and then 195, of which they lose 30 and 20.
        heads = " ".join(f"{what} {when}, s" for what in ("trip", "delay") for when in ("before", "after", "change"))
        self.assertIn(f"trips by class trips {heads} buses 2 205.0 195.0 -10.0 ± 0.0 30.0 20.0 -10.0 ± 0.0", text)
        self.assertIn("cars 2 101.5 101.5 +0.0 ± 0.0 26.0 26.0 +0.0 ± 0.0", text)
        text = re.sub(r"\s+", " ", re.sub("<[^>]*>", " ", self.page(self.plans()[0]).read_text()))
        buses, cars = "buses 2 205.0 ± 0.0 30.0 ± 0.0", "cars 2 101.5 ± 6.4 26.0 ± 0.0"
        self.assertIn(f"trips by class trips trip, s delay, s {buses} {cars}", text)

    def test_nothing_from_outside_and_no_dead_link(self):
        text = self.page(*self.plans()).read_text()
        self.assertFalse(re.search(r"https?:|src=\"(?!data:)|@import|<link|<script|@[A-Z]+@", text))
        self.assertEqual(set(re.findall(r'href="#([^"]+)"', text)) - set(re.findall(r' id="([^"]+)"', text)), set())

    def test_by_keyboard(self):
        """The first thing that has the focus leads past the navigation; all else is links, the map's junctions too."""
        page = self.page(*self.plans()).read_text()
        self.assertEqual(
            re.search(r"<body>|<a [^>]*>", page[page.index("</style>") :]).group(0), '<a class="skip" href="#main">'
        )
        self.assertIn('<main id="main" tabindex="-1">', page)
        self.assertRegex(page, r'<svg.*<a href="#junction-B">')
        self.assertNotRegex(page, r"onclick|<div[^>]* role=|tabindex=\"[1-9]")

    def test_equal_runs_give_equal_bytes(self):
        self.assertEqual(self.page(*self.plans()).read_bytes(), self.page(*self.plans()).read_bytes())

    def test_doubts(self):
        self.write_folder("bad", 1, 20.0, ["nobody <arrived>"])
        text = self.page(self.folder / "bad").read_text()
        mark = "Not to be trusted: the plan &#x27;bad&#x27;, as nobody &lt;arrived&gt; (all reasons: below)."
        self.assertIn(mark, text)
        self.assertIn("<li>bad is not to be trusted: seed 1: nobody &lt;arrived&gt;</li>", text)
        self.assertNotIn("change, s", text)

    def test_who_could_not_enter_comes_first(self):
        waited = "1,128 vehicles waited to enter at 9,660 s, and are in no queue or count"
        self.write_folder("full", 1, 20.0, ["nobody <arrived>", waited])
        text = self.page(self.folder / "full").read_text()
        outside = "1,128 of 2 vehicles wait outside the network at 2:41"
        marks = f"the plan &#x27;full&#x27;, as {outside}: vehicles that wait beyond the map are not counted (all "
        marks += "reasons: below)."
        self.assertIn(f'{marks}</p><p class="verdict">It does not flow: {outside}.</p>', text)

    def test_knots_are_told_as_such(self):
        """In the first sentence, and behind who could not enter."""
        where = "Junction B and 1 beside it, 0:05 to 0:15"
        why = "whose vehicles kept each other from going on, as where SUMO teleports: what is lost there is no delay"
        knotted = f"4 rescues of 9 vehicles (who stood), 4 of them in a knot, {why} ({where})"
        self.write_folder("knotted", 1, 20.0, [knotted])
        told = f"vehicles keep each other from going on in a knot: {where}."
        self.assertIn(f'class="verdict">It does not flow: {told}', self.page(self.folder / "knotted").read_text())
        waited = "1,128 vehicles waited to enter at 9,660 s, and are in no queue or count"
        self.write_folder("full", 1, 20.0, [knotted, waited])
        both = f"It does not flow: 1,128 of 2 vehicles wait outside the network at 2:41, and {told}"
        self.assertIn(f'class="verdict">{both}', self.page(self.folder / "full").read_text())

    def test_a_corridor_of_one_way_streets(self):
        """The street of two links has no edge back."""
        first = read_runs(str(self.folder / "before")).first_folder
        self.assertEqual(path_and_way_back(first, ["a", "b"]), [["a", "b"]])
        first.mapping.links.append(replace(first.mapping.links[0], edge="c", begin=1, end=0))
        first.mapping.links_of["c"] = [2]
        self.assertEqual(path_and_way_back(first, ["a"]), [["a"], ["c"]])

    def test_a_corridor_has_names_of_ones_own(self):
        own = self.write("own.csv", "id,name\na,Quay\n")
        pages = self.folder / "before", "--names", own, "--corridor", "a,b", "-o", self.folder / "x.html"
        drawing = mock.patch("streetsim.report.page_corridor.corridor_picture", side_effect=Fault)
        with drawing as drawn, self.assertRaises(Fault):
            report.main(list(map(str, pages)))
        self.assertEqual(Names(drawn.call_args[0][0].mapping).street("a"), "Quay")

    def test_two_folders_of_one_name(self):
        """Both are called by their paths."""
        for plan in self.plans():
            (self.folder / f"of-{plan.name}").mkdir()
            plan.rename(self.folder / f"of-{plan.name}/out")
        page = self.page(*(self.folder / f"of-{name}/out" for name in ("before", "after"))).read_text()
        for name in ("before", "after"):
            self.assertIn(f"<b>{self.folder}/of-{name}/out</b>", page)

    def test_a_table_in_the_place_of_the_page(self):
        path = self.folder / "x.html"
        told = self.tool("report", *self.plans(), "-o", path, "--csv", path, status=2)[1]
        self.assertIn("-o and --csv name the same file", told)

    def test_seeds_of_two_runs(self):
        """What an earlier run left in a folder is in no mean: it is named."""
        plan = self.folder / "before"
        write_table(f"{plan}/seeds.csv", SEEDS, [(1, 2, 2, 101, 0), (2, 2, 2, 102, 0)])
        self.page(plan)
        self.write_folder("before/seed-3", 3, 20.0)
        told = self.tool("report", plan, "-o", self.folder / "x.html", status=2)[1]
        self.assertIn("before: seed-3: not of the run that wrote seeds.csv: remove what is old", told)
        shutil.rmtree(plan / "seed-3")
        shutil.copy(plan / "seed-1/setting.json", plan)
        told = self.tool("report", plan, "-o", self.folder / "x.html", status=2)[1]
        self.assertIn("before: a run without --seeds is there beside seeds of another one: remove what is old", told)

    def test_a_table_that_was_changed(self):
        """A number that a sheet wrote in its own way, and half a row."""
        path = self.folder / "before/seed-2/movements.csv"
        text = path.read_text()
        for changed, told in (
            (text.replace("94.0", '"94,0"', 1), "movements.csv: line 2: control_delay_s = '94,0' is no number"),
            (text[: text.rindex(",94.0")] + "\n", "movements.csv: line 3: expected 24 cells"),
        ):
            path.write_text(changed)
            said = self.tool("report", self.folder / "before", "-o", self.folder / "x.html", status=2)[1]
            self.assertIn(told, said)

    def test_tools_of_one_run(self):
        """They name the seeds of a folder that has several."""
        for tool, *words in (("play", "-o", self.folder / "x.html"), ("compare", "--sumo", self.folder / "x.xml")):
            told = self.tool(tool, self.folder / "before", *words, status=2)[1]
            self.assertIn("before: the runs of 2 seeds: name one of them, ", told)
            self.assertTrue(told.endswith("before/seed-1\n"), told)

    def test_faults(self):
        plans = self.plans()
        (plans[0] / "seed-1/movements.csv").unlink()
        for words, told in (
            ((plans[0],), "no movements.csv: a report needs streetsim-run --junctions"),
            ((self.folder / "no",), "no folder that streetsim-run wrote"),
            ((plans[1], "--begin", "5"), "--interval 5: no interval begins there, of 0, 900"),
            ((plans[1],) * 3, "a report is of one run, or of two"),
            ((plans[1], "--short", "--detail", 0), "--detail is of the appendix, which --short leaves out"),
            ((plans[1], "--last", 0), "--last is of the corridor's picture: give --corridor too"),
        ):
            with self.subTest(told):
                self.assertIn(told, self.tool("report", *words, "-o", self.folder / "x.html", status=2)[1])
        self.assertFalse((self.folder / "x.html").exists())


@needs_package("chromium", CHROMIUM)
class InABrowser(Given):
    def chromium(self, page, *words):
        usual = ["--headless", "--no-sandbox", "--disable-gpu", f"--user-data-dir={self.folder}/profile"]
        words = [CHROMIUM, *usual, *words, f"file://{page}"]
        return subprocess.run(words, capture_output=True, text=True, check=True).stdout

    @needs_package("python3-matplotlib", has_pillow())
    def test_a_picture_of_it(self):
        """The colours of the letters that the page has, dark ones in white writing,
        and none of the others in the picture."""
        page = self.page(self.folder / "before")
        self.chromium(page, "--window-size=1000,1400", f"--screenshot={self.folder}/shot.png")
        words = ["/usr/bin/python3", "-c", COUNT, self.folder / "shot.png"]
        counts = json.loads(subprocess.run(words, capture_output=True, check=True).stdout)
        seen = {letter: counts.get(colour, 0) for letter, colour in COLOURS.items()}
        # Each letter stands in the legend; F also as the one flow of the junction's picture, and in the tables.
        self.assertTrue(all(count > 50 for count in seen.values()), seen)
        self.assertGreater(seen["F"], 1.5 * max(count for letter, count in seen.items() if letter != "F"))

    def test_it_prints(self):
        """On paper there is no navigation, and the page is one or two sheets."""
        page = self.page(*self.plans())
        self.chromium(page, f"--print-to-pdf={self.folder}/page.pdf", "--print-to-pdf-no-header")
        content = (self.folder / "page.pdf").read_bytes()
        self.assertEqual(content[:5], b"%PDF-")
        sheets = max(int(count) for count in re.findall(rb"/Count (\d+)", content))
        self.assertIn(sheets, range(1, 6))


@needs_simulator
class Whole(Case):
    def test_the_corridor(self):
        run, mapped, out = self.folder / "run.jsonl", self.folder / "map.json", self.folder / "out"
        network, routes = CORRIDOR / "corridor.net.xml.gz", CORRIDOR / "corridor.rou.xml"
        self.tool("import", network, "--routes", routes, "-o", run, "--map", mapped)
        words = (run, "--map", mapped, "--until", 600, "--program", PROGRAM, "--out", out)
        self.tool("run", *words, "--seeds", "1-2", "--junctions", "600", "--every", "2")
        told = self.tool("report", out, "-o", self.folder / "page.html")[0]
        self.assertIn("page.html: 5 junctions", told)
        text = (self.folder / "page.html").read_text()
        self.assertEqual(len(re.findall(r'<h3 id="junction-J[1-5]">', text)), 5)
        self.assertIn("SHA-256 ", text)
        self.assertNotIn('id="corridor"', text)
        self.drawn(out)

    def drawn(self, out):
        """A panel for each direction, whose lines lie within it, as the axes have it: 100 to 500 s."""
        edges = "WJ1 J1J2 J2J3 J3J4 J4J5 J5E"
        self.tool("report", out, "--corridor", edges, "--first", 100, "--last", 500, "-o", self.folder / "page.html")
        text = (self.folder / "page.html").read_text()
        self.assertIn(f"<figcaption>Ways of the vehicles along {edges}, and back: out</figcaption>", text)
        picture = re.search(r'<svg class="corridor".*?</svg>', text, re.DOTALL)[0]
        self.assertEqual(picture.count(": each line is a vehicle"), 2)
        frames = re.findall(r'y="(\d+)" width="686" height="(\d+)" fill="none"', picture)
        frames = [(int(top), int(high)) for top, high in frames]
        self.assertEqual(len(frames), 2)
        spots = [(float(x), float(y)) for x, y in re.findall(r"[ML](\d+\.\d),(\d+\.\d)", picture)]
        self.assertTrue(all(64 <= x <= 750 and any(top <= y <= top + high for top, high in frames) for x, y in spots))
        self.assertGreater(len(spots), 500)
        self.assertIn("standing", picture)


if __name__ == "__main__":
    unittest.main()
