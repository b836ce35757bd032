"""A junction as engineers draw it, and the answers of pages."""
import re
import unittest
from dataclasses import replace
from unittest import mock

import support  # noqa: F401, which puts the tools on the path
from streetsim.control import yielding
from streetsim.model.folder import Folder
from streetsim.model.mapping import Map, MapLink, MapNode, MapSignal, MapTurn
from streetsim.model.names import Names
from streetsim.model.timing import SignalMovement, Timing
from streetsim.report.page_arms import arms_of, junction_picture, lanes_of, right_of
from streetsim.report.page_junctions import lane_bars
from streetsim.report.page_state import levels_of, state_answer
from streetsim.report.page_background import ASSUMPTIONS
from streetsim.report.page_movements import movements_table
from streetsim.report.page_verdict import answer, doubted_share, worst_interval, worst_movement
from streetsim.report.plan_differences import PlanDifference
from streetsim.report.run_tables import ResultRow, Runs
from streetsim.sumo import gaps, lane_capacity
from streetsim.sumo.greens import USUAL_SPEED, headway

WHEN = 0, 900
SIGNALS = "signals"


def crossing(side=1):
    """A street from the west to the east through a light, of two lanes each way, and one to the north; side: 1 where
    one drives on the right."""
    off = 3.0 * side
    shapes = {
        "in": [(-100, -off), (0, -off)], "out": [(0, -off), (100, -off)], "back": [(0, off), (-100, off)],
        "up": [(off, 0), (off, 100)],
    }
    ends = {"in": (0, 1), "out": (1, 2), "back": (1, 0), "up": (1, 3)}
    lanes = {"in": [0, 1], "out": [0], "back": [0], "up": [0]}
    links = [MapLink(name, lanes[name], *ends[name], 10, 2, 100.0, shape) for name, shape in shapes.items()]
    turns = [MapTurn(0, lane, following, 0, "L", 0, added) for lane, following, added in (
        (0, 1, False), (1, 3, False), (1, 1, True),
    )]
    nodes = [MapNode(name, 0.0, 0.0, 1) for name in "WCEN"]
    return Map(nodes, links, turns, [MapSignal("L", 1)], [], {}, [])


def row(key, movement="", delay=20.0, doubt="", hourly=100.0):
    """A row of a table."""
    means = {"control_delay_s": delay, "vehicles_per_hour": hourly, "vehicles": hourly / 4, "v_c": 0.5}
    means |= {"queue_95_m": 50.0, "storage_m": 100.0}
    return ResultRow(key, SIGNALS, movement, means, {1: means, 2: means}, doubt)


def runs_of(mapping, *movements, name="a"):
    """Runs of two seeds with rows of one junction in one interval; its delay is that of the first movement."""
    folder = Folder("x", mapping, [], 0, 0, 900)
    delay, doubt = movements[0].delay, movements[0].doubt
    rows = {
        ("movements", *WHEN): {one.key: one for one in movements},
        ("approaches", *WHEN): {("C", "in"): row(("C", "in"), delay=delay, doubt=doubt)},
        ("junctions", *WHEN): {("C",): row(("C",), delay=delay, doubt=doubt)},
    }
    return Runs(name, {1: folder, 2: folder}, rows)


STRAIGHT, LEFT = row(("C", "in", "out"), "T"), row(("C", "in", "up"), "L", 90.0, hourly=40.0)


class Pictures(unittest.TestCase):
    def test_lanes_and_their_movements(self):
        """Turns that the import added are none."""
        self.assertEqual(lanes_of(crossing(), "in", [STRAIGHT, LEFT]), ["T", "L"])

    def test_the_side_on_which_one_drives(self):
        for side in (1, -1):
            runs = runs_of(crossing(side), STRAIGHT, LEFT)
            self.assertEqual(right_of(crossing(side), arms_of(runs, "C", WHEN)), side)

    def test_what_stands_at_an_arm(self):
        runs = runs_of(crossing(), replace(STRAIGHT, doubt="full"), LEFT)
        picture = junction_picture(runs, "C", WHEN)
        texts = re.findall("<text[^>]*>([^<]*)</text>", picture)
        self.assertEqual(texts, [
            "T", "L", "from the west", "L 40/h 90 s F", "T 100/h 20 s B doubted", "queue 50 of 100 m",
            "20 s B doubted",
        ])
        # Bands of 26 pixels for the greatest flow, and of 0.4 of it; half of the arm is full.
        self.assertEqual(re.findall('stroke-width="([^"]*)"', picture), ["26.0", "10.4"])
        self.assertEqual(junction_picture(runs, "E", WHEN), "")


class Movements(unittest.TestCase):
    """The table of a page's one junction."""

    def told(self, *plans):
        """The texts of the table's cells and of the notes, with the light's program of 40 and 20 s of green."""
        phases = [(20, "GG"), (20, "Gg"), (20, "rr")]
        moves = [SignalMovement("in", "out", (0,)), SignalMovement("in", "up", (1,))]
        timing = Timing("L", "C", 0, phases, "static", moves, set())
        with mock.patch("streetsim.report.page_movements.timings_of", lambda runs: {"L": timing}):
            html = movements_table(plans, WHEN)
        return [re.sub("<[^>]*>", "", cell) for cell in re.findall("<td[^>]*>(.*?)</td>|<p[^>]*>(.*?)</p>", html)
                for cell in cell if cell]  # fmt: skip

    def test_of_one_plan(self):
        """120 wish to pass, 0.6 of a capacity of 200, where 100 passed."""
        full = replace(STRAIGHT, means={**STRAIGHT.means, "capacity_per_hour": 200.0, "v_c": 0.6})
        self.assertEqual(self.told(runs_of(crossing(), full, LEFT)), [
            "T from the west to the east", "120", "40", "0.60", "20.0 ± 0.0", "B", "50 (100)",
            "L from the west to the north", "40", "40 (20*)", "0.50", "90.0 ± 0.0", "F", "50 (100)",
            "Cycle 60 s; ±: 95 % interval of the mean by dawdling alone.",
        ])

    def test_of_two_plans(self):
        slower = replace(row(("C", "in", "out"), "T", 24.0), doubt="v/c 1.00")
        cells = self.told(runs_of(crossing(), STRAIGHT), runs_of(crossing(), slower))
        self.assertEqual(cells[:-1], [
            "T from the west to the east doubted", "100", "40", "0.50", "20.0 / 24.0", "+4.0 ± 0.0", "B / C", "50",
        ])
        self.assertTrue(cells[-1].endswith("before / after, where they differ."))

    def test_of_two_junctions_there_is_none(self):
        self.assertEqual(self.told(runs_of(crossing(), STRAIGHT, replace(LEFT, key=("E", "in", "up")))), [])


class Assumptions(unittest.TestCase):
    def test_capacity(self):
        """The page says the gaps and headways by which runs go, and those of the import's estimate."""
        [told] = [text for text in ASSUMPTIONS if text.startswith("Capacity")]
        self.assertIn(f"({yielding.STANDING_GAP} s, and {yielding.ROLLING_GAP} s before a vehicle that rolls)", told)
        self.assertIn(f"gaps of {gaps.CRITICAL_GAP} s, {gaps.FOLLOW_UP} s for each further vehicle", told)
        self.assertEqual(lane_capacity.SNEAKERS, 1)
        self.assertIn(f"one in {headway(USUAL_SPEED):.1f} s of green", told)


class Answers(unittest.TestCase):
    def plans(self, doubt=""):
        mapping = crossing()
        return [runs_of(mapping, replace(STRAIGHT, doubt=doubt), name="a"), runs_of(mapping, STRAIGHT, name="b")]

    def test_better_worse_or_undecided(self):
        """The interval of the mean decides, and that of a day does not."""
        for change, half, told in (
            (-5.0, 2.0, "Better, with these departures alone."), (5.0, 2.0, "Worse, with these departures alone."),
            (-1.0, 2.0, "Undecided."),
            (-5.0, None, "Undecided: one run of each says nothing of chance (streetsim-run --seeds 1-5)."),
        ):
            one = PlanDifference(50.0, 50.0 + change, change, half, 99.0)
            self.assertEqual(answer(self.plans(), one, one, WHEN), told)
        self.assertEqual(answer(self.plans(), None, None, WHEN), "Undecided: nobody arrived with both plans.")

    def test_of_all_and_of_the_worst_time(self):
        plans = self.plans()
        for runs in plans:
            runs.rows["junctions", 900, 1800] = runs.rows["junctions", *WHEN]
        better, worse = (PlanDifference(50.0, 50.0 + one, one, 1.0) for one in (-5.0, 5.0))
        told = answer(plans, better, worse, WHEN)
        alone = "from 0:00 to 0:15, with these departures alone."
        self.assertEqual(told, f"Better for all, worse in the worst time, {alone}")
        told = answer(plans, better, better, WHEN)
        self.assertEqual(told, f"Better for all, and in the worst time, {alone}")
        slow = row(("C",), delay=70.0)
        plans[1].rows["junctions", 900, 1800] = {("C",): slow}
        self.assertEqual(worst_interval(plans), (900, 1800))

    def test_what_is_doubted_is_undecided(self):
        one = PlanDifference(50.0, 45.0, -5.0, 2.0)
        plans = self.plans("full")
        self.assertEqual(doubted_share(plans[0], WHEN), 1.0)
        doubted = "the movements that wait most are doubted with 'a'"
        self.assertEqual(answer(plans, one, one, WHEN), f"Undecided, as {doubted}; here it is better.")
        told = f"Undecided: 'b' is not shown to be better or worse, and {doubted}."
        self.assertEqual(answer(plans, PlanDifference(50.0, 49.0, -1.0, 2.0), one, WHEN), told)
        plans = self.plans()
        plans[1].folders[1].doubts.append("locked")
        self.assertIn("Undecided, as the movements that wait most are doubted with 'b'", answer(plans, one, one, WHEN))

    def test_levels_that_are_doubted_are_not_called_sure(self):
        sure, doubted = self.plans()[0], self.plans("full")[0]
        self.assertEqual(levels_of(sure, WHEN), "Junction C has level of service B.")
        self.assertEqual(levels_of(doubted, WHEN), "The junction's level of service, here B, is doubted.")
        doubted.rows["junctions", *WHEN]["E",] = row(("E",))
        told = "Every other junction has level of service B or better; the worst is Junction E. Levels of service of "
        self.assertIn(told, levels_of(doubted, WHEN))

    def test_whether_it_flows(self):
        """By the junction in the worst interval, then by its movements; undecided where much delay is doubted."""
        def said(*movements, **junction):
            """The first sentence of two intervals, of which the second has the junction at its worst."""
            runs = runs_of(crossing(), *movements)
            rows = {("C",): row(("C",), **junction)}
            runs.rows |= {("junctions", 900, 1800): rows, ("movements", 900, 1800): runs.rows["movements", *WHEN]}
            return state_answer(runs, worst_interval([runs]))

        told = "A vehicle loses 25.0 ± 0.0 s at the junction on average, 30.0 ± 0.0 s in the worst time, 0:15 to 0:30 "
        told += "(±: 95 % interval of the mean by dawdling alone), and with the worst movement, from the west "
        told += "to the "
        self.assertEqual(said(STRAIGHT, delay=30.0), ["It flows.", f"{told}east at Junction C, 20.0 ± 0.0 s (B)."])
        of_left = f"{told}north at Junction C, 90.0 ± 0.0 s (F)."
        half = "ne of two movements does not flow (level E or F)"
        self.assertEqual(said(STRAIGHT, LEFT, delay=30.0), [f"O{half}.", of_left])
        doubted = replace(LEFT, doubt="v/c 1.09")
        self.assertEqual(
            said(STRAIGHT, doubted, delay=30.0),
            [f"Not sure: here o{half}, but the movements that wait most are doubted.", of_left],
        )
        flows, loses = said(STRAIGHT, delay=60.0)
        self.assertEqual((flows, loses[:34]), ("It does not flow.", "A vehicle loses 40.0 ± 0.0 s at th"))

    def test_bars_by_lane(self):
        """Movements with the same queues have one bar; a pocket has its own room."""
        pocket = replace(LEFT, means={**LEFT.means, "queue_50_m": 9.0, "queue_max_m": 80.0, "storage_m": 60.0})
        pocket.means |= {"full_percent": 12.0, "blocked_percent": 3.0}
        through = replace(STRAIGHT, means={**STRAIGHT.means, "queue_50_m": 20.0, "queue_max_m": 90.0})
        right = replace(through, key=("C", "in", "down"), movement="R")
        bars = list(lane_bars([pocket, through, right], Names(crossing())))
        self.assertEqual([(one.name, one.room, one.spills) for one in bars], [
            ("L from the west", 60.0, "full in 12 %, blocked in 3 % of cycles"),
            ("T R from the west", 100.0, ""),
        ])

    def test_the_worst_movement(self):
        [told] = worst_movement([runs_of(crossing(), STRAIGHT, replace(LEFT, doubt="full"))], WHEN)
        way = "from the west to the north at Junction C"
        self.assertEqual(told, f"The worst movement, {way}, waits 90 s (F, v/c 0.50); this is doubted.")
        few = replace(LEFT, means={**LEFT.means, "vehicles_per_hour": 8.0})
        [told] = worst_movement([runs_of(crossing(), STRAIGHT, few)], WHEN)
        self.assertIn("from the west to the east", told)


if __name__ == "__main__":
    unittest.main()
