"""bench/beside_sumo: rows of networks, kept, counted and told by what is doubted; variants of lit networks."""
import sys
import unittest
import xml.etree.ElementTree as ElementTree
from dataclasses import replace
from random import Random
from unittest import mock

from support import TOOLS, Case, needs_sumo, needs_sumo_tools

sys.path.insert(0, str(TOOLS.parent / "bench"))
from beside_sumo import rows  # noqa: E402
from beside_sumo.lit import Compared, Layout, closed_lane, decisions, lost_on_lane, whole_jams  # noqa: E402
from beside_sumo.rows import (  # noqa: E402
    REASONS, Row, Side, Tally, doubt_of, mean_trips, reasons, row_of, side_of, tally, text_of,
)
from networks.lit_streets import Program, with_cycle, with_split, with_walk  # noqa: E402
from networks.unseen import MadeNetwork, make  # noqa: E402

FULL = "9 of 10 vehicles pass lanes that are nearly full by the demand, and their queues may be other than in SUMO: "
PLACES = "left from A to B at J1: demand 1.10 of what passes here; straight on from C to D at J2: demand 1.00 of what"
ROW = Row("town-1", 0.5, 1000, 100.0, 0.0, 104.0, "a to b", 10.0, 12.5, "")
NEAR = replace(ROW, here=104.9, doubt="2 rescues of 10 vehicles")
OFF, SILENT = replace(NEAR, here=94.9), replace(ROW, here=105.1)
LOCKED = replace(ROW, jams=20.1, here=50.0)


class Rows(Case):
    def test_kept_rows_are_read_again(self):
        with mock.patch.object(rows, "FOLDER", self.folder / "new"):
            rows.keep("some", [ROW, NEAR])
            self.assertEqual(rows.read("some"), [ROW, NEAR])

    def test_rows_are_counted_by_their_difference_and_their_doubt(self):
        self.assertEqual(tally([ROW, NEAR, OFF, SILENT, LOCKED]), Tally(2, 1, 1, 1, 1))
        self.assertEqual(str(tally([ROW, OFF])), "1 | 0 | 1 | 0 | 0")

    def test_a_row_has_the_movement_that_is_off_most(self):
        made = MadeNetwork(self.folder, "town", 1, 0.5, 3, seconds=1800)
        trips = {"v1": (599.0, 900.0), "v2": (600.0, 700.0), "v3": (700.0, 820.0)}
        theirs = Side(trips, {("a", "b"): (30, 10.0), ("b", "c"): (30, 5.0), ("c", "d"): (29, 0.0)})
        later = {name: (depart, arrival + 11.0) for name, (depart, arrival) in trips.items()}
        ours = Side(later, {("a", "b"): (30, 12.0), ("b", "c"): (30, 1.0), ("c", "d"): (29, 90.0)}, doubt="why")
        found = row_of("one", made, [theirs], [ours])
        self.assertEqual(found, Row("one", 0.5, 3, 110.0, 0.0, 121.0, "b to c", 5.0, 1.0, "why"))

    def test_trips_are_of_those_who_arrived_in_both(self):
        theirs, ours = Side({"a": (0, 10), "b": (5, 25)}), Side({"b": (5, 30), "c": (0, 99)})
        self.assertEqual(mean_trips([theirs], [ours]), (20, 25))


class Sides(Case):
    def test_a_kept_side_is_read_again(self):
        side = Side({"v": (1.0, 2.5)}, {("a", "b"): (3.0, 4.5)}, 2, "why", {"a": 30.5})
        self.assertEqual(side_of(text_of(side)), side)

    def test_what_is_said_against_a_run_is_found_by_its_seed(self):
        said = "seed 1: 9 vehicles\nseed 1: not to be trusted: one; two\nseed 11: not to be trusted: other\nnot to be"
        self.assertEqual([doubt_of(said, seed) for seed in (1, 2, 11)], ["one; two", "", "other"])


class Doubts(Case):
    def test_reasons_are_told_apart(self):
        full, gives_way, gaps, rescued, other = REASONS
        streets = "1 street that gives way without a light is nearly full, for 9 passages: most of all a, b"
        self.assertEqual(reasons(""), set())
        self.assertEqual(reasons(FULL + PLACES), {full})
        self.assertEqual(reasons(f"3 rescues of 9 vehicles; {streets}; {FULL}{PLACES}"), {full, gives_way, rescued})
        self.assertEqual(reasons("routes are 12 % longer here"), {other})
        queues = "queues that wait for gaps at lights did not end, for 9 passages of 9 vehicles, and may be other"
        self.assertEqual(reasons(f"{queues}; doubted most of all: a, at J, 0:00 to 0:30: v/c 1.02 (queue)"), {gaps})


LIGHT = Program("c", 0, ((37, "GGrr"), (3, "yyrr"), (37, "rrGg"), (3, "rryy")), frozenset({0, 1}))


class Programs(Case):
    def seconds(self, program):
        return [seconds for seconds, _ in program.phases]

    def test_a_cycle_keeps_the_shares_of_its_greens(self):
        self.assertEqual(self.seconds(with_cycle(LIGHT, 60)), [27, 3, 27, 3])
        self.assertEqual(self.seconds(with_cycle(LIGHT, 20)), [7, 3, 7, 3])

    def test_a_split_keeps_the_cycle(self):
        self.assertEqual(self.seconds(with_split(LIGHT, 0.75)), [56, 3, 18, 3])
        self.assertEqual(self.seconds(with_split(LIGHT, 0.99)), [68, 3, 6, 3])

    def test_walking_is_red_for_all(self):
        self.assertEqual(with_walk(LIGHT, 12).phases[-1], (12, "rrrr"))


class Variants(Case):
    def compared(self, case, theirs, ours, formula, doubt=""):
        return Compared(replace(ROW, doubt=doubt), case, theirs, ours, {}, {}, formula)

    def test_two_are_told_apart_where_they_differ_in_sumo(self):
        base = self.compared("base", [100.0, 110.0, 105.0], [90.0, 91.0, 92.0], 20.0)
        better = self.compared("cycle", [95.0, 104.0, 100.0], [88.0, 90.0, 89.0], 25.0, "why")
        alike = self.compared("offsets", [99.0, 109.0, 104.0], [80.0, 81.0, 82.0], 20.0)
        unsteady = self.compared("split", [90.0, 130.0, 120.0], [95.0, 95.0, 95.0], 30.0)
        [found] = decisions([base, better])
        self.assertEqual((found.right, found.formula_right, found.doubted), (True, False, True))
        self.assertEqual(list(decisions([base, alike])), [])
        self.assertEqual(list(decisions([base, unsteady])), [])

    def test_webster(self):
        """A lane of 360 vehicles an hour with half of the time green: 11.25 s and the wait that chance adds."""
        lost = lost_on_lane([(360.0, 0.5, 900.0)], 60, 0.5)
        self.assertAlmostEqual(lost / 180, 60 * 0.25 / (2 * 0.8) + 450 * (-0.6 + (0.36 + 1.6 / 450) ** 0.5), places=6)

    def test_a_jam_that_fills_a_lane_goes_on_before_it(self):
        jams = {"a_0": [50.0, 40.0, 0.0], "b_0": [49.0, 20.0, 0.0]}
        layout = Layout({}, set(), {}, {}, {"a_0": 200.0, "b_0": 50.0})
        self.assertEqual(whole_jams(["a_0", "b_0"], jams, layout), [99.0, 20.0, 0.0])

    @needs_sumo
    @needs_sumo_tools
    def test_the_lanes_that_led_to_a_closed_one_lead_to_the_one_beside_it(self):
        made = make("short-cycle", 7, self.folder, vehicles=20)
        lanes = edge_lanes(made.net)
        closed_lane(made, Random(1))
        [edge] = [edge for edge, count in edge_lanes(made.net).items() if count < lanes[edge] and ".-" not in edge]
        self.assertEqual(edge_lanes(made.net)[edge], 1)
        onto = [one for one in ElementTree.parse(made.net).iter("connection") if one.get("to") == edge]
        straight = [one.get("fromLane") for one in onto if one.get("dir") == "s" and one.get("tl")]
        self.assertEqual(straight, ["0", "1"])


def edge_lanes(net):
    edges = ElementTree.parse(net).iter("edge")
    return {edge.get("id"): len(edge.findall("lane")) for edge in edges if edge.get("function") != "internal"}


if __name__ == "__main__":
    unittest.main()
