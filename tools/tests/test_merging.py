"""Merging by turns, without a simulator and in it."""
import unittest

from support import PROGRAM, needs_simulator
from streetsim.client import Client
from streetsim.control.merging_links import Merges
from streetsim.control.merging_rule import (
    GAP_AHEAD, GAP_BEHIND, EVERY, MOST_WAIT, PATIENCE, Change, MergePoint, MergingRule, SeenVehicle, Side,
)

WORKS = (40, 49)

def sides(closed, other, closed_beside=()):
    """Works on lane 0; closed, other: (cell, speed) of the vehicles there and beside."""
    both = enumerate((closed, other))
    lanes = ([SeenVehicle(100 * lane + at, *one) for at, one in enumerate(some)] for lane, some in both)
    return [Side(vehicles, stretch) for vehicles, stretch in zip(lanes, ([WORKS], closed_beside), strict=True)]


class Turns(unittest.TestCase):
    """Works from cell 40 of lane 0; a car stands in 39 from the first look on."""

    def told(self, merging, clock, closed, other):
        beside = [(min(cells), max(cells)) for cells in [merging.held_cells[1]] if cells]
        return merging.changes_by_turns(clock, sides(closed, other, beside))

    def held(self, closed=((39, 0),)):
        """Merging that holds the other lane since second 10."""
        merging = MergingRule(60)
        self.assertEqual(self.told(merging, 0, closed, [(38, 2)]), [])
        self.assertEqual(self.told(merging, PATIENCE - 1, closed, [(38, 2)]), [])
        return merging, self.told(merging, PATIENCE, closed, [(38, 2)])

    def test_a_lane_is_held_beside_who_stands_and_further_up(self):
        self.assertEqual(self.held()[1], [Change("close", 1, 39 - GAP_BEHIND, 39)])

    def test_those_of_a_platoon_are_let_in_together(self):
        """The last of those within 8 cells of the works; not who drives, nor who is further up."""
        self.assertEqual(self.held([(39, 0), (37, 0), (35, 1), (31, 0)])[1], [Change("close", 1, 37 - GAP_BEHIND, 39)])

    def test_it_is_opened_when_nobody_is_beside_them(self):
        merging, _ = self.held()
        self.assertEqual(merging.seconds_to_next_look(), 1)
        self.assertEqual(self.told(merging, 11, [(39, 0)], [(39 + GAP_AHEAD, 2)]), [])
        beside = [(39 + GAP_AHEAD + 1, 2), (32, 0)]
        self.assertEqual(self.told(merging, 12, [(39, 0)], beside), [Change("reopen", 1, 33, 39)])
        self.assertEqual(merging.seconds_to_next_look(), EVERY)

    def test_it_is_opened_where_they_do_not_drive_out(self):
        merging, _ = self.held()
        self.assertEqual(self.told(merging, MOST_WAIT, [(39, 0)], [(38, 0)]), [])
        self.assertEqual(self.told(merging, MOST_WAIT + 1, [(39, 0)], [(38, 0)]), [Change("reopen", 1, 33, 39)])

    def test_it_is_opened_where_nobody_stands_first_any_more(self):
        merging, _ = self.held()
        self.assertEqual(self.told(merging, 11, [(20, 2)], [(38, 0)]), [Change("reopen", 1, 33, 39)])

    def test_patience_begins_anew_with_another_one(self):
        merging = MergingRule(60)
        for clock, car in ((0, 1), (9, 2), (18, 2)):
            lanes = [Side([SeenVehicle(car, 39, 0)], [WORKS]), Side([], [])]
            self.assertEqual(merging.changes_by_turns(clock, lanes), [])
        self.assertEqual(len(merging.changes_by_turns(19, lanes)), 1)

    def test_long_vehicles_are_beside_and_stand_with_all_their_cells(self):
        merging = MergingRule(60)
        lanes = [Side([SeenVehicle(1, 39, 0, 3)], [WORKS]), Side([SeenVehicle(2, 44, 0, 3)], [])]
        merging.changes_by_turns(0, lanes)
        self.assertEqual(merging.changes_by_turns(10, lanes), [Change("close", 1, 37 - GAP_BEHIND, 39)])
        lanes = [lanes[0], Side(lanes[1].vehicles, [(31, 39)])]
        self.assertEqual(merging.changes_by_turns(11, lanes), [Change("reopen", 1, 31, 39)])

    def test_end_leaves_nothing_of_its_own_closed(self):
        merging, _ = self.held()
        self.assertEqual(merging.reopening_changes(), [Change("reopen", 1, 33, 39)])
        self.assertEqual((merging.reopening_changes(), merging.seconds_to_next_look()), ([], EVERY))

    def test_where_one_may_merge(self):
        places = lambda *closed: list(MergingRule(100).merge_points(closed))  # noqa: E731
        self.assertEqual(places([(30, 39)], [(60, 69)]), [MergePoint(0, 0, 30), MergePoint(1, 40, 60)])
        self.assertEqual(places([(30, 39)], [(20, 35)]), [], "no way through")
        self.assertEqual(places([(30, 39)], [(30, 39)]), [], "closed on both lanes")
        self.assertEqual(places([(0, 9)], []), [], "works at the link's begin")
        self.assertEqual(places([(10, 19), (50, 59)], []), [MergePoint(0, 0, 10), MergePoint(0, 20, 50)])


@needs_simulator
class InTheSimulator(unittest.TestCase):
    def drive(self, closing, until):
        """A full street of two lanes with works on one: what was sent, and the longest stand before them."""
        with Client(PROGRAM) as sim:
            sim.load([[0, 1, 4], [1, 1, 4]], [[0, 0, 1, 2, 80, 2]], [], zone=0, dawdle=170, change=1000, seed=1)
            for depart in range(0, until, 2):
                sim.enter([0], depart // 2 % 2, depart)
            merges, sent, since, longest = Merges({0: 80} if closing else {}), [], {}, 0
            sim.ask("close", link=0, lane=0, first=50, last=60)
            merges.note_sent(0, {"cmd": "close", "link": 0, "lane": 0, "first": 50, "last": 60})
            for clock in range(1, until):
                sim.advance(1)
                lanes = tuple(sim.lane(0, lane) for lane in (0, 1))
                for link in merges.due_links(clock):
                    for command in merges.commands_by_turns(clock, link, lanes):
                        sim.ask(command.pop("cmd"), **command)
                        sent.append((clock, command))
                standing = {(car, cell) for car, cell, speed, *_ in lanes[0].cells if cell < 50 and not speed}
                since = {key: since.get(key, clock) for key in standing}
                longest = max([longest, *(clock - first for first in since.values())])
            return sent, longest

    def test_nobody_stands_long(self):
        """1,800 vehicles an hour come to one open lane; alone, some stand for minutes."""
        sent, longest = self.drive(True, 600)
        self.assertLess(longest, 60)
        self.assertGreater(len(sent), 30)
        self.assertGreater(self.drive(False, 600)[1], 120)

    def test_equal_runs_send_equal_lines(self):
        self.assertEqual(self.drive(True, 150), self.drive(True, 150))


if __name__ == "__main__":
    unittest.main()
