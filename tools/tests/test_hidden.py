"""For how long turns that give way at lights are hidden, and plans with these seconds."""
import unittest

from support import Case
from streetsim.kernel.loop import SentLine
from streetsim.model.runs import Line
from streetsim.search.run_hidden import hidden_shares, with_hidden

MAIN, LEFT, SIDE = (0, 0, 3), (1, 0, 4), (2, 0, 5)
PLAN = [[10, [[*MAIN], [*LEFT]]], [2, []], [6, [[*SIDE]]], [2, []]]


def signal(phases, offset=0):
    return {"cmd": "signal", "node": 7, "offset": offset, "phases": phases}


def sent(clock, phases, for_a_gap=True):
    return SentLine(clock, Line(-1, "", signal(phases)), False, for_a_gap)


def without(turn):
    return [[seconds, [one for one in green if one != [*turn]]] for seconds, green in PLAN]


def everywhere(turn):
    return [[seconds, green + [[*turn]] * ([*turn] not in green)] for seconds, green in PLAN]


class Hidden(Case):
    def test_what_a_run_hid(self):
        """In the first cycle of 20 s from 0 to 4 s, in the second one from 20 to 26 s, but for 2 s behind its green; in
        the third one nobody waited: 4 and 4 s of 20."""
        lines = [sent(0, without(LEFT)), sent(4, PLAN), sent(20, without(LEFT)), sent(26, PLAN)]
        lines += [sent(30, everywhere(LEFT)), sent(32, PLAN)]
        self.assertEqual(hidden_shares([signal(PLAN)], lines, 60), {LEFT: 0.2})

    def test_seconds_in_which_it_is_red_anyway_do_not_count(self):
        lines = [sent(5, without(LEFT)), sent(22, PLAN)]
        self.assertEqual(hidden_shares([signal(PLAN)], lines, 60), {LEFT: (5 + 2) / 2 / 20})

    def test_another_plan_is_one_of_its_own(self):
        lines = [sent(20, PLAN[2:] + PLAN[:2], False), sent(28, without(LEFT)[2:] + PLAN[:2]), sent(40, PLAN)]
        self.assertEqual(hidden_shares([signal(PLAN)], lines, 40), {})

    def test_a_plan_hides_the_first_seconds_of_a_green(self):
        shown = [[4, [[*MAIN]]], [6, [[*MAIN], [*LEFT]]], [2, []], [6, [[*SIDE]]], [2, []]]
        self.assertEqual(with_hidden(PLAN, {LEFT: 0.2}), shown)
        self.assertEqual(with_hidden(PLAN, {}), PLAN)

    def test_one_goes_at_the_end_of_each_green(self):
        self.assertEqual(with_hidden(PLAN, {LEFT: 0.9})[:2], [[8, [[*MAIN]]], [2, [[*MAIN], [*LEFT]]]])

    def test_a_green_that_the_cycle_parts_begins_before_it(self):
        parted = [[4, [[*LEFT]]], [10, []], [6, [[*LEFT]]]]
        self.assertEqual(with_hidden(parted, {LEFT: 0.35}), [[1, []], [3, [[*LEFT]]], [16, []]])


if __name__ == "__main__":
    unittest.main()
