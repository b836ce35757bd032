"""The line on a terminal that says how far long work is."""
import io
import unittest

import support  # noqa: F401  # which finds the package
from streetsim.base.client import Census
from streetsim.base.progress import RunProgress, WorkProgress, time_text


class Terminal(io.StringIO):
    def isatty(self):
        return True


def census(clock, on_their_way, arrived):
    return Census(admitted=9, arrived=arrived, buffers=1, cells=on_their_way - 1, clock=clock, taken=0, waiting=0)


class Lines(unittest.TestCase):
    def test_a_run(self):
        """At most five times a second, and at the end, which ends the line. Of 10 vehicles 3 and the half of 8 are
        done, which is half of the run that is 1 of 1.4 parts of the work."""
        with RunProgress(0, 100, 10, stream=Terminal()) as line:
            line.begin -= 10
            line.show(50, census(50, 8, 3))
            line.show(60, census(60, 4, 4))
            line.show(100, census(100, 2, 7))
        first = f"\r[{'#' * 15}{' ' * 15}] 50 s, 8 on their way, 3 arrived, 5 x real time, 10 s left "
        last = f"[{'#' * 30}] 100 s, 2 on their way, 7 arrived, 10 x real time "
        self.assertEqual(line.stream.getvalue(), f"{first}\r{last:{len(first) - 1}}\r\n")

    def test_a_run_without_vehicles_goes_by_its_seconds(self):
        line = RunProgress(21_600, 25_200, stream=Terminal())
        line.begin -= 10
        line.show(24_120, census(24_120, 1, 0))
        told = f"\r[{'#' * 15}{' ' * 15}] 24,120 s, 1 on their way, 0 arrived, 252 x real time, 10 s left "
        self.assertEqual(line.stream.getvalue(), told)

    def test_rounds_are_part_of_the_work(self):
        """Two rounds of 100 s, and the run that counts: a clock that falls begins the next."""
        line = RunProgress(0, 100, 10, passes=3, stream=Terminal())
        line.begin -= 20
        for clock, ways, arrived in ((50, 6, 0), (100, 0, 10), (10, 6, 0), (100, 0, 10), (50, 2, 1)):
            line.last -= 1
            line.show(clock, census(clock, ways, arrived))
        lines = line.stream.getvalue().split("\r")[1:]
        self.assertTrue(lines[0].startswith(f"[{'#' * 2}{' ' * 28}] round 1 of 3, 50 s, "), lines[0])
        self.assertIn("round 2 of 3, 10 s, ", lines[2])
        # 2 rounds and 0.2 of the third of 3.4 parts: in 20 s, so that 11 s are left.
        self.assertTrue(
            lines[4].startswith(f"[{'#' * 19}{' ' * 11}] round 3 of 3, 50 s, 2 on their way, 1 arrived, 12 x"), lines[4]
        )
        self.assertIn(", 11 s left", lines[4])

    def test_no_end_is_told_before_there_is_one_to_tell(self):
        line = RunProgress(0, 100, 1000, stream=Terminal())
        line.show(5, census(5, 4, 0))
        self.assertNotIn("left", line.stream.getvalue())

    def test_times_are_told_as_people_say_them(self):
        told = [time_text(seconds) for seconds in (0.4, 99, 180, 3600, 9000)]
        self.assertEqual(told, ["0 s", "99 s", "3 min", "60 min", "2.5 h"])

    def test_runs_side_by_side(self):
        line = RunProgress(0, 100, 10, 2, stream=Terminal())
        line.begin -= 10
        line.note_end()
        line.show(100, census(100, 0, 10), 0)
        line.last -= 1
        line.show(20, census(20, 4, 2), 1)
        lines = line.stream.getvalue().split("\r")[1:]
        self.assertEqual(
            lines[0], f"[{'#' * 10}{' ' * 20}] 1 of 2 runs done, 0 on their way, 10 arrived, 10 x real time, 18 s left "
        )
        self.assertEqual(
            lines[1], f"[{'#' * 15}{' ' * 15}] 1 of 2 runs done, 4 on their way, 12 arrived, 12 x real time, 10 s left "
        )

    def test_a_shorter_line_covers_a_longer_one_and_all_is_taken_away(self):
        line = WorkProgress("runs", 4, Terminal())
        line.begin -= 60
        line.show(1, "best 100.0 s")
        line.last -= 1
        line.show(2)
        line.end()
        longer = f"[{'#' * 7}{' ' * 23}] 1 of 4 runs, best 100.0 s, 3 min left"
        shorter = f"[{'#' * 15}{' ' * 15}] 2 of 4 runs, 60 s left"
        told = line.stream.getvalue().split("\r")[1:]
        self.assertEqual(told, [longer, f"{shorter:{len(longer)}}", " " * len(shorter), ""])

    def test_more_is_done_than_was_thought(self):
        told = WorkProgress("plans", 4, Terminal()).line(5, "", 60)
        self.assertEqual(told, f"[{'#' * 30}] 5 of 4 plans, 0 s left")

    def test_half_of_what_is_done_side_by_side_counts(self):
        """1 of 20 and the half of 4 are done in 3 s: 17 are left."""
        self.assertIn(", 17 s left", WorkProgress("runs", 20, Terminal(), abreast=4).line(1, "", 3))
        self.assertIn(", 0 s left", WorkProgress("runs", 20, Terminal(), abreast=4).line(20, "", 3))

    def test_an_end_that_is_told_counts(self):
        self.assertIn("1 of 20 runs, 5 s left", WorkProgress("runs", 20, Terminal()).line(1, "", 3, 5.2))

    def test_nothing_elsewhere(self):
        elsewhere = io.StringIO()
        with RunProgress(0, 100, stream=elsewhere) as line:
            line.show(100, census(100, 0, 9))
        meanwhile = WorkProgress("runs", 4, elsewhere)
        meanwhile.show(4)
        meanwhile.end()
        self.assertEqual(elsewhere.getvalue(), "")


if __name__ == "__main__":
    unittest.main()
