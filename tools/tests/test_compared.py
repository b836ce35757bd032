"""As it was beside as it is: the difference that a page shows is that of two runs of the program by lines; and each
change is undone on its own."""
import json
import subprocess
import unittest

from pages import state_after, told_by
from support import PROGRAM, Case, needs_simulator
from test_page_works import street
from streetsim.base import limits
from streetsim.control.settings import Settings
from streetsim.live.facts import departures_and_ends
from streetsim.live.page_texts import gain_text
from streetsim.live.session import PageSession
from streetsim.live.world import PageRun


def lost_and_ended(text, run, mapping):
    """Vehicle seconds lost so far, vehicles ended and those that wished to depart, of a session's lines: by a count at
    each second of a run of the program."""
    departs, free = departures_and_ends(run, mapping)
    lines = [line for whole in text.splitlines() for line in single_steps(whole)]
    done = subprocess.run([PROGRAM], input="\n".join(lines) + "\n", capture_output=True, text=True, check=True)
    counts = [count for reply in done.stdout.splitlines() if "admitted" in (count := json.loads(reply))]
    ended = [count["arrived"] + count["taken"] for count in counts]
    lost = sum(
        sum(second <= count["clock"] for second in free) - gone for count, gone in zip(counts, ended, strict=True)
    )
    return lost, ended[-1], sum(depart <= counts[-1]["clock"] for depart in departs)


def single_steps(line):
    """A line of a session; of steps each, with a count behind it."""
    command = json.loads(line)
    step = ['{"cmd":"advance","steps":1}', '{"cmd":"count"}']
    return step * command["steps"] if command["cmd"] == "advance" else [line]


def close(lane):
    return {"cmd": "close", "link": 0, "lane": lane, "first": 50, "last": 60}


@needs_simulator
class Compared(Case):
    def setUp(self):
        super().setUp()
        self.run_file, self.mapping = street()
        settings = Settings(limits.CLOCK, 0, rescue=0)
        self.session = PageSession(PageRun(self.run_file, self.mapping, settings, PROGRAM))
        self.addCleanup(self.session.close)
        self.session.begin()
        self.session.step(60)

    def change(self, text, *commands):
        told = self.session.change(text, [{"clock": clock, "command": command} for clock, command in commands])
        return told_by(told)["refused"]

    def texts(self):
        return [one["text"] for one in self.session.changes]

    def test_the_difference_of_two_runs_by_lines(self):
        session = self.session
        self.change("works", (60, close(0)))
        self.change("later", (200, close(1)), (260, {**close(1), "cmd": "reopen"}))
        self.change("taken out", (60, {"cmd": "takeout", "car": 3}))
        told = told_by(session.step(440))
        texts = [session.text(which).decode() for which in (1, 0)]
        counted = [lost_and_ended(text, self.run_file, self.mapping) for text in texts]
        (lost_was, ended_was, _), (lost, ended, wished) = counted
        self.assertEqual(told["gain"], {"seconds": (lost_was - lost) / wished, "ended": ended - ended_was})
        self.assertEqual(told["said"], gain_text((lost_was - lost) / wished, ended - ended_was))
        self.assertGreater(lost - lost_was, wished)
        # The chart has a point for each second, of both.
        now, was = told["worlds"]
        self.assertEqual([point[0] for point in now["points"]], [*range(61, 501)])
        for points, sums in ((now["points"], counted[1]), (was["points"], counted[0])):
            self.assertEqual(points[-1][:3], [500, sums[0] / sums[2], sums[1]])
        # A refused command is no change, and each change is undone on its own: later ones that it was to send as well.
        self.assertIn("no such lane", self.change("none", (500, {**close(0), "link": 7})))
        self.assertEqual(self.texts(), ["works", "later", "taken out"])
        session.undo(0)
        saved = session.text(0).decode()
        self.assertEqual((session.current.clock, self.texts()), (500, ["later", "taken out"]))
        self.assertIn('"cmd":"close","link":0,"lane":1', saved)
        self.assertNotIn('"cmd":"close","link":0,"lane":0,"first":50', saved)
        session.undo(1)
        session.undo(0)
        lanes = ((0, 0), (0, 1))
        self.assertEqual(state_after(session.text(0).decode(), lanes), state_after(texts[0], lanes))

    def test_the_traffic_as_it_was_runs_where_somebody_wants_it(self):
        session = self.session
        self.change("detector", (60, {"cmd": "meter", "link": 0, "lane": 0, "cell": 5, "period": 60}))
        self.assertIsNone(session.unchanged)
        self.change("works", (60, close(0)))
        self.assertEqual(session.unchanged.clock, 60)
        session.compare(False, False)
        self.assertIsNone(session.unchanged)
        session.step(40)
        session.compare(True, True)
        self.assertEqual(session.unchanged.clock, 100)
        session.go_back(60)
        self.assertEqual((session.current.clock, self.texts(), session.unchanged), (60, [], None))


class Told(unittest.TestCase):
    def test_what_changes_gained(self):
        self.assertEqual(gain_text(4.24, 0), "4.2 s a trip less so far; as many have arrived")
        self.assertEqual(gain_text(-1.5, -1200), "1.5 s a trip more so far; 1,200 fewer have arrived")
        self.assertEqual(gain_text(0.04, 3), "no difference in delay so far; 3 more have arrived")


if __name__ == "__main__":
    unittest.main()
