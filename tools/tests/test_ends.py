"""Whatever is asked, it ends: processes whose parent was killed, a live page while it works, names without end."""
import http.client
import json
import os
import signal
import socket
import subprocess
import sys
import time
import unittest
from importlib.util import find_spec
from pathlib import Path
from types import SimpleNamespace
from unittest.mock import patch
from urllib.parse import urlsplit

from pages import LiveCase
from random_ends import WORKS, end_commands
from support import PROGRAM, QUICK, RED, TOOLS, Case, needs_package, needs_simulator
from streetsim.base import limits
from streetsim.live import ledger
from streetsim.live.bridge import Handler, Refusal, read_request
from streetsim.live.ledger import Ledger
from streetsim.live.logged_program import MOST_IN_MEMORY, SentLog
from streetsim.live.session import PageSession
from streetsim.live.world import World
from streetsim.report.picture_files import load_pyplot, save_picture, short_text

SOON = 10.0  # seconds in which what ends has to be gone, on a machine that has much else to do
# Each begins two processes that would stay for an hour, and says so.
POOLS = {
    "a search": """
from types import SimpleNamespace
from streetsim.search.run_machines import machines
with machines(2, None, [SimpleNamespace(program="", digest=None)]) as made:
    list(made.ordered([("one", stay, 0), ("two", stay, 0)]))
""",
    "runs of seeds": """
from streetsim.base.jobs import side_by_side
side_by_side(lambda task, send: stay(task), [1, 2], 2)
""",
    "environments": """
from streetsim.env import SideBySide
class Made:
    def reset(self, seed):
        return seed
    def close(self):
        pass
made = SideBySide(Made, 2)
made.reset([1, 2])
stay(None)
""",
}
STAY = """
import os, sys, time
def stay(_):
    print(os.getpid(), flush=True)
    time.sleep(3600)
"""


def children_of(pid):
    """The processes that a process has begun and that are there."""
    try:
        paths = Path(f"/proc/{pid}/task").glob("*/children")
        return [int(child) for path in paths for child in path.read_text().split()]
    except OSError:
        return []


def is_there(pid):
    """Whether a process is there, and no more than its entry."""
    try:
        return Path(f"/proc/{pid}/stat").read_text().rpartition(")")[2].split()[0] not in "ZX"
    except OSError:
        return False


def are_gone(pids):
    """Whether processes are gone, within SOON seconds."""
    until = time.monotonic() + SOON
    while any(map(is_there, pids)) and time.monotonic() < until:
        time.sleep(0.02)
    return not any(map(is_there, pids))


@unittest.skipIf(QUICK, "starts processes")
class Pools(Case):
    def test_nobody_stays_whose_parent_was_killed(self):
        for name, text in POOLS.items():
            with self.subTest(name):
                command = [sys.executable, "-c", STAY + text]
                variables = {**os.environ, "PYTHONPATH": str(TOOLS)}
                with subprocess.Popen(command, stdout=subprocess.PIPE, text=True, env=variables) as process:
                    try:
                        for _ in range(1 if name == "environments" else 2):
                            process.stdout.readline()
                        children = children_of(process.pid)
                        self.assertEqual(len(children), 2)
                    finally:
                        process.kill()
                self.assertTrue(are_gone(children), name)


@needs_simulator
class Commands(Case):
    def test_commands_that_end_at_a_random_moment(self):
        """300 starts over all commands, as far as there is time: each ends soon, without a traceback, and leaves no
        process and no half of a file. bench/run ends makes 300 of each."""
        done, faults = end_commands([*WORKS], 300, 1, 150)
        self.assertEqual(faults, [])
        self.assertEqual(set(done), set(WORKS))
        self.assertEqual(set(WORKS), {path.name.removeprefix("streetsim-") for path in TOOLS.glob("streetsim-*")})


@needs_simulator
class Pages(LiveCase):
    """The live page while it works, whose program is stopped: no step ends by itself any more."""

    def started(self):
        """The command that serves the page, and what it is asked at."""
        words = [self.run_path, "--map", self.map_path, "--program", PROGRAM, "--no-open"]
        process = subprocess.Popen(
            [TOOLS / "streetsim-live", *words], stdout=subprocess.PIPE, stderr=subprocess.PIPE, text=True,
            preexec_fn=lambda: signal.signal(signal.SIGINT, signal.SIG_DFL),
        )
        self.addCleanup(process.kill)
        address = urlsplit(process.stdout.readline().strip())
        link = http.client.HTTPConnection("127.0.0.1", address.port, timeout=60)
        self.addCleanup(link.close)
        link.request("POST", f"{address.path}one/begin", "")
        self.assertEqual(link.getresponse().read()[4:5], b"{")
        return process, link, f"{address.path}one/"

    def test_a_signal_ends_it_within_a_second(self):
        for number, status in ((signal.SIGTERM, 143), (signal.SIGINT, 0)):
            with self.subTest(number):
                process, link, path = self.started()
                [program] = children_of(process.pid)
                os.kill(program, signal.SIGSTOP)
                link.request("POST", f"{path}step", json.dumps({"steps": limits.STEPS}))
                time.sleep(0.3)
                begin = time.monotonic()
                process.send_signal(number)
                said = process.communicate(timeout=60)[1]
                self.assertLess(time.monotonic() - begin, SOON / 2)
                self.assertEqual(process.returncode, status, said)
                self.assertNotIn("Traceback", said)
                self.assertTrue(are_gone([program]))

    def test_requests_have_bounds(self):
        """Nobody goes back to a clock that has not come; no step is of no seconds. What is refused changes nothing."""
        session = PageSession(self.page_run())
        self.addCleanup(session.close)
        session.begin()
        session.step(5)
        for verb, given in (
            ("step", {"steps": 0}), ("step", {"steps": limits.STEPS + 1}), ("go_back", {"clock": 6}),
            ("go_back", {"clock": limits.CLOCK}), ("go_back", {"clock": -1}),
        ):
            with self.subTest(verb, given=given):
                self.assertRaises(Refusal, read_request, verb, json.dumps(given).encode(), session)
        self.assertEqual(session.clock, 5)
        session.go_back(**read_request("go_back", b'{"clock":5}', session))
        session.go_back(**read_request("go_back", b'{"clock":2}', session))
        self.assertEqual(session.clock, 2)

    def test_a_connection_that_says_nothing_is_closed(self):
        with patch.object(Handler, "timeout", 0.2), self.bridge() as bridge:
            with socket.create_connection(("127.0.0.1", bridge.server_port), timeout=SOON) as silent:
                self.assertEqual(silent.recv(1), b"")

    def test_a_session_that_has_ended_begins_nothing(self):
        session = PageSession(self.page_run())
        session.begin()
        session.close()
        self.assertRaisesRegex(Exception, "has ended", session.begin)
        self.assertRaisesRegex(Exception, "nothing is running", session.step, 1)

    def test_what_was_sent_is_forgotten_and_the_page_knows_the_last_of_each_light(self):
        world = World(self.page_run())
        self.addCleanup(world.close)
        first = world.message()
        self.assertEqual([plan["phases"] for plan in first["plans"]], [[[600, []]]])
        world.go_on(30)
        later = world.message()
        self.assertEqual([plan["phases"] for plan in later["plans"]], [[[600, [[0, 0, 1]]]]])
        self.assertEqual(world.kernel.sent_lines, [])
        self.assertEqual(world.message()["plans"], [])
        world.forget_sent()
        whole = world.message()
        self.assertEqual(([plan["phases"] for plan in whole["plans"]], whole["first"]), ([[[600, [[0, 0, 1]]]]], 0))

    def test_controllers_see_what_was_sent_by_hand_in_the_second_before(self):
        """A plan that is told to the page at once stays among the lines that were sent until the next second is made;
        it is told once."""
        world = World(self.page_run())
        self.addCleanup(world.close)
        world.go_on(5)
        world.message()
        self.assertEqual(world.hand.send_command({**RED, "phases": [[9, [[0, 0, 1]]]]}), "")
        self.assertEqual([len(world.message()["plans"]) for _ in range(2)], [1, 0])
        self.assertEqual([sent.line.command["phases"] for sent in world.kernel.sent_lines], [[[9, [[0, 0, 1]]]]])
        world.go_on(6)
        self.assertEqual((world.message()["plans"], world.kernel.sent_lines), ([], []))

    def test_a_long_run_has_a_short_chart_whose_points_are_those_of_its_seconds(self):
        with patch.object(ledger, "MOST_POINTS", 10):
            short = World(self.page_run())
            self.addCleanup(short.close)
            told, every = [], set()
            for clock in (3, 4, 9, 10, 11, 17, 40, 41, 75):
                short.go_on(clock)
                message = short.message()
                told[message["first"] :] = message["points"]
                every.add(short.ledger.every)
        whole = World(self.page_run())
        self.addCleanup(whole.close)
        whole.go_on(75)
        points = {point[0]: point for point in whole.message()["points"]}
        self.assertEqual(len(points), 76)
        self.assertEqual(told, [points[clock] for clock in (0, 8, 16, 24, 32, 40, 48, 56, 64, 72, 75)])
        self.assertEqual(every, {1, 2, 8})


class Kept(unittest.TestCase):
    def test_a_log_of_any_length_gives_what_it_was_given(self):
        """Steps on end are one line; a log is in a file where it is long; who reads it changes nothing."""
        log, wanted = SentLog(), []
        self.addCleanup(log.close)
        for at in range(3000):
            line = b'{"cmd":"close","at":%d,"text":"%s"}\n' % (at, b"x" * 2000)
            log.add_line(line)
            log.steps += at % 3
            wanted.append(line)
            wanted += [b'{"cmd":"advance","steps":%d}\n' % (at % 3)] if at % 3 else []
            if at % 500 == 0:
                self.assertEqual(list(log.lines()), wanted)
        self.assertGreater(sum(map(len, wanted)), MOST_IN_MEMORY)
        self.assertEqual(list(log.lines()), wanted)
        log.steps += 2 * limits.STEPS
        self.assertEqual(list(log.lines())[len(wanted) - 1 :], [
            b'{"cmd":"advance","steps":%d}\n' % steps for steps in (limits.STEPS, limits.STEPS, 2)
        ])

    def test_a_chart_of_an_hour_at_a_thousand_seconds_a_second(self):
        ledger_now = Ledger(SimpleNamespace(takeout_clocks=[]), None, None, None)
        ledger_now.start, ledger_now.last = 0, (0, 0.0, 0, None)
        for begin in range(0, 3_600_000, 10_000):
            ledger_now.add_points([(clock, 0.0, 0, None) for clock in range(begin, begin + 10_000)])
        self.assertLessEqual(len(ledger_now.points), ledger.MOST_POINTS)
        self.assertGreater(len(ledger_now.points), ledger.MOST_POINTS / 2 - 1)
        self.assertEqual(ledger_now.points_from(0)[-1][0], 3_599_999)


class Names(Case):
    @needs_package("python3-matplotlib", find_spec("matplotlib"))
    def test_a_picture_with_names_without_end(self):
        """A title, marks, labels on an axis, also a second one, and texts of 10,000 letters, some of them formulas."""
        pyplot = load_pyplot()
        self.addCleanup(pyplot.close, "all")
        for letter in ("x", "$", "$\\frac{"):
            figure, (above, below) = pyplot.subplots(2)
            text = (letter * 10_000)[:10_000]
            above.plot([1, 2], [1, 2], label=text)
            above.legend()
            above.set(title=f"From {text} to the end", xlabel=text)
            above.annotate(text, (1, 2))
            below.set_yticks([0, 1], [text, "short"])
            below.secondary_yaxis("right").set_yticks([0, 1], ["short", f"{text} end"])
            for ending in ("png", "svg", "pdf"):
                save_picture(figure, str(self.folder / f"x.{ending}"))
            drawn = (self.folder / "x.svg").read_text()
            self.assertNotIn(text[:500], drawn)
            self.assertLess(len(drawn), 200_000)

    def test_short_texts_stay(self):
        self.assertEqual(short_text("Junction 7\nin town"), "Junction 7\nin town")
        self.assertEqual(short_text(f"{'a' * 100}{'b' * 100}\nc"), f"{'a' * 80} .. {'b' * 80}\nc")


if __name__ == "__main__":
    unittest.main()
