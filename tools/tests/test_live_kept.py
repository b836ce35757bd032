"""A live page whose session is kept: its bridge and its program are killed, and it goes on where it was, with all that
the page knew. What is wanted is what a session says that nothing ends."""
import fcntl
import http.client
import json
import os
import signal
import subprocess
import threading
import time
import unittest
from pathlib import Path
from unittest import mock
from urllib.parse import urlsplit

from pages import LiveCase, state_after, told_by
from support import PROGRAM, TOOLS, Case, needs_simulator
from streetsim.base.files import Fault
from streetsim.live import session_files
from streetsim.live.session import PageSession
from streetsim.live.session_files import SessionFiles

CLOSE = {"cmd": "close", "link": 1, "lane": 0, "first": 4, "last": 5}
REOPEN = {**CLOSE, "cmd": "reopen"}
METER = {"cmd": "meter", "link": 0, "lane": 0, "cell": 5, "period": 5}
PLAN = {"cmd": "signal", "node": 1, "offset": 0, "phases": [[7, [[0, 0, 1]]], [3, []]]}


def change(*commands, text="by hand"):
    """A change as a page sends it, of commands with their clocks."""
    return "change", {"text": text, "commands": [{"clock": clock, "command": command} for clock, command in commands]}


def step(steps):
    return "step", {"steps": steps}


# What a page did: works from 3 s until 30 s, a detector, a plan, and one that is refused.
DONE = (
    step(3), change((3, CLOSE), (30, REOPEN), text="works"), change((3, METER)), step(1), step(1),
    change((5, PLAN), text="plan"), change((5, {"cmd": "takeout", "car": 99})), step(1),
)  # fmt: skip


class Waiting(Case):
    def test_a_program_that_ends_is_waited_for(self):
        """One that has the file for 0.3 s more; one that keeps it is a fault."""
        kept = SessionFiles.__new__(SessionFiles)
        kept.file = Path(self.write("session", ""))
        with open(kept.file, "rb") as other:
            fcntl.flock(other, fcntl.LOCK_EX)
            threading.Timer(0.3, fcntl.flock, (other, fcntl.LOCK_UN)).start()
            begin = time.monotonic()
            kept.await_end()
            self.assertGreaterEqual(time.monotonic() - begin, 0.3)
            fcntl.flock(other, fcntl.LOCK_EX)
            with mock.patch.object(session_files, "PATIENCE", 0.1):
                self.assertRaisesRegex(Fault, "another program keeps", kept.await_end)


class KeptCase(LiveCase):
    """A bridge that keeps its session, and a page that asks it."""

    def setUp(self):
        super().setUp()
        self.file = self.folder / "day.jsonl"

    def command(self, *words):
        run = [self.run_path, "--map", self.map_path, "--program", PROGRAM, "--no-open", *words]
        return [str(word) for word in (TOOLS / "streetsim-live", *run)]

    def started(self):
        """The bridge, as its user starts it."""
        self.bridge = subprocess.Popen(self.command("--keep", self.file), stdout=subprocess.PIPE, text=True)
        self.addCleanup(self.bridge.stdout.close)
        self.addCleanup(self.bridge.wait)
        self.addCleanup(self.bridge.kill)
        self.address = urlsplit(self.bridge.stdout.readline().strip())

    def post(self, verb, given=None, status=200):
        """What the bridge answers; of a message its JSON, and of what is not done why."""
        link = http.client.HTTPConnection("127.0.0.1", self.address.port, timeout=20)
        link.request("POST", f"{self.address.path}page/{verb}", "" if given is None else json.dumps(given))
        answer = link.getresponse()
        told = answer.read()
        link.close()
        self.assertEqual(answer.status, status, told)
        return json.loads(told)["fault"] if status != 200 else told_by(told) if told[4:5] == b"{" else told

    def do(self, *deeds):
        """Begins the page, does what it did, and gives what it was told last."""
        for verb, given in [("begin", None), *deeds]:
            told = self.post(verb, given)
        return told

    def kill(self):
        self.bridge.kill()
        self.bridge.wait()

    def again(self):
        """What a page is told that comes after the bridge was killed and begun again."""
        self.kill()
        self.started()
        return self.do()


def known(told):
    """All that a page shows, of what it was told as a whole; the clock is of both traffics."""
    now, was = [*told["worlds"], None][:2]
    return {**{name: told[name] for name in ("changes", "changed")}, "now": now, "was": was}


@needs_simulator
class Kept(KeptCase):
    def program(self):
        """The process that keeps the session."""
        children = Path(f"/proc/{self.bridge.pid}/task").glob("*/children")
        pids = [int(pid) for path in children for pid in path.read_text().split()]
        [pid] = [pid for pid in pids if b"--keep" in Path(f"/proc/{pid}/cmdline").read_bytes()]
        return pid

    def unbroken(self, *deeds):
        """What a session that nothing ends tells as a whole, after some deeds."""
        session = PageSession(self.page_run())
        self.addCleanup(session.close)
        session.begin()
        for verb, given in deeds:
            getattr(session, verb)(**given)
        return known(told_by(session.message(True)))

    def check_goes_on(self, *deeds):
        """The page that came again goes on as one that nothing ended, and the file leads to the same state."""
        later = (step(4), step(30))
        for verb, given in later:
            self.post(verb, given)
        wanted = self.unbroken(*deeds, *later)
        self.assertEqual(known(self.post("begin")), wanted)
        text = self.file.read_text()
        self.assertEqual(state_after(text)[1], wanted["now"]["clock"])
        self.assertEqual(state_after(text), state_after(self.post("text", {"which": 0}).decode()))

    def test_a_page_goes_on_with_all_that_it_knew(self):
        """Its clock, vehicles, plans, works, changes, detectors and charts, of both traffics."""
        self.started()
        self.do(*DONE)
        wanted = self.unbroken(*DONE)
        self.assertEqual([text for _, text in wanted["changes"]], ["works", "by hand", "plan"])
        self.assertEqual([point[0] for point in wanted["now"]["points"]], [*range(7)])
        self.assertEqual(known(self.again()), wanted)
        self.check_goes_on(*DONE)

    def test_the_program_is_killed(self):
        self.started()
        self.do(*DONE)
        os.kill(self.program(), signal.SIGKILL)
        self.assertIn("the program ended with status -9", self.post("step", {"steps": 1}, 500))
        self.assertIn("nothing is running", self.post("step", {"steps": 1}, 500))
        self.assertEqual(known(self.do()), self.unbroken(*DONE))
        self.check_goes_on(*DONE)

    def test_the_bridge_is_killed_within_a_change(self):
        """The change was noted, and its lines were not sent, or one of two: it is made whole."""
        self.started()
        self.do(*DONE)
        before = self.file.read_bytes()
        self.do_on(change((6, {**CLOSE, "first": 7, "last": 8}), (6, {**CLOSE, "first": 9, "last": 9})))
        self.kill()
        for lines in (before, before + b'{"cmd":"close","link":1,"lane":0,"first":7,"last":8}\n'):
            self.file.write_bytes(lines)
            self.started()
            closed = self.do()["worlds"][0]["closed"]
            self.assertEqual(closed, [[2, 4, 5], [2, 7, 9]])
            self.assertEqual(self.file.read_bytes().count(b'"close"'), 3)
            self.kill()

    def do_on(self, *deeds):
        for verb, given in deeds:
            self.post(verb, given)

    def test_what_is_undone_makes_another_session(self):
        self.started()
        self.do(*DONE)
        told = self.post("undo", {"number": 0})
        self.assertEqual([text for _, text in told["changes"]], ["by hand", "plan"])
        wanted = self.unbroken(*DONE, ("undo", {"number": 0}))
        self.assertEqual(known(self.again()), wanted)
        self.assertNotIn("close", self.file.read_text())
        self.post("go_back", {"clock": 4})
        self.assertEqual(known(self.again()), self.unbroken(*DONE, ("undo", {"number": 0}), ("go_back", {"clock": 4})))

    def test_killed_between_the_two_files(self):
        """The notes tell of a session that was to take the place of the one before: it has, where it is not there."""
        self.started()
        self.do(step(3), change((3, CLOSE), text="works"))
        self.kill()
        for is_there, texts in ((True, ["works"]), (False, [])):
            with open(f"{self.file}.page", "a", encoding="utf-8") as notes:
                notes.write('{"next":[]}\n{"cha' if is_there else '{"next":[]}\n')
            if is_there:
                Path(f"{self.file}.new").write_text("")
            self.started()
            self.assertEqual([text for _, text in self.do()["changes"]], texts)
            self.assertFalse(Path(f"{self.file}.new").exists())
            self.kill()

    def test_a_page_that_comes_again_finds_what_runs(self):
        self.started()
        self.do(*DONE)
        program = self.program()
        self.post("leave")
        self.assertEqual((known(self.do()), self.program()), (self.unbroken(*DONE), program))

    def refused(self, *words, fault):
        done = subprocess.run(self.command(*words), capture_output=True, text=True, timeout=30, check=False)
        self.assertEqual((done.returncode, done.stderr.count("\n")), (2, 1), done.stderr)
        self.assertIn(fault, done.stderr)

    def test_notes_that_are_spoilt(self):
        self.file.with_name("day.jsonl.page").write_text("{changes\n")
        self.refused("--keep", self.file, fault="day.jsonl.page: not JSON")

    def test_what_is_refused(self):
        self.refused("--keep", self.folder / "no/day", fault="No such file or directory")
        for read in (self.run_path, self.map_path):
            self.refused("--keep", read, fault="--keep names a file that is read")
        self.started()
        self.do(*DONE)
        self.refused("--keep", self.file, fault="another streetsim-live keeps its session there")
        self.assertIn("a session that is kept stays as it was", self.post("join", "a", 404))
        self.kill()
        time.sleep(0.2)
        self.refused("--keep", self.file, "--rescue", 60, fault="of another run, or of this one with other options")
        self.file.write_text('{"cmd":"load"}\n')
        self.refused("--keep", self.file, fault="line 1 is not of this run")


if __name__ == "__main__":
    unittest.main()
