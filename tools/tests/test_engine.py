"""The engine in this process answers as the program does, by lines and by calls, whatever room it finds."""
import ctypes
import os
import shutil
import subprocess
import unittest

from support import PROGRAM, STREET, TOOLS, Case, needs_simulator
from streetsim.base import client, engine
from streetsim.base.client import Client, Vehicle
from streetsim.base.engine import Engine
from streetsim.base.files import Fault

LIBRARY = TOOLS.parent / engine.BUILT_LIBRARY
needs_library = unittest.skipUnless(LIBRARY.exists(), "no library of the engine: library/make makes it")
LINES = (b'{"cmd":"count"}', b"  \t\r", b"x", b"", b'{"cmd":"lane","link":10,"lane":0}', b'{"cmd":"vehicle","car":99}')


@needs_library
class Sessions(Case):
    def session(self):
        session = self.enterContext(Engine(str(LIBRARY)))
        session.load(**STREET)
        return session

    @needs_simulator
    def test_calls_are_answered_as_by_the_program(self):
        with Client(PROGRAM) as program, Engine(str(LIBRARY)) as own:
            answers = []
            for sim in (program, own):
                said = [sim.load(**STREET), sim.meter(10, 0, 5, 60)]
                for depart in range(0, 12, 3):
                    said.append(sim.enter([10], 0, depart, size=1 + depart % 2))
                for steps in (3, 1, 60):
                    said += [sim.advance(steps), sim.count(), *map(sim.vehicle, range(4)), *sim.vehicles(range(4))]
                said += [sim.lane(10, 0), sim.read(0), *sim.lanes([(10, 0)])]
                said += sim.batch([{"cmd": "advance", "steps": 10_001}, {"cmd": "load"}, {"cmd": "count"}])
                answers.append(said)
            self.assertEqual(*answers)

    def test_what_is_refused_is_raised(self):
        session = self.session()
        for call, fault in (
            (lambda: session.vehicle(7), client.NoVehicle),
            (lambda: session.vehicle(-1), client.BadCommand),
            (lambda: session.vehicle(1 << 64), client.BadCommand),
            (lambda: session.enter([10], 3), client.NoLane),
            (lambda: session.enter([]), client.BadPlan),
            (lambda: session.advance(10_001), client.BadCount),
            (lambda: session.load(**STREET), client.AlreadyLoaded),
        ):
            with self.subTest(fault.__name__), self.assertRaises(fault):
                call()
        self.assertEqual(session.vehicle(session.enter([10])), Vehicle(0, "waiting", 10, 0, plan=(10,), depart=0))

    def test_a_reply_that_found_no_room_is_asked_for_again(self):
        """And its line is served once: a vehicle is admitted by it."""
        session = self.session()
        for bytes_of_room in range(1, 12):
            session.room = ctypes.create_string_buffer(bytes_of_room)
            reply = session.exchange_one(b'{"cmd":"enter","plan":[10],"lane":0,"depart":0}\n')
            self.assertEqual(reply, b'{"car":%d}\n' % (bytes_of_room - 1))
        self.assertEqual(session.count().admitted, 11)

    def test_a_closed_session(self):
        session = self.session()
        session.close()
        session.close()
        for call in (session.count, session.advance, lambda: session.lane(10, 0), lambda: session.vehicle(0)):
            with self.assertRaises(ValueError):
                call()

    def test_blank_and_faulty_lines(self):
        session = self.session()
        replies = [session.exchange_one(line + b"\n") for line in LINES]
        self.assertEqual([replies[1], replies[3]], [b"", b""])
        self.assertIsInstance(client.read_reply(replies[2]), client.NotJson)


@needs_library
class Doors(Case):
    def drive(self, compiler, source, *words):
        """What a program of C or C++ prints that is linked with the library."""
        if not shutil.which(compiler):
            self.skipTest(f"no {compiler}")
        folder, made = LIBRARY.parents[1], self.folder / "made"
        command = [compiler, "-Wall", "-Wextra", "-Werror", folder / source, "-o", made, *words]
        subprocess.run([*command, folder / "out/libstreetsim.a"], check=True)
        return subprocess.run([made], capture_output=True, text=True, check=True).stdout

    def test_c(self):
        self.assertEqual(self.drive("gcc", "c/drive.c").splitlines()[2:], [
            "clock 60: 3 of 3 arrived", "from 0: 3 passed, on the cell in 0 steps",
        ])  # fmt: skip

    def test_cpp(self):
        said = self.drive("g++", "cpp/drive.cpp").splitlines()
        self.assertEqual(
            said[2:], ["clock 60: 3 of 3 arrived", '{"now":[60,0,0,0,0],"rows":[[0,3,9,0]]}', "from 0: 3 passed"]
        )

    def test_each_request_for_memory_is_refused(self):
        said = self.drive("gcc", "c/starved.c", "-Wl,--wrap=malloc,--wrap=realloc")
        self.assertRegex(said, r"each of \d\d\d requests refused in turn: the same \d+ bytes of replies\n")

    def test_rust(self):
        if not shutil.which("cargo"):
            self.skipTest("no cargo")
        environment = {**os.environ, "CARGO_TARGET_DIR": str(self.folder / "target")}
        folder, run = LIBRARY.parents[1] / "rust", ["cargo", "run", "--offline", "--quiet", "--example", "drive"]
        subprocess.run(
            ["cargo", "test", "--offline", "--quiet"], cwd=folder, env=environment, capture_output=True, check=True,
            timeout=600,
        )  # fmt: skip
        done = subprocess.run(run, cwd=folder, env=environment, capture_output=True, text=True, check=True, timeout=600)
        self.assertEqual(done.stdout.splitlines()[2:], [
            "clock 60: 3 of 3 arrived", "from 0: 3 passed, on the cell in 0 steps",
        ])  # fmt: skip


class Found(Case):
    def test_no_library(self):
        for path in (self.folder / "none.so", self.write("text.so", "no library")):
            with self.subTest(path), self.assertRaises(Fault):
                Engine(str(path))


if __name__ == "__main__":
    unittest.main()
