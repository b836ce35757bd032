"""The client: refusals, batches, want of memory, and a program that ends."""
import os
import sys
import unittest
from pathlib import Path

from support import PROGRAM, STREET, Case, needs_simulator
from streetsim.base import client
from streetsim.base.client import Client, ProgramEnded, Row, Starved, Vehicle
from streetsim.base.files import Fault


def fake(case, replies):
    """A program that answers its lines by fixed replies."""
    path = case.write(
        "fake",
        f"#!{sys.executable}\nimport sys\nif '--help' in sys.argv: sys.exit()\n"
        f"for reply in {replies!r}:\n    sys.stdin.readline(); print(reply, flush=True)\n",
    )
    os.chmod(path, 0o755)
    return path


class Rows(unittest.TestCase):
    def test_what_a_detector_noted(self):
        """In 60 steps 20 vehicles that went 50 cells in all, and 30 steps with one on the cell; and nothing yet."""
        noted, nothing = Row(0, 60, 20, 50, 30), Row(0, 0, 0, 0, 0)
        self.assertEqual((noted.flow, noted.density, noted.mean_speed), (1 / 3, 0.5, 2.5))
        self.assertEqual((nothing.flow, nothing.density, nothing.mean_speed), (0, 0, None))


class Replies(Case):
    def test_short_advance_is_finished(self):
        with Client(fake(self, ['{"clock":3,"short":3}', '{"clock":5,"short":2}', '{"clock":9}'])) as sim:
            self.assertEqual(sim.advance(9), 9)

    def test_starved_is_raised_and_is_a_value_in_a_batch(self):
        with Client(fake(self, ['{"starved":true}', '{"starved":true}'])) as sim:
            with self.assertRaises(Starved):
                sim.count()
            self.assertEqual(sim.batch([{"cmd": "count"}]), [Starved()])

    def test_every_number_has_a_class(self):
        names = {
            1: "NotLoaded",
            2: "AlreadyLoaded",
            3: "BadNetwork",
            4: "NoNode",
            5: "NoLink",
            6: "NoLane",
            7: "BadRange",
            8: "BadPlan",
            9: "BadSignal",
            10: "NoVehicle",
            11: "Gone",
            12: "NoMeter",
            13: "TooMany",
            14: "BadCount",
            15: "ClockEnd",
            20: "NotJson",
            21: "BadCommand",
            22: "LineTooLong",
            23: "Full",
        }
        self.assertEqual({number: kind.__name__ for number, kind in client.REFUSALS.items()}, names)

    def test_ended_program(self):
        with self.assertRaises(ProgramEnded) as ended, Client(fake(self, [])) as sim:
            sim.count()
        self.assertEqual((ended.exception.status, ended.exception.stderr), (0, ""))

    def test_line_for_a_dead_program_that_fills_the_pipe(self):
        with self.assertRaises(ProgramEnded), Client(fake(self, [])) as sim:
            sim.batch([b"x" * 1_000_000])

    def test_lines_that_would_not_get_one_reply(self):
        for line in (b"", "  \n", b'{"cmd":"count"}\n{"cmd":"count"}'):
            with self.subTest(line), self.assertRaises(ValueError):
                client.line_of(line)

    def test_what_is_no_reply(self):
        for text in (
            "x",
            "[]",
            "{}",
            '{"error":99}',
            '{"links":1}',
            '{"cmd":"count"}',
            '{"car":1,"state":"cell","wheels":4}',
        ):
            with self.subTest(text), self.assertRaises(client.NoReply):
                client.read_reply(text.encode())

    def test_row(self):
        row = Row(start=0, steps=300, passes=60, speeds=180, occupied=75)
        self.assertEqual((row.flow, row.density, row.mean_speed), (0.2, 0.25, 3.0))
        self.assertIsNone(Row(0, 300, 0, 0, 0).mean_speed)


@needs_simulator
class Simulator(Case):
    def street(self, **values):
        sim = self.enterContext(Client(PROGRAM))
        sim.load(**STREET, **values)
        return sim

    def test_a_vehicle_drives_and_arrives(self):
        sim = self.street()
        self.assertEqual(sim.enter([10], 0, 0), 0)
        self.assertEqual(sim.advance(4), 4)
        self.assertEqual(sim.vehicle(0), Vehicle(0, "cell", link=10, lane=0, cell=6, speed=3, plan=(10,)))
        sim.advance()
        self.assertEqual(sim.vehicle(0), Vehicle(0, "arrived", step=4))

    def test_each_command_is_done(self):
        street = {
            "nodes": [[0, 1, 1], [1, 1, 1]],
            "links": [[0, 0, 1, 2, 9, 5], [1, 1, 0, 1, 9, 5]],
            "turns": [[0, 0, 1, 0]],
        }
        closed = {"link": 0, "lane": 1, "first": 0, "last": 3}
        commands = [
            {"cmd": "load", **street, "zone": 1, "dawdle": 1, "change": 1, "seed": 1},
            {"cmd": "enter", "plan": [0, 1], "lane": 0, "depart": 0},
            {"cmd": "signal", "node": 1, "offset": 0, "phases": [[5, []]]},
            {"cmd": "close", **closed},
            {"cmd": "reopen", **closed},
            {"cmd": "meter", "link": 0, "lane": 0, "cell": 3, "period": 5},
            {"cmd": "read", "meter": 0},
            {"cmd": "lane", "link": 0, "lane": 0},
            {"cmd": "advance", "steps": 1},
            {"cmd": "vehicle", "car": 0},
            {"cmd": "takeout", "car": 0},
            {"cmd": "count"},
        ]
        for command, reply in zip(commands, self.enterContext(Client(PROGRAM)).batch(commands)):
            with self.subTest(command["cmd"]):
                self.assertNotIsInstance(reply, Exception)

    def test_detector(self):
        sim = self.street()
        meter = sim.meter(10, 0, 3, 2)
        sim.enter([10], 0, 0)
        sim.advance(5)
        rows = sim.read(meter)
        self.assertEqual((rows.now, rows.rows), (Row(4, 1, 0, 0, 0), (Row(0, 2, 0, 0, 0), Row(2, 2, 1, 3, 1))))

    def test_lane(self):
        sim = self.enterContext(Client(PROGRAM))
        sim.load(STREET["nodes"], [[10, 1, 2, 1, 40, 5]], [])
        for _ in range(3):
            sim.enter([10])
        sim.advance(5)
        self.assertEqual(sim.takeout(1), 1)
        self.assertEqual(sim.close_lane(10, 0, 20, 24), 5)
        self.assertEqual(sim.lane(10, 0), client.Lane(((0, 10, 4), (2, 0, 0)), (), (), ((20, 24),)))
        self.assertEqual(sim.reopen_lane(10, 0, 20, 24), 0)

    def test_many_at_once(self):
        """Five of six vehicles still wait after a step; a refusal is raised after all lines were answered."""
        sim = self.street()
        for _ in range(6):
            sim.enter([10])
        sim.advance()
        states = [vehicle.state for vehicle in sim.vehicles(range(6))]
        self.assertEqual(states, ["cell", *["waiting"] * 5])
        self.assertEqual([lane.closed for lane in sim.lanes([(10, 0)] * 3)], [()] * 3)
        self.refused(client.NoVehicle, sim.vehicles, [6, 0])
        self.assertEqual(sim.count().clock, 1)

    def test_fields_that_are_no_whole_numbers(self):
        """They reach the program as JSON has them, which refuses them."""
        sim = self.street()
        for car in (True, 0.5, "0", None):
            with self.subTest(car=car):
                self.refused(client.BadCommand, sim.vehicle, car)

    def test_each_refusal(self):
        sim = self.enterContext(Client(PROGRAM))
        self.refused(client.NotLoaded, sim.count)
        with self.assertRaises(client.BadNetwork) as bad:
            sim.load([[1, 1, 2], [1, 1, 2]], [], [])
        self.assertEqual((bad.exception.part, bad.exception.at), ("nodes", 1))
        sim.load(**STREET)
        self.refused(client.AlreadyLoaded, sim.load, **STREET)
        self.refused(client.NoNode, sim.signal, 9, [[5, []]])
        self.refused(client.NoLink, sim.lane, 99, 0)
        self.refused(client.NoLane, sim.enter, [10], 1, 0)
        self.refused(client.BadRange, sim.close_lane, 10, 0, 5, 10)
        with self.assertRaises(client.BadPlan) as plan:
            sim.enter([10, 10])
        self.assertEqual(plan.exception.at, 1)
        with self.assertRaises(client.BadSignal) as signal:
            sim.signal(2, [])
        self.assertEqual(signal.exception.at, 0)
        self.refused(client.NoVehicle, sim.vehicle, 0)
        self.refused(client.NoMeter, sim.read, 0)
        self.refused(client.BadCount, sim.advance, 10_001)
        self.refused(client.Gone, self.take_twice, sim)
        self.assertEqual(
            sim.batch([{"cmd": "meter", "link": 10, "lane": 0, "cell": 0, "period": 1}] * 1025)[-1], client.TooMany()
        )
        self.assertEqual(
            sim.batch([b"x", b"[]", b"x" * 1_048_577]), [client.NotJson(), client.BadCommand(), client.LineTooLong()]
        )

    def refused(self, kind, call, *arguments, **fields):
        with self.assertRaises(kind):
            call(*arguments, **fields)

    def take_twice(self, sim):
        car = sim.enter([10])
        sim.takeout(car)
        sim.takeout(car)

    def test_a_map_is_not_kept_as_a_session(self):
        """The program would empty it; what a crash left of a line goes on."""
        for text, whole in (('{"nodes":[]}', True), ("[1]", True), ('{"cmd":"cou', False), ('{"cmd":"count"}', False)):
            file = Path(self.write("x.json", text))
            if whole:
                with self.assertRaisesRegex(Fault, "x.json: not the file of a session$"):
                    Client(PROGRAM, keep=file)
            else:
                Client(PROGRAM, keep=file).close()
            self.assertEqual(file.read_text(encoding="utf-8"), text if whole else "")

    def test_a_session_that_is_kept(self):
        """A client that is killed loses nothing that was answered: the next one goes on from there."""
        file = self.folder / "day.jsonl"
        first = Client(PROGRAM, keep=file)
        first.load(**STREET)
        self.assertEqual(first.enter([10]), 0)
        self.assertEqual(first.advance(3), 3)
        first.process.kill()
        first.end()
        with Client(PROGRAM, workers=3, keep=file) as second:
            self.assertEqual(second.count().clock, 3)
            self.assertEqual(second.enter([10]), 1)
        self.assertEqual(len(file.read_text().splitlines()), 4)

    def test_calls_without_end(self):
        with Client(PROGRAM, calls=0) as sim:
            replies = sim.batch(['{"cmd":"count"}'] * 70_000)
        self.assertEqual(set(map(type, replies)), {client.NotLoaded})

    def test_full(self):
        sim = self.enterContext(Client(PROGRAM, calls=2))
        sim.load(**STREET)
        self.assertEqual(sim.count().clock, 0)
        self.refused(client.Full, sim.advance, 5)

    def test_clock_end(self):
        self.refused(client.ClockEnd, self.street(start=999_999_999).advance, 2)

    def test_long_batch_does_not_hang(self):
        sim = self.street()
        for _ in range(1000):
            sim.enter([10, 20], 0, 5000)
        replies = sim.batch({"cmd": "lane", "link": 10, "lane": 0} for _ in range(3000))
        self.assertEqual((len(replies), {len(reply.waiting) for reply in replies}), (3000, {1000}))

    def test_killed_program(self):
        sim = Client(PROGRAM)
        sim.process.kill()
        with self.assertRaises(ProgramEnded) as ended:
            sim.batch([{"cmd": "count"}] * 10_000)
        self.assertEqual(ended.exception.status, -9)


if __name__ == "__main__":
    unittest.main()
