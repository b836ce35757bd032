"""The loop over the seconds of a run: programs that are none, parts of the record, who is called when."""
import json
import os
import sys
import time
import unittest
from unittest import mock

from seen import blocks_of, kernel_of, show
from support import DATA, MAP, NUMBERED, PROGRAM, RED, TOOLS, Case, needs_simulator
from streetsim.base.files import Fault
from streetsim.control.timed import Timed
from streetsim.kernel import loop
from streetsim.kernel.loop import NEVER, Controller, Kernel, Observer
from streetsim.kernel.seconds import Vehicles, seconds_of
from streetsim.kernel.serving import serving_program
from streetsim.model import rows
from streetsim.model.mapping import map_from
from streetsim.model.record import BadRecord
from streetsim.model.runs import run_of_texts
from streetsim.observe.queues import Queues

LOAD, ENTER = {"cmd": "load", **NUMBERED}, {"cmd": "enter", "plan": [0, 1], "lane": 0, "depart": 0}
REPLIES = """import json, sys
for line in sys.stdin:
    told = json.loads(line)
    print(json.dumps({"clock": 1} if told["cmd"] == "advance" else {"links": 2, "nodes": 3, "turns": 1}), flush=True)
"""


def run_of(*commands):
    return run_of_texts("run.jsonl", map(json.dumps, commands))


class Elsewhere(Case):
    """Programs that are not streetsim, or not on this machine."""

    def said(self, script):
        """What the tool says of a simulator that is a script; it leaves nothing, and says it within 5 s."""
        self.addCleanup(os.chdir, os.getcwd())
        os.chdir(self.folder)
        program = self.write("there", f"#!{sys.executable}\n{script}")
        os.chmod(program, 0o755)
        run = self.write("run.jsonl", json.dumps(LOAD) + "\n")
        words = ["--map", self.write("map.json", json.dumps(MAP)), "--until", 60, "--program", program]
        _, told = self.tool("run", run, *words, "--out", self.folder / "out", status=2)
        begin = time.monotonic()
        with self.assertRaises(Fault), serving_program(str(program), run) as made:
            Kernel(made, run_of(LOAD), map_from("", MAP), [], []).go(60)
        self.assertLess(time.monotonic() - begin, 5)
        self.assertEqual(sorted(path.name for path in self.folder.iterdir()), ["map.json", "run.jsonl", "there"])
        self.assertEqual(told.count("\n"), 1, told)
        return told

    def test_one_that_answers_and_records_nothing(self):
        told = self.said(REPLIES)
        self.assertIn("there writes no record of its run: it takes streetsim itself, on this machine", told)

    def test_one_that_does_not_know_the_word(self):
        told = self.said("import sys\nsys.exit(f'no such word\\n{sys.argv[1]}')\n")
        self.assertIn("the program ended with status 1: no such word: --record", told)

    def test_one_that_ends_within_the_run(self):
        told = self.said("import sys\nsys.stdin.readline()\nprint('{}', flush=True)\nsys.stdin.readline()\n")
        self.assertIn("the program ended with status 0", told)

    @needs_simulator
    def test_one_on_another_machine(self):
        """There the pipe of the record is not to be had, as behind ssh."""
        words = f"import os, sys\nos.close(int(sys.argv[2].rpartition('/')[2]))\nos.execv({PROGRAM!r}, sys.argv)\n"
        self.assertIn("there writes no record of its run: it takes streetsim itself, on this machine", self.said(words))


class Seconds(unittest.TestCase):
    FRAMES = [(1, [[0, 0, [[0, 9, 0]], []]]), (2, [[0, 0, [], [0]]]), (4, [])]

    def seconds(self, frames, vehicles=1):
        known = Vehicles()
        known.add(range(vehicles), [1] * vehicles)
        return seconds_of([blocks_of(frames)], None, 0, known)

    def test_second_0_is_the_last_of_the_part_before(self):
        first = self.seconds(self.FRAMES[:1])
        second = seconds_of([blocks_of(self.FRAMES[1:2])], first, 1, first.vehicles)
        self.assertEqual((second.clocks.tolist(), second.first.tolist()), ([1, 2], [0, 1, 2]))
        self.assertEqual((second.car.tolist(), second.on.tolist()), ([0, 0], [True, False]))

    def test_clocks_that_do_not_follow_one_another(self):
        with self.assertRaisesRegex(BadRecord, "the record behind 0 s has other clocks"):
            self.seconds(self.FRAMES)

    def test_vehicles_that_were_not_entered(self):
        with self.assertRaisesRegex(BadRecord, "a vehicle that was not entered"):
            self.seconds(self.FRAMES[:2], vehicles=0)


class QueuesSeen(unittest.TestCase):
    def queues(self, cells, links=None):
        kernel = kernel_of(map_from("", {**MAP, "links": links or MAP["links"]}), [[0]] * 9)
        queues = Queues(1)
        show(kernel, [(1, [[0, 0, cells, []]])], queues)
        return [row[3:5] for row in queues.rows()]

    def test_who_stands_without_a_gap_from_the_stop_line_on(self):
        """Vehicles, and the metres that they cover, of cells of 7.5 m."""
        self.assertEqual(self.queues([[1, 9, 0], [2, 8, 0], [3, 6, 0]]), [(2, 15.0)])
        self.assertEqual(self.queues([[1, 9, 0], [2, 8, 1]]), [(1, 7.5)])
        self.assertEqual(self.queues([[1, 8, 0]]), [])

    def test_long_vehicles(self):
        self.assertEqual(self.queues([[1, 9, 0, 3], [2, 6, 0], [3, 5, 0, 2], [4, 2, 0]]), [(3, 45.0)])
        short = ["a", [0], 0, 1, 2, 5, 15.0, [[0, 0], [15, 0]]]
        self.assertEqual(self.queues([[1, 1, 0, 4]], [short, MAP["links"][1]]), [(1, 15.0)])  # longer than the lane


class Noting(Controller):
    """Notes when it is called, and that of a time of its own."""

    def __init__(self, name, due, calls):
        self.name, self.due, self.calls = name, due, calls

    def next_clock(self):
        return self.due[0] if self.due else NEVER

    def act(self, clock, now):
        self.due = self.due[1:]
        self.calls.append((clock, self.name, len(now.car)))

    def commands_before_line(self, clock, command):
        self.calls.append((clock, self.name, command["cmd"]))
        return []


class Looking(Observer):
    """Keeps the clocks that it gets."""

    def __init__(self):
        self.clocks, self.ended = [], None

    def see(self, seconds):
        self.clocks += seconds.clocks[1:].tolist()

    def end(self, clock):
        self.ended = clock


@needs_simulator
class Loop(Case):
    def made(self, run, until, controllers, observers=()):
        with serving_program(PROGRAM, run.path) as program:
            kernel = Kernel(program, run, map_from("", MAP), controllers, observers)
            kernel.go(until)
        return kernel

    def test_who_is_due_is_called_in_order(self):
        """The vehicle is in cells 0, 1, 3, 6 at clocks 1 to 4, and has arrived at 9."""
        calls, green = [], {**RED, "phases": [[600, [[0, 0, 1]]]], "at": 4}
        controllers = [Noting("one", [2, 4, 9], calls), Noting("two", [4], calls), Timed()]
        looking = Looking()
        self.made(run_of(LOAD, ENTER, green), 9, controllers, [looking])
        heard = (4, "one", "signal"), (4, "two", "signal")
        self.assertEqual(calls, [(2, "one", 1), (4, "one", 1), (4, "two", 1), *heard, (9, "one", 0)])
        self.assertEqual((looking.clocks, looking.ended), ([*range(1, 10)], 9))

    def test_a_controller_moves_the_end(self):
        class Longer(Controller):
            def begin(self, kernel):
                self.kernel = kernel

            def next_clock(self):
                return 5

            def act(self, clock, _):
                self.kernel.until = 8 if clock < 8 else self.kernel.until

        kernel = self.made(run_of(LOAD), 5, [Longer()])
        self.assertEqual(kernel.clock, 8)

    def test_a_refused_line_of_the_file(self):
        late = {"cmd": "close", "link": 0, "lane": 0, "first": 5, "last": 99, "at": 3}
        with self.assertRaisesRegex(Fault, r"run.jsonl: line 2 \(close\) was refused: 7 BadRange"):
            self.made(run_of(LOAD, late), 9, [Timed()])

    def test_tables_are_the_same_however_the_seconds_are_handed_over(self):
        """With rescues, works, detectors, junctions and SUMO's outputs: in one part, and in hundreds."""
        run, mapped = self.folder / "run.jsonl", self.folder / "map.json"
        self.tool("import", DATA / "grid.net.xml.gz", "--routes", DATA / "grid.rou.xml.gz", "-o", run, "--map", mapped)
        place = map_from("", json.loads(mapped.read_text())).lane_name(40, 0)
        words = ["--map", mapped, "--program", PROGRAM, "--until", 600, "--period", 200, "--rescue", 60, "--junctions"]
        words += ["--sumo-output", "summary,edgedata,tripinfo", "--close", f"{place}:50-90:100-500"]
        from streetsim.cli.run import main

        for out, size, lines in (("one", 10**9, 1000), ("many", 1, 7)):
            with mock.patch.object(loop, "ROWS", size), mock.patch.object(loop, "LINES", lines):
                with open(os.devnull, "w") as null, mock.patch("sys.stdout", null), mock.patch("sys.stderr", null):
                    main([str(word) for word in (run, *words, "--out", self.folder / out)])
        names = {path.relative_to(self.folder / "one") for path in (self.folder / "one").rglob("*.*")}
        self.assertGreater(len(names), 15)
        for name in names:
            if name.name != rows.NAME:
                one, many = ((self.folder / out / name).read_bytes() for out in ("one", "many"))
                self.assertEqual(one, many, name)
        one, many = ([*rows.frames_in(self.folder / out / rows.NAME, 1)] for out in ("one", "many"))
        self.assertEqual(one, many)


@needs_simulator
class Examples(Case):
    """The pieces of PYTHON.md, with the corridor's first half hour."""

    def piece(self, having):
        text = (TOOLS / "PYTHON.md").read_text(encoding="utf-8")
        [found] = [part.split("```")[0] for part in text.split("```python\n")[1:] if having in part.split("```")[0]]
        return found

    def test_pieces(self):
        self.addCleanup(os.chdir, os.getcwd())
        os.chdir(self.folder)
        corridor = TOOLS / "examples/corridor"
        words = [corridor / "corridor.net.xml.gz", "--routes", corridor / "corridor.rou.xml", "-o", "zero.jsonl"]
        self.tool("import", *words, "--map", "zero.map.json")
        files = ["zero.jsonl", "--map", "zero.map.json", "--until", 1800, "--out", "zero", "--program", PROGRAM]
        self.tool("run", *files)
        told, found, without, in_scenario = [], {}, {}, {}
        exec(self.piece("rows.bin"), {"print": lambda *words: told.append(words)})
        self.assertTrue(0 < told[-1][3] < 3, told)
        piece = self.piece("class Standing")
        with mock.patch.dict("os.environ", STREETSIM_PROGRAM=PROGRAM):
            exec(piece, names := {"print": found.update})
            exec(self.piece("observers=[standing]"), names | {"print": in_scenario.update})
            exec(piece.replace("[*controllers, gate]", "controllers"), {"print": without.update})
        self.assertEqual((sorted(found), in_scenario), ([*range(60, 1801, 60)], found))
        self.assertGreater(sum(found.values()), sum(without.values()))
        with open("zero/rows.bin", "rb") as file:
            part = next(rows.parts_of(file, "rows.bin"))
        stands = (part.cell >= 0) & (part.speed == 0)
        self.assertEqual(without[60], int(stands[part.first_rows[59] : part.first_rows[60]].sum()))


if __name__ == "__main__":
    unittest.main()
