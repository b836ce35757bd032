"""Runs that are given no last second: which of three ends they come to."""
import csv
import json
import unittest
from types import SimpleNamespace

from seen import blocks_of, kernel_of
from support import MAP, NUMBERED, PROGRAM, RED, Case, lane, needs_simulator, net
from streetsim.control.ending import Ending
from streetsim.kernel.loop import NEVER
from streetsim.kernel.seconds import Block
from streetsim.model.mapping import map_from


class Still(unittest.TestCase):
    def test_a_standstill_lasts_longer_than_all_phases_of_a_light_that_detectors_drive(self):
        """The run has no signal lines; all phases of its light, at their greatest length, last 700 s."""
        kernel = kernel_of(map_from("", MAP), [[0]])
        kernel.is_to_come, kernel.until = lambda clock: False, 10_000
        buses = SimpleNamespace(fleet=SimpleNamespace(is_holding=False))
        ending = Ending(buses, SimpleNamespace(next_clock=lambda: NEVER), 700)
        ending.begin(kernel)
        now = Block(blocks_of([(1, [[0, 0, [[0, 5, 0]], []]])]))
        for clock in range(60, 1_561, 60):
            kernel.clock = clock
            self.assertEqual(ending.next_clock(), clock)
            ending.act(clock, now)
            self.assertEqual(bool(ending.end_reason), clock >= 1_500, clock)
            if ending.end_reason:
                break
        still = "no vehicle has changed its cell for 720 s, longer than the longest cycle, 700 s"
        self.assertEqual((ending.end_reason, kernel.until), (f"ended at 1,500 s: {still}", 1_500))


@needs_simulator
class Endings(Case):
    def run_lines(self, departs, *words, more=()):
        enters = [{"cmd": "enter", "plan": [0, 1], "lane": 0, "depart": depart} for depart in departs]
        lines = [{"cmd": "load", **NUMBERED}, *more, *enters]
        run = self.write("run.jsonl", "".join(f"{json.dumps(line)}\n" for line in lines))
        mapping = self.write("map.json", json.dumps({**MAP, "cars": [f"v{at}" for at in range(len(departs))]}))
        out = self.folder / "out"
        return self.tool("run", run, "--map", mapping, "--program", PROGRAM, "--out", out, *words)[0].splitlines()[0]

    def last_clock(self):
        with open(self.folder / "out/summary.csv", encoding="utf-8") as file:
            return int(list(csv.reader(file))[-1][0])

    def test_all_have_arrived(self):
        # Free, 20 cells take 4 to 5 s and the node one: both have arrived before the minute that follows.
        self.assertIn("ended at 180 s: all have arrived", self.run_lines([0, 130]))
        self.assertEqual(self.last_clock(), 180)
        # Beyond the first guess of the end, two hours after the last departure: a light is red until 9,000 s.
        green = {"cmd": "signal", "node": 1, "offset": 0, "phases": [[600, [[0, 0, 1]]]], "at": 9000}
        self.assertIn("1 arrived", told := self.run_lines([0], "--rescue", "0", more=[RED, green]))
        self.assertIn("ended at 9,060 s: all have arrived", told)

    def test_nobody_moves(self):
        # Red for ever, whose cycle is 600 s: the census stays from 60 s on, and the cells for 601 s and more.
        told = self.run_lines([0, 1], "--rescue", "0", more=[RED])
        self.assertIn("0 arrived", told)
        self.assertRegex(
            told,
            "ended at 1,[0-9]{3} s: no vehicle has changed its cell for 660 s, longer than the longest cycle, 600 s",
        )

    def test_vehicles_that_stand_before_others_that_depart_earlier(self):
        """The run waits for the departure at 2,000 s, and nobody waits to enter before."""
        told = self.run_lines([2000, 10])
        self.assertIn("2 vehicles, 2 arrived", told)
        self.assertIn("ended at 2,040 s: all have arrived", told)
        with open(self.folder / "out/summary.csv", encoding="utf-8") as file:
            rows = [(row["time"], row["entered"], row["waiting"]) for row in csv.DictReader(file)]
        self.assertEqual((rows[0], rows[-1]), (("60", "1", "0"), ("2040", "2", "0")))
        self.assertEqual(json.loads((self.folder / "out/setting.json").read_text())["not_trusted"], [])

    def test_each_seed_has_its_end(self):
        told = self.run_lines([0], "--seeds", "1-2", "--departures", "listed")
        self.assertIn("seed 1: 1 vehicles, 1 arrived", told)
        self.assertIn("ended at 60 s: all have arrived", told)

    def test_roads_that_give_way(self):
        # Two streets become one without a light; that from b gives way, for which the run sends signal lines.
        edges = [("a", "A", "C", [lane("a", 0)]), ("b", "B", "C", [lane("b", 0)]), ("c", "C", "D", [lane("c", 0)])]
        text = net(edges, [("a", 0, "c", 0, 'via=":C_0_0"'), ("b", 0, "c", 0, 'via=":C_1_0"')]).replace(
            '<junction id="C" type="priority" x="0" y="0"/>',
            '<junction id="C" type="priority" x="0" y="0"><request index="0" response="00"/><request index="1" '
            'response="01"/></junction>',
        )
        flows = "".join(
            f'<flow id="{name}" begin="0" end="540" period="{seconds}"><route edges="{name} c"/></flow>'
            for name, seconds in (("a", 4), ("b", 15))
        )
        outputs = (run := self.folder / "r.jsonl", "--map", self.folder / "m.json")
        self.tool(
            "import", self.write("x.net.xml", text), "--routes", self.write("x.rou.xml", f"<routes>{flows}</routes>"),
            "-o", *outputs,
        )
        words = (run, *outputs[1:], "--program", PROGRAM, "--out", self.folder / "out")
        for more in ((), ("--until", 700)):
            told = self.tool("run", *words, *more)[0]
            self.assertIn("171 vehicles, 171 arrived", told)
            self.assertIn("1 street that gives way without a light is nearly full", told)
            self.assertEqual("all have arrived" in told, not more)


if __name__ == "__main__":
    unittest.main()
