"""Signal plans as bars: what the import split is one green, what a hand does with it, and what the engine and SUMO are
told; with node, the page's own scripts."""
import json
import shutil
import subprocess
import unittest
from xml.etree import ElementTree

from pages import CROSSING_PLAN, crossing_links, crossing_turns
from support import TOOLS, Case, needs_package
from streetsim.live.page import TURN_WORDS
from streetsim.observe.junction_layout import turn_name

NODE = shutil.which("node")
SCRIPTS = ("report/drawing.js", "live/movements.js", "live/bars.js")
DRIVE = """
const { links: given, turns, plan, act } = JSON.parse(require("fs").readFileSync(0));
new Scene({ getContext() {} }, given);
const links = new Map(given.map(link => [link.number, link]));
const bars = new Bars(plan, movementsAt(0, turns, links, "L"), [plan]);
const row = (street, kind) => bars.rows.find(one => one.street.name === street && one.kind === kind);
const told = one => one.states.map(state => ".#/"[state]).join("");
const result = eval(act);
const rows = Object.fromEntries(bars.rows.map(one => [`${one.street.name} ${one.kind}`, told(one)]));
const faults = bars.rows.map((_, i) => bars.faults(i));
console.log(JSON.stringify({
  rows, result, faults, stages: bars.stages().map(one => one.length), command: bars.command(), lacking: bars.lacking(),
  additional: bars.additional("L", turns.length),
}));
"""


def crossing():
    """Its links as a page knows them, and its turns."""
    links = [
        {"number": number, "name": name, "street": "", "lanes": 1, "begin": begin, "end": end, "points": points}
        for number, (name, begin, end, points) in enumerate(crossing_links())
    ]
    shapes = [link["points"] for link in links]
    return links, [[*turn, TURN_WORDS[turn_name(shapes[turn[0]], shapes[turn[2]])]] for turn in crossing_turns()]


@needs_package("nodejs", NODE)
class Bars(Case):
    def bars(self, act="null", plan=None):
        """What the bars are once something was done with them."""
        links, turns = crossing()
        script = "\n".join((TOOLS / "streetsim" / name).read_text(encoding="utf-8") for name in SCRIPTS)
        given = json.dumps({"links": links, "turns": turns, "plan": plan or CROSSING_PLAN, "act": act})
        done = subprocess.run([NODE, "-e", script + DRIVE], input=given, capture_output=True, text=True, check=False)
        self.assertEqual((done.returncode, done.stderr), (0, ""))
        return json.loads(done.stdout)

    def test_what_was_split_is_one_green(self):
        made = self.bars()
        self.assertEqual(made["rows"]["W straight"], 25 * "#" + 25 * ".")
        self.assertEqual(made["rows"]["W right"], 12 * "#" + 4 * "/" + 9 * "#" + 25 * ".")
        self.assertEqual(made["rows"]["W left"], 22 * "/" + 3 * "#" + 25 * ".")
        self.assertEqual(made["rows"]["N straight"], 28 * "." + 20 * "#" + 2 * ".")
        self.assertEqual(made["rows"]["N left"], 50 * ".")
        self.assertEqual(made["stages"], [25, 3, 20, 2])
        self.assertEqual(made["faults"], [[]] * 12)

    def test_the_engine_is_told_the_same_plan(self):
        command = self.bars()["command"]
        self.assertEqual(command["offset"], 7)
        self.assertEqual([seconds for seconds, _ in command["phases"]], [12, 4, 6, 3, 3, 20, 2])
        for (_, told), (_, given) in zip(command["phases"], CROSSING_PLAN["phases"], strict=True):
            self.assertEqual(told, sorted(given))

    def test_an_end_is_dragged(self):
        made = self.bars("bars.dragEnd(row('W', 'straight'), { begin: 0, length: 25 }, 2)")
        self.assertEqual(made["rows"]["W straight"], 27 * "#" + 23 * ".")
        self.assertEqual(made["faults"], [[]] * 12)
        # Into the green of those who cross: both are at fault, in the seconds that they share.
        made = self.bars("bars.dragEnd(row('W', 'straight'), { begin: 0, length: 25 }, 9)")
        faults = [fault for one in made["faults"] for fault in one]
        self.assertIn({"begin": 28, "length": 6}, faults)
        self.assertGreater(len(faults), 2)
        # No further than to its own begin, and no green is less than a second.
        made = self.bars("bars.dragEnd(row('W', 'straight'), { begin: 0, length: 25 }, 99)")
        self.assertEqual(made["rows"]["W straight"], 50 * "#")
        made = self.bars("bars.dragEnd(row('W', 'straight'), { begin: 0, length: 25 }, -99)")
        self.assertEqual(made["rows"]["W straight"], "#" + 49 * ".")

    def test_a_begin_goes_round_the_cycle(self):
        made = self.bars("bars.dragBegin(row('W', 'straight'), { begin: 0, length: 25 }, -2)")
        self.assertEqual(made["rows"]["W straight"], 25 * "#" + 23 * "." + "##")
        self.assertEqual(made["result"], {"begin": 48, "length": 27})

    def test_a_green_takes_its_lost_seconds_along(self):
        made = self.bars("bars.move(row('W', 'right'), { begin: 0, length: 25 }, 2)")
        self.assertEqual(made["rows"]["W right"], ".." + 12 * "#" + 4 * "/" + 9 * "#" + 23 * ".")

    def test_phases(self):
        made = self.bars("bars.setSeconds(0, 30)")
        self.assertEqual(made["stages"], [30, 3, 20, 2])
        self.assertEqual(made["rows"]["W right"].count("/"), 4)
        self.assertEqual(sum(seconds for seconds, _ in made["command"]["phases"]), 55)
        made = self.bars("bars.setSeconds(2, 1)")
        self.assertEqual(made["stages"], [25, 3, 1, 2])
        made = self.bars("bars.split(2)")
        self.assertEqual(made["stages"], [25, 3, 10, 10, 2])
        # A split is part of the plan, so that it is there again when the plan is looked at.
        self.assertEqual([seconds for seconds, _ in made["command"]["phases"]], [12, 4, 6, 3, 3, 10, 10, 2])
        self.assertEqual(self.bars(plan=made["command"])["stages"], [25, 3, 10, 10, 2])
        made = self.bars("bars.addStage(2); bars.add(row('N', 'left'), 50)")
        self.assertEqual(made["stages"], [25, 3, 20, 10, 2])
        self.assertEqual(made["rows"]["N left"], 48 * "." + 10 * "#" + 2 * ".")
        made = self.bars("bars.removeStage(2)")
        self.assertEqual(made["stages"], [25, 5])

    def test_more_phases_than_a_plan_has(self):
        made = self.bars("for (let at = 29; at < 48; at += 2) row('N', 'right').states[at] = 0")
        self.assertIn("a plan has 16 phases at most", made["lacking"])

    def test_for_sumo(self):
        """Lost seconds are green there, those who let others go first have a small g, and yellow follows."""
        logic = ElementTree.fromstring(self.bars()["additional"]).find("tlLogic")
        self.assertEqual((logic.get("id"), logic.get("offset")), ("L", "43"))
        phases = [(phase.get("duration"), phase.get("state")) for phase in logic]
        self.assertEqual([duration for duration, _ in phases], ["25", "3", "20", "2"])
        # From west to east, south, north; from east to west, south, north; and so on.
        self.assertEqual(phases[0][1], "GGgGgGrrrrrr")
        self.assertEqual(phases[1][1], "yyyyyyrrrrrr")
        self.assertEqual(phases[3][1], "rrrrrrryyyry")


if __name__ == "__main__":
    unittest.main()
