"""Signal timing sheets: programs over the cycle, times between greens, and main greens of movements that conflict."""
import json
import re
import unittest
from pathlib import Path

from support import PROGRAM, TOOLS, Case, needs_simulator
from streetsim.base.files import Fault
from streetsim.base.report import Report
from streetsim.model.mapping import Map
from streetsim.model.names import Names
from streetsim.model.timing import SignalMovement, Timing, intergreen, spans_of, timing_of
from streetsim.report.light_timings import timings_of
from streetsim.report.run_tables import read_folders
from streetsim.report.timing_sheets import clashes, greens_table, phases_table, sheets
from streetsim.sumo.additional import read_additional
from streetsim.sumo.bundles import next_edges
from streetsim.sumo.net import read_net
from streetsim.sumo.timings import timings_of as timings_of_net, warn_of_clashes
from streetsim.sumo.types import Types
from streetsim.sumo.wauts import days_of

CORRIDOR = TOOLS / "examples/corridor"
# Two streets that cross: request 0 from the west straight on, 1 from the south straight on.
CROSS = """<net version="1.9">
<edge id="w" from="W" to="M" priority="1" name="High Street">{lane}</edge>
<edge id="s" from="S" to="M" priority="1" name="Low Street">{lane}</edge>
<edge id="e" from="M" to="E" priority="1" name="High Street">{lane}</edge>
<edge id="n" from="M" to="N" priority="1">{lane}</edge>
<tlLogic id="L" type="static" programID="0" offset="7">{phases}</tlLogic>
<junction id="M" type="traffic_light" x="0" y="0" incLanes="" intLanes="">
<request index="0" response="00" foes="10"/><request index="1" response="00" foes="01"/></junction>
<junction id="W" type="dead_end" x="-9" y="0"/><junction id="S" type="dead_end" x="0" y="-9"/>
<junction id="E" type="dead_end" x="9" y="0"/><junction id="N" type="dead_end" x="0" y="9"/>
<connection from="w" to="e" fromLane="0" toLane="0" via=":M_0_0" tl="L" linkIndex="0" state="o"/>
<connection from="s" to="n" fromLane="0" toLane="0" via=":M_1_0" tl="L" linkIndex="1" state="o"/>
</net>"""
LANE = '<lane id="{0}_0" index="0" speed="13.9" length="90" shape="{1}"/>'
SHAPES = {"w": "-90,0 -5,0", "s": "0,-90 0,-5", "e": "5,0 90,0", "n": "0,5 0,90"}
GOOD = ((30, "Gr"), (3, "yr"), (2, "rr"), (20, "rG"), (3, "ry"), (2, "rr"))
BAD = ((30, "GG"), (30, "rG"))


def network(phases):
    text = CROSS.replace("{phases}", "".join(f'<phase duration="{time}" state="{state}"/>' for time, state in phases))
    for name, shape in SHAPES.items():
        text = text.replace("{lane}", LANE.format(name, shape), 1)
    return text


class Programs(Case):
    def timing(self, phases):
        net = read_net(self.write("x.net.xml", network(phases)), ["passenger"], Report())
        return next(timings_of_net(net)), net

    def test_runs(self):
        """Over the end of the cycle, too."""
        self.assertEqual(spans_of("rGGrr", "G"), [(1, 2)])
        self.assertEqual(spans_of("GrrGG", "G"), [(3, 3)])
        self.assertEqual((spans_of("GG", "G"), spans_of("rr", "G")), ([(0, 2)], []))

    def test_times_between_greens(self):
        """By hand: 3 s yellow and 2 s red each way; a green that goes on with the other one has none."""
        timing, _ = self.timing(GOOD)
        west, south = (timing.signs(one) for one in sorted(timing.movements, key=lambda one: one.indexes))
        self.assertEqual((intergreen(west, south), intergreen(south, west)), (5, 5))
        self.assertIsNone(intergreen("GGr", "rGG"))
        self.assertEqual(intergreen("Grrrr", "rrGrr"), 1)
        self.assertEqual(list(timing.clashes()), [])

    def test_several_lanes_of_a_movement(self):
        """It goes while one of its lanes does."""
        movements = [SignalMovement("a", "b", (0, 1))]
        timing = Timing("L", "M", 0, [(1, "rg"), (1, "Gy"), (1, "yr")], "static", movements, set())
        self.assertEqual(timing.signs(timing.movements[0]), "gGy")
        self.assertEqual(timing_of(json.loads(json.dumps(timing.written()))).written(), timing.written())

    def test_off_is_not_red(self):
        """20 s off of a cycle of 30 s, and 10 s red."""
        timing = Timing("L", "M", 0, [(20, "O"), (10, "r")], "static", [SignalMovement("a", "b", (0,))], set())
        self.assertEqual(re.findall(r">(off|red|green|yellow)<", phases_table(timing)), ["off", "red"])
        row = re.findall(r"<td[^>]*>([^<]*)<", greens_table(timing, Names(Map([], [], [], [], [], {}, [])), None))
        self.assertEqual(row[-5:], ["off", "0", "0", "0", "10"])

    def test_conflicting_main_greens(self):
        """A warning of the import, with names; not where one of them gives way."""
        timing, net = self.timing(BAD)
        self.assertEqual([seconds for *_, seconds in timing.clashes()], [30])
        report = Report()
        warn_of_clashes(net, report)
        told = "light 'L': movements that conflict have main green together: "
        told += "Low Street into n (s to n) and High Street into High Street (w to e)"
        self.assertEqual(report.warnings, [told])
        for phases in (GOOD, ((30, "Gg"), (30, "rG"))):
            report = Report()
            warn_of_clashes(self.timing(phases)[1], report)
            self.assertEqual(report.warnings, [])

    def test_the_import_warns(self):
        given = self.write("x.net.xml", network(BAD))
        said = self.tool("import", given, "-o", self.folder / "x.jsonl", "--map", self.folder / "x.json")[1]
        self.assertIn("warning: light 'L': movements that conflict have main green together", said)

    def test_programs_to_which_a_light_changes_count_too(self):
        """For warnings, and for which lanes wait at a light: nobody at first, and those from the south later."""
        changes = '<WAUT id="w" startProg="0"><wautSwitch time="100" to="1"/></WAUT>'
        changes += '<wautJunction wautID="w" junctionID="L"/>'
        for states, clashes, waiting in (("GG", True, set()), ("Gg", False, {"n"}), ("Gr", False, set())):
            text = network(GOOD).replace('<request index="1" response="00"', '<request index="1" response="01"')
            net, report = read_net(self.write("x.net.xml", text), ["passenger"], Report()), Report()
            phase = f'<phase duration="30" state="{states}"/><phase duration="30" state="rG"/>'
            light = f'<tlLogic id="L" type="static" programID="1" offset="0">{phase}</tlLogic>'
            added = self.write("w.add.xml", f"<additional>{light}{changes}</additional>")
            read_additional(added, net, Types(1, Report()), report)
            for last, later in ((50, False), (100, True)):
                report = Report()
                days_of(net, 0, last, report)
                warn_of_clashes(net, report)
                self.assertEqual(len(report.warnings), clashes and later, (states, last))
                self.assertEqual(next_edges(net, {})[1]["s", 0], waiting if later else set(), (states, last))


@needs_simulator
class Sheets(Case):
    def run_of(self, net, *more):
        run, mapped, out = self.folder / "x.jsonl", self.folder / "x.json", self.folder / "out"
        self.tool("import", net, *more, "-o", run, "--map", mapped)
        self.tool("run", run, "--map", mapped, "--until", 120, "--junctions", "--program", PROGRAM, "--out", out)
        return out

    def test_a_sheet(self):
        flow = '<flow id="f" begin="0" end="60" number="9"><route edges="w e"/></flow>'
        routes = self.write("x.rou.xml", f"<routes>{flow}</routes>")
        out = self.run_of(self.write("x.net.xml", network(BAD)), "--routes", routes)
        page = self.folder / "page.html"
        self.tool("report", out, "--sheets", "-o", page)
        text = re.sub(r"<[^>]*>", " ", page.read_text().partition("<header")[2])
        text = re.sub(r"\s+", " ", text)
        for told in (
            "High Street / Low Street (light L)",
            "out: cycle 60 s, offset 7 s, 2 phases",
            "along High Street, from the west to the east w to e 0 to 30 30 0 0 30",
            "Low Street to the north, from the south s to n 0 to 60 60 0 0 0",
            "conflict and have main green together for 30 s",
            "Fault of light L: ",
        ):
            self.assertIn(told, text)

    def test_a_program_that_is_not_the_runs(self):
        """One whose cycle, offset or greens are not those that the run showed is left out."""
        out = self.run_of(CORRIDOR / "corridor.net.xml.gz", "--routes", CORRIDOR / "corridor.rou.xml")
        self.assertEqual(sorted(timings_of(read_folders(str(out)))), ["J1", "J2", "J3", "J4", "J5"])
        kept = json.loads((out / "lights.json").read_text())
        kept[0]["offset"] = 5
        kept[1]["phases"][0][0] += 1
        kept[2]["phases"] = [[time, state.replace("G", "r")] for time, state in kept[2]["phases"]]
        (out / "lights.json").write_text(json.dumps(kept))
        self.assertEqual(sorted(timings_of(read_folders(str(out)))), ["J4", "J5"])
        (out / "lights.json").write_text('[{"light": "J1"}]')
        with self.assertRaisesRegex(Fault, "lights.json: cannot be read: 'junction'"):
            timings_of(read_folders(str(out)))

    def test_the_map_has_the_programs(self):
        """The network may be gone; a map that does not have them, as those of earlier imports, needs it."""
        net, away = Path(self.write("x.net.xml", network(BAD))), self.folder / "y.net.xml"
        kept = self.run_of(net) / "lights.json"
        [known], mapped = json.loads(kept.read_text()), self.folder / "x.json"
        self.assertEqual((known["light"], known["phases"]), ("L", [[30.0, "GG"], [30.0, "rG"]]))
        words = "run", self.folder / "x.jsonl", "--map", mapped, "--until", 60, "--junctions", "--out", kept.parent
        net.rename(away)
        self.tool(*words, "--program", PROGRAM)
        self.assertEqual(json.loads(kept.read_text()), [known])
        mapped.write_text(json.dumps({**json.loads(mapped.read_text()), "timings": []}))
        self.tool(*words, "--program", PROGRAM)
        self.assertFalse(kept.exists())
        away.rename(net)
        self.tool(*words, "--program", PROGRAM)
        self.assertEqual(json.loads(kept.read_text()), [known])

    def test_before_and_after(self):
        out = self.run_of(CORRIDOR / "corridor.net.xml.gz", "--routes", CORRIDOR / "corridor.rou.xml")
        runs = read_folders(str(out))
        before = timings_of(runs)
        after = {light: timing_of(timing.written()) for light, timing in before.items()}
        after["J2"].offset = 24
        text = sheets([("a", before), ("b", after)], ["J2"], runs.names)
        self.assertIn("the offset is 0 s before and 24 s after", text)
        self.assertEqual((text.count("<svg"), clashes(after, runs)), (1, []))
        after["J2"].phases = [[phase[0] + 1, phase[1]] for phase in after["J2"].phases]
        text = sheets([("a", before), ("b", after)], ["J2"], runs.names)
        self.assertEqual(text.count("<svg"), 2)
        # By hand: phases of 37, 3, 37, 3 s, each a second longer after.
        self.assertIn("<td>0 to 37</td><td>0 to 38</td><td>38</td>", text)


if __name__ == "__main__":
    unittest.main()
