"""Lights that change their programs by the time of day (SUMO's WAUT), between seconds and detectors."""
import csv
import json
import os
import unittest
from xml.etree import ElementTree

from support import PROGRAM, Case, lane, needs_simulator, net
from test_actuated import PHASES, street
from test_driven import FIXED, NOBODY
from streetsim import traci
from streetsim.base.files import Fault
from streetsim.base.report import Report
from streetsim.sumo.converting import run_and_map
from streetsim.sumo.import_files import convert
from streetsim.sumo.net import SumoNet, Waut
from streetsim.sumo.network import Options
from streetsim.sumo.wauts import day_of, read_waut

ENDED = "</additional>"
ODD = f'<tlLogic id="L" type="actuated" programID="odd" offset="0">{PHASES.replace("y", "x")}</tlLogic>'


def changing(*switches, more="", junction="", start="fixed"):
    """An additional file with a program of seconds for light L, whose own one is actuated, and a WAUT for it."""
    changes = "".join(f'<wautSwitch time="{clock}" to="{program}"/>' for clock, program in switches)
    waut = f'<WAUT id="w" startProg="{start}" {more}>{changes}</WAUT>'
    waut += f'<wautJunction wautID="w" junctionID="L" {junction}/>'
    return FIXED.replace(ENDED, waut + ENDED)


class Days(unittest.TestCase):
    def test_the_clocks_of_a_period(self):
        waut = Waut("a", [(100, "b"), (200, "a")], 300)
        expected = [(0, "a"), (100, "b"), (200, "a"), (400, "b"), (500, "a"), (700, "b")]
        self.assertEqual(day_of("w", waut, 0, 700), expected)
        self.assertEqual(day_of("w", waut, 150, 300), [(150, "b"), (200, "a")])
        self.assertEqual(day_of("w", waut, 100, 150), [(100, "b")])
        self.assertEqual(day_of("w", waut, 950, 1050), [(950, "a"), (1000, "b")])

    def test_once_without_a_period_and_no_change_to_the_same(self):
        waut = Waut("a", [(100, "a"), (200, "b"), (300, "b")], 0)
        self.assertEqual(day_of("w", waut, 0, 9000), [(0, "a"), (200, "b")])
        self.assertEqual(day_of("w", Waut("a", [], 600), 5, 9000), [(5, "a")])

    def test_a_period_that_is_shorter_than_the_switches(self):
        """SUMO takes clocks within the period: 100 s are 40 s in one of 60 s, and 200 s are 20 s."""
        switches = '<wautSwitch time="100" to="b"/><wautSwitch time="200.5" to="c"/><wautSwitch time="160" to="d"/>'
        for begin, more, expected in (
            (0, 'period="60"', [(0, "a"), (20, "c"), (40, "b"), (80, "c"), (100, "b")]),
            (0, 'period="60" refTime="25"', [(0, "a"), (5, "b"), (45, "c"), (65, "b")]),
            (130, 'period="200"', [(130, "b"), (160, "d")]),
            (0, "", [(0, "a"), (100, "b")]),
        ):
            made, text = SumoNet(), f'<WAUT id="w" startProg="a" {more}>{switches}</WAUT>'
            read_waut("w.add.xml", ElementTree.fromstring(text), made)
            self.assertEqual(day_of("w", made.wauts["w"], begin, 100 if begin == 0 else 160), expected)


class Files(Case):
    def made(self, additional, begin=0, network=street(PHASES), routes=NOBODY):
        files = self.write("x.net.xml", network), [self.write("w.add.xml", additional)]
        report = Report()
        made = convert(*files, [self.write("x.rou.xml", routes)], Options(begin=begin), report)
        lines, mapping = run_and_map(made, report)
        return [json.loads(line) for line in lines], mapping, report

    def test_lines_and_map(self):
        lines, mapping, _ = self.made(changing((100, "0"), (200, "fixed"), more='refTime="50"'))
        told = [one for one in lines if one["cmd"] == "signal"]
        # Of 40 and of 53 s, as listed: what the simulator shows where detectors do not drive the light.
        cycles = [(one.get("at"), sum(seconds for seconds, _ in one["phases"])) for one in told]
        self.assertEqual(cycles, [(None, 40), (150, 53), (250, 40)])
        self.assertEqual(mapping.switches, [(0, "L", "fixed"), (150, "L", "0"), (250, "L", "fixed")])
        self.assertEqual(mapping.actuated, ["L"])
        self.assertEqual([(one["program"], one.get("idle")) for one in mapping.programs], [("0", True)])

    def test_beside_a_light_without_a_program(self):
        """Lights K and L are at one junction; K has no program, so L counts, at its changes too."""
        edges = [(one, one.upper(), "B", [lane(one, 0)]) for one in "ac"] + [("b", "B", "C", [lane("b", 0)])]
        turns = [("a", 0, "b", 0, 'tl="K" linkIndex="0"'), ("c", 0, "b", 0, 'tl="L" linkIndex="0"')]
        light = f'<tlLogic id="L" type="static" programID="0" offset="0">{PHASES}</tlLogic>'
        lines, _, _ = self.made(changing((100, "0")), network=net(edges, turns, light))
        self.assertEqual([one.get("at") for one in lines if one["cmd"] == "signal"], [None, 100])

    def test_a_departure_so_late_that_the_lines_would_have_no_end(self):
        """A vehicle that departs after the simulator's last clock is left out, and does not say how long a run is."""
        waut = changing((100, "0"), (200, "fixed"), more='period="300"')
        with self.assertRaises(Fault) as fault:
            self.made(waut, routes=NOBODY.replace("900", "1000000000"))
        why = "WAUT 'w': more than 10,000 switches until 1,000,086,400 s, a day after the last departure"
        self.assertEqual(str(fault.exception), why)
        _, mapping, _ = self.made(waut, routes=NOBODY.replace("900", "1000000001"))
        self.assertEqual((mapping.switches[2], mapping.switches[-1]), ((200, "L", "fixed"), (86_300, "L", "fixed")))

    def test_a_run_that_begins_later(self):
        lines, mapping, _ = self.made(changing((100, "0"), (200, "fixed")), begin=120)
        told = [one for one in lines if one["cmd"] == "signal"]
        self.assertEqual([one.get("at") for one in told], [None, 200])
        self.assertEqual(mapping.switches, [(120, "L", "0"), (200, "L", "fixed")])

    def test_what_sumo_refuses(self):
        for additional, why in (
            (changing((100, "night")), "WAUT 'w': light 'L' has no program 'night'"),
            (changing(start="night"), "WAUT 'w': light 'L' has no program 'night'"),
            (changing().replace('junctionID="L"', 'junctionID="M"'), "the network has no light 'M'"),
            (changing().replace('wautID="w"', 'wautID="x"'), "there is no WAUT 'x' before it"),
            (changing(more='/><WAUT id="w" startProg="0"'), "<WAUT 'w'>: a second WAUT of this name"),
        ):
            with self.subTest(why), self.assertRaises(Fault) as fault:
                self.made(additional)
            self.assertIn(why, str(fault.exception))

    def test_what_is_other_than_in_sumo_is_told(self):
        _, mapping, report = self.made(changing((100, "off")))
        self.assertEqual(mapping.switches, [])
        self.assertIn("WAUT 'w' does nothing here, as it switches lights off: L", report.warnings)
        # The program to which it changes is shown by its listed seconds, and its letter x as red.
        _, _, report = self.made(changing((100, "odd")).replace('<tlLogic id="L"', ODD + '<tlLogic id="L"', 1))
        self.assertIn(
            "light 'L' is actuated: its listed durations are used, but where streetsim-run drives it by detectors",
            report.warnings,
        )
        self.assertIn("light 'L': states x are shown red", report.warnings)
        _, _, report = self.made(changing((100, "0"), junction='procedure="GSP"'))
        self.assertIn("lights of WAUT 'w' change at once, not by procedure GSP", report.warnings)


@needs_simulator
class Runs(Case):
    DAY = changing((100, "0"), (200, "fixed"), (300, "0"))

    def run_with(self, *words):
        """The phases.csv of a run of 400 s; empty where there is none."""
        paths = self.write("x.net.xml", street(PHASES)), self.write("w.add.xml", self.DAY)
        routes, run, mapping = self.write("x.rou.xml", NOBODY), self.folder / "run.jsonl", self.folder / "map.json"
        self.tool("import", *paths, "--routes", routes, "-o", run, "--map", mapping)
        _, self.told = self.tool("run", run, "--map", mapping, "--until", 400, "--out", self.folder / "out", *words)
        path = self.folder / "out/phases.csv"
        if not path.exists():
            return []
        with open(path, encoding="utf-8") as file:
            return [(int(row["begin"]), int(row["phase"]), int(row["seconds"]), row["ended"])
                    for row in csv.DictReader(file)]

    def test_detectors_drive_a_light_while_its_program_is_in_force(self):
        # Unseen it has 5, 3 and 20 s, as nobody comes: greens begin at 0, 28, 56, .. s. From 100 s it shows what that
        # has come to, and at 200 s its phase is cut.
        rows = self.run_with("--until", 290)
        self.assertNotIn("were not sent", self.told)  # a change that is still to come is no line that was left out
        rows = self.run_with()
        self.assertEqual(rows[:4], [(100, 2, 12, "listed"), (112, 0, 5, "gap"), (117, 1, 3, "listed"),
                                    (120, 2, 20, "listed")])
        self.assertEqual([row for row in rows if row[0] + row[2] >= 190 and row[0] < 305], [
            (176, 2, 20, "listed"), (196, 0, 4, ""), (300, 2, 8, "listed"),
        ])

    def test_listed_seconds_where_they_are_asked_for(self):
        self.assertEqual(self.run_with("--lights", "listed"), [])

    def test_scripts(self):
        os.environ["STREETSIM_PROGRAM"] = PROGRAM
        self.addCleanup(lambda: traci.isLoaded() and traci.close())
        files = self.write("x.net.xml", street(PHASES)), self.write("x.rou.xml", NOBODY)
        traci.start(["sumo", "-n", files[0], "-r", files[1], "-a", self.write("w.add.xml", self.DAY)])
        light, found = traci.trafficlight, []
        for clock in (0, 100, 101, 113, 118, 200, 201, 301):
            traci.simulationStep(clock)
            found.append((light.getProgram("L"), light.getRedYellowGreenState("L")))
        self.assertEqual(found[:3], [("fixed", "G"), ("fixed", "G"), ("0", "r")])
        self.assertEqual(found[3:], [("0", "G"), ("0", "y"), ("0", "G"), ("fixed", "G"), ("0", "r")])
        # What a script has set stays.
        light.setProgram("L", "fixed")
        traci.simulationStep(350)
        self.assertEqual(light.getProgram("L"), "fixed")


if __name__ == "__main__":
    unittest.main()
