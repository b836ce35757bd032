"""What phases must keep: it bounds a search, goes into the plan found, and bounds each search after it."""
import unittest
from xml.etree import ElementTree

from support import Case, lane, needs_simulator, net
from streetsim.base.files import Fault
from streetsim.base.report import Report
from streetsim.report.timing_sheets import phases_table
from streetsim.search.signal_plans import PlannedTiming, light_and_timing, plan_text
from streetsim.sumo.constraints import (
    Constraint, constraints_of, read_crossings, warn_of_broken, with_given, with_walks,
)
from streetsim.sumo.net import LightProgram, SumoNet, read_program
from streetsim.sumo.timings import timings_of_files
from test_signal_plans import Searching

PHASES = ((30, "Gr"), (3, "yr"), (20, "rG"), (3, "ry"))
KEPT = 'minDur="{}" maxDur="{}"'


def program(*bounds, phases=PHASES, **parameters):
    return LightProgram(0.0, list(phases), "static", list(bounds), [], parameters)


def street(first="", second="", feet="", greens=(30, 20)):
    """A cross with a light; attributes of its two greens, a parameter of its program."""
    shown = (
        f'<tlLogic id="L" type="static" programID="0" offset="0">{feet}'
        f'<phase duration="{greens[0]}" state="Gr" {first}/>'
        f'<phase duration="3" state="yr"/><phase duration="{greens[1]}" state="rG" {second}/>'
        '<phase duration="3" state="ry"/></tlLogic>'
    )
    edges = [(name, *ends, [lane(name, 0, 150)]) for name, *ends in (("a", "A", "L"), ("b", "L", "B"), ("c", "C", "L"))]
    edges.append(("d", "L", "D", [lane("d", 0, 150)]))
    lit = [("a", 0, "b", 0, 'tl="L" linkIndex="0"'), ("c", 0, "d", 0, 'tl="L" linkIndex="1"')]
    return net(edges, lit, shown)


class Constraints(Case):
    def test_what_contradicts_is_refused_with_the_name_of_the_light(self):
        for made, told in (
            (program((20, 15)), "light 'L': phase 0: its least of 20 s is above its most of 15 s"),
            (program((None, 12), **{"pedestrians.0": "14"}), "least of 14 s for pedestrians is above its most of 12 s"),
            (program((700, None)), "its least of 700 s is above the 600 s that a phase may last"),
            (program(**{"pedestrians.7": "9"}), "light 'L': no phase 7: it has 4, from 0"),
            (program(**{"pedestrians.1": "9"}), "light 'L': phase 1: pedestrians have no green in it (yr)"),
            (program(**{"pedestrians.0": "soon"}), "parameter pedestrians.0='soon' is no whole seconds"),
        ):
            made.bounds += [(None, None)] * (4 - len(made.bounds))
            with self.subTest(told=told), self.assertRaises(Fault) as raised:
                constraints_of("L", made)
            self.assertIn(told, str(raised.exception))

    def test_a_green_may_be_fixed_and_as_long_as_a_phase_may_be(self):
        [first, second, *_] = constraints_of("L", program((20, 20), (600, None), (None, None), (None, None)))
        self.assertEqual((first, second), (Constraint(20, 20), Constraint(600)))

    def test_a_file_may_tighten_and_not_loosen(self):
        own = constraints_of("L", program((12, 40), (None, None), (None, None), (None, None)))
        found = with_given("L", program(), own, {0: Constraint(15, None, 18), 2: Constraint(9)})
        self.assertEqual(found[0], Constraint(15, 40, 18))
        self.assertEqual((found[2].low, found[2].high), (9, 600))
        for given in (Constraint(11), Constraint(None, 41), Constraint(pedestrians=44), Constraint(50)):
            with self.subTest(given=given), self.assertRaises(Fault) as raised:
                with_given("L", program(), own, {0: given})
            self.assertIn("light 'L': phase 0", str(raised.exception))

    def test_a_green_on_foot_lasts_the_way_across(self):
        """12 m at 1.2 m/s are 10 s, of which the yellow has 3; a green of 8 s now stays at 8 s."""
        phases = [(30, "GrG"), (3, "yrG"), (8, "rGr"), (3, "ryr")]
        made = program(phases=phases)
        own = [Constraint()] * 4
        self.assertEqual([one.pedestrians for one in with_walks(made, own, {2: 12.0})], [7, None, None, None])
        self.assertEqual([one.pedestrians for one in with_walks(made, own, {1: 12.0})], [None, None, 8, None])

    def test_crossings_of_a_network(self):
        text = (
            '<net><edge id=":L_c0" function="crossing"><lane id=":L_c0_0" index="0" speed="1" length="9.6"/></edge>'
            '<edge id=":L_c1" function="crossing"/><connection from=":L_w1" to=":L_c1" tl="L" linkIndex="5"/>'
            '<connection from=":L_w0" to=":L_c0" fromLane="0" toLane="0" tl="L" linkIndex="4" dir="s" state="M"/></net>'
        )
        self.assertEqual(read_crossings(self.write("x.net.xml", text)), {"L": {4: 9.6, 5: 0.0}})

    def test_bounds_of_a_phase_are_within_what_it_must_keep(self):
        made = program((40, 60), (None, None), (5, 12), (None, None))
        light, timing = light_and_timing("L", made)
        self.assertEqual(light.bounds, ((40, 60), (3, 3), (5, 12), (3, 3)))
        self.assertEqual(timing.durations, (30, 3, 20, 3))
        self.assertEqual(light.mended(timing), PlannedTiming(0, (40, 3, 12, 3)))

    def test_a_plan_is_read_as_it_was_written(self):
        made = program((12, 40), (None, None), (9, None), (None, None), **{"pedestrians.2": "14"})
        light, timing = light_and_timing("L", made)
        element = ElementTree.fromstring(plan_text({"L": light}, {"L": timing})).find("tlLogic")
        read = SumoNet()
        read_program("plan", element, read, ())
        self.assertEqual(constraints_of("L", read.programs["L"]), light.constraints)
        self.assertEqual(light_and_timing("L", read.programs["L"]), (light, timing))

    def test_an_import_tells_what_a_plan_breaks(self):
        report, read = Report(), SumoNet()
        read.programs["L"] = program((40, None), (None, None), (None, None), (None, None))
        warn_of_broken(read, report)
        self.assertEqual(report.warnings, ["light 'L': phase 0 lasts 30 s, below its least of 40 s"])

    def test_the_timing_sheet_has_what_phases_must_keep(self):
        path = self.write("x.net.xml", street(KEPT.format(12, 40), feet='<param key="pedestrians.2" value="14"/>'))
        [timing] = timings_of_files(path, [], ["passenger"])
        told = phases_table(timing)
        self.assertIn("<th>least, s</th><th>most, s</th><th>pedestrians, s</th>", told.replace(' scope="col"', ""))
        self.assertIn("<td>12</td><td>40</td>", told)
        self.assertIn("<td>14</td>", told)


@needs_simulator
class Searches(Searching):
    """A cross where nearly all come by one street, so that each search would shorten the other's green to 5 s."""

    def cross(self, **more):
        flows = [
            f'<flow id="{edges[0]}" begin="0" end="600" period="{period}"><route edges="{edges}"/></flow>'
            for edges, period in (("a b", 3), ("c d", 60))
        ]
        self.given(street(**more), "".join(flows), "--residence", 3)

    def once(self, out, *words, plans=(), status=None):
        small = "--budget", 12, "--seeds", "1-1", "--check", "101-102", "--cycle", "40-80"
        return self.search(*small, *words, until=700, out=out, plans=plans, status=status)

    def phases(self, out):
        return ElementTree.parse(self.folder / f"{out}.add.xml").getroot().find("tlLogic").findall("phase")

    def test_six_searches_in_a_row_keep_all(self):
        self.cross(second=KEPT.format(9, 30), feet='<param key="pedestrians.2" value="14"/>')
        plans: list = []
        for number in range(6):
            self.once(f"out{number}", plans=plans[-1:])
            found = self.phases(f"out{number}")
            self.assertGreaterEqual(int(found[2].get("duration")), 14)
            self.assertLessEqual(int(found[2].get("duration")), 30)
            self.assertEqual((found[2].get("minDur"), found[2].get("maxDur")), ("9", "30"))
            plans.append(self.folder / f"out{number}.add.xml")
        self.assertEqual(self.phases("out0")[2].get("duration"), "14")

    def test_a_plan_that_breaks_its_least_is_no_base_unless_mended(self):
        self.cross(second=KEPT.format(24, 40))
        _, said = self.once("out", status=2)
        self.assertIn("light 'L': phase 2 lasts 20 s, below its least of 24 s: no plan to search from", said)
        self.assertFalse((self.folder / "out.add.xml").exists())
        _, said = self.once("out", "--mend")
        self.assertIn("mended before the search: light 'L': phase 2 lasts 20 s", said)
        self.assertGreaterEqual(int(self.phases("out")[2].get("duration")), 24)

    def test_contradictory_inputs_are_refused(self):
        self.cross()
        head = "light,phase,least,most,pedestrians\n"
        for rows, told in (
            ("L,0,30,20,\n", "light 'L': phase 0: its least of 30 s is above its most of 20 s"),
            ("L,0,,20,25\n", "light 'L': phase 0: its least of 25 s for pedestrians is above its most of 20 s"),
            ("L,0,700,,\n", "light 'L': phase 0: its least of 700 s is above the 600 s that a phase may last"),
            ("L,1,,,9\n", "light 'L': phase 1: pedestrians have no green in it (yr)"),
            ("L,4,9,,\n", "light 'L': no phase 4: it has 4, from 0"),
            ("M,0,9,,\n", "the map has no light 'M'"),
            ("L,0,50,,\nL,2,40,,\n", "light 'L': phase 0 lasts 30 s, below its least of 50 s"),
            ("L,0,5,,\nL,0,6,,\n", "line 3: light 'L': phase 0 has two rows"),
            ("L,0,x,,\n", "least = 'x' is no number"),
            ("L,0,5.5,,\n", "'5.5' is no whole number from 0 on"),
        ):
            with self.subTest(rows=rows):
                path = self.write("kept.csv", head + rows)
                _, said = self.once("out", "--constraints", path, status=2)
                self.assertIn(told, said.splitlines()[-1])
                self.assertFalse((self.folder / "out.add.xml").exists())
        path = self.write("kept.csv", head + "L,0,50,,\nL,2,40,,\n")
        _, said = self.once("out", "--constraints", path, "--mend", status=2)
        self.assertIn("--cycle 40-80: no light can keep such a cycle", said)


if __name__ == "__main__":
    unittest.main()
