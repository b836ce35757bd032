"""Signal programs: SUMO's place in the cycle, what is shown green, rounding, limits."""
import unittest
from itertools import groupby

from support import PROGRAM, Case, lane, needs_simulator, net
from streetsim.base.client import Client
from streetsim.base.files import Fault
from streetsim.base.report import Report
from streetsim.report import run_series
from streetsim.sumo.import_files import convert
from streetsim.sumo.network import Options, Turn
from streetsim.sumo.signals import phases_that_fit, run_lengths, shown_green


def phases(*pairs):
    return "".join(f'<phase duration="{duration}" state="{state}"/>' for duration, state in pairs)


def street(program, offset=0, kind="static"):
    """One edge that leads to another through a light."""
    light = f'<tlLogic id="L" type="{kind}" programID="0" offset="{offset}">{program}</tlLogic>'
    return net(
        [("a", "A", "B", [lane("a", 0, 7.5)]), ("b", "B", "C", [lane("b", 0)])],
        [("a", 0, "b", 0, 'tl="L" linkIndex="0"')],
        light,
    )


class Signals(Case):
    def made(self, text, additional=(), **options):
        """The commands and the warnings."""
        report = Report()
        paths = [self.write(f"more{at}.add.xml", more) for at, more in enumerate(additional)]
        _, _, commands, _ = convert(self.write("x.net.xml", text), paths, [], Options(**options), report)
        return [command for command in commands if command["cmd"] == "signal"], report.warnings

    def greens(self, command, seconds):
        return [second for second in range(seconds) if run_series.shows_green(command, second, [0], [1])]

    def test_offset_is_sumos(self):
        # SUMO 1.15 shows red in 0 to 6, green in 7 to 16, yellow in 17 to 21, red in 22 to 36; yellow is red here,
        # and two of the ten seconds: (10 - 0.8) / (1.42 + 7.5 / 13.9) = 4.7 vehicles leave a queue in SUMO, here
        # 2.8 and 1.7 in 5 and 3 s.
        [command], _ = self.made(street(phases((10, "G"), (5, "y"), (15, "r")), offset=7))
        self.assertEqual(self.greens(command, 37), [*range(7, 12), *range(14, 17)])
        self.assertEqual(command["offset"], 23)

    @needs_simulator
    def test_offset_in_the_simulator(self):
        # The vehicle stands in the only cell of the first link; it can leave in step 7, the first green one.
        report = Report()
        _, _, commands, _ = convert(
            self.write("x.net.xml", street(phases((10, "G"), (5, "y"), (15, "r")), offset=7)),
            [],
            [],
            Options(dawdle=0),
            report,
        )
        with Client(PROGRAM) as sim:
            sim.batch(commands)
            sim.enter([0, 1], 0, 0)
            sim.advance(7)
            self.assertEqual(sim.vehicle(0).state, "cell")
            sim.advance(1)
            self.assertEqual((sim.vehicle(0).state, sim.vehicle(0).ready), ("buffer", 7 + 1))

    def test_last_program_of_a_light_counts(self):
        light = f'<tlLogic id="L" programID="1" type="static" offset="0">{phases((4, "G"), (6, "r"))}</tlLogic>'
        other = f"<additional>{light}</additional>"
        [command], _ = self.made(street(phases((10, "G"), (20, "r"))), additional=[other])
        self.assertEqual([duration for duration, _ in command["phases"]], [1, 3, 6])

    def test_a_next_phase_of_listed_seconds_is_told(self):
        """SUMO goes there; one that names the phase behind it, or none, as -1, is as one without."""
        def told(first, last):
            shown = phases((10, "G"), (5, "y"), (20, "r"))
            shown = shown.replace('"G"/>', f'"G" {first}/>').replace('"r"/>', f'"r" {last}/>')
            return [text for text in self.made(street(shown))[1] if "next" in text]

        self.assertEqual(told('next="1"', 'next="0"') + told('next="-1"', ""), [])
        why = "phases that name another as their next, which does nothing here: they come in their order"
        self.assertEqual(told('next="2"', ""), [f"light 'L' has {why}"])

    def test_offset_alone_keeps_the_phases(self):
        # As SUMO's tlsCoordinator writes it: place (t - 4) mod 30 of the program in the network.
        other = '<additional><tlLogic id="L" programID="0" offset="4"/></additional>'
        program = street(phases((10, "G"), (20, "r")))
        [given], [command] = self.made(program)[0], self.made(program, additional=[other])[0]
        self.assertEqual((command["offset"], command["phases"]), (26, given["phases"]))
        # The program of its name gets it, which need not be the one in force.
        loaded = f'<additional><tlLogic id="L" programID="1">{phases((4, "G"), (6, "r"))}</tlLogic></additional>'
        [command], _ = self.made(program, additional=[loaded, other])
        self.assertEqual((command["offset"], sum(duration for duration, _ in command["phases"])), (0, 10))
        with self.assertRaisesRegex(Fault, "<tlLogic 'L'>: program '2' has no phases"):
            self.made(program, additional=[other.replace('programID="0"', 'programID="2"')])

    def test_a_light_that_is_switched_off_keeps_its_program(self):
        program = street(phases((10, "G"), (20, "r")), offset=4)
        off = '<additional><tlLogic id="L" type="static" programID="off" offset="0"/></additional>'
        commands, warnings = self.made(program, additional=[off])
        self.assertEqual(commands, self.made(program)[0])
        self.assertIn("<tlLogic 'L'> does nothing here, as it switches the light off", " ".join(warnings))

    def test_a_surveyed_green_is_shown_at_the_end_of_its_run(self):
        turn = Turn(0, "L", 0, False, 13.9, 2)
        self.assertEqual(shown_green("ggggggggggrrrrr", {0: 7}, turn, 1, True), [False] * 3 + [True] * 7 + [False] * 5)
        self.assertEqual(
            shown_green("gggggrrrrrggggg", {10: 7}, turn, 1, True), [True] * 5 + [False] * 8 + [True] * 2
        )  # the run goes round the cycle
        self.assertEqual(shown_green("gggg", {}, turn, 1, True), [True] * 4)

    def test_right_on_red_is_no_part_of_a_plan(self):
        """Runs let those go, in gaps."""
        self.assertEqual(shown_green("ssr", {}, Turn(0, "L", 0, False, 13.9, 2), 1, True), [False] * 3)

    def test_rounding_keeps_the_cycle(self):
        # 10.4, 20.8 and 31.2 s are 10, 21 and 31; of the green of 20 s round the cycle two are left out from half on.
        [command], _ = self.made(street(phases((10.4, "G"), (10.4, "r"), (10.4, "G"))))
        self.assertEqual([duration for duration, _ in command["phases"]], [2, 8, 11, 10])
        self.assertEqual([bool(green) for _, green in command["phases"]], [False, True, False, True])

    def test_a_long_phase_is_several(self):
        [command], warnings = self.made(street(phases((1300, "G"), (500, "r"))))
        self.assertEqual([duration for duration, _ in command["phases"]], [600, 600, 100, 500])
        self.assertEqual([bool(green) for _, green in command["phases"]], [True, True, True, False])
        self.assertEqual(warnings, [])

    def test_of_a_long_green_no_more_is_hidden_than_of_a_usual_one(self):
        # A right turn at 6.5 m/s: a queue leaves slower in SUMO, but for the first minutes alone.
        turn = Turn(0, "L", 0, False, 6.5, 2)
        for middle in (True, False):
            usual, long = (shown_green("G" * length + "r", {}, turn, 1, middle) for length in (90, 10_000))
            self.assertEqual((usual.index(False), usual.count(False)), (long.index(False), long.count(False)))

    def test_a_short_green_is_rounded_to_the_nearest(self):
        """Of 7 s 3.2 vehicles leave in SUMO, as (7 - 13.9 / 5.2 + 1.87) / (1.42 + 7.5 / 13.9);
        here 2.8 in 5 s, 3.4 in 6, 4.0 in 7."""
        turn = Turn(0, "L", 0, False, 13.9, 2)
        for grain, shown in ((1, 6), (2, 5)):
            for middle in (True, False):
                self.assertEqual(shown_green("G" * 7 + "r", {}, turn, grain, middle).count(True), shown)

    def test_seconds_are_left_out_in_the_middle(self):
        # A vehicle alone, or few, need not wait when the green begins: 4 s and more are green first, and 2 s at last.
        for length in range(9, 91):
            for speed in (6.5, 8.1, 13.9):
                shown = shown_green("G" * length + "r", {}, Turn(0, "L", 0, False, speed, 2), 1, True)
                runs = [(on, len(list(run))) for on, run in groupby(shown[:length])]
                self.assertIn([on for on, _ in runs], ([True], [True, False, True]))
                self.assertTrue(runs[0][1] >= 4 and runs[-1][1] >= 2, runs)
        self.assertNotIn(False, shown_green("G" * 42 + "r", {}, Turn(0, "L", 0, False, 13.9, 2), 1, True)[:42])

    def test_seconds_are_left_out_at_the_begin_where_phases_would_be_too_many(self):
        # Seven streets one after the other, of ten seconds each: of three phases each 21, of two 14.
        def crossing(count):
            cycle = [(10, "".join("G" if at == own else "r" for at in range(count))) for own in range(count)]
            edges = [(f"a{at}", f"A{at}", "B", [lane(f"a{at}", 0)]) for at in range(count)]
            turns = [(f"a{at}", 0, "b", 0, f'tl="L" linkIndex="{at}"') for at in range(count)]
            light = f'<tlLogic id="L" type="static" programID="0" offset="0">{phases(*cycle)}</tlLogic>'
            [command], warnings = self.made(net([*edges, ("b", "B", "C", [lane("b", 0)])], turns, light))
            self.assertEqual(warnings, [])
            return [seconds for seconds, _ in command["phases"]], [bool(green) for _, green in command["phases"]]

        self.assertEqual(crossing(5), ([5, 2, 3] * 5, [True, False, True] * 5))
        self.assertEqual(crossing(7), ([2, 8] * 7, [False, True] * 7))

    def test_a_cycle_that_fits_in_no_plan_is_lines(self):
        # Ten minutes of red of 10,000 s are left at the begin, as the offset is 600 s; then 5,000 s of green.
        commands, warnings = self.made(street(phases((5_000, "G"), (10_000, "r")), offset=600))
        self.assertEqual(
            [command.get("at", 0) for command in commands],
            [0, 600, 5600, 15600, 20600, 30600, 35600, 45600, 50600, 60600, 65600, 75600, 80600],
        )
        self.assertEqual([bool(command["phases"][0][1]) for command in commands[:4]], [False, True, False, True])
        self.assertEqual(
            warnings, ["light 'L': a cycle of 15,000 s does not fit in one plan; its phases are lines, until 86,400 s"]
        )
        with self.assertRaisesRegex(Fault, "light 'L': a cycle of 10,000,005 s; at most 200,000 s are read"):
            self.made(street(phases((10_000_000, "G"), (5, "r"))))

    def test_a_cycle_that_just_fits_in_one_plan(self):
        # A plan is of 16 phases of 600 s: 9,600 s; of one second more the phases are lines.
        [command], warnings = self.made(street(phases((9_600, "r"))))
        self.assertEqual([seconds for seconds, _ in command["phases"]], [600] * 16)
        self.assertEqual(warnings, ["light 'L': a turn is never green on edges a"])
        _, warnings = self.made(street(phases((9_601, "r"))))
        self.assertIn("light 'L': a cycle of 9,601 s does not fit in one plan", warnings[0])

    def test_a_departure_so_late_that_the_lines_would_have_no_end(self):
        # 1,000,086,400 s are 133,344 greens and reds of 7,500 s in the mean.
        street_file = self.write("x.net.xml", street(phases((5_000, "G"), (10_000, "r"))))
        routes = self.write("r.rou.xml", '<routes><vehicle id="v" depart="1e9"><route edges="a b"/></vehicle></routes>')
        with self.assertRaises(Fault) as fault:
            convert(street_file, [], [routes], Options(), Report())
        told = "a cycle of 15,000 s does not fit in one plan, and has more than 100,000 phases until 1,000,086,400 s"
        self.assertEqual(str(fault.exception), f"light 'L': {told}, a day after the last departure")

    def test_never_green_and_actuated_are_warned_of(self):
        _, warnings = self.made(street(phases((10, "r")), kind="actuated"))
        self.assertEqual(
            warnings,
            [
                "light 'L': a turn is never green on edges a",
                "light 'L' is actuated: its listed durations are used, but where streetsim-run drives it by detectors",
            ],
        )

    def test_lights_of_one_kind_are_told_in_one_line(self):
        report, names = Report(), "ABCDEFG"
        ends = [(name + at, name + then) for name in names for at, then in ("12", "23")]
        edges = [(begin, begin, end, [lane(begin, 0)]) for begin, end in ends]
        pairs = [(name + "1", 0, name + "2", 0, f'tl="{name}" linkIndex="0"') for name in names]
        programs = "".join(
            f'<tlLogic id="{name}" type="{"actuated" if name < "G" else "delay_based"}" programID="0" offset="0">'
            '<phase duration="9" state="G"/><phase duration="9" state="r"/></tlLogic>' for name in names
        )  # fmt: skip
        convert(self.write("y.net.xml", net(edges, pairs, programs)), [], [], Options(), report)
        but = ", but where streetsim-run drives it by detectors"
        told = [line for line in report.lines() if "durations" in line]
        self.assertEqual(told, [
            f"warning: 6 lights are actuated: their listed durations are used{but}: A, B, C, D, E and 1 more",
            "warning: light 'G' is delay_based: its listed durations are used",
        ])  # fmt: skip
        found = [of for _, what, of, _ in report.rows() if "durations" in what]
        self.assertEqual(found, ["A B C D E F", "G"])

    def test_a_light_that_the_network_does_not_have(self):
        other = (
            '<additional><tlLogic id="M" type="static" programID="1" offset="0"><phase duration="9" '
            'state="G"/></tlLogic></additional>'
        )
        with self.assertRaisesRegex(Fault, "more0.add.xml: <tlLogic 'M'>: the network has no light of this name"):
            self.made(street(phases((10, "G"))), [other])

    def test_too_many_phases(self):
        self.assertEqual(
            phases_that_fit([(5, "a"), (9, "b"), (2, "c"), *[(9, "d")] * 14]), [(5, "a"), (11, "b"), *[(9, "d")] * 14]
        )
        many = phases(*[(2, "G"), (3, "r")] * 9)
        [command], warnings = self.made(street(many))
        self.assertEqual((len(command["phases"]), sum(duration for duration, _ in command["phases"])), (16, 45))
        self.assertEqual(len(warnings), 2)

    def test_run_above_the_longest_phase_is_split(self):
        self.assertEqual(run_lengths(["a"] * 1300), [(600, "a"), (600, "a"), (100, "a")])

    def test_state_that_is_too_short(self):
        with self.assertRaisesRegex(Fault, "shorter than link index 0"):
            self.made(street(phases((10, ""))))


if __name__ == "__main__":
    unittest.main()
