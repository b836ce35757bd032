"""Actuated lights: the logic on sequences of detections, written by hand from SUMO's rules; detectors; whole runs."""
import csv
import json
import unittest
from math import inf
from types import SimpleNamespace

from support import MAP, PROGRAM, Case, lane, needs_simulator, net
from streetsim.base.report import Report
from streetsim.control.actuated_detectors import DetectorSpot, Layout, LeadingLane, LitLane, LitTurn, extending, spots
from streetsim.control.actuated_driver import Driver
from streetsim.control.actuated_kept import Cell, Listed
from streetsim.control.actuated_lights import Driven, driven_lights, own_detectors, phase_of
from streetsim.control.actuated_logic import Actuated, ActuatedPhase as Phase, EndedPhase
from streetsim.control.actuated_showing import NodesOfLight, lasting, plan_command
from streetsim.control.bus_coordinated import Coordinated
from streetsim.control.lights import Lights
from streetsim.model.mapping import map_from
from streetsim.model.runs import run_of_texts
from streetsim.sumo.converting import run_and_map
from streetsim.sumo.import_files import convert
from streetsim.sumo.network import Options

# Two greens of 5 to 50 s with 3 s of yellow after each; detector 0 is of the first, 1 of the second.
TWO = [Phase("Gr", 42, 5, 50, (0,)), Phase("yr", 3, 3, 3), Phase("rG", 42, 5, 50, (1,)), Phase("ry", 3, 3, 3)]


def drive(light, seen, until, offset=0):
    """What ended until a second: (phase, seconds, why). seen: by detector when vehicles left it."""
    light.begin_at(0, offset)
    while light.due <= until:
        clock = light.due

        def gap(detector):
            left = [second for second in seen.get(detector, ()) if second <= clock]
            return clock - max(left) if left else inf

        light.moves_on(clock, gap)
    return [(row.phase, row.seconds, row.why) for row in light.ended_phases]


class Logic(unittest.TestCase):
    def two(self, **more):
        """At the begin of the first green, as its listed seconds are its least."""
        first = Phase("Gr", 5, 5, 50, (0,))
        return Actuated([first, *TWO[1:]], (3.0, 3.0), **more)

    def test_nobody(self):
        # Each green has its least seconds: the loop has never seen anybody, so its gap is longer than max-gap.
        told = [(0, 5, "gap"), (1, 3, "listed"), (2, 5, "gap"), (3, 3, "listed")]
        self.assertEqual(drive(self.two(), {}, 16), told)

    def test_a_green_ends_when_the_gap_is_as_long_as_max_gap(self):
        # Left at 4.5, 7.0 and 9.5 s: no gap of 3 s before 12.5 s, and lights change at whole seconds.
        self.assertEqual(drive(self.two(), {0: (4.5, 7.0, 9.5)}, 13), [(0, 13, "gap")])
        # Left at 9.0 s: at 12 s its gap is 3 s, which is not below max-gap.
        self.assertEqual(drive(self.two(), {0: (4.5, 7.0, 9.0)}, 12), [(0, 12, "gap")])

    def test_a_later_vehicle_does_not_save_a_green(self):
        # Nobody between 4.5 and 8.5 s: the green is over at 8 s.
        self.assertEqual(drive(self.two(), {0: (4.5, 8.5)}, 8), [(0, 8, "gap")])

    def test_never_longer_than_its_most(self):
        told = drive(self.two(), {0: range(999)}, 58)
        self.assertEqual(told, [(0, 50, "most"), (1, 3, "listed"), (2, 5, "gap")])

    def test_detectors_of_other_phases_do_not_extend_it(self):
        self.assertEqual(drive(self.two(), {1: range(999)}, 58)[0], (0, 5, "gap"))

    def test_each_detector_has_its_gap(self):
        light = Actuated([Phase("G", 5, 5, 50, (0, 1)), Phase("r", 3, 3, 3)], (3.0, 6.0))
        self.assertEqual(drive(light, {0: (4.0,), 1: (4.0,)}, 10), [(0, 10, "gap")])

    def test_a_longer_way_than_the_gap_is_waited_for(self):
        # detector-gap 5: who was seen 1 s ago has 4 s more, until 9 s, where the gap is longer than max-gap. Who left
        # 3.5 s ago at the first look does not count.
        self.assertEqual(drive(self.two(lead=5.0), {0: (4.0,)}, 9), [(0, 9, "gap")])
        self.assertEqual(drive(self.two(lead=5.0), {0: (1.5,)}, 5), [(0, 5, "gap")])

    def test_a_phase_without_bounds_lasts_as_listed(self):
        light = Actuated([Phase("G", 9, 9, 9, (0,)), Phase("r", 3, 3, 3)], (3.0,))
        self.assertEqual(drive(light, {0: range(99)}, 12), [(0, 9, "listed"), (1, 3, "listed")])

    def test_a_yellow_is_not_extended(self):
        light = Actuated([Phase("y", 3, 3, 9, (0,)), Phase("r", 3, 3, 3)], (3.0,))
        self.assertEqual(drive(light, {0: range(99)}, 3), [(0, 3, "listed")])

    def test_the_next_phase_by_name(self):
        phases = [Phase("Gr", 5, 5, 5, next_phase=2), Phase("rr", 3, 3, 3), Phase("rG", 4, 4, 4, next_phase=0)]
        self.assertEqual([row[0] for row in drive(Actuated(phases, ()), {}, 14)], [0, 2, 0])

    def test_it_begins_with_the_phase_that_is_listed(self):
        """Phases and first switches of SUMO 1.15 with nobody on the roads: (offset, begin, phase, its end)."""
        for offset, begin, place, end in ((0, 0, 0, 5), (1, 0, 3, 3), (20, 0, 2, 5), (43, 0, 2, 5), (0, 50, 2, 55)):
            light = Actuated(TWO, (3.0, 3.0))
            light.begin_at(begin, offset)
            self.assertEqual((light.phase_index, light.due), (place, end))

    def test_it_comes_back_to_its_plan_from_where_this_is_at_the_begin(self):
        # A cycle of 90 s that began at -20 s, 10 s of the second green are gone at 55 - 20 s.
        light = Coordinated(TWO, (3.0, 3.0))
        light.begin_at(100, 45)
        self.assertEqual((light.phase_index, light.due), (2, 100 + 42 - 10))
        # With an offset of 10 the last 10 s of the cycle come first.
        light.begin_at(0, 10)
        self.assertEqual((light.phase_index, light.due), (2, 7))

    def test_few_questions(self):
        asked = []
        light = self.two()
        light.begin_at(0)
        while not light.ended_phases:
            now = light.due
            light.moves_on(now, lambda detector: asked.append(detector) or (0.5 if now < 40 else 3.0))
        self.assertEqual(light.ended_phases[0].seconds, 41)
        self.assertLessEqual(len(asked), 14)


STATES = ("Gr", "yr", "rG", "ry")


def layout(ways, speeds=(10.0, 10.0), parameters=None, alone=True, metres=100.0):
    names = ("a_0", "b_0")
    lanes = {
        name: LitLane(name, speed, alone, (LeadingLane(name, metres), LeadingLane("before_0", 50.0)))
        for name, speed in zip(names, speeds)
    }
    return Layout(ways, lanes, parameters or {})


PLAIN = [LitTurn(0, "a_0", "x_0"), LitTurn(1, "b_0", "y_0")]


class Detectors(unittest.TestCase):
    def test_so_far_that_a_least_green_clears_the_way(self):
        # 2 s at 10 m/s are 20 m; 5 s of green let (5 / 1.9 + 0.5) * 7.5 = 23.5 m of a queue go.
        self.assertEqual(spots(layout(PLAIN), TWO)["a_0"], DetectorSpot("a_0", 80.0))
        found = spots(layout(PLAIN, speeds=(20.0, 10.0)), TWO)["a_0"]
        self.assertAlmostEqual(found.metres, 100 - (5 / 1.9 + 0.5) * 7.5)

    def test_parameters_of_the_program(self):
        found = spots(layout(PLAIN, parameters={"detector-gap": "1"}), TWO)
        self.assertEqual(found["b_0"], DetectorSpot("b_0", 90.0))

    def test_on_the_lane_before_where_one_is_short(self):
        self.assertEqual(spots(layout(PLAIN, metres=12.0), TWO)["a_0"], DetectorSpot("before_0", 42.0))

    def test_none_where_no_phase_is_extended_or_a_parameter_names_the_lane(self):
        fixed = [Phase(state, 9, 9, 9) for state in STATES]
        self.assertEqual(spots(layout(PLAIN), fixed), {})
        self.assertEqual([*spots(layout(PLAIN, parameters={"a_0": "mine"}), TWO)], ["b_0"])

    def extended(self, ways, states, alone=False):
        phases = [Phase(state, 9, 5, 50) for state in states]
        return extending(layout(ways, alone=alone), phases, ("a_0", "b_0"))

    def test_all_ways_of_a_lane_must_be_green(self):
        both = [LitTurn(0, "a_0", "x_0"), LitTurn(1, "a_0", "y_0"), LitTurn(2, "b_0", "z_0")]
        self.assertEqual(self.extended(both, ["GrG", "GGr", "rrG"]), [["b_0"], ["a_0"], ["b_0"]])

    def test_who_gives_way_extends_beside_one_that_goes_first(self):
        # The left turn of a_0 gives way in all phases: it counts beside the straight one, alone it does not.
        both = [LitTurn(0, "a_0", "x_0"), LitTurn(1, "a_0", "y_0"), LitTurn(2, "b_0", "z_0")]
        self.assertEqual(self.extended(both, ["Ggr", "rrG"]), [["a_0"], ["b_0"]])
        self.assertEqual(self.extended(both, ["ggr", "rrG"]), [[], ["b_0"]])
        # It goes first in another phase: then it does not count where it gives way.
        self.assertEqual(self.extended(both, ["Ggr", "GGr"]), [[], ["a_0"]])

    def test_who_gives_way_on_the_only_lane_of_an_edge_extends(self):
        self.assertEqual(self.extended(PLAIN, ["gr", "rG"], alone=True), [["a_0"], ["b_0"]])
        self.assertEqual(self.extended(PLAIN, ["gr", "rG"]), [[], ["b_0"]])

    def test_a_lane_that_leads_to_a_red_one_of_the_same_light_does_not(self):
        row = [LitTurn(0, "a_0", "b_0"), LitTurn(1, "b_0", "y_0")]
        self.assertEqual(self.extended(row, ["Gr", "GG"]), [[], ["a_0", "b_0"]])


class Due(unittest.TestCase):
    def test_a_phase_of_more_than_its_plan_goes_on(self):
        """At the second at which the plan of 600 s would begin anew, and not before."""
        light = SimpleNamespace(stop_clock=inf, logic=SimpleNamespace(due=900), wraps=600, goes_on=lambda: ["goes on"])
        driver = Driver.__new__(Driver)
        driver.controllers = [light]
        self.assertEqual([[*driver.commands_after_look(clock, None)] for clock in (599, 600)], [[], ["goes on"]])
        light.stop_clock = 0
        self.assertEqual([*driver.commands_after_look(600, None)], [])


class OwnLoops(unittest.TestCase):
    def test_lanes_with_loops_of_the_user(self):
        """As SUMO has it: a lane's name is the parameter, its value the loop, or NO_DETECTOR; an e2 is no loop."""
        mapping = map_from("", {**MAP, "detectors": [["loop", "e1", 0, 0, 3, 3, 10], ["area", "e2", 0, 0, 0, 5, 10]]})

        def found(**parameters):
            return own_detectors(Layout([], ["a_0", "b_0"], parameters), mapping)

        self.assertEqual(found(a_0="NO_DETECTOR", b_0="loop", z="area"), {"b_0": Cell(0, 0, 3)})
        with self.assertRaisesRegex(Listed, "no inductionLoop area"):
            found(a_0="area")


class Reading(unittest.TestCase):
    def test_seconds_since_a_detector_saw_anybody(self):
        """Who passed within a second left in its middle; where nobody was since the begin, and for 32 s at most, it is
        as if somebody had left then: in SUMO too a max-gap of 10 s holds the first green for 10 s."""
        for start, clock, last, seconds in ((10, 12, 10.5, 1.5), (10, 12, 11, 1), (11, 12, -inf, 1), (0, 99, -inf, 32)):
            lights = Lights(None)
            lights.kernel, lights.sensors = SimpleNamespace(start=start), SimpleNamespace(last_clock=[last])
            self.assertEqual(lights.gap(clock, 0), seconds)

    def test_bounds_as_sumo_reads_them(self):
        self.assertEqual(phase_of([42, "G", 5, 50, []]), Phase("G", 42, 5, 50))
        self.assertEqual(phase_of([42, "G", None, None, [2]]), Phase("G", 42, 42, 42, next_phase=2))
        self.assertFalse(phase_of([3, "y", None, None, []]).is_extended)
        self.assertGreater(phase_of([42, "G", 5, None, []]).most_seconds, 100_000)

    def test_lengths_are_running_means(self):
        # Of 42 s as listed; the newest counts for a fifth: 42 + 0.2 (12 - 42) = 36, 36 + 0.2 (11 - 36) = 31. The first
        # phase of a run may have begun before it.
        phases = (Phase("G", 42, 5, 50, (0,)), Phase("y", 3, 3, 3))
        shown = NodesOfLight(Driven("L", 0, phases, 2.0, (), (), ()), SimpleNamespace(links=[]))
        light = Actuated(phases, ())
        self.assertEqual(shown.learn(light), (42, 3))
        light.ended_phases = [EndedPhase(1, 0, 1, "listed"), EndedPhase(0, 1, 12, "gap")]
        light.ended_phases.append(EndedPhase(1, 13, 3, "listed"))
        self.assertEqual(shown.learn(light), (36, 3))
        light.ended_phases.append(EndedPhase(0, 16, 11, "gap"))
        self.assertEqual(shown.learn(light), (31, 3))

    def test_a_plan_is_of_the_phase_under_way(self):
        """Of a cycle of 42, 3, 42 and 3 s: two seconds of red and then green of one turn, yellow, green of another one,
        yellow. At the begin of a run, which has 10 s left of its first phase, the last 10 s of that."""
        shown = NodesOfLight(Driven("L", 0, TWO, 2.0, (), (), ()), SimpleNamespace(links=[]))
        one, other, none = frozenset({(0, 0, 1)}), frozenset({(0, 0, 2)}), frozenset()
        shown.nodes = [SimpleNamespace(node=7, light="L", turns=[])]
        shown.greens_by_second = lambda *_: [none] * 2 + [one] * 40 + [none] * 3 + [other] * 42 + [none] * 3
        ended = [EndedPhase(3, 0, 3, "listed")]
        for at, before, phases in (
            (0, ended, [[2, []], [600, [[0, 0, 1]]]]), (1, ended, [[600, []]]), (2, ended, [[600, [[0, 0, 2]]]]),
            (0, [], [[600, [[0, 0, 1]]]]),
        ):  # fmt: skip
            [command] = shown.plans(SimpleNamespace(phase_index=at, ended_phases=before, due=110), 100)
            self.assertEqual((command["node"], command["phases"]), (7, phases))

    def test_who_gives_way_goes_before_a_least_green_ends(self):
        """Of a green of 20 s on the mean that may end after 5: who goes first starts after 1 s and has a pause at 10 s,
        who gives way is let go in the last 4 s. The first 2 of these, in which one vehicle passes, are moved to before
        5 s, but not the last second of the phase. Nothing is moved where some are let go before 5 s, or none at all,
        where a phase has no detectors, and at the begin of a run, when 5 s are left of a phase."""
        main, left = (0, 0, 1), (0, 0, 2)
        turns = [(*key, SimpleNamespace(light="L", index=index)) for index, key in enumerate((main, left))]
        late = {16: 20}
        for detectors, before, lets, phases in (
            ((0,), [1], late, [(1, ""), (2, "m"), (2, "ml"), (5, "m"), (2, ""), (6, "m"), (600, "ml")]),
            ((0,), [1], {19: 20}, [(1, ""), (2, "m"), (2, "ml"), (5, "m"), (2, ""), (7, "m"), (600, "ml")]),
            ((0,), [1], {2: 3, **late}, [(1, ""), (1, "m"), (1, "ml"), (7, "m"), (2, ""), (4, "m"), (600, "ml")]),
            ((0,), [1], {}, [(1, ""), (9, "m"), (2, ""), (600, "m")]),
            ((), [1], late, [(1, ""), (9, "m"), (2, ""), (4, "m"), (600, "ml")]),
            ((0,), [], late, [(1, "m"), (600, "ml")]),
        ):
            light = Driven("L", 0, (Phase("Gg", 20, 5, 50, detectors), Phase("rr", 9, 9, 9)), 2.0, (), (), ())
            shown = NodesOfLight(light, SimpleNamespace(links=[]))
            shown.nodes = [SimpleNamespace(node=7, light="L", turns=turns)]
            spans = [(main, 1, 10), (main, 12, 20), *((left, begin, end) for begin, end in lets.items())]
            rows = [frozenset(turn for turn, begin, end in spans if begin <= at < end) for at in range(29)]
            shown.greens_by_second = lambda *_, rows=rows: rows
            ended = [EndedPhase(1, 0, 9, "listed") for _ in before]
            [command] = shown.plans(SimpleNamespace(phase_index=0, ended_phases=ended, due=105), 100)
            names = {"m": [*main], "l": [*left]}
            self.assertEqual(command["phases"], [[seconds, [names[one] for one in own]] for seconds, own in phases])

    def test_a_plan_begins_now_and_stays(self):
        rows = [frozenset({(0, 0, 1)})] * 3 + [frozenset()] * 2
        command = plan_command(7, rows, 1000)
        self.assertEqual(command["phases"], [[3, [[0, 0, 1]]], [600, []]])
        self.assertEqual((1000 + command["offset"]) % 603, 0)
        self.assertEqual(lasting(command)["phases"], [[600, []]])

    def test_a_plan_of_a_green_that_lasts_longer_than_a_phase_may(self):
        """A phase has 600 s at most (docs/LINES.md); what it shows there goes on."""
        first, last = frozenset({(0, 0, 1)}), frozenset()
        self.assertEqual(plan_command(7, [first] * 700 + [last], 0)["phases"], [[600, [[0, 0, 1]]]])
        command = plan_command(7, [last] * 5 + [first] * 700, 0)
        self.assertEqual(command["phases"], [[5, []], [600, [[0, 0, 1]]]])


class Released(unittest.TestCase):
    def test_the_rows_of_a_released_light_end_there(self):
        phases = Phase("G", 30, 5, 40), Phase("y", 3, 3, 3)
        driver = Driver([Driven("L", 0, phases, 2.0, (), (), ())], SimpleNamespace(links=[]))
        list(driver.begin_lights(100))
        driver.release("other", 110)
        self.assertEqual(driver.phase_rows(115), [(100, "L", 0, "G", 15, "")])
        driver.release("L", 120)
        self.assertEqual(driver.phase_rows(130), [(100, "L", 0, "G", 20, "")])


def street(program, kind="actuated"):
    """One edge that leads to another through a light; 200 m at 50 km/h."""
    light = f'<tlLogic id="L" type="{kind}" programID="0" offset="0">{program}</tlLogic>'
    return net(
        [("a", "A", "B", [lane("a", 0, 200)]), ("b", "B", "C", [lane("b", 0, 200)])],
        [("a", 0, "b", 0, 'tl="L" linkIndex="0"')],
        light,
    )


PHASES = (
    '<phase duration="30" state="G" minDur="5" maxDur="40"/><phase duration="3" state="y"/>'
    '<phase duration="20" state="r"/>'
)


class Runs(Case):
    def imported(self, departs):
        """Paths of a run and its map; vehicles depart at some seconds."""
        vehicles = "".join(
            f'<vehicle id="v{at}" depart="{depart}"><route edges="a b"/></vehicle>' for at, depart in enumerate(departs)
        )
        paths = self.write("x.net.xml", street(PHASES)), "--routes"
        routes = self.write("x.rou.xml", f"<routes>{vehicles}</routes>")
        run, mapping = self.folder / "run.jsonl", self.folder / "map.json"
        self.tool("import", *paths, routes, "-o", run, "--map", mapping)
        return run, mapping

    def lights(self, program=PHASES, kind="actuated"):
        """Of a run of one vehicle, an hour long."""
        routes = '<routes><vehicle id="v" depart="0"><route edges="a b"/></vehicle></routes>'
        paths = self.write("x.net.xml", street(program, kind)), [], [self.write("x.rou.xml", routes)]
        lines, mapping = run_and_map(convert(*paths, Options(), Report()), Report())
        read = map_from("map", json.loads(json.dumps(mapping.written())))
        return driven_lights(run_of_texts("run", lines), read)

    def test_the_map_keeps_what_drives_a_light(self):
        [light] = self.lights().driven
        phases = [(one.least_seconds, one.most_seconds, one.detectors) for one in light.phases]
        self.assertEqual(phases, [(5, 40, (0,)), (3, 3, ()), (20, 20, ())])
        # 23.5 m before the end of 200 m, which are 30 cells.
        self.assertEqual([(one.link, one.lane, one.cell) for one in light.cells], [(0, 0, 26)])

    def test_what_is_not_driven_is_told(self):
        fixed, several = PHASES.replace("/>", ' earliestEnd="9"/>', 1), PHASES.replace("/>", ' next="1 2"/>', 1)
        link, gap = (f'{PHASES}<param key="{key}" value="40"/>' for key in ("linkMaxDur:0", "max-gap"))
        text, unknown = (f'{PHASES}<param key="max-gap" value="{value}"/>' for value in ("soon", "nan"))
        for program, kind, told in (
            (PHASES, "delay_based", "delay_based is not driven here"),
            (fixed, "actuated", "earliestEnd of their programs is not driven here"),
            (link, "actuated", "linkMaxDur:0=40 is not driven here"),
            (gap, "actuated", "detectors keep 32 s and max-gap=40"),
            (several, "actuated", "phases with several next ones are not driven here"),
            (several.replace("1 2", "3"), "actuated", "they have no phase 3, which one names as its next"),
            (text, "actuated", "'soon' of their parameters is no number"),
            (unknown, "actuated", "'nan' of their parameters is no number"),
        ):
            with self.subTest(told):
                found, why = self.lights(program, kind), f"as {told}"
                self.assertEqual((found.driven, found.listed), ((), {"L": why}))
                self.assertEqual([*found.notes()], [f"lights show their listed seconds, {why}: L"])

    def test_parameters_without_an_effect_are_passed_over(self):
        more = PHASES + '<param key="jam-threshold" value="-1"/><param key="colour" value="red"/>'
        self.assertEqual([one.name for one in self.lights(more).driven], ["L"])

    def rows(self, folder):
        with open(folder / "phases.csv", encoding="utf-8") as file:
            return [[row["begin"], row["phase"], row["seconds"], row["ended"]] for row in csv.DictReader(file)]

    @needs_simulator
    def test_a_run_whose_light_a_detector_drives(self):
        # Nobody but one at 0 s, who is not at the detector yet: each green has its least seconds, as in SUMO.
        run, mapping = self.imported(departs=[0])
        out = self.folder / "out"
        said, _ = self.tool("run", run, "--map", mapping, "--out", out, "--until", 120)
        rows = self.rows(out)
        self.assertEqual(rows[:5], [
            *(["0", "0", "5", "gap"], ["5", "1", "3", "listed"], ["8", "2", "20", "listed"]),
            *(["28", "0", "5", "gap"], ["33", "1", "3", "listed"]),
        ])
        self.assertNotIn("not to be trusted", said)
        with open(out / "setting.json", encoding="utf-8") as file:
            signals = json.load(file)["signals"]
        self.assertGreater(len(signals), 6)

    @needs_simulator
    def test_traffic_holds_the_green_until_its_most(self):
        run, mapping = self.imported(departs=range(0, 300, 2))
        out = self.folder / "out"
        self.tool("run", run, "--map", mapping, "--out", out, "--until", 200)
        greens = [row for row in self.rows(out) if row[1] == "0"]
        self.assertEqual(greens[1][2:], ["40", "most"])
        self.tool("plot", "greens", out, "-o", self.folder / "x.svg")
        self.assertIn("Light L", (self.folder / "x.svg").read_text(encoding="utf-8"))
        _, said = self.tool("plot", "greens", out, "--lights", "M", "-o", self.folder / "y.svg", status=2)
        self.assertEqual(said, f"streetsim-plot: {out}: detectors drive no light 'M' in this run\n")

    @needs_simulator
    def test_listed_seconds_by_a_word_with_the_doubt(self):
        run, mapping = self.imported(departs=range(0, 100, 5))
        out = self.folder / "out"
        said, _ = self.tool("run", run, "--map", mapping, "--out", out, "--lights", "listed", "--until", 200)
        self.assertIn("pass lights that are actuated in SUMO and show their listed seconds here", said)
        self.assertFalse((out / "phases.csv").exists())

    @needs_simulator
    def test_a_study_drives_them_as_streetsim_run_does(self):
        run, mapping = self.imported(departs=range(0, 300, 4))
        variants = '[variant.actuated]\n[variant.listed]\nlights = "listed"\n'
        text = f'run = "{run}"\nmap = "{mapping}"\nuntil = 600\nseeds = "3"\ndepartures = "listed"\n{variants}'
        study, out = self.write("study.toml", text), self.folder / "out"
        told, _ = self.tool("study", study, "--out", out, "--jobs", 1, "--program", PROGRAM)
        self.assertIn("listed: 75 of 75 vehicles pass lights that are actuated in SUMO", told)
        self.assertNotIn("actuated: 75 of 75", told)
        with open(out / "runs.csv", encoding="utf-8") as file:
            found = {row["variant"]: row for row in csv.DictReader(file)}
        for name in ("actuated", "listed"):
            words = run, "--map", mapping, "--until", 600, "--rescue", 0, "--seeds", 3, "--departures", "listed"
            words = *words, "--lights", name
            self.tool("run", *words, "--out", self.folder / name)
            with open(self.folder / name / "seeds.csv", encoding="utf-8") as file:
                [row] = csv.DictReader(file)
            self.assertEqual((row["arrived"], found[name]["arrived"]), ("75", "75"))
            self.assertAlmostEqual(float(row["mean_trip_s"]), float(found[name]["mean_trip_s"]), delta=0.06)

    @needs_simulator
    def test_runs_that_repeat_it_send_the_same_lines(self):
        # SUMO's outputs come from runs that repeat the first one: their arrivals are its own.
        run, mapping = self.imported(departs=range(0, 300, 3))
        out = self.folder / "out"
        self.tool("run", run, "--map", mapping, "--out", out, "--sumo-output", "tripinfo", "--junctions")
        with open(out / "trips.csv", encoding="utf-8") as file:
            trips = [int(row["arrival"]) for row in csv.DictReader(file)]
        text = (out / "sumo/tripinfo.xml").read_text(encoding="utf-8")
        told = [int(float(part.split('"')[1])) for part in text.split(" arrival=")[1:]]
        self.assertEqual(sorted(trips), sorted(told))


if __name__ == "__main__":
    unittest.main()
