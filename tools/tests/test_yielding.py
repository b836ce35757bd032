"""Giving way at lights by what happens: small scenes whose answer follows from the rule."""
import unittest
from dataclasses import replace
from types import SimpleNamespace

import crosses
from seen import blocks_of, made
from support import DATA, PROGRAM, Case, needs_simulator
from test_rounds import junction, routes
from streetsim.base.arrays import numpy as np
from streetsim.control.settings import Settings
from streetsim.control.yielding import AFTER_STAND, SNEAK_SECONDS, YieldingTurns
from streetsim.control.yielding_fullness import LitFullness
from streetsim.control.yielding_plans import held_back, with_held_back
from streetsim.kernel.loop import Observer, own_line
from streetsim.kernel.seconds import Block, Vehicles
from streetsim.model.mapping import Map, MapLink, MapTurn, read_map
from streetsim.model.runs import read_own_run
from streetsim.model.waiting import NodeWays
from streetsim.observe.giving_way_rounds import with_lines
from streetsim.sumo.greens import headway

CELLS = 40  # of each link, of which 2 are driven in a second
LEFT, STRAIGHT, RIGHT = (0, 0, 3), (1, 0, 4), (2, 0, 5)  # turns at node 0; left gives way to straight, right to left
NODES = [[0, 3, 4], [1, 3, 4], [2, 3, 4]]  # number, seconds in the buffer, vehicles that it holds
GREEN, RED = 40, 20  # seconds of the cycle


def mapping(yields=((0, 1, False),), stops=(), straight=STRAIGHT):
    """Three streets that lead to a light at node 0, and three that lead on."""
    ends = [(1, 0)] * 3 + [(0, 1)] * 3
    links = [MapLink(f"e{at}", (0,), *pair, CELLS, 2, 300.0, ()) for at, pair in enumerate(ends)]
    turns = [MapTurn(*turn, 0, "L", at, False) for at, turn in enumerate((LEFT, straight, RIGHT))]
    ways = NodeWays(0, ((LEFT,), (straight,), (RIGHT,)), tuple(yields), tuple(stops))
    return Map([("n0", 0, 0, 3), ("n1", 0, 0, 3)], links, turns, [("L", 0)], [], {}, [], lit_ways=[ways])


def open_mapping(signs, yields=((0, 1, False),), straight=STRAIGHT):
    """The same streets without a light; signs: of left, straight and right."""
    made = mapping(yields, straight=straight)
    ways = replace(made.lit_ways[0], signs=signs)
    return replace(made, lit_ways=[], open_ways=[ways], signals=[])


def short_mapping():
    """The same light, whose street straight on is a pocket of 4 cells behind another street."""
    made = mapping()
    links = [*made.links, replace(made.links[1], edge="e6", end=2)]
    links[1] = replace(links[1], begin=2, cells=4)
    turns = [*made.turns, MapTurn(6, 0, 1, 0, None, None, False)]
    return replace(made, nodes=[*made.nodes, ("n2", 0, 0, 3)], links=links, turns=turns)


class Scene:
    """A run whose seconds are written by hand, and the plans that the controller shows by them."""

    def __init__(self, plans, mapping, green=(LEFT, STRAIGHT, RIGHT), later=()):
        """plans: the links of each vehicle; green, later: turns of the first GREEN seconds, and of the RED ones, where
        there is a light."""
        second = later if mapping.lit_ways else sorted(green)
        phases = [[GREEN, [[*turn] for turn in sorted(green)]], [RED, [[*turn] for turn in second]]]
        self.plan = {"cmd": "signal", "node": 0, "offset": 0, "phases": phases}
        vehicles = Vehicles()
        vehicles.add(range(len(plans)), [1] * len(plans), plans)
        run = SimpleNamespace(first=[own_line(self.plan)], load=SimpleNamespace(command={"nodes": NODES}))
        self.kernel = SimpleNamespace(
            map=mapping, run=run, start=0, until=1000, sent_lines=[], vehicles=vehicles, send_now=self.keep
        )
        self.shown = {turn: turn in green for turn in (LEFT, STRAIGHT, RIGHT)}
        self.controller = YieldingTurns(mapping)
        self.controller.begin(self.kernel)

    def keep(self, lines, passed_on, for_a_gap):
        """Takes what is sent: which turns are green in the first phase, or in the second."""
        assert for_a_gap and not passed_on
        [self.line] = lines

    def second(self, clock, *lanes, ago=0):
        """Has the controller see a second, [link, {car: (cells to the line, speed)}, those in the buffer], who passed
        their line so many seconds before, and gives the turns that are green in the next one."""
        frames = [
            [link, 0, [[car, CELLS - left, speed] for car, (left, speed) in cars.items()], [*buffer]]
            for link, cars, *rest in lanes
            for buffer in [rest[0] if rest else ()]
        ]
        self.line = None
        self.controller.act(clock, Block(blocks_of([(clock + 2 - ago, frames)])))
        phase = 0 if clock % (GREEN + RED) < GREEN else 1
        command = self.line.command if self.line else self.in_force
        self.in_force = command
        return {tuple(turn) for turn in command["phases"][phase][1]}

    @property
    def in_force(self):
        """The signal command that is shown."""
        return getattr(self, "command", self.plan)

    @in_force.setter
    def in_force(self, command):
        """Notes what is shown."""
        self.command = command


class WithoutALight(unittest.TestCase):
    """How long one waits for who comes without a light: by SUMO's states of the connections."""

    def goes(self, signs, left, straight, clocks=(5,)):
        """Whether who is on the left street, (cells to the line, speed), goes at the last clock."""
        scene = Scene([[0, 3], [1, 4]], open_mapping(signs))
        return [LEFT in scene.second(clock, (0, {0: left}), (1, {1: straight})) for clock in clocks][-1]

    def test_who_gives_way_needs_longer_than_at_a_light(self):
        """At 1.83 cells a second 9 cells to drive take 4.9 s, 10 cells 5.5; who is seen first has stood for 3 s."""
        self.assertFalse(self.goes("mMM", (1, 0), (10, 2)))
        self.assertTrue(self.goes("mMM", (1, 0), (11, 2)))

    def test_who_stood_for_long_goes_before_one_who_can_brake(self):
        """After 10 s it needs a second less; one whose line is 4 cells ahead at 2 cells a second cannot stop."""
        clocks = [*range(5, 22)]
        self.assertTrue(self.goes("mMM", (1, 0), (9, 2), clocks))
        self.assertFalse(self.goes("mMM", (1, 0), (4, 2), [*range(5, 200)]))

    def test_who_stands_at_its_line_is_in_the_way_of_those_who_give_way_to_it(self):
        """Though it waits itself; after 40 s, or 72 at a stop sign, one goes first, and the other one stays for 4 s.
        Who is seen first has stood for 3 s."""
        for sign, waited in (("m", 42), ("s", 74)):
            scene = Scene([[0, 3], [1, 4], [2, 5]], open_mapping(f"{sign}{sign}M", ((0, 1, False), (1, 2, False))))
            lanes = (0, {0: (1, 0)}), (1, {1: (1, 0)}), (2, {2: (3, 2)})
            first = next(clock for clock in range(5, 130) if LEFT in scene.second(clock, *lanes))
            self.assertEqual(first, waited)
            for later, goes in ((3, False), (4, True)):
                self.assertEqual(STRAIGHT in scene.second(waited + later, (1, {1: (1, 0)})), goes)

    def test_who_has_to_stop_does_so_though_nobody_comes(self):
        for sign in "sw":
            scene = Scene([[0, 3]], open_mapping(f"{sign}MM"))
            self.assertNotIn(LEFT, scene.second(5, (0, {0: (2, 2)})))
            self.assertIn(LEFT, scene.second(6, (0, {0: (1, 0)})))

    def test_who_joins_a_street_from_a_stop_sign_waits_for_all_who_are_seen(self):
        street = open_mapping("sMM", straight=(1, 0, 3))
        for cells, goes in ((36, False), (38, True)):
            scene = Scene([[0, 3], [1, 3]], street, green=(LEFT, (1, 0, 3), RIGHT))
            self.assertEqual(LEFT in scene.second(5, (0, {0: (1, 0)}), (1, {1: (cells, 2)})), goes)

    def test_who_comes_from_a_ramp_needs_less_than_who_turns_into_a_street(self):
        """Where streets become one and nobody turns off: 4.5 s are free, and 6.8 elsewhere, of 8 cells 3.8 and of 10
        cells 4.9; at a slow turn and in a roundabout as elsewhere."""
        street = open_mapping("mMM", straight=(1, 0, 3))
        away = [replace(link, begin=1) if at > 3 else link for at, link in enumerate(street.links)]
        ramp = replace(street, links=away)
        slow = replace(ramp, turns=[replace(ramp.turns[0], speed=8.0), *ramp.turns[1:]])
        ring = replace(ramp, rings=["e3"])
        for mapping_of, cells, goes in (
            (ramp, 8, False), (ramp, 10, True), (street, 10, False), (slow, 10, False), (ring, 10, False),
        ):  # fmt: skip
            scene = Scene([[0, 3], [1, 3]], mapping_of, green=(LEFT, (1, 0, 3), RIGHT))
            self.assertEqual(LEFT in scene.second(5, (0, {0: (1, 0)}), (1, {1: (cells, 2)})), goes)

    def test_where_all_stop_who_came_first_goes_first(self):
        scene = Scene([[0, 3], [1, 4]], open_mapping("wwM", ((0, 1, False), (1, 0, False))))
        scene.second(4, (0, {0: (2, 2)}), (1, {1: (1, 0)}))
        self.assertEqual(scene.second(5, (0, {0: (1, 0)}), (1, {1: (1, 0)})) & {LEFT, STRAIGHT}, {STRAIGHT})


class Gaps(unittest.TestCase):
    def test_who_stands_waits_for_a_gap_of_three_and_a_half_seconds(self):
        """At 1.83 cells a second 6 cells take 3.3 s, 7 cells 3.8."""
        for cells, goes in ((1, False), (7, False), (8, True), (20, True)):
            scene = Scene([[0, 3], [1, 4]], mapping())
            self.assertEqual(LEFT in scene.second(5, (0, {0: (1, 0)}), (1, {1: (cells, 2)})), goes, cells)

    def test_who_rolls_alone_goes_in_one_of_three_seconds(self):
        for cells, goes in ((6, False), (7, True)):
            scene = Scene([[0, 3], [1, 4]], mapping())
            self.assertEqual(LEFT in scene.second(5, (0, {0: (2, 2)}), (1, {1: (cells, 2)})), goes, cells)

    def test_nobody_waits_for_one_that_drives_elsewhere_or_has_red_or_is_alone(self):
        elsewhere = Scene([[0, 3], [1, 9]], mapping())
        self.assertIn(LEFT, elsewhere.second(5, (0, {0: (1, 0)}), (1, {1: (1, 0)})))
        red = Scene([[0, 3], [1, 4]], mapping(), green=(LEFT,))
        self.assertIn(LEFT, red.second(5, (0, {0: (1, 0)}), (1, {1: (1, 0)})))
        self.assertIn(LEFT, Scene([[0, 3]], mapping()).second(5, (0, {0: (1, 0)})))

    def test_nobody_waits_for_one_that_is_held_before_a_pocket(self):
        """Who may go on from the buffer before it comes there; one that could have gone for 3 s is held, and who is
        behind it too."""
        for ago, goes in ((1, False), (4, False), (5, True)):
            scene = Scene([[0, 3], [6, 1, 4]], short_mapping())
            self.assertEqual(LEFT in scene.second(9, (0, {0: (1, 0)}), (6, {}, [1]), ago=ago), goes, ago)

    def test_who_passed_in_the_last_second_is_in_the_way(self):
        """One that passes its line in the second before a clock may go on 3 - 1 seconds later."""
        scene = Scene([[0, 3], [1, 4]], mapping())
        self.assertNotIn(LEFT, scene.second(5, (0, {0: (1, 0)}), (1, {}, [1])))
        self.assertIn(LEFT, scene.second(6, (0, {0: (1, 0)})))

    def test_who_leads_to_another_lane_of_the_street_is_in_the_way_when_it_passes(self):
        beside = mapping([(0, 1, True)])
        self.assertIn(LEFT, Scene([[0, 3], [1, 4]], beside).second(5, (0, {0: (1, 0)}), (1, {1: (1, 0)})))
        self.assertNotIn(LEFT, Scene([[0, 3], [1, 4]], beside).second(5, (0, {0: (1, 0)}), (1, {}, [1])))

    def test_nobody_waits_for_one_that_waits(self):
        """The right gives way to the left, which waits for who goes straight on: while it stands the right goes."""
        scene = Scene([[0, 3], [1, 4], [2, 5]], mapping([(0, 1, False), (2, 0, False)]))
        lanes = (0, {0: (1, 0)}), (1, {1: (3, 2)}), (2, {2: (1, 0)})
        self.assertEqual(scene.second(5, *lanes) & {LEFT, RIGHT}, {RIGHT})
        self.assertEqual(scene.second(6, (0, {0: (1, 0)}), (2, {2: (1, 0)})) & {LEFT, RIGHT}, {LEFT})

    def test_one_that_stood_there_goes_behind_the_end_of_green(self):
        for clock, goes in ((GREEN, True), (GREEN - 1 + SNEAK_SECONDS, True), (GREEN + SNEAK_SECONDS, False)):
            scene = Scene([[0, 3], [1, 4], [0, 3]], mapping())
            scene.second(GREEN - 1, (0, {0: (1, 0)}), (1, {1: (1, 2)}))
            self.assertEqual(LEFT in scene.second(clock, (0, {0: (1, 0)})), goes, clock)
        scene.second(GREEN - 1, (0, {0: (1, 0)}), (1, {1: (1, 2)}))
        self.assertNotIn(LEFT, scene.second(GREEN + 1, (0, {2: (1, 0)})), "another one")

    def test_one_that_stood_there_goes_when_those_who_stay_green_leave_a_gap(self):
        """Left has red from GREEN on, and straight on green: one that stood inside goes as late as that."""
        scene = Scene([[0, 3], [1, 4]], mapping(), later=[STRAIGHT])
        for clock in range(GREEN - 1, GREEN + 2 * SNEAK_SECONDS):
            self.assertNotIn(LEFT, scene.second(clock, (0, {0: (1, 0)}), (1, {1: (2, 2)})))
        self.assertIn(LEFT, scene.second(GREEN + 2 * SNEAK_SECONDS, (0, {0: (1, 0)})))
        red = Scene([[0, 3], [1, 4]], mapping(), later=[STRAIGHT])
        self.assertNotIn(LEFT, red.second(GREEN + 1, (0, {0: (1, 0)})), "it came in the red")

    def test_who_follows_keeps_a_distance_of_the_turns_speed(self):
        """One that stood for 2 s and goes, and the next, which comes to the line a second later."""
        scene = Scene([[0, 3], [0, 3], [1, 4]], mapping())
        for clock in (5, 6, 7):
            scene.second(clock, (0, {0: (1, 0), 1: (2, 0)}), (1, {2: (1, 0)}))
        self.assertIn(LEFT, scene.second(8, (0, {0: (1, 0), 1: (2, 0)})))
        behind = 8 + headway(13.9) + AFTER_STAND
        for clock in range(9, 16):
            shown = scene.second(clock, (0, {1: (1, 0)}, [0] if clock == 9 else []))
            self.assertEqual(LEFT in shown, clock + 0.5 >= behind, clock)

    def test_a_longer_vehicle_needs_and_leaves_a_longer_gap(self):
        """Of two cells: at 1.83 cells a second 8 cells take 3.8 s, 9 cells 4.4."""
        for cells, goes in ((8, False), (10, True)):
            scene = Scene([[0, 3], [1, 4]], mapping())
            scene.kernel.vehicles.size[0] = 2
            self.assertEqual(LEFT in scene.second(5, (0, {0: (1, 0)}), (1, {1: (cells, 2)})), goes, cells)
        scene.kernel.vehicles.size[1] = 2
        for ago, goes in ((0, False), (1, False), (2, True)):
            self.assertEqual(LEFT in scene.second(6 + ago, (0, {0: (1, 0)}), (1, {}, [1]), ago=ago), goes, ago)

    def test_in_a_red_one_goes_after_a_stop(self):
        scene = Scene([[0, 3], [1, 4]], mapping(stops=(0,)), green=(STRAIGHT,))
        self.assertNotIn(LEFT, scene.second(5, (0, {0: (2, 2)})))
        self.assertNotIn(LEFT, scene.second(6, (0, {0: (1, 0)}), (1, {1: (2, 2)})))
        self.assertIn(LEFT, scene.second(8, (0, {0: (1, 0)})))

    def test_in_a_red_one_joins_a_street_as_from_a_stop_sign(self):
        """It waits for all who are seen, of 20 s; who follows goes 6.15 s later, in the green at once."""
        joined = (1, 0, 3)
        for cells, goes in ((36, False), (38, True)):
            scene = Scene([[0, 3], [1, 3]], mapping(stops=(0,), straight=joined), green=(joined,))
            scene.second(5, (0, {0: (1, 0)}))
            self.assertEqual(LEFT in scene.second(6, (0, {0: (1, 0)}), (1, {1: (cells, 2)})), goes)
        scene = Scene([[0, 3], [0, 3]], mapping(stops=(0,)), green=(STRAIGHT,))
        self.assertIn(LEFT, [scene.second(clock, (0, {0: (1, 0)})) for clock in (5, 6, 7)][-1])
        goes = [LEFT in scene.second(clock, (0, {1: (1, 0)}, [0] if clock == 8 else [])) for clock in range(8, 20)]
        self.assertEqual(8 + goes.index(True) - 7, 6)


class HeldBack(unittest.TestCase):
    def test_seconds_that_hold_a_queue_up_count_as_green(self):
        """Of two turns the first gives way: the second is red for 3 s at the begin and for 2 in the middle."""
        greens = np.array([[1, 0], [1, 1], [1, 0], [1, 1], [0, 0]], bool)
        before = np.array([[0, 1], [0, 0]], bool)
        found = with_held_back(greens, np.array([3, 15, 2, 15, 40]), before)
        self.assertEqual(found[:, 1].tolist(), [True] * 4 + [False])
        late = with_held_back(greens, np.array([9, 15, 9, 15, 40]), before)
        self.assertEqual(late[:, 1].tolist(), [False, True, False, True, False])

    def test_a_long_pause_from_the_half_of_a_green_on(self):
        """As a right turn has that is slow: 21 s, 11 s of pause, 10 s; not two greens of unlike length."""
        self.assertEqual(held_back((True, False, True, False), (21, 11, 10, 48)), (True, True, True, False))
        self.assertEqual(held_back((True, False, True, False), (8, 11, 23, 48)), (True, False, True, False))


class Full(unittest.TestCase):
    def test_a_lane_with_somebody_first_for_seven_tenths(self):
        """Of a quarter of an hour in which its turns meet others half the time; who passes is counted once."""
        for busy, passages in ((7, 45), (6, 0)):
            fullness = LitFullness(2, 0)
            for clock in range(900):
                meets = clock % 20 < 10
                slots, cars = ([1], [clock // 20]) if meets and clock % 10 < busy else ([], [])
                fullness.note_fronts(clock, np.array([False, meets]), np.array(slots, int), np.array(cars, int))
                fullness.note_seconds(1)
            fullness.end_part()
            self.assertEqual(fullness.passages.get(1, 0), passages)

    def test_a_lane_without_a_light_with_somebody_first_for_more_than_half_of_the_time(self):
        for busy, passages in ((6, 90), (5, 0)):
            fullness = LitFullness(2, 0, [1])
            for clock in range(900):
                slots, cars = ([1], [clock // 10]) if clock % 10 < busy else ([], [])
                fullness.note_fronts(clock, np.array([False, True]), np.array(slots, int), np.array(cars, int))
                fullness.note_seconds(1)
            fullness.end_part()
            self.assertEqual((fullness.crowded[1], fullness.passages[1]), (passages, 0))


class Record(Observer):
    """The rows of all seconds."""

    def begin(self, kernel):
        """None yet."""
        self.rows, kernel.keeps_gaps = [], True

    def see(self, seconds):
        """Takes some seconds."""
        begin = int(seconds.first[1])
        clocks = seconds.clocks[seconds.second[begin:]]
        columns = clocks, seconds.car[begin:], seconds.slot[begin:], seconds.cell[begin:], seconds.speed[begin:]
        self.rows += zip(*(column.tolist() for column in columns))


class Cross(Case):
    def imported(self, name, flows):
        """(the run, the map) of a cross of crosses.py."""
        self.write("routes.xml", crosses.demand(flows))
        words = DATA / f"{name}.net.xml.gz", "--routes", self.folder / "routes.xml", "-o", self.folder / "run.jsonl"
        self.tool("import", *words, "--map", self.folder / "map.json")
        return read_own_run(self.folder / "run.jsonl"), read_map(self.folder / "map.json")

    def test_the_import_says_who_gives_way(self):
        """A left to those who face it and go straight on or right, not to the left that faces it; it is shown for the
        whole of its 42 s."""
        run, mapping = self.imported("cross1", {("w", "left"): 300, ("e", "straight"): 300})
        [ways] = mapping.lit_ways
        edges = [
            {(mapping.links[link].edge, mapping.links[following].edge) for link, _, following in way}
            for way in ways.ways
        ]
        found = [(*edges[own], *edges[foe]) for own, foe, _ in ways.yields]
        facing = {foe for own, foe in found if own == ("wc", "cn") and foe[0] == "ec"}
        self.assertEqual(facing, {("ec", "cw"), ("ec", "cn")})
        [phases] = [line.command["phases"] for line in run.first if line.command["cmd"] == "signal"]
        left = [*ways.ways[edges.index({("wc", "cn")})][0]]
        self.assertEqual(sum(seconds for seconds, green in phases if left in green), 42)

    @needs_simulator
    def test_lines_replay(self):
        """A run's lines as those of a file, without the controller, give the same record."""
        self.replay(*self.imported("cross1", crosses.shared(30) | {("e", "straight"): 500, ("e", "left"): 100}))

    @needs_simulator
    def test_lines_replay_without_a_light(self):
        departs = [*((at, "w") for at in range(0, 1200, 7)), *((at, "s") for at in range(0, 1200, 9))]
        files = self.write("net.net.xml", junction()), "--routes", self.write("demand.rou.xml", routes(departs))
        self.tool("import", *files, "-o", self.folder / "run.jsonl", "--map", self.folder / "map.json")
        self.replay(read_own_run(self.folder / "run.jsonl"), read_map(self.folder / "map.json"))

    def replay(self, run, mapping):
        """Makes a run, and one of its lines."""
        live, plain = Record(), Record()
        kernel, _ = made(PROGRAM, run, mapping, Settings(1500), live)
        lines = [(one.clock, one.line) for one in kernel.sent_lines]
        self.assertGreater(sum(one.for_a_gap for one in kernel.sent_lines), 50)
        without = replace(mapping, lit_ways=[], open_ways=[])
        made(PROGRAM, with_lines(run, lines), without, Settings(1500), plain)
        self.assertEqual(live.rows, plain.rows)


if __name__ == "__main__":
    unittest.main()
