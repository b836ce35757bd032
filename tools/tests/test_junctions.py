"""The junction tables: against hand reckoning on a street of two links, and of a whole run against its other tables."""
import csv
import json
import re
import unittest
from collections import Counter
from dataclasses import replace
from types import SimpleNamespace

import numpy

from seen import kernel_of, show
from support import MAP, NUMBERED, PROGRAM, TOOLS, Case, needs_simulator
from streetsim.control.bus_fleet import Dwell
from streetsim.model.doubts import ALL, JUNCTION, OF_WORKS, Doubt
from streetsim.model.fullness import STRAIGHT, FullLane, Fullness
from streetsim.model.mapping import Map, MapLink, MapNode, MapSignal, MapTurn, map_from
from streetsim.model.service import PRIORITY, ROUNDABOUT, SIGNALS, STOP_LOSS, level, percentile
from streetsim.model.tables import APPROACHES, JUNCTIONS, MOVEMENTS, read_table
from streetsim.model.waiting import Foe, Gap, GivingWay
from streetsim.observe.crossings import Crossed, Crossings, Movements, PlanPlaces
from streetsim.observe.doubted_places import doubt_of_lane
from streetsim.observe.junction_capacity import usual_flow
from streetsim.observe.junction_facing import junctions_with_facing_streets
from streetsim.observe.junction_layout import Approach, Greens, approaches_of, movements_that_stop, turn_name
from streetsim.observe.junction_measures import Interval, Losses, stop_loss, weighted_mean_losses
from streetsim.observe.junction_rows import JunctionTables, queue_columns, queue_figures, spill_columns
from streetsim.observe.junctions import part_of
from streetsim.observe.lane_utilisation import UtilisationCalculator
from streetsim.observe.passages import Passages
from streetsim.observe.shown import ShownPlans
from streetsim.observe.shown_intervals import make_shown_interval

CORRIDOR = TOOLS / "examples/corridor"
# The light is red in steps 0 to 4 of each 10, then green.
SIGNAL = {"cmd": "signal", "node": 1, "offset": 0, "phases": [[5, []], [5, [[0, 0, 1]]]]}
PLANS = [[0, 1], [0, 1], [0]]
# Vehicle 0 comes from elsewhere at clock 1, drives 2 cells a step, stands at clocks 4 to 6 at the stop line, is in the
# junction at 7, and gone at 8. Vehicle 1 comes at 3 and stands behind it at 6 and 7. Vehicle 2 ends on the link.
FRAMES = [
    (1, [[0, 0, [[0, 0, 2]], []]]),
    (2, [[0, 0, [[0, 4, 4]], []]]),
    (3, [[0, 0, [[0, 8, 4], [1, 0, 2]], []]]),
    (4, [[0, 0, [[0, 9, 0], [1, 3, 3]], []]]),
    (5, [[0, 0, [[0, 9, 0], [1, 7, 4]], []]]),
    (6, [[0, 0, [[0, 9, 0], [1, 8, 0], [2, 0, 1]], []]]),
    (7, [[0, 0, [[1, 8, 0], [2, 4, 4]], [0]]]),
    (8, [[0, 0, [[1, 9, 1], [2, 8, 4]], []]]),
    (9, [[0, 0, [[2, 9, 1]], [1]]]),
    (10, [[1, 0, [[1, 0, 1]], []]]),
]


def at_rest(count, first=9):
    """Cells of vehicles that stand one behind the other."""
    return [[number, first - number, 0] for number in range(count)]


def cross(left):
    """A cross whose vertical street goes first: from the west straight on or left, from the east straight on;
    in an hour so many vehicles go left and 100 straight on from each side."""
    names = ["wc", "cw", "ec", "ce", "nc", "cn", "sc", "cs"]
    at = {name: number for number, name in enumerate(names)}
    gap = Gap(7.0, 3.6, 3.5)
    main = [Foe(at["nc"], 0, at["cs"], gap, False), Foe(at["sc"], 0, at["cn"], gap, False)]
    other = Foe(at["ec"], 0, at["cw"], gap, False)
    ways = {"wc ce": main, "ec cw": main, "wc cn": [*main, other]}
    turns = {way: tuple(at[name] for name in way.split()) for way in ways}
    waiting = [GivingWay(0, ((turns[way][0], 0, turns[way][1]),), tuple(foes)) for way, foes in ways.items()]
    links = [SimpleNamespace(edge=name) for name in names]
    plans = [turns["wc ce"], turns["ec cw"], (at["nc"], at["cs"])] * 100 + [turns["wc cn"]] * left
    return SimpleNamespace(links=links, nodes=[["C"]], yields=waiting), plans


def street(**more):
    """A map of links from node to node, {name: (begin, end)}, whose turns are where one ends and another begins."""
    ends = {name: pair for name, pair in more.items() if isinstance(pair, tuple)}
    links = [[name, [0], *pair, 10, 2, 75.0, [[pair[0], 0], [pair[1], 0]]] for name, pair in ends.items()]
    turns = [
        [at, 0, to, 0, None, 0, False]
        for at, (_, end) in enumerate(ends.values())
        for to, (begin, _) in enumerate(ends.values())
        if end == begin
    ]
    nodes = [[f"N{at}", at, 0, 1] for at in range(1 + max(max(pair) for pair in ends.values()))]
    return map_from("", {**MAP, "nodes": nodes, "links": links, "turns": turns, "signals": [], **more.get("also", {})})


class Approaches(unittest.TestCase):
    def test_back_to_the_last_junction(self):
        """Edges a, b, c lead one to the other to the light; before a two streets meet."""
        mapping = street(
            y=(0, 2), z=(1, 2), x=(2, 9), a=(2, 3), b=(3, 4), c=(4, 5), d=(5, 6), also={"signals": [["L", 5]]}
        )
        approach = approaches_of(mapping)["c"]
        names = [mapping.links[link].edge for link in approach.all_links]
        self.assertEqual((names, approach.whole_metres), (["c", "b", "a"], 225.0))

    def test_not_through_a_node_where_another_street_begins(self):
        mapping = street(a=(0, 1), b=(1, 2), off=(1, 4), c=(2, 3), also={"signals": [["L", 2]]})
        self.assertEqual(approaches_of(mapping)["b"].edges_before, [])

    def test_a_roundabout_is_a_junction_whose_approaches_are_its_entries(self):
        ring = {"p": (0, 1), "q": (1, 2), "r": (2, 0)}
        streets = {"in0": (3, 0), "in1": (4, 1), "out2": (2, 5)}
        mapping = street(**ring, **streets, also={"rings": [*ring]})
        found = {edge: (one.junction, one.control) for edge, one in approaches_of(mapping).items()}
        self.assertEqual(found, dict.fromkeys(("in0", "in1"), ("N0", ROUNDABOUT)))
        self.assertEqual(level(12, ROUNDABOUT), "B")


    def test_who_has_to_stop(self):
        for pace, ways in (([2, 4.15, 0.0], {("a", "b")}), ([], set())):
            mapping = street(a=(0, 1), b=(1, 2), also={"yields": [[1, [[0, 0, 1]], [], pace]]})
            self.assertEqual(movements_that_stop(mapping), ways)


class Standing(unittest.TestCase):
    def test_who_dawdles_at_a_limit_of_one_does_not_stand(self):
        """Only who has somebody, or the end, right before it."""
        slow = ["a", [0], 0, 1, 10, 1, 75.0, [[0, 0], [75, 0]]]
        frames = [(1, [[0, 0, [[0, 9, 0], [1, 8, 0], [2, 5, 0], [3, 2, 1]], []]])]
        for mapped, found in (({**MAP, "links": [slow, MAP["links"][1]]}, [1, 1, 0, 0]), (MAP, [1, 1, 1, 0])):
            seen = Seen()
            seconds = show(kernel_of(map_from("", mapped), [[0]] * 4), frames, seen)
            self.assertEqual(seen.standing(seconds, numpy.arange(4)).tolist(), found)


class Definitions(unittest.TestCase):
    def test_minor_streets_that_wait_for_each_other(self):
        for left, hours, found in ((60, 1, ["C"]), (20, 1, []), (60, 4, []), (0, 1, [])):
            self.assertEqual(junctions_with_facing_streets(*cross(left), hours), found, (left, hours))
        # Where vehicles from the east turn right, and need not wait, theirs is no minor street.
        mapping, plans = cross(60)
        self.assertEqual(junctions_with_facing_streets(mapping, [*plans, (2, 5)], 1), [])

    def test_turns(self):
        north = [(0, 0), (0, 10)]
        for way, name in (((0, 20), "T"), ((10, 10), "R"), ((-10, 10), "L"), ((0.1, 0), "U"), ((4, 20), "T")):
            self.assertEqual(turn_name(north, [(0, 10), way]), name, way)

    def test_letters(self):
        """Exhibits 18-4 and 19-1 of the Highway Capacity Manual 2010: a bound belongs to the better letter."""
        for control, bounds in ((SIGNALS, (10, 20, 35, 55, 80)), (PRIORITY, (10, 15, 25, 35, 50))):
            for better, worse, bound in zip("ABCDE", "BCDEF", bounds):
                self.assertEqual((level(bound, control), level(bound + 0.1, control)), (better, worse))
        self.assertEqual((level(5.0, SIGNALS, 1.01), level(5.0, SIGNALS, 1.0)), ("F", "A"))

    def test_the_lane_of_a_row(self):
        """That of the greatest 95 % value, of equal ones that of the greatest queue; nothing of no lane."""
        lanes = (10.0, 20.0, 5.0), (10.0, 25.0, 1.0), (9.0, 40.0, 9.0)
        self.assertEqual(queue_columns(lanes, 75.0), ("1.0", "10.0", "25.0", "75.0"))
        self.assertEqual(queue_columns([], 75.0), ("0.0", "0.0", "0.0", "75.0"))
        self.assertEqual((queue_figures([]), queue_figures([0.0, 4.0])), ((0.0,) * 3, (3.8, 4.0, 2.0)))

    def test_percentiles(self):
        self.assertEqual([percentile([4, 1, 3, 2, 5], share) for share in (0, 0.5, 0.95, 1)], [1, 3, 4.8, 5])
        self.assertEqual(percentile([], 0.5), 0.0)

    def test_queues(self):
        """From the stop line of a link of 75 m to the rear of the last of those who stand, 2.5 m before its cell ends;
        a gap of 15 m joins, one of 30 m does not. A full link has the gap behind its last vehicle."""
        queues = ([], 0.0), (at_rest(3), 20.0), ([[0, 9, 0], [1, 6, 0]], 27.5), ([[0, 9, 0], [1, 4, 0]], 5.0)
        more = ([[1, 8, 0]], 12.5), ([[0, 4, 0]], 0.0), ([[0, 9, 0, 2]], 12.5), (at_rest(10), 72.5)
        for cells, metres in (*queues, *more):
            seen = Seen()
            kernel = kernel_of(map_from("", MAP), [[0, 1]] * 10)
            show(kernel, [(clock, [[0, 0, cells, []]]) for clock in range(1, 4)], seen)  # who comes has not stood yet
            self.assertEqual(seen.back[:, 0].tolist(), [0.0, 0.0, metres], cells)

    def test_loss_of_a_stop(self):
        """At a light only of those who go straight on: of others seconds of green are left out instead. It is less
        where an edge has further lanes, of one link or of two."""
        one, more = STOP_LOSS
        for lanes, loss in (([(0, 0)], one), ([(0, 0), (0, 1)], more), ([(0, 0), (1, 0)], more)):
            lost = {}
            for control in (SIGNALS, PRIORITY):
                approach = Approach("a", "B", control, [0], 75.0, lanes, {"b": "T", "c": "L", "d": "R"})
                lost[control] = [stop_loss(approach, target) for target in "bcd"]
            self.assertEqual(lost, {SIGNALS: [loss, 0.0, 0.0], PRIORITY: [loss] * 3})

    def test_several_movements_together(self):
        """10 vehicles that lose 20 s and 30 that lose 40 s."""
        parts = Losses(10, 20.0, 10.0, 1.0), Losses(30, 40.0, 30.0, 2.0), Losses(0, 0.0, 0.0, 0.0)
        made = weighted_mean_losses(parts)
        self.assertEqual((made.vehicles, made.delay, made.stood, made.stops), (40, 35.0, 25.0, 1.75))

    def test_usual_flows(self):
        """Those of the page's table at a limit of 2, by headways; between its rows, and none beyond the last."""
        page = (TOOLS / "CALIBRATION.md").read_text(encoding="utf-8").partition("\n## Saturation\n")[2]
        rows = [line.split("|")[1:-1] for line in page.splitlines() if re.match(r"\| \d+ \|", line)][:11]
        told = {int(cells[0]): int(cells[2].replace(",", "")) for cells in rows}
        self.assertEqual(told[170], 1786)
        self.assertEqual({dawdle: round(usual_flow(dawdle)) for dawdle in told}, told)
        self.assertTrue(told[200] < usual_flow(185) < told[170])
        self.assertEqual(usual_flow(1000), usual_flow(450))

    def test_greens(self):
        greens = Greens(map_from("", MAP), [[0, SIGNAL]])
        self.assertEqual([greens.green_and_cycle_at(0, 0, step)[0] for step in (4, 5, 9, 10)], [set(), {1}, {1}, set()])
        self.assertEqual(greens.begin_of(0, 0, 17), 15)
        self.assertIsNone(greens.begin_of(0, 0, 12))
        self.assertIsNone(greens.green_and_cycle_at(1, 0, 3)[0])

    def test_plans_one_after_another(self):
        """As of a light that detectors drive: red from 0 s, green from 4 s, red from 9 s and green from 12 s on. A plan
        before whose clock nothing was sent is none."""
        parts = [(0, []), (4, [[0, 0, 1]]), (9, []), (12, [[0, 0, 1]])]
        plans = [[clock, {**SIGNAL, "offset": -clock % 600, "phases": [[600, green]]}] for clock, green in parts]
        greens = Greens(map_from("", MAP), plans[1:])
        self.assertEqual([greens.green_and_cycle_at(0, 0, step)[0] for step in (3, 4, 8, 9, 11, 12, 99)],
                         [None, {1}, {1}, set(), set(), {1}, {1}])
        self.assertEqual((greens.begin_of(0, 0, 8), greens.begin_of(0, 0, 20)), (None, 12))
        # Of the queues those at the begins of greens count, 4 and 12 s, not one of each plan.
        self.assertEqual(judged(FRAMES, [[1, *plan] for plan in PLANS], plans).queues[0, 0], [0.0, 12.5])

    def test_saturation_headways(self):
        """Ten vehicles pass from step 5 on: the first four in every third step, the others in every second."""
        frames = [(clock, [[0, 0, at_rest(10), []]]) for clock in range(1, 6)]
        gone, clock = 0, 5
        for steps in (3,) * 4 + (2,) * 6:
            for _ in range(steps - 1):
                clock += 1
                frames.append((clock, [[0, 0, [[car, 9 - car, 0] for car in range(gone, 10)], []]]))
            clock, gone = clock + 1, gone + 1
            frames.append((clock, [[0, 0, [[car, 9 - car, 0] for car in range(gone, 10)], [gone - 1]]]))
        signals = [[0, {**SIGNAL, "phases": [[5, []], [50, [[0, 0, 1]]]]}]]
        [one] = judge_of(frames, [[0, 1]] * 10, signals).discharged[0, 0]
        # Six headways of 2 s. The fourth passes 12 s after green, 4 s later than at such headways.
        self.assertEqual((one.headway, one.lost), (2.0, 4.0))


class Seen(Passages):
    """Passages that keep what lanes showed, by second."""

    def log_lanes(self, _, back, stood):
        kept = (numpy.concatenate(pair) for pair in ((self.back, back), (self.stood, stood)))
        self.back, self.stood = kept if hasattr(self, "edges") and self.seen else (back, stood)
        self.seen = True

    back = stood = ()
    seen = False


def passages_of(frames, plans, mapping=None, parts=1):
    """The passages of what is seen of the street, in so many parts, and then nobody."""
    seen, kernel = Seen(), kernel_of(mapping or map_from("", MAP), plans)
    show(kernel, [*frames, (frames[-1][0] + 1, [])], seen, parts=parts)
    return seen


def judge_of(frames, plans, signals=((0, SIGNAL),), dwells=None, parts=1, interval=900):
    """The judge of what is seen of the street, in so many parts, and then nobody, by intervals of so many seconds;
    dwells: by vehicle its stops."""
    seen = passages_of(frames, plans, parts=parts)
    crossed = Crossed(seen, seen.kernel.plans, interval, dwells or {})
    return UtilisationCalculator(seen, ShownPlans(seen.kernel.map, signals), crossed, 0)


def judged(frames, plans, signals=((0, SIGNAL),), dwells=None, end=10, parts=1):
    """What is known of the street up to a clock."""
    judge = judge_of(frames, plans, signals, dwells, parts, end)
    seen = judge.passages
    back, stood = seen.back[:end], seen.stood[:end]
    shown = make_shown_interval(judge.shown_plans, seen.lanes, seen.lane_keys, 0, back, stood)
    return judge.interval_measures(0, shown)


def departs_of(seen):
    """The clocks of the wished departures, by vehicle."""
    return numpy.array([line.command["depart"] for line in seen.kernel.run.enters])


class ByHand(unittest.TestCase):
    plans = [[1, *plan] for plan in PLANS]

    def crossings(self, frames, plans, mapping=None, interval=900):
        """The movement and the end of each passage that goes on, taken by intervals of so many seconds."""
        seen = passages_of(frames, plans, mapping)
        movements = Movements(seen)
        places, found = PlanPlaces(movements, seen.kernel.plans), []
        for _, part in seen.ended_passages(interval, {}):
            one = Crossings(places, part, departs_of(seen))
            found += zip(map(movements.edge_pair, one.movement.tolist()), one.end.tolist(), strict=True)
        return found

    def test_layout(self):
        [approach] = approaches_of(map_from("", MAP)).values()
        self.assertEqual((approach.edge, approach.junction, approach.control), ("a", "B", SIGNALS))
        self.assertEqual((approach.movements, approach.lanes, approach.metres), ({"b": "T"}, [(0, 0)], 75.0))

    def test_delays(self):
        """10 cells at 5 a step and 1 s in the junction are 3 s; the vehicles take 7 of them, and both stop once."""
        lost = judged(FRAMES, self.plans).lost["a", "b"]
        self.assertEqual((lost.vehicles, lost.delay, lost.stood, lost.stops), (2, 4 + STOP_LOSS[0], 2.5, 1.0))
        self.assertEqual(self.crossings(FRAMES, self.plans), [(("a", "b"), 8), (("a", "b"), 10)])
        self.assertEqual(judged(FRAMES, self.plans, end=9).lost["a", "b"].vehicles, 1)

    def test_who_waits_to_enter(self):
        """Vehicles that wished to depart at 0 and are first seen at 9 and at 13, where the light is, have waited 8 and
        12 s; in the first 11 s two more wait at the end than at the begin, of whom one never enters."""
        mapping = street(e=(0, 1), g=(1, 2), also={"signals": [["L", 1]]})
        frames = [(clock, []) for clock in range(1, 9)] + [(9, [[0, 0, [[0, 1, 2]], []]]), (10, [[0, 0, [], [0]]])]
        frames += [(clock, []) for clock in (11, 12)] + [(13, [[0, 0, [[1, 1, 2]], []]]), (14, [[0, 0, [], [1]]])]
        seen = passages_of(frames, [[0, 1]] * 3, mapping)
        crossed = Crossed(seen, seen.kernel.plans, 11, {})
        first, second = (crossed.losses_in(number)[0]["e", "g"] for number in (0, 1))
        self.assertEqual(second.delay - first.delay, 4)
        self.assertGreater(first.delay, 2)
        self.assertEqual([crossed.entering_more(number) for number in (0, 1)], [{("e", "g"): 2}, {("e", "g"): -1}])

    def test_parts_of_the_seconds_show_what_all_do(self):
        """However the seconds are handed over: all at once, a few, or one at a time."""
        for dwells in ({}, {0: [Dwell(0, 4, 6, 3)]}):
            whole = judged(FRAMES, self.plans, dwells=dwells)
            for parts in (2, 3, 11):
                self.assertEqual(judged(FRAMES, self.plans, dwells=dwells, parts=parts), whole, parts)

    def test_an_edge_that_stands_twice_in_a_plan(self):
        """Each passage is judged by what follows there: the first goes on to b, the second ends on the edge."""
        on = [[[0, 0, [[0, 5, 2]], []]], [[0, 0, [], [0]]], [[1, 0, [[0, 2, 2]], []]]]
        frames = [*enumerate(on, 1), (4, [[0, 0, [[0, 3, 2]], []]]), (5, [[0, 0, [], [0]]])]
        [(_, done)] = passages_of(frames, [[0, 1, 0]]).ended_passages(900, {})
        self.assertEqual(len(done["end"]), 2)
        for interval in (900, 4, 1):
            self.assertEqual(self.crossings(frames, [[0, 1, 0]], interval=interval), [(("a", "b"), 3)])

    def test_who_leaves_an_approach_from_an_edge_before(self):
        """Edge e, which f alone continues, leads to the light. Vehicle 0 has passed it and ends on f; vehicle 1 turns
        back at the end of f, comes once more, and passes the light then."""
        mapping = street(f=(0, 1), e=(1, 2), g=(2, 3), also={"signals": [["L", 2]]})
        frames = [[[1, 0, [[0, 9, 2]], []]], [[1, 0, [], [0]]], [[2, 0, [[0, 1, 2]], []], [0, 0, [[1, 5, 2]], []]]]
        frames += [[[0, 0, [[0, 3, 2]], []], [2, 0, [[1, 1, 2]], []]], [[0, 0, [[1, 5, 2]], []]]]
        frames += [[[1, 0, [[1, 5, 2]], []]]]
        for interval in (900, 4, 1):
            found = self.crossings([*enumerate(frames, 1)], [[1, 2, 0], [0, 2, 0, 1, 2]], mapping, interval)
            self.assertEqual(found, [(("e", "g"), 3), (("e", "g"), 7)])

    def test_an_edge_before_the_approach_counts(self):
        """Edge e continues f alone. Who goes along both at full speed, 5 seconds each and one across, loses nothing but
        parts of a second; who stands for 4 s on f loses these, and what a stop costs."""
        mapping, found = street(f=(0, 1), e=(1, 2), g=(2, 3), also={"signals": [["L", 2]]}), []
        for wait in (0, 4):
            way = [[[0, 0, [[0, cell, 2]], []]] for cell in (1, 3, 5, 7, 9)] + wait * [[[0, 0, [[0, 9, 0]], []]]]
            way += [[[0, 0, [], [0]]], *([[1, 0, [[0, cell, 2]], []]] for cell in (1, 3, 5, 7, 9)), [[1, 0, [], [0]]]]
            seen = passages_of([*enumerate([*way, [[2, 0, [[0, 1, 2]], []]]], 1)], [[0, 1, 2]], mapping)
            movements = Movements(seen)
            [(_, done)] = seen.ended_passages(900, {})
            planned = PlanPlaces(movements, seen.kernel.plans)
            found += Crossings(planned, done, departs_of(seen)).delay.tolist()
        self.assertAlmostEqual(found[0], 0, delta=1)
        self.assertAlmostEqual(found[1] - found[0], 4 + STOP_LOSS[0])

    def test_a_stop_of_its_own_is_no_delay(self):
        """The first vehicle stands for 3 s at a bus stop, 2 of them with open doors: it loses 2 s of its 4, has not
        stopped for the junction, and stood nowhere else."""
        lost = judged(FRAMES, self.plans, dwells={0: [Dwell(0, 4, 6, 3)]}).lost["a", "b"]
        self.assertEqual((lost.delay, lost.stood, lost.stops), ((2 + 4 + STOP_LOSS[0]) / 2, 1.0, 0.5))
        # One on another link, or of another passage, changes nothing.
        stops = {0: [Dwell(1, 4, 6, 3), Dwell(0, 90, 96, 6)]}
        [(_, elsewhere)] = passages_of(FRAMES, self.plans).ended_passages(900, stops)
        self.assertEqual(elsewhere["dwell"].tolist(), [0, 0, 0])
        # Who stops at the bus stop and then in a queue has stopped once for the junction.
        speeds = enumerate((2, 0, 0, 1, 0, 0), 1)
        frames = [*((clock, [[0, 0, [[0, 5, speed]], []]]) for clock, speed in speeds), (7, [[0, 0, [], [0]]])]
        [(_, both)] = passages_of(frames, [[0, 1]]).ended_passages(900, {0: [Dwell(0, 2, 2, 2)]})
        self.assertEqual((self.passage(frames)[0], both["stops"].tolist()), (2, [1]))

    def passage(self, frames):
        """(stops, seconds of standing) of the only passage."""
        [(_, done)] = passages_of(frames, [[0, 1]]).ended_passages(900, {})
        [stops], [stood] = done["stops"].tolist(), done["stood"].tolist()
        return stops, stood

    def test_who_departs_stands_without_a_stop(self):
        frames = [(1, [[0, 0, [[0, 0, 0]], []]]), (2, [[0, 0, [[0, 1, 1]], []]]), (3, [[0, 0, [], [0]]])]
        self.assertEqual(self.passage(frames), (0, 0))

    def test_queues(self):
        """Of one cycle of 10 steps: at clock 7 the second vehicle has stood for two."""
        self.assertEqual(judged(FRAMES, self.plans).queues[0, 0], [12.5])

    def test_a_second_of_standing_is_no_stop(self):
        frames = [
            (clock, [[0, 0, [[0, 5, speed]], []]]) for clock, speed in ((1, 2), (2, 0), (3, 1), (4, 0), (5, 0), (6, 0))
        ]
        self.assertEqual(self.passage([*frames, (7, [[0, 0, [], [0]]])]), (1, 4))

    def test_capacity(self):
        """Green has 5 steps, and 1.5 s are won at its begin; 2 pass in 10 s of 2,400 vehicles an hour."""
        self.assertAlmostEqual(judged(FRAMES, self.plans).uses[0, 0], 2 / (2400 * 6.5 / 3600))

    def test_rows(self):
        full = Fullness((FullLane("B", "a_0", STRAIGHT, "a", "b", 1.104),), 2, 2)
        mapping = replace(map_from("", MAP), full=full)
        made = JunctionTables(approaches_of(mapping), mapping)
        made.add(judged(FRAMES, self.plans))
        [row] = [dict(zip(MOVEMENTS, row, strict=True)) for row in made.movements]
        names = ("junction", "approach", "to", "movement", "vehicles", "vehicles_per_hour", "queue_95_m", "v_c", "los")
        self.assertEqual([row[name] for name in names], ["B", "a", "b", "T", 2, "720", "12.5", "0.46", "A"])
        self.assertEqual((row["capacity_per_hour"], row["error_s"]), ("1560", ""))
        [approach], [junction] = made.approaches, made.junctions
        self.assertEqual((approach[APPROACHES.index("los")], junction[JUNCTIONS.index("los")]), ("A", "A"))
        self.assertEqual(junction[JUNCTIONS.index("nearly_full")], row["v_c"])  # one number, of the run


    def test_parts_of_wide_intervals(self):
        """The longest that divide them, of five minutes to a quarter of an hour; else they are not parted."""
        found = {interval: part_of(interval) for interval in (300, 900, 3600, 2000, 1801)}
        self.assertEqual(found, {300: 300, 900: 900, 3600: 900, 2000: 500, 1801: 1801})

    def test_rooms(self):
        """One lane leads to two: that which goes straight on has the room of both edges, the pocket its own."""
        lanes = {"p": [0], "a": [0, 1], "b": [0], "c": [0]}
        ends = {"p": (0, 1), "a": (1, 2), "b": (2, 3), "c": (2, 4)}
        shapes = {"p": [[0, 0], [9, 0]], "a": [[9, 0], [19, 0]], "b": [[19, 0], [29, 0]], "c": [[19, 0], [19, 9]]}
        nodes = [MapNode(name, 0.0, 0.0, 1) for name in "OPQRS"]
        links = [MapLink(name, lanes[name], *ends[name], 10, 2, 100.0, shapes[name]) for name in lanes]
        pairs = ((0, 0, 1, 0), (0, 0, 1, 1), (1, 0, 2, 0), (1, 1, 3, 0))
        turns = [MapTurn(*pair, "L", 0, False) for pair in pairs]
        mapping = Map(nodes, links, turns, [MapSignal("L", 2)], [], {}, [])
        self.assertEqual(approaches_of(mapping)["a"].rooms, {(1, 0): 200.0, (1, 1): 100.0})

    def test_a_pocket_that_fills_and_is_blocked(self):
        """Of four cycles its queue fills it in one, and that of the lane beside reaches past it in two."""
        approach = Approach("a", "B", SIGNALS, [0], 100.0, [(0, 0), (0, 1)], whole_metres=200.0)
        approach.rooms = {(0, 0): 200.0, (0, 1): 100.0}
        queues = {(0, 0): [10.0, 98.0, 150.0, 97.0], (0, 1): [97.5, 97.0, 0.0, 20.0]}
        interval = Interval(0, 900, queues=queues)
        self.assertEqual(spill_columns(interval, approach, [(0, 1)]), ("25", "50"))
        self.assertEqual(spill_columns(interval, approach, [(0, 0)]), ("0", ""))

    def test_rows_that_are_doubted(self):
        """A lane that is full by the demand and was seen to be doubts its movement; so
        does a v/c near 1; a doubt of another time does not."""
        mapping, interval = map_from("", MAP), judged(FRAMES, self.plans)

        def doubts(*doubts, uses=None, giving=()):
            """The doubts of movement, approach and junction."""
            made = JunctionTables(approaches_of(mapping), mapping, doubts, giving=giving)
            made.add(replace(interval, uses=uses or interval.uses))
            return [rows[0][-1] for rows in (made.movements, made.approaches, made.junctions)]

        def lane(demand, begin=0, end=0, name="a_0"):
            """A lane that is full."""
            return doubt_of_lane(FullLane("B", name, STRAIGHT, "a", "b", demand, 9, begin, end))

        full = {(0, 0): 0.87}
        self.assertEqual(doubts(), ["", "", ""])
        self.assertEqual(doubts(lane(1.07), uses=full), ["v/c 0.87"] * 3, "not the import's estimate")
        self.assertEqual(doubts(lane(0.85)), ["", "", ""], "the run shows a v/c of 0.46")
        self.assertEqual(doubts(lane(0.85, name="a_1"), uses=full), ["", "", ""])
        self.assertEqual(doubts(lane(0.85, 9_000, 9_900), uses=full), ["", "", ""])
        self.assertEqual(doubts(uses={(0, 0): 0.93}), ["v/c 0.93"] * 3)
        self.assertEqual(doubts(uses={(0, 0): 0.83}), ["", "", ""])
        self.assertEqual(doubts(uses={(0, 0): 0.83}, giving=[(0, 0)]), ["v/c 0.83"] * 3)
        made = JunctionTables(approaches_of(mapping), mapping)
        for use in (0.93, 0.87, 0.87):
            made.add(replace(interval, uses={(0, 0): use}))
        self.assertEqual([row[-1] for row in made.movements], ["v/c 0.93", "v/c 0.93 in the interval before", ""])
        self.assertEqual(doubts(Doubt(JUNCTION, "B", "", "odd", ALL)), ["odd"] * 3)
        self.assertEqual(doubts(Doubt(OF_WORKS, "", "a", "odd", ALL)), ["", "", ""])


@needs_simulator
class OfARun(Case):
    """The first half hour of the corridor."""

    def run_corridor(self, out, *words):
        run, mapped = self.folder / "run.jsonl", self.folder / "map.json"
        network, routes = CORRIDOR / "corridor.net.xml.gz", CORRIDOR / "corridor.rou.xml"
        self.tool("import", network, "--routes", routes, "-o", run, "--map", mapped)
        usual = ("--map", mapped, "--until", 1800, "--every", 0, "--out", self.folder / out, "--program", PROGRAM)
        return self.tool("run", run, *usual, *words)

    def table(self, out, name, columns):
        return read_table(f"{self.folder}/{out}/{name}.csv", columns)

    def test_vehicles_are_those_of_the_other_tables(self):
        self.run_corridor("out", "--junctions", "900")
        movements = self.table("out", "movements", MOVEMENTS)
        passed = Counter()
        for row in movements:
            passed[row["begin"], row["approach"]] += int(row["vehicles"])
        with open(self.folder / "out/edges.csv", encoding="utf-8") as file:
            left = {(row["begin"], row["edge"]): int(row["left"]) for row in csv.DictReader(file)}
        self.assertEqual(len(passed), 40)
        for key, count in passed.items():
            self.assertAlmostEqual(count, left[key], delta=4)  # those in the junction at an end of the interval
        total = sum(passed.values())
        junctions = self.table("out", "junctions", JUNCTIONS)
        self.assertEqual(sum(int(row["vehicles"]) for row in junctions), total)
        for row in movements:
            self.assertGreaterEqual(float(row["control_delay_s"]) + 1, float(row["stopped_delay_s"]))
            self.assertLessEqual(float(row["queue_50_m"]), float(row["queue_95_m"]))
            self.assertTrue(0 < float(row["v_c"]) < 1)

    def test_a_queue_beyond_a_short_approach(self):
        """A street of 75 m before an approach of 15 m, which another street joins: what stands on these is in no row,
        which is said; not where the approach has room for all, nor where it alone continues the street."""
        for cells, count, joins, said in ((2, 9, 1, True), (2, 1, 1, False), (20, 9, 1, False), (2, 9, 0, False)):
            nodes = [["A", 0, 0, 1], ["P", 75, 0, 1], ["B", 90, 0, 1], ["C", 165, 0, 1]]
            ends = [("z", 0, 1, 10), ("a", 1, 2, cells), ("b", 2, 3, 10), *[("y", 3, 1, 10)] * joins]
            links = [[name, [0], *pair, long, 5, 7.5 * long, [[0, 0], [1, 0]]] for name, *pair, long in ends]
            turns = [[0, 0, 1, 0, "", 0, False], [1, 0, 2, 0, "L", 0, False], *[[3, 0, 1, 0, "", 0, False]] * joins]
            more = {"nodes": nodes, "links": links, "turns": turns, "signals": [["L", 2]]}
            more["cars"] = [f"v{number}" for number in range(count)]
            load = {**NUMBERED, "nodes": [[at, 1, 2] for at in range(4)], "turns": [turn[:4] for turn in turns]}
            load["links"] = [[at, *pair, 1, long, 5] for at, (_, *pair, long) in enumerate(ends)]
            green = [[60, []], [60, [[1, 0, 2]]]]
            enter = {"cmd": "enter", "plan": [0, 1, 2], "lane": 0, "depart": 0}
            signal = {"cmd": "signal", "node": 2, "offset": 0, "phases": green}
            lines = [{"cmd": "load", **load}, signal, *[enter] * count]
            run = self.write("street.jsonl", "".join(json.dumps(line) + "\n" for line in lines))
            mapped = self.write("street.json", json.dumps({**MAP, **more}))
            words = ("--map", mapped, "--junctions", 60, "--out", self.folder / "out", "--program", PROGRAM)
            out, told = self.tool("run", run, *words)
            self.assertEqual("and goes on in the edge before it, which no table has: a\n" in told, said, (cells, told))
            why = "junction tables: delays, letters and queues are too small at a, as queues go on in the edges before"
            self.assertEqual(out.splitlines()[-1].startswith(f"not to be trusted: {why}"), said, (cells, out))
            self.tool("report", self.folder / "out", "-o", self.folder / "page.html")
            page = (self.folder / "page.html").read_text(encoding="utf-8")
            self.assertEqual("nothing that a run checks of itself speaks against it" in page, not said)
            self.assertEqual(f"is not to be trusted: seed 0: {why}" in page, said)
            row = self.table("out", "approaches", APPROACHES)[0]
            whole = float(row["storage_m"]) == 7.5 * (cells + 10)
            self.assertEqual((row["approach"], whole), ("a", not joins))
            self.assertEqual(float(row["queue_max_m"]) > 7.5 * cells, not joins)


if __name__ == "__main__":
    unittest.main()
