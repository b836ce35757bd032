"""What a run tells of its works: who passed, how far the queue reached, who stood; by hand, and beside looks at all."""
import csv
import json
import unittest
from dataclasses import replace
from types import SimpleNamespace

from seen import made
from support import MAP, PROGRAM, Case, needs_simulator
from test_pictures import needs_matplotlib
from test_works import fan, flows
from streetsim.base.client import Lane
from streetsim.base.files import Fault
from streetsim.control.settings import Settings
from streetsim.control.works_asked import AskedWorks as Wanted, clock_of, really_closed, sites_of, works_of
from streetsim.control.works_closures import Closure, closures_of
from streetsim.control.works_crowding import (
    PASSES, PASSES_BEHIND_LIGHT, crowded_works, passes_beside, told_of_crowded, told_of_crowding,
)
from streetsim.control.works_figures import Period, capacity_of, length_at, periods_of, works_rows
from streetsim.control.works_movements import lost_movements, told_of_lost, without_led_turns
from streetsim.control.works_queue_ends import reach_of, streets_of
from streetsim.control.works_sites import imported_for, lanes_to_join, lanes_to_lead, with_works
from streetsim.control.works_watched import Watched, WorksPassing, WorksQueue, doubts_of
from streetsim.kernel.loop import Observer
from streetsim.kernel.seconds import Vehicles
from streetsim.model.doubts import OF_WORKS
from streetsim.model.mapping import Map, MapLink, MapSignal, MapTurn, map_from
from streetsim.model.runs import Line, Run
from streetsim.model.tables import BEFORE_WORKS
from streetsim.observe.works import LanesNow, WorksTable, upstream_of


def link(edge, lanes=2, cells=40, begin=0, end=1):
    return MapLink(edge, tuple(range(lanes)), begin, end, cells, 2, cells * 7.5, ((0, 0), (cells * 7.5, 0)))


def mapped(*links, turns=()):
    """A map of links in a row."""
    nodes = [[f"N{at}", 100 * at, 0, 1] for at in range(len(links) + 1)]
    return Map(nodes=nodes, links=list(links), turns=list(turns), signals=[], cars=[], options={}, warnings=[])


def turn(link, lane, following, added=False):
    return MapTurn(link, lane, following, lane, None, 0, added)


TWO = mapped(
    link("z"), link("a", begin=1, end=2), turns=[turn(0, 0, 1), turn(0, 1, 1)]
)  # fmt: skip


def lane(*cells):
    """A lane with (car, cell, speed, ..)."""
    return Lane(tuple(cells), (), (), ())


def lanes(**places):
    """By z0, z1, a0, a1."""
    return {("za".index(name[0]), int(name[1])): lane(*cells) for name, cells in places.items()}


class Rows(unittest.TestCase):
    def test_queues_have_one_decimal(self):
        """Works on cells 3 to 5 of 7.5 m begin at 22.5 m."""
        table = WorksTable([])
        table.kernel = SimpleNamespace(map=map_from("", MAP))
        table.queues = [(60, Closure(0, 0, 3, 5, 0, 900), 2, 12.345)]
        self.assertEqual(list(table.queue_rows()), [(60, "a", 0, 2, 12.3, BEFORE_WORKS, "22.5")])


class Queues(unittest.TestCase):
    def reach(self, **places):
        found = reach_of(lanes(**places), streets_of(TWO), 1, 30)
        return found.metres, found.vehicles, found.full

    def test_up_to_the_rear_of_the_last_who_stands(self):
        self.assertEqual(self.reach(), (0.0, 0, []))
        self.assertEqual(self.reach(a0=[(1, 29, 0)]), (7.5, 1, []))
        self.assertEqual(self.reach(a1=[(1, 29, 0)]), (7.5, 1, []), "on the other lane alone")
        self.assertEqual(self.reach(a0=[(1, 29, 0)], a1=[(2, 22, 0, 3), (3, 10, 1)]), (75.0, 2, []), "a truck beside")
        self.assertEqual(self.reach(a0=[(1, 31, 0), (2, 20, 0)]), (75.0, 1, []), "who is past them is not of it")

    def test_each_at_most_ten_cells_behind_the_one_before(self):
        self.assertEqual(self.reach(a0=[(1, 25, 0), (2, 15, 0), (3, 4, 0)]), (15 * 7.5, 2, []))
        self.assertEqual(self.reach(a0=[(1, 25, 0), (2, 15, 1), (3, 6, 0)])[0], 5 * 7.5, "who drives is no link")

    def test_it_goes_on_upstream(self):
        near = [(car, 29 - 3 * car, 0) for car in range(9)]
        self.assertEqual(self.reach(a0=near), (26 * 7.5 - 7.5, 9, [1]))
        self.assertEqual(self.reach(a0=near, z1=[(90, 36, 0)])[:2], (30 * 7.5 + 4 * 7.5, 10))
        self.assertEqual(self.reach(a0=near, z1=[(90, 30, 0)])[:2], (26 * 7.5 - 7.5, 9), "too far behind the last")


class Two(unittest.TestCase):
    """Works in cells 30 to 35 of lane 0 of a from 100 to 900 s, and in cells 10 to 19 from 100 to 500 s."""

    def test_each_has_the_queue_before_it(self):
        first, second = Closure(1, 0, 10, 19, 100, 500), Closure(1, 0, 30, 35, 100, 900)
        both = [first, second]
        watched = [Watched(one, streets_of(TWO), [0.5, 0.5], upstream_of(one, both)) for one in both]
        standing = lanes(z0=[(9, 38, 0)], z1=[], a0=[(1, 29, 0), (4, 2, 0)], a1=[(2, 22, 0), (3, 12, 0), (5, 9, 0)])
        found = [(one.reach(120, standing).vehicles, one.reach(120, standing).metres) for one in watched]
        self.assertEqual(found, [(3, 75.0 + 15.0), (3, (30 - 12) * 7.5)])
        self.assertEqual(watched[1].further(120, standing), [], "the queue upstream is that of the works there")
        later = watched[1].reach(501, standing)
        self.assertEqual((later.vehicles, later.metres), (6, 30 * 7.5 + 15), "these are over")


class Seen(unittest.TestCase):
    """Works in cells 30 to 39 of lane 0 of a; a vehicle alone takes half a second a cell."""

    def watched(self):
        return Watched(Closure(1, 0, 30, 39, 100, 1900), streets_of(TWO), [0.5, 0.5])

    def test_who_passes_and_how_late(self):
        one = self.watched()
        looks = [
            (105, dict(a0=[(1, 20, 2)], a1=[(2, 33, 2)])), (110, dict(a0=[(1, 28, 0)], a1=[(3, 10, 2)])),
            (115, dict(a0=[(1, 28, 0)], a1=[(3, 34, 2)])), (135, dict(a0=[], a1=[(1, 35, 2), (4, 31, 2)])),
        ]  # fmt: skip
        for clock, seen in looks:
            one.note_look(clock, lanes(**{"a0": (), "a1": (), **seen}), lambda *_: True)
        # 2 was past them at the first look; 3 was seen in cell 10, ten seconds from them; 4 came between two looks.
        self.assertEqual(one.passings, [WorksPassing(115, 0.0), WorksPassing(135, 25.0), WorksPassing(135, 0.0)])
        self.assertEqual([stand.seconds for stand in one.stands], [0, 0, 5, 0])

    def test_who_is_rescued_has_not_passed_and_keeps_its_seconds(self):
        """Car 1 stands upstream, is taken out, and comes to the works as car 2: one vehicle passes, not two."""
        one = self.watched()
        near = [(car, 29 - 3 * car, 0) for car in range(3, 12)]
        one.note_look(105, lanes(a0=near, z0=[(1, 39, 0)]), lambda *_: True)
        one.rescue(1, 2)
        one.note_look(110, lanes(a0=near, z0=()), lambda *_: True)
        self.assertEqual(one.passings, [])
        one.note_look(115, lanes(a0=[*near, (2, 1, 1)], z0=()), lambda *_: True)
        one.note_look(145, lanes(a0=near, z0=()), lambda *_: True)
        # Alone it would take half a second to the end of z, one in the junction, and 15 s from there to cell 30.
        self.assertEqual(one.passings, [WorksPassing(145, 145 - 105 - 16.5)])

    def test_who_comes_over_links_between_is_late_by_what_it_takes_longer_on_them(self):
        """Before z lies y: two lanes of 40 cells, 20 s alone, and a second in each junction."""
        both = [turn(at, lane, at + 1) for at in (0, 1) for lane in (0, 1)]
        three = mapped(link("y"), link("z", begin=1, end=2), link("a", begin=2, end=3), turns=both)
        one = Watched(Closure(2, 0, 30, 39, 100, 1900), streets_of(three), [0.5, 0.5, 0.5])
        near = lane(*((car, 29 - 3 * car, 0) for car in range(3, 10)))
        far, buffered = lane((50, 36, 1)), Lane((), ((51, 0, 0),), (), ())
        seen = {(2, 0): near, (2, 1): lane(), (1, 0): lane(), (1, 1): lane(), (0, 0): far, (0, 1): buffered}
        one.note_look(110, seen, lambda *_: True)
        self.assertEqual([one.coming[car].free for car in (50, 51)], [2 + 1 + 20 + 1 + 15, 20 + 1 + 15])

    def test_a_street_behind_a_short_one_is_looked_at_with_it(self):
        """The queue reaches the begin of a, and y before it has 5 cells, 2.5 s alone: z is asked for at once too, and
        stands before y there."""
        both = [turn(at, lane, at + 1) for at in (0, 1) for lane in (0, 1)]
        three = mapped(link("z"), link("y", cells=5, begin=1, end=2), link("a", begin=2, end=3), turns=both)
        one = Watched(Closure(2, 0, 30, 39, 100, 1900), streets_of(three), [0.5, 0.5, 0.5])
        near = lane(*((car, 29 - 3 * car, 0) for car in range(10)))
        self.assertEqual(sorted(one.further(110, {(2, 0): near, (2, 1): lane()})), [0, 1])
        seen = {(2, 0): near, (2, 1): lane(), (0, 0): lane((50, 36, 1)), (0, 1): lane(), (1, 0): lane(), (1, 1): lane()}
        one.note_look(110, seen, lambda *_: True)
        self.assertEqual(one.coming[50].free, 2 + 1 + 2.5 + 1 + 15)

    def test_who_has_passed_them_does_not_come_to_them_again(self):
        """Vehicle 0 turns back behind works on link 1 and drives away over link 0, which leads to them; vehicle 1 comes
        over that to them, vehicle 2 over another one."""
        vehicles, works = Vehicles(), WorksTable([])
        vehicles.add(range(3), [1] * 3)
        works.kernel = SimpleNamespace(vehicles=vehicles, run=run_of([[1, 0, 5], [0, 1, 5], [4, 1]]))
        self.assertEqual([works.is_bound(car, 0, 1) for car in range(3)], [False, True, False])

    def test_links_upstream_are_looked_at_where_the_queue_comes_near_them(self):
        one = self.watched()
        near = [(car, 29 - 3 * car, 0) for car in range(9)]
        self.assertEqual(one.further(120, lanes(a0=(), a1=())), [])
        self.assertEqual(one.further(120, lanes(a0=near, a1=())), [0])
        self.assertEqual(one.further(120, lanes(a0=near, a1=(), z0=(), z1=())), [])
        one.note_look(110, lanes(a0=near, a1=(), z0=[(50, 39, 0)], z1=[(51, 38, 0)]), lambda car, *_: car != 51)
        self.assertEqual((one.coming[50].free, 51 in one.coming), (0.5 + 1 + 15, False))
        self.assertEqual(one.left_network, None)
        full = [(car, 38 - 3 * car, 0) for car in range(13)]
        one.note_look(115, lanes(a0=near, a1=(), z0=full, z1=()), lambda *_: True)
        self.assertEqual(one.left_network, 115)
        [told] = doubts_of([one], TWO)
        self.assertIn("the queue before the works on a_0 left the network at 115 s", told)

    def test_who_stands_for_two_minutes_is_a_doubt(self):
        one = self.watched()
        for clock in range(105, 231, 5):
            one.note_look(clock, lanes(a0=[(1, 29, 0)], a1=()), lambda *_: True)
        [told] = doubts_of([one], TWO)
        self.assertIn("before the works on a_0 1 stood for more than 120 s in one cell, one for 125 s", told)

    def test_rows(self):
        one = self.watched()
        for clock in range(105, 1901, 5):
            one.note_look(clock, lanes(a0=[(1, 29, 0)] if clock <= 1100 else [], a1=()), lambda *_: True)
            one.passings.append(WorksPassing(clock, 4.0 if clock < 1000 else 6.0))
        found = [dict(zip(("begin", "end"), row[:2])) | {"rest": row[2:]} for row in works_rows([one], TWO, 0, 900)]
        self.assertEqual([(row["begin"], row["end"]) for row in found], [(100, 900), (900, 1800), (1800, 1900)])
        edge, number, begin, end, vehicles, capacity, mean, most, *queues, stood = found[1]["rest"]
        self.assertEqual((edge, number, begin, end), ("a", 0, "225.0", "300.0"))
        # One each 5 s, and the one who stood until second 1,100.
        self.assertEqual((vehicles, capacity), (181, 720))
        self.assertEqual((queues, stood), (["0.0", "7.5", "7.5"], 995))

    def test_periods(self):
        found = [(one.begin, one.end) for one in periods_of(100, 2000, 50, 900)]
        self.assertEqual(found, [(100, 950), (950, 1850), (1850, 2000)])

    def test_lengths_are_shares_of_time(self):
        queues = [WorksQueue(5, 5, 10.0), WorksQueue(10, 5, 30.0), WorksQueue(20, 10, 20.0)]
        self.assertEqual([length_at(queues, share) for share in (0.25, 0.5, 0.75, 0.95, 1.0)], [10, 20, 20, 30, 30])

    def test_capacity_is_that_of_quarters_with_a_queue(self):
        one = self.watched()
        self.assertIsNone(capacity_of(one, Period(100, 900)))
        one.passings = [WorksPassing(clock, 0.0) for clock in range(101, 1900, 2)]
        one.queues = [WorksQueue(clock, 5, 0.0 if clock == 500 else 9.0) for clock in range(105, 1901, 5)]
        self.assertIsNone(capacity_of(one, Period(100, 1300)), "a queue since 500 alone")
        self.assertEqual(capacity_of(one, Period(1300, 1900)), 1800)


class Asked(unittest.TestCase):
    def test_times(self):
        times = {"07:00": 25200, "7:30": 27000, "07:00:00": 25200, "90": 90, "07:60": None, "x": None}
        self.assertEqual({text: clock_of(text) for text in times}, times)
        works = works_of("a_0:10-20:07:00-07:30:30", TWO)
        self.assertEqual((works.begin, works.end), (25200, 27030))

    def test_what_is_really_closed(self):
        works = [works_of(text, TWO) for text in ("a_0:0-200:0-9", "a_0:60-120:0-9")]
        told = list(really_closed(sites_of(works, TWO), TWO))
        why = "the first 30 m of a lane with one beside it stay open, as turns lead there"
        self.assertEqual(told, [f"works on a_0 close 30 to 202 m of 0 to 200 m: {why}"])

    def test_a_lane_with_braces_in_its_name_is_named_in_a_fault_of_its_import(self):
        told = r"^lane \{a\}_0 needs the import anew: \{x\}.net.xml: has changed. Run it with --joint \{a\}_0$"
        with self.assertRaisesRegex(Fault, told), imported_for("lane {a}_0", ". Run it with --joint {a}_0"):
            raise Fault("{x}.net.xml: has changed")

    def test_closures(self):
        told, place = ((10, "close", 0), (20, "close", 1), (30, "reopen", 0)), {"lane": 0, "first": 1, "last": 5}
        timed = [(clock, Line(0, "", {"cmd": cmd, "link": at, **place})) for clock, cmd, at in told]
        run = Run("x", Line(1, "", {}), timed=timed)
        self.assertEqual(closures_of(run, 100), [Closure(0, 0, 1, 5, 10, 30), Closure(1, 0, 1, 5, 20, 100)])


def run_of(plans, turns=(), first=()):
    load = {"cmd": "load", "turns": [list(one) for one in turns], "dawdle": 0}
    enters = [Line(at, "", {"cmd": "enter", "plan": plan, "lane": 0, "depart": at}) for at, plan in enumerate(plans)]
    return Run("x", Line(1, json.dumps(load), load), first=list(first), enters=enters)


class Movements(unittest.TestCase):
    """Of a two lanes lead on: both straight to b, the left one alone to c; the import added the right one."""

    MAP = mapped(
        link("a"), link("b"), link("c"),
        turns=[turn(0, 0, 1), turn(0, 1, 1), turn(0, 1, 2), turn(0, 0, 2, added=True)],
    )  # fmt: skip
    TURNS = [(0, 0, 1, 0), (0, 1, 1, 1), (0, 1, 2, 0), (0, 0, 2, 0)]

    def lost(self, first, last, lane=1):
        run = run_of([[0, 1], [0, 2], [0, 2]], self.TURNS)
        return run, lost_movements(run, self.MAP, [Closure(0, lane, first, last, 0, 900)])

    def test_who_loses_the_only_lane(self):
        run, lost = self.lost(20, 39)
        [told] = told_of_lost(lost, self.MAP, "lead")
        self.assertEqual(
            told,
            "works on a_1 close the only lane from which 2 vehicles turn to c while they last: these are led from a_0, "
            "from which all may turn in the whole run (--lost wait: they wait until the works end)",
        )
        self.assertEqual(self.lost(20, 30)[1], [], "they come back to the lane behind the works")
        self.assertEqual(self.lost(20, 39, lane=0)[1], [], "the other lane leads there too")

    def test_who_waits(self):
        run, lost = self.lost(20, 39)
        signal = {"cmd": "signal", "node": 1, "offset": 0, "phases": [[30, [[0, 0, 1], [0, 0, 2], [0, 1, 2]]]]}
        run.first = [Line(2, json.dumps(signal), signal)]
        made, mapping = without_led_turns(run, self.MAP, lost)
        self.assertEqual(made.load.command["turns"], [[0, 0, 1, 0], [0, 1, 1, 1], [0, 1, 2, 0]])
        self.assertEqual(json.loads(made.first[0].text)["phases"], [[30, [[0, 0, 1], [0, 1, 2]]]])
        self.assertEqual([(one.link, one.lane, one.next) for one in mapping.turns], [(0, 0, 1), (0, 1, 1), (0, 1, 2)])
        self.assertIn("these wait until the works end", *told_of_lost(lost, self.MAP, "wait"))

    def test_who_does_not_wait(self):
        """A plan that goes to c over a further link of a, from which the import added a turn, keeps that turn."""
        beside = replace(link("a"), lanes=(2,))
        turns = [turn(0, 1, 2), turn(0, 0, 2, added=True), turn(3, 0, 2, added=True)]
        mapping = mapped(link("a"), link("b"), link("c"), beside, turns=turns)
        run = run_of([[0, 2], [3, 2]], [(0, 1, 2, 0), (0, 0, 2, 0), (3, 0, 2, 0)])
        lost = lost_movements(run, mapping, [Closure(0, 1, 20, 39, 0, 900)])
        self.assertEqual(without_led_turns(run, mapping, lost)[0].load.command["turns"], [[0, 1, 2, 0], [3, 0, 2, 0]])


class Pockets(unittest.TestCase):
    """The same where the right lane (link 0) and the left one (1) are links of their own; the left one leads to c."""

    MAP = mapped(
        link("a"), replace(link("a"), lanes=(1,)), link("b"), link("c"),
        turns=[turn(0, 0, 2), turn(1, 0, 3), turn(0, 0, 3, added=True)],
    )  # fmt: skip
    LINKS = [replace(one, lanes=(at,)) for at, one in enumerate(MAP.links[:2])] + MAP.links[2:]

    def setUp(self):
        self.map = replace(self.MAP, links=self.LINKS)

    def lost(self, *closures):
        return lost_movements(run_of([[0, 2], [1, 3], [1, 3]]), self.map, closures)

    def test_who_is_led_over_the_link_beside(self):
        lost = self.lost(Closure(1, 0, 10, 39, 0, 900))
        for how, searched, told in (
            ("lead", False, "these are led from a_0, for that time alone (--lost wait: they wait until the works end)"),
            ("wait", False, "these wait until the works end"),
            ("bar", True, "ways round are searched for vehicles that come meanwhile"),
        ):
            before = "works on a_1 close the only lane from which 2 vehicles turn to c while they last: "
            self.assertEqual(list(told_of_lost(lost, self.map, how, searched)), [before + told])
        [told] = told_of_lost(lost, self.map, "bar")
        self.assertIn("these have no way, and wait until the works end; streetsim-route --close .. --lost bar", told)

    def test_those_alone_who_come_meanwhile(self):
        self.assertEqual(self.lost(Closure(1, 0, 10, 39, 3, 900)), [])
        [lost] = self.lost(Closure(1, 0, 10, 39, 3, 900), Closure(1, 0, 0, 39, 2, 3))
        self.assertEqual((lost.movement, lost.vehicles), (("a", "c"), 1))

    def test_who_comes_while_works_overlap_counts_once(self):
        """Two come, at 1 and at 2 s; two more closures on the same cells add nobody."""
        [lost] = self.lost(*(Closure(1, 0, 10, 39, begin, 900) for begin in (2, 0, 1)))
        self.assertEqual(lost.vehicles, 2)

    def test_who_comes_back_while_works_last_counts(self):
        """Over the same links twice, and there for the second time alone while they are closed."""
        run = run_of([[1, 3, 1, 3]])
        [lost] = lost_movements(run, self.map, [Closure(1, 0, 10, 39, 5, 900)])
        self.assertEqual(lost.vehicles, 1)

    def test_works_are_led_by_whichever_of_them_begins_near(self):
        """Both close the lane to its end; one of them begins 10 m from the edge's begin."""
        far, near = (Wanted("", "a_1", begin, 300, 0, 900) for begin in (200, 10))
        for works in ([far, near], [near, far]):
            self.assertEqual(lanes_to_lead(works, self.map), ["a_1"])
            self.assertEqual(lanes_to_join(works, self.map), [])
        self.assertEqual((lanes_to_lead([far], self.map), lanes_to_join([far], self.map)), ([], ["a_1"]))

    def test_where_nothing_is_lost_or_all_is_closed(self):
        self.assertEqual(self.lost(Closure(1, 0, 10, 35, 0, 900)), [], "they come back behind the works")
        self.assertEqual(self.lost(Closure(1, 0, 10, 39, 0, 9), Closure(0, 0, 10, 39, 0, 9)), [], "told otherwise")


class Crowding(unittest.TestCase):
    def told(self, mapping, hourly, closures=(Closure(0, 0, 20, 30, 0, 900),)):
        run = run_of([[0]] * (hourly // 4))
        for line in run.enters:
            line.command["depart"] = line.command["depart"] * 3600 // hourly
        doubts = crowded_works(run, mapping, closures)
        return list(told_of_crowding(run, mapping, closures)), list(told_of_crowded(doubts))

    def test_more_come_than_pass(self):
        self.assertEqual(self.told(mapped(link("a")), 1100), ([], []))
        told, doubted = self.told(mapped(link("a")), 2000)
        self.assertIn("edge a: some 2,000 vehicles an hour come to works that leave 1 of 2 lanes", told[0])
        self.assertTrue(told[0].endswith("a queue grows before them"))
        told, doubted = self.told(mapped(link("a"), link("a", 1)), 2000)
        self.assertEqual([text.replace("edge a", "works on a") for text in told], doubted[1:])

    def test_works_near_what_their_lanes_pass_are_doubted(self):
        """One lane beside works passes 1,600 an hour."""
        why = "and what they add may be far from SUMO's"
        for hourly, share in ((1200, "0.75"), (1500, "0.94"), (2000, "1.25")):
            doubted = self.told(mapped(link("a")), hourly)[1]
            told = f"works on a: demand {share} of what the open lane passes in the worst hour, {why}"
            self.assertEqual(doubted, [told])

    def test_the_worst_hour_decides(self):
        """1,400 come in the first of three hours and nobody later: by the mean of all nobody would doubt it."""
        run = run_of([[0]] * 1400)
        for at, line in enumerate(run.enters):
            line.command["depart"] = at * 3600 // 1400
        [one] = crowded_works(run, mapped(link("a")), [Closure(0, 0, 20, 30, 0, 10_800)])
        self.assertEqual((one.kind, one.edge, one.begin, one.end, one.size), (OF_WORKS, "a", 0, 3600, 0.88))
        self.assertEqual(crowded_works(run, mapped(link("a")), [Closure(0, 0, 20, 30, 3600, 10_800)]), [])

    def test_behind_a_light_fewer_pass(self):
        """Works that begin 150 m behind the light at the begin of a street of 300 m, and 900 m behind another one."""
        mapping = mapped(link("a", cells=120), link("b", begin=1, end=2), turns=[turn(0, 0, 1)])
        works = Closure(1, 0, 20, 30, 0, 3600)
        for node, passes in ((1, PASSES_BEHIND_LIGHT), (0, PASSES), (2, PASSES)):
            mapping.signals = [MapSignal("L", node)]
            self.assertEqual(passes_beside(mapping, works)[0], passes)
        mapping.signals = [MapSignal("L", 1)]
        run = run_of([[0, 1]] * 1200)
        for at, line in enumerate(run.enters):
            line.command["depart"] = at * 3
        [one] = crowded_works(run, mapping, [works])
        self.assertIn("of what the open lane passes, 150 m behind a light, in the worst hour", one.why)
        self.assertGreater(one.size, 0.9)

    def test_who_turns_from_the_closed_lane_near_behind_the_works(self):
        """Straight on goes from both lanes, to the right from the closed one alone. In SUMO those who turn wait before
        works that end 85 m before a light: 89 of 500 vehicles, and a trip takes 472 s longer, not where they end 400 m
        before it."""
        def doubts(last_cell, turns, exits=((0, 0, 1), (0, 1, 1), (0, 0, 2)), closed=(0,)):
            links = link("a", cells=100), link("b", begin=1, end=2), link("c", begin=1, end=3)
            nodes = [[f"N{at}", 0, 0, 1] for at in range(4)]
            found = [turn(source, lane, to) for source, lane, to in exits]
            mapping = Map(nodes=nodes, links=[*links], turns=found, signals=[], cars=[], options={}, warnings=[])
            run = run_of([[0, 2]] * turns + [[0, 1]] * 100)
            for at, line in enumerate(run.enters):
                line.command["depart"] = at
            works = [Closure(0, lane, last_cell - 10, last_cell, 0, 900) for lane in closed]
            return [(one.vehicles, one.why) for one in crowded_works(run, mapping, works) if "turn off" in one.why]

        why = "30 turn off 82 m behind them from the closed lane, and wait before the works in SUMO"
        self.assertEqual(doubts(88, 30), [(30, why)])
        self.assertEqual(doubts(40, 30), [], "445 m before the junction")
        self.assertEqual(doubts(88, 0), [], "nobody turns")
        self.assertEqual(doubts(88, 30, [(0, 0, 1), (0, 1, 1), (0, 0, 2), (0, 1, 2)]), [], "the other lane leads there")
        self.assertEqual(doubts(88, 30, closed=(0, 1)), [], "no lane is open, so nobody drives past the works")

    def test_who_turns_behind_a_piece_at_which_a_pocket_begins(self):
        """The closed lane alone leads to the pocket from which one turns; 60 m lie between."""
        links = link("a", cells=40), link("p", 3, cells=8, begin=1, end=2), link("b", begin=2, end=3)
        links += (link("c", begin=2, end=4),)
        turns = [turn(0, 0, 1), MapTurn(0, 1, 1, 1, None, 0, False), MapTurn(0, 1, 1, 2, None, 0, False)]
        turns += [turn(1, 0, 2), turn(1, 1, 2), MapTurn(1, 2, 3, 0, None, 0, False)]
        nodes = [[f"N{at}", 0, 0, 1] for at in range(5)]
        mapping = Map(nodes=nodes, links=[*links], turns=turns, signals=[], cars=[], options={}, warnings=[])
        run = run_of([[0, 1, 3]] * 40 + [[0, 1, 2]] * 40)
        for closed, count in ((1, 40), (0, 0)):
            found = crowded_works(run, mapping, [Closure(0, closed, 20, 29, 0, 900)])
            self.assertEqual([one.vehicles for one in found], [count] if count else [])
            self.assertTrue(all("turn off 135 m behind them" in one.why for one in found))

    def test_a_close_of_the_run_that_nothing_reopens(self):
        """It counts up to the last departure (1,000 in 1,799 s), and is told of where other works are asked for."""
        mapping, run = mapped(link("a"), link("b")), run_of([[0]] * 1000)
        for line in run.enters:
            line.command["depart"] = line.command["depart"] * 3600 // 2000
        close = {"cmd": "close", "link": 0, "lane": 0, "first": 20, "last": 30}
        run.timed = [(0, Line(1, json.dumps(close), close))]
        told = with_works(run, mapping, "map", [works_of("b_0:150-200:0-900", mapping)])[2]
        self.assertIn("edge a: some 2,001 vehicles an hour come to works that leave 1 of 2 lanes", "; ".join(told))
        run.timed = [(1798, Line(1, json.dumps(close), close))]
        told = with_works(run, mapping, "map", [works_of("b_0:150-200:0-900", mapping)])[2]
        self.assertNotIn("edge a", "; ".join(told), "one vehicle comes, in the last second of departures")

    def test_two_lanes_at_other_hours(self):
        """Each leaves one lane; where both are closed at once none is left, which is told otherwise."""
        lanes = [Closure(0, 0, 20, 30, 0, 400), Closure(0, 1, 20, 30, 400, 900)]
        told, _ = self.told(mapped(link("a")), 2000, lanes)
        self.assertIn("come to works that leave 1 of 2 lanes", told[0])
        self.assertEqual(self.told(mapped(link("a")), 1500, lanes)[0], [])
        short = [Closure(0, 0, 20, 30, 0, 860), Closure(0, 1, 20, 30, 858, 862)]
        self.assertEqual(self.told(mapped(link("a")), 1500, short)[0], [], "of the last 2 s nothing is judged")
        together = [replace(one, begin=0, end=900) for one in lanes]
        self.assertEqual(self.told(mapped(link("a")), 2000, together), ([], []))


@needs_simulator
class Written(Case):
    """A street of two joint lanes to which 1,700 vehicles an hour come, with 50 m of one closed for 400 s."""

    def setUp(self):
        super().setUp()
        self.write("x.net.xml", fan(2))
        self.write("x.rou.xml", flows(2, 850))
        words = [self.folder / "x.net.xml", "--routes", self.folder / "x.rou.xml", "--joint", "a"]
        self.tool("import", *words, "-o", self.folder / "run.jsonl", "--map", self.folder / "map.json")
        self.works = "a_0:150-200:100-500"

    def run_with(self, *words):
        out = self.folder / "out"
        files = [self.folder / "run.jsonl", "--map", self.folder / "map.json", "--out", out, "--program", PROGRAM]
        told = self.tool("run", *files, "--until", 600, "--close", self.works, *words)
        return out, told[0].splitlines()[-1]

    @needs_matplotlib
    def test_tables_and_picture(self):
        out, _ = self.run_with("--sumo-output", "fcd", "--junctions", 300)
        with open(out / "works.csv", encoding="utf-8") as file:
            [row] = csv.DictReader(file)
        self.assertEqual((row["begin"], row["end"], row["edge"], row["lane"]), ("100", "500", "a", "0"))
        self.assertAlmostEqual(int(row["vehicles"]) * 3600 / 400, 1600, delta=160)
        with open(out / "queues.csv", encoding="utf-8") as file:
            queues = [line for line in csv.DictReader(file) if line["before"] == "works"]
        places = {(line["edge"], line["lane"], line["from_m"]) for line in queues}
        self.assertEqual(places, {("a", "0", row["from_m"])})
        self.assertAlmostEqual(max(float(line["metres"]) for line in queues), float(row["queue_max_m"]), delta=40)
        pictures = []
        for name in ("one.png", "two.png"):
            self.tool("plot", "works", out, "-o", self.folder / name)
            pictures.append((self.folder / name).read_bytes())
        self.assertEqual(*pictures)
        self.assertTrue(pictures[0].startswith(b"\x89PNG") and len(pictures[0]) < 110_000)

    def test_without_merging_it_is_doubted(self):
        """Who stands first waits for a gap; with turns nobody stands for a minute."""
        out, told = self.run_with("--rescue", 0)
        self.assertNotIn("stood for more", told)
        with open(out / "works.csv", encoding="utf-8") as file:
            self.assertLess(max(int(row["longest_stand_s"]) for row in csv.DictReader(file)), 60)
        self.assertIn("before the works on a_0", self.run_with("--rescue", 0, "--merge", "none")[1])

    def test_studies(self):
        text = (
            'run = "run.jsonl"\nmap = "map.json"\nuntil = 700\nseeds = "1-2"\n'
            'departures = "listed"\n[variant.turns]\n'
        )
        text += f'close = ["{self.works}"]\n'
        text += f'[variant.gaps]\nclose = ["{self.works}"]\nmerge = "none"\n'
        words = [self.write("study.toml", text), "--out", self.folder / "out", "--program", PROGRAM]
        told = self.tool("study", *words)[0].splitlines()[-1]
        self.assertRegex(told, "^not to be trusted: .*gaps: in [12] of 2 runs before the works on a_0 ")
        self.assertNotIn("turns: in", told)
        with open(self.folder / "out/differences.csv", encoding="utf-8") as file:
            turns, gaps = (float(row["mean_trip_s"]) for row in csv.DictReader(file))
        self.assertLess(turns, gaps)


@needs_simulator
class Beside(unittest.TestCase):
    def test_who_is_rescued_before_works_has_not_passed_them(self):
        """Both lanes are closed to the end: of 120 vehicles those at the end of the street before are rescued."""
        load = {"cmd": "load", "nodes": [[0, 1, 4], [1, 1, 4], [2, 1, 4]], "turns": [[0, 0, 1, 0], [0, 1, 1, 1]]}
        load |= {"links": [[0, 0, 1, 2, 40, 2], [1, 1, 2, 2, 40, 2]], "zone": 0, "dawdle": 0, "change": 0, "seed": 5}
        enters = [{"cmd": "enter", "plan": [0, 1], "lane": at % 2, "depart": at} for at in range(120)]
        close = [{"cmd": "close", "link": 1, "lane": lane, "first": 20, "last": 30} for lane in (0, 1)]
        lines = [Line(at, json.dumps(one), one) for at, one in enumerate([load, *close, *enters], 1)]
        run = Run("x", lines[0], first=lines[1:3], enters=lines[3:], least_departs=[one["depart"] for one in enters])
        works = WorksTable(closures_of(run, 900))
        _, steering = made(PROGRAM, run, TWO, Settings(900, 0), works)
        self.assertGreater(steering.rescue.count.total(), 0)
        self.assertEqual([one.passings for one in works.watched], [[], []])

    def test_queue_beside_looks_in_every_second(self):
        """Over two links: 2,400 vehicles an hour come to one open lane. Means and greatest within 15 m or 5 %."""
        load = {"cmd": "load", "nodes": [[0, 1, 4], [1, 1, 4], [2, 1, 4]], "turns": [[0, 0, 1, 0], [0, 1, 1, 1]]}
        load |= {"links": [[0, 0, 1, 2, 100, 2], [1, 1, 2, 2, 60, 2]], "zone": 0, "dawdle": 170, "change": 1000}
        load["seed"] = 5
        enters = [{"cmd": "enter", "plan": [0, 1], "lane": at % 2, "depart": at * 3 // 2} for at in range(600)]
        lines = [Line(at, json.dumps(one), one) for at, one in enumerate([load, *enters], 1)]
        close = {"cmd": "close", "link": 1, "lane": 0, "first": 20, "last": 30}
        run = Run("x", lines[0], enters=lines[1:], least_departs=[one["depart"] for one in enters])
        run.timed = [(20, Line(0, json.dumps(close), close))]
        mapping = mapped(link("z", cells=100), link("a", cells=60, begin=1, end=2), turns=TWO.turns)
        streets, exact = streets_of(mapping), []

        class Looking(Observer):
            def see(self, seconds):
                for second, clock in enumerate(seconds.clocks.tolist()):
                    if second and clock > 20:
                        lanes, places = LanesNow(seconds, second), [(0, 0), (0, 1), (1, 0), (1, 1)]
                        exact.append(reach_of({one: lanes.lane_at(one) for one in places}, streets, 1, 20).metres)

        works = WorksTable(closures_of(run, 900))
        made(PROGRAM, run, mapping, Settings(900, 0, rescue=0), works, Looking())
        [watched] = works.watched
        self.assertGreater(max(exact), 20 * 7.5 + 100, "it reached the link upstream")
        seen = sum(one.metres * one.seconds for one in watched.queues) / sum(one.seconds for one in watched.queues)
        for here, there in ((seen, sum(exact) / len(exact)), (max(one.metres for one in watched.queues), max(exact))):
            self.assertLess(abs(here - there), max(15.0, 0.05 * there))


if __name__ == "__main__":
    unittest.main()
