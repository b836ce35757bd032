"""Giving way without a light: who waits for whom, when vehicles pass, where the gaps are."""
import json
import unittest
from dataclasses import asdict
from itertools import groupby
from random import Random
from types import SimpleNamespace

from support import Case, lane
from streetsim.base.report import Report
from streetsim.model.mapping import MapLink, MapTurn
from streetsim.model.waiting import Foe, Gap, GivingWay, Pace, giving_way_of
from streetsim.observe.giving_way_crowded import crowded_edges, used_shares
from streetsim.observe.giving_way_gaps import (
    CLOSE_S, MOST_SEEN, PATIENCE_S, UNSEEN, GapCounts, be_patient, followings, gap_lines, mark, phases_of_reds,
    red_seconds, slow_down, standing_seconds, stands_of,
)
from streetsim.sumo.conflicts import AFTER_STOP, CROSSING, EQUALS, JOINING, foes, foes_by_movement, turns_by_movement
from streetsim.sumo.driving import Driving
from streetsim.sumo.greens import passing_here
from streetsim.sumo.import_files import convert
from streetsim.sumo.net import MINOR, NetConnection
from streetsim.sumo.network import Options


def link(begin, end, cells=20):
    return MapLink("x", (0,), begin, end, cells, 2, cells * 7.5, ())


class Links:
    """A map's links and nodes: 0 goes to 1, that to 2; vehicles stay 2 s at nodes."""

    links = [link(0, 1), link(1, 2), link(2, 3)]
    turns = [MapTurn(0, 0, 1, 0, None, 0, False), MapTurn(1, 0, 2, 0, None, 0, False)]
    nodes = [["n", 0, 0, 2]] * 4


class Marks(unittest.TestCase):
    def test_seconds_that_are_not_there_are_passed_over(self):
        for first, last, left in ((-2, 2, "1100"), (3, 9, "0001"), (-9, -1, "0000"), (9, 12, "0000"), (2, 1, "0000")):
            seconds = bytearray(4)
            mark(seconds, first, last)
            self.assertEqual("".join(map(str, seconds)), left)


def foe(gap, slow=False):
    return Foe(0, 0, 1, gap, slow)


class Both(Links):
    """Links 0 and 1 lead to node 1, as 3 does, whose turn gives way to that of 1, as that does to that of 0."""

    links = [link(0, 1), link(0, 1), link(1, 2), link(0, 1)]
    turns = [MapTurn(at, 0, 2, 0, None, 0, False) for at in (0, 1, 3)]
    yields = [
        GivingWay(1, ((1, 0, 2),), (Foe(0, 0, 2, Gap(5.5, 0.0, 3.5), False),)),
        GivingWay(1, ((3, 0, 2),), (Foe(1, 0, 2, Gap(5.5, 0.0, 3.5), False),)),
    ]


def seconds_red(turn, passing):
    """The seconds in which the signal lines of Both hide a turn."""
    at, found = 0, []
    for _, line in gap_lines(Both, passing, 0):
        for length, shown in line.command["phases"]:
            found += range(at, at + length) if turn not in shown else ()
            at += length
    return found


class Reds(unittest.TestCase):
    def test_red_before_and_after_who_goes_first(self):
        waiting = GivingWay(1, ((2, 0, 1),), (foe(Gap(5.5, 0.0, 3.5)),))
        red = red_seconds(waiting, {(0, 0, 1): [30.0]}, 0, 60)
        self.assertEqual([at for at, closed in enumerate(red) if closed], list(range(24, 31)))
        self.assertIsNone(red_seconds(waiting, {}, 0, 60))

    def test_how_long_one_stands_as_the_first_of_its_lane(self):
        """The first comes at 10 s and passes at 18; the second, due at 12, is the first 2 s later, at 20 s; the third
        comes when nobody is there."""
        passing = [(18.0, 1, 10.0), (25.0, 2, 12.0), (60.0, 1, 60.0)]
        self.assertEqual(list(standing_seconds(passing[::-1])), [(18.0, 1, 8.0), (25.0, 2, 5.0), (60.0, 1, 0.0)])
        found = stands_of({(0, 0): [*passing, (200.0, 1, 90.0)]}, {(0, 0, 1)}, UNSEEN)
        self.assertEqual(found, {((0, 0, 1), 18.0): 5.0, ((0, 0, 1), 200.0): MOST_SEEN})

    def test_who_stands_at_its_line_is_in_the_way_of_those_who_give_way_to_it(self):
        """Turn 3 gives way to turn 1, which gives way to turn 0: of one that comes to its line at 40 s and passes at 60
        it waits from 3.5 s before the 40th on, who stands there from 5.5 s before the 43rd. One that need not give way
        is in nobody's way before it passes."""
        first = {(0, 0): [(50.0, 2, 20.0)]}
        self.assertEqual(len(seconds_red((3, 0, 2), {**first, (1, 0): [(60.0, 2, 60.0)]})), 5)
        self.assertEqual(len(seconds_red((3, 0, 2), {**first, (1, 0): [(60.0, 2, 40.0)]})), 5 + 20)
        times, stands = {(1, 0, 2): [60.0]}, {((1, 0, 2), 60.0): 17.0}
        self.assertEqual(sum(red_seconds(Both.yields[1], times, 0, 90, stands)), 7 + 17)
        self.assertEqual(len(seconds_red((1, 0, 2), first)), 5)

    def test_who_comes_while_nobody_stands_there_needs_a_shorter_gap(self):
        """Before those who pass at 50 and 58 s, and 1 s behind them, who comes by itself needs 3.5 s, and who stands
        5.5, halves of a second by turns up and down: at 44 s one goes on; who comes at 47 stands, until 51 s, and may
        still for 15 s."""
        rolling, standing = [*range(46, 51), *range(55, 59)], [*range(44, 51), *range(53, 59)]
        first = {(0, 0): [(50.0, 2, 20.0), (58.0, 2, 20.0)]}
        self.assertEqual(seconds_red((1, 0, 2), first), rolling)
        self.assertEqual(seconds_red((1, 0, 2), {**first, (1, 0): [(44.0, 2, 44.0)]}), rolling)
        self.assertEqual(seconds_red((1, 0, 2), {**first, (1, 0): [(51.0, 2, 47.0)]}), [*range(46, 51), *range(53, 59)])
        behind = {**first, (1, 0): [(43.0, 2, 43.0), (44.0, 2, 43.5)]}  # who starts behind another
        self.assertEqual(seconds_red((1, 0, 2), behind), standing)
        later = {(0, 0): [(50.0, 2, 20.0), (51.0 + CLOSE_S + 7, 2, 20.0)], (1, 0): [(51.0, 2, 47.0)]}
        self.assertEqual(len(seconds_red((1, 0, 2), later)), 5 + 4)

    def test_who_starts_from_a_stand_is_out_of_the_way_later(self):
        gap = Gap(5.5, 0.0, 3.5).later(1.0)
        red = red_seconds(GivingWay(1, ((2, 0, 1),), (foe(gap),)), {(0, 0, 1): [30.0]}, 0, 60)
        self.assertEqual([at for at, closed in enumerate(red) if closed], list(range(24, 32)))

    def test_how_far_a_lane_is_used(self):
        """Green 10 s of each minute lets some 5 pass, so 40 in a quarter of an hour take half of its time and more."""
        red = bytearray(b"\1" * 50 + b"\0" * 10) * 15
        passing = {(0, 0): [(22.0 * at, 1, 22.0 * at) for at in range(40)]}
        ((place, vehicles, share),) = used_shares([(GivingWay(1, ((0, 0, 1),), ()), red)], passing, 0)
        self.assertEqual((place, vehicles), ((0, 0), 40))
        self.assertTrue(0.45 < share < 0.6, share)
        self.assertEqual(crowded_edges(Links, [(GivingWay(1, ((0, 0, 1),), ()), bytearray(900))], passing, 0), {})

    def test_more_traffic_shorter_red(self):
        waiting = GivingWay(1, ((2, 0, 1),), (foe(CROSSING),))
        few = sum(red_seconds(waiting, {(0, 0, 1): [300.0]}, 0, 600))
        many = sum(red_seconds(waiting, {(0, 0, 1): [20.0 * at for at in range(1, 30)]}, 0, 600)) / 29
        self.assertGreater(few, many)
        self.assertGreater(JOINING.seconds_needed(400, 400, 400), CROSSING.seconds_needed(400, 400, 400))

    def test_those_who_join_follow_each_other_slowly(self):
        red = bytearray(12)
        slow_down(red, 0, 12)
        self.assertEqual(list(red), [0, 0, 0, 1, 1, 0, 0, 0, 1, 1, 0, 0])
        waiting = GivingWay(1, ((2, 0, 1),), (foe(JOINING, True),))
        alone = red_seconds(waiting, {(0, 0, 1): [30.0], (2, 0, 1): [60.0]}, 0, 90)
        two = red_seconds(waiting, {(0, 0, 1): [30.0], (2, 0, 1): [60.0, 63.0]}, 0, 90)
        self.assertEqual([at for at in range(90) if two[at] > alone[at]], [at for at in range(45, 80) if at % 5 > 2])

    def test_who_has_to_stop_follows_slowly(self):
        # Two seconds of eight are green near those who pass, whether or not others come.
        waiting = GivingWay(1, ((2, 0, 1),), (), Pace(2, 6.0))
        red = red_seconds(waiting, {(2, 0, 1): [60.0], (2, 0, 3): [100.0]}, 0, 200)
        near = [*range(45, 75), *range(85, 115)]
        self.assertEqual([at for at in range(200) if red[at]], [at for at in near if at % 8 > 1])
        self.assertEqual(giving_way_of([json.loads(json.dumps(asdict(waiting)))]), [waiting])

    def test_as_many_join_after_a_stop_as_in_sumo(self):
        """Vehicles an hour of a queue at a lone stop sign of SUMO 1.15, by those of the stream."""
        draws, end = Random(1), 20 * 3600
        waiting = GivingWay(1, ((2, 0, 1),), (foe(AFTER_STOP),), Pace(2, 4.15))
        queue = [float(second) for second in range(0, end, 10)]
        for hourly, joining in {100: 275, 200: 183, 400: 130, 600: 109}.items():
            stream = sorted(draws.uniform(0, end) for _ in range(20 * hourly))
            red = red_seconds(waiting, {(0, 0, 1): stream, (2, 0, 1): queue}, 0, end)
            greens = (len(list(run)) for hidden, run in groupby(red) if not hidden)
            passing = sum(passing_here(seconds, 2) for seconds in greens) / 20
            self.assertAlmostEqual(passing / joining, 1, delta=0.15, msg=hourly)

    def test_where_all_stop_more_traffic_makes_it_slower(self):
        foes = (Foe(0, 0, 1, Gap(0.0, 0.0, 0.0), False),)
        waiting, own = GivingWay(1, ((2, 0, 1),), foes, Pace(2, 4.0, 10.0)), [float(at) for at in range(0, 600, 10)]
        alone = red_seconds(waiting, {(2, 0, 1): own, (0, 0, 1): [1.0]}, 0, 600)
        many = red_seconds(waiting, {(2, 0, 1): own, (0, 0, 1): own}, 0, 600)  # 360 an hour: 3.6 s more
        self.assertAlmostEqual(sum(alone) / 600, 4 / 6, delta=0.02)
        self.assertAlmostEqual(sum(many) / 600, 7.6 / 9.6, delta=0.03)

    def test_lanes_side_by_side_count_each_for_itself(self):
        gap = Gap(7.0, 10.0, 0.0, 0.0, 0.5)
        foes = tuple(Foe(link, lane, 9, gap, False, street) for link, lane, street in ((0, 0, 0), (0, 1, 0), (1, 0, 1)))
        times = [(100.0 + at, foe) for at in range(50) for foe in foes]
        counts = GapCounts(times)
        lane, street, every = counts.flows_around(100.0, foes[0])
        self.assertEqual((lane, street, every), (300.0, 600.0, 900.0))
        self.assertAlmostEqual(gap.seconds_needed(lane, street, every), 7.0 - 10.0 * (0.3 + 0.5 * 0.3))
        self.assertEqual(CROSSING.across(1), CROSSING)
        self.assertAlmostEqual(CROSSING.across(3).seconds - CROSSING.seconds, 0.6)

    def test_those_who_follow_closely(self):
        self.assertEqual(list(followings([10, 20, 90, 200, 214, 228])), [(-5, 35), (185, 243)])

    def test_after_a_long_time_one_goes(self):
        red = bytearray(b"\1" * (PATIENCE_S + 10))
        be_patient(red)
        self.assertEqual([at for at, closed in enumerate(red) if not closed], [PATIENCE_S - 1])


class Conflicts(unittest.TestCase):
    def test_turns_that_sumo_has_not_go_first_too(self):
        """Two lanes of a main street are one link, so those who turn left leave both: who waits sees them all."""
        lanes = (("w", (0, 1)), ("n", (0,)))
        links = [SimpleNamespace(edge=edge, lanes=own, speed=13.89) for edge, own in lanes]
        turns = {(0, 1, 1): SimpleNamespace(added=False), (0, 0, 1): SimpleNamespace(added=True)}
        network = SimpleNamespace(
            place_of={("w", 1): (0, 1)}, links_of={"w": [0], "n": [1]}, links=links, rings=[], turns=turns
        )
        self.assertEqual(turns_by_movement(network), {("w", "n"): [(0, 1, 1), (0, 0, 1)]})
        waiting, left = (
            NetConnection("s", "n", 0, 0, None, 0, MINOR), NetConnection("w", "n", 1, 0, None, 0, MINOR)
        )  # fmt: skip
        found = foes(waiting, left, network, turns_by_movement(network, True))
        self.assertEqual({(one.link, one.lane, one.next) for one in found.values()}, set(turns))
        self.assertEqual(len({one.gap for one in found.values()}), 1)

    def test_right_before_left_one_who_gives_way_too_is_out_of_the_way_later(self):
        """Straight on over a cross: s gives way to e, e to n, n to w, w to s. Where nobody comes from n, who comes from
        e starts at once; else it stands first, and takes a second longer, as in a junction's minor streets."""
        arms = "senw"
        ways = {arm: (arm, arms[(at + 2) % 4]) for at, arm in enumerate(arms)}
        links = [SimpleNamespace(lanes=(0,), speed=13.89) for _ in arms]
        network = SimpleNamespace(
            place_of={(arm, 0): (at, 0) for at, arm in enumerate(arms)}, links=links, rings=[],
            links_of={arm: [at] for at, arm in enumerate(arms)},
        )  # fmt: skip
        streams = [NetConnection(*ways[arm], 0, 0, None, 0, EQUALS, at) for at, arm in enumerate(arms)]
        yields = {at: [(at + 1) % 4] for at in range(4)}

        def after(used):
            flows = {ways[arm]: 100.0 for arm in used}
            found = foes_by_movement(streams, yields, network, {}, flows)
            return [foe.gap.after for foe in found[ways["s"]].values()]

        self.assertEqual((after("se"), after("sen"), after("senw"), after("sn")), ([1.0], [2.0], [2.0], []))


class Lines(unittest.TestCase):
    def test_phases(self):
        reds = [bytearray([0, 0, 1, 1]), bytearray([0, 1, 1, 0])]
        self.assertEqual(phases_of_reds(reds), [(1, (0, 0)), (1, (0, 1)), (1, (1, 1)), (1, (1, 0))])
        self.assertEqual([length for length, _ in phases_of_reds([bytearray(1300)])], [600, 600, 100])

    def test_signal_lines(self):
        # Link 0 gives way at node 1 to one who comes from link 1 at second 130: red from 130 - 4 on, with what rounding
        # owes. From 30 s after that on it is green for good: a plan begins anew at its end, so no red is in this one.
        class Yielding(Links):
            yields = [GivingWay(1, ((0, 0, 1),), (Foe(1, 0, 2, Gap(4.0, 0.0, 0.0), False),))]

        found = gap_lines(Yielding, {(1, 0): [(130.0, 2, 130.0)]}, 100)
        expected = (100, 20, "[26,[[0,0,1]]],[5,[]],[29,[[0,0,1]]]"), (160, 440, "[600,[[0,0,1]]]")
        for (clock, line), (begin, offset, phases) in zip(found, expected, strict=True):
            self.assertEqual(json.loads(json.dumps(line.command)), json.loads(line.text))
            self.assertEqual(clock, begin)
            self.assertEqual(line.text, f'{{"cmd":"signal","node":1,"offset":{offset},"phases":[{phases}]}}')


# From, to, and metres a second.
STREETS = {"s": ("S", "X", 13.89), "t": ("X", "T", 13.89), "before": ("R", "X", 8.33), "after": ("X", "Q", 8.33)}
FAR = 300.0  # metres of s and t
# From, to, the speed inside, and the response.
WAYS = (("s", "after", 6.55, "10"), ("before", "t", 6.55, "00"), ("before", "after", 8.33, "00"))


def ring_junction(more, metres):
    """A junction X of a ring, which goes on from edge before to after, each of so many metres; a street s enters there
    and t leaves."""
    inner = "".join(
        f'<edge id=":X_{at}" function="internal"><lane id=":X_{at}_0" index="0" speed="{speed}" length="9" '
        'shape="0,0 9,0"/></edge>'
        for at, (_, _, speed, _) in enumerate(WAYS)
    )
    edges = "".join(
        f'<edge id="{name}" from="{begin}" to="{end}">{lane(name, 0, FAR if name in "st" else metres, speed)}</edge>'
        for name, (begin, end, speed) in STREETS.items()
    )
    ends = "".join(f'<junction id="{name}" type="dead_end" x="0" y="0"/>' for name in "STRQ")
    requests = "".join(
        f'<request index="{at}" response="{response.zfill(3)}"/>' for at, (*_, response) in enumerate(WAYS)
    )
    ways = "".join(
        f'<connection from="{one}" to="{other}" fromLane="0" toLane="0" via=":X_{at}_0" state="M"/>'
        for at, (one, other, *_) in enumerate(WAYS)
    )
    return (
        f'<net version="1.9">{inner}{edges}{ends}<junction id="X" type="priority" x="0" '
        f'y="0">{requests}</junction>{ways}{more}</net>'
    )


class Stays(Case):
    def stay(self, ways, more='<roundabout nodes="X" edges="before after"/>', metres=18.0):
        """The seconds in the junction, of vehicles on some ways."""
        vehicles = "".join(
            f'<vehicle id="{at}" depart="{at}"><route edges="{way}"/></vehicle>' for at, way in enumerate(ways)
        )
        net = self.write("x.net.xml", ring_junction(more, metres))
        routes = self.write("x.rou.xml", f"<routes>{vehicles}</routes>")
        network, *_ = convert(net, [], [routes], Options(), Report())
        return network.residences[network.nodes.index("X")]

    def test_a_ring_and_the_junctions_on_it_take_as_long_as_in_sumo(self):
        # 18 and 9 m at 8.33 - 0.65 m/s take 3.5 s in SUMO; who leaves 9 m at 6.55 - 0.65, and 1.2 s to brake and to
        # gain speed: 5.1 s. Here 2 cells at 1.83 a second take 1.3 s with what is lost at their end.
        self.assertEqual([self.stay([way]) for way in ("before after", "before t")], [2, 4])
        # 36 m take 2.3 s more in SUMO, and 3 cells more 1.6 s.
        self.assertEqual([self.stay([way], metres=36.0) for way in ("before after", "before t")], [3, 4])

    def test_what_whole_steps_of_a_ring_leave_is_in_the_streets_that_lead_in(self):
        """Who enters and leaves takes as long as in SUMO, whatever is rounded."""
        ways = "".join(
            f'<vehicle id="{at}" depart="{at}" departSpeed="max"><route edges="{way}"/></vehicle>'
            for at, way in enumerate(("s after", "before t"))
        )
        routes, found = self.write("x.rou.xml", f"<routes>{ways}</routes>"), []
        for metres in (18.0, 22.0, 27.0, 36.0):
            net = self.write("x.net.xml", ring_junction('<roundabout nodes="X" edges="before after"/>', metres))
            network, *_ = convert(net, [], [routes], Options(), Report())
            links = [network.links[network.links_of[name][0]] for name in ("s", "before")]
            here = sum(link.cells for link in links) / 1.83 + 2 * network.residences[network.nodes.index("X")]
            found.append(here - metres * Driving().slowness(8.33))
        for seconds in found:
            self.assertAlmostEqual(seconds, found[0], delta=0.28)  # half a cell, as cells are whole

    def test_a_ring_has_two_cells_a_step_at_least(self):
        net = self.write("x.net.xml", ring_junction('<roundabout nodes="X" edges="before after"/>', 18.0))
        network, *_ = convert(net, [], [], Options(), Report())
        self.assertEqual([network.links[network.links_of[name][0]].limit for name in ("before", "after", "s")], [2] * 3)
        alone = self.write("y.net.xml", ring_junction("", 18.0))
        network, *_ = convert(alone, [], [], Options(), Report())
        self.assertEqual([network.links[network.links_of[name][0]].limit for name in ("before", "s")], [1, 2])

    def test_without_a_roundabout_a_junction_takes_as_long_as_in_sumo(self):
        # 9 m at 6.55 - 0.65 m/s take 1.5 s, and braking before and gaining speed behind 0.5 s; half a second is lost
        # here at the end of the street.
        self.assertEqual(self.stay(["s after"], ""), 2)


if __name__ == "__main__":
    unittest.main()
