"""Where lanes become one without a light: zippers and ends of lanes go by turns, and what is nearly full is known."""
import json
import unittest
from dataclasses import asdict

from support import Case, lane, net
from streetsim.base.report import Report
from streetsim.model.fullness import MERGING, FullLane, Fullness, fullness_of
from streetsim.model.mapping import map_from
from streetsim.model.reserved import ReservedLanes
from streetsim.model.starting import SlowStarts
from streetsim.model.trust import full_doubts, reserved_doubts, start_doubts
from streetsim.sumo.converting import map_of
from streetsim.sumo.import_files import convert
from streetsim.sumo.merges import end_flow, share_of_first
from streetsim.sumo.net import read_net
from streetsim.sumo.network import Options


def requests_of(text, junction, responses):
    """The network with the requests of a junction, by who gives way to whom."""
    told = "".join(f'<request index="{at}" response="{bits}" foes="{bits}"/>' for at, bits in enumerate(responses))
    one = f'<junction id="{junction}" type="priority" x="0" y="0"/>'
    assert one in text
    return text.replace(one, f'{one.removesuffix("/>")}>{told}</junction>')


def zipper():
    """Two streets of one lane, a and b, become c, whose vehicles go by turns."""
    edges = [
        (name, *ends, [lane(name, 0, metres)])
        for name, ends, metres in (("a", "AC", 300), ("b", "BC", 300), ("c", "CD", 300))
    ]
    text = net(edges, [(name, 0, "c", 0, f'via=":C_{at}_0"') for at, name in enumerate("ab")])
    return requests_of(text.replace('state="M"', 'state="Z"'), "C", ("10", "01"))


def drop(metres, more=""):
    """A street a of two lanes, of which the right one ends, and goes on as b."""
    edges = [("a", "A", "B", [lane("a", at, metres) for at in (0, 1)]), ("b", "B", "C", [lane("b", 0, 300)])]
    return net(edges, [("a", 1, "b", 0, more)])


def lit_street(lanes):
    """A street a of some lanes, which goes on to the right as b with as many, behind a light with 30 s green of 90."""
    green, red = len(lanes) * "G", len(lanes) * "r"
    phases = f'<phase duration="30" state="{green}"/><phase duration="60" state="{red}"/></tlLogic><edge'
    light = f'<tlLogic id="L" programID="0" type="static" offset="0">{phases}'
    edges = [("a", "A", "B", lanes), ("b", "B", "C", [lane("b", at, 300) for at in range(len(lanes))])]
    ways = [("a", at, "b", at, f'via=":B_0_{at}" dir="r" tl="L" linkIndex="{at}"') for at in range(len(lanes))]
    return requests_of(net(edges, ways).replace("<edge", light, 1), "B", ["0" * len(lanes)] * len(lanes))


def shared_lane(*states):
    """A street a of one lane, which goes straight on as b and to the right as c, behind a light with phases of 30 s."""
    phases = "".join(f'<phase duration="30" state="{state}"/>' for state in states)
    light = f'<tlLogic id="L" programID="0" type="static" offset="0">{phases}</tlLogic>'
    edges = [(name, *ends, [lane(name, 0, 300)]) for name, ends in (("a", "AB"), ("b", "BC"), ("c", "BD"))]
    told = 'via=":B_{0}_0" dir="{1}" tl="L" linkIndex="{0}"'
    ways = [("a", 0, name, 0, told.format(at, turn)) for at, (name, turn) in enumerate((("b", "s"), ("c", "r")))]
    return requests_of(net(edges, ways, light), "B", ["00", "00"])


class Made(Case):
    def made(self, text, types="", options=Options(), **hourly):
        """(the network, the signals' commands) of a demand; types: an element of vehicle types, of which "t" is theirs;
        hourly: vehicles of an hour by their edges."""
        vehicles = sorted(
            (3600 / count * at, f"{edges}{at}", " ".join(edges))
            for edges, count in hourly.items() for at in range(count)
        )  # fmt: skip
        kind = ' type="t"' if types else ""
        told = f'<vehicle id="{{1}}" depart="{{0:.1f}}"{kind}><route edges="{{2}}"/></vehicle>'
        lines = (told.format(*vehicle) for vehicle in vehicles)
        self.said = Report()
        routes = self.write("x.rou.xml", f"<routes>{types}{''.join(lines)}</routes>")
        network, _, commands, _ = convert(self.write("x.net.xml", text), [], [routes], options, self.said)
        return network, [command for command in commands if command["cmd"] == "signal"]


class Zippers(Made):
    def test_two_streets_go_by_turns(self):
        """Together but for the last seconds, where both have room: 2.88 vehicles of each pass in five of 12 s."""
        network, [command] = self.made(zipper(), ac=600, bc=600)
        self.assertEqual((network.nodes[command["node"]], command["offset"]), ("C", 0))
        edges = [sorted({network.links[turn[0]].edge for turn in turns}) for _, turns in command["phases"]]
        self.assertEqual((edges, [seconds for seconds, _ in command["phases"]]), ([["a", "b"], ["b"]], [10, 2]))
        network, [command] = self.made(zipper(), ac=900, bc=800)
        edges = [sorted({network.links[turn[0]].edge for turn in turns}) for _, turns in command["phases"]]
        self.assertEqual((edges, sum(seconds for seconds, _ in command["phases"])), ([["a"], ["b"]], 12))
        self.assertEqual((network.yields, self.said.warnings), ([], []))

    def test_one_street_alone_has_no_turns(self):
        self.assertEqual(self.made(zipper(), ac=600)[1], [])

    def test_shares(self):
        # By flows where both need more than half of 1,730, or both less; else who needs less gets that and a tenth.
        self.assertEqual(share_of_first(1000, 1000), 865)
        self.assertEqual(share_of_first(600, 600), 865)
        self.assertAlmostEqual(share_of_first(1500, 400), 1730 - 440)
        self.assertAlmostEqual(share_of_first(400, 1500), 440)
        self.assertAlmostEqual(share_of_first(1500, 1000), 1730 * 0.6)

    def test_a_street_that_becomes_one_lane_by_a_zipper(self):
        """SUMO 1.15 lets 1,200 an hour pass there, as where a lane ends."""
        edges = [("a", "A", "B", [lane("a", at, 1500) for at in (0, 1)]), ("b", "B", "C", [lane("b", 0, 300)])]
        text = net(edges, [("a", at, "b", 0, f'via=":B_{at}_0"') for at in (0, 1)]).replace('state="M"', 'state="Z"')
        _, [command] = self.made(requests_of(text, "B", ("10", "01")), ab=600)
        self.assertEqual([seconds for seconds, _ in command["phases"]], [3, 2, 3, 2])


class Ends(Made):
    def test_both_lanes_go_by_turns_with_pauses(self):
        # 3.36 vehicles pass in two turns of 3 s: 1,200 an hour are one cycle of 10 s, 790 one of 15 s.
        for metres, seconds in ((1500, [3, 2, 3, 2]), (60, [3, 5, 3, 4])):
            network, [command] = self.made(drop(metres), ab=1000)
            self.assertEqual([length for length, _ in command["phases"]], seconds)
            lanes = [[turn[1] for turn in turns] for _, turns in command["phases"]]
            self.assertEqual(lanes, [[1], [], [0], []])
        self.assertEqual([end_flow(metres) for metres in (10, 60, 90, 120, 240, 900)], [790, 790, 845, 900, 1110, 1200])

    def test_few_wait_no_longer_than_where_the_edge_is_long(self):
        # SUMO 1.15, 30 m behind lights of 60 to 90 s: 553 an hour have trips as where 1,200 can pass, 711 as where
        # some 1,040 can.
        for hourly, seconds in ((500, [3, 2, 3, 2]), (711, [3, 3, 3, 3])):
            _, [command] = self.made(drop(60), ab=hourly)
            self.assertEqual([length for length, _ in command["phases"]], seconds)

    def test_not_at_a_light_nor_where_nobody_drives(self):
        light = '<tlLogic id="L" programID="0" type="static" offset="0"><phase duration="30" state="G"/></tlLogic><edge'
        lit = drop(300, 'tl="L" linkIndex="0"').replace("<edge", light, 1)
        self.assertEqual([len(command["phases"]) for command in self.made(lit, ab=60)[1]], [1])
        self.assertEqual(self.made(drop(300), a=60)[1], [])


class Fulls(Made):
    def test_more_than_can_pass(self):
        network, _ = self.made(drop(1500), ab=1300)
        [one] = network.full.lanes
        self.assertEqual((one.junction, one.way, one.source, one.target, one.vehicles), ("B", MERGING, "a", "b", 1300))
        self.assertAlmostEqual(one.demand, 1300 / 1200, delta=0.02)
        self.assertEqual(network.full.share, 1.0)
        self.assertFalse(self.made(drop(1500), ab=900)[0].full)
        self.assertTrue(self.made(zipper(), ac=800, bc=800)[0].full)
        self.assertFalse(self.made(zipper(), ac=600, bc=600)[0].full)

    def test_a_light_that_is_full(self):
        # A third of an hour of green passes some 600.
        text = lit_street([lane("a", 0, 300)])
        [one] = self.made(text, ab=900)[0].full.lanes
        self.assertEqual((one.junction, one.lane, one.way, one.vehicles), ("B", "a_0", "right", 900))
        self.assertTrue(1.2 < one.demand < 1.6, one.demand)
        self.assertFalse(self.made(text, ab=450)[0].full)

    def test_a_green_of_some_of_a_lane_ends_with_the_first_of_the_others(self):
        # A third of an hour of green passes some 600, and what turns right in the next third only a few more.
        [one] = self.made(shared_lane("GG", "rG", "rr"), ab=600, ac=106)[0].full.lanes
        self.assertTrue(1.0 < one.demand < 1.3, one.demand)
        self.assertFalse(self.made(shared_lane("GG", "GG", "rr"), ab=600, ac=106)[0].full)

    def test_a_bus_lane_has_no_share_of_the_cars(self):
        # Of 1,200 that two lanes would pass, cars have half.
        text = lit_street([lane("a", 0, 300, more='allow="bus"'), lane("a", 1, 300)])
        [one] = self.made(text, options=Options(classes=("passenger", "bus")), ab=900)[0].full.lanes
        self.assertEqual((one.lane, one.vehicles), ("a_1", 900))
        self.assertTrue(1.2 < one.demand < 1.6, one.demand)
        self.assertFalse(self.made(lit_street([lane("a", at, 300) for at in (0, 1)]), ab=900)[0].full)

    def test_the_doubt_says_where_and_how_much(self):
        network, _ = self.made(drop(1500), ab=1300)
        mapping = map_of(network, [], [], Report())
        [told] = full_doubts(mapping)
        self.assertIn("1,300 of 1,300 vehicles pass lanes that are nearly full by the demand", told)
        self.assertIn("where lanes become one from a to b at B: demand 1.08 of what passes here", told)
        mapping.full = Fullness(network.full.lanes, 200, 1300)
        self.assertEqual(list(full_doubts(mapping)), [])

    def test_few_lanes_whose_queue_grows_all_the_time(self):
        """In a town, of which a seventh pass a left at 1.22, mean trips are a quarter longer in SUMO than here."""
        mapping = map_of(self.made(drop(1500), ab=60)[0], [], [], Report())
        for demand, vehicles, doubts in ((1.22, 150, 1), (1.22, 90, 0), (1.05, 150, 0)):
            mapping.full = Fullness((FullLane("J", "a_0", "left", "a", "b", demand, vehicles),), vehicles, 1000)
            self.assertEqual(len(list(full_doubts(mapping))), doubts)

    def test_a_map_keeps_them(self):
        lanes = FullLane("J", "a_0", "left", "a", "b", 1.1, 5), FullLane("J", "c", "right", "c", "d", 0.9)
        full = Fullness(lanes, 5, 9)
        self.assertEqual(fullness_of(json.loads(json.dumps(asdict(full)))), full)
        self.assertEqual(fullness_of({}), Fullness())


class Inside(Case):
    """A cross whose lefts from the west wait inside it for those from the east, who may turn right into two lanes."""

    def yields(self, *requests, more=""):
        """The requests to which that of the lefts, 1, gives way; requests: who gives way to whom by the file."""
        edges = [(name, *ends, [lane(name, 0, 100)]) for name, ends in (("w", "WC"), ("e", "EC"), ("on", "CA"))]
        edges.append(("n", *"CN", [lane("n", at, 100) for at in (0, 1)]))
        ways = ("e", 0, "n", 0, "r"), ("w", 0, "n", 1, "l"), ("e", 0, "on", 0, "s")
        told = 'via=":C_{0}_0" dir="{1}" tl="L" linkIndex="{0}"'
        text = net(edges, [(*way, told.format(at, turn)) for at, (*way, turn) in enumerate(ways)])
        inside = '<junction id=":C_3_0" type="internal" x="0" y="0" incLanes=":C_1_0 e_0" intLanes=":C_0_0 :C_2_0"/>'
        text = requests_of(text, "C", requests).replace("</net>", f"{inside}</net>")
        return read_net(self.write("x.net.xml", text), ["passenger"], Report()).yields["C"].get(1, set())

    def test_lefts_give_way_to_rights_into_their_street(self):
        self.assertEqual(self.yields("000", "100", "000"), {0, 2})

    def test_not_where_the_file_lets_these_wait(self):
        self.assertEqual(self.yields("010", "100", "000"), {2})


class Classes(Made):
    LANES = [lane("a", 0, 300, more='allow="bus"'), lane("a", 1, 300)]

    def plans(self, connections, vtype):
        """The lanes of SUMO over which a vehicle goes, and what is left out."""
        text = net([("a", "A", "B", self.LANES), ("b", "B", "C", [lane("b", 0, 300)])], connections)
        routes = f'<routes><vType id="t" vClass="{vtype}"/><vehicle id="v" type="t" depart="0"><route edges="a b"/>'
        report, path = Report(), self.write("x.rou.xml", f"{routes}</vehicle></routes>")
        kept = Options(classes=("passenger", "bus"))
        network, _, commands, _ = convert(self.write("x.net.xml", text), [], [path], kept, report)
        plans = [command["plan"] for command in commands if command["cmd"] == "enter"]
        return [[network.links[link].lanes for link in plan] for plan in plans], dict(report.skipped)

    def test_each_is_on_lanes_of_its_class(self):
        both = [("a", 0, "b", 0, ""), ("a", 1, "b", 0, "")]
        self.assertEqual(self.plans(both, "passenger"), ([[(1,), (0,)]], {}))
        self.assertEqual(self.plans(both, "bus"), ([[(0,), (0,)]], {}))
        self.assertEqual(self.plans(both[:1], "bus"), ([[(0,), (0,)]], {}))

    def reserved(self, cars, buses):
        """The mapping of cars and buses, one a second, that drive over a and b, of which a has a lane for buses."""
        text = net(
            [("a", "A", "B", self.LANES), ("b", "B", "C", [lane("b", 0, 300)])],
            [("a", 0, "b", 0, ""), ("a", 1, "b", 0, "")],
        )
        vehicles = "".join(
            f'<vehicle id="{at}" type="{"p" if at < cars else "u"}" depart="{at}"><route edges="a b"/></vehicle>'
            for at in range(cars + buses)
        )
        types = '<vType id="p"/><vType id="u" vClass="bus"/>'
        path, report = self.write("x.rou.xml", f"<routes>{types}{vehicles}</routes>"), Report()
        kept = Options(classes=("passenger", "bus"))
        network, _, _, names = convert(self.write("x.net.xml", text), [], [path], kept, report)
        return map_of(network, [], names, report)

    def test_buses_on_a_lane_of_their_own_are_told(self):
        mapping = self.reserved(18, 2)
        self.assertEqual(mapping.reserved, ReservedLanes("bus", "a", 2, 20))
        [doubt] = reserved_doubts(mapping)
        self.assertIn("2 of 20 vehicles (bus) drive on lanes of their own, most of all on edge a", doubt)
        self.assertTrue(any(doubt.split(";")[0] in line for line in mapping.warnings))
        again = map_from("x", json.loads(json.dumps(mapping.written())))
        self.assertEqual(again.reserved, mapping.reserved)

    def test_few_buses_are_no_doubt_and_cars_alone_nothing(self):
        self.assertEqual([*reserved_doubts(self.reserved(19, 1))], [])
        self.assertIsNone(self.reserved(3, 0).reserved)

    def test_who_has_no_lane_is_left_out_and_counted(self):
        self.LANES = self.LANES[:1]
        why = {"an edge of the route has no lane for its class": 1}
        self.assertEqual(self.plans([("a", 0, "b", 0, "")], "passenger"), ([], why))


class Starts(Made):
    """Who starts slowly at lights: of 13.9 m/s half is lost by the time to gain them."""

    def made_starts(self, accel, text=lit_street([lane("a", 0, 300)])):
        """The mapping of 40 vehicles an hour with such an accel and without a sigma."""
        network, _ = self.made(text, f'<vType id="t" accel="{accel}" sigma="0"/>', ab=40)
        return map_of(network, [], [], Report())

    def test_where_and_how_much(self):
        mapping = self.made_starts(1)
        # 13.9 / 2 s, and 13.9 / 2 / 1.95 of usual cars.
        self.assertEqual(mapping.starts, SlowStarts("B", "a", "b", 3.4, 40, 40))
        [told] = start_doubts(mapping)
        self.assertIn("40 of 40 vehicles start so slowly at lights that each start takes 3.4 s longer in SUMO", told)
        self.assertIn("from a to b at B", told)
        self.assertEqual(map_from("x.map.json", json.loads(json.dumps(mapping.written()))).starts, mapping.starts)

    def test_not_where_few_do_nor_without_a_light(self):
        mapping = self.made_starts(1)
        mapping.starts = SlowStarts("B", "a", "b", 3.4, 6, 40)
        self.assertEqual(list(start_doubts(mapping)), [])
        self.assertIsNone(self.made_starts(1, drop(300)).starts)
        self.assertIsNone(self.made_starts(2).starts)


if __name__ == "__main__":
    unittest.main()
