"""Vehicles, flows and routes; the departures of flows are those of SUMO 1.15."""
import unittest
from xml.etree.ElementTree import Element

from support import FORK, SHARED, Case, lane, net
from streetsim.base.files import Fault
from streetsim.base.report import Report
from streetsim.sumo.import_files import convert
from streetsim.sumo.network import Options
from streetsim.sumo.types import named_in


class Demand(Case):
    def enters(self, *routes, report=None, **options):
        street = self.write("x.net.xml", FORK)
        paths = [self.write(f"r{at}.rou.xml", f"<routes>{text}</routes>") for at, text in enumerate(routes)]
        self.network, _, commands, names = convert(street, [], paths, Options(**options), report or Report())
        self.commands = commands
        return [
            (name, command["depart"])
            for name, command in zip(names, (command for command in commands if command["cmd"] == "enter"), strict=True)
        ]

    def departs(self, text):
        return [depart for _, depart in self.enters(text)]

    def flow(self, more):
        return self.departs(f'<flow id="f" {more}><route edges="a b"/></flow>')

    def test_members_without_a_probability_weigh_one(self):
        for told, weights in (("2 0.5", [2, 0.5, 1]), ("", [1, 1, 1]), ("3 0 0 9", [3, 0, 0])):
            element = Element("vTypeDistribution", {"vTypes": "a b c", "probabilities": told})
            self.assertEqual(named_in("x", element, "vTypes"), (["a", "b", "c"], weights))

    def test_flows(self):
        # 0, 14.29, 28.57, 42.86, 57.14, 71.43, 85.71: each enters in the next whole second.
        self.assertEqual(self.flow('begin="0" end="100" number="7"'), [0, 15, 29, 43, 58, 72, 86])
        self.assertEqual(self.flow('begin="3" end="100" vehsPerHour="300"'), [3, 15, 27, 39, 51, 63, 75, 87, 99])
        self.assertEqual(self.flow('begin="0" end="50" period="9.5"'), [0, 10, 19, 29, 38, 48])
        self.assertEqual(self.flow('begin="0" end="3" probability="1"'), [0, 1, 2])
        self.assertEqual(self.flow('begin="5" period="10" number="3"'), [5, 15, 25])
        self.assertEqual(self.flow('begin="5" end="5" number="3"'), [5, 5, 5])

    def test_flows_without_an_end(self):
        # SUMO 1.15 takes the end of the run, else says that it is "defaulting to 24hour duration".
        self.assertEqual(self.flow('begin="10" period="10000"'), [10 + 10_000 * at for at in range(9)])
        self.assertEqual(len(self.flow('begin="86000" period="100"')), 864)
        self.assertEqual(self.flow('begin="0" number="5"'), [0, 17_280, 34_560, 51_840, 69_120])
        for rate, expected in (
            ('begin="0" number="5"', [0, 200, 400, 600, 800]),
            ('begin="990" period="5"', [990, 995]),
            ('begin="980" number="3" period="8"', [980, 988, 996]),
        ):
            found = self.enters(f'<flow id="f" {rate}><route edges="a b"/></flow>', end=1000)
            self.assertEqual([depart for _, depart in found], expected)
        found = self.enters('<flow id="f" period="50000"><route edges="a b"/></flow>', end=200_000)
        self.assertEqual([depart for _, depart in found], [0, 50_000, 100_000, 150_000])

    def test_flows_in_an_interval(self):
        # As SUMO 1.15 has them depart, but in the same file as vehicles that depart later.
        route = '<route edges="a b"/>'
        flows = (
            f'<flow id="f" period="20">{route}</flow><flow id="g" begin="30" number="2">{route}</flow>'
            f'<flow id="h" end="45" period="30">{route}</flow><flow id="i" period="30" number="3">{route}</flow>'
            f'<vehicle id="v" depart="90">{route}</vehicle>'
        )
        found = self.enters(f'<interval begin="10" end="60">{flows}</interval>')
        named = {name: [depart for one, depart in found if one.startswith(name)] for name in "fghiv"}
        self.assertEqual(named, {"f": [10, 30, 50], "g": [30, 45], "h": [10, 40], "i": [10, 40, 70], "v": [90]})
        with self.assertRaisesRegex(Fault, "<interval>: no attribute 'end'"):
            self.enters(f'<interval begin="10">{flows}</interval>')

    def test_what_sumo_leaves_out_as_it_is_not_sorted_is_told(self):
        # SUMO 1.15 says of b, f and d that it ignores them, and drives a, g and e.
        route, report = '<route edges="a b"/>', Report()
        found = self.enters(
            f'<vehicle id="a" depart="30">{route}</vehicle><vehicle id="b" depart="20">{route}</vehicle>'
            f'<flow id="f" begin="29" end="50" number="1">{route}</flow>'
            f'<flow id="g" begin="35" end="80" number="1">{route}</flow><vehicle id="d" depart="34">{route}</vehicle>'
            f'<vehicle id="t" depart="triggered">{route}</vehicle><vehicle id="e" depart="35">{route}</vehicle>',
            f'<vehicle id="h" depart="1">{route}</vehicle>',
            report=report,
        )
        self.assertEqual(len(found), 7)
        told = "3 vehicles or flows stand behind later ones in their file, and drive here, where SUMO leaves them out"
        self.assertIn(f"warning: {told}: b, f, d (sort the file by departure)", list(report.lines()))

    def test_elements_without_effect_are_told(self):
        report, key = Report(), '<param key="has.rerouting.device" value="true"/>'
        vehicle = f'<vehicle id="v" type="t" depart="0"><route edges="a b"/>{key}<stopp lane="a_0"/></vehicle>'
        self.enters(f'<vType id="t">{key}</vType>{vehicle}', report=report)
        told = {"<param> of vTypes": 1, "<param> of vehicles": 1, "<stopp> of vehicles": 1}
        self.assertEqual({what: count for what, count in report.ignored.items() if count}, told)

    def test_a_chance_that_hardly_ever_comes(self):
        for chance in ("1e-17", "1e-300"):
            self.assertEqual(self.flow(f'end="3600" probability="{chance}"'), [])

    def test_flow_by_draws_repeats(self):
        drawn = self.flow('begin="0" end="1000" probability="0.1"')
        self.assertEqual(drawn, self.flow('begin="0" end="1000" probability="0.1"'))
        self.assertTrue(60 < len(drawn) < 140, len(drawn))

    def test_flow_of_chance_has_its_rate(self):
        # 0.25 in each of 20,000 seconds: 5,000 expected, with a standard deviation of 61; by gaps of 4 s on average,
        # of 71.
        for rate in ('probability="0.25"', 'period="exp(0.25)"'):
            count = len(self.flow(f'begin="0" end="20000" {rate}'))
            self.assertTrue(4700 < count < 5300, count)

    def test_depart_is_the_next_second(self):
        self.assertEqual(self.departs('<vehicle id="v" depart="3.4"><route edges="a b"/></vehicle>'), [4])
        self.assertEqual(self.departs('<vehicle id="v" depart="01:00:05"><route edges="a b"/></vehicle>'), [3605])

    def test_order_is_by_departure_and_file(self):
        text = (
            '<vehicle id="late" depart="9"><route edges="a b"/></vehicle>'
            '<vehicle id="one" depart="2" route="r"/><vehicle id="two" depart="2" route="r"/>'
        )
        self.assertEqual(self.enters(text, '<route id="r" edges="a c"/>'), [("one", 2), ("two", 2), ("late", 9)])

    def test_departure_lanes_take_turns(self):
        flow = '<flow id="f" begin="0" end="4" period="1"><route edges="a b"/></flow>'
        others = "".join(f'<vehicle id="{to}" depart="9"><route edges="a {to}"/></vehicle>' for to in "cd")
        street, routes = self.write("x.net.xml", SHARED), self.write("r.rou.xml", f"<routes>{flow}{others}</routes>")
        for strict, lanes in ((False, [0, 1, 0, 1]), (True, [0, 0, 0, 0])):
            _, _, commands, _ = convert(street, [], [routes], Options(strict_turns=strict), Report())
            self.assertEqual([command["lane"] for command in commands if command["cmd"] == "enter"][:4], lanes)

    def test_skipped_and_ignored_are_counted(self):
        report = Report()
        text = (
            '<vehicle id="x" depart="0" departPos="5"><route edges="b c"/><stop lane="a_0"/></vehicle>'
            '<person id="p" depart="0"/><vehicle id="y" depart="triggered"><route edges="a"/></vehicle>'
        )
        self.assertEqual(self.enters(text, report=report, strict_turns=True, ignore_route_errors=True), [])
        self.assertEqual(
            list(report.lines()),
            [
                "skipped: 1 vehicles: a person, which streetsim does not have",
                "skipped: 1 vehicles: depart='triggered' is no time",
                "skipped: 1 vehicles: two edges of the route have no connection",
                "warning: 1 stops of vehicles are not made, without duration and until, with which SUMO's vehicle "
                "stands for good: x at a_0 (a vehicle in others' way: streetsim-run --close, for as long)",
                "warning: 1 edges became parallel links of one or two lanes, between which nobody changes lane: a "
                "(--joint EDGES joins their lanes)",
                "warning: no vehicle drives",
                "ignored: 1 x departPos of vehicles",
            ],
        )

    def test_what_is_not_done_is_told_with_names(self):
        report = Report()
        stop = '<stop lane="a_0" duration="9" parking="true"/>'
        route = f'<route id="line" edges="a b">{stop}{stop}</route>'
        buses = '<flow id="bus" number="1" end="9" route="line"/>'
        vehicle = f'<vehicle id="v" depart="3"><route edges="a b"/>{stop}</vehicle>'
        self.assertEqual(self.enters(route + buses + vehicle, report=report), [("bus.0", 0), ("v", 3)])
        [row] = [row for row in report.rows() if "stops" in row[1]]
        told = "3 stops of vehicles are not made, in a bay beside the lane (parking): bus.0 at a_0, bus.0 at a_0, v at"
        self.assertEqual(row[:2], ["changes results", f"{told} a_0"])
        report = Report()
        self.assertEqual(self.enters('<vehicel id="v" depart="3"/>', report=report), [])
        self.assertEqual(
            list(report.lines())[-2:], ["warning: no vehicle drives", "ignored: 1 x <vehicel> of route files"]
        )

    def test_repeated_routes(self):
        """SUMO drives the edges once, and so many times again."""
        ring = net(
            [("a", "A", "B", [lane("a", 0)]), ("b", "B", "A", [lane("b", 0)])],
            [("a", 0, "b", 0, ""), ("b", 0, "a", 0, "")],
        )
        route = '<routes><vehicle id="v" depart="0"><route edges="a b" repeat="2"/></vehicle></routes>'
        street, report = self.write("x.net.xml", ring), Report()
        _, _, commands, _ = convert(street, [], [self.write("r.rou.xml", route)], Options(), report)
        self.assertEqual([one["plan"] for one in commands if one["cmd"] == "enter"], [[0, 1, 0, 1, 0, 1]])
        for_ever = self.write("r.rou.xml", route.replace('"2"', '"999999999999"'))
        self.assertEqual(convert(street, [], [for_ever], Options(), report)[3], [])
        self.assertEqual(report.skipped, {"a route of more than 1,024 edges": 1})

    def test_distributions_of_routes(self):
        # 2 of 3 by weights: of 3,000 vehicles 2,000, with a standard deviation of 26.
        flow = '<flow id="f" begin="0" end="3000" period="1" route="d"/>'
        told = '<routeDistribution id="d"><route edges="a b" probability="2"/><route edges="a c"/></routeDistribution>'
        named = (
            '<route id="r" edges="a b"/><route id="s" edges="a c"/><routeDistribution id="d" routes="r s" '
            'probabilities="2 1"/>'
        )
        for text in (told, named):
            self.assertEqual(len(self.enters(text + flow)), 3000)
            ends = [command["plan"][-1] for command in self.commands if command["cmd"] == "enter"]
            self.assertTrue(1890 < ends.count(2) < 2110, ends.count(2))
        self.assertEqual(self.network.kinds["route"][0], "r")
        inside = (
            '<routeDistribution last="0"><route edges="a b" probability="0"/><route cost="9" edges="a '
            'c"/></routeDistribution>'
        )
        self.assertEqual(self.enters(f'<vehicle id="v" depart="1">{inside}</vehicle>'), [("v", 1)])
        self.assertEqual(self.network.kinds["route"], ["!v#1"])
        # The name of a route in a distribution is not read.
        other = '<route id="r" edges="a b"/><routeDistribution id="d"><route id="r" edges="a c"/></routeDistribution>'
        self.enters(f'{other}<vehicle id="v" depart="1" route="r"/><vehicle id="w" depart="2" route="d"/>')
        self.assertEqual([one["plan"][-1] for one in self.commands if one["cmd"] == "enter"], [2, 3])
        self.assertEqual(self.network.kinds["route"], ["r", "d#0"])
        both = '<route id="r" edges="a b"/><routeDistribution id="d"><route refId="r"/></routeDistribution>'
        self.assertEqual(self.enters(f'{both}<vehicle id="v" depart="1" route="d"/>'), [("v", 1)])

    def test_an_end_leaves_out_who_departs_then(self):
        report = Report()
        flow = '<flow id="f" begin="0" end="10" period="2"><route edges="a b"/></flow>'
        self.assertEqual(self.enters(flow, report=report, end=4), [("f.0", 0), ("f.1", 2)])
        self.assertIn("3 vehicles that depart at the end, 4 s, or later are left out", list(report.lines()))

    def test_demand_in_additional_files(self):
        street = self.write("x.net.xml", FORK)
        more = self.write("m.add.xml", '<additional><route id="r" edges="a b"/></additional>')
        routes = self.write("r.rou.xml", '<routes><vehicle id="v" depart="1" route="r"/></routes>')
        for additional, files in (([more], [routes]), ([more, routes], [])):
            _, _, _, names = convert(street, additional, files, Options(), Report())
            self.assertEqual(names, ["v"])

    def test_faults_name_file_and_element(self):
        for text, words in (
            (
                '<trip id="t" depart="0" from="a" to="b"/>',
                r"r0.rou.xml: <trip 't'> has no route: streetsim-import --trips FILE",
            ),
            (
                '<vehicle id="v" depart="0"><route edges="a z"/></vehicle>',
                r"r0.rou.xml: <vehicle 'v'>: the network has no edge 'z'",
            ),
            ('<vehicle id="v" depart="0" route="q"/>', r"r0.rou.xml: <vehicle 'v'>: there is no route 'q'"),
            (
                '<vehicle id="v" depart="soon"><route edges="a"/></vehicle>',
                r"<vehicle 'v'>: depart='soon' cannot be read",
            ),
            ('<vehicle depart="0"><route edges="a"/></vehicle>', r"r0.rou.xml: <vehicle>: no attribute 'id'"),
            ('<flow id="f" begin="0" end="9"><route edges="a"/></flow>', r"<flow 'f'>: no rate"),
            (
                '<flow id="f" end="9" vehsPerHour="1e9"><route edges="a"/></flow>',
                r"<flow 'f'>: more than 1,000,000 vehicles",
            ),
            ('<vehicle id="v" depart="0"><route edges="a"/></vehicle>' * 2, r"two vehicles are named 'v'"),
            ('<vehicle id="v" depart="0"><route', r"r0.rou.xml: not XML"),
            ('<vehicle id="v" depart="-5"><route edges="a"/></vehicle>', r"<vehicle 'v'>: depart='-5' cannot be read"),
            (
                '<flow id="f" begin="9" end="0" period="1"><route edges="a"/></flow>',
                r"'f'>: ends at 0 s, before it begins at 9 s",
            ),
            (
                '<flow id="f" begin="1" end="2" period="1"><route edges="a b c"/></flow>',
                "vehicle 'f.0': the network has no connection from edge 'b' to edge 'c'",
            ),
            ('<routeDistribution id="d"/>', r"<routeDistribution 'd'>: a distribution without a route"),
            ('<routeDistribution id="d" routes="q"/>', r"<routeDistribution 'd'>: there is no route 'q'"),
            (
                '<routeDistribution id="d"><route edges="a b" probability="1 2"/></routeDistribution>',
                "<route>: probability='1 2' cannot be read",
            ),
            (
                '<vTypeDistribution id="d"><vType id="t" probability="1 2"/></vTypeDistribution>',
                "<vType 't'>: probability='1 2' cannot be read",
            ),
            (
                '<routeDistribution id="d"><route edges="a z"/></routeDistribution>',
                r"'d'>: the network has no edge 'z'",
            ),
        ):
            with self.subTest(text), self.assertRaisesRegex(Fault, words):
                self.enters(text)

    def test_rates_that_sumo_refuses(self):
        for rate, words in (
            ('end="9" period="-1"', "period='-1' cannot be read"),
            ('end="9" period="0"', "period='0' cannot be read"),
            ('end="9" period="exp(0)"', r"period='exp\(0\)' cannot be read"),
            ('end="9" period="exp(1"', r"period='exp\(1' cannot be read"),
            ('end="9" vehsPerHour="0"', "vehsPerHour='0' cannot be read"),
            ('end="9" perHour=""', "perHour='' cannot be read"),
            ('end="9" probability="0"', "probability='0' cannot be read"),
            ('end="9" probability="1.5"', "probability='1.5' cannot be read"),
            ('end="9" period="3" vehsPerHour="60"', "period and vehsPerHour are two rates, of which a flow has one"),
            ('end="9" number="3" period="1"', "beside period a flow has an end or a number, not both"),
            ('begin="" end="9" period="1"', "begin='' cannot be read"),
            ('end="9" number="3000000000"', "number='3000000000' cannot be read"),
            ('end="9" number="99999999999999999999"', "number='99999999999999999999' cannot be read"),
        ):
            with self.subTest(rate), self.assertRaisesRegex(Fault, f"<flow 'f'>: {words}"):
                self.enters(f'<flow id="f" {rate}><route edges="a"/></flow>')

    def test_names_that_sumo_refuses(self):
        inner = '<route edges="a"/>'
        for text, words in (
            (f'<vehicle id="" depart="0">{inner}</vehicle>', "<vehicle>: id='' cannot be read"),
            (f'<flow id="" end="9" number="1">{inner}</flow>', "<flow>: id='' cannot be read"),
            ('<route id="" edges="a"/>', "<route>: id='' cannot be read"),
            ('<vType id=""/>', "<vType>: id='' cannot be read"),
            (f'<vehicle id="v" type="" depart="0">{inner}</vehicle>', "<vehicle 'v'>: type='' cannot be read"),
            (f'<vehicle id="v" depart="0">{inner}{inner}</vehicle>', "<vehicle 'v'>: a second route"),
            ('<vType id="t"/><vType id="t" length="9"/>', "<vType 't'>: a second vehicle type of this name"),
            ('<vType id="t"/><vTypeDistribution id="t" vTypes="t"/>', "<vTypeDistribution 't'>: a second vehicle type"),
        ):
            with self.subTest(text), self.assertRaisesRegex(Fault, words):
                self.enters(text)

    def test_the_usual_type_may_be_told_once(self):
        usual = '<vType id="DEFAULT_VEHTYPE" length="12.5"/>'
        text = f'{usual}<vehicle id="v" depart="0"><route edges="a b"/></vehicle>'
        street, routes = self.write("x.net.xml", FORK), self.write("r.rou.xml", f"<routes>{text}</routes>")
        _, _, commands, _ = convert(street, [], [routes], Options(), Report())
        self.assertEqual([one["size"] for one in commands if one["cmd"] == "enter"], [2])
        with self.assertRaisesRegex(Fault, "<vType 'DEFAULT_VEHTYPE'>: a second vehicle type of this name"):
            self.enters(usual + usual)

    def test_the_usual_type_may_be_a_distribution(self):
        usual = '<vTypeDistribution id="DEFAULT_VEHTYPE"><vType id="long" length="12.5"/></vTypeDistribution>'
        self.enters(f'{usual}<vehicle id="v" depart="0"><route edges="a b"/></vehicle>')
        self.assertEqual([one["size"] for one in self.commands if one["cmd"] == "enter"], [2])

    def test_the_route_that_is_named_counts(self):
        """SUMO leaves out a route that stands in a vehicle which names another one, and says so."""
        report = Report()
        text = '<route id="r" edges="a b"/><vehicle id="v" depart="0" route="r"><route edges="a"/></vehicle>'
        street, routes = self.write("x.net.xml", FORK), self.write("r.rou.xml", f"<routes>{text}</routes>")
        _, _, commands, _ = convert(street, [], [routes], Options(), report)
        self.assertEqual([len(one["plan"]) for one in commands if one["cmd"] == "enter"], [2])
        self.assertIn("ignored: 1 x routes in vehicles that name another one", list(report.lines()))


if __name__ == "__main__":
    unittest.main()
