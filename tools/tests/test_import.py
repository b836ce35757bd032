"""Networks: links, turns, values; faults and limits."""
import gzip
import json
import unittest
from types import SimpleNamespace

from support import FORK, PROGRAM, SCENARIOS, SHARED, Case, lane, needs_simulator, needs_sumo_tools, net
from streetsim.base.client import Client
from streetsim.base.files import Fault
from streetsim.base.report import Report
from streetsim.model.fullness import LEFT_TURN, RIGHT_TURN, STRAIGHT, TURNAROUND
from streetsim.model.mapping import read_map
from streetsim.sumo.converting import refuse_over_limits
from streetsim.sumo.full import ways_of
from streetsim.sumo.import_files import convert, write_run
from streetsim.sumo.link_choice import MISSING_TURN, WRONG_LANE, LinkChoice
from streetsim.sumo.links import limit_of
from streetsim.sumo.lit_ways import open_ways_of_junction
from streetsim.sumo.net import NetConnection, SumoNet, read_net
from streetsim.sumo.network import Options, names_of

# Seconds for a metre by km/h, of SUMO 1.15's usual cars.
SUMO_SECONDS = {20: 0.20667, 30: 0.13197, 50: 0.07648, 70: 0.05388, 100: 0.03730, 130: 0.02854}


class Parts(unittest.TestCase):
    """What is taken of a network."""

    def test_names(self):
        net = SumoNet(called={"B": "Market", "Z": "nowhere"})
        edges = [SimpleNamespace(name="a", street="Hill Street"), SimpleNamespace(name="b", street="")]
        self.assertEqual(names_of(net, edges, "AB"), {"edges": {"a": "Hill Street"}, "junctions": {"B": "Market"}})
        self.assertEqual([names_of(net, edges[1:], "AB"), names_of(net, edges, "A"), names_of(net, [], "A")],
                         [{"junctions": {"B": "Market"}}, {"edges": {"a": "Hill Street"}}, {}])

    def test_directions(self):
        """As SUMO writes them: l and L (partly left), r and R, t (back), s, and what else there is is straight on."""
        pairs = [SimpleNamespace(source="a", target=direction, direction=direction) for direction in "lLrRts"]
        told = {"l": LEFT_TURN, "L": LEFT_TURN, "r": RIGHT_TURN, "R": RIGHT_TURN, "t": TURNAROUND, "s": STRAIGHT}
        self.assertEqual(ways_of(SumoNet(connections=pairs)), {("a", name): way for name, way in told.items()})


    def test_limits(self):
        """A free vehicle has 7.5 m/s a cell of its limit less the share of steps in which it dawdles: of 50, 80 and 100
        km/h the speeds of limits of 2, 3 and 4 are the nearest, 13.7, 21.2 and 28.7 m/s; in a ring of 45 km/h 13.7."""
        for kmh, limit, in_ring in ((50, 2, False), (80, 3, False), (100, 4, False), (45, 2, True)):
            nearest = min(range(1, 7), key=lambda cells: abs((cells - 0.17) * 7.5 - kmh / 3.6))
            found = limit_of(SimpleNamespace(speed=kmh / 3.6), 0.17, range(1, 7), in_ring)
            self.assertEqual((found, nearest), (limit, limit), kmh)


    def test_who_gives_way_by_lane(self):
        """A street of two lanes, whose right one another street joins: that gives way to this lane, and with it the
        turn that SUMO has not."""
        ways = (("w", 0), "M"), (("w", 1), "M"), (("s", 0), "m")
        connections = [
            NetConnection(edge, "e", lane, lane, None, 0, state, request)
            for request, ((edge, lane), state) in enumerate(ways)
        ]
        turns = {0: [(0, 0, 1)], 1: [(0, 1, 1)], 2: [(2, 0, 1), (2, 1, 1)]}
        found = open_ways_of_junction(5, connections, {2: [0]}, turns)
        self.assertEqual(found.ways, (((2, 0, 1),), ((0, 0, 1),), ((2, 1, 1),)))
        self.assertEqual((found.yields, found.signs), (((0, 1, False), (2, 1, False)), "mMm"))

    def test_who_goes_straight_on_does_not_take_a_lane_of_those_who_wait_for_gaps(self):
        """Edge a has a link to b and one to c, where its vehicles wait; b has two."""
        links = [SimpleNamespace(edge=edge, lanes=[0], closed=()) for edge in "aabbc"]
        names = {"a": [0, 1], "b": [2, 3], "c": [4]}
        waits = {("a", "c")}
        choice = LinkChoice(links, names, [None] * 5, {("a", "b"), *waits}, waits, [(0, 0, 2), (1, 0, 4)])
        costs = [choice.change_cost(*pair) for pair in ((0, 2), (0, 3), (1, 3), (0, 4))]
        self.assertEqual(costs, [0.0, MISSING_TURN, WRONG_LANE, WRONG_LANE])


class Written(Case):
    def test_a_map_has_the_end_of_its_configuration(self):
        run, mapped = str(self.folder / "run.jsonl"), str(self.folder / "map.json")
        made = convert(self.write("x.net.xml", FORK), [], [], Options(), Report())
        for more, end in (({}, 0), ({"end": 900}, 900)):
            write_run(run, mapped, made, Report(), **more)
            self.assertEqual(read_map(mapped).end, end)


class Networks(Case):
    def network(self, text, routes=(), **options):
        paths = [self.write(f"r{at}.rou.xml", f"<routes>{route}</routes>") for at, route in enumerate(routes)]
        return convert(self.write("x.net.xml", text), [], paths, Options(**options), self.report())

    def report(self):
        self.said = Report()
        return self.said

    def one_street(self, **fields):
        network, *_ = self.network(net([("a", "A", "B", [lane("a", 0, **fields)])], []))
        return network.links[0]

    def test_a_run_is_zipped_where_its_name_says_so(self):
        given, mapping = self.write("x.net.xml", FORK), self.folder / "map.json"
        self.tool("import", given, "-o", self.folder / "run.jsonl", "--map", mapping)
        self.tool("import", given, "-o", self.folder / "run.jsonl.gz", "--map", mapping)
        self.assertEqual(
            gzip.decompress((self.folder / "run.jsonl.gz").read_bytes()), (self.folder / "run.jsonl").read_bytes()
        )

    def test_speeds_and_lengths(self):
        # With dawdle 170 a limit of L cells gives (L - 0.17) * 27 km/h when free: 22, 49, 76, 103, 130.
        for kmh, limit in ((30, 1), (50, 2), (70, 3), (100, 4), (120, 5), (200, 5), (5, 1)):
            self.assertEqual(self.one_street(speed=kmh / 3.6).limit, limit, kmh)
        # SUMO's usual cars take 0.0765 s for a metre at 50 km/h, in which vehicles go 1.83 cells a second here.
        for metres, cells in ((0.1, 1), (7.5, 1), (75, 10), (78.5, 11), (500, 70)):
            self.assertEqual(self.one_street(metres=metres).cells, cells, metres)

    def test_speeds_between_the_limits(self):
        # One alone takes as long as in SUMO, but for half a cell: SUMO 1.15's seconds for a metre, of 4,800 cars, each
        # alone on its street, with eight seeds.
        for kmh, seconds in SUMO_SECONDS.items():
            street = self.one_street(speed=kmh / 3.6, metres=600)
            half, found = 0.5 / (street.limit - 0.17), street.cells / (street.limit - 0.17)
            self.assertAlmostEqual(found, 600 * seconds, delta=half + 0.002 * found)
        self.one_street(speed=30 / 3.6, metres=600)
        why = "22 km/h when free, on 18 % fewer cells, so that one alone takes as long as in SUMO"
        self.assertEqual(self.said.warnings, [f"30 km/h becomes 1 cells a step, {why}: 1 links"])

    def test_streets_have_limits_where_all_slow_down_in_each_step(self):
        """At one cell a step the free speed is 0 then, so a street of 9 km/h has two. SUMO's cars lose a quarter of
        2.5 m/s by chance, and need 80 s for 150 m."""
        text = net([("a", "A", "B", [lane("a", 0, 150.0, 2.5)])], [])
        network, *_ = self.network(text, dawdle=1000)
        self.assertEqual([(link.limit, link.cells) for link in network.links], [(2, 80)])

    def test_a_street_with_fewer_cells_has_room_in_the_buffers_before_it(self):
        edges = [("a", "A", "B", [lane("a", 0)]), ("b", "B", "C", [lane("b", 0, 300.0, 30 / 3.6)])]
        network, *_ = self.network(net(edges, [("a", 0, "b", 0, "")]))
        usual, street, passing = Options().buffer, network.links[1], network.residences[1] + 1
        self.assertEqual(network.buffers, [usual, passing + 40 - street.cells, usual])
        self.assertEqual([node[2] for node in network.load_command()["nodes"]], network.buffers)

    def test_nobody_stands_where_a_street_goes_on_as_another_one(self):
        """Its vehicles stay there for a second each."""
        edges = [("a", "A", "B", [lane("a", 0)]), ("b", "B", "C", [lane("b", 0)])]
        network, *_ = self.network(net(edges, [("a", 0, "b", 0, "")]))
        self.assertEqual((network.residences[1], network.buffers[1]), (1, 2))

    def test_what_is_not_modelled_is_named(self):
        ends = [("a", "A", "C", [lane("a", 0)]), ("b", "B", "C", [lane("b", 0)]), ("c", "C", "D", [lane("c", 0)])]
        made = net(ends, [("a", 0, "c", 0, ""), ("b", 0, "c", 0, "")])
        made = made.replace('<junction id="C" type="priority"', '<junction id="C" type="rail_signal"')
        self.network(made.replace('state="M"', 'state="o"'))
        self.assertIn("1 junctions are of type rail_signal, which does nothing here: C", self.said.warnings)
        told = "2 connections have the state 'o', which does nothing here: edges a, b"
        self.assertIn(told, self.said.warnings)
        self.assertEqual(sorted(self.said.alike[told][0].names), ["a", "b"])
        self.network(made.replace("rail_signal", "priority_stop"))
        self.assertFalse([text for text in self.said.warnings if "does nothing here" in text])

    def test_at_stop_signs_nobody_stops_who_turns_off_a_main_street(self):
        """A main street from a with a left turn, and a minor street from b; both have the state of a stop sign."""
        ends = [(name, name.upper(), "C", [lane(name, 0)]) for name in "ab"]
        ends += [(name, "C", name.upper(), [lane(name, 0)]) for name in "xy"]
        ways = [("a", "x"), ("a", "y"), ("b", "x"), ("b", "y")]
        made = net(ends, [(one, 0, other, 0, "") for one, other in ways])
        for place in ('from="a" to="y"', 'from="b" to="x"', 'from="b" to="y"'):
            usual = f'{place} fromLane="0" toLane="0" state='
            made = made.replace(f'{usual}"M"', f'{usual}"s"')
        lit = made.replace('from="b" to="x"', 'from="b" to="x" tl="C" linkIndex="0"')
        for text, expected in ((made, "Mmss"), (lit, "Msss"), (made.replace('"M"', '"s"'), "ssss")):
            read = read_net(self.write("x.net.xml", text), Options().classes, Report())
            found = {(one.source, one.target): one.state for one in read.connections}
            self.assertEqual("".join(found[way] for way in ways), expected)

    def test_a_ring_whose_entries_go_first(self):
        """Three nodes in a ring; at each a street enters."""
        ring = [(f"r{at}", f"N{at}", f"N{(at + 1) % 3}", [lane(f"r{at}", 0, 20.0)]) for at in range(3)]
        entries = [(f"e{at}", f"E{at}", f"N{at}", [lane(f"e{at}", 0)]) for at in range(3)]
        ways = [(f"r{at}", 0, f"r{(at + 1) % 3}", 0, f'via=":N{(at + 1) % 3}_0_0"') for at in range(3)]
        ways += [(f"e{at}", 0, f"r{at}", 0, f'via=":N{at}_1_0"') for at in range(3)]
        told = "a ring whose entries go first, which fills and locks as in SUMO: edges r0, r1, r2"
        for responses, count in (("10 00", 1), ("00 01", 0)):
            made = net([*ring, *entries], ways)
            for at in range(3):
                rows = "".join(f'<request index="{n}" response="{bits}"/>' for n, bits in enumerate(responses.split()))
                old = f'<junction id="N{at}" type="priority" x="0" y="0"/>'
                made = made.replace(old, f'{old[:-2]}>{rows}</junction>')
            made = made.replace('state="M"', 'state="m"')
            self.network(made)
            self.assertEqual(self.said.warnings.count(told), count, self.said.warnings)

    def test_warnings_of_rules(self):
        self.one_street(speed=30 / 3.6, metres=3)
        self.assertEqual(
            self.said.warnings,
            [
                "1 edges are shorter than a cell of 7.5 m and get one: a",
                "30 km/h becomes 1 cells a step, 22 km/h when free: 1 links",
            ],
        )

    def test_an_edge_of_one_cell_is_not_short(self):
        self.one_street(speed=50 / 3.6, metres=7.5)
        self.assertEqual([told for told in self.said.warnings if "shorter" in told], [])

    def test_warnings_of_lengths_and_merges(self):
        # 12 m are two cells, a quarter longer; 75 m are ten. On a motorway two roads become one,
        # on a street of 50 km/h too.
        for kmh, count in ((100, 1), (50, 0)):
            ends = [
                ("a", "A", "C", [lane("a", 0, 12)]),
                ("b", "B", "C", [lane("b", 0)]),
                ("c", "C", "D", [lane("c", 0, speed=kmh / 3.6)]),
            ]
            self.network(net(ends, [("a", 0, "c", 0, ""), ("b", 0, "c", 0, "")]))
            merges = [
                text
                for text in self.said.warnings
                if "fast roads begin where others merge" in text and text.endswith("long: c")
            ]
            self.assertEqual(len(merges), count)
            longer = "1 edges are longer here than in SUMO by more than a tenth, as lengths are whole cells: a"
            self.assertIn(longer, self.said.warnings)
            self.assertEqual(self.said.alike[longer][0].names, ("a",))

    def test_turns_for_both_lanes(self):
        network, *_ = self.network(SHARED)
        self.assertEqual(
            {key: turn.added for key, turn in network.turns.items()},
            {(0, 0, 1): False, (0, 0, 2): False, (0, 1, 2): False, (0, 1, 3): False, (0, 1, 1): True, (0, 0, 3): True},
        )
        strict, *_ = self.network(SHARED, strict_turns=True)
        self.assertEqual(set(strict.turns), {(0, 0, 1), (0, 0, 2), (0, 1, 2), (0, 1, 3)})

    def test_lanes_to_different_edges_are_links_of_their_own(self):
        network, *_ = self.network(FORK)
        self.assertEqual([link.lanes for link in network.links[:2]], [(0,), (1,)])
        self.assertEqual(set(network.turns), {(0, 0, 2), (1, 0, 3)})

    def test_of_several_connections_the_same_lane_is_kept(self):
        wide = net(
            [("a", "A", "B", [lane("a", 0), lane("a", 1)]), ("b", "B", "C", [lane("b", 0), lane("b", 1)])],
            [("a", 1, "b", 0, ""), ("a", 1, "b", 1, ""), ("a", 0, "b", 0, "")],
        )
        network, *_ = self.network(wide)
        self.assertEqual({key: turn.next_lane for key, turn in network.turns.items()}, {(0, 1, 1): 1, (0, 0, 1): 0})

    def test_three_lanes_are_two_parallel_links(self):
        lanes = [lane("a", index) for index in range(3)]
        ends = [(name, "B", name, [lane(name, 0)]) for name in "bcd"]
        left_alone = [("a", 0, "b", 0, ""), ("a", 1, "b", 0, ""), ("a", 1, "c", 0, ""), ("a", 2, "d", 0, "")]
        right_alone = [("a", 0, "b", 0, ""), ("a", 1, "c", 0, ""), ("a", 2, "c", 0, ""), ("a", 2, "d", 0, "")]
        for connections, expected in ((left_alone, [(0, 1), (2,)]), (right_alone, [(0,), (1, 2)])):
            network, *_ = self.network(net([("a", "A", "B", lanes), *ends], connections))
            self.assertEqual([link.lanes for link in network.links if link.edge == "a"], expected)

    def test_four_and_five_lanes(self):
        for count, expected in ((4, [(0, 1), (2, 3)]), (5, [(0, 1), (2, 3), (4,)])):
            lanes = [lane("a", index) for index in range(count)]
            network, *_ = self.network(net([("a", "A", "B", lanes)], []))
            self.assertEqual([link.lanes for link in network.links], expected)

    def test_links_are_ordered_by_who_goes_first(self):
        """The roundabout, then the greatest share of connections that need not give way, priority, speed, the file."""
        names = ("slow", "also_slow", "fast", "yields", "half_yields", "main", "ring")
        edges = [(name, name, "B", [lane(name, 0, speed=25 if name == "fast" else 10)]) for name in names]
        connections = [(name, 0, out, 0, "") for name in names for out in ("out", "other")]
        text = net([*edges, *((out, "B", out, [lane(out, 0, speed=5)]) for out in ("out", "other"))], connections)
        for name, out in (("yields", "out"), ("yields", "other"), ("half_yields", "out"), ("ring", "out")):
            place = f'from="{name}" to="{out}" fromLane="0" toLane="0" state='
            text = text.replace(place + '"M"', place + '"m"')
        text = text.replace(
            '<edge id="main" from="main" to="B" priority="1"', '<edge id="main" from="main" to="B" priority="9"'
        )
        network, *_ = self.network(text.replace("</net>", '<roundabout nodes="B" edges="ring"/></net>'))
        self.assertEqual(
            [link.edge for link in network.links],
            ["ring", "main", "fast", "slow", "also_slow", "half_yields", "yields", "out", "other"],
        )

    def test_routes_share_parallel_links_by_lanes(self):
        lanes = [[lane(name, index) for index in range(3)] for name in "ab"]
        wide = net(
            [("a", "A", "B", lanes[0]), ("b", "B", "C", lanes[1])], [("a", index, "b", index, "") for index in range(3)]
        )
        network, _, commands, _ = self.network(
            wide, ['<flow id="f" begin="0" end="300" period="1"><route edges="a b"/></flow>']
        )
        use = [
            sum(command["plan"][0] == link for command in commands if command["cmd"] == "enter")
            for link in network.links_of["a"]
        ]
        self.assertEqual(use, [200, 100])
        self.assertFalse(network.joined)

    def test_a_change_between_parallel_links_adds_a_turn(self):
        lanes = [[lane(name, index) for index in range(3)] for name in "ab"]
        forced = net(
            [("a", "A", "B", lanes[0]), ("b", "B", "C", lanes[1]), ("c", "C", "D", [lane("c", 0)])],
            [("a", 0, "b", 0, ""), ("b", 2, "c", 0, "")],
        )
        network, *_ = self.network(forced, ['<vehicle id="v" depart="0"><route edges="a b c"/></vehicle>'])
        self.assertEqual(len(network.joined), 1)
        self.assertIn("1 turns between parallel links added for routes that change between them", self.said.warnings)

    def test_residence(self):
        # B has two edges in and three out: a real junction. A and the ends have not.
        edges = [("a", "A", "B", [lane("a", 0)]), ("z", "Z", "B", [lane("z", 0)])] + [
            (name, "B", name, [lane(name, 0)]) for name in "bcd"
        ]
        network, *_ = self.network(net(edges, []), residence=3)
        self.assertEqual(
            dict(zip(network.nodes, network.residences, strict=True)), {"A": 1, "B": 3, "Z": 1, "b": 1, "c": 1, "d": 1}
        )

    def test_classes(self):
        bus = net([("a", "A", "B", [lane("a", 0, more='allow="bus"'), lane("a", 1)])], [])
        network, *_ = self.network(bus)
        self.assertEqual(network.links[0].lanes, (1,))
        self.assertEqual(self.said.warnings, ["1 lanes are closed to passenger and left out, with 0 whole edges"])
        with self.assertRaisesRegex(Fault, "no lane is open to passenger; lanes are opened to: bus"):
            self.network(net([("a", "A", "B", [lane("a", 0, more='allow="bus"')])], []))

    def test_a_lane_of_others_between(self):
        # In SUMO nobody changes over it, as vehicles look at the next lane alone.
        lanes = [lane("a", 0), lane("a", 1, more='allow="bicycle"'), lane("a", 2)]
        turns = [("a", at, "b", 0, "") for at in (0, 2)]
        network, *_ = self.network(net([("a", "A", "B", lanes), ("b", "B", "C", [lane("b", 0)])], turns))
        self.assertEqual(network.links[0].lanes, (0, 2))
        told = "on 1 edges a lane that is left out lies between lanes, over which vehicles change here: a"
        self.assertIn(told, self.said.warnings)

    def test_too_many_vehicles_and_too_long_a_line(self):
        network, *_ = self.network(FORK)
        refuse_over_limits(network, "x" * 1_048_576, range(1_000_000))
        words = (
            "too large for streetsim: 1,000,001 vehicles, at most 1,000,000; a load line of 1,048,577 bytes, "
            "at most 1,048,576"
        )
        with self.assertRaisesRegex(Fault, words):
            refuse_over_limits(network, "x" * 1_048_577, range(1_000_001))

    @needs_simulator
    def test_two_side_by_side(self):
        # Each needs the turn of the other's lane. With SUMO's turns alone they stand for ever; with the added ones
        # both arrive.
        for strict, arrived in ((True, 0), (False, 2)):
            _, _, commands, _ = self.network(SHARED, strict_turns=strict, dawdle=0)
            with Client(PROGRAM) as sim:
                sim.batch(commands)
                sim.enter([0, 3], 0, 0)
                sim.enter([0, 1], 1, 0)
                sim.advance(10_000)
                self.assertEqual(sim.count().arrived, arrived)


class Tool(Case):
    def run_tool(self, text, routes=None, more=(), status=2):
        words = [
            "import",
            self.write("x.net.xml", text),
            *more,
            *(["--routes", self.write("r.rou.xml", routes)] if routes else []),
        ]
        self.output, self.mapped = self.folder / "run.jsonl", self.folder / "run.map.json"
        return self.tool(*words, "-o", self.output, "--map", self.mapped, status=status)[1]

    def refused(self, words, *arguments, **fields):
        told = self.run_tool(*arguments, **fields)
        self.assertIn(words, told)
        self.assertEqual(told.count("\n"), 1)
        self.assertFalse([path.name for path in self.folder.iterdir() if path.name.startswith("run.")])

    def test_faults_leave_nothing(self):
        self.refused("x.net.xml: not XML", FORK[:-20])
        self.refused("no.add.xml: No such file", FORK, more=["no.add.xml"])
        self.refused("x.net.xml: the root is <routes>, expected <net>", "<routes/>")
        self.refused(
            "<vehicle 'v'>: the network has no edge 'z'",
            FORK,
            '<routes><vehicle id="v" depart="0"><route edges="z"/></vehicle></routes>',
        )
        self.refused("no junction 'B'", FORK.replace('<junction id="B"', '<junction id="other"'))
        self.refused("<connection 'a'>: the network has no edge 'z'", FORK.replace('to="c"', 'to="z"'))
        self.refused("edge 'c' does not begin where this one ends", FORK.replace('id="c" from="B"', 'id="c" from="A"'))
        self.refused("<edge 'a'>: two lanes of one index", FORK.replace('index="1"', 'index="0"', 1))
        self.refused("length='-1' cannot be read", FORK.replace('length="75.0"', 'length="-1"', 1))
        self.refused("length='long' cannot be read", FORK.replace('length="75.0"', 'length="long"', 1))

    def test_limits_are_told_before_anything_is_written(self):
        edges = [(f"e{at}", "A", "B", [lane(f"e{at}", 0)]) for at in range(4097)]
        self.refused("too large for streetsim: 4,097 links, at most 4,096", net(edges, []))
        self.refused(
            "1 links above 1,000,000 cells of 7.5 m: edges a",
            net([("a", "A", "B", [lane("a", 0, metres=7_600_000)])], []),
        )

    def test_too_many_turns(self):
        edges = [
            (f"{way}{at}", *ends, [lane(f"{way}{at}", 0)])
            for way, ends in (("a", "AB"), ("b", "BC"))
            for at in range(182)
        ]
        turns = [(f"a{at}", 0, f"b{other}", 0, "") for at in range(182) for other in range(182)]
        self.refused("too large for streetsim: 33,124 turns, at most 32,768", net(edges, turns))

    def test_most_links_fit(self):
        self.run_tool(net([(f"e{at}", "A", "B", [lane(f"e{at}", 0)]) for at in range(4096)], []), status=0)
        self.assertLess(len(self.output.read_text().splitlines()[0]), 1_048_576)

    def test_strict(self):
        broken = '<routes><vehicle id="v" depart="0"><route edges="b c"/></vehicle></routes>'
        self.assertIn("skipped: 1 vehicles", self.run_tool(FORK, broken, more=["--ignore-route-errors"], status=0))
        self.run_tool(FORK, broken, more=["--ignore-route-errors", "--strict"], status=1)

    def test_map(self):
        self.run_tool(FORK, '<routes><vehicle id="v" depart="0"><route edges="a c"/></vehicle></routes>', status=0)
        mapped = json.loads(self.mapped.read_text())
        self.assertEqual(
            (mapped["cars"], mapped["links"]["edge"], mapped["nodes"]["junction"]),
            (["v"], ["a", "a", "b", "c"], ["A", "B", "C", "D"]),
        )
        load, cells = json.loads(self.output.read_text().splitlines()[0]), mapped["links"]["cells"]
        ends = [0, 1], [0, 1], [1, 2], [1, 3]
        rows = [[at, *both, 1, own, 2] for at, (both, own) in enumerate(zip(ends, cells, strict=True))]
        self.assertEqual(load["links"], rows)


@needs_sumo_tools
@needs_simulator
class Shipped(Case):
    def test_every_network_is_read(self):
        """Each network that sumo-tools ships loads with all its signals, or is refused by the limit that it passes."""
        paths = sorted(SCENARIOS.parents[3].rglob("*.net.xml"))
        self.assertGreater(len(paths), 20)
        for path in paths:
            with self.subTest(path.name):
                self.try_network(str(path))

    def try_network(self, path):
        try:
            network, _, commands, _ = convert(path, [], [], Options(), Report())
            refuse_over_limits(network, json.dumps(commands[0]), [])
        except Fault as fault:
            self.assertRegex(str(fault), "no lane is open to passenger|too large for streetsim")
            return
        with Client(PROGRAM) as sim:
            self.assertEqual([reply for reply in sim.batch(commands) if isinstance(reply, Exception)], [])


if __name__ == "__main__":
    unittest.main()
