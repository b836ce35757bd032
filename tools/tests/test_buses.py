"""Buses that stop: what files ask for, one bus at a stop by hand, whole runs."""
import csv
import unittest
import xml.etree.ElementTree as ElementTree

from support import PROGRAM, Case, lane, needs_simulator, net
from streetsim.base.files import Fault
from streetsim.base.report import Report
from streetsim.control.actuated_logic import Actuated, ActuatedPhase as Phase
from streetsim.control.bus_coordinated import Coordinated
from streetsim.control.bus_fleet import BusFleet
from streetsim.control.bus_planned import meets, planned
from streetsim.control.bus_priority import LESS_GAIN, bounded
from streetsim.control.bus_stopping import PATIENCE, BusAtStop, Road
from streetsim.control.merging_rule import SeenVehicle
from streetsim.control.works_closures import Closure
from streetsim.model.folder import read_folder
from streetsim.model.runs import run_of_texts
from streetsim.model.stops import MISSED, OTHER_LANE, OWN_LANE, STANDING, Visit
from streetsim.observe.trips import stop_rows
from streetsim.sumo.converting import run_and_map
from streetsim.sumo.import_files import convert
from streetsim.sumo.network import Options

# A street of two edges; the first has two lanes.
STREET = net(
    [
        ("a", "A", "B", [lane("a", 0, 300.0), lane("a", 1, 300.0)]),
        ("b", "B", "C", [lane("b", 0, 300.0)]),
        ("tiny", "C", "D", [lane("tiny", 0, 8.0)]),
        ("way", "B", "E", [lane("way", 0, 300.0, more='allow="bus"'), lane("way", 1, 300.0)]),
    ],
    [("a", 0, "b", 0, ""), ("a", 1, "b", 0, ""), ("b", 0, "tiny", 0, ""), ("a", 1, "way", 1, "")],
)
STOPS = (
    '<busStop id="first" lane="a_0" startPos="100" endPos="150"/><busStop id="second" lane="b_0" endPos="-150"/>'
    '<busStop id="own" lane="way_0" startPos="20" endPos="40"/><busStop id="short" lane="tiny_0"/>'
)
BUS = '<vType id="bus" vClass="bus"/>'
AT_FIRST = '<stop busStop="first" duration="20"/>'


class Files(Case):
    def imported(self, routes, stops=STOPS, trips=False, **options):
        report = Report()
        paths = [self.write("r.rou.xml", f"<routes>{BUS}{routes}</routes>")]
        files = [self.write("x.net.xml", STREET), [self.write("s.add.xml", f"<additional>{stops}</additional>")]]
        files += [[], Options(**options), report, paths] if trips else [paths, Options(**options), report]
        lines, mapping = run_and_map(convert(*files), report)
        return lines, mapping, report

    def visits(self, routes, **more):
        _, mapping, _ = self.imported(routes, **more)
        return [(mapping.cars[one.vehicle], one.stop, one.duration, one.until) for one in mapping.visits]

    def unmade(self, routes, **more):
        return [row for row in self.imported(routes, **more)[2].rows() if "stops" in row[1] and row[0] != "no effect"]

    def test_until_is_that_of_sumo(self):
        # As SUMO 1.15's stop-output tells when each of these leaves: a named route counts from the departure, what
        # stands in a vehicle does not, and a flow's is for a departure at its begin.
        named = '<route id="r" edges="a b"><stop busStop="first" duration="20" until="100"/></route>'
        inner = '<route edges="a b"><stop busStop="first" duration="10" until="400"/></route>'
        found = self.visits(
            f'{named}<vehicle id="v" depart="200" route="r"/><vehicle id="w" depart="250">{inner}</vehicle>'
            '<flow id="f" route="r" begin="600" end="901" period="300"/>'
            f'<flow id="g" begin="300" end="601" period="300">{inner}</flow>'
            '<vehicle id="x" depart="450" route="r"><stop busStop="second" duration="5"/></vehicle>'
        )
        self.assertEqual(found, [
            *(("v", "first", 20, 300), ("w", "first", 10, 400), ("g.0", "first", 10, 400)),
            *(("x", "first", 20, 550), ("x", "second", 5, None)),
            *(("f.0", "first", 20, 700), ("g.1", "first", 10, 700), ("f.1", "first", 20, 1000)),
        ])

    def test_places_on_cells(self):
        text = f'<vehicle id="v" type="bus" depart="0"><route edges="a b"/>{AT_FIRST}'
        _, mapping, _ = self.imported(f'{text}<stop busStop="second" duration="1"/><stop lane="b_0" endPos="300" '
                                      'duration="9"/></vehicle>')
        # From 100 to 150 m, from 0 to 150, and at the end: there the last cell of a lane stays free, as it is closed
        # while a bus stands.
        cells = [mapping.links[mapping.links_of[name][0]].cells for name in "ab"]
        places = [(mapping.links[one.link].edge, one.lane, one.first, one.last) for one in mapping.visits]
        half = [round(one / 2) - 1 for one in cells]
        second = ("b", 0, 0, half[1]), ("b", 0, cells[1] - 2, cells[1] - 2)
        self.assertEqual(places, [("a", 0, cells[0] // 3, half[0]), *second])
        # SUMO's bus brakes with 4 and starts with 1.2 m/s2: 13.89 / 2 / 4 s, and 13.89 / 2 / 1.2 s less half a second.
        self.assertEqual((mapping.visits[0].braking, mapping.visits[0].starting), (1.74, 5.29))

    def test_an_end_by_its_former_name(self):
        # SUMO 1.15 calls it deprecated, and stops there: half of 300 m.
        _, mapping, _ = self.imported(
            '<vehicle id="v" depart="0"><route edges="a b"/><stop lane="a_0" pos="150" duration="9"/></vehicle>'
        )
        half = round(mapping.links[mapping.links_of["a"][0]].cells / 2) - 1
        self.assertEqual([(one.first, one.last) for one in mapping.visits], [(half, half)])

    def test_it_enters_on_the_lane_of_its_stop(self):
        text = "".join(
            f'<vehicle id="v{at}" depart="{at}"><route edges="a b"/><stop lane="a_1" endPos="99" duration="3"/>'
            "</vehicle>"
            for at in range(3)
        )
        lines, _, _ = self.imported(text)
        self.assertEqual(sum('"lane":1' in line for line in lines if '"enter"' in line), 3)

    def test_lines_of_public_transport_are_kept(self):
        _, mapping, _ = self.imported('<vehicle id="v" line="7" depart="0"><route edges="a b"/></vehicle>')
        self.assertEqual(mapping.kinds["line"], ["7"])

    def test_a_trip_from_stop_to_stop(self):
        text = f'<trip id="t" depart="0">{AT_FIRST}<stop busStop="second" duration="5"/></trip>'
        self.assertEqual(self.visits(text, trips=True), [("t", "first", 20, None), ("t", "second", 5, None)])

    def test_a_stop_without_a_name_is_told_by_its_lane_and_end(self):
        stops = '<stop lane="a_0" endPos="150" duration="5"/><stop lane="b_0" endPos="72.5" duration="9"/>'
        text = f'<vehicle id="v" depart="0"><route edges="a b"/>{stops}</vehicle>'
        self.assertEqual(self.visits(text), [("v", "a_0:150", 5, None), ("v", "b_0:72.5", 9, None)])

    def test_what_can_not_be_made_is_told_by_name(self):
        for stop, why in (
            ('lane="a_0" endPos="99" duration="9" parking="true"', "in a bay beside the lane (parking): v at a_0"),
            ('busStop="first"', "without duration and until, with which SUMO's vehicle stands for good: v at first"),
            ('parkingArea="x" duration="9"', "at a parkingArea: v at x"),
            ('busStop="first" triggered="true" duration="9"', "as long as others say (triggered): v at first"),
            ('busStop="second" duration="9"', "not on the vehicle's way, behind its stops before: v at second"),
            ('busStop="first" duration="9" onDemand="true"', "where SUMO's vehicle stops for persons alone (onDemand): "
                                                             "v at first"),
        ):
            with self.subTest(why):
                text = f'<vehicle id="v" depart="0"><route edges="a"/><stop {stop}/></vehicle>'
                [row] = self.unmade(text)
                self.assertEqual(row[0], "changes results")
                self.assertEqual(row[1], f"1 stops of vehicles are not made, {why}")
        text = '<vehicle id="v" depart="0"><route edges="a way"/><stop busStop="own" duration="9"/></vehicle>'
        self.assertIn("its lane is left out, as it is closed to the classes: v at own", self.unmade(text)[0][1])
        text = '<vehicle id="v" depart="0"><route edges="b tiny"/><stop busStop="short" duration="9"/></vehicle>'
        self.assertIn("the lane is shorter than two cells: v at short", self.unmade(text)[0][1])

    def test_what_sumo_refuses(self):
        text = '<vehicle id="v" depart="0"><route edges="a b"/><stop {}/></vehicle>'
        for stop, why in (
            ('busStop="x" duration="9"', "<vehicle 'v'>: <stop>: there is no busStop 'x'"),
            ('lane="x_0" duration="9"', "<vehicle 'v'>: <stop>: the network has no lane 'x_0'"),
            ('duration="9"', "<vehicle 'v'>: <stop>: without busStop, lane or edge"),
            ('busStop="first" duration="soon"', "duration='soon' cannot be read"),
            ('busStop="first" duration="-5"', "duration='-5' cannot be read"),
            ('lane="a_0" until="-5"', "until='-5' cannot be read"),
            ('lane="a_0" endPos="400" duration="9"', "from 399.8 to 400 m does not lie on lane 'a_0' of 300 m"),
        ):
            with self.subTest(why), self.assertRaises(Fault) as fault:
                self.imported(text.format(stop))
            self.assertIn(why, str(fault.exception))
        with self.assertRaises(Fault) as fault:
            self.imported("", stops=STOPS + '<busStop id="first" lane="a_0"/>')
        self.assertIn("<busStop 'first'>: a second stop of this name", str(fault.exception))


    def test_decelerations_count_where_vehicles_stop(self):
        # One of three types has a vehicle that stops; a deceleration of another one has no effect. Others count.
        types = '<vType id="x" accel="1" decel="2"/><vType id="y" decel="3"/><vType id="z" sigma="0.5"/>'
        route = '<route edges="a b"/>{}'
        cars = "".join(f'<vehicle id="{one}" type="{one}" depart="0">{route}</vehicle>' for one in "xyz")
        for stop, expected in ((AT_FIRST, 1), ("", 2)):
            *_, report = self.imported(types + cars.format(stop, "", ""))
            found = [report.ignored[f"{name} of vTypes"] for name in ("decel", "accel", "sigma")]
            self.assertEqual(found, [expected, 0, 0])

    def test_a_greatest_speed_counts_at_stops(self):
        # SUMO's bus comes to its stop at 8 m/s: it loses 8 / 2 / 4 s as it brakes, and 8 / 2 / 1.2 s less half a
        # second as it starts.
        slow = '<vType id="slow" vClass="bus" maxSpeed="8"/><vType id="other" maxSpeed="8"/>'
        cars = '<vehicle id="{0}" type="{0}" depart="0"><route edges="a b"/>{1}</vehicle>'
        for stop, at_stops in ((AT_FIRST, 1), ("", 0)):
            _, mapping, report = self.imported(slow + cars.format("slow", stop) + cars.format("other", ""))
            self.assertEqual([one for one in report.ignored if "maxSpeed" in one and report.ignored[one]], [])
            self.assertEqual([(one.braking, one.starting) for one in mapping.visits], [(1.0, 2.83)] * at_stops)

    def test_a_stop_past_which_the_run_leads_has_a_row(self):
        # The bus is led over another link, as works on the stop's lane do.
        stops = f'{AT_FIRST}<stop busStop="second" duration="20"/>'
        bus = f'<vehicle id="v" type="bus" depart="0"><route edges="a b"/>{stops}</vehicle>'
        lines, mapping, _ = self.imported(bus)
        run = run_of_texts("", lines)
        [enter] = run.enters
        enter.command["plan"][0] = mapping.links_of["way"][0]
        run.enters = [enter]
        plan = planned(run, mapping)
        self.assertEqual([one.stop for one in plan.visits], ["second"])
        stops = BusFleet(plan, run, mapping).stop_outcomes()
        found = [(row[2], row[3], row[4], row[-1]) for row in stop_rows(stops, run, mapping)]
        self.assertEqual(found, [("first", "a", 0, "not made"), ("second", "b", 0, "not reached")])


def visit(**more):
    told = {"vehicle": 0, "at": 0, "stop": "s", "link": 0, "lane": 0, "first": 17, "last": 19, "duration": 20}
    return Visit(**{**told, "until": None, "braking": 1.74, "starting": 5.29, **more})


def bus(cell, speed, size=2):
    return SeenVehicle(9, cell, speed, size)


class Bounds(unittest.TestCase):
    def test_works_at_a_stop(self):
        """Cells 17 to 19, and cell 20 beyond, are the stop's; who departs as the works end does not meet them."""
        def met(first, last, begin=0, end=101, depart=100, lane=0):
            return meets(visit(), depart, Closure(0, lane, first, last, begin, end))

        self.assertEqual([met(*cells) for cells in ((10, 17), (18, 18), (20, 25))], [True] * 3)
        self.assertTrue(met(18, 18, begin=5000, end=5001))
        others = met(10, 16), met(21, 25), met(18, 18, end=100), met(18, 18, lane=1)
        self.assertEqual(others, (False,) * 4)

    def test_cells_that_works_have_closed(self):
        """Cells 3 to 5 of lane 0, from 300 s until 600 s: at 600 s they are open."""
        fleet = BusFleet.__new__(BusFleet)
        fleet.works = [Closure(0, 0, 3, 5, 300, 600)]
        found = [fleet.is_at_works(clock, 0, 0, 4) for clock in (299, 300, 599, 600)]
        self.assertEqual(found, [False, True, True, False])
        others = [fleet.is_at_works(300, *place) for place in ((0, 0, 2), (0, 0, 6), (0, 1, 4), (1, 0, 4))]
        self.assertEqual([fleet.is_at_works(300, 0, 0, cell) for cell in (3, 5)] + others, [True] * 2 + [False] * 4)

    def test_greens_that_wait_for_a_bus(self):
        """Without bounds of its own a green of 31 s may be as short as its half and longer by the 15 s in which the bus
        is seen; none is shorter than 5 s, or than it is listed. A yellow lasts as long as it does."""
        def bounds(*kept):
            one = bounded(kept, 15)
            return one.least_seconds, one.most_seconds

        self.assertEqual([bounds(seconds, "Gr", None, None) for seconds in (31, 8, 4)], [(16, 46), (5, 23), (4, 19)])
        self.assertEqual([bounds(31, "Gr", 20, 40), bounds(31, "Gr", 20, 10), bounds(3, "yr", None, None)],
                         [(20, 40), (20, 20), (3, 3)])


class OneStop(unittest.TestCase):
    """A bus of two cells, a limit of 2 cells a second, a stop in cells 17 to 19."""

    def stopping(self, lanes=1, lane=0, **more):
        return BusAtStop(visit(**more), Road(lanes, 2, 40), lane)

    def closed(self, stopping, one, own=(), other=(), clock=100):
        stopping.decide_closed(clock, one, {stopping.lane: [*own, one], 1 - stopping.lane: [*other]})
        return stopping.closed

    def test_the_cell_beyond_is_closed_in_the_step_in_which_it_would_pass(self):
        self.assertEqual(self.closed(self.stopping(), bus(17, 2)), set())  # comes to 19 at most
        self.assertEqual(self.closed(self.stopping(), bus(18, 1)), {(0, 20)})
        self.assertEqual(self.closed(self.stopping(), bus(16, 2)), set())
        ahead = [SeenVehicle(1, 20, 2)]  # who stops it
        self.assertEqual(self.closed(self.stopping(), bus(18, 2), own=ahead), set())
        self.assertEqual(self.closed(self.stopping(), bus(18, 2), own=[SeenVehicle(1, 22, 2)]), {(0, 20)})

    def test_its_time_at_the_stop(self):
        one = self.stopping()
        # Braking takes SUMO's bus 2 s more, then 20 s of stop, then 5 s until it is as far as one that starts here.
        self.assertEqual(one.decide_closed(100, bus(19, 2), {0: [bus(19, 2)]}), 22)
        self.assertEqual((one.state, one.arrived, one.leaves, one.closed), (STANDING, 102, 122, {(0, 20)}))
        self.assertEqual(one.decide_closed(122, bus(19, 0), {0: [bus(19, 0)]}), 5)
        one.decide_closed(127, bus(19, 0), {})
        self.assertEqual((one.state, one.closed), (OWN_LANE, set()))

    def test_until(self):
        one = self.stopping(until=300)
        one.decide_closed(100, bus(19, 2), {})
        self.assertEqual((one.arrived, one.leaves), (102, 300))
        late = self.stopping(until=90)
        late.decide_closed(100, bus(19, 2), {})
        self.assertEqual(late.leaves, 122)

    def test_it_goes_earlier_for_those_who_stand_behind(self):
        one = self.stopping()
        one.decide_closed(100, bus(19, 2), {})
        queue = [SeenVehicle(at, 17 - at, 0) for at in range(8)]  # 0.2 s each: 5.29 - 1.6 = 3.69
        self.assertEqual(one.decide_closed(122, bus(19, 0), {0: [bus(19, 0), *queue]}), 4)

    def test_in_a_queue_beside_the_stop_it_has_come(self):
        one = self.stopping()
        self.assertEqual(self.closed(one, bus(17, 0), own=[SeenVehicle(1, 18, 0)]), {(0, 18)})
        self.assertEqual(one.state, STANDING)
        one = self.stopping()
        self.closed(one, bus(16, 0), own=[SeenVehicle(1, 17, 0)])
        self.assertNotEqual(one.state, STANDING)

    def test_passed(self):
        one = self.stopping()
        self.closed(one, bus(20, 2))
        self.assertEqual(one.state, MISSED)

    def test_on_two_lanes_it_keeps_its_lane(self):
        # It would change where its own gap is below its speed and one, and the other lane is free; two cells beyond
        # its speed a closed cell is too near for that.
        slow = [SeenVehicle(1, 12, 1)]
        self.assertEqual(self.closed(self.stopping(2), bus(10, 1), own=slow), {(1, 13)})
        self.assertEqual(self.closed(self.stopping(2), bus(10, 1)), set())
        # Its rear is in cell 9: one in cell 3 is too near behind for a change, one in cell 2 is not.
        self.assertEqual(self.closed(self.stopping(2), bus(10, 1), own=slow, other=[SeenVehicle(2, 3, 2)]), set())
        self.assertEqual(self.closed(self.stopping(2), bus(10, 1), own=slow, other=[SeenVehicle(2, 2, 2)]), {(1, 13)})
        # One whose rear is in cell 13 is too near ahead, in cell 14 not.
        self.assertEqual(self.closed(self.stopping(2), bus(10, 1), own=slow, other=[SeenVehicle(2, 13, 2)]), set())
        other = [SeenVehicle(2, 15, 2, 2)]
        self.assertEqual(self.closed(self.stopping(2), bus(10, 1), own=slow, other=other), {(1, 13)})

    def test_on_the_wrong_lane_it_changes_where_there_is_room(self):
        one = self.stopping(2, lane=1)
        self.assertEqual(self.closed(one, bus(5, 2)), {(1, 8)})
        # Beside somebody it goes on one cell a second, and those behind it on the right lane are held.
        self.assertEqual(self.closed(one, bus(10, 2), other=[SeenVehicle(1, 10, 2)]), {(1, 12), (0, 3)})
        # Two cells before the stop it waits.
        self.assertEqual(self.closed(one, bus(17, 1), other=[SeenVehicle(1, 18, 0)]), {(1, 18), (0, 10)})

    def test_who_finds_no_room_stops_on_the_lane_beside(self):
        one = self.stopping(2, lane=1)
        for clock in range(PATIENCE):
            self.assertFalse(one.has_come(bus(17, 0)))
            self.closed(one, bus(17, 0), other=[SeenVehicle(1, 18, 0)], clock=clock)
        self.closed(one, bus(17, 0), other=[SeenVehicle(1, 18, 0)], clock=PATIENCE)
        self.assertEqual(one.state, STANDING)
        self.closed(one, bus(17, 0), clock=one.leaves)
        self.closed(one, bus(17, 0), clock=one.let_go_clock)
        self.assertEqual(one.state, OTHER_LANE)


class Runs(Case):
    def made(self, routes, *words, net_text=STREET):
        """A run of some routes, nobody dawdles; its folder."""
        files = [self.write("x.net.xml", net_text), self.write("s.add.xml", f"<additional>{STOPS}</additional>")]
        routes = self.write("r.rou.xml", f"<routes>{BUS}{routes}</routes>")
        run, mapping, out = self.folder / "run.jsonl", self.folder / "map.json", self.folder / "out"
        self.tool("import", *files, "--routes", routes, "--dawdle", 0, "-o", run, "--map", mapping)
        said = self.tool("run", run, "--map", mapping, "--until", 400, "--out", out, *words)
        return out, said

    def table(self, out, name):
        with open(out / f"{name}.csv", encoding="utf-8") as file:
            return list(csv.DictReader(file))

    # In SUMO this bus alone takes as long on a street of 300 m as one takes for 40 cells here.
    ONE = (
        '<vType id="even" vClass="bus" sigma="0" speedFactor="0.92"/>'
        '<vehicle id="v" type="even" line="7" depart="0" departSpeed="max"><route edges="b"/>'
        '<stop lane="b_0" startPos="100" endPos="150" duration="20" until="30"/></vehicle>'
    )

    @needs_simulator
    def test_one_bus_by_hand(self):
        # Cell 0 at 1 s, 1 at 2 s, 3 at 3 s, then two cells a second: 19 at 11 s. It brakes for 2 s, stands until 33 s,
        # is let go at 38 s, is in cell 20 at 39 s, in 38 at 48 s, and leaves the 40 cells in the step after.
        out, _ = self.made(self.ONE)
        [row] = self.table(out, "stops")
        self.assertEqual(row, {
            **{"id": "v", "line": "7", "stop": "b_0:150", "edge": "b", "lane": "0", "arrival": "13"},
            **{"departure": "33", "dwell_s": "20", "until": "30", "late_s": "3", "state": "made"},
        })
        self.assertEqual(read_folder(str(out)).stops(), [row])
        [trip] = self.table(out, "trips")
        self.assertEqual(trip["arrival"], "49")
        # Of 48 s in its street 20 are of its stop; it has stood in no other place but where it departed.
        self.made(self.ONE, "--sumo-output", "tripinfo")
        [info] = ElementTree.parse(out / "sumo/tripinfo.xml").getroot()
        self.assertEqual((info.get("stopTime"), info.get("waitingTime")), ("20.00", "1.00"))
        self.assertEqual(float(info.get("timeLoss")), float(info.get("duration")) - 20 - 20)
        # Without the stop it arrives at 22 s: of the 27 s more 20 are its dwell, and no loss.
        out, _ = self.made(self.ONE, "--stops", "none")
        self.assertFalse((out / "stops.csv").exists())
        [other] = self.table(out, "trips")
        self.assertEqual((other["arrival"], float(trip["loss"]) - float(other["loss"])), ("22", 7.0))

    @needs_simulator
    def test_those_behind_wait_and_runs_that_repeat_it_have_the_same_trips(self):
        cars = '<flow id="c" begin="1" end="200" period="3"><route edges="a b"/></flow>'
        buses = f'<flow id="f" type="bus" begin="0" end="200" period="60"><route edges="a b"/>{AT_FIRST}'
        out, _ = self.made(f'{cars}{buses}<stop busStop="second" duration="15"/></flow>', "--sumo-output", "tripinfo")
        self.assertEqual([row["state"] for row in self.table(out, "stops")], ["made"] * 8)
        arrivals = sorted(row["arrival"] for row in self.table(out, "trips"))
        text = (out / "sumo/tripinfo.xml").read_text(encoding="utf-8")
        told = [str(int(float(part.split('"')[1]))) for part in text.split(" arrival=")[1:]]
        self.assertEqual(arrivals, sorted(told))

    @needs_simulator
    def test_a_stop_where_works_close_the_lane_is_told_by_name(self):
        text = f'<vehicle id="v" type="bus" depart="20"><route edges="a b"/>{AT_FIRST}</vehicle>'
        out, (_, said) = self.made(text, "--close", "a_0:140-200:0-390")
        told = "1 stops of vehicles are not made, as their lane is closed there by road works, which end after"
        self.assertIn(told, said)
        self.assertIn(": v at first", said)
        self.assertEqual([row["state"] for row in self.table(out, "stops")], ["not made"])
        # Works behind the stop, on the other lane, or that end before it departs are not in its way.
        for works in ("a_0:180-200:0-390", "a_1:110-140:0-390", "a_0:140-200:0-19"):
            with self.subTest(works):
                out, (_, said) = self.made(text, "--close", works)
                self.assertEqual([row["state"] for row in self.table(out, "stops")], ["made"])

    @needs_simulator
    def test_without_a_last_second_a_run_waits_for_a_bus_at_its_stop(self):
        text = self.ONE.replace('until="30"', 'until="3000"')
        out, (said, _) = self.made(text, "--until", 9000)
        self.assertEqual(self.table(out, "stops")[0]["departure"], "3000")
        self.tool("run", self.folder / "run.jsonl", "--map", self.folder / "map.json", "--out", out)
        self.assertEqual(self.table(out, "stops")[0]["departure"], "3000")

    @needs_simulator
    def test_who_has_not_left_at_the_end(self):
        out, _ = self.made(self.ONE.replace('until="30"', 'until="3000"'))
        [row] = self.table(out, "stops")
        self.assertEqual((row["arrival"], row["departure"], row["state"]), ("13", "", "standing"))

    @needs_simulator
    def test_a_study_makes_them_as_streetsim_run_does(self):
        self.made(self.ONE)
        text = (
            f'run = "{self.folder}/run.jsonl"\nmap = "{self.folder}/map.json"\nuntil = 400\nseeds = "1"\n'
            'departures = "listed"\n'
        )
        study = self.write("study.toml", text + '[variant.stops]\n[variant.none]\nstops = "none"\n')
        self.tool("study", study, "--out", self.folder / "study", "--jobs", 1, "--program", PROGRAM)
        found = {row["variant"]: row["mean_trip_s"] for row in self.table(self.folder / "study", "runs")}
        self.assertEqual({name: float(value) for name, value in found.items()}, {"stops": 49.0, "none": 22.0})
        wrong = self.write("wrong.toml", text + '[variant.a]\n[variant.b]\nstops = "some"\n')
        _, said = self.tool("study", wrong, "--out", self.folder / "x", "--program", PROGRAM, status=2)
        self.assertIn("stops = 'some' is neither 'made' nor 'none'", said)


# Two streets of 300 m cross; the light has 30 s for each, and 5 s between.
CROSS = net(
    [
        *(("w", "W", "X", [lane("w", 0, 300.0)]), ("e", "X", "E", [lane("e", 0, 300.0)])),
        *(("n", "N", "X", [lane("n", 0, 300.0)]), ("s", "X", "S", [lane("s", 0, 300.0)])),
    ],
    [("w", 0, "e", 0, 'tl="L" linkIndex="0"'), ("n", 0, "s", 0, 'tl="L" linkIndex="1"')],
    '<tlLogic id="L" type="static" programID="0" offset="0"><phase duration="30" state="Gr"/>'
    '<phase duration="5" state="yr"/><phase duration="30" state="rG"/><phase duration="5" state="ry"/></tlLogic>',
)


class Planned(unittest.TestCase):
    """The logic of a light with listed seconds: greens of 30 s, of at least 15 s, and 10 s more at most."""

    PHASES = [Phase("Gr", 30, 15, 40), Phase("yr", 5, 5, 5), Phase("rG", 30, 15, 40), Phase("ry", 5, 5, 5)]

    def ended(self, until, calls=(), offset=0):
        light = Coordinated(self.PHASES, ())
        light.begin_at(0, offset)
        calls = dict(calls)
        for clock in range(1, until + 1):
            if clock in calls:
                light.call(clock, calls[clock])
            if light.due <= clock:
                light.moves_on(clock, lambda _: 0.0)
        return [(row.phase, row.begin, row.seconds, row.why) for row in light.ended_phases]

    def test_without_buses_it_is_its_plan(self):
        told = [(0, 0, 30, "listed"), (1, 30, 5, "listed"), (2, 35, 30, "listed"), (3, 65, 5, "listed")]
        self.assertEqual(self.ended(70), told)
        # It begins 20 s before its first phase ends.
        self.assertEqual(self.ended(20, offset=60)[0], (0, 0, 20, "listed"))

    def test_a_bus_keeps_its_green_and_the_plan_comes_back(self):
        # Seen from 25 to 37 s: the green lasts 37 s, and the next one ends as planned at 65 s.
        told = self.ended(70, {25: (0,), 37: ()})
        self.assertEqual(told[:3], [(0, 0, 37, "listed"), (1, 37, 5, "listed"), (2, 42, 23, "listed")])

    def test_no_longer_than_its_most(self):
        self.assertEqual(self.ended(60, {25: (0,)})[0], (0, 0, 40, "most"))

    def test_a_bus_fetches_its_green_when_the_others_had_their_least(self):
        # Seen at 5 s: the green of the others ends at 15 s, its own begins at 20 s, and lasts its most, to 60 s, since
        # the plan ends it at 65 s; the next one comes back to the plan at 100 s.
        told = self.ended(110, {5: (2,), 25: ()})
        self.assertEqual(told[:3], [(0, 0, 15, "bus"), (1, 15, 5, "listed"), (2, 20, 40, "most")])
        self.assertEqual(told[3:5], [(3, 60, 5, "listed"), (0, 65, 35, "listed")])

    def test_later_than_the_least_it_is_fetched_at_once(self):
        self.assertEqual(self.ended(30, {22: (2,)})[0], (0, 0, 22, "bus"))

    def test_a_driven_light_waits_too(self):
        # A green of 5 to 50 s that detectors would end at 5 s.
        phases = [Phase("Gr", 5, 5, 50, (0,)), Phase("yr", 3, 3, 3), Phase("rG", 5, 5, 50, (1,)), Phase("ry", 3, 3, 3)]
        light = Actuated(phases, (3.0, 3.0))
        light.begin_at(0)
        light.call(2, (0,))
        for clock in range(1, 31):
            if clock == 20:
                light.call(clock, ())
            if light.due <= clock:
                light.moves_on(clock, lambda _: 99.0)
        self.assertEqual([(row.phase, row.seconds) for row in light.ended_phases], [(0, 20), (1, 3), (2, 5)])


    def test_a_driven_light_ends_a_green_that_traffic_would_hold(self):
        # Somebody is on each detector all the time. The bus is seen at 12 s and has passed at 20 s: then traffic holds
        # its green to the most.
        phases = [Phase("Gr", 5, 5, 50, (0,)), Phase("yr", 3, 3, 3), Phase("rG", 5, 5, 50, (1,)), Phase("ry", 3, 3, 3)]
        light = Actuated(phases, (3.0, 3.0))
        light.begin_at(0)
        calls = {12: (2,), 20: ()}
        for clock in range(1, 66):
            if clock in calls:
                light.call(clock, calls[clock])
            if light.due <= clock:
                light.moves_on(clock, lambda _: 0.0)
        self.assertEqual([(row.phase, row.seconds, row.why) for row in light.ended_phases], [
            (0, 12, "bus"), (1, 3, "listed"), (2, 50, "most"),
        ])


class Priorities(Case):
    # In SUMO this bus alone takes as long on a street of 300 m before a light as one takes for 40 cells here.
    EVEN = '<vType id="even" vClass="bus" sigma="0" speedFactor="0.952"/>'
    BUSES = '<vehicle id="v" type="even" line="7" depart="{}" departSpeed="max"><route edges="n s"/></vehicle>'

    def made(self, depart, *words, status=0, program=CROSS, cars=""):
        net_file = self.write("x.net.xml", program)
        routes = self.write("r.rou.xml", f"<routes>{self.EVEN}{cars}{self.BUSES.format(depart)}</routes>")
        run, mapping, out = self.folder / "run.jsonl", self.folder / "map.json", self.folder / "out"
        self.tool("import", net_file, "--routes", routes, "--dawdle", 0, "-o", run, "--map", mapping)
        return self.tool("run", run, "--map", mapping, "--until", 200, "--out", out, *words, status=status)

    def phases(self):
        with open(self.folder / "out/phases.csv", encoding="utf-8") as file:
            return [(int(row["begin"]), int(row["phase"]), int(row["seconds"]), row["ended"])
                    for row in csv.DictReader(file)]

    def arrival(self):
        with open(self.folder / "out/trips.csv", encoding="utf-8") as file:
            return int(list(csv.DictReader(file))[-1]["arrival"])

    @needs_simulator
    def test_a_bus_fetches_its_green(self):
        # It departs at 71 s, when the other street's second green began at 70 s, is in cell 3 + 2k at 74 + k s, and is
        # 15 s before the end of 40 cells in cell 10, at 78 s: the green of 30 s ends at 85 s, after half of it, and its
        # own begins at 90 s. It is in the last cell at 92 s and passes in that step, without priority in that from 105
        # s on.
        said, told = self.made(71, "--priority", "bus")
        self.assertIn("1 lights wait for 1 vehicles that are seen 15 s before", told)
        self.assertNotIn(LESS_GAIN, told)
        self.assertEqual(self.phases()[:7], [
            *((0, 0, 30, "listed"), (30, 1, 5, "listed"), (35, 2, 30, "listed"), (65, 3, 5, "listed")),
            *((70, 0, 15, "bus"), (85, 1, 5, "listed"), (90, 2, 45, "most")),
        ])
        with_it = self.arrival()
        self.made(71)
        self.assertEqual(self.arrival() - with_it, 13)

    @needs_simulator
    def test_by_a_line_and_buses_apart(self):
        cars = '<flow id="c" begin="0" end="60" period="10"><route edges="w e"/></flow>'
        said, _ = self.made(71, "--priority", "7", "--seen", 10, cars=cars)
        told = r"\nbus: 1 of 1 arrived, mean trip [\d.]+ s; passenger: 6 of 6 arrived, mean trip [\d.]+ s"
        self.assertRegex(said, told)

    @needs_simulator
    def test_wrong_words(self):
        for words, why in (
            (("--priority", "tram"), "priority 'tram': no vehicle is of this class or line"),
            (("--seen", 9), "--seen is of vehicles with --priority"),
            (("--priority", "bus", "--seen", 0), "--seen: '0' is not 1 to 60"),
        ):
            with self.subTest(why):
                _, told = self.made(71, *words, status=2)
                self.assertIn(why, told)
                self.assertEqual(len(told.splitlines()[-1:]), 1)

    @needs_simulator
    def test_a_light_of_two_rings_waits(self):
        # The first car comes when 2 and 6 had their least. Traffic then holds them from 20 to 60 s; 4 and 8 have 5 s
        # from 65 s on. The bus is 15 s before the end of 40 cells at 78 s: 2 and 6, green again since 75 s, end after
        # their least, and its own greens begin 5 s later.
        phases = "".join(
            f'<phase duration="30" state="{state}" minDur="5" maxDur="40" vehext="2" yellow="3" red="2" name="{name}"/>'
            for name, state in ((2, "Gr"), (4, "rG"), (6, "Gr"), (8, "rG"))
        )
        told = (("ring1", "0,2,0,4"), ("ring2", "0,6,0,8"), ("barrierPhases", "4,8"), ("barrier2Phases", "2,6"))
        values = "".join(f'<param key="{key}" value="{value}"/>' for key, value in told)
        begin, end = CROSS.index("<tlLogic"), CROSS.index("</tlLogic>")
        light = f'<tlLogic id="L" type="NEMA" programID="0" offset="0">{phases}{values}'
        cars = '<flow id="c" begin="0" end="200" period="2"><route edges="w e"/></flow>'
        _, said = self.made(71, "--priority", "bus", cars=cars, program=CROSS[:begin] + light + CROSS[end:])
        self.assertIn("1 lights wait for 1 vehicles", said)
        self.assertIn(f"{LESS_GAIN}: L\n", said)
        rows = self.phases()
        self.assertEqual([row for row in rows if row[3] == "bus"], [(75, 2, 5, "bus"), (75, 6, 5, "bus")])
        self.assertIn((85, 4), [row[:2] for row in rows])

    @needs_simulator
    def test_a_study_gives_priority_as_streetsim_run_does(self):
        self.made(71, "--priority", "bus")
        with_it = self.arrival()
        self.made(71)
        text = (
            f'run = "{self.folder}/run.jsonl"\nmap = "{self.folder}/map.json"\nuntil = 200\nseeds = "1"\n'
            'departures = "listed"\n'
        )
        study = self.write("study.toml", text + '[variant.as_it_is]\n[variant.first]\npriority = "bus"\n')
        self.tool("study", study, "--out", self.folder / "study", "--jobs", 1, "--program", PROGRAM)
        with open(self.folder / "study/runs.csv", encoding="utf-8") as file:
            found = {row["variant"]: float(row["mean_trip_s"]) for row in csv.DictReader(file)}
        self.assertEqual(found, {"as_it_is": self.arrival() - 71.0, "first": with_it - 71.0})
        for keys, why in (
            ('priority = "tram"', "priority 'tram': no vehicle is of this class or line"),
            ("seen = 9", "seen is of vehicles with priority"),
            ('priority = "bus"\nseen = 61', "seen = 61 is not 1 to 60 s"),
            ('priority = "bus"\nplans = ["x.net.xml"]', "lights that wait for buses do not show plans"),
            ("priority = 1", "priority = 1 is no text of classes or lines"),
        ):
            with self.subTest(why):
                wrong = self.write("wrong.toml", f"{text}[variant.a]\n{keys}\n")
                _, said = self.tool("study", wrong, "--out", self.folder / "x", "--program", PROGRAM, status=2)
                self.assertIn(why, said)

    @needs_simulator
    def test_a_light_that_can_not_wait_is_told(self):
        _, told = self.made(71, "--priority", "bus", program=CROSS.replace('duration="30"', 'duration="30.5"', 1))
        self.assertIn("lights do not wait for them, as their phases are no whole seconds: L", told)


if __name__ == "__main__":
    unittest.main()
