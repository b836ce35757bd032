"""How long SUMO's vehicles take alone: on streets, by their types, where they depart, and across junctions."""
import math
import random
import unittest
from xml.etree import ElementTree

from support import Case, lane, net
from streetsim.base.files import Fault
from streetsim.base.report import Report
from streetsim.sumo.across import crossing_seconds
from streetsim.sumo.driving import Driving, driving_of
from streetsim.sumo.import_files import convert
from streetsim.sumo.net import read_net
from streetsim.sumo.network import Options
from streetsim.sumo.paces import Drivers, Paces, lost_behind

KMH = 3.6
# Seconds for a metre at 50 km/h in SUMO 1.15, of 4,800 vehicles of a type, each alone, with eight seeds.
TYPES = {
    '<vType id="t"/>': 0.07648,
    '<vType id="t" accel="0.8" maxSpeed="16.67"/>': 0.07395,
    '<vType id="t" speedFactor="0.8"/>': 0.09752,
}
# Seconds to cross a lone junction of SUMO 1.15 more than straight on and first, of 216 to 444 vehicles of a kind, each
# alone, without a speedDev: by km/h of all arms, and by state, speed inside (metres a second) and metres inside.
LONE = {
    30: {("M", 6.51, 9.0): -0.15, ("m", 8.0, 14.2): 0.40, ("m", 6.51, 9.0): 0.12, ("m", 13.89, 14.4): 0.34},
    50: {("M", 6.51, 9.0): 2.14, ("m", 8.0, 14.2): 2.64, ("m", 6.51, 9.0): 2.67, ("m", 13.89, 14.4): 1.62},
    70: {("M", 6.51, 9.0): 4.18, ("m", 8.0, 14.2): 4.73, ("m", 6.51, 9.0): 4.67, ("m", 19.44, 14.4): 3.16},
}


def driving(text):
    element = ElementTree.fromstring(text)
    accel = float(element.get("accel", 2.6))
    return driving_of("x.rou.xml", element, accel, element.get("vClass", "passenger"))


class Drivings(unittest.TestCase):
    def test_a_metre_takes_as_long_as_in_sumo(self):
        for text, seconds in TYPES.items():
            self.assertAlmostEqual(driving(text).slowness(50 / KMH) / seconds, 1, delta=0.003, msg=text)

    def test_what_a_type_tells(self):
        for text, expected in (
            ("", Driving()),
            ('speedFactor="0.8"', Driving(factor=0.8)),
            ('speedFactor="normc(0.9,0.2,0.5,1.3)"', Driving(factor=0.9, deviation=0.2)),
            ('speedFactor="norm(0.9, 0.2)" speedDev="0.05"', Driving(factor=0.9, deviation=0.05)),
            ('sigma="0.9" carFollowModel="IDM"', Driving(sigma=0.0)),
            ('sigma="0.9" carFollowModel="KraussOrig1"', Driving(sigma=0.9, apart=0.465)),  # 0.83 (0.81 - 0.25)
            ('vClass="bus"', Driving(deviation=0.0, max_speed=27.78)),
            ('vClass="moped" maxSpeed="9"', Driving(max_speed=9.0)),
        ):
            self.assertEqual(driving(f'<vType id="t" {text}/>'), expected, text)

    def test_what_is_no_number_is_refused(self):
        for text in ('speedFactor="fast"', 'speedFactor="-1"', 'sigma="x"', 'maxSpeed="0"', 'speedDev="-0.1"'):
            with self.assertRaisesRegex(Fault, "x.rou.xml"):
                driving(f'<vType id="t" {text}/>')

    def test_gaining_speed(self):
        # 13.89 m/s with 2.6 * 0.75 m/s2 take 7.12 s, in which half of the way is lost.
        self.assertAlmostEqual(Driving().gaining(50 / KMH), 3.561, places=3)
        self.assertAlmostEqual(Driving(accel=0.8, sigma=0.0).gaining(50 / KMH), 8.681, places=3)
        self.assertEqual(Driving(max_speed=8.0).gaining(50 / KMH, 8.0), 0.0)


class OfADemand(Case):
    """A street of two edges, and vehicles on it."""

    def network(self, types="", more="", classes=("passenger",), lanes=None, hourly=10):
        """The network of a street of 1 km, over which some vehicles drive."""
        self.said = Report()
        own = lanes or [lane("a", 0, 1000.0, 50 / KMH)]
        street = net([("a", "A", "B", own), ("b", "B", "C", [lane("b", 0, 1000.0, 50 / KMH)])], [("a", 0, "b", 0, "")])
        vehicles = "".join(
            f'<vehicle id="{at}" depart="{at * 360}" {more}><route edges="a b"/></vehicle>' for at in range(hourly)
        )
        paths = self.write("x.net.xml", street), self.write("x.rou.xml", f"<routes>{types}{vehicles}</routes>")
        return convert(paths[0], [], [paths[1]], Options(classes=classes), self.said)[0]

    def seconds(self, network, edge):
        link = network.links[network.links_of[edge][0]]
        return link.cells / (link.limit - 0.17)

    def test_slow_types_count(self):
        # On b nobody starts: of 1,000 m at 50 km/h, 8 m/s, and a half of each.
        for types, more, expected in (
            ("", "", 76.46),
            ('<vType id="t" maxSpeed="8" sigma="0"/>', 'type="t"', 125.0),
            ('<vTypeDistribution id="t"><vType id="u"/></vTypeDistribution>', 'type="t"', 76.46),
        ):
            self.assertAlmostEqual(self.seconds(self.network(types, more), "b"), expected, delta=0.9)

    def test_a_start_counts_where_it_is(self):
        # From a stand 3.56 s are lost at 50 km/h; cells are whole.
        standing, driving = (self.seconds(self.network(more=more), "a") for more in ("", 'departSpeed="max"'))
        self.assertAlmostEqual(standing - driving, 3.56, delta=0.55)
        self.assertEqual([one for one in self.said.ignored if "departSpeed" in one], [])

    def test_types_that_differ_are_told(self):
        types = '<vType id="slow" maxSpeed="8" sigma="0"/><vType id="usual"/>'
        mixed = f'{types}<vTypeDistribution id="t" vTypes="slow usual" probabilities="1 1"/>'
        self.network(mixed, 'type="t"', hourly=40)
        [told] = [one for one in self.said.warnings if "mean pace" in one]
        self.assertRegex(told, r"slow -\d+%, usual \+\d+%|usual \+\d+%, slow -\d+%")
        self.network(types, 'type="slow"')
        self.assertEqual([one for one in self.said.warnings if "mean pace" in one], [])


class Across(Case):
    def crossing(self, more, state="M", speed=5.0, metres=10.0, kmh=50, driver=Driving(), response=""):
        """Seconds across a junction, of which the lane inside has a speed and metres; response: of its request."""
        inside = f'<edge id=":B_0" function="internal">{lane(":B_0", 0, metres, speed)}</edge>'
        ends = [("a", "A", "B"), ("b", "B", "C")]
        edges = [(name, begin, end, [lane(name, 0, 100.0, kmh / KMH)]) for name, begin, end in ends]
        text = net(edges, [("a", 0, "b", 0, f'via=":B_0_0" {more}')]).replace('state="M"', f'state="{state}"')
        if response:
            own = '<junction id="B" type="priority" x="0" y="0"'
            text = text.replace(f"{own}/>", f'{own}><request index="0" response="{response}"/></junction>')
        made = read_net(self.write("x.net.xml", text.replace("<edge", f"{inside}<edge", 1)), ["passenger"], Report())
        return crossing_seconds(made.connections[0], made, Drivers({driver: 1}))

    def test_who_is_alone_crosses_as_in_sumo(self):
        alike = Driving(deviation=0.0)
        for kmh, own in LONE.items():
            straight = self.crossing("", "M", kmh / KMH, 14.4, kmh, alike)
            for (state, speed, metres), seconds in own.items():
                response = "10" if state == "m" else ""
                found = self.crossing("", state, min(speed, kmh / KMH), metres, kmh, alike, response) - straight
                self.assertAlmostEqual(found, seconds, delta=0.5, msg=(kmh, state, speed))  # half a step

    def test_a_turn_is_driven_slowly(self):
        # 10 m at 5 m/s less 0.65, braking with 4.5 and gaining speed with 1.95 m/s2: 2.3, 0.6 and 1.5 s, and 0.15 s.
        self.assertAlmostEqual(self.crossing(""), 10 * Driving().slowness(5.0) + 0.632 + 1.459 + 0.15, places=2)

    def test_who_stops_stands(self):
        # From 13.89 m/s to a stand and back: 1.54 and 3.56 s more than at the speed of the street.
        seconds = 10 * Driving().slowness(50 / KMH) + 1.543 + 3.561
        self.assertAlmostEqual(self.crossing("", "s"), seconds, places=2)

    def test_half_stop_at_a_light(self):
        # The others brake and gain speed as in any turn; who stops loses 3.56 s less 2.2.
        seconds = 10 * Driving().slowness(5.0) + (0.632 + 1.459 + 0.15 + 3.561 - 2.2) / 2
        self.assertAlmostEqual(self.crossing('tl="L" linkIndex="0"'), seconds, places=2)


def drawn_behind(hourly, metres, speed, count=20_000):
    """Mean seconds lost behind slower ones on one lane, by vehicles drawn one by one; speed: metres a second."""
    draws, clock, last, lost = random.Random(5), 0.0, 0.0, 0.0
    for _ in range(count):
        clock += draws.expovariate(hourly / 3600)
        own = speed * min(2.0, max(0.2, draws.gauss(1, 0.1)))
        alone = clock + metres / (own - 0.25 * min(2.6, own))
        last = max(alone, last + 1 + 7.5 / speed)
        lost += last - alone
    return lost / count


class Bunches(unittest.TestCase):
    def test_who_follows_a_slower_one_loses(self):
        """None where nobody drives, more the more there are."""
        alone, lost = Paces(), []
        self.assertEqual(alone.bunching(alone.drivers_on("a"), 1000.0, 50 / KMH), 0.0)
        for count in (100, 200, 400):
            drivers = Drivers({Driving(): count})
            alone.seconds = 3600.0
            lost.append(alone.bunching(drivers, 2000.0, 50 / KMH))
        self.assertTrue(0 < lost[0] < lost[1] < lost[2], lost)
        self.assertEqual(alone.bunching(Drivers({Driving(deviation=0.0): 400}), 2000.0, 50 / KMH), 0.0)

    def test_two_speeds(self):
        """By hand: half need 20 s more, and come each 40 s. A fast one is held up for more than z seconds unless no
        slow one came in the 20 - z seconds before it, exp(-(20 - z) / 40); the mean is 20 - 40 (1 - exp(-1 / 2)) s."""
        self.assertAlmostEqual(lost_behind(0.05, [(120.0, 0.5), (100.0, 0.5)]), 0.5 * (20 - 40 * (1 - math.exp(-0.5))))
        self.assertEqual(lost_behind(0.05, [(100.0, 0.5), (100.0, 0.5)]), 0.0)

    def test_a_queue_that_is_drawn(self):
        """As long as vehicles lose that are drawn one by one, and arrive no less than they keep apart behind the one
        before, in the mean."""
        paces = Paces()
        paces.seconds = 3600.0
        for kmh, hourly in ((20, 200), (30, 400), (50, 200), (100, 100)):
            found = paces.bunching(Drivers({Driving(): hourly}), 2000.0, kmh / KMH)
            self.assertAlmostEqual(found / drawn_behind(hourly, 2000.0, kmh / KMH), 1, delta=0.12, msg=(kmh, hourly))


if __name__ == "__main__":
    unittest.main()
