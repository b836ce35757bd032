"""streetsim-open: one page of a network, a configuration, a run or a folder; and a demand that is invented."""
import html
import os
import re
import shlex
import shutil
import subprocess
import unittest
from collections import Counter
from contextlib import redirect_stdout
from importlib.util import find_spec
from io import StringIO
from unittest import mock

from support import DATA, FORK, PROGRAM, SCENARIOS, TOOLS, Case, lane, needs_package, needs_simulator, needs_sumo
from support import needs_sumo_tools, net
from test_defaults import CONFIGURATION, ROUTES
from test_help import parsers

from streetsim.base.files import Fault
from streetsim.base.report import Report
from streetsim.cli.open_ import run_tool
from streetsim.cli.open_page import search_words
from streetsim.demand.invented import invented_trips
from streetsim.model.mapping import TOLD_INVENTED
from streetsim.model.timing import SignalMovement, Timing
from streetsim.sumo.net import read_net

CORRIDOR = TOOLS / "examples/corridor"
GAMES = SCENARIOS.parents[3] / "game"
# Two streets that cross at a light: node, latitude, longitude; ways.
OSM = """<osm version="0.6"><bounds minlat="52.500" minlon="13.400" maxlat="52.504" maxlon="13.406"/>
{nodes}
<way id="11" version="1"><nd ref="1"/><nd ref="2"/><nd ref="3"/><tag k="highway" v="secondary"/>
<tag k="lanes" v="2"/><tag k="name" v="Long Street"/></way>
<way id="12" version="1"><nd ref="4"/><nd ref="2"/><nd ref="5"/><tag k="highway" v="secondary"/>
<tag k="lanes" v="2"/></way>
</osm>"""
PLACES = ((1, 52.502, 13.400), (2, 52.502, 13.403), (3, 52.502, 13.406), (4, 52.500, 13.403), (5, 52.504, 13.403))
NODE = '<node id="{}" lat="{}" lon="{}" version="1">{}</node>'


def commands_in(text):
    """The commands that a page has, in its order."""
    return [html.unescape(re.sub("<[^>]*>", "", one)) for one in re.findall(r"<code>(.*?)</code>", text)]


class Open(Case):
    def opens(self, *words, status=0):
        """Runs the tool in the test's folder; gives its two outputs."""
        done = subprocess.run(
            [TOOLS / "streetsim-open", *map(str, words)], cwd=self.folder, capture_output=True, text=True, check=False,
            env={**os.environ, **({"STREETSIM_PROGRAM": PROGRAM} if PROGRAM else {})},
        )  # fmt: skip
        self.assertEqual(done.returncode, status, done.stderr)
        return done.stdout, done.stderr

    def page(self, name):
        return (self.folder / name).read_text(encoding="utf-8")

    def small(self):
        self.write("x.net.xml", FORK)
        self.write("x.rou.xml", ROUTES)

    def test_faults(self):
        self.small()
        for words, told in (
            (["none.net.xml"], "none.net.xml: No such file or directory"),
            (["x.rou.xml"], "x.rou.xml: no network (.net.xml), map (.osm), configuration (.sumocfg), run (.jsonl)"),
            (["x.net.xml"], "x.net.xml: a network without routes: name them behind it, or give --vehicles N"),
            (["x.net.xml", "x.rou.xml", "--vehicles", 9], "--vehicles is for a network without routes"),
            (["."], "no routes"),
            (["x.net.xml", "x.rou.xml", "--live", "-o", "y.html"], "--live serves its page: leave -o out"),
        ):
            with self.subTest(words=words):
                if words == ["."]:
                    self.write("y.net.xml", FORK)
                    told = ".: 2 networks: name one of x.net.xml, y.net.xml"
                said = self.opens(*words, status=2)[1]
                self.assertEqual(said.count("\n"), 1)
                self.assertIn(told, said)
        self.assertEqual([path.suffix for path in self.folder.iterdir()].count(".xml"), 3)
        self.write("r.jsonl", "")
        for name, value in (("--vehicles", 9), ("--begin", 0)):
            self.assertIn(f"r.jsonl: {name} is of a network", self.opens("r.jsonl", name, value + 1, status=2)[1])

    @needs_simulator
    @needs_package("python3-matplotlib", find_spec("matplotlib"))
    def test_a_network_with_routes_becomes_one_page(self):
        for name in ("corridor.net.xml.gz", "corridor.rou.xml"):
            shutil.copy(CORRIDOR / name, self.folder)
        told, _ = self.opens("corridor.net.xml.gz", "corridor.rou.xml", "--until", "00:20")
        commands = [line for line in told.splitlines() if line.startswith("$ ")]
        self.assertEqual(commands[:2], [
            "$ streetsim-import corridor.net.xml.gz --routes corridor.rou.xml",
            "$ streetsim-run corridor.jsonl --junctions 900 --until 1200",
        ])  # fmt: skip
        self.assertRegex(told.splitlines()[-1], r"^corridor\.html: [\d,]+ bytes$")
        text = self.page("corridor.html")
        for part in (
            'id="verdict"', 'id="map"', 'id="doubts"', 'id="queues"', 'alt="Queues at the stop lines over time"',
            'id="player"', "<iframe ", 'id="next"', 'id="junctions"',
        ):
            self.assertEqual(text.count(part), 1, part)
        self.commands_are_taken(text, commands)
        self.works_end_well(text)
        self.opens("corridor-run", "-o", "again.html")
        self.assertIn('id="verdict"', self.page("again.html"))
        self.opens("corridor.jsonl", "--until", 60, "-o", "run.html")
        self.assertIn('id="player"', self.page("run.html"))

    def commands_are_taken(self, text, commands):
        """What is printed, and what the page advises next, are words that the commands take."""
        found = re.search(r'id="next">.*?</section>', text, re.S)[0]
        told = commands_in(found)
        self.assertGreaterEqual(len(told), 5)
        known = parsers()
        for line in (*told, *(command.removeprefix("$ ") for command in commands)):
            with self.subTest(line):
                name, *words = shlex.split(line)
                known[name].parse_args(words)

    def works_end_well(self, text):
        """The works that the page advises to try leave a lane open, and what leads to it."""
        [line] = [one for one in commands_in(text) if " --close " in one]
        _, *words = shlex.split(line)
        self.assertRegex(line, r" --close \S+:00:05-00:15 ", "round clock times about the middle of the run")
        done = subprocess.run(
            [TOOLS / "streetsim-run", *words, "--until", "1200"], cwd=self.folder, capture_output=True, text=True,
            check=True, env={**os.environ, "STREETSIM_PROGRAM": PROGRAM},
        )  # fmt: skip
        self.assertNotIn("not to be trusted", done.stdout)
        self.assertGreater(int((self.folder / "works/seed-1/works.csv").read_text().splitlines()[1].split(",")[6]), 0)

    @needs_simulator
    def test_a_folder_with_a_configuration(self):
        self.small()
        (self.folder / "town").mkdir()
        for name in ("x.net.xml", "x.rou.xml"):
            shutil.move(self.folder / name, self.folder / "town")
        self.write("town/x.sumocfg", CONFIGURATION.format(end=60))
        told, _ = self.opens("town")
        self.assertIn("$ streetsim-import town/x.sumocfg\n", told)
        self.assertIn("1 vehicles, 1 arrived", told)
        self.assertIn('id="player"', self.page("town.html"))

    @needs_simulator
    def test_a_configuration_without_vehicles(self):
        self.write("x.net.xml", FORK)
        self.write("x.sumocfg", '<configuration><input><net-file value="x.net.xml"/></input></configuration>')
        said = self.opens("x.sumocfg", status=2)[1]
        self.assertIn("x.sumocfg: a network without routes: name them behind it, or give --vehicles N", said)
        told, _ = self.opens("x.sumocfg", "--vehicles", 20)
        self.assertIn("$ streetsim-import x.sumocfg --trips x.invented.trips.xml\n", told)
        self.assertIn("20 vehicles, 20 arrived", told)

    @needs_simulator
    def test_trips_without_routes_get_ways(self):
        self.small()
        self.write("x.trips.xml", '<routes><trip id="v" depart="12" from="a" to="b"/></routes>')
        told, _ = self.opens("x.net.xml", "x.trips.xml")
        self.assertIn("$ streetsim-import x.net.xml --trips x.trips.xml\n", told)
        self.assertIn("1 vehicles, 1 arrived", told)

    @needs_simulator
    def test_a_demand_that_is_invented_is_called_so_on_each_page(self):
        self.small()
        told, said = self.opens("x.net.xml", "--vehicles", 60, "--until", 600)
        self.assertIn("x.invented.trips.xml: 60 vehicles in an hour from border to border: invented\n", told)
        self.assertIn(f"warning: {TOLD_INVENTED}", said)
        self.assertIn(f'<p class="doubt">{TOLD_INVENTED}</p>', self.page("x.html"))
        self.tool("play", self.folder / "x-run", "-o", self.folder / "p.html")
        self.tool("report", self.folder / "x-run", "-o", self.folder / "r.html", status=None)

    @needs_simulator
    @needs_sumo
    def test_a_map_of_openstreetmap_by_netconvert(self):
        light = '<tag k="highway" v="traffic_signals"/>'
        nodes = "\n".join(NODE.format(*place, light if place[0] == 2 else "") for place in PLACES)
        self.write("o.osm.xml", OSM.format(nodes=nodes))
        words = "netconvert --osm-files o.osm.xml --output.street-names --tls.guess-signals -o o.net.xml"
        made = {**os.environ, "SUMO_HOME": "/usr/share/sumo"}
        subprocess.run(words.split(), cwd=self.folder, env=made, check=True, capture_output=True)
        told, _ = self.opens("o.net.xml", "--vehicles", 600)
        self.assertNotIn("not to be trusted", told)
        self.assertIn("Long Street", self.page("o.html"))

    @needs_simulator
    @needs_sumo_tools
    def test_a_game_of_sumo_is_opened_by_its_configuration(self):
        told, _ = self.opens(GAMES / "cross.sumocfg")
        self.assertIn("$ streetsim-run cross.jsonl --junctions 900\n", told)
        summary = (self.folder / "cross-run/summary.csv").read_text().splitlines()
        self.assertEqual(summary[-1].split(",")[0], "180", "the end of the configuration")
        self.assertIn('id="player"', self.page("cross.html"))


class Advice(unittest.TestCase):
    """The words that a page advises for a search for signals."""

    def test_sumo_judges_where_turns_wait_for_gaps(self):
        """A left (index 1) across those who come (index 0): with them a gap is needed, else none."""
        two = [SignalMovement("a", "b", (0,)), SignalMovement("c", "d", (1,))]
        for states, needed in (("Gg rr", True), ("GG rr", False), ("Gr rg", False), ("yg rr", False)):
            timing = Timing("L", "J", 0.0, [(9, one) for one in states.split()], "static", two, {frozenset((0, 1))})
            for path, words in (("/bin/sumo", ["--verify-sumo"]), (None, [])):
                with mock.patch("shutil.which", return_value=path):
                    self.assertEqual(search_words({"L": timing}), words if needed else [], states)
        self.assertEqual(search_words({}), [])


class Statuses(unittest.TestCase):
    def test_a_tool_that_is_run_gives_its_status(self):
        for status in (0, 3):
            with mock.patch("streetsim.cli.live.main", return_value=status), redirect_stdout(StringIO()) as told:
                self.assertEqual(run_tool("live", ["a b", "--no-open"]), status)
            self.assertEqual(told.getvalue(), "$ streetsim-live 'a b' --no-open\n")


class Invented(Case):
    def read(self, text):
        return read_net(self.write("x.net.xml", text), ("passenger",), Report())

    def test_trips_go_from_border_to_border_by_lanes(self):
        trips = Counter(invented_trips(self.read(FORK), 100))
        self.assertEqual((sum(trips.values()), {*trips}), (100, {("a", "b"), ("a", "c")}))
        self.assertEqual(trips, Counter(invented_trips(self.read(FORK), 100)))
        town = read_net(DATA / "town.net.xml.gz", ("passenger",), Report())
        self.assertEqual(len(invented_trips(town, 50)), 50)

    def test_a_ring_without_a_border_has_trips_between_all_edges(self):
        edges = [("a", "A", "B", [lane("a", 0)]), ("b", "B", "C", [lane("b", 0)]), ("c", "C", "A", [lane("c", 0)])]
        ring = net(edges, [("a", 0, "b", 0, ""), ("b", 0, "c", 0, ""), ("c", 0, "a", 0, "")])
        ends = {end for trip in invented_trips(self.read(ring), 60) for end in trip}
        self.assertEqual(ends, {"a", "b", "c"})

    def test_edges_that_lead_nowhere_have_none(self):
        alone = net([("a", "A", "B", [lane("a", 0)]), ("b", "C", "D", [lane("b", 0)])], [])
        with self.assertRaisesRegex(Fault, "no demand can be invented"):
            invented_trips(self.read(alone), 5)


if __name__ == "__main__":
    unittest.main()
