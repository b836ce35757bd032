"""Works that are asked for wrongly: each ends in one line that names what is wrong, and nothing is written."""
import unittest

from support import MAP, PROGRAM, Case, needs_simulator
from test_pictures import needs_matplotlib
from test_works import fan, flows
import streetsim.traci as traci
from streetsim.base.files import Fault
from streetsim.control.works_asked import all_works, works_of
from streetsim.model.mapping import map_from, read_map
from streetsim.scenario import Scenario

HOW = "expected LANE:METRES-METRES:S-S, whole numbers that rise"
WRONG = {  # of --close: what the line says behind its text
    "a_0": HOW,
    "a_0:100-200": HOW,
    "a_0:100:60-900": HOW,
    "a_0:200-100:60-900": HOW,
    "a_0:100-100:60-900": HOW,
    "a_0:100-200:60-60": HOW,
    "a_0:100-200:900-60": HOW,
    "a_0:100-200:07:60-08:00": HOW,
    "a_0:100-200:0.5-9": HOW,
    "a_0:-5-200:60-900": HOW,
    "a_0:100-200m:60-900": HOW,
    "a_0:100-200:60-": HOW,
    "x_0:100-200:60-900": "the map has no lane 'x_0'",
    "a_7:100-200:60-900": "the map has no lane 'a_7'",
    "a:100-200:60-900": "the map has no lane 'a', but a_0, a_1",
    "a_0:100-302:60-900": "the lane ends at 300 m",
    "a_0:100-200:1200-1300": "begins at the end, 1200 s, or later",
    "a_0:100-200:00:20-00:30": "begins at the end, 1200 s, or later",
    "a_0:100-200:0-300": "ends at the start, 300 s, or earlier",
}


class Times(unittest.TestCase):
    def test_works_lie_within_the_run(self):
        """From 5 to 20 s, in a run from a start to an end, or to one that nobody knows."""
        mapping, works = map_from("", MAP), ["a_0:0-10:5-20"]
        for start, until in ((0, 6), (19, None), (0, None)):
            self.assertEqual(len(all_works(works, mapping, start, until)), 1)
        for start, until, told in ((20, None, "ends at the start, 20 s"), (0, 5, "begins at the end, 5 s")):
            with self.assertRaisesRegex(Fault, told):
                all_works(works, mapping, start, until)

    def test_a_streets_name_is_answered_by_its_edges(self):
        """Two edges, of which one has this name; a name of an edge that the map does not have is left out."""
        mapping = map_from("", MAP)
        edge = next(iter(mapping.links_of))
        mapping.names = {"edges": {edge: "High Street", "gone": "High Street", "other": "Low Street"}}
        told = f"the map has no lane 'High Street': High Street is the name of edges {edge}$"
        with self.assertRaisesRegex(Fault, told):
            works_of("High Street:0-10:5-20", mapping)
        with self.assertRaisesRegex(Fault, "the map has no lane 'Low Street'$"):
            works_of("Low Street:0-10:5-20", mapping)


class AskedCase(Case):
    """A street of two parallel lanes, imported to begin at second 300."""

    def setUp(self):
        super().setUp()
        self.write("x.net.xml", fan(2))
        self.write("x.rou.xml", flows(2, 300))
        self.run_path, self.map_path = self.folder / "run.jsonl", self.folder / "map.json"
        words = ["--routes", self.folder / "x.rou.xml", "--begin", 300, "-o", self.run_path, "--map", self.map_path]
        self.tool("import", self.folder / "x.net.xml", *words)

    def refused(self, name, *words):
        """The one line by which a tool ends; its folder is not there."""
        told = self.tool(name, *words, "--out", self.folder / "out", status=2)
        self.assertEqual((told[0], told[1].count("\n")), ("", 1), told)
        self.assertFalse((self.folder / "out").exists())
        return told[1]

    def run_refused(self, *words):
        return self.refused("run", self.run_path, "--map", self.map_path, "--until", 1200, *words)


class Asked(AskedCase):
    def test_stretches(self):
        """All by what tells the tools, two of them by the tool itself."""
        mapping = read_map(self.map_path)
        for text, why in WRONG.items():
            with self.assertRaises(Fault) as told:
                all_works([text], mapping, 300, 1200)
            self.assertEqual(str(told.exception), f"--close {text!r}: {why}")
        for text in ("a_0:100-200", "a:100-200:60-900"):
            told = self.run_refused("--program", "/bin/cat", "--close", text)
            self.assertEqual(told, f"streetsim-run: --close {text!r}: {WRONG[text]}\n")

    def test_one_of_several(self):
        told = self.run_refused("--program", "/bin/cat", "--close", "a_0:100-200:300-900,a_1:9-5:300-900")
        self.assertIn("--close 'a_1:9-5:300-900': ", told)

    def test_words(self):
        works = ["--close", "a_0:100-200:300-900"]
        for words, why in (
            (["--close", ""], "--close"),
            (["--merge", "zip"], "--merge: invalid choice: 'zip' (choose from 'turns', 'none')"),
            (["--lost", "turn"], "--lost: invalid choice: 'turn' (choose from 'lead', 'wait', 'bar')"),
            (["--lost", "wait"], "--lost is of road works: give --close too"),
            (["--merge", "none"], "--merge is of road works and of stops, and the run has neither: give --close too"),
            (["--works-limit", "30"], "--works-limit is of road works: give --close too"),
            ([*works, "--works-limit", "x"], "--works-limit: 'x'"),
            ([*works, "--works-limit", "4"], "--works-limit: '4' is not 5 to 130"),
            ([*works, "--works-limit", "60"], "--works-limit 60 needs the import anew: 60 km/h on a: its limit is 50"),
            (["--close", "a_0:100-120:300-900", "--works-limit", "30"], "edge 'a': works to 120 m are too short"),
            (["--joint", "x"], "--joint: the map has no edge or lane 'x'"),
            (["--joint", "to0"], "--joint: edge 'to0' has one lane, and none beside it"),
        ):
            self.assertIn(why, self.run_refused("--program", "/bin/cat", *words))

    def test_studies(self):
        head = 'run = "run.jsonl"\nmap = "map.json"\nseeds = "1-2"\ndepartures = "listed"\nuntil = 1200\n'
        for text, why in (
            ('merge = "zip"\n[variant.a]\n', "merge = 'zip' is neither 'turns' nor 'none'"),
            ('[variant.a]\nmerge = "zip"\n', "variant 'a': merge = 'zip' is neither 'turns' nor 'none'"),
            ('lost = "turn"\n[variant.a]\n', "lost = 'turn' is none of 'lead', 'wait', 'bar'"),
            ('[variant.a]\nlost = "bar"\n', "variant 'a': lost is of works: close = [..] is needed too"),
            ("[variant.a]\nworks_limit = 30\n", "close = [..] is needed, and no route"),
            ("[variant.a]\nworks_limit = 3\n", "works_limit = 3 is not 5 to 130 km/h"),
            ('[variant.a]\nclose = "a_0:100-200:300-900"\n', "is no list of texts"),
            ('[variant.a]\nclose = ["a_0:100-200:300"]\n', HOW),
        ):
            self.assertIn(why, self.refused("study", self.write("study.toml", head + text), "--program", "/bin/cat"))

    def test_routes(self):
        words = [self.folder / "x.net.xml", "--trips", self.folder / "x.rou.xml", "-o", self.folder / "y.rou.xml"]
        for text, why in (("a_0:9-5:0-9", HOW), ("a_0:0-9:0-900,b_0:0-9:0-900", "the map has no lane 'b_0'")):
            told = self.refused("route", *words, "--program", "/bin/cat", "--close", text)
            self.assertIn(why, told)
        told = self.refused("route", *words, "--program", "/bin/cat", "--lost", "bar")
        self.assertEqual(told, "streetsim-route: --lost is of road works: give --close too\n")

    def test_pages(self):
        words = ["--map", self.map_path, "--program", "/bin/cat", "--no-open", "--joint", "to0"]
        self.assertIn("edge 'to0' has one lane", self.tool("live", self.run_path, *words, status=2)[1])


@needs_simulator
class InRuns(AskedCase):
    @needs_matplotlib
    def test_picture_of_a_run_without_works(self):
        out = self.folder / "made"
        self.tool("run", self.run_path, "--map", self.map_path, "--until", 400, "--out", out, "--program", PROGRAM)
        told = self.tool("plot", "works", out, "-o", self.folder / "x.png", status=2)[1]
        self.assertEqual(told, f"streetsim-plot: {out}: no works in this run (streetsim-run --close)\n")

    def test_scripts(self):
        with Scenario(self.run_path, self.map_path, PROGRAM) as sim:
            with self.assertRaisesRegex(ValueError, r"lane 'a_0' cannot be closed: .* Scenario\(.., joint=\['a_0'\]\)"):
                sim.close("a_0", 100, 200)
        words = ["sumo", "-n", str(self.folder / "x.net.xml"), "-r", str(self.folder / "x.rou.xml")]
        with self.assertRaisesRegex(traci.FatalTraCIError, "--merge zip: is not turns or none"):
            traci.start([*words, "--merge", "zip"])


if __name__ == "__main__":
    unittest.main()
