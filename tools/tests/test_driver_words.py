"""Words of drivers in an import: shares of permissive greens by approach, seconds cut from greens, speed factors."""
import csv
import json
import re
import unittest
from contextlib import redirect_stderr
from io import StringIO
from pathlib import Path

from support import DATA, FORK, PROGRAM, Case, needs_simulator
from streetsim.cli.import_ import parser as import_parser
from streetsim.cli.importing import drivers_of
from streetsim.demand.calibration_field import TRIP
from streetsim.demand.compared_times import ComparedTime, are_close, lines_of_times
from streetsim.model.fullness import LEFT_TURN, STRAIGHT, FullLane
from streetsim.model.loaded_lanes import LOADED, forecast_doubts, loaded_lanes
from streetsim.model.mapping import read_map
from streetsim.search.study_variants import read_study

CROSS = DATA / "cross1.net.xml.gz"  # 42 s of green for each street, lefts give way
GREEN = 42
ROUTES = "".join(
    f'<flow id="{name}" begin="0" end="900" period="{period}"><route edges="{edges}"/></flow>'
    for name, edges, period in (("l", "wc cn", 20), ("s", "wc ce", 9), ("o", "ec cw", 6), ("m", "ec cs", 30))
)


class Imported(Case):
    def imported(self, *words):
        """(the commands, the map) of the lone cross."""
        run, mapping = self.folder / "run.jsonl", self.folder / "map.json"
        routes = self.write("x.rou.xml", f"<routes>{ROUTES}</routes>")
        self.tool("import", CROSS, "--routes", routes, *words, "-o", run, "--map", mapping)
        lines = Path(run).read_text(encoding="utf-8").splitlines()
        return list(map(json.loads, lines)), read_map(mapping)

    def greens(self, commands, mapping, source, target):
        """The seconds of green of a turn."""
        edges = [link.edge for link in mapping.links]
        [signal] = [one for one in commands if one["cmd"] == "signal"]
        wanted = [source, target]
        return sum(
            seconds for seconds, green in signal["phases"]
            if any([edges[link], edges[following]] == wanted for link, _, following in green)
        )

    def test_a_share_is_of_one_approach(self):
        usual, surveyed = self.imported(), self.imported("--permissive", "wc=0.4")
        self.assertEqual(self.greens(*surveyed, "wc", "cn"), GREEN - round(0.6 * GREEN))
        for pair in (("wc", "ce"), ("ec", "cs"), ("ec", "cw")):
            self.assertEqual(self.greens(*surveyed, *pair), self.greens(*usual, *pair), pair)
        self.assertEqual(surveyed[1].options["shares"], [["wc", 0.4]])

    def test_one_share_of_all_does_nothing_and_is_told(self):
        """As an option of earlier versions; that of an approach beside it counts."""
        with redirect_stderr(StringIO()) as said:
            made = drivers_of(import_parser().parse_args(["net.xml", "--permissive", "0.5,wc=0.4"]))
        self.assertEqual(made["shares"], (("wc", 0.4),))
        self.assertEqual(
            said.getvalue(), "--permissive 0.5 has no effect any more: vehicles give way at lights by the gaps "
            "that there are; EDGE=SHARE keeps a survey's share\n",
        )  # fmt: skip

    def test_seconds_are_cut_from_each_green(self):
        """As many as the node's part of the fraction says; below 0 of 3 s of yellow all but one at most."""
        usual = self.imported()
        node = next(one["node"] for one in usual[0] if one["cmd"] == "signal")
        for cut, expected in ((3, 3), (-1, -1), (-9, -2), (2.5, 2 + (node * 0.618 % 1 >= 0.5))):
            with self.subTest(cut=cut):
                made = self.imported(f"--cut={cut}")
                self.assertEqual(self.greens(*made, "wc", "ce"), self.greens(*usual, "wc", "ce") - expected)

    def test_a_factor_is_of_streets_with_a_limit(self):
        usual, slow, all_ = (self.imported(*words)[0][0]["links"] for words in (
            (), ("--speed-factor", "50=0.8"), ("--speed-factor", "0.8"),
        ))  # fmt: skip
        self.assertEqual(slow, all_)
        for one, other in zip(usual, slow, strict=True):
            self.assertEqual(other[4], round(one[4] / 0.8))

    def test_a_file_of_drivers_says_the_same_as_the_words(self):
        drivers = self.write("d.json", '{"dawdle": 120, "cut": 2, "speeds": {"": 0.9}, "shares": {"wc": 0.3}}')
        words = ["--dawdle", 120, "--cut", 2, "--speed-factor", 0.9, "--permissive", "wc=0.3"]
        (made, one), (other, two) = self.imported("--drivers", drivers), self.imported(*words)
        self.assertEqual((made, one.options), (other, two.options))
        self.assertEqual(self.imported("--drivers", drivers, "--dawdle", 200)[0][0]["dawdle"], 200)


    @needs_simulator
    def test_a_plan_of_a_study_loads_lefts_as_its_import_would(self):
        """15 s of green for the street with the lefts in place of 42."""
        states = (15, "rrrGGgrrrGGg"), (3, "rrryyyrrryyy"), (69, "GGgrrrGGgrrr"), (3, "yyyrrryyyrrr")
        phases = "".join(f'<phase duration="{seconds}" state="{state}"/>' for seconds, state in states)
        light = f'<tlLogic id="c" type="static" programID="short" offset="0">{phases}</tlLogic>'
        plan = self.write("short.add.xml", f"<additional>{light}</additional>")
        rare = re.sub(r'(?<=period=")\d+', lambda found: str(3 * int(found[0])), ROUTES)
        routes, imported = self.write("rare.rou.xml", f"<routes>{rare}</routes>"), []
        for name, nets in (("plan", (CROSS, plan)), ("given", (CROSS,))):
            words = *nets, "--routes", routes, "-o", self.folder / "run.jsonl", "--map", self.folder / f"{name}.json"
            self.tool("import", *words)
            imported.append(loaded_lanes(read_map(self.folder / f"{name}.json")))
        variants = f'[variant.given]\n[variant.short]\nplans = ["{CROSS}", "short.add.xml"]\n'
        text = f'run = "run.jsonl"\nmap = "given.json"\nseeds = "1-2"\nuntil = 1200\n{variants}'
        study = read_study(str(self.write("study.toml", text)), PROGRAM)
        given, short = study.variants["given"], study.variants["short"]
        told = {lane: one.demand for lane, one in short.loaded.items()}
        self.assertEqual(told, {lane: one.demand for lane, one in imported[0].items()})
        self.assertGreater(told["wc_0"], LOADED)
        self.assertEqual((given.loaded, imported[1]), ({}, {}))
        self.assertIn("lefts that give way, without a survey", "".join(short.doubts))
        self.assertEqual([text for text in given.doubts if "lefts" in text], [])


class Doubts(unittest.TestCase):
    def lane(self, name, way, demand):
        return {name: FullLane("J", name, way, "a", "b", demand)}

    def told(self, own, base, growth=1.0):
        return list(forecast_doubts(own, base, growth))

    def test_lefts_that_a_variant_loads(self):
        loaded, free = self.lane("a_0", LEFT_TURN, 0.9), self.lane("a_0", LEFT_TURN, 0.82)
        self.assertIn("lefts that give way, without a survey", self.told(loaded, {})[0])
        self.assertEqual(len(self.told(loaded, free)), 1)
        self.assertEqual(self.told(loaded, loaded), [])
        self.assertEqual(self.told(free, {}), [])
        self.assertEqual(self.told(self.lane("a_0", STRAIGHT, 1.1), {}), [])

    def test_growth_near_capacity(self):
        full = self.lane("a_0", STRAIGHT, 0.95)
        self.assertIn("growth above 0.9 of what passes", self.told(full, full, 1.1)[0])
        self.assertEqual(self.told(full, full, 1.0), [])


class Compared(unittest.TestCase):
    def test_the_mean_error_is_that_of_squares(self):
        """Of 3 and 4 % the root of (9 + 16) / 2 is 3.54 %; of a way of two edges or of a trip by its ends."""
        far, near = ComparedTime(("a", "b"), 104, 100, 30), ComparedTime(("b", "c"), 97, 100, 30)
        trip = ComparedTime((TRIP, "a", "z"), 90, 100, 30)
        told = list(lines_of_times([near, far, trip]))
        self.assertIn("off by 3.5 % (rms)", told[0])
        here = "a .. z: 90.0 s here, {} (-10.0 %)", "a>b: 104.0 s here, {} (+4.0 %)", "b>c: 97.0 s here, {} (-3.0 %)"
        self.assertEqual(told[2:], [text.format("100.0 s there") for text in here])

    def test_marks_of_segments_and_routes(self):
        good, bad = ComparedTime(("a", "b"), 110, 100, 30), ComparedTime(("b", "c"), 120, 100, 30)
        route = ComparedTime(("a", "b", "c"), 250, 200, 30)
        told = list(lines_of_times([good, bad, route]))
        self.assertIn("segments: 50 % of 2 within 15 % (not held by 85 %)", told[0])
        self.assertIn("routes: 100 % of 1 within 15 % or a minute (held by 85 %)", told[1])
        self.assertEqual((are_close([good]), are_close([good, bad]), are_close([route])), (True, False, True))


@needs_simulator
class CompareTimes(Case):
    def test_a_run_beside_its_own_segments_and_others(self):
        run, mapping, out = self.folder / "run.jsonl", self.folder / "map.json", self.folder / "out"
        routes = self.write("x.rou.xml", f"<routes>{ROUTES}</routes>")
        self.tool("import", CROSS, "--routes", routes, "-o", run, "--map", mapping)
        words = ["--until", 1200, "--every", 0, "--along", "wc ce", "--out", out, "--program", PROGRAM]
        self.tool("run", run, "--map", mapping, *words)
        with open(out / "segments.csv", encoding="utf-8") as file:
            rows = [row for row in csv.DictReader(file) if row["from"] == "wc" and row["begin"] == "0"]
        lines = [f"wc>{row['to']},0,{{}},5,{row['vehicles']}".format(row["mean_s"]) for row in rows]
        same = self.write("same.csv", "\n".join(["segment,time,mean,sd,n", *lines, ""]))
        told, _ = self.tool("compare", out, "--times", same)
        self.assertIn("segments: 100 % of 2 within 15 % (held by 85 %), off by 0.0 % (rms)", told)
        other = self.write("other.csv", "segment,time,mean,sd,n\nwc>ce,0,1,1,30\nwc>cn,0,1,1,30\n")
        told, _ = self.tool("compare", out, "--times", other, status=1)
        self.assertIn("segments: 0 % of 2", told)
        self.sumos_own_formats(run, mapping)
        none = self.write("none.csv", "segment,time,mean,sd,n\nwc>cw,0,1,1,30\n")
        _, said = self.tool("compare", out, "--times", none, status=2)
        self.assertIn("no way and period is common to the run and the times", said)
        _, said = self.tool("compare", out, "--times", none, "--counts", none, status=2)
        self.assertIn("--sumo, --counts and --times are comparisons of their own: one at a time", said)

    def sumos_own_formats(self, run, mapping):
        """As listed and drawn, the trips and edges of a run in SUMO's formats are those of its tables."""
        for name, *drawn in (("listed",), ("drawn", "--departures", "drawn")):
            out = self.folder / name
            words = ["--until", 1200, "--sumo-output", "tripinfo,edgedata", "--out", out, "--program", PROGRAM, *drawn]
            self.tool("run", run, "--map", mapping, *words)
            told, _ = self.tool("compare", out, "--times", out / "sumo/tripinfo.xml")
            self.assertIn("trips: 100 % of 4 within 15 % or a minute (held by 85 %), off by 0.0 % (rms)", told)
            told, _ = self.tool("compare", out, "--times", out / "sumo/edgedata.xml")
            self.assertRegex(told, r"edges, without waits to depart and junctions: 100 % of \d within 15 % \(held by")

    def test_edges_that_are_not_there(self):
        net = self.write("x.net.xml", FORK)
        words = [net, "--permissive", "q=0.4", "-o", self.folder / "run.jsonl", "--map", self.folder / "map.json"]
        _, said = self.tool("import", *words, status=2)
        self.assertEqual(said, "streetsim-import: --permissive: the network has no edge 'q'\n")


if __name__ == "__main__":
    unittest.main()
