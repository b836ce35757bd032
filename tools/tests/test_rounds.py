"""Whole runs in which a minor street gives way without a light: by all doors, and by rounds with maps of earlier
versions."""
import csv
import json
import random
import unittest
import warnings
from contextlib import redirect_stderr
from dataclasses import asdict
from functools import partial
from io import StringIO
from unittest import mock

from clusters import ClusterCase, needs_distributed
from support import MAP, NUMBERED, PROGRAM, Case, lane, needs_simulator
from streetsim.base.files import Fault
from streetsim.control.settings import Settings
from streetsim.kernel.serving import serving_program
from streetsim.model.mapping import read_map
from streetsim.model.named import rows_of
from streetsim.model.runs import run_of_texts
from streetsim.model.waiting import Foe, GivingWay, NodeWays
from streetsim.observe.giving_way_rounds import run_round
from streetsim.observe.run_making import RunOptions
from streetsim.report.picture_plots import Corridor
from streetsim.scenario import Scenario
from streetsim.search import signal_found
from streetsim.search.signal_found import PlanFiles
from streetsim.search.signal_town import Reading, read_town
from streetsim.search.study_variants import read_study
from streetsim.sumo.conflicts import JOINING
import streetsim.traci as traci

LAST = 4500  # seconds; counted from 600 on


def inner(name, speed):
    return (
        f'<edge id=":C_{name}" function="internal"><lane id=":C_{name}_0" index="0" speed="{speed}" length="9" '
        'shape="0,0 9,0"/></edge>'
    )


def junction(metres=300.0, joining=9.0):
    """A street w, e, and a minor one s that joins it: at junction C w goes first."""
    edges = (("w", "A", "C"), ("e", "C", "B"), ("s", "D", "C"))
    return (
        '<net version="1.9">'
        + inner(0, 13.89)
        + inner(1, joining)
        + "".join(
            f'<edge id="{name}" from="{begin}" to="{end}">{lane(name, 0, metres)}</edge>' for name, begin, end in edges
        )
        + "".join(f'<junction id="{name}" type="dead_end" x="0" y="0"/>' for name in "ABD")
        + '<junction id="C" type="priority" x="0" y="0"><request index="0" response="00"/><request index="1" '
        'response="01"/></junction>'
        + '<connection from="w" to="e" fromLane="0" toLane="0" via=":C_0_0" state="M"/>'
        + '<connection from="s" to="e" fromLane="0" toLane="0" via=":C_1_0" state="m"/></net>'
    )


def routes(departs):
    """The demand of (second, first edge), by second."""
    vehicles = (
        f'<vehicle id="{edge}.{second}" depart="{second}"><route edges="{edge} e"/></vehicle>'
        for second, edge in sorted(departs)
    )
    return f"<routes>{''.join(vehicles)}</routes>"


def make_older(path):
    """Has the map of such a junction say who gives way as earlier versions did, for whom rounds are made."""
    content = json.loads(path.read_text(encoding="utf-8"))
    [ways] = rows_of(NodeWays, content.pop("open_ways"))
    foe = Foe(*ways.ways[1][0], JOINING, True)
    content["yields"] = [asdict(GivingWay(ways.node, tuple(ways.ways[0]), (foe,)))]
    path.write_text(json.dumps(content), encoding="utf-8")


@needs_simulator
class Rounds(Case):
    def imported(self, net, demand):
        words = [self.write("net.net.xml", net), "--routes", self.write("demand.rou.xml", demand)]
        _, told = self.tool("import", *words, "-o", self.folder / "run.jsonl", "--map", self.folder / "map.json")
        return told

    def run_it(self, *words, name="out"):
        files = [self.folder / "run.jsonl", "--map", self.folder / "map.json", "--out", self.folder / name]
        return self.tool("run", *files, "--program", PROGRAM, *words)

    def trips(self, name="out"):
        """{vehicle: seconds}."""
        rows = (self.folder / name / "trips.csv").read_text(encoding="utf-8").splitlines()[1:]
        return {row.split(",")[0]: int(row.split(",")[3]) for row in rows}

    def setting(self, name="out"):
        return json.loads((self.folder / name / "setting.json").read_text(encoding="utf-8"))


class Until(Rounds):
    def test_a_round_waits_for_who_departs_after_all_have_arrived(self):
        """The first vehicle is gone at the census of a full minute; of the second, which departs after that, the round
        must see the passing too. Both need ten seconds and more to the stop line."""
        lines = [{"cmd": "load", **NUMBERED, "links": [[0, 0, 1, 1, 10, 1], [1, 1, 2, 1, 10, 1]]}]
        lines += [{"cmd": "enter", "plan": [0, 1], "lane": 0, "depart": depart} for depart in (0, 101)]
        run, mapping = run_of_texts("run", map(json.dumps, lines)), read_map(self.write("map.json", json.dumps(MAP)))
        clocks = []
        passed = run_round(
            partial(serving_program, PROGRAM, "run"), run, mapping, Settings(1200),
            lambda clock, _: clocks.append(clock),
        )  # fmt: skip
        self.assertEqual([round(second) // 100 for second, *_ in passed[0, 0]], [0, 1])
        self.assertEqual(clocks[-1], 180)


class Minor(Rounds):
    def setUp(self):
        super().setUp()
        # 30 vehicles, 4 s apart; each is at the stop line after 300 m, some 22 s.
        # The last one of the street passes at 138 s.
        departs = [(4 * at, "w") for at in range(30)]
        self.told = self.imported(junction(), routes([*departs, (50, "s")]))

    def test_a_vehicle_waits_for_those_who_go_first(self):
        """Alone it takes some 45 s."""
        self.run_it("--until", 600)
        self.assertGreater(self.trips()["s.50"], 60)
        self.assertGreater(self.setting()["yielding"]["lit_lines"], 1)
        self.assertEqual(self.setting()["yielding"]["lines"], 0)

    def test_with_a_map_of_an_earlier_version_it_waits_by_rounds(self):
        make_older(self.folder / "map.json")
        self.run_it("--until", 600, "--rounds", 0, name="nobody")
        said, _ = self.run_it("--until", 600)
        self.assertLess(self.trips("nobody")["s.50"], 60)
        self.assertGreater(self.trips()["s.50"], 138 + 22 - 50)
        self.assertEqual(self.trips()["w.0"], self.trips("nobody")["w.0"])
        yielding = self.setting()["yielding"]
        self.assertEqual((yielding["rounds"], yielding["junctions"]), (2, 1))
        self.assertIn(f", 1 junctions without a light give way by {yielding['lines']} signal lines", said)
        self.assertEqual(self.setting("nobody")["yielding"]["lines"], 0)

    def test_rounds_and_lights_that_detectors_drive(self):
        # Behind the junction a light, whose green those hold who come while it is red. Who waits to join waits as
        # without it, and runs that repeat the one that counts send the same lines.
        phases = '<phase duration="20" state="G" minDur="5" maxDur="40"/><phase duration="3" state="y"/>'
        phases += '<phase duration="9" state="r"/>'
        light = f'<tlLogic id="L" type="actuated" programID="0" offset="0">{phases}</tlLogic>'
        beyond = f'<edge id="z" from="B" to="F">{lane("z", 0, 300)}</edge><edge '
        lit = '<connection from="e" to="z" fromLane="0" toLane="0" state="O" tl="L" linkIndex="0"/></net>'
        text = junction().replace("<edge ", beyond, 1).replace("<junction", light + "<junction", 1)
        end = '<junction id="F" type="dead_end" x="0" y="0"/><junction'
        text = text.replace("</net>", lit).replace("<junction", end, 1)
        departs = [(4 * at, "w") for at in range(30)]
        self.imported(text, routes([*departs, (50, "s")]).replace(' e"', ' e z"'))
        self.run_it("--until", 600, "--sumo-output", "tripinfo", name="lit")
        self.assertGreater(self.trips("lit")["s.50"], 60)
        rows = (self.folder / "lit/phases.csv").read_text(encoding="utf-8").splitlines()
        self.assertTrue([row for row in rows if row.endswith(",gap") and int(row.split(",")[-2]) > 5])
        told = (self.folder / "lit/sumo/tripinfo.xml").read_text(encoding="utf-8")
        seconds = sorted(float(part.split('"')[1]) for part in told.split(" duration=")[1:])
        self.assertEqual(seconds, sorted(map(float, self.trips("lit").values())))

    def test_equal_words_give_equal_bytes_and_polls_change_nothing(self):
        self.run_it("--until", 600)
        self.run_it("--until", 600, name="again")
        self.run_it("--until", 600, "--every", 60, name="seldom")
        for name in ("trips.csv", "counts.csv", "rows.bin", "setting.json"):
            self.assertEqual((self.folder / "out" / name).read_bytes(), (self.folder / "again" / name).read_bytes())
        self.assertEqual(self.trips(), self.trips("seldom"))

    def test_what_the_import_says_and_writes(self):
        self.assertIn("1 connections have to give way in SUMO", self.told)
        [ways] = rows_of(NodeWays, json.loads((self.folder / "map.json").read_text(encoding="utf-8"))["open_ways"])
        self.assertEqual(ways.ways, [[[2, 0, 1]], [[0, 0, 1]]])
        self.assertEqual((ways.yields, ways.signs), ([[0, 1, False]], "mM"))

    def test_a_map_with_something_else_is_refused(self):
        path = self.folder / "map.json"
        value = json.loads(path.read_text(encoding="utf-8"))
        path.write_text(json.dumps({**value, "yields": [[1, 2]]}), encoding="utf-8")
        files = [self.folder / "run.jsonl", "--map", path, "--until", 600, "--out", self.folder / "out"]
        _, told = self.tool("run", *files, "--program", PROGRAM, status=2)
        self.assertEqual(told.count("\n"), 1)
        self.assertIn("not a map that streetsim-import wrote", told)


def lit():
    """The junction, and behind it a light L at B, where a street g joins on its own green, which is far too long."""
    phases = '<phase duration="20" state="Gr"/><phase duration="40" state="rG"/>'
    more = f'<tlLogic id="L" type="static" programID="0" offset="0">{phases}</tlLogic>'
    for name, begin, end in (("f", "B", "E"), ("g", "G", "B")):
        more += f'<edge id="{name}" from="{begin}" to="{end}">{lane(name, 0, 300.0)}</edge>'
    more += "".join(f'<junction id="{name}" type="dead_end" x="0" y="0"/>' for name in "EG")
    more += "".join(
        f'<connection from="{edge}" to="f" fromLane="0" toLane="0" tl="L" linkIndex="{at}" state="o"/>'
        for at, edge in enumerate("eg")
    )
    requests = '<request index="0" response="00"/><request index="1" response="00"/>'
    end, light = '<junction id="B" type="dead_end" x="0" y="0"/>', '<junction id="B" type="traffic_light" x="0" y="0">'
    return junction().replace(end, f"{light}{requests}</junction>").replace("</net>", f"{more}</net>")


def ways(departs):
    """The demand of (second, edges), by second."""
    vehicles = (
        f'<vehicle id="{edges[0]}.{at}" depart="{at}"><route edges="{edges}"/></vehicle>'
        for at, edges in sorted(departs)
    )
    return f"<routes>{''.join(vehicles)}</routes>"


class Many(Rounds):
    """Words for studies and searches of the street, whose minor vehicles wait."""

    def setUp(self):
        super().setUp()
        streams = (("w e f", 4, 30), ("s e f", 7, 12), ("g f", 9, 12))  # edges, seconds between vehicles, how many
        self.imported(lit(), ways([(every * at, edges) for edges, every, count in streams for at in range(count)]))

    def table(self, name, out):
        with open(self.folder / out / name, encoding="utf-8") as file:
            return list(csv.DictReader(file))

    def study(self, *words, out="out", more=""):
        text = (
            'run = "run.jsonl"\nmap = "map.json"\nuntil = 600\nseeds = "1-2"\n'
            f'departures = "listed"\n{more}\n[variant.given]\n'
            '[variant.calm]\ndawdle = 0\n'
        )
        path = self.write("study.toml", text)
        return self.tool("study", path, "--program", PROGRAM, "--out", self.folder / out, *words)

    def signals(self, *words, out="found", status=0):
        files = [self.folder / "run.jsonl", "--map", self.folder / "map.json", "--plans", self.folder / "net.net.xml"]
        words = ["--until", 600, "--budget", 30, "--check", "101-103", "--program", PROGRAM, *words]
        return self.tool(
            "signals", *files, "-o", self.folder / f"{out}.add.xml", "--out", self.folder / out, *words, status=status
        )


class ManyRuns(Many):
    def test_a_study_is_as_streetsim_run_says(self):
        told, _ = self.study("--jobs", 1)
        self.run_it("--until", 600, "--rescue", 0, "--seeds", "1-2", "--departures", "listed", name="runs")
        mine = [row for row in self.table("runs.csv", "out") if row["variant"] == "given"]
        for one, other in zip(mine, self.table("seeds.csv", "runs"), strict=True):
            self.assertEqual((one["arrived"], f"{float(other['mean_trip_s']):.3f}"), ("54", one["mean_trip_s"]))
        self.assertNotIn("give way by some ", told)

    def test_a_study_with_a_map_of_an_earlier_version_is_as_streetsim_run_says(self):
        make_older(self.folder / "map.json")
        told, _ = self.study("--jobs", 1)
        self.run_it("--until", 600, "--rescue", 0, "--seeds", "1-2", "--departures", "listed", name="runs")
        mine = [row for row in self.table("runs.csv", "out") if row["variant"] == "given"]
        for one, other in zip(mine, self.table("seeds.csv", "runs"), strict=True):
            self.assertEqual((one["arrived"], f"{float(other['mean_trip_s']):.3f}"), ("54", one["mean_trip_s"]))
            setting = self.setting(f"runs/seed-{one['seed']}")["yielding"]
            self.assertEqual((int(one["junctions_giving_way"]), int(one["signal_lines"])), (1, setting["lines"]))
        self.assertIn("1 junctions without a light give way by some ", told)

    def test_a_study_is_the_same_for_any_jobs_and_without_rounds_nobody_waits(self):
        make_older(self.folder / "map.json")
        self.study("--jobs", 1, out="one")
        self.study("--jobs", 3, out="three")
        for name in ("runs.csv", "differences.csv"):
            self.assertEqual((self.folder / "one" / name).read_bytes(), (self.folder / "three" / name).read_bytes())
        told, _ = self.study("--rounds", 0, out="nobody")
        self.study(more="rounds = 0", out="written")
        self.assertNotIn("give way", told)
        self.assertEqual(self.table("runs.csv", "nobody"), self.table("runs.csv", "written"))
        for one, other in zip(self.table("runs.csv", "one"), self.table("runs.csv", "nobody"), strict=True):
            self.assertGreater(float(one["mean_trip_s"]), float(other["mean_trip_s"]) + 5)

    def test_rounds_of_a_study_that_are_none(self):
        for value in ("11", "-1", '"2"', "true"):
            with self.subTest(value), self.assertRaisesRegex(Fault, "rounds = .* is not 0 to 10"):
                text = (
                    'run = "run.jsonl"\nmap = "map.json"\nuntil = 600\nseeds = "1"\n'
                    f'departures = "listed"\nrounds = {value}\n'
                    '[variant.given]\n'
                )
                read_study(self.write("study.toml", text), PROGRAM)

    def test_a_search_finds_what_streetsim_run_confirms(self):
        self.signals("--jobs", 1)
        self.signals("--jobs", 3, out="three")
        trip = {out: self.table("before-after.csv", out)[0] for out in ("found", "three")}
        self.assertEqual((self.folder / "found.add.xml").read_bytes(), (self.folder / "three.add.xml").read_bytes())
        self.assertEqual(trip["found"], trip["three"])
        # The report's runs are those of streetsim-run with the plan found and the seeds of the report.
        net, routes = self.folder / "net.net.xml", self.folder / "demand.rou.xml"
        words = [net, self.folder / "found.add.xml", "--routes", routes]
        self.tool("import", *words, "-o", self.folder / "run.jsonl", "--map", self.folder / "map.json")
        self.run_it("--until", 600, "--rescue", 0, "--seeds", "101-103", "--departures", "listed", name="after")
        means = [float(row["mean_trip_s"]) for row in self.table("seeds.csv", "after")]
        self.assertAlmostEqual(float(trip["found"]["after"]), sum(means) / 3, delta=0.001)

    def test_pictures_of_plans_have_their_gaps(self):
        make_older(self.folder / "map.json")
        files = [str(self.folder / name) for name in ("run.jsonl", "map.json", "net.net.xml")]
        town = read_town(Reading(*files[:2], files[2:], 600, PROGRAM, 5, (), 2))
        target = PlanFiles("", "", Corridor(["w", "e"], 0, 300), RunOptions(PROGRAM, 2), 600)
        drawn = []

        def draw(_, folder, __):
            with open(f"{folder.path}/setting.json", encoding="utf-8") as file:
                drawn.append(json.load(file)["yielding"])

        with mock.patch.multiple(signal_found, load_pyplot=mock.DEFAULT, save_picture=mock.DEFAULT, draw_corridor=draw):
            signal_found.draw_plan(target, target.corridor, town, town.plan, "x.png")
        self.assertEqual((drawn[0]["rounds"], drawn[0]["junctions"]), (2, 1))
        self.assertGreater(drawn[0]["lines"], 0)


@needs_distributed
class InCluster(ClusterCase, Many):
    def test_a_cluster_gives_the_same(self):
        port, _ = self.cluster()
        for out, words in (("one", ("--jobs", 1)), ("both", ("--cluster", f"127.0.0.1:{port}"))):
            self.study(*words, out=out)
            self.signals(*words, out=f"{out}-found")
        for name in ("runs.csv", "differences.csv"):
            self.assertEqual((self.folder / "one" / name).read_bytes(), (self.folder / "both" / name).read_bytes())
        for name in ("one-found/before-after.csv", "one-found.add.xml"):
            self.assertEqual(
                (self.folder / name).read_bytes(), (self.folder / name.replace("one", "both")).read_bytes()
            )


class Scripts(Rounds):
    """The street under scripts: who comes from s at 50 waits for 30 vehicles that go first."""

    def setUp(self):
        super().setUp()
        self.imported(junction(), routes([*((4 * at, "w") for at in range(30)), (50, "s")]))
        self.run_it("--until", 600, "--rescue", 0)
        self.end = 50 + self.trips()["s.50"]
        self.files = self.folder / "run.jsonl", self.folder / "map.json", PROGRAM

    def arrival(self, sim):
        """The clock at which the minor vehicle has arrived."""
        while sim.vehicle.reply_on("s.50").state != "arrived":
            sim.simulationStep()
        return sim.clock

    def test_a_scenario_gives_way_as_streetsim_run_does(self):
        with warnings.catch_warnings():
            warnings.simplefilter("error")
            with Scenario(*self.files) as sim:
                self.assertEqual(self.arrival(sim), self.end)
            with Scenario(*self.files) as sim:
                sim.simulationStep(self.end - 1)
                self.assertNotEqual(sim.vehicle.reply_on("s.50").state, "arrived")

    def started(self, *words):
        """When the minor vehicle arrives under a script, and what is told at the start."""
        with mock.patch.dict("os.environ", STREETSIM_PROGRAM=PROGRAM), redirect_stderr(StringIO()) as said:
            traci.start(
                ["sumo", "-n", str(self.folder / "net.net.xml"), "-r", str(self.folder / "demand.rou.xml"), *words]
            )
        self.addCleanup(lambda: traci.isLoaded() and traci.close())
        for clock in range(1, 600):
            traci.simulationStep()
            if "s.50" in traci.simulation.getArrivedIDList():
                traci.close()
                return clock, said.getvalue()
        return None, said.getvalue()

    def test_a_script_for_traci_gives_way_as_streetsim_run_does(self):
        clock, _ = self.started()
        self.assertEqual(clock, self.end)
        with self.assertRaisesRegex(traci.FatalTraCIError, "--rounds 11: is not 0 to 10"):
            self.started("--rounds", "11")


class Capacity(Rounds):
    def entries(self, hourly):
        """Vehicles an hour that join a street with so many, where more than can wish to."""
        draws, departs = random.Random(1), {}
        for edge, rate in (("w", hourly), ("s", 1500)):
            clock = 0.0
            while (clock := clock + draws.expovariate(rate / 3600)) < LAST:
                departs[int(clock), edge] = None
        self.imported(junction(500.0), routes(departs))
        self.run_it("--until", LAST, "--every", 0, "--rescue", 0)
        rows = [
            row.split(",") for row in (self.folder / "out" / "trips.csv").read_text(encoding="utf-8").splitlines()[1:]
        ]
        arrived = [int(row[2]) for row in rows if row[0].startswith("s.") and row[2]]
        return sum(600 <= clock < LAST for clock in arrived) * 3600 / (LAST - 600)

    def test_as_many_join_as_in_sumo(self):
        # In SUMO 1.15 a right turn into such a street, always full: 560 against 400 an hour (bench/run junctions).
        self.assertLess(abs(self.entries(400) / 560 - 1), 0.15)


if __name__ == "__main__":
    unittest.main()
