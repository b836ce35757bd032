"""Road works: parallel links are joint for the run, and what cannot be had is said."""
import csv
import json
import os
import unittest
from collections import Counter

from support import PROGRAM, Case, lane, needs_simulator, net
from streetsim.base.files import Fault
from streetsim.model.folder import read_folder
from streetsim.model.mapping import read_map
from streetsim.model.runs import read_run
from streetsim.scenario import Scenario
from streetsim.sumo.bundles import bundles_of_edge
from streetsim.sumo.net import NetEdge, NetLane as SumoLane
import streetsim.traci as traci
from streetsim.control.works_asked import sites_of, works_of
from streetsim.control.works_sites import shut_links, with_works


LIGHT = (
    '<tlLogic id="L" type="actuated" programID="0" offset="0"><phase duration="60" state="GG" minDur="60" maxDur="60"/>'
    '<phase duration="3" state="yy"/></tlLogic>'
)


def fan(lanes, light=False):
    """A street z of some lanes into one a of as many, of which each lane leads to an edge of its own: to0, to1, ..;
    light: of two lanes, whether one that detectors drive stands before these."""
    count = range(lanes)
    edges = [
        (name, *ends, [lane(name, at, metres) for at in count])
        for name, ends, metres in (("z", "YA", 150), ("a", "AB", 300))
    ]
    edges += [(f"to{at}", "B", f"C{at}", [lane(f"to{at}", 0, 150)]) for at in count]
    signals = [f'tl="L" linkIndex="{at}"' if light else "" for at in count]
    turns = [("z", at, "a", at, "") for at in count] + [("a", at, f"to{at}", 0, signals[at]) for at in count]
    return net(edges, turns, LIGHT if light else "")


def flows(lanes, hourly):
    """600 s of vehicles to each end."""
    each = "".join(
        f'<flow id="f{at}" begin="0" end="600" vehsPerHour="{hourly}"><route edges="z a to{at}"/></flow>'
        for at in range(lanes)
    )
    return f"<routes>{each}</routes>"


class Groups(unittest.TestCase):
    def groups(self, lanes, closing):
        edge = NetEdge("a", "A", "B", 1, [SumoLane(at, 13.9, 300.0, []) for at in range(lanes)])
        following = {("a", at): {f"to{at}"} for at in range(lanes)}
        return [
            [one.index for one in group]
            for group in bundles_of_edge(edge, following, {("a", at): set() for at in range(lanes)}, closing)
        ]

    def test_closed_beside_open(self):
        for lanes, closing, expected in (
            (2, {}, [[0], [1]]),
            (2, {0}, [[0, 1]]),
            (3, {0}, [[0, 1], [2]]),
            (3, {2}, [[0], [1, 2]]),
            (3, {0, 1}, [[0], [1, 2]]),
            (4, {1, 2}, [[0, 1], [2, 3]]),
        ):
            self.assertEqual(self.groups(lanes, closing), expected, (lanes, closing))


@needs_simulator
class Works(Case):
    def imported(self, lanes=2, hourly=300, more=(), light=False):
        self.write("x.net.xml", fan(lanes, light))
        self.write("x.rou.xml", flows(lanes, hourly))
        words = [self.folder / "x.net.xml", "--routes", self.folder / "x.rou.xml", *more]
        self.tool("import", *words, "-o", self.folder / "run.jsonl", "--map", self.folder / "map.json", "--strict")
        return self.folder / "run.jsonl", self.folder / "map.json"

    def run_with(self, run, mapped, *closed, status=0, more=()):
        """What is said, and the mean trip of those who arrived, and how many did."""
        words = [word for text in closed for word in ("--close", text)]
        words += ["--until", 1200, "--rescue", 0, "--out", self.folder / "out", "--program", PROGRAM, *more]
        told = self.tool("run", run, "--map", mapped, *words, status=status)[1]
        if status:
            return told
        with open(self.folder / "out/trips.csv", encoding="utf-8") as file:
            trips = [int(row["duration"]) for row in csv.DictReader(file) if row["duration"]]
        return told, sum(trips) / len(trips), len(trips)

    def test_parallel_links(self):
        """One open lane of 1,600 an hour takes 600, so that works cost some seconds,
        and not the time until they end."""
        run, mapped = self.imported()
        _, mean, arrived = self.run_with(run, mapped)
        told, closed, still = self.run_with(run, mapped, "a_0:100-200:60-1200")
        self.assertEqual((arrived, still), (100, 100))
        self.assertLess(abs(closed - mean), 10)
        self.assertIn("edges a", told)
        # From its begin on: who comes on the closed lane leaves it in the first cells.
        self.assertLess(abs(self.run_with(run, mapped, "a_1:0-300:60-1200")[1] - mean), 10)

    def test_who_loses_the_only_lane(self):
        """The left lane alone leads to to1, and its works begin 100 m from the edge's begin: 50 come meanwhile."""
        run, mapped = self.imported()
        _, mean, _ = self.run_with(run, mapped)
        told, led, arrived = self.run_with(run, mapped, "a_1:100-300:60-900")
        self.assertEqual(arrived, 100)
        self.assertLess(abs(led - mean), 10)
        self.assertIn("these are led from a_0, for that time alone", told)
        self.assertNotIn("joint", told)
        works = [works_of("a_1:100-300:60-400", read_map(mapped))]
        made, mapping, _ = with_works(read_run(run), read_map(mapped), mapped, works)
        [shut] = shut_links(sites_of(works, mapping), mapping)
        through = Counter(line.command["depart"] < 380 for line in made.enters if shut in line.command["plan"])
        self.assertLess(through[True], 5, "those alone who are past before the works")
        self.assertGreater(through[False], 10, "who comes when they are over has the lane again")
        for how, words in (("wait", "these wait until the works end"), ("bar", "these have no way")):
            told, late, arrived = self.run_with(run, mapped, "a_1:100-300:60-900", more=("--lost", how))
            self.assertEqual((arrived, "joint" in told), (100, False))
            self.assertGreater(late, mean + 100)
            self.assertIn(words, told)

    def test_who_waits_before_a_light_that_detectors_drive(self):
        """It shows green to the turns of the run alone, without that of the lane beside, which is joint for the run."""
        run, mapped = self.imported(light=True)
        told, _, arrived = self.run_with(run, mapped, "a_1:200-300:60-900", more=("--lost", "wait"))
        self.assertIn("these wait until the works end", told)
        self.assertEqual(arrived, 100)

    def test_works_that_share_metres(self):
        """Works that end reopen nothing that others still close, in whichever order they are given."""
        run, mapped = self.imported(more=("--joint", "a"))
        [link] = read_map(mapped).links_of["a"]
        for closed in (
            ("a_0:50-200:60-200", "a_0:100-250:100-900"),
            ("a_0:100-250:100-900", "a_0:50-200:60-200"),
            ("a_0:100-250:200-900", "a_0:100-250:60-200"),
        ):
            self.run_with(run, mapped, *closed, more=("--every", 5))
            first, last = read_map(mapped).links[link].cells_between(110, 190)
            polls = [*read_folder(self.folder / "out").polls()]
            lanes = [one for poll in polls if 300 <= poll["clock"] < 900 for one in poll["lanes"] if one[0] == link]
            cells = {(lane, cell) for _, lane, on_it, *_ in lanes for _, cell, *_ in on_it if first <= cell <= last}
            self.assertEqual({lane for lane, _ in cells}, {1}, closed)

    def test_three_lanes(self):
        """Of three lanes two are closed: one is joint with the open one, and who has the other takes a turn before."""
        run, mapped = self.imported(lanes=3)
        _, mean, _ = self.run_with(run, mapped)
        _, closed, arrived = self.run_with(run, mapped, "a_0:100-200:60-1200", "a_1:100-200:60-1200")
        self.assertEqual(arrived, 150)
        self.assertLess(abs(closed - mean), 15)

    def test_more_come_than_pass(self):
        """Two lanes of three are joint, of which one is closed: 2,000 vehicles an hour come to the other,
        and 600 do not fill it."""
        told = (
            "edge a: some 2,000 vehicles an hour come to works that leave 1 of 2 lanes, and a lane passes some "
            "1,600; nobody changes"
        )
        for hourly, said in ((1000, [told]), (300, [])):
            run, mapped = self.imported(lanes=3, hourly=hourly)
            works = [works_of("a_0:100-200:60-420", read_map(mapped))]
            found = with_works(read_run(run), read_map(mapped), mapped, works)[2]
            self.assertEqual([text[: len(told)] for text in found if "come to works" in text], said)

    def test_who_goes_round(self):
        """Plans change of those alone who may come while the works last, 400 s; it takes 11 s and more to get there."""
        run, mapped = self.imported(lanes=3)
        works = [works_of(f"a_{at}:100-200:0-400", read_map(mapped)) for at in (0, 1)]
        made, mapping, _ = with_works(read_run(run), read_map(mapped), mapped, works)
        shut = set(shut_links(sites_of(works, mapping), mapping))
        self.assertEqual([mapping.links[link].lanes for link in shut], [(0,)])
        through = Counter(line.command["depart"] < 380 for line in made.enters if shut & set(line.command["plan"]))
        self.assertEqual(through[True], 0)
        self.assertGreater(through[False], 10)

    def test_all_lanes(self):
        run, mapped = self.imported()
        told = self.run_with(run, mapped, "a_0:100-200:60-300", "a_1:150-250:200-400")[0]
        self.assertIn(
            "edge a: all lanes are closed between 200 and 300 s; nobody takes another way, so those of the 100 "
            "vehicles through it that come meanwhile wait",
            told,
        )
        told = self.run_with(run, mapped, "to0_0:50-100:60-300")[0]
        self.assertIn("edge to0: its only lane is closed between 60 and 300 s", told)
        self.assertIn("wait before the works (streetsim-route .. --close finds ways round)\n", told)

    def test_beyond_the_end(self):
        run, mapped = self.imported()
        for text in ("a_0:5000-6000:0-900", "a_0:200-310:0-900"):
            self.assertIn(f"--close '{text}': the lane ends at 300 m", self.run_with(run, mapped, text, status=2))
        self.assertIn(
            "--close 'a_0:0-9:1200-1300': begins at the end, 1200 s, or later",
            self.run_with(run, mapped, "a_0:0-9:1200-1300", status=2),
        )

    def test_over_at_the_start(self):
        run, mapped = self.imported()
        words = ["--routes", self.folder / "x.rou.xml", "--begin", 300, "-o", run, "--map", mapped]
        self.tool("import", self.folder / "x.net.xml", *words)
        told = self.run_with(run, mapped, "a_0:100-200:60-300", status=2)
        self.assertIn("--close 'a_0:100-200:60-300': ends at the start, 300 s, or earlier", told)

    def test_never_begun(self):
        """All have arrived before 900 s, when the works would begin; a run with a last second is refused them."""
        run, mapped = self.imported()
        works, words = "a_0:100-200:900-1800", ["--out", self.folder / "out", "--program", PROGRAM]
        told = self.tool("run", run, "--map", mapped, "--close", works, *words)[0].splitlines()
        doubt = "works on a_0 begin at 900 s, and the run had ended by then"
        self.assertEqual(told[1:], [f"not to be trusted: {doubt}"])
        text = (
            'run = "run.jsonl"\nmap = "map.json"\nseeds = "1-2"\n'
            'departures = "listed"\n[variant.given]\n[variant.late]\n'
        )
        text += f'close = ["{works}"]'
        told = self.tool("study", self.write("study.toml", text), *words)[0].splitlines()
        doubt = "late: works on a_0 begin at 900 s, and 2 of 2 runs had ended by then"
        self.assertEqual(told[-1], f"not to be trusted: {doubt}")

    def test_nobody_is_left(self):
        """The same with a last second after the begin: the works are there, and meet nobody. Works that who is on the
        way may meet are not named."""
        run, mapped = self.imported()
        words = ["--out", self.folder / "out", "--program", PROGRAM]
        last = ["run", run, "--map", mapped, "--until", 1200, *words, "--close"]
        why = "works on a_0 begin at 900 s, and met nobody{}, as all vehicles had arrived by then"
        told = self.tool(*last, "a_0:100-200:900-1100")[0].splitlines()
        self.assertEqual(told[1:], [f"not to be trusted: {why.format('')}"])
        told = self.tool(*last, "a_0:100-200:300-1100")[0].splitlines()
        self.assertRegex(told[-1], "^not to be trusted: works on a: .. turn off 98 m behind them from the closed lane")
        self.assertNotIn("met nobody", told[-1])
        text = (
            'run = "run.jsonl"\nmap = "map.json"\nseeds = "1-2"\n'
            'departures = "listed"\nuntil = 1200\n[variant.given]\n[variant.late]\n'
        )
        text += 'close = ["a_0:100-200:900-1100"]'
        told = self.tool("study", self.write("study.toml", text), *words)[0].splitlines()
        self.assertEqual(told[-1], f"not to be trusted: late: {why.format(' in 2 of 2 runs')}")

    def test_joint_from_the_start(self):
        run, mapped = self.imported(more=("--joint", "a"))
        told, _, arrived = self.run_with(run, mapped, "a_0:100-200:60-1200")
        self.assertEqual((told, arrived), ("", 100))
        for names, words in (
            ("x", "the import has no edge or lane 'x'"),
            ("to0", "edge 'to0' has one lane, and none beside it"),
        ):
            told = self.tool(
                "import", self.folder / "x.net.xml", "--joint", names, "-o", run, "--map", mapped, status=2
            )[1]
            self.assertIn(words, told)

    def test_what_cannot_be_imported_anew(self):
        run, mapped = self.imported()
        with open(run, "a", encoding="utf-8") as file:
            file.write('{"cmd":"signal","node":1,"offset":0,"phases":[],"at":9}\n')
        told = self.run_with(run, mapped, "a_0:100-200:60-900", status=2)
        self.assertIn("run.jsonl: has changed since it was imported. Run streetsim-import with --joint a_0", told)
        run, mapped = self.imported()
        self.write("x.rou.xml", flows(2, 400))
        self.assertIn("x.rou.xml: has changed", self.run_with(run, mapped, "a_0:100-200:60-900", status=2))
        content = json.loads(mapped.read_text(encoding="utf-8"))
        mapped.write_text(json.dumps({**content, "sources": {}}), encoding="utf-8")
        self.assertIn("does not name the files", self.run_with(run, mapped, "a_0:100-200:60-900", status=2))

    def test_study(self):
        """The base is joint too, so that the difference is that of the works."""
        self.imported()
        study = (
            'run = "run.jsonl"\nmap = "map.json"\nuntil = 1200\nseeds = "1-2"\n'
            'departures = "listed"\n[variant.given]\n[variant.works]\n'
            'close = ["a_0:100-200:60-1200"]\n'
        )
        _, told = self.tool(
            "study", self.write("study.toml", study), "--out", self.folder / "out", "--program", PROGRAM
        )
        self.assertEqual(told.count("joint for this run"), 2)
        with open(self.folder / "out/differences.csv", encoding="utf-8") as file:
            given, works = csv.DictReader(file)
        self.assertLess(float(works["difference"]), 10)
        self.assertGreater(float(works["mean_trip_s"]), float(given["mean_trip_s"]))

    def test_scenario(self):
        run, mapped = self.imported()
        with Scenario(run, mapped, PROGRAM) as sim:
            with self.assertRaisesRegex(ValueError, r"cannot be closed.*Scenario\(\.\., joint=\['a_0'\]\)"):
                sim.close("a_0")
            with self.assertRaisesRegex(ValueError, "ends at 150 m"):
                sim.close("z_0", 150)
            sim.close("to0_0")
        with Scenario(run, mapped, PROGRAM, joint=["a"]) as sim:
            sim.close("a_0")
            sim.simulationStep(1200)
            self.assertEqual(sim.simulation.getMinExpectedNumber(), 0)

    def test_scenario_of_another_import(self):
        run, mapped = self.imported()
        os.remove(self.folder / "x.net.xml")
        with self.assertRaisesRegex(Fault, "--joint a"):
            Scenario(run, mapped, PROGRAM, joint=["a"])

    def traced(self, *more):
        os.environ["STREETSIM_PROGRAM"] = PROGRAM
        self.addCleanup(lambda: traci.isLoaded() and traci.close())
        traci.start(
            ["sumo", "-n", self.write("x.net.xml", fan(2)), "-r", self.write("x.rou.xml", flows(2, 300)), *more]
        )

    def test_traci(self):
        self.traced()
        with self.assertRaisesRegex(
            traci.TraCIException, r"cannot be closed.*traci\.start\(\[\.\., '--joint', 'a_0'\]\)"
        ):
            traci.lane.setDisallowed("a_0", ["passenger"])
        traci.edge.setDisallowed("a", ["passenger"])
        traci.close()
        self.traced("--joint", "a")
        traci.simulationStep(60)
        traci.lane.setDisallowed("a_0", ["passenger"])
        traci.simulationStep(1200)
        self.assertEqual(traci.simulation.getMinExpectedNumber(), 0)


if __name__ == "__main__":
    unittest.main()
