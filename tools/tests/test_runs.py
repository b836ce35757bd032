"""Runs and their tables, on streets small enough to be reckoned by hand."""
import csv
import json
import os
import pty
import subprocess
import unittest
from argparse import Namespace
from types import SimpleNamespace

from support import FORK, MAP, NUMBERED, PROGRAM, RED, TOOLS, Case, lane, needs_simulator, net
from streetsim.base.files import Fault
from streetsim.base.seeds import mean_and_half_width
from streetsim.cli import run
from streetsim.cli.open_page import lane_to_close
from streetsim.cli.running import along_of, mean_trip_line
from streetsim.model.folder import read_folder
from streetsim.model.mapping import map_from
from streetsim.model.runs import Line, read_run, read_with_map, run_of_texts
from streetsim.observe.run_making import first_poll
from streetsim.scenario import Scenario
from streetsim.simulation.connections import Connections
from streetsim.search.signal_town import read_run_and_map, signal_node


class Runs(Case):
    def given(self, *commands, cars=()):
        lines = [{"cmd": "load", **NUMBERED}, *commands]
        self.run_file = self.write("run.jsonl", "".join(json.dumps(line) + "\n" for line in lines))
        self.map_file = self.write("run.map.json", json.dumps({**MAP, "cars": list(cars)}))

    def run_tool(self, *words, out="out", status=0):
        return self.tool(
            "run",
            self.run_file,
            "--map",
            self.map_file,
            "--program",
            PROGRAM,
            "--out",
            self.folder / out,
            *words,
            status=status,
        )

    def table(self, name, out="out"):
        with open(self.folder / out / name, encoding="utf-8") as file:
            return list(csv.reader(file))[1:]


def enter(plan, depart=0):
    return {"cmd": "enter", "plan": plan, "lane": 0, "depart": depart}


class EnterLines(unittest.TestCase):
    def test_lines_stay_as_they_are(self):
        """Usual ones, with a size, with further fields, in another order, of another kind of lane; and, as a plain
        list, where a number is beyond any that is right."""
        usual = [enter([0, 1], 7), {**enter([1], 4), "size": 2}, {**enter([1], 5), "size": 0}]
        others = [{**enter([0], 6), "note": "a"}, {"cmd": "enter", "depart": 5, "lane": 1, "plan": [1]}]
        kinds = [{**enter([0], 9), "lane": 1.5}, {"cmd": "enter", "plan": [0], "depart": 8}]
        for more in ([], [enter([1 << 40], 2)], [enter([0], 1 << 70)]):
            commands = [*usual, *more, *others, *kinds]
            texts = [json.dumps({"cmd": "load", **NUMBERED}), *map(json.dumps, commands)]
            run = run_of_texts("run.jsonl", texts)
            self.assertEqual([[*line.command.items()] for line in run.enters], [[*one.items()] for one in commands])
            self.assertEqual([(line.number, line.text) for line in run.enters[:]], [*enumerate(texts, 1)][1:])
            self.assertEqual([[*plan] for plan in run.plans()], [one["plan"] for one in commands])
            departs = [one["depart"] for one in commands]
            self.assertEqual([*run.least_departs], [min(departs[at:]) for at in range(len(departs))])
            self.assertEqual((run.enters[-1].command, len(run.enters)), (commands[-1], len(commands)))


class Asked(Case):
    def test_lanes_are_polled_at_multiples(self):
        """Every ten seconds from a start at 0, 9 or 10 s on: first at 10, 10 and 20 s; never where nobody asks."""
        self.assertEqual([first_poll(10, start) for start in (0, 9, 10)], [10, 10, 20])
        self.assertEqual([first_poll(every, 7) for every in (0, None)], [7, 7])

    def test_somebody_has_to_depart_before_the_end(self):
        lines = {"cmd": "load", **NUMBERED}, enter([0], 5)
        run = self.write("run.jsonl", "".join(json.dumps(one) + "\n" for one in lines))
        mapping = self.write("map.json", json.dumps({**MAP, "cars": ["v"]}))
        for until in (None, 6):
            self.assertEqual(len(read_run_and_map(run, mapping, until)[0].enters), 1)
        for until, told in ((5, "no vehicle departs before 5 s"), (0, "starts at 0 s, which is not before 0 s")):
            with self.assertRaisesRegex(Fault, told):
                read_run_and_map(run, mapping, until)

    def test_a_route_has_two_edges_or_more(self):
        mapping = map_from("", MAP)
        self.assertEqual(along_of(Namespace(along=["a b", "b,a,b"]), mapping), [["a", "b"], ["b", "a", "b"]])
        for route, told in (("a", "'a': a route has two edges or more"), ("a x", "the map has no edge 'x'")):
            with self.assertRaisesRegex(Fault, told):
                along_of(Namespace(along=[route]), mapping)

    def test_signals_of_a_run_by_their_nodes(self):
        commands = {"cmd": "signal", "node": 3}, {"cmd": "enter", "plan": [0]}
        self.assertEqual([signal_node(Line(0, "", one)) for one in commands], [3, None])

    def test_lanes_of_departures(self):
        """The lane that leads on, as here the second one; the first where none does, or the vehicle ends there."""
        links = [["a", [0, 1], *MAP["links"][0][2:]], *MAP["links"][1:], ["c", [0], *MAP["links"][1][2:]]]
        turns = [[0, 1, 1, 0, "L", 0, False], [1, 0, 2, 0, "", None, False]]
        connections = Connections(map_from("", {**MAP, "links": links, "turns": turns}))
        plans = (0, 1), (0, 1, 2), (0,), (0, 2), (1, 2)
        self.assertEqual([connections.departure_lane(plan) for plan in plans], [1, 1, 0, 0, 0])

    def test_a_lane_that_works_may_close(self):
        """Of 500 m with one lane, 100 and 200 m with two, to which a street leads, 300 m with two, to which none does,
        and 400 m with two that are two links: the lane of 200 m; of one lane the longest to which a street leads."""
        def link(edge, lanes, begin, end, metres):
            return [edge, lanes, begin, end, 10, 2, metres, [[0, 0], [metres, 0]]]

        two = [link("b", [0, 1], 1, 2, 100.0), link("c", [1, 2], 1, 2, 200.0), link("d", [0, 1], 0, 1, 300.0)]
        two += [link("e", [0], 1, 2, 400.0), link("e", [1], 1, 2, 400.0)]
        single = [link("a", [0], 0, 1, 500.0), link("f", [0], 1, 2, 90.0)]
        for links, lane in ((single + two, ("c_1", 200.0, False)), (single, ("f_0", 90.0, True))):
            turns = [[0, 0, at, 0, "", None, False] for at, one in enumerate(links) if one[2] == 1]
            mapping = map_from("", {**MAP, "links": links, "turns": turns, "signals": []})
            self.assertEqual(lane_to_close(SimpleNamespace(mapping=mapping)), lane)

    def test_limits_along_works(self):
        """5 to 130 km/h."""
        words = ["run.jsonl", "--map", "map.json", "--close", "a_0:0-10:0-10", "--works-limit"]
        self.assertEqual([run.parser().parse_args([*words, kmh]).works_limit for kmh in ("5", "130")], [5, 130])
        for kmh in ("4", "131"):
            with self.assertRaisesRegex(Fault, "5 to 130"):
                run.parser().parse_args([*words, kmh])


@needs_simulator
class Tables(Runs):
    def test_one_vehicle(self):
        # Cells 0, 1, 3, 6 after steps 0 to 3; in step 4 it leaves with speed 4 (108 km/h) and has arrived: 5 s after
        # departure.
        self.given(enter([0]), cars=["first"])
        told, _ = self.run_tool("--until", 60, "--every", 1)
        self.assertEqual(told, "1 vehicles, 1 arrived, mean trip 5.0 s, 0 rescues\n")
        self.assertEqual(self.table("trips.csv"), [["first", "0", "5", "5", "5.0", "0.0", "1", "0", "arrived"]])
        self.assertEqual(self.table("counts.csv")[0], ["0", "60", "a", "0", "0", "1", "60.0", "108.0", "0.0"])
        self.assertEqual(self.table("summary.csv"), [["60", "1", "0", "0", "0", "1", "0"]])
        self.assertEqual(self.table("queues.csv"), [])
        polls = [*read_folder(self.folder / "out").polls()]
        self.assertEqual(len(polls), 60)
        self.assertEqual(polls[3], {"clock": 4, "lanes": [[0, 0, [[0, 6, 3]], [], []]]})
        self.assertEqual(polls[5], {"clock": 6, "lanes": []})

    def test_queue_at_red(self):
        self.given(RED, enter([0, 1]), enter([0, 1]), enter([0, 1]), enter([0], 1000), cars=["x", "y", "z", "later"])
        self.run_tool("--until", 100, "--every", 100, "--rescue", 0)
        self.assertEqual(self.table("queues.csv"), [["100", "a", "0", "3", "22.5", "stop line", ""]])
        self.assertEqual([row[-1] for row in self.table("trips.csv")], ["cell", "cell", "cell", "not departed"])

    def test_rescue(self):
        # At red for ever. It is first seen at the stop line at 60 s and so taken out at 180; entered then on the
        # second link, it arrives in step 184.
        self.given(RED, enter([0, 1]), cars=["v"])
        told, _ = self.run_tool("--until", 300, "--rescue", 120)
        self.assertIn("1 arrived, mean trip 185.0 s, 1 rescues", told)
        self.assertEqual(
            self.table("trips.csv")[0][2:4] + self.table("trips.csv")[0][-2:], ["185", "185", "1", "arrived"]
        )

    def test_lines_in_time(self):
        # Closed from 0 to 100: the vehicle stands before the entrance at cell 5 until then.
        close = {"cmd": "close", "link": 0, "lane": 0, "first": 5, "last": 9, "at": 0}
        self.given(close, {**close, "cmd": "reopen", "at": 100}, enter([0]), cars=["v"])
        self.run_tool("--until", 120, "--every", 50)
        first = next(read_folder(self.folder / "out").polls())
        self.assertEqual(first, {"clock": 50, "lanes": [[0, 0, [[0, 4, 0]], [], [[5, 9]]]]})
        # Cells 5, 7 and leaving with speed 3 in steps 100 to 102.
        self.assertEqual(self.table("trips.csv")[0][2], "103")

    def test_entering_in_time_is_as_entering_at_once(self):
        self.given(*[enter([0, 1], depart) for depart in (0, 0, 3, 90, 91, 400)], cars="abcdef")
        self.run_tool("--until", 500)
        with open(self.run_file, encoding="utf-8") as lines:
            text = (
                lines.read()
                + '{"cmd":"advance","steps":500}\n'
                + "".join(f'{{"cmd":"vehicle","car":{car}}}\n' for car in range(6))
            )
        whole = subprocess.run([PROGRAM], input=text, capture_output=True, text=True, check=True).stdout.splitlines()[
            -6:
        ]
        self.assertEqual(
            [int(row[2]) for row in self.table("trips.csv")], [json.loads(line)["step"] + 1 for line in whole]
        )

    def test_counts_over_many_periods(self):
        # A detector keeps 32 rows; all 100 are there.
        self.given(enter([0]), enter([0], 950), cars="ab")
        self.run_tool("--until", 1000, "--period", 10)
        counted = {row[0]: row[5] for row in self.table("counts.csv") if row[2] == "a"}
        self.assertEqual(
            (len(counted), {begin for begin, count in counted.items() if count == "1"}), (100, {"0", "950"})
        )

    def test_same_seed_same_bytes(self):
        self.given(*[enter([0, 1], depart) for depart in range(0, 200, 3)], cars=[f"v{number}" for number in range(67)])
        for out, workers in (("one", 1), ("four", 4)):
            self.run_tool("--until", 400, "--workers", workers, out=out)
        for name in ("counts.csv", "trips.csv", "queues.csv", "summary.csv", "rows.bin"):
            self.assertEqual(
                (self.folder / "one" / name).read_bytes(), (self.folder / "four" / name).read_bytes(), name
            )

    def test_seeds(self):
        self.given(*[enter([0, 1], depart) for depart in range(0, 200, 3)], cars=[f"v{number}" for number in range(67)])
        told, _ = self.run_tool("--until", 400, "--seeds", "1-3", "--departures", "listed")
        self.assertEqual(
            [line.split(",")[0] for line in told.splitlines()],
            ["seed 1: 67 vehicles", "seed 2: 67 vehicles", "seed 3: 67 vehicles", told.splitlines()[3].split(",")[0]],
        )
        self.assertEqual([row[0] for row in self.table("seeds.csv")], ["1", "2", "3"])
        self.assertTrue((self.folder / "out/seed-3/trips.csv").exists())

    def test_the_page_names_what_a_run_writes(self):
        self.given(enter([0, 1]), cars=["v"])
        self.run_tool("--until", 60, "--seeds", "1-1", "--junctions", 60)
        text = (TOOLS / "OUTPUTS.md").read_text(encoding="utf-8")
        told = text.partition("## What a run writes\n")[2].partition("**SUMO's own files.**")[0]
        written = {path.name for path in (self.folder / "out").rglob("*") if path.is_file()}
        self.assertEqual([name for name in sorted(written) if f"`{name}`" not in told], [])

    def test_progress_is_for_terminals(self):
        self.given(enter([0]), cars=["v"])
        self.assertEqual(self.run_tool("--until", 60)[1], "")
        terminal, other_side = pty.openpty()
        words = [TOOLS / "streetsim-run", self.run_file, "--map", self.map_file, "--program", PROGRAM]
        words += ["--until", "60", "--out", self.folder / "out"]
        subprocess.run(words, stdout=subprocess.DEVNULL, stderr=other_side, check=True)
        os.close(other_side)
        told = os.read(terminal, 4096).decode()
        os.close(terminal)
        self.assertRegex(told, r"\[#{30}\] 60 s, 0 on their way, 1 arrived, [\d,.]+ x real time")

    def test_refused_line_is_named(self):
        self.given(enter([7]))
        _, told = self.run_tool("--until", 60, status=2)
        self.assertIn("run.jsonl: line 2 (enter) was refused: 8 BadPlan at 0", told)
        self.assertFalse((self.folder / "out").exists())


class Reading(Runs):
    def test_map_of_another_run(self):
        self.given()
        other = json.loads(json.dumps(MAP))
        other["links"][1][4] = 11
        self.map_file = self.write("other.map.json", json.dumps(other))
        words = ["run", self.run_file, "--map", self.map_file, "--until", 60, "--out", self.folder / "out"]
        told = self.tool(*words, status=2)[1]
        self.assertIn("other.map.json: not the map of", told)
        self.assertFalse((self.folder / "out").exists())
        with self.assertRaisesRegex(Fault, "other.map.json: not the map of .*, whose links are other ones"):
            Scenario(self.run_file, self.map_file, PROGRAM)
        words[3] = self.write("other.map.json", json.dumps({**MAP, "cars": ["v", "w"]}))
        told = self.tool("live", self.run_file, "--map", words[3], "--no-open", status=2)[1]
        for text in (told, self.tool(*words, status=2)[1]):
            self.assertIn("run.jsonl, which has 0 vehicles and not 2", text)

    @needs_simulator
    def test_map_of_another_demand(self):
        """On the same network, with as many or fewer vehicles. What a script changes in a run without changing who its
        vehicles are is taken: departures, lines with a clock, further vehicles."""
        network = self.write("x.net.xml", FORK)
        for name, ways in (("one", "bcb"), ("other", "bbc"), ("fewer", "c")):
            vehicles = "".join(
                f'<vehicle id="{name}{at}" depart="{9 * at}"><route edges="a {way}"/></vehicle>'
                for at, way in enumerate(ways)
            )
            routes = self.write(f"{name}.rou.xml", f"<routes>{vehicles}</routes>")
            words = "-o", self.folder / f"{name}.jsonl", "--map", self.folder / f"{name}.json"
            self.tool("import", network, "--routes", routes, *words)
        self.run_file, self.map_file = self.folder / "one.jsonl", self.folder / "one.json"
        for name in ("other", "fewer"):
            with self.assertRaisesRegex(Fault, f"{name}.json: not the map of .*, whose vehicles begin or end on other"):
                read_with_map(self.run_file, self.folder / f"{name}.json")
        lines = self.run_file.read_text().replace('"depart":9', '"depart":11').splitlines(keepends=True)
        lines.insert(1, '{"cmd":"close","link":0,"lane":0,"first":2,"last":3,"at":900}\n')
        self.run_file = self.write("changed.jsonl", "".join([*lines, lines[-1]]))
        self.run_tool("--until", 100)
        self.assertEqual([row[0] for row in self.table("trips.csv")], ["one0", "one1", "one2", "#3"])

    def test_faults(self):
        for text, words in (
            ('{"cmd":"enter"}\n', "line 1 is no command of a run"),
            ("x\n", "line 1 is no command of a run"),
            ('{"cmd":"count"}\n', "the first line must be a load"),
            (
                '{"cmd":"load"}\n{"cmd":"advance","steps":3}\n',
                "line 2 is no command of a run: advance is sent by streetsim-run itself",
            ),
            ('{"cmd":"load","dawdle":"x"}\n', "line 1 is no command of a run: dawdle is no whole number"),
            ('{"cmd":"load","start":1.5}\n', "line 1 is no command of a run: start is no whole number"),
            ('{"cmd":"load"}\n{"cmd":"close","at":20}\n', "line 2 is no command of a run: 'link'"),
            ('{"cmd":"load"}\n{"cmd":"signal","node":"a"}\n', "line 2 is no command of a run: node is no whole number"),
            ('{"cmd":"load"}\n{"cmd":["enter"]}\n', "line 2 is no command of a run"),
        ):
            with self.subTest(text), self.assertRaisesRegex(Fault, words):
                read_run(self.write("run.jsonl", text))
        for enter, words in (
            ({"plan": [0.5]}, "plan is no list of whole numbers"),
            ({"plan": "ab"}, "plan is no list of whole numbers"),
            ({"plan": []}, "plan is no list of whole numbers"),
            ({"depart": True}, "depart is no whole number"),
            ({"at": "soon"}, "at is no whole number"),
        ):
            line = json.dumps({"cmd": "enter", "plan": [0], "depart": 0, **enter})
            with self.subTest(line), self.assertRaisesRegex(Fault, f"line 2 is no command of a run: {words}"):
                read_run(self.write("run.jsonl", f'{{"cmd":"load"}}\n{line}\n'))

    def test_a_closure_of_no_link(self):
        for line in ({"cmd": "close"}, {"cmd": "reopen", "at": 20}):
            lines = {"cmd": "load", **NUMBERED}, {**line, "link": 2, "lane": 0, "first": 1, "last": 2}
            run = self.write("run.jsonl", "".join(f"{json.dumps(one)}\n" for one in lines))
            with self.assertRaisesRegex(Fault, f"run.jsonl: line 2 .{line['cmd']}.: no link 2"):
                read_with_map(run, self.write("map.json", json.dumps(MAP)))

    def test_interval(self):
        # Mean 2, standard deviation 1, three values: 4.303 / sqrt(3).
        mean, half = mean_and_half_width([1, 2, 3])
        self.assertEqual((mean, round(half, 3)), (2, 2.484))
        self.assertEqual(mean_and_half_width([5]), (5, None))
        # 100, 110 and 120 deviate by 10, and t is 4.303: 24.8 to each side; of another day twice as much.
        self.assertIn(" 85.2 to 134.8 s", mean_trip_line([100, 110, 120], False))
        self.assertIn(" 60.3 to 159.7 s", mean_trip_line([100, 110, 120], True))


@needs_simulator
class Imported(Case):
    def test_from_network_to_tables(self):
        """A net of one edge, by the tools alone: 10 cells, limit 2, dawdle 0: cells 0, 1, 3, 5, 7, 9, then out in step
        6."""
        network = self.write("x.net.xml", net([("a", "A", "B", [lane("a", 0)])], []))
        # In SUMO this one takes as long with its start.
        even = '<vType id="even" accel="3.22" sigma="0" speedFactor="1.08" speedDev="0"/>'
        vehicle = '<vehicle id="v" type="even" depart="2.5"><route edges="a"/></vehicle>'
        routes = self.write("x.rou.xml", f"<routes>{even}{vehicle}</routes>")
        run, mapped = self.folder / "run.jsonl", self.folder / "map.json"
        self.tool("import", network, "--routes", routes, "-o", run, "--map", mapped, "--dawdle", 0)
        told, _ = self.tool(
            "run", run, "--map", mapped, "--until", 60, "--out", self.folder / "out", "--program", PROGRAM
        )
        self.assertEqual(told, "1 vehicles, 1 arrived, mean trip 7.0 s, 0 rescues\n")


if __name__ == "__main__":
    unittest.main()
