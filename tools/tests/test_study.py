"""streetsim-study: tables of seeds and variants, bad input, and the same on a cluster with a worker that is killed."""
import csv
import json
import os
import shutil
import socket
import subprocess
import sys
import time
import unittest
import unittest.mock
from concurrent.futures import BrokenExecutor, Future
from dataclasses import replace
from importlib.util import find_spec
from statistics import fmean, stdev

from clusters import DEBIAN, ClusterCase, free_port, needs_distributed
from support import MAP, NUMBERED, PROGRAM, RED, TOOLS, Case, needs_simulator
from streetsim.base.files import Fault
from streetsim.search.run_machines import result_of
from streetsim.search.study_differences import VariantDifference
from streetsim.search.study_telling import intervals_of
from streetsim.search.study_variants import read_study

CORRIDOR = TOOLS / "examples/corridor"


class Intervals(unittest.TestCase):
    def test_what_the_picture_shows(self):
        """Of drawn departures the intervals of one day and of the mean; of listed ones those of dawdling."""
        row = VariantDifference("wave", 90.0, -10.0, 0.5, 1.5, 5, 5, 9)
        self.assertEqual([(width, label) for width, _, label in intervals_of(row)], [
            (1.5, "dawdling alone, unpaired"), (0.5, "dawdling alone, paired"),
        ])
        drawn = replace(row, day=4.0, mean_of_day=6.0)
        self.assertEqual([(width, label) for width, _, label in intervals_of(drawn)], [
            (4.0, "one day"), (0.5, "the mean change"),
        ])


@needs_simulator
class Studies(Case):
    def setUp(self):
        super().setUp()
        network, routes = CORRIDOR / "corridor.net.xml.gz", CORRIDOR / "corridor.rou.xml"
        self.tool(
            "import", network, "--routes", routes, "-o", self.folder / "run.jsonl", "--map", self.folder / "map.json"
        )

    def study(self, *words, **more):
        return self.write("study.toml", self.text(*words, **more))

    def text(self, seeds="1-4", until=900, more="", variants=None):
        wave = [str(CORRIDOR / name) for name in ("corridor.net.xml.gz", "wave.add.xml")]
        variants = (
            variants
            or f'[variant.given]\n[variant.wave]\nplans = {wave}\n[variant.closed]\nclose = ["J1J2_0:100-200:60-600"]\n'
        )
        return (
            f'run = "run.jsonl"\nmap = "map.json"\nuntil = {until}\nseeds = "{seeds}"\n'
            f'departures = "listed"\n{more}\n{variants}'
        )

    def words(self, study, *words, out="out"):
        return [study, "--program", PROGRAM, "--out", self.folder / out, *words]

    def table(self, name, out="out"):
        with open(self.folder / out / name, encoding="utf-8") as file:
            return list(csv.DictReader(file))


class Tables(Studies):
    def test_hours_for_works(self):
        """Works of nine minutes at two times: what each adds to the trips of the base, and what is seen before them."""
        variants = '[variant.given]\n[variant.works]\nclose = ["J1J2_0:100-200:60-600"]\n'
        words = self.words(self.study(seeds="1-2", variants=variants), "--jobs", 1, "--close-at", "60,00:05")
        told, _ = self.tool("study", *words)
        rows, runs = self.table("windows.csv"), self.table("runs.csv")
        self.assertEqual([(row["variant"], row["begin"], row["end"]) for row in rows], [
            ("works 0:01", "60", "600"), ("works 0:05", "300", "840"),
        ])
        total = {(row["variant"], row["seed"]): int(row["total_s"]) for row in runs}
        for row in rows:
            more = fmean(total[row["variant"], seed] - total["given", seed] for seed in "12") / 3600
            self.assertAlmostEqual(float(row["vehicle_hours"]), more, delta=0.051)
            self.assertGreater(int(row["vehicles_that_pass"]), 0)
            self.assertGreater(float(row["queue_max_m"]), 0)
            self.assertLessEqual(int(row["begin"]), int(row["queue_at"]))
            self.assertIn(f"{row['variant']}, 0:0", told)

    def test_differences(self):
        told, _ = self.tool("study", *self.words(self.study(), "--jobs", 1, "--precision", 0.01))
        runs = self.table("runs.csv")
        pairs = [(name, str(seed)) for name in ("given", "wave", "closed") for seed in range(1, 5)]
        self.assertEqual([(row["variant"], row["seed"]) for row in runs], pairs)
        means = {
            name: [float(row["mean_trip_s"]) for row in runs if row["variant"] == name]
            for name in ("given", "wave", "closed")
        }
        rows = {row["variant"]: row for row in self.table("differences.csv")}
        self.assertEqual((rows["given"]["difference"], rows["given"]["runs"]), ("", "4"))
        for name in ("wave", "closed"):
            apart = [there - here for here, there in zip(means["given"], means[name])]
            self.assertAlmostEqual(float(rows[name]["difference"]), fmean(apart), delta=0.002)
            # The quantile of t for 3 degrees of freedom is 3.182.
            self.assertAlmostEqual(float(rows[name]["half_width_95_paired"]), 3.182 * stdev(apart) / 2, delta=0.005)
            loose = (stdev(means["given"]) ** 2 + stdev(means[name]) ** 2) ** 0.5
            self.assertAlmostEqual(float(rows[name]["half_width_95_unpaired"]), 3.182 * loose / 2, delta=0.005)
            # n = (t s / e)^2: at least the normal quantile's, and a few more.
            needed, error = int(rows[name]["runs_needed_paired"]), 0.0001 * fmean(means["given"])
            self.assertTrue(
                0.99 * (1.96 * stdev(apart) / error) ** 2 <= needed <= (2.1 * stdev(apart) / error) ** 2 + 10
            )
        self.assertRegex(
            told,
            r"given: mean trip [\d.]+ s\nwave: better: mean trip [\d.]+ s, [-+][\d.]+ s ± [\d.]+ \(95 % interval of "
            r"the mean change by dawdling alone; 4 paired runs\); the wanted",
        )
        self.assertIn("so nothing is sure of another day\nbeside chance, forecasts were off by", told)
        if find_spec("matplotlib"):
            self.assertTrue((self.folder / "out/differences.png").exists())

    def test_a_variant_is_as_streetsim_run_says(self):
        self.tool("study", *self.words(self.study("3", 900), "--jobs", 1))
        self.tool(
            "import", CORRIDOR / "corridor.net.xml.gz", CORRIDOR / "wave.add.xml",
            "--routes", CORRIDOR / "corridor.rou.xml",
            "-o", self.folder / "wave.jsonl", "--map", self.folder / "wave.json",
        )  # fmt: skip
        closed = "--close", "J1J2_0:100-200:60-600"
        arrived = {row["variant"]: row["arrived"] for row in self.table("runs.csv")}
        for name, run, mapped, more in (
            ("wave", "wave.jsonl", "wave.json", ()),
            ("closed", "run.jsonl", "map.json", closed),
        ):
            words = [
                self.folder / run, "--map", self.folder / mapped, "--until", 900, "--rescue", 0, "--seeds", 3,
                "--departures", "listed", *more,
            ]
            self.tool("run", *words, "--out", self.folder / f"run-{name}", "--program", PROGRAM)
            self.assertEqual(self.table("seeds.csv", f"run-{name}")[0]["arrived"], arrived[name])

    def test_bad_input(self):
        one = "[variant.given]\n"
        for study, told in (
            (
                self.text(more='color = "red"'),
                "unknown key 'color'; known are base, departures, lights, lost, map, merge, priority, rounds, run, "
                "seeds, seen, stops, until, variant",
            ),
            (
                self.text(more='base = "old"'),
                "base = 'old': there is no variant of this name; there are given, wave, closed",
            ),
            (self.text(more="base = []"), "base = []: there is no variant of this name; there are given, wave, closed"),
            (self.text(variants=one + 'speed = 3\n'), "variant 'given': unknown key 'speed'"),
            (self.text(variants=one + 'merge = "x"\n'), "variant 'given': merge = 'x' is neither 'turns' nor 'none'"),
            (self.text(variants=one + "stops = 1\n"), "variant 'given': stops = 1 is neither 'made' nor 'none'"),
            (self.text(variants=one + "works_limit = 4\n"), "variant 'given': works_limit = 4 is not 5 to 130 km/h"),
            (self.text(variants=one + "seen = 1.5\n"), "variant 'given': seen = 1.5 is not 1 to "),
            (self.text(variants=one + "dawdle = 1001\n"), "variant 'given': dawdle = 1001 is not 0 to 1,000"),
            (self.text(variants=one + "plans = []\n"), "plans = []: the network is the first of them"),
            (self.text(variants=one + 'plans = "x"\n'), "plans = 'x' is no list of texts"),
            (
                self.text(variants=one + 'close = ["J1J2_7:1-2:3-4"]\n'),
                "one.toml: variant 'given': --close 'J1J2_7:1-2:3-4': the map has no lane",
            ),
            (
                self.text(variants=one + 'close = ["J1J2_0:1-2:9000-9001"]\n'),
                "variant 'given': --close 'J1J2_0:1-2:9000-9001': begins at the end",
            ),
            (
                self.text(variants=one + '[variant.b]\nrun = "none.jsonl"\n'),
                f"variant 'b': {self.folder}/none.jsonl: No such file or directory",
            ),
            (self.text(variants="variant = 3\n"), "variants are tables [variant.NAME]"),
            (self.text(seeds="4-1"), "expected FIRST-LAST"),
            (self.text(until=0), "until = 0 is not 1 to"),
            ("run = \n", "not TOML"),
        ):
            with self.subTest(told):
                self.check_refused(told, *self.words(self.write("one.toml", study)))
        self.check_refused("absent.toml: No such file or directory", *self.words(self.folder / "absent.toml"))

    def check_refused(self, told, *words):
        _, said = self.tool("study", *words, status=2)
        self.assertEqual(len(said.splitlines()), 1, said)
        self.assertIn(told, said)
        self.assertFalse((self.folder / "out").exists())


class Ends(Studies):
    """Studies without a last second."""

    def test_each_run_goes_on_until_all_have_arrived_as_in_streetsim_run(self):
        study = self.write(
            "study.toml",
            self.text("1-2", variants="[variant.given]\n[variant.calm]\ndawdle = 0\n").replace("until = 900\n", ""),
        )
        told, _ = self.tool("study", *self.words(study, "--jobs", 2))
        words = [
            self.folder / "run.jsonl", "--map", self.folder / "map.json", "--rescue", 0, "--every", 0, "--seeds", "1-2",
            "--departures", "listed",
        ]
        said, _ = self.tool("run", *words, "--out", self.folder / "runs", "--program", PROGRAM)
        mine = [row for row in self.table("runs.csv") if row["variant"] == "given"]
        for one, other in zip(mine, self.table("seeds.csv", "runs"), strict=True):
            self.assertEqual((one["arrived"], one["mean_trip_s"]), ("2400", f"{float(other['mean_trip_s']):.3f}"))
            self.assertIn(f"ended at {int(one['end_s']):,} s: all have arrived", said)
            self.assertEqual(one["ended"], "all have arrived")
        self.assertRegex(told, r"runs ended at [34],[0-9]{3}( to [34],[0-9]{3})? s: all have arrived")
        self.assertEqual(self.not_trusted(), [])
        self.tool("study", *self.words(study, "--jobs", 1, out="again"))
        self.assertEqual((self.folder / "out/runs.csv").read_bytes(), (self.folder / "again/runs.csv").read_bytes())

    def not_trusted(self):
        return json.loads((self.folder / "out/setting.json").read_text(encoding="utf-8"))["not_trusted"]

    def test_who_had_the_time_to_arrive_dawdles_as_its_variant_does(self):
        """Two links of ten cells at up to five cells a step, and one step in the junction between."""
        enter = {"cmd": "enter", "plan": [0, 1], "lane": 0, "depart": 30}
        self.write("one.jsonl", f"{json.dumps({'cmd': 'load', **NUMBERED})}\n{json.dumps(enter)}\n")
        self.write("one.json", json.dumps({**MAP, "cars": ["v"]}))
        head = 'run = "one.jsonl"\nmap = "one.json"\nseeds = "1"\ndepartures = "listed"\n'
        text = head + "[variant.given]\n[variant.slow]\ndawdle = 1000\n"
        variants = read_study(self.write("study.toml", text), PROGRAM).variants
        self.assertEqual([one.due for one in variants.values()], [[[30 + 10 / 5 * 2 + 1]], [[30 + 10 / 4 * 2 + 1]]])

    def queued(self, more=""):
        """What a study says of 20 vehicles before a light that is red for ever: ten fill their
        street, ten wait to enter."""
        enters = [{"cmd": "enter", "plan": [0, 1], "lane": 0, "depart": 0} for _ in range(20)]
        lines = [{"cmd": "load", **NUMBERED}, RED, *enters]
        self.write("queue.jsonl", "".join(json.dumps(line) + "\n" for line in lines))
        self.write("queue.json", json.dumps({**MAP, "cars": [f"v{at}" for at in range(20)]}))
        text = f'run = "queue.jsonl"\nmap = "queue.json"\nseeds = "1-2"\ndepartures = "listed"\n{more}[variant.red]\n'
        return self.tool("study", *self.words(self.write("study.toml", text)))[0].splitlines()

    def test_nobody_moves(self):
        """The census stays from 60 s on, and the cells, looked at after a cycle of 600 s, for 601 s and more."""
        told = self.queued()
        self.assertEqual(
            told[1],
            "red: no vehicle has changed its cell for 660 s, longer than the longest cycle, 600 s: seed 1 at 1,380 s, "
            "seed 2 at 1,380 s",
        )
        self.assertIn("red: 2 of 2 runs ended before all had arrived; the others count until then", told[-1])

    def test_queues_at_entries(self):
        waited = "10 of 20 vehicles waited to enter at some 60 s, and are in no queue or count"
        missing = "20 of 20 vehicles that had the time to arrive have not"
        self.assertEqual(self.queued("until = 300\n")[-1], f"not to be trusted: red: {missing}; red: {waited}")
        self.assertEqual(self.not_trusted(), [f"red: {missing}", f"red: {waited}"])
        self.assertEqual([row["not_trusted"] for row in self.table("differences.csv")], [f"{missing}; {waited}"])
        self.assertEqual([row["waited_to_enter"] for row in self.table("runs.csv")], ["10", "10"])


@needs_distributed
class Cluster(ClusterCase, Studies):
    def files(self, out):
        return [(self.folder / out / name).read_bytes() for name in ("runs.csv", "differences.csv")]

    def test_cluster_and_pool_give_the_same(self):
        port, workers = self.cluster()
        study = self.study("1-20")
        for out, words in (
            ("one", ["--jobs", 1]),
            ("three", ["--jobs", 3]),
            ("both", ["--cluster", f"127.0.0.1:{port}"]),
        ):
            self.tool("study", *self.words(study, *words, out=out))
        self.assertEqual(self.files("three"), self.files("one"))
        self.assertEqual(self.files("both"), self.files("one"))
        self.assertEqual(self.found("--cluster", f"127.0.0.1:{port}"), self.found("--jobs", 1))
        words = [TOOLS / "streetsim-study", *self.words(study, "--cluster", f"127.0.0.1:{port}", out="killed")]
        self.kill_worker_during(workers, words)
        self.assertEqual(self.files("killed"), self.files("one"))

    def found(self, *words):
        """What a short search writes."""
        words = ["--budget", 12, "--seeds", "1-2", "--check", "101-102", "--until", 600, "--program", PROGRAM, *words]
        files = [self.folder / name for name in ("run.jsonl", "map.json", "found.add.xml", "found")]
        words = [
            files[0], "--map", files[1], "--plans", CORRIDOR / "corridor.net.xml.gz", *words, "-o", files[2],
            "--out", files[3],
        ]
        told, _ = self.tool("signals", *words)
        return told, files[2].read_bytes(), *(path.read_bytes() for path in sorted(files[3].iterdir()))

    def test_workers_with_another_program(self):
        port, _ = self.cluster()
        for name, change in (("lacking", "unlink"), ("other", "write")):
            program = self.folder / name
            shutil.copy(PROGRAM, program)
            study = self.study("1-2")
            # The program changes after the tool has looked at it: what the workers have is then another one.
            words = ["import sys; sys.path.insert(0, sys.argv[1])", "from streetsim.search import run_machines"]
            words += ["from streetsim.search.study_variants import read_study"]
            words += ["study = read_study(sys.argv[2], sys.argv[3])"]
            words += [
                "import os; os.unlink(sys.argv[3])" if change == "unlink" else "open(sys.argv[3], 'ab').write(b'x')"
            ]
            words += ["sessions = [one.sessions[0] for one in study.variants.values()]"]
            words += ["with run_machines.machines(1, sys.argv[4], sessions): pass"]
            done = subprocess.run(
                [DEBIAN, "-c", "\n".join(words), TOOLS, study, program, f"127.0.0.1:{port}"],
                capture_output=True,
                text=True,
                check=False,
            )
            self.assertIn(
                "has another program" if change == "write" else "has no program", done.stderr.splitlines()[-1]
            )


class Given(unittest.TestCase):
    def test_a_run_that_was_given_up_is_named(self):
        """dask raises KilledWorker where more workers of a task died than it allows."""
        future = Future()
        future.set_exception(type("KilledWorker", (Exception,), {})("outcome-1"))
        with self.assertRaisesRegex(Fault, "variant 'wave', seed 3 was given up, as more of its workers died than"):
            result_of(future, "variant 'wave', seed 3")

    def test_a_process_that_is_lost_is_a_fault(self):
        future = Future()
        future.set_exception(BrokenExecutor("a process was terminated"))
        with self.assertRaisesRegex(Fault, "the run with seed 3: a worker ended before its work was done"):
            result_of(future, "the run with seed 3")

    LOST = """
import os, time
from streetsim.search.run_machines import machines
def lost(_):
    time.sleep(0.5)
    os.kill(os.getpid(), 9)
with machines(1, None, [None]) as workers:
    list(workers.ordered([("the run with seed 1", lost, 0), ("the run with seed 2", print, 0, bytes(1_000_000))]))
"""

    def test_a_process_that_is_lost_while_a_task_is_written_for_it(self):
        """The second task is more than a pipe holds, and nobody reads it any more."""
        around = {**os.environ, "PYTHONPATH": str(TOOLS)}
        done = subprocess.run(
            [sys.executable, "-c", self.LOST], env=around, capture_output=True, text=True, check=False, timeout=120
        )
        self.assertEqual(done.returncode, 1)
        self.assertIn(
            "Fault: the run with seed 1: a worker ended before its work was done", done.stderr.splitlines()[-1]
        )


class NoCluster(Studies):
    def refused(self, port, **variables):
        begin = time.monotonic()
        with unittest.mock.patch.dict(os.environ, variables):
            _, said = self.tool("study", *self.words(self.study("1-2"), "--cluster", f"127.0.0.1:{port}"), status=2)
        self.assertEqual(len(said.splitlines()), 1, said)
        self.assertFalse((self.folder / "out").exists())
        return said, time.monotonic() - begin

    def test_no_address(self):
        _, said = self.tool("study", *self.words(self.study("1-2"), "--cluster", "nowhere"), status=2)
        self.assertEqual(said, "streetsim-study: --cluster nowhere: expected HOST:PORT\n")

    def test_without_the_package(self):
        """A module that cannot be loaded stands before the package, if there is one."""
        self.write("distributed.py", "raise ImportError('no module of this name')\n")
        self.assertIn("--cluster needs dask.distributed", self.refused(free_port(), PYTHONPATH=str(self.folder))[0])

    @needs_distributed
    def test_nobody_answers(self):
        """A port where nobody listens, and one where the system takes calls that nobody answers."""
        said, _ = self.refused(free_port())
        self.assertRegex(said, r"--cluster 127.0.0.1:\d+: no scheduler answered in 10 s")
        with socket.create_server(("127.0.0.1", 0)) as mute:
            said, _ = self.refused(mute.getsockname()[1])
        self.assertRegex(said, r"--cluster 127.0.0.1:\d+: no scheduler answered in 10 s")


if __name__ == "__main__":
    unittest.main()
