"""Outputs: written whole or not at all, over regular files alone;
inputs and words that do not fit are told in a line."""
import json
import shutil
import os
import signal
import stat
import subprocess
import sys
import threading
import time
import unittest
from pathlib import Path

from support import FORK, MAP, NUMBERED, PROGRAM, TOOLS, Case, lane, needs_simulator, net
from streetsim.base.files import Fault, refuse_equal, refuse_foreign, whole_file, whole_folder, whole_path
from streetsim.base.jobs import side_by_side

STREET = net([("a", "A", "B", [lane("a", 0)])], [])


class Written(Case):
    def test_what_is_no_regular_file_is_refused_and_stays(self):
        pipe = self.folder / "pipe"
        os.mkfifo(pipe)
        for path in ("/dev/full", "/dev/null", str(pipe), str(self.folder)):
            refused = self.assertRaisesRegex(Fault, "exists and is no regular file")
            with self.subTest(path), refused, whole_file(path) as file:
                file.write("x")
        self.assertTrue(stat.S_ISCHR(os.stat("/dev/full").st_mode) and stat.S_ISFIFO(os.stat(pipe).st_mode))

    def test_a_link_is_followed(self):
        target, link = self.folder / "target", self.folder / "link"
        target.write_text("old")
        link.symlink_to(target)
        with whole_file(link) as file:
            file.write("new")
        self.assertTrue(link.is_symlink())
        self.assertEqual(target.read_text(), "new")

    def test_a_fault_leaves_the_file_as_it_was(self):
        path = self.folder / "x.txt"
        path.write_text("old")
        with self.assertRaises(ZeroDivisionError), whole_file(path) as file:
            file.write("new")
            1 / 0
        self.assertEqual((path.read_text(), [one.name for one in self.folder.iterdir()]), ("old", ["x.txt"]))

    def test_a_picture_keeps_its_ending_while_it_is_written(self):
        with whole_path(self.folder / "x.svg") as half:
            self.assertTrue(half.endswith(".svg"))
            with open(half, "w", encoding="utf-8") as file:
                file.write("x")
        self.assertEqual([one.name for one in self.folder.iterdir()], ["x.svg"])

    def test_two_outputs_of_one_name(self):
        one, link = self.folder / "one", self.folder / "link"
        link.symlink_to(one)
        with self.assertRaisesRegex(Fault, "-o and --map name the same file"):
            refuse_equal({"-o": one, "--map": link})
        with self.assertRaisesRegex(Fault, "-o names a file that is read"):
            refuse_equal({"-o": one}, [link])
        refuse_equal({"-o": one, "--map": self.folder / "other"}, [self.folder / "third"])


    def test_one_output_within_another_of_the_same_path(self):
        """Each is whole when it ends, so that what ends last stays; in threads of one process, too."""
        path, both = self.folder / "x.txt", threading.Barrier(2)

        def within():
            with whole_file(path) as outer:
                outer.write("outer")
                with whole_file(path) as inner:
                    inner.write("inner")
                found.append(path.read_text())
            found.append(path.read_text())

        def beside(text):
            with whole_file(path) as file:
                both.wait(20)
                file.write(text)
            found.append(path.read_text())

        for works, told in (([within], ["inner", "outer"]), ([lambda: beside("one"), lambda: beside("two")], None)):
            found = []
            threads = [threading.Thread(target=work, daemon=True) for work in works]
            for thread in threads:
                thread.start()
            for thread in threads:
                thread.join(30)
            if told:
                self.assertEqual(found, told)
            else:
                self.assertTrue(len(found) == 2 and {*found} <= {"one", "two"}, found)
        self.assertEqual([one.name for one in self.folder.iterdir()], ["x.txt"])


class SideBySide(unittest.TestCase):
    def test_one_at_least(self):
        """Whatever number is wanted, all is done, in order; what is told comes with the place of its item."""
        for jobs in (-1, 0, 1, 2, 9):
            with self.subTest(jobs):
                heard = []
                found = side_by_side(doubled, [5, 6, 7], jobs, lambda place, value: heard.append((place, value)))
                self.assertEqual((found, sorted(heard)), ([10, 12, 14], [(0, "5"), (1, "6"), (2, "7")]))

    def test_a_fault_ends_all(self):
        with self.assertRaisesRegex(Fault, "6 is even"):
            side_by_side(odd, [5, 6, 7], 1)


def doubled(item, tell):
    tell(str(item))
    return 2 * item


def odd(item, tell):
    if item % 2 == 0:
        raise Fault(f"{item} is even")


class Folders(Case):
    def fill(self, folder, text, fault=None):
        with whole_folder(folder, "last") as half:
            for name in ("one", "last"):
                with open(f"{half}/{name}", "w", encoding="utf-8") as file:
                    file.write(text)
            if fault:
                raise fault

    def content(self, folder):
        return {path.name: path.read_text() for path in folder.iterdir()}

    def test_all_or_nothing(self):
        folder = self.folder / "a/b"
        with self.assertRaises(ZeroDivisionError):
            self.fill(folder, "x", ZeroDivisionError())
        self.assertFalse(folder.exists())
        self.fill(folder, "old")
        (folder / "mine").write_text("kept")
        with self.assertRaises(SystemExit):
            self.fill(folder, "new", SystemExit(143))
        self.assertEqual(self.content(folder), {"one": "old", "last": "old", "mine": "kept"})
        self.fill(folder, "new")
        self.assertEqual(self.content(folder), {"one": "new", "last": "new", "mine": "kept"})

    def put(self, *names):
        for name in names:
            path = self.folder / "out" / name
            path.parent.mkdir(parents=True, exist_ok=True)
            path.write_text("x")

    def names(self):
        return sorted(str(path.relative_to(self.folder)) for path in self.folder.rglob("*") if not path.is_dir())

    def test_what_an_earlier_run_wrote_goes(self):
        """Its files and those of its seeds and of SUMO's outputs; and nothing else."""
        self.put("setting.json", "works.csv", "seed-7/trips.csv", "seed-1/sumo/tripinfo.xml", "sumo/fcd.xml")
        self.put("mine.csv", "sub/trips.csv", "sumo/mine.csv")
        with whole_folder(self.folder / "out", "setting.json") as half:
            for name in ("setting.json", "trips.csv"):
                Path(half, name).write_text("new")
        kept = ["mine.csv", "setting.json", "sub/trips.csv", "sumo/mine.csv", "trips.csv"]
        self.assertEqual(self.names(), [f"out/{name}" for name in kept])

    def test_a_folder_of_somebody_else(self):
        """It is written to where nothing is in it, or a run of the tools alone, or by --force."""
        for names, told in (
            ((), ""),
            (("setting.json", "trips.csv", "seed-3/setting.json", "sumo/tripinfo.xml"), ""),
            (("seed-1/setting.json", "seeds.csv"), ""),
            (("fit.csv", "hours.csv", "groups.csv"), ""),
            (("trips.csv",), "has no setting.json of a run of the tools"),
            (("setting.json", "notes.txt"), "has notes.txt, which no run of the tools wrote"),
            (("setting.json", "mine/trips.csv"), "has mine/trips.csv, which"),
            (("setting.json", "sumo/sub/x.xml"), "has sumo/sub/x.xml, which"),
            (("setting.json", "seed-1/run.py"), "has seed-1/run.py, which"),
        ):
            with self.subTest(names):
                shutil.rmtree(self.folder / "out", ignore_errors=True)
                self.put(*names)
                if not told:
                    refuse_foreign(self.folder / "out")
                    continue
                with self.assertRaisesRegex(Fault, f"out: {told}.*: give --out another folder, or --force"):
                    refuse_foreign(self.folder / "out")
                refuse_foreign(self.folder / "out", True)

    def test_links_are_not_followed(self):
        """Nothing outside the folder is written or removed, not even by --force."""
        elsewhere = self.folder / "elsewhere"
        elsewhere.mkdir()
        (elsewhere / "tripinfo.xml").write_text("mine")
        self.put("setting.json")
        (self.folder / "out/sumo").symlink_to(elsewhere)
        with self.assertRaisesRegex(Fault, "has sumo, which no run of the tools wrote"):
            refuse_foreign(self.folder / "out")
        with self.assertRaisesRegex(Fault, "out/sumo: is a link to elsewhere"):
            with whole_folder(self.folder / "out", "setting.json") as half:
                Path(half, "sumo").mkdir()
                Path(half, "sumo/tripinfo.xml").write_text("new")
        self.assertEqual((elsewhere / "tripinfo.xml").read_text(), "mine")
        (self.folder / "out/trips.csv").symlink_to(elsewhere / "tripinfo.xml")
        with whole_folder(self.folder / "out", "setting.json") as half:
            Path(half, "trips.csv").write_text("new")
        self.assertEqual((elsewhere / "tripinfo.xml").read_text(), "mine")
        self.assertEqual((self.folder / "out/trips.csv").read_text(), "new")

    def test_a_place_that_is_taken(self):
        folder = self.folder / "out"
        (folder / "one").mkdir(parents=True)
        with self.assertRaisesRegex(Fault, "exists and is no regular file"):
            self.fill(folder, "x")
        self.assertEqual([path.name for path in folder.iterdir()], ["one"])
        self.write("file", "x")
        with self.assertRaisesRegex(Fault, "file: File exists"):
            self.fill(self.folder / "file", "x")


class Ended(Case):
    """A run that waits for a simulator which never answers, and is then ended."""

    def begin(self, *more):
        """The tool, once it has begun to write."""
        program = self.write("fake", f"#!{sys.executable}\nimport sys\nif '--help' not in sys.argv: sys.stdin.read()\n")
        os.chmod(program, 0o755)
        run = self.write("run.jsonl", json.dumps({"cmd": "load", **NUMBERED}) + "\n")
        words = [run, "--map", self.write("map.json", json.dumps(MAP)), "--until", "60", "--program", program]
        running = subprocess.Popen(
            [TOOLS / "streetsim-run", *words, *more, "--out", self.out], stderr=subprocess.PIPE,
            # Tests that run in the background may have been told to ignore it.
            preexec_fn=lambda: signal.signal(signal.SIGINT, signal.SIG_DFL),
        )  # fmt: skip
        self.addCleanup(running.kill)
        while not (self.out.exists() and list(self.out.rglob("*half*"))):
            time.sleep(0.02)
        time.sleep(0.3)
        return running

    def setUp(self):
        super().setUp()
        self.out = self.folder / "out"

    def test_a_signal_leaves_nothing_and_is_told_in_one_line(self):
        for number, name in ((signal.SIGTERM, b"SIGTERM"), (signal.SIGINT, b"Ctrl-C")):
            for more in ([], ["--seeds", "1-3"]):
                with self.subTest(name=name, more=more):
                    running = self.begin(*more)
                    running.send_signal(number)
                    told = b"streetsim-run: ended by " + name + b": nothing was written\n"
                    self.assertEqual(running.communicate(timeout=20), (None, told))
                    self.assertEqual(running.returncode, 128 + number)
                    self.assertFalse(self.out.exists())

    def test_a_kept_session_is_told(self):
        running = self.begin("--keep", self.folder / "day")
        running.send_signal(signal.SIGTERM)
        _, said = running.communicate(timeout=20)
        told = f"streetsim-run: ended by SIGTERM: kept: {self.folder}/day, the session: the same command goes on "
        self.assertEqual(said.decode(), f"{told}there\n")

    def test_what_sigkill_left_goes_with_the_next_output(self):
        """What a tool still writes stays."""
        running = self.begin()
        [half] = self.out.iterdir()
        for killed in (False, True):
            if killed:
                running.send_signal(signal.SIGKILL)
                running.communicate(timeout=20)
            self.assertTrue(half.exists())
            with whole_folder(self.out, "last") as folder:
                Path(folder, "last").write_text("x")
            self.assertEqual(half.exists(), not killed)
        self.assertEqual([path.name for path in self.out.iterdir()], ["last"])

    def test_files_that_sigkill_left(self):
        made = f"import os, sys; sys.path.insert(0, {str(TOOLS)!r}); from streetsim.files import whole_path"
        ended = (
            f"with whole_path({str(self.folder / 'x.add.xml')!r}) as half:\n open(half, 'w').write('x')\n"
            " os.kill(os.getpid(), 9)"
        )
        subprocess.run([sys.executable, "-c", f"{made}\n{ended}"], check=False)
        self.assertEqual(len(list(self.folder.glob(".x.*.half.add.xml"))), 1)
        with whole_file(self.folder / "x.add.xml") as first, whole_file(self.folder / "x.xml") as second:
            first.write("one")
            second.write("two")
        self.assertEqual(sorted(path.name for path in self.folder.iterdir()), ["x.add.xml", "x.xml"])


@needs_simulator
class Kept(Case):
    def test_a_run_that_fails_leaves_the_folder_of_an_earlier_one(self):
        load, enter = {"cmd": "load", **NUMBERED}, {"cmd": "enter", "plan": [0], "lane": 0, "depart": 0}
        late = {"cmd": "close", "link": 0, "lane": 0, "first": 5, "last": 99, "at": 120}
        mapped = self.write("map.json", json.dumps({**MAP, "cars": ["v"]}))
        words = ["--map", mapped, "--until", 300, "--program", PROGRAM, "--out", self.folder / "out"]
        good = self.write("good.jsonl", "".join(json.dumps(line) + "\n" for line in (load, enter)))
        self.tool("run", good, *words)
        before = {path.name: path.read_bytes() for path in (self.folder / "out").iterdir()}
        self.assertIn("trips.csv", before)
        bad = self.write("bad.jsonl", "".join(json.dumps(line) + "\n" for line in (load, enter, late)))
        self.assertIn("line 3 (close) was refused: 7 BadRange", self.tool("run", bad, *words, status=2)[1])
        self.assertEqual({path.name: path.read_bytes() for path in (self.folder / "out").iterdir()}, before)

    def test_no_table_of_an_earlier_run_stays(self):
        load, enter = {"cmd": "load", **NUMBERED}, {"cmd": "enter", "plan": [0], "lane": 0, "depart": 0}
        run = self.write("run.jsonl", "".join(json.dumps(line) + "\n" for line in (load, enter)))
        mapped = self.write("map.json", json.dumps({**MAP, "cars": ["v"]}))
        words = [run, "--map", mapped, "--until", 300, "--program", PROGRAM, "--out", self.folder / "out"]
        at_wish = [self.folder / "out" / name for name in ("junctions.csv", "movements.csv", "sumo/tripinfo.xml")]
        self.tool("run", *words, "--junctions", "--sumo-output", "tripinfo")
        self.assertTrue(all(path.exists() for path in at_wish))
        self.tool("run", *words)
        self.assertFalse(any(path.exists() for path in at_wish))


class Words(Case):
    """What does not fit: one line, status 2, nothing written."""

    def refused(self, *words):
        outputs = ["-o", self.folder / "run.jsonl", "--map", self.folder / "map.json"]
        told = self.tool("import", *words, *([] if "--map" in words else outputs), status=2)[1]
        self.assertEqual(len(told.splitlines()), 1, told)
        self.assertFalse(list(self.folder.glob("*.json*")))
        return told

    def test_import(self):
        network = self.write("x.net.xml", STREET)
        routes = '<routes><vehicle id="v" depart="0"><route edges="a"/></vehicle></routes>'
        self.assertIn(
            "SUMO has no vehicle class 'foo'; it has private", self.refused(network, "--classes", "passenger,foo")
        )
        told = self.refused(network, self.write("x.rou.xml", routes), "--trips", self.write("y.rou.xml", "<routes/>"))
        self.assertIn("x.rou.xml: <vehicle 'v'> in an additional file: give files of routes after --routes", told)
        same = self.folder / "same.json"
        self.assertIn("-o and --map name the same file", self.refused(network, "-o", same, "--map", same))
        self.assertIn("exists and is no regular file", self.refused(network, "-o", "/dev/full", "--map", same))
        self.assertIn("-o names a file that is read", self.refused(network, "-o", network, "--map", same))
        self.assertEqual((self.folder / "x.net.xml").read_text(), STREET)

    def test_a_link_to_a_device(self):
        link = self.folder / "run.json"
        link.symlink_to("/dev/full")
        told = self.tool(
            "import", self.write("x.net.xml", FORK), "-o", link, "--map", self.folder / "map.json", status=2
        )[1]
        self.assertIn("run.json: exists and is no regular file", told)
        self.assertFalse((self.folder / "map.json").exists())


if __name__ == "__main__":
    unittest.main()
