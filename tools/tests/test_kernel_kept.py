"""A run whose session is kept in a file, and goes on there."""
import contextlib
import fcntl
import json
import os
import subprocess
import time

from support import DATA, PROGRAM, TOOLS, Case, needs_simulator
from streetsim.base.client import Client

RED = {"cmd": "signal", "offset": 0, "phases": [[600, []]], "at": 60}


@needs_simulator
class Kept(Case):
    """The samples' grid for ten minutes, with a junction that is red from 60 s on, so that vehicles are rescued, and
    with works before which they merge."""

    def setUp(self):
        super().setUp()
        self.run_file, self.mapped, self.file = (self.folder / name for name in ("run.jsonl", "map.json", "day.jsonl"))
        words = [DATA / "grid.net.xml.gz", "--routes", DATA / "grid.rou.xml.gz", "-o", self.run_file]
        self.tool("import", *words, "--map", self.mapped)
        mapping = json.loads(self.mapped.read_text())
        with open(self.run_file, "a", encoding="utf-8") as file:
            file.write(json.dumps({**RED, "node": mapping["signals"]["node"][14]}) + "\n")
        links = mapping["links"]
        edge = next(edge for edge, lanes in zip(links["edge"], links["lanes"], strict=True) if len(lanes) == 2)
        self.words = [self.run_file, "--map", self.mapped, "--program", PROGRAM, "--until", 600, "--rescue", 60]
        self.words += ["--close", f"{edge}_0:100-150:100-500"]

    def made(self, name, *more, status=0):
        """The tables of a run, by their names; what it said where it fails."""
        _, told = self.tool("run", *self.words, "--out", self.folder / name, *more, status=status)
        if status:
            return told
        return {path.name: path.read_bytes() for path in (self.folder / name).iterdir()}

    def test_a_run_goes_on_from_any_place_of_its_file(self):
        """Where a crash left so many lines, and of the next one a part; its tables are those of a run at one go, and
        the file then leads to the run's end."""
        whole, kept = self.made("whole"), self.made("kept", "--keep", self.file)
        self.assertEqual(whole, kept)
        self.assertGreater(json.loads(whole["setting.json"])["made"]["rescue"], 0)
        text = self.file.read_bytes()
        lines, commands = text.splitlines(keepends=True), text.count(b"\n")
        takeouts = [at for at, line in enumerate(lines) if b'"takeout"' in line]
        self.assertGreater(len(takeouts), 3)
        for count in (0, 1, 700, takeouts[2], takeouts[2] + 1, commands - 5, commands):
            self.file.write_bytes(b"".join(lines[:count]) + b"".join(lines[count : count + 1])[:9])
            with self.subTest(count=count):
                self.assertEqual(self.made("again", "--keep", self.file), whole)
                self.assertEqual(self.file.read_bytes(), text)
        with Client(PROGRAM, keep=self.file) as client:
            census = client.count()
        arrived = sum(line.endswith(b",arrived") for line in whole["trips.csv"].splitlines())
        self.assertEqual((census.clock, census.arrived, census.taken), (600, arrived, len(takeouts)))

    def test_tools_that_are_killed(self):
        """Twice, with a third and two thirds of the lines in the file; then the run is made to its end."""
        whole = self.made("whole", "--keep", self.file)
        size, words = self.file.stat().st_size, [*self.words, "--out", self.folder / "out", "--keep", self.file]
        self.file.unlink()
        for share in (1 / 3, 2 / 3):
            self.wait_until(self.is_free)
            tool = subprocess.Popen([TOOLS / "streetsim-run", *map(str, words)], stderr=subprocess.DEVNULL)
            self.wait_until(lambda: self.file.exists() and self.file.stat().st_size > share * size)
            tool.kill()
            tool.wait()
            self.assertFalse((self.folder / "out/setting.json").exists())
        self.wait_until(self.is_free)
        self.assertEqual(self.made("out", "--keep", self.file), whole)

    def wait_until(self, holds):
        until = time.monotonic() + 60
        while not holds():
            self.assertLess(time.monotonic(), until)
            time.sleep(0.002)

    def is_free(self):
        """Whether the program, whose input has ended, has ended too."""
        with contextlib.suppress(FileNotFoundError), open(self.file, "rb") as file:
            with contextlib.suppress(BlockingIOError):
                fcntl.flock(file, fcntl.LOCK_EX | fcntl.LOCK_NB)
                return True
            return False
        return True

    def test_files_that_are_refused(self):
        """They stay as they are."""
        other = json.dumps({**json.loads(self.run_file.read_text().splitlines()[0]), "seed": 7}) + "\n"
        cases = [(other, "line 1 is not of this run: it has another session"), ("[]", "not the file of a session")]
        cases.append(("{}\n", "streetsim: bad tape at line 1"))
        for text, said in cases:
            self.file.write_text(text, encoding="utf-8")
            told = self.made("out", "--keep", self.file, status=2)
            self.assertEqual((told.count("\n"), self.file.read_text(encoding="utf-8")), (1, text), told)
            self.assertIn(said, told)

    def test_a_file_that_another_program_has(self):
        with Client(PROGRAM, keep=self.file) as client:
            self.assertRaises(Exception, client.count)
            told = self.made("out", "--keep", self.file, status=2)
        self.assertIn(f"streetsim: {os.path.realpath(self.file)} is in use", told)

    def test_words_that_go_not_together(self):
        for words, said in (
            (["--keep", self.run_file], "--keep names a file that is read"),
            (["--keep", self.file, "--seeds", "1-2"], "--keep is of one run: leave --seeds out"),
        ):
            self.assertIn(said, self.made("out", *words, status=2))
        self.assertFalse(self.file.exists())
