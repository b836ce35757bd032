"""No file is read and written, or written by two words, whatever it is called: what docs/LINES.md says of it."""
import os
import random
import subprocess
import threading
import unittest
from itertools import product

from support import PROGRAM
from test_program import COUNTER, ONE_VEHICLE, PLANNER, ProgramCase, tape_in_lines

KEPT_IS_RECORD = (
    "streetsim: bad arguments\nthe arguments '--keep <FILE>' and '--record <FILE>' name one file\n"
)
TAPE_IS_SCRIPT = "streetsim: bad arguments\nthe argument '--tape <FILE>' and a script name one file\n"
OUTPUT = "streetsim: cannot write standard output\n"
# Names of one file. As the shell opens it, 7 leads there.
NAMES = ("a.jsonl", "./a.jsonl", "soft", "hard", "/dev/fd/7")
# What a word or a redirection looks like in the shell, and whether it reads the file, writes it, or both.
PLACES = {
    "record": ("--record", "w"),
    "tape": ("--tape", "w"),
    "keep": ("--keep", "rw"),
    "script": ("", "r"),
    "replay": ("--replay", "r"),
    "upgrade": ("--upgrade", "r"),
    "input": ("<", "r"),
    "output": (">>", "w"),
    "both": ("1<>", "w"),
    "error": ("2>>", "w"),
}
# Which words may stand beside a word.
BESIDE = {
    "record": ("keep", "input", "output", "both", "error"),
    "tape": ("script", "input", "output", "both", "error"),
    "keep": ("input", "output", "both", "error"),
    "script": ("script", "input", "output", "both", "error"),
    "replay": ("output", "both", "error"),
    "upgrade": ("output", "both", "error"),
    "input": ("output", "both", "error"),
}


class FileCase(ProgramCase):
    """A test with a file of many names, which is a session."""

    def setUp(self):
        super().setUp()
        self.file = self.folder / "a.jsonl"
        self.begin(PLANNER.read_text())

    def begin(self, text):
        """The file and its names as they are at first, and nothing else."""
        for path in self.folder.iterdir():
            path.unlink()
        self.file.write_text(text)
        (self.folder / "soft").symlink_to("a.jsonl")
        os.link(self.file, self.folder / "hard")
        self.write("other.jsonl", PLANNER.read_text())

    def shell(self, words, text=""):
        """The status of a run by the shell, in which no file grows beyond a MiB, and what it writes."""
        done = subprocess.run(
            ["bash", "-c", f'ulimit -f 1024; exec 7<>a.jsonl; "$0" {words}', PROGRAM], input=text, capture_output=True,
            text=True, timeout=20, cwd=self.folder, check=False,
        )
        return done.returncode, done.stdout, done.stderr

    def stays(self, words, end, text=""):
        """A run by these words ends so, and the file is as it was."""
        before = self.file.read_bytes()
        with self.subTest(words=words):
            self.assertEqual(self.shell(words, text), end)
            self.assertEqual(self.file.read_bytes(), before)


class Written(FileCase):
    """An output that is an input."""

    def test_a_record_is_standard_input(self):
        for name in (*NAMES, "/dev/stdin", "/dev/fd/0"):
            for more in ("", "--endless", "--workers 3", "--keep k.jsonl"):
                self.stays(f"--record {name} {more} < a.jsonl", (1, "", f"streetsim: cannot write {name}\n"))

    def test_a_tape_is_standard_input(self):
        """It is told before the first line is served."""
        for name in (*NAMES, "/dev/stdin", "/dev/fd/0"):
            self.stays(f"--tape {name} < a.jsonl", (1, "", f"streetsim: cannot write {name}\n"))
        self.stays("--tape a.jsonl other.jsonl < a.jsonl", (1, "", "streetsim: cannot write a.jsonl\n"))

    def test_a_tape_is_a_script(self):
        for name in NAMES:
            self.stays(f"--tape {name} a.jsonl", (2, "", TAPE_IS_SCRIPT))
            self.stays(f"--tape a.jsonl other.jsonl {name}", (2, "", TAPE_IS_SCRIPT))
        self.stays("--tape new new", (2, "", TAPE_IS_SCRIPT))
        self.assertFalse((self.folder / "new").exists())

    def test_a_tape_that_becomes_a_script(self):
        """The program looks once more before the tape is made."""
        os.mkfifo(self.folder / "fifo")
        words = [PROGRAM, "--tape", "t", "a.jsonl", "fifo"]
        with subprocess.Popen(words, stdout=-1, stderr=-1, text=True, cwd=self.folder) as process:
            self.addCleanup(process.kill)
            with open(self.folder / "fifo", "w", encoding="utf-8"):
                os.link(self.file, self.folder / "t")
            told = process.communicate(timeout=60)
        self.assertEqual((process.returncode, *told), (1, ONE_VEHICLE, "streetsim: cannot write t\n"))
        self.assertEqual(self.file.read_text(), PLANNER.read_text())

    def test_standard_output_and_error(self):
        """What is told on standard error then stands in the file, which is no input."""
        for word, stream in product(("--record", "--tape"), (">", ">>", "1<>")):
            for name in NAMES:
                self.begin("old")
                end = (1, "", f"streetsim: cannot write {name}\n")
                self.assertEqual(self.shell(f"{word} {name} < other.jsonl {stream} a.jsonl"), end)
                self.assertEqual(self.file.read_text(), "" if stream == ">" else "old")
        for word in ("--record", "--tape"):
            self.assertEqual(self.shell(f"{word} err < other.jsonl 2> err"), (1, "", ""))
            self.assertEqual((self.folder / "err").read_text(), "streetsim: cannot write err\n")

    def test_standard_output_is_what_is_read(self):
        """By itself a run would grow its own input without end."""
        for stream, name in product((">>", "1<>"), NAMES):
            self.stays(f"< {name} {stream} a.jsonl", (1, "", OUTPUT))
            self.stays(f"{name} {stream} a.jsonl", (1, "", OUTPUT))
            self.stays(f"--endless < a.jsonl {stream} {name}", (1, "", OUTPUT))
            self.stays(f"--keep k.jsonl < a.jsonl {stream} {name}", (1, "", OUTPUT))
        self.begin(tape_in_lines())
        for stream, name in product((">>", "1<>"), NAMES):
            self.stays(f"--replay {name} {stream} a.jsonl", (1, "", OUTPUT))
            self.stays(f"--upgrade {name} {stream} a.jsonl", (1, "", OUTPUT))

    def test_standard_error_is_what_is_read(self):
        """The status alone tells it, as a text would go into the file."""
        for words in ("< a.jsonl 2>> soft", "a.jsonl none.jsonl 2>> hard", "--keep k --record k < a.jsonl 2>> a.jsonl"):
            self.stays(words, (1, "", ""))

    def test_files_beside_a_kept_one(self):
        """Those that a session takes away, or saves what is cut off in."""
        text = self.file.read_text()
        for name in ("k.new", "k.lost"):
            os.link(self.file, self.folder / name)
            self.stays(f"--keep k < {name}", (1, "", "streetsim: cannot write k\n"))
            self.stays(f"--keep k --record r < {name}", (1, "", "streetsim: cannot write k\n"))
            self.stays(f"--keep k --record {name}", (2, "", KEPT_IS_RECORD), text)
            (self.folder / name).unlink()
        self.write("k", "{")
        status, told, error = self.shell("--keep k --record k.lost", text)
        self.assertEqual((status, told), (1, ""))
        self.assertTrue(error.endswith("streetsim: cannot write k.lost\n"))
        self.assertEqual((self.folder / "k.lost").read_text(), "{")


class Pairs(FileCase):
    """Two words, or a word and a redirection, that name one file, or two."""

    def words(self, first, second, names):
        """The words and redirections of two places with these names, and standard input where they have none."""
        said = [f"{PLACES[place][0]} {name}" for place, name in zip((first, second), names)]
        if "script" not in (first, second) and not {first, second} & {"replay", "upgrade", "input"}:
            said.append("< other.jsonl")
        return " ".join(said)

    def wanted(self, first, second):
        """The status of a run in which both places are one file, and whether it is told."""
        uses = {PLACES[first][1], PLACES[second][1]}
        if uses == {"r"}:
            return 0, False
        if second in ("keep", "script"):
            return 2, True
        return 1, second != "error"

    def test_500_pairs_that_name_one_file(self):
        draw = random.Random(97)
        pairs = [(first, second) for first, others in BESIDE.items() for second in others]
        for _ in range(500):
            first, second = draw.choice(pairs)
            names = draw.choice(NAMES), draw.choice(NAMES)
            self.begin(tape_in_lines() if first in ("replay", "upgrade") else PLANNER.read_text())
            words = self.words(first, second, names)
            before, other = self.file.read_bytes(), (self.folder / "other.jsonl").read_bytes()
            with self.subTest(words=words):
                status, told, error = self.shell(words)
                wanted, is_told = self.wanted(first, second)
                self.assertEqual((status, bool(told), bool(error)), (wanted, wanted == 0, is_told))
                is_output = second == "error" and first in ("record", "tape")
                after = before + f"streetsim: cannot write {names[0]}\n".encode() if is_output else before
                self.assertEqual(self.file.read_bytes(), after)
                self.assertEqual((self.folder / "other.jsonl").read_bytes(), other)

    def test_pairs_that_name_two_files(self):
        """They are served as ever: what is read stays, and a session is kept in no device."""
        for first, others in BESIDE.items():
            for second, name in product(others, ("other.jsonl", "/dev/null")):
                self.begin(tape_in_lines() if first in ("replay", "upgrade") else PLANNER.read_text())
                text, words = self.file.read_bytes(), self.words(first, second, ("soft", name))
                words = words.replace("< other.jsonl", f"< {PLANNER}")
                with self.subTest(words=words):
                    self.assertEqual(self.shell(words)[0], int((second, name) == ("keep", "/dev/null")))
                    if first not in ("record", "tape"):
                        self.assertEqual(self.file.read_bytes()[: len(text)], text)


class AsBefore(FileCase):
    """What is no file, and what the shell has emptied."""

    def test_devices_and_pipes(self):
        text = PLANNER.read_text()
        for words in ("--tape /dev/null", "--record /dev/null", "--record /dev/null --endless", "2> /dev/null", "2>&1"):
            self.assertEqual(self.shell(words, text), (0, ONE_VEHICLE, ""), words)
        self.assertEqual(self.shell("--tape /dev/null /dev/null < /dev/null"), (0, "", ""))
        self.assertEqual(self.shell("--record /dev/null < /dev/null > /dev/null 2> /dev/null"), (0, "", ""))
        status, told, error = self.shell("--tape /dev/stdout", text)
        self.assertEqual((status, told, error), (0, ONE_VEHICLE + tape_in_lines(), ""))
        self.assertEqual(self.shell("--tape /dev/stderr", text), (0, ONE_VEHICLE, tape_in_lines()))
        self.assertEqual(self.shell("/dev/stdin", text), (0, ONE_VEHICLE, ""))

    def test_a_fifo_of_a_record_and_of_a_script(self):
        for words in ("--record fifo < a.jsonl", "--tape fifo a.jsonl"):
            os.mkfifo(self.folder / "fifo")
            taken = []
            reader = threading.Thread(target=lambda found=taken: found.append((self.folder / "fifo").read_bytes()))
            reader.start()
            self.assertEqual(self.shell(words), (0, ONE_VEHICLE, ""))
            reader.join(60)
            found = taken[0].decode() if "tape" in words else len(taken[0]) % 16
            self.assertEqual(found, tape_in_lines() if "tape" in words else 0)
            (self.folder / "fifo").unlink()

    def test_scripts_may_be_one_file(self):
        self.assertEqual(self.shell("other.jsonl other.jsonl")[0], 0)
        self.assertEqual(self.shell(f"{COUNTER} {COUNTER} < a.jsonl")[0], 0)

    def test_output_and_error_may_be_one_file(self):
        self.assertEqual(self.shell("a.jsonl none.jsonl > out 2>&1"), (1, "", ""))
        self.assertEqual((self.folder / "out").read_text(), ONE_VEHICLE + "streetsim: cannot read none.jsonl\n")
        self.assertEqual(self.shell("a.jsonl >> out 2>> out"), (0, "", ""))

    def test_a_file_that_the_shell_has_emptied(self):
        self.assertEqual(self.shell("< a.jsonl > a.jsonl"), (0, "", ""))
        self.assertEqual(self.file.read_text(), "")


if __name__ == "__main__":
    unittest.main()
