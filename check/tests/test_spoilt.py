"""One definition changed in each file that is evaluated: a row, a session or a tape tells the difference."""
import concurrent.futures
import functools
import os
import re
import subprocess
import sys
import tempfile
import unittest
from pathlib import Path

CHECK = Path(__file__).resolve().parents[1]
sys.path.insert(0, str(CHECK))

from definitions import TOP, Definitions, deep_calls  # noqa: E402
from kept import served  # noqa: E402
from sessions import PROGRAM  # noqa: E402
from specs import PAGE, defined, kinds, page, spec_files  # noqa: E402
from spoilt import DIFFERS, SPOILT, WORKED_KEPT, WORKED_SESSIONS, WORKED_TAPES, fault_of, faults, spoil  # noqa: E402

PROCESSORS = len(os.sched_getaffinity(0))
needs_program = unittest.skipUnless(PROGRAM.exists(), f"no program at {PROGRAM}")


def fault_of_spoilt(file, word, other):
    with tempfile.TemporaryDirectory() as folder, deep_calls():
        spoil(Path(folder), file, word, other)
        return fault_of(Path(folder))


@functools.cache
def found():
    """The files that are evaluated, and the others."""
    return kinds(Definitions())


def setUpModule():
    unittest.enterModuleContext(deep_calls())


class Spoilt(unittest.TestCase):
    def test_nothing_is_wrong_with_what_is_not_spoilt(self):
        self.assertEqual(list(faults(Definitions())), [])

    def test_each_changed_definition_is_noticed(self):
        with concurrent.futures.ProcessPoolExecutor(PROCESSORS) as pool:
            told = list(pool.map(fault_of_spoilt, *zip(*SPOILT)))
        for (file, word, _), fault in zip(SPOILT, told):
            with self.subTest(file=file, word=word):
                self.assertTrue(fault and DIFFERS.match(fault), fault)

    def test_one_is_changed_in_each_file_that_is_evaluated(self):
        self.assertEqual(sorted({file for file, _, _ in SPOILT}), found()[0])

    def test_what_is_no_definition_any_more_tells_no_difference(self):
        for fault in (
            "row street_base.proofs.rows.Signal green_at_once: cannot be evaluated: KeyError 'x'",
            "session LINES.md, 2. What a line is: Refused street_base/specs/Step.antt line 53: nat_le is not imported",
        ):
            self.assertIsNone(DIFFERS.match(fault))


class Listed(unittest.TestCase):
    def test_the_page_is_that_of_the_files(self):
        self.assertEqual(PAGE.read_text(), page(*found()), "check/specs.py --write makes it anew")

    def test_each_file_that_defines_something_is_on_the_page(self):
        names = re.findall(r"^- `(\w+)`: ((?:.|\n  )*)$", PAGE.read_text(), re.MULTILINE)
        shown = [f"{crate}/specs/{file}.antt" for crate, files in names for file in re.findall(r"[A-Z]\w*", files)]
        self.assertEqual(sorted(shown), [file for file in spec_files() if defined(TOP, file)])


@needs_program
class Worked(unittest.TestCase):
    """What was worked out by hand is what the program gives, too."""

    def test_the_program_serves_the_worked_sessions_so(self):
        for name, lines, most, replies in WORKED_SESSIONS:
            with self.subTest(name):
                text = b"".join(line + b"\n" for line in lines)
                words = [PROGRAM, "--calls", str(most)]
                done = subprocess.run(words, input=text, stdout=subprocess.PIPE, check=True)
                self.assertEqual(done.stdout.splitlines(), replies)

    def test_the_program_leaves_the_worked_kept_sessions_so(self):
        for had, text, left in WORKED_KEPT:
            with self.subTest(had=had, text=text):
                self.assertEqual(served(PROGRAM, 1, had, text), left)

    def test_the_program_replays_the_worked_tapes_so(self):
        for lines, wanted in WORKED_TAPES:
            with self.subTest(lines=lines), tempfile.TemporaryDirectory() as folder:
                tape = Path(folder) / "tape"
                tape.write_bytes(b"".join(line + b"\n" for line in lines))
                done = subprocess.run([PROGRAM, "--replay", tape], capture_output=True, check=False)
                ended = [b"status %d: %s" % (done.returncode, done.stderr.strip())] if done.returncode else []
                self.assertEqual(done.stdout.splitlines() + ended, wanted)


if __name__ == "__main__":
    unittest.main()
