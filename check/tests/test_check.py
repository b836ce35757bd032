"""The definitions as a program: all worked rows, all stored sessions, and random sessions beside the built program."""
import concurrent.futures
import os
import re
import stat
import subprocess
import sys
import tempfile
import time
import unittest
from pathlib import Path

CHECK = Path(__file__).resolve().parents[1]
sys.path.insert(0, str(CHECK))

from definitions import TOP, Definitions, deep_calls  # noqa: E402
from making import Maker  # noqa: E402
from sessions import PROGRAM, Comparison, compare, shown  # noqa: E402
from stored import MOST_CELLS, cells_of, session_and_tape_of_page, session_fault, stored_sessions  # noqa: E402

PROCESSORS = len(os.sched_getaffinity(0))
RANDOM_SESSIONS = 300
needs_program = unittest.skipUnless(PROGRAM.exists(), f"no program at {PROGRAM}")


def fault_of_stored(session):
    return session_fault(Definitions(), *session)


def setUpModule():
    unittest.enterModuleContext(deep_calls())


class Timed(unittest.TestCase):
    """A test whose seconds are printed."""

    def setUp(self):
        start = time.monotonic()
        self.addCleanup(lambda: print(f"  {self.id().split('.', 1)[1]}: {time.monotonic() - start:.0f} s", flush=True))


class Rows(Timed):
    def test_each_worked_row_is_true(self):
        definitions = Definitions()
        faults, rows = [], list(definitions.rows())
        for path, name, statement in rows:
            fault = definitions.row_fault(path, statement)
            if fault:
                faults.append(f"{path} {name}: {fault}")
        self.assertEqual(faults, [])
        print(f"  {len(rows)} rows")

    def test_no_row_is_left_out(self):
        """Each statement of a file of worked rows, counted in its text, is one of the rows."""
        claimed = [
            (".".join(file.relative_to(TOP / "crates").with_suffix("").parts), name)
            for file in sorted(TOP.glob("crates/*/proofs/**/*.antt")) if file.read_text().startswith("-- Worked rows")
            for name in re.findall(r"^pub (?!mod )(\w+)", file.read_text(), re.MULTILINE)
        ]
        self.assertGreater(len(claimed), 0)
        self.assertEqual([(path, name) for path, name, _ in Definitions().rows()], claimed)


class Limits(Timed):
    def test_the_limit_of_calls_is_raised_for_the_definitions_alone(self):
        """Whoever reads nested text in the same process, as the tools' tests do, keeps the limit of before."""
        code = (
            "import sys; before = sys.getrecursionlimit(); import definitions, sessions, stored, tests.test_check; "
            "print(before, sys.getrecursionlimit())"
        )
        done = subprocess.run([sys.executable, "-Bc", code], cwd=CHECK, stdout=subprocess.PIPE, text=True, check=True)
        before, imported = done.stdout.split()
        self.assertEqual(imported, before)
        with deep_calls():
            self.assertGreaterEqual(sys.getrecursionlimit(), 100_000)


class Stored(Timed):
    def test_each_stored_session_is_served_so(self):
        sessions = stored_sessions()
        small = [session for session in sessions if cells_of(session[1]) <= MOST_CELLS]
        for name, lines, _ in sessions:
            if cells_of(lines) > MOST_CELLS:
                print(f"  not served by the definitions: {name}, of {cells_of(lines):,} cells")
        self.assertGreater(len(small), 0)
        small.sort(key=lambda session: len(session[1]), reverse=True)
        with concurrent.futures.ProcessPoolExecutor(PROCESSORS) as pool:
            self.assertEqual([fault for fault in pool.map(fault_of_stored, small) if fault], [])
        print(f"  {len(small)} stored sessions")

    def test_the_tape_of_the_page_is_the_one_defined(self):
        lines, tape = session_and_tape_of_page()
        definitions = Definitions()
        served = definitions.serve(lines)
        self.assertEqual(definitions.tape(served.calls), tape)
        self.assertEqual(definitions.calls_of_tape(tape.split(b"\n")[:-1]), served.calls)

    def test_lines_are_cut_as_defined(self):
        definitions = Definitions()
        for text in (b"", b"\n", b"a", b"a\n", b"\n\na", b"a\n\nb\r\n", b"\r", b"a\nb\nc"):
            self.assertEqual(
                definitions.lines(text),
                text.split(b"\n")[:-1] + ([text.split(b"\n")[-1]] if text.split(b"\n")[-1] else []),
            )


@needs_program
class Sessions(Timed):
    def test_random_sessions_are_served_alike(self):
        """And their records are those that are defined."""
        sessions, lines, fault = compare(PROGRAM, TOP, range(RANDOM_SESSIONS), records=True)
        self.assertIsNone(fault, fault)
        self.assertEqual(sessions, RANDOM_SESSIONS)
        print(f"  {sessions} sessions of {lines} lines")

    def test_a_wrong_reply_is_found_and_made_small(self):
        """A program whose detectors are wrong with 64 workers."""
        with tempfile.TemporaryDirectory() as folder:
            wrong = Path(folder) / "wrong"
            wrong.write_text(
                f'#!/bin/sh\nif [ "$2" = 64 ]; then "{PROGRAM}" "$@" | sed \'s/"rows":\\[\\]/"rows":[7]/\'; '
                f'else exec "{PROGRAM}" "$@"; fi\n'
            )
            wrong.chmod(wrong.stat().st_mode | stat.S_IXUSR)
            comparison = Comparison(wrong)
            found = next(found for seed in range(50) if (found := comparison.difference(Maker(seed).session())))
            small = comparison.smaller(found)
        # A load, a detector, and what it noted.
        self.assertEqual(len(small.lines), 3)
        self.assertIn("--workers 64", shown(small))
        self.assertIn('"rows":[7]', shown(small))


if __name__ == "__main__":
    unittest.main()
