"""Kept sessions with a record while a file or a pipe fails, by the definitions and by the built program."""
import stat
import sys
import tempfile
import unittest
from pathlib import Path

CHECK = Path(__file__).resolve().parents[1]
sys.path.insert(0, str(CHECK))

from definitions import TOP, deep_calls  # noqa: E402
from failing import FILE, OUTPUT, RECORD, compare  # noqa: E402
from sessions import PROGRAM  # noqa: E402

SEEDS = range(60)
needs_program = unittest.skipUnless(PROGRAM.exists(), f"no program at {PROGRAM}")


def setUpModule():
    unittest.enterModuleContext(deep_calls())


@needs_program
class Failing(unittest.TestCase):
    def fault_behind(self, command):
        """What contradicts where a command follows each run of the program."""
        with tempfile.TemporaryDirectory() as folder:
            wrong = Path(folder) / "wrong"
            wrong.write_text(f'#!/bin/sh\n"{PROGRAM}" "$@"\nstatus=$?\n{command}\nexit $status\n')
            wrong.chmod(wrong.stat().st_mode | stat.S_IXUSR)
            _, fault = compare(wrong, TOP, SEEDS)
        return fault or ""

    def test_nothing_contradicts(self):
        """Each of the three fails in some sessions."""
        ends, fault = compare(PROGRAM, TOP, SEEDS)
        self.assertIsNone(fault, fault)
        self.assertLessEqual({f"streetsim: cannot write {name}" for name in (FILE, RECORD, OUTPUT)}, set(ends))
        print(f"  {ends.total()} kept sessions with a record in which something failed")

    def test_a_step_more_than_was_asked_for_is_found(self):
        """An empty block in the record."""
        self.assertIn("bytes", self.fault_behind(f"test -f {RECORD} && head -c 16 /dev/zero >> {RECORD}"))

    def test_a_line_that_the_log_lost_is_found(self):
        self.assertIn("of no read", self.fault_behind(f"sed -i '$d' {FILE}"))


if __name__ == "__main__":
    unittest.main()
