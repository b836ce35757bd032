"""Kept sessions by the definitions and by the built program: served, cut off at a random byte, and gone on."""
import stat
import sys
import tempfile
import unittest
from pathlib import Path

CHECK = Path(__file__).resolve().parents[1]
sys.path.insert(0, str(CHECK))

from definitions import TOP, Definitions, deep_calls  # noqa: E402
from kept import compare, defined, session_of, torn_file  # noqa: E402
from sessions import PROGRAM  # noqa: E402

SEEDS = range(250)
needs_program = unittest.skipUnless(PROGRAM.exists(), f"no program at {PROGRAM}")


def setUpModule():
    unittest.enterModuleContext(deep_calls())


@needs_program
class Kept(unittest.TestCase):
    def test_random_sessions_are_left_as_defined(self):
        sessions, fault = compare(PROGRAM, TOP, SEEDS)
        self.assertIsNone(fault, fault)
        self.assertGreater(sessions, 100)
        print(f"  {sessions} kept sessions")

    def test_a_file_that_misses_a_byte_is_found(self):
        with tempfile.TemporaryDirectory() as folder:
            wrong = Path(folder) / "wrong"
            wrong.write_text(f'#!/bin/sh\n"{PROGRAM}" "$@"\nstatus=$?\ntruncate -s -1 FILE\nexit $status\n')
            wrong.chmod(wrong.stat().st_mode | stat.S_IXUSR)
            _, fault = compare(wrong, TOP, SEEDS)
        self.assertIn("and not", fault or "")


def kind_of(definitions: Definitions, had: bytes) -> str:
    """What is wrong with a file that a session goes on from."""
    if 0 in had:
        return "has a NUL"
    told = defined(definitions, had, b"").told
    return "has a bad line" if b"bad tape" in told else "is torn" if b"behind" in told else "is whole"


class Files(unittest.TestCase):
    def test_files_of_each_kind_come(self):
        definitions, kinds = Definitions(), set()
        for seed in SEEDS:
            if len(kinds) < 4 and (session := session_of(seed)):
                kinds.add(kind_of(definitions, torn_file(seed, defined(definitions, b"", session[0]).file)))
        self.assertEqual(kinds, {"is whole", "is torn", "has a NUL", "has a bad line"})


if __name__ == "__main__":
    unittest.main()
