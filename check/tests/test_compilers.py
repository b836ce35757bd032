"""The program by LLVM and by the kit's own compiler: both give the same, and what differs is found."""
import json
import os
import subprocess
import sys
import tempfile
import unittest
from pathlib import Path

CHECK = Path(__file__).resolve().parents[1]
sys.path.insert(0, str(CHECK))

from compilers import (  # noqa: E402
    ENDING, NO_OTHER, RANDOM_SESSIONS, RUNS, difference, first_difference, given, kept_sessions, other_of,
    random_sessions,
)
from making import crowd  # noqa: E402
from sessions import PROGRAM  # noqa: E402

OTHER = other_of(PROGRAM)
# From so many vehicles in cells on threads share a step (docs/LINES.md).
SHARED_FROM = 1_500
FIRST = "--workers 1 --tape tape"
# What a wrong program does with the words and the standard input that the right one gets, and what is told of it.
WRONG = {
    "a reply": ('"{program}" "$@" | sed \'s/"waiting":1/"waiting":2/\'', f"{FIRST}: standard output: line "),
    "a status": ('"{program}" "$@"; exit 3', f"{FIRST}: status: "),
    "a fault": ('"{program}" "$@"; echo late >&2', f"{FIRST}: standard error: "),
    "a tape": ('"{program}" "$@"; if [ -e kept ]; then echo >>tape; fi', "the file tape: "),
    "a kept file": ('"{program}" "$@"; if [ $# = 7 ]; then echo >>kept; fi', "the file kept: "),
    "a record": ('"{program}" "$@"; if [ $# = 7 ]; then echo >>record; fi', "the file record: "),
    "another file": ('"{program}" "$@"; if [ -e kept ]; then echo >also; fi', "the file kept, or the file also"),
    "a file too many": ('"{program}" "$@"; if [ -e kept ]; then echo >z; fi', "nothing, or the file z"),
}
SESSION = [
    b'{"cmd":"load","nodes":[[1,1,1]],"links":[[10,1,1,1,5,1]],"turns":[],"zone":0,"dawdle":0,"change":0,"seed":0}',
    b'{"cmd":"enter","plan":[10],"lane":0,"depart":0}',
    b'{"cmd":"count"}',
    b'{"cmd":"advance","steps":2}',
]
needs_program = unittest.skipUnless(PROGRAM.exists(), f"no program at {PROGRAM}")


class Compilers(unittest.TestCase):
    @unittest.skipUnless(OTHER, NO_OTHER)
    def test_both_programs_give_the_same(self):
        kept = list(kept_sessions())
        self.assertGreater(len(kept), 1)
        sessions = [*kept, *random_sessions(RANDOM_SESSIONS)]
        count, told = first_difference(PROGRAM, OTHER, sessions)
        self.assertEqual((told, count), ("", len(sessions)))
        print(f"  {count} sessions by two compilers")


@needs_program
class Comparing(unittest.TestCase):
    def beside(self, text, folder):
        """The program by its name in a folder, and beside it another that is this script."""
        program = Path(folder) / PROGRAM.name
        program.symlink_to(PROGRAM.resolve())
        other = program.with_name(program.name + ENDING)
        other.write_text(f"#!/bin/sh\n{text.format(program=program)}\n")
        other.chmod(0o755)
        return program, other

    def test_a_program_is_as_itself(self):
        self.assertEqual(difference(PROGRAM, PROGRAM, SESSION), "")
        told = dict(given(PROGRAM, SESSION))
        self.assertEqual(len(told), 3 * len(RUNS) + len(("tape", "kept", "record", "record-of-kept")))
        self.assertGreater(len(told["the file record"]), 0)
        self.assertIn(b'"waiting":1', told[f"{FIRST}: standard output"])

    def test_what_differs_is_found(self):
        for name, (text, begin) in WRONG.items():
            with self.subTest(name), tempfile.TemporaryDirectory() as folder:
                program, other = self.beside(text, folder)
                told = difference(program, other, SESSION)
                self.assertTrue(told.startswith(begin), told)

    def test_the_first_session_that_differs_is_named(self):
        with tempfile.TemporaryDirectory() as folder:
            program, other = self.beside(WRONG["a reply"][0], folder)
            count, told = first_difference(program, other, [("odd", [b"x"]), ("one", SESSION), ("two", SESSION)])
        self.assertEqual(count, 2)
        self.assertTrue(told.startswith(f"one: {FIRST}: standard output: line 3 is "), told)

    def test_an_older_program_is_that_of_other_sources(self):
        with tempfile.TemporaryDirectory() as folder:
            program, other = self.beside("", folder)
            time = program.stat().st_mtime
            os.utime(other, (time + 1, time + 1))
            self.assertEqual(other_of(program), other)
            os.utime(other, (time - 1, time - 1))
            self.assertIsNone(other_of(program))
            other.unlink()
            self.assertIsNone(other_of(program))

    def test_threads_share_the_steps_of_a_crowd(self):
        text = b"\n".join(crowd()) + b"\n"
        done = subprocess.run([PROGRAM], input=text, stdout=subprocess.PIPE, timeout=60, check=True)
        replies = [json.loads(line) for line in done.stdout.splitlines()]
        cells = [reply["cells"] for reply in replies if "arrived" in reply]
        self.assertGreater(len(cells), 0)
        self.assertGreater(min(cells), SHARED_FROM)


if __name__ == "__main__":
    unittest.main()
