"""./test and ./build where the gate, or the tests, only seem to pass: with a made-up rt,
and beside a program that was built before."""
import shutil
import unittest

from test_first_minute import TOP, RepositoryCase

PASSED = "12 passed, 0 failed"
# The last two lines of a gate that tried edits too.
WELL = f"rt: ok; handles allowed: none; must-fail edits: 4 refused; every proof was done in this run\n{PASSED}"
GOOD = """import unittest
class Good(unittest.TestCase):
    def test_good(self):
        self.assertTrue(True)
"""
SKIPPED = """import unittest
class Skipped(unittest.TestCase):
    @unittest.skip({why!r})
    def test_skipped(self):
        pass
"""
# A test as the tools' tests are: it goes by what support.py says of the simulator.
SERVED = """from support import PROGRAM, Case, needs_simulator
from streetsim.client import Client
@needs_simulator
class Served(Case):
    def test_served(self):
        with Client(PROGRAM) as sim:
            self.assertEqual(sim.load([[1, 1, 1]], [], [])[:2], (1, 0))
"""
# A test that passes from a run on that is given, counted from 0.
SETTLES = """import unittest
from pathlib import Path
class Settles(unittest.TestCase):
    def test_settles(self):
        notes = Path({notes!r})
        before = len(notes.read_text()) if notes.exists() else 0
        notes.write_text("." * (before + 1))
        self.assertIn(before, {passes})
"""
# It answers no help, so it gets no options, and refuses each line.
REFUSING = """#!/bin/bash
[[ $* == *--help* ]] && exit
while read -r line; do echo '{"error":21,"name":"BadCommand"}'; done
"""


class GateCase(RepositoryCase):
    """A test in a small repository in which a program of other sources lies, as an earlier ./test left it."""

    def setUp(self):
        super().setUp()
        mine = ("test", "dev/engine_library.py", "dev/quick.py", "dev/modules.py")
        for name in (*mine, "tools/tests/packages.txt", "tools/tests/support.py"):
            (self.top / name).parent.mkdir(exist_ok=True)
            shutil.copy(TOP / name, self.top / name)
        hidden = shutil.ignore_patterns("__pycache__")
        shutil.copytree(TOP / "tools/streetsim", self.top / "tools/streetsim", dirs_exist_ok=True, ignore=hidden)
        (self.top / "check/tests").mkdir(parents=True)
        self.program = self.top / "crates/street_sim/out/street_sim"
        self.program.parent.mkdir()
        self.write_program("#!/bin/bash\necho older\n")
        self.write_test(GOOD)

    def write_program(self, text):
        self.program.write_text(text)
        self.program.chmod(0o755)

    def write_test(self, text):
        (self.top / "tools/tests/test_made_up.py").write_text(text)

    def is_marked(self):
        return (self.top / "out/streetsim.sums").exists()

    def fails(self, last, **variables):
        """./test fails; gives all that it printed before its own last line, and that."""
        output, _ = self.runs("test", status=1, LAST=last, KEEPS_PROGRAM="1", **variables)
        *lines, count = output.splitlines()
        return "\n".join(lines), count


class Tests(GateCase):
    def test_what_passes(self):
        output, _ = self.runs("test", LAST=PASSED)
        self.assertEqual(output.splitlines()[-1], "13 passed, 0 failed")
        self.assertTrue(self.is_marked())

    def test_a_listed_reason_is_a_reason_to_skip(self):
        self.write_test(
            GOOD + SKIPPED.format(why="Debian's chromium is not installed").removeprefix("import unittest\n")
        )
        output, _ = self.runs("test", LAST=PASSED)
        self.assertEqual(output.splitlines()[-1], "13 passed, 0 failed, 1 skipped")

    def test_a_program_that_the_kits_own_compiler_does_not_make_is_a_reason_to_skip(self):
        why = "no program of the kit's own compiler"
        self.assertIn(f'NO_OTHER = "{why}"', (TOP / "check/compilers.py").read_text(encoding="utf-8"))
        self.write_test(GOOD + SKIPPED.format(why=why).removeprefix("import unittest\n"))
        output, _ = self.runs("test", LAST=PASSED)
        self.assertEqual(output.splitlines()[-1], "13 passed, 0 failed, 1 skipped")

    def test_a_gate_without_a_count(self):
        for last in (
            "",
            "all is well",
            "12 passed",
            "12 passed, 0 failed (street_base and the crates below alone: not the gate)",
        ):
            with self.subTest(last=last):
                _, count = self.fails(last)
                self.assertEqual(count, "1 passed, 1 failed")
                self.assertFalse(self.is_marked())

    def test_a_gate_in_which_nothing_passed(self):
        _, count = self.fails("0 passed, 0 failed")
        self.assertEqual(count, "1 passed, 1 failed")
        self.assertFalse(self.is_marked())

    def test_a_gate_whose_status_is_a_failure(self):
        _, count = self.fails(PASSED, ENDS="1")
        self.assertEqual(count, "13 passed, 1 failed")
        self.assertFalse(self.is_marked())

    def test_tools_in_which_nothing_passed(self):
        for text in (SKIPPED.format(why="Debian's chromium is not installed"), ""):
            with self.subTest(text=text):
                self.write_test(text)
                output, count = self.fails(PASSED)
                self.assertIn("tools: 0 passed, 1 failed", output)
                self.assertTrue(count.startswith("12 passed, 1 failed"), count)

    def test_a_reason_that_is_not_listed(self):
        self.write_test(GOOD + SKIPPED.format(why="the simulator refuses load").removeprefix("import unittest\n"))
        output, count = self.fails(PASSED)
        self.assertIn("NOT TO BE SKIPPED: test_made_up.Skipped.test_skipped: the simulator refuses load", output)
        self.assertEqual(count, "13 passed, 1 failed, 1 skipped")

    def settles(self, *passes):
        """The text of a test that passes in these of its runs alone."""
        notes = self.folder / "settles"
        notes.unlink(missing_ok=True)
        return SETTLES.format(notes=str(notes), passes=passes)

    def test_a_test_that_fails_once_and_passes_twice_alone_is_told(self):
        self.write_test(self.settles(1, 2))
        output, _ = self.runs("test", LAST=PASSED)
        self.assertIn("AssertionError: 0 not found in (1, 2)", output)
        self.assertIn("UNSTEADY: test_made_up.Settles.test_settles failed once", output)
        self.assertEqual(output.splitlines()[-1], "13 passed, 0 failed")

    def test_a_test_that_fails_again_alone_has_failed(self):
        for passes in ((), (1,), (2,)):
            with self.subTest(passes):
                self.write_test(self.settles(*passes) + GOOD)
                output, count = self.fails(PASSED)
                self.assertNotIn("UNSTEADY", output)
                self.assertEqual(count, "13 passed, 1 failed")

    def test_many_tests_that_fail_have_failed(self):
        names = ("One", "Two", "Three", "Four")
        self.write_test("".join(self.settles(4, 5, 6, 7).replace("Settles", name) for name in names) + GOOD)
        _, count = self.fails(PASSED)
        self.assertEqual(count, "13 passed, 4 failed")

    def test_a_program_that_refuses_an_ordinary_command(self):
        self.write_program(REFUSING)
        self.write_test(SERVED + GOOD)
        output, count = self.fails(PASSED)
        self.assertIn("BadCommand", output)
        self.assertEqual(count, "13 passed, 1 failed")


class Builds(GateCase):
    def test_the_gate_has_to_pass_by_its_last_line(self):
        for last, ends in (
            ("", "0"), ("all is well", "0"), ("0 passed, 0 failed", "0"), ("2 passed, 1 failed", "0"), (PASSED, "1"),
        ):
            with self.subTest(last=last, ends=ends):
                output, _ = self.runs("build", status=1, LAST=last, ENDS=ends)
                self.assertIn("not proved", output)
                self.assertFalse(self.is_marked())
                self.assertEqual(self.program.read_text(), "#!/bin/bash\necho older\n")

    def test_a_gate_that_leaves_no_program(self):
        output, _ = self.runs("build", status=1, LAST=PASSED, KEEPS_PROGRAM="1")
        self.assertIn("not proved", output)
        self.assertFalse(self.is_marked())


if __name__ == "__main__":
    unittest.main()
