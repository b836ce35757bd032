"""The fast checks (./test --quick): which parts a change has, and that each fault is told."""
import subprocess
import unittest

from test_gate import GateCase

# A kit that notes the crate and the word, lays out nothing and proves all but the crate in BREAKS.
RT = """#!/bin/bash
echo "${PWD##*/} $1" >>"$NOTES"
[[ $1 != fmt || -z ${ROUGH:-} ]] || echo "rt: formatted src/lib.rt"
[[ $1 != check || ${PWD##*/} != "${BREAKS:-}" ]] || { echo "error: open goal"; exit 1; }
"""
FAILING = """import unittest
class Failing(unittest.TestCase):
    def test_failing(self):
        self.assertEqual(1, 2)
"""
MYPY = "#!/bin/bash\nexit ${HINTS:-0}\n"


class Quick(GateCase):
    def setUp(self):
        super().setUp()
        for name, text in (("rt", RT), ("mypy", MYPY)):
            (self.folder / "bin" / name).write_text(text)
            (self.folder / "bin" / name).chmod(0o755)
        self.git("init", "-q", "-b", "main")
        self.git("add", "-A")
        self.git("-c", "user.name=a", "-c", "user.email=a@b", "commit", "-q", "-m", "begin")

    def git(self, *words):
        subprocess.run(["git", *words], cwd=self.top, check=True, capture_output=True)

    def change(self, crate):
        (self.top / "crates" / crate / "src/lib.rt").write_text("//! changed\n")

    def quick(self, *words, status=0, **variables):
        """The lines that it prints but for their seconds, and what rt was called with."""
        output, _ = self.runs("test", "--quick", *words, status=status, **variables)
        return [line.partition(" in ")[0] for line in output.splitlines()], sorted(self.notes())

    def test_no_crate_is_proved_where_none_changed(self):
        lines, notes = self.quick()
        self.assertEqual(lines[-1], "2 passed, 0 failed")
        self.assertEqual(sorted(lines[:-1]), ["hints: passed", "test_made_up: passed"])
        self.assertEqual(notes, [])

    def test_what_changed_is_laid_out_and_proved_lowest_first(self):
        for crate in ("street_sim", "street_line"):
            self.change(crate)
        lines, notes = self.quick()
        self.assertIn("proofs of street_line street_sim: passed", lines)
        self.assertEqual(lines[-1], "4 passed, 0 failed")
        self.assertEqual(notes, ["street_line check", "street_line fmt", "street_sim check", "street_sim fmt"])

    def test_since_a_commit(self):
        self.change("street_line")
        self.git("-c", "user.name=a", "-c", "user.email=a@b", "commit", "-q", "-a", "-m", "line")
        self.assertEqual(self.quick()[1], [])
        self.assertEqual(self.quick("--since", "HEAD~1")[1], ["street_line check", "street_line fmt"])

    def test_each_fault_is_told(self):
        self.change("street_line")
        for variables, told in (
            ({"BREAKS": "street_line"}, ["street_line:", "error: open goal", "proofs of street_line: FAILED"]),
            ({"ROUGH": "1"}, ["street_line: rt: formatted src/lib.rt", "layout of street_line: FAILED"]),
            ({"HINTS": "1"}, ["status 1", "hints: FAILED"]),
        ):
            with self.subTest(told=told[-1]):
                lines, _ = self.quick(status=1, **variables)
                start = lines.index(told[0])
                self.assertEqual(lines[start : start + len(told)], told)
                self.assertEqual(lines[-1], "3 passed, 1 failed")

    def test_a_test_that_fails_is_told(self):
        self.write_test(FAILING)
        lines, _ = self.quick(status=1)
        self.assertIn("AssertionError: 1 != 2", lines)
        self.assertEqual(lines[-1], "1 passed, 1 failed")

    def test_other_words_are_refused(self):
        for words, status, told in (
            (["--quick", "--since", "nowhere"], 1, "git knows no commit nowhere"),
            (["--fast"], 2, "--quick"),
        ):
            with self.subTest(words=words):
                _, error = self.runs("test", *words, status=status)
                self.assertIn(told, error)


if __name__ == "__main__":
    unittest.main()
