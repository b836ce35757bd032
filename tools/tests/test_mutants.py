"""Changes of single places in the tools that tests must notice: those of data/mutants.json, which bench/run mutants
drew by a seed and keeps there. Each is [file, its line, the line as it is changed, a test that fails then]."""
import json
import os
import shutil
import subprocess
import sys
import tempfile
import unittest
from collections import Counter
from concurrent.futures import ThreadPoolExecutor
from pathlib import Path

from support import DATA, PROGRAM, QUICK, TOOLS, needs_simulator
from streetsim.base.places import RECORD

LIST = json.loads((DATA / "mutants.json").read_text())
LONGEST = 120  # seconds that a test may take; one without an end notices the change too
ALL = 900  # seconds that all of them may take together, where nothing is changed
AT_ONCE = 2


def failing(tools, *tests, longest=LONGEST):
    """What is said where one of some tests fails in a copy of the tools; nothing where all pass."""
    env = {**os.environ, "PYTHONDONTWRITEBYTECODE": "1", **({"STREETSIM_PROGRAM": PROGRAM} if PROGRAM else {})}
    words = [sys.executable, "-W", "ignore", "-m", "unittest", "-f", *tests]
    more = {"cwd": tools / "tests", "env": env, "stdin": subprocess.DEVNULL, "timeout": longest}
    try:
        done = subprocess.run(words, capture_output=True, check=False, **more)
    except subprocess.TimeoutExpired:
        return f"{', '.join(tests)}: longer than {longest} s"
    return done.stderr.decode(errors="replace") if done.returncode else ""


class Listed(unittest.TestCase):
    def test_each_line_stands_once_in_its_file(self):
        """Where a line was changed since, take it off the list, and have bench/run mutants draw others with --keep."""
        for path, line, changed, test in LIST:
            text = (TOOLS / "streetsim" / path).read_text()
            self.assertEqual(text.count(line), 1, (path, line))
            compile(text.replace(line, changed), path, "exec")
            self.assertTrue((TOOLS / "tests" / f"{test.split('.')[0]}.py").exists(), test)

    def test_they_are_of_many_files(self):
        self.assertGreaterEqual(len(LIST), 30)
        self.assertGreaterEqual(len({path for path, *_ in LIST}), 15)
        self.assertLessEqual(max(Counter(path for path, *_ in LIST).values()), 8)


@needs_simulator
@unittest.skipIf(QUICK, "each starts a process")
class Noticed(unittest.TestCase):
    def test_each_is_noticed(self):
        """By a test that passes without the change."""
        with tempfile.TemporaryDirectory() as folder:
            tops = [Path(folder) / str(at) for at in range(AT_ONCE)]
            for top in tops:
                shutil.copytree(TOOLS, top / "tools", ignore=shutil.ignore_patterns("__pycache__", "*.pyc"))
                shutil.copy(TOOLS.parent / "SECURITY.md", top)  # which a test of limits reads
                if (record := TOOLS.parent / RECORD).exists():  # without which nothing is sealed
                    (top / RECORD).parent.mkdir()
                    shutil.copy(record, top / RECORD)
            self.assertEqual(failing(tops[0] / "tools", *sorted({test for *_, test in LIST}), longest=ALL), "")

            def lived(at):
                return [one for one in LIST[at::AT_ONCE] if self.lives(tops[at] / "tools", *one)]

            with ThreadPoolExecutor(AT_ONCE) as pool:
                self.assertEqual(sum(pool.map(lived, range(AT_ONCE)), []), [])

    def lives(self, tools, path, line, changed, test):
        """Whether a change passes its test in a copy of the tools, which is as before then."""
        file = tools / "streetsim" / path
        text = file.read_text()
        file.write_text(text.replace(line, changed))
        try:
            return not failing(tools, test)
        finally:
            file.write_text(text)


if __name__ == "__main__":
    unittest.main()
