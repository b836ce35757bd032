"""The walks of the pages of tools/ print what the pages show, but for those that search for minutes."""
import subprocess
import sys
import unittest

from support import PROGRAM, TOOLS, Case, needs_package, needs_simulator, needs_sumo_tools

sys.path.insert(0, str(TOOLS.parent / "bench"))
from repository import pages as walks  # noqa: E402

try:
    import matplotlib
    import scipy
except ImportError:
    matplotlib = scipy = None

# Those of SIGNALS, ROUTES and CALIBRATION take minutes: bench/run walks alone runs them.
PAGES = "../README,README,WORKS,ACTUATED,BUSES,COUNTS"


class Ends(unittest.TestCase):
    def test_no_walk_ends_with_a_run_that_is_not_to_be_trusted(self):
        shown = {
            page: [line for heading in headings for _, lines in walks.blocks(page, heading) for line in lines]
            for page, headings in walks.SECTIONS.items()
        }
        doubted = {page for page, lines in shown.items() if any(line.startswith("not to be trusted") for line in lines)}
        self.assertTrue(all(shown.values()))
        self.assertEqual(doubted, set())


@needs_simulator
@needs_sumo_tools
@needs_package("python3-matplotlib", matplotlib)
@needs_package("python3-scipy", scipy)
class Walks(Case):
    def test_walks(self):
        words = ["/usr/bin/python3", TOOLS.parent / "bench/run", "walks", PROGRAM, "--work", self.folder]
        words += ["--only", PAGES]
        done = subprocess.run(words, capture_output=True, text=True, check=False)
        self.assertEqual(done.returncode, 0, done.stdout + done.stderr)


if __name__ == "__main__":
    unittest.main()
