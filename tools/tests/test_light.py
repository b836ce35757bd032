"""What a command does not use it does not import."""
import subprocess
import sys
import unittest

from support import TOOLS, Case

ENTRIES = sorted(path.name for path in TOOLS.glob("streetsim-*"))
# Modules of the tools that --version imports, and what no --help does.
OF_VERSION = {"streetsim", "streetsim.cli", "streetsim.cli.commands"}
HEAVY = ("numpy", "scipy", "matplotlib", "PIL", "sumolib", "traci")
# How many of their own modules --help imports at most; those of some also run, or know all words of SUMO's.
MOST_OF_HELP, MOST_OF_HEAVY = 100, 210
HEAVY_COMMANDS = ("streetsim-junction", "streetsim-sumo")
RUNNING = ("streetsim.kernel.", "streetsim.search.run_", "streetsim.sumo.signals", "streetsim.observe.run_making")


def imported(entry, word):
    """The modules that a command imports for a word, and those that Python itself begins with left out."""
    words = [sys.executable, "-X", "importtime", TOOLS / entry, word]
    told = subprocess.run(words, capture_output=True, text=True, check=True).stderr
    return {line.rpartition("|")[2].strip() for line in told.splitlines() if line.startswith("import time:")}


class Light(Case):
    def test_version(self):
        for entry in ENTRIES:
            with self.subTest(entry):
                self.assertEqual({name for name in imported(entry, "--version") if "streetsim" in name}, OF_VERSION)

    def test_help(self):
        for entry in ENTRIES:
            with self.subTest(entry):
                names = imported(entry, "--help")
                self.assertIn("streetsim.base.words", names)
                self.assertEqual([name for name in HEAVY if name in names], [])
                own = [name for name in names if name.startswith("streetsim.")]
                self.assertLess(len(own), MOST_OF_HEAVY if entry in HEAVY_COMMANDS else MOST_OF_HELP)
                if entry not in HEAVY_COMMANDS:
                    self.assertEqual([name for name in own if name.startswith(RUNNING)], [])


if __name__ == "__main__":
    unittest.main()
