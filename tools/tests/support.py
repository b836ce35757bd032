"""What the tests share: the simulator to test with, small SUMO networks, running a tool."""
import os
import re
import shutil
import subprocess
import sys
import tempfile
import unittest
from pathlib import Path

TOOLS = Path(__file__).resolve().parents[1]
DATA = Path(__file__).resolve().parent / "data"
SCENARIOS = Path("/usr/share/sumo/tools/sumolib/scenario/scenarios/RealWorld")
sys.path[:0] = [str(TOOLS), str(TOOLS.parent / "dev")]
from streetsim.base.program import Proof, proof_of  # noqa: E402

BUILT = TOOLS.parent / "crates/street_sim/out/street_sim"
# Tests that start no program, as ./test --quick runs them.
QUICK = bool(os.environ.get("STREETSIM_QUICK"))
os.environ.setdefault("STREETSIM_CACHE", "off")  # no import of a test is kept, but in tests of that
PROGRAM = None if QUICK else os.environ.get("STREETSIM_PROGRAM") or (str(BUILT) if BUILT.exists() else None)
needs_simulator = unittest.skipIf(PROGRAM is None, "no simulator: build streetsim, or set STREETSIM_PROGRAM")

PROVED = PROGRAM is not None and proof_of(str(Path(PROGRAM).resolve())) is Proof.PROVED
needs_proved = unittest.skipUnless(PROVED, "a program that is not known to be proved, whose pages are not sealed")


def needs_package(name, found):
    """Skips a test where a package of Debian's is not installed.
    ./test knows these packages by their list, packages.txt."""
    return unittest.skipUnless(found, f"Debian's {name} is not installed")


needs_sumo = needs_package("sumo", shutil.which("sumo") and not QUICK)
needs_sumo_tools = needs_package("sumo-tools", SCENARIOS.exists() and not QUICK)


def shown_run():
    """What the first run of the walk prints, as tools/README.md shows it."""
    text = (TOOLS / "README.md").read_text(encoding="utf-8")
    return re.search(r"^2,400 vehicles, .*\n", text, re.MULTILINE)[0]


# One link of 10 cells into another of 10, limit 5, nobody dawdles.
STREET = {
    "nodes": [[1, 1, 2], [2, 1, 2], [3, 1, 2]],
    "links": [[10, 1, 2, 1, 10, 5], [20, 2, 3, 1, 10, 5]],
    "turns": [[10, 0, 20, 0]],
}

# The same street with numbers from 0, its map, and red for ever between its links.
NUMBERED = {
    "nodes": [[0, 1, 2], [1, 1, 2], [2, 1, 2]],
    "links": [[0, 0, 1, 1, 10, 5], [1, 1, 2, 1, 10, 5]],
    "turns": [[0, 0, 1, 0]],
    "zone": 0,
    "dawdle": 0,
    "change": 0,
    "seed": 0,
}
MAP = {
    "version": 3,
    "nodes": [["A", 0, 0, 1], ["B", 75, 0, 1], ["C", 150, 0, 1]],
    "links": [["a", [0], 0, 1, 10, 5, 75.0, [[0, 0], [75, 0]]], ["b", [0], 1, 2, 10, 5, 75.0, [[75, 0], [150, 0]]]],
    "turns": [[0, 0, 1, 0, "L", 0, False]],
    "signals": [["L", 1]],
    "cars": [],
    "options": {"classes": ["passenger"]},
    "warnings": [],
}
RED = {"cmd": "signal", "node": 1, "offset": 0, "phases": [[600, []]]}


class Case(unittest.TestCase):
    """A test with a folder of its own."""

    def setUp(self):
        made = tempfile.TemporaryDirectory()
        self.addCleanup(made.cleanup)
        self.folder = Path(made.name)

    def write(self, name, text):
        path = self.folder / name
        path.write_text(text, encoding="utf-8")
        return str(path)

    def tool(self, name, *words, status=0):
        """Runs a tool; gives its standard output and error. status: that it is to have; None: any. Of each run the
        segments have to add up to the trips."""
        command = [TOOLS / f"streetsim-{name}", *map(str, words)]
        if name == "run":
            command = ["/usr/bin/python3", TOOLS / "tests/adding.py", *command]
        done = subprocess.run(command, capture_output=True, text=True, check=False)
        if status is not None:
            self.assertEqual(done.returncode, status, done.stderr)
        return done.stdout, done.stderr


def lane(edge, index, metres=75.0, speed=13.89, more=""):
    return (
        f'<lane id="{edge}_{index}" index="{index}" speed="{speed}" length="{metres}" shape="0,0 {metres},0" {more}/>'
    )


def net(edges, connections, programs=""):
    """A .net.xml of edges (name, begin, end, [lanes]) and connections (from, lane, to, lane, more)."""
    nodes = sorted({name for _, begin, end, _ in edges for name in (begin, end)})
    parts = [
        f'<edge id="{name}" from="{begin}" to="{end}" priority="1">{"".join(lanes)}</edge>'
        for name, begin, end, lanes in edges
    ]
    parts += [programs] + [f'<junction id="{name}" type="priority" x="0" y="0"/>' for name in nodes]
    parts += [
        f'<connection from="{source}" to="{target}" fromLane="{lane}" toLane="{next_lane}" state="M" {more}/>'
        for source, lane, target, next_lane, more in connections
    ]
    return f'<net version="1.9">{"".join(parts)}</net>'


# A two-lane street that forks: the right lane goes to b, the left one to c.
FORK = net(
    [("a", "A", "B", [lane("a", 0), lane("a", 1)]), ("b", "B", "C", [lane("b", 0)]), ("c", "B", "D", [lane("c", 0)])],
    [("a", 0, "b", 0, ""), ("a", 1, "c", 0, "")],
)

# Two lanes of one cell: both lead to c, the right one also to b and the left one to d.
SHARED = net(
    [
        ("a", "A", "B", [lane("a", 0, metres=7.5), lane("a", 1, metres=7.5)]),
        ("b", "B", "C", [lane("b", 0)]),
        ("c", "B", "D", [lane("c", 0)]),
        ("d", "B", "E", [lane("d", 0)]),
    ],
    [("a", 0, "b", 0, ""), ("a", 0, "c", 0, ""), ("a", 1, "c", 0, ""), ("a", 1, "d", 0, "")],
)
