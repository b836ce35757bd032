"""What a large demand takes: memory of the import and of the run with all tables, by vehicle."""
import csv
import subprocess
import sys
import unittest
from itertools import pairwise

from support import TOOLS, Case, lane, needs_simulator, net

STREETS, VEHICLES, EVERY = 40, 200_000, 3  # seconds between two on a street of three edges
# Bytes by vehicle: 2 GB and 1.5 GB of a million.
IMPORT_BYTES, RUN_BYTES = 2000, 1500
BEGUN = 120 << 20  # bytes of a command before it has read any vehicle
# Runs a command and prints the KiB that it took at most. In a small process: what begins a process counts in its peak.
MEASURED = """
import resource, subprocess, sys
subprocess.run(sys.argv[1:], stdout=subprocess.DEVNULL, stderr=subprocess.DEVNULL, check=True)
print(resource.getrusage(resource.RUSAGE_CHILDREN).ru_maxrss)
"""


class Large(Case):
    def setUp(self):
        super().setUp()
        edges, turns, rows = [], [], []
        for street in range(STREETS):
            names = [f"{street}.{at}" for at in range(3)]
            edges += [
                (name, f"{street}-{at}", f"{street}-{at + 1}", [lane(name, 0, 150)]) for at, name in enumerate(names)
            ]
            turns += [(edge, 0, following, 0, "") for edge, following in pairwise(names)]
            rows.append(f'<route id="r{street}" edges="{" ".join(names)}"/>')
        rows += [
            f'<vehicle id="{at}" depart="{at // STREETS * EVERY}" route="r{at % STREETS}"/>' for at in range(VEHICLES)
        ]
        self.net = self.write("x.net.xml", net(edges, turns))
        self.routes = self.write("x.rou.xml", "\n".join(["<routes>", *rows, "</routes>"]))

    def most_bytes(self, name, *words):
        """The greatest memory of a command, which succeeds."""
        command = [sys.executable, "-c", MEASURED, TOOLS / f"streetsim-{name}", *words]
        ended = subprocess.run(command, capture_output=True, text=True, cwd=self.folder, check=True)
        return int(ended.stdout) * 1024

    @needs_simulator
    def test_memory_of_many_vehicles(self):
        imported = self.most_bytes("import", self.net, "--routes", self.routes, "-o", "x.jsonl")
        self.assertLess(imported, BEGUN + VEHICLES * IMPORT_BYTES)
        self.assertLess(self.most_bytes("run", "x.jsonl", "--out", "out"), BEGUN + VEHICLES * RUN_BYTES)
        with (self.folder / "out/trips.csv").open(encoding="utf-8", newline="") as file:
            self.assertEqual(sum(row["arrival"] != "" for row in csv.DictReader(file)), VEHICLES)


if __name__ == "__main__":
    unittest.main()
