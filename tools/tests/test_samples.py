"""Sample networks against SUMO's own arrivals and counts of the same demand (SUMO 1.15, its defaults)."""
import csv
import gzip
import re
import unittest
from collections import defaultdict
from statistics import fmean

from support import DATA, PROGRAM, SCENARIOS, Case, needs_simulator, needs_sumo_tools
from streetsim.model.folder import read_folder
from streetsim.report.beside_sumo import correlation, edge_counts_of, geh, trip_times_of

QUARTERS = (900, 1800, 2700, 3600, 4500, 5400)


def arrivals_of(name):
    with open(DATA / "sumo-arrivals.csv", encoding="utf-8") as file:
        row = next(row for row in csv.DictReader(file) if row["network"] == name)
    return int(row["vehicles"]), float(row["mean_trip_s"]), [int(row[f"arrived_{quarter}"]) for quarter in QUARTERS]


@needs_simulator
class Samples(Case):
    def compare(self, name, network, routes, *additional, counts=True, seeds=1):
        """Means over some seeds beside SUMO's; gives the last folder."""
        run, mapped, out = self.folder / "run.jsonl", self.folder / "map.json", self.folder / "out"
        self.tool("import", network, *additional, "--routes", routes, "-o", run, "--map", mapped, "--strict")
        words = ["--until", 6000, "--every", 600, "--seeds", f"1-{seeds}", "--departures", "listed"]
        words += ["--out", out, "--program", PROGRAM]
        self.tool("run", run, "--map", mapped, *words)
        folders = [read_folder(out / f"seed-{seed}") for seed in range(1, seeds + 1)]
        self.check_trips(name, [trip_times_of(folder) for folder in folders])
        if counts:
            self.check_counts(name, [edge_counts_of(folder) for folder in folders])
        return folders[-1]

    def check_trips(self, name, runs):
        vehicles, mean, arrived = arrivals_of(name)
        self.assertEqual({len(trips) for trips in runs}, {vehicles})
        lasted = fmean(arrival - depart for trips in runs for depart, arrival in trips.values())
        self.assertAlmostEqual(lasted / mean, 1, delta=0.15)
        for quarter, expected in zip(QUARTERS, arrived, strict=True):
            here = fmean(sum(arrival <= quarter for _, arrival in trips.values()) for trips in runs)
            self.assertLessEqual(abs(here - expected) / vehicles, 0.03, quarter)

    def check_counts(self, name, runs):
        with open(DATA / f"sumo-counts-{name}.csv", encoding="utf-8") as file:
            keys = [(quarter, row["edge"], row) for row in csv.DictReader(file) for quarter in QUARTERS[:4]]
        pairs = [
            (
                fmean(counts.get((quarter - 900, quarter, edge), 0) for counts in runs),
                int(row[f"count_{quarter - 900}"]),
            )
            for quarter, edge, row in keys
        ]
        good = sum(geh(4 * here, 4 * there) < 5 for here, there in pairs)
        self.assertGreaterEqual(good / len(pairs), 0.85)

    def test_grid(self):
        folder = self.compare("grid", DATA / "grid.net.xml.gz", DATA / "grid.rou.xml.gz")
        self.check_edges(folder)

    def check_edges(self, folder):
        """SUMO's edgeData of the first hour: time on all edges within 10 %, entered within GEH 5 for 85 %,
        and edges that are slow there are slow here."""
        here = {(row["edge"], row["begin"]): row for row in folder.edges()}
        with open(DATA / "sumo-edges-grid.csv", encoding="utf-8") as file:
            pairs = [(here[row["edge"], row["begin"]], row) for row in csv.DictReader(file)]
        self.assertEqual(len(pairs), 480)
        good = sum(geh(4 * int(one["entered"]), 4 * int(other["entered"])) < 5 for one, other in pairs)
        self.assertGreaterEqual(good / len(pairs), 0.85)
        metres = {edge: folder.mapping.links[links[0]].metres for edge, links in folder.mapping.links_of.items()}
        on_edges = sum(float(one["density_per_km"]) * metres[one["edge"]] / 1000 * 900 for one, _ in pairs)
        self.assertAlmostEqual(on_edges / sum(float(other["sampled_seconds"]) for _, other in pairs), 1, delta=0.1)
        travel = defaultdict(lambda: [0.0, 0.0])
        for one, other in pairs:
            for at, row in enumerate((one, other)):
                travel[other["edge"]][at] += int(other["left"]) * float(row["travel_time_s"] or 0)
        self.assertGreater(correlation(*zip(*travel.values())), 0.8)

    def test_town(self):
        """Near capacity, where single seeds differ by a fifth."""
        self.compare("town", DATA / "town.net.xml.gz", DATA / "town.rou.xml.gz", seeds=3)

    def test_any_number_of_workers(self):
        """Lane changes, dawdling, signals and detectors on 120 links, shared by workers: equal bytes."""
        run, mapped = self.folder / "run.jsonl", self.folder / "map.json"
        self.tool("import", DATA / "grid.net.xml.gz", "--routes", DATA / "grid.rou.xml.gz", "-o", run, "--map", mapped)
        words = ["run", run, "--map", mapped, "--until", 600, "--every", 50, "--period", 100, "--program", PROGRAM]
        for workers in (1, 3, 4):
            self.tool(*words, "--workers", workers, "--out", self.folder / str(workers))
        for name in ("counts.csv", "trips.csv", "queues.csv", "summary.csv", "rows.bin"):
            contents = {(self.folder / workers / name).read_bytes() for workers in "134"}
            self.assertEqual(len(contents), 1, name)
        with open(self.folder / "4/summary.csv", encoding="utf-8") as file:
            self.assertGreater(int(list(csv.DictReader(file))[-1]["on_cells"]), 100)

    def test_rescues_resolve_a_locked_town(self):
        """With half as many vehicles again the town locks; with rescues all arrive."""
        with gzip.open(DATA / "town.rou.xml.gz", "rt", encoding="utf-8") as file:
            text = file.read()
        vehicles = re.findall("<vehicle .*?</vehicle>", text, re.DOTALL)
        again = [vehicle.replace('id="', 'id="again', 1) for vehicle in vehicles[1::2]]
        routes = self.write("more.rou.xml", "<routes>" + "".join(vehicles + again) + "</routes>")
        run, mapped, out = self.folder / "run.jsonl", self.folder / "map.json", self.folder / "out"
        self.tool("import", DATA / "town.net.xml.gz", "--routes", routes, "-o", run, "--map", mapped)
        words = ["run", run, "--map", mapped, "--until", 9000, "--every", 600, "--out", out, "--program", PROGRAM]
        self.tool(*words, "--rescue", 0)
        self.assertLess(len(trip_times_of(read_folder(out))), 4500)
        told, _ = self.tool(*words)
        self.assertEqual(len(trip_times_of(read_folder(out))), 4500)
        self.assertRegex(told, r", \d+ rescues \(\d+ in (a knot|\d+ knots)\)")

    @needs_sumo_tools
    def test_acosta(self):
        folder = SCENARIOS / "acosta"
        self.compare(
            "acosta", folder / "acosta_buslanes.net.xml", folder / "acosta.rou.xml", folder / "acosta_tls.add.xml"
        )

    @needs_sumo_tools
    def test_rilsa(self):
        folder = SCENARIOS / "RiLSA_example1"
        self.compare(
            "rilsa1",
            folder / "rilsa1.net.xml",
            folder / "genroutes.rou.xml",
            folder / "rilsa1_tls.add.xml",
            counts=False,
        )

    @needs_sumo_tools
    def test_turn_lanes_keep_their_capacity(self):
        """Two junctions, each with an approach over its capacity. SUMO's mean trips (three seeds) are 215 and 463 s;
        with the lane of the left turns open to the straight stream the second is 184 s here."""
        for number, mean in ((2, 215), (3, 463)):
            folder, out = SCENARIOS / f"RiLSA_example{number}", self.folder / str(number)
            run, mapped = self.folder / "run.jsonl", self.folder / "map.json"
            more = folder / "vtypes.add.xml", folder / f"rilsa{number}_tls.add.xml"
            words = [folder / f"rilsa{number}.net.xml", *more, "--routes", folder / "genroutes.rou.xml"]
            self.tool("import", *words, "-o", run, "--map", mapped, "--strict")
            self.tool("run", run, "--map", mapped, "--until", 9000, "--every", 600, "--out", out, "--program", PROGRAM)
            trips = trip_times_of(read_folder(out)).values()
            self.assertAlmostEqual(
                sum(arrival - depart for depart, arrival in trips) / len(trips) / mean, 1, delta=0.15
            )


if __name__ == "__main__":
    unittest.main()
