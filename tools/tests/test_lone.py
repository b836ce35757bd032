"""Lone streets beside SUMO: limits, zippers, ends of lanes and bus lanes.

Rows are within 5 % of SUMO's mean trip, zippers within 3 % and limits on 2 km within 2 %, or the run's last line says
that it is not to be trusted.
"""
import random
import subprocess
import unittest
from statistics import fmean

from support import PROGRAM, Case, needs_simulator, needs_sumo
from streetsim.model.folder import read_folder
from streetsim.report.beside_sumo import read_tripinfo, trip_times_of

END, LAST = 1800, 5400  # seconds: of the departures, and of both runs
KMH = 3.6
CLOSE, CLOSE_ZIPPER, CLOSE_LIMIT = 0.05, 0.03, 0.02  # of SUMO's mean trip


def mean_trip(trips, name):
    """Of the vehicles whose names begin so."""
    return fmean(end - begin for one, (begin, end) in trips.items() if one.startswith(name))


@needs_sumo
@needs_simulator
class Lone(Case):
    def network(self, nodes, edges):
        """A network of plain XML; nodes: (name, x, y, type); edges: (name, begin, end, lanes, km/h, lanes' XML)."""
        points = "".join(f'<node id="{name}" x="{x}" y="{y}" type="{kind}"/>' for name, x, y, kind in nodes)
        streets = "".join(
            f'<edge id="{name}" from="{begin}" to="{end}" numLanes="{lanes}" speed="{kmh / KMH:.3f}">{inner}</edge>'
            for name, begin, end, lanes, kmh, inner in edges
        )
        made, junctions = self.folder / "x.net.xml", self.write("x.nod.xml", f"<nodes>{points}</nodes>")
        streets = self.write("x.edg.xml", f"<edges>{streets}</edges>")
        words = ["netconvert", "-n", junctions, "-e", streets, "--no-turnarounds", "true", "-o", made]
        subprocess.run(words, check=True, capture_output=True)
        return made

    def means(self, net, flows, types="", words=()):
        """Mean trips in SUMO (three seeds) and here, by the first letter of vehicles' names, of (name, edges, vehicles
        an hour, type), who depart at seconds drawn. What the run says against itself is in doubt then."""
        draws, found = random.Random(7), []
        for name, edges, hourly, *kind in flows:
            more = f'type="{kind[0]}"' if kind else ""
            for at in range(round(hourly * END / 3600)):
                depart = int(draws.uniform(0, END))
                vehicle = f'<vehicle id="{name}.{at}" depart="{depart}" departLane="best" {more}>'
                found.append((depart, f'{vehicle}<route edges="{edges}"/></vehicle>'))
        routes = self.write("x.rou.xml", f"<routes>{types}{''.join(line for _, line in sorted(found))}</routes>")
        run, mapping = self.folder / "run.jsonl", self.folder / "map.json"
        theirs = [self.in_sumo(net, routes, seed) for seed in (1, 2, 3)]
        self.tool("import", net, "--routes", routes, "-o", run, "--map", mapping, *words)
        words = ["--map", mapping, "--until", LAST, "--out", self.folder / "out", "--program", PROGRAM]
        said = "".join(self.tool("run", run, *words))
        self.doubt = said.partition("not to be trusted: ")[2]
        ours = trip_times_of(read_folder(str(self.folder / "out")))
        return [
            (fmean(mean_trip(side, name) for side in theirs), mean_trip(ours, name))
            for name in dict.fromkeys(flow[0][0] for flow in flows)
        ]

    def in_sumo(self, net, routes, seed):
        """(departure, arrival) by vehicle."""
        trips = self.folder / "trips.xml"
        words = ["sumo", "-n", net, "-r", routes, "--end", LAST, "--seed", seed, "--no-step-log", "--no-warnings"]
        subprocess.run([*map(str, words), "--tripinfo-output", str(trips)], check=True, capture_output=True)
        return read_tripinfo(str(trips))

    def test_limits(self):
        for kmh in (20, 30, 60, 90, 130):
            net = self.network(
                [("A", 0, 0, "priority"), ("B", 2000, 0, "priority")], [("a", "A", "B", 1, kmh, "")]
            )
            # All drive alike: with speeds of their own SUMO's seeds alone differ by 7 % at 20 km/h.
            [(theirs, ours)] = self.means(net, [("v", "a", 200, "t")], '<vType id="t" speedDev="0"/>')
            self.assertAlmostEqual(ours / theirs, 1, delta=CLOSE_LIMIT, msg=kmh)

    def test_zippers(self):
        ends = [("A", -800, 100, "priority"), ("D", -800, -100, "priority"), ("M", 0, 0, "zipper")]
        edges = [("a", "A", "M", 1, 50, ""), ("d", "D", "M", 1, 50, ""), ("b", "M", "B", 1, 50, "")]
        net = self.network([*ends, ("B", 500, 0, "priority")], edges)
        for one, other in ((300, 200), (500, 300), (600, 600)):
            found = self.means(net, [("v", "a b", one), ("w", "d b", other)])
            theirs, ours = (sum(part * side for part, side in zip((one, other), sides)) for sides in zip(*found))
            self.assertAlmostEqual(ours / theirs, 1, delta=CLOSE_ZIPPER, msg=(one, other))

    def test_the_end_of_a_lane(self):
        nodes = [("A", -1500, 0, "priority"), ("M", 0, 0, "priority"), ("B", 500, 0, "priority")]
        net = self.network(nodes, [("a", "A", "M", 2, 50, ""), ("b", "M", "B", 1, 50, "")])
        for hourly in (800, 1100):
            [(theirs, ours)] = self.means(net, [("v", "a b", hourly)])
            self.assertAlmostEqual(ours / theirs, 1, delta=CLOSE, msg=hourly)
        self.means(net, [("v", "a b", 1500)])  # more than 1,200 an hour pass in neither
        self.assertRegex(self.doubt, r"where lanes become one from a to b at M: demand 1\.[23]\d of what passes here")

    def test_buses_and_cars_on_lanes_of_their_own(self):
        bus = '<lane index="0" allow="bus"/><lane index="1" disallow="bus"/>'
        net = self.network([("A", 0, 0, "priority"), ("B", 2000, 0, "priority")], [("a", "A", "B", 2, 50, bus)])
        types = '<vType id="car"/><vType id="bus" vClass="bus" maxSpeed="9"/>'
        flows, words = [("c", "a", 300, "car"), ("b", "a", 40, "bus")], ("--classes", "passenger,bus")
        for theirs, ours in self.means(net, flows, types, words):
            self.assertAlmostEqual(ours / theirs, 1, delta=CLOSE)


if __name__ == "__main__":
    unittest.main()
