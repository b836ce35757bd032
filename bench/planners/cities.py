"""What a part of a city says of those who stay inside, beside SUMO's run of the whole city."""

import argparse
import xml.etree.ElementTree as ElementTree
from dataclasses import dataclass
from pathlib import Path
from statistics import fmean

import shared

TOOLS = shared.TOOLS


@dataclass(frozen=True)
class City:
    """A grid of lights with one lane a street, an hour's demand of short ways, and a box in it: x, y, x, y in m."""

    side: int  # lights in a row
    vehicles: int
    box: tuple[int, int, int, int]

    def make(self, folder: Path) -> None:
        """Makes the city's files, where they are not there."""
        size = f"--grid --grid.number {self.side} --grid.length 200 -L 1 -j traffic_light --no-turnarounds true"
        often = f"-b 0 -e 3600 -p {3600 / self.vehicles:g} --max-distance 2500 --seed 3"
        for command, name in (
            (f"netgenerate {size} --seed 1 -o city.net.xml", "city.net.xml"),
            (f"python3 {shared.RANDOM_TRIPS} -n city.net.xml {often} -r city.rou.xml", "city.rou.xml"),
            (
                "sumo -n city.net.xml -r city.rou.xml --no-step-log --no-warnings --tripinfo-output trips.xml --seed 1 "
                "--time-to-teleport -1 --end 7200",
                "trips.xml",
            ),
        ):
            if not (folder / name).exists():
                shared.run(command.split(), folder)

    def inside(self, folder: Path) -> set[str]:
        """The vehicles whose whole way lies in the box."""
        left, low, right, high = self.box
        edges = set()
        for edge in ElementTree.parse(folder / "city.net.xml").iterfind("edge"):
            texts = [text for lane in edge.iterfind("lane") for text in lane.get("shape", "").split()]
            points = [[*map(float, text.split(",")[:2])] for text in texts]
            if all(left <= x <= right and low <= y <= high for x, y in points):
                edges.add(edge.get("id"))
        vehicles = ElementTree.parse(folder / "city.rou.xml").iter("vehicle")
        return {one.get("id") for one in vehicles if edges.issuperset(one.find("route").get("edges").split())}


# One of 34 by 34 lights, and one of 5,928 edges.
CITIES = {"34x34": City(34, 16_000, (1900, 1900, 4700, 4700)), "39x39": City(39, 20_000, (1900, 1900, 5300, 5300))}


def main_cities(argv: list[str]) -> int | None:
    """Mean trips in a part of a city (--part), of those who stay inside, beside SUMO's run of the whole.

    Takes a quarter of an hour a city; needs sumo, sumo-tools.

    Two grids that are beyond the limits, at half of what they can pass; one run a side. Trips are from the wish to
    depart.
    """
    parser = shared.parser_of(main_cities, work=True)
    shared.add_some(parser, "--only", CITIES)
    args: argparse.Namespace = parser.parse_args(argv)
    shared.print_heads("City | vehicles inside | SUMO, s | here, s | difference")
    for name in args.only:
        city, folder = CITIES[name], shared.work_of(args) / name
        folder.mkdir(exist_ok=True)
        city.make(folder)
        files = ["city.net.xml", "--routes", "city.rou.xml", "--part", ",".join(map(str, city.box))]
        shared.run([TOOLS / "streetsim-import", *files, "-o", "part.jsonl", "--map", "part.map.json"], folder)
        words = ["--map", "part.map.json", "--until", 7200, "--force", "--out", "out", "--program", args.program]
        shared.run([TOOLS / "streetsim-run", "part.jsonl", *words], folder)
        stay, theirs = city.inside(folder), shared.trips_from_wish(folder / "trips.xml")
        ours = shared.durations_here(folder / "out")
        both = sorted(stay & theirs.keys() & ours.keys())
        there, here = (fmean(trips[vehicle] for vehicle in both) for trips in (theirs, ours))
        print(f"| {name} | {len(both)} | {there:.1f} | {here:.1f} | {100 * (here / there - 1):+.1f}% |", flush=True)
