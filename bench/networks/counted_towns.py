"""Towns of 30 to 45 nodes with lights, one-way streets and streets of 30 km/h, a demand of sumo-tools' randomTrips for
each, and what SUMO counts at eight of the edges, all from a seed."""

import xml.etree.ElementTree as ElementTree
from dataclasses import dataclass
from itertools import accumulate, pairwise
from pathlib import Path
from random import Random

import shared
from networks.streets import Plain, random_trips
from networks.unseen import read_net, scale_for, ways_of

COUNTED_EDGES = 8
WARM, LAST = 1800, 5400  # seconds: counted from the one to the other, vehicles depart from 0
SAMPLE = 2000  # trips by which the number of vehicles is found
LEAST_COUNT = 60  # vehicles an hour of an edge that is counted
Place = tuple[int, int]  # column and row


@dataclass(frozen=True)
class CountedTown:
    """A town in a folder that holds town.net.xml, true.rou.xml and counts.csv."""

    folder: Path
    seed: int
    nodes: int
    vehicles: int  # that depart while it is counted
    teleports: int  # of SUMO


class Drawn:
    """The streets of a town, as a seed draws them."""

    def __init__(self, draws: Random) -> None:
        self.draws, self.plain = draws, Plain()
        self.size = draws.choice(((4, 6), (5, 5), (5, 6)))
        self.mains = [{draws.randrange(1, length - 1)} for length in self.size]
        self.mains[1].add(0 if 0 not in self.mains[1] and draws.random() < 0.4 else max(self.mains[1]))
        self.lanes = draws.choice((1, 2))
        self.one_way = [
            {line for line in range(length) if line not in own and draws.random() < 0.4}
            for length, own in zip(self.size, self.mains)
        ]
        self.outside = 0

    def write(self, folder: Path) -> list[str]:
        """Writes the plain files; gives netconvert's words."""
        places = [list(accumulate(self.draws.randrange(110, 241, 10) for _ in range(length))) for length in self.size]
        for column, x in enumerate(places[0]):
            for row, y in enumerate(places[1]):
                shift = (self.draws.uniform(-20, 20) for _ in "xy")
                self.plain.node(name_of((column, row)), x + next(shift), y + next(shift), self.junction((column, row)))
        for axis in (0, 1):
            for line in range(self.size[axis]):
                self.street(axis, line, places)
        return self.plain.write(folder)

    def junction(self, place: Place) -> str:
        """What a junction is like: a light where two main streets cross, and at some of the others on one."""
        on_main = [line in own for line, own in zip(place, self.mains)]
        lit = all(on_main) or any(on_main) and self.draws.random() < 0.35
        return "traffic_light" if lit else "priority"

    def street(self, axis: int, line: int, places: list[list[int]]) -> None:
        """A street along one line of nodes, one way or both, with the pieces that lead out of the town."""
        count = self.size[1 - axis]
        names = [name_of((line, at) if axis == 0 else (at, line)) for at in range(count)]
        is_main, one_way = line in self.mains[axis], line in self.one_way[axis]
        lanes, kmh, priority = (self.lanes, 50, 8) if is_main else (1, 30, 3)
        for begin, end in pairwise(names):
            if is_main or one_way or self.draws.random() < 0.9:
                self.piece(begin, end, lanes, kmh, priority, one_way and 1 + line % 2)
        across, along = places[axis][line], places[1 - axis]
        for name, beyond in ((names[0], along[0] - 200), (names[-1], along[-1] + 200)):
            if is_main or self.draws.random() < 0.3:
                self.outside += 1
                outer = f"out{self.outside}"
                self.plain.node(outer, *((across, beyond) if axis == 0 else (beyond, across)))
                self.piece(outer, name, lanes, kmh, priority, 0)

    def piece(self, begin: str, end: str, lanes: int, kmh: int, priority: int, one_way: int) -> None:
        """A piece of street; one_way: 0 both ways, 1 from begin to end, 2 back."""
        if one_way != 2:
            self.plain.edge(begin, end, lanes, kmh, priority)
        if one_way != 1:
            self.plain.edge(end, begin, lanes, kmh, priority)


def name_of(place: Place) -> str:
    return f"{place[0]}.{place[1]}"


def make_town(seed: int, work: Path) -> CountedTown:
    """A town, its demand and its counts, made where they are not there yet."""
    folder = work.resolve() / f"counted-town-{seed}"
    folder.mkdir(parents=True, exist_ok=True)
    draws, net_path = Random(f"counted town {seed}"), folder / "town.net.xml"
    drawn = Drawn(draws)
    words = [*drawn.write(folder), "--tls.cycle.time", draws.choice((60, 75, 90)), "--keep-edges.components", 1]
    level, fringe = draws.uniform(0.5, 0.8), draws.choice((2, 5, 10))
    trips = f"-l -L --fringe-factor {fringe} --min-distance 250 --seed {draws.randrange(1 << 20)}"
    if not (folder / "edges.xml").exists():
        shared.run([*words, "--no-turnarounds", "true", "--no-warnings", "-o", net_path.name], folder)
        random_trips(net_path, folder / "sample.rou.xml", LAST / SAMPLE, trips, LAST)
        times = scale_for(read_net(net_path), ways_of(folder / "sample.rou.xml"), LAST / 3600, level)
        random_trips(net_path, folder / "true.rou.xml", LAST / SAMPLE / times, trips, LAST)
        count_in_sumo(folder)
    vehicles = sum(WARM <= depart < LAST for depart in departures(folder / "true.rou.xml"))
    write_counts(folder, draws)
    nodes = sum(not node.getID().startswith(":") for node in read_net(net_path).getNodes())
    return CountedTown(folder, seed, nodes, vehicles, shared.teleports_of(folder / "statistic.xml"))


def count_in_sumo(folder: Path) -> None:
    """Runs the true demand in SUMO, and counts what leaves each edge."""
    period = f'begin="{WARM}" end="{LAST}" freq="{LAST - WARM}"'
    text = f'<additional><edgeData id="c" {period} file="edges.xml"/></additional>'
    (folder / "edges.add.xml").write_text(text, encoding="utf-8")
    words = ["-n", "town.net.xml", "-r", "true.rou.xml", "-a", "edges.add.xml", "--statistic-output", "statistic.xml"]
    shared.run(["sumo", *words, "--no-step-log", "--no-warnings", "--end", 3 * LAST], folder)


def departures(path: Path) -> list[float]:
    return [float(one.get("depart")) for one in ElementTree.parse(path).getroot().iter("vehicle")]


def write_counts(folder: Path, draws: Random) -> None:
    """Writes counts.csv: what left eight edges while it was counted."""
    counts = {
        one.get("id"): int(one.get("left")) + int(one.get("arrived"))
        for one in ElementTree.parse(folder / "edges.xml").getroot().iter("edge")
        if not one.get("id").startswith(":")
    }
    busy = sorted(edge for edge, count in counts.items() if count >= LEAST_COUNT)
    edges = draws.sample(busy, COUNTED_EDGES)
    rows = [f"{WARM},{LAST},{edge},,{counts[edge]}" for edge in edges]
    (folder / "counts.csv").write_text("\n".join(["begin,end,from,to,vehicles", *rows]) + "\n", encoding="utf-8")
