"""SUMO's detectors of additional files: induction loops (e1) and lane areas (e2), and what an area sees of the vehicles
on its lane: how many are inside, halt and stand in a jam."""
from collections.abc import Callable, Sequence
from dataclasses import dataclass, field

from streetsim.base import limits

Cells = Sequence[Sequence[int]]  # as those of a lane's reply
E1, E2 = "e1", "e2"


@dataclass(slots=True, frozen=True)
class Detector:
    """A detector of an additional file of SUMO, placed on the cells of a run (link and lane by number)."""

    name: str
    kind: str  # e1 or e2
    link: int
    lane: int
    first: int  # cell
    last: int  # cell, included; the same as first for an e1
    period: int  # seconds of a row
    cell_metres: float = limits.CELL_METRES


@dataclass(slots=True)
class Area:
    """What samples of a lane saw in the cells of an e2 in one of its periods."""

    samples: int = 0
    vehicles: int = 0  # sum over samples
    most_vehicles: int = 0  # in one sample
    speeds: int = 0  # of vehicles, sum over samples, cells a step
    covered: float = 0.0  # metres, without gaps
    jams: int = 0  # vehicles, sum over samples of the longest
    longest: int = 0  # jam of one sample, vehicles


@dataclass(slots=True)
class Areas:
    """What samples of the lanes saw in each e2 of a run, by its periods."""

    detectors: list[Detector]
    start: int
    by_period: dict[tuple[str, int], Area] = field(default_factory=dict)  # by name and begin

    def sample(self, clock: int, cells_of: Callable[[tuple[int, int]], Cells]) -> None:
        """Adds to `by_period` the vehicles whose fronts are in each e2 at a poll of the lanes at a clock, which counts
        to the period of the second before it; cells_of gives the cells of the lane's reply of a (link, lane)."""
        for detector in self.detectors:
            begin = self.start + (clock - 1 - self.start) // detector.period * detector.period
            area = self.by_period.setdefault((detector.name, begin), Area())
            cells = cells_of((detector.link, detector.lane))
            inside = [entry for entry in cells if detector.first <= entry[1] <= detector.last]
            jam = longest_jam(inside)
            area.samples, area.vehicles, area.jams = area.samples + 1, area.vehicles + len(inside), area.jams + jam
            area.most_vehicles, area.longest = max(area.most_vehicles, len(inside)), max(area.longest, jam)
            area.speeds += sum(entry[2] for entry in inside)
            area.covered += sum(metres_in(entry, detector.first, detector.cell_metres) for entry in inside)


def size_of(entry: Sequence[int]) -> int:
    """The cells that a vehicle takes, by its entry in a lane's reply: [car, cell, speed], with its size above 1."""
    return entry[3] if len(entry) > 3 else 1


def metres_in(entry: Sequence[int], first_cell: int, cell_metres: float = limits.CELL_METRES) -> float:
    """The metres of a vehicle, without its gap, that lie in the cells from `first_cell` on, in which its front is;
    entry: [car, cell, speed], with the size where it is above 1; cell_metres: metres of a cell of its lane."""
    return min(size_of(entry) * limits.CELL_METRES - limits.GAP_METRES, (entry[1] - first_cell + 1) * cell_metres)


def longest_jam(cells: Cells) -> int:
    """How many vehicles, at most, stand one behind the other without a gap; cells: of a lane's reply."""
    longest = here = 0
    rear = None
    for entry in cells:
        here = 0 if entry[2] else here + 1 if rear == entry[1] + 1 and here else 1
        rear, longest = entry[1] - size_of(entry) + 1, max(longest, here)
    return longest
