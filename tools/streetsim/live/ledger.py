"""What vehicles have lost so far, second by second, for the chart of a page; and who has still to come."""
from streetsim.base.arrays import Array
from streetsim.base.arrays import numpy as np
from streetsim.kernel.loop import Kernel, Observer
from streetsim.kernel.seconds import Seconds
from streetsim.live.hand import Hand

MOST_POINTS = 3600  # of a chart, beside its last one

Point = tuple[int, float, int, int | None]  # clock, mean seconds lost so far, ended, standing before a junction


class Ledger(Observer):
    """Seconds lost so far grow by those who would have ended alone and at green, and have not. Who is taken out counts
    as ended."""

    def __init__(self, hand: Hand, departs: Array, free: Array, node: int | None) -> None:
        """hand: of the same run; departs, free: the clocks, rising, at which vehicles wish to depart, and at which they
        would end; node: a junction before which those who stand are counted, none: nobody is."""
        self.hand, self.departs, self.free, self.node = hand, departs, free, node
        self.arrived = self.end_count = self.lost = 0
        self.every = 1  # seconds between two points, twice as many where they are more than MOST_POINTS
        self.points: list[Point] = []
        self.last: Point

    def begin(self, kernel: Kernel) -> None:
        """Nobody has lost anything."""
        self.ends = np.repeat([link.end for link in kernel.map.links], 2)
        self.has_departed = np.zeros(len(kernel.run.enters), bool)  # by vehicle of the file
        self.start, self.last = kernel.start, (kernel.start, 0.0, 0, None)
        self.points.append(self.last)

    def watch(self, node: int | None) -> None:
        """Counts those who stand before a junction from now on."""
        if node != self.node:
            self.node, self.points = node, [(*point[:3], None) for point in self.points]
            self.last = (*self.last[:3], None)

    def see(self, seconds: Seconds) -> None:
        """Takes some seconds."""
        self.has_departed[seconds.owner] = True
        self.has_departed[seconds.vehicles.owner[seconds.arrivals.car]] = True
        clocks, count = seconds.clocks[1:], len(seconds.clocks)
        arrived = self.arrived + np.cumsum(np.bincount(seconds.arrivals.second, minlength=count)[1:])
        end_counts = arrived + np.searchsorted(self.hand.takeout_clocks, clocks)
        lost = self.lost + np.cumsum(np.searchsorted(self.free, clocks, "right") - end_counts)
        wished = np.maximum(1, np.searchsorted(self.departs, clocks, "right"))
        queue = self.standing(seconds)[1:].tolist() if self.node is not None else [None] * len(clocks)
        self.add_points(list(zip(clocks.tolist(), (lost / wished).tolist(), end_counts.tolist(), queue)))
        self.arrived, self.end_count, self.lost = int(arrived[-1]), int(end_counts[-1]), int(lost[-1])

    def standing(self, seconds: Seconds) -> Array:
        """By second how many stand on links that lead to the junction, on cells or behind them."""
        is_queued = (self.ends[seconds.slot] == self.node) & ((seconds.speed == 0) | ~seconds.on)
        return np.bincount(seconds.second[is_queued], minlength=len(seconds.clocks))

    def wished(self, clock: int) -> int:
        """How many have wished to depart by a clock."""
        return int(np.searchsorted(self.departs, clock, "right"))

    def add_points(self, points: list[Point]) -> None:
        """Takes the next points, each of a second."""
        self.points += self.on_grid(points)
        self.last = points[-1]
        while len(self.points) > MOST_POINTS:
            self.every *= 2
            self.points = self.on_grid(self.points)

    def on_grid(self, points: list[Point]) -> list[Point]:
        """Those of some points that are a whole number of `every` seconds behind the begin."""
        return [point for point in points if (point[0] - self.start) % self.every == 0]

    def points_from(self, first_point: int) -> list[Point]:
        """The points from one on, by its place, and the last one, which stays no point where it is on no grid."""
        points = self.points[first_point:]
        return points if self.last[0] == self.points[-1][0] else [*points, self.last]
