"""queues.csv and summary.csv: who stands at stop lines at polls, and how many vehicles are where each minute."""
from __future__ import annotations

from collections.abc import Collection, Iterator

from streetsim.base.array_groups import rounded
from streetsim.base.arrays import Array, numpy as np
from streetsim.base.client import Census
from streetsim.kernel.loop import Kernel, Observer
from streetsim.kernel.seconds import Seconds
from streetsim.model.mapping import Place
from streetsim.model.standing import LaneRows, standing_at_stop_lines
from streetsim.model.tables import STOP_LINE, Entry
from streetsim.observe.log import Log
from streetsim.observe.trips import TripsTable

MINUTE = 60  # seconds between the rows of summary.csv


class Queues(Observer):
    """Notes at polls who stands without a gap from the stop line on."""

    def __init__(self, every: int, polled: Collection[Place] | None = None) -> None:
        """every: seconds between polls, 0: there are none; polled: the lanes that are polled, None: all."""
        self.every, self.polled = every, polled
        self.log = Log({"clock": "i4", "slot": "u2", "vehicles": "i4", "covered": "i4"})  # cells that they cover

    def begin(self, kernel: Kernel) -> None:
        """Nobody stands."""
        self.kernel = kernel
        self.cells = np.array([link.cells for link in kernel.map.links], np.int64)
        self.polled_slots = find_polled_slots(self.polled, 2 * len(self.cells))

    def see(self, seconds: Seconds) -> None:
        """Takes some seconds."""
        if not self.every:
            return
        is_polled = seconds.rows_in_seconds(seconds.clocks % self.every == 0)
        rows = np.flatnonzero(is_polled & seconds.on & self.polled_slots[seconds.slot])
        columns = (seconds.second, seconds.slot, seconds.cell, seconds.speed, seconds.size)
        queues = standing_at_stop_lines(LaneRows(*(column[rows] for column in columns)), self.cells)
        clocks = seconds.clocks[queues.clock_place]
        self.log.add({"clock": clocks, "slot": queues.slot, "vehicles": queues.vehicles, "covered": queues.covered})

    def columns(self) -> Iterator[tuple[Array, ...]]:
        """The columns of queues.csv at stop lines, in parts: clock, edge, SUMO's index of the lane, vehicles, metres
        that they cover, before what, empty; by clock and lane."""
        links = self.kernel.map.links
        edges = np.array([link.edge for link in links], object)
        lanes = np.array([(link.lanes[0], link.lanes[-1]) for link in links]).reshape(-1)
        cell_metres = np.array([link.cell_metres for link in links])
        for part in self.log.parts:
            link, rows = part["slot"] // 2, len(part["slot"])
            metres = rounded(part["covered"] * cell_metres[link], 1)
            head = part["clock"], edges[link], lanes[part["slot"]], part["vehicles"]
            yield *head, metres, np.full(rows, STOP_LINE, object), np.full(rows, "", object)

    def rows(self) -> Iterator[Entry]:
        """The rows of these columns."""
        for columns in self.columns():
            yield from zip(*(column.tolist() for column in columns), strict=True)


class Summary(Observer):
    """Counts all vehicles each minute, at other clocks that are told, and at the end."""

    def __init__(self, trips: TripsTable, looks: Collection[int] = ()) -> None:
        """trips: of the same run, which sees each second before; looks: further clocks, which may grow."""
        self.trips, self.looks = trips, looks
        self.counts: list[tuple[int, int, int]] = []  # clock, vehicles on cells, in buffers

    def begin(self, kernel: Kernel) -> None:
        """Nothing is counted."""
        self.kernel = kernel

    def see(self, seconds: Seconds) -> None:
        """Takes some seconds."""
        due = (seconds.clocks % MINUTE == 0) | np.isin(seconds.clocks, list(self.looks))
        for second in np.flatnonzero(due):
            if second:
                at = slice(*seconds.first[second : second + 2].tolist())
                cells = int(np.count_nonzero(seconds.on[at]))
                self.counts.append((int(seconds.clocks[second]), cells, at.stop - at.start - cells))

    def end(self, clock: int) -> None:
        """Counts who is there at the end."""
        if not self.counts or self.counts[-1][0] != clock:
            cells = int(np.count_nonzero(self.kernel.last_second.cell >= 0))
            self.counts.append((clock, cells, len(self.kernel.last_second.cell) - cells))

    def censuses(self) -> Iterator[Census]:
        """The counts, without vehicles that wish to depart then or later."""
        arrival = np.sort(self.trips.arrival[self.trips.arrival > 0])
        taken_out = np.sort([takeout.clock for takeout in self.kernel.vehicles.takeouts])
        departs = self.kernel.departs
        for clock, cells, buffers in self.counts:
            arrived, out = int(np.searchsorted(arrival, clock, "right")), int(np.searchsorted(taken_out, clock))
            admitted = int(np.searchsorted(departs, clock)) + out
            waiting = admitted - arrived - out - cells - buffers
            yield Census(admitted, arrived, buffers, cells, clock, out, waiting)


def find_polled_slots(polled: Collection[Place] | None, slots: int) -> Array:
    """By slot whether its lane is polled; polled: as of Queues."""
    if polled is None:
        return np.ones(slots, bool)
    is_polled = np.zeros(slots, bool)
    is_polled[[2 * link + lane for link, lane in polled]] = True
    return is_polled
