"""detectors.csv and areas.csv: SUMO's induction loops and lane areas."""
from __future__ import annotations

from collections.abc import Iterator

from streetsim.base.arrays import Array
from streetsim.base.arrays import numpy as np
from streetsim.base.client import Row
from streetsim.kernel.loop import Kernel, Observer
from streetsim.kernel.seconds import Arrivals, Seconds, by_number
from streetsim.model.detectors import E1, E2, Areas
from streetsim.model.mapping import Place
from streetsim.model.tables import Entry
from streetsim.observe.sampling import Samples

BEYOND = 1 << 30  # a cell behind all others


class Detectors(Observer):
    """Counts who passes and who covers the cells of induction loops, in each second, and samples lane areas."""

    def __init__(self, samples: Samples) -> None:
        """samples: when lane areas are looked at."""
        self.samples = samples

    def begin(self, kernel: Kernel) -> None:
        """Nobody has passed."""
        self.kernel = kernel
        self.loops = [detector for detector in kernel.map.detectors if detector.kind == E1]
        self.areas = Areas([detector for detector in kernel.map.detectors if detector.kind == E2], kernel.start)
        self.tables = [np.zeros((0, 3), np.int64) for _ in self.loops]  # by period: passes, speeds, seconds covered

    def see(self, seconds: Seconds) -> None:
        """Takes some seconds."""
        if self.loops:
            self.see_loops(seconds)
        if self.areas.detectors:
            for second in np.flatnonzero(self.samples.among(seconds.clocks)):
                self.areas.sample(int(seconds.clocks[second]), lambda key: cells_of(seconds, int(second), key))

    def see_loops(self, seconds: Seconds) -> None:
        """Looks at each vehicle where its front was a second ago, on this link, and is now; who has left it is beyond
        all cells."""
        over = seconds.arrivals
        car, second, slot, speed = (columns(seconds, over, name) for name in ("car", "second", "slot", "speed"))
        size = seconds.vehicles.size[car]
        cell = np.append(np.where(seconds.on, seconds.cell, BEYOND), np.full(len(over.car), BEYOND))
        order = by_number(car)
        if len(over.car):
            order = order[np.lexsort((second[order], car[order]))]
        a, b = order[:-1], order[1:]
        stays = (car[a] == car[b]) & (second[b] == second[a] + 1) & (slot[a] // 2 == slot[b] // 2) & (cell[a] != BEYOND)
        a, b = a[stays], b[stays]
        for number, loop in enumerate(self.loops):
            at = 2 * loop.link + loop.lane
            passed = b[(slot[b] == at) & (cell[a] <= loop.first) & (cell[b] > loop.first)]
            covers = (slot == at) & (cell != BEYOND) & (cell >= loop.first) & (cell - size < loop.first) & (second > 0)
            periods = (seconds.clocks - 1 - self.kernel.start) // loop.period
            table = grown(self.tables[number], int(periods[-1]) + 1)
            for column, rows, weight in ((0, passed, 1), (1, passed, speed[passed]), (2, np.flatnonzero(covers), 1)):
                np.add.at(table, (periods[second[rows]], column), weight)
            self.tables[number] = table

    def end(self, clock: int) -> None:
        """Notes the end."""
        self.clock = clock

    def loop_rows(self) -> Iterator[Entry]:
        """The rows of detectors.csv, (begin, end, id, vehicles, vehicles an hour, km/h, occupancy in percent), of each
        period of each induction loop (e1); km/h is empty where nobody passed."""
        for loop, table in zip(self.loops, self.tables, strict=True):
            for at, figures in enumerate(table.tolist()):
                begin = self.kernel.start + at * loop.period
                row = Row(begin, min(loop.period, self.clock - begin), *figures)
                flow, density = f"{row.flow * 3600:.1f}", f"{row.density * 100:.1f}"
                yield begin, begin + row.steps, loop.name, row.passes, flow, row.kmh(loop.cell_metres), density

    def area_rows(self) -> Iterator[Entry]:
        """The rows of areas.csv, (begin, end, id, mean and most vehicles, km/h, occupancy in percent, mean and longest
        jam in vehicles), of each period of each lane area (e2); km/h is empty where nobody was seen."""
        for detector in self.kernel.map.detectors:
            periods = (item for item in self.areas.by_period.items() if item[0][0] == detector.name)
            for (_, begin), area in sorted(periods):
                metres = (detector.last - detector.first + 1) * detector.cell_metres
                vehicles = f"{area.vehicles / area.samples:.2f}", area.most_vehicles
                speed = f"{area.speeds / area.vehicles * 3.6 * detector.cell_metres:.1f}" if area.vehicles else ""
                occupancy = f"{area.covered / area.samples / metres * 100:.1f}"
                jam = f"{area.jams / area.samples:.2f}", area.longest
                yield begin, min(begin + detector.period, self.clock), detector.name, *vehicles, speed, occupancy, *jam


def columns(seconds: Seconds, over: Arrivals, name: str) -> Array:
    """A column of the rows of some seconds, and behind it that of those who arrived."""
    return np.concatenate([getattr(seconds, name), getattr(over, name)])


def grown(table: Array, rows: int) -> Array:
    """A table with so many rows at least, the new ones 0."""
    more = np.zeros((max(0, rows - len(table)), table.shape[1]), table.dtype)
    return np.concatenate([table, more]) if len(more) else table


def cells_of(seconds: Seconds, second: int, lane_key: Place) -> list[list[int]]:
    """The vehicles on the cells of a lane in a second: car, cell, speed, size; the greatest cell first."""
    begin, slot = int(seconds.first[second]), 2 * lane_key[0] + lane_key[1]
    slots = seconds.slot[begin : seconds.first[second + 1]]
    low, high = (begin + np.searchsorted(slots, (slot, slot + 1))).tolist()
    rows = slice(low, low + np.count_nonzero(seconds.on[low:high]))
    vehicles = [column[rows] for column in (seconds.car, seconds.cell, seconds.speed, seconds.size)]
    return np.array(vehicles).T.tolist()
