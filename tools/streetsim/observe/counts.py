"""counts.csv and edges.csv: sums by period of who passes stop lines, and means over samples."""
from __future__ import annotations

from collections.abc import Iterator, Sequence

from streetsim.base.arrays import Array
from streetsim.base.arrays import numpy as np
from streetsim.base.client import Row
from streetsim.kernel.loop import Kernel, Observer
from streetsim.kernel.seconds import Seconds
from streetsim.model.mapping import Map, Place
from streetsim.model.tables import Entry
from streetsim.observe.sampling import Samples


class PeriodSums:
    """Whole numbers by period and by lane or link, from 0, with as many periods as were added to."""

    def __init__(self, columns: int) -> None:
        """columns: lanes or links."""
        self.columns, self.table = columns, np.zeros((0, columns), np.int64)

    def add(self, periods: Array, columns: Array, values: Array | None = None) -> None:
        """Adds 1, or a value, for each entry; periods: rising or near to each other."""
        if len(periods):
            low = int(periods.min())
            sums = np.bincount((periods - low) * self.columns + columns, values)
            rows = -(-len(sums) // self.columns)
            self.grow(low + rows)
            sums = np.append(sums, np.zeros(rows * self.columns - len(sums)))
            self.table[low : low + rows] += sums.reshape(rows, -1).astype(np.int64)

    def sums_of(self, period: int) -> Array:
        """The sums of a period, 0 where none was added to."""
        return self.table[period] if period < len(self.table) else np.zeros(self.columns, np.int64)

    def grow(self, rows: int) -> None:
        """Has so many periods at least."""
        if rows > len(self.table):
            more = np.zeros((rows - len(self.table), self.columns), np.int64)
            self.table = np.concatenate([self.table, more])


class Counts(Observer):
    """Counts by period who passes the stop line of each lane, how fast, and the seconds in which its last cell is
    covered; and from samples how many vehicles there are on links, and how fast these are."""

    def __init__(self, period: int, samples: Samples) -> None:
        """period: seconds; samples: when lanes are sampled."""
        self.period, self.samples = period, samples

    def begin(self, kernel: Kernel) -> None:
        """Nobody has passed."""
        self.kernel, self.links, self.start = kernel, kernel.map.links, kernel.start
        self.last_cell = np.repeat(np.array([link.cells - 1 for link in self.links], np.int32), 2)
        self.residence = np.repeat([kernel.map.nodes[link.end][3] for link in self.links], 2)
        self.passes, self.speeds, self.covered = (PeriodSums(2 * len(self.links)) for _ in range(3))
        self.sampled, self.present, self.moved, self.taken_out = (PeriodSums(len(self.links)) for _ in range(4))
        self.standing = {self.start: np.zeros(len(self.links), np.int64)}  # by clock: vehicles on the cells of links

    def see(self, seconds: Seconds) -> None:
        """Takes some seconds."""
        periods = (seconds.clocks - 1 - self.start) // self.period
        into, over = seconds.joined_buffer(self.residence), seconds.arrivals
        for second, slot, speed in (
            (seconds.second[into], seconds.slot[into], seconds.speed[into]),
            (over.second, over.slot, over.speed),
        ):
            self.passes.add(periods[second], slot)
            self.speeds.add(periods[second], slot, speed)
        begin = int(seconds.first[1])
        rows = np.flatnonzero(seconds.cell[begin:] == self.last_cell[seconds.slot[begin:]]) + begin
        self.covered.add(periods[seconds.second[rows]], seconds.slot[rows])
        self.note_samples(seconds, periods)

    def note_samples(self, seconds: Seconds, periods: Array) -> None:
        """Notes samples, and who is on links as periods end."""
        sampled = self.samples.among(seconds.clocks)
        self.sampled.add(periods[sampled], np.zeros(np.count_nonzero(sampled), np.int64))
        rows = np.flatnonzero(seconds.on & seconds.rows_in_seconds(sampled))
        period, link = periods[seconds.second[rows]], seconds.slot[rows] // 2
        self.present.add(period, link)
        self.moved.add(period, link, seconds.speed[rows])
        for second in np.flatnonzero((seconds.clocks - self.start) % self.period == 0):
            if second:
                at = slice(*seconds.first[second : second + 2])
                self.note_standing(int(seconds.clocks[second]), seconds.slot[at][seconds.on[at]])

    def note_standing(self, clock: int, slots: Array) -> None:
        """Notes how many vehicles are on links at a clock; slots: the lanes of those that are on cells."""
        self.standing[clock] = np.bincount(slots // 2, minlength=len(self.links))

    def end(self, clock: int) -> None:
        """Notes who is on links at the end, and who was taken out of them."""
        last_second = self.kernel.last_second
        self.note_standing(clock, last_second.slot[last_second.cell >= 0])
        self.clock, self.periods = clock, -(-(clock - self.start) // self.period)
        takeouts = [takeout for takeout in self.kernel.vehicles.takeouts if takeout.on_lane]
        clocks = np.array([takeout.clock for takeout in takeouts], np.int64)
        slots = np.array([takeout.slot for takeout in takeouts], np.int64)
        self.taken_out.add((clocks - self.start) // self.period, slots // 2)
        for sums in (self.passes, self.speeds, self.covered, self.sampled, self.present, self.moved, self.taken_out):
            sums.grow(self.periods)

    def row(self, lane_key: Place, period: int) -> Row:
        """What a lane counted in a period, by its number from 0."""
        slot, begin = 2 * lane_key[0] + lane_key[1], self.start + period * self.period
        figures = (int(sums.table[period, slot]) for sums in (self.passes, self.speeds, self.covered))
        return Row(begin, min(self.period, self.clock - begin), *figures)

    def count_rows(self) -> Iterator[Entry]:
        """The rows of counts.csv, (begin, end, edge, link, SUMO's index of the lane, vehicles, vehicles an hour, km/h,
        percentage of time in which its cell is covered), for each period and lane; km/h is empty where nobody
        passed."""
        for lane_key in self.kernel.map.lanes():
            link = self.links[lane_key[0]]
            for period in range(self.periods):
                row = self.row(lane_key, period)
                measures = f"{row.flow * 3600:.1f}", row.kmh(link.cell_metres), f"{row.density * 100:.1f}"
                head = row.start, row.start + row.steps, link.edge, lane_key[0], link.lanes[lane_key[1]]
                yield *head, row.passes, *measures

    def edge_rows(self) -> Iterator[Entry]:
        """The rows of edges.csv, (begin, end, edge, entered, left, vehicles a kilometre, km/h, travel time in seconds),
        with texts of two decimals, for each period and edge, as in SUMO's edgeData; empty texts for what is not known.
        Who came to an edge are those who left it, who are there at the end and were not at the begin, and who were
        taken out."""
        mapping = self.kernel.map
        of_edges = mapping.links_of.items()
        slots = {edge: [2 * link + lane for link, lane in mapping.lanes(links)] for edge, links in of_edges}
        for period in range(self.periods):
            begin = self.start + period * self.period
            end = min(begin + self.period, self.clock)
            change = self.standing[end] - self.standing[begin] + self.taken_out.table[period]
            for edge, links in mapping.links_of.items():
                exited = int(self.passes.table[period, slots[edge]].sum())
                entered = exited + int(change[links].sum()) if self.samples.has_samples else ""
                texts = ("" if value is None else f"{value:.2f}" for value in self.seen_on(mapping, links, period))
                yield begin, end, edge, entered, exited, *texts

    def seen_on(
        self, mapping: Map, links: Sequence[int], period: int
    ) -> tuple[float | None, float | None, float | None]:
        """(vehicles a kilometre, km/h, seconds of travel) of an edge, by its links, in a period by its number, by the
        mean speed of all who were seen; None for each that is not known."""
        count = int(self.sampled.table[period, 0])
        if not count:
            return None, None, None
        edge_links = sorted(set(links))
        tables = self.present.table, self.moved.table
        vehicles, speeds = (sum(int(table[period, link]) / count for link in edge_links) for table in tables)
        first_link = mapping.links[links[0]]
        density = vehicles / (first_link.metres / 1000)
        if not speeds:
            return density, 0.0 if vehicles else None, None
        seconds = first_link.cells * vehicles / speeds
        return density, first_link.metres / seconds * 3.6, seconds
