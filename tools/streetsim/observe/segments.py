"""segments.csv and routes.csv: seconds from stop line to stop line."""
from __future__ import annotations

from collections.abc import Iterable, Iterator, Sequence
from dataclasses import dataclass
from itertools import pairwise

from streetsim.base.array_groups import groups_of
from streetsim.base.arrays import Array
from streetsim.base.arrays import numpy as np
from streetsim.kernel.loop import Kernel, Observer
from streetsim.kernel.seconds import Seconds, by_number
from streetsim.model.tables import Entry
from streetsim.observe.log import Log, by_period

SHARES = (0.15, 0.5, 0.85, 0.95)
NO_LINE = -1
EDGE = "i2"  # more than a network has edges


@dataclass(slots=True)
class SegmentEnds:
    """The ends of segments, as columns, by vehicle and then by clock: the vehicle's number in the file, the clock from
    which on it was behind a stop line, the line's edge by its place in the map, and of where it came from the edge and
    the clock. An arrival counts as passing the line of the last edge. NO_LINE stands for no edge: there a vehicle was
    rescued on a lane, or was when the run ended; from there are those who depart, by their wished departure, or are
    entered anew."""

    owner: Array
    clock: Array
    edge: Array
    since: Array
    line_before: Array


class Segments(Observer):
    """Notes when vehicles pass stop lines."""

    COLUMNS = {"clock": "i4", "owner": "i4", "edge": EDGE, "since": "i4", "before": EDGE}  # as of Ends

    def begin(self, kernel: Kernel) -> None:
        """Nobody has passed."""
        self.kernel, mapping = kernel, kernel.map
        self.residence = np.repeat([mapping.nodes[link.end][3] for link in mapping.links], 2)
        self.edges = list(mapping.links_of)
        numbers = {edge: number for number, edge in enumerate(self.edges)}
        self.edge_of = np.array([numbers[link.edge] for link in mapping.links], EDGE)
        self.log, self.noted_takeouts = Log(self.COLUMNS), 0  # noted_takeouts: that are in it
        self.departs = kernel.run.departs().astype(np.int32)
        # By vehicle, where its last segment ended.
        self.since, self.line_before = self.departs.copy(), np.full(len(self.departs), NO_LINE, EDGE)
        self.is_under_way = np.ones(len(self.departs), bool)  # or to depart, by vehicle

    def see(self, seconds: Seconds) -> None:
        """Takes some seconds."""
        into, over = seconds.joined_buffer(self.residence), seconds.arrivals
        second = np.append(seconds.second[into], over.second)
        owner = np.append(seconds.owner[into], seconds.vehicles.owner[over.car])
        slot = np.append(seconds.slot[into], over.slot)
        self.note(owner, seconds.clocks[second], self.edge_of[slot // 2], int(seconds.clocks[-1]))
        self.is_under_way[seconds.vehicles.owner[over.car]] = False

    def end(self, clock: int) -> None:
        """Notes where vehicles ended otherwise."""
        self.until, nobody = clock, np.zeros(0, np.int32)
        self.note(nobody, nobody, nobody, clock + 1)
        under_way = np.flatnonzero(self.is_under_way & (self.departs < clock))
        self.note(under_way, np.full(len(under_way), clock), np.full(len(under_way), NO_LINE), clock + 1)

    def note(self, owner: Array, clock: Array, edge: Array, until: int) -> None:
        """Notes ends of segments, as columns by clock, and those of vehicles that were taken out of a lane before a
        clock."""
        takeouts = self.kernel.vehicles.takeouts
        while self.noted_takeouts < len(takeouts) and takeouts[self.noted_takeouts].clock < until:
            if (takeout := takeouts[self.noted_takeouts]).on_lane:
                columns = self.kernel.vehicles.owner[takeout.car], takeout.clock, NO_LINE
                owner, clock, edge = (np.append(those, value) for those, value in zip((owner, clock, edge), columns))
            self.noted_takeouts += 1
        order = np.lexsort((clock, owner))
        owner, clock, edge = owner[order], clock[order], edge[order]
        fresh = np.append(True, owner[1:] != owner[:-1])[: len(owner)]
        since, before = np.roll(clock, 1), np.roll(edge, 1)
        since[fresh], before[fresh] = self.since[owner[fresh]], self.line_before[owner[fresh]]
        last_rows = np.roll(fresh, -1)
        self.since[owner[last_rows]], self.line_before[owner[last_rows]] = clock[last_rows], edge[last_rows]
        self.log.add({"clock": clock, "owner": owner, "edge": edge, "since": since, "before": before})

    def ends(self) -> SegmentEnds:
        """All that was noted."""
        columns = self.log.all_of(self.log.parts, len(self.log))
        order = by_number(columns["owner"])  # who passes lines does so in the order in which they were noted
        return SegmentEnds(*(columns[name][order] for name in ("owner", "clock", "edge", "since", "before")))

    def segment_rows(self, period: int) -> Iterator[Entry]:
        """The rows of segments.csv, (begin, end, from, to, then what `travel_time_columns` gives), by periods of so
        many seconds in which segments end: from the stop line of an edge to that of the next; an empty name is that of
        NO_LINE."""
        names = ["", *self.edges]
        for _, rows in by_period(self.log.parts, self.kernel.start, period):
            pairs = (rows["before"].astype(np.int32) - NO_LINE) * len(names) + rows["edge"] - NO_LINE
            for begin, end, pair, columns in self.grouped(rows["clock"], pairs, rows["clock"] - rows["since"], period):
                yield begin, end, names[pair // len(names)], names[pair % len(names)], *columns

    def route_rows(self, routes: Iterable[Sequence[str]], period: int) -> Iterator[Entry]:
        """The rows of routes.csv, (begin, end, edges, then what `travel_time_columns` gives), by periods: of vehicles
        that drive over all edges of a route, one behind the other, from the stop line of the first to that of the last,
        by the clock there. Who was rescued on the way there is left out."""
        ends = self.ends()
        for route in routes:
            last_rows = np.arange(len(route) - 1, len(ends.owner))
            first_rows = last_rows - (len(route) - 1)
            fits = ends.owner[first_rows] == ends.owner[last_rows]
            for step, edge in enumerate(route):
                fits &= ends.edge[first_rows + step] == self.edges.index(edge)
            clocks, since = ends.clock[last_rows[fits]], ends.clock[first_rows[fits]]
            for begin, end, _, columns in self.grouped(clocks, np.zeros_like(clocks), clocks - since, period):
                yield begin, end, " ".join(route), *columns

    def grouped(
        self, clocks: Array, keys: Array, seconds: Array, period: int
    ) -> Iterator[tuple[int, int, int, Entry]]:
        """(begin, end, key, what `travel_time_columns` gives) for each period and key that has any, in their order;
        clocks: in which period each counts."""
        start = self.kernel.start
        numbers = (clocks - 1 - start) // period
        order = by_number(numbers)
        bounds = np.append(0, np.cumsum(np.bincount(numbers))).tolist()
        for number, (begin_row, end_row) in enumerate(pairwise(bounds)):
            rows = order[begin_row:end_row]
            rows = rows[np.lexsort((seconds[rows], keys[rows]))]
            firsts, _ = groups_of(keys[rows])
            begin = start + number * period
            groups = travel_time_columns(seconds[rows], firsts)
            for key, columns in zip(keys[rows[firsts]].tolist(), groups, strict=True):
                yield begin, min(begin + period, self.until), key, columns


def travel_time_columns(seconds: Array, firsts: Array) -> Iterator[Entry]:
    """(how many, mean, standard deviation, 15, 50, 85 and 95 %) of groups of seconds, with one decimal; the deviation,
    of a sample, is empty for one alone. firsts: where each group begins, in which seconds rise."""
    counts = np.diff(np.append(firsts, len(seconds)))
    means = np.add.reduceat(seconds, firsts) / counts if len(firsts) else counts
    squares = (seconds - np.repeat(means, counts)) ** 2
    deviations = np.sqrt(np.add.reduceat(squares, firsts) / np.maximum(1, counts - 1)) if len(firsts) else counts
    shares = []
    for share in SHARES:
        positions = share * (counts - 1)
        low = positions.astype(np.int64)
        least, more = seconds[firsts + low], seconds[firsts + np.minimum(low + 1, counts - 1)]
        shares.append((least + (positions - low) * (more - least)).tolist())
    for count, mean, deviation, *parts in zip(counts.tolist(), means.tolist(), deviations.tolist(), *shares):
        yield count, f"{mean:.1f}", f"{deviation:.1f}" if count > 1 else "", *(f"{value:.1f}" for value in parts)
