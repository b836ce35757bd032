"""Follows vehicles over approaches while a run is made, and writes movements.csv, approaches.csv and junctions.csv at
its end."""
from __future__ import annotations

import itertools
import pickle
import zlib
from collections.abc import Iterable, Iterator, Mapping, Sequence
from dataclasses import replace

from streetsim.base.arrays import Array, numpy as np
from streetsim.base.report import first_few
from streetsim.control.bus_fleet import Dwell, StopOutcome, dwells
from streetsim.kernel.loop import Kernel
from streetsim.kernel.seconds import Seconds
from streetsim.model.doubts import LANE, Doubt, joined, place_of
from streetsim.model.names import Names
from streetsim.observe.crossings import Crossed
from streetsim.observe.junction_facing import junctions_with_facing_streets
from streetsim.observe.junction_layout import approaches_cut_short
from streetsim.observe.junction_measures import Interval
from streetsim.observe.junction_rows import JunctionTables, as_seen
from streetsim.observe.lane_utilisation import UtilisationCalculator
from streetsim.observe.passages import Passages
from streetsim.observe.shown import ShownPlans
from streetsim.observe.shown_intervals import COUNT, make_shown_interval


QUARTER, SHORTEST_PART = 900, 300  # seconds by which wider intervals are doubted, at most and at least


def part_of(interval: int) -> int:
    """The seconds of the parts by which an interval of so many is doubted, since a queue of a quarter of an hour is not
    seen in a mean of an hour: itself where it is no longer, or no such part divides it."""
    parts = (part for part in range(QUARTER, SHORTEST_PART - 1, -1) if interval % part == 0)
    return interval if interval <= QUARTER else next(parts, interval)


class Junctions(Passages):
    """Follows vehicles over approaches, and sums up what lanes showed, by intervals and their parts."""

    def __init__(self, interval: int) -> None:
        """interval: seconds of one."""
        self.interval, self.part = interval, part_of(interval)

    def begin(self, kernel: Kernel) -> None:
        """Nothing is kept."""
        super().begin(kernel)
        self.begun_interval: list[tuple[Array, Array]] = []  # of the interval under way: queues, who had stood
        # Of each interval a packed ShownInterval, and of each part, where these are shorter.
        self.packed_intervals: list[bytes] = []
        self.packed_parts: list[bytes] = []
        # Begin, and seconds to come, of the interval under way.
        self.clock, self.seconds_left = kernel.start, self.interval
        signals = [(kernel.start, line.command) for line in kernel.run.first if line.command["cmd"] == "signal"]
        self.shown_plans, self.sent_count = ShownPlans(kernel.map, signals), 0  # sent_count: lines in them

    def log_lanes(self, seconds: Seconds, back: Array, stood: Array) -> None:
        """Takes what lanes showed in some seconds."""
        while len(back) and self.lane_keys:
            self.begun_interval.append((back[: self.seconds_left], stood[: self.seconds_left].astype(COUNT)))
            count = len(self.begun_interval[-1][0])
            back, stood, self.seconds_left = back[count:], stood[count:], self.seconds_left - count
            if not self.seconds_left:
                self.keep_interval()

    def keep_interval(self) -> None:
        """Sums up the interval under way, which is over."""
        sent = self.kernel.sent_lines[self.sent_count :]
        lines = ((following.clock, following.line.command) for following in sent if not following.for_a_gap)
        self.shown_plans.plans.add((clock, command) for clock, command in lines if command["cmd"] == "signal")
        self.sent_count += len(sent)
        back, stood = (np.concatenate(parts) for parts in zip(*self.begun_interval, strict=True))
        self.packed_intervals.append(self.packed(0, back, stood))
        for first in range(0, len(back), self.part) if self.part < self.interval else ():
            some = slice(first, first + self.part)
            self.packed_parts.append(self.packed(first, back[some], stood[some]))
        self.begun_interval, self.clock, self.seconds_left = [], self.clock + len(back), self.interval

    def packed(self, first: int, back: Array, stood: Array) -> bytes:
        """What lanes showed in some seconds from the first one of the interval under way on, packed."""
        clock = self.clock + first
        shown_interval = make_shown_interval(self.shown_plans, self.lanes, self.lane_keys, clock, back, stood)
        return zlib.compress(pickle.dumps(shown_interval), 1)

    def end(self, clock: int) -> None:
        """Sums up the last interval, which may be shorter."""
        self.until = clock
        if self.begun_interval:
            self.keep_interval()

    def write(
        self, folder: str, stops: Iterable[StopOutcome], doubts: Sequence[Doubt]
    ) -> tuple[list[str], list[str], list[Doubt]]:
        """Writes movements.csv, approaches.csv and junctions.csv into the folder of a run; stops: what became of them;
        doubts: with places. Gives (sentences for the terminal; why the tables are not to be trusted; the doubts with
        those of rows by their own values, and of lanes that are full by the demand those that were seen to be). Fault
        where one cannot be written."""
        run, mapping = self.kernel.run, self.kernel.map
        dwells_of, cut_short = dwells(stops), approaches_cut_short(mapping, self.approaches)
        found_by_parts, held_by_parts = self.doubts_of_parts(dwells_of, doubts, cut_short)
        known = [*doubts, *(replace(doubt, why=f"{doubt.why}{doubt.when_told()}") for doubt in found_by_parts)]
        tables, intervals = self.tables_by(self.interval, self.packed_intervals, dwells_of, known, cut_short)
        tables.write(folder, Names(mapping), intervals)
        messages = list[str]()
        if facing := junctions_with_facing_streets(mapping, run.plans(), (self.until - self.kernel.start) / 3600):
            where = "where minor streets wait for each other"
            messages.append(f"junctions: delays are too small {where}: {first_few(facing)}")
        beyond, texts = queues_beyond_messages(sorted(tables.filled.intersection(cut_short)))
        held = [one for one in doubts if one.kind != LANE]
        ratios = [tables.doubts_held, held_by_parts]
        held += [as_seen(one, max(own.get(one, 0.0) for own in ratios)) for one in tables.doubts_held | held_by_parts]
        places = {place_of(one) for one in found_by_parts}
        found = [one for one in joined(tables.doubts_found) if place_of(one) not in places]
        return messages + beyond, texts, [*held, *found_by_parts, *found]

    def tables_by(
        self, interval: int, packed_shown: Iterable[bytes], dwells_of: Mapping[int, Sequence[Dwell]],
        doubts: Sequence[Doubt], cut_short: Iterable[str],
    ) -> tuple[JunctionTables, Iterator[Interval]]:  # fmt: skip
        """(tables without a row, the intervals of which they are made, by intervals of so many seconds). packed_shown:
        of each interval; the passages are let go."""
        kernel = self.kernel
        crossed = Crossed(self, kernel.plans, interval, dwells_of)
        calculator = UtilisationCalculator(self, self.shown_plans, crossed, kernel.run.load.command["dawdle"])
        in_parts = interval < self.interval
        tables = JunctionTables(self.approaches, kernel.map, doubts, cut_short, calculator.giving, in_parts)
        unpacked = map(pickle.loads, map(zlib.decompress, packed_shown))
        return tables, itertools.starmap(calculator.interval_measures, enumerate(unpacked))

    def doubts_of_parts(
        self, dwells_of: Mapping[int, Sequence[Dwell]], doubts: Sequence[Doubt], cut_short: Iterable[str]
    ) -> tuple[list[Doubt], dict[Doubt, float]]:
        """What the parts of intervals say against themselves, and the doubts of lanes that are full by the demand which
        they hold, with their greatest v/c; nothing where there are none. The passages stay."""
        if not self.packed_parts:
            return [], {}
        passages = list(self.log.parts)
        tables, parts = self.tables_by(self.part, self.packed_parts, dwells_of, doubts, cut_short)
        self.log.parts = passages
        for part in parts:
            tables.add(part)
            tables.clear()
        return list(joined(tables.doubts_found)), tables.doubts_held


def queues_beyond_messages(approaches: list[str]) -> tuple[list[str], list[str]]:
    """(a sentence for the terminal, a doubt), each in a list, on approaches beyond which queues went on, if any."""
    if not approaches:
        return [], []
    small, names = "delays, letters and queues are too small", first_few(approaches)
    where = "where a queue fills an approach and goes on in the edge before it, which no table has"
    doubt = f"junction tables: {small} at {names}, as queues go on in the edges before, which no table has"
    return [f"junctions: {small} {where}: {names}"], [doubt]
