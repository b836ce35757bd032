"""Reckons v/c, saturation flows, losses and queues of an interval from the passages of a run, when the run has ended;
for the junction tables."""
from __future__ import annotations

from collections.abc import Iterator
from typing import NamedTuple

from streetsim.base.arrays import Array, numpy as np
from streetsim.kernel.seconds import SLOTS, by_number
from streetsim.model.fullness import passing_in_green
from streetsim.model.mapping import Place
from streetsim.observe.crossings import Crossed
from streetsim.observe.junction_capacity import (
    QUEUES, USUAL_LOST, Discharge, Saturation, all_have_same_green, mean_saturation, usual_flow,
)
from streetsim.observe.junction_layout import lanes_that_give_way
from streetsim.observe.junction_measures import Interval
from streetsim.observe.log import Columns
from streetsim.observe.passages import Passages
from streetsim.observe.shown import ShownPlans
from streetsim.observe.shown_intervals import ShownInterval

GROUP_GAP = 8  # seconds without a vehicle end a group that leaves a queue
QUEUE = 8  # vehicles of a queue from which on its headways count
ALWAYS = 0.95  # of the green with somebody there who has stood: what passes then is all that can


class LaneGreens(NamedTuple):
    """What some phases show to the lanes that lead to a node."""

    has_green: Array  # by lane and phase whether a link has green to which vehicles go from there
    same_green: Array  # by lane whether all its vehicles have the same green, in which none gives way


class UtilisationCalculator:
    """What is known of the intervals of a run whose passages have ended."""

    def __init__(self, passages: Passages, shown_plans: ShownPlans, crossed: Crossed, dawdle: float) -> None:
        """dawdle: of 1,000."""
        self.passages, self.shown_plans, self.crossed = passages, shown_plans, crossed
        slots = {(link, lane): 2 * link + lane for link, lane in passages.lane_keys}
        self.used_links: dict[Place, set[int]] = {key: set() for key in slots}  # the links to which vehicles go from it
        for slot, link in zip(*(column.tolist() for column in np.divmod(crossed.lane_links, SLOTS)), strict=True):
            self.used_links[slot // 2, slot % 2].add(link)
        log = crossed.log.all_of(crossed.log.take_parts(), len(crossed.log))
        order = by_number(log["slot"])
        bounds = np.searchsorted(log["slot"], np.arange(len(passages.cells) + 1), sorter=order).tolist()
        rows_of = {key: order[bounds[slot] : bounds[slot + 1]] for key, slot in slots.items()}
        self.discharged = {key: list(self.discharges(key, log, rows)) for key, rows in rows_of.items()}
        everywhere = [discharge for discharges in self.discharged.values() for discharge in discharges]
        usual = Saturation(usual_flow(dawdle), USUAL_LOST)
        self.usual = mean_saturation(everywhere) if len(everywhere) >= QUEUES else usual
        enough = {key: discharges for key, discharges in self.discharged.items() if len(discharges) >= QUEUES}
        self.saturation_by_lane = {key: mean_saturation(discharges) for key, discharges in enough.items()}
        self.lanes = np.array([lane for lanes in passages.lanes.values() for lane in lanes], np.int64)  # as shown
        self.lane_keys = [passages.lane_keys[lane] for lane in self.lanes.tolist()]
        rates = [self.saturation_of(key) for key in self.lane_keys]
        self.flow = np.array([rate.flow for rate in rates], float)
        self.lost = np.array([rate.lost for rate in rates], float)
        self.greens: dict[tuple[int, tuple[int, ...]], LaneGreens] = {}  # by node and phases
        self.giving = lanes_that_give_way(passages.kernel.map, shown_plans.plans)

    def saturation_of(self, lane_key: Place) -> Saturation:
        """How a lane passes queues: as it did where there were QUEUES discharges, else as all lanes of the run did
        where there were as many together, else as usual."""
        return self.saturation_by_lane.get(lane_key, self.usual)

    def discharges(self, lane_key: Place, log: Columns, rows: Array) -> Iterator[Discharge]:
        """The discharges of a lane's queues of QUEUE vehicles and more; those of which one has not stood, or whose
        green's begin is not known, are left out. log: as of Crossed; rows: its rows of the lane."""
        rows = rows[np.argsort(log["line"][rows], kind="stable")]
        lines, before, stood = (log[name][rows] for name in ("line", "before", "stood"))
        bounds = np.flatnonzero(np.concatenate([[True], np.diff(lines) > GROUP_GAP, [True]])) if len(rows) else rows
        for at in np.flatnonzero(np.diff(bounds) >= QUEUE).tolist():
            begin, end = bounds[at : at + 2].tolist()
            end = min(end, begin + int(before[begin]))
            if end - begin >= QUEUE and stood[begin:end].all():
                first, fourth, last = (int(lines[at]) for at in (begin, begin + 3, end - 1))
                if (green := self.shown_plans.plans.begin_of(*lane_key, first - 1)) is not None:
                    headway = (last - fourth) / (end - begin - 4)
                    yield Discharge(headway, fourth - green - 4 * headway)

    def interval_measures(self, number: int, shown_interval: ShownInterval) -> Interval:
        """What vehicles lost whose passages ended in an interval, by its number from 0, and the queues and the use of
        lanes then."""
        interval = Interval(shown_interval.begin, shown_interval.end)
        interval.lost, interval.lanes = self.crossed.losses_in(number)
        ends = np.cumsum(shown_interval.cycles).tolist()
        queues = shown_interval.queues.astype(np.float64).tolist()
        interval.queues = {key: queues[begin:end] for key, begin, end in zip(self.lane_keys, [0, *ends], ends)}
        self.add_uses(interval, number, shown_interval)
        return interval

    def greens_of(self, node: int, phases: tuple[int, ...]) -> LaneGreens:
        """What some phases show to the lanes that lead to a node."""
        if (node, phases) not in self.greens:
            lane_keys = [self.passages.lane_keys[lane] for lane in self.passages.lanes[node]]
            used = [self.used_links[lane_key] for lane_key in lane_keys]
            lanes = list(zip(self.shown_plans.greens(node, lane_keys, phases), used, strict=True))
            self.greens[node, phases] = LaneGreens(
                np.array([[shown is None or bool(shown & links) for shown in greens] for greens, links in lanes]),
                np.array([
                    lane_key not in self.giving and all_have_same_green(greens, links)
                    for lane_key, (greens, links) in zip(lane_keys, lanes)
                ]),
            )
        return self.greens[node, phases]

    def greens_in(self, shown: ShownInterval) -> LaneGreens:
        """What the spans of an interval show to lanes."""
        parts, ends = [], np.cumsum(shown.spans).tolist()
        for node, first, last in zip(self.passages.lanes, [0, *ends], ends):
            phases = shown.phases[first:last].tolist()
            column_of = {phase: at for at, phase in enumerate(sorted(set(phases)))}
            greens = self.greens_of(node, tuple(column_of))
            parts.append((greens.has_green[:, [column_of[phase] for phase in phases]].ravel(), greens.same_green))
        return LaneGreens(*(np.concatenate(arrays) for arrays in zip(*parts, strict=True)))

    def add_uses(self, interval: Interval, number: int, shown_interval: ShownInterval) -> None:
        """Adds who passed lanes as a share of who could, and who wished to as a multiple of who passed, each 0 where
        nobody passed or nothing was green; and who waits to enter."""
        greens = self.greens_in(shown_interval)
        counts = [len(lanes) for lanes in self.passages.lanes.values()]
        node = np.repeat(np.arange(len(shown_interval.spans)), counts)  # by lane
        spans = shown_interval.spans[node]
        lasts = np.cumsum(spans)
        firsts = lasts - spans  # of each lane the first of its spans
        of_node = (np.cumsum(shown_interval.spans) - shown_interval.spans)[node]
        seconds = shown_interval.seconds[np.arange(lasts[-1]) - np.repeat(firsts - of_node, spans)]
        before = np.append(False, greens.has_green[:-1])
        before[firsts] = False
        parts = greens.has_green * seconds, greens.has_green * shown_interval.waiting, greens.has_green & ~before
        green, waiting, begins = (np.add.reduceat(part, firsts, dtype=np.int64) for part in parts)
        count, alone = (sums.sums_of(number)[self.lanes] for sums in (self.crossed.passes, self.crossed.alone))
        capacity = passing_in_green(np.maximum(1.0, green - self.lost * begins), 3600 / self.flow)
        by_green = np.minimum(1.0, count / capacity)
        share = np.where(greens.same_green, by_green, self.by_busy_seconds(alone, waiting, green))
        share = np.where(waiting >= ALWAYS * green, 1.0, share)
        wish = 1 + grown(shown_interval, greens.has_green, firsts, lasts) / np.maximum(1, count)
        shares, wishes = (np.where((count > 0) & (green > 0), part, 0.0).tolist() for part in (share, wish))
        interval.uses = dict(zip(self.lane_keys, shares, strict=True))
        interval.wishes = dict(zip(self.lane_keys, wishes, strict=True))
        interval.entering_more = self.crossed.entering_more(number)
        interval.flows = dict(zip(self.lane_keys, self.flow.tolist(), strict=True))

    def by_busy_seconds(self, alone: Array, waiting: Array, green: Array) -> Array:
        """Who passed as a share, 0 to 1, of who could, of lanes without a signal, from which some give way, or whose
        vehicles do not all have the same green: the share of green seconds with a vehicle on the lane that has stood
        (waiting), and a headway for each that passes while there is none (alone)."""
        return np.minimum(1.0, (waiting + alone * 3600 / self.flow) / np.maximum(1, green))


def grown(interval: ShownInterval, open_: Array, firsts: Array, lasts: Array) -> Array:
    """By lane how many more had stood at the last end of green than at the first, or, where no green ends, in the last
    second than in the first; 0 for fewer. open_: by lane and span whether it is green; firsts, lasts: of each lane the
    first of its spans, and the one behind its last."""
    following = np.append(open_[1:], True)
    following[lasts - 1] = True
    ends = np.append(np.flatnonzero(open_ & ~following), lasts[-1])
    low, high = np.searchsorted(ends, firsts), np.searchsorted(ends, lasts) - 1
    first = np.where(low <= high, interval.stood_last[np.minimum(ends[low], lasts - 1)], interval.stood_first)
    last = interval.stood_last[np.where(low <= high, ends[high], lasts - 1)]
    return np.maximum(0, last.astype(np.int64) - first)
