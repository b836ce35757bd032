"""The criteria that a calibrated base must meet: counts (GEH, and by how much a flow may be off), routes, segments,
saturation and queues of a day. streetsim-calibrate reckons them before and after the fit."""
from __future__ import annotations

from collections import defaultdict
from collections.abc import Iterable, Iterator, Sequence
from dataclasses import dataclass
from statistics import fmean

from streetsim.demand.calibration_field import TRIP, FieldDay, pooled
from streetsim.demand.calibration_fit import LEAST_SEEN
from streetsim.demand.calibration_model import FittedDrivers, MeasuredRun, pooled_runs
from streetsim.model.saturation import flow_here
from streetsim.demand.reading import read_counts
from streetsim.report.beside_sumo import geh

SHARE = 0.85  # of counts, routes, segments and lanes that are to be within their marks
TIME_MARK, MINUTE = 0.15, 60.0
SATURATION_MARK, QUEUE_MARK = 0.05, 0.25
LEAST_QUEUE = 10.0  # metres, below which a queue counts nothing


@dataclass(frozen=True, slots=True)
class Criterion:
    """How much of a day meets a mark. share: 0 to 1; off: by which a sum is off, where that is the mark."""

    name: str
    share: float
    share_needed: float
    judged_count: int

    @property
    def is_met(self) -> bool:
        """Whether enough meets it."""
        return self.share >= self.share_needed - 1e-9

    def share_text(self) -> str:
        """Its share, in percent, and of how many."""
        return f"{100 * self.share:.0f} % of {self.judged_count:,}"


def criteria_of(
    day: FieldDay, runs: Sequence[MeasuredRun], drivers: FittedDrivers
) -> Iterator[Criterion]:
    """All criteria for which a day has data. runs: of its demand with the drivers, measured in its window."""
    yield from count_criteria(day, runs)
    yield from time_criteria(day, runs)
    if day.lanes:
        good = [abs(flow_here(drivers.dawdle, one.limit) / one.flow - 1) <= SATURATION_MARK for one in day.lanes]
        yield Criterion("saturation within 5 %", fmean(good), SHARE, len(good))
    if pairs := [(mean_queue(runs, one.edge), one.mean) for one in day.queues if one.mean > LEAST_QUEUE]:
        modelled, observed = (sum(side) for side in zip(*pairs, strict=True))
        off = abs(modelled / observed - 1)
        yield Criterion("mean queue of the cycles within 25 %", float(off <= QUEUE_MARK), 1.0, len(pairs))


def mean_queue(runs: Iterable[MeasuredRun], edge: str) -> float:
    """The mean over runs of the queue of an edge, m."""
    return fmean(run.queues.get(edge, (0.0, 0.0))[0] for run in runs)


def count_criteria(day: FieldDay, runs: Sequence[MeasuredRun]) -> Iterator[Criterion]:
    """GEH below 5, and the flow of an approach within 15 % (100 an hour below 700, 400 above 2,700), of the counts that
    lie within the window of the times."""
    observed_counts: defaultdict[tuple[str, ...], float] = defaultdict(float)
    begin, end = day.window()
    for count in read_counts(day.counts):
        if begin <= count.begin and count.end <= end:
            observed_counts[count.edges[:2]] += count.vehicles
    if not observed_counts:
        return
    hours = (end - begin) / 3600
    hourly = {
        key: (fmean(run.counts.get(key, 0) for run in runs) / hours, observed / hours)
        for key, observed in observed_counts.items()
    }
    good = [geh(*pair) < 5 for pair in hourly.values()]
    yield Criterion("GEH below 5", fmean(good), SHARE, len(good))
    flows: defaultdict[str, list[float]] = defaultdict(lambda: [0.0, 0.0])
    for key, pair in hourly.items():
        for side in (0, 1):
            flows[key[0]][side] += pair[side]
    fits = [abs(modelled - observed) <= flow_mark(observed) for modelled, observed in flows.values()]
    yield Criterion("flows within 15 %", fmean(fits), SHARE, len(fits))


def flow_mark(hourly: float) -> float:
    """By how many vehicles an hour a flow may be off."""
    return 100.0 if hourly < 700 else 0.15 * hourly if hourly <= 2700 else 400.0


def time_criteria(day: FieldDay, runs: Sequence[MeasuredRun]) -> Iterator[Criterion]:
    """Routes and trips within 15 % or a minute, where the field has some; segments within 15 %, without the minute."""
    model_times = pooled_runs(runs)
    routes, segments = [], []
    for key, (mean, _, count) in pooled(day.times).items():
        if count >= LEAST_SEEN:
            off = abs(model_times[key][0] - mean) if key in model_times else float("inf")
            if len(key) > 2 or key[0] == TRIP:
                routes.append(off <= max(TIME_MARK * mean, MINUTE))
            else:
                segments.append(off <= TIME_MARK * mean)
    if routes:
        yield Criterion("routes within 15 % or a minute", fmean(routes), SHARE, len(routes))
    if segments:
        yield Criterion("segments within 15 %", fmean(segments), SHARE, len(segments))
