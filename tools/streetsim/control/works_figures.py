"""What one place of works let pass in each period, and what stood before it: the figures of works.csv, which
`observe.works` writes."""
from bisect import bisect_left, bisect_right
from collections import defaultdict
from collections.abc import Iterable, Iterator, Sequence
from dataclasses import dataclass
from itertools import accumulate
from statistics import fmean

from streetsim.control.works_watched import Watched, WorksQueue
from streetsim.model.mapping import Map

QUARTER = 900  # seconds in which capacity is counted
MINUTE = 60


@dataclass(slots=True, frozen=True)
class Period:
    """The seconds, from begin to end, of a row of works.csv."""

    begin: int
    end: int

    def includes(self, clock: int) -> bool:
        """Whether a look at a clock belongs to the period, as the step before the look does."""
        return self.begin < clock <= self.end


def periods_of(begin: int, end: int, start: int, seconds: int) -> Iterator[Period]:
    """The periods of a run that works, from begin to end, fall in, cut to the time of the works. start: the run's;
    seconds: a period's."""
    clock = begin
    while clock < end:
        following = min(end, start + ((clock - start) // seconds + 1) * seconds)
        yield Period(clock, following)
        clock = following


def works_rows(watched: Sequence[Watched], mapping: Map, start: int, seconds: int) -> Iterator[tuple[object, ...]]:
    """The rows of works.csv, (begin, end, edge, SUMO's index of the lane, metres where the works begin and end, what
    seen_in gives), as far as works were looked at: one for each place of works and each period in which it is closed.
    start: the clock at which the run begins; seconds: of a period."""
    for works in watched:
        link, (begin, end) = mapping.links[works.closure.link], works.closure.metres(mapping)
        name = link.edge, link.lanes[works.closure.lane], f"{begin:.1f}", f"{end:.1f}"
        last = min(works.closure.end, works.last_look or works.closure.begin)
        for period in periods_of(works.closure.begin, last, start, seconds):
            yield period.begin, period.end, *name, *seen_in(works, period)


def seen_in(watched: Watched, period: Period) -> tuple[object, ...]:
    """A row of works.csv for a period from its column vehicles on: how many passed, capacity (vehicles an hour), mean
    and greatest delay (s), lengths of the queue (m; 50 %, 95 %, greatest), longest standing (s). An empty text stands
    for a capacity or delay that is not known; a queue or standing that was not looked at counts as 0."""
    delays = [one.delay for one in watched.passings if period.includes(one.clock)]
    queues = [one for one in watched.queues if period.includes(one.clock)]
    capacity = capacity_of(watched, period)
    stood = max((one.seconds for one in watched.stands if period.includes(one.clock)), default=0)
    return (
        len(delays),
        "" if capacity is None else capacity,
        f"{fmean(delays):.1f}" if delays else "",
        f"{max(delays):.1f}" if delays else "",
        *(f"{length_at(queues, share):.1f}" for share in (0.5, 0.95, 1.0)),
        stood,
    )


def capacity_of(watched: Watched, period: Period) -> int | None:
    """Vehicles an hour in the worst 15 minutes that end in a period, whole minutes after its begin, and in which
    each look saw a queue before the works; they may begin before the period, but not before the works. None where there
    is no such time."""
    clocks = [one.clock for one in watched.passings]
    empty = [one.clock for one in watched.queues if not one.metres]
    counts = []
    for end in range(period.begin + MINUTE, period.end + 1, MINUTE):
        begin = end - QUARTER
        if begin >= watched.closure.begin and bisect_right(empty, begin) == bisect_right(empty, end):
            counts.append(bisect_right(clocks, end) - bisect_right(clocks, begin))
    return min(counts) * 3600 // QUARTER if counts else None


def length_at(queues: Sequence[WorksQueue], share: float) -> float:
    """The metres that a queue did not exceed in a share (0 to 1) of the time; 0 where nobody looked."""
    ordered = sorted(queues, key=lambda one: one.metres)
    sums = list(accumulate(one.seconds for one in ordered))
    return ordered[bisect_left(sums, share * sums[-1])].metres if ordered else 0.0


def longest_queue(watched: Iterable[Watched]) -> tuple[float, int]:
    """(metres of the longest queue before any works, its clock); (0, 0) where there was none."""
    queues = [(one.metres, one.clock) for works in watched for one in works.queues]
    return max(queues, key=lambda one: one[0], default=(0.0, 0))


def worst_quarter(watched: Iterable[Watched]) -> tuple[float, int]:
    """(the greatest mean delay, seconds, of those who came past works in a quarter of an hour, the clock at which that
    begins); (0, 0) where nobody did."""
    delays: defaultdict[int, list[float]] = defaultdict(list)
    for works in watched:
        for one in works.passings:
            delays[(one.clock - 1) // QUARTER * QUARTER].append(one.delay)
    return max(((fmean(own), begin) for begin, own in delays.items()), default=(0.0, 0))
