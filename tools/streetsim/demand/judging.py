"""How well vehicles that passed, in a run or on paper, fit the counts: GEH, totals, r and slope. streetsim-demand,
streetsim-compare and the page of streetsim-report show it."""
from collections import defaultdict
from collections.abc import Iterable, Iterator, Sequence
from dataclasses import dataclass, replace
from heapq import nlargest
from statistics import pstdev

from streetsim.demand.values import Count
from streetsim.report.beside_sumo import correlation, geh

GOOD = 5.0  # GEH below which a count fits
SHARE = 0.85  # of the counts of an hour, that are to fit
TOTAL = 0.05  # of the sum of an hour's counts, by which what passed may differ
HOUR = 3600
WORST = 5  # counts that are told

FIT = ("begin", "end", "from", "to", "class", "group", "counted", "passed", "geh")
TOTALS = ("counted", "passed", "difference_percent")
HOURS = ("begin", "end", "counts", "geh_below_5", "share_percent", *TOTALS, "criteria")
GROUPS = ("begin", "end", "group", "counts", *TOTALS, "geh")


@dataclass(frozen=True, slots=True)
class ComparedCount:
    """Vehicles of the same edges in one period, in seconds: those that were counted, and those that passed in a run or,
    on paper, in a fit."""

    begin: int
    end: int
    edges: tuple[str, ...]
    kind: str  # the vehicle class; empty: all vehicles
    group: str  # the screen line; empty: none
    vehicles_counted: float
    vehicles_passed: float
    seconds: int  # of the period, in which was counted

    @property
    def volumes(self) -> tuple[float, float]:
        """(counted, passed), vehicles an hour."""
        per_hour = HOUR / self.seconds
        return self.vehicles_counted * per_hour, self.vehicles_passed * per_hour

    @property
    def geh(self) -> float:
        """The GEH of both numbers, as vehicles an hour."""
        return geh(*self.volumes)

    def fit_row(self) -> tuple[object, ...]:
        """The row of fit.csv that stands for it, as FIT has the columns."""
        source, *later_edges = self.edges
        ends = source, " ".join(later_edges)
        values = f"{self.vehicles_counted:g}", f"{self.vehicles_passed:g}", f"{self.geh:.2f}"
        return (self.begin, self.end, *ends, self.kind, self.group, *values)


@dataclass(frozen=True, slots=True)
class CountSums:
    """Counts that begin in one hour of the clock, or those of a screen line in it, together; their begin and end."""

    begin: int  # seconds
    end: int  # seconds
    group: str  # the screen line; empty: all counts
    counts: int  # how many
    good: int  # counts whose GEH is below 5
    vehicles_counted: float
    vehicles_passed: float
    geh: float  # of both sums, as vehicles an hour

    @property
    def good_share(self) -> float:
        """The share, 0 to 1, of its counts whose GEH is below 5."""
        return self.good / self.counts

    @property
    def relative_difference(self) -> float:
        """What passed beyond what was counted, as a share of what was counted; less than 0 where fewer passed. Where
        nothing was counted 1 if anything passed, else 0."""
        if self.vehicles_counted:
            return self.vehicles_passed / self.vehicles_counted - 1
        return float(self.vehicles_passed > 0)

    @property
    def meets_criteria(self) -> bool:
        """Whether GEH is below 5 for 85 % of its counts at least, and its totals differ by 5 % at most."""
        return self.good_share >= SHARE and abs(self.relative_difference) <= TOTAL

    def criteria_missed(self) -> str:
        """What it would have to reach to fit; empty where it fits."""
        parts = [] if self.good_share >= SHARE else [f"GEH below 5 for {100 * SHARE:.0f} %"]
        parts += [] if abs(self.relative_difference) <= TOTAL else [f"totals within {100 * TOTAL:.0f} %"]
        return " and ".join(parts)

    def totals(self) -> tuple[str, str, str]:
        """Its cells in the columns TOTALS."""
        return f"{self.vehicles_counted:g}", f"{self.vehicles_passed:g}", f"{100 * self.relative_difference:.1f}"

    def hour_row(self) -> tuple[object, ...]:
        """The row of hours.csv that stands for it, as HOURS has the columns."""
        verdict = "passed" if self.meets_criteria else "not passed"
        return (self.begin, self.end, self.counts, self.good, f"{100 * self.good_share:.1f}", *self.totals(), verdict)

    def group_row(self) -> tuple[object, ...]:
        """The row of groups.csv that stands for it, as GROUPS has the columns."""
        return (self.begin, self.end, self.group, self.counts, *self.totals(), f"{self.geh:.2f}")


@dataclass(frozen=True, slots=True)
class JudgedCounts:
    """How well a run, or a fit, meets counts, of which there is one at least. compared: by count; hourly: by edges,
    class and hour of the clock, as one count each; hours: sums of these, by hour; groups: sums by screen line and
    hour."""

    compared: list[ComparedCount]
    hourly: list[ComparedCount]
    hours: list[CountSums]
    groups: list[CountSums]

    @property
    def meets_criteria(self) -> bool:
        """Whether each hour meets the criteria."""
        return all(sums.meets_criteria for sums in self.hours)

    @property
    def good_share(self) -> float:
        """The share, 0 to 1, of the counts of all hours whose GEH is below 5."""
        return sum(sums.good for sums in self.hours) / sum(sums.counts for sums in self.hours)

    @property
    def greatest_difference(self) -> float:
        """The greatest difference of an hour's total from what was counted, as a share."""
        return max(abs(sums.relative_difference) for sums in self.hours)

    def lines(self) -> Iterator[str]:
        """Lines for the terminal: the criteria hour by hour, then screen lines, r and slope."""
        for sums in self.hours:
            yield (
                f"{sums.begin:,} to {sums.end:,} s: "
                f"GEH below 5 for {100 * sums.good_share:.1f} % of {sums.counts:,} counts, "
                f"{sums.vehicles_passed:,.0f} passed of {sums.vehicles_counted:,.0f} counted "
                f"({100 * sums.relative_difference:+.1f} %): "
                f"{'fits' if sums.meets_criteria else f'does not fit ({sums.criteria_missed()})'}"
            )
        for sums in self.groups:
            yield (
                f"screen line {sums.group}, {sums.begin:,} to {sums.end:,} s: {sums.vehicles_passed:,.0f} passed of "
                f"{sums.vehicles_counted:,.0f} counted ({100 * sums.relative_difference:+.1f} %)"
            )
        if (line := correlation_and_slope(self.compared)) is not None:
            yield f"all {len(self.compared):,} counts: r = {line[0]:.3f}, slope {line[1]:.3f}"


def judge_counts(counts: Sequence[Count], vehicles_passed: Sequence[float]) -> JudgedCounts:
    """How well numbers of vehicles that passed, one for each count, meet the counts, of which there must be one at
    least."""
    compared = [
        ComparedCount(
            count.begin, count.end, count.edges, count.kind, count.group, count.vehicles, value, count.end - count.begin
        )
        for count, value in zip(counts, vehicles_passed, strict=True)
    ]  # fmt: skip
    hourly = merged_by_hour(compared)
    hours = sums_by_hour(replace(count, group="") for count in hourly)
    return JudgedCounts(compared, hourly, hours, sums_by_hour(count for count in hourly if count.group))


def merged_by_hour(compared: Iterable[ComparedCount]) -> list[ComparedCount]:
    """The counts of the same edges and class whose begins lie in one hour of the clock, as one with their sums, from
    the first begin to the last end, with the screen line of the first; sorted by begin, end, edges and class."""
    groups: defaultdict[tuple[object, ...], list[ComparedCount]] = defaultdict(list)
    for count in compared:
        groups[count.begin // HOUR, count.edges, count.kind].append(count)
    merged = (
        replace(
            group[0], begin=min(count.begin for count in group), end=max(count.end for count in group),
            vehicles_counted=sum(count.vehicles_counted for count in group),
            vehicles_passed=sum(count.vehicles_passed for count in group),
            seconds=sum(count.seconds for count in group),
        )
        for group in groups.values()
    )  # fmt: skip
    return sorted(merged, key=lambda count: (count.begin, count.end, count.edges, count.kind))


def sums_by_hour(hourly: Iterable[ComparedCount]) -> list[CountSums]:
    """Sums of counts by hour of the clock (of their begin) and screen line."""
    groups: defaultdict[tuple[int, str], list[ComparedCount]] = defaultdict(list)
    for count in hourly:
        groups[count.begin // HOUR, count.group].append(count)
    return [
        CountSums(
            min(count.begin for count in members), max(count.end for count in members), group, len(members),
            sum(count.geh < GOOD for count in members), sum(count.vehicles_counted for count in members),
            sum(count.vehicles_passed for count in members),
            geh(*(sum(volumes) for volumes in zip(*(count.volumes for count in members)))),
        )
        for (_, group), members in sorted(groups.items())
    ]  # fmt: skip


def correlation_and_slope(compared: Sequence[ComparedCount]) -> tuple[float, float] | None:
    """(Pearson's r of what passed with what was counted, slope of the regression of the former on the latter); none
    where one of both does not vary. compared: one at least."""
    counted, passed = [count.vehicles_counted for count in compared], [count.vehicles_passed for count in compared]
    r = correlation(counted, passed)
    return None if r is None else (r, r * pstdev(passed) / pstdev(counted))


def volume_at_geh_5(counted: float, sign: int) -> float:
    """The volume above (sign 1) or below (sign -1) a counted one whose GEH beside it is 5, 0 at least; by 2 (p - c)^2 =
    25 (p + c)."""
    square = GOOD**2
    root = (square * square + 16 * square * counted) ** 0.5
    return max(0.0, counted + (square + sign * root) / 4)


def without_parts(hourly: Iterable[ComparedCount]) -> list[ComparedCount]:
    """Counts of hours without those that others replace (is_part_of), so that sums by first edge have none twice: of a
    time in which all vehicles are counted those of a class are left out, and those of turns where their edge is."""
    hourly = list(hourly)
    keys = [[(count.edges[0], hour) for hour in range(count.begin // HOUR, -(-count.end // HOUR))] for count in hourly]
    beside: defaultdict[tuple[str, int], list[ComparedCount]] = defaultdict(list)
    for key, count in ((key, count) for count, hours in zip(hourly, keys, strict=True) for key in hours):
        beside[key].append(count)
    competing = ((other for key in hours for other in beside[key]) for hours in keys)
    return [
        count
        for count, others in zip(hourly, competing, strict=True)
        if not any(is_part_of(count, other) for other in others)
    ]


def is_part_of(count: ComparedCount, rival: ComparedCount) -> bool:
    """Whether `count` is left out beside `rival`, with a time and, as far as both go, the edges in common: if it is of
    a class and `rival` of all vehicles, even along more edges, or both are of the same and `rival` has fewer edges."""
    size = min(len(count.edges), len(rival.edges))
    if count.edges[:size] != rival.edges[:size] or count.end <= rival.begin or rival.end <= count.begin:
        return False
    return len(rival.edges) < len(count.edges) if rival.kind == count.kind else not rival.kind


def counted_seconds(hourly: Iterable[ComparedCount]) -> int:
    """The seconds of all periods, those in common once."""
    total = last = 0
    for begin, end in sorted((count.begin, count.end) for count in hourly):
        total += max(0, end - max(begin, last))
        last = max(last, end)
    return total


def differences_of(hourly: Sequence[ComparedCount]) -> dict[str, float]:
    """How many vehicles an hour more (above 0) or fewer passed than were counted, by edge: of the edge itself, else of
    its turns together; of all vehicles, else of the classes together. It is a mean over all the time in which anything
    is counted: where the edge is not, it is 0. Edges of which nothing is counted are left out."""
    differences: defaultdict[str, float] = defaultdict(float)
    hours = counted_seconds(hourly) / HOUR
    for count in without_parts(hourly):
        differences[count.edges[0]] += (count.vehicles_passed - count.vehicles_counted) / hours
    return dict(differences)


def worst_fits(fit: JudgedCounts) -> list[ComparedCount]:
    """Of the edges and hours with a GEH of 5 or more the worst, five at most."""
    return nlargest(WORST, (count for count in fit.hourly if count.geh >= GOOD), key=lambda count: count.geh)
