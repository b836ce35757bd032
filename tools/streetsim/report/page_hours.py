"""Works hour by hour, on the first page: who passes, how long one waits, how far the queue reaches, and whether these
runs show that the lane may be closed then. Fault where works.csv, queues.csv or edges.csv cannot be read."""
from collections import defaultdict
from collections.abc import Iterator, Sequence
from dataclasses import dataclass
from html import escape
from statistics import fmean

from streetsim.base.words import time_of_day
from streetsim.model.doubts import OF_WORKS
from streetsim.model.names import Names
from streetsim.report import page_works
from streetsim.report.edge_values import traffic_of
from streetsim.report.page_markup import table
from streetsim.report.page_reasons import doubts_of
from streetsim.report.page_works import MINUTE, SeenWorks, mean_of, minutes_told, most_of
from streetsim.report.run_tables import Runs

HOUR = 3600  # seconds
BY_WAITS = ", but not sure"
SHORT = 2 * HOUR  # works of that length or less are told by their periods
Periods = dict[tuple[int, int], list[list[dict[str, str]]]]  # by (begin, end): rows of works.csv, by period and seed


@dataclass(frozen=True, slots=True)
class WorksHour:
    """An hour of works, in the mean over the seeds."""

    begin: int  # seconds
    end: int
    passing: float  # vehicles an hour
    wait: float  # seconds, in its worst period
    queue: str  # metres, the greatest


def hours_table(plans: Sequence[Runs]) -> str:
    """The tables of the works of the last plan, hour by hour, as HTML; empty where it has none."""
    return "".join(table(*hours_of(plans, works), names=2) for works in page_works.seen_in(plans[-1]))


def hours_of(plans: Sequence[Runs], works: SeenWorks) -> tuple[list[str], list[list[str]]]:
    """The head of the table of works, and its rows, as HTML."""
    runs, edge, two = plans[-1], works.place_key[0], len(plans) == 2
    approaches = lit_before(runs.names, edge)
    junction = runs.names.junction_told(runs.names.junction_ahead(approaches[0])) if approaches else ""
    before = ", before / with the works" if two else ""
    head = ["hours", "may it be closed?", "wait at worst", f"pass an hour{before}", "longest queue of any run, m"]
    head += [f"delay at {junction}, s{before}"] if junction and two else []
    rows = []
    for hour in hours_seen(works):
        times = f'<span class="ids">{time_of_day(hour.begin)} to {time_of_day(hour.end)}</span>'
        passing = [f"{passing_before(plans[0], edge, hour)} / "] if two else []
        wait = f"{hour.wait:.0f} s{minutes_told(hour.wait)}"
        row = [times, may_be_closed(runs, edge, hour), wait, f"{''.join(passing)}{hour.passing:.0f}", hour.queue]
        row += [" / ".join(delay_before(one, approaches, hour) for one in plans)] if junction and two else []
        rows.append(row)
    return [escape(one) for one in head], rows


def hours_seen(works: SeenWorks) -> list[WorksHour]:
    """The hours of works, or the periods of short ones."""
    first, last = works.span()
    periods: Periods = defaultdict(list)
    for (begin, end), own in sorted(works.rows.items()):
        hour = begin // HOUR * HOUR
        span = (begin, end) if last - first <= SHORT else (max(first, hour), min(last, hour + HOUR))
        periods[span].append(own)
    return [hour_of(*span, those) for span, those in periods.items()]


def hour_of(begin: int, end: int, periods: Sequence[Sequence[dict[str, str]]]) -> WorksHour:
    """An hour of works by the rows of its periods."""
    passed = sum(float(mean_of(own, "vehicles") or 0) for own in periods)
    wait = max(float(mean_of(own, "mean_delay_s") or 0) for own in periods)
    queue = max((most_of(own, "queue_max_m") for own in periods), key=lambda text: float(text or 0))
    return WorksHour(begin, end, passed * HOUR / max(1, end - begin), wait, queue)


def passing_before(runs: Runs, edge: str, hour: WorksHour) -> str:
    """How many vehicles an hour leave the works' edge in the plan without works; '-' where it has no such edge."""
    found = [traffic_of(folder.edges(), hour.begin, hour.end).get(edge) for folder in runs.folders.values()]
    flows = [one.flow for one in found if one]
    return f"{fmean(flows):.0f}" if flows else "-"


def lit_before(names: Names, edge: str) -> list[str]:
    """The approaches that lead, over streets without another way, to the edge of works; the works' own street, and what
    follows it, left out. Empty where there are none."""
    if edge not in names.mapping.links_of:
        return []
    here = names.junction_ahead(edge)
    found, passed = {edge}, set[str]()
    while found and all(names.junction_ahead(one) == here for one in found) and not found <= passed:
        passed |= found
        found = {before for one in found for before in names.ways[1][one]} - passed
    return sorted(found)


def delay_before(runs: Runs, approaches: Sequence[str], hour: WorksHour) -> str:
    """The mean delay in an hour, in seconds, of those who come to the works' street from its approaches; '-' of
    none."""
    reached = {target for one in approaches for target in runs.names.ways[0][one]}
    lost = vehicles = 0.0
    for (kind, begin, end), rows in runs.rows.items():
        if kind == "movements" and hour.begin <= begin and end <= hour.end:
            own = [row for row in rows.values() if row.key[1] in approaches and row.key[2] in reached]
            lost += sum(row.delay * row.means["vehicles"] for row in own)
            vehicles += sum(row.means["vehicles"] for row in own)
    return f"{lost / vehicles:.0f}" if vehicles else "-"


def may_be_closed(runs: Runs, edge: str, hour: WorksHour) -> str:
    """Whether a lane may be closed in an hour, as far as the runs show: no, not sure or yes, and why."""
    doubts = [one for one in runs.places if (one.kind, one.edge) == (OF_WORKS, edge) and one.size]
    sizes = [one.size for one in doubts if one.begin < hour.end and hour.begin < (one.end or hour.end)]
    if any(size > 1 for size in sizes):
        return "no: more come than the open lane lets through"
    doubted = bool(doubts or doubts_of(runs))
    if hour.wait >= MINUTE:
        return f"no{BY_WAITS if doubted else ''}: one waits longer than a minute"
    if sizes:
        return "not sure: nearly as many come as the open lane lets through"
    return f"{'not sure: here' if doubted else 'yes:'} one waits below a minute"


def other_hours(runs: Runs) -> Iterator[str]:
    """A sentence on the hours in which works may not be closed by waits that are not sure; nothing where there are
    none."""
    for works in page_works.seen_in(runs):
        hours = [hour for hour in hours_seen(works) if BY_WAITS in may_be_closed(runs, works.place_key[0], hour)]
        if hours:
            times = " and ".join(f"{time_of_day(one.begin)} to {time_of_day(one.end)}" for one in hours)
            yield f"Not from {times} either, by waits that are not sure."
