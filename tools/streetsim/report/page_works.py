"""Road works on a page: where and when, what passes them, the queue over time, and which streets get the traffic. Fault
where works.csv, queues.csv or edges.csv cannot be read."""
import os
from collections import defaultdict
from collections.abc import Iterable, Iterator, Sequence
from dataclasses import dataclass
from html import escape
from statistics import fmean

from streetsim.base.colours import LINE, OTHER_LINE
from streetsim.base.shapes import point_along
from streetsim.base.words import time_of_day
from streetsim.model import tables
from streetsim.model.doubts import OF_WORKS, QUEUES, Doubt, place_of, worst_first
from streetsim.model.folder import Folder
from streetsim.model.mapping import Map, Shape
from streetsim.report.edge_values import traffic_of
from streetsim.report.page_markup import change_told, table
from streetsim.report.page_words import how_sure, in_worst
from streetsim.report.plan_differences import PlanDifference, difference_of
from streetsim.report.run_tables import Runs

LEFT_MARGIN, WIDE, HIGH = 50, 900, 200  # pixels of a picture of queues
LEAST_FLOW_CHANGE = 20.0  # vehicles an hour that an edge wins or loses, to be told
MOST_EDGES = 6  # edges told that win, and that lose
# Of works.csv, what stands on the page.
CAPACITY = "capacity_per_hour"
MINUTE = 60  # seconds
MEANS = ("vehicles", CAPACITY, "mean_delay_s", "queue_50_m", "queue_95_m")
OTHER_HOURS = "Other hours beside each other: streetsim-study with --close-at."
GREATEST = ("greatest_delay_s", "queue_max_m", "longest_stand_s")
PlaceKey = tuple[str, str, str, str]  # edge, lane, from and to in metres, as works.csv has them


@dataclass(frozen=True, slots=True)
class SeenWorks:
    """Works at one place, over all seeds of a plan: rows of works.csv by (begin, end), and metres of queues by
    clock."""

    place_key: PlaceKey
    rows: dict[tuple[int, int], list[dict[str, str]]]
    queues: dict[int, list[float]]  # metres

    def span(self) -> tuple[int, int]:
        """(begin of its first period, end of its last), seconds."""
        return min(begin for begin, _ in self.rows), max(end for _, end in self.rows)

    def lost_told(self, runs: int) -> str:
        """How long all who passed waited there, in a sentence; runs: of which it is the mean."""
        delays = ((float(row["mean_delay_s"] or 0), int(row["vehicles"])) for own in self.rows.values() for row in own)
        hours = sum(delay * vehicles for delay, vehicles in delays) / 3600 / runs
        return f"In all {hours:,.{1 if hours >= 1 else 2}f} vehicle-hours were lost by vehicles that passed."


def seen_in(runs: Runs) -> list[SeenWorks]:
    """The works of a plan, in the order of works.csv; empty where it had none."""
    works_of_place: dict[PlaceKey, SeenWorks] = {}
    for folder in runs.folders.values():
        rows = works_rows(folder)
        for row in rows:
            place = row["edge"], row["lane"], row["from_m"], row["to_m"]
            seen = works_of_place.setdefault(place, SeenWorks(place, defaultdict(list), defaultdict(list)))
            seen.rows[int(row["begin"]), int(row["end"])].append(row)
        if rows:
            note_queues(folder, list(works_of_place.values()))
    return list(works_of_place.values())


def works_rows(folder: Folder) -> list[dict[str, str]]:
    """The rows of a run's works.csv; empty where it has none."""
    return folder.works() if os.path.exists(f"{folder.path}/{tables.WORKS_FILE}") else []


def note_queues(folder: Folder, seen_works: Sequence[SeenWorks]) -> None:
    """Adds to `queues` of each place of works the metres of the queue before it at each poll of a run while they last;
    0 where none is listed."""
    queues = {
        (row["edge"], row["lane"], row["from_m"], int(row["time"])): float(row["metres"])
        for row in folder.queues_before_works()
    }
    for works in seen_works:
        edge, lane, begin, _ = works.place_key
        for time in poll_clocks(folder, *works.span()):
            works.queues[time].append(queues.get((edge, lane, begin, time), 0.0))


def poll_clocks(folder: Folder, first_second: int, last_second: int) -> range:
    """The clocks of polls after a first second and up to a last one, included; empty where nothing was polled."""
    every = folder.every
    return range((first_second // every + 1) * every, last_second + 1, every) if every else range(0)


def closed_shapes(runs: Runs) -> list[tuple[str, Shape]]:
    """(edge, shape) of what is closed in a plan, for a map."""
    return [(seen.place_key[0], closed_shape(runs.first_folder.mapping, seen.place_key)) for seen in seen_in(runs)]


def closed_shape(mapping: Map, place_key: PlaceKey) -> Shape:
    """The closed piece of an edge's line as three points: begin, middle and end of a place."""
    edge, lane, begin, end = place_key
    links = mapping.links_of[edge]
    link = mapping.links[next((one for one in links if int(lane) in mapping.links[one].lanes), links[0])]
    shares = float(begin) / link.metres, float(end) / link.metres
    return [point_along(link.shape, share) for share in (shares[0], sum(shares) / 2, shares[1])]


def section(plans: Sequence[Runs], interval: tuple[int, int]) -> str:
    """The road works of one plan or two, as HTML, with two also the streets that more or fewer vehicles use; empty
    where none had any."""
    parts = [place_told(runs, seen) for runs in plans for seen in seen_in(runs)]
    if parts and len(plans) == 2:
        parts.append(other_ways(plans, interval))
    return "".join(parts)


def place_told(runs: Runs, works: SeenWorks) -> str:
    """Works at one place, as HTML: where, when, a table by period, and the queue over time."""
    edge, lane, begin, end = works.place_key
    first, last = works.span()
    where = f"{runs.names.street_told(edge)} ({edge}), lane {lane}, {float(begin):.0f} to {float(end):.0f} m"
    title = f"{runs.name}: {where}, from {time_of_day(first)} to {time_of_day(last)}"
    head = ["period", "passed", "least/h with a queue", "mean delay, s", "queue 50 %, m", "95 %", "greatest delay, s"]
    head += ["greatest queue, m", "longest stand, s"]
    rows = [
        [f'<span class="ids">{time_of_day(start)} to {time_of_day(stop)}</span>']
        + [mean_of(own, name) or ("-" if name == CAPACITY else "") for name in MEANS]
        + [most_of(own, name) for name in GREATEST]
        for (start, stop), own in sorted(works.rows.items())
    ]
    picture = f'<div class="wide">{queues_picture(works)}</div>' if works.queues else ""
    unseen = any(not row[CAPACITY] for own in works.rows.values() for row in own)
    none = " Capacity -: no queue stood for a quarter of an hour, so none was seen." if unseen else ""
    total = f'<p class="small">{works.lost_told(len(runs.folders))}{none} {OTHER_HOURS}</p>'
    return f'<section class="whole"><h3>{escape(title)}</h3>{table(head, rows)}{total}{picture}</section>'


def advice(runs: Runs) -> Iterator[str]:
    """A sentence that says no where more come than the open lane passes, by the worst doubt of works; nothing else."""
    for one in worst_first(runs.places)[:1]:
        if one.kind == OF_WORKS and one.size > 1:
            times = f"{time_of_day(one.begin)} to {time_of_day(one.end)}"
            yield f"Not from {times}: more vehicles come than the open lane lets through, {coming_told(runs, one)}."


def coming_told(runs: Runs, doubt: Doubt) -> str:
    """How many vehicles come an hour to works that are doubted, and how many the open lane lets through, by the worst
    of the runs."""
    found = (one for folder in runs.folders.values() for one in folder.places if place_of(one) == place_of(doubt))
    worst = max(found, key=lambda one: one.size)
    hourly = worst.vehicles * 3600 / max(1, worst.end - worst.begin)
    passes = round(hourly / worst.size, -2)
    return f"{hourly:,.0f} an hour where some {passes:,.0f} pass{in_worst(len(runs.folders))}"


def left_at(runs: Runs, edge: str) -> int | None:
    """The minute, in seconds, in which the queue before works on an edge first reached the end of the network; None: it
    did not."""
    doubts = (one for folder in runs.folders.values() for one in folder.places)
    left = [one.begin for one in doubts if (one.kind, one.edge, one.touches) == (OF_WORKS, edge, QUEUES)]
    return min(left) // 60 * 60 if left else None


def closed_told(runs: Runs, works: SeenWorks) -> str:
    """What is closed, where and when, as a sentence."""
    (edge, _, begin, end), (first, last) = works.place_key, works.span()
    metres = float(end) - float(begin)
    where = f"{metres:.0f} m of a lane of {runs.names.street_told(edge)}"
    return f"Closed: {where}, from {time_of_day(first)} to {time_of_day(last)}."


def worst_told(runs: Runs, works: SeenWorks) -> list[str]:
    """Sentences on the longest queue before works and when it is, who passes, how long one waits at worst, and when one
    waits less than a minute."""
    def delay(own: Sequence[dict[str, str]]) -> float:
        """The mean delay of a period over the seeds."""
        return float(mean_of(own, "mean_delay_s") or 0)

    passing = sum(float(mean_of(own, "vehicles") or 0) for own in works.rows.values())
    (begin, end), longest = max(works.rows.items(), key=lambda item: float(most_of(item[1], "queue_max_m") or 0))
    (first, last), worst = max(works.rows.items(), key=lambda item: delay(item[1]))
    metres, left = most_of(longest, "queue_max_m") or "0", left_at(runs, works.place_key[0])
    queue = f"Queue: {metres} m at the longest, from {time_of_day(begin)} to {time_of_day(end)}."
    if left is not None:
        reach = f"it reaches the end of the network, {metres} m back, from {time_of_day(left)}"
        reach += in_worst(len(runs.folders))
        queue = f"Queue: {reach}; vehicles that wait beyond are not counted."
    wait = f"Wait: in the worst time, {time_of_day(first)} to {time_of_day(last)}, a vehicle that passes the works "
    wait += f"waits {delay(worst):.0f} s{minutes_told(delay(worst))}; {passing:,.0f} vehicles pass in all."
    calm = [period for period in works.rows if delay(works.rows[period]) < MINUTE]
    times = ", ".join(f"{time_of_day(begin)} to {time_of_day(end)}" for begin, end in spans_of(calm))
    none = f"One waits below a minute from {times} alone." if calm else "In no period one waits less than a minute."
    return [queue, wait, f"One waits below a minute all the time." if len(calm) == len(works.rows) else none]


def spans_of(periods: Iterable[tuple[int, int]]) -> list[tuple[int, int]]:
    """Periods (begin, end), those that follow each other as one."""
    spans: list[tuple[int, int]] = []
    for begin, end in sorted(periods):
        joins = bool(spans) and spans[-1][1] == begin
        spans[-1:] = [(spans[-1][0], end)] if joins else [*spans[-1:], (begin, end)]
    return spans


def minutes_told(seconds: float) -> str:
    """Some seconds in minutes, in brackets, from two minutes on; else empty."""
    return f" (some {seconds / 60:.0f} minutes)" if seconds >= 120 else ""


def mean_of(rows: Iterable[dict[str, str]], name: str) -> str:
    """The mean of a column over seeds, with one decimal or none; empty where no row has it."""
    values = [float(row[name]) for row in rows if row[name]]
    return f"{fmean(values):.1f}".removesuffix(".0") if values else ""


def most_of(rows: Iterable[dict[str, str]], name: str) -> str:
    """The greatest of a column over seeds, in whole numbers; empty where no row has it."""
    values = [float(row[name]) for row in rows if row[name]]
    return f"{max(values):.0f}" if values else ""


def queues_picture(works: SeenWorks) -> str:
    """A picture (SVG) of the queue before works over time: the mean over seeds, and the greatest. There must be
    queues."""
    clocks = sorted(works.queues)
    greatest_metres = max(1.0, *(max(own) for own in works.queues.values()))
    across, down = (WIDE - LEFT_MARGIN - 10) / max(1, clocks[-1] - clocks[0]), (HIGH - 40) / greatest_metres

    def line(values: Sequence[float], style: str) -> str:
        """A line (SVG) through one value of metres for each clock; style: its attributes."""
        points = " ".join(
            f"{LEFT_MARGIN + (time - clocks[0]) * across:.1f},{HIGH - 25 - value * down:.1f}"
            for time, value in zip(clocks, values, strict=True)
        )
        return f'<polyline points="{points}" fill="none" {style}/>'

    means = line([fmean(works.queues[time]) for time in clocks], f'stroke="{LINE}" stroke-width="2"')
    greatest = line([max(works.queues[time]) for time in clocks], f'stroke="{OTHER_LINE}" stroke-dasharray="4 3"')
    marks = [
        f'<text x="{LEFT_MARGIN - 6}" y="15" text-anchor="end">{greatest_metres:.0f} m</text>',
        f'<text x="{LEFT_MARGIN}" y="{HIGH - 8}">{time_of_day(clocks[0])}</text>',
        f'<text x="{WIDE - 10}" y="{HIGH - 8}" text-anchor="end">{time_of_day(clocks[-1])}</text>',
        f'<line x1="{LEFT_MARGIN}" x2="{WIDE - 10}" y1="{HIGH - 25}" y2="{HIGH - 25}" stroke="#666"/>',
        f'<text x="{WIDE / 2:.0f}" y="{HIGH - 8}" text-anchor="middle">queue before the works: mean of the runs, '
        "and with gaps the greatest</text>",
    ]
    shape = f'viewBox="0 0 {WIDE} {HIGH}" role="img" aria-label="Queue before the works over time"'
    return f'<svg class="bars" {shape}>{greatest}{means}{"".join(marks)}</svg>'


def other_ways(plans: Sequence[Runs], interval: tuple[int, int]) -> str:
    """A table, as HTML, of the edges that win or lose 20 vehicles an hour or more with the second of two plans, by a
    change that stands out or, with one seed, by any, those that win most first; where they are more than twelve, the
    first and the last six, these in the other order. A sentence where there are none."""
    names, changes = plans[1].names, street_flow_changes(plans, interval)
    ranked = sorted(
        (difference.change, edge)
        for edge, difference in changes.items()
        if abs(difference.change) >= LEAST_FLOW_CHANGE and (difference.stands_out() or difference.half is None)
    )[::-1]
    if not ranked:
        return f"<p>No street has 20 vehicles an hour more or fewer {how_sure(plans[1].is_drawn)}.</p>"
    listed = [*ranked[:MOST_EDGES], *ranked[-MOST_EDGES:][::-1]] if len(ranked) > 2 * MOST_EDGES else ranked
    rows = [
        [
            escape(names.approach(edge)), escape(edge), f"{difference.mean_before:.0f}",
            f"{difference.mean_after:.0f}", change_told(difference),
        ]
        for edge, difference in ((edge, changes[edge]) for _, edge in listed)
    ]
    head = ["streets with more and fewer vehicles", "edge", "vehicles/h before", "after", "change"]
    return table(head, rows, names=2)


def street_flow_changes(plans: Sequence[Runs], interval: tuple[int, int]) -> dict[str, PlanDifference]:
    """The streets that get or lose traffic by works: by edge the change of vehicles an hour from the first of two plans
    to the second, in the interval (begin, end) that is shown, paired by seed; edges that one plan has no counts of are
    left out."""
    sides = []
    for runs in plans:
        flows: defaultdict[str, dict[int, float]] = defaultdict(dict)
        for seed, folder in runs.folders.items():
            for edge, one in traffic_of(folder.edges(), *interval).items():
                flows[edge][seed] = one.flow
        sides.append(flows)
    drawn = all(runs.is_drawn for runs in plans)
    both = {edge: difference_of(sides[0][edge], own, drawn=drawn) for edge, own in sides[1].items() if edge in sides[0]}
    return {edge: change for edge, change in both.items() if change}
