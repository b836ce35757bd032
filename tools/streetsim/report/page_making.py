"""Makes a page from runs: its first page, and the appendix. Fault where a table of the runs cannot be read."""
from collections.abc import Iterator, Sequence
from dataclasses import dataclass, field
from html import escape

from streetsim.base.words import time_of_day
from streetsim.report import page_background, page_junctions, page_summary, page_works
from streetsim.report.page_choice import RowChange
from streetsim.report.page_markup import Section, bullets, page
from streetsim.report.page_summary import Interval
from streetsim.report.run_tables import Runs


@dataclass(slots=True, frozen=True)
class PageWishes:
    """What a page is asked for, beside the runs that it is of."""

    title: str
    question: str = ""
    detailed: int = 6  # junctions that are told with all their movements
    is_short: bool = False  # the first page alone
    doubts: Sequence[str] = ()  # what speaks against the runs, beside what they say
    pictures: Sequence[Section] = field(default_factory=list)  # further sections of the appendix
    first_sections: Sequence[Section] = ()  # further sections of the first page
    check_html: str = ""  # how to check the page, at its end, as HTML


def report_of(plans: Sequence[Runs], interval: Interval, wishes: PageWishes) -> str:
    """The whole page, as HTML, of one plan, or of two, before and after, in an interval, one of those of the junction
    tables (KeyError for another one)."""
    rows = page_summary.ranked_rows(plans, interval)
    detailed = 0 if wishes.is_short else wishes.detailed
    alone = page_summary.alone_drawn(plans[-1], interval)
    first_sections = [
        Section("verdict", "Verdict", page_summary.verdict(plans, interval)),
        Section("map", "Where", alone or page_summary.service_and_works_map(plans[-1], interval, rows, detailed)),
        Section(
            "costs", "What it costs whom" if len(plans) == 2 else "Who waits longest",
            page_summary.costs(plans, interval),
        ),
        Section("doubts", "What is doubted", page_summary.doubted(plans, wishes.doubts)),
        *wishes.first_sections,
    ]
    lead = page_summary.question_html(wishes.question, plans, interval)
    appendix = [] if wishes.is_short else list(appendix_of(plans, interval, rows, wishes))
    return page(wishes.title, lead, first_sections, appendix, wishes.check_html)


def appendix_of(
    plans: Sequence[Runs], interval: Interval, rows: Sequence[RowChange], wishes: PageWishes
) -> Iterator[Section]:
    """The sections behind the first page, those without content left out; rows: of all junctions, those first that are
    told with all their movements."""
    last_plan, detailed = plans[-1], rows[: wishes.detailed]
    interval_text = f"{time_of_day(interval[0])} to {time_of_day(interval[1])}"
    drawn = page_summary.are_drawn(plans)
    note = page_junctions.said_of_changes(page_summary.common_seeds(plans), drawn) if len(plans) == 2 else ""
    table = note + page_junctions.junction_table(rows, last_plan.names, len(detailed))
    if page_summary.alone_drawn(last_plan, interval):
        map_ = page_summary.service_and_works_map(last_plan, interval, rows, len(detailed))
        yield Section("streets", "Map", map_)
    yield Section("junctions", f"Junctions, {interval_text}", table)
    if len(plans) == 2:
        rows_ = page_summary.ranked_rows(plans, interval, "movements")
        changes = page_junctions.movement_changes(rows_, last_plan.names, drawn)
        yield Section("movements", f"Movements that change, {interval_text}", changes)
        map_before = page_summary.service_and_works_map(plans[0], interval)
        yield Section("map-before", f"Map before: {plans[0].name}", map_before)
    if detailed:
        title = f"Junctions in detail: {last_plan.name}, {interval_text}"
        yield Section("details", title, details(last_plan, interval, rows, len(detailed)))
    if told := page_works.section(plans, interval):
        yield Section("works", "Road works", told)
    yield from wishes.pictures
    yield Section("run", "What was run", page_background.what_was_run(plans))
    yield Section("warnings", "What the import said", page_background.warnings(plans))
    yield Section("assumptions", "Assumptions", bullets(page_background.ASSUMPTIONS))


def details(runs: Runs, interval: Interval, rows: Sequence[RowChange], count: int) -> str:
    """The key, and the sections of the junctions told with all their movements, as HTML: of the first `count` rows."""
    left = len(rows) - count
    more = f" {left:,} other junctions: movements.csv of the runs, or --detail." if left else ""
    tables = "".join(page_junctions.detail(runs, one.key[0], interval) for one in rows[:count])
    return f'<p class="small">{escape(page_junctions.KEY + more)}</p>{tables}'
