"""The appendix of junctions: a line for each, movements that change, and some with all their movements and queues."""
from collections.abc import Iterator, Sequence
from html import escape

from streetsim.base.words import time_of_day
from streetsim.model.names import Names
from streetsim.report import page_arms
from streetsim.report.page_choice import NOTICED_SECONDS, RowChange
from streetsim.report.page_drawings import QueueBar, anchor, letter_mark, queue_picture
from streetsim.report.page_markup import change_told, table
from streetsim.report.page_words import how_sure, interval_name
from streetsim.report.run_tables import ResultRow, Runs

KEY = (
    f"{page_arms.KEY} Queues: what half of the cycles and what 95 % of them do not exceed, and the greatest, of the "
    "room. Bars, for the lanes of each movement: how far back these go, a pocket as far as it goes, and in it the same "
    "queues, dark, light and a line."
)
MOST_MOVEMENTS = 25  # of changes on the page


def title_of(name: str, names: Names) -> str:
    """A junction's title: its name and id, or its id alone."""
    called = names.junction(name)
    return f"{called} (junction {name})" if called else f"Junction {name}"


def junction_table(rows: Sequence[RowChange], names: Names, detailed: int) -> str:
    """A table with one line for each junction, as HTML; the first `detailed` of them are links to their sections. Where
    one has a row before, it is of two plans, with empty cells where nothing can be paired."""
    two = any(ranked.row_before for ranked in rows)
    table_rows = []
    for place, ranked in enumerate(rows):
        title = escape(title_of(ranked.key[0], names))
        linked = f'<a href="#{anchor(ranked.key[0])}">{title}</a>' if place < detailed else title
        cells = [linked + doubt_mark(ranked.row)]
        cells.append(f"{ranked.row.means['vehicles_per_hour']:,.0f}")
        level = letter_mark(ranked.row.letter())
        if not two:
            table_rows.append([*cells, f"{ranked.row.delay:.1f}", level, f"{ranked.row.means['v_c']:.2f}"])
        elif ranked.row_before and ranked.change:
            numbers = f"{ranked.change.mean_before:.1f}", f"{ranked.change.mean_after:.1f}", change_told(ranked.change)
            table_rows.append([*cells, *numbers, f"{letter_mark(ranked.row_before.letter())} to {level}"])
        else:
            table_rows.append([*cells, "", f"{ranked.row.delay:.1f}", "", level])
    if two:
        return table(["junction", "vehicles/h", "before, s", "after, s", "change, s", "level of service"], table_rows)
    return table(["junction", "vehicles/h", "delay, s", "level of service", "greatest v/c"], table_rows)


def doubt_mark(row: ResultRow) -> str:
    """A mark, as HTML, behind what is doubted, with the reason; empty for what is not."""
    return f' <span class="doubted">doubted: {escape(row.doubt)}</span>' if row.doubt else ""


def doubted_places(runs: Runs, name: str) -> str:
    """The doubts of a junction and of what belongs to it, as HTML; empty where there are none."""
    told = [one.in_words(runs.names) for one in runs.places if one.junction == name]
    return f'<p class="doubted">Doubted: {escape("; ".join(told))}.</p>' if told else ""


def movement_changes(rows: Sequence[RowChange], names: Names, drawn: bool) -> str:
    """A table of the movements with both plans that change noticeably or are worse than D, as HTML, at most 25; a
    sentence where there are none. rows: movements as ranked_rows of council gives them, whose order stays; drawn:
    whether departures were."""
    paired = (ranked for ranked in rows if ranked.change and ranked.row_before)
    those = [ranked for ranked in paired if ranked.changes_noticeably or ranked.is_bad]
    table_rows = []
    for ranked in those[:MOST_MOVEMENTS]:
        assert ranked.change and ranked.row_before
        ids = f"{ranked.key[0]}: {' to '.join(ranked.key[1:])}"
        levels = f"{letter_mark(ranked.row_before.letter())} to {letter_mark(ranked.row.letter())}"
        numbers = f"{ranked.change.mean_before:.1f}", f"{ranked.change.mean_after:.1f}", change_told(ranked.change)
        shown = f'<span class="ids">{escape(ids)}</span>'
        called = escape(names.movement(*ranked.key[1:])) + doubt_mark(ranked.row)
        table_rows.append([called, shown, *numbers, levels])
    if not table_rows:
        said = f"No movement changes {how_sure(drawn)} by so much that one notices"
        return f"<p>{said}, and none is worse than D.</p>"
    head = ["movement", "junction: edges", "before, s", "after, s", "change, s", "level of service"]
    left = len(rows) - len(table_rows)
    more = f'<p class="small">{left:,} other movements: movements.csv of the runs.</p>' if left else ""
    return table(head, table_rows, names=2) + more


def said_of_changes(seeds: int, drawn: bool) -> str:
    """A note, as HTML, on how differences are paired, what is bold and what comes first; seeds: how many both have;
    drawn: whether departures were."""
    said = "One seed alone tells nothing of chance: use --seeds 1-5"
    if seeds > 1:
        name = interval_name(drawn, "mean change")
        said = f"Differences are of the same seeds, ± is the {name}, and changes beyond it are bold"
    return (
        f'<p class="small">{said}. Control delay, seconds. First those that '
        f"change by {NOTICED_SECONDS:.0f} s or in their level of service {how_sure(drawn)}, or are worse than D.</p>"
    )


def detail(runs: Runs, name: str, interval: tuple[int, int]) -> str:
    """The section of a junction, as HTML: its movements and the queues of its approaches in an interval (begin, end),
    in which it must have a row, by_time and full_lanes."""
    junction, called = runs.rows["junctions", *interval][name,], runs.names
    movements = [row for row in runs.rows["movements", *interval].values() if row.key[0] == name]
    head = ["movement", "from and to edge", "", "vehicles/h", "delay, s", "level of service", "v/c", "stopped, s"]
    head += ["stops", "queues, m"]
    rows = [movement_row(row, called) for row in sorted(movements, key=lambda row: row.key)]
    values = junction.means
    is_alone = len(runs.rows["junctions", *interval]) == 1  # its picture is on the first page
    picture = "" if is_alone else page_arms.junction_picture(runs, name, interval)
    return (
        f'<section class="whole"><h3 id="{anchor(name)}">{escape(title_of(name, called))}: {junction.delay:.1f} s '
        f'{letter_mark(junction.letter())}, {values["vehicles_per_hour"]:,.0f} vehicles an hour, '
        f'{escape(junction.control)}</h3>{by_time(runs, name)}'
        f'{doubted_places(runs, name)}'
        f'{table(head, rows, names=3)}<div class="picture">{picture}</div>'
        f'<div class="wide">{queue_picture(list(lane_bars(movements, called)))}</div></section>'
    )


def lane_bars(movements: Sequence[ResultRow], names: Names) -> Iterator[QueueBar]:
    """The bars of the lanes of a junction, those of movements with the same queues as one; movements: its rows."""
    sharing: dict[tuple[str, tuple[float, float, float, float]], list[ResultRow]] = {}
    for row in sorted(movements, key=lambda one: (one.key[1], "ULTR".index(one.movement))):
        queues = row.means["queue_50_m"], row.means["queue_95_m"], row.means["queue_max_m"], row.means["storage_m"]
        sharing.setdefault((row.key[1], queues), []).append(row)
    for (edge, queues), rows in sharing.items():
        name = f"{' '.join(row.movement for row in rows)} {names.approach(edge)}"
        yield QueueBar(name, *queues, spills=spills_told(rows))


def spills_told(rows: Sequence[ResultRow]) -> str:
    """In how many of the cycles the lanes of some movements are full, and their begin is blocked; empty where in
    none."""
    columns = {"full in": "full_percent", "blocked in": "blocked_percent"}
    percents = {text: max(row.means.get(column, 0.0) for row in rows) for text, column in columns.items()}
    told = ", ".join(f"{text} {percent:.0f} %" for text, percent in percents.items() if percent >= 1)
    return f"{told} of cycles" if told else ""


def by_time(runs: Runs, name: str) -> str:
    """The mean delay and the level of service of a junction in each interval that has them, as HTML; empty where the
    tables have one interval alone."""
    intervals = runs.intervals()
    if len(intervals) < 2:
        return ""
    found = ((begin, runs.rows.get(("junctions", begin, end), {}).get((name,))) for begin, end in intervals)
    those = ((time_of_day(begin), row) for begin, row in found if row)
    told = ", ".join(f"from {begin} {row.delay:.0f} s {letter_mark(row.letter())}" for begin, row in those)
    return f'<p class="small">By time: {told}</p>'


def movement_row(row: ResultRow, names: Names) -> list[str]:
    """The cells of a movement in its junction's table, as HTML."""
    means = row.means
    stops = f"{means['stops_per_vehicle']:.2f}" if "stops_per_vehicle" in means else ""
    lengths = (f"{means[name]:.0f}" for name in ("queue_50_m", "queue_95_m", "queue_max_m"))
    queues = f'<span class="ids">{", ".join(lengths)} of {means["storage_m"]:.0f}</span>'
    ids = f'<span class="ids">{escape(" to ".join(row.key[1:]))}</span>'
    return [
        *(escape(names.movement(*row.key[1:])) + doubt_mark(row), ids, row.movement),
        *(f"{means['vehicles_per_hour']:.0f}", f"{row.delay:.1f}", letter_mark(row.letter()), f"{means['v_c']:.2f}"),
        *(f"{means['stopped_delay_s']:.1f}", stops, queues),
    ]
