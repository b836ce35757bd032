"""The movements of a page's one junction, on its first page: who comes, green, v/c, delay, queue and doubt. Fault where
the programs of the lights cannot be read."""
from collections.abc import Iterable, Sequence
from html import escape

from streetsim.model.timing import MAIN, OPEN, Timing
from streetsim.report.light_timings import timings_of
from streetsim.report.page_choice import RowChange
from streetsim.report.page_drawings import letter_mark
from streetsim.report.page_markup import change_told, mean_told, table
from streetsim.report.page_verdict import OFTEN, ranked_rows
from streetsim.report.page_words import interval_name
from streetsim.report.plan_differences import values_by_seed
from streetsim.report.run_tables import ResultRow, Runs

Greens = dict[tuple[str, str], str]  # by movement (edge, next edge) its green in words
BETWEEN = " / "  # values before and after


def movements_table(plans: Sequence[Runs], interval: tuple[int, int]) -> str:
    """A table of the movements of the junction, as HTML, with two plans before / after; empty where the interval has
    none or several."""
    ranked = sorted(ranked_rows(plans, interval, "movements"), key=lambda movement: movement.key)
    if len({movement.key[0] for movement in ranked}) != 1:
        return ""
    timings = [list(timings_of(runs).values()) for runs in plans]
    greens = [greens_of(lights) for lights in timings]
    two = len(plans) == 2
    cells_of = cells_of_two if two else cells_of_one
    rows = [[movement_named(movement, plans[-1], ranked), *cells_of(movement, greens)] for movement in ranked]
    head = ["movement", "wish to pass, vehicles/h", "green, s (* waits for gaps)", "v/c", "delay, s"]
    head += ["change, s", "level", "queue 95 %, m"] if two else ["level", "queue 95 %, m (room)"]
    cycles = [", ".join(f"{len(light.states())} s" for light in lights) for lights in timings]
    notes = [f"Cycle {before_and_after(cycles)}"] if any(cycles) else []
    notes += [f"±: {interval_name(plans[-1].is_drawn)}"] if len(plans[-1].folders) > 1 else []
    notes += ["before / after, where they differ"] if two else []
    return table(head, rows) + (f'<p class="small">{escape("; ".join(notes))}.</p>' if notes else "")


def movement_named(movement: RowChange, runs: Runs, movements: Sequence[RowChange]) -> str:
    """The movement's name, as HTML, whether it is doubted with any plan, and whose queue stands in its way. movements:
    all of the junction."""
    doubted = movement.row.doubt or movement.row_before and movement.row_before.doubt
    mark = ' <span class="doubted">doubted</span>' if doubted else ""
    named = escape(f"{movement.row.movement} {runs.names.movement(*movement.key[1:])}") + mark
    told = escape(in_its_way(movement, movements)) if doubted or movement.is_bad else ""
    return f'{named} <span class="small">{told}</span>' if told else named


def in_its_way(movement: RowChange, movements: Sequence[RowChange]) -> str:
    """Whose queue stands before the lane of a movement with the last plan, as a pocket beside it is full in OFTEN of
    the cycles; empty where none is, or its own lane is."""
    beside = [one for one in movements if one.key[:2] == movement.key[:2]]
    fullest = max(beside, key=full_percent)
    if full_percent(fullest) < OFTEN or full_percent(movement) >= OFTEN:
        return ""
    whose = f"{fullest.row.movement}, whose lane is full in {full_percent(fullest):.0f} % of the cycles"
    return f"behind the queue of {whose}"


def full_percent(movement: RowChange) -> float:
    """Per cent of the cycles in which the lane of a movement is full with the last plan."""
    return movement.row.means.get("full_percent", 0.0)


def greens_of(timings: Iterable[Timing]) -> Greens:
    """By movement the seconds of green in a cycle, and with a star those in which it waits for gaps."""
    greens: Greens = {}
    for timing in timings:
        for movement in timing.movements:
            signs = timing.signs(movement)
            green = sum(sign in OPEN for sign in signs)
            waiting = green - signs.count(MAIN)
            greens[movement.edge, movement.next_edge] = f"{green} ({waiting}*)" if waiting else f"{green}"
    return greens


def wishing(row: ResultRow) -> str:
    """How many vehicles an hour wish to pass: v/c of the capacity, and at least those who passed."""
    means = row.means
    return f"{max(means['vehicles_per_hour'], means['v_c'] * means.get('capacity_per_hour', 0.0)):.0f}"


def cells_of_one(movement: RowChange, greens: Sequence[Greens]) -> list[str]:
    """The cells of a movement of one plan, as HTML."""
    row, means = movement.row, movement.row.means
    delay = mean_told(values_by_seed(row, "control_delay_s").values())
    queue = f"{means['queue_95_m']:.0f} ({means['storage_m']:.0f})"
    green = greens[0].get((movement.key[1], movement.key[2]), "")
    return [wishing(row), green, f"{means['v_c']:.2f}", delay, letter_mark(row.letter()), queue]


def cells_of_two(movement: RowChange, greens: Sequence[Greens]) -> list[str]:
    """The cells of a movement of two plans, as HTML; '-' for one where nobody came."""
    rows = [movement.row_before, movement.row]

    def in_both(values: Iterable[str]) -> str:
        """The values of the rows that are there."""
        values = iter(values)
        return before_and_after([next(values) if row else "-" for row in rows])

    present_rows = [row for row in rows if row]
    return [
        in_both(map(wishing, present_rows)),
        before_and_after([shown.get((movement.key[1], movement.key[2]), "") for shown in greens]),
        in_both(f"{row.means['v_c']:.2f}" for row in present_rows),
        in_both(f"{row.delay:.1f}" for row in present_rows),
        change_told(movement.change) if movement.change else "-",
        in_both(letter_mark(row.letter()) for row in present_rows),
        in_both(f"{row.means['queue_95_m']:.0f}" for row in present_rows),
    ]


def before_and_after(values: Iterable[str]) -> str:
    """The values of one plan or two, once where they are equal."""
    return BETWEEN.join(dict.fromkeys(values))
