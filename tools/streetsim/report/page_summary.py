"""The first page of a report: what was asked, a map, the verdict, what it costs whom, what is doubted. Fault where a
table of the runs cannot be read."""
from collections import defaultdict
from collections.abc import Mapping, Sequence
from html import escape
from statistics import fmean

from streetsim.base.report import HEAVY
from streetsim.base.words import time_of_day
from streetsim.model.doubts import MOST_TOLD, OF_WORKS, Doubt, Place, place_of, worst_first
from streetsim.model.loaded_lanes import forecast_doubts, loaded_lanes
from streetsim.model.replications import told_of_days
from streetsim.model.service import AT_PRIORITY, AT_SIGNALS, COLOURS
from streetsim.report import page_arms, page_works
from streetsim.report.forecast_errors import error_told, errors_told, is_calibrated
from streetsim.report.page_choice import NOTICED_SECONDS, RowChange, changes_that_stand_out
from streetsim.report.page_drawings import letter_mark, service_keys, service_map
from streetsim.report.page_hours import hours_table
from streetsim.report.page_map import map_figure
from streetsim.report.page_markup import bullets, change_told, mean_told, table
from streetsim.report.page_movements import movements_table
from streetsim.report.page_reasons import doubts_of, first_reason, jams_of, reasons_once
from streetsim.report.page_state import state_verdict
from streetsim.report.page_verdict import (
    Interval, LEAST_HOURLY, are_drawn, change_verdict, is_doubted, kind_of_change, ranked_rows,
)
from streetsim.report.page_words import counted_noun, how_sure, size_told, why
from streetsim.report.plan_costs import NOTICED, Means, PlanCosts, costs_of, means_by_class
from streetsim.report.plan_differences import difference_of
from streetsim.report.run_tables import Runs

MOST_GROUPS = 6  # flows in the table of trips
LONG = 160  # letters of a warning on the first page
BUS = "bus"  # SUMO's class, which is told first
CALLED = {BUS: "buses", "passenger": "cars"}  # others have SUMO's name
MOST_PLACES = 8  # doubted, on the first page
# How often such places were far off is by bench/run doubted-rows, how far what works add by bench/run works.
UNSURE = (
    "where nearly as many wish to pass as can, or more, a few vehicles more or less change the wait by minutes. Beside "
    "another simulator two of three such places were off by more than a quarter"
)
ANSWER_HOLDS = (
    " That more come than the open lane lets through holds all the same, as it is by counts; waits and queues are not "
    "sure."
)
UNSURE_WORKS = ", and what works add to a trip by up to five minutes"


def common_seeds(plans: Sequence[Runs]) -> int:
    """How many seeds all plans have."""
    return len(set.intersection(*({*runs.folders} for runs in plans)))


def departures_told(plans: Sequence[Runs]) -> str:
    """How the vehicles of the runs depart, and of what days intervals are, in plain text."""
    drawn, seeds = are_drawn(plans), common_seeds(plans)
    usual = "departures drawn" if drawn else "departures as listed"
    return "; ".join(told_of_days(drawn, seeds)) if seeds > 1 else usual


def question_html(question: str, plans: Sequence[Runs], interval: Interval) -> str:
    """What was asked (a usual question where it is empty), and of which runs, as HTML."""
    last_plan, setting = plans[-1], plans[-1].first_folder.setting
    names = [runs.name for runs in plans]
    two = len(names) == 2
    usual = f"How does the plan '{names[0]}' flow?"
    if two:
        usual = f"What changes if the plan '{names[1]}' takes the place of the plan '{names[0]}'?"
    first, count = last_plan.departing(setting.get("until", 0))
    vehicles = f"{count:,.0f} vehicle{'' if count == 1 else 's'}"
    runs_text = (
        f"{vehicles} from {time_of_day(first)} to {time_of_day(setting.get('until', 0))}; "
        f"{counted_noun(len(last_plan.rows['junctions', *interval]), 'junction')}, "
        f"shown from {time_of_day(interval[0])} to {time_of_day(interval[1])}; "
        f"{counted_noun(len(last_plan.folders), 'run')} of {'each' if two else 'the'} plan, simulated by streetsim; "
        f"{departures_told(plans)}."
    )
    notes = dict.fromkeys(text for runs in plans for folder in runs.folders.values() for text in folder.notes)
    told = "".join(f'<p class="doubt">{escape(text)}</p>' for text in notes)
    asked = f'<p class="asked">What was asked: <b>{escape(question or usual)}</b></p>'
    return f'{told}{asked}<p class="small">{escape(runs_text)}</p>'


def verdict(plans: Sequence[Runs], interval: Interval) -> str:
    """The answer, a list of its figures, and the worst doubts, as HTML, with a mark where runs are not to be
    trusted."""
    if len(plans) == 2:
        (first, *texts), figures = change_verdict(plans, interval)
    else:
        (first, *texts), figures = state_verdict(plans[0], interval, jams_of(plans[0])), []
    figures_html = f'<p class="small">The figures behind it:</p><div class="small">{bullets(figures)}</div>'
    if not texts:
        texts, figures_html = figures, ""
    untrusted = [f"the plan '{runs.name}', as {first_reason(runs)}" for runs in plans if doubts_of(runs)]
    told = f"Not to be trusted: {'; '.join(untrusted)} (all reasons: below)."
    told += ANSWER_HOLDS if untrusted and any(page_works.advice(plans[-1])) else ""
    mark = f'<p class="doubt">{escape(told)}</p>' if untrusted else ""
    answer = f'{mark}<p class="verdict">{escape(first)}</p>{hours_table(plans)}{bullets(texts)}{doubted_line(plans)}'
    return answer + (figures_html if figures else "")


def doubted_line(plans: Sequence[Runs]) -> str:
    """The worst doubted places of all plans, as HTML; empty where there are none."""
    names, by_place = plans[-1].names, doubts_by_place(plans)
    places = worst_first(place for runs in plans for place in runs.places)
    texts = [
        f"{place.place_told(names)}: {why(worst_of(found))}{with_plans(found, plans)}"
        for place, found in ((place, by_place[place_of(place)]) for place in places[:MOST_TOLD])
    ]
    more = [f"and {counted_noun(len(places) - MOST_TOLD, 'other place')}"] if len(places) > MOST_TOLD else []
    worst = f", each by the worst of {counted_noun(common_seeds(plans), 'run')}" if common_seeds(plans) > 1 else ""
    of_works = UNSURE_WORKS if any(place.kind == OF_WORKS for place in places) else ""
    head = f"{UNSURE}{of_works}. Doubted so{worst}: " if any(place.size for place in places[:MOST_TOLD]) else ""
    text = f"Why it is not sure: {head}{'; '.join([*texts, *more])}."
    return f'<p class="doubt">{escape(text)}</p>' if places else ""


def doubts_by_place(plans: Sequence[Runs]) -> dict[Place, list[tuple[str, Doubt]]]:
    """By place, whatever its times, (plan, its worst doubt) of the plans that have one there."""
    found = defaultdict[Place, list[tuple[str, Doubt]]](list)
    for runs in plans:
        for doubt in worst_first(runs.places):
            found[place_of(doubt)].append((runs.name, doubt))
    return found


def worst_of(found: Sequence[tuple[str, Doubt]]) -> Doubt:
    """The doubt of the greatest size of a place."""
    return max((doubt for _, doubt in found), key=lambda doubt: doubt.size)


def with_plans(found: Sequence[tuple[str, Doubt]], plans: Sequence[Runs]) -> str:
    """With which of two plans a place is doubted, and how much, in brackets; empty of one plan."""
    told = ", ".join(f"'{name}'{size_told(doubt.size)}" for name, doubt in found)
    return f" ({told})" if len(plans) > 1 else ""


def places_table(plans: Sequence[Runs]) -> str:
    """A table, as HTML, of the doubted places, the worst MOST_PLACES of all plans, of each place the worst; empty where
    there are none."""
    names, by_place = plans[-1].names, doubts_by_place(plans)
    places = worst_first(place for runs in plans for place in runs.places)
    rows = [
        [
            escape(one.place_told(names)), escape(plans_told(by_place[place_of(one)], plans)),
            escape(why(worst_of(by_place[place_of(one)]))), one.touches,
        ]
        for one in places[:MOST_PLACES]
    ]
    left = len(places) - MOST_PLACES
    told = f'<p class="small">{counted_noun(max(0, left), "further place")}: column doubt of the tables.</p>'
    more = told if left > 0 else ""
    return table(["doubted", "with", "why", "what it touches"], rows, names=4) + more if rows else ""


def plans_told(found: Sequence[tuple[str, Doubt]], plans: Sequence[Runs]) -> str:
    """The plans with which a place is doubted, of two with how much."""
    sizes = [f" ({size_told(doubt.size).strip()})" if doubt.size and len(plans) > 1 else "" for _, doubt in found]
    return " and ".join(name + size for (name, _), size in zip(found, sizes, strict=True))


def service_and_works_map(runs: Runs, interval: Interval, rows: Sequence[RowChange] = (), detailed: int = 0) -> str:
    """The map of a plan in an interval by level of service, and its road works, with a legend, as HTML. rows: of
    junctions, which are marked where they change noticeably; the first `detailed` of them are links to their
    sections."""
    names, called = runs.names, runs.names.junction_told
    approaches = {
        row.key[1]: (row.letter(), f"{row.key[1]} {names.approach(row.key[1])}: {row.delay:.1f} s, {row.letter()}")
        for row in runs.rows["approaches", *interval].values()
    }
    linked = {one.key[0] for one in rows[:detailed]}
    junctions = {
        row.key[0]: (row.letter(), f"{called(row.key[0])}: {row.delay:.1f} s, {row.letter()}", row.key[0] in linked)
        for row in runs.rows["junctions", *interval].values()
    }
    signs = changes_that_stand_out(one for one in rows if not is_doubted(one))
    closed = page_works.closed_shapes(runs)
    picture = service_map(runs.first_folder.mapping, approaches, junctions, signs, closed)
    marks = f"; &#9650; waits more and &#9660; less than before, {how_sure(runs.is_drawn)}"
    marks += f"; small: by less than {NOTICED_SECONDS:g} s; none where it is doubted"
    caption = f"{escape(runs.name)}: approaches and junctions by level of service{marks if signs else ''}"
    keys = service_keys({letter for letter, _ in approaches.values()}, bool(closed))
    return map_figure(picture, f"{caption}; approaches wider where it is worse{levels_told()}", keys)


def alone_drawn(runs: Runs, interval: Interval) -> str:
    """The picture of a page's one junction in an interval, with a legend, as HTML; empty where it has several, or
    works, which the map shows."""
    found = runs.rows["junctions", *interval]
    if len(found) != 1 or page_works.seen_in(runs):
        return ""
    (name,) = next(iter(found))
    when = f"{time_of_day(interval[0])} to {time_of_day(interval[1])}"
    caption = f"{escape(runs.name)}, {when}. {escape(page_arms.KEY)}{levels_told()}"
    picture = page_arms.junction_picture(runs, name, interval)
    return f'<figure><div class="picture">{picture}</div><figcaption>{caption}</figcaption></figure>'


def levels_told() -> str:
    """The letters of levels of service on their colours, with the seconds of delay up to which they reach, as HTML."""
    parts = []
    for where, bounds in (("at lights", AT_SIGNALS), ("elsewhere", AT_PRIORITY)):
        reach = [*map(str, bounds), "above"]
        letters = " ".join(f'<span class="ids">{letter_mark(one)} {up}</span>' for one, up in zip(COLOURS, reach))
        parts.append(f"{where} {letters}")
    told = f"Seconds of delay up to which each reaches: {'; '.join(parts)}."
    return f'<br><span class="small">{told}</span>'


def costs(plans: Sequence[Runs], interval: Interval) -> str:
    """What a plan costs whom, as HTML: the worst movements, all of them of one junction, trips by class, and with two
    plans how trips of the same vehicles change, in all and by flow."""
    texts = worst_movements(ranked_rows(plans, interval, "movements"), plans[-1])
    tables = movements_table(plans, interval) + classes_table(plans)
    if len(plans) < 2:
        return bullets(texts) + tables
    plan_costs = costs_of(*plans)
    return bullets([*trips_told(plan_costs, common_seeds(plans)), *texts]) + tables + groups_table(plan_costs)


def classes_table(plans: Sequence[Runs]) -> str:
    """A table of the trips and delays of buses, cars and other classes, with two plans before and after, as HTML; empty
    where all that arrived are of one class."""
    found = [means_by_class(runs) for runs in plans]
    classes = sorted(found[0].keys() | found[-1].keys(), key=lambda vclass: (vclass != BUS, vclass))
    if len(classes) < 2:
        return ""
    sides = {one: [own.get(one, {}) for own in found] for one in classes}
    rows = [[escape(CALLED.get(one, one)), *class_row(sides[one], are_drawn(plans))] for one in classes]
    heads = ["trip, s", "delay, s"]
    if len(plans) == 2:
        heads = [f"{what} {when}, s" for what in ("trip", "delay") for when in ("before", "after", "change")]
    return table(["trips by class", "trips", *heads], rows)


def class_row(sides: Sequence[Mapping[int, Means]], drawn: bool) -> list[str]:
    """The cells, as HTML, of a class in a table of trips: how many arrived in all runs of the last plan, then the mean
    trip and the mean delay in seconds; with two plans before, after and the change of each, '-' without a common seed.
    sides: by plan the means of each seed; drawn: whether departures were."""
    cells = [f"{sum(own.arrived for own in sides[-1].values()):,}"]
    for name in ("trip", "delay"):
        values = [{seed: getattr(own, name) for seed, own in side.items()} for side in sides]
        if len(sides) == 1:
            cells.append(mean_told(values[0].values()))
            continue
        one = difference_of(*values, drawn=drawn)
        cells += [f"{one.mean_before:.1f}", f"{one.mean_after:.1f}", change_told(one)] if one else ["-", "-", "-"]
    return cells


def trips_told(plan_costs: PlanCosts, seeds: int = 1) -> list[str]:
    """Sentences, plain text, on how many trips become slower or quicker, and how many arrive with one plan alone; one
    that says so where no trip arrived with both. seeds: how many runs of each plan they are of."""
    runs = f" in {counted_noun(seeds, 'run')} together" if seeds > 1 else ""
    text = f"{plan_costs.lost:,} trips arrived before and do not now, {plan_costs.won:,} the other way round."
    alone = [text] if plan_costs.lost or plan_costs.won else []
    if not (count := len(plan_costs.changes)):
        return ["No trip arrived with both plans.", *alone]
    quicker, slower = (fmean(sign * change > NOTICED for change in plan_costs.changes) for sign in (-1, 1))
    text = (
        f"Of {count:,} trips of the same vehicles{runs} {100 * quicker:.0f} % become quicker by more than {NOTICED} s, "
        f"{100 * slower:.0f} % slower by more than {NOTICED} s"
    )
    tenth = plan_costs.changes[count * 9 // 10]
    text += f"; one in ten takes {tenth} s longer or more." if tenth > 0 else "."
    return [text, *alone]


def groups_table(plan_costs: PlanCosts) -> str:
    """A table of trips by flow, as HTML, those that lose most first; where there are more than six flows the first and
    the last three. Empty where there are none."""
    ranked = sorted(plan_costs.groups, key=lambda group: (-plan_costs.groups[group][1].change, group))
    half = MOST_GROUPS // 2
    shown_groups = ranked if len(ranked) <= MOST_GROUPS else [*ranked[:half], *ranked[-half:]]
    if not shown_groups:
        return ""
    rows = [
        [escape(group), f"{count:,}", f"{one.mean_before:.1f}", f"{one.mean_after:.1f}", change_told(one)]
        for group, (count, one) in ((group, plan_costs.groups[group]) for group in shown_groups)
    ]
    left = f" ({len(shown_groups)} of {len(ranked):,}: most lost, most won)" if len(shown_groups) < len(ranked) else ""
    return table([f"trips by flow{left}", "trips", "before, s", "after, s", "change, s"], rows)


def worst_movements(movements: Sequence[RowChange], runs: Runs) -> list[str]:
    """Sentences, plain text, on the movement that waits longest, and with two plans on the one that loses most by a
    change that stands out, of those with 20 vehicles an hour or more; empty where there is none. runs: of the last
    plan."""
    names = runs.names
    busy = [movement for movement in movements if movement.row.means["vehicles_per_hour"] >= LEAST_HOURLY]
    if not busy:
        return []

    def called(movement: RowChange) -> str:
        """What a movement is called, with its junction."""
        junction, edge, to = movement.key
        return f"{names.movement(edge, to)} at {names.junction_told(junction)}"

    worst = max(busy, key=lambda movement: movement.row.delay)
    level, hourly = worst.row.letter(), f"{worst.row.means['vehicles_per_hour']:.0f} vehicles an hour"
    sentence = f"{called(worst)}, {worst.row.delay:.0f} s, level of service {level}, {hourly}{doubt_told(worst)}"
    away = " at a junction, away from the works" if page_works.seen_in(runs) else ""
    texts = [f"Longest delay{away}: {sentence}."]
    losing = [
        (movement.change, movement)
        for movement in busy
        if movement.change and movement.change.stands_out() and movement.change.change > 0
    ]
    if losing:
        change, most = max(losing, key=lambda pair: pair[0].change)
        sentence = f"{change.mean_after:.0f} s instead of {change.mean_before:.0f} s ({change.in_words()} s)"
        texts.append(f"Loses most: {called(most)}, {sentence}{doubt_told(most)}.")
    elif any(movement.change and movement.change.half is not None for movement in busy):
        texts.append(f"No movement is shown to lose{'' if runs.is_drawn else ' by more than chance'}.")
    return texts


def doubt_told(one: RowChange) -> str:
    """What doubts a row, as the end of a sentence; empty where nothing does."""
    return "; this is doubted" if one.row.doubt else ""


def doubted(plans: Sequence[Runs], further_doubts: Sequence[str] = ()) -> str:
    """What is doubted, as an HTML table of places and a list; further_doubts: what else speaks against the runs, each
    as plain text."""
    texts = []
    for runs in plans:
        texts += [f"{runs.name} is not to be trusted: {reason}" for reason in reasons_once(runs)]
        if not doubts_of(runs) and not runs.places:
            texts.append(f"{runs.name}: nothing that a run checks of itself speaks against it.")
    texts += [*further_doubts, *growth_doubts(plans)]
    if len(plans) == 2 and (kind := kind_of_change(plans[0], plans[1])):
        texts.append(error_told(kind, is_calibrated(plans[0].first_folder.mapping)))
    if (seeds := common_seeds(plans)) < 2:
        texts.append("One run says nothing of chance: streetsim-run --seeds 1-5 makes several.")
    elif not are_drawn(plans):
        texts += [f"{text.capitalize()}." for text in told_of_days(False, seeds)]
    rows = (row for runs in plans for row in runs.first_folder.mapping.warning_rows)
    if heavy := [*dict.fromkeys(row[1] for row in rows if row[0] == HEAVY)]:
        first = heavy[0] if len(heavy[0]) < LONG else heavy[0][: LONG - 3] + ".."
        told = f"The import reported {counted_noun(len(heavy), 'thing')} that may change results"
        texts.append(f"{told} (appendix){'; the first' if len(heavy) > 1 else ''}: {first}.")
    texts.append("These are numbers of a simulation: the street may do otherwise, and nobody here changes the way.")
    return places_table(plans) + bullets(texts) + (errors_told() if len(plans) == 2 else "")


def growth_doubts(plans: Sequence[Runs]) -> list[str]:
    """What speaks against the second of two plans by lanes that its demand nearly fills, as plain texts; none of one
    plan."""
    if len(plans) < 2:
        return []
    lanes = [loaded_lanes(runs.first_folder.mapping) for runs in plans]
    growth = plans[1].vehicles / max(1, plans[0].vehicles)
    return [f"{plans[1].name}: {text}" for text in forecast_doubts(lanes[1], lanes[0], growth)]
