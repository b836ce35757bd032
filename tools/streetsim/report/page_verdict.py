"""The answer of a report, a councillor's words first: better, worse or undecided, for all, in the worst quarter of an
hour, and for the worst movement; of works the vehicle-hours, those who pass, and the queue."""
from collections.abc import Collection, Iterator, Sequence

from streetsim.base.words import time_of_day
from streetsim.model.doubts import MOST_TOLD, SPREAD, worst_first
from streetsim.report import page_works
from streetsim.report.forecast_errors import GROWTH, LANE, SPLIT, WAVE, ForecastError
from streetsim.report.light_timings import timings_of
from streetsim.report.page_hours import other_hours
from streetsim.report.page_choice import RowChange, changes_that_stand_out, ranked_changes
from streetsim.report.page_reasons import doubts_of
from streetsim.report.page_words import change_in_words, count_in_words, counted_noun, how_sure, in_worst, why
from streetsim.report.plan_differences import UNDECIDED, PlanDifference, difference_of, mean_delays
from streetsim.report.run_tables import Runs

Interval = tuple[int, int]  # begin and end, seconds
GROWN = 1.05  # times as many vehicles: from there on a forecast is one of growth
OFTEN = 10.0  # per cent of the cycles
LEAST_HOURLY = 20  # vehicles an hour of a movement that is called the worst


def ranked_rows(plans: Sequence[Runs], interval: Interval, table_: str = "junctions") -> list[RowChange]:
    """What is told of each row of one table in the interval that is interval: of the last plan, beside the first where
    there are two; in the order of ranked_changes. table_: junctions, approaches or movements."""
    rows = [runs.rows.get((table_, *interval), {}) for runs in plans]
    return ranked_changes(rows[-1], rows[0] if len(plans) == 2 else None, are_drawn(plans))


def are_drawn(plans: Sequence[Runs]) -> bool:
    """Whether the departures of all runs of the plans were drawn by their seeds."""
    return all(runs.is_drawn for runs in plans)


def kind_of_change(runs_before: Runs, runs_after: Runs) -> ForecastError | None:
    """Of which kind a forecast is: works, more vehicles, other greens or other offsets, the first that there is; None
    where none of them is."""
    if page_works.works_rows(runs_after.first_folder) and not page_works.works_rows(runs_before.first_folder):
        return LANE
    if runs_after.vehicles > GROWN * runs_before.vehicles:
        return GROWTH
    pairs = [(one, timings_of(runs_after).get(name)) for name, one in timings_of(runs_before).items()]
    known = [(one, other) for one, other in pairs if other]
    if any(one.phases != other.phases for one, other in known):
        return SPLIT
    return WAVE if any(one.offset != other.offset for one, other in known) else None


def change_verdict(plans: Sequence[Runs], interval: Interval) -> tuple[list[str], list[str]]:
    """What the second of two plans changes, as plain texts: the answer, behind which are the sentences of works, and
    the figures for all, in the worst interval and of the worst movement."""
    trip = difference_of(*(runs.mean_trips() for runs in plans), drawn=are_drawn(plans))
    worst = worst_interval(plans)
    delay = delay_change(plans, worst)
    answers, texts = [answer(plans, trip, delay, worst)], list[str]()
    has_works = kind_of_change(*plans) is LANE
    if has_works:
        advice = [*page_works.advice(plans[1]), *(other_hours(plans[1]) if any(page_works.advice(plans[1])) else ())]
        answers = [" ".join(advice) or answers[0], *works_told(plans, trip)]
    doubted = bool(doubtful_plans(plans, worst))
    if trip:
        means = f"{trip.mean_after:.1f} s in place of {trip.mean_before:.1f} s"
        told = f"{change_in_words(trip)}{not_decided(trip, doubted)}"
        texts.append(f"With '{plans[1].name}' a trip takes {means} on average: {told}.")
    if delay:
        means = f"{delay.mean_after:.1f} s in place of {delay.mean_before:.1f} s{quarter_told(plans, worst, has_works)}"
        told = f"{change_in_words(delay)}{not_decided(delay, doubted)}"
        texts.append(f"A vehicle's mean delay at a junction is {means}: {told}.")
    else:
        texts.append("No junction has vehicles with both plans.")
    return answers, [*texts, *worst_movement(plans, worst, has_works), *counted_changes(plans, interval)]


def not_decided(change: PlanDifference, doubted: bool) -> str:
    """Why a change that stands out decides nothing, as the end of a sentence; empty where it does, or none stands
    out."""
    return "; that does not decide, as the movements that wait most are doubted" if (
        doubted and change.stands_out()
    ) else ""


def doubtful_plans(plans: Sequence[Runs], worst: Interval) -> list[str]:
    """The names of plans that are not to be trusted, or of which doubted movements have much of the delay in the worst
    interval."""
    return [runs.name for runs in plans if doubts_of(runs) or doubted_share(runs, worst) >= SPREAD]


def answer(
    plans: Sequence[Runs], trip: PlanDifference | None, delay: PlanDifference | None, worst: Interval
) -> str:
    """The first sentence: better, worse or undecided, for all and in the worst interval; undecided where a plan is not
    to be trusted, or doubted movements have much of the delay there."""
    if trip is None:
        return "Undecided: nobody arrived with both plans."
    verdicts = trip.word(), (delay or trip).word()
    of_worst = "" if len(plans[0].intervals()) < 2 else f" from {time_of_day(worst[0])} to {time_of_day(worst[1])}"
    if trip.half is None:
        return "Undecided: one run of each says nothing of chance (streetsim-run --seeds 1-5)."
    if doubtful := doubtful_plans(plans, worst):
        which = "both plans" if len(doubtful) > 1 else repr(doubtful[0])
        doubt = f"the movements that wait most are doubted with {which}"
        if verdicts[0] == UNDECIDED:
            return f"Undecided: '{plans[1].name}' is not shown to be better or worse, and {doubt}."
        return f"Undecided, as {doubt}; here it is {verdicts[0]}."
    listed = "" if are_drawn(plans) or {*verdicts} == {UNDECIDED} else ", with these departures alone"
    if verdicts[0] == verdicts[1] or not of_worst:
        return f"{verdicts[0].capitalize()}{' for all, and in the worst time,' + of_worst if of_worst else ''}{listed}."
    return f"{verdicts[0].capitalize()} for all, {verdicts[1]} in the worst time,{of_worst}{listed}."


def doubted_share(runs: Runs, interval: Interval) -> float:
    """The share of the delay of all movements in an interval that those have which are doubted, 0 to 1."""
    rows = list(runs.rows.get(("movements", *interval), {}).values())
    lost = sum(row.vehicles_lost for row in rows)
    return sum(row.vehicles_lost for row in rows if row.doubt) / lost if lost else 0.0


def worst_interval(plans: Sequence[Runs], among: Collection[Interval] = ()) -> Interval:
    """Of the intervals that all plans have, or of some of these (among), the one in which vehicles lose most at
    junctions, with the plan in which they lose most."""
    common = among or set.intersection(*({*runs.intervals()} for runs in plans))

    def lost(interval: Interval) -> float:
        """Seconds an hour."""
        rows = (runs.rows.get(("junctions", *interval), {}).values() for runs in plans)
        return max(sum(row.vehicles_lost for row in own) for own in rows)

    return max(sorted(common), key=lost)


def delay_change(plans: Sequence[Runs], interval: Interval) -> PlanDifference | None:
    """The change of the mean delay at junctions in an interval; None where none has vehicles with both plans."""
    delays = (mean_delays(runs.rows.get(("junctions", *interval), {}).values()) for runs in plans)
    return difference_of(*delays, drawn=are_drawn(plans))


def quarter_told(plans: Sequence[Runs], interval: Interval, has_works: bool) -> str:
    """When an interval is, as the worst of several; empty where there is one alone. With works, which have a worst time
    of their own, as that of the junctions."""
    if len(plans[0].intervals()) < 2:
        return ""
    whose = " of the junctions" if has_works else ""
    return f" in the worst time{whose}, {time_of_day(interval[0])} to {time_of_day(interval[1])}"


def slowest(plans: Sequence[Runs], interval: Interval) -> RowChange | None:
    """The movement that waits longest in an interval with the last plan, of those with LEAST_HOURLY or more; None where
    there is none."""
    movements = ranked_rows(plans, interval, "movements")
    rows = [one for one in movements if one.row.means["vehicles_per_hour"] >= LEAST_HOURLY]
    return max(rows, key=lambda one: one.row.delay) if rows else None


def worst_movement(plans: Sequence[Runs], interval: Interval, has_works: bool = False) -> Iterator[str]:
    """A sentence on the slowest movement of an interval, and how it changes; nothing where there is none. With works it
    is told apart from the wait before these."""
    names = plans[-1].names
    if (worst := slowest(plans, interval)) is None:
        return
    called = f"{names.movement(*worst.key[1:])} at {names.junction_told(worst.key[0])}"
    change = f", {change_in_words(worst.change)}" if worst.change else ""
    ratios = [f"{row.means['v_c']:.2f}" for row in (worst.row, worst.row_before) if row]
    before = f" in place of {worst.row_before.delay:.0f} s" if worst.row_before else ""
    ratio = f"v/c {' in place of '.join(dict.fromkeys(ratios))}"
    doubt = "; this is doubted" if is_doubted(worst) else ""
    waits = f"waits {worst.row.delay:.0f} s{before} ({worst.row.letter()}, {ratio})"
    head = "Away from the works the worst movement" if has_works else "The worst movement"
    yield f"{head}, {called}, {waits}{change}{doubt}."
    yield from lane_is_full(worst, plans[-1].name if len(plans) > 1 else "")


def lane_is_full(movement: RowChange | None, plan: str = "") -> Iterator[str]:
    """A sentence on the lane of a movement, with the last plan, where it is full in OFTEN of the cycles, as the queue
    then stands before the lanes beside. plan: its name, of two."""
    means = movement.row.means if movement else {}
    if means.get("full_percent", 0.0) >= OFTEN:
        its = f"With '{plan}' its" if plan else "Its"
        lane = f"{its} lane, {means['storage_m']:.0f} m long, is full in {means['full_percent']:.0f} % of the cycles"
        behind = "and the queue goes on behind it: in 95 % of the cycles it ends within"
        yield f"{lane}, {behind} {means['queue_95_m']:.0f} m of the stop line."


def counted_changes(plans: Sequence[Runs], interval: Interval) -> Iterator[str]:
    """A sentence on how many junctions wait less and more in the interval that is shown, those that are doubted apart;
    nothing of one seed."""
    rows = ranked_rows(plans, interval)
    if len(rows) < 2 or not any(one.change and one.change.half is not None for one in rows):
        return
    sure = [one for one in rows if not is_doubted(one)]
    changed = [change > 0 for change in changes_that_stand_out(sure).values()]
    doubted, same = len(rows) - len(sure), len(sure) - len(changed)
    told = (
        (changed.count(False), f"it is shorter {how_sure(are_drawn(plans))}"),
        (changed.count(True), f"it is longer {how_sure(are_drawn(plans))}"), (same, "it is not shown to differ"),
        (doubted, "it is doubted"),
    )  # fmt: skip
    parts = [f"at {count_in_words(count)} {what}" for count, what in told if count]
    when = f"from {time_of_day(interval[0])} to {time_of_day(interval[1])}"
    yield f"The wait at {counted_noun(len(rows), 'junction')} {when}: {', '.join(parts)}."


def is_doubted(one: RowChange) -> bool:
    """Whether a row is doubted, with either plan."""
    return bool(one.row.doubt or one.row_before and one.row_before.doubt)


def also_before(runs: Runs) -> Iterator[str]:
    """A sentence on the place of a plan without works where most more wish to pass than can, of the worst that are
    told; nothing where there is none."""
    one = max(worst_first(runs.places)[:MOST_TOLD], key=lambda place: place.size, default=None)
    if one and one.size > 1:
        yield f"Without the works, too, {why(one)}{in_worst(len(runs.folders))}: {one.place_told(runs.names)}."


def works_told(plans: Sequence[Runs], trip: PlanDifference | None) -> Iterator[str]:
    """Sentences on works: what is closed, the longest queue and when it is, who passes and how long one waits at worst,
    and the vehicle-hours that all trips take more."""
    for works in page_works.seen_in(plans[1]):
        yield page_works.closed_told(plans[1], works)
        yield from page_works.worst_told(plans[1], works)
    yield from also_before(plans[0])
    if trip:
        hours = trip.change * plans[1].vehicles / 3600
        half = (trip.half or 0.0) * plans[1].vehicles / 3600
        if trip.half is not None and not trip.stands_out():
            reach = f"from {half - hours:,.0f} vehicle-hours less to {hours + half:,.0f} more"
            runs = counted_noun(len(plans[1].folders), "run")
            yield f"All drivers together: {runs} cannot say whether they lose time, {reach}."
        else:
            width = f" ± {half:,.0f}" if half else ""
            lose = "win" if hours < 0 else "lose"
            yield f"All drivers together {lose} {abs(hours):,.0f}{width} vehicle-hours."
