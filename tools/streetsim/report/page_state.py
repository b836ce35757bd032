"""The answer of a page of one plan, a councillor's words first: whether it flows, for all, in the worst time and with
the worst movement."""
from collections import defaultdict
from collections.abc import Sequence

from streetsim.base.words import time_of_day
from streetsim.model.doubts import SPREAD, Doubt, place_of, worst_first
from streetsim.model.service import level
from streetsim.report import page_works
from streetsim.report.page_choice import BAD, RowChange
from streetsim.report.page_markup import mean_told
from streetsim.report.page_reasons import doubts_of
from streetsim.report.page_verdict import (
    Interval, LEAST_HOURLY, doubted_share, lane_is_full, ranked_rows, slowest, worst_interval,
)  # fmt: skip
from streetsim.report.page_words import count_in_words, counted_noun, in_worst, interval_name, why
from streetsim.report.plan_differences import mean_delays, values_by_seed
from streetsim.report.run_tables import Runs

FLOWS = "it flows"


def state_verdict(runs: Runs, interval: Interval, jam: str = "") -> list[str]:
    """The answer for one plan, and sentences on how long trips take, and how many junctions are worse than D in the
    interval that is shown, as plain texts. jam: who waited to enter, or which knots there were,
    in words, where the plan is doubted for it."""
    trip = f"A trip takes {mean_told(runs.mean_trips().values())} s on average."
    works = [
        text for one in page_works.seen_in(runs)
        for text in (page_works.closed_told(runs, one), *page_works.worst_told(runs, one))
    ]
    levels = levels_of(runs, interval)
    first, *texts = state_answer(runs, worst_interval([runs]))
    if jam:
        first = f"It does not flow: {jam}."
    return [first, *works, *texts, trip, *([levels] if levels else [])]


def state_answer(runs: Runs, worst: Interval) -> list[str]:
    """The answer, whether it flows, which is not sure where the plan is not to be trusted, or doubted movements have
    much of the delay in the worst interval, unless more wish to pass than can; and sentences on the delay of all, of
    that interval, and of the slowest movement there."""
    movement, every = slowest([runs], worst), runs.intervals()
    flows = how_it_flows(runs, worst)
    all_rows = [row for (table, *_), rows in runs.rows.items() if table == "junctions" for row in rows.values()]
    text = f"A vehicle loses {mean_told(mean_delays(all_rows).values())} s at "
    text += f"{'the' if len(runs.rows['junctions', *worst]) == 1 else 'a'} junction on average"
    if len(every) > 1:
        those = mean_told(mean_delays(runs.rows["junctions", *worst].values()).values())
        text += f", {those} s in the worst time, {time_of_day(worst[0])} to {time_of_day(worst[1])}"
    text += f" (±: {interval_name(runs.is_drawn)})" if len(runs.folders) > 1 else ""
    if movement:
        called = f"{runs.names.movement(*movement.key[1:])} at {runs.names.junction_told(movement.key[0])}"
        delay = mean_told(values_by_seed(movement.row, "control_delay_s").values())
        text += f", and with the worst movement, {called}, {delay} s ({movement.row.letter()})"
    texts = [f"{text}.", *lane_is_full(movement)]
    if doubts_of(runs):
        return [f"Not sure: here {flows}.", *texts]
    if doubted_share(runs, worst) < SPREAD:
        return [f"{flows[0].upper()}{flows[1:]}.", *texts]
    full = [one for one in worst_first(runs.places) if one.size > 1]
    if not full or flows == FLOWS:
        return [f"Not sure: here {flows}, but the movements that wait most are doubted.", *texts]
    told = f"{flows[0].upper()}{flows[1:]}. Worst: {full[0].place_told(runs.names)}: "
    told += f"{why(full[0])}{in_worst(len(runs.folders))}."
    return [told, f"{how_sure_at(runs, full[0])} {texts[0]}", *texts[1:]]


def how_sure_at(runs: Runs, doubt: Doubt) -> str:
    """A sentence on how sure it is that more wish to pass at the place of a doubt than can, and how long they wait."""
    places_by_run = [folder.places for folder in runs.folders.values()]
    full = [any(place_of(one) == place_of(doubt) and one.size > 1 for one in places) for places in places_by_run]
    if len(full) == 1:
        return "How long they wait is not sure."
    often = f"{count_in_words(sum(full))} of {counted_noun(len(full), 'run')}"
    return f"More wish to pass there than can in {often}; how long they wait is not sure."


def how_it_flows(runs: Runs, interval: Interval) -> str:
    """Whether it flows in an interval: not where a junction is worse than D, in part where some movements are."""
    rows = runs.rows["junctions", *interval].values()
    bad = sum(level(row.delay, row.control) in BAD for row in rows)
    if bad:
        where = f" at {count_in_words(bad)} of {counted_noun(len(rows), 'junction')}" if len(rows) > 1 else ""
        return f"it does not flow{where}"
    movements = ranked_rows([runs], interval, "movements")
    busy = [one for one in movements if one.row.means["vehicles_per_hour"] >= LEAST_HOURLY]
    slow = [one for one in busy if one.is_bad]
    if not slow:
        return FLOWS
    of_all = f"{count_in_words(len(slow))} of {counted_noun(len(busy), 'movement')}"
    if len(rows) == 1 and (streets := bad_streets(runs, busy)):
        return f"{FLOWS} on {streets[0]}, not on {streets[1]} ({of_all} at level E or F)"
    if 2 * len(slow) < len(busy):
        return f"{FLOWS}, but for {of_all} (level E or F)"
    return f"{of_all} {'does' if len(slow) == 1 else 'do'} not flow (level E or F)"


def bad_streets(runs: Runs, movements: Sequence[RowChange]) -> tuple[str, str] | None:
    """(the streets of a junction from which no movement is bad, those from which half or more are), in words; None
    where the movements are not so divided."""
    by_street = defaultdict[str, list[bool]](list)
    for one in movements:
        street = runs.names.street(one.key[1]) or f"the street {runs.names.coming_from(one.key[1])}"
        by_street[street].append(one.is_bad)
    good = [street for street, own in by_street.items() if not any(own)]
    bad = [street for street, own in by_street.items() if 2 * sum(own) >= len(own)]
    divided = good and bad and len(good) + len(bad) == len(by_street)
    return (" and ".join(good), " and ".join(bad)) if divided else None


def levels_of(runs: Runs, interval: Interval) -> str:
    """A sentence on the levels of service of junctions in an interval; those that are doubted are not called sure."""
    rows = ranked_rows([runs], interval)
    sure = [junction for junction in rows if not junction.row.doubt]
    doubted_count = len(rows) - len(sure)
    of_rows = counted_noun(len(rows), "junction")
    doubt = f" Levels of service of {count_in_words(doubted_count)} of {of_rows} are doubted."
    if len(rows) == 1:
        doubt = f" The junction's level of service, here {rows[0].row.letter()}, is doubted."
    doubt = doubt if doubted_count else ""
    if not sure:
        return doubt.strip()
    bad = sum(junction.is_bad for junction in sure)
    worst = max(sure, key=lambda junction: (junction.row.letter(), junction.row.delay))
    letter, name = worst.row.letter(), runs.names.junction_told(worst.key[0])
    if len(rows) == 1:
        return f"{name} has level of service {letter}."
    other = " other" if doubted_count else ""
    if not bad:
        return f"Every{other} junction has level of service {letter} or better; the worst is {name}.{doubt}"
    have = f"{'has' if bad == 1 else 'have'} a level of service worse than D; the worst is {letter}, at {name}"
    of_all = counted_noun(len(sure), f"{other} junction".strip())
    return f"{count_in_words(bad).capitalize()} of {of_all} {have}.{doubt}"
