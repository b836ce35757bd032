"""Writes the files of streetsim-calibrate: drivers, segments.csv, criteria.csv, runs.csv and the page report.html."""
from __future__ import annotations

import hashlib
import json
from collections.abc import Iterable, Iterator, Mapping, Sequence
from dataclasses import dataclass, field
from html import escape
from math import sqrt
from pathlib import Path
from statistics import fmean

from streetsim.base.files import Json, whole_file
from streetsim.base.seeds import mean_and_half_width
from streetsim.demand.calibration_criteria import Criterion
from streetsim.demand.calibration_field import TRIP, FieldDay, pooled
from streetsim.demand.calibration_fit import LEAST_SEEN, FitResult, data_behind, value_in
from streetsim.demand.calibration_model import FittedDrivers, MeasuredRun
from streetsim.model.tables import Entry, write_table
from streetsim.report.page_markup import Section, bullets, facts, page, table

CRITERIA = ("criterion", "day", "drivers", "percent", "of", "wanted_percent", "held")
SEGMENTS = (
    *("segment", "day", "vehicles", "field_s", "field_half_width_95", "uncalibrated_s", "calibrated_s"),
    *("calibrated_half_width_95", "off_percent"),
)
RUNS = ("runs", "dawdle", "cut_s", "speed_factors", "cost")
FITTED_DAY, OTHER_DAY = "fitted", "other"
UNCALIBRATED, CALIBRATED = "uncalibrated", "calibrated"
LAST_FILE = "criteria.csv"
NOT_TOLD = (
    "Lefts that give way on an approach that a plan or a treatment makes the bottleneck: nothing in a base tells how "
    "many of them pass. Above 0.85 of its capacity such an approach wants a survey: --permissive EDGE=SHARE.",
    "Growth near capacity: above 0.9 of what a street passes, seconds grow faster than a base can tell.",
    "Changes by signal plans: after a calibration they are right in sign, and off by a quarter to a third.",
    "Streets beyond their capacity, and new bottlenecks: these come out too great.",
)


@dataclass(slots=True)
class JudgedDay:
    """A day with its runs: uncalibrated and calibrated, and how both meet the criteria."""

    name: str
    day: FieldDay
    runs: Mapping[str, Sequence[MeasuredRun]]
    criteria: dict[str, list[Criterion]]


@dataclass(slots=True)
class Calibration:
    """All that a calibration gave. sums: SHA-256 of its inputs, by path; shares: permissive ones that were given."""

    fit_result: FitResult
    days: list[JudgedDay]
    seeds: str
    check: str
    program: str
    shares: tuple[tuple[str, float], ...] = ()
    notes: list[str] = field(default_factory=list)
    sums: dict[str, str] = field(default_factory=dict)

    def last_day(self) -> JudgedDay:
        """The day that judges: the other one, where there is one."""
        return self.days[-1]

    def is_valid(self) -> bool:
        """Whether there is another day, and all criteria hold there."""
        last = self.last_day()
        return last.name == OTHER_DAY and all(criterion.is_met for criterion in last.criteria[CALIBRATED])

    def drivers(self) -> Json:
        """What the file of --drivers gets."""
        shares = {"shares": dict(self.shares)} if self.shares else {}
        return {**self.fit_result.drivers.written(), **shares}


def sum_of_input(path: str) -> str:
    """The SHA-256 of a file, in hex."""
    return hashlib.sha256(Path(path).read_bytes()).hexdigest()


def write_calibration(folder: str, calibration: Calibration) -> None:
    """Writes all files but the drivers into a folder."""
    write_table(f"{folder}/segments.csv", SEGMENTS, segment_rows(calibration.days))
    write_table(f"{folder}/runs.csv", RUNS, map(trial_row, calibration.fit_result.trials))
    with whole_file(f"{folder}/report.html") as file:
        file.write(page_of(calibration))
    write_table(f"{folder}/{LAST_FILE}", CRITERIA, criteria_rows(calibration.days))


def write_drivers(path: str, calibration: Calibration) -> None:
    """Writes the file of --drivers."""
    with whole_file(path) as file:
        json.dump(calibration.drivers(), file, indent=1)
        file.write("\n")


def trial_row(trial: tuple[int, FittedDrivers, float]) -> Entry:
    """A row of runs.csv."""
    runs, drivers, cost = trial
    speeds = " ".join(f"{name or 'all'}={factor:g}" for name, factor in drivers.speeds)
    return runs, f"{drivers.dawdle:.3f}", f"{drivers.cut:.3f}", speeds, f"{cost:.3f}"


def criteria_rows(days: Iterable[JudgedDay]) -> Iterator[Entry]:
    """The rows of criteria.csv."""
    for day in days:
        for drivers, criteria in day.criteria.items():
            for criterion in criteria:
                share, share_needed = f"{100 * criterion.share:.1f}", f"{100 * criterion.share_needed:.0f}"
                is_met = "yes" if criterion.is_met else "no"
                yield criterion.name, day.name, drivers, share, criterion.judged_count, share_needed, is_met


def way_name(key: Sequence[str]) -> str:
    """A way by its edges; of a trip, from which edge to which."""
    return f"{key[1]} .. {key[2]}" if key[0] == TRIP else ">".join(key)


def segment_rows(days: Iterable[JudgedDay]) -> Iterator[Entry]:
    """The rows of segments.csv: of each way that was seen LEAST_SEEN times at least."""
    for day in days:
        for key, (mean, deviation, count) in sorted(pooled(day.day.times).items()):
            if count >= LEAST_SEEN:
                before, after = (seed_means(day.runs[drivers], key) for drivers in (UNCALIBRATED, CALIBRATED))
                half = f"{1.96 * deviation / sqrt(count):.1f}" if deviation else ""
                cells = [way_name(key), day.name, count, f"{mean:.1f}", half, mean_or_none(before), *interval(after)]
                off = f"{100 * (fmean(after) / mean - 1):+.1f}" if after else ""
                yield (*cells, off)


def seed_means(runs: Iterable[MeasuredRun], key: tuple[str, ...]) -> list[float]:
    """The mean seconds of a way in each run in which somebody drove it."""
    return [run.times[key][0] / run.times[key][2] for run in runs if key in run.times]


def mean_or_none(values: Sequence[float]) -> str:
    """The mean with one decimal; empty without values."""
    return f"{fmean(values):.1f}" if values else ""


def interval(values: Sequence[float]) -> tuple[str, str]:
    """The mean and half its 95 % interval, of three runs or more; empty for what is not known."""
    half = mean_and_half_width(values)[1] if len(values) > 2 else None
    return mean_or_none(values), "" if half is None else f"{half:.1f}"


def page_of(calibration: Calibration) -> str:
    """The page, as HTML: criteria, segments, values, what is not vouched for, seeds and sums."""
    verdict = "The base is validated on another day." if calibration.is_valid() else why_not_valid(calibration)
    sections = [
        Section("criteria", "Criteria", criteria_table(calibration.days)),
        Section("segments", "Travel times, field and model", segments_table(calibration.days)),
        Section("values", "What was fitted", values_table(calibration)),
        Section("vouched", "What the calibration does not vouch for", bullets(NOT_TOLD)),
        Section("run", "Seeds and sums", facts(run_facts(calibration))),
    ]
    return page("A calibrated base", f"<p>{escape(verdict)}</p>", sections, [])


def why_not_valid(calibration: Calibration) -> str:
    """Why a base is not validated, as a sentence."""
    last_day = calibration.last_day()
    if last_day.name != OTHER_DAY:
        return "The base is fitted, and not validated: no other day was given."
    criteria = (criterion for criterion in last_day.criteria[CALIBRATED] if not criterion.is_met)
    missed = [f"{criterion.name} ({criterion.share_text()})" for criterion in criteria]
    return f"The base is not validated: on the other day it does not meet {', '.join(missed)}."


def criteria_table(days: Sequence[JudgedDay]) -> str:
    """The criteria of both days, without and with calibration, as HTML."""
    columns = [(day, drivers) for day in days for drivers in (UNCALIBRATED, CALIBRATED)]
    by_name: dict[str, dict[tuple[str, str], Criterion]] = {}
    for day, drivers in columns:
        for criterion in day.criteria[drivers]:
            by_name.setdefault(criterion.name, {})[day.name, drivers] = criterion
    rows = []
    for name, by_column in by_name.items():
        share_needed = next(iter(by_column.values())).share_needed
        cells = [criterion_cell(by_column.get((day.name, drivers))) for day, drivers in columns]
        rows.append([escape(name), f"{100 * share_needed:.0f} %", *cells])
    head = ["criterion", "wanted", *(f"{day.name} day, {drivers}" for day, drivers in columns)]
    note = "Counts fit by construction where the demand was made of them; segments without the minute tell more."
    return table(head, rows) + f'<p class="small">{escape(note)}</p>'


def criterion_cell(criterion: Criterion | None) -> str:
    """How a criterion is met, as HTML; empty where the day has no data for it."""
    if criterion is None:
        return ""
    return escape(f"{criterion.share_text()}: {'held' if criterion.is_met else 'not held'}")


def segments_table(days: Sequence[JudgedDay]) -> str:
    """The rows of segments.csv, as HTML."""
    rows = [[escape(str(cell)) for cell in row] for row in segment_rows(days)]
    head = ["way", "day", "vehicles", "field, s", "±", "uncalibrated, s", "calibrated, s", "±", "off, %"]
    return table(head, rows, 2)


def values_table(calibration: Calibration) -> str:
    """The values that were fitted, with their errors, by which data each is told, and how they go together, as HTML."""
    fit_result, day = calibration.fit_result, calibration.days[0].day
    rows = []
    for index, (fitted, error) in enumerate(zip(fit_result.fitted_values, fit_result.errors, strict=True)):
        pairs = zip(fit_result.fitted_values, fit_result.correlations[index], strict=True)
        together = ", ".join(f"{other.name} {value:+.2f}" for other, value in pairs if other is not fitted)
        cells = [value_name(fitted.name, fitted.street), f"{value_in(fit_result.drivers, fitted):.3f}", f"{error:.3f}"]
        cells += [f"{fitted.center:g} ± {fitted.spread:g}", data_behind(fitted, day), together]
        rows.append([escape(text) for text in cells])
    for fitted in fit_result.untold:
        name, known = value_name(fitted.name, fitted.street), f"{fitted.center:g}"
        cells = [name, f"{value_in(fit_result.drivers, fitted):.3f}", "", known]
        rows.append([escape(text) for text in (*cells, "not determined by these data", "")])
    if not day.lanes:
        rows.append(["dawdle, seconds cut", "as they are", "", "", "not surveyed: capacity is not calibrated", ""])
    head = ["value", "fitted", "standard error", "known before", "told by", "correlation"]
    return table(head, rows)


def value_name(name: str, street: str) -> str:
    """What a value is called."""
    return f"{name}, streets of {street} km/h" if street else name


def run_facts(calibration: Calibration) -> Iterator[tuple[str, str]]:
    """What was run, of which files, as HTML."""
    yield "runs of the fit", f"{calibration.fit_result.runs:,}, seeds {escape(calibration.seeds)}"
    if calibration.last_day().name == OTHER_DAY:
        yield "runs of the other day", f"seeds {escape(calibration.check)}"
    yield "departures", "as counted on each day"
    yield "program", escape(calibration.program)
    for path, known in calibration.sums.items():
        yield escape(path), f"SHA-256 {known}"
    for note in calibration.notes:
        yield "read", escape(note)


def criteria_lines(calibration: Calibration) -> Iterator[str]:
    """How the criteria are met, a line each, for the terminal; the last says whether the base is validated."""
    for day in calibration.days:
        for before, after in zip(day.criteria[UNCALIBRATED], day.criteria[CALIBRATED], strict=True):
            held = "held" if after.is_met else "not held"
            uncalibrated = f"uncalibrated {100 * before.share:.0f} %"
            yield f"{day.name} day: {after.name}: {after.share_text()}, {held} ({uncalibrated})"
    yield "validated on another day" if calibration.is_valid() else why_not_valid(calibration).rstrip(".")
