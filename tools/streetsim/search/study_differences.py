"""By how much the variants of a study differ, and how sure that is. Results are, by variant, the outcomes of its runs
in the order of the seeds."""
from collections.abc import Iterator, Mapping, Sequence
from dataclasses import dataclass
from statistics import fmean, stdev

from streetsim.base.seeds import mean_and_day, mean_and_half_width, paired, paired_day, runs_needed, unpaired_half_width
from streetsim.model.doubts import OF_WORKS
from streetsim.model.tables import Entry
from streetsim.search.run_prepared import Outcome
from streetsim.search.study_variants import Study

RUNS = (
    *("variant", "seed", "arrived", "mean_trip_s", "total_s", "end_s", "ended", "waited_to_enter"),
    *("junctions_giving_way", "signal_lines", "digest"),
)
DIFFERENCES = (
    *("variant", "mean_trip_s", "difference", "half_width_95_paired", "half_width_95_unpaired", "runs"),
    *("runs_needed_paired", "runs_needed_unpaired", "half_width_95_day", "half_width_95_mean_of_day", "not_trusted"),
    "doubted",
)

WINDOWS_FILE = "windows.csv"
WINDOWS = (
    *("variant", "begin", "end", "vehicle_hours", "half_width_95", "vehicles_that_pass", "queue_max_m", "queue_at"),
    *("worst_quarter_at", "worst_quarter_delay_s", "doubt"),
)


@dataclass(frozen=True, slots=True)
class VariantDifference:
    """A row of differences.csv but for not_trusted and doubted: a variant's mean trip and its difference to the base's,
    with half widths of the 95 % interval; seconds. None for what the base, or one seed, does not have."""

    variant: str
    mean: float
    difference: float | None
    paired: float | None  # half width, of runs with equal seeds
    unpaired: float | None  # half width, as if their seeds were others
    runs: int
    needed_paired: int | None  # paired runs for the precision that is asked for; None too where 2^20 are too few
    needed_unpaired: int | None
    day: float | None = None  # half width of the interval of a day's difference, where departures were drawn
    mean_of_day: float | None = None  # the same of a day's mean trip


def means_of(study: Study, outcomes_by_variant: Mapping[str, Sequence[Outcome]], name: str) -> list[float]:
    """Of each run of a variant, in the order of the seeds, the mean trip, seconds, of the vehicles that depart before
    the end: from the wished departure to the arrival, or to the end of the run."""
    variant = study.variants[name]
    return [outcome.seconds / max(1, variant.cars(at)) for at, outcome in enumerate(outcomes_by_variant[name])]


def run_rows(study: Study, outcomes_by_variant: Mapping[str, Sequence[Outcome]]) -> Iterator[Entry]:
    """The rows of runs.csv, as RUNS has the columns: one for each variant and seed."""
    for name, outcomes in outcomes_by_variant.items():
        for seed, run, mean in zip(study.seeds, outcomes, means_of(study, outcomes_by_variant, name), strict=True):
            ends = run.seconds, run.end, run.end_reason.partition(": ")[2] or "until"
            yield name, seed, run.arrived, f"{mean:.3f}", *ends, run.waiting, run.junctions, run.lines, run.digest


def differences(
    study: Study, outcomes_by_variant: Mapping[str, Sequence[Outcome]], precision: float
) -> list[VariantDifference]:
    """The row of each variant. precision: the half width that runs are to reach, in percent of the base's mean trip."""
    base = means_of(study, outcomes_by_variant, study.base)
    error = fmean(base) * precision / 100
    rows: list[VariantDifference] = []
    for name in study.variants:
        means = means_of(study, outcomes_by_variant, name)
        if name == study.base or len(means) < 2:
            difference = None if name == study.base else fmean(means) - fmean(base)
            day_half_width = mean_and_day(means)[1] if study.drawn else None
            nothing = None, None, len(means), None, None, None
            rows.append(VariantDifference(name, fmean(means), difference, *nothing, day_half_width))
            continue
        difference, half = paired(base, means)
        unpaired = unpaired_half_width(base, means)
        apart = [variant_s - base_s for base_s, variant_s in zip(base, means, strict=True)]
        needed = runs_needed(stdev(apart), error), runs_needed((stdev(base) ** 2 + stdev(means) ** 2) ** 0.5, error)
        days = (paired_day(base, means)[1], mean_and_day(means)[1]) if study.drawn else (None, None)
        rows.append(VariantDifference(name, fmean(means), difference, half, unpaired, len(means), *needed, *days))
    return rows


def cell_values(row: Entry) -> Entry:
    """A row as it is written: None as an empty text, a float with three decimals; all else stays."""
    return tuple("" if value is None else f"{value:.3f}" if isinstance(value, float) else value for value in row)


def window_rows(study: Study, outcomes_by_variant: Mapping[str, Sequence[Outcome]]) -> Iterator[Entry]:
    """The rows of windows.csv, as WINDOWS has the columns, one for each variant with works beside the base: the
    vehicle-hours that all trips take more, in the mean over the seeds, with the half width of its 95 % interval, those
    who pass the works, the greatest queue of all runs, and the worst quarter in the mean."""
    base = outcomes_by_variant[study.base]
    for name, outcomes in outcomes_by_variant.items():
        variant = study.variants[name]
        if name == study.base or not variant.works:
            continue
        # Departures that are drawn alike have the same vehicles with and without works.
        hours = [(outcome.seconds - other.seconds) / 3600 for outcome, other in zip(outcomes, base, strict=True)]
        mean, half = mean_and_half_width(hours)
        longest = max(outcomes, key=lambda outcome: outcome.works_queue[0])
        quarters = [outcome.works_quarter for outcome in outcomes]
        worst = max(quarters, key=lambda quarter: quarter[0])
        doubt = "; ".join(dict.fromkeys(doubt.why for doubt in variant.places if doubt.kind == OF_WORKS))
        yield (
            name, min(begin for _, begin in variant.works), variant.works_end, f"{mean:.1f}",
            "" if half is None else f"{half:.1f}", f"{fmean(outcome.works_passed for outcome in outcomes):.0f}",
            f"{longest.works_queue[0]:.0f}", longest.works_queue[1], worst[1],
            f"{fmean(quarter[0] for quarter in quarters):.0f}", doubt,
        )
