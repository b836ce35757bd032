"""What streetsim-study says of its runs: differences, a picture of them, ends, and why a variant is not to be trusted.
Results are, by variant, the outcomes of its runs in the order of the seeds."""
from bisect import bisect_right
from collections.abc import Collection, Iterable, Iterator, Mapping, Sequence
from statistics import fmean

from streetsim.base.colours import LINE
from streetsim.base.words import time_of_day
from streetsim.control.ending import ALL_ARRIVED
from streetsim.control.works_watched import in_runs
from streetsim.model import trust
from streetsim.model.doubts import places_told
from streetsim.model.replications import told_of_days
from streetsim.model.tables import Entry
from streetsim.report.forecast_errors import error_lines
from streetsim.report.picture_files import pyplot_if_installed, save_picture
from streetsim.search.run_prepared import Outcome
from streetsim.search.study_differences import VariantDifference
from streetsim.search.study_variants import Study


def draw_differences(study: Study, rows: Sequence[VariantDifference], path: str) -> None:
    """Draws the differences to the base with their intervals to a picture at path; nothing without matplotlib (which is
    said) or with the base alone. Fault where it cannot be written."""
    compared_rows = [row for row in rows if row.variant != study.base]
    pyplot = pyplot_if_installed()
    if pyplot is None or not compared_rows:
        return
    figure, axes = pyplot.subplots(figsize=(7, 1.2 + 0.4 * len(compared_rows)))
    for height, row in enumerate(reversed(compared_rows)):
        for width, size, label in intervals_of(row):
            if width is not None and row.difference is not None:
                ends = row.difference - width, row.difference + width
                named = f"95 % interval of {label}" if height == 0 else None
                axes.plot(ends, (height, height), color=LINE, linewidth=size, label=named)
        axes.plot([row.difference], [height], marker="o", color="black", markersize=5)
    axes.axvline(0, color="black", linewidth=0.8)
    axes.set_yticks(range(len(compared_rows)), [row.variant for row in reversed(compared_rows)])
    axes.set(xlabel=f"mean trip less that of {study.base} (s)", ylim=(-0.6, len(compared_rows) - 0.4))
    axes.set_title(f"{len(study.seeds)} seeds, departures {'drawn' if study.drawn else 'as listed'}", fontsize=10)
    if len(study.seeds) > 1:
        axes.legend(frameon=False, fontsize=8)
    save_picture(figure, path)


def intervals_of(row: VariantDifference) -> Sequence[tuple[float | None, float, str]]:
    """What the picture shows of a difference: half widths of intervals, how thick, and of what they are."""
    if row.day is not None:
        return (row.day, 1.2, "one day"), (row.paired, 4.0, "the mean change")
    return (row.unpaired, 1.2, "dawdling alone, unpaired"), (row.paired, 4.0, "dawdling alone, paired")


def doubts(study: Study, name: str, outcomes: Sequence[Outcome]) -> Iterator[str]:
    """What speaks against the runs of a variant, by its name, a text each; outcomes: of its runs, one at least."""
    variant = study.variants[name]
    arrived = fmean(outcome.arrived for outcome in outcomes)
    due = [variant.due_with(at) for at in range(len(outcomes))]
    in_time = fmean(bisect_right(arrivals, outcome.end) for arrivals, outcome in zip(due, outcomes, strict=True))
    yield from trust.missing_doubts({"": arrived}, in_time)
    vehicles = round(fmean(map(len, due)))
    yield from trust.waiting_doubts({"": [(outcome.waiting, outcome.waiting_at) for outcome in outcomes]}, vehicles)
    vehicle_counts = map(len, due)
    early = [run for run, cars in zip(outcomes, vehicle_counts, strict=True) if run.end_reason and run.arrived < cars]
    if early:
        yield f"{len(early):,} of {len(outcomes):,} runs ended before all had arrived; the others count until then"
    yield from trust.works_doubts(variant.works, [(outcome.end, outcome.all_arrived_at) for outcome in outcomes])
    yield from in_runs([outcome.at_works for outcome in outcomes])
    yield from variant.doubts


def tell_ends(study: Study, outcomes_by_variant: Mapping[str, Sequence[Outcome]]) -> None:
    """Prints how runs without a last second ended: those that ended otherwise than by the arrival of all, or, without
    any such, from which clock to which all ended. Nothing where the study has a last second."""
    if study.until is not None:
        return
    clocks = []
    unfinished: dict[tuple[str, str], list[str]] = {}
    for name, outcomes in outcomes_by_variant.items():
        for seed, run in zip(study.seeds, outcomes, strict=True):
            clocks.append(run.end)
            if not run.end_reason.endswith(ALL_ARRIVED):
                key = name, run.end_reason.partition(": ")[2]
                unfinished.setdefault(key, []).append(f"seed {seed} at {run.end:,} s")
    for (name, why), seeds in unfinished.items():
        print(f"{name}: {why}: {', '.join(seeds)}")
    if not unfinished:
        until = f"{min(clocks):,}" + (f" to {max(clocks):,}" if max(clocks) > min(clocks) else "")
        print(f"runs ended at {until} s: {ALL_ARRIVED}")


def tell_differences(rows: Sequence[VariantDifference], doubted: Collection[str]) -> None:
    """Prints for each variant whether it is better or worse than the base, its mean trip, and the difference to the
    base with its 95 % intervals; and how many paired runs the wanted precision needs, where that is more than were
    made; nothing of these where 2^20 are too few. doubted: variants that are not to be trusted."""
    for row in rows:
        line = f"{row.variant}: {answer(row, doubted)}mean trip {row.mean:.1f} s"
        if row.difference is not None:
            line += f", {row.difference:+.2f} s"
        if row.paired is not None and row.difference is not None:
            how = " by dawdling alone" if row.day is None else f", of one day ± {row.day:.2f}"
            line += f" ± {row.paired:.2f} (95 % interval of the mean change{how}; {row.runs} paired runs)"
        if row.needed_paired is not None and row.needed_paired > row.runs:
            line += f"; the wanted precision needs {row.needed_paired:,} runs"
        print(line)


def answer(row: VariantDifference, doubted: Collection[str]) -> str:
    """Whether a variant is better or worse than the base, or that this is undecided, before a colon; empty of the base
    and of one seed. doubted: as of tell_differences."""
    if row.difference is None or row.paired is None:
        return ""
    word = "undecided" if abs(row.difference) <= row.paired else "better" if row.difference < 0 else "worse"
    if row.variant in doubted:
        return "undecided, as doubted: " if word == "undecided" else f"undecided, as doubted (here {word}): "
    return f"{word}: "


def places_lines(study: Study) -> Iterator[str]:
    """The worst doubted places of each variant, a line each."""
    for name, variant in study.variants.items():
        if variant.places:
            yield f"{name}: {places_told(variant.places, variant.mapping)}"


def tell_how_sure(study: Study) -> None:
    """Prints of what days the intervals are, where there are several seeds, and, where variants are compared, the
    model's own error."""
    if len(study.seeds) > 1:
        print(*told_of_days(study.drawn, len(study.seeds)), sep="\n")
    if len(study.variants) > 1:
        print(*error_lines(), sep="\n")


def tell_giving_way(outcomes_by_variant: Mapping[str, Sequence[Outcome]]) -> None:
    """Prints at how many junctions vehicles give way without a light (in the run with the most), and by how many lines
    in the mean of the runs; nothing where no run has lines."""
    outcomes = [outcome for of_variant in outcomes_by_variant.values() for outcome in of_variant]
    if any(outcome.lines for outcome in outcomes):
        junctions, lines = max(outcome.junctions for outcome in outcomes), fmean(outcome.lines for outcome in outcomes)
        print(f"{junctions:,} junctions without a light give way by some {lines:,.0f} signal lines in each run")


def windows_told(rows: Iterable[Entry]) -> Iterator[str]:
    """The rows of windows.csv as lines for the terminal, the least vehicle-hours first; nothing of none."""
    ranked = sorted(rows, key=lambda row: float(row[3]))
    for name, begin, end, hours, half, passed, metres, at, quarter, delay, doubt in ranked:
        begins, ends, longest, worst = (time_of_day(int(clock)) for clock in (begin, end, at, quarter))
        more = f"{float(hours):+,.1f} vehicle-hours{f' ± {float(half):,.1f}' if half else ''}"
        queue = f"longest queue {metres} m at {longest}, worst quarter from {worst}: {delay} s to pass"
        doubted = f"; doubted: {doubt}" if doubt else ""
        yield f"{name}, {begins} to {ends}: {more}, {passed} pass, {queue}{doubted}"
