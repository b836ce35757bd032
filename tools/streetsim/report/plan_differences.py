"""Differences of two plans, before and after, paired by seed."""
from collections.abc import Iterable, Mapping
from dataclasses import dataclass

from streetsim.base.seeds import mean_and_day, mean_and_half_width
from streetsim.report.run_tables import ResultRow

BETTER, WORSE, UNDECIDED = "better", "worse", "undecided"


@dataclass(frozen=True, slots=True)
class PlanDifference:
    """A value with both plans, as means over the seeds that both have, the change from before to after, and its two
    95 % intervals."""

    mean_before: float
    mean_after: float
    change: float
    half: float | None  # half the width of the interval of the mean change, which decides; none of one seed
    # The same of the change on one day, which warns, where departures were drawn; the first one is else of the chance
    # of dawdling alone.
    day: float | None = None

    def in_words(self) -> str:
        """The change with its sign and the half of the interval of the mean: '-3.2 ± 0.4'; of one seed without it."""
        return f"{self.change:+.1f}" + ("" if self.half is None else f" ± {self.half:.1f}")

    def stands_out(self) -> bool:
        """Whether the interval of the mean change leaves no doubt of the sign; never of one seed."""
        return self.half is not None and abs(self.change) > self.half

    def word(self) -> str:
        """Of seconds that are lost: whether it is BETTER, WORSE or UNDECIDED."""
        return UNDECIDED if not self.stands_out() else BETTER if self.change < 0 else WORSE


def difference_of(
    values_before: Mapping[int, float], values_after: Mapping[int, float], *, drawn: bool
) -> PlanDifference | None:
    """The difference of values, {seed: value}, over the seeds that both have; None where there are none. drawn:
    whether the departures were, by each seed, so that each seed is a day."""
    seeds = sorted(values_before.keys() & values_after.keys())
    if not seeds:
        return None
    changes = [values_after[seed] - values_before[seed] for seed in seeds]
    change, half = mean_and_half_width(changes)
    firsts, seconds = (sum(values[seed] for seed in seeds) / len(seeds) for values in (values_before, values_after))
    return PlanDifference(firsts, seconds, change, half, mean_and_day(changes)[1] if drawn else None)


def values_by_seed(row: ResultRow, name: str) -> dict[int, float]:
    """{seed: value} of a measure of a row, by its column; seeds that do not have it are left out."""
    return {seed: values[name] for seed, values in row.by_seed.items() if name in values}


def mean_delays(rows: Iterable[ResultRow]) -> dict[int, float]:
    """{seed: mean control delay, seconds a vehicle, over all vehicles of some rows}; seeds without vehicles are left
    out."""
    sums: dict[int, tuple[float, float]] = {}
    for row in rows:
        for seed, values in row.by_seed.items():
            lost, count = sums.get(seed, (0.0, 0.0))
            sums[seed] = lost + values["vehicles"] * values["control_delay_s"], count + values["vehicles"]
    return {seed: lost / count for seed, (lost, count) in sums.items() if count}
