"""Seeds, and what the results of runs with several of them tell: means, 95 % intervals, how many runs are needed."""
import re
from collections.abc import Iterable, Sequence
from itertools import chain
from math import ceil, sqrt
from statistics import NormalDist, fmean, stdev

from streetsim.base.files import Fault

MOST_SEEDS = 1000
MOST_RUNS = 1_000_000
SEARCH_SPREAD, SEARCH_ERROR, MOST_SEARCHED = 0.005, 0.01, 10  # of a search: shares of the mean, and seeds
NORMAL = NormalDist().inv_cdf(0.975)
# Quantiles of Student's t at 97.5 %, for 1 to 30 degrees of freedom.
STUDENT = (
    12.706, 4.303, 3.182, 2.776, 2.571, 2.447, 2.365, 2.306, 2.262, 2.228, 2.201, 2.179, 2.160, 2.145, 2.131, 2.120,
    2.110, 2.101, 2.093, 2.086, 2.080, 2.074, 2.069, 2.064, 2.060, 2.056, 2.052, 2.048, 2.045, 2.042,
)


def seeds_of(text: str | int, name: str) -> Sequence[int]:
    """The seeds of a text, rising: numbers, and FIRST-LAST with both included, with commas between, as 1,4,7-9. Fault
    where it is none, or names more than 1,000, one twice, or one of 2^64 or more. name: what the user calls them."""
    ranges = [range_of(part) for part in str(text).split(",")]
    count = sum(map(len, ranges))
    if not all(ranges) or count > MOST_SEEDS or len(seeds := sorted({*chain(*ranges)})) < count:
        expected = f"expected FIRST-LAST, or such and numbers with commas between, at most {MOST_SEEDS:,} of them"
        raise Fault(f"{name} {text!r}: {expected}, each once")
    return ranges[0] if len(ranges) == 1 else seeds


def range_of(text: str) -> range:
    """The numbers below 2^64 of a text FIRST-LAST, both included, or of one number; none where it is neither."""
    match = re.fullmatch(r"(\d{1,20})(?:-(\d{1,20}))?", text)
    first, last = (int(match[1]), int(match[2] or match[1])) if match else (1, 0)
    return range(first, last + 1 if last < min(first + MOST_SEEDS, 2**64) else first)


def seeds_text(seeds: Iterable[int]) -> str:
    """Seeds that rise as the text that seeds_of reads, as 1,4,7-9."""
    runs: list[list[int]] = []
    for seed in seeds:
        if runs and seed == runs[-1][1] + 1:
            runs[-1][1] = seed
        else:
            runs.append([seed, seed])
    return ",".join(f"{first}-{last}" if first < last else str(first) for first, last in runs)


def student(degrees: int) -> float:
    """The quantile of Student's t at 97.5 % for a number of degrees of freedom, from 1: of the table, and beyond it by
    the first terms of its expansion about the normal one, which are exact to 0.001 there."""
    if degrees <= len(STUDENT):
        return STUDENT[degrees - 1]
    z = NORMAL
    return z + (z**3 + z) / (4 * degrees) + (5 * z**5 + 16 * z**3 + 3 * z) / (96 * degrees**2)


def half_width(deviation: float, runs: int) -> float:
    """Half the width of the 95 % interval of the mean of `runs` values, two at least, by their standard deviation."""
    return student(runs - 1) * deviation / sqrt(runs)


def paired(before: Sequence[float], after: Sequence[float]) -> tuple[float, float | None]:
    """As `mean_and_half_width`, of `after` less `before` over runs with equal seeds in the same order."""
    pairs = zip(before, after, strict=True)
    return mean_and_half_width([value_after - value_before for value_before, value_after in pairs])


def unpaired_half_width(before: Sequence[float], after: Sequence[float]) -> float:
    """Half the width of the 95 % interval of the difference of two means, in the values' unit, as if the runs
    before and after had nothing in common, not even seeds; as many of both, two at least."""
    return half_width(sqrt(stdev(before) ** 2 + stdev(after) ** 2), len(before))


def runs_needed(deviation: float, error: float) -> int | None:
    """The least number of runs, two at least, whose 95 % interval reaches at most `error`, in the values' unit, to each
    side: n = (t s / e)^2 with the t of n - 1; none where 2^20, somewhat more than a million, are too few. deviation:
    the standard deviation, same unit."""
    low, high = 2, 2
    while half_width(deviation, high) > error:
        if high >= MOST_RUNS:
            return None
        low, high = high, high * 2
    while low < high:
        middle = (low + high) // 2
        low, high = (low, middle) if half_width(deviation, middle) <= error else (middle + 1, high)
    return low


def seeds_for(values: Sequence[float]) -> int:
    """How many seeds a search needs, by the values of two or more runs of the given plan: one where they deviate by at
    most 0.5 % of the mean, else so many that the mean's standard error is at most 1 % of it, 2 to 10."""
    relative = stdev(values) / fmean(values) if fmean(values) else 0.0
    return 1 if relative <= SEARCH_SPREAD else min(MOST_SEARCHED, max(2, ceil((relative / SEARCH_ERROR) ** 2)))


def mean_and_half_width(values: Sequence[float]) -> tuple[float, float | None]:
    """(mean, half the width of its 95 % interval: None for a single value), of one or more values."""
    if len(values) < 2:
        return fmean(values), None
    return fmean(values), half_width(stdev(values), len(values))


def mean_and_day(values: Sequence[float]) -> tuple[float, float | None]:
    """(mean, half the width of the 95 % interval in which the value of another day lies: None for a single value), of
    the values of one or more drawn days: t s sqrt(1 + 1/n). So much wider than that of the mean is what one day tells
    of the mean of many."""
    mean, half = mean_and_half_width(values)
    return mean, None if half is None else half * sqrt(len(values) + 1)


def paired_day(before: Sequence[float], after: Sequence[float]) -> tuple[float, float | None]:
    """As `mean_and_day`, of `after` less `before` over runs with equal seeds in the same order."""
    pairs = zip(before, after, strict=True)
    return mean_and_day([value_after - value_before for value_before, value_after in pairs])
