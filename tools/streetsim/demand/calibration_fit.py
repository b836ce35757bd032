"""The fit of streetsim-calibrate: Gauss-Newton finds the drivers of a street whose travel times are those of the field.
Runs have common seeds; a survey of saturation is the prior."""
from __future__ import annotations

from collections import Counter
from collections.abc import Callable, Iterator, Mapping, Sequence
from dataclasses import dataclass, replace
from math import hypot, sqrt

from streetsim.base.arrays import Array
from streetsim.base.arrays import numpy as np
from streetsim.demand.calibration_field import FieldDay, pooled
from streetsim.demand.calibration_model import FittedDrivers, MeasuredRun, pooled_runs
from streetsim.demand.calibration_survey import surveyed_drivers
from streetsim.sumo.driver_words import ALL_STREETS

LEAST_SEEN = 20  # vehicles of a way that is fitted
MODEL_ERROR = 0.07  # of the seconds of a way
LEAST_WAYS = 5  # of a class of street, for a factor of its own
ROUNDS = 4
ENOUGH = 0.15  # of a step, below which the fit ends
PARTS = (1.0, 0.5, 0.25)  # of a step that is tried
MAX_SHARE_OF_PRIOR = 0.5  # of what is known before anything is measured: the greatest error of a value that data tell
DAWDLE, CUT, SPEED = "dawdle", "seconds cut", "speed factor"


@dataclass(frozen=True, slots=True)
class FittedValue:
    """A value to be fitted: where it begins, what is known of it (standard deviation), before a survey too, the step of
    differences, well above what chance makes, and its range."""

    name: str
    center: float
    spread: float
    usual_spread: float
    step: float
    lowest: float
    highest: float
    street: str = ALL_STREETS  # class of street of a speed factor


def values_of(day: FieldDay, classes: Sequence[str], free: Sequence[str]) -> list[FittedValue]:
    """The values that are fitted to a day: dawdle and cut where saturation was surveyed, and a speed factor for each of
    the classes. free: of dawdle, speed, lost, those that may move."""
    fitted_values = []
    if day.lanes:
        dawdle, cut = surveyed_drivers(day.lanes)
        if "dawdle" in free:
            fitted_values.append(FittedValue(DAWDLE, round(dawdle, 3), 0.03, 0.08, 0.03, 0.0, 0.45))
        if "lost" in free:
            fitted_values.append(FittedValue(CUT, round(cut, 2), 0.5, 1.5, 1.0, -3.0, 5.0))
    if "speed" in free:
        fitted_values += [FittedValue(SPEED, 1.0, 0.1, 0.1, 0.04, 0.6, 1.4, street) for street in classes]
    return fitted_values


def classes_of(day: FieldDay, class_of: Mapping[str, str]) -> list[str]:
    """The classes of street that get a factor of their own: with five ways seen often enough; and all others as one.
    class_of: by edge. A way is of the class of its last edge."""
    often = [key for key, (_, _, count) in pooled(day.times).items() if count >= LEAST_SEEN]
    class_counts = Counter(class_of.get(key[-1], ALL_STREETS) for key in often)
    class_names = sorted(name for name, ways in class_counts.items() if ways >= LEAST_WAYS)
    unclassed = sum(class_counts.values()) - sum(class_counts[name] for name in class_names)
    several = class_names if len(class_names) > 1 else []
    return several if several and not unclassed else [ALL_STREETS, *several]


def start_of(day: FieldDay) -> FittedDrivers:
    """The drivers before any run: of the survey, where there is one, else the usual ones."""
    if not day.lanes:
        return FittedDrivers()
    dawdle, cut = surveyed_drivers(day.lanes)
    return FittedDrivers(round(dawdle, 3), round(cut, 2))


Measure = Callable[[Sequence[FittedDrivers]], list[list[MeasuredRun]]]  # runs of each by the common seeds


@dataclass(slots=True)
class FitResult:
    """What a fit found. errors: standard errors by value, greater where the fit is worse than the errors of its data;
    unscaled_errors: the same without that, by which data tell a value or not; correlations: between values; runs: how
    many were made."""

    drivers: FittedDrivers
    fitted_values: list[FittedValue]
    errors: list[float]
    unscaled_errors: list[float]
    correlations: list[list[float]]
    untold: list[FittedValue]  # that stay at their prior
    runs: int
    trials: list[tuple[int, FittedDrivers, float]]  # runs so far, drivers, cost


class Fit:
    """A fit of values to a day."""

    def __init__(self, day: FieldDay, start: FittedDrivers, measure: Measure, most_runs: int, seeds: int) -> None:
        """measure: makes runs; most_runs: of them; seeds: runs of each trial."""
        self.field_times = {key: values for key, values in pooled(day.times).items() if values[2] >= LEAST_SEEN}
        self.start, self.measure, self.most_runs, self.seeds = start, measure, most_runs, seeds
        self.measured_runs: dict[FittedDrivers, list[MeasuredRun]] = {}
        self.trials: list[tuple[int, FittedDrivers, float]] = []

    @property
    def runs(self) -> int:
        """How many runs were made."""
        return self.seeds * len(self.measured_runs)

    def run_missing(self, all_drivers: Sequence[FittedDrivers]) -> bool:
        """Makes the runs of drivers that are not known; gives whether their number allowed it."""
        missing = [drivers for drivers in dict.fromkeys(all_drivers) if drivers not in self.measured_runs]
        if self.runs + self.seeds * len(missing) > self.most_runs:
            return False
        self.measured_runs |= zip(missing, self.measure(missing), strict=True) if missing else ()
        return True

    def residuals(self, drivers: FittedDrivers) -> Array:
        """Model less field of each way, over its error; a way that nobody drove in the runs counts nothing."""
        model_times = pooled_runs(self.measured_runs[drivers])
        residuals = []
        for key, (mean, deviation, count) in sorted(self.field_times.items()):
            error = hypot(deviation / sqrt(count), MODEL_ERROR * mean)
            residuals.append((model_times[key][0] - mean) / error if key in model_times else 0.0)
        return np.array(residuals)

    def solve(self, all_values: Sequence[FittedValue]) -> FitResult:
        """Fits values, and then again without those that the data do not tell, which stay where they began."""
        fit_result = self.climb(all_values)
        limits = [MAX_SHARE_OF_PRIOR * value.usual_spread for value in all_values]
        untold = [value for value, error, most in zip(all_values, fit_result.unscaled_errors, limits) if error > most]
        if untold and len(untold) < len(all_values):
            again = self.climb([value for value in all_values if value not in untold])
            return replace(again, untold=untold)
        if untold:
            return FitResult(self.start, [], [], [], [], untold, self.runs, self.trials)
        return fit_result

    def climb(self, all_values: Sequence[FittedValue]) -> FitResult:
        """Gauss-Newton from where the values begin, with the covariance where it ends."""
        x = np.array([fitted.center for fitted in all_values])
        prior = np.diag([1 / fitted.spread**2 for fitted in all_values])
        center, covariance, spread = x.copy(), np.diag([fitted.spread**2 for fitted in all_values]), 1.0
        for _ in range(ROUNDS if all_values else 0):
            moves = [step_value(x, all_values, index) for index in range(len(all_values))]
            points = (x, *(moved_x for moved_x, _ in moves))
            if not self.run_missing([self.drivers(all_values, point) for point in points]):
                break
            residuals = self.residuals(self.drivers(all_values, x))
            slopes = [(self.residuals(self.drivers(all_values, moved_x)) - residuals) / step for moved_x, step in moves]
            jacobian = np.array(slopes).T.reshape(len(residuals), len(all_values))
            normal = jacobian.T @ jacobian + prior
            spread = max(1.0, float(residuals @ residuals) / max(1, len(residuals) - len(all_values)))
            covariance = np.linalg.inv(normal)
            step = -np.linalg.solve(normal, jacobian.T @ residuals + prior @ (x - center))
            best = self.best_part(all_values, x, step, center)
            if best is None:
                break
            shift = np.abs(best - x) / [fitted.step for fitted in all_values]
            x = best
            if shift.max() < ENOUGH:
                break
        self.run_missing([self.drivers(all_values, x)])
        deviations = np.sqrt(np.diag(covariance)) if all_values else np.array([])
        correlations = (covariance / np.outer(deviations, deviations)).tolist() if all_values else []
        drivers, errors = self.drivers(all_values, x), (deviations * sqrt(spread)).tolist()
        unscaled = deviations.tolist()
        return FitResult(drivers, list(all_values), errors, unscaled, correlations, [], self.runs, self.trials)

    def best_part(
        self, fitted_values: Sequence[FittedValue], x: Array, step: Array, center: Array
    ) -> Array | None:
        """The first part of a step by which the cost falls; none where no part does, or the runs are used up."""
        before = self.cost(fitted_values, x, center)
        for part in PARTS:
            candidate = clipped(fitted_values, x + part * step)
            if not self.run_missing([self.drivers(fitted_values, candidate)]):
                return None
            if self.cost(fitted_values, candidate, center) < before:
                return candidate
        return None

    def cost(self, values: Sequence[FittedValue], x: Array, center: Array) -> float:
        """The sum of squares of residuals, and of what is off what is known."""
        drivers = self.drivers(values, x)
        residuals = self.residuals(drivers)
        off = (x - center) / [value.spread for value in values]
        total = float(residuals @ residuals + off @ off)
        if all(trial[1] != drivers for trial in self.trials):
            self.trials.append((self.runs, drivers, total))
        return total

    def drivers(self, fitted_values: Sequence[FittedValue], x: Array) -> FittedDrivers:
        """The drivers with some values; all others are those before any run."""
        drivers, speeds = self.start, dict(self.start.speeds)
        for fitted, number in zip(fitted_values, np.round(x, 3).tolist(), strict=True):
            if fitted.name == DAWDLE:
                drivers = replace(drivers, dawdle=number)
            elif fitted.name == CUT:
                drivers = replace(drivers, cut=number)
            else:
                speeds[fitted.street] = number
        return replace(drivers, speeds=tuple(sorted(speeds.items())))


def step_value(x: Array, values: Sequence[FittedValue], index: int) -> tuple[Array, float]:
    """(values with one of them a step away, the step): upward, where its range allows it."""
    step = values[index].step if x[index] + values[index].step <= values[index].highest else -values[index].step
    moved_x = x.copy()
    moved_x[index] += step
    return moved_x, step


def clipped(values: Sequence[FittedValue], x: Array) -> Array:
    """Values within their ranges, with three decimals."""
    return np.round(np.clip(x, [value.lowest for value in values], [value.highest for value in values]), 3)


def data_behind(value: FittedValue, day: FieldDay) -> str:
    """By which data a value is told."""
    if value.name == SPEED:
        return f"times of streets of {value.street} km/h" if value.street else "times"
    return "survey of saturation, and times" if day.lanes else "nothing"


def value_in(drivers: FittedDrivers, value: FittedValue) -> float:
    """A value of some drivers."""
    if value.name == DAWDLE:
        return drivers.dawdle
    return drivers.cut if value.name == CUT else dict(drivers.speeds).get(value.street, 1.0)


def lines_of(fit_result: FitResult, day: FieldDay) -> Iterator[str]:
    """What a fit found, a line for each value."""
    for value, error in zip(fit_result.fitted_values, fit_result.errors, strict=True):
        street = f" of {value.street} km/h" if value.street else ""
        fitted = f"{value_in(fit_result.drivers, value):.3f} +- {error:.3f}"
        yield f"{value.name}{street}: {fitted}, by {data_behind(value, day)}"
    for value in fit_result.untold:
        yield f"{value.name}: these data do not determine it; it stays at {value_in(fit_result.drivers, value):.3f}"
    if not day.lanes:
        yield "saturation was not surveyed: dawdle and cut stay as they are, and capacity is not calibrated"
