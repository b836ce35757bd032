"""What another plan costs whom: trips of the same vehicles with both plans. Fault where trips.csv cannot be read."""
import re
from collections import defaultdict
from collections.abc import Iterable
from dataclasses import dataclass, field
from statistics import fmean

from streetsim.model.folder import Folder
from streetsim.model.stops import vehicle_classes_of
from streetsim.report.plan_differences import PlanDifference, difference_of
from streetsim.report.run_tables import Runs

NOTICED = 10  # seconds by which a trip changes, above which one notices
FEWEST_TRIPS = 10  # trips of a group in a run, below which it is not told


@dataclass(slots=True)
class PlanCosts:
    """Changes of trips that arrived with both plans, over the seeds that both have."""

    changes: list[int] = field(default_factory=list)  # seconds, rising
    lost: int = 0  # trips that arrived with the first plan alone
    won: int = 0  # with the second alone
    # By flow: trips, mean seconds of a trip.
    groups: dict[str, tuple[int, PlanDifference]] = field(default_factory=dict)


def costs_of(runs_before: Runs, runs_after: Runs) -> PlanCosts:
    """The changes of trips of the same vehicles and seeds from one plan to another, in all and by flow (over seeds
    with ten trips of it that arrived in both), and how many arrived with one plan alone."""
    plan_costs, sums = PlanCosts(), defaultdict[str, tuple[dict, dict]](lambda: ({}, {}))
    counts: defaultdict[str, int] = defaultdict(int)
    for seed in sorted(runs_before.folders.keys() & runs_after.folders.keys()):
        before_durations, after_durations = durations(runs_before.folders[seed]), durations(runs_after.folders[seed])
        both = [name for name in before_durations if name in after_durations]
        plan_costs.changes += [after_durations[name] - before_durations[name] for name in both]
        plan_costs.lost += len(before_durations) - len(both)
        plan_costs.won += len(after_durations) - len(both)
        for group, names in grouped(both).items():
            counts[group] += len(names)
            for sides, values in zip(sums[group], (before_durations, after_durations), strict=True):
                sides[seed] = fmean(values[name] for name in names)
    plan_costs.changes.sort()
    drawn = runs_before.is_drawn and runs_after.is_drawn
    differences = {group: difference_of(*sides, drawn=drawn) for group, sides in sums.items()}
    plan_costs.groups = {group: (counts[group], one) for group, one in differences.items() if one}
    return plan_costs


@dataclass(frozen=True, slots=True)
class Means:
    """How many trips of a class of vehicles arrived in a run, from the wished departure on, and their means, seconds;
    delay: what one took longer than alone on its way, without seconds at stops."""

    arrived: int
    trip: float
    delay: float


def means_by_class(runs: Runs) -> dict[str, dict[int, Means]]:
    """{vehicle class, as SUMO names it: {seed: its means}} of a plan's runs; classes of which nobody arrived are left
    out, as are the seeds in which nobody of a class did."""
    means: defaultdict[str, dict[int, Means]] = defaultdict(dict)
    for seed, folder in runs.folders.items():
        trips: defaultdict[str, list[tuple[int, float]]] = defaultdict(list)
        rows = folder.trips()
        for vclass, row in zip(vehicle_classes_of(folder.mapping.kinds, len(rows)), rows, strict=True):
            if row["duration"]:
                trips[vclass].append((int(row["duration"]), float(row["loss"])))
        for vclass, own in trips.items():
            means[vclass][seed] = Means(len(own), *map(fmean, zip(*own, strict=True)))
    return dict(means)


def durations(folder: Folder) -> dict[str, int]:
    """The seconds of each trip that arrived, by the vehicle's name."""
    return {row["id"]: int(row["duration"]) for row in folder.trips() if row["duration"]}


def grouped(names: Iterable[str]) -> dict[str, list[str]]:
    """The names of vehicles by the flow that they are of, as SUMO names them, FLOW.NUMBER, and where departures were
    drawn also FLOW.NUMBER#COPY; other vehicles, and flows of fewer than ten, are left out."""
    found: defaultdict[str, list[str]] = defaultdict(list)
    for name in names:
        flow, point, number = name.rpartition(".")
        if point and re.fullmatch(r"\d+(#\d+)?", number):
            found[flow].append(name)
    return {flow: own for flow, own in found.items() if len(own) >= FEWEST_TRIPS}
