"""The search for a plan: proposals by formula, of which runs choose, and then hill climbing by ever smaller steps.

Only strict gains are taken and no plan is run twice, so a search repeats exactly. What climbs raises SearchEnded as
PlanSearch.mean_trips does.
"""
from __future__ import annotations

import contextlib
from collections.abc import Callable, Collection, Generator, Hashable, Iterable, Mapping, Sequence
from dataclasses import dataclass, field
from math import comb
from typing import Any, TypeVar

from streetsim.search.signal_formulas import StreetFlows, proposals
from streetsim.search.signal_plans import Plan, PlannedLight

Key = tuple[tuple[str, int, tuple[int, ...]], ...]  # of a plan: lights, offsets, durations
Tried = TypeVar("Tried")  # a plan, or bounds of lights
Step = tuple[str, Any]  # what is tried, and the plan, or bounds

MeanTripsOf = Callable[[Sequence[Any]], Generator[float, None, None]]  # of plans, or of bounds: their values in order
SHARES = (0.25, 0.12, 0.06, 0.03)  # of the cycle, by which offsets are moved
SECONDS = (8, 4, 2, 1)  # of green that are moved between phases
FEW_CLIMBS = 5  # climbs that tell nothing of those to come
PLANS_EACH = 50  # plans that are tried for each finalist


class SearchEnded(Exception):
    """The budget is used up, or the user has asked for an end."""


@dataclass(frozen=True, slots=True)
class PlanTrial:
    """A plan or bounds that were tried, one line of search.csv."""

    simulations: int  # so far
    step: str  # what was tried
    mean_trip: float  # seconds of a mean trip
    best: float  # so far
    is_estimate: bool = False  # those who give way at lights did so by seconds of another run


@dataclass
class PlanSearch:
    """The values of plans (or of bounds, with the key_of of signal_bounds), mean trips in seconds: each plan is run
    once, and its value kept; the best of them, and what was tried."""

    mean_trips_of: MeanTripsOf
    budget: int  # simulations
    seeds: int  # simulations that one plan takes
    # Hears of each trial; gives whether the user has asked for an end.
    on_trial: Callable[[PlanSearch], bool] = lambda search: False
    value_by_key: dict[Any, float] = field(default_factory=dict)
    tried: dict[Hashable, Step] = field(default_factory=dict)  # by key
    trials: list[PlanTrial] = field(default_factory=list)
    best: tuple[float, Any] = (float("inf"), None)  # value and plan; None before the first trial
    spent: bool = False  # the budget ended it
    climbs: int = 0  # that it makes, where the budget reaches
    climbed: list[int] = field(default_factory=list)  # simulations so far, at the begin of the first and each end
    # What names a plan: equal ones have equal keys.
    key_of: Callable[[Any], Any] = lambda plan: key_of(plan)
    estimates: bool = False  # those who give way at lights do so by seconds of another run

    @property
    def simulations(self) -> int:
        """How many simulations were made so far."""
        return self.trials[-1].simulations if self.trials else 0

    def expected(self) -> int:
        """How many simulations it will have made in the end, as far as can be told: each climb that is to come takes as
        many as those so far, or two plans; at most the budget."""
        climbs_done = max(0, len(self.climbed) - 1)
        per_climb = (self.climbed[-1] - self.climbed[0]) / climbs_done if climbs_done > FEW_CLIMBS else 2.0 * self.seeds
        return min(self.budget, self.simulations + round(per_climb * (self.climbs - climbs_done)))

    def cycles_tried(self) -> dict[str, set[int]]:
        """By light the cycles, in seconds, of the plans that were run."""
        tried: dict[str, set[int]] = {}
        for name, _, durations in (part for key in self.value_by_key for part in key):
            tried.setdefault(name, set()).add(sum(durations))
        return tried

    def mean_trips(self, steps: Sequence[Step]) -> list[float]:
        """The values (s) of plans, in their order; steps: (what was tried, plan). Those that are new are run, noted and
        told; a plan that was seen before costs nothing. Raises SearchEnded where the budget does not reach for all of
        them, after those that it does reach for (spent is then True), or where the user ends it."""
        new_plans: dict[Hashable, Step] = {}
        for step, plan in steps:
            if self.key_of(plan) not in self.value_by_key:
                new_plans.setdefault(self.key_of(plan), (step, plan))
        room = (self.budget - self.simulations) // self.seeds
        tried = list(new_plans.items())[:room]
        self.spent = len(tried) < len(new_plans)
        with contextlib.closing(self.mean_trips_of([plan for _, (_, plan) in tried])) as values:
            for (key, (step, plan)), value in zip(tried, values):
                self.note(key, step, plan, value)
                if self.on_trial(self):
                    raise SearchEnded
        if self.spent:
            raise SearchEnded
        return [self.value_by_key[self.key_of(plan)] for _, plan in steps]

    def note(self, key: Any, step: str, plan: Any, value: float) -> None:
        """Keeps the value of a plan, adds its trial, and makes it the best where it is."""
        self.value_by_key[key], self.tried[key] = value, (step, plan)
        if value < self.best[0]:
            self.best = value, plan
        self.trials.append(PlanTrial(self.simulations + self.seeds, step, value, self.best[0], self.estimates))

    def finalists(self, most: int) -> list[Step]:
        """The best plans and what was tried by them, so many at most; fewer where few were tried."""
        count = max(1, min(most, len(self.value_by_key) // PLANS_EACH))
        ranked = sorted(self.value_by_key, key=lambda key: self.value_by_key[key])
        return [self.tried[key] for key in ranked[:count]]

    def judge(self, values: Iterable[tuple[Step, float]]) -> None:
        """Takes the values (s) of some plans that are no estimates: the best of them is the best."""
        self.estimates, self.best = False, (float("inf"), None)
        for (step, plan), value in values:
            self.note(self.key_of(plan), step, plan, value)

    def mean_trip(self, step: str, plan: Any) -> float:
        """The value (s) of one plan, as mean_trips gives it; step: what is tried, for search.csv."""
        return self.mean_trips([(step, plan)])[0]


def key_of(plan: Plan) -> Key:
    """What names a plan: equal plans have equal keys."""
    return tuple(sorted((name, timing.offset, timing.durations) for name, timing in plan.items()))


def search_plan(
    search: PlanSearch, plan: Plan, lights: Mapping[str, PlannedLight], streets: StreetFlows, changed: Collection[str],
    cycles: Iterable[int],
) -> None:
    """Searches from a given plan: the proposals by formula, then climb_all from the best of them. Ends there, or where
    the search has ended; search.best then has (mean trip in seconds, the best plan). changed: what may change, of
    usual.CHANGES; cycles: those that are proposed, in seconds."""
    search.climbs = count_climbs(lights, streets, changed)
    try:
        search.mean_trip("given", plan)
        proposed = list(proposals(plan, lights, streets, changed, cycles))
        _, (_, plan) = min(zip(search.mean_trips(proposed), proposed, strict=True), key=lambda pair: pair[0])
        climb_all(search, plan, lights, streets, changed)
    except SearchEnded:
        pass


def climb_all(
    search: PlanSearch, plan: Plan, lights: Mapping[str, PlannedLight], streets: StreetFlows, changed: Collection[str]
) -> None:
    """Climbs from a plan: each light alone, by the four steps of SHARES and SECONDS, then by the last three again,
    where the offset of a light is first moved together with all lights behind it in the tree. The best is then in
    search.best. changed: as of search_plan."""
    search.climbed.append(search.simulations)
    steps = list(zip(SHARES, SECONDS, strict=True))
    passes = [*((*step, False) for step in steps), *((*step, True) for step in steps[1:])]
    for share, seconds, with_groups in passes:
        if "offsets" in changed:
            plan = climb_offsets(search, plan, streets, share, with_groups)
        if "splits" in changed:
            plan = climb_splits(search, plan, lights, streets.order, seconds)


def count_climbs(lights: Mapping[str, PlannedLight], streets: StreetFlows, changed: Collection[str]) -> int:
    """How many climbs climb_all makes; arguments: as of it."""
    groups = sum(len(streets.lights_behind[light]) > 1 for light in streets.order)
    pairs = sum(comb(len(lights[light].free), 2) for light in streets.order)
    passes = 2 * len(SHARES) - 1
    offsets = passes * len(streets.order) + (len(SHARES) - 1) * groups
    return ("offsets" in changed) * offsets + ("splits" in changed) * passes * pairs


def climb_offsets(search: PlanSearch, plan: Plan, streets: StreetFlows, share: float, with_groups: bool) -> Plan:
    """Tries other offsets, later and earlier by a share (0 to 1) of the cycle, one second at least, of each light, the
    heaviest flow first; where with_groups, first of the light with all that hang behind it. Gives the best plan."""
    for light in streets.order:
        seconds = max(1, round(share * plan[light].cycle))
        if with_groups and len(streets.lights_behind[light]) > 1:
            plan = climb(search, plan, f"offsets behind {light}", shift_of(streets.lights_behind[light], seconds))
        plan = climb(search, plan, f"offset of {light}", shift_of([light], seconds))
    return plan


def climb_splits(
    search: PlanSearch, plan: Plan, lights: Mapping[str, PlannedLight], order: Iterable[str], seconds: int
) -> Plan:
    """Tries to move so many seconds of green between any two phases of each light that may be stretched, either way;
    the cycle stays. order: of the lights. Gives the best plan."""
    for name in order:
        free = lights[name].free
        for place, source in enumerate(free):
            for target in free[place + 1 :]:
                plan = climb(search, plan, f"greens of {name}", move_of(lights[name], source, target, seconds))
    return plan


def climb(search: PlanSearch, plan: Tried, step: str, change: Callable[[Tried, int], Tried | None]) -> Tried:
    """Makes a change (sign 1) again and again as long as the value falls and the change can be made; where the first
    does not help, or cannot be made, its contrary (sign -1). Gives the best plan. step: its name in search.csv; change:
    gives None where it cannot be made."""
    best = search.mean_trip(step, plan)
    for sign in (1, -1):
        went = False
        while (tried := change(plan, sign)) is not None and (value := search.mean_trip(step, tried)) < best:
            plan, best, went = tried, value, True
        if went:
            break
    search.climbed.append(search.simulations)
    return plan


def shift_of(names: Sequence[str], seconds: int) -> Callable[[Plan, int], Plan | None]:
    """A change for climb: the offsets of some lights later by some seconds (sign 1), or earlier (sign -1)."""
    return lambda plan, sign: {**plan, **{name: plan[name].shifted(sign * seconds) for name in names}}


def move_of(light: PlannedLight, source: int, target: int, seconds: int) -> Callable[[Plan, int], Plan | None]:
    """A change for climb: some seconds of green from the phase at source to that at target of a light (sign 1), or back
    (sign -1); None where a bound forbids it."""

    def change(plan: Plan, sign: int) -> Plan | None:
        """The plan with the seconds moved, from target to source where sign is -1; None where a bound forbids it."""
        first, second = (source, target) if sign > 0 else (target, source)
        moved = light.with_green_moved(plan[light.name], first, second, seconds)
        return None if moved is None else {**plan, light.name: moved}

    return change
