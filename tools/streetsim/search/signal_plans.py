"""Signal plans: taken from SUMO's programs, changed within their bounds, written as an additional file.

A plan is a PlannedTiming for each light, {light: PlannedTiming}; order of phases, yellow and all-red are the
light's and never change.
"""
from __future__ import annotations

from collections.abc import Collection, Iterable, Mapping, Sequence
from dataclasses import dataclass
from typing import TypeVar

from streetsim.base import limits
from streetsim.base.files import quoteattr
from streetsim.model.doubts import DOUBTED
from streetsim.search.usual import LEAST_GREEN
from streetsim.sumo.constraints import PEDESTRIANS, Constraint, constraints_of
from streetsim.sumo.net import STATIC, LightProgram

Seconds = TypeVar("Seconds", int, float)
PROGRAM = "streetsim"  # the programID of what is written
GREEN = "GgsOo"  # letters of a state under which somebody may go, or the light is off


@dataclass(frozen=True, slots=True)
class PlannedTiming:
    """When a light's phases are shown, in whole seconds: how long each is, and SUMO's offset of the cycle."""

    offset: int
    durations: tuple[int, ...]

    @property
    def cycle(self) -> int:
        """The seconds of all phases together."""
        return sum(self.durations)

    def shifted(self, seconds: int) -> PlannedTiming:
        """This timing with an offset so many seconds later (below 0: earlier), kept from 0 to below the cycle."""
        return PlannedTiming((self.offset + seconds) % self.cycle, self.durations)


@dataclass(frozen=True, slots=True)
class PlannedLight:
    """What no search changes: the states in their order, for each phase its (least, most) seconds, and what the plan
    must keep of it."""

    name: str
    states: tuple[str, ...]
    bounds: tuple[tuple[int, int], ...]
    constraints: tuple[Constraint, ...] = ()  # of each phase; empty: nothing is written

    @property
    def free(self) -> list[int]:
        """The places of the phases that may be stretched, which is: be longer or shorter."""
        return [at for at, (least, most) in enumerate(self.bounds) if least < most]

    def mended(self, timing: PlannedTiming) -> PlannedTiming:
        """The timing with each phase as long as the plan must keep it, and the same offset in its cycle."""
        pairs = zip(timing.durations, self.constraints or [Constraint()] * len(timing.durations), strict=True)
        kept_timing = PlannedTiming(timing.offset, tuple(constraint.clamp(seconds) for seconds, constraint in pairs))
        return kept_timing.shifted(0)

    def fixed_seconds(self, timing: PlannedTiming) -> int:
        """The seconds of a cycle in phases that may not be stretched."""
        return timing.cycle - sum(timing.durations[at] for at in self.free)

    def scaled(self, timing: PlannedTiming, cycle: int, shares: Sequence[float] | None = None) -> PlannedTiming | None:
        """The timing at another cycle, in seconds. Phases that may be stretched share what the others leave, in
        proportion to shares, one for each phase (None: to their present seconds); the offset keeps its part of the
        cycle. None where the bounds do not allow it, or no phase may be stretched."""
        free = self.free
        shares = [(shares or timing.durations)[place] for place in free]
        greens = spread(shares, cycle - self.fixed_seconds(timing), [self.bounds[place] for place in free])
        if greens is None:
            return None
        durations = list(timing.durations)
        for place, green in zip(free, greens, strict=True):
            durations[place] = green
        return PlannedTiming(round(timing.offset * cycle / timing.cycle) % cycle, tuple(durations))

    def with_green_moved(self, timing: PlannedTiming, source: int, target: int, seconds: int) -> PlannedTiming | None:
        """The timing with so many seconds moved from the phase at source to that at target; None where a bound forbids
        that."""
        durations = list(timing.durations)
        durations[source] -= seconds
        durations[target] += seconds
        fits = all(self.bounds[at][0] <= durations[at] <= self.bounds[at][1] for at in (source, target))
        return PlannedTiming(timing.offset, tuple(durations)) if fits else None


Plan = dict[str, PlannedTiming]  # by light


def rounded_durations(durations: Iterable[float]) -> tuple[int, ...]:
    """Durations (s) as whole seconds, rounded by their running sum as the import does, so that the cycle differs by no
    more than its own rounding; one of less than a second may become 0."""
    rounded, exact, before = [], 0.0, 0
    for duration in durations:
        exact += duration
        rounded.append(round(exact) - before)
        before += rounded[-1]
    return tuple(rounded)


def spread(shares: Sequence[float], total: int, bounds: Sequence[tuple[int, int]]) -> list[int] | None:
    """Whole seconds whose sum is total, one for each share: in proportion to the shares, within bounds of (least, most)
    seconds. None where no seconds fit, or there are no shares."""
    if not shares or not sum(least for least, _ in bounds) <= total <= sum(most for _, most in bounds):
        return None
    low, high = 0.0, 1000.0 * total / max(1, sum(shares))
    for _ in range(60):
        factor = (low + high) / 2
        if sum(clamped(share * factor, bound) for share, bound in zip(shares, bounds, strict=True)) < total:
            low = factor
        else:
            high = factor
    greens = list(rounded_durations(clamped(share * high, bound) for share, bound in zip(shares, bounds, strict=True)))
    # What rounding left goes to the longest that takes it.
    for at in sorted(range(len(greens)), key=lambda at: -greens[at]):
        greens[at] = clamped(greens[at] + total - sum(greens), bounds[at])
    return greens if sum(greens) == total else None


def clamped(value: Seconds, bound: tuple[int, int]) -> Seconds | int:
    """The value, or the nearest one within a bound (least, most)."""
    return min(bound[1], max(bound[0], value))


def light_and_timing(
    name: str, program: LightProgram, least_green: int = LEAST_GREEN, constraints: Sequence[Constraint] | None = None
) -> tuple[PlannedLight, PlannedTiming]:
    """(light of a SUMO program, its timing in whole seconds); least_green: as of stretch_bounds; constraints: of each
    phase (None: those that a program of seconds says, with a Fault where they contradict each other)."""
    durations = rounded_durations(duration for duration, _ in program.phases)
    if constraints is None:
        constraints = constraints_of(name, program) if program.kind == STATIC else [Constraint()] * len(durations)
    phase_constraints = tuple(constraints)
    phases = zip(program.phases, durations, phase_constraints, strict=True)
    bounds = tuple(stretch_bounds(state, length, constraint, least_green) for (_, state), length, constraint in phases)
    light = PlannedLight(name, tuple(state for _, state in program.phases), bounds, phase_constraints)
    return light, PlannedTiming(round(program.offset) % max(1, sum(durations)), durations)


def stretch_bounds(state: str, seconds: int, constraint: Constraint, least_green: int) -> tuple[int, int]:
    """The (least, most) seconds of a phase, within which are its given seconds, or the nearest that its constraint
    allows. One with green and no yellow that lasts least_green or more may be changed, from that to 600 s, as far as
    the constraint allows; each other keeps its length."""
    seconds = constraint.clamp(seconds)
    if not is_green(state) or seconds < least_green:
        return seconds, seconds
    return min(seconds, max(least_green, constraint.low)), max(seconds, constraint.high)


def is_green(state: str) -> bool:
    """Whether somebody has green in a phase (or its light is off) and nobody yellow, or red with yellow (u); state:
    SUMO's letters."""
    return bool(set(state) & set(GREEN)) and not set(state) & set("yYu")


def why_kept(name: str, program: LightProgram, fixed: Collection[str], timed: Collection[str]) -> str | None:
    """Why a light's plan is left as it is; None where it is searched. fixed: those of --fixed; timed: lights whose plan
    changes by time of day."""
    if name in fixed:
        return "as --fixed says"
    if name in timed:
        return "its plan changes by time of day"
    if program.kind != STATIC:
        return f"it is {program.kind}"
    if any(duration > limits.PHASE_STEPS for duration, _ in program.phases):
        return f"it has a phase above {limits.PHASE_STEPS} s"
    return None


def additional_of(programs: Iterable[tuple[str, str, Iterable[str]]], doubts: Sequence[str] = ()) -> str:
    """The text of an additional file with the programs of lights, as SUMO and streetsim-import take it; of each (light,
    its attributes but the light's name as one text, the elements inside). doubts: why what made them is not to be
    trusted, which stands in a comment for readers, and with each light for streetsim-import; SUMO passes over both."""
    parts, told = ["<additional>\n"], []
    if doubts:
        parts.append(f"    <!-- not to be trusted: {'; '.join(doubts).replace('--', '- -')} -->\n")
        told = [f"<param key={quoteattr(DOUBTED)} value={quoteattr('; '.join(doubts))}/>"]
    for light, attributes, inner in programs:
        elements = "".join(f"        {element}\n" for element in [*told, *inner])
        parts.append(f"    <tlLogic id={quoteattr(light)} {attributes}>\n{elements}    </tlLogic>\n")
    return "".join([*parts, "</additional>\n"])


def plan_text(
    lights: Mapping[str, PlannedLight], plan: Mapping[str, PlannedTiming], program: str = PROGRAM,
    doubts: Sequence[str] = (),
) -> str:
    """A plan as the text of an additional file, a whole program for each of its lights, with what its phases must keep.
    lights: by name, for the states and that; program: the programID of each; doubts: as of additional_of."""
    programs = []
    for name, timing in sorted(plan.items()):
        light = lights[name]
        constraints = light.constraints or (Constraint(),) * len(light.states)
        walks = [(at, constraint.pedestrians) for at, constraint in enumerate(constraints)]
        feet = [(at, seconds) for at, seconds in walks if seconds is not None]
        inner = [f'<param key="{PEDESTRIANS}{at}" value="{seconds}"/>' for at, seconds in feet]
        phases = zip(timing.durations, light.states, constraints, strict=True)
        inner += [f'<phase duration="{duration}" state="{state}"{kept_words(one)}/>' for duration, state, one in phases]
        programs.append((name, f'type="static" programID="{program}" offset="{timing.offset}"', inner))
    return additional_of(programs, doubts)


def kept_words(constraint: Constraint) -> str:
    """The attributes of a <phase> that say its least and most, each with a blank before it."""
    pairs = (("minDur", constraint.least_seconds), ("maxDur", constraint.most_seconds))
    return "".join(f' {name}="{seconds}"' for name, seconds in pairs if seconds is not None)
