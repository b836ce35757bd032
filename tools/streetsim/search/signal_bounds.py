"""Bounds and gaps of actuated and NEMA lights, by which their detectors drive them, and a search for better ones: least
and most seconds of the greens that detectors extend, and the gap that ends one. Offsets, order, yellow and all-red
stay."""
from __future__ import annotations

from collections.abc import Callable, Collection, Iterator, Mapping, Sequence
from dataclasses import dataclass, replace
from typing import Any

from streetsim.base import limits
from streetsim.base.files import Json, quoteattr
from streetsim.control.actuated_kept import programs_at_begin
from streetsim.control.actuated_lights import ActuatedLights, Driven, driven_of
from streetsim.control.nema_lights import DrivenRings, digits
from streetsim.model.doubts import DOUBTED
from streetsim.model.mapping import Map
from streetsim.search.run_giving_way import outcome_giving_way
from streetsim.search.run_prepared import Outcome, PreparedRun
from streetsim.search.signal_plans import PROGRAM, additional_of
from streetsim.search.signal_search import PlanSearch, SearchEnded, climb
from streetsim.sumo.constraints import PEDESTRIANS

GAPS = (1.5, 2.0, 2.5, 3.5, 4.0, 5.0)  # seconds that are tried for all lights
SHORTER, LONGER = 0.7, 1.4  # times each most, tried for all lights
STEPS = ((1.0, 10, 4), (0.5, 5, 2))  # seconds by which a gap, a most and a least of one light are changed
GAP_RANGE = (0.5, 8.0)  # seconds
MAX_GAP = "max-gap"


@dataclass(frozen=True, slots=True)
class Bounds:
    """The bounds of one light, seconds: (phase, least, most) of greens that detectors extend, with a least below the
    most, and the gaps that end a green: one for all of them, or of a NEMA light one for each (its vehext). A phase is
    its place in the program, and of a NEMA light its number in the ring."""

    greens: tuple[tuple[int, int, int], ...]  # phase, least, most
    gaps: tuple[float, ...]

    def gap_of(self, place: int) -> float:
        """The gap, seconds, that ends the green at a place of greens."""
        return self.gaps[place if len(self.gaps) > 1 else 0]

    def with_gap(self, place: int, gap: float) -> Bounds | None:
        """These bounds with another gap, seconds, at a place of gaps; None where it is outside GAP_RANGE."""
        gaps = (*self.gaps[:place], gap, *self.gaps[place + 1 :])
        return replace(self, gaps=gaps) if GAP_RANGE[0] <= gap <= GAP_RANGE[1] else None

    def with_green(self, place: int, least_seconds: int, most_seconds: int, lowest: int) -> Bounds | None:
        """These bounds with another least and most, seconds, of the green at a place of greens. None where the least is
        not below the most, the most is above 600 s, or the least is below both lowest and what it is now."""
        phase, before, _ = self.greens[place]
        if not min(lowest, before) <= least_seconds < most_seconds <= limits.PHASE_STEPS:
            return None
        green = phase, least_seconds, most_seconds
        return replace(self, greens=(*self.greens[:place], green, *self.greens[place + 1 :]))


Bounded = dict[str, Bounds]  # by light


def given_bounds(lights: ActuatedLights, keep: Collection[str]) -> Bounded:
    """The bounds of the lights that a search may change, by light: of the actuated and NEMA ones that are not in keep
    and that have one program all day. Greens whose most is above 600 s are left out, and so are lights without a green
    whose bounds may be changed."""
    bounds_by_light, keep = {}, {*keep, *(light for _, light, _ in lights.switches)}
    for light in lights.driven:
        if light.name not in keep:
            bounds = actuated_bounds(light) if isinstance(light, Driven) else ring_bounds(light)
            if bounds.greens:
                bounds_by_light[light.name] = bounds
    return bounds_by_light


def actuated_bounds(light: Driven) -> Bounds:
    """The bounds of the greens of an actuated light that detectors extend, without those whose most is above 600 s; its
    one gap is the greatest of its detectors' gaps."""
    greens = tuple(
        (at, phase.least_seconds, phase.most_seconds)
        for at, phase in enumerate(light.phases)
        if phase.is_extended and phase.detectors and phase.most_seconds <= limits.PHASE_STEPS
    )
    return Bounds(greens, (max(light.gaps),) if greens else ())


def ring_bounds(light: DrivenRings) -> Bounds:
    """The bounds of a NEMA light, in whole seconds, its extensions (vehext) as gaps; without greens that no area
    extends, as they have none or always last their most (maxRecall), whose most is above 600 s, or is their least."""
    extended = (phase for phase in light.rings.phases if phase.areas and not phase.most_recall)
    phases = [phase for phase in extended if phase.least_seconds < phase.most_seconds <= limits.PHASE_STEPS]
    greens = tuple((phase.number, round(phase.least_seconds), round(phase.most_seconds)) for phase in phases)
    return Bounds(greens, tuple(phase.extension for phase in phases))


def kept_with(program: Json, bounds: Bounds) -> Json:
    """What a map keeps of a program, with other bounds: of an actuated light one max-gap in place of all that it had,
    those of single lanes too; of a NEMA light the extension (vehext) of each green. The one given stays as it is.
    bounds: of greens that the program has."""
    phases, timing = ([list(row) for row in program.get(key, ())] for key in ("phases", "timing"))
    names = [digits(text) for text, *_ in timing]
    for at, (phase, least, most) in enumerate(bounds.greens):
        index = names.index((phase,)) if timing else phase
        phases[index][2:4] = [least, most]
        if timing:
            timing[index][1] = bounds.gap_of(at)
    if timing:
        return {**program, "phases": phases, "timing": timing}
    parameters = {name: value for name, value in program["parameters"].items() if name.partition(":")[0] != MAX_GAP}
    return {**program, "phases": phases, "parameters": {**parameters, MAX_GAP: f"{bounds.gap_of(0):g}"}}


def with_bounds(lights: ActuatedLights, mapping: Map, bounded: Mapping[str, Bounds]) -> ActuatedLights:
    """The lights with other bounds, by name; lights without a name there stay. Their detectors lie where SUMO puts them
    for the new least greens. Listed (a Fault) where one cannot be driven with its gap, from 32 s on."""
    programs = programs_at_begin(mapping.programs)
    driven = (
        driven_of(kept_with(programs[light.name], bounded[light.name]), mapping) if light.name in bounded else light
        for light in lights.driven
    )
    return replace(lights, driven=tuple(driven))


def bounded_outcome(session: PreparedRun, bounded: Bounded, seed: int) -> Outcome:
    """What a run under some bounds gave with a seed; a task of a worker. session.giving must not be None."""
    giving = session.giving
    assert giving is not None
    lights = with_bounds(giving.lights, giving.mapping, bounded)
    return outcome_giving_way(replace(session, giving=replace(giving, lights=lights)), b"", seed)


def key_of(bounded: Bounded) -> tuple[Any, ...]:
    """What names bounds of lights in a search: equal bounds have equal keys."""
    return tuple(sorted(bounded.items(), key=lambda item: item[0]))


def lowest_greens(mapping: Map, bounded: Bounded, lowest: int | None) -> dict[tuple[str, int], int]:
    """The seconds below which no least green is brought, by light and phase: lowest, the least that is given where that
    is None, or the green of pedestrians that the light's program says, where that is longer."""
    programs = programs_at_begin(mapping.programs)
    return {
        (name, phase): max(
            least if lowest is None else lowest, int(programs[name]["parameters"].get(f"{PEDESTRIANS}{phase}", 0))
        )
        for name, bounds in bounded.items()
        for phase, least, _ in bounds.greens
    }


def search_bounds(search: PlanSearch, bounded: Bounded, lowest: Mapping[tuple[str, int], int]) -> None:
    """Searches from given bounds: those for all lights at once, then gaps, mosts and leasts light by light, by both of
    STEPS. Ends there, or where the search has ended; search.best then has (mean trip in seconds, the best bounds).
    lowest: as of lowest_greens."""
    search.climbs = len(STEPS) * sum(len(bounds.gaps) + 2 * len(bounds.greens) for bounds in bounded.values())
    try:
        search.mean_trip("given", bounded)
        best = bounded
        for step, tried in bounds_for_all_lights(bounded, lowest):
            if search.mean_trip(step, tried) < search.mean_trip("best", best):
                best = tried
        search.climbed.append(search.simulations)
        for gap_step, most_step, least_step in STEPS:
            for name in bounded:
                for at in range(len(bounded[name].gaps)):
                    best = climb(search, best, f"gap of {name}", change_of(name, gap_by(at, gap_step)))
                for at, (phase, _, _) in enumerate(bounded[name].greens):
                    floor = lowest[name, phase]
                    best = climb(search, best, f"most of {name}", change_of(name, green_by(at, 0, most_step, floor)))
                    best = climb(search, best, f"least of {name}", change_of(name, green_by(at, least_step, 0, floor)))
    except SearchEnded:
        pass


def bounds_for_all_lights(
    bounded: Bounded, lowest: Mapping[tuple[str, int], int]
) -> Iterator[tuple[str, Bounded]]:
    """Bounds that are tried for all lights at once, (name of the step, bounds): each gap of GAPS, then all mosts times
    SHORTER, and times LONGER; a most that Bounds.with_green forbids stays. lowest: as of lowest_greens."""
    for gap in GAPS:
        tried = {name: replace(bounds, gaps=tuple(gap for _ in bounds.gaps)) for name, bounds in bounded.items()}
        yield f"gaps of {gap:g} s", tried
    for share in (SHORTER, LONGER):
        tried = {}
        for name, bounds in bounded.items():
            for at, (phase, least, most) in enumerate(bounds.greens):
                bounds = bounds.with_green(at, least, round(share * most), lowest[name, phase]) or bounds
            tried[name] = bounds
        yield f"most by {share:g}", tried


Change = Callable[[Bounds, int], Bounds | None]


def change_of(name: str, change: Change) -> Callable[[Bounded, int], Bounded | None]:
    """A change of one light's bounds, as one of the bounds of all lights; it gives None where the light's change
    does."""

    def changed(bounded: Bounded, sign: int) -> Bounded | None:
        """The bounds of all lights with the light's changed; None where the change gives none."""
        new_bounds = change(bounded[name], sign)
        return None if new_bounds is None else {**bounded, name: new_bounds}

    return changed


def gap_by(place: int, seconds: float) -> Change:
    """A change: the gap at a place of gaps longer (sign 1) or shorter (sign -1) by so much; None as of with_gap."""
    return lambda bounds, sign: bounds.with_gap(place, bounds.gaps[place] + sign * seconds)


def green_by(place: int, least_seconds: int, most_seconds: int, lowest: int) -> Change:
    """A change: the least and the most of the green at a place of greens longer (sign 1) or shorter (sign -1) by so
    many seconds (least_seconds, most_seconds); None, and lowest, as of Bounds.with_green."""

    def change(bounds: Bounds, sign: int) -> Bounds | None:
        """The bounds with the green changed; None as of with_green."""
        _, low, high = bounds.greens[place]
        return bounds.with_green(place, low + sign * least_seconds, high + sign * most_seconds, lowest)

    return change


def bounds_text(
    mapping: Map, bounded: Mapping[str, Bounds], program: str = PROGRAM, doubts: Sequence[str] = ()
) -> str:
    """The programs of some actuated and NEMA lights of a map with other bounds, as the text of an additional file.
    program: the programID of each; doubts: as of additional_of."""
    at_begin = programs_at_begin(mapping.programs)
    programs = []
    for name, bounds in sorted(bounded.items()):
        new_program = kept_with(at_begin[name], bounds)
        about = f'type="{new_program["kind"]}" programID="{program}" offset="{new_program["offset"]:g}"'
        programs.append((name, about, program_elements(new_program)))
    return additional_of(programs, doubts)


def program_elements(program: Json) -> Iterator[str]:
    """The parameters and phases of a program, of what a map keeps of it, as elements of an additional file."""
    for key, value in program["parameters"].items():
        if key == DOUBTED:
            continue
        yield f"<param key={quoteattr(key)} value={quoteattr(value)}/>"
    for at, phase in enumerate(program["phases"]):
        more = ring_words(*program["timing"][at]) if program.get("timing") else []
        yield f"<phase {' '.join([*phase_words(*phase), *more])}/>"


def phase_words(
    seconds: float, state: str, least_seconds: float | None, most_seconds: float | None, following: Sequence[int]
) -> list[str]:
    """The attributes of a <phase> as texts (duration="30" state="GGrr", ..), of what a map keeps of it. least_seconds,
    most_seconds: None where not written; following: places of the phases that may come next, empty: the next one."""
    attributes = [f'duration="{seconds:g}" state="{state}"']
    bounds = ("minDur", least_seconds), ("maxDur", most_seconds)
    attributes += [f'{name}="{bound:g}"' for name, bound in bounds if bound is not None]
    return attributes + ([f'next="{" ".join(map(str, following))}"'] if following else [])


def ring_words(name: str, extension: float, yellow: float, red: float) -> list[str]:
    """The further attributes of a <phase> of a NEMA light as texts (name="2", ..), of what a map keeps of it, in
    seconds."""
    times = (("vehext", extension), ("yellow", yellow), ("red", red))
    return [f"name={quoteattr(name)}", *(f'{key}="{value:g}"' for key, value in times)]
