"""Which vehicles have priority at which lights of a run, and within which bounds of its phases: by vehicle class or
line."""
from collections import defaultdict
from collections.abc import Iterator, Mapping, Sequence
from dataclasses import replace
from itertools import pairwise
from math import ceil
from typing import Any

from streetsim.base.files import Fault
from streetsim.base.report import first_few
from streetsim.control.actuated_kept import Listed, nodes_of
from streetsim.control.actuated_lights import ActuatedLights, DrivenLight, passing
from streetsim.control.actuated_logic import ActuatedPhase
from streetsim.control.bus_coordinated import Fixed
from streetsim.control.bus_planned import SEEN_SECONDS, LightAhead, Planned
from streetsim.model.mapping import Map
from streetsim.model.runs import Run
from streetsim.model.stops import bus_lines_of, vehicle_classes_of

LEAST_GREEN = 5  # seconds of a green without bounds of its own, or half of what is listed
LESS_GAIN = (
    "at lights that detectors drive these vehicles gain fewer seconds than in SUMO, where each stop that they are "
    "spared saves them the seconds of braking and starting too"
)

LinkPair = tuple[int, int]  # a link and the next one
Turns = list[tuple[str, int]]  # lights, and indexes in their states


def prioritised(
    run: Run, mapping: Map, names: Sequence[str], seen_seconds: int | None, lights: ActuatedLights, buses: Planned
) -> tuple[ActuatedLights, Planned]:
    """(the lights, the buses) of a run in which lights wait for vehicles of the classes and lines in names; with the
    buses it is told which cannot, and why. lights: those that detectors drive, which wait too; buses: the stops that
    are made; seen_seconds: those before the stop line, None: SEEN_SECONDS. Fault where a name has no vehicle."""
    owners, seen_seconds = owners_of(run, mapping, names), SEEN_SECONDS if seen_seconds is None else seen_seconds
    timed = {line.command["node"] for _, line in run.timed if line.command["cmd"] == "signal"}
    changed = {light for light, node in mapping.signals if node in timed}
    waiting: dict[str, DrivenLight] = {light.name: light for light in lights.driven}
    programs, mine = {program["light"]: program for program in mapping.fixed}, []
    unable: defaultdict[str, list[str]] = defaultdict(list)
    for light in sorted(passing((run.enters[owner] for owner in owners), mapping)):
        try:
            if light in changed:
                waiting.pop(light, None)
                raise Listed("as lines of the run change their plans")
            if light not in waiting:
                mine.append(fixed_light(light, programs, seen_seconds))
                waiting[light] = mine[-1]
        except Listed as why:
            unable[str(why)].append(light)
    turns, plans = turns_of(mapping), {owner: run.enters[owner].command["plan"] for owner in owners}
    lights_ahead = {owner: way for owner, plan in plans.items() if (way := tuple(ahead_of(plan, turns, waiting)))}
    waits = {one.light for way in lights_ahead.values() for one in way}
    notes = [f"{len(waits):,} lights wait for {len(lights_ahead):,} vehicles that are seen {seen_seconds} s before"]
    if by_detectors := sorted(waits & {driven.name for driven in lights.driven}):
        notes.append(f"{LESS_GAIN}: {first_few(by_detectors)}")
    notes += [f"lights do not wait for them, {why}: {first_few(those)}" for why, those in unable.items()]
    all_lights = replace(lights, driven=(*lights.driven, *mine))
    return all_lights, replace(buses, lights_ahead=lights_ahead, seen_seconds=seen_seconds, priority_notes=tuple(notes))


def owners_of(run: Run, mapping: Map, names: Sequence[str]) -> list[int]:
    """The numbers in the file of the vehicles whose class or line is one of names; Fault where one has none."""
    count = len(run.enters)
    classes, lines = vehicle_classes_of(mapping.kinds, count), bus_lines_of(mapping.kinds, count)
    for name in names:
        if name not in classes and name not in lines:
            raise Fault(f"priority {name!r}: no vehicle is of this class or line")
    return [owner for owner in range(count) if classes[owner] in names or lines[owner] in names]


def fixed_light(light: str, programs: Mapping[str, Any], seen_seconds: int) -> Fixed:
    """A light with listed seconds, of what the map keeps of its program (programs, by light). seen_seconds: those
    before the stop line at which a vehicle is seen. Raises Listed, with the reason, where it cannot wait."""
    if light not in programs:
        raise Listed("as detectors drive them in SUMO and not here, or an older streetsim-import wrote the map")
    program = programs[light]
    if any(seconds != round(seconds) or seconds < 1 for seconds, *_ in program["phases"]):
        raise Listed("as their phases are no whole seconds")
    phases = tuple(bounded(row, seen_seconds) for row in program["phases"])
    return Fixed(light, round(program["offset"]), phases, 2.0, (), (), nodes_of(program), (), program["program"])


def bounded(row: Sequence[Any], seen_seconds: int) -> ActuatedPhase:
    """A phase, as kept ([seconds, state, least or none, greatest or none]), with its bounds in seconds. A green has
    those of the file (its most never below its least), else it may be as short as half its seconds (LEAST_GREEN at
    least, but never above its own), and as long as its own and seen_seconds, those that a vehicle is seen before the
    stop line; any other phase lasts its listed seconds."""
    seconds, state, least_seconds, most_seconds, *_ = row
    phase = ActuatedPhase(state, round(seconds), round(seconds), round(seconds))
    if not phase.is_green:
        return phase
    half = min(phase.seconds, max(LEAST_GREEN, ceil(seconds / 2)))
    shortest = half if least_seconds is None else round(least_seconds)
    longest = phase.seconds + seen_seconds if most_seconds is None else max(shortest, round(most_seconds))
    return ActuatedPhase(state, phase.seconds, shortest, longest)


def ahead_of(
    plan: Sequence[int], turns: Mapping[LinkPair, Turns], lights: Mapping[str, DrivenLight]
) -> Iterator[LightAhead]:
    """The lights on a vehicle's way (plan: links) that wait for it, in their order; lights: all that wait, by name."""
    for at, pair in enumerate(pairwise(plan)):
        signals = [(light, index) for light, index in turns.get(pair, ()) if light in lights]
        if signals:
            light = lights[signals[0][0]]
            yield LightAhead(at, light.name, light.phases_serving({index for _, index in signals}))


def turns_of(mapping: Map) -> dict[LinkPair, Turns]:
    """By (link, next link) the lights of its turns, each with the turn's index in the light's state."""
    by_pair: defaultdict[LinkPair, Turns] = defaultdict(list)
    for turn in mapping.turns:
        if turn.light:
            by_pair[turn.link, turn.next].append((turn.light, turn.index))
    return by_pair
