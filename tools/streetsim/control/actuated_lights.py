"""Which lights of a run detectors drive, by what its map keeps of their programs; and why others show the seconds that
their program lists."""
from collections import Counter
from collections.abc import Collection, Iterable, Iterator, Mapping
from contextlib import suppress
from dataclasses import dataclass, field, replace
from functools import cached_property
from itertools import pairwise
from math import ceil
from typing import Any

from streetsim.base import limits
from streetsim.base.report import first_few
from streetsim.control.actuated_detectors import (
    GAP, LEAD, NO_DETECTOR, DetectorSpot, Layout, LeadingLane, LitLane, LitTurn, extending, spots,
)
from streetsim.control.actuated_kept import (
    OFF_VALUES, Cell, DetectorArea, Listed, kept_of, nodes_of, number_of, phase_bounds,
)
from streetsim.control.actuated_logic import GREEN_LETTERS, Actuated, ActuatedPhase
from streetsim.control.nema_lights import DrivenRings, driven_rings
from streetsim.model.detectors import E1
from streetsim.model.mapping import Map
from streetsim.model.runs import Line, Run

ACTUATED, NEMA = "actuated", "NEMA"  # the kinds of programs that are driven
NUMBERS = ("max-gap", "detector-gap", "passing-time")
ZERO = ("detector-length", "jam-threshold")  # parameters that are driven where they are 0 or less
UNLIKE = ("linkMaxDur", "linkMinDur", "vTypes", "coordinated")  # others that change when SUMO's phases end


@dataclass(frozen=True, slots=True)
class Driven:
    """An actuated light that detectors drive. offset: seconds; lead: seconds from the detectors to the stop line;
    cells, gaps: where each detector is, and after how many seconds with nobody it extends no green; program: SUMO's
    id."""

    name: str
    offset: int
    phases: tuple[ActuatedPhase, ...]
    lead: float
    cells: tuple[Cell, ...]  # of its detectors
    gaps: tuple[float, ...]
    nodes: tuple[int, ...]  # numbers
    areas: tuple[DetectorArea, ...] = ()  # it has detectors, which are read
    program: str = "0"

    @property
    def longest(self) -> float:
        """The seconds of a cycle in which each phase lasts its most, 600 at most."""
        return sum(min(phase.most_seconds, limits.PHASE_STEPS) for phase in self.phases)

    def phases_serving(self, indexes: Collection[int]) -> frozenset[int]:
        """The places of the phases in which a movement, by its places in a state, has green."""
        states = enumerate(phase.state for phase in self.phases)
        found = (at for at, state in states if any(state[index] in GREEN_LETTERS for index in indexes))
        return frozenset(found)

    def new_logic(self) -> Actuated:
        """A fresh logic of this light, for one run."""
        return Actuated(self.phases, self.gaps, self.lead)


DrivenLight = Driven | DrivenRings
Switch = tuple[int, str, str]  # clock, light, and the program that is in force from then on


@dataclass(frozen=True)
class ActuatedLights:
    """The lights of a run: those that are driven, and why others are not."""

    driven: tuple[DrivenLight, ...] = ()
    listed: Mapping[str, str] = field(default_factory=dict)  # of the others that SUMO times by detectors: why
    idle: tuple[DrivenLight, ...] = ()  # programs of driven lights that come into force later
    switches: tuple[Switch, ...] = ()  # the changes of driven lights by time of day, rising

    @cached_property
    def longest(self) -> int:
        """The seconds, rounded up, after which each driven light has shown all its phases at their greatest length (of
        an actuated light 600 s of each at most), also by programs that come into force later; 0 without any."""
        return ceil(max((one.longest for one in (*self.driven, *self.idle)), default=0.0))

    def listed_lights(self, mapping: Map) -> list[str]:
        """The lights of a map that SUMO times by detectors and that show their listed seconds here."""
        own = {one.name for one in (*self.driven, *self.idle)}
        return [light for light in mapping.actuated if light not in own]

    def notes(self) -> Iterator[str]:
        """A line for each reason why lights show their listed seconds, with some of their names."""
        for why in dict.fromkeys(self.listed.values()):
            names = [light for light, reason in self.listed.items() if reason == why]
            yield f"lights show their listed seconds, {why}: {first_few(names)}"


NONE_DRIVEN = ActuatedLights()  # all go by their list


def driven_lights(run: Run, mapping: Map) -> ActuatedLights:
    """The lights that detectors drive in a run, each with all its programs (but for those that only a script puts in
    force) or not at all; the others in `listed`, with the reason. Those that most vehicles pass come first."""
    timed = {line.command["node"] for _, line in run.timed if line.command["cmd"] == "signal"}
    driven: list[DrivenLight] = []
    idle: list[DrivenLight] = []
    listed: dict[str, str] = {}
    use, later = passing(run.enters, mapping), {(light, program) for _, light, program in mapping.switches}
    for light in sorted(mapping.actuated, key=lambda light: -use[light]):
        try:
            programs = kept_of(mapping.programs, light, {program for name, program in later if name == light})
            if any(node in timed for name, node in mapping.signals if name == light) and any(map(is_long, programs)):
                raise Listed("as lines of the run show their phases one by one")
            lights = [driven_of(program, mapping) for program in programs]
            for program, driven_light in zip(programs, lights, strict=True):
                (idle if program.get("idle") else driven).append(driven_light)
        except Listed as why:
            listed[light] = str(why)
    names = {driven_light.name for driven_light in (*driven, *idle)}
    switches = (switch for switch in mapping.switches if switch[0] > run.start() and switch[1] in names)
    return ActuatedLights(tuple(driven), listed, tuple(idle), tuple(switches))


def is_long(program: Mapping[str, Any]) -> bool:
    """Whether the listed seconds of a program, as a map keeps it, do not fit in one plan (9,600 s), so that the import
    tells it by lines with clocks."""
    return sum(phase[0] for phase in program["phases"]) > limits.PHASES * limits.PHASE_STEPS


def idle_lights(mapping: Map, known: Iterable[DrivenLight]) -> Iterator[DrivenLight]:
    """Lights with a program that is not in force and that a script may put in force; programs that cannot be driven are
    passed over in silence, and so are those of `known`."""
    names = {(one.name, one.program) for one in known}
    for program in mapping.programs:
        if program.get("idle") and (program["light"], program["program"]) not in names:
            with suppress(Listed):
                yield driven_of(program, mapping)


def passing(enters: Iterable[Line], mapping: Map) -> Counter[str]:
    """How often vehicles of some enter lines pass each light, by their plans (one that passes two of its nodes counts
    twice); lights that nobody passes are left out."""
    light_at = {(turn.link, turn.next): turn.light for turn in mapping.turns if turn.light}
    pairs = (pair for line in enters for pair in pairwise(line.command["plan"]))
    return Counter(light_at[pair] for pair in pairs if pair in light_at)


def driven_of(program: Mapping[str, Any], mapping: Map) -> DrivenLight:
    """A light that detectors drive, from what a map keeps of its program; raises Listed where it cannot be driven as in
    SUMO."""
    if program["kind"] == NEMA:
        return driven_rings(program, mapping)
    refuse_unlike(program)
    phases = [phase_of(row) for row in program["phases"]]
    layout = layout_of(program)
    cells = {lane: cell for lane, spot in spots(layout, phases).items() if (cell := cell_of(spot, mapping)) is not None}
    cells |= own_detectors(layout, mapping)
    number = {lane: at for at, lane in enumerate(cells)}
    loops = extending(layout, phases, cells)
    return Driven(
        name=program["light"],
        offset=round(program["offset"]),
        phases=tuple(
            replace(phase, detectors=tuple(number[lane] for lane in own))
            for phase, own in zip(phases, loops, strict=True)
        ),
        lead=layout.parameter("detector-gap", LEAD),
        cells=tuple(cells.values()),
        gaps=tuple(max_gap_of(layout, lane) for lane in cells),
        nodes=nodes_of(program),
        program=program.get("program", "0"),
    )


def refuse_unlike(program: Mapping[str, Any]) -> None:
    """Raises Listed for a program that is not actuated, is wrong, or has something that is not driven here as in SUMO;
    more is refused by own_detectors and max_gap_of."""
    if program["kind"] != ACTUATED:
        raise Listed(f"as {program['kind']} is not driven here")
    if program["more"]:
        raise Listed(f"as {', '.join(program['more'])} of their programs is not driven here")
    if any(len(following) > 1 for *_, following in program["phases"]):
        raise Listed("as phases with several next ones are not driven here")
    count = len(program["phases"])
    if beyond := [index for *_, following in program["phases"] for index in following if index >= count]:
        raise Listed(f"as they have no phase {beyond[0]}, which one names as its next")
    for name, value in program["parameters"].items():
        key = name.partition(":")[0]
        least = 0.1 if key == "passing-time" else 0.0
        unread = key in NUMBERS and number_of(value) < least
        if unread or (key in UNLIKE and value not in OFF_VALUES) or (key in ZERO and number_of(value) > 0):
            raise Listed(f"as {name}={value} is not driven here")


def phase_of(row: list[Any]) -> ActuatedPhase:
    """A phase, from what is kept of it: [seconds, state, least, greatest, next ones], in whole seconds, without
    detectors."""
    seconds, state, *_, following = row
    step = following[0] if following and following[0] >= 0 else None
    least, most = phase_bounds(row)
    return ActuatedPhase(state, round(seconds), round(least), round(most), next_phase=step)


def layout_of(program: Mapping[str, Any]) -> Layout:
    """The lanes, turns and parameters at a light, from what a map keeps of its program."""
    lanes = {
        name: LitLane(name, speed, alone, tuple(LeadingLane(*stretch) for stretch in stretches))
        for name, speed, alone, stretches in program["lanes"]
    }
    return Layout([LitTurn(*turn) for turn in program["ways"]], lanes, program["parameters"])


def max_gap_of(layout: Layout, lane: str) -> float:
    """The seconds of max-gap of a lane's detector; raises Listed from 32 on, as a detector keeps so many rows."""
    gap = layout.parameter("max-gap", GAP, lane)
    if gap >= limits.ROWS:
        raise Listed(f"as detectors keep {limits.ROWS} s and max-gap={gap:g}")
    return gap


def cell_of(spot: DetectorSpot, mapping: Map) -> Cell | None:
    """The cell of a spot; none where the map does not have its lane."""
    place = mapping.place_of(spot.lane)
    if place is None:
        return None
    link = mapping.links[place[0]]
    return Cell(*place, min(link.cells - 1, int(spot.metres / link.metres * link.cells)))


def own_detectors(layout: Layout, mapping: Map) -> dict[str, Cell]:
    """The cells of the user's own induction loops, by the lanes that they are for; raises Listed where a parameter
    names a loop that the map does not have."""
    loops = {one.name: Cell(one.link, one.lane, one.first) for one in mapping.detectors if one.kind == E1}
    names = {lane: layout.parameters[lane] for lane in layout.lanes if lane in layout.parameters}
    own = {lane: name for lane, name in names.items() if name != NO_DETECTOR}
    if unknown := [name for name in own.values() if name not in loops]:
        raise Listed(f"as the map has no inductionLoop {unknown[0]}")
    return {lane: loops[name] for lane, name in own.items()}
