"""The NEMA lights of a run, read from what its map keeps of their programs; after the init of SUMO 1.15's
NEMAController."""
from collections.abc import Collection, Iterable, Mapping
from dataclasses import dataclass
from math import ceil
from typing import Any

from streetsim.control.actuated_kept import (
    OFF_VALUES, Cell, DetectorArea, Listed, nodes_of, number_of, phase_bounds,
)
from streetsim.control.actuated_logic import GREEN_LETTERS
from streetsim.control.nema_logic import Nema
from streetsim.control.nema_phases import RingPhase, Rings
from streetsim.model.detectors import E2
from streetsim.model.mapping import Map

LENGTH = 20.0  # metres of an area before the stop line
STANDING = 1.0  # metres from the stop line to who waits first
ALL = "1,2,3,4,5,6,7,8"  # the phases with a least recall, where none are named
LEFT_TURN = "l"  # where a connection leads
NEEDED_PARAMETERS = ("ring1", "ring2", "barrierPhases")
UNLIKE = ("coordinate-mode", "vTypes")  # parameters that change when SUMO's phases end, and are not driven
CROSSING = "crossPhaseSwitching"  # how the names of further such parameters begin


@dataclass(frozen=True, slots=True)
class DrivenRings:
    """A NEMA light that detectors drive. offset: has no effect; program: SUMO's id of the program."""

    name: str
    rings: Rings
    areas: tuple[DetectorArea, ...]
    nodes: tuple[int, ...]  # numbers
    cells: tuple[Cell, ...] = ()  # of detectors: it has areas, which are looked at
    offset: int = 0
    program: str = "0"

    def phases_serving(self, indexes: Collection[int]) -> frozenset[int]:
        """The numbers of the phases in which a movement, by its places in a state, has green: those in which it goes
        first (G), or where there is none those in which it gives way (g)."""
        found = (
            frozenset(one.number for one in self.rings.phases if any(one.state[at] == letter for at in indexes))
            for letter in GREEN_LETTERS
        )
        return next(filter(None, found), frozenset())

    @property
    def longest(self) -> float:
        """The seconds in which all phases, one after another, have been green for their greatest time, with yellow and
        red."""
        return sum(one.most_seconds + one.change_seconds for one in self.rings.phases)

    def new_logic(self) -> Nema:
        """A fresh logic of this light, for one run."""
        return Nema(self.rings)


def driven_rings(program: Mapping[str, Any], mapping: Map) -> DrivenRings:
    """A NEMA light, from what a map keeps of its program; raises Listed where it cannot be driven as in SUMO."""
    parameters = program["parameters"]
    refuse_unlike(program)
    orders = tuple(digits(parameters[f"ring{ring}"]) for ring in (1, 2))
    areas = areas_of(program, mapping)
    number = {lane: at for at, lane in enumerate(areas)}
    phases = phases_with_areas(program, number)
    check_orders(orders, phases)
    return DrivenRings(
        name=program["light"],
        rings=Rings(phases, orders, barriers_of(parameters, orders)),
        areas=tuple(areas.values()),
        nodes=nodes_of(program),
        program=program.get("program", "0"),
    )


def refuse_unlike(program: Mapping[str, Any]) -> None:
    """Raises Listed for a NEMA program of which something is not driven here as in SUMO, or that lacks a parameter that
    SUMO asks for, and where the map is of an older streetsim-import; what reads rings, barriers, phases and areas
    refuses more."""
    parameters = program["parameters"]
    if "timing" not in program:
        raise Listed("as their map was written by an older streetsim-import")
    if program["more"]:
        raise Listed(f"as {', '.join(program['more'])} of their programs is not driven here")
    for name, value in parameters.items():
        if (name in UNLIKE or name.startswith(CROSSING)) and value not in OFF_VALUES:
            raise Listed(f"as {name}={value} is not driven here")
    if missing := [name for name in NEEDED_PARAMETERS if not parameters.get(name)]:
        raise Listed(f"as they have no {missing[0]}, which SUMO asks for")
    if not second_barrier(parameters):
        raise Listed("as they have no barrier2Phases, which SUMO asks for")


def digits(text: str) -> tuple[int, ...]:
    """The numbers of phases in a text, of one digit each, as SUMO reads them; all other characters are passed over."""
    return tuple(int(one) for one in text if one in "0123456789")


def second_barrier(parameters: Mapping[str, str]) -> tuple[int, ...]:
    """The phases at the second barrier, of the parameter coordinatePhases where it is given, even without a digit, else
    of barrier2Phases; empty where no digit is found."""
    return digits(parameters.get("coordinatePhases", parameters.get("barrier2Phases", "")))


def check_orders(orders: Iterable[tuple[int, ...]], phases: Iterable[RingPhase]) -> None:
    """Raises Listed where a ring has no phases or more than four places, those without a phase (0) among them, or names
    one that the program does not have."""
    numbers = {one.number for one in phases}
    for order in orders:
        if len(order) > 4 or not any(order):
            raise Listed("as their rings have not one to four phases")
        if missing := [number for number in order if number and number not in numbers]:
            raise Listed(f"as they have no phase {missing[0]}, which SUMO asks for")


def barriers_of(parameters: Mapping[str, str], orders: tuple[tuple[int, ...], ...]) -> tuple[tuple[int, ...], ...]:
    """By side of the barrier (0 before, 1 behind) the phase of each ring in which it waits for the other one; raises
    Listed where parameters do not name them so."""
    by_side: list[dict[int, int]] = [{}, {}]
    for pair in (digits(parameters["barrierPhases"]), second_barrier(parameters)):
        if len(pair) != 2 or not all(number and number in order for number, order in zip(pair, orders, strict=True)):
            raise Listed("as their barriers do not have a phase of each ring")
        for ring, (number, order) in enumerate(zip(pair, orders, strict=True)):
            by_side[ring][order.index(number) // 2] = number
    if any(len(own) != 2 for own in by_side):
        raise Listed("as both their barriers are on one side, which SUMO refuses")
    return tuple((by_side[0][side], by_side[1][side]) for side in (0, 1))


def phases_with_areas(program: Mapping[str, Any], number: Mapping[str, int]) -> list[RingPhase]:
    """The phases, each with the areas of the lanes that it has green first (G); number: by lane the position of its
    area. Raises Listed where the name of a phase has no digit or several."""
    parameters, phases = program["parameters"], []
    recalls = {name: digits(parameters.get(name, usual)) for name, usual in (("minRecall", ALL), ("maxRecall", ""))}
    latching = digits(parameters.get("latchingDetectors", ""))
    for phase, (text, extension, yellow, red) in zip(program["phases"], program["timing"], strict=True):
        name, state, (least_seconds, most_seconds) = digits(text), phase[1], phase_bounds(phase)
        if len(name) != 1:
            raise Listed(f"as {text!r} is no name of a phase")
        lanes = dict.fromkeys(lane for index, lane, *_ in program["ways"] if state[index] == "G" and lane in number)
        areas = tuple(number[lane] for lane in lanes)
        own = name[0] in recalls["minRecall"], name[0] in recalls["maxRecall"], name[0] in latching
        phases.append(RingPhase(name[0], state, least_seconds, most_seconds, extension, yellow, red, areas, *own))
    return phases


def areas_of(program: Mapping[str, Any], mapping: Map) -> dict[str, DetectorArea]:
    """By lane the area on which vehicles are looked for: the laneAreaDetector that a parameter of the lane's name
    names, else, where the map has the lane, the last cells before its stop line, one at least, as far as
    detector-length says (metres, LENGTH without it), or detector-length-leftTurnLane for a lane whose one turn goes
    left; both less STANDING. Raises Listed where the map does not have the detector, or a length is no number."""
    parameters, detectors = program["parameters"], {one.name: one for one in mapping.detectors if one.kind == E2}
    by_lane: dict[str, list[str]] = {}
    for _, lane, _, _, direction in program["ways"]:
        by_lane.setdefault(lane, []).append(direction)
    areas = {}
    for lane, directions in by_lane.items():
        if name := parameters.get(lane):
            if name not in detectors:
                raise Listed(f"as the map has no laneAreaDetector {name}")
            at = detectors[name]
            ends = at.last == mapping.links[at.link].cells - 1
            areas[lane] = DetectorArea(at.link, at.lane, at.first, at.last, ends)
        elif place := mapping.place_of(lane):
            key = "detector-length-leftTurnLane" if directions == [LEFT_TURN] else "detector-length"
            link = mapping.links[place[0]]
            reach = min((number_of(parameters.get(key, str(LENGTH))) - STANDING) / link.metres, 1.0) * link.cells
            areas[lane] = DetectorArea(*place, link.cells - max(1, ceil(reach)), link.cells - 1)
    return areas
