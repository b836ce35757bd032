"""Where the detectors of an actuated light lie, and which phases they extend, as SUMO 1.15 has it
(MSActuatedTrafficLightLogic::init)."""
from collections import defaultdict
from collections.abc import Iterable, Mapping, Sequence
from dataclasses import dataclass, field
from typing import NamedTuple

from streetsim.control.actuated_logic import GREEN_LETTERS, ActuatedPhase

LEAD, PASSING, GAP = 2.0, 1.9, 3.0  # seconds: SUMO's detector-gap, passing-time and max-gap where none is given
ROOM = 7.5  # metres of a vehicle in a queue
NO_DETECTOR = "NO_DETECTOR"  # the value of a lane's name, for a lane without one
MAJOR, MINOR = "G", "g"


class LeadingLane(NamedTuple):
    """A lane that ends at the light, or one before it that leads to it alone, without a light between; metres: its
    length."""

    lane: str
    metres: float


class DetectorSpot(NamedTuple):
    """Where a detector lies: on a lane; metres: from the lane's begin."""

    lane: str
    metres: float


@dataclass(slots=True, frozen=True)
class LitTurn:
    """A turn at the light, from a lane to another one."""

    index: int  # its place in a state, from 0
    lane: str
    target: str  # lane
    turns_back: bool = False
    direction: str = ""  # as SUMO has it: s, l, r, ..


@dataclass(slots=True, frozen=True)
class LitLane:
    """A lane that ends at the light, with those before it on which its detector may lie."""

    name: str
    speed: float  # metres a second
    alone: bool  # its edge has no other
    stretches: tuple[LeadingLane, ...]  # itself, then those before it against the traffic


@dataclass(slots=True, frozen=True)
class Layout:
    """What lies at an actuated light, and the parameters of its program."""

    turns: Sequence[LitTurn]
    lanes: Mapping[str, LitLane]  # by name
    parameters: Mapping[str, str] = field(default_factory=dict)

    def parameter(self, name: str, usual: float, lane: str = "") -> float:
        """A number among the program's parameters: that of a lane (name:lane) before that of all lanes, and `usual`
        where neither is given. ValueError where it is no number."""
        return float(self.parameters.get(f"{name}:{lane}", self.parameters.get(name, usual)))

    def indexes(self) -> dict[str, set[int]]:
        """By lane the places in a state, from 0, of the signals of its turns."""
        by_lane: defaultdict[str, set[int]] = defaultdict(set)
        for turn in self.turns:
            by_lane[turn.lane].add(turn.index)
        return by_lane


def spots(layout: Layout, phases: Sequence[ActuatedPhase]) -> dict[str, DetectorSpot]:
    """By lane, where its detector lies: on each lane of shortest_greens, detector-gap seconds before the stop line, or
    nearer where fewer vehicles pass in its least green. Lanes whose name is a parameter (a detector of the user's own,
    or NO_DETECTOR) are left out."""
    spot_by_lane = {}
    for lane, least in shortest_greens(layout, phases).items():
        if lane not in layout.parameters:
            before = min(
                layout.parameter("detector-gap", LEAD) * layout.lanes[lane].speed,
                (least / layout.parameter("passing-time", PASSING) + 0.5) * ROOM,
            )
            spot_by_lane[lane] = spot_before(layout.lanes[lane].stretches, before)
    return spot_by_lane


def shortest_greens(layout: Layout, phases: Sequence[ActuatedPhase]) -> dict[str, int]:
    """By lane the shortest of the least seconds of the phases in which a signal of it is green (G or g) and whose
    bounds differ, so that detectors decide their length; lanes without such a phase are left out."""
    least_by_lane: dict[str, int] = {}
    for lane, indexes in sorted(layout.indexes().items()):
        greens = [phase for phase in phases if any(phase.state[index] in GREEN_LETTERS for index in indexes)]
        extended = [phase.least_seconds for phase in greens if phase.least_seconds != phase.most_seconds]
        if extended:
            least_by_lane[lane] = min(extended)
    return least_by_lane


def spot_before(stretches: Iterable[LeadingLane], metres: float) -> DetectorSpot:
    """The spot that lies `metres` before the end of the first stretch, going back over the others; at the begin of the
    last one where they are shorter together. stretches: the lane at the light first."""
    spot = DetectorSpot("", 0.0)
    for stretch in stretches:
        spot = DetectorSpot(stretch.lane, max(0.0, stretch.metres - metres))
        metres -= stretch.metres
        if metres <= 0:
            break
    return spot


def extending(layout: Layout, phases: Sequence[ActuatedPhase], detected: Iterable[str]) -> list[list[str]]:
    """For each phase the lanes, sorted, among those that have a detector (`detected`), whose detectors extend it: those
    all of whose turns are green in it, as green_indexes has it, and lead to no other lane with a detector of this light
    that is not all green too (turns back aside). Empty for a phase of one length."""
    indexes, detected = layout.indexes(), sorted(detected)
    leads: defaultdict[str, set[str]] = defaultdict(set)
    for turn in layout.turns:
        if not turn.turns_back:
            leads[turn.lane].add(turn.target)
    lanes_by_phase = []
    for phase in phases:
        green = green_indexes(layout, phases, phase.state) if phase.least_seconds != phase.most_seconds else set()
        usable = [lane for lane in detected if indexes[lane] and indexes[lane] <= green]
        beyond = {lane: leads[lane] & {*detected} for lane in usable}
        lanes_by_phase.append([lane for lane in usable if all(indexes[other] <= green for other in beyond[lane])])
    return lanes_by_phase


def green_indexes(layout: Layout, phases: Sequence[ActuatedPhase], state: str) -> set[int]:
    """The places of a state that count as green: those that go first (G); and of those that give way (g) the ones on
    the only lane of an edge, and the ones that never go first, or turn back, beside another of their lane that goes
    first. phases: all of the program; state: of one of them."""
    by_index: defaultdict[int, list[LitTurn]] = defaultdict(list)
    for turn in layout.turns:
        by_index[turn.index].append(turn)
    first = {turn.lane for turn in layout.turns if state[turn.index] == MAJOR}
    greens = set()
    for at, turns in by_index.items():
        never = all(phase.state[at] != MAJOR for phase in phases) or all(turn.turns_back for turn in turns)
        beside = never and any(turn.lane in first for turn in turns)
        alone = any(layout.lanes[turn.lane].alone for turn in turns)
        if state[at] == MAJOR or (state[at] == MINOR and (beside or alone)):
            greens.add(at)
    return greens
