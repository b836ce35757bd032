"""What a sheet describes: junctions, their arms and lanes, counts of movements, and plans of lights."""
from collections.abc import Iterator, Mapping
from dataclasses import dataclass, field

from streetsim.demand.grids import GridCell

SIGNALS, STOP, YIELD, ALL_WAY, RIGHT_FIRST, ROUNDABOUT = (
    "signals", "stop", "yield", "all-way stop", "right before left", "roundabout",
)  # fmt: skip
NODE_TYPES = {  # of SUMO's nodes
    SIGNALS: "traffic_light", STOP: "priority_stop", YIELD: "priority", ALL_WAY: "allway_stop",
    RIGHT_FIRST: "right_before_left", ROUNDABOUT: "priority",
}  # fmt: skip
Movement = tuple[str, str]  # the arm from which, and the arm to which
TURN_ORDER = "LTRU"
STRAIGHT, CLEARLY = 45.0, 10.0  # degrees: at most of through movements, and less than all others by so much


@dataclass(slots=True)
class SheetLane:
    """A lane of an approach. targets: the arms to which it leads; pocket: metres before the stop line at which it
    begins, 0 where it is as long as the arm."""

    cell: GridCell  # of its turns
    targets: list[str]
    pocket: float = 0.0


@dataclass(slots=True)
class SheetArm:
    """An arm of a junction: bearing, degrees clockwise from north, outwards; length, metres from the middle; speed,
    km/h; lanes_out: those that lead out; leads_to: (junction, arm) at the other end, none where the network ends there;
    lanes: of the approach, the one at the kerb first."""

    name: str
    cell: GridCell
    bearing: float
    length: float
    street: str = ""
    speed: float = 50.0
    lanes_out: int = 1
    is_minor: bool = False
    leads_to: tuple[str, str] | None = None
    lanes: list[SheetLane] = field(default_factory=list)

    @property
    def whole_lanes(self) -> int:
        """The lanes that are as long as the arm."""
        return sum(not lane.pocket for lane in self.lanes)


@dataclass(slots=True)
class PlanPhase:
    """A phase of a plan: movements with green, those that give way in it, seconds; walking: arms whose crossing has
    green."""

    cell: GridCell  # of its movements
    green: list[Movement]
    permissive: list[Movement]
    seconds: int
    yellow: int = 3
    all_red: int = 0
    minimum: int = 0
    walking: tuple[str, ...] = ()
    permissive_cell: GridCell | None = None


@dataclass(slots=True)
class Plan:
    """A plan of a junction's light; offset in seconds."""

    cell: GridCell
    cycle: int
    offset: int = 0
    phases: list[PlanPhase] = field(default_factory=list)


@dataclass(frozen=True, slots=True)
class MovementCount:
    """Vehicles of a movement in a period, in seconds of the day; heavy: the share of them, 0 to 1."""

    begin: int
    end: int
    movement: Movement
    vehicles: float
    cell: GridCell
    heavy: float = 0.0


@dataclass(slots=True)
class Junction:
    """A junction with its arms by name, counts, and plans by name; radius and ring_lanes are of a roundabout."""

    name: str
    cell: GridCell
    control: str
    drives_left: bool = False
    radius: float = 15.0
    ring_lanes: int = 1
    arms: dict[str, SheetArm] = field(default_factory=dict)
    counts: list[MovementCount] = field(default_factory=list)
    plans: dict[str, Plan] = field(default_factory=dict)

    @property
    def is_lit(self) -> bool:
        """Whether it has a light."""
        return self.control == SIGNALS

    def movements(self) -> Iterator[Movement]:
        """Its movements, by arm and lane."""
        for arm in self.arms.values():
            yield from dict.fromkeys((arm.name, target) for lane in arm.lanes for target in lane.targets)


@dataclass(slots=True)
class SheetLayout:
    """All that a sheet describes."""

    path: str
    junctions: dict[str, Junction]

    @property
    def is_street(self) -> bool:
        """Whether it has several junctions."""
        return len(self.junctions) > 1

    def prefix(self, junction: str) -> str:
        """What stands before names of arms of a junction: nothing where there is one alone."""
        return f"{junction}." if self.is_street else ""

    def plan_names(self) -> list[str]:
        """The names of all plans."""
        return list(dict.fromkeys(name for one in self.junctions.values() for name in one.plans))


def turn_degrees(arm: SheetArm, other: SheetArm) -> float:
    """By how many degrees a movement turns, to the right, -180 to 180."""
    turned = (other.bearing - arm.bearing - 180) % 360
    return turned - 360 if turned > 180 else turned


def letters_of(arms: Mapping[str, SheetArm], arm: SheetArm) -> dict[str, str]:
    """{L, T, R or U: the arm to which this turn leads}; through is the one that clearly turns least. Those
    that no letter names have to be called by the arm."""
    target_of_letter = {"U": arm.name}
    others = (one for one in arms.values() if one is not arm)
    targets = sorted(others, key=lambda one: abs(turn_degrees(arm, one)))
    turned = [abs(turn_degrees(arm, one)) for one in targets]
    if turned and turned[0] <= STRAIGHT and (len(turned) == 1 or turned[1] - turned[0] >= CLEARLY):
        target_of_letter["T"] = targets.pop(0).name
    sides: dict[str, list[str]] = {"L": [], "R": []}
    for target in targets:
        sides["R" if turn_degrees(arm, target) > 0 else "L"].append(target.name)
    return target_of_letter | {letter: names[0] for letter, names in sides.items() if len(names) == 1}


def letter_of(arms: Mapping[str, SheetArm], movement: Movement) -> str:
    """L, T, R or U of a movement, or > and the arm where no letter names it."""
    letters = letters_of(arms, arms[movement[0]])
    return next((letter for letter, target in letters.items() if target == movement[1]), f">{movement[1]}")
