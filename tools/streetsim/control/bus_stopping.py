"""A bus at one stop, by closures alone: no rule of the simulator changes.

The cell beyond the stop is closed in the step in which the bus would pass it, and opened when its time is over. On a
link of two lanes a bus that would change to the other lane finds a cell closed there, just so far ahead that the rule
for lane changing does not let it go, and only where nobody is near who could be stopped by it. One that comes on the
wrong lane is slowed, and those behind it on the right lane are held, until the rule lets it change.

`BusAtStop` is told what stands on the lanes and says which cells are to be closed in the next step. It draws nothing
and sends nothing, so equal states give equal commands. What is chosen, not measured: APPROACH and PATIENCE.
"""
from collections.abc import Mapping, Sequence
from dataclasses import dataclass, field

from streetsim.control.merging_rule import MergingRule, SeenVehicle, Side
from streetsim.model.stops import MISSED, OTHER_LANE, OWN_LANE, STANDING, UNREACHED, Visit

APPROACH = 40  # cells before the stop, from which a bus is brought to its lane
GAP_BEHIND = 5  # cells: the rule for lane changing wants a gap behind of more
PATIENCE = 30  # seconds for which a bus waits on the wrong lane
SIGHT = 16  # cells: the gap where nobody is in sight
# Seconds that a bus goes earlier for each vehicle that stands behind it, as far as its start takes so many: a queue on
# the way leaves at 2.14 s a vehicle here and at 1.93 in SUMO, so that a street with stops passes as many.
QUEUED = 0.2

Cell = tuple[int, int]  # a lane and a cell of it


@dataclass(slots=True, frozen=True)
class Road:
    """The link of a stop."""

    lanes: int
    limit: int  # cells a step
    cells: int
    # Of two lanes: whether one of the plan's next link leads from the stop's lane, and from the other.
    leads: tuple[bool, bool] = (True, True)


@dataclass(slots=True)
class BusAtStop:
    """A bus on the link of its stop, until the stop is made or missed. lane: where it is, which the caller of
    `decide_closed` keeps."""

    visit: Visit
    road: Road
    lane: int
    state: str = UNREACHED
    arrived: int | None = None  # clock at which it has come to stand, as SUMO's would
    leaves: int = 0  # clock at which its doors close
    let_go_clock: int | None = None  # clock at which it is let go, as far as it is known
    stood: int = 0  # seconds on the wrong lane
    closed: set[Cell] = field(default_factory=set)  # in the next step
    standing_bus: SeenVehicle | None = None  # where it stands
    passing: MergingRule | None = None  # those behind it, on a link of two lanes
    passes: int = 0  # clock at which `passing` is to be told next

    @property
    def is_over(self) -> bool:
        """Whether the stop is made, made on the other lane, or missed."""
        return self.state in (OWN_LANE, OTHER_LANE, MISSED)

    @property
    def lane_beside(self) -> int:
        """The lane beside its own, on a link of two lanes."""
        return 1 - self.lane

    def decide_closed(self, clock: int, bus: SeenVehicle, lanes: Mapping[int, Sequence[SeenVehicle]]) -> int:
        """Decides which cells are `closed` in the next step, and whether the stop is over; gives the seconds until the
        next look. bus: as it is seen; lanes: by lane the vehicles on those that `wants` names, the bus among them or
        not."""
        self.closed = set()
        if self.standing_bus:
            return self.stand(clock, self.standing_bus, lanes)
        if bus.cell > self.visit.last:
            self.state = MISSED
            return 1
        if self.has_come(bus):
            return self.arrive(clock, bus, lanes)
        vehicles_ahead = [vehicle for vehicle in lanes.get(self.lane, ()) if vehicle.cell > bus.cell]
        if self.is_astray:
            self.change_lane(bus, vehicles_ahead, lanes.get(self.lane_beside, ()))
        else:
            self.halt_at(bus, vehicles_ahead, self.visit.last)
            self.keep_lane(bus, vehicles_ahead, lanes.get(self.lane_beside, ()))
        return 1

    @property
    def is_astray(self) -> bool:
        """Whether it is on the wrong lane and is to leave it. It stays where it has stood there for PATIENCE seconds,
        or where the stop's lane alone does not lead on."""
        leads_astray = self.road.leads == (False, True)
        return self.lane != self.visit.lane and self.stood < PATIENCE and not leads_astray

    def wants(self, clock: int) -> list[int]:
        """The lanes whose vehicles it must be told at a clock."""
        ends = self.let_go_clock is None and clock >= self.leaves
        own = [self.lane] if not self.standing_bus or ends or (self.passing and clock >= self.passes) else []
        return sorted([*own, *([self.lane_beside] if self.road.lanes == 2 else [])])

    def has_come(self, bus: SeenVehicle) -> bool:
        """Whether the bus is at its stop: at the stop's last cell, or standing on the stop; never while astray."""
        if self.is_astray:
            return False
        return bus.cell == self.visit.last or (bus.speed == 0 and bus.cell >= self.visit.first)

    def arrive(self, clock: int, bus: SeenVehicle, lanes: Mapping[int, Sequence[SeenVehicle]]) -> int:
        """Notes that it stands, and when its doors close: after its duration, and not before its until. What is closed
        meanwhile, and what it gives, is as of stand."""
        self.state, self.standing_bus = STANDING, SeenVehicle(bus.car, bus.cell, 0, bus.size)
        self.arrived = clock + round(self.visit.braking)
        self.leaves = max(self.arrived + self.visit.duration, self.visit.until or 0)
        return self.stand(clock, self.standing_bus, lanes)

    def stand(self, clock: int, bus: SeenVehicle, lanes: Mapping[int, Sequence[SeenVehicle]]) -> int:
        """Stays, with the cell before it closed, until its time is over; then the stop is made, on its lane or the
        other. That is its seconds of starting after its doors close, sooner by QUEUED for each who stands behind it.
        Gives the seconds until the next look."""
        if self.let_go_clock is None and clock >= self.leaves:
            behind = sum(one.cell < bus.cell and one.speed == 0 for one in lanes.get(self.lane, ()))
            self.let_go_clock = clock + max(0, round(self.visit.starting - QUEUED * behind))
        if self.let_go_clock is not None and clock >= self.let_go_clock:
            self.state = OWN_LANE if self.lane == self.visit.lane else OTHER_LANE
            return 1
        self.closed = {(self.lane, bus.cell + 1)}
        if self.road.lanes == 1:
            return max(1, (self.leaves if self.let_go_clock is None else self.let_go_clock) - clock)
        self.keep_lane(bus, (), lanes.get(self.lane_beside, ()))
        self.let_pass(clock, bus, lanes)
        return 1

    def let_pass(self, clock: int, bus: SeenVehicle, lanes: Mapping[int, Sequence[SeenVehicle]]) -> None:
        """Closes further cells so that those who stand behind it on a link of two lanes merge by turns, as before works
        of its length."""
        self.passing = self.passing or MergingRule(self.road.cells)
        if self.lane in lanes and clock >= self.passes:
            behind = [one for one in lanes[self.lane] if one.cell < bus.rear]
            sides = [Side(lanes.get(self.lane_beside, ()), ()), Side(behind, [(bus.rear, bus.cell + 1)])]
            self.passing.changes_by_turns(clock, sides if self.lane == 1 else sides[::-1])
            self.passes = clock + self.passing.seconds_to_next_look()
        for lane, cells in enumerate(self.passing.held_cells):
            self.closed |= {(lane, cell) for cell in cells}

    def halt_at(self, bus: SeenVehicle, vehicles_ahead: Sequence[SeenVehicle], last_cell: int) -> None:
        """Closes the cell beyond last_cell, where the bus could pass that in the next step and nobody before it is at
        the cell beyond or nearer. vehicles_ahead: those before it on its lane."""
        if min(bus.speed + 1, self.road.limit) > last_cell - bus.cell and rear_of(vehicles_ahead) > last_cell + 1:
            self.closed.add((self.lane, last_cell + 1))

    def keep_lane(
        self, bus: SeenVehicle, vehicles_ahead: Sequence[SeenVehicle], other_lane: Sequence[SeenVehicle]
    ) -> None:
        """Closes a cell of the other lane where the bus would change to it, so that it stays on its own.
        vehicles_ahead: those before it on its lane; other_lane: those on that."""
        if self.road.lanes == 1:
            return
        shut = min((cell for lane, cell in self.closed if lane == self.lane), default=bus.cell + SIGHT + 1)
        gap = min(rear_of(vehicles_ahead), shut) - bus.cell - 1
        leads, beside = self.leads(self.lane), self.leads(self.lane_beside)
        wishes = (gap < bus.speed + 1 or not leads) and (beside or not leads)
        if wishes and may_change(bus, other_lane):
            self.closed.add((self.lane_beside, min(bus.cell + bus.speed + 2, self.road.cells - 1)))

    def leads(self, lane: int) -> bool:
        """Whether a lane of its link leads to the next link of its plan."""
        return self.road.leads[lane != self.visit.lane]

    def change_lane(
        self, bus: SeenVehicle, vehicles_ahead: Sequence[SeenVehicle], stop_lane: Sequence[SeenVehicle]
    ) -> None:
        """Closes cells so that it changes to the stop's lane where the rule allows; else so that it is slowed and waits
        two cells before the stop (its seconds of standing with a free cell ahead are counted), and those behind it on
        that lane are held. vehicles_ahead, stop_lane: those before it on its lane, and those on the stop's lane."""
        speed, reach = bus.speed, min(bus.speed + 1, self.road.limit)
        wait = self.visit.last - 2
        if may_change(bus, stop_lane) and reach <= self.visit.last - bus.cell:
            if rear_of(vehicles_ahead) - bus.cell - 1 >= speed + 1:
                self.closed.add((self.lane, min(bus.cell + speed + 1, self.road.cells - 1)))
            return
        slow = bus.cell + max(0, self.road.limit - 1)
        last_cell = min(slow, max(bus.cell, wait))
        self.halt_at(bus, vehicles_ahead, last_cell)
        if (hold := bus.rear - GAP_BEHIND - 1) > 0:
            self.closed.add((self.visit.lane, hold))
        if bus.speed == 0 and rear_of(vehicles_ahead) > bus.cell + 1:
            self.stood += 1


def rear_of(vehicles: Sequence[SeenVehicle]) -> int:
    """The least cell that some vehicles cover; a cell beyond all others where there are none."""
    return min((one.rear for one in vehicles), default=1 << 30)


def may_change(bus: SeenVehicle, other_lane: Sequence[SeenVehicle]) -> bool:
    """Whether the simulator's rule would let it go to the other lane if it wishes to: the cells beside it are free, the
    gap ahead is longer than its speed and one, and that behind it longer than GAP_BEHIND."""
    nearest, farthest = bus.rear - GAP_BEHIND - 1, bus.cell + bus.speed + 2
    return not any(vehicle.cell >= nearest and vehicle.rear <= farthest for vehicle in other_lane)
