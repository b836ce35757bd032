"""What those see who give way: in how many seconds the first one comes to each stop line, and who has just passed."""
from __future__ import annotations

from collections.abc import Collection, Mapping
from itertools import pairwise

from streetsim.base.arrays import Array, numpy as np
from streetsim.base.limits import VEHICLES
from streetsim.control.yielding_plans import PlansInForce
from streetsim.control.yielding_ways import HORIZON, NO_TURN, Ways
from streetsim.kernel.seconds import READY, Block, Vehicles

DAWDLED = 0.17  # cells a step that a vehicle loses in the mean
STARTING = 0.5  # seconds that one loses that stands on its way
STOPPING_CELLS = 0.83  # in which one stops, for each square of its cells a step (4.5 m/s²)
HELD_SECONDS = 2  # seconds for which one could have gone on from a buffer and did not; then it is held there
NOWHERE = -1  # the link behind the end of a plan


class LinksAhead:
    """The links ahead of vehicles, by the plans with which they were entered, and their turns."""

    def __init__(self, vehicles: Vehicles, ways: Ways) -> None:
        """vehicles: of the run; those to come too."""
        self.vehicles, self.plans, self.number = vehicles, vehicles.plans, ways.number
        # By car: the place of its link in its plan; the lane, + 1, on which it was looked at there; its turn there.
        self.places, self.slots, self.turns = (np.zeros(VEHICLES, np.int32) for _ in range(3))
        self.place, self.slot, self.turn = map(memoryview, (self.places, self.slots, self.turns))

    def links(self, car: int, link: int) -> tuple[int, int]:
        """(the next link of a vehicle that is on a link, the one behind it); NOWHERE where there is none."""
        plan, place = self.plans[car], self.place[car]
        if plan[place] != link:
            self.place[car] = place = plan.index(link, place)
            self.slot[car] = 0
        left = len(plan) - place
        return plan[place + 1] if left > 1 else NOWHERE, plan[place + 2] if left > 2 else NOWHERE

    def turn_on(self, car: int, slot: int) -> int:
        """The number of the turn by which a vehicle of a lane goes on."""
        if self.slot[car] != slot + 1:
            self.turn[car] = self.number.get((slot, self.links(car, slot >> 1)[0]), NO_TURN)
            self.slot[car] = slot + 1
        return self.turn[car]

    def turns_on(self, cars: Array, slots: Array) -> Array:
        """The numbers of the turns by which vehicles of lanes go on."""
        is_known = self.slots[cars] == slots + 1
        found = self.turns[cars]
        for at in (~is_known).nonzero()[0].tolist():
            found[at] = self.turn_on(int(cars[at]), int(slots[at]))
        return found


class LanesSeen:
    """Some lanes in one second."""

    def __init__(
        self, clock: int, block: Block, slots: Collection[int], links_ahead: LinksAhead, plans: PlansInForce,
        held_cars: Mapping[int, int],
    ) -> None:
        """slots: that are looked at; plans: by which turns have green; held_cars: by slot who stood there in the
        second before and was to wait, who lets nobody of its lane pass."""
        self.clock, self.links_ahead, self.held_cars = clock, links_ahead, held_cars
        self.ways, self.lanes, self.may_come = plans.ways, plans.lanes, plans.may_come
        self.turn = links_ahead.turn_on
        self.seconds: dict[int, float] = {}  # by turn until the first one comes who may go on
        self.comes_on: set[int] = set()  # turns whose first one is at its line, or comes too fast to stop there
        self.since_passed: dict[int, int] = {}  # by turn seconds since the last one passed its line, whole
        # By lane its rows of those that are seen: the first, that of the first one who passed its line, that behind the
        # last.
        self.rows: dict[int, tuple[int, int, int]] = {}
        if slots:
            self.see(block, slots)

    def see(self, block: Block, slots: Collection[int]) -> None:
        """Takes the vehicles of the lanes."""
        is_seen = np.zeros(len(self.lanes.length), bool)
        is_seen[[*slots]] = True
        rows = is_seen[block.slot].nonzero()[0]
        slot = block.slot[rows]
        begins = [0, *((slot[1:] != slot[:-1]).nonzero()[0] + 1).tolist(), len(rows)]
        self.car, self.cell, self.speed = (column[rows].tolist() for column in (block.car, block.cell, block.speed))
        for lane, (begin, end) in zip(slot[begins[:-1]].tolist() if len(rows) else (), pairwise(begins)):
            first_inside = self.see_inside(lane, begin, end)
            self.rows[lane] = begin, first_inside, end
            self.see_lane(lane, begin, first_inside, end - first_inside >= self.lanes.room[lane])
        for lane in self.lanes.sources.keys() & slots:
            for other in self.lanes.sources[lane]:
                if other in self.rows:
                    self.see_before(lane, other, *self.rows[other])

    def to_line(self, slot: int, cells_left: int, speed: int) -> float:
        """The seconds for which one drives to its stop line (cells_left 1: at it)."""
        driving = (cells_left - 1) / (self.lanes.limit[slot] - DAWDLED)
        return driving + (STARTING if speed == 0 and cells_left > 1 else 0.0)

    def see_lane(self, slot: int, begin: int, end: int, is_full: bool) -> None:
        """Takes those of a lane, from the stop line back, by rows of the second. Where the first one stays nobody comes
        behind it. is_full: no more can pass its line."""
        limit, turns_left = self.lanes.limit[slot], self.ways.turn_count[slot]
        farthest = self.lanes.length[slot] - self.lanes.horizon[slot] * limit
        for row in range(begin, end):
            car, cell, speed = self.car[row], self.cell[row], self.speed[row]
            if cell < farthest:
                break
            cells_left, turn = self.lanes.length[slot] - cell, self.turn(car, slot)
            goes_on = turn != NO_TURN and self.may_come(turn)
            is_stuck = False
            if row == begin:
                is_stuck = speed == 0 and cells_left == 1 and (is_full or self.held_cars.get(slot) == car)
                is_stuck |= turn != NO_TURN and not goes_on and cells_left <= 2 * limit
            if goes_on and not (is_stuck and is_full) and turn not in self.seconds:
                turns_left -= 1
                self.note(turn, self.to_line(slot, cells_left, speed))
                if cells_left <= 1 + STOPPING_CELLS * speed * speed:
                    self.comes_on.add(turn)
            if is_stuck or not turns_left:
                break

    def see_inside(self, slot: int, begin: int, end: int) -> int:
        """Takes those of a lane who passed their line; gives the first of their rows."""
        just_now = self.clock - 1 + self.lanes.residence[slot]
        size, row = self.links_ahead.vehicles.size, end
        while row > begin and self.cell[row - 1] < 0:
            row -= 1
            car = self.car[row]
            turn, ago = self.turn(car, slot), just_now - (self.cell[row] & READY) + 1 - int(size[car])
            self.since_passed[turn] = min(ago, self.since_passed.get(turn, ago))
        return row

    def see_before(self, slot: int, source: int, begin: int, first_inside: int, end: int) -> None:
        """Takes those into the seconds to a stop line of a short lane who come there from a lane before, by rows of the
        second; behind one that is held in a buffer nobody comes."""
        drive = self.lanes.length[slot] / (self.lanes.limit[slot] - DAWDLED)
        farthest = self.lanes.length[source] - HORIZON * self.lanes.limit[source]
        for row in range(first_inside, end):
            wait = (self.cell[row] & READY) - self.clock
            if wait < -HELD_SECONDS:
                return
            if (turn := self.turn_behind(slot, source, self.car[row])) != NO_TURN:
                self.note(turn, max(0, wait) + drive)
        for row in range(begin, first_inside):
            cell, speed = self.cell[row], self.speed[row]
            if cell < farthest:
                break
            if speed and (turn := self.turn_behind(slot, source, self.car[row])) != NO_TURN:
                there = self.to_line(source, self.lanes.length[source] - cell, speed) + self.lanes.residence[source]
                self.note(turn, there + drive)

    def turn_behind(self, slot: int, source: int, car: int) -> int:
        """The number of the turn by which a vehicle of a lane before goes on behind a lane, where it may come."""
        following, after = self.links_ahead.links(car, source >> 1)
        turn = self.ways.number.get((slot, after), NO_TURN) if following == slot >> 1 else NO_TURN
        return turn if turn != NO_TURN and self.may_come(turn) else NO_TURN

    def note(self, turn: int, seconds: float) -> None:
        """Notes that one comes by a turn in some seconds."""
        self.seconds[turn] = min(seconds, self.seconds.get(turn, seconds))
