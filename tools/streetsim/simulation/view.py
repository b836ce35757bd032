"""Where each vehicle of a simulation is, by the record of its run."""
from functools import cached_property
from typing import NamedTuple

from streetsim.base import limits
from streetsim.base.arrays import Array
from streetsim.base.arrays import numpy as np
from streetsim.model.mapping import Map, Place
from streetsim.simulation.fleet import OnRoad

IN_JUNCTION = -1  # in place of a cell
MOST_SINGLE = 8  # vehicles that are looked for in one second, row by row
# What a view has of its rows, once it was asked for.
CACHED = frozenset(("positions", "positions_before", "numbers", "bounds", "rows", "row_bounds", "speeds"))


class FleetSecond(NamedTuple):
    """A second of a run, as columns; vehicles are by the numbers of the fleet."""

    clock: int  # at its end
    number: Array
    slot: Array  # twice the link, and the lane
    cell: Array  # of its front; below 0 in the junction behind the lane
    speed: Array  # cells a step
    arrived: Array  # vehicles
    slots_left: Array  # by those that arrived


class SecondObserver:
    """Gets each second of a run, one after the other."""

    def note_second(self, second: FleetSecond) -> None:
        """Takes the next second."""
        raise NotImplementedError


class View(SecondObserver):
    """The vehicles on the road at the clock as columns of rows, and what has changed since `clear`. Vehicles are by the
    numbers of the fleet. Rows are lane by lane, from the stop line, and behind each lane's those in the junction behind
    it, first who leaves first; then those that enter anew at a junction, and are in it until they are seen again."""

    def __init__(self, mapping: Map) -> None:
        """mapping: of the run."""
        self.slots = 2 * len(mapping.links)
        self.keys = np.arange(2 * self.slots + 1)
        self.has_departed, self.has_ended = (np.zeros(limits.VEHICLES, bool) for _ in range(2))
        self.arrival = np.zeros(limits.VEHICLES, np.int64)  # clock; 0: it has not arrived
        self.departure = np.zeros(limits.VEHICLES, np.int64)  # clock at the begin of the second in which it departed
        self.count = 0  # of those who have ended
        self.reentry_lanes: dict[int, int] = {}  # lanes, as twice the link and the lane, of those who enter anew
        self.departed: list[int] = []
        self.arrived: list[int] = []
        self.leaving: list[int] = []  # taken out at the end of their way: they arrive in the step to come
        self.set_recorded(*np.zeros((4, 0), int))
        self.previous_rows = self.number, self.slot, self.cell, self.speed  # a second ago

    def clear(self) -> None:
        """Forgets who has departed and arrived."""
        self.departed, self.arrived = [], []

    def note_second(self, second: FleetSecond) -> None:
        """Takes the next second."""
        if self.leaving or len(second.arrived):
            self.arrival[second.arrived], self.has_ended[second.arrived] = second.clock, True
            self.count += len(second.arrived)
            self.arrived += [*self.leaving, *second.arrived.tolist()]
            self.leaving = []
        first_seen = second.number[~self.has_departed[second.number]]
        if len(first_seen):
            self.departed += first_seen.tolist()
            self.has_departed[first_seen], self.departure[first_seen] = True, second.clock - 1
        self.previous_rows = self.number, self.slot, self.cell, self.speed
        self.set_recorded(second.number, second.slot, second.cell, second.speed)

    def set_recorded(self, number: Array, slot: Array, cell: Array, speed: Array) -> None:
        """Shows the rows of a second of the record, and those who enter anew and are not seen there."""
        columns, self.recorded = (number, slot, np.maximum(cell, IN_JUNCTION), speed), len(number)
        if self.reentry_lanes:
            recorded_numbers = set(number.tolist())
            unseen = (pair for pair in self.reentry_lanes.items() if pair[0] not in recorded_numbers)
            self.reentry_lanes = dict(unseen)
            reentry_rows = [[vehicle, lane, IN_JUNCTION, 0] for vehicle, lane in self.reentry_lanes.items()]
            columns = np.append(np.array(columns), np.array(reentry_rows, int).reshape(-1, 4).T, axis=1)
        self.set_rows(*columns)

    def set_rows(self, number: Array, slot: Array, cell: Array, speed: Array) -> None:
        """Sets the rows."""
        self.number, self.slot, self.cell, self.speed = number, slot, cell, speed
        self.sought = 0  # vehicles that `position_of` has looked for
        for name in self.__dict__.keys() & CACHED:
            del self.__dict__[name]

    @cached_property
    def numbers(self) -> list[int]:
        """By row the vehicle."""
        return self.number.tolist()

    @cached_property
    def rows(self) -> dict[int, int]:
        """By vehicle on the road its row."""
        return {number: row for row, number in enumerate(self.numbers)}

    @cached_property
    def speeds(self) -> list[int]:
        """By row cells a step."""
        return self.speed.tolist()

    def position_of(self, number: int) -> OnRoad | None:
        """Where a vehicle is; None where it is not on the road. Where many are looked for, all are."""
        if self.sought >= MOST_SINGLE:
            return self.positions.get(number)
        self.sought += 1
        rows = (self.number == number).nonzero()[0].tolist()
        if not rows:
            return None
        slot, cell, speed = (int(column[rows[-1]]) for column in (self.slot, self.cell, self.speed))
        return OnRoad(slot >> 1, slot & 1, None if cell < 0 else cell, speed)

    @cached_property
    def positions(self) -> dict[int, OnRoad]:
        """Where each vehicle on the road is, by rows."""
        return positions_by_number(self.number, self.slot, self.cell, self.speed)

    @cached_property
    def row_bounds(self) -> Array:
        """The first row of each lane, and, between two of them, of the junction behind it; one more at the end."""
        keys = 2 * self.slot[: self.recorded] + (self.cell[: self.recorded] < 0)
        return np.searchsorted(keys, self.keys)

    @cached_property
    def bounds(self) -> list[int]:
        """What row_bounds has."""
        return self.row_bounds.tolist()

    @cached_property
    def positions_before(self) -> dict[int, OnRoad]:
        """Where each vehicle was that was on the road a second ago."""
        return positions_by_number(*self.previous_rows)

    def on_lane(self, link_lane: Place) -> list[int]:
        """The vehicles on the cells of a lane, from the stop line."""
        key = 4 * link_lane[0] + 2 * link_lane[1]
        return self.numbers[self.bounds[key] : self.bounds[key + 1]]

    def speeds_on(self, link_lane: Place) -> list[int]:
        """Cells a step of the vehicles of on_lane, in their order."""
        key = 4 * link_lane[0] + 2 * link_lane[1]
        return self.speeds[self.bounds[key] : self.bounds[key + 1]]

    def in_buffer(self, link_lane: Place) -> list[int]:
        """Those in the junction behind a lane, first who leaves first."""
        key = 4 * link_lane[0] + 2 * link_lane[1] + 1
        return self.numbers[self.bounds[key] : self.bounds[key + 1]]

    def remove(self, number: int) -> None:
        """Notes that a vehicle was taken out: it is on no lane and in no junction."""
        self.has_ended[number], self.count = True, self.count + 1
        self.reentry_lanes.pop(number, None)
        self.drop(number)

    def drop(self, number: int) -> None:
        """Leaves out the row of a vehicle, where it has one."""
        keep = self.number != number
        self.recorded = int(np.count_nonzero(keep[: self.recorded]))
        self.set_rows(*(column[keep] for column in (self.number, self.slot, self.cell, self.speed)))

    def note_reentry(self, number: int, slot: int) -> None:
        """Notes that a vehicle in the junction behind a lane (slot) enters anew there."""
        self.reentry_lanes[number] = slot
        self.drop(number)
        recorded = slice(self.recorded)
        self.set_recorded(*(column[recorded] for column in (self.number, self.slot, self.cell, self.speed)))


def positions_by_number(number: Array, slot: Array, cell: Array, speed: Array) -> dict[int, OnRoad]:
    """Where each vehicle is, by rows."""
    rows = zip(*(column.tolist() for column in (number, slot >> 1, slot & 1, cell, speed)))
    return {vehicle: OnRoad(link, lane, None if cell < 0 else cell, speed) for vehicle, link, lane, cell, speed in rows}
