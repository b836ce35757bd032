"""The record of a run as columns: the last second (for controllers), and some hundred on end (for observers)."""
from __future__ import annotations

from collections.abc import Sequence
from dataclasses import dataclass, field
from functools import cached_property
from typing import NamedTuple

from streetsim.base.array_groups import by_number
from streetsim.base.arrays import Array
from streetsim.base.arrays import numpy as np
from streetsim.base.limits import VEHICLES
from streetsim.kernel.program import Blocks
from streetsim.model.record import ROW, BadRecord

ARRIVED = -1  # as a number with sign the spot of one that arrived
READY = (1 << 31) - 1  # the bits of a buffer's spot that say from which step on it may go on
SLOTS = 1 << 14  # more than a network has lanes
NOT_ANEW = -1  # the number of one that is not entered anew


class Takeout(NamedTuple):
    """A vehicle that was taken out, and entered anew where `anew` is not NOT_ANEW."""

    clock: int
    car: int  # its number until then
    anew: int  # and from then on
    slot: int  # its lane: twice its link, and the lane
    on_lane: bool  # it was on the lane's cells, not in its buffer


@dataclass
class Vehicles:
    """The vehicles that the program was told of, by the numbers that it gave them."""

    owner: Array = field(default_factory=lambda: np.zeros(VEHICLES, np.int32))  # number in the file
    size: Array = field(default_factory=lambda: np.ones(VEHICLES, np.int32))  # cells
    car: dict[int, int] = field(default_factory=dict)  # by number in the file the last number in the program
    entered: int = 0  # all that were entered so far
    takeouts: list[Takeout] = field(default_factory=list)
    plans: list[Sequence[int]] = field(default_factory=list)  # by number: the links with which it was entered

    def add(self, owners: Sequence[int], sizes: Sequence[int], plans: Sequence[Sequence[int]] = ()) -> None:
        """Adds vehicles that were entered, by their numbers in the file, with the cells that they take and their
        links."""
        self.plans += plans
        first_new, self.entered = self.entered, self.entered + len(owners)
        self.owner[first_new : self.entered] = owners
        self.size[first_new : self.entered] = sizes
        self.car.update(zip(owners, range(first_new, self.entered)))


class Arrivals(NamedTuple):
    """Who arrived, as columns."""

    second: Array
    car: Array
    slot: Array  # the lane that it left
    speed: Array  # with which it left, cells a step


class Block:
    """The last second, for who acts on it. Rows are in the record's order: lane by lane, from the greatest cell down,
    then the buffer from its front."""

    def __init__(self, blocks: Blocks) -> None:
        """blocks: of which the last one is looked at."""
        begins, data = blocks
        begin, end = begins[-2:]
        rows = np.frombuffer(data, "<i4", (end - begin) // 4, begin).reshape(-1, 4)
        self.arrived_count, rows = int(rows[0, 2]), rows[1:]  # arrived_count: how many have arrived in all
        is_arrival = rows[:, 2] == ARRIVED
        has_arrivals = np.count_nonzero(is_arrival) > 0
        # cell: below 0 in the buffer.
        columns = (rows[~is_arrival] if has_arrivals else rows).T
        self.car, self.slot, self.cell, self.speed = np.ascontiguousarray(columns)
        self.arrived = (rows[is_arrival, :3] if has_arrivals else rows[:0, :3]).T  # who arrived: car, slot, ARRIVED

    def lane(self, slot: int) -> slice:
        """The rows of a lane."""
        return slice(*np.searchsorted(self.slot, (slot, slot + 1)))


NOBODY = [0, ROW], bytes(ROW)  # the blocks of a second in which nobody is there


@dataclass
class Seconds:
    """Some seconds of the record, numbered from 1; second 0 is the last of the seconds before, so that each change is
    seen once. Rows are by second, then as in a Block."""

    clocks: Array  # of each second, at its end
    first: Array  # by second its first row; one more entry at the end
    car: Array
    slot: Array  # twice the link, and the lane
    cell: Array  # of its front; below 0 in the buffer
    speed: Array
    arrivals: Arrivals
    vehicles: Vehicles

    @cached_property
    def second(self) -> Array:
        """By row its second."""
        return np.repeat(np.arange(len(self.clocks), dtype=np.int32), np.diff(self.first))

    @cached_property
    def owner(self) -> Array:
        """By row the vehicle's number in the file, which it keeps when it is entered anew."""
        return self.vehicles.owner[self.car]

    @cached_property
    def size(self) -> Array:
        """By row the cells that the vehicle takes."""
        return self.vehicles.size[self.car]

    @cached_property
    def on(self) -> Array:
        """By row whether it is on a lane's cells."""
        return self.cell >= 0

    @cached_property
    def by_owner(self) -> Array:
        """The rows of all seconds but second 0, by vehicle of the file, and of each by second."""
        begin = int(self.first[1])
        return by_number(self.owner[begin:]) + begin

    def rows_in_seconds(self, is_wanted: Array) -> Array:
        """By row whether it is of a second, not 0, that is wanted; is_wanted: by second."""
        return np.repeat(np.append(False, is_wanted[1:]), np.diff(self.first))

    def joined_buffer(self, stay_steps: Array) -> Array:
        """The rows of those who passed their stop line in their second: who joins in a step may go on stay_steps (by
        slot) later."""
        begin = int(self.first[1])
        rows = np.flatnonzero(~self.on[begin:]) + begin
        clock = self.clocks[self.second[rows]]
        return rows[(self.cell[rows] & READY) == clock - 1 + stay_steps[self.slot[rows]]]

    def last_rows(self) -> slice:
        """The rows of the last second."""
        return slice(self.first[-2], self.first[-1])


def seconds_of(parts: Sequence[Blocks], previous: Seconds | None, clock: int, vehicles: Vehicles) -> Seconds:
    """The seconds after a clock, from the blocks of them; previous: the seconds before them, none at the run's begin.
    BadRecord where clocks do not follow one another, or a vehicle was not entered."""
    rows = np.frombuffer(b"".join([data for _, data in parts]), "<i4").reshape(-1, 4)
    sizes = np.concatenate([np.zeros(0, np.int64), *(np.diff(begins) for begins, _ in parts)]) // ROW
    edges = np.append(0, np.cumsum(sizes))
    clocks, heads = np.arange(clock, clock + len(edges)), edges[:-1]
    if not np.array_equal(rows[heads, 0], clocks[1:]):
        raise BadRecord(f"the record behind {clock:,} s has other clocks")
    is_arrival = rows[:, 2] == ARRIVED
    is_arrival[heads] = False
    ended = np.flatnonzero(is_arrival)
    is_arrival[heads] = True
    on_road, arrived = rows[~is_arrival].T, rows[ended].T
    second = np.searchsorted(edges, ended, "right")
    counts = sizes - 1 - np.bincount(second - 1, minlength=len(sizes))
    old_rows = np.zeros((4, 0), np.int32)
    if previous is not None:
        columns = previous.car, previous.slot, previous.cell, previous.speed
        old_rows = np.array([column[previous.last_rows()] for column in columns])
    first_rows = np.cumsum([0, old_rows.shape[1], *counts])
    car, slot, cell, speed = np.concatenate([old_rows, on_road], axis=1)
    for cars, slots in ((car, slot), arrived[:2]):
        if cars.size and (cars.max() >= vehicles.entered or min(cars.min(), slots.min()) < 0):
            raise BadRecord(f"the record behind {clock:,} s has a vehicle that was not entered, or no lane")
    arrivals = Arrivals(second, arrived[0], arrived[1], arrived[3])
    return Seconds(clocks, first_rows, car, slot, cell, speed, arrivals, vehicles)
