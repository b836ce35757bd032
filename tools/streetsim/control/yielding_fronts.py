"""Who is the first of its lane, and may pass its stop line in the next second, as columns."""
from __future__ import annotations

from dataclasses import dataclass

from streetsim.base.arrays import Array, numpy as np
from streetsim.control.yielding_sight import LinksAhead
from streetsim.control.yielding_ways import NO_TURN, Lanes
from streetsim.kernel.loop import NEVER
from streetsim.kernel.seconds import Block

LONG_STAND = 2  # seconds
NOBODY = -1  # as a vehicle's number


@dataclass(slots=True)
class Fronts:
    """Those who are first of their lanes, by columns."""

    car: Array
    slot: Array
    turn: Array
    since: Array  # the clock since which it stands at the stop line, NEVER where it does not

    def chosen(self, which: Array) -> Fronts:
        """Some of them."""
        return Fronts(self.car[which], self.slot[which], self.turn[which], self.since[which])

    def by_lane(self) -> dict[int, tuple[int, int]]:
        """By lane the turn, and since when one stands."""
        columns = (column.tolist() for column in (self.slot, self.turn, self.since))
        return {slot: (turn, since) for slot, turn, since in zip(*columns)}

    @property
    def stand(self) -> Array:
        """Whether they stand at the stop line."""
        return self.since != NEVER


@dataclass(slots=True)
class Near:
    """Who is near the stop lines that are looked at."""

    first: Fronts  # who may pass their line in the next second
    all_come: bool  # there is nobody else at the head of a lane
    lanes_behind: Array  # the lanes of those who are near a stop line behind the first

    def stay_first(self, fronts: Fronts) -> bool:
        """Whether nobody else may be first in the next second, as long as some that are first stay."""
        return self.all_come and bool(np.isin(self.lanes_behind, fronts.slot).all())


class LaneHeads:
    """Finds the first ones of lanes, and notes since when they stand at the stop line."""

    def __init__(self, lanes: Lanes, links_ahead: LinksAhead) -> None:
        """Nobody stands yet."""
        count = len(lanes.length)
        self.lanes, self.links_ahead = lanes, links_ahead
        # By lane who stands first, and the clock since which it does.
        self.standing, self.since = np.full(count, NOBODY, np.int32), np.zeros(count, np.int64)
        self.looked_at = np.zeros(count, bool)  # by lane, in the last second

    def find(self, clock: int, block: Block, cells_to_come: Array) -> Near:
        """Those who are near a stop line. cells_to_come: by row of a second the cells until it may pass its line in the
        next one, 0 and less where it may."""
        rows = (cells_to_come <= 0).nonzero()[0]
        slots, speeds = block.slot[rows], block.speed[rows]
        cells_left = self.lanes.lengths[slots] - block.cell[rows]
        is_first = np.ones(len(rows), bool)
        is_first[1:] = slots[1:] != slots[:-1]
        passes_next = is_first & (cells_left <= speeds + 1)
        car, slot = block.car[rows[passes_next]], slots[passes_next]
        stands = (speeds[passes_next] == 0) & (cells_left[passes_next] == 1)
        first = Fronts(car, slot, self.links_ahead.turns_on(car, slot), self.stand_since(clock, car, slot, stands))
        self.looked_at[:] = False
        self.looked_at[slots] = True
        return Near(first.chosen(first.turn != NO_TURN), bool((is_first == passes_next).all()), slots[~is_first])

    def stand_since(self, clock: int, car: Array, slot: Array, stands: Array) -> Array:
        """The clock since which each stands first on its lane, NEVER where it does not stand."""
        stand_since, slot, car = np.full(len(car), NEVER), slot[stands], car[stands]
        is_new = self.standing[slot] != car
        new = slot[is_new]
        self.standing[new] = car[is_new]
        self.since[new] = np.where(self.looked_at[new], clock, clock - 1 - LONG_STAND)
        stand_since[stands] = self.since[slot]
        return stand_since

    def forget(self, slot: int) -> None:
        """Notes that who stood first on a lane left."""
        self.standing[slot] = NOBODY
