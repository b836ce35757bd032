"""Who stands at stop lines, one behind the other without a gap."""
from __future__ import annotations

from typing import NamedTuple

from streetsim.base.array_groups import groups_of, unbroken
from streetsim.base.arrays import Array
from streetsim.base.arrays import numpy as np

SLOTS = 1 << 16  # above the number of each lane


class StandingQueues(NamedTuple):
    """Queues at stop lines, as columns: none is empty."""

    clock_place: Array  # the place of the clock, as it was given
    slot: Array
    vehicles: Array
    covered: Array  # cells, no more than the lane has


class LaneRows(NamedTuple):
    """Vehicles on cells of lanes, as columns, by clock, then by lane, and on it from the stop line on."""

    clock_place: Array  # the place of the clock
    slot: Array  # twice the link, and the lane
    cell: Array
    speed: Array
    size: Array


def standing_at_stop_lines(rows: LaneRows, cells: Array) -> StandingQueues:
    """The queues at the stop lines of lanes: the vehicles that stand from the last cell on, each behind the cells of
    the one ahead. cells: of each link."""
    size, last_cell = rows.size.astype(np.int64), cells[rows.slot // 2] - 1
    begins, group = groups_of(rows.clock_place * SLOTS + rows.slot)
    before = np.cumsum(size) - size
    before -= before[begins][group]
    stands = unbroken((rows.speed == 0) & (rows.cell == last_cell - before), begins, group)
    count = np.bincount(group[stands], minlength=len(begins))
    covered = np.bincount(group[stands], size[stands], len(begins)).astype(np.int64)
    occupied = np.flatnonzero(count)
    first = begins[occupied]
    return StandingQueues(
        rows.clock_place[first], rows.slot[first], count[occupied], np.minimum(covered[occupied], last_cell[first] + 1)
    )
