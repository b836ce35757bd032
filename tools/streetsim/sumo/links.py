"""Links in the making: some lanes of an edge, side by side."""
from collections.abc import Mapping, Sequence
from dataclasses import dataclass
from math import log
from typing import Any

from streetsim.base import limits
from streetsim.model.freeflow import SLOWEST
from streetsim.sumo.net import NetEdge, NetLane, Point

OTHER_SPEED = 0.1  # of a lane's speed, by which a limit may be off
FREE_LIMITS = range(1, limits.LIMIT + 1)  # cells a step
# Of slow parts and of rings: where all go on by one cell a step a lane passes 1,050 an hour.
SLOW_LIMITS = FREE_LIMITS[1:]


@dataclass(slots=True)
class Link:
    """A link in the making, and what it is in SUMO."""

    edge: str
    lanes: tuple[int, ...]  # indexes of SUMO lanes; one or two
    begin: int  # nodes
    end: int
    cells: int
    limit: int  # cells a step
    metres: float
    speed: float  # metres a second, in SUMO
    shape: list[Point]
    closed: frozenset[str] = frozenset()  # those of the classes that may not use it
    longer: float = 0.0  # seconds that one alone takes longer here than in SUMO, with the junction at its end


def link_of(edge: NetEdge, lanes: Sequence[NetLane], number: Mapping[str, int], dawdle: float, in_ring: bool) -> Link:
    """The link of some lanes of an edge, with the speed and length of the first of them, which pacing.set_cells changes
    into one by seconds; number: of each junction's node; dawdle: the chance, 0 to 1, to go on by a cell less; in_ring:
    the edge is in a roundabout."""
    limit = limit_of(lanes[0], dawdle, SLOW_LIMITS if edge.is_slow or in_ring else FREE_LIMITS, in_ring)
    indexes, ends = tuple(lane.index for lane in lanes), (number[edge.begin], number[edge.end])
    cells, street = limits.cells_of_length(lanes[0].metres), (lanes[0].metres, lanes[0].speed)
    return Link(edge.name, indexes, *ends, cells, limit, *street, middle_line(lanes), lanes[0].closed)


def limit_of(lane: NetLane, dawdle: float, free_limits: range, in_ring: bool) -> int:
    """The limit of a lane in cells a step, the one of free_limits that is nearest to its speed; where none is near, but
    in a ring, the one of the nearest ratio. dawdle: the chance, 0 to 1, to go on by a cell less."""
    wished = lane.speed / limits.CELL_METRES + dawdle
    limit = min(free_limits, key=lambda cells: abs(cells - wished))
    free = (limit - dawdle) * limits.CELL_METRES
    if in_ring or not lane.speed or abs(free - lane.speed) <= OTHER_SPEED * lane.speed:
        return limit
    return min(free_limits, key=lambda one: abs(log(max(SLOWEST, one - dawdle) * limits.CELL_METRES / lane.speed)))


def middle_line(lanes: Sequence[NetLane]) -> list[Point]:
    """The line halfway between the lanes of a link; the last lane's own where they have unequal numbers of points."""
    if len({len(lane.shape) for lane in lanes}) > 1:
        return lanes[-1].shape
    line: list[Any] = [
        tuple(sum(part) / len(lanes) for part in zip(*points, strict=True))
        for points in zip(*(lane.shape for lane in lanes), strict=True)
    ]
    return line
