"""Lanes that are nearly full by the demand, as an import finds them: there queues may be other than in SUMO."""
from __future__ import annotations

from collections.abc import Mapping
from dataclasses import dataclass
from typing import Any

from streetsim.base.arrays import Array
from streetsim.model.named import one_of

LEFT_TURN, RIGHT_TURN, STRAIGHT, TURNAROUND = "left", "right", "straight on", "back"
MERGING = "where lanes become one"
OVERFULL = 1.1  # share of what can pass, from which on a queue grows all the time


def passing_in_green(effective: Array, headway: Array) -> Array:
    """How many vehicles pass in the effective seconds of green, of so many seconds each; numbers, or arrays of lanes.
    The import's fullness and v/c both have it, so that they differ by what a run measures alone."""
    return effective / headway


def filled(wished: float, capacity: float) -> float:
    """How full a lane or a movement is, as a share: who wishes to pass over who can in the same time, of an import and
    of a run (v/c); 0 where capacity is 0, which says that it is not known."""
    return wished / capacity if capacity else 0.0


@dataclass(slots=True, frozen=True)
class FullLane:
    """A lane that is nearly full by the demand."""

    junction: str
    lane: str  # SUMO's id; where lanes become one, the edge
    way: str  # of most of its vehicles: LEFT_TURN, .. or MERGING
    source: str  # the edges from which and to which these go
    target: str
    demand: float  # in the worst quarter of an hour, as a share of what can pass here
    vehicles: int = 0  # of the demand, that pass it
    # Seconds from which to which it is, by quarters of an hour; end 0: where only the whole demand fills it.
    begin: int = 0
    end: int = 0
    waits: bool = False  # some on it wait for gaps at a light, as runs show

    def in_words(self) -> str:
        """Where it is, and how full."""
        where = f"{self.way} from {self.source} to {self.target} at {self.junction}"
        return f"{where}: demand {self.demand:.2f} of what passes here"


@dataclass(slots=True, frozen=True)
class Fullness:
    """The lanes of a demand that are nearly full, the fullest first."""

    lanes: tuple[FullLane, ...] = ()
    vehicles: int = 0  # that pass such lanes
    of: int = 0  # vehicles of the demand

    def __bool__(self) -> bool:
        """Whether there are any."""
        return bool(self.lanes)

    @property
    def share(self) -> float:
        """The share of the vehicles, 0 to 1, that pass such lanes."""
        return self.vehicles / self.of if self.of else 0.0

    @property
    def overfull_share(self) -> float:
        """How often a vehicle passes lanes whose demand is OVERFULL, in the mean of all vehicles."""
        return sum(one.vehicles for one in self.lanes if one.demand >= OVERFULL) / self.of if self.of else 0.0

    def unseen(self) -> Fullness:
        """Those of lanes on which nobody waits for gaps at a light: how full others are a run shows."""
        lanes = tuple(one for one in self.lanes if not one.waits)
        return Fullness(lanes, min(self.vehicles, sum(one.vehicles for one in lanes)), self.of)


def fullness_of(value: Mapping[str, Any]) -> Fullness:
    """Those of a map's file, whose lanes have names or, in version 1, are lists; none of an empty value. KeyError,
    TypeError or ValueError for anything else."""
    if not value:
        return Fullness()
    return Fullness(tuple(one_of(FullLane, one) for one in value["lanes"]), int(value["vehicles"]), int(value["of"]))
