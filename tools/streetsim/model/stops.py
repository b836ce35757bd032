"""Stops that buses and others make: as a map keeps them, and the states of the rows of a run's table of them."""
from __future__ import annotations

from collections.abc import Sequence
from dataclasses import dataclass

from streetsim.base.files import Json

OWN_LANE, OTHER_LANE = "made", "other lane"  # how a stop ended: made on its lane, or on the lane beside
STANDING, MISSED, UNREACHED = "standing", "missed", "not reached"  # at the end of the run; passed; still to come
UNMADE = "not made"  # as the run has another way for the vehicle than its map


@dataclass(slots=True, frozen=True)
class Visit:
    """A stop that a vehicle is to make, on the cells of a run (link and lane by number)."""

    vehicle: int  # its number in the map
    at: int  # the position, from 0, of its link in the vehicle's plan
    stop: str  # SUMO's name of the bus stop, or the lane and the metres
    link: int
    lane: int
    first: int  # cell: from here to the last one a front that stands is at the stop
    last: int
    duration: int  # seconds that it stays at least
    until: int | None  # clock before which it does not leave
    braking: float  # seconds that SUMO's vehicle loses before it stands
    starting: float  # and after, beyond what one loses here


def bus_lines_of(kinds: Json, count: int) -> Sequence[str]:
    """The bus line, or an empty text, of each of so many vehicles of a map, by its number. kinds: of the map."""
    found: Sequence[str] = kinds.get("line") or ()
    return [*found, *([""] * (count - len(found)))]


def vehicle_classes_of(kinds: Json, count: int) -> Sequence[str]:
    """SUMO's class of each of so many vehicles of a map, by number; else passenger. kinds: the map's."""
    types: Sequence[Sequence[str]] = kinds.get("types") or ()
    found = [types[at][1] for at in kinds.get("type") or ()]
    return [*found, *(["passenger"] * (count - len(found)))]
