"""Saturation flow and lost time of a lane, by the discharges of its queues, as the Highway Capacity Manual has them."""
from collections.abc import Iterable, Sequence
from dataclasses import dataclass
from statistics import fmean

from streetsim.model.saturation import flow_here

QUEUES = 5  # discharges, of a lane or of all lanes, from which on their mean is its saturation flow
USUAL_LIMIT = 2  # cells a step, of a lane at 50 km/h
# Seconds of each green that are lost at its begin; less than 0: won. Measured in 40 greens each on a lone cross whose
# western arm is always full.
USUAL_LOST = -1.5


@dataclass(slots=True)
class Discharge:
    """A queue that left at green, as the Highway Capacity Manual has it: seconds between its vehicles from the fourth
    to the last, and what the first four took longer than that (less than 0 where they took less)."""

    headway: float
    lost: float


def usual_flow(dawdle: float) -> float:
    """The saturation flow, vehicles an hour of green, of lanes where no queue tells it; dawdle: of 1,000, above 450 as
    at 450."""
    return flow_here(dawdle / 1000, USUAL_LIMIT)


@dataclass(slots=True)
class Saturation:
    """How a lane passes a queue: its saturation flow and the time that is lost at the begin of green."""

    flow: float  # vehicles an hour of green
    lost: float  # seconds of each green that are lost at its begin; less than 0: won


def mean_saturation(discharges: Sequence[Discharge]) -> Saturation:
    """The saturation flow by the mean headway, and the mean lost time, of some discharges, one at least."""
    headway = fmean(discharge.headway for discharge in discharges)
    return Saturation(3600 / headway, fmean(discharge.lost for discharge in discharges))


def all_have_same_green(shown: Iterable[frozenset[int] | None], used_links: set[int]) -> bool:
    """Whether all vehicles of a lane have the same green: in each second all links that are used have green, or none
    has. shown: for each second the links that have green, None without a signal, where it is False; used_links: the
    links to which vehicles go from the lane."""
    return all(green is not None and (not green & used_links or green >= used_links) for green in shown)
