"""Places on lanes where SUMO's vehicles stop."""
from dataclasses import dataclass

from streetsim.base.files import Fault
from streetsim.sumo.detectors import NEAR


@dataclass(slots=True, frozen=True)
class BusStop:
    """Where a bus stop lies, or of a stop that tells a lane or edge; begin and end in metres from the lane's begin,
    below 0 from its end; None: the lane's begin or end."""

    lane: str
    begin: float | None
    end: float | None


def begin_and_end_on_lane(stop: BusStop, length: float, is_friendly: bool, element_label: str) -> tuple[float, float]:
    """The (begin, end) of a stop in metres from its lane's begin, both moved onto the lane (length: its metres), a
    begin behind its end to the end. Fault instead where it lies beyond the lane by more than NEAR, or ends before it
    begins, unless is_friendly. element_label: the element, for the Fault."""
    begin, end = (at + length if at is not None and at < 0 else at for at in (stop.begin, stop.end))
    end = length if end is None else end
    begin = 0.0 if begin is None else begin
    if not is_friendly and not (-NEAR <= begin <= end <= length + NEAR):
        raise Fault(f"{element_label}: from {begin:g} to {end:g} m does not lie on lane {stop.lane!r} of {length:g} m")
    end = min(max(0.0, end), length)
    return min(max(0.0, begin), end), end
