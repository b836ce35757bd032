"""What a run is asked for."""
from dataclasses import dataclass

from streetsim.control.actuated_lights import NONE_DRIVEN, ActuatedLights
from streetsim.control.bus_planned import NONE, Planned


@dataclass(frozen=True, slots=True)
class Settings:
    """What a run is asked for; times are seconds."""

    until: int  # the last clock
    every: int | None = None  # seconds between polls of the lanes; None: 10; 0: never
    period: int = 900  # seconds of a count
    rescue: int = 300  # seconds of standing at a stop line or first in a buffer; 0: never
    edges: tuple[str, ...] = ()  # those to poll; all where it is empty
    open_end: bool = False  # until all have arrived or nobody moves; `until` is then a guess
    merging: bool = True  # by turns before works
    lights: ActuatedLights = NONE_DRIVEN  # that detectors drive
    buses: Planned = NONE  # stops that are made
