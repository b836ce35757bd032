"""What an import can be told."""
from dataclasses import dataclass

from streetsim.base import limits
from streetsim.sumo.driver_words import Pairs

# Numbers of the model: least, most, what each is.
NUMBERS = {
    "dawdle": (0, 1000, "chance to slow down at random, of 1,000"),
    "change": (0, 1000, "chance to change lane, of 1,000"),
    "zone": (0, 1000, "length of the turn zone, in cells"),
    "seed": (0, 2**64 - 1, "seed of all random draws"),
    "residence": (1, limits.RESIDENCE, "minimum steps in a buffer at lights and where streets meet"),
    "buffer": (1, limits.BUFFER, "maximum vehicles in the buffer of a lane"),
}


@dataclass(frozen=True, slots=True)
class Options:
    """What an import can be told; the values are explained in tools/CLOSENESS.md. dawdle and change: of 1,000; zone:
    cells; residence: steps, None: by the seconds of SUMO; buffer: vehicles; begin, end: clocks in seconds."""

    classes: tuple[str, ...] = ("passenger",)
    strict_turns: bool = False
    dawdle: int = 170
    change: int = 1000
    zone: int = 1000
    seed: int = 1
    residence: int | None = None
    buffer: int = 4
    begin: int = 0
    sizes: bool = True  # of vehicles, by their types; else one cell each
    end: int | None = None  # vehicles that depart then or later are left out
    ignore_route_errors: bool = False  # leaves out vehicles whose route has edges without a connection
    # Edges, or lanes by SUMO's names, whose lanes are to be joint with the ones beside them.
    joint: tuple[str, ...] = ()
    led: tuple[str, ...] = ()  # lanes that are to be closed, whose turns the links beside them get
    slow: tuple[str, ...] = ()  # lower limits on stretches of edges, as slowing.slow_of reads them
    part: tuple[str, ...] = ()  # of the network, as part.part_edges reads it; none: all of it
    # Of drivers that were measured, as driver_words reads them.
    speeds: Pairs = ()  # factors of free speeds, by class of street
    cut: float = 0.0  # seconds of each green
    shares: Pairs = ()  # of permissive greens, by edge
