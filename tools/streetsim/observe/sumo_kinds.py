"""The kinds of SUMO's output files that are written."""
import argparse
from typing import NamedTuple

from streetsim.base.files import FilePath
from streetsim.base.words import names_in

KINDS = (
    "tripinfo", "summary", "edgedata", "fcd", "queue", "e1", "e2", "vehroute", "statistic", "stop", "lanechange",
)
# SUMO's options that say more of such a file, and that are done.
DETAILS = (
    "tripinfo-output.write-unfinished", "vehroute-output.exit-times", "vehroute-output.intended-depart",
    "vehroute-output.route-length", "vehroute-output.sorted", "vehroute-output.write-unfinished",
)


class OutputFile(NamedTuple):
    """A file that is asked for."""

    kind: str  # of KINDS
    path: FilePath
    details: frozenset[str] = frozenset()  # of DETAILS, those that are asked for
    detectors: tuple[str, ...] | None = None  # of e1 and e2: whose rows are in it; None: all
    is_needed: bool = True  # it is a fault where it cannot be written
    # Of edgedata:
    name: str = "streetsim"
    period: float = 0.0  # seconds of an interval; 0: the whole run
    begin: float = 0.0  # clock
    end: float = float("inf")  # clock
    has_empty: bool = True  # rows of edges on which nobody was


def kinds_of(text: str) -> tuple[str, ...]:
    """The kinds that a text names, with blanks or commas between, in its order; one that comes again is left out.
    ArgumentTypeError where one is no kind."""
    kinds = tuple(dict.fromkeys(names_in(text)))
    if unknown := [kind for kind in kinds if kind not in KINDS]:
        raise argparse.ArgumentTypeError(f"{unknown[0]!r} is none of {', '.join(KINDS)}")
    return kinds
