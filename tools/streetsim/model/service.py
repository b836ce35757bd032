"""Level of service by the Highway Capacity Manual: letters by mean control delay."""
from bisect import bisect_left
from collections.abc import Iterable

from streetsim.base.limits import GAP_METRES

LETTERS = "ABCDEF"
AT_SIGNALS = (10, 20, 35, 55, 80)  # seconds of control delay up to which A to E reach, HCM 2010, exhibit 18-4
AT_PRIORITY = (10, 15, 25, 35, 50)  # HCM 2010, exhibit 19-1
SIGNALS, PRIORITY, ROUNDABOUT = "signals", "priority", "roundabout"  # how a junction is controlled
# Darker is worse, so that the letters differ in grey too.
COLOURS = {"A": "#ffffcc", "B": "#fed976", "C": "#feb24c", "D": "#fd8d3c", "E": "#e31a1c", "F": "#800026"}
WHITE_LETTERS = "EF"  # letters that are written in white
ROUNDED = 0.1  # metres by which a queue and its edge may be off in the tables
# Seconds that a vehicle which stops loses beyond what is seen here, where vehicles brake and start at once: on an
# approach of one lane, where in SUMO one who drives slowly holds up those behind, and of more. Measured on lone crosses
# at four flows against SUMO's e3 (bench/run delays --calibrate).
STOP_LOSS = 2.5, 1.5


def level(delay: float, control: str, ratio: float | None = None) -> str:
    """The letter of a mean control delay in seconds. control: SIGNALS, or another way, which all count as PRIORITY;
    ratio: v/c of a movement, above 1 of which it is F whatever the delay; none where that does not count."""
    if ratio is not None and ratio > 1:
        return "F"
    return LETTERS[bisect_left(AT_SIGNALS if control == SIGNALS else AT_PRIORITY, delay)]


def percentile(values: Iterable[float], share: float) -> float:
    """The value below which a share (0 to 1) of some values lies, with straight lines between them; 0 of none."""
    ranked = sorted(values)
    if not ranked:
        return 0.0
    place = share * (len(ranked) - 1)
    below = int(place)
    above = min(below + 1, len(ranked) - 1)
    return ranked[below] + (ranked[above] - ranked[below]) * (place - below)


def fills(queue: float, metres: float) -> bool:
    """Whether a queue fills an edge, both in metres: no room is left, to 0.1 m, but the gap behind its last vehicle."""
    return queue >= metres - GAP_METRES - ROUNDED
