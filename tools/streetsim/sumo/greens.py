"""How many vehicles of a queue pass a junction in some seconds of green, in SUMO and here, and which seconds of a green
are shown, so that as many pass here. The values were measured in SUMO and here at a lone cross, under a queue that does
not end."""
from functools import cache

TIME_GAP, ROOM = 1.42, 7.5  # in SUMO (g - start) / (TIME_GAP + ROOM / speed) pass in a green of g seconds, where the
EARLY, ACCELERATION = 1.87, 2.6  # start is what a vehicle loses that speeds up, speed / (2 * ACCELERATION), less EARLY
HEADWAYS, EXTRA_GREEN = (3.0, 2.07, 1.89, 1.83, 1.83), 1.35  # here (g + EXTRA_GREEN) / HEADWAYS, by the link's limit;
SHORT = (0.8, 0.97, 1.68, 2.45, 2.82, 3.37)  # in 1 to 6 seconds so many
TWO_PARTS = 9  # seconds of green, from which on seconds in its middle hold a queue up as wanted
USUAL_SPEED = 13.9  # metres a second, where a junction's is not known


def headway(speed: float) -> float:
    """Seconds between vehicles of a queue that pass a junction in SUMO; speed: metres a second, above 0."""
    return TIME_GAP + ROOM / speed


def vehicles_leaving(green: float, speed: float, accel: float = ACCELERATION, apart: float = 0.0) -> float:
    """How many vehicles, one at least, leave a queue in SUMO in some seconds of green; speed: metres a second; apart:
    seconds more between two than between usual cars."""
    return max(1.0, (green - speed / (2 * accel) + EARLY) / (headway(speed) + apart))


def green_here(vehicles: float, limit: int) -> int:
    """The seconds of green, 1 at least, in which some vehicles leave a queue in streetsim; limit: cells a step."""
    short = next((second for second, passing in enumerate(SHORT, 1) if passing >= vehicles - 0.1), None)
    return short or round(vehicles * HEADWAYS[limit - 1] - EXTRA_GREEN)


def passing_here(seconds: int, limit: int) -> float:
    """How many vehicles leave a queue in streetsim in some seconds of green (1 or more); limit: cells a step."""
    return SHORT[seconds - 1] if seconds <= len(SHORT) else (seconds + EXTRA_GREEN) / HEADWAYS[limit - 1]


def hidden_start(length: int, speed: float, limit: int, accel: float = ACCELERATION, apart: float = 0.0) -> int:
    """How many seconds at the begin of a green of length seconds are not shown, so that as many pass here as in SUMO.
    speed: metres a second; limit: cells a step; apart: as of vehicles_leaving."""
    return max(0, length - green_here(vehicles_leaving(length, speed, accel, apart), limit))


@cache
def hidden_middle(
    length: int, speed: float, limit: int, accel: float = ACCELERATION, apart: float = 0.0
) -> tuple[int, int]:  # fmt: skip
    """The seconds that are not shown in a green of length seconds, (begin, end) counted from its begin, the end not
    included: from its half on, so that about as many pass here as in SUMO, and who has waited alone for its begin goes
    at once, as there. A green below TWO_PARTS has them at its begin. Others: as of hidden_start."""
    if length < TWO_PARTS:
        return 0, hidden_start(length, speed, limit, accel, apart)
    half, vehicles = length // 2, vehicles_leaving(length, speed, accel, apart)

    def difference(pause: int) -> float:
        """How far, 0 or more, the vehicles that pass here, but for pause seconds in the middle, are from SUMO's."""
        passing = passing_here(length, limit)
        if pause:
            passing = passing_here(half, limit) + passing_here(length - half - pause, limit)
        return abs(passing - vehicles)

    return half, half + min((0, *range(2, length - half)), key=difference)
