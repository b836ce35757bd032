"""A lone cross under more vehicles than can pass: how many leave in each green, in SUMO and here.

The networks in data/cross*.net.xml.gz were made by netconvert 1.15 from four arms of 500 m at 50 km/h with the light's
cycle at 90 s: 42 s of green and 3 s of yellow for each street, left turns against oncoming traffic. In cross1 each arm
has one lane; in cross2 two, the left of which leads to the left alone; in cross3 also, with an arrow of 9 s for it.
"""
import random
from collections import Counter

FIRST, LAST, CYCLE = 900, 4500, 90  # seconds of the count
FULL = 2400  # vehicles an hour that are more than can pass


def cases():
    """Name, network and vehicles an hour of each (from, way)."""
    for way in ("straight", "right", "left"):
        yield f"{way}, nobody against", "cross1", {("w", way): FULL}
    for hourly in (200, 400, 600, 800):
        yield f"left against {hourly}", "cross1", {("w", "left"): FULL, ("e", "straight"): hourly}
    for share in (10, 30):
        own = shared(share)
        for hourly in (300, 600):
            yield f"{share} % left against {hourly}", "cross1", {**own, ("e", "straight"): hourly}
    for share in (20, 60):
        own = shared(share)
        against = {("e", way): hourly for (_, way), hourly in own.items()}
        yield f"{share} % left on both sides", "cross1", own | against
    yield "turn lane, straight alone", "cross2", {("w", "straight"): FULL}
    for hourly in (300, 600):
        yield f"turn lane, 20 % left against {hourly}", "cross2", {**shared(20), ("e", "straight"): hourly}


def shared(share):
    """A full arm of which a share in percent goes left."""
    return {("w", "straight"): FULL * (100 - share) / 100, ("w", "left"): FULL * share / 100}


def demand(flows, seed=1):
    """The routes of a demand: vehicles at random, all that want to pass in the order of departure."""
    draws, found = random.Random(seed), []
    for (arm, way), hourly in flows.items():
        clock = 0.0
        while hourly and (clock := clock + draws.expovariate(hourly / 3600)) < LAST:
            found.append((clock, f"{arm}c c{target(arm, way)}", f"{arm}.{way}.{len(found)}"))
    usual = 'departLane="best" departSpeed="max"'
    lines = [
        f'<vehicle id="{name}" depart="{clock:.1f}" {usual}><route edges="{edges}"/></vehicle>'
        for clock, edges, name in sorted(found)
    ]
    return f"<routes>{''.join(lines)}</routes>"


def target(arm, way):
    """The arm to which a way leads: clockwise n, e, s, w, and who comes from the west goes left to the north."""
    return "nesw"[("nesw".index(arm) + {"left": 1, "straight": 2, "right": 3}[way]) % 4]


def a_green(trips):
    """Vehicles a green by way, of those from the west, by {name: (departure, arrival)}."""
    own = [name for name, (_, arrival) in trips.items() if name[0] == "w" and FIRST <= arrival < LAST]
    passed = Counter(name.split(".")[1] for name in own)
    return {way: count / (LAST - FIRST) * CYCLE for way, count in passed.items()}
