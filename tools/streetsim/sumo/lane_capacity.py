"""How many vehicles a lane at a light lets pass by the demand: the one estimate of that, for nearly full lanes and for
the lanes that vehicles choose. It decides no green: who gives way goes by who comes.

The seconds of a cycle are bits of a number, second 0 the lowest.
"""
from collections.abc import Callable, Iterable, Sequence
from functools import lru_cache, reduce
from itertools import groupby
from operator import or_

from streetsim.model.fullness import passing_in_green
from streetsim.sumo.crossing import Crossing, CrossingMovement, EdgePair
from streetsim.sumo.gaps import gap_capacity, until_first
from streetsim.sumo.net import NetConnection, SumoNet, connections_of
from streetsim.sumo.signals import check_states, each_second, light_of

LOST = 2.0  # seconds until a queue of the other side moves
SNEAKERS = 1  # vehicles that pass in a permissive green, whatever comes
MERGING = 2.0  # in whose place one counts who turns into the lane of one who waits for it
MOST_AGAINST = 1e5  # vehicles an hour; beyond that numbers overflow
MOST_RATE = 0.99  # share of the time in which those who come need to pass, above which a queue counts as this
MOST_WEIGHT = 10.0  # vehicles, for one that waits
LEAST_PASSING = 1.0  # vehicles an hour, also of a lane that never has green: so it counts as full
LEAST_WAITING = 0.5  # vehicles of a cycle that pass of those who wait for gaps


def crossings_of(net: SumoNet) -> dict[str, Crossing]:
    """The movements of each junction with a light but for their flows, by junction, without those for which
    crossing_of gives none. Fault where crossing_of raises one."""
    found = {name: crossing_of(name, own, net) for name, own in connections_of(net).items()}
    return {junction: crossing for junction, crossing in found.items() if crossing is not None}


def crossing_of(junction: str, connections: Sequence[NetConnection], net: SumoNet) -> Crossing | None:
    """The movements of one junction but for their flows; of several lights one alone counts (light_of), and connections
    of others are left out. None where no light of it has a program, or it is not known who gives way to whom.
    connections: all of the junction. Fault where each_second or check_states raises one."""
    light = light_of(connections, net)
    ours = [connection for connection in connections if connection.light in (light, None)]
    if not light or not net.yields.get(junction) or any(connection.request is None for connection in ours):
        return None
    states = each_second(light, net.programs[light])
    check_states(light, states, ours)
    return Crossing(ours, states, net.yields[junction])


def capacity(
    sharing: Sequence[CrossingMovement], wish: float, alone: Callable[[CrossingMovement], float] | None = None
) -> float:
    """Vehicles an hour that a lane lets pass, by its movements, of wish that want to (above 0), LEAST_PASSING at least:
    as on a shared lane without a light (Highway Capacity Manual), where each needs its part of what would pass if all
    went its way (alone: vehicles in a cycle, else passing_alone); and no more than pass if nobody waited for gaps
    (by_greens)."""
    alone = alone or passing_alone
    cycles = sum(one.flow / max(LEAST_PASSING * one.cycle / 3600, alone(one)) for one in sharing)
    by_gaps = wish / cycles * 3600 / sharing[0].cycle
    return max(LEAST_PASSING, min(by_gaps, by_greens(sharing, wish)))


def least_capacity(sharing: Sequence[CrossingMovement], wish: float) -> float:
    """No more than capacity gives, and found sooner: as if nobody found a gap."""
    return capacity(sharing, wish, passing_without_gaps)


def passing_without_gaps(movement: CrossingMovement) -> float:
    """What passing_alone gives where no gap is found."""
    if not movement.waits:
        return passing_in_green(movement.green.bit_count(), movement.headway)
    return passing_in_green(movement.sure.bit_count(), movement.headway) + SNEAKERS * len(movement.runs)


def passing_alone(movement: CrossingMovement) -> float:
    """Vehicles that pass in a cycle from a lane on which all go by a movement. In a permissive green those find gaps,
    and one goes at its end, whatever comes; while the queues of those leave that go first nobody does."""
    passing = passing_without_gaps(movement)
    if not movement.waits:
        return passing
    queues = reduce(or_, map(leaving_bits, movement.foes))
    permissive = movement.green & ~movement.sure & ~queues
    for seconds, hourly in seconds_by_flow(movement, permissive):
        passing += seconds * min(1 / movement.headway, gap_capacity(min(hourly, MOST_AGAINST)) / 3600)
    return passing


def seconds_by_flow(movement: CrossingMovement, seconds: int) -> Iterable[tuple[int, float]]:
    """How many of some seconds of the cycle (bits) a movement gives way to so many vehicles an hour, (seconds, vehicles
    an hour): those whose light is green; who turns into its own lane counts MERGING times."""
    parts = [(seconds, 0.0)]
    for foe in movement.foes:
        hourly = foe.flow * (MERGING if foe.target == movement.target else 1.0)
        green = ((own & foe.green, flow + hourly) for own, flow in parts)
        parts = [(own, flow) for own, flow in (*green, *((own & ~foe.green, flow) for own, flow in parts)) if own]
    return ((own.bit_count(), flow) for own, flow in parts)


def leaving_bits(foe: CrossingMovement) -> int:
    """The seconds of the cycle, as bits, from the begin of each of a foe's greens until its queue has left, also beyond
    the green: LOST, then who has come in the red before, and who comes meanwhile."""
    seconds, rate = 0, min(foe.flow * foe.headway / 3600, MOST_RATE)
    for start, red in foe.begins:
        length = round(LOST + red * rate / (1 - rate))
        seconds |= ((1 << min(length, foe.cycle)) - 1) << start % foe.cycle
    return (seconds | seconds >> foe.cycle) & ((1 << foe.cycle) - 1)


def by_greens(sharing: Sequence[CrossingMovement], wish: float) -> float:
    """Vehicles an hour that a lane lets pass, of wish that want to (above 0), if nobody waited for gaps: where only
    some of its movements have green, those before the first vehicle of another one; LEAST_PASSING at least."""
    cycle, mean_headway = sharing[0].cycle, sum([one.flow * one.headway for one in sharing]) / wish
    patterns = green_patterns(tuple([movement.green for movement in sharing]), cycle)
    held_by = {
        lit: sum(one.flow for one, is_lit in zip(sharing, lit) if not is_lit) / wish
        for lit in {lit for lit, _ in patterns}
    }
    runs = groupby(patterns, lambda pattern: held_by[pattern[0]])
    queues = ((share, sum([seconds for _, seconds in run]) / mean_headway) for share, run in runs)
    vehicles = sum(until_first(queue, share) if share else queue for share, queue in queues)
    return max(LEAST_PASSING, vehicles * 3600 / cycle)


@lru_cache(1 << 12)
def green_patterns(greens: tuple[int, ...], cycle: int) -> list[tuple[tuple[bool, ...], int]]:
    """Which of the movements of a lane have green over a cycle, and for how many seconds. greens: of each the seconds,
    as bits."""
    seconds = (tuple([bool(green >> second & 1) for green in greens]) for second in range(cycle))
    return [(lit, len(list(run))) for lit, run in groupby(seconds)]


def weights_of_waiting(movements: Iterable[CrossingMovement]) -> dict[EdgePair, float]:
    """For how many vehicles (1 to MOST_WEIGHT) one counts on its lane that waits for a gap, by edge pair: as many
    others could pass in its green for each that passes. Those that do not wait are left out."""
    of_pair: dict[EdgePair, float] = {}
    for movement in movements:
        if movement.waits:
            whole = passing_in_green(movement.green.bit_count(), movement.headway)
            weight = min(MOST_WEIGHT, whole / max(passing_alone(movement), LEAST_WAITING))
            of_pair[movement.pair] = max(of_pair.get(movement.pair, 1.0), weight)
    return of_pair
