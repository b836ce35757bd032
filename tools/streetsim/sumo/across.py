"""How long vehicles alone take in SUMO to cross a junction, with what they lose before it and behind it."""
from collections import Counter
from collections.abc import Callable, Collection

from streetsim.model.waiting import ALWAYS_STOP
from streetsim.sumo.crossing import STOPS_FIRST, Flows
from streetsim.sumo.net import MAJOR, ZIPPER, NetConnection, SumoNet
from streetsim.sumo.paces import Drivers

SEEING = 6.4  # metres a second, with which one comes to its line who gives way and sees nobody
BRAKING = 4.5  # metres a second and second
# Seconds more than braking and gaining speed take, as SUMO's steps are whole: of who looks out, and of who only turns.
# Measured at lone junctions, where one is alone. The second for which one has to stand at a sign is in the pace there.
LOOKING, TURNING = 0.35, 0.15
AT_SIGN = 5.1  # seconds that one loses who stops at a sign on streets of 50 km/h and goes on at once
# Seconds less than the first of a queue at a light that those who stop lose behind its line in the mean, beyond what
# they lose here: of 1.95 and 2.2 chosen at lone lights with drawn arms, flows and turns (bench/run lone-trips).
LESS = 2.2
# Share of those at a light who stop: of no program, so that a street is the same under each plan of a search.
RED = 0.5


def mean_crossing(
    connections: Collection[NetConnection], net: SumoNet, drivers: Callable[[str], Drivers], flows: Flows
) -> float:
    """The mean of the crossing_seconds of some connections, one at least, by flows; where they have none, each counts
    alike. drivers: gives those who come from an edge."""
    sharing = Counter((one.source, one.target) for one in connections)
    shares = [flows.get((one.source, one.target), 0.0) / sharing[one.source, one.target] for one in connections]
    weights = shares if sum(shares) else [1.0] * len(shares)
    seconds = (crossing_seconds(one, net, drivers(one.source)) for one in connections)
    return sum(weight * own for weight, own in zip(weights, seconds, strict=True)) / sum(weights)


def crossing_seconds(connection: NetConnection, net: SumoNet, drivers: Drivers) -> float:
    """Mean seconds of one who crosses a junction alone in SUMO, from its line to the next edge, with what it loses as
    it brakes before and gains speed behind it; without the seconds for which it stands at a red."""
    source_speed = net.edges[connection.source].lanes[0].speed
    target_speed = net.edges[connection.target].lanes[0].speed
    inside = min(connection.speed or source_speed, max(source_speed, target_speed))
    if not (source_speed and target_speed and inside):
        return 0.0
    if not connection.light and connection.state in ALWAYS_STOP:
        return connection.metres * drivers.slowness(target_speed) + lost(drivers, source_speed, 0.0, target_speed)
    looks_out = not connection.light and connection.state not in (MAJOR, ZIPPER) and bool(net.yields_of(connection))
    slow = min(inside, SEEING) if looks_out else inside
    driving = connection.metres * drivers.slowness(inside) + lost(drivers, source_speed, slow, target_speed)
    driving += LOOKING if looks_out else TURNING if slow < source_speed else 0.0
    if not connection.light:
        return driving
    starting = starting_seconds(drivers, min(target_speed, drivers.max_speed))
    if may_turn_on_red(connection, net):
        starting = lost(drivers, source_speed, 0.0, target_speed)
    return (1 - RED) * driving + RED * (connection.metres * drivers.slowness(inside) + starting)


def may_turn_on_red(connection: NetConnection, net: SumoNet) -> bool:
    """Whether a light lets those of a connection go after a stop in some of its phases."""
    program = net.programs.get(connection.light or "")
    at = connection.index
    return program is not None and any(state[at : at + 1] == STOPS_FIRST for _, state in program.phases)


def lost(drivers: Drivers, before: float, slow: float, behind: float) -> float:
    """Mean seconds lost by braking from one speed to a slow one, and by gaining that of the next street; metres a
    second, before and behind above 0."""
    braking = max(0.0, before - slow) ** 2 / (2 * BRAKING * before)
    return braking + max(0.0, behind - slow) ** 2 / (2 * drivers.mean_accel * behind)


def starting_seconds(drivers: Drivers, speed: float) -> float:
    """Mean seconds that those who stop at a light lose behind its line until they have the street's speed (metres a
    second), beyond those that they lose here: what the first of a queue loses, and LESS."""
    return max(0.0, speed / (2 * drivers.mean_accel) - LESS)
