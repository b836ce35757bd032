"""Who gives way to whom, at lights while both have green, and without a light: for the map, by which runs decide it
second by second."""
from collections import defaultdict
from collections.abc import Collection, Iterable, Iterator, Mapping, Sequence
from functools import lru_cache

from streetsim.model.waiting import ALWAYS_STOP, NodeWays, TurnKey
from streetsim.sumo.conflicts import is_equal, turns_by_movement
from streetsim.sumo.crossing import ANY_GREEN, GREEN, OPEN, STOPS_FIRST, EdgePair
from streetsim.sumo.net import MAJOR, ZIPPER, NetConnection, SumoNet, connections_of
from streetsim.sumo.network import Network
from streetsim.sumo.signals import light_of

WayKey = tuple[str, str, int | None]  # an edge, the next one, and the index in the light's state
Yields = Mapping[int, Collection[int]]  # by request those that it gives way to


def lit_ways_of(net: SumoNet, network: Network) -> list[NodeWays]:
    """Who gives way at each node whose light has a program, whatever the demand; nobody at edges whose share of
    permissive greens was surveyed: those shares are shown."""
    turns, number = turns_by_way(network), {name: at for at, name in enumerate(network.nodes)}
    surveyed = {edge for edge, _ in network.options.shares}
    found = (
        ways_of_junction(number[junction], connections, net, turns, surveyed)
        for junction, connections in connections_of(net).items()
        if junction in number
    )
    return [ways for ways in found if ways.yields or ways.stops]


def open_ways_of(net: SumoNet, network: Network) -> list[NodeWays]:
    """Who gives way at each junction without any light, whatever the demand. Junctions right before left are left out,
    which have rounds (conflicts), those with a connection whose request is not known, and zippers, where both go by
    turns (merges)."""
    added, number = turns_by_movement(network, True), {name: at for at, name in enumerate(network.nodes)}
    node_ways = (
        open_ways_of_junction(
            number[junction], connections, net.yields.get(junction, {}),
            {one.request: turns_of(one, network, added) for one in connections},
        )
        for junction, connections in connections_of(net).items()
        if junction in number and not is_equal(connections)
        and not any(one.light or one.request is None for one in connections)
    )  # fmt: skip
    return [ways for ways in node_ways if ways.yields or any(sign in ALWAYS_STOP for sign in ways.signs)]


def turns_of(
    connection: NetConnection, network: Network, added: Mapping[EdgePair, Iterable[TurnKey]]
) -> list[TurnKey]:
    """The turn of a connection, and those between its edges that SUMO has not; added: these, by (edge, next edge)."""
    link, _ = network.place_of[connection.target, connection.target_lane]
    own = (*network.place_of[connection.source, connection.source_lane], link)
    return [own, *(turn for turn in added.get((connection.source, connection.target), ()) if turn != own)]


def open_ways_of_junction(
    node: int, connections: Sequence[NetConnection], yields: Yields, turns: Mapping[int | None, Sequence[TurnKey]]
) -> NodeWays:
    """Who gives way at one node without a light, by lane: who joins a lane of a street does not give way to those who
    go on by another one; lanes of one edge do not give way to each other. turns: by request."""
    by_request = {connection.request: connection for connection in connections}
    signs: dict[TurnKey, str] = {}
    pairs: dict[tuple[TurnKey, TurnKey], None] = {}
    for request, connection in by_request.items():
        foes = (by_request[at] for at in sorted(yields.get(request or 0, ())) if at in by_request)
        met = [one for one in foes if one.source != connection.source and not connection.state == one.state == ZIPPER]
        if met or connection.state in ALWAYS_STOP:
            signs.update(dict.fromkeys(turns[request], connection.state))
        pairs.update(dict.fromkeys((own, foe) for one in met for own in turns[request] for foe in turns[one.request]))
    known = list(dict.fromkeys([turn for pair in pairs for turn in pair] + [*signs]))
    places = {turn: place for place, turn in enumerate(known)}
    found = sorted((places[own], places[foe], False) for own, foe in pairs)
    return NodeWays(
        node, tuple((turn,) for turn in known), tuple(found), (), "".join(signs.get(turn, MAJOR) for turn in known)
    )


def turns_by_way(network: Network) -> dict[WayKey, list[TurnKey]]:
    """The turns of a network by edges and index."""
    found = defaultdict[WayKey, list[TurnKey]](list)
    for (link, lane, following), turn in network.turns.items():
        edges = network.links[link].edge, network.links[following].edge
        found[*edges, turn.index if turn.light else None].append((link, lane, following))
    return found


def ways_of_junction(
    node: int, connections: Sequence[NetConnection], net: SumoNet, turns: Mapping[WayKey, list[TurnKey]],
    surveyed: Collection[str],
) -> NodeWays:  # fmt: skip
    """Who gives way at one node, by all connections of its junction; nobody where no light of it has a program, or it
    is not known who gives way to whom. surveyed: edges that give way to nobody."""
    light = light_of(connections, net)
    ours = [connection for connection in connections if connection.light in (light, None)]
    if light is None or any(connection.request is None for connection in ours):
        return NodeWays(node, (), ())
    states = [state for program in net.programs_of(light) for _, state in program.phases]
    signs = {connection.request: signs_of(connection, states) for connection in ours}
    number: dict[WayKey, int] = {}
    yields: dict[tuple[int, int], bool] = {}
    giving = [connection for connection in ours if connection.source not in surveyed]
    for connection, foe in pairs_that_meet(giving, ours, net, signs):
        if turns.get(way_key(connection)) and turns.get(way_key(foe)) and way_key(connection) != way_key(foe):
            pair = tuple(number.setdefault(way_key(way), len(number)) for way in (connection, foe))
            beside = connection.target == foe.target and connection.target_lane != foe.target_lane
            yields[pair[0], pair[1]] = beside and yields.get((pair[0], pair[1]), True)
    stopping_first = (connection for connection in ours if STOPS_FIRST in signs[connection.request])
    stopping = {key for key in map(way_key, stopping_first) if turns.get(key)}
    stops = sorted(number.setdefault(key, len(number)) for key in sorted(stopping, key=str))
    return NodeWays(
        node, tuple(tuple(turns[key]) for key in number), tuple((*pair, yields[pair]) for pair in sorted(yields)),
        tuple(stops),
    )


def way_key(connection: NetConnection) -> WayKey:
    """The edges of a connection, and its index in the light's state; none without a light."""
    return connection.source, connection.target, connection.index if connection.light else None


def signs_of(connection: NetConnection, states: Iterable[str]) -> str:
    """What a connection is shown in each of some states; one without a light goes first in all."""
    if connection.light is None:
        return GREEN[0] * len(list(states))
    return "".join(state[connection.index : connection.index + 1] or "r" for state in states)


def pairs_that_meet(
    giving: Iterable[NetConnection], all_connections: Iterable[NetConnection], net: SumoNet,
    signs: Mapping[int | None, str],
) -> Iterator[tuple[NetConnection, NetConnection]]:  # fmt: skip
    """The pairs of one that gives way and one that goes before it, by the junction's requests; not those of which the
    first goes first in all states in which both have green, nor two that wait together. signs: by request."""
    by_request = {connection.request: connection for connection in all_connections}
    for connection in giving:
        yields = net.yields.get(net.edges[connection.source].end, {})
        for at in sorted(yields.get(connection.request or 0, ())):
            foe = by_request.get(at)
            is_met = foe is not None and not goes_first(signs[connection.request], signs[at])
            if foe is not None and is_met and not wait_together(connection, foe, by_request, yields, signs):
                yield connection, foe


@lru_cache(1 << 12)
def goes_first(own: str, other: str) -> bool:
    """Whether one goes first in each state in which another one has green too, one at least; arguments: their letters
    by state."""
    both = [sign for sign, beside in zip(own, other) if sign in ANY_GREEN and beside in ANY_GREEN]
    return bool(both) and all(sign in GREEN for sign in both)


def wait_together(
    connection: NetConnection, foe: NetConnection, by_request: Mapping[int | None, NetConnection], yields: Yields,
    signs: Mapping[int | None, str],
) -> bool:  # fmt: skip
    """Whether two have permissive greens and each gives way to others of the other's edge, as left turns that face each
    other do: they stand inside the junction and wait for those, not for each other."""
    return all(
        any(sign in OPEN for sign in signs[own.request])
        and any(
            other != its.request and other in by_request and by_request[other].source == its.source
            for other in yields.get(own.request or 0, ())
        )
        for own, its in ((connection, foe), (foe, connection))
    )
