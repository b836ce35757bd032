"""Who gives way to whom right before left, and for how long: for the map, by which rounds find gaps; and the gaps of
all junctions without a light, by which ways through towns are reckoned.

The seconds were measured in SUMO 1.15 at lone junctions under an endless queue (bench/run junctions): how many
leave in each gap between two that they give way to, then chosen so that as many leave here against 200 to 1,000
vehicles an hour. They fall with the flow, as the traffic of SUMO, whose vehicles differ in speed, is more bunched
and leaves more long gaps. Lanes side by side are bunched each for itself, and who goes across them needs longer. Who
comes while nobody stands at the line needs a shorter gap: in SUMO it loses time where one who goes first passes up to
3.5 s later, whatever the street's speed and lanes, and 4.3 s right before left (one alone, meeting one). Where several
come in a row, who joins them loses more: these seconds are chosen of two each by bench/run light-waits.
"""
from collections import defaultdict
from collections.abc import Iterable, Mapping

from streetsim.model.waiting import Foe, Gap, GivingWay, TurnKey
from streetsim.sumo.crossing import EdgePair, Flows
from streetsim.sumo.net import STOPS, NetConnection, SumoNet, connections_of
from streetsim.sumo.network import Network

FAST = 10.0  # metres a second before the junction, in a roundabout inside it: a stream like that is a fast one
EQUALS, ALL_STOP = "=", "w"  # SUMO's states of connections: right before left, all-way stop
# Who comes from the right, and to whose own right somebody comes, starts from a stand: so many seconds later it is out
# of the way.
STANDING = 1.0
# To cross a stream, to join a slow and a fast one.
CROSSING, ENTERING = Gap(7.0, 3.6, 3.5, 0.0, 0.4), Gap(7.2, 2.0, 3.5)
JOINING = Gap(8.4, 3.0, 5.0, 1.0, 0.4, rolling=5.5)
EQUAL, EQUAL_JOINING = 4.3, 6.5  # Gap.rolling where nobody has a main street, to cross and to join fast ones
NONE = Gap(0.0, 0.0, 0.0)  # where all stop they go in turn
AFTER_STOP = Gap(26.0, 32.0, 9.0, 1.0, 0.3)  # to join any stream
# The same where nobody has a main street, and at a stop sign.
STATE_GAPS = {
    EQUALS: {
        CROSSING: Gap(7.8, 2.8, 3.5, 0.0, 0.4, rolling=EQUAL), ENTERING: Gap(8.0, 2.0, 3.5, rolling=EQUAL),
        JOINING: Gap(9.2, 3.0, 5.0, rolling=EQUAL_JOINING),
    },
    STOPS: {CROSSING: Gap(3.0, 0.0, 3.0, 0.0, 0.4), ENTERING: AFTER_STOP, JOINING: AFTER_STOP},
}


def conflicts_of(net: SumoNet, network: Network, flows: Flows) -> list[GivingWay]:
    """Who gives way at junctions right before left, once the network has the turns that plans add (enters): one
    GivingWay for each movement that routes use (flows: vehicles an hour by (edge, next edge)) and that gives way to
    another used one. Junctions with a connection whose request is not known are left out."""
    turns_at, added = turns_by_movement(network), turns_by_movement(network, True)
    number = {name: at for at, name in enumerate(network.nodes)}
    return [
        GivingWay(number[junction], tuple(sorted(turns_at[pair])), tuple(found.values()))
        for junction, connections in connections_of(net).items()
        if junction in number and is_equal(connections)
        if not any(one.light or one.request is None for one in connections)
        for pair, found in foes_by_movement(connections, net.yields.get(junction, {}), network, added, flows).items()
        if found
    ]


def is_equal(connections: Iterable[NetConnection]) -> bool:
    """Whether at a junction, by its connections, those go first who come from the right."""
    return any(one.state == EQUALS for one in connections)


def turns_by_movement(network: Network, added: bool = False) -> dict[EdgePair, list[TurnKey]]:
    """The turns of a network by (edge, next edge); added: those alone that SUMO has not."""
    found = defaultdict[EdgePair, list[TurnKey]](list)
    for (link, lane, following), turn in network.turns.items():
        if turn.added or not added:
            found[network.links[link].edge, network.links[following].edge].append((link, lane, following))
    return found


def foes_by_movement(
    connections: Iterable[NetConnection], yields: Mapping[int, Iterable[int]], network: Network,
    added: Mapping[EdgePair, Iterable[TurnKey]], flows: Flows,
) -> dict[EdgePair, dict[TurnKey, Foe]]:  # fmt: skip
    """Who goes before each used movement of a junction, as foes gives them, {(edge, next edge): {(link, lane, next
    link): foe}}, empty where nobody does. connections: of the junction; yields: the requests that each request gives
    way to; added: the turns that SUMO has not, by (edge, next edge); flows: as in conflicts_of."""
    used = (one for one in connections if flows.get((one.source, one.target)))
    of_request = {one.request: one for one in used if one.request is not None}
    foes_of: dict[EdgePair, dict[TurnKey, Foe]] = {(one.source, one.target): {} for one in of_request.values()}
    for request, yielding in of_request.items():
        for foe in (other for other in sorted(yields.get(request, ())) if other in of_request):
            waits = any(other in of_request for other in yields.get(foe, ()))
            foes_of[yielding.source, yielding.target].update(foes(yielding, of_request[foe], network, added, waits))
    return foes_of


def foes(
    yielding: NetConnection, foe: NetConnection, network: Network, added: Mapping[EdgePair, Iterable[TurnKey]] = {},
    waits: bool = False,
) -> dict[TurnKey, Foe]:  # fmt: skip
    """A connection (foe) as foes of one that gives way to it, one for each link of its next edge, by (link, lane,
    next link), whether or not the network has such a turn, and one for each turn between its edges that SUMO has not,
    as vehicles use these too. added: such turns, by (edge, next edge); waits: the foe gives way to a used movement."""
    link, lane = network.place_of[foe.source, foe.source_lane]
    links = network.links_of[foe.source]
    fast = joins_fast(yielding, foe, network.links[link].speed, foe.source in network.rings)
    gap = gap_of(yielding, foe, fast)
    if yielding.target != foe.target:
        gap = gap.across(sum(len(network.links[link].lanes) for link in links))
    if waits:
        gap = gap.later(STANDING)
    own = [(link, lane, following) for following in network.links_of[foe.target]]
    turns = [*own, *added.get((foe.source, foe.target), ())]
    return {turn: Foe(*turn, gap, fast, links[0]) for turn in turns}


def joins_fast(yielding: NetConnection, foe: NetConnection, speed: float, in_ring: bool) -> bool:
    """Whether a connection joins the stream of a fast one (FAST). speed: of the foe's street, metres a second;
    in_ring: the foe is in a roundabout, where its speed inside the junction counts."""
    own = foe.speed if in_ring and foe.speed is not None else speed
    return yielding.target == foe.target and own > FAST


def gap_of(yielding: NetConnection, foe: NetConnection, fast: bool) -> Gap:
    """The gap that one who gives way needs before each vehicle of another connection, as for a street of one lane;
    fast: as joins_fast says. Zero where all stop."""
    gap = JOINING if fast else ENTERING if yielding.target == foe.target else CROSSING
    state = yielding.state
    return NONE if state == ALL_STOP else STATE_GAPS[state][gap] if state in STATE_GAPS else gap


def gaps_by_movement(net: SumoNet) -> dict[EdgePair, dict[EdgePair, Gap]]:
    """The movements that go before each movement without a light, whether or not routes take it, with the gap that
    gap_of gives: {(edge, next edge): {(edge, next edge) that goes first: gap}}; a movement that gives way to none is
    left out, as are those, on both sides, that have a light or a request that is not known."""
    gaps: defaultdict[EdgePair, dict[EdgePair, Gap]] = defaultdict(dict)
    for junction, connections in connections_of(net).items():
        of_request = {one.request: one for one in connections if one.request is not None and not one.light}
        for request, yielding in of_request.items():
            for foe in sorted(net.yields.get(junction, {}).get(request, ())):
                if foe in of_request:
                    prior = of_request[foe]
                    speed, in_ring = net.edges[prior.source].lanes[0].speed, prior.source in net.roundabouts
                    fast = joins_fast(yielding, prior, speed, in_ring)
                    gaps[yielding.source, yielding.target][prior.source, prior.target] = gap_of(yielding, prior, fast)
    return dict(gaps)
