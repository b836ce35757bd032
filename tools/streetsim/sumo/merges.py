"""Where lanes become one without a light: zippers, and lanes that end. Vehicles go by turns there, a few seconds each,
at a zipper for some seconds together, and where a lane ends with seconds between, so that as many pass as in SUMO."""
from collections import Counter, defaultdict
from collections.abc import Collection, Iterable
from dataclasses import dataclass
from itertools import pairwise

from streetsim.model.runs import Command
from streetsim.model.waiting import TurnKey
from streetsim.sumo.crossing import Flows
from streetsim.sumo.greens import green_here
from streetsim.sumo.net import ZIPPER, NetConnection, SumoNet, connections_of
from streetsim.sumo.network import Network

CYCLE, LEAST_TURN = 12, 3  # seconds of a zipper's turns, and of the shorter one of two
TOGETHER = 10  # of them, in which both go at most, where there is room for both streets, as lone zippers chose
ALONE = 1  # of them, at least, in which the street goes alone that goes last when both go
ZIPPED, ZIPPED_HERE = 1730.0, 1590.0  # vehicles an hour that pass a zipper in SUMO, and here
LESSER_WEIGHT = 1.1  # in whose place one counts of the street that needs less than half
TURN, PASSING = 3, 3.36  # seconds of each of two lanes; how many vehicles pass in both
LEAST_PAUSE = 2  # seconds in which nobody passes, in all
# Vehicles an hour that pass where one of two lanes ends, by the metres of the edge behind a light, as lone streets of
# SUMO chose with lights of 60 to 90 s.
END_FLOWS = ((60.0, 790.0), (120.0, 900.0), (240.0, 1110.0), (300.0, 1200.0))
# Up to so many an hour nobody waits longer than where the edge is long; for each one more, one less can pass.
UNDELAYED_FLOW = 550.0
# Shares of what can pass, from which on a zipper, an end, and an end just behind a light are nearly full.
FULL_ZIPPER, FULL_END, FULL_BEHIND_LIGHT = 0.89, 0.95, 0.8


@dataclass(frozen=True, slots=True)
class Merge:
    """A junction without a light where lanes become one."""

    junction: str
    edges: tuple[str, ...]  # whose vehicles merge
    capacity: float  # vehicles an hour
    nearly_full: float  # the share of it, from which on queues may be other than in SUMO
    command: Command  # the signal by which they go


def merges_of(net: SumoNet, network: Network, flows: Flows) -> list[Merge]:
    """All zippers of two streets, and ends of lanes, where routes go (flows: vehicles an hour by (edge, next edge))."""
    return [*zippers(net, network, flows), *lane_ends(net, network, flows)]


def is_zipper(connections: Collection[NetConnection], flows: Flows) -> bool:
    """Whether vehicles of two streets that routes use go by turns at a junction, by all of its connections."""
    used = {one.source for one in connections if flows.get((one.source, one.target))}
    return len(used) == 2 and all(one.state == ZIPPER and not one.light for one in connections)


def zippers(net: SumoNet, network: Network, flows: Flows) -> list[Merge]:
    """The zippers of two streets, which go by turns, by their flows."""
    merges, number = [], {name: at for at, name in enumerate(network.nodes)}
    for name, connections in connections_of(net).items():
        if name not in number or not is_zipper(connections, flows):
            continue
        sources = {connection.source for connection in connections if flows.get((connection.source, connection.target))}
        edges = sorted(sources, key=lambda edge: network.links_of[edge][0])
        hourly = [sum(count for (source, _), count in flows.items() if source == edge) for edge in edges]
        # At a node the first in the load goes first, so the other one needs the rest.
        limit = network.links[network.links_of[edges[0]][0]].limit
        needed = green_here(share_of_first(*hourly) * CYCLE / 3600, limit)
        first_seconds = min(CYCLE - LEAST_TURN, max(LEAST_TURN, needed))
        turns = turns_at(network, number[name])
        first_turns, second_turns = ([turn for turn in turns if network.links[turn[0]].edge == edge] for edge in edges)
        most_joint = min(TOGETHER, 2 * first_seconds, 2 * (CYCLE - first_seconds - ALONE))
        joint_seconds = most_joint if sum(hourly) < ZIPPED_HERE else 0
        parts = (
            (first_seconds - joint_seconds // 2, first_turns),
            (joint_seconds, first_turns + second_turns),
            (CYCLE - first_seconds - joint_seconds // 2, second_turns),
        )
        phases = [[seconds, listed(sorted(part_turns))] for seconds, part_turns in parts if seconds]
        merges.append(Merge(name, tuple(edges), ZIPPED_HERE, FULL_ZIPPER, signal(number[name], phases)))
    return merges


def share_of_first(first_flow: float, other_flow: float) -> float:
    """How many of ZIPPED vehicles an hour the first of two streets gets: what it needs and a little more where that is
    less than half, what the other one leaves where that needs less, else by their flows (vehicles an hour)."""
    share = ZIPPED * first_flow / (first_flow + other_flow)
    if first_flow < ZIPPED / 2 < other_flow:
        return max(share, LESSER_WEIGHT * first_flow)
    if other_flow < ZIPPED / 2 < first_flow:
        return min(share, ZIPPED - LESSER_WEIGHT * other_flow)
    return share


def lane_ends(net: SumoNet, network: Network, flows: Flows) -> list[Merge]:
    """Where one lane of a link of two ends without a light, once at a junction: both lanes go by turns, with pauses."""
    lit = {net.edges[one.source].end for one in net.connections if one.light}
    ends = defaultdict(set)  # by node: (link, lane that ends)
    for link, lane in ending_lanes(net, network, flows):
        ends[network.links[link].end].add((link, lane))
    merges = []
    for node, ending in sorted(ends.items()):
        if len(ending) > 1 or network.nodes[node] in lit:
            continue
        ((link, lane),) = ending
        ending_link = network.links[link]
        capacity = end_flow(ending_link.metres)
        behind_light = ending_link.metres < END_FLOWS[-1][0] and network.nodes[ending_link.begin] in lit
        wish = sum(flow for (source, _), flow in flows.items() if source == ending_link.edge)
        shown = min(END_FLOWS[-1][1], max(capacity, END_FLOWS[-1][1] - (wish - UNDELAYED_FLOW)))
        command = signal(node, phases_of_end(turns_at(network, node), link, lane, shown))
        nearly = FULL_BEHIND_LIGHT if behind_light else FULL_END
        merges.append(Merge(network.nodes[node], (ending_link.edge,), capacity, nearly, command))
    return merges


def ending_lanes(net: SumoNet, network: Network, flows: Flows) -> Iterable[tuple[int, int]]:
    """The lanes, (link, lane), of links of two where routes go on, that end: those without a connection of SUMO beside
    one that has some, and the left one where a zipper has one connection of each to one lane."""
    goes_on = {(one.source, one.source_lane) for one in net.connections}
    zipped = Counter((one.source, one.target, one.target_lane) for one in net.connections if one.state == ZIPPER)
    in_one = {source for (source, *_), count in zipped.items() if count == 2}
    for (link, lane, following), turn in network.turns.items():
        own = network.links[link]
        used = flows.get((own.edge, network.links[following].edge))
        if used and len(own.lanes) == 2 and own.edge not in network.closing:
            this, beside = (own.edge, own.lanes[lane]), (own.edge, own.lanes[1 - lane])
            ends = turn.added and this not in goes_on and beside in goes_on
            if ends or own.edge in in_one and lane == 1:
                yield link, lane


def end_flow(metres: float) -> float:
    """Vehicles an hour that pass in SUMO where one of two lanes of an edge ends, by its length."""
    metres = min(max(END_FLOWS[0][0], metres), END_FLOWS[-1][0])
    return next(
        low + (high - low) * (metres - begin) / (end - begin)
        for (begin, low), (end, high) in pairwise(END_FLOWS)
        if metres <= end
    )


def phases_of_end(turns: Iterable[TurnKey], link: int, lane: int, capacity: float) -> list[list]:
    """The phases at the end of a lane of a link, such that so many vehicles an hour pass; turns: all of the node."""
    pause = max(LEAST_PAUSE, round(PASSING * 3600 / capacity) - 2 * TURN)
    always = [turn for turn in turns if turn[0] != link]
    going, ending = ([turn for turn in turns if turn[:2] == (link, own)] for own in (1 - lane, lane))
    parts: list[list[TurnKey]] = [going, [], ending, []]
    seconds = TURN, pause - pause // 2, TURN, pause // 2
    return [[each, listed([*always, *own])] for each, own in zip(seconds, parts, strict=True)]


def turns_at(network: Network, node: int) -> list[TurnKey]:
    """All turns at a node, in order."""
    return sorted(turn for turn in network.turns if network.links[turn[0]].end == node)


def listed(turns: Iterable[TurnKey]) -> list[list[int]]:
    """Turns as the lines of a run have them."""
    return [list(turn) for turn in turns]


def signal(node: int, phases: list[list]) -> Command:
    """The command of a signal without an offset."""
    return {"cmd": "signal", "node": node, "offset": 0, "phases": phases}
