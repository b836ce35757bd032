"""Who gives way, by number of turn and of lane (slot: twice the link, and the lane)."""
from __future__ import annotations

from collections import Counter, defaultdict
from collections.abc import Mapping, Sequence
from dataclasses import dataclass, field

from streetsim.base.arrays import numpy as np
from streetsim.base.limits import CELLS, CLOCK
from streetsim.model.mapping import Map
from streetsim.model.waiting import ALWAYS_STOP, NodeWays, TurnKey
from streetsim.sumo.greens import headway

HORIZON = 9  # seconds before the stop line, from which on one who goes first is seen
MOST_RANKS = 5  # in which junctions decide; further ones count as the last
SLOWEST = 3.0  # metres a second, below which a turn's speed counts as this
NO_TURN = -1  # that is looked at
NO_CELL = CELLS + 1  # beyond all
STOP, ALL_WAY = "s", "w"  # SUMO's states of connections without a light: a stop sign, all stop and go in turn
FAST = 10.0  # metres a second inside the junction, from which on one joins a fast stream
# Seconds between two that follow each other: who looks out, who joins fast ones, who stops at a sign, where all stop.
LOOKING, JOINING, AT_SIGN, IN_TURN = 2.55, 3.0, 6.15, 5.85
# Seconds more than at a light that have to be free: of one that is crossed, of slow and of fast ones that are joined,
# and of fast and slow ones that are joined from a stop sign, which are seen from as far.
OPEN_MORE, ENTERING_MORE, FAST_MORE, STOP_FAST_MORE, STOP_MORE = 2.1, 0.4, 3.3, 16.5, 9.5
WIDER = 0.3  # seconds more for each further lane of a street that is crossed
FACING_MORE = 4.5  # the same of one that is crossed from a stop sign, and stops or gives way too
RAMP_MORE, RAMP_WIDER = 1.0, 0.9  # the same of a street that a ramp joins, and for each further lane of it
# Seconds of standing without a light for which one needs a second less before one who comes, and before one that is
# joined from a stop sign; and by sign those from which on one goes before those who give way too.
PATIENCE, STOP_PATIENCE = 10.0, 8.0
URGENT = {"m": 40, STOP: 72}
STOP_HORIZON = 20  # seconds before the stop line, from which on one is seen that is joined from a stop sign


@dataclass(slots=True, frozen=True)
class FoeGap:
    """What one who gives way needs before one who goes first."""

    is_met: bool = True  # their ways meet
    seconds_more: float = 0.0  # that have to be free
    passing: int = 1  # seconds after it passed its stop line, until it is out of the way
    patience: float = PATIENCE
    gives_too: bool = False  # without a light
    after_stop: float = 0.0  # seconds more that have to be free in a red, where one may go then after a stop


@dataclass(slots=True)
class MeetingTurn:
    """A turn of a lane from which some give way at a light, or on which some go first there."""

    name: TurnKey
    slot: int
    node: int
    headway: float  # seconds between two that go by it
    sign: str = ""  # as NodeWays has it; empty at a light
    foes: dict[int, FoeGap] = field(default_factory=dict)  # turns that go first
    may_stop: bool = False  # it may go in a red after a stop
    rank: int = 0  # 0: all whom it gives way to give way to nobody

    @property
    def urgent_after(self) -> int:
        """Seconds of standing from which on it goes before those who give way too."""
        return URGENT.get(self.sign, CLOCK)

    @property
    def always_stops(self) -> bool:
        """Whether all that go by it stop first."""
        return self.sign != "" and self.sign in ALWAYS_STOP

    @property
    def gives(self) -> bool:
        """Whether it gives way."""
        return bool(self.foes) or self.may_stop or self.always_stops


class Ways:
    """The turns of lanes from which some give way, and of those on which some go first there."""

    def __init__(self, mapping: Map) -> None:
        """mapping: with who gives way."""
        slots = {2 * link + lane for node_ways in mapping.ways for way in node_ways.ways for link, lane, _ in way}
        turns = [turn for turn in mapping.turns if 2 * turn.link + turn.lane in slots]
        self.all = [
            MeetingTurn(
                (turn.link, turn.lane, turn.next), 2 * turn.link + turn.lane, mapping.links[turn.link].end,
                headway(max(SLOWEST, turn.speed)),
            )
            for turn in turns
        ]
        self.turn_count = Counter(way.slot for way in self.all)  # by slot
        self.number = {(way.slot, way.name[2]): at for at, way in enumerate(self.all)}
        self.speed = [turn.speed for turn in turns]
        self.ramp_nodes = ramp_nodes(mapping)
        for node_ways in mapping.ways:
            self.set_foes(mapping, node_ways)
        gives = [way.gives for way in self.all]
        for _ in range(MOST_RANKS):
            for way in self.all:
                behind = (self.all[foe].rank + 1 for foe in way.foes if gives[foe])
                way.rank = min(MOST_RANKS, max(behind, default=0))
        # By turn, and of NO_TURN: whether it gives way, and may go in a red after a stop.
        self.gives = np.array([*gives, False])
        self.may_stop = np.array([*(way.may_stop for way in self.all), False])

    def set_foes(self, mapping: Map, node_ways: NodeWays) -> None:
        """Sets who goes before each turn of a node, and which stop or may go after a stop."""
        turns_by_way = [
            [self.number.get((2 * link + lane, to), NO_TURN) for link, lane, to in way] for way in node_ways.ways
        ]
        for sign, turns in zip(node_ways.signs, turns_by_way):
            for turn in turns:
                self.all[turn].sign = sign
        for turn in (turn for way in node_ways.stops for turn in turns_by_way[way] if turn != NO_TURN):
            self.all[turn].may_stop = True
        for way, foe, beside in node_ways.yields:
            for turn in turns_by_way[way]:
                foes = (other for other in turns_by_way[foe] if other not in turns_by_way[way])
                met = (other for other in foes if NO_TURN not in (turn, other))
                self.all[turn].foes.update((other, self.foe_gap(mapping, turn, other, beside)) for other in met)
        for turn in (turn for turns in turns_by_way for turn in turns if self.all[turn].sign):
            self.all[turn].headway = self.open_headway(mapping, self.all[turn])

    def foe_gap(self, mapping: Map, turn: int, foe: int, beside: bool) -> FoeGap:
        """What one needs who goes by a turn before one who goes by another."""
        own_way, foe_way = self.all[turn], self.all[foe]
        joins = self.joins(mapping, own_way, foe)
        fast = joins and self.speed[foe] > FAST
        if not own_way.sign:
            after_stop = self.seconds_more(mapping, STOP, foe_way, joins, fast) if own_way.may_stop else 0.0
            return FoeGap(not beside, after_stop=after_stop)
        passing = 2 if fast or own_way.sign == ALL_WAY else 1
        patience = STOP_PATIENCE if own_way.sign == STOP and joins else PATIENCE
        more = self.seconds_more(mapping, own_way.sign, foe_way, joins, fast)
        if fast and self.speed[turn] > FAST and own_way.sign != STOP and own_way.node in self.ramp_nodes:
            more = RAMP_MORE + RAMP_WIDER * (self.lane_count(mapping, foe_way) - 1)
        return FoeGap(True, more, passing, patience, foe_way.sign in URGENT)

    def seconds_more(self, mapping: Map, sign: str, foe_way: MeetingTurn, joins: bool, fast: bool) -> float:
        """Seconds more than at a light that have to be free; sign: of one's own turn; joins, fast: whether a street, or
        a fast one, is joined."""
        if sign == STOP and joins:
            return STOP_FAST_MORE if fast else STOP_MORE
        if joins:
            return FAST_MORE if fast else ENTERING_MORE
        wider = WIDER * (self.lane_count(mapping, foe_way) - 1)
        if sign == STOP and foe_way.sign in URGENT:
            return FACING_MORE + wider
        return OPEN_MORE + wider

    def lane_count(self, mapping: Map, way: MeetingTurn) -> int:
        """The lanes of the street from which one comes by a turn."""
        links = mapping.links_of[mapping.links[way.name[0]].edge]
        return sum(len(mapping.links[link].lanes) for link in links)

    def joins(self, mapping: Map, own: MeetingTurn, foe: int) -> bool:
        """Whether two turns lead to one edge."""
        links = mapping.links
        return links[own.name[2]].edge == links[self.all[foe].name[2]].edge

    def open_headway(self, mapping: Map, own: MeetingTurn) -> float:
        """Seconds between two that go by a turn without a light."""
        if own.always_stops:
            return AT_SIGN if own.sign == STOP else IN_TURN
        fast = any(self.joins(mapping, own, foe) and self.speed[foe] > FAST for foe in own.foes)
        return JOINING if fast else max(LOOKING, own.headway) if own.foes else own.headway


def ramp_nodes(mapping: Map) -> set[int]:
    """The nodes at which streets become one, and nobody turns off: but for those of roundabouts."""
    edges_out = defaultdict[int, set[str]](set)
    for link in mapping.links:
        edges_out[link.begin].add(link.edge)
    return {node for node, edges in edges_out.items() if len(edges) == 1 and edges.isdisjoint(mapping.rings)}


class Lanes:
    """Lanes by slot: where vehicles are near enough to the stop line to count, and where they come from."""

    def __init__(self, mapping: Map, ways: Ways, nodes: Sequence[Sequence[int]]) -> None:
        """nodes: of the load: number, seconds in the buffer, vehicles that it holds."""
        links = [link for link in mapping.links for _ in (0, 1)]
        self.length, self.limit = [link.cells for link in links], [link.limit for link in links]
        self.node = [link.end for link in links]
        self.residence, self.room = [nodes[link.end][1] for link in links], [nodes[link.end][2] for link in links]
        self.may_stop = np.zeros(len(links), bool)
        self.may_stop[[way.slot for way in ways.all if way.may_stop]] = True
        self.limits, self.lengths = np.array(self.limit), np.array(self.length)
        self.horizon = self.horizons(ways)
        # Seconds in which nobody gets from the begin of a lane near its stop line, one at least.
        self.least_drive = min((self.length[way.slot] // self.limit[way.slot] - 1 for way in ways.all), default=1)
        # By slot the cell from which on one may pass the line in a step.
        self.line_cell = np.array([length - limit for length, limit in zip(self.length, self.limit)])
        first = {ways.all[foe].slot for way in ways.all for foe in way.foes}
        self.sources = self.lanes_before(mapping, {slot for slot in first if self.is_short(slot)})
        # By turn the lanes on which those are who go on by it, as far as they are seen.
        self.seen_by = [[way.slot, *self.sources.get(way.slot, ())] for way in ways.all]

    def horizons(self, ways: Ways) -> list[int]:
        """By slot the seconds before the stop line from which on one who goes first is seen."""
        found = [HORIZON] * len(self.length)
        for way in ways.all:
            for foe, gap in way.foes.items():
                if max(gap.seconds_more, gap.after_stop) >= STOP_MORE:
                    found[ways.all[foe].slot] = STOP_HORIZON
        return found

    def is_short(self, slot: int) -> bool:
        """Whether a lane is so short that who goes first is to be seen before it."""
        return self.length[slot] < HORIZON * self.limit[slot]

    def lanes_before(self, mapping: Map, slots: set[int]) -> Mapping[int, list[int]]:
        """By slot, of some, the slots from which vehicles come there."""
        found = defaultdict[int, list[int]](list)
        for turn in mapping.turns:
            if (slot := 2 * turn.next + turn.next_lane) in slots:
                found[slot].append(2 * turn.link + turn.lane)
        return dict(found)
