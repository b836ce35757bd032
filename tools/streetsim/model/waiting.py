"""Who gives way to whom, as the map has it: at lights, and without a light with the gaps that are needed."""
from collections.abc import Iterable
from dataclasses import dataclass, replace
from typing import Self

from streetsim.base.files import Json
from streetsim.model.named import one_of, rows_of

TurnKey = tuple[int, int, int]  # link, lane, next link
ALWAYS_STOP = "sw"  # SUMO's states of connections without a light whose vehicles have to stop
WIDER = 0.3  # seconds more for each further lane of a street that is crossed


@dataclass(slots=True, frozen=True)
class Gap:
    """The seconds (a gap in time, not in cells) that have to be free before one who goes first, by how many do."""

    seconds: float  # where few go first
    less: float  # seconds less for each 1,000 vehicles an hour that go first, counted as below
    least: float  # seconds at any flow
    beside: float = 1.0  # weight, 0 to 1, of those on further lanes of the foe's street
    others: float = 1.0  # weight, 0 to 1, of those on other streets
    after: float = 1.0  # seconds after a foe passed its stop line, until it is out of the way
    rolling: float = 3.5  # seconds that have to be free for one who comes while nobody stands there, at any flow

    def seconds_needed(self, lane: float, street: float, every: float) -> float:
        """Seconds that have to be free, by vehicles an hour of the foe's lane, its street, and all who go first."""
        hourly = lane + self.beside * (street - lane) + self.others * (every - street)
        return max(self.least, self.seconds - self.less * hourly / 1000)

    def across(self, lanes: int) -> Self:
        """The gap for one who crosses a street of so many lanes: 0.3 s longer for each above one."""
        return self.longer(WIDER * (lanes - 1))

    def longer(self, more: float) -> Self:
        """The gap with `more` seconds added, whatever the flow."""
        return replace(self, seconds=self.seconds + more, least=self.least + more)

    def later(self, more: float) -> Self:
        """The gap before one who is out of the way so many seconds later (more)."""
        return replace(self, after=self.after + more)


@dataclass(slots=True, frozen=True)
class Pace:
    """How those follow each other who always have to stop: as at a light, some seconds green and some red in turn."""

    shown: int  # seconds green
    hidden: float  # seconds red, at no flow of the others
    more: float = 0.0  # seconds red more, for each 1,000 vehicles an hour of those that they give way to

    def period(self, hourly: float) -> float:
        """The seconds of one green and one red, by the vehicles an hour of those that they give way to."""
        return self.shown + self.hidden + self.more * hourly / 1000


@dataclass(slots=True, frozen=True)
class Foe:
    """A turn that goes first, from a lane to a link by numbers of the run, and the gap that is needed before it."""

    link: int
    lane: int
    next: int
    gap: Gap
    slow: bool  # whether those that use one gap follow each other more slowly than from a queue
    street: int = 0  # a number that all links of one edge have in common


@dataclass(slots=True, frozen=True)
class GivingWay:
    """Turns of a node that have to give way, and those that go first there."""

    node: int
    turns: tuple[TurnKey, ...]
    foes: tuple[Foe, ...]
    pace: Pace | None = None  # of those who have to stop


@dataclass(slots=True, frozen=True)
class NodeWays:
    """Who gives way at a node, with a light while both have green. A way is the turns of one movement under one signal;
    others name it by its position."""

    node: int
    ways: tuple[tuple[TurnKey, ...], ...]
    # A way, one that goes before it, and whether that leads to another lane of the same street.
    yields: tuple[tuple[int, int, bool], ...]
    stops: tuple[int, ...] = ()  # the ways that may go in a red after a stop
    signs: str = ""  # by way SUMO's state of its connections; empty at a light


def ways_at(lit_ways: Iterable[NodeWays], node: int) -> NodeWays | None:
    """Who gives way at one node with a light; none where nobody does."""
    return next((ways for ways in lit_ways if ways.node == node), None)


def node_ways_of(table: Json) -> list[NodeWays]:
    """Who gives way at nodes, of a map's file."""
    return [
        NodeWays(
            entry.node, tuple(tuple((link, lane, following) for link, lane, following in way) for way in entry.ways),
            tuple((own, foe, beside) for own, foe, beside in entry.yields), tuple(entry.stops), entry.signs,
        )
        for entry in rows_of(NodeWays, table)
    ]


def giving_way_of(value: Iterable[object]) -> list[GivingWay]:
    """Those who give way, of a map's file."""
    entries = (one_of(GivingWay, row) for row in value)
    return [
        replace(
            entry, turns=tuple((link, lane, following) for link, lane, following in entry.turns),
            foes=tuple(map(foe_of, entry.foes)), pace=one_of(Pace, entry.pace) if entry.pace else None,
        )
        for entry in entries
    ]


def foe_of(value: object) -> Foe:
    """A turn that goes first, of a map's file."""
    found = one_of(Foe, value)
    return replace(found, gap=one_of(Gap, found.gap))
