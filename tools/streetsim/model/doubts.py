"""Doubts with a place: what speaks against the numbers of one lane, movement, approach, junction or works of a run, in
which interval, how much, and which numbers it touches."""
from collections.abc import Iterable, Iterator, Mapping, Sequence
from dataclasses import asdict, dataclass, replace
from itertools import groupby

from streetsim.base.files import Json
from streetsim.base.words import time_of_day
from streetsim.model.mapping import Map
from streetsim.model.named import one_of
from streetsim.model.names import Names

LANE, MOVEMENT, APPROACH, JUNCTION, OF_WORKS = "lane", "movement", "approach", "junction", "works"  # kinds of places
DELAYS, QUEUES, ALL, ADDED = "delay and letter", "queue", "delay, letter and queue", "what the works add"  # touched
MOST_TOLD = 3  # places in a last line
QUEUE_GOES_ON = 900  # seconds for which the queue of a lane that was full goes on
SPREAD = 0.25  # of the time lost in an approach or at a junction, from which on doubted movements doubt it
DOUBTED = "streetsim.not-trusted"  # the parameter of a light's program that says why what made it is not to be trusted
Place = tuple[str, ...]  # of a doubt
NEEDED_FIELDS = ("kind", "junction", "edge", "why", "touches")  # what each doubt has


@dataclass(slots=True, frozen=True)
class Doubt:
    """What speaks against the numbers of a place of a run."""

    kind: str  # of its place: LANE, ..
    junction: str  # SUMO's id; empty of works
    edge: str  # of the approach, or with the works; empty of a whole junction
    why: str  # in words, without the place
    touches: str  # which numbers: DELAYS, ..
    lane: str = ""  # SUMO's id, of a lane
    target: str = ""  # the next edge, of a movement or of most vehicles of a lane
    begin: int = 0  # seconds
    end: int = 0  # 0: to the end of the run
    size: float = 0.0  # demand as a share of what passes; 0: no such share is known
    vehicles: int = 0  # that it touches; 0: not known
    spills: bool = False  # its queue stands before the lanes beside, so that it is of its whole approach

    def covers(self, begin: int, end: int) -> bool:
        """Whether it lasts in an interval, or ended less than QUEUE_GOES_ON before it."""
        return self.begin < end and (not self.end or begin < self.end + QUEUE_GOES_ON)

    def place_told(self, names: Names, ids: bool = False) -> str:
        """Its place in words, and from when to when it is; ids: whether with those of edges that have no name."""
        edges = [self.edge, *([self.target] if self.target else [])]
        with_ids = f" ({' to '.join(edges)})" if ids and self.edge and not names.street(self.edge) else ""
        if self.kind == OF_WORKS:
            place = f"works on {names.street_told(self.edge)}{with_ids}"
        elif self.kind == JUNCTION or not self.edge:
            place = names.junction_told(self.junction)
        else:
            way = names.movement(self.edge, self.target) if self.target else names.approach(self.edge)
            place = f"{way}{with_ids}, at {names.junction_told(self.junction)}"
        return place + self.when_told()

    def when_told(self) -> str:
        """From when to when it is, behind a comma; empty where it is to the end of the run."""
        return f", {time_of_day(self.begin)} to {time_of_day(self.end)}" if self.end else ""

    def in_words(self, names: Names) -> str:
        """Its place with ids, why, and what it touches, as plain text."""
        return f"{self.place_told(names, ids=True)}: {self.why} ({self.touches})"

    def weight(self) -> tuple[bool, bool, float]:
        """By which the worst come first: works, then where more wish to pass than can, then those of most vehicles that
        are near what passes."""
        return self.kind == OF_WORKS, self.size > 1, (self.size or 1.0) * max(1, self.vehicles)


def doubts_from(rows: Iterable[object]) -> list[Doubt]:
    """The doubts of a setting, as `doubt_rows` gives them. TypeError for anything else."""
    return [one_of(Doubt, row) for row in rows]


def doubt_rows(doubts: Iterable[Doubt]) -> list[Json]:
    """Doubts for a setting: what each has that is not usual."""
    usual = asdict(Doubt("", "", "", "", ""))
    return [
        {name: value for name, value in asdict(one).items() if value != usual[name] or name in NEEDED_FIELDS}
        for one in doubts
    ]


def worst_first(doubts: Iterable[Doubt]) -> list[Doubt]:
    """Of each place and interval the worst, the worst of all first."""
    ranked = sorted(doubts, key=lambda one: one.weight(), reverse=True)
    places: dict[Place, Doubt] = {}
    for one in ranked:
        places.setdefault(place_of(one), one)
    return list(places.values())


def place_of(doubt: Doubt) -> Place:
    """Its place, without lane and times."""
    return (doubt.kind, doubt.edge) if doubt.kind == OF_WORKS else (doubt.junction, doubt.edge, doubt.target)


def places_told(doubts: Sequence[Doubt], mapping: Map) -> str:
    """The worst three of some doubts by place, and how many others there are, for a last line; empty of none."""
    ranked, names = worst_first(doubts), Names(mapping)
    if not ranked:
        return ""
    told = "; ".join(one.in_words(names) for one in ranked[:MOST_TOLD])
    left = len(ranked) - MOST_TOLD
    more = f"; and at {left:,} other place{'' if left == 1 else 's'}" if left > 0 else ""
    return f"doubted most of all: {told}{more}"


def joined(doubts: Iterable[Doubt]) -> Iterator[Doubt]:
    """Doubts of one place, kind and reason in intervals that follow each other as one, of the greatest size; those
    where more wish to pass than can apart."""

    def place(doubt: Doubt) -> tuple[str | bool, ...]:
        """What those have in common that are joined."""
        return doubt.kind, doubt.junction, doubt.edge, doubt.lane, doubt.target, doubt.touches, doubt.size > 1

    for _, group in groupby(sorted(doubts, key=lambda doubt: (*place(doubt), doubt.begin)), place):
        last: Doubt | None = None
        for doubt in group:
            if last and last.end and doubt.begin <= last.end:
                worse = max(last, doubt, key=lambda both: both.size)
                vehicles = last.vehicles + doubt.vehicles
                last = replace(worse, begin=last.begin, end=max(last.end, doubt.end), vehicles=vehicles)
                continue
            if last:
                yield last
            last = doubt
        if last:
            yield last


class DoubtsByPlace:
    """Doubts of a run, found by approach."""

    def __init__(self, doubts: Iterable[Doubt]) -> None:
        """doubts: of lanes, movements, approaches and junctions; those of works are left out."""
        self.by_edge: dict[str, list[Doubt]] = {}
        self.by_junction: dict[str, list[Doubt]] = {}
        for one in doubts:
            if one.kind != OF_WORKS:
                found, key = (self.by_edge, one.edge) if one.edge else (self.by_junction, one.junction)
                found.setdefault(key, []).append(one)

    def of_movement(
        self, interval: tuple[int, int], junction: str, edge: str, target: str, lanes: Iterable[str]
    ) -> list[Doubt]:
        """What doubts a movement in an interval (begin, end); lanes: SUMO's ids of those that it uses."""
        lanes = {*lanes}
        return [one for one in self.around(interval, junction, edge) if touches_movement(one, target, lanes)]

    def of_approach(self, interval: tuple[int, int], junction: str, edge: str) -> list[Doubt]:
        """What doubts a whole approach in an interval (begin, end)."""
        return [one for one in self.around(interval, junction, edge) if is_of_all(one)]

    def around(self, interval: tuple[int, int], junction: str, edge: str) -> Iterator[Doubt]:
        """What there is of an approach and of its junction in an interval (begin, end)."""
        for one in (*self.by_edge.get(edge, ()), *self.by_junction.get(junction, ())):
            if one.covers(*interval):
                yield one


def is_of_all(doubt: Doubt) -> bool:
    """Whether it is of all movements of its approach."""
    return doubt.kind in (APPROACH, JUNCTION) or doubt.spills


def touches_movement(doubt: Doubt, target: str, lanes: set[str]) -> bool:
    """Whether it is of a movement to an edge that uses some lanes, by SUMO's ids."""
    return is_of_all(doubt) or (doubt.target == target if doubt.kind == MOVEMENT else doubt.lane in lanes)


def why_of(doubts: Iterable[Doubt]) -> str:
    """The reasons of some doubts, each once and of those with a size the greatest alone, for a cell of a table; empty
    of none."""
    ranked = sorted(doubts, key=lambda one: one.size, reverse=True)
    return "; ".join(dict.fromkeys(one.why for one in [*ranked[:1], *(one for one in ranked[1:] if not one.size)]))


def doubts_by_seed(settings: Mapping[int, Sequence[Doubt]]) -> list[Doubt]:
    """The doubts of the runs of several seeds, each place and interval once, as its worst. settings: by seed."""
    found: dict[object, Doubt] = {}
    for one in (one for doubts in settings.values() for one in doubts):
        key = one.kind, one.junction, one.edge, one.lane, one.target, one.begin, one.end
        if key not in found or found[key].size < one.size:
            found[key] = one
    return worst_first(joined(found.values()))
