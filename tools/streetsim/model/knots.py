"""Knots: junctions beside each other whose vehicles keep each other from going on until some are rescued, as where SUMO
teleports; what is lost there is no delay of a queue."""
import re
from collections import Counter, defaultdict
from collections.abc import Iterable, Mapping, Sequence
from dataclasses import dataclass
from typing import NamedTuple

from streetsim.base.words import time_of_day
from streetsim.model.mapping import Map
from streetsim.model.names import Names

APART = 900  # seconds from a rescue to the next one at a junction, up to which both are of one knot
LEAST_RESCUES = 2  # of a knot
MOST_TOLD = 3  # knots
# Of a doubt: how many knots, and where.
KNOTTED = re.compile(r"in (a knot|[\d,]+ knots), whose .* no delay \((.*)\)")


class Rescued(NamedTuple):
    """A vehicle that stood for too long, and was put down on the next link."""

    clock: int
    since: int  # the clock from which on it stood
    link: int  # on which it came
    is_inside: bool  # it stood in the junction, as its exit was full, and not at the stop line


@dataclass(slots=True, frozen=True)
class Knot:
    """Junctions beside each other whose vehicles kept each other from going on."""

    junctions: Sequence[str]  # SUMO's ids, that of most rescues first
    edges: Mapping[str, int]  # how many were rescued who came on each
    begin: int  # since when the first of them stood, seconds
    end: int  # clock of the last rescue

    @property
    def rescues(self) -> int:
        """How many were rescued in it."""
        return sum(self.edges.values())

    def in_words(self, names: Names) -> str:
        """Where it is, and from when to when."""
        first, *others = self.junctions
        beside = f" and {len(others):,} beside it" if others else ""
        return f"{names.junction_told(first)}{beside}, {time_of_day(self.begin)} to {time_of_day(self.end)}"


def knots_of(rescued: Sequence[Rescued], mapping: Map) -> list[Knot]:
    """The knots of a run, that of most rescues first: rescues on links with a junction in common, with APART seconds
    between at most, of which one or more were inside a junction. rescued: all, with rising clocks."""
    groups = groups_of(rescued, mapping)
    knots = [knot_of(group, mapping) for group in groups if any(one.is_inside for one in group)]
    large = [knot for knot in knots if knot.rescues >= LEAST_RESCUES]
    return sorted(large, key=lambda knot: (-knot.rescues, knot.begin))


def groups_of(rescued: Sequence[Rescued], mapping: Map) -> Iterable[Sequence[Rescued]]:
    """Rescues that are near each other, as knots_of has it."""
    parents, last_at = [*range(len(rescued))], dict[int, int]()

    def root(number: int) -> int:
        """The rescue that stands for all of a group."""
        while parents[number] != number:
            parents[number] = number = parents[parents[number]]
        return number

    for number, rescue in enumerate(rescued):
        for node in (mapping.links[rescue.link].begin, mapping.links[rescue.link].end):
            earlier = last_at.get(node, number)
            if rescue.clock - rescued[earlier].clock <= APART:
                parents[root(earlier)] = root(number)
            last_at[node] = number
    groups = defaultdict[int, list[Rescued]](list)
    for number, rescue in enumerate(rescued):
        groups[root(number)].append(rescue)
    return groups.values()


def knot_of(group: Sequence[Rescued], mapping: Map) -> Knot:
    """The knot of some rescues, with rising clocks."""
    links = [mapping.links[one.link] for one in group]
    junctions = Counter(mapping.nodes[link.end][0] for link in links)
    ranked = sorted(junctions, key=lambda name: (-junctions[name], name))
    return Knot(ranked, Counter(link.edge for link in links), min(one.since for one in group), group[-1].clock)


def knots_told(knots: Sequence[Knot], mapping: Map) -> str:
    """How many were rescued in knots, and where and when the first of these are, behind a comma; empty of none."""
    if not knots:
        return ""
    names, left = Names(mapping), len(knots) - MOST_TOLD
    places = [knot.in_words(names) for knot in knots[:MOST_TOLD]] + ([f"{left:,} more"] if left > 0 else [])
    count = "a knot" if len(knots) == 1 else f"{len(knots):,} knots"
    why = "whose vehicles kept each other from going on, as where SUMO teleports: what is lost there is no delay"
    return f", {sum(knot.rescues for knot in knots):,} of them in {count}, {why} ({', and '.join(places)})"


def rescues_in_knots(knots: Sequence[Knot]) -> str:
    """How many rescues of a run were in knots, in brackets behind a blank; empty of none."""
    rescues = sum(knot.rescues for knot in knots)
    return f" ({rescues:,} in {'a knot' if len(knots) == 1 else f'{len(knots):,} knots'})" if knots else ""
