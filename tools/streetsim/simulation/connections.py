"""How the links of a map lead to each other."""
from collections import defaultdict
from collections.abc import Collection, Sequence
from functools import cached_property

from streetsim.model.mapping import Map, MapTurn


class Connections:
    """The turns of a map, by the link from which they lead."""

    def __init__(self, mapping: Map) -> None:
        """mapping: of the run, whose turns these are."""
        self.map = mapping

    @cached_property
    def by_link(self) -> dict[int, list[MapTurn]]:
        """The turns from each link that has any, by the link's number."""
        turns: defaultdict[int, list[MapTurn]] = defaultdict(list)
        for turn in self.map.turns:
            turns[turn.link].append(turn)
        return dict(turns)

    def turns_to(self, link: int, following: int) -> list[MapTurn]:
        """The turns from a link to a next one, one for each lane that has one."""
        return [turn for turn in self.by_link.get(link, ()) if turn.next == following]

    def plan_along(self, edges: Sequence[str]) -> tuple[int, ...]:
        """The numbers of links along some edges, each with a turn to the next; ValueError where there are none."""
        if unknown := [edge for edge in edges if edge not in self.map.links_of]:
            raise ValueError(f"the map has no edge {unknown[0]!r}")
        plans: dict[int, tuple[int, ...]]
        plans = {link: (link,) for link in self.map.links_of[edges[0]]} if edges else {}
        for edge in edges[1:]:
            extended = [(plan, link) for link in self.map.links_of[edge] for plan in plans.values()]
            plans = {link: (*plan, link) for plan, link in extended if self.turns_to(plan[-1], link)}
        if not plans:
            raise ValueError(f"no way along {' '.join(edges)}")
        return next(iter(plans.values()))

    def departure_lane(self, plan: Sequence[int]) -> int:
        """The first lane of a plan's first link with a turn to its second; 0 where there is none."""
        return next((turn.lane for turn in self.turns_to(*plan[:2])), 0) if len(plan) > 1 else 0

    def next_lane(self, link: int, lane: int | None, following: int) -> int:
        """The next link's lane to which a turn leads, from a lane, else (or lane None) from any; 0 where none does."""
        turns = self.turns_to(link, following)
        return next((turn.next_lane for turn in turns if turn.lane == lane), turns[0].next_lane if turns else 0)

    def turn_at_light(self, link: int, lane: int | None, following: int, lights: Collection[str]) -> MapTurn | None:
        """The turn to a next link at one of some lights, from a lane, else (or lane None) from any; else None."""
        turns = [turn for turn in self.turns_to(link, following) if turn.light in lights]
        return next((turn for turn in turns if turn.lane == lane), turns[0] if turns else None)
