"""The metres of SUMO's lanes inside junctions. Nobody drives on them here; distances count them, as SUMO's do."""
from collections.abc import Sequence
from itertools import pairwise

from streetsim.model.mapping import Map


class Inside:
    """The metres inside junctions between the links of a map."""

    def __init__(self, mapping: Map) -> None:
        """mapping: whose turns have their metres; those of maps that do not have them count as 0."""
        self.by_turn = {(turn.link, turn.lane, turn.next): turn.inside for turn in mapping.turns}
        self.by_links: dict[tuple[int, int], float] = {}  # of the first turn, one that SUMO has where there is one
        for turn in sorted(mapping.turns, key=lambda turn: turn.added):
            self.by_links.setdefault((turn.link, turn.next), turn.inside)

    def metres(self, link: int, lane: int | None, following: int) -> float:
        """Metres in the junction from a link to a next one, from a lane, else (or lane None) from any; 0 without a
        way."""
        found = None if lane is None else self.by_turn.get((link, lane, following))
        return self.by_links.get((link, following), 0.0) if found is None else found

    def metres_along(self, links: Sequence[int]) -> float:
        """Metres in all junctions between the links of a way."""
        return sum(self.metres(link, None, following) for link, following in pairwise(links))
