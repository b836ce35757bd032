"""Giving way without a light in the runs of a search: those who give way get the gaps that the run before showed."""
from collections import defaultdict
from collections.abc import Mapping, Sequence

from streetsim.model.mapping import Map
from streetsim.model.runs import Line
from streetsim.observe.giving_way_gaps import gap_lines

# By edge and lane, as SUMO names them: (second, next edge, the second at which it would have come to the line).
PassingsByName = dict[tuple[str, int], list[tuple[float, str, float]]]


def passed_by_name(
    passings: Mapping[tuple[int, int], Sequence[tuple[float, int, float]]], mapping: Map
) -> PassingsByName:
    """When vehicles passed which stop line, with names in place of the map's numbers, as another import may number
    links otherwise. passings: as Passings found it."""
    links = mapping.links
    return {
        (links[link].edge, links[link].lanes[lane]): [(at, links[following].edge, due) for at, following, due in rows]
        for (link, lane), rows in passings.items()
    }


def waiting_lines(passings_by_name: PassingsByName, mapping: Map, start: int) -> list[tuple[int, Line]]:
    """The signal lines, (clock, line), by which vehicles without a light wait for those who go first, as these passed
    in another run. Passings by movements that this map does not have are left out; where their lane does not have the
    movement, they count on another one that has. start: the run's first clock."""
    links = mapping.links
    lanes_by_name = {(links[link].edge, links[link].lanes[lane]): (link, lane) for link, lane in mapping.lanes()}
    turns: defaultdict[tuple[str, str], list[tuple[int, int, int]]] = defaultdict(list)
    for turn in mapping.turns:
        turns[links[turn.link].edge, links[turn.next].edge].append((turn.link, turn.lane, turn.next))
    passings_by_lane: defaultdict[tuple[int, int], list[tuple[float, int, float]]] = defaultdict(list)
    for (edge, lane), passings in passings_by_name.items():
        chosen = {}
        for following in dict.fromkeys(following for _, following, _ in passings):
            of_way, at_line = turns.get((edge, following), ()), lanes_by_name.get((edge, lane))
            chosen[following] = next((way for way in of_way if way[:2] == at_line), of_way[0] if of_way else None)
        for second, following, due in passings:
            if way := chosen[following]:
                passings_by_lane[way[:2]].append((second, way[2], due))
    return gap_lines(mapping, passings_by_lane, start)
