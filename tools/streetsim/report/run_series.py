"""The numbers behind the pictures, from what streetsim-run wrote; nothing here draws. Functions of a path, which is
edges in the order of driving, raise Fault where the map has no such edge, and all where a table or the polls that they
read are missing."""
from bisect import bisect_right
from collections import Counter
from collections.abc import Iterable, Iterator, Mapping, Sequence
from itertools import pairwise, starmap
from math import floor, inf, log10

from streetsim.base import limits
from streetsim.base.array_groups import rounded
from streetsim.base.arrays import Array, numpy as np
from streetsim.base.files import Fault
from streetsim.model.folder import Folder
from streetsim.model.names import Names
from streetsim.model.rows import RowsPart
from streetsim.model.runs import Command
from streetsim.model.standing import LaneRows, standing_at_stop_lines
from streetsim.model.timing import spans_of

MOST_STEP = 5  # seconds of a piece of a vehicle's way
Spot = tuple[float, float]  # second and metres
TrackPiece = tuple[Spot, Spot, int, float]  # begin and end, speed in cells a step, metres of the vehicle's cells
Fronts = dict[int, tuple[float, int, float]]  # by vehicle metres from a path's begin, speed, and metres of its cells


def links_and_length(folder: Folder, edges: Sequence[str]) -> tuple[dict[int, tuple[float, float, int]], float]:
    """({link: (metres from the path's begin, metres, cells)} of the links of a path, its length in metres)."""
    placed: dict[int, tuple[float, float, int]] = {}
    begin = 0.0
    for numbers in folder.links_along(edges):
        links = [folder.mapping.links[number] for number in numbers]
        placed |= {number: (begin, link.metres, link.cells) for number, link in zip(numbers, links, strict=True)}
        begin += links[0].metres
    return placed, begin


def trajectories(folder: Folder, edges: Sequence[str], first_second: int, last_second: int) -> list[TrackPiece]:
    """Pieces of the ways of vehicles' fronts along a path, each of track_step seconds, from a first to a last second
    (included), in metres from the path's begin, with the speed at its end; a vehicle that went back, or that was not on
    a cell of the path at both ends, is left out for that piece."""
    placed, _ = links_and_length(folder, edges)
    is_on_path = np.isin(np.arange(len(folder.mapping.links)), [*placed])
    track_pieces: list[TrackPiece] = []
    earlier, fronts = first_second, dict[int, tuple[float, int, float]]()
    for part, _ in folder.polled_parts(first_second, last_second, track_step(folder)):
        on_path = part.chosen(part.is_on_cells & is_on_path[part.link])
        for clock, fronts_there in zip(part.clocks.tolist(), fronts_along(on_path, placed), strict=True):
            for car, (place, speed, long) in fronts_there.items():
                if car in fronts and fronts[car][0] <= place:
                    track_pieces.append(((earlier, fronts[car][0]), (clock, place), speed, long))
            fronts, earlier = fronts_there, clock
    return track_pieces


def track_step(folder: Folder) -> int:
    """The seconds of a piece of a vehicle's way: those between polls, and one where these are too far apart and each
    second is kept."""
    return 1 if folder.every > MOST_STEP and folder.has_each_second() else folder.every


def fronts_along(part: RowsPart, placed: Mapping[int, tuple[float, float, int]]) -> Iterator[Fronts]:
    """Where the vehicles of links of a path are, by each clock of a part; placed: as of links_and_length."""
    places = np.array([placed.get(link, (0.0, 0.0, 1)) for link in range(max(placed) + 1)])
    begin, metres, count = places[part.link].T
    place, long = begin + (part.cell + 1) * metres / count, part.size * metres / count
    columns = [column.tolist() for column in (part.vehicle, place, part.speed, long)]
    for here in starmap(slice, pairwise(part.first_rows.tolist())):
        fronts = zip(*(column[here] for column in columns), strict=True)
        yield {car: (place, speed, long) for car, place, speed, long in fronts}


def long_vehicle_strips(track_pieces: Iterable[TrackPiece]) -> Iterator[tuple[Spot, Spot, Spot, Spot]]:
    """The strips that long vehicles cover in time and metres, from front to rear: four corners (second, metres) for
    each piece. Vehicles whose cells have no more than 1.5 times CELL_METRES together are left out."""
    for (second, place), (later, other), _, long in track_pieces:
        if long > 1.5 * limits.CELL_METRES:
            yield (second, place), (later, other), (later, other - long), (second, place - long)


def red_times(
    folder: Folder, edges: Sequence[str], first_second: int, last_second: int
) -> list[tuple[float, int, int]]:
    """When the signals along a path are red for going on along it, from a first second to before a last: (metres from
    the path's begin, second in which it begins, second at which it has ended) of each red, which is cut at both bounds.
    Before its first command a signal has none."""
    placed, _ = links_and_length(folder, edges)
    reds = []
    for links_here, following in pairwise(folder.links_along(edges)):
        metres, node = sum(placed[links_here[0]][:2]), folder.mapping.links[links_here[0]].end
        plans = [(clock, command) for clock, command in folder.signals if command["node"] == node]
        begin = None
        for second in range(first_second, last_second + 1):
            sent = [command for clock, command in plans if clock <= second]
            red = bool(sent) and second < last_second and not shows_green(sent[-1], second, links_here, following)
            if red and begin is None:
                begin = second
            if not red and begin is not None:
                reds.append((metres, begin, second))
                begin = None
    return reds


def shows_green(command: Command, second: int, links: Sequence[int], following: Sequence[int]) -> bool:
    """Whether a signal command shows green in a second (its begin) from any of some links to any of others."""
    place = (second + command["offset"]) % sum(duration for duration, _ in command["phases"])
    for duration, greens in command["phases"]:
        if place < duration:
            return any(link in links and target in following for link, _, target in greens)
        place -= duration
    return False


def way_back(folder: Folder, edges: Sequence[str]) -> list[str]:
    """The edges of a path's other direction, from its end to its begin, between the same junctions (of several the
    first of the map); Fault where there is no edge back."""
    mapping = folder.mapping
    edge_between: dict[tuple[int, int], str] = {}
    for edge, links in mapping.links_of.items():
        edge_between.setdefault((mapping.links[links[0]].begin, mapping.links[links[0]].end), edge)
    edges_back = []
    for (link, *_), edge in zip(reversed(folder.links_along(edges)), reversed(edges), strict=True):
        ends = mapping.links[link].end, mapping.links[link].begin
        if ends not in edge_between:
            raise Fault(f"--both: no edge leads back along {edge!r}")
        edges_back.append(edge_between[ends])
    return edges_back


def junctions_along(folder: Folder, edges: Sequence[str]) -> list[tuple[float, str]]:
    """(metres from the path's begin, name) of each junction within a path, or else of the one at its end."""
    placed, _ = links_and_length(folder, edges)
    firsts = [links[0] for links in folder.links_along(edges)]
    names = Names(folder.mapping)
    nodes = [folder.mapping.nodes[folder.mapping.links[link].end][0] for link in firsts]
    ends = [
        (sum(placed[link][:2]), junction_name_on_path(names, node, edges))
        for link, node in zip(firsts, nodes, strict=True)
    ]
    return ends[:-1] or ends


def junction_name_on_path(names: Names, junction: str, edges: Iterable[str]) -> str:
    """What a junction on a path is called: its name, else the streets that it has beside the path's, else its id."""
    if junction in names.junctions:
        return names.junctions[junction]
    own = {names.street(edge) for edge in edges}
    return " / ".join(name for name in names.junction(junction).split(" / ") if name and name not in own) or junction


def green_band(folder: Folder, edges: Sequence[str], at_clock: int) -> tuple[int, int] | None:
    """(width of the green band, cycle) in seconds: the width is how many seconds of a cycle in a row let a vehicle that
    passes the first signal pass all others too at its free speed. Plans are those at_clock; none where there is no
    signal or no common cycle."""
    ends = edge_ends_along(folder, edges)
    plans = {command["node"]: command for clock, command in folder.signals if clock <= at_clock}
    stops = [(travel, plans[node], links, following) for travel, node, links, following in ends if node in plans]
    cycles = {sum(duration for duration, _ in command["phases"]) for _, command, *_ in stops}
    if len(cycles) != 1:
        return None
    cycle, start = cycles.pop(), stops[0][0]
    shown = [
        [shows_green(command, second + round(travel - start), links, following) for second in range(cycle)]
        for travel, command, links, following in stops
    ]
    signs = "".join("01"[all(greens)] for greens in zip(*shown, strict=True))
    return max((seconds for _, seconds in spans_of(signs, "1")), default=0), cycle


def edge_ends_along(folder: Folder, edges: Sequence[str]) -> list[tuple[float, int, list[int], list[int]]]:
    """(seconds at free speed from the path's begin, node, links, next links) of each end of an edge within a path, with
    a signal or without, in its order."""
    travel, edge_ends = 0.0, []
    for links, following in pairwise(folder.links_along(edges)):
        link = folder.mapping.links[links[0]]
        travel += link.cells / max(0.001, link.limit - folder.dawdle / 1000)
        edge_ends.append((travel, link.end, links, following))
        travel += folder.mapping.nodes[link.end][3]
    return edge_ends


def densities(folder: Folder) -> list[float]:
    """Mean vehicles a kilometre and lane of each link over all polls, by its number, of those on its cells (not in the
    junction behind); 0 where its lanes were not polled, Fault where none were."""
    links = folder.mapping.links
    standing, polls = np.zeros(len(links), np.int64), 0
    for part, _ in folder.polled_parts():
        polls += len(part.clocks)
        standing += np.bincount(part.link[part.is_on_cells], minlength=len(links))
    if not polls:
        raise Fault(f"{folder.path}: nothing was polled")
    return [
        count / polls / len(link.lanes) / (link.cells * link.cell_metres / 1000)
        for count, link in zip(standing.tolist(), links, strict=True)
    ]


def longest_queues(folder: Folder, most_lanes: int) -> tuple[list[tuple[str, dict[int, float]]], int]:
    """The lanes with the longest queues at stop lines at polls, the longest first, most_lanes at most: (lane's id after
    its street's name, {clock: metres}); and how many lanes have queues at all."""
    mapping, names = folder.mapping, Names(folder.mapping)
    cells = np.array([link.cells for link in mapping.links], np.int64)
    queues = [queues_in(part, cells) for part, _ in folder.polled_parts()]
    clocks, slots, covered = (np.concatenate(columns) for columns in zip(*queues)) if queues else np.zeros((3, 0), int)
    metres = rounded(covered * np.array([link.cell_metres for link in mapping.links])[slots // 2], 1)
    longest = np.zeros(2 * len(cells))
    np.maximum.at(longest, slots, metres)
    ranked = sorted(set(slots.tolist()), key=lambda slot: (-longest[slot], mapping.lane_name(*divmod(slot, 2))))
    found = []
    for slot in ranked[:most_lanes]:
        called = f"{names.street(mapping.links[slot // 2].edge)} {mapping.lane_name(*divmod(slot, 2))}".lstrip()
        here = slots == slot
        found.append((called, dict(zip(clocks[here].tolist(), metres[here].tolist(), strict=True))))
    return found, len(ranked)


def queues_in(part: RowsPart, cells: Array) -> tuple[Array, Array, Array]:
    """(clocks, lanes, cells covered) of the queues at stop lines at each clock of a part, where there are any. cells:
    of each link."""
    on = part.chosen(part.is_on_cells)
    queues = standing_at_stop_lines(LaneRows(on.clock_place, on.slot, on.cell, on.speed, on.size), cells)
    return part.clocks[queues.clock_place], queues.slot, queues.covered


def counted_densities_and_flows(folder: Folder, edges: Sequence[str]) -> list[tuple[float, float]]:
    """(vehicles a kilometre and lane, vehicles an hour and lane) of each row of counts.csv over a whole period with
    traffic; the first from the occupancy, as if each cell had 7.5 m. edges: those wanted, all where it is empty."""
    return [
        (float(row["occupancy_percent"]) / 100 / limits.CELL_METRES * 1000, float(row["vehicles_per_hour"]))
        for row in folder.counts()
        if (not edges or row["edge"] in edges)
        and int(row["vehicles"])
        and int(row["end"]) - int(row["begin"]) == folder.period
    ]


def middle_densities_and_flows(folder: Folder, edges: Sequence[str]) -> list[tuple[float, float]]:
    """(vehicles a kilometre, vehicles an hour) of the middle third of each lane by itself, of each whole period with
    traffic there: means over its polls of the vehicles there and of their speeds, added up, over its length as if each
    cell had 7.5 m (Edie's definitions). edges: those wanted, all where it is empty; Fault where nothing was polled."""
    links, start = folder.mapping.links, folder.setting.get("start", 0)
    thirds = np.array([middle_third(link.cells) if not edges or link.edge in edges else (0, 0) for link in links])
    polls: Counter[int] = Counter()
    sums: Counter[tuple[int, int]] = Counter()
    speeds: Counter[tuple[int, int]] = Counter()
    clock = start
    for part, _ in folder.polled_parts():
        periods = (part.clocks - 1 - start) // folder.period
        polls.update(periods.tolist())
        first_cell, last_cell = thirds[part.link].T
        middle = part.chosen((first_cell <= part.cell) & (part.cell < last_cell))
        keys = list(zip(periods[middle.clock_place].tolist(), middle.slot.tolist()))
        sums.update(keys)
        for key, speed in zip(keys, middle.speed.tolist(), strict=True):
            speeds[key] += speed
        clock = int(part.clocks[-1]) if len(part.clocks) else clock
    if not polls:
        raise Fault(f"{folder.path}: nothing was polled")
    whole, densities_and_flows = (folder.setting.get("until", clock) - start) // folder.period, []
    for (period, slot), vehicles in sorted(sums.items()):
        if period < whole:
            first_cell, last_cell = thirds[slot // 2].tolist()
            looks = polls[period] * (last_cell - first_cell)
            flow = speeds[period, slot] / looks * 3600
            densities_and_flows.append((vehicles / looks / limits.CELL_METRES * 1000, flow))
    return densities_and_flows


def middle_third(cells: int) -> tuple[int, int]:
    """(first cell of a link's middle third, cell behind its last); cells: of the link."""
    first = cells // 3
    return first, max(first + 1, cells - first)


def arrival_curves(folder: Folder) -> tuple[list[int], list[int]]:
    """(clocks of wished departures up to the run's end, that second included, clocks of arrivals), each sorted."""
    (departs, arrivals), end = folder.trip_columns("depart", "arrival"), folder.setting.get("until", inf)
    return sorted(clock for clock in map(int, departs) if clock <= end), sorted(map(int, filter(None, arrivals)))


def curve_difference(curve: Sequence[float], other_curve: Sequence[float]) -> tuple[list[float], list[int]]:
    """(clocks at which one of two curves rises, by how many vehicles the first is then above the second); curve,
    other_curve: sorted clocks, one for each vehicle."""
    times = sorted({*curve, *other_curve})
    return times, [bisect_right(curve, time) - bisect_right(other_curve, time) for time in times]


def round_length(metres: float) -> float:
    """The greatest length, for a map's scale, up to `metres` (above 0) that is 1, 2 or 5 times a power of ten."""
    power = 10 ** floor(log10(metres))
    return next(times * power for times in (5, 2, 1) if times * power <= metres)


def length_told(metres: float) -> str:
    """A round length as the bar of a map tells it, in metres, or in kilometres from 1,000 m on."""
    return f"{metres:g} m" if metres < 1000 else f"{metres / 1000:g} km"
