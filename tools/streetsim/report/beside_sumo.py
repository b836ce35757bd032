"""How close a run is to SUMO's own outputs of the same demand: trips, counts, time on edges. Functions of a folder
raise Fault where a table that they read is missing."""
from bisect import bisect_right
from collections.abc import Iterable, Iterator, Mapping, Sequence
from statistics import fmean

from streetsim.base.files import attribute, elements, number, optional, seconds
from streetsim.base.report import first_few
from streetsim.model.folder import Folder

Trip = tuple[float, float]  # wished departure and arrival
EdgeKey = tuple[float, float, str]  # begin and end of a period, and an edge


def read_tripinfo(path: str) -> dict[str, Trip]:
    """The trips of a file of SUMO's tripinfo, {vehicle: (wished departure, arrival)} in seconds; those that did not
    arrive are left out. Fault where it is not there, is no tripinfo, or an attribute is absent or wrong."""
    trips = {}
    for element in elements(path, ["tripinfos"]):
        if element.tag == "tripinfo" and (arrival := attribute(path, element, "arrival", seconds)) >= 0:
            delay = optional(path, element, "departDelay", seconds, 0.0)
            trips[attribute(path, element, "id")] = (attribute(path, element, "depart", seconds) - delay, arrival)
    return trips


def read_edges(path: str) -> dict[EdgeKey, tuple[int, float]]:
    """A file of SUMO's edgeData, {(begin, end, edge): (vehicles, seconds)}: the vehicles that left the edge or arrived
    on it, and the seconds that all vehicles together were on it. Fault where it is not there, is no edgeData, or lacks
    an attribute or has one that is no number."""
    edges = {}
    for interval in elements(path, ["meandata"]):
        period = attribute(path, interval, "begin", seconds), attribute(path, interval, "end", seconds)
        for edge in interval.iter("edge"):
            vehicles = optional(path, edge, "left", int, 0) + optional(path, edge, "arrived", int, 0)
            there = optional(path, edge, "sampledSeconds", number, 0.0)
            edges[*period, attribute(path, edge, "id")] = vehicles, there
    return edges


def read_edgedata(path: str) -> dict[EdgeKey, int]:
    """As `read_edges`, {(begin, end, edge): vehicles that left the edge or arrived on it}."""
    return {key: vehicles for key, (vehicles, _) in read_edges(path).items()}


def trip_times_of(folder: Folder) -> dict[str, Trip]:
    """A run's trips in the form of `read_tripinfo`, {vehicle: (wished departure, arrival)} in seconds; those that did
    not arrive are left out. Fault where trips.csv cannot be read."""
    return {row["id"]: (float(row["depart"]), float(row["arrival"])) for row in folder.trips() if row["arrival"]}


def edge_values_of(folder: Folder) -> dict[EdgeKey, tuple[int, float | None]]:
    """A run's edges in the form of `read_edges`, {(begin, end, edge): (vehicles that left it or arrived on it, seconds
    of all vehicles on it)}: those of which all lanes have counts, in whole periods. The seconds are none where the
    density is not known. Fault where edges.csv cannot be read."""
    edges = {}
    for row in folder.edges():
        if int(row["end"]) - int(row["begin"]) == folder.period:
            metres = folder.mapping.links[folder.mapping.links_of[row["edge"]][0]].metres
            there = float(row["density_per_km"]) * metres / 1000 * folder.period if row["density_per_km"] else None
            edges[float(row["begin"]), float(row["end"]), row["edge"]] = int(row["left"]), there
    return edges


def edge_counts_of(folder: Folder) -> dict[EdgeKey, int]:
    """A run's edges in the form of `read_edgedata`: {(begin, end, edge): vehicles that left it or arrived on it}."""
    return {key: vehicles for key, (vehicles, _) in edge_values_of(folder).items()}


def geh(volume: float, other_volume: float) -> float:
    """The GEH of two volumes, vehicles an hour: below 5 is the usual mark of a good fit. 0 where both are 0."""
    return (2 * (volume - other_volume) ** 2 / (volume + other_volume)) ** 0.5 if volume + other_volume else 0.0


def correlation(first_values: Sequence[float], second_values: Sequence[float]) -> float | None:
    """Pearson's r of two lists of equal length, one value at least; none where one of them does not vary."""
    sides = first_values, second_values
    means = fmean(first_values), fmean(second_values)
    spread = [sum((value - mean) ** 2 for value in values) for values, mean in zip(sides, means, strict=True)]
    if not all(spread):
        return None
    together = sum((one - means[0]) * (other - means[1]) for one, other in zip(*sides, strict=True))
    return together / (spread[0] * spread[1]) ** 0.5


def greatest_gap(clocks: Iterable[float], other_clocks: Iterable[float], vehicles: int) -> float:
    """The greatest distance between two curves of arrivals, given as clocks in any order, as a share (0 to 1) of so
    many vehicles (less than 1 counts as 1); 0 where nobody arrives."""
    clocks, other_clocks = sorted(clocks), sorted(other_clocks)
    gaps = (abs(bisect_right(clocks, time) - bisect_right(other_clocks, time)) for time in {*clocks, *other_clocks})
    return max(gaps, default=0) / max(1, vehicles)


def compare_trips(run_trips: Mapping[str, Trip], sumo_trips: Mapping[str, Trip], names: Sequence[str]) -> Iterator[str]:
    """Lines on how close trips are; run_trips: of the run, sumo_trips: of SUMO, names: all vehicles of the run. SUMO's
    vehicles that are not among these are counted in a line and left out of the others."""
    known, vehicles = set(names), len(names)
    skipped = [name for name in sumo_trips if name not in known]
    sumo_trips = {name: trip for name, trip in sumo_trips.items() if name in known}
    if skipped:
        yield f"left out: {len(skipped):,} vehicles of SUMO that the run does not have ({first_few(skipped, 3)})"
    both = sorted(run_trips.keys() & sumo_trips.keys())
    yield f"arrived: {len(run_trips):,} here, {len(sumo_trips):,} in SUMO, {len(both):,} in both"
    if both:
        durations = [[trips[name][1] - trips[name][0] for name in both] for trips in (run_trips, sumo_trips)]
        means = [fmean(values) for values in durations]
        more = (means[0] / means[1] - 1) * 100
        yield f"mean trip of these: {means[0]:.1f} s here, {means[1]:.1f} s in SUMO ({more:+.1f} %)"
        r = correlation(*durations)
        yield "trip by trip: " + (f"r = {r:.2f}" if r is not None else "no r, as one side does not vary")
        arrivals = [[arrival for _, arrival in trips.values()] for trips in (run_trips, sumo_trips)]
        gap = greatest_gap(arrivals[0], arrivals[1], vehicles)
        yield f"arrival curves: greatest gap {gap * 100:.1f} % of {vehicles:,} vehicles"


def compare_edges(
    run_edges: Mapping[EdgeKey, tuple[int, float | None]],
    sumo_edges: Mapping[EdgeKey, tuple[int, float]],
    period: int,
    network: int,
) -> Iterator[str]:
    """Lines on how close counts and times on edges are, for the edges and periods that both have; run_edges: of the
    run, {(begin, end, edge): (vehicles, seconds on it by all, None: not known)}; sumo_edges: the same of SUMO, where an
    edge that a period leaves out had nobody on it. period: seconds; network: how many edges the run's network has."""
    periods = {key[:2] for key in run_edges} & {key[:2] for key in sumo_edges}
    edges = {key[2] for key in sumo_edges} & {key[2] for key in run_edges}
    keys = [key for key in run_edges if key[:2] in periods and key[2] in edges]
    if not keys:
        yield f"counts: no period of {period} s and edge in common"
        return
    pairs = [(run_edges[key][0], sumo_edges.get(key, (0, 0))[0]) for key in keys]
    hourly = 3600 / period
    good = sum(geh(one * hourly, other * hourly) < 5 for one, other in pairs)
    r = correlation(*zip(*pairs, strict=True))
    yield f"edges: {len(edges):,} of {network:,} judged, in {len(periods):,} periods of {period} s"
    told = f"counts: GEH below 5 for {good / len(pairs) * 100:.1f} % of {len(pairs):,} counts of {period} s"
    yield told + (f", r = {r:.3f}" if r is not None else "")
    times = [(run_edges[key][1], sumo_edges.get(key, (0, 0))[1]) for key in keys if run_edges[key][1] is not None]
    if times:
        hours = [sum(values) / 3600 for values in zip(*times, strict=True)]
        more = f" ({(hours[0] / hours[1] - 1) * 100:+.1f} %)" if hours[1] else ""
        yield f"time on these edges: {hours[0]:,.1f} vehicle hours here, {hours[1]:,.1f} in SUMO{more}"
