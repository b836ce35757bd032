"""Draws pictures of a run: ways along a path, flow over density (in a ring of one lane, too), queues, arrivals."""
from collections.abc import Sequence
from dataclasses import dataclass, replace
from itertools import cycle, pairwise
from math import inf

from streetsim.base import limits
from streetsim.base.colours import LINE, OTHER_LINE, SPEEDS as SPEED_COLOURS
from streetsim.base.files import Fault
from streetsim.model.folder import Folder
from streetsim.model.names import Names
from streetsim.report import ring_diagram, run_series
from streetsim.report.beside_sumo import read_tripinfo
from streetsim.report.picture_files import Axes, Figure, Pyplot

SPEEDS = (  # the least speed, in cells a step, its label, colour and width
    (0, "standing", SPEED_COLOURS[0], 2.2),
    (1, "27 km/h", SPEED_COLOURS[1], 1.4),
    (2, "54 km/h and more", SPEED_COLOURS[2], 0.8),
)
MOST_LANES = 25  # in the picture of queues
MARKERS = "osd^v*"
RING = (20, 40, 60, 70, 80, 90, 110, 140, 180, 250, 350, 500, 700)  # vehicles on 1,000 cells


def refuse_broken(folder: Folder, edges: Sequence[str]) -> None:
    """Fault where one of some edges does not lead to the next, or the map does not have one."""
    links = folder.links_along(edges)
    turns = {(turn.link, turn.next) for turn in folder.mapping.turns}
    for (edge, here), (following, there) in pairwise(zip(edges, links, strict=True)):
        if not any((link, target) in turns for link in here for target in there):
            raise Fault(f"--edges: no turn leads from {edge!r} to {following!r}")


@dataclass(frozen=True, slots=True)
class Corridor:
    """What a picture of ways along a path shows: its edges, its seconds, and whether also the way back."""

    edges: Sequence[str]
    first_second: int  # seconds
    last_second: int
    both_ways: bool = False


def refuse_undrawn(folder: Folder, edges: Sequence[str], first_second: int, last_second: int) -> None:
    """Fault where the ways along some edges cannot be drawn from a first to a last second (both included), as
    draw_corridor tells."""
    refuse_broken(folder, edges)
    if first_second >= last_second:
        raise Fault(f"--first {first_second} is not before --last {last_second}")
    if run_series.track_step(folder) > run_series.MOST_STEP:
        raise Fault(f"{folder.path} was polled every {folder.every} s: a corridor needs streetsim-run --every 1 (to 5)")
    if not any(len(part.clocks) for part, _ in folder.polled_parts(first_second, last_second)):
        raise Fault(f"{folder.path}: nothing was polled from {first_second} to {last_second} s")


def draw_corridor(pyplot: Pyplot, folder: Folder, corridor: Corridor) -> Figure:
    """Where each vehicle is along a path (metres) over time (seconds), the way back below. Fault where the edges make
    no path, first is not before last, lanes were not looked at every 5 s or oftener, nothing was polled from first to
    last (both included), or (both) there is no way back."""
    refuse_undrawn(folder, corridor.edges, corridor.first_second, corridor.last_second)
    ways = [corridor.edges, *([run_series.way_back(folder, corridor.edges)] if corridor.both_ways else [])]
    figure, panels = pyplot.subplots(len(ways), figsize=(10, 6 if len(ways) == 1 else 9.5), squeeze=False)
    for way, (axes,) in zip(ways, panels, strict=True):
        draw_way(axes, folder, replace(corridor, edges=way))
    figure.subplots_adjust(hspace=0.3)
    handles, labels = axes.get_legend_handles_labels()
    axes.legend(handles, labels, loc="upper center", bbox_to_anchor=(0.5, -0.1), ncol=4, frameon=False)
    return figure


def draw_way(axes: Axes, folder: Folder, way: Corridor) -> None:
    """Draws the vehicles along one direction of a path, with its red signals, its green band (in the title), and the
    names of junctions beside it."""
    from matplotlib.collections import LineCollection, PolyCollection

    edges, first_second, last_second = way.edges, way.first_second, way.last_second
    pieces = run_series.trajectories(folder, edges, first_second, last_second)
    _, length = run_series.links_and_length(folder, edges)
    for least, label, colour, width in reversed(SPEEDS):
        shown = [piece for piece in pieces if min(piece[2], SPEEDS[-1][0]) == least]
        fronts = [(begin, end) for begin, end, _, _ in shown]
        axes.add_collection(LineCollection(fronts, colors=colour, linewidths=width, label=label))
        axes.add_collection(
            PolyCollection(run_series.long_vehicle_strips(shown), facecolors=colour, linewidths=0, alpha=0.6)
        )
    for at, (place, begin, end) in enumerate(run_series.red_times(folder, edges, first_second, last_second)):
        named = "red" if at == 0 else None
        axes.plot((begin, end), (place, place), color="black", linewidth=4, solid_capstyle="butt", label=named)
    streets = Names(folder.mapping)
    begin_of, end_of = (streets.street(edge) or edge for edge in (edges[0], edges[-1]))
    where = f"Along {begin_of}" if begin_of == end_of else f"From {begin_of} to {end_of}"
    title = f"{where}: each line is a vehicle"
    band = run_series.green_band(folder, edges, first_second)
    title += f"; green band {band[0]} of {band[1]} s" if band else ""
    axes.set(xlim=(first_second, last_second), ylim=(0, length * 1.01), title=title)
    axes.set(xlabel="time (s)", ylabel="place along the path (m)")
    names = axes.secondary_yaxis("right")
    names.set_yticks(*zip(*run_series.junctions_along(folder, edges), strict=True))
    names.tick_params(length=0)


def draw_ring(pyplot: Pyplot, program: str | None, dawdles: Sequence[int], limit: int) -> Figure:
    """Flow over density in a ring of one lane, measured by the program, for some chances of dawdling, of 1,000;
    program: its path, None: as Client finds it; limit: cells a step. Fault where it cannot be started."""
    figure, axes = empty_diagram(pyplot, f"One lane in a ring, limit {limit * limits.CELL_KMH} km/h")
    for dawdle, marker in zip(dawdles, cycle(MARKERS)):
        points = [ring_diagram.measure_ring(program, count, limit, dawdle) for count in RING]
        densities, flows = [point.per_km for point in points], [point.per_hour for point in points]
        axes.plot(densities, flows, marker=marker, markersize=4, label=f"dawdle {dawdle}")
    axes.legend(frameon=False)
    begin_at_zero(axes)
    return figure


def draw_fundamental(pyplot: Pyplot, folder: Folder, edges: Sequence[str], at_stop_lines: bool) -> Figure:
    """Flow over density of some edges, or of all where none is named: at the stop lines by counts.csv, else in the
    middle third of lanes by polls. Fault for an unknown edge, or where the polls it needs are missing."""
    folder.links_along(edges)  # which names an edge that the map does not have
    points_of = run_series.counted_densities_and_flows if at_stop_lines else run_series.middle_densities_and_flows
    counts = points_of(folder, edges)
    where = "Counts of {} s at the stop lines" if at_stop_lines else "Middle third of lanes, means of {} s"
    figure, axes = empty_diagram(pyplot, where.format(folder.period))
    axes.scatter(*(zip(*counts, strict=True) if counts else ((), ())), s=10, color=LINE, alpha=0.6, linewidths=0)
    begin_at_zero(axes)
    return figure


def empty_diagram(pyplot: Pyplot, title: str) -> tuple[Figure, Axes]:
    """(empty picture of flow over density, its axes)."""
    figure, axes = pyplot.subplots(figsize=(7, 5))
    axes.set(xlabel="density (vehicles/km and lane)", ylabel="flow (vehicles/h and lane)", title=title)
    return figure, axes


def begin_at_zero(axes: Axes) -> None:
    """Has both axes begin at 0."""
    axes.set_xlim(left=0)
    axes.set_ylim(bottom=0)


def draw_queues(pyplot: Pyplot, folder: Folder) -> Figure:
    """The longest queues at stop lines over time, of 25 lanes at most; Fault where there were none."""
    lanes, count = run_series.longest_queues(folder, MOST_LANES)
    if not lanes:
        raise Fault(f"{folder.path}: no queues in this run")
    known = {time for _, queue in lanes for time in queue}
    times = range(min(known), max(known) + 1, folder.every)
    figure, axes = pyplot.subplots(figsize=(10, 1 + 0.26 * max(4, len(lanes))))
    grid = [[queue.get(time, 0) for time in times] for _, queue in lanes]
    extent = (times[0] / 60, (times[-1] + folder.every) / 60, len(lanes) - 0.5, -0.5)
    image = axes.imshow(grid, aspect="auto", cmap="magma_r", interpolation="nearest", extent=extent)
    mapping = folder.mapping
    room = {mapping.lane_name(link, lane): mapping.links[link].metres for link, lane in mapping.lanes()}
    axes.set_yticks(range(len(lanes)), [f"{name}, {room[name.rpartition(' ')[2]]:.0f} m" for name, _ in lanes])
    axes.grid(False)
    title = f"Queues at the stop lines: the {len(lanes)} longest of {count} lanes"
    axes.set(xlabel="time (min)", ylabel="lane and its length", title=title)
    figure.colorbar(image, ax=axes, label="queue (m)")
    return figure


def draw_arrivals(pyplot: Pyplot, folder: Folder, tripinfo: str | None) -> Figure:
    """Wished departures and arrivals over time, and below them the departures less the arrivals; where a tripinfo (its
    path) is given, also SUMO's arrivals up to the run's end, and below the arrivals less these."""
    departs, arrivals = run_series.arrival_curves(folder)
    figure, (axes, lower_axes) = pyplot.subplots(2, figsize=(8, 6.5), sharex=True, height_ratios=(3, 1))
    curves: list[tuple[Sequence[float], str, str, str]]
    curves = [(departs, "wished departures", "#888888", "--"), (arrivals, "arrivals here", LINE, "-")]
    if tripinfo:
        end = folder.setting.get("until", inf)
        sumo = sorted(arrival for _, arrival in read_tripinfo(tripinfo).values() if arrival <= end)
        curves.append((sumo, "arrivals in SUMO", OTHER_LINE, ":"))
        clocks, differences = run_series.curve_difference(arrivals, sumo)
        lower_axes.set(ylabel="here less SUMO")
    else:
        clocks, differences = run_series.curve_difference(departs, arrivals)
        lower_axes.set(ylabel="on their way or\nwaiting to depart")
    for moments, label, colour, style in curves:
        minutes, counts = [moment / 60 for moment in moments], range(1, len(moments) + 1)
        axes.step(minutes, counts, where="post", label=label, color=colour, linestyle=style, linewidth=1.8)
    lower_axes.step([time / 60 for time in clocks], differences, where="post", color=LINE, linewidth=1.4)
    lower_axes.axhline(0, color="black", linewidth=0.8)
    title = f"{len(arrivals):,} of {len(folder.trips()):,} vehicles arrived"
    axes.set(ylabel="vehicles", title=title, xlim=(0, None), ylim=(0, None))
    lower_axes.set(xlabel="time (min)")
    axes.legend(frameon=False)
    return figure
