"""Pictures of a search for routes: the gap over iterations, and flows before and with road works."""
from collections import Counter
from collections.abc import Sequence
from typing import Any, NamedTuple

from streetsim.base.colours import FEWER_TO_MORE, LINE
from streetsim.model.mapping import MapLink
from streetsim.report.picture_files import Axes, Figure, Lines, Pyplot, pyplot_if_installed, save_picture
from streetsim.search.route_diverting import Diverted

STYLES = ("-", "--", ":", "-.")
Colours = Any  # matplotlib's, which has no hints
WIDEST = 5.0  # points, of the greatest flow
CLASSES = 6  # of flows, at most
SMALL = 0.1  # of the greatest difference: less is about equal
ROOM = 1.3  # of the height of lines, so that names stand above them
NEAR = 250.0  # metres around what differs, at least


def draw_search(folder: str, without_works: Diverted, diverted: Diverted) -> None:
    """Draws gap.png, and with works flows.png, into a folder; where matplotlib is not installed it draws nothing and
    says so. Fault where one cannot be written. diverted: the search with works, or without_works itself."""
    pyplot = pyplot_if_installed()
    if pyplot is None:
        return
    searches = [without_works] if diverted is without_works else [without_works, diverted]
    save_picture(gap_figure(pyplot, searches), f"{folder}/gap.png")
    if diverted is not without_works:
        save_picture(flow_figure(pyplot, without_works, diverted), f"{folder}/flows.png")


def gap_figure(pyplot: Pyplot, searches: Sequence[Diverted]) -> Figure:
    """The picture of the relative gap (%) over iterations, a line for each search, four at most, with a dot for the
    routes kept, at their gap by the check seeds."""
    figure, axes = pyplot.subplots(figsize=(6.5, 3.5))
    for style, diverted in zip(STYLES, searches):
        numbers = [iteration.number for iteration in diverted.search.iterations]
        percents = [100 * iteration.gap for iteration in diverted.search.iterations]
        axes.plot(numbers, percents, style, color=LINE, label=diverted.label)
        axes.plot([diverted.search.best.number], [100 * diverted.judged.gap], "o", color="black", markersize=5)
    axes.plot([], [], "o", color="black", label="the routes kept, by seeds that the search did not see")
    title = "What all could gain by other ways, of their shortest ways"
    axes.set(xlabel="iteration", ylabel="relative gap (%)", title=title)
    axes.set_ylim(0, ROOM * axes.get_ylim()[1])
    axes.legend(frameon=False, fontsize=8, loc="upper right")
    return figure


def flow_figure(pyplot: Pyplot, without_works: Diverted, diverted: Diverted) -> Figure:
    """The picture of how many trips have each edge on their way: without works, with them, and the difference, which is
    zoomed to where there is one; the last two with a cross on each closed edge."""
    links, graph = without_works.judged.loaded.mapping.links, without_works.search.town.graph
    cases = (without_works, diverted)
    flows_before, flows_after = (Counter(edge for trip in case.trips for edge in set(trip.path)) for case in cases)
    number = [graph.number[link.edge] for link in links]
    closing = diverted.search.closing
    closed = {part for part in closing.shut if isinstance(part, int)} if closing else set()
    works = [middle_point(link.shape) for link, edge in zip(links, number, strict=True) if edge in closed]
    flows_by_case = [[counts[edge] for edge in number] for counts in (flows_before, flows_after)]
    figure, axes = pyplot.subplots(1, 3, figsize=(13, 4.4), layout="constrained")
    scale = scale_of_counts(max(1, *flows_by_case[0], *flows_by_case[1]))
    for panel, title, counts in zip(axes, ("before", diverted.label), flows_by_case):
        lines = draw_flows(panel, links, counts, scale, title)
    figure.colorbar(lines, ax=axes[:2], label="trips", location="bottom", shrink=0.6)
    apart = [after - first for first, after in zip(*flows_by_case, strict=True)]
    scale = scale_of_differences(max(1, *(abs(value) for value in apart)))
    lines = draw_flows(axes[2], links, apart, scale, "difference")
    label = "trips fewer (broken lines) or more than before"
    figure.colorbar(lines, ax=axes[2], label=label, location="bottom", shrink=0.9)
    zoom_to_differences(axes[2], links, apart)
    if works:
        for panel in axes[1:]:
            panel.plot(*zip(*works), "x", color="black", markersize=9, markeredgewidth=2, label="closed")
        axes[2].legend(frameon=False, fontsize=8)
    return figure


class Scale(NamedTuple):
    """Colours for the values of links: the colours, the limits of their classes, and the value that gets the widest
    line."""

    colours: Colours
    norm: Colours
    widest_value: float


def scale_of_counts(greatest_count: int) -> Scale:
    """Colours for counts from 0 to the greatest, in at most CLASSES classes, darker for more."""
    from matplotlib import colormaps
    from matplotlib.colors import BoundaryNorm, ListedColormap
    from matplotlib.ticker import MaxNLocator

    steps = MaxNLocator(CLASSES, integer=True).tick_values(0, greatest_count)
    count = len(steps) - 1
    colours = [colormaps["viridis_r"](0.15 + 0.85 * at / max(1, count - 1)) for at in range(count)]
    return Scale(ListedColormap(colours), BoundaryNorm(steps, count), greatest_count)


def scale_of_differences(greatest_difference: int) -> Scale:
    """Colours for differences up to the greatest: red for more and blue for fewer, grey for less than SMALL of the
    greatest; the limits of classes are whole numbers."""
    from matplotlib.colors import BoundaryNorm, ListedColormap

    steps: list[float] = [round(greatest_difference * share) for share in (-1.0, -0.6, -0.3, -0.1, 0.1, 0.3, 0.6, 1.0)]
    steps = [step + at * 1e-6 for at, step in enumerate(steps)]  # so that they rise where there are few trips
    return Scale(ListedColormap(FEWER_TO_MORE), BoundaryNorm(steps, len(FEWER_TO_MORE)), greatest_difference)


def draw_flows(axes: Axes, links: Sequence[MapLink], link_values: Sequence[int], scale: Scale, title: str) -> Lines:
    """Draws all links on a map in grey, and those whose value is not 0 in colour, wider the farther from 0; link_values
    has one for each link, and those below 0 are broken lines. Gives the coloured lines, for a colour bar."""
    from matplotlib.collections import LineCollection

    axes.add_collection(LineCollection([link.shape for link in links], colors="#d8d8d8", linewidths=0.8))
    order = sorted((at for at, value in enumerate(link_values) if value), key=lambda at: abs(link_values[at]))
    lines = LineCollection(
        [links[at].shape for at in order],
        array=[link_values[at] for at in order], cmap=scale.colours, norm=scale.norm,
        linewidths=[0.8 + WIDEST * abs(link_values[at]) / scale.widest_value for at in order],
        linestyles=["-" if link_values[at] > 0 else (0, (2, 0.6)) for at in order],
    )  # fmt: skip
    axes.add_collection(lines)
    axes.autoscale_view()
    axes.set(aspect="equal", title=title, xlabel="x (m)", ylabel="y (m)")
    return lines


def zoom_to_differences(axes: Axes, links: Sequence[MapLink], link_values: Sequence[int]) -> None:
    """Narrows the map to a square around the links whose value, without its sign, is above SMALL of the greatest: from
    its middle at least NEAR metres to each side. The whole map stays where no link has such a value. link_values: one
    at least."""
    least = SMALL * max(abs(value) for value in link_values)
    different = [link for link, value in zip(links, link_values, strict=True) if abs(value) > least]
    points = [point for link in different for point in link.shape]
    if not points:
        return
    spans = [(min(axis), max(axis)) for axis in zip(*points)]
    half = max(NEAR, *(0.6 * (last - first) for first, last in spans))
    for (first, last), set_limits in zip(spans, (axes.set_xlim, axes.set_ylim)):
        set_limits((first + last) / 2 - half, (first + last) / 2 + half)


def middle_point(shape: Sequence[Sequence[float]]) -> tuple[float, float]:
    """A point (x, y) in metres at a street: the middle corner of its shape, or halfway between the two in the
    middle."""
    (x, y), (next_x, next_y) = shape[(len(shape) - 1) // 2], shape[len(shape) // 2]
    return (x + next_x) / 2, (y + next_y) / 2
