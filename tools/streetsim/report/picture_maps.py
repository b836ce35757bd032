"""Draws the streets of a run by what is known of them: density, delay, level of service, v/c, flow, queue."""
from collections.abc import Iterable, Sequence
from dataclasses import dataclass
from typing import Any

from streetsim.base.colours import STREET
from streetsim.base.files import Fault
from streetsim.base.words import time_of_day
from streetsim.model.folder import Folder
from streetsim.model.mapping import Shape
from streetsim.model.service import COLOURS, LETTERS, WHITE_LETTERS
from streetsim.report import run_series
from streetsim.report.edge_values import EdgeValues, intervals_of, values_of
from streetsim.report.page_map import middle_shape, moved
from streetsim.report.picture_files import Axes, Figure, Lines, Pyplot
from streetsim.report.run_tables import Runs, read_with_any_tables

MEASURE_NAMES = ("density", "delay", "los", "vc", "flow", "queue")
MEASURES = {"delay": "control_delay_s", "vc": "v_c", "queue": "queue_95_m"}  # of the junction tables
LABELS = {
    "delay": ("Control delay of approaches", "seconds"),
    "los": ("Level of service of approaches and junctions", ""),
    "vc": ("Greatest v/c of approaches' movements", "v/c"),
    "flow": ("Vehicles that leave each edge", "vehicles/h"),
    "queue": ("95 % queues of approaches", "metres"),
}
ROUND = (0.5, 1, 2, 5, 10, 20, 50, 100, 200, 500, 1000, 2000, 5000, 10_000)  # ends of the scale of colours
ASIDE, DRAWN = 2.25, 0.7  # points from a street's line to that of a direction; the share of a picture that is streets


@dataclass(frozen=True, slots=True)
class Street:
    """A street in a picture: its shape, and its number or letter; None where it has none."""

    shape: Shape
    measured: Any


def draw_measure(pyplot: Pyplot, path: str, measure: str, second: int | None) -> Figure:
    """The streets of a folder's run, or of its seeds, by one of MEASURE_NAMES but the density, in the interval of
    interval_of (as a rule the busiest where `second` is None). Fault as of that, and where nothing is known of it
    then."""
    runs = read_with_any_tables(path)
    begin, end = interval_of(runs, measure, second)
    values, mapping = values_of(runs, begin, end), runs.first_folder.mapping
    streets = moved_apart(
        Street(middle_shape(mapping, edge), measure_of(values[edge], measure)) for edge in mapping.links_of
    )
    if all(one.measured is None for one in streets):
        raise Fault(f"{path}: nothing is known of {measure} from {begin} to {end} s")
    figure, axes, bar_options = canvas(pyplot, [one.shape for one in streets])
    title, label = LABELS[measure]
    axes.set(title=f"{title}, {time_of_day(begin)} to {time_of_day(end)}")
    if measure == "los":
        draw_letters(axes, streets, runs, (begin, end))
    else:
        figure.colorbar(draw_lines(axes, streets), ax=axes, label=label, extend="max", shrink=0.7, **bar_options)
    scale_bar(axes)
    return figure


def interval_of(runs: Runs, measure: str, second: int | None) -> tuple[int, int]:
    """The interval (begin, end), in seconds, that begins at `second`; where that is None the busiest by the junction
    tables, or without these the first. Fault where none begins then, or the measure needs junction tables and there are
    none."""
    if measure != "flow" and not runs.rows:
        raise Fault(f"{runs.first_folder.path}: a map of {measure} needs streetsim-run --junctions")
    end_of_begin = dict(intervals_of(runs))
    if not end_of_begin:
        raise Fault(f"{runs.first_folder.path}: nothing is known of any interval")
    if second is None:
        return runs.busiest() if runs.rows else min(end_of_begin.items())
    if second not in end_of_begin:
        raise Fault(f"--interval {second}: no interval begins there, of {', '.join(map(str, end_of_begin))}")
    return second, end_of_begin[second]


def measure_of(edge_values: EdgeValues, measure: str) -> float | str | None:
    """The value of an edge by a measure but the density: a number or a letter; none where it is not known."""
    if measure == "flow":
        return edge_values.traffic.flow if edge_values.traffic else None
    if edge_values.row is None:
        return None
    return edge_values.row.letter() if measure == "los" else edge_values.row.means.get(MEASURES[measure])


def moved_apart(streets: Iterable[Street]) -> list[Street]:
    """Streets moved to their right, by some points of the picture, so that both directions are seen."""
    found = list(streets)
    width, height = spans([one.shape for one in found])
    points = 72 * DRAWN * min(9 / max(width, 1.0), (4 if width > 2 * height else 8) / max(height, 1.0))  # a metre
    return [Street(moved([(x, y) for x, y in one.shape], -ASIDE / points), one.measured) for one in found]


def spans(shapes: Iterable[Shape]) -> tuple[float, float]:
    """(how wide, how high) the picture of shapes is, in metres."""
    across, up = zip(*(point for shape in shapes for point in shape))
    return max(across) - min(across), max(up) - min(up)


def canvas(pyplot: Pyplot, shapes: Sequence[Shape]) -> tuple[Figure, Axes, dict[str, str | float]]:
    """(picture of all streets in grey, its axes, settings by which a bar of colours lies beside or below it). shapes:
    of the streets, one at least."""
    from matplotlib.collections import LineCollection

    width, height = spans(shapes)
    wide = width > 2 * height
    figure, axes = pyplot.subplots(figsize=(9, 4) if wide else (9, 8))
    axes.add_collection(LineCollection(shapes, colors=STREET, linewidths=2.5))
    axes.autoscale_view()
    low, high = axes.get_ylim()
    more = max(0.0, 0.2 * width - (high - low)) / 2  # a street alone would be too flat a picture
    axes.set(aspect="equal", ylim=(low - more, high + more), xlabel="x (m)", ylabel="y (m)")
    return figure, axes, {"orientation": "horizontal", "pad": 0.18} if wide else {}


def draw_lines(axes: Axes, streets: Iterable[Street], colours: str = "YlOrRd") -> Lines:
    """Draws edges by their numbers, wider where they are higher, those with none left out; gives the lines, for a bar
    of colours. One at least has a number."""
    from matplotlib.collections import LineCollection

    known = sorted((one for one in streets if one.measured is not None), key=lambda one: one.measured)
    most = next((most for most in ROUND if known[-1].measured <= most), known[-1].measured)
    values, widths = [one.measured for one in known], [1.5 + 5 * one.measured / most for one in known]
    shapes = [one.shape for one in known]
    lines = LineCollection(shapes, cmap=colours, array=values, clim=(0, most), linewidths=widths)
    axes.add_collection(lines)
    return lines


def draw_letters(axes: Axes, streets: Sequence[Street], runs: Runs, interval: tuple[int, int]) -> None:
    """Draws edges and junctions by letter, darker and wider where it is worse, in an interval (begin, end), with the
    legend; those without a letter stay grey."""
    from matplotlib.collections import LineCollection
    from matplotlib.lines import Line2D

    for place, letter in enumerate(LETTERS):
        shapes = [one.shape for one in streets if one.measured == letter]
        axes.add_collection(LineCollection(shapes, colors="#666666", linewidths=3.5 + place))
        axes.add_collection(LineCollection(shapes, colors=COLOURS[letter], linewidths=2.5 + place))
    places = {name: (x, y) for name, x, y, _ in runs.first_folder.mapping.nodes}
    for (name,), row in runs.rows["junctions", *interval].items():
        letter = row.letter()
        axes.plot(*places[name], "o", color=COLOURS[letter], markeredgecolor="black", markersize=12)
        colour = "white" if letter in WHITE_LETTERS else "black"
        axes.annotate(letter, places[name], ha="center", va="center", fontsize=8, color=colour)
    marks = [Line2D([], [], color=COLOURS[letter], linewidth=6, label=letter) for letter in LETTERS]
    axes.set_xlabel("")  # the legend stands there
    axes.legend(handles=marks, loc="upper center", bbox_to_anchor=(0.5, -0.1), ncol=6, frameon=False)


def draw_density(pyplot: Pyplot, folder: Folder) -> Figure:
    """The streets by mean density over all polls, vehicles a kilometre and lane, of each link, above 100 as 100; Fault
    where nothing was polled."""
    densities = run_series.densities(folder)
    shown = moved_apart(Street(link.shape, value) for value, link in zip(densities, folder.mapping.links, strict=True))
    figure, axes, beside = canvas(pyplot, [one.shape for one in shown])
    axes.set(title="Mean density: wider and darker is denser")
    most = next((most for most in (25, 50) if max(densities) <= most), 100)
    lines = draw_lines(axes, [Street(one.shape, min(one.measured, most)) for one in shown], "viridis_r")
    lines.set_clim(0, most)
    figure.colorbar(lines, ax=axes, label="vehicles/km and lane", extend="max", shrink=0.7, **beside)
    scale_bar(axes)
    return figure


def scale_bar(axes: Axes) -> None:
    """Draws a bar of a round number of metres, about a fifth of the picture's width, and behind it an arrow to the
    north, below the streets; the axes' lower limit goes down for it. Called when all else is drawn, as it is placed by
    the limits."""
    x_low, x_high = axes.get_xlim()
    width = max(x_high - x_low, 1)
    metres = run_series.round_length(width / 5.5)
    low, high = axes.get_ylim()
    low -= 0.06 * (high - low)
    axes.set_ylim(low, high)
    begin, bar_y = x_low + 0.03 * width, low + 0.03 * (high - low)
    axes.plot((begin, begin + metres), (bar_y, bar_y), color="black", linewidth=4, solid_capstyle="butt")
    text = run_series.length_told(metres)
    axes.text(begin + metres / 2, bar_y + 0.015 * (high - low), text, ha="center", va="bottom")
    north = begin + metres + 0.04 * width
    axes.plot(north, bar_y, "^", color="black", markersize=9)
    axes.annotate("N", (north, bar_y), (8, 0), textcoords="offset points", va="center")
    axes.set_xlim(x_low, x_high)
