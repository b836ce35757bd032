"""Draws fit.png and differences.png: passed over counted, and a map of the differences. streetsim-demand and streetsim-
compare call it."""
from collections.abc import Sequence

from streetsim.base.colours import LINE, OTHER_LINE
from streetsim.demand.judging import GOOD, ComparedCount, JudgedCounts, differences_of, volume_at_geh_5
from streetsim.model.mapping import MapLink
from streetsim.report import picture_files
from streetsim.report.picture_files import Figure, Pyplot
from streetsim.search.route_drawing import draw_flows, middle_point, scale_of_differences

POINTS = 60  # of the curve of GEH
LEAST_COLOUR_RANGE = 50  # vehicles an hour, up to which colours of differences go at least


def draw_fit(folder: str, fit: JudgedCounts, links: Sequence[MapLink], how_passed: str) -> None:
    """Draws fit.png and differences.png into a folder; without matplotlib none, which is said on standard error. Fault
    where one cannot be written. how_passed: of the axes ("passed in the run")."""
    pyplot = picture_files.pyplot_if_installed()
    if pyplot is None:
        return
    picture_files.save_picture(scatter_figure(pyplot, fit.hourly, how_passed), f"{folder}/fit.png")
    picture_files.save_picture(differences_figure(pyplot, fit.hourly, links, how_passed), f"{folder}/differences.png")


def scatter_figure(pyplot: Pyplot, hourly: Sequence[ComparedCount], how_passed: str) -> Figure:
    """The picture of passed over counted, vehicles an hour: a point for each count of an hour, and the curves on which
    GEH is 5. how_passed: as `draw_fit` has it."""
    figure, axes = pyplot.subplots(figsize=(5.6, 5.4))
    for good, colour, mark in ((True, LINE, "o"), (False, OTHER_LINE, "x")):
        volumes = [count.volumes for count in hourly if (count.geh < GOOD) is good]
        label = f"{len(volumes):,} with GEH {'below 5' if good else '5 and more'}"
        axes.plot(*(zip(*volumes) if volumes else ([], [])), mark, color=colour, markersize=4, alpha=0.7, label=label)
    greatest_volume = 1.08 * max([1.0, *(max(count.volumes) for count in hourly)])
    axes.plot((0, greatest_volume), (0, greatest_volume), color="black", linewidth=0.8)
    counted = [greatest_volume * step / POINTS for step in range(POINTS + 1)]
    for sign in (1, -1):
        axes.plot(counted, [volume_at_geh_5(value, sign) for value in counted], "--", color="#777777", linewidth=0.9)
    axes.plot([], [], "--", color="#777777", linewidth=0.9, label="GEH = 5")
    axes.set(xlim=(0, greatest_volume), ylim=(0, greatest_volume), aspect="equal")
    axes.set(xlabel="counted (vehicles/h)", ylabel=f"{how_passed} (vehicles/h)", title="Counts by place and hour")
    axes.legend(frameon=False, fontsize=8, loc="upper left")
    return figure


def differences_figure(
    pyplot: Pyplot, hourly: Sequence[ComparedCount], links: Sequence[MapLink], how_passed: str
) -> Figure:
    """The map of edges by how many vehicles an hour more or fewer passed than were counted: of the edge itself, else of
    its turns together; of all vehicles, else of the classes together. how_passed: as `draw_fit` has it."""
    differences = differences_of(hourly)
    values = [round(differences.get(link.edge, 0.0)) for link in links]
    spans = [max(axis) - min(axis) for axis in zip(*(point[:2] for link in links for point in link.shape))]
    wide = spans[0] > 2 * spans[1]
    figure, axes = pyplot.subplots(figsize=(9, 3.6) if wide else (8, 6.5), layout="constrained")
    most = max(LEAST_COLOUR_RANGE, *(abs(value) for value in values))
    lines = draw_flows(axes, links, values, scale_of_differences(most), f"{how_passed} less counted")
    if counted := [middle_point(link.shape) for link in links if link.edge in differences]:
        axes.plot(*zip(*counted), ".", color="black", markersize=3)
        axes.set_xlabel("x (m); dots: edges that are counted, or from which turns are")
    label, beside = "vehicles/h fewer (broken lines) or more than counted", {"location": "bottom"} if wide else {}
    figure.colorbar(lines, ax=axes, label=label, shrink=0.8, **beside)
    return figure
