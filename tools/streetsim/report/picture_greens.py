"""Draws how long the greens of lights that detectors drive lasted, over time."""
from collections import defaultdict
from collections.abc import Mapping, Sequence
from math import ceil

from streetsim.base.colours import LINE, OTHER_LINE
from streetsim.base.files import Fault
from streetsim.model.folder import Folder
from streetsim.model.names import Names
from streetsim.report.picture_files import Axes, Figure, Pyplot

MOST_LIGHTS = 6  # lights in one picture
COLOURS = (LINE, OTHER_LINE, "#3a8040", "#7a4a9a", "#806010", "#404040")
MARKERS = "os^Dv*"
Row = Mapping[str, str]


def draw_greens(pyplot: Pyplot, folder: Folder, lights: Sequence[str]) -> Figure:
    """A panel for each of some lights, the first six where none is named: how long each of its greens lasted. Fault as
    of ended_greens."""
    rows = ended_greens(folder, lights)
    figure, panels = pyplot.subplots(len(rows), figsize=(10, 1 + 2.6 * len(rows)), squeeze=False, sharex=True)
    names, mapping = Names(folder.mapping), folder.mapping
    places = {light: mapping.nodes[node][0] for light, node in mapping.signals}
    for (light, own), (axes,) in zip(rows.items(), panels, strict=True):
        called = names.junction(places.get(light, ""))
        draw_light(axes, f"{light}, {called}" if called else light, own)
    axes.set_xlabel("time (min)")
    figure.subplots_adjust(hspace=0.35)
    return figure


def ended_greens(folder: Folder, lights: Sequence[str]) -> dict[str, list[Row]]:
    """{light: the rows of phases.csv of its greens that have ended, one at least, without those in which yellow is
    shown}; of the first six lights by name that have some where none is named. Fault where detectors drive no light, or
    none of that name, or no green of it, or of any, has ended."""
    greens_of_light: defaultdict[str, list[Row]] = defaultdict(list)
    rows = folder.phases()
    for row in rows:
        if set(row["state"]) & set("Gg") and not set(row["state"]) & set("yY") and row["ended"]:
            greens_of_light[row["light"]].append(row)
    for light in lights:
        if not any(row["light"] == light for row in rows):
            raise Fault(f"{folder.path}: detectors drive no light {light!r} in this run")
    if not greens_of_light or (late := [light for light in lights if light not in greens_of_light]):
        which = f" of light {late[0]!r}" if greens_of_light else ""
        raise Fault(f"{folder.path}: no green{which} had ended when the run did")
    return {light: greens_of_light[light] for light in lights or sorted(greens_of_light)[:MOST_LIGHTS]}


def draw_light(axes: Axes, light: str, rows: Sequence[Row]) -> None:
    """Draws seconds of greens over their begin in minutes, by phase; filled where traffic held one until its greatest
    length. light: its title; rows: its own, of ended_greens."""
    phases = sorted({int(row["phase"]) for row in rows})
    for at, phase in enumerate(phases):
        own = [row for row in rows if int(row["phase"]) == phase]
        colour, marker = COLOURS[at % len(COLOURS)], MARKERS[at % len(MARKERS)]
        times = [int(row["begin"]) / 60 for row in own]
        seconds = [int(row["seconds"]) for row in own]
        filled = [colour if row["ended"] == "most" else "none" for row in own]
        label = f"phase {phase}, mean {sum(seconds) / len(seconds):.0f} s: {own[0]['state']}"
        shape = {"s": 14, "marker": marker, "linewidths": 0.8}
        axes.scatter(times, seconds, facecolors=filled, edgecolors=colour, label=label, **shape)
    longest = max(int(row["seconds"]) for row in rows)
    axes.set(ylabel="seconds of green", ylim=(0, ceil(longest * 1.1) + 1))
    axes.set_title(f"Light {light}: filled where its most was reached", fontsize=9)
    axes.legend(frameon=False, fontsize=7, ncol=2, loc="upper right")
