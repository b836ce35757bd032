"""Draws queues before road works, over time and place."""
from streetsim.base.colours import LINE
from streetsim.model.folder import Folder
from streetsim.model.names import Names
from streetsim.report.picture_files import Axes, Figure, Lines, Pyplot
from streetsim.report.works_queues import WorksPlace, works_places_of

MOST_PLACES = 6  # places in one picture
BIN = 22.5  # metres of a field of the picture


def draw_works(pyplot: Pyplot, folder: Folder) -> Figure:
    """A panel for each of the first six places of works: how far before them vehicles stand, and how far the queue
    reaches, over time. Fault where the run had no works, ended before them, or has no polls."""
    places = works_places_of(folder)[:MOST_PLACES]
    figure, panels = pyplot.subplots(len(places), figsize=(10, 1 + 2.6 * len(places)), squeeze=False)
    for place, (axes,) in zip(places, panels, strict=True):
        image = draw_place(axes, folder, place)
    axes.set_xlabel("time (min)")
    figure.subplots_adjust(hspace=0.4)
    figure.colorbar(image, ax=panels.ravel().tolist(), label=f"vehicles that stand in {BIN:g} m")
    return figure


def draw_place(axes: Axes, folder: Folder, works_place: WorksPlace) -> Lines:
    """Draws how many vehicles stand how many metres before one place of works, over time in minutes, with the queue's
    end and the begins of links; gives the image, for a bar of colours."""
    every, room, names = folder.every, works_place.room, Names(folder.mapping)
    columns, rows = max(1, (works_place.end - works_place.begin) // every), int(room // BIN) + 1
    grid = [[0] * columns for _ in range(rows)]
    for clock, metres in works_place.standing:
        column, row = (clock - works_place.begin - 1) // every, int(metres // BIN)
        if 0 <= column < columns and row < rows:
            grid[row][column] += 1
    extent = (works_place.begin / 60, (works_place.begin + columns * every) / 60, 0, rows * BIN)
    image = axes.imshow(grid, origin="lower", aspect="auto", cmap="YlOrRd", interpolation="nearest", extent=extent)
    times = range(works_place.begin + every, works_place.end + 1, every)
    lengths = [works_place.lengths.get(time, 0.0) for time in times]
    axes.step([time / 60 for time in times], lengths, where="pre", color="black", linewidth=0.8, label="queue")
    for piece in works_place.way[:-1]:
        if piece.far < room:
            axes.axhline(piece.far, color=LINE, linewidth=0.8, linestyle="--")
            name = folder.mapping.links[piece.link].edge
            text = f" begin of {f'{names.street(name)} {name}'.lstrip()}"
            place = works_place.begin / 60, piece.far
            axes.annotate(text, place, fontsize=8, va="bottom", backgroundcolor="#ffffffcc")
    begin, end = works_place.metres
    passed = f"{works_place.vehicles:,} vehicles passed"
    capacity = works_place.capacity
    hourly = f", {float(capacity):,.0f} an hour in the worst quarter hour with a queue" if capacity else ""
    where = f"{names.street(works_place.edge)} {works_place.edge}_{works_place.lane}".lstrip()
    axes.set_title(f"Works on {where}, {begin:.0f} to {end:.0f} m: {passed}{hourly}", fontsize=9)
    axes.set(ylabel="metres before them", ylim=(0, room))
    axes.grid(False)
    return image
