"""The data of the page that plays the vehicles of a run, or of two side by side."""
import json
import os
from collections.abc import Iterable, Sequence
from dataclasses import dataclass
from pathlib import Path

from streetsim.base.array_groups import by_number
from streetsim.base.arrays import Array
from streetsim.base.arrays import numpy as np
from streetsim.base.files import Json
from streetsim.model.folder import Folder
from streetsim.model.names import Names
from streetsim.model.rows import Stretches
from streetsim.model.tables import SUMMARY, read_table

FOLDER = Path(__file__).resolve().parent  # of the page's parts
MOST_BYTES = 100_000_000  # of the packed data; browsers are slow with more


# By row of a page what stood there: the place of its clock, its lane (twice the link, and the lane), the cell of its
# front, below 0 in the buffer behind the lane, its speed in cells a second, and its size in cells.
COLUMNS = ("frame", "slot", "cell", "speed", "size")


@dataclass(frozen=True, slots=True)
class Played:
    """What the page plays of a run: `run`, as of player_data, with "clocks", "closed", as of closed_changes, and
    "columns" [name, bits of an entry, how many]; and the bytes of these, of each entry how much more it is than the one
    before."""

    run: Json
    columns: bytes


def packed_runs(runs: Iterable[Played]) -> bytes:
    """The runs that a page plays as one: a line of JSON, and the columns of each."""
    head = json.dumps([played_run.run for played_run in runs], separators=(",", ":"))
    return b"".join([head.encode(), b"\n", *(played_run.columns for played_run in runs)])


def played(folder: Folder, first_second: int, last_second: int, every: int | None = None) -> Played:
    """What the page plays of a run from a first to a last second, both included: its polls, or the seconds that are
    multiples of `every`. Fault where they cannot be read."""
    parts: list[Sequence[Array]] = [(np.zeros(0, np.int64),) * (1 + len(COLUMNS))]
    counts: list[list[int]] = []
    closed: list[Stretches] = []
    for part, closed_at in folder.polled_parts(first_second, last_second, every):
        parts.append((part.vehicle, part.clock_place + len(counts), part.slot, part.cell, part.speed, part.size))
        standing = np.bincount(part.clock_place[part.is_on_cells & (part.speed == 0)], minlength=len(part.clocks))
        counts += np.array([part.clocks, np.diff(part.first_rows), standing]).T.tolist()
        closed += closed_at
    vehicle, *columns = map(np.concatenate, zip(*parts, strict=True))
    order = by_number(vehicle)  # one vehicle's seconds on end: small steps
    packed = [packed_steps(column[order]) for column in columns]
    heads = [[name, bits, len(order)] for name, (bits, _) in zip(COLUMNS, packed, strict=True)]
    frames = {"clocks": [clock for clock, *_ in counts], "closed": closed_changes(closed), "columns": heads}
    return Played(player_data(folder, every or folder.every, counts) | frames, b"".join(data for _, data in packed))


def packed_steps(column: Array) -> tuple[int, bytes]:
    """(bits of an entry, bytes) of how much more each entry of a column is than the one before, 0 before the first."""
    steps = np.diff(column.astype(np.int64), prepend=0)
    kind = np.min_scalar_type(-1 - int(np.abs(steps).max(initial=0))).newbyteorder("<")
    return 8 * kind.itemsize, steps.astype(kind).tobytes()


def closed_changes(closed: Sequence[Stretches]) -> list[list[object]]:
    """[place of a clock, [[link, lane, first, last cell], ..]] of the closed stretches of lanes, of the first clock and
    of those at which they are others than before; closed: by clock."""
    changes: list[list[object]] = []
    for frame, stretches in enumerate(closed):
        if not frame or stretches != closed[frame - 1]:
            lanes = sorted(stretches.items())
            changes.append([frame, [[slot >> 1, slot & 1, *one] for slot, some in lanes for one in some]])
    return changes


def player_data(folder: Folder, every: int, counts: Iterable[Sequence[int]]) -> Json:
    """What the page plays of a run but for what stood there, as an object for json: "name" of the folder; "links",
    {"name", "points" in metres, "lanes" and "cells": how many, "end": its node, "street": its name where it has one};
    "junctions" with lights, [name, x, y]; "signals", [clock, node, offset, [[seconds, links that may go], ..]], of the
    whole run; "every": seconds between frames; and "chart", as of chart_points. Fault where they cannot be read."""
    names, mapping = Names(folder.mapping), folder.mapping
    links = [
        {
            "name": names.street(link.edge) or link.edge, "points": link.shape, "lanes": len(link.lanes),
            "cells": link.cells, "end": link.end,
            **({"street": names.street(link.edge)} if names.street(link.edge) else {}),
        }
        for link in mapping.links
    ]
    signals = []
    for clock, command in folder.signals:
        phases = [[seconds, sorted({link for link, _, _ in greens})] for seconds, greens in command["phases"]]
        signals.append([clock, command["node"], command["offset"], phases])
    lit = [mapping.nodes[node] for node in sorted({node for _, node in mapping.signals})]
    return {
        "name": name_with_notes(folder),
        "links": links,
        "junctions": [[names.junction(name) or name, x, y] for name, x, y, _ in lit],
        "signals": signals,
        "every": every,
        "chart": chart_points(folder, counts),
    }


def name_with_notes(folder: Folder) -> str:
    """The folder's name; behind it what is said of its program's proofs, and of invented demand, where it is so."""
    said = folder.unproved.partition(":")[0], "invented demand" if folder.mapping.invented else ""
    notes = [text for text in said if text]
    return os.path.basename(os.path.normpath(folder.path)) + (f" ({', '.join(notes)})" if notes else "")


def chart_points(folder: Folder, counts: Iterable[Sequence[int]]) -> list[list[int | None]]:
    """[clock, vehicles on cells and in buffers, those that stand on cells, arrived] of each frame; counts: the first
    three; arrived: None where summary.csv has no row of its clock, or is not there. Fault where it cannot be read."""
    path = f"{folder.path}/summary.csv"
    rows = read_table(path, SUMMARY) if os.path.exists(path) else []
    arrived = {int(row["time"]): int(row["arrived"]) for row in rows}
    return [[*count, arrived.get(count[0])] for count in counts]
