"""How many vehicles passed the counts in a folder of streetsim-run: by its tables, else by its rows of each second.
streetsim-compare and streetsim-report call it."""
import csv
import os
from collections import defaultdict
from collections.abc import Iterator, Sequence
from dataclasses import dataclass
from itertools import pairwise

from streetsim.base.arrays import Array, numpy as np
from streetsim.base.files import Fault, open_text, reading
from streetsim.base.unpacking import lines_of
from streetsim.demand.checking import check_periods
from streetsim.demand.values import Count
from streetsim.model.folder import Folder
from streetsim.model.rows import NAME as ROWS, parts_of
from streetsim.model.stops import vehicle_classes_of
from streetsim.model.tables import unguarded

NEVER = -1  # a clock that does not come

Key = tuple[str, ...]
Row = tuple[int, int, float]  # begin and end in seconds, vehicles


def passed_in(folder: Folder, counts: Sequence[Count]) -> list[float]:
    """The vehicles that passed in each count's period, in the counts' order; of a period that goes on after the run's
    end those until then. Fault where the run does not have edges of theirs or ended before a period, two overlap, or
    the folder cannot tell."""
    check_counts_in_run(folder, counts)
    rows = {**edge_rows(folder), **movement_rows(folder)}
    passed = [vehicles_within(rows.get(count.edges, ()), count) if not count.kind else None for count in counts]
    missing = [count for count, value in zip(counts, passed, strict=True) if value is None]
    more = passed_by_rows(folder, missing) if missing else iter(())
    return [next(more) if value is None else value for value in passed]


def check_counts_in_run(folder: Folder, counts: Sequence[Count]) -> None:
    """Fault for counts of edges or turns that the run's map does not have, of periods that begin when edges.csv has
    ended, and for two counts of the same edges and class whose periods overlap; and where edges.csv cannot be read."""
    links = folder.mapping.links
    edge_pairs = {(links[turn.link].edge, links[turn.next].edge) for turn in folder.mapping.turns}
    end = max((float(row["end"]) for row in folder.edges()), default=0.0)
    for count in counts:
        for edge in count.edges:
            if edge not in folder.mapping.links_of:
                raise Fault(f"{count.location}: the run's map has no edge {edge!r}")
        for pair in pairwise(count.edges):
            if pair not in edge_pairs:
                raise Fault(f"{count.location}: no turn leads from edge {pair[0]!r} to edge {pair[1]!r} in the run")
        if count.begin >= end:
            raise Fault(f"{count.location}: counted from {count.begin:,} s on, and {folder.path} ends at {end:,.0f} s")
    check_periods(counts)


def edge_rows(folder: Folder) -> dict[Key, list[Row]]:
    """By (edge,): (begin, end, vehicles that left it or arrived on it) of each period of edges.csv. Fault where this
    cannot be read."""
    by_edge: defaultdict[Key, list[Row]] = defaultdict(list)
    for row in folder.edges():
        by_edge[(row["edge"],)].append((int(row["begin"]), int(row["end"]), float(row["left"])))
    return by_edge


def movement_rows(folder: Folder) -> dict[Key, list[Row]]:
    """By (edge, next edge): (begin, end, vehicles) of each interval of movements.csv, for movements on which somebody
    passed in one of them; empty where the run has no junction tables. Fault where their file cannot be read."""
    path = f"{folder.path}/movements.csv"
    if not os.path.exists(path):
        return {}
    vehicles_of: defaultdict[Key, dict[tuple[int, int], float]] = defaultdict(dict)
    with reading(path), open_text(path) as file:
        for row in csv.DictReader(lines_of(file)):
            key = unguarded(row["approach"]), unguarded(row["to"])
            vehicles_of[key][int(row["begin"]), int(row["end"])] = float(row["vehicles"])
    times = sorted({time for vehicles_by_time in vehicles_of.values() for time in vehicles_by_time})
    return {key: [(*time, by_time.get(time, 0.0)) for time in times] for key, by_time in vehicles_of.items()}


def vehicles_within(rows: Sequence[Row], count: Count) -> float | None:
    """The vehicles of those rows (begin, end, vehicles) that together make up a count's period, as far as there are
    rows; none where they do not."""
    last = min(count.end, max((end for _, end, _ in rows), default=count.end))
    inside = [row for row in rows if count.begin <= row[0] and row[1] <= last]
    whole = sum(end - begin for begin, end, _ in inside) == last - count.begin
    return sum(vehicles for *_, vehicles in inside) if whole else None


@dataclass(frozen=True, slots=True)
class Visits:
    """The edges on which vehicles were, as columns, by vehicle and then in the order in which they came to them: the
    vehicle's number, the edge's number, and the clock at which the vehicle passed the edge's end or arrived there,
    NEVER where it did not."""

    vehicle: Array
    edge: Array
    passing_clock: Array

    def clocks_of(self, edges: Sequence[int]) -> tuple[Array, Array]:
        """(vehicles, clocks) of those who pass the end of an edge, or of those who drive over two edges or more, by
        their numbers, one behind the other: these pass where they come on the last one."""
        last_row = np.arange(len(edges) - 1, len(self.vehicle))
        first_row = last_row - (len(edges) - 1)
        fits = self.vehicle[first_row] == self.vehicle[last_row]
        for step, edge in enumerate(edges):
            fits &= self.edge[first_row + step] == edge
        rows = (last_row if len(edges) == 1 else last_row - 1)[fits]
        return self.vehicle[rows], self.passing_clock[rows]


def passed_by_rows(folder: Folder, counts: Sequence[Count]) -> Iterator[int]:
    """The vehicles that passed in each count's period, by the run's rows of each second. Fault where it has none, or
    those of some edges alone, or they cannot be read. counts: one at least."""
    words = words_of_counted_run(folder)
    if not os.path.exists(f"{folder.path}/{ROWS}") or any(word.startswith("--edges") for word in words):
        raise Fault(
            f"{counts[0].location}: {folder.path} has neither this place and period in its tables nor {ROWS} of all "
            f"edges: run it with --junctions {counts[0].end - counts[0].begin}, or without --edges and --every 0"
        )
    number = {edge: index for index, edge in enumerate(folder.mapping.links_of)}
    kinds = np.array(vehicle_classes_of(folder.mapping.kinds, len(folder.trips())), object)
    visits = visits_in(folder, np.array([number[link.edge] for link in folder.mapping.links]))
    counted = {count.edges for count in counts}
    clocks_by_edges = {edges: visits.clocks_of([number[edge] for edge in edges]) for edges in counted}
    for count in counts:
        vehicles, clocks = clocks_by_edges[count.edges]
        inside = (clocks > count.begin) & (clocks <= count.end)
        yield int((inside & (kinds[vehicles] == count.kind) if count.kind else inside).sum())


def words_of_counted_run(folder: Folder) -> Sequence[str]:
    """The words by which a run was made whose passages are counted, as far as its setting has them."""
    arguments = folder.setting.get("words", ())
    return [str(word) for word in arguments] if isinstance(arguments, list) else ()


def visits_in(folder: Folder, edge_of: Array) -> Visits:
    """The visits of a run, by its rows and its trips; edge_of: by link the number of its edge. Fault where a file
    cannot be read."""
    arrived = [(number, int(row["arrival"])) for number, row in enumerate(folder.trips()) if row["arrival"]]
    ends = np.array(arrived, np.int64).reshape(-1, 2).T
    slot = np.full(len(folder.trips()), NEVER)  # where each vehicle was seen last: twice its link, and 1 behind it
    parts = [(*ends, np.full(ends.shape[1], NEVER), np.ones(ends.shape[1], bool))]
    path = f"{folder.path}/{ROWS}"
    with reading(path), open(path, "rb") as file:
        for part in parts_of(file, path):
            order = np.argsort(part.vehicle, kind="stable")
            vehicle = part.vehicle[order].astype(np.int64)
            position = 2 * (part.slot[order] // 2) + (part.cell[order] < 0)
            fresh = np.append(True, vehicle[1:] != vehicle[:-1])[: len(vehicle)]
            before = np.where(fresh, slot[vehicle], np.append(0, position)[:-1])
            clock = part.clocks[part.clock_place[order]]
            rows = np.flatnonzero(position != before)
            parts.append((vehicle[rows], clock[rows], edge_of[position[rows] // 2], position[rows] % 2 == 1))
            slot[vehicle] = position
    vehicle, clock, edge, passes = (np.concatenate(columns) for columns in zip(*parts, strict=True))
    order = np.lexsort((clock, vehicle))
    vehicle, clock, edge, passes = vehicle[order], clock[order], edge[order], passes[order]
    comes = np.flatnonzero(~passes)
    has_passed = np.append(passes[1:], False)[comes]  # the row behind it is that of its end
    return Visits(vehicle[comes], edge[comes], np.where(has_passed, np.append(clock[1:], 0)[comes], NEVER))
