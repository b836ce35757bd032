"""What is known of each edge in an interval: means over the seeds of a run."""
from collections import defaultdict
from collections.abc import Iterable, Sequence
from dataclasses import dataclass

from streetsim.report.run_tables import ResultRow, Runs


@dataclass(slots=True)
class Traffic:
    """What was seen of an edge in an interval."""

    flow: float  # vehicles an hour that left the edge
    density: float | None  # vehicles a kilometre, all lanes together; none where it is not known
    speed: float | None  # km/h; none where nobody moved or it is not known


@dataclass(slots=True)
class EdgeValues:
    """What is known of an edge in an interval; traffic is none where its lanes were not counted, row where it is no
    approach or one that nobody used, or the run had no --junctions."""

    traffic: Traffic | None
    row: ResultRow | None


def intervals_of(runs: Runs) -> list[tuple[int, int]]:
    """The (begin, end) of the junction tables, in seconds, rising; of the first seed's edges.csv without them."""
    return runs.intervals() or sorted({(int(row["begin"]), int(row["end"])) for row in runs.first_folder.edges()})


def traffic_of(rows: Iterable[dict], begin: int, end: int) -> dict[str, Traffic]:
    """{edge: its traffic from `begin` to `end`}, in seconds, of rows of edges.csv; a row whose period lies in part
    there counts with that part. Edges without a row are left out."""
    parts_of_edge = defaultdict(list)
    for row in rows:
        first, last = int(row["begin"]), int(row["end"])
        seconds = min(end, last) - max(begin, first)
        if seconds > 0:
            parts_of_edge[row["edge"]].append((row, seconds, seconds / (last - first)))
    return {edge: traffic_of_parts(those) for edge, those in parts_of_edge.items()}


def traffic_of_parts(row_parts: Sequence[tuple[dict, float, float]]) -> Traffic:
    """The traffic of an edge in an interval; row_parts, one at least: (row of edges.csv, its seconds in the interval,
    these as a share of its period). Density is a mean by seconds, speed by vehicles, of the rows that have them."""
    vehicles_left = sum(int(row["left"]) * share for row, _, share in row_parts)
    seconds = sum(those for _, those, _ in row_parts)
    measured = [
        (float(row["density_per_km"]), row["mean_speed_kmh"], those)
        for row, those, _ in row_parts
        if row["density_per_km"]
    ]
    weights = sum(those for *_, those in measured)
    density = sum(value * those for value, _, those in measured) / weights if measured else None
    moved = [(value * those, float(speed)) for value, speed, those in measured if speed]
    weight = sum(those for those, _ in moved)
    speed = sum(those * value for those, value in moved) / weight if weight else None
    return Traffic(vehicles_left * 3600 / seconds, density, speed)


def mean_traffic(several: list[Traffic]) -> Traffic:
    """The mean traffic of an edge over seeds, one at least; speeds are weighted by how many vehicles were seen."""
    dense = [one.density for one in several if one.density is not None]
    moved = [(one.density, one.speed) for one in several if one.density and one.speed is not None]
    weight = sum(density for density, _ in moved)
    speed = sum(density * speed for density, speed in moved) / weight if weight else None
    return Traffic(sum(one.flow for one in several) / len(several), sum(dense) / len(dense) if dense else None, speed)


def values_of(runs: Runs, begin: int, end: int) -> dict[str, EdgeValues]:
    """{edge: what is known of it from `begin` to `end`, in seconds}, for each edge of the map, as means over the seeds.
    Rows are those of the junction tables whose interval has just these bounds. Fault where edges.csv cannot be read."""
    traffic_by_edge = defaultdict(list)
    for folder in runs.folders.values():
        for edge, one in traffic_of(folder.edges(), begin, end).items():
            traffic_by_edge[edge].append(one)
    rows = {key[1]: row for key, row in runs.rows.get(("approaches", begin, end), {}).items()}
    return {
        edge: EdgeValues(mean_traffic(traffic_by_edge[edge]) if edge in traffic_by_edge else None, rows.get(edge))
        for edge in runs.first_folder.mapping.links_of
    }
