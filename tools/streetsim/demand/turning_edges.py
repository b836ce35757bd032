"""Turning counts by junction and arm as counts of edges: an arm is the approach that comes from where its name says."""
import sys
from collections.abc import Mapping, Sequence
from dataclasses import dataclass, field
from math import atan2, degrees

from streetsim.base.files import Fault, FilePath
from streetsim.demand.grids import GridCell, read_grid
from streetsim.demand.turning_counts import TO_ARM, TurningCount, TurningReader
from streetsim.demand.values import Count
from streetsim.model.mapping import Map
from streetsim.model.names import Names
from streetsim.observe.junction_layout import Approach, approaches_of

BEARINGS = {"N": 0, "NE": 45, "E": 90, "SE": 135, "S": 180, "SW": 225, "W": 270, "NW": 315}  # degrees from north
NEAR, CLEARLY = 45.0, 20.0  # degrees from where a name says, and by which another arm is further from there


@dataclass(slots=True)
class JunctionArms:
    """The arms of a junction: the edges by which vehicles come and go, each with the bearing outwards."""

    name: str
    approaches: dict[str, Approach] = field(default_factory=dict)
    bearings: dict[str, float] = field(default_factory=dict)  # of approaches and exits, by edge

    def edge_of(self, arm: str, edges: Sequence[str], names: Names) -> str | None:
        """The one of some edges that an arm's name means: by its direction, else its street or id; None where none or
        several may be meant."""
        if arm in BEARINGS:
            apart = sorted((abs((self.bearings[edge] - BEARINGS[arm] + 180) % 360 - 180), edge) for edge in edges)
            is_clear = apart and apart[0][0] <= NEAR and (len(apart) < 2 or apart[1][0] - apart[0][0] >= CLEARLY)
            return apart[0][1] if is_clear else None
        same = [edge for edge in edges if arm.lower() in (edge.lower(), names.street(edge).lower())]
        return same[0] if len(same) == 1 else None


def junctions_with_arms(mapping: Map) -> dict[str, JunctionArms]:
    """The junctions of a map by id."""
    junctions: dict[str, JunctionArms] = {}
    for edge, approach in approaches_of(mapping).items():
        arms = junctions.setdefault(approach.junction, JunctionArms(approach.junction))
        arms.approaches[edge] = approach
        arms.bearings[edge] = bearing_of(mapping, edge, -1, -2)
        for target in approach.movements:
            arms.bearings[target] = bearing_of(mapping, target, 0, 1)
    return junctions


def bearing_of(mapping: Map, edge: str, begin: int, end: int) -> float:
    """The bearing from a point of an edge's line to another, by their places in it, degrees clockwise from north."""
    shape = mapping.links[mapping.links_of[edge][0]].shape
    return degrees(atan2(shape[end][0] - shape[begin][0], shape[end][1] - shape[begin][1])) % 360


def counts_at_junctions(path: FilePath, mapping: Map) -> list[Count]:
    """The counts of a file of turning counts, of a map's edges; what was understood is printed on standard error. Fault
    for the first thing that is wrong, or may be two things."""

    def refuse(cell: GridCell, wrong: str, right: str) -> None:
        """Fault for what is wrong in a cell."""
        raise Fault(f"{path}: {cell.place}: {wrong}: {right}")

    table = TurningReader(refuse).read(read_grid(path))
    junctions, names = junctions_with_arms(mapping), Names(mapping)
    counts, understood = list[Count](), dict[str, str]()
    for count in table.counts:
        arms = junction_of(count, junctions, names, path)
        edges = edges_of(count, arms, names, path)
        understood[f"{arms.name} {count.arm}"] = edges[0]
        shares = (("passenger", 1 - count.heavy), ("truck", count.heavy)) if count.heavy else (("", 1.0),)
        location = f"{path}: {count.cell.place}"
        counts += [
            Count(count.begin, count.end, edges, count.vehicles * share, location, kind) for kind, share in shares
        ]
    told = ", ".join(f"{arm} is {edge}" for arm, edge in understood.items())
    print(f"{path}: {table.habit}, {len(counts):,} counts; {told}", file=sys.stderr)
    if not_vehicles := [name for name, number in table.not_vehicles.items() if number]:
        print(f"{path}: not modelled: {' and '.join(not_vehicles)}", file=sys.stderr)
    return counts


def junction_of(
    count: TurningCount, junctions: Mapping[str, JunctionArms], names: Names, path: FilePath
) -> JunctionArms:
    """The junction of a count: by its id or name, else the only one of the network. Fault where neither is clear."""
    if not count.junction and len(junctions) == 1:
        return next(iter(junctions.values()))
    told = count.junction.lower()
    same = [arms for name, arms in junctions.items() if told in (name.lower(), names.junction(name).lower())]
    if len(same) == 1:
        return same[0]
    what = f"{count.junction!r} is no junction" if count.junction else "the junction is not said"
    known = ", ".join(list(junctions)[:8])
    raise Fault(f"{path}: {count.cell.place}: {what}: give a column junction with its id, as {known}")


def edges_of(count: TurningCount, arms: JunctionArms, names: Names, path: FilePath) -> tuple[str, str]:
    """(edge, next edge) of a count. Fault where the arm or the turn may be none or several."""
    source = arms.edge_of(count.arm, list(arms.approaches), names)
    if source is None:
        choices = ", ".join(f"{edge} from {told_bearing(arms.bearings[edge])}" for edge in arms.approaches)
        what = f"arm {count.arm!r} of {arms.name} is not one: {choices}"
        raise Fault(f"{path}: {count.cell.place}: {what}: write its edge")
    movements = arms.approaches[source].movements
    if count.turn.startswith(TO_ARM):
        target = arms.edge_of(count.turn[1:], list(movements), names)
    else:
        same = [edge for edge, letter in movements.items() if letter == count.turn]
        target = same[0] if len(same) == 1 else None
    if target is None:
        choices = ", ".join(f"{letter} to {edge}" for edge, letter in movements.items())
        raise Fault(f"{path}: {count.cell.place}: {count.turn} from {source} is not one movement: there is {choices}")
    return source, target


def told_bearing(bearing: float) -> str:
    """The direction that is nearest to a bearing."""
    return min(BEARINGS, key=lambda name: abs((bearing - BEARINGS[name] + 180) % 360 - 180))
