"""Reads zones as lists of edges: CSV, and SUMO's TAZ. All that reads raises Fault, with file and element, where an
attribute is absent or cannot be read."""
from collections.abc import Iterable, Iterator

from streetsim.base.files import Fault, FilePath
from streetsim.demand.cells import begins_with, name_of, table_rows, vehicle_number
from streetsim.demand.tags import Tag, read_tags
from streetsim.demand.values import Zone

ROOTS = ("additional", "add", "tazs")


def read_zones(paths: Iterable[FilePath]) -> dict[str, Zone]:
    """{name: zone} of files; Fault where a file cannot be read, is no file of zones or has none, or two zones have one
    name."""
    zones: dict[str, Zone] = {}
    for path in paths:
        file_zones = zones_in_sumo(path) if begins_with(path, "<") else list(zones_in_table(path))
        if not file_zones:
            raise Fault(f"{path}: no zone is in it")
        for zone in file_zones:
            if zone.name in zones:
                raise Fault(f"{zone.location}: a second zone {zone.name!r}")
            zones[zone.name] = zone
    return zones


def zones_in_table(path: FilePath) -> Iterator[Zone]:
    """The zones of a CSV table with zone,edges: the edges with blanks between; trips begin and end on each with equal
    weight. Fault for an empty zone or empty edges, and where table_rows raises one."""
    for row in table_rows(path, ("zone", "edges")):
        weights = dict.fromkeys(row.get("edges", name_of).split(), 1.0)
        yield Zone(row.get("zone", name_of), weights, weights, row.location)


def zones_in_sumo(path: FilePath) -> list[Zone]:
    """The zones of a file of SUMO's TAZ: weights of its tazSource and tazSink, and 1 for each of its `edges` as both,
    are added up by edge, as in od2trips. Fault for another element (but param), one of these in no taz, and as of
    `zone_of`."""
    parts: list[tuple[Tag, dict[str, float], dict[str, float]]] = []
    for tag in read_tags(path, ROOTS):
        if tag.name == "taz":
            edges = dict.fromkeys(tag.attributes.get("edges", "").split(), 1.0)
            parts.append((tag, edges, dict(edges)))
        elif tag.name in ("tazSource", "tazSink") and parts and tag.inside[-1] == "taz":
            _, sources, sinks = parts[-1]
            weights = sources if tag.name == "tazSource" else sinks
            edge = tag.get("id", name_of)
            weights[edge] = weights.get(edge, 0.0) + tag.get("weight", vehicle_number)
        elif tag.name not in ("tazs", "param"):
            raise Fault(f"{tag.location}: <{tag.name}> is no zone: <taz> with <tazSource> and <tazSink>, or edges")
    return [zone_of(*part) for part in parts]


def zone_of(tag: Tag, sources: dict[str, float], sinks: dict[str, float]) -> Zone:
    """The zone of a <taz> with its edges and their weights; Fault where it has none of both."""
    zone = Zone(tag.get("id", name_of), sources, sinks, tag.location)
    if not zone.sources and not zone.sinks:
        raise Fault(f"{tag.location}: zone {zone.name!r} has no edges")
    return zone
