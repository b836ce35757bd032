"""Edges and junctions with their results by interval, as GeoJSON or GeoPackage."""
import json
import os
import shutil
import subprocess
import tempfile
from collections.abc import Iterator, Sequence

from streetsim.base.files import Fault, Json, whole_file, whole_path
from streetsim.model.mapping import Map
from streetsim.model.names import Names
from streetsim.report.edge_values import Traffic, intervals_of, values_of
from streetsim.report.gis_projection import Converter
from streetsim.report.run_tables import ResultRow, Runs

EDGE, JUNCTION = "edge", "junction"
LAYERS = {EDGE: "edges", JUNCTION: "junctions"}
MEASURES = ("control_delay_s", "stops_per_vehicle", "queue_50_m", "queue_95_m", "queue_max_m", "storage_m", "v_c")
FIXED = {"OGR_CURRENT_DATE": "2000-01-01T00:00:00.000Z"}  # so that equal runs give equal bytes


def export_told(path: str, runs: Runs, feature_list: Sequence[Json]) -> str:
    """What was written to a path, as told_of_runs tells it; feature_list: the features."""
    count = len({one["properties"]["begin"] for one in feature_list})
    text = f"{path}: {len(feature_list):,} rows of edges and junctions in {count} interval{'s' if count > 1 else ''}"
    return told_of_runs(text, runs)


def told_of_runs(text: str, runs: Runs) -> str:
    """What was written, in a line, with what is missing or, by the first doubt of its runs, not to be trusted in it."""
    doubts = [doubt for folder in runs.folders.values() for doubt in folder.doubts]
    more = [] if runs.rows else ["no junctions, delays, letters, v/c and queues, as the run had no --junctions"]
    more += [f"not to be trusted: {doubts[0]}"] if doubts else []
    more += [runs.first_folder.unproved] if runs.first_folder.unproved else []
    return "; ".join([text, *more])


def features(runs: Runs, converter: Converter) -> Iterator[Json]:
    """Each edge and junction in each interval, as GeoJSON's features. Of edges that nobody counted the numbers are
    None; junctions are there only where the run has junction tables. Fault where converter raises one, or edges.csv
    cannot be read."""
    mapping, names = runs.first_folder.mapping, Names(runs.first_folder.mapping)
    lines = {edge: converter(mapping.links[links[len(links) // 2]].shape) for edge, links in mapping.links_of.items()}
    points = {name: converter([(x, y)])[0] for name, x, y, _ in mapping.nodes}
    for begin, end in intervals_of(runs):
        interval: Json = {"begin": begin, "end": end}
        for edge, values in values_of(runs, begin, end).items():
            properties = {**interval, **edge_properties(mapping, edge)}
            properties |= name_property("street", names.street(edge), names)
            properties |= traffic_properties(values.traffic) | row_properties(values.row)
            yield feature(EDGE, "LineString", lines[edge], properties)
        for (name,), row in sorted(runs.rows.get(("junctions", begin, end), {}).items()):
            properties = {**interval, "name": name, **name_property("called", names.junction(name), names)}
            hourly = round(row.means["vehicles_per_hour"], 1)
            properties |= {"control": row.control, "vehicles_per_hour": hourly, **row_properties(row)}
            yield feature(JUNCTION, "Point", points[name], properties)


def feature(kind: str, shape: str, coordinates: Sequence[object], content: Json) -> Json:
    """A feature of GeoJSON; kind: EDGE or JUNCTION; shape: GeoJSON's type; coordinates: of it, longitude first;
    content: its further properties."""
    return {
        "type": "Feature",
        "geometry": {"type": shape, "coordinates": coordinates},
        "properties": {"kind": kind, **content},
    }


def edge_properties(mapping: Map, edge: str) -> Json:
    """name (the map's id), from and to (junctions), lanes (how many) and metres of an edge by these names."""
    links = [mapping.links[link] for link in mapping.links_of[edge]]
    ends = {"from": mapping.nodes[links[0].begin][0], "to": mapping.nodes[links[0].end][0]}
    return {"name": edge, **ends, "lanes": sum(len(link.lanes) for link in links), "metres": round(links[0].metres, 1)}


def name_property(property_: str, name: str, names: Names) -> Json:
    """{property_: name}, None for an empty name; an empty dict where the map has no names at all."""
    return {property_: name or None} if names else {}


def traffic_properties(traffic: Traffic | None) -> Json:
    """vehicles_per_hour, mean_speed_kmh and density_per_km by these names, with one decimal, or None."""
    numbers = (None, None, None) if traffic is None else (traffic.flow, traffic.speed, traffic.density)
    names = "vehicles_per_hour", "mean_speed_kmh", "density_per_km"
    return {name: None if number is None else round(number, 1) for name, number in zip(names, numbers, strict=True)}


def row_properties(row: ResultRow | None) -> Json:
    """The measures of the junction tables by their names, with two decimals, and the letter (los), or None."""
    numbers = {name: row.means.get(name) if row else None for name in MEASURES}
    rounded = {name: None if number is None else round(number, 2) for name, number in numbers.items()}
    return {**rounded, "los": row.letter() if row else None}


def write_geojson(path: str, feature_list: Sequence[Json]) -> None:
    """Writes features as GeoJSON, whole or not at all; Fault where it cannot be written."""
    with whole_file(path) as file:
        json.dump({"type": "FeatureCollection", "features": feature_list}, file, separators=(",", ":"))
        file.write("\n")


def find_ogr2ogr() -> str:
    """The path of GDAL's ogr2ogr; Fault where it is not installed."""
    if (found := shutil.which("ogr2ogr")) is None:
        raise Fault("a GeoPackage needs ogr2ogr (Debian: apt install gdal-bin); a .geojson needs none")
    return found


def write_package(path: str, feature_list: Sequence[Json]) -> None:
    """Writes features, one at least, as a GeoPackage by ogr2ogr, whole or not at all: a layer for edges and one for
    junctions, those of them that there are. Fault where ogr2ogr is not installed or fails."""
    program, kinds = find_ogr2ogr(), {one["properties"]["kind"] for one in feature_list}
    with tempfile.TemporaryDirectory() as folder:
        source, package_path = f"{folder}/all.geojson", f"{folder}/all.gpkg"
        write_geojson(source, feature_list)
        for kind, layer in LAYERS.items():
            if kind in kinds:
                update = ["-update"] if os.path.exists(package_path) else []
                words = [program, "-f", "GPKG", *update, package_path, source, "-nln", layer]
                words += ["-where", f"kind = '{kind}'"]
                done = subprocess.run(words, capture_output=True, text=True, check=False, env={**os.environ, **FIXED})
                if done.returncode:
                    raise Fault(f"{path}: ogr2ogr: {(done.stderr.strip().splitlines() or ['ended'])[-1]}")
        with whole_path(path) as half:
            shutil.copyfile(package_path, half)
