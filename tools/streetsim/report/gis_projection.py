"""From the metres of a network to longitude and latitude (WGS84)."""
from collections.abc import Callable, Iterable, Sequence

from streetsim.base.files import Fault, Json

NONE = "!"  # SUMO's word for a network without a projection
Converter = Callable[[Iterable[Sequence[float]]], list[list[float]]]


def converter_of(location: Json, projection: str | None, path: str) -> Converter:
    """A function that converts a list of points (x, y) in a network's metres to a list of [longitude, latitude] in
    degrees; Fault where no projection is told or known, or pyproj is not installed. location: of the map; projection:
    what the user says, in place of the map's own, or None; path: for faults."""
    try:
        from pyproj import Transformer
        from pyproj.exceptions import ProjError
    except ImportError:
        raise Fault("an export needs pyproj (Debian: apt install python3-pyproj)") from None
    source_projection: str = projection if projection else location.get("projection", NONE)
    if source_projection == NONE:
        older = "the map was made by another streetsim-import: import again, or"
        what = "the network has no projection" if location else older
        how = "say where it lies by --projection, for example EPSG:25832 or '+proj=utm +zone=32'"
        raise Fault(f"{path}: {what}: {how}")
    try:
        to_earth = Transformer.from_crs(source_projection, "EPSG:4326", always_xy=True)
    except ProjError:
        raise Fault(f"{path}: {source_projection!r} is no projection of points that pyproj knows") from None
    x, y = location.get("offset", (0.0, 0.0))

    def converted(points: Iterable[Sequence[float]]) -> list[list[float]]:
        """Points (x, y) in metres, one at least, as [longitude, latitude] in degrees, rounded to 7 decimals, about a
        centimetre; Fault where one is nowhere on Earth."""
        xs, ys = zip(*points, strict=True)
        found = zip(*to_earth.transform([value - x for value in xs], [value - y for value in ys]), strict=True)
        degrees = [[round(value, 7) for value in point] for point in found]
        if not all(abs(longitude) <= 180 and abs(latitude) <= 90 for longitude, latitude in degrees):
            raise Fault(f"{path}: {source_projection!r} does not fit the network: it lies nowhere on Earth by it")
        return degrees

    return converted
