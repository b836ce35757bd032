"""Makes networks by SUMO's netconvert: of plain files, and of OpenStreetMap, of which it says what was guessed."""
import os
import shutil
import subprocess
from collections.abc import Iterator, Sequence
from dataclasses import dataclass, field

from streetsim.base.files import Fault, FilePath, elements

NEEDS = "networks are made by netconvert: apt install sumo"
SUMO_HOME = "/usr/share/sumo"  # of Debian's packages
# For cars, with lights where the map has them, one for each junction, and without pieces of streets that lead nowhere.
OSM_WORDS = (
    "--keep-edges.by-vclass passenger --remove-edges.isolated --geometry.remove --junctions.join --roundabouts.guess "
    "--ramps.guess --tls.guess-signals --tls.discard-simple --tls.join --no-turnarounds.except-deadend "
    "--output.street-names"
).split()
CAR_WAYS = "motorway trunk primary secondary tertiary unclassified residential living_street".split()


def run_netconvert(arguments: Sequence[str], folder: FilePath = ".") -> None:
    """Runs netconvert in a folder. Fault without it, and with its first error where it fails."""
    if shutil.which("netconvert") is None:
        raise Fault(NEEDS)
    variables = {"SUMO_HOME": SUMO_HOME, **os.environ}
    done = subprocess.run(
        ["netconvert", *arguments], cwd=folder, env=variables, capture_output=True, text=True, check=False
    )
    if done.returncode:
        lines = (done.stdout + done.stderr).splitlines()
        errors = [line for line in lines if "Error" in line] or lines or ["it says nothing"]
        raise Fault(f"netconvert: {errors[0]}")


@dataclass(slots=True)
class MapTags:
    """What a map of OpenStreetMap says of its streets for cars, in ways, and of its lights."""

    ways: int = 0
    lacking: dict[str, int] = field(default_factory=lambda: dict.fromkeys(("lanes", "maxspeed"), 0))
    turn_lanes: int = 0  # ways that say which lanes turn
    signals: int = 0  # nodes


def tags_of_map(path: FilePath) -> MapTags:
    """The tags of a map. Fault where it cannot be read or is none."""
    map_tags = MapTags()
    for element in elements(path, ["osm"]):
        tags = {tag.get("k", ""): tag.get("v", "") for tag in element.iter("tag")}
        if element.tag == "node" and tags.get("highway") == "traffic_signals":
            map_tags.signals += 1
        if element.tag == "way" and tags.get("highway", "").removesuffix("_link") in CAR_WAYS:
            map_tags.ways += 1
            map_tags.turn_lanes += any(name.startswith("turn:lanes") for name in tags)
            for name in map_tags.lacking:
                map_tags.lacking[name] += name not in tags
    return map_tags


def guessed_lines(tags: MapTags, lights: int) -> Iterator[str]:
    """What was guessed where a map says nothing; lights: of its network."""
    told = {"lanes": "lanes", "maxspeed": "a limit"}
    for name, number in tags.lacking.items():
        if number:
            yield f"{number:,} of {tags.ways:,} streets of the map have no {told[name].removeprefix('a ')}: guessed"
    if tags.turn_lanes < tags.ways:
        yield f"which lanes turn is guessed on {tags.ways - tags.turn_lanes:,} of {tags.ways:,} streets"
    if lights:
        yield f"the greens of all {lights:,} lights are guessed: no map has plans ({tags.signals:,} signals in the map)"
    else:
        yield "there are no lights" + (f", though the map has {tags.signals:,} signals" * bool(tags.signals))


def network_of_map(path: FilePath, target: FilePath) -> tuple[list[str], list[str]]:
    """Makes the network of a map, and writes it; gives (the words of netconvert, what was guessed). Fault as of
    run_netconvert and tags_of_map."""
    tags = tags_of_map(path)
    arguments = ["--osm-files", os.fspath(path), *OSM_WORDS, "-o", os.fspath(target)]
    run_netconvert(arguments)
    lights = {element.get("id") for element in elements(target, ["net"]) if element.tag == "tlLogic"}
    return arguments, list(guessed_lines(tags, len(lights)))
