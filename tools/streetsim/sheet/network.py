"""The network of plain files, which netconvert makes of them, and what plans and pictures need of it."""
import os
import tempfile
from dataclasses import dataclass, field
from math import cos, radians, sin

from streetsim.base.files import elements
from streetsim.sheet.layout import SheetLayout
from streetsim.sheet.plain import PlainFiles, Point, plain_files, texts_of
from streetsim.sumo.netconvert import run_netconvert


@dataclass(frozen=True, slots=True)
class LightLink:
    """A link of a light: its index, and the edges and the lane of its connection."""

    index: int
    source: str
    target: str
    lane: int


@dataclass(slots=True)
class BuiltNetwork:
    """A network's text, lanes of its edges with shapes, links of lights by index, and by junction and link the links
    that it meets."""

    text: str
    shapes: dict[str, list[list[Point]]] = field(default_factory=dict)
    links: dict[str, list[LightLink]] = field(default_factory=dict)
    foes: dict[str, dict[int, set[int]]] = field(default_factory=dict)
    middles: dict[str, Point] = field(default_factory=dict)  # of nodes


def build(layout: SheetLayout) -> tuple[PlainFiles, BuiltNetwork]:
    """The plain files of a layout, and their network. It is made twice, as the first one tells where stop lines are,
    from which pockets are measured. Fault as of run_netconvert."""
    rough = plain_files(layout, {})
    files = plain_files(layout, stop_lines_of(layout, rough, convert(layout, rough)))
    return files, convert(layout, files)


def convert(layout: SheetLayout, files: PlainFiles) -> BuiltNetwork:
    """The network of plain files. Fault as of run_netconvert."""
    arguments = ["-n", "x.nod.xml", "-e", "x.edg.xml", "-x", "x.con.xml", "-o", "x.net.xml", "--no-turnarounds"]
    arguments += ["--output.street-names"]
    if next(iter(layout.junctions.values())).drives_left:
        arguments += ["--lefthand"]
    with tempfile.TemporaryDirectory() as folder:
        for ending, text in texts_of(files).items():
            with open(os.path.join(folder, f"x.{ending}"), "w", encoding="utf-8") as file:
                file.write(text)
        run_netconvert(arguments, folder)
        path = os.path.join(folder, "x.net.xml")
        with open(path, encoding="utf-8") as file:
            network = BuiltNetwork(without_head(file.read()))
        read_built(path, network)
    return network


def without_head(text: str) -> str:
    """A network without the comment of netconvert, which has the time at which it was made."""
    begin, end = text.find("<!--"), text.find("-->")
    return text[:begin] + text[end + 3 :].lstrip("\n") if 0 <= begin < end else text


def read_built(path: str, network: BuiltNetwork) -> None:
    """Reads what is needed of a network."""
    for element in elements(path, ["net"]):
        name = element.get("id", "")
        if element.tag == "edge":
            network.shapes[name] = [points_of(lane.get("shape", "")) for lane in element.iter("lane")]
        elif element.tag == "connection" and element.get("tl"):
            link = LightLink(int(element.get("linkIndex", "0")), element.get("from", ""), element.get("to", ""),
                             int(element.get("fromLane", "0")))
            network.links.setdefault(element.get("tl", ""), []).append(link)
        elif element.tag == "junction" and not name.startswith(":"):
            network.middles[name] = float(element.get("x", "0")), float(element.get("y", "0"))
            network.foes[name] = {
                int(request.get("index", "0")): {
                    place for place, bit in enumerate(reversed(request.get("foes", ""))) if bit == "1"}
                for request in element.iter("request")
            }  # fmt: skip
    for links in network.links.values():
        links.sort(key=lambda link: link.index)


def points_of(text: str) -> list[Point]:
    """The points of a shape."""
    pairs = (point.split(",") for point in text.split())
    return [(float(x), float(y)) for x, y, *_ in pairs]


def stop_lines_of(layout: SheetLayout, files: PlainFiles, network: BuiltNetwork) -> dict[str, float]:
    """{last edge of an approach: metres along the arm from its node to its stop line}."""
    ends = {str(edge["id"]): str(edge["to"]) for edge in files.edges}
    metres_of_edge = {}
    for (junction, arm), edge in files.approaches.items():
        x, y = network.middles[ends[edge]]
        turned = radians(layout.junctions[junction].arms[arm].bearing)
        lasts = [shape[-1] for shape in network.shapes[edge]]
        metres_of_edge[edge] = round(min((one - x) * sin(turned) + (two - y) * cos(turned) for one, two in lasts), 1)
    return metres_of_edge
