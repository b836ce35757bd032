"""SUMO's plain files of a layout: nodes, edges and connections, and by which edges movements go."""
from collections.abc import Iterator
from dataclasses import dataclass, field
from math import cos, radians, sin

from streetsim.base.files import attributes_of
from streetsim.sheet.layout import NODE_TYPES, ROUNDABOUT, SheetArm, Junction, SheetLayout, Movement, turn_degrees

MAJOR, MINOR, RING = 3, 2, 4  # priorities of SUMO's edges
RING_SPEED = 30.0  # km/h
ARC = 6  # pieces of the ring between two arms
STOP_LINE = 12.0  # metres from the middle, before netconvert has told where stop lines are
Point = tuple[float, float]
Attributes = dict[str, object]


@dataclass(slots=True)
class PlainFiles:
    """The elements of the plain files. ways: the edges of each movement by junction, from its approach to its exit;
    approaches: the last edge before the stop line by (junction, arm)."""

    nodes: list[Attributes] = field(default_factory=list)
    edges: list[Attributes] = field(default_factory=list)
    connections: list[Attributes] = field(default_factory=list)
    roundabouts: list[Attributes] = field(default_factory=list)
    ways: dict[tuple[str, Movement], list[str]] = field(default_factory=dict)
    approaches: dict[tuple[str, str], str] = field(default_factory=dict)


@dataclass(frozen=True, slots=True)
class ApproachSection:
    """A part of an approach on which lanes do not begin. lanes: their numbers from the kerb, from 0; edge: its name."""

    edge: str
    begin: str  # node
    end: str  # node
    lanes: tuple[int, ...]


SectionsByArm = dict[tuple[str, str], list[ApproachSection]]  # by junction and arm, the outermost first


def plain_files(layout: SheetLayout, stop_lines: dict[str, float]) -> PlainFiles:
    """The plain files of a layout. stop_lines: metres from the middle to the stop line by the approach's last edge,
    where they are known."""
    files, places = PlainFiles(), places_of(layout)
    for junction in layout.junctions.values():
        add_middle(files, layout, junction, places[junction.name])
    sections = {
        (junction.name, arm.name): add_approach(files, layout, junction, arm, places[junction.name], stop_lines)
        for junction in layout.junctions.values() for arm in junction.arms.values() if arm.lanes
    }  # fmt: skip
    for junction in layout.junctions.values():
        exits = {arm.name: exit_edge(files, layout, junction, arm, sections) for arm in junction.arms.values()}
        add_movements(files, layout, junction, sections, exits)
    return files


def places_of(layout: SheetLayout) -> dict[str, Point]:
    """Where the middles of junctions are, in metres; the first one is at (0, 0)."""
    first = next(iter(layout.junctions))
    places, queue = {first: (0.0, 0.0)}, [first]
    for name in queue:
        for arm in layout.junctions[name].arms.values():
            if arm.leads_to and arm.leads_to[0] not in places:
                places[arm.leads_to[0]] = along(places[name], arm.bearing, arm.length)
                queue.append(arm.leads_to[0])
    return places


def along(place: Point, bearing: float, metres: float) -> Point:
    """The point so many metres from a place in a direction, degrees clockwise from north."""
    turned = radians(bearing)
    return round(place[0] + metres * sin(turned), 2), round(place[1] + metres * cos(turned), 2)


def middle_of(layout: SheetLayout, junction: Junction, arm: SheetArm) -> str:
    """The node at which an arm begins: the junction, or of a roundabout the arm's place on the ring."""
    return f"{layout.prefix(junction.name)}{arm.name}r" if junction.control == ROUNDABOUT else junction.name


def add_middle(files: PlainFiles, layout: SheetLayout, junction: Junction, place: Point) -> None:
    """Adds the node of a junction, or a roundabout's ring."""
    if junction.control == ROUNDABOUT:
        add_ring(files, layout, junction, place)
        return
    node = {"id": junction.name, "x": place[0], "y": place[1], "type": NODE_TYPES[junction.control]}
    files.nodes.append(node)


def ring_order(junction: Junction) -> list[SheetArm]:
    """The arms of a roundabout in the order in which vehicles pass them."""
    return sorted(junction.arms.values(), key=lambda arm: arm.bearing, reverse=not junction.drives_left)


def add_ring(files: PlainFiles, layout: SheetLayout, junction: Junction, place: Point) -> None:
    """Adds the ring of a roundabout: a node at each arm, and an edge from each to the next."""
    arms = ring_order(junction)
    nodes = [middle_of(layout, junction, arm) for arm in arms]
    side = 1 if junction.drives_left else -1
    names = []
    for arm, following, node, next_node in zip(arms, [*arms[1:], arms[0]], nodes, [*nodes[1:], nodes[0]]):
        x, y = along(place, arm.bearing, junction.radius)
        files.nodes.append({"id": node, "x": x, "y": y, "type": NODE_TYPES[ROUNDABOUT]})
        turned = (following.bearing - arm.bearing) * side % 360 or 360
        points = [along(place, arm.bearing + side * turned * part / ARC, junction.radius) for part in range(ARC + 1)]
        names.append(f"{node}ing")
        files.edges.append({
            "id": names[-1], "from": node, "to": next_node, "priority": RING, "numLanes": junction.ring_lanes,
            "speed": speed_of(RING_SPEED), "shape": " ".join(f"{x:.2f},{y:.2f}" for x, y in points),
        })  # fmt: skip
    files.roundabouts.append({"nodes": " ".join(nodes), "edges": " ".join(names)})


def speed_of(kilometres: float) -> str:
    """A limit in km/h as SUMO has it, in metres a second."""
    return f"{kilometres / 3.6:.2f}"


def add_approach(
    files: PlainFiles, layout: SheetLayout, junction: Junction, arm: SheetArm, place: Point,
    stop_lines: dict[str, float],
) -> list[ApproachSection]:
    """Adds the edges of an approach, the outermost first, with the nodes between them at which pockets begin."""
    prefix = f"{layout.prefix(junction.name)}{arm.name}"
    begins = sorted({lane.pocket for lane in arm.lanes if lane.pocket}, reverse=True)
    outside = outer_node(files, layout, junction, arm, place)
    nodes = [outside, *(f"{prefix}{number}" for number in range(1, len(begins) + 1)), middle_of(layout, junction, arm)]
    last, sections = f"{prefix}in", list[ApproachSection]()
    for number in range(len(begins) + 1):
        edge = last if number == len(begins) else f"{prefix}{number}in"
        reach = begins[number - 1] if number else 0.0
        lanes = tuple(lane for lane, one in enumerate(arm.lanes) if not one.pocket or reach and one.pocket >= reach)
        sections.append(ApproachSection(edge, nodes[number], nodes[number + 1], lanes))
        files.edges.append(edge_of(sections[-1].edge, nodes[number], nodes[number + 1], arm, len(lanes)))
    ring = junction.radius if junction.control == ROUNDABOUT else 0.0
    for number, pocket in enumerate(begins, 1):
        x, y = along(place, arm.bearing, ring + pocket + stop_lines.get(last, STOP_LINE))
        files.nodes.append({"id": nodes[number], "x": x, "y": y})
    for outer, inner in zip(sections, sections[1:]):
        files.connections += opened(outer, inner)
    files.approaches[junction.name, arm.name] = last
    return sections


def outer_node(files: PlainFiles, layout: SheetLayout, junction: Junction, arm: SheetArm, place: Point) -> str:
    """The node at the other end of an arm, which is added where the network ends there."""
    if arm.leads_to:
        other = layout.junctions[arm.leads_to[0]]
        return middle_of(layout, other, other.arms[arm.leads_to[1]])
    name = f"{layout.prefix(junction.name)}{arm.name}0"
    if all(node["id"] != name for node in files.nodes):
        x, y = along(place, arm.bearing, arm.length)
        files.nodes.append({"id": name, "x": x, "y": y})
    return name


def edge_of(name: str, begin: str, end: str, arm: SheetArm, lanes: int) -> Attributes:
    """The attributes of an edge of an arm."""
    found: Attributes = {
        "id": name, "from": begin, "to": end, "priority": MINOR if arm.is_minor else MAJOR, "numLanes": lanes,
        "speed": speed_of(arm.speed),
    }  # fmt: skip
    return found | ({"name": arm.street} if arm.street else {})


def opened(outer: ApproachSection, inner: ApproachSection) -> Iterator[Attributes]:
    """The connections from a section to the next one; a pocket opens from the nearest lane that is there before it."""
    for place, lane in enumerate(inner.lanes):
        nearest = min(outer.lanes, key=lambda known: abs(known - lane))
        yield {"from": outer.edge, "to": inner.edge, "fromLane": outer.lanes.index(nearest), "toLane": place}


def exit_edge(
    files: PlainFiles, layout: SheetLayout, junction: Junction, arm: SheetArm, sections: SectionsByArm
) -> str:
    """The edge by which vehicles leave at an arm: one that is added, or the first one of the approach at the other end;
    empty where none leads out."""
    if not arm.lanes_out:
        return ""
    if arm.leads_to:
        return sections[arm.leads_to][0].edge
    outside = outer_node(files, layout, junction, arm, places_of(layout)[junction.name])
    name = f"{layout.prefix(junction.name)}{arm.name}out"
    files.edges.append(edge_of(name, middle_of(layout, junction, arm), outside, arm, arm.lanes_out))
    return name


def add_movements(
    files: PlainFiles, layout: SheetLayout, junction: Junction, sections: SectionsByArm,
    exits: dict[str, str],
) -> None:
    """Adds the connections of a junction, and the edges of each movement."""
    ring = [middle_of(layout, junction, arm) for arm in ring_order(junction)]
    for source, target in junction.movements():
        way = [section.edge for section in sections[junction.name, source]]
        if junction.control == ROUNDABOUT:
            begin, end = (ring.index(middle_of(layout, junction, junction.arms[name])) for name in (source, target))
            steps = (end - begin) % len(ring) or len(ring)
            way += [f"{ring[(begin + step) % len(ring)]}ing" for step in range(steps)]
        else:
            files.connections += connections_of(junction, source, target, way[-1], exits[target])
        files.ways[junction.name, (source, target)] = [*way, exits[target]]


def connections_of(junction: Junction, source: str, target: str, edge: str, exit_name: str) -> Iterator[Attributes]:
    """The connections of a movement: turns towards the kerb lead to the lanes at the kerb, those to the other side to
    the innermost, and straight on each lane to its own, counted from the kerb."""
    arm, lanes_out = junction.arms[source], junction.arms[target].lanes_out
    lanes = [place for place, lane in enumerate(arm.lanes) if target in lane.targets]
    turned = turn_degrees(arm, junction.arms[target]) * (-1 if junction.drives_left else 1)
    is_inner = target == source or turned < -45
    for order, lane in enumerate(lanes):
        place = lanes_out - len(lanes) + order if is_inner else order
        yield {"from": edge, "to": exit_name, "fromLane": lane, "toLane": min(max(place, 0), lanes_out - 1)}


def in_texts(attributes: Attributes) -> dict[str, str]:
    """Attributes as texts."""
    return {name: f"{value:.2f}" if isinstance(value, float) else str(value) for name, value in attributes.items()}


def texts_of(files: PlainFiles) -> dict[str, str]:
    """The texts of the plain files, by the ending of their names."""

    def lines(root: str, tag: str, elements: list[Attributes], more: str = "") -> str:
        """A file of elements of one tag."""
        told = "".join(f"    <{tag}{attributes_of(in_texts(one))}/>\n" for one in elements)
        return f"<{root}>\n{told}{more}</{root}>\n"

    rings = "".join(f"    <roundabout{attributes_of(in_texts(one))}/>\n" for one in files.roundabouts)
    return {
        "nod.xml": lines("nodes", "node", files.nodes), "edg.xml": lines("edges", "edge", files.edges, rings),
        "con.xml": lines("connections", "connection", files.connections),
    }  # fmt: skip
