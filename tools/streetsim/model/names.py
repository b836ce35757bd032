"""The names that people know of streets, junctions and movements; a direction where a street has no name."""
import contextlib
import csv
from collections import Counter, defaultdict
from collections.abc import Container, Iterable, Mapping, Sequence
from functools import cached_property
from math import atan2, pi

from streetsim.base.files import Fault, FilePath, open_text, reading
from streetsim.base.unpacking import lines_of
from streetsim.model.mapping import Map
from streetsim.model.tables import Entry, Namer, TableWriter, open_table, unguarded

WINDS = ("east", "north-east", "north", "north-west", "west", "south-west", "south", "south-east")
MOST_STREETS = 3  # in a junction's name
COLUMNS = ("id", "name")  # of a file of one's own names
EDGES, JUNCTIONS = "edges", "junctions"  # the kinds of names that a map keeps


class Names:
    """The names behind the ids of a map."""

    def __init__(self, mapping: Map) -> None:
        """mapping: whose names they are; those of one's own are among them where `read_own` put them there before."""
        self.mapping = mapping
        self.edges: Mapping[str, str] = mapping.names.get(EDGES, {})
        self.junctions: Mapping[str, str] = mapping.names.get(JUNCTIONS, {})
        self.by_streets = self.junctions_by_streets() if self.edges else {}

    def __bool__(self) -> bool:
        """Whether the map has any name."""
        return bool(self.edges or self.junctions)

    def junctions_by_streets(self) -> dict[str, str]:
        """{junction: the names of up to three streets that meet there, those of most links first, as 'Hill Street /
        Market Street'}. Junctions without a named street are left out."""
        links_by_street: dict[str, Counter[str]] = {}
        for link in self.mapping.links:
            if name := self.edges.get(link.edge):
                for node in {link.begin, link.end}:
                    links_by_street.setdefault(self.mapping.nodes[node][0], Counter())[name] += 1
        ranked = {node: sorted(names, key=lambda name: (-names[name], name)) for node, names in links_by_street.items()}
        return {node: " / ".join(names[:MOST_STREETS]) for node, names in ranked.items()}

    def street(self, edge: str) -> str:
        """The street's name of an edge; empty where it has none."""
        return self.edges.get(edge, "")

    def junction(self, name: str) -> str:
        """The name of a junction, else those of its streets; empty where it has neither."""
        return self.junctions.get(name, "") or self.by_streets.get(name, "")

    def junction_told(self, name: str) -> str:
        """What a junction is called, else 'Junction' and its id."""
        return self.junction(name) or f"Junction {name}"

    def approach(self, edge: str) -> str:
        """What the approach along an edge is called: 'Hill Street, from the north'; without a name 'from the north'."""
        street = self.street(edge)
        return f"{street}, {self.coming_from(edge)}" if street else self.coming_from(edge)

    def street_told(self, edge: str) -> str:
        """What the street along an edge is called in a sentence: 'Hill Street, from the north'; without a name 'the
        street from the north at Junction B', which is the next one; the id of an unknown edge."""
        if edge not in self.mapping.links_of:
            return edge
        if self.street(edge):
            return self.approach(edge)
        return f"the street {self.coming_from(edge)} at {self.junction_told(self.junction_ahead(edge))}"

    def junction_ahead(self, edge: str) -> str:
        """The id of the next junction on an edge's way: the first node that has a light, or another street. KeyError
        for an unknown edge."""
        lit, passed = {node for _, node in self.mapping.signals}, {edge}
        while (end := self.mapping.links[self.mapping.links_of[edge][0]].end) not in lit:
            if len(after := self.ways[0][edge]) != 1 or after <= passed or self.ways[1][next(iter(after))] != {edge}:
                break
            (edge,) = after
            passed.add(edge)
        return self.mapping.nodes[end][0]

    @cached_property
    def ways(self) -> tuple[Mapping[str, set[str]], Mapping[str, set[str]]]:
        """(by edge those to which it leads, those that lead to it)."""
        after, before = defaultdict[str, set[str]](set), defaultdict[str, set[str]](set)
        for turn in self.mapping.turns:
            source, target = self.mapping.links[turn.link].edge, self.mapping.links[turn.next].edge
            after[source].add(target)
            before[target].add(source)
        return after, before

    def movement(self, edge: str, to: str) -> str:
        """What the movement from an edge to the next is called: 'Hill Street into Market Street, from the north to the
        east', or 'along Hill Street, from the north to the south' or 'and back'; by directions where a street has no
        name."""
        street, following = self.street(edge), self.street(to)
        coming, going = self.coming_from(edge), self.going_to(to)
        if coming and coming.removeprefix("from ") == going.removeprefix("to "):
            going = "and back"
        if street and street == following:
            return f"along {street}, {coming} {going}"
        if street:
            return f"{street} into {following}, {coming} {going}" if following else f"{street} {going}, {coming}"
        return f"{coming} into {following}" if following else f"{coming} {going}"

    def coming_from(self, edge: str) -> str:
        """Where one comes from who drives along the end of an edge: 'from the north'; empty for an unknown edge."""
        if edge not in self.mapping.links_of:
            return ""
        *_, before, end = self.shape(edge)
        return f"from the {wind(end, before)}"

    def going_to(self, edge: str) -> str:
        """Where one goes to who drives along the first piece of an edge: 'to the north'; empty for an unknown edge."""
        if edge not in self.mapping.links_of:
            return ""
        begin, after, *_ = self.shape(edge)
        return f"to the {wind(begin, after)}"

    def shape(self, edge: str) -> Sequence[Sequence[float]]:
        """The points (x, y), in metres, of the middle one of an edge's links; KeyError for an unknown edge."""
        links = self.mapping.links_of[edge]
        return self.mapping.links[links[len(links) // 2]].shape

    def columns(self) -> dict[str, Namer]:
        """For each column of edges or junctions in tables, what gives the name of an id, empty where it has none."""
        streets = dict.fromkeys(("edge", "approach", "from", "to"), self.street)
        return {**streets, "junction": self.junction}


def wind(begin: Sequence[float], end: Sequence[float]) -> str:
    """The direction from one point (x, y) to another as one of WINDS; y points to the north. East for equal points."""
    turn = atan2(end[1] - begin[1], end[0] - begin[0]) / (2 * pi)
    return WINDS[round(turn * len(WINDS)) % len(WINDS)]


def open_named(
    path: FilePath, header: Sequence[str], names: Names
) -> contextlib.AbstractContextManager[TableWriter]:
    """As `open_table`; where the map has names, beside each column of `Names.columns` stands one of names, with _name
    at its end."""
    columns = names.columns() if names else {}
    return open_table(path, header, {at: columns[name] for at, name in enumerate(header) if name in columns})


def write_named(path: FilePath, header: Sequence[str], rows: Iterable[Entry], names: Names) -> None:
    """Writes a table as `open_named` does."""
    with open_named(path, header, names) as table:
        table.write_rows(rows)


def read_own(path: FilePath, mapping: Map) -> None:
    """Adds names of one's own to a map, in place of those that it has; an empty name takes one away. The file is a CSV
    with the columns id (of an edge, a junction, or a light for each of its junctions that has no row of its own) and
    name; Fault where it cannot be read, has other columns, or an id is unknown or stands twice."""
    nodes, lights = {name for name, *_ in mapping.nodes}, junctions_of(mapping)
    own = own_rows(path, {*mapping.links_of, *nodes, *lights})
    by_light = {node: name for light, name in own.items() if light not in nodes for node in lights.get(light, ())}
    names_by_kind = {
        EDGES: {**mapping.names.get(EDGES, {}), **{key: own[key] for key in own if key in mapping.links_of}},
        JUNCTIONS: {**mapping.names.get(JUNCTIONS, {}), **by_light, **{key: own[key] for key in own if key in nodes}},
    }
    named = {kind: {key: name for key, name in names.items() if name} for kind, names in names_by_kind.items()}
    mapping.names = {kind: names for kind, names in named.items() if names}


def junctions_of(mapping: Map) -> dict[str, list[str]]:
    """By light the ids of the junctions at which it stands."""
    found: dict[str, list[str]] = {}
    for light, node in mapping.signals:
        found.setdefault(light, []).append(mapping.nodes[node][0])
    return found


def own_rows(path: FilePath, known_ids: Container[str]) -> dict[str, str]:
    """{id: name, without blanks around it} of a file of one's own names; Faults as read_own has them. known_ids: of
    edges, junctions and lights."""
    names: dict[str, str] = {}
    with reading(path), open_text(path) as file:
        rows = csv.DictReader(lines_of(file))
        if tuple(rows.fieldnames or ()) != COLUMNS:
            raise Fault(f"{path}: expected the columns {', '.join(COLUMNS)}")
        for row in rows:
            name_id, name = row["id"], row["name"]
            if name_id is None or name is None or None in row:
                raise Fault(f"{path}: line {rows.line_num}: expected the columns {', '.join(COLUMNS)}")
            name_id, name = unguarded(name_id), unguarded(name)
            if name_id in names:
                raise Fault(f"{path}: line {rows.line_num}: {name_id!r} twice")
            if name_id not in known_ids:
                raise Fault(f"{path}: line {rows.line_num}: the map has no edge or junction {name_id!r}")
            names[name_id] = name.strip()
    return names
