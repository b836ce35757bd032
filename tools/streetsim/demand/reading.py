"""Reads counts of edges and turns, from CSV and from SUMO's edgeData and edgeRelation files; other modules read
matrices, zones and ratios."""
from collections.abc import Iterable, Iterator

from streetsim.base.files import Fault, FilePath
from streetsim.demand.cells import begins_with, clock_of, name_of, period_of, table_rows, vehicle_number
from streetsim.demand.grids import WORKBOOK, rows_of_text
from streetsim.demand.tags import Tag, read_tags
from streetsim.demand.turning_edges import counts_at_junctions
from streetsim.demand.values import Count
from streetsim.model.mapping import Map

COLUMNS = ("begin", "end", "from", "to", "vehicles")
OPTIONAL_COLUMNS = ("class", "group")
ROOTS = ("meandata", "data", "edgeRelations", "turns", "edgeData")
# What a count of an edge is, of those attributes that there are; two are added.
BY_EDGE = (("left", "arrived"), ("entered", "departed"), ("count",), ("vehicles",))
BY_TURN = (("count",), ("vehicles",))


def read_counts(paths: Iterable[FilePath], attribute: str | None = None, mapping: Map | None = None) -> list[Count]:
    """The counts of files, in their order; Fault where a file cannot be read, is no file of counts, or has none.
    attribute: of SUMO's files, the one that is the count; none: the usual ones; mapping: whose junctions turning counts
    name, none where these are not taken."""
    counts: list[Count] = []
    for path in paths:
        if begins_with(path, "<"):
            file_counts = list(counts_in_sumo(path, attribute))
        elif mapping is not None and has_turns(path):
            file_counts = counts_at_junctions(path, mapping)
        else:
            file_counts = list(counts_in_table(path))
        if not file_counts:
            raise Fault(f"{path}: no count is in it")
        counts += file_counts
    return counts


def has_turns(path: FilePath) -> bool:
    """Whether a table has turning counts by arms, not counts of edges: a workbook, or one without most columns of
    these. Fault where it cannot be read."""
    if str(path).lower().endswith(WORKBOOK):
        return True
    first = next(rows_of_text(path), None)
    return first is not None and len({text.lower() for text in first.texts} & {*COLUMNS}) < 3


def counts_in_table(path: FilePath) -> Iterator[Count]:
    """The counts of a CSV table with begin,end,from,to,vehicles and maybe class,group: `to` is empty for an edge, and
    has several edges, with blanks between, for a way. Fault for other columns or values."""
    for row in table_rows(path, COLUMNS, OPTIONAL_COLUMNS):
        begin, end = period_of(row.get("begin", clock_of), row.get("end", clock_of), row.location)
        edges = (row.get("from", name_of), *row.text("to").split())
        vehicles = row.get("vehicles", vehicle_number)
        yield Count(begin, end, edges, vehicles, row.location, row.text("class"), row.text("group"))


def counts_in_sumo(path: FilePath, attribute: str | None) -> Iterator[Count]:
    """The counts of an edgeData or edgeRelation file; lanes in it are passed over, and any other element, or one that
    stands in no interval, is a Fault. attribute: the one that is the count; none: the usual ones."""
    begin = end = 0
    for tag in read_tags(path, ROOTS):
        if tag.name == "interval":
            begin, end = period_of(tag.get("begin", clock_of), tag.get("end", clock_of), tag.location)
        elif tag.name in ("edge", "edgeRelation") and "interval" not in tag.inside:
            raise Fault(f"{tag.location}: <{tag.name}> stands in no <interval>")
        elif tag.name == "edge":
            yield Count(begin, end, (tag.get("id", name_of),), vehicles_of_tag(tag, BY_EDGE, attribute), tag.location)
        elif tag.name == "edgeRelation":
            edges = (tag.get("from", name_of), *tag.attributes.get("via", "").split(), tag.get("to", name_of))
            yield Count(begin, end, edges, vehicles_of_tag(tag, BY_TURN, attribute), tag.location)
        elif tag.name != "lane":
            raise Fault(f"{tag.location}: <{tag.name}> is no count: <edge> or <edgeRelation> in an <interval>")


def vehicles_of_tag(tag: Tag, usual: Iterable[tuple[str, ...]], attribute: str | None) -> float:
    """The count of an element: of the attribute that is asked for, else the sum of the first of the usual groups whose
    first attribute it has; Fault where it has none."""
    if attribute:
        return tag.get(attribute, vehicle_number)
    names = next((choice for choice in usual if choice[0] in tag.attributes), None)
    if names is None:
        expected = ", ".join(choice[0] for choice in usual)
        raise Fault(f"{tag.location}: <{tag.name}> has no count: none of {expected} (--attribute names another one)")
    return sum(tag.get(name, vehicle_number) for name in names if name in tag.attributes)
