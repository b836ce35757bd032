"""The demand of a sheet's counts: of one junction flows that have exactly its counts, of a street counts of turns to
which streetsim-demand fits vehicles."""
from collections import defaultdict
from collections.abc import Iterator

from streetsim.base.files import attributes_of
from streetsim.sheet.layout import Junction, SheetLayout, Movement, MovementCount, letter_of
from streetsim.sheet.plain import PlainFiles

LEAD = 900  # seconds for which the first period goes before, so that the junction is not empty when it begins
CAR, HEAVY = "car", "heavy"
TYPES = f'    <vType id="{CAR}"/>\n    <vType id="{HEAVY}" vClass="truck" length="12"/>\n'
Flow = tuple[int, int, str, int]  # begin, end, type, vehicles


def flows_of(counts: list[MovementCount]) -> Iterator[Flow]:
    """The flows of one movement, in whole vehicles whose sums are within one half of those of the counts."""
    sums, given = {CAR: 0.0, HEAVY: 0.0}, {CAR: 0, HEAVY: 0}
    for count in sorted(counts, key=lambda one: one.begin):
        for kind, share in ((CAR, 1 - count.heavy), (HEAVY, count.heavy)):
            sums[kind] += count.vehicles * share
            whole = round(sums[kind] - given[kind])
            given[kind] += whole
            if whole:
                yield count.begin, count.end, kind, whole


def with_lead(counts: list[MovementCount], begin: int) -> list[MovementCount]:
    """Counts with the first period's flow before it, which begins at a clock."""
    leads = [
        MovementCount(max(0, begin - LEAD), begin, one.movement, one.vehicles * share, one.cell, one.heavy)
        for one in counts
        if one.begin == begin and (share := min(LEAD, begin) / (one.end - one.begin))
    ]
    return [*leads, *counts]


def by_movement(junction: Junction) -> dict[Movement, list[MovementCount]]:
    """The counts of each movement, with the lead."""
    found: defaultdict[Movement, list[MovementCount]] = defaultdict(list)
    begin = min(count.begin for count in junction.counts)
    for count in with_lead(junction.counts, begin):
        found[count.movement].append(count)
    return found


def flows_text(junction: Junction, files: PlainFiles) -> str:
    """SUMO's routes and flows of the counts of one junction. Each flow departs evenly."""
    lines, flows = [], []
    for movement, counts in by_movement(junction).items():
        route = f"{movement[0]}-{letter_of(junction.arms, movement).lstrip('>')}"
        edges = " ".join(files.ways[junction.name, movement])
        lines.append(f"    <route{attributes_of({'id': route, 'edges': edges})}/>\n")
        for begin, end, kind, vehicles in flows_of(counts):
            known = {"id": f"{route}.{kind}.{begin}", "type": kind, "route": route, "begin": str(begin)}
            known |= {"end": str(end), "number": str(vehicles), "departLane": "best"}
            flows.append((begin, f"    <flow{attributes_of(known)}/>\n"))
    flows.sort()
    return f"<routes>\n{TYPES}{''.join(lines)}{''.join(text for _, text in flows)}</routes>\n"


def count_rows(layout: SheetLayout, files: PlainFiles) -> Iterator[tuple[int, int, str, str, float, str]]:
    """(begin, end, edge, next edge, vehicles, class) of each count, as streetsim-demand takes them; the class is empty
    where no heavy vehicles are counted."""
    is_mixed = any(count.heavy for junction in layout.junctions.values() for count in junction.counts)
    for junction in layout.junctions.values():
        for count in junction.counts:
            source, target = files.ways[junction.name, count.movement][-2:]
            shares = (("passenger", 1 - count.heavy), ("truck", count.heavy)) if is_mixed else (("", 1.0),)
            for kind, share in shares:
                yield count.begin, count.end, source, target, round(count.vehicles * share, 2), kind
