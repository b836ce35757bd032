"""Works as they are asked for, texts of the form LANE:METRES-METRES:S-S."""
import math
import re
from collections.abc import Iterable, Iterator
from dataclasses import dataclass

from streetsim.base.files import Fault
from streetsim.base.report import first_few
from streetsim.base.words import names_in, whole_seconds
from streetsim.model.mapping import Map
from streetsim.model.names import EDGES

FORM = re.compile(r"(.+):(\d+)-(\d+):([\d:.]+)-([\d:.]+)")
HOURS = re.compile(r"(\d{1,2}):([0-5]\d)")


@dataclass(slots=True, frozen=True)
class AskedWorks:
    """What one --close asks for: a lane, from where to where (metres from its begin), from when to when (seconds)."""

    text: str  # as it was asked for
    lane: str  # SUMO's name
    from_metres: int  # from the lane's begin
    to_metres: int
    begin: int  # second
    end: int  # second in which they are over
    # Whether they begin on the part of the edge before, whose lane they close to its end: so one cell stays open here,
    # for who has left that lane when they begin.
    goes_on: bool = False


@dataclass(slots=True)
class Site:
    """Works on a link of a map, on the cells of one of its lanes."""

    works: AskedWorks
    link: int
    lane: int
    cells: tuple[int, int]  # the first and the last


def all_works(texts: Iterable[str], mapping: Map, start: int, until: int | None) -> list[AskedWorks]:
    """The works of texts, each of which may name several with commas or blanks between. Fault as of works_of, and where
    one ends at the start or before, or begins at the end or later. start, until: of the run in seconds; until None: not
    known."""
    works = [works_of(one, mapping) for text in texts for one in names_in(text)]
    if over := [one.text for one in works if one.end <= start]:
        raise Fault(f"--close {over[0]!r}: ends at the start, {start} s, or earlier")
    if late := [one.text for one in works if until is not None and one.begin >= until]:
        raise Fault(f"--close {late[0]!r}: begins at the end, {until} s, or later")
    return works


def works_of(text: str, mapping: Map) -> AskedWorks:
    """The works that a text LANE:METRES-METRES:S-S asks for, each S as clock_of reads it; Fault where it has another
    form, one of its pairs does not rise, or the map has no such lane or metres."""
    match = FORM.fullmatch(text)
    clocks = [second for clock in match.groups()[3:] if (second := clock_of(clock)) is not None] if match else []
    if not match or len(clocks) < 2 or int(match[2]) >= int(match[3]) or clocks[0] >= clocks[1]:
        raise Fault(f"--close {text!r}: expected LANE:METRES-METRES:S-S, whole numbers that rise")
    place = mapping.place_of(match[1])
    if place is None:
        raise Fault(f"--close {text!r}: the map has no lane {match[1]!r}{suggested_names(match[1], mapping)}")
    metres = mapping.links[place[0]].metres
    if int(match[3]) > math.ceil(metres):
        raise Fault(f"--close {text!r}: the lane ends at {metres:g} m")
    return AskedWorks(text, match[1], int(match[2]), int(match[3]), clocks[0], clocks[1])


def suggested_names(name: str, mapping: Map) -> str:
    """What may be meant by a name that is no lane's, as the end of a sentence: the lanes of an edge of this name, else
    the edges of a street of this name; empty where there are neither."""
    lanes = [mapping.lane_name(*place) for place in mapping.lanes(mapping.links_of.get(name, ()))]
    if lanes:
        return f", but {first_few(lanes)}"
    named = (edge for edge, street in mapping.names.get(EDGES, {}).items() if street == name)
    edges = [edge for edge in named if edge in mapping.links_of]
    return f": {name} is the name of edges {first_few(edges)}" if edges else ""


def clock_of(text: str) -> int | None:
    """The second of a text: seconds, 07:00 or 07:00:00. None where it is no time or no whole second."""
    if found := HOURS.fullmatch(text):
        return 3600 * int(found[1]) + 60 * int(found[2])
    return whole_seconds(text)


def sites_of(works: Iterable[AskedWorks], mapping: Map) -> list[Site]:
    """Works on the cells of a map; the map must have their lanes."""
    places = {mapping.lane_name(*place): place for place in mapping.lanes()}
    sites = []
    for one in works:
        link, lane = places[one.lane]
        first, last = mapping.links[link].closed_between(one.from_metres, one.to_metres)
        sites.append(Site(one, link, lane, (min(1, last) if one.goes_on else first, last)))
    return sites


def really_closed(sites: Iterable[Site], mapping: Map) -> Iterator[str]:
    """Says, a text each, where other metres are closed than were asked for, by more than a cell."""
    for site in sites:
        link, works = mapping.links[site.link], site.works
        size = link.metres / link.cells
        begin, end = site.cells[0] * size, (site.cells[1] + 1) * size
        if begin - works.from_metres > size:
            why = f"the first {begin:.0f} m of a lane with one beside it stay open, as turns lead there"
        elif abs(begin - works.from_metres) > size or abs(end - works.to_metres) > size:
            why = f"cells are {size:.1f} m long"
        else:
            continue
        asked = f"{works.from_metres} to {works.to_metres} m"
        yield f"works on {works.lane} close {begin:.0f} to {end:.0f} m of {asked}: {why}"
