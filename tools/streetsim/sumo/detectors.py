"""SUMO's induction loops (e1) and lane areas (e2) of additional files, placed on the cells of an import. All that reads
raises Fault, with file and element, where an attribute that it needs is absent, or one cannot be read."""
from collections.abc import Container, Iterable
from dataclasses import dataclass
from xml.etree.ElementTree import Element

from streetsim.base import limits
from streetsim.base.files import Fault, FilePath, at_least_zero, attribute, element_told, number, optional, seconds
from streetsim.base.report import Report
from streetsim.model.detectors import E1, E2, Detector
from streetsim.model.mapping import Map, MapLink

TRUE = ("true", "yes", "on", "1", "x", "t")  # as SUMO reads it
NEAR = 0.1  # metres, by which lengths are rounded
KINDS = {"inductionLoop": E1, "e1Detector": E1, "laneAreaDetector": E2, "e2Detector": E2}


@dataclass(slots=True, frozen=True)
class SumoDetector:
    """A detector as its file tells it; period in seconds."""

    element_label: str  # file and element, for what is told
    name: str
    kind: str
    lane: str
    begin: float  # metres; below 0: from the lane's end
    end: float | None  # of an e2; None: to the lane's end
    period: int
    friendly: bool  # a place beyond the lane is moved onto it
    goes_on: bool  # beyond the lane it goes on, in SUMO, on the next one


def read_detector(path: FilePath, element: Element, report: Report) -> SumoDetector | None:
    """The detector of an element; None for one over several lanes, which is reported, as area_metres reports lane
    areas. Fault where its period (freq, else period), in whole seconds, is below 1 s; a longer one than a run may have,
    and one that is not told, becomes the longest."""
    kind = KINDS[element.tag]
    if element.get("lanes"):
        report.ignored[f"<{element.tag}> over several lanes"] += 1
        return None
    begin, end = area_metres(path, element, report) if kind == E2 else (attribute(path, element, "pos", number), None)
    friendly, goes_on = element.get("friendlyPos", "").lower() in TRUE, not element.get("endPos")
    names = [name for name in ("freq", "period") if element.get(name)]
    period = round(attribute(path, element, names[0], seconds)) if names else limits.PERIOD
    if period < 1:
        raise Fault(f"{element_told(path, element)}: {names[0]}={element.get(names[0])!r} is no period")
    name, lane, period = attribute(path, element, "id"), attribute(path, element, "lane"), min(period, limits.PERIOD)
    return SumoDetector(element_told(path, element), name, kind, lane, begin, end, period, friendly, goes_on)


def area_metres(path: FilePath, element: Element, report: Report) -> tuple[float, float | None]:
    """The (begin, end) metres of a lane area, as SumoDetector has them, by its pos, endPos and length; without endPos
    and length (0 counts as none) it ends with the lane (end None). Where all three are told, pos and length say where
    it ends. One that these numbers alone show to reach beyond its lane is reported here; others by detector_cells, by
    the lane's length. Fault where one of them is no number, or pos is not told, but for endPos with length."""
    end = optional(path, element, "endPos", number, None)
    length = optional(path, element, "length", at_least_zero(number), 0.0)
    if not length:
        return attribute(path, element, "pos", number), end
    if end is None or element.get("pos") is not None:
        begin = attribute(path, element, "pos", number)
        if begin < 0 < begin + length:
            tell_beyond(element.get("id"), element.get("lane"), report)
        return begin, None if begin < 0 <= begin + length else begin + length
    if 0 <= end < length:
        tell_beyond(element.get("id"), element.get("lane"), report)
    return 0.0 if 0 <= end < length else end - length, end


def tell_beyond(name: str | None, lane: str | None, report: Report) -> None:
    """Reports that a lane area goes on, in SUMO, on another lane, and here does not; name, lane: of the lane area."""
    told = f"detector {name} reaches beyond {lane}, and sees what is on that lane alone"
    kind = "detectors reach beyond their lane, and see what is on that lane alone"
    report.warn(told, [name or ""], kind=kind)


def detectors_on_cells(
    detectors: Iterable[SumoDetector], mapping: Map, closed: Container[str], report: Report
) -> list[Detector]:
    """Detectors on the cells of a map; those on lanes that are left out (closed: their names) are reported and left out
    too. Fault where the network does not have a lane, two have one name, there are more induction loops than a run may
    have, or `detector_cells` raises one."""
    place_of_lane = {mapping.lane_name(*place): place for place in mapping.lanes()}
    on_cells = {}
    for detector in detectors:
        if detector.name in on_cells:
            raise Fault(f"{detector.element_label}: a second detector of this name")
        if detector.lane in place_of_lane:
            place, at = place_of_lane[detector.lane], mapping.links[place_of_lane[detector.lane][0]]
            cells = detector_cells(detector, at, report)
            named = detector.name, detector.kind
            on_cells[detector.name] = Detector(*named, *place, *cells, detector.period, at.cell_metres)
        elif detector.lane in closed:
            told = f"detector {detector.name} lies on {detector.lane}, which is left out"
            report.warn(told, [detector.name], kind="detectors lie on lanes that are left out")
        else:
            raise Fault(f"{detector.element_label}: the network has no lane {detector.lane!r}")
    if sum(detector.kind == E1 for detector in on_cells.values()) > limits.METERS:
        raise Fault(f"more than {limits.METERS:,} induction loops")
    return list(on_cells.values())


def detector_cells(detector: SumoDetector, link: MapLink, report: Report) -> tuple[int, int]:
    """The (first, last) cell, from 0, both included, of a detector on a link: the one in which a loop lies, or for a
    lane area the one in which it begins and the one whose end is nearest to its own. Fault where it lies beyond its
    lane by more than NEAR and is not friendly, or does not end behind its begin. One that goes on beyond its lane is no
    Fault but reported; friendly ones are not."""
    begin = detector.begin + link.metres if detector.begin < 0 else detector.begin
    end = detector.end + link.metres if detector.end is not None and detector.end < 0 else detector.end
    lane = f"lane {detector.lane!r} is {link.metres:g} m long"
    if not detector.friendly and not -NEAR <= begin <= link.metres + NEAR:
        raise Fault(f"{detector.element_label}: begins at {detector.begin:g} m, and {lane}")
    if end is not None and end > link.metres + NEAR and not detector.friendly:
        if not detector.goes_on:
            raise Fault(f"{detector.element_label}: ends at {detector.end:g} m, and {lane}")
        tell_beyond(detector.name, detector.lane, report)
    if end is not None and end <= begin:
        raise Fault(f"{detector.element_label}: ends at {end:g} m, and begins at {begin:g} m")
    first, _ = link.cells_between(begin, begin)
    if detector.kind == E1:
        return first, first
    return link.cells_between(begin, link.metres if end is None else end)
