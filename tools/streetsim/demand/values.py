"""Values that files of planners hold: counts, zones, cells of matrices, inflows and turn ratios, each with its location
(file and line)."""
from collections import defaultdict
from collections.abc import Callable, Iterable, Iterator, Mapping, Sequence
from dataclasses import dataclass
from itertools import pairwise
from typing import TypeVar


@dataclass(frozen=True, slots=True)
class Count:
    """Vehicles that were counted in a period: of an edge those that left it at its end or arrived on it, of two edges
    or more those that went from the first over all others to the last."""

    begin: int  # seconds
    end: int  # seconds
    edges: tuple[str, ...]
    vehicles: float
    location: str  # the file and its line
    kind: str = ""  # the vehicle class; empty: all vehicles
    group: str = ""  # a screen line

    @property
    def hours(self) -> float:
        """The length of its period in hours."""
        return (self.end - self.begin) / 3600

    def edge_names(self) -> str:
        """Its edges with blanks between, as the user is told."""
        return " ".join(self.edges)


@dataclass(frozen=True, slots=True)
class Zone:
    """Edges on which trips of a zone begin (sources), and those on which they end (sinks), by name, each with its
    weight beside the others of the zone."""

    name: str
    sources: Mapping[str, float]
    sinks: Mapping[str, float]
    location: str  # the file and its line


@dataclass(frozen=True, slots=True)
class MatrixCell:
    """A cell of a matrix: vehicles from one zone to another that depart in a period, in seconds."""

    begin: int
    end: int
    source: str
    target: str
    vehicles: float
    location: str  # the file and its line
    kind: str = ""  # the vehicle class; empty: a car


Dated = TypeVar("Dated", Count, MatrixCell)


def overlapping_pairs(values: Iterable[Dated], key: Callable[[Dated], object]) -> Iterator[tuple[Dated, Dated]]:
    """Pairs of counts, or of cells, of one key whose periods overlap, the one that begins sooner first. Only those that
    follow each other by their begins are compared, so that there is a pair where any two overlap."""
    groups: defaultdict[object, list[Dated]] = defaultdict(list)
    for value in values:
        groups[key(value)].append(value)
    for alike in groups.values():
        alike.sort(key=lambda value: (value.begin, value.end))
        yield from ((first, second) for first, second in pairwise(alike) if second.begin < first.end)


def share_between(dated: Dated, begin: float, end: float) -> float:
    """The share, 0 to 1, of the period of a count or a cell that lies between two clocks."""
    return max(0.0, min(end, dated.end) - max(begin, dated.begin)) / (dated.end - dated.begin)


@dataclass(frozen=True, slots=True)
class Inflow:
    """Vehicles that depart on an edge, at some seconds, and go on by turn ratios."""

    edge: str
    departs: Sequence[float]  # rising
    location: str  # the file and the element


@dataclass(frozen=True, slots=True)
class Ratio:
    """The weight with which vehicles go on from an edge to another one in a period, in seconds; shares are weights over
    the sum of those of the edge."""

    begin: int
    end: int
    source: str
    target: str
    weight: float
    location: str
