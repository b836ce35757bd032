"""The steps of streetsim-demand before any run: reads and checks the inputs, finds candidate ways, and fits vehicles to
counts (Basis, Fitted)."""
from bisect import bisect_right
from collections import defaultdict
from collections.abc import Callable, Iterable, Mapping, Sequence
from dataclasses import dataclass, replace
from itertools import pairwise
from xml.etree.ElementTree import Element

from streetsim.base.files import Fault
from streetsim.base.report import Report
from streetsim.demand import candidates, checking, fitting, matrices, ratios, walking
from streetsim.demand.candidates import Pair, Times, Way
from streetsim.demand.departing import trips_of
from streetsim.demand.fitting import Expecting, Problem, counted_vehicles, deviations
from streetsim.demand.passing import CountsByEdges, Slices, passing_matrix, slices_of
from streetsim.demand.reading import read_counts
from streetsim.demand.rounding import whole_vehicles
from streetsim.demand.science import Array, Sparse, numpy_and_scipy
from streetsim.demand.values import Count, MatrixCell, Zone, share_between
from streetsim.demand.zones import read_zones
from streetsim.search.route_loading import RouteTown
from streetsim.sumo.demand import Demand
from streetsim.sumo.trips import Trip
from streetsim.sumo.types import CLASSES, Types
from streetsim.sumo.way_costs import Costs, flat_costs
from streetsim.sumo.way_graph import Graph
from streetsim.sumo.way_seconds import free_seconds
from streetsim.sumo.way_unloaded import map_without_routes, times_and_capacities_without_routes

FRINGE, ALL = "fringe", "all"  # where trips begin and end: where the network does, or on any edge
FEW_EDGES = 0.2  # of a network: fewer that are counted say little of where trips begin and end

ReportStage = Callable[[str], object]  # takes what is done just now, in words


@dataclass(frozen=True, slots=True)
class DemandInputs:
    """What a demand is to be made of: paths of files, and how."""

    counts: tuple[str, ...] = ()
    attribute: str | None = None  # of SUMO's files, that is the count
    zones: tuple[str, ...] = ()
    matrices: tuple[str, ...] = ()
    flows: tuple[str, ...] = ()
    ratios: tuple[str, ...] = ()
    candidates: tuple[str, ...] = ()
    ways: int | None = None  # between two edges at most; none: 3, or 0 with files of candidates
    most: int = 60_000  # candidate ways, about
    ends: str | None = None  # where trips begin and end: FRINGE, ALL; none: by whether the counts are few
    error: float = fitting.ERROR  # of a count, as a share, by which it is taken to be wrong
    seed: int = 1
    smallness: float = 0.0  # 1: as few vehicles as meet the counts; 0: as many as are expected

    @property
    def of_counts_alone(self) -> bool:
        """Whether nothing but counts says how many drive."""
        return bool(self.counts) and not self.matrices and not self.flows


@dataclass(frozen=True, slots=True)
class Basis:
    """What a fit stands on. kinds: vehicle classes that are told apart, empty for all others; given_vehicles: by class
    the vehicles of a matrix or of turn ratios, an array in one row, at index way * slices + slice; free: seconds of
    each movement without other traffic, with the mean waits at signals."""

    town: RouteTown
    counts: list[Count]
    contradictions: list[checking.Contradiction]  # of counts
    kinds: tuple[str, ...]
    pairs: list[Pair]
    ways: list[Way]
    slices: Slices
    by_edges: CountsByEdges
    given_vehicles: Mapping[str, Array]
    free: Sequence[float]
    kept_pairs: tuple[int, int]  # pairs that were kept, of how many
    has_few: bool = False  # few counts, and nothing else that says where trips begin and end

    def free_costs(self) -> Costs:
        """The costs of movements without other traffic, equal in all slices of time: the seconds of free, and more for
        turning back."""
        return flat_costs(self.town.graph, list(self.free))


@dataclass(frozen=True, slots=True)
class Fitted:
    """A fit on paper. Vehicles are arrays in one row, at index (class * ways + way) * slices + slice. passing: the
    matrix of the counts, a row for each count and a column for each index; expected: vehicles before anything was
    counted; vehicles: of the fit; whole_vehicles: the same in whole vehicles."""

    passing: Sparse
    expected: Array
    vehicles: Array
    whole_vehicles: Array

    def passed_by_count(self) -> list[float]:
        """How many of the whole vehicles would pass each count, by the seconds of the fit."""
        return (self.passing @ self.whole_vehicles).tolist()


def basis_of(town: RouteTown, inputs: DemandInputs, report_stage: ReportStage) -> Basis:
    """Reads and checks what was asked for, and finds the candidate ways. Classes of counts and matrices, and types of
    files of candidates, are added to the vehicle types of the town. Fault for what cannot be used and without SciPy."""
    numpy_and_scipy()
    check_inputs(inputs)
    report_stage("reading counts")
    unloaded = map_without_routes(town.net, town.options)
    counts = read_counts(inputs.counts, inputs.attribute, unloaded)
    if counts:
        checking.check_counts(counts, town.net, town.graph)
    free = list(times_and_capacities_without_routes(town.net, town.graph, town.options)[0])
    driven = free_seconds(town.graph, unloaded, [], town.dawdle)
    zones, cells = read_matrix(inputs, counts, town)
    kinds = kinds_of(counts, cells)
    add_types(kinds, town.types)
    report_stage("finding ways")
    has_few = inputs.of_counts_alone and not zones and are_few(counts, town.graph)
    if has_few and not inputs.ends:
        inputs = replace(inputs, ends=ALL)
    if inputs.flows:
        pairs, ways, departs = candidates_by_ratios(town, inputs, free)
        thinned = len(pairs), len(pairs)
    else:
        pairs, ways, thinned = ways_of_pairs(town, inputs, Times(free, driven), zones, cells)
        departs = []
    if not ways:
        raise Fault("no way leads from any place where trips begin to one where they end")
    lead = max(way.seconds for way in ways) if counts and not cells and not departs else 0.0
    slices = slices_of(slice_bounds(counts, cells, departs), lead, town.options.begin)
    if slices.bounds[0] < town.options.begin:
        raise Fault(f"--begin {town.options.begin}: what is given begins sooner, at {slices.bounds[0]:,} s")
    by_edges = CountsByEdges(counts, town.graph)
    of_departures = departing_vehicles(departs, slices, len(ways))
    given_vehicles = cell_vehicles(cells, pairs, ways, slices) if cells else of_departures
    begins, ends = {edge for pair in pairs for edge in pair.sources}, {edge for pair in pairs for edge in pair.sinks}
    apart = checking.contradictions(counts, town.graph, begins, ends)
    return Basis(town, counts, apart, kinds, pairs, ways, slices, by_edges, given_vehicles, free, thinned, has_few)


def are_few(counts: Iterable[Count], graph: Graph) -> bool:
    """Whether less than FEW_EDGES of the edges of a network are counted."""
    return len({edge for count in counts for edge in count.edges}) < FEW_EDGES * len(graph.edges)


def check_inputs(inputs: DemandInputs) -> None:
    """Fault where nothing is given that a demand could be made of, files that do not go together are given, or ways are
    neither searched nor given."""
    if not (inputs.counts or inputs.matrices or inputs.flows):
        raise Fault("nothing to make a demand of: give --counts, --matrix or --flows with --ratios")
    if bool(inputs.flows) != bool(inputs.ratios):
        raise Fault("--flows and --ratios are given together or not at all")
    if inputs.flows and (inputs.matrices or inputs.zones or inputs.candidates or inputs.ways is not None):
        raise Fault("--flows have ways by their ratios: give no --matrix, --zones, --candidates or --ways beside")
    if inputs.attribute and not inputs.counts:
        raise Fault("--attribute is of --counts: give it too")
    if inputs.ways == 0 and not inputs.candidates:
        raise Fault("--ways 0 leaves no candidates: give files of routes after --candidates")


def read_matrix(
    inputs: DemandInputs, counts: Sequence[Count], town: RouteTown
) -> tuple[dict[str, Zone], list[MatrixCell]]:
    """({name: zone}, cells of the matrix between zones); without zones a matrix is between edges, each of which is then
    a zone. Cells without a period have that from the first begin to the last end of counts. Fault for files that cannot
    be read, zones or edges that are not known, and a matrix without a vehicle."""
    zones = read_zones(inputs.zones)
    for zone in zones.values():
        checking.check_edges([*zone.sources, *zone.sinks], zone.location, town.net)
    period = (min(count.begin for count in counts), max(count.end for count in counts)) if counts else None
    cells = matrices.read_matrices(inputs.matrices, period)
    if cells and not zones:
        names = {name for cell in cells for name in (cell.source, cell.target)}
        if unknown := sorted(names - town.net.edges.keys()):
            lacks = f"there is no zone {unknown[0]!r}: give zones as lists of edges by --zones"
            raise Fault(f"{cells[0].location}: {lacks}")
        zones = {name: Zone(name, {name: 1.0}, {name: 1.0}, "") for name in names}
    matrices.check_zones(cells, zones)
    if cells and not any(cell.vehicles for cell in cells):
        raise Fault(f"{cells[0].location} and {len(cells) - 1:,} more: the matrix is empty")
    return zones, cells


def kinds_of(counts: Iterable[Count], cells: Iterable[MatrixCell]) -> tuple[str, ...]:
    """The classes that are told apart by counts and matrix, sorted; empty stands for all others, which are cars, and is
    alone where none is told apart. Fault for one that SUMO does not have."""
    dated: list[Count | MatrixCell] = [*counts, *cells]
    for value in dated:
        if value.kind and value.kind not in CLASSES:
            raise Fault(f"{value.location}: SUMO has no vehicle class {value.kind!r}; it has {', '.join(CLASSES)}")
    return tuple(sorted({value.kind for value in dated})) or ("",)


def add_types(kinds: Iterable[str], types: Types) -> None:
    """Adds to the types one for each class, but the empty one, where there is none of its name."""
    for kind in sorted({*kinds} - {"", *types.kinds}):
        types.read_element("the classes of counts", Element("vType", {"id": kind, "vClass": kind}))


def ways_of_pairs(
    town: RouteTown, inputs: DemandInputs, times: Times, zones: Mapping[str, Zone], cells: Sequence[MatrixCell]
) -> tuple[list[Pair], list[Way], tuple[int, int]]:
    """(pairs of a matrix, else of zones, else as of pairs_of_edges, and those of route files; their ways; (pairs that
    were kept, of how many)). Without a matrix pairs and ways are thinned to about `inputs.most` ways. Where no ways are
    searched (inputs.ways), all are of the route files. Fault as of given_routes."""
    graph = town.graph
    count = (0 if inputs.candidates else 3) if inputs.ways is None else inputs.ways
    if cells:
        zone_pairs = list(dict.fromkeys((cell.source, cell.target) for cell in cells if cell.vehicles))
        pairs = candidates.pairs_of_zones(graph, zones, zone_pairs)
    elif zones:
        pairs = candidates.pairs_of_zones(graph, zones, [(source, target) for source in zones for target in zones])
    elif count:
        pairs = candidates.pairs_of_edges(graph, town.net, inputs.ends == ALL)
    else:
        pairs = []
    kept_pairs = pairs
    if count and not cells:
        kept_pairs, count = candidates.thinned_pairs(pairs, count, inputs.most, inputs.seed)
    ways = candidates.ways_between(graph, kept_pairs, times, count, inputs.seed) if count else []
    if inputs.candidates:
        routes = given_routes(town, inputs)
        kept_pairs, ways = candidates.with_given_routes(graph, kept_pairs, ways, routes, times.with_waits)
    return kept_pairs, ways, (len(kept_pairs), max(len(pairs), len(kept_pairs)))


def given_routes(town: RouteTown, inputs: DemandInputs) -> list[tuple[str, ...]]:
    """The edges, by name, of each route of the files of candidates: as often as vehicles have it, once where none has.
    Routes of one edge are left out, so that it may be empty; and those with edges without a connection where the
    options ignore them, which is reported. The vehicle types of the files are added to the town's. Fault where the
    files have no route, or else no connection leads from an edge to the next."""
    demand = Demand(town.net, town.types, inputs.seed, Report())
    for path in inputs.candidates:
        demand.read_file(path)
    driven = [vehicle.edges for vehicle in demand.completed_vehicles()]
    driven_set = set(driven)
    routes = [*driven, *(edges for edges in demand.routes.values() if edges not in driven_set)]
    if not routes:
        raise Fault(f"{', '.join(inputs.candidates)}: no route is in it")
    number, movement_of = town.graph.number.get, town.graph.movement_of
    steps = ((edges, edge, next_edge) for edges in routes for edge, next_edge in pairwise(edges))
    apart = [step for step in steps if (number(step[1]), number(step[2])) not in movement_of]
    if apart and not town.options.ignore_route_errors:
        _, source, target = apart[0]
        raise Fault(f"{', '.join(inputs.candidates)}: no connection leads from edge {source!r} to {target!r}")
    broken = {edges for edges, *_ in apart}
    if broken:
        town.types.report.warn(f"{len(broken):,} routes have edges without a connection, and are no candidates")
    return [edges for edges in routes if len(edges) > 1 and edges not in broken]


def candidates_by_ratios(
    town: RouteTown, inputs: DemandInputs, free: Sequence[float]
) -> tuple[list[Pair], list[Way], list[tuple[float, int]]]:
    """The candidate ways of a demand by turn ratios, by the files that the inputs name: (pairs, their ways, (departure
    in seconds, index of its way among these) of each vehicle). free: seconds of each movement. Fault for a file that is
    wrong, and where the ratios lead to no end."""
    turn_ratios, sinks = ratios.read_ratios(inputs.ratios)
    inflows = ratios.read_inflows(inputs.flows, inputs.seed, town.types.report)
    turns = walking.Turns(turn_ratios, sinks, town.net, town.graph)
    walks = list(walking.walks_of(inflows, turns, free, town.net, inputs.seed))
    routes = [town.graph.names(path) for _, path in walks]
    pairs, ways = candidates.with_given_routes(town.graph, [], [], routes, free)
    index = {way.path: number for number, way in enumerate(ways)}
    return pairs, ways, [(depart, index[path]) for depart, path in walks]


def slice_bounds(
    counts: Iterable[Count], cells: Iterable[MatrixCell], departs: Sequence[tuple[float, int]]
) -> list[int]:
    """The begins and ends of slices in seconds, rising: of counts and of cells, and of departures (second, index of the
    way) the first one and the second after the last, where these are sooner and later. Fault where there are none."""
    periods = [*((value.begin, value.end) for value in counts), *((value.begin, value.end) for value in cells)]
    bounds = {bound for period in periods for bound in period}
    if departs:
        seconds = [int(depart) for depart, _ in departs]
        bounds |= {min([*bounds, *seconds]), max([*bounds, max(seconds) + 1])}
    if not bounds:
        raise Fault("there is no period in which vehicles depart")
    return sorted(bounds)


def cell_vehicles(
    cells: list[MatrixCell], pairs: Sequence[Pair], ways: Sequence[Way], slices: Slices
) -> dict[str, Array]:
    """{class: the vehicles of a matrix, an array in one row, at index way * slices + slice}: those of a cell over
    the slices of its period, evenly, and over the ways of its pair by their shares. Cells whose pair is not among
    `pairs`, or has no way, are left out."""
    numpy, _ = numpy_and_scipy()
    pair_of = {(pair.source, pair.target): pair_index for pair_index, pair in enumerate(pairs)}
    of_pair: dict[str, Array] = {}
    for cell in cells:
        rows = of_pair.setdefault(cell.kind, numpy.zeros((len(pairs), len(slices))))
        if (pair_index := pair_of.get((cell.source, cell.target))) is not None:
            rows[pair_index] += [cell.vehicles * share_between(cell, *bounds) for bounds in pairwise(slices.bounds)]
    pair, shares = numpy.array([way.pair for way in ways]), numpy.array([[way.share] for way in ways])
    return {kind: (rows[pair] * shares).ravel() for kind, rows in of_pair.items()}


def departing_vehicles(departs: Sequence[tuple[float, int]], slices: Slices, way_count: int) -> dict[str, Array]:
    """{"": the vehicles, an array in one row, at index way * slices + slice}, of departures (second, index of the
    way), all within the slices; an empty dict where there are none. way_count: how many ways."""
    if not departs:
        return {}
    numpy, _ = numpy_and_scipy()
    vehicles = numpy.zeros((way_count, len(slices)))
    for depart, way in departs:
        vehicles[way, bisect_right(slices.bounds, depart) - 1] += 1
    return {"": vehicles.ravel()}


def passing_by_class(basis: Basis, costs: Costs) -> Sparse:
    """The passing_matrix of each class, side by side, as one sparse matrix: rows are counts, columns class, way and
    slice, as Fitted has them. A count of one class has shares in the columns of this alone, one without a class
    in all. costs: seconds of movements."""
    numpy, scipy = numpy_and_scipy()
    base = passing_matrix(basis.town.graph, basis.ways, basis.slices, basis.by_edges, costs)
    masks = [numpy.array([float(count.kind in ("", kind)) for count in basis.counts]) for kind in basis.kinds]
    return scipy.sparse.hstack([scipy.sparse.diags(mask) @ base for mask in masks]).tocsr()


def fit_to_counts(basis: Basis, inputs: DemandInputs, costs: Costs, targets: Array = None) -> Fitted:
    """The vehicles that fit the counts best; without counts those that are expected. costs: seconds of movements, by
    which it is known who passes when; targets: an array of the vehicles to be met, by count, where a run has corrected
    them; None: what was counted. Fault where there are counts, and too many ways and slices (passing_matrix)."""
    numpy, scipy = numpy_and_scipy()
    size = len(basis.ways) * len(basis.slices)
    passing = passing_by_class(basis, costs) if basis.counts else scipy.sparse.csr_matrix((0, len(basis.kinds) * size))
    targets = counted_vehicles(basis.counts) if targets is None else targets
    parts = [
        expected_vehicles(basis, inputs, kind, passing[:, number * size : (number + 1) * size], targets)
        for number, kind in enumerate(basis.kinds)
    ]
    vehicles = expected = numpy.concatenate(parts)
    if basis.counts:
        deviation = deviations(targets, inputs.error) / fitting.FIRM**0.5
        vehicles, _ = fitting.least_squares(Problem(passing, expected, targets, deviation))
    return Fitted(passing, expected, vehicles, whole_vehicles(vehicles, passing, inputs.seed, inputs.error))


def expected_vehicles(basis: Basis, inputs: DemandInputs, kind: str, base: Sparse, targets: Array) -> Array:
    """The vehicles of a class that are expected of each way and slice, an array in one row: of a matrix or of ratios,
    else by the counts of the class; for the empty class by those of all vehicles, less those of classes that are
    counted there in that time; else 0. base: the class's columns of passing_by_class; targets: vehicles by count."""
    numpy, _ = numpy_and_scipy()
    if kind in basis.given_vehicles:
        return basis.given_vehicles[kind]
    rows = [row for row, count in enumerate(basis.counts) if count.kind == kind]
    if not rows:
        return numpy.zeros(base.shape[1])
    of_classes: defaultdict[tuple[str, ...], list[Count]] = defaultdict(list)
    for count in basis.counts:
        if count.kind and not kind:
            of_classes[count.edges].append(count)
    whole = [basis.counts[row] for row in rows]
    less = [
        sum(part.vehicles * share_between(part, count.begin, count.end) for part in of_classes[count.edges])
        for count in whole
    ]
    remaining = numpy.maximum(targets[rows] - numpy.array(less), 0.0)
    return Expecting(basis.ways, basis.pairs, basis.slices, inputs.error, inputs.smallness).vehicles_by_counts(
        base[rows], remaining
    )


def trips_of_fit(basis: Basis, inputs: DemandInputs, fitted: Fitted) -> list[Trip]:
    """The trips of a fit, by departure; Fault where it has no vehicle."""
    trips = trips_of(fitted.whole_vehicles, basis.kinds, basis.ways, basis.slices, inputs.seed)
    if not trips:
        raise Fault("nobody drives: the fit has no vehicle")
    return trips
