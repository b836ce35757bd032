"""The least squares of streetsim-demand: vehicles of each way and slice, none below 0, that fit the counts best. All
matrices are sparse."""
from collections.abc import Sequence
from dataclasses import dataclass

from streetsim.base.files import Fault
from streetsim.demand.candidates import HABITS, End, Pair, Way, shares_by_habit
from streetsim.demand.passing import Slices
from streetsim.demand.science import Array, Sparse, numpy_and_scipy
from streetsim.demand.values import Count

ERROR = 0.05  # of a count, by which it is taken to be wrong
CHANCE = 1.0  # square of the vehicles by which any count is taken to be wrong besides
FIRM = 10.0  # how many times as much as their deviations say counts weigh in the last fit
ENDS_ROUNDS = 6  # in which the trips that begin and end on each edge, or in each zone, are estimated
OUTSIDE = (0, 2, 4)  # times doubled, that an end outside has more than one within: what fits best
HALF = 0.5  # of what is expected of a way, by how many begin and how many end where it does
LEAST_EXPECTED = 1e-6  # vehicles that are expected of a way and slice at least, so that it is not ruled out
SURE = 1e3  # vehicles that are worth one deviation of a count, where the smallest demand is wanted
STEPS = 500  # of the search for the least squares, at most


@dataclass(frozen=True, slots=True)
class Problem:
    """What is to be fitted. passing: the share of the vehicles of each way and slice (columns) that pass each count
    (rows); expected: vehicles of each column before anything was counted; targets: vehicles of each row; deviation: by
    how many vehicles each of these is taken to be wrong."""

    passing: Sparse
    expected: Array
    targets: Array
    deviation: Array


def deviations(targets: Array, error: float) -> Array:
    """How far off counts are taken to be, in vehicles, as an array: the root of CHANCE + (error * count)^2. targets: an
    array of vehicles; error: share of a count."""
    numpy, _ = numpy_and_scipy()
    return numpy.sqrt(CHANCE + (error * targets) ** 2)


def least_squares(problem: Problem) -> tuple[Array, float]:
    """(the vehicles of each column, 0 at least, as an array; the sum of squares, which is least for them): of what the
    counts differ by over their deviations (above 0), and of what the vehicles differ by from those expected over the
    root of these. Fewer than LEAST_EXPECTED that are expected count as so many, so that no column is
    ruled out. After STEPS steps what is found until then is given, and nothing is said."""
    numpy, scipy = numpy_and_scipy()
    root = numpy.sqrt(numpy.maximum(problem.expected, LEAST_EXPECTED))
    scaled = (scipy.sparse.diags(1 / problem.deviation) @ problem.passing @ scipy.sparse.diags(root)).tocsr()
    across = scaled.T.tocsr()
    target = problem.targets / problem.deviation

    def half_squares(of: Array) -> tuple[float, Array]:
        """(half the sum of squares, its slope), for vehicles over the root of those that are expected (of)."""
        apart, from_expected = scaled @ of - target, of - root
        return 0.5 * float(apart @ apart + from_expected @ from_expected), across @ apart + from_expected

    solution = scipy.optimize.minimize(
        half_squares, root, jac=True, method="L-BFGS-B", bounds=scipy.optimize.Bounds(0, numpy.inf),
        options={"maxiter": STEPS, "maxfun": 2 * STEPS, "maxcor": 20, "ftol": 1e-10, "gtol": 1e-5},
    )  # fmt: skip
    return solution.x * root, 2 * float(solution.fun)


def smallest_vehicles(passing: Sparse, targets: Array, deviation: Array) -> Array:
    """The vehicles of each column, 0 at least, as an array, whose sum is least of all that meet the counts as nearly as
    any can, by the sum of what is apart over the deviations. Fault where no solution is found. passing, targets,
    deviation: as `Problem` has them."""
    numpy, scipy = numpy_and_scipy()
    rows, columns = passing.shape
    apart = scipy.sparse.identity(rows)
    weights = numpy.concatenate((numpy.ones(columns), numpy.tile(SURE / deviation, 2)))
    equal = scipy.sparse.hstack([passing, apart, -apart]).tocsr()
    solution = scipy.optimize.linprog(weights, A_eq=equal, b_eq=targets, bounds=(0, None), method="highs")
    if solution.x is None:
        raise Fault(f"--smallest: no demand was found: {solution.message}")
    return solution.x[:columns]


class TripEnds:
    """The edges or zones where trips begin, or those where they end, by number: of_way has the number of each way's;
    weight and outside (1, or 0: within) are those of each."""

    def __init__(self, names: Sequence[str], ends: Sequence[End]) -> None:
        """names: where each way begins, or ends; ends: what is expected of that; both in the ways' order."""
        numpy, _ = numpy_and_scipy()
        numbers = {name: number for number, name in enumerate(dict.fromkeys(names))}
        self.of_way = numpy.array([numbers[name] for name in names])
        known = dict(zip(names, ends, strict=True))
        self.weight = numpy.array([known[name].weight for name in numbers])
        self.outside = numpy.array([int(known[name].outside) for name in numbers])

    def vehicles_at(self, vehicles: Array) -> Array:
        """For each way, as an array, how many vehicles begin, or end, where it does: half of them as the ways have
        them, half as all outside, or all within, would by their weights. vehicles: of each way, as an array."""
        numpy, _ = numpy_and_scipy()
        by_end = numpy.bincount(self.of_way, vehicles, len(self.weight))
        rates = numpy.bincount(self.outside, by_end, 2) / numpy.maximum(
            numpy.bincount(self.outside, self.weight, 2), LEAST_EXPECTED
        )
        return (HALF * by_end + (1 - HALF) * rates[self.outside] * self.weight)[self.of_way]


class Expecting:
    """What is expected of ways and slices by counts alone: how much each slice has by all counts together, and how much
    begins and ends on each edge, or in each zone."""

    def __init__(
        self, ways: Sequence[Way], pairs: Sequence[Pair], slices: Slices, error: float, smallness: float = 0.0
    ) -> None:
        """error: share of a count by which it is taken to be wrong; smallness: how much of what is expected, 0 to 1, is
        that of the fewest vehicles that meet the counts."""
        numpy, _ = numpy_and_scipy()
        self.smallness = smallness
        self.slices, self.error, self.ways = slices, error, ways
        way_pairs = [pairs[way.pair] for way in ways]
        self.begins = TripEnds([pair.source for pair in way_pairs], [pair.begins for pair in way_pairs])
        self.ends = TripEnds([pair.target for pair in way_pairs], [pair.ends for pair in way_pairs])
        outside = (ends.outside[ends.of_way] for ends in (self.begins, self.ends))
        self.outside = 2.0 ** sum(outside)  # doubles for each end of a way that lies outside

    def vehicles_by_counts(self, passing: Sparse, targets: Array) -> Array:
        """The vehicles of each way and slice, an array in one row at index way * slices + slice, by counts alone: at
        first by the habit of drivers (none is tried where a way's share is given), and by what ends outside have more,
        that fit the counts best; then half by how many begin and end where it does, and half by what the counts have
        shown of each way; as much as is wanted of the smallest numbers. passing, targets: as `Problem` has them."""
        numpy, _ = numpy_and_scipy()
        deviation, share = deviations(targets, self.error), numpy.array([way.share for way in self.ways])
        if all(way.ends_share is not None for way in self.ways):
            habits = [shares_by_habit(self.ways, habit) for habit in HABITS]
            share = min(habits, key=lambda shares: self.misfit(passing, targets, self.vehicles_by_ends(shares, shares)))
        starts = [self.vehicles_by_ends(share * self.outside**exponent, share) for exponent in OUTSIDE]
        start = min(starts, key=lambda vehicles: self.misfit(passing, targets, vehicles))
        base, rates = self.ways_and_slices(passing, targets, start)
        smallest: Array = 0.0
        if self.smallness:
            smallest = self.smallness * smallest_vehicles(pooled_columns(passing, rates), targets, deviation)
        for _ in range(ENDS_ROUNDS if self.smallness < 1 else 0):
            fitted = least_squares(Problem(pooled_columns(passing, rates), base, targets, deviation))[0]
            mixed = HALF * self.vehicles_by_ends(fitted, share) + (1 - HALF) * fitted
            base, rates = self.ways_and_slices(passing, targets, mixed)
        base = least_squares(Problem(pooled_columns(passing, rates), base, targets, deviation))[0]
        mixed = smallest + (1 - self.smallness) * base
        return numpy.outer(numpy.maximum(mixed, LEAST_EXPECTED), rates).ravel()

    def misfit(self, passing: Sparse, targets: Array, base: Array) -> float:
        """How far counts and what is expected stay apart in a fit, by the sum of squares, so that the best of several
        can be taken; base: as of `ways_and_slices`."""
        base, rates = self.ways_and_slices(passing, targets, base)
        return least_squares(Problem(pooled_columns(passing, rates), base, targets, deviations(targets, self.error)))[1]

    def ways_and_slices(self, passing: Sparse, targets: Array, base: Array) -> tuple[Array, Array]:
        """(vehicles of each way over all slices, share, 0 to 1, that each slice has of them), arrays that fit all
        counts together best; base: any numbers in whose proportion ways have vehicles."""
        rates = self.slice_rates(passing, targets, base)
        total = float(rates.sum())
        return base * total, rates / total

    def vehicles_by_ends(self, vehicles: Array, share: Array) -> Array:
        """The vehicles of each way, as an array, in proportion to how many begin and how many end where it does and to
        its share; their sum is that of `vehicles`, of each way."""
        weighted = self.begins.vehicles_at(vehicles) * self.ends.vehicles_at(vehicles) * share
        return weighted * (vehicles.sum() / max(weighted.sum(), LEAST_EXPECTED))

    def slice_rates(self, passing: Sparse, targets: Array, base: Array) -> Array:
        """By slice, as an array, how many vehicles it has for one vehicle of `base`, which has a number for each way.
        The slice that leads in, if there is one, has as many a second as the next; each other one has a thousandth of
        the greatest number at least."""
        numpy, scipy = numpy_and_scipy()
        count = len(self.slices)
        columns = numpy.arange(passing.shape[1])
        sums = scipy.sparse.csr_matrix((base[columns // count], (columns, columns % count)))
        table = (passing @ sums).toarray()
        widths = numpy.array(self.slices.widths(), dtype=float)
        if self.slices.leads_in:
            table[:, 1] += table[:, 0] * widths[0] / widths[1]
            table = table[:, 1:]
        deviation = deviations(targets, self.error)[:, None]
        rates, _ = scipy.optimize.nnls(table / deviation, targets / deviation[:, 0])
        rates = numpy.maximum(rates, 1e-3 * max(rates.max(), LEAST_EXPECTED))
        return numpy.concatenate(([rates[0] * widths[0] / widths[1]], rates)) if self.slices.leads_in else rates


def pooled_columns(passing: Sparse, rates: Array) -> Sparse:
    """The matrix with one column for each way, in place of one for each of its slices, by which ways are fitted while
    the share that each slice has (rates) stays."""
    numpy, scipy = numpy_and_scipy()
    columns = numpy.arange(passing.shape[1])
    sums = scipy.sparse.csr_matrix((rates[columns % len(rates)], (columns, columns // len(rates))))
    return (passing @ sums).tocsr()


def counted_vehicles(counts: Sequence[Count]) -> Array:
    """The vehicles of counts as an array, in their order."""
    numpy, _ = numpy_and_scipy()
    return numpy.array([count.vehicles for count in counts])


def unreachable_counts(passing: Sparse, counts: Sequence[Count]) -> list[Count]:
    """The counts that no way can fit: vehicles were counted there, but no way passes in that period. passing:
    as `Problem` has it, its rows in the order of `counts`."""
    numpy, _ = numpy_and_scipy()
    sums = numpy.asarray(passing.sum(axis=1)).ravel()
    return [count for count, share in zip(counts, sums, strict=True) if share <= 0 and count.vehicles > 0]
