"""Makes the vehicles of a fit whole numbers whose sums at counts stay near those of the fit."""
from streetsim.demand.fitting import deviations
from streetsim.demand.science import Array, Sparse, numpy_and_scipy

SWAPS = 20_000  # of a vehicle of one way and slice for one of another, at most
LEAST_GAIN = 1e-9  # in the sum of squares, for which one is swapped


def whole_vehicles(vehicles: Array, passing: Sparse, seed: int, error: float) -> Array:
    """The vehicles of a fit in whole numbers, an array of integers: each is rounded up or down, so that the sum of any
    that follow each other is within one of what it was; then some are swapped so that what passes the counts is near
    the fit. passing: as `Problem` has it; seed: of the rounding; error: of a count, as a share."""
    numpy, _ = numpy_and_scipy()
    start = numpy.random.default_rng(seed).random()
    whole = numpy.diff(numpy.floor(numpy.concatenate(([0.0], numpy.cumsum(vehicles))) + start))
    low = numpy.floor(vehicles)
    whole = numpy.clip(whole, low, low + 1).astype(int)
    return swapped_to_fit(whole, vehicles, passing, error) if passing.shape[0] else whole


def swapped_to_fit(whole_numbers: Array, vehicles: Array, passing: Sparse, error: float) -> Array:
    """The rounded numbers after swaps of one that was rounded up with one that was rounded down, as long as
    what passes the counts comes nearer to that of `vehicles`, at most SWAPS times. passing,
    error: as of `whole_vehicles`."""
    numpy, scipy = numpy_and_scipy()
    targets, whole_numbers = passing @ vehicles, whole_numbers.copy()
    scaled = (scipy.sparse.diags(1 / deviations(targets, error)) @ passing).tocsc()
    across, squares = scaled.T.tocsr(), numpy.asarray(scaled.multiply(scaled).sum(axis=0)).ravel()
    low = numpy.floor(vehicles)
    open_ = vehicles > low
    apart = scaled @ (whole_numbers - vehicles)
    for _ in range(SWAPS):
        slope = across @ apart
        more = numpy.where(open_ & (whole_numbers == low), slope + 0.5 * squares, numpy.inf)
        less = numpy.where(open_ & (whole_numbers > low), -slope + 0.5 * squares, numpy.inf)
        up, down = int(more.argmin()), int(less.argmin())
        change = scaled[:, up] - scaled[:, down]
        possible = numpy.isfinite(more[up] + less[down])
        if not possible or float((change.T @ apart)[0] + 0.5 * change.multiply(change).sum()) >= -LEAST_GAIN:
            break
        whole_numbers[up] += 1
        whole_numbers[down] -= 1
        apart = apart + change.toarray().ravel()
    return whole_numbers
