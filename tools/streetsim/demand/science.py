"""Imports NumPy and SciPy, on which the fit stands; a Fault says so where they are not installed."""
from typing import Any

from streetsim.base.arrays import Array, take_one_thread
from streetsim.base.files import Fault

__all__ = ["Array", "Sparse", "numpy_and_scipy"]
Sparse = Any  # matrix of SciPy


def numpy_and_scipy() -> Any:
    """(NumPy, SciPy); Fault, which says what to install, where they are missing. Both take one thread."""
    take_one_thread()
    try:
        import numpy
        import scipy.optimize
        import scipy.sparse.csgraph
    except ImportError:
        raise Fault("the fit needs Debian's python3-scipy: apt install python3-scipy") from None
    return numpy, scipy
