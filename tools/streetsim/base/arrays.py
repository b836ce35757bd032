"""NumPy, by which the tools read the record of a run. It is imported where it is asked for, so that all else, and each
tool's --help, works without it."""
import os
from typing import Any

from streetsim.base.files import Fault

Array = Any  # of NumPy
THREADS = ("OPENBLAS_NUM_THREADS", "OMP_NUM_THREADS", "MKL_NUM_THREADS")


def take_one_thread() -> None:
    """Sets environment variables, where they are not set, so that NumPy and SciPy take one thread: with several, sums
    hang on chance. It has no effect once they are imported."""
    for name in THREADS:
        os.environ.setdefault(name, "1")


def numpy_module() -> Any:
    """NumPy, which takes one thread; Fault, which says what to install, where it is missing."""
    take_one_thread()
    try:
        import numpy
    except ImportError:
        raise Fault("the record of a run needs Debian's python3-numpy: apt install python3-numpy") from None
    return numpy


class NumPy:
    """NumPy, which is imported when it is first asked for something; Fault where it is missing."""

    def __getattr__(self, name: str) -> Any:
        """What NumPy has by this name, which is kept here."""
        attribute = getattr(numpy_module(), name)
        setattr(self, name, attribute)
        return attribute


numpy = NumPy()
