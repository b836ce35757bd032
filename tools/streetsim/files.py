"""Files as the tools read and write them, and the Fault that says what is wrong with one, for programs of users."""
import warnings

from streetsim.base import files as here
from streetsim.base.files import *

RENAMED = {"tell_fault": "print_fault"}  # names of the version before


def __getattr__(name: str) -> object:
    """What has another name now, with a warning, for one version."""
    if name not in RENAMED:
        raise AttributeError(f"module {__name__!r} has no attribute {name!r}")
    warnings.warn(f"{__name__}.{name} is {RENAMED[name]} now", DeprecationWarning, stacklevel=2)
    return getattr(here, RENAMED[name])
