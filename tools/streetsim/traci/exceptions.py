"""TraCI's exceptions."""
from streetsim.simulation.errors import FatalTraCIError, NotHere, TraCIException

__all__ = ["FatalTraCIError", "NotHere", "TraCIException"]
