"""Calls that only change what a window shows. There is none: they do nothing, and the first of each domain says so."""
import sys
from collections.abc import Callable

from streetsim.simulation.errors import NotHere
from streetsim.traci.advice import WINDOW

NOTICE = "shows nothing here: there is no window; streetsim-live and streetsim-plot show runs"


class Quiet:
    """A domain whose calls only change what a window shows: they do nothing; NotHere for any other call."""

    def __init__(self, name: str, calls: tuple[str, ...]) -> None:
        """name: of the domain; calls: the names that do nothing."""
        self.name, self.calls, self.has_warned = name, calls, False

    def __getattr__(self, call: str) -> Callable[..., None]:
        """A call that does nothing; NotHere for those of other names, AttributeError for Python's own."""
        if call.startswith("__"):
            raise AttributeError(call)
        if call not in self.calls:
            raise NotHere(f"{self.name}.{call} is not here: {WINDOW}")
        return self.nothing

    def nothing(self, *_: object, **__: object) -> None:
        """Does nothing; the first call in a run says so on standard error."""
        if not self.has_warned:
            print(f"warning: traci.{self.name} {NOTICE}", file=sys.stderr)
            self.has_warned = True

    def forget(self) -> None:
        """Lets the next run say so again."""
        self.has_warned = False


GUI = (
    "setAngle", "setBoundary", "setOffset", "setSchema", "setZoom", "toggleSelection", "track", "trackVehicle",
    "addView", "removeView",
)
SHAPES = (
    "add", "highlight", "remove", "setAngle", "setColor", "setFilled", "setHeight", "setImageFile", "setLineWidth",
    "setPosition", "setShape", "setType", "setWidth",
)
