"""TraCI's domains of which no run here has an object: their lists are empty."""
from collections.abc import Callable

from streetsim.simulation.calls import CallGroup
from streetsim.simulation.session import TraciSession
from streetsim.traci.advice import advice_on

ABSENT = (
    "calibrator", "chargingstation", "meandata", "multientryexit", "overheadwire", "parkingarea", "rerouter",
    "routeprobe", "variablespeedsign",
)


class AbsentDomain(CallGroup):
    """A domain without an object; further calls raise NotHere, which says what to do instead."""

    def __init__(self, session: Callable[[], TraciSession], name: str) -> None:
        """session: gives the session; FatalTraCIError where no run is under way; name: of the domain."""
        super().__init__(session)
        self.name = name

    def advice(self, called: str) -> str:
        """What is said of a call of this domain that is not here; called: "domain.call"."""
        return advice_on(called)

    def getIDList(self) -> tuple[str, ...]:
        """Empty; FatalTraCIError where no run is under way."""
        self.session()
        return ()

    def getIDCount(self) -> int:
        """0."""
        return len(self.getIDList())

    def forget(self) -> None:
        """Does nothing at the end of a run: nothing is kept."""
