"""TraCI's persons. There are none: their lists are empty."""
from collections.abc import Callable

from streetsim.simulation.session import TraciSession
from streetsim.traci.absent import AbsentDomain


class PersonDomain(AbsentDomain):
    """As SUMO's traci.person, where nobody walks."""

    def __init__(self, session: Callable[[], TraciSession]) -> None:
        """session: gives the session; FatalTraCIError where no run is under way."""
        super().__init__(session, "person")

    def getTaxiReservations(self, onlyNew: int = 0) -> tuple[str, ...]:
        """Empty: nobody asks for a taxi."""
        return ()
