"""TraCI's bus stops."""
from collections.abc import Collection

from streetsim.simulation.street_facts import StopFacts
from streetsim.traci import constants as tc
from streetsim.traci.domain import Domain


class BusStopDomain(Domain):
    """As SUMO's traci.busstop: the stops of additional files, and the vehicles of the files that stand there.
    TraCIException for an unknown stop."""

    kind, name = "Bus stop", "busstop"
    default_variables = (tc.VAR_STOP_STARTING_VEHICLES_NUMBER,)

    def getIDList(self) -> tuple[str, ...]:
        """The names of the stops, also of those at which nobody stops."""
        return tuple(self.session().facts.stops)

    def subjects(self) -> Collection[str]:
        """The names of all."""
        return self.session().facts.stops.keys()

    def stop(self, name: str) -> StopFacts:
        """What its file says of a stop; TraCIException for an unknown one."""
        self.check_known(name, self.session().facts.stops)
        return self.session().facts.stops[name]

    def getLaneID(self, name: str) -> str:
        """The name of its lane."""
        return self.stop(name).lane

    def getStartPos(self, name: str) -> float:
        """Metres from the lane's begin to its own."""
        return self.stop(name).begin

    def getEndPos(self, name: str) -> float:
        """Metres from the lane's begin to its end."""
        return self.stop(name).end

    def getName(self, name: str) -> str:
        """Its attribute `name`; empty where it has none."""
        return self.stop(name).called

    def getVehicleIDs(self, name: str) -> tuple[str, ...]:
        """The vehicles that stand at it."""
        self.stop(name)
        session = self.session()
        here = (number for number in session.at_stops() if session.stops_to_come(number)[0].stop == name)
        return session.names_of(sorted(here))

    def getVehicleCount(self, name: str) -> int:
        """How many vehicles getVehicleIDs names."""
        return len(self.getVehicleIDs(name))

    def getPersonIDs(self, name: str) -> tuple[str, ...]:
        """Empty: there are no persons."""
        self.stop(name)
        return ()

    def getPersonCount(self, name: str) -> int:
        """0: there are no persons."""
        return len(self.getPersonIDs(name))
