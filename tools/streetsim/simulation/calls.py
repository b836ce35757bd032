"""TraCI's calls that scenarios and streetsim.traci both have, in metres, metres a second and seconds."""
from collections.abc import Callable, Container, Sequence
from typing import Any

from streetsim.base import limits
from streetsim.model.mapping import Place
from streetsim.simulation.errors import NotHere
from streetsim.simulation.fleet import NOWHERE, OnRoad
from streetsim.simulation.session import TraciSession

METRES, GAP = limits.CELL_METRES, limits.GAP_METRES


class CallGroup:
    """A domain of calls, as TraCI groups them. One that is not here raises NotHere, which says what to do instead."""

    name = ""

    def __init__(self, session: Callable[[], TraciSession]) -> None:
        """session: gives the session that is under way."""
        self.session = session

    def __getattr__(self, call: str) -> Any:
        """NotHere for a call that is not here, AttributeError for Python's own names."""
        if call.startswith("__"):
            raise AttributeError(call)
        called = f"{self.name}.{call}"
        raise NotHere(f"{called} is not here: {self.advice(called)}")

    def advice(self, called: str) -> str:
        """What to do instead of a call that is not here; each class below gives its own."""
        raise NotImplementedError

    def check_known(self, name: str, names: Container[str]) -> None:
        """Refuses a name that is not one of names, where a domain does so; here every name may be."""


class SimulationCalls(CallGroup):
    """Calls on the run itself."""
    def getTime(self) -> float:
        """The clock, in seconds."""
        return float(self.session().clock)

    def getMinExpectedNumber(self) -> int:
        """How many vehicles have not ended, those that will depart among them."""
        return self.session().count_not_ended()


class VehicleCalls(CallGroup):
    """Calls on a vehicle. Of one that is not on the road those on its lane, edge, place and speed give NOWHERE, TraCI's
    value for "nowhere", and empty texts; in scenarios those on the lane of one in a junction too."""

    def on_road(self, name: str) -> OnRoad | None:
        """Where a vehicle on the road is; None before it departs. Each class below has its own answer after its end."""
        raise NotImplementedError

    def on_road_for_lane(self, name: str) -> OnRoad | None:
        """As on_road, for calls on its lane; in scenarios None also in a junction."""
        return self.on_road(name)

    def simulation_with(self, name: str) -> TraciSession:
        """The session; a domain that knows its vehicles raises its own exception for an unknown one."""
        return self.session()

    def getRoadID(self, name: str) -> str:
        """The name of its edge; in a junction ":" and the junction's name (in SUMO with "_" and a number behind)."""
        position, mapping = self.on_road(name), self.session().map
        if position is None:
            return ""
        link = mapping.links[position.link]
        return link.edge if position.cell is not None else f":{mapping.nodes[link.end][0]}"

    def getLaneIndex(self, name: str) -> int:
        """SUMO's index of its lane, in a junction of the one from which it came."""
        position = self.on_road_for_lane(name)
        return int(NOWHERE) if position is None else self.session().map.links[position.link].lanes[position.lane]

    def getLaneID(self, name: str) -> str:
        """SUMO's name of its lane; in a junction ":", the junction's name and "_0"."""
        position = self.on_road_for_lane(name)
        if position is None:
            return ""
        if position.cell is None:
            return f"{self.getRoadID(name)}_0"
        return self.session().map.lane_name(position.link, position.lane)

    def getLanePosition(self, name: str) -> float:
        """Metres from the lane's begin to the vehicle's front; 0 in a junction."""
        position = self.on_road_for_lane(name)
        if position is None:
            return NOWHERE
        return self.metres_to_front(position) if position.cell is not None else 0.0

    def metres_to_front(self, position: OnRoad) -> float:
        """Metres from the link's begin to the vehicle's front; in a junction the whole link."""
        link = self.session().map.links[position.link]
        return (position.cell + 1) * link.metres / link.cells if position.cell is not None else link.metres

    def getSpeed(self, name: str) -> float:
        """Metres a second, in whole cells of its link."""
        position = self.on_road(name)
        return NOWHERE if position is None else position.metres_a_second(self.session().map.links)

    def getLength(self, name: str) -> float:
        """Metres of its cells without the gap ahead: 5 for one cell, 12.5 for two."""
        fleet = self.simulation_with(name).fleet
        return fleet.size(fleet.numbers[name]) * METRES - GAP

    def getMinGap(self, name: str) -> float:
        """Metres of the gap ahead of a vehicle that stands, which is part of its cells."""
        self.simulation_with(name)
        return GAP

    def getRoute(self, name: str) -> tuple[str, ...]:
        """The edges of its route, those that it has driven among them."""
        simulation = self.simulation_with(name)
        return simulation.edge_names(simulation.plan(name))


class TrafficCalls(CallGroup):
    """Calls on lanes, edges or detectors, by the vehicles that are there."""

    def numbers(self, name: str) -> list[int]:
        """The numbers of the vehicles there. Each class below gives its own, and says in which order."""
        raise NotImplementedError

    def speeds(self, name: str) -> list[float]:
        """Metres a second of each of `numbers`, in their order. Each class below gives its own."""
        raise NotImplementedError

    def speed_of_nobody(self, _name: str) -> float:
        """The mean speed that is told where there is nobody."""
        return -1.0

    def getLastStepVehicleIDs(self, name: str) -> tuple[str, ...]:
        """Names of the vehicles there, in the order of `numbers`."""
        return self.session().names_of(self.numbers(name))

    def getLastStepVehicleNumber(self, name: str) -> int:
        """How many vehicles are there."""
        return len(self.numbers(name))

    def getLastStepMeanSpeed(self, name: str) -> float:
        """The mean of `speeds`, metres a second; speed_of_nobody where there are none."""
        speeds = self.speeds(name)
        return sum(speeds) / len(speeds) if speeds else self.speed_of_nobody(name)


class StretchCalls(TrafficCalls):
    """Calls on what has a length, on which vehicles can stand."""

    def link_lanes(self, name: str) -> list[Place]:
        """All its (link, lane). Each class below gives its own."""
        raise NotImplementedError

    def numbers(self, name: str) -> list[int]:
        """The numbers of the vehicles on its cells, from the stop line; of an edge, lane after lane."""
        on_lane = self.session().view.on_lane
        return [number for link_lane in self.link_lanes(name) for number in on_lane(link_lane)]

    def getLastStepHaltingNumber(self, name: str) -> int:
        """How many vehicles there stand."""
        return sum(not speed for speed in self.speeds(name))


class LaneCalls(StretchCalls):
    """Calls on lanes, which can be closed."""

    def getIDList(self) -> tuple[str, ...]:
        """The lanes that the import kept; lanes inside junctions are not among them."""
        return tuple(self.session().lane_of)

    def link_lanes(self, name: str) -> list[Place]:
        """Its (link, lane), in a list; of an object of several lanes all. KeyError for an unknown name, or what
        check_known raises."""
        self.check_known(name, self.session().lane_of)
        return [self.session().lane_of[name]]

    def getLastStepVehicleIDs(self, name: str) -> tuple[str, ...]:
        """The names of the vehicles on it, the rearmost first."""
        return super().getLastStepVehicleIDs(name)[::-1]

    def getLength(self, name: str) -> float:
        """Its length in SUMO's file, metres."""
        return self.session().map.links[self.link_lanes(name)[0][0]].metres

    def setDisallowed(self, name: str, classes: str | Sequence[str]) -> None:
        """Closes the lane, as `close`, where the classes have all of the import, or "all"; else does nothing."""
        named = {classes} if isinstance(classes, str) else set(classes)
        for link_lane in self.link_lanes(name):
            if "all" in named or set(self.session().map.options["classes"]) <= named:
                self.close(self.session().map.lane_name(*link_lane))

    def close(self, lane: str) -> None:
        """Closes a whole lane, by SUMO's name, as close_lane does."""
        self.session().close_lane(lane)

    def setAllowed(self, name: str, classes: str | Sequence[str]) -> None:
        """Opens the lane again where the classes have one of the import, or "all", or are empty; else does nothing."""
        named = {classes} if isinstance(classes, str) else set(classes)
        for link_lane in self.link_lanes(name):
            if not named or "all" in named or set(self.session().map.options["classes"]) & named:
                self.session().reopen_lane(self.session().map.lane_name(*link_lane))
