"""A run under SUMO's names and units (metres, metres a second, seconds), with TraCI's calls where one fits."""
import warnings
from collections.abc import Iterable, Sequence
from math import ceil
from typing import Self, TypedDict, Unpack

from streetsim.base import client as replies
from streetsim.base.files import FilePath
from streetsim.base.words import ROUNDS
from streetsim.control.works_sites import WorksOptions, why_parallel, with_works
from streetsim.kernel.loop import NEVER, Controller, Observer
from streetsim.model import tables
from streetsim.model.freeflow import Alone
from streetsim.model.mapping import Place
from streetsim.model.runs import read_with_map
from streetsim.observe.trips import End, seconds_at_stops, trip_rows
from streetsim.simulation.calls import METRES, CallGroup, LaneCalls, SimulationCalls, StretchCalls, VehicleCalls
from streetsim.simulation.client import RunClient, ScriptKernel
from streetsim.simulation.detours import Detours
from streetsim.simulation.errors import NotHere
from streetsim.simulation.fleet import NOWHERE, OnRoad
from streetsim.simulation.script_settings import ScriptSettings
from streetsim.simulation.session import TraciSession

__all__ = ["NOWHERE", "ListedScenario", "NotHere", "Scenario", "TrafficLight"]

ADVICE = {
    "vehicle.setSpeed": "speeds follow the rules alone",
    "vehicle.slowDown": "speeds follow the rules alone",
    "vehicle.changeLane": "lanes are changed by the rules alone",
    "vehicle.setRoute": "plans do not change on the way: remove the vehicle and add it anew",
    "vehicle.changeTarget": "plans do not change on the way: remove the vehicle and add it anew",
    "vehicle.rerouteTraveltime": "compute routes before, with streetsim-route",
    "vehicle.getPosition": "use getLaneID and getLanePosition with the shapes of the map",
    "trafficlight.setRedYellowGreenState": "send a whole cycle by setProgramLogic",
    "trafficlight.setPhase": "send a whole cycle by setProgramLogic",
    "inductionloop.getLastStepVehicleNumber": "add the detector with period 1 and use getLastIntervalVehicleNumber",
    "simulation.getArrivedNumber": "use client.count().arrived, which counts from the start",
    "simulation.saveState": "a run repeats exactly: keep the lines that were sent",
}


class ScenarioWishes(TypedDict, total=False):
    """What else a scenario is asked for: whether vehicles make their stops; for how many seconds one stands until it is
    rescued (0: nobody is); classes or lines of vehicles for which lights wait, and how many seconds before the stop
    line they are seen; whether departures are drawn by the seed; and the user's own observers and controllers."""

    stops: bool
    drawn: bool
    rescue: int
    priority: Sequence[str]
    seen: int | None
    observers: Sequence[Observer]
    controllers: Sequence[Controller]


class Scenario(TraciSession):
    """A running simulation of a run file and its map. Edges or lanes that are to be closed later are named as joint,
    where they are not yet so. Where vehicles of the file give way without a light, so many rounds of the run come
    first; yielding says how many lines they gave. Vehicles of a script give way to those of the file alone, and nobody
    of the file to them. Before works on one lane of a joint link the lanes take turns, until stop_merging is called.
    Detectors drive lights of SUMO's types actuated and NEMA; in a ListedScenario they show their listed seconds. Each
    vehicle of the file makes its stops. Observers see each second of the run, and controllers act behind the
    scenario's own (streetsim.kernel.loop)."""

    lights_driven, kernel_of = True, ScriptKernel

    def __init__(
        self, run: FilePath, mapping: FilePath, program: str | None = None, workers: int = 1,
        joint: Iterable[str] = (), rounds: int = ROUNDS, **wishes: Unpack[ScenarioWishes],
    ) -> None:  # fmt: skip
        """run, mapping: paths of a run file and its map; program: as find_program takes it; workers: threads of the
        program; joint: edges or lanes to be closed later; rounds: runs that are made before. Fault (streetsim.files)
        where files cannot be read or do not fit, a round fails, or there is no program; Refused (streetsim.client)
        where a line is. Warns (Python's warnings) of lights and stops that are other than in SUMO."""
        source, read, _ = with_works(*read_with_map(run, mapping), mapping, [], WorksOptions(tuple(joint)))
        settings = ScriptSettings(rounds, driven=self.lights_driven, program=program, workers=workers, **wishes)
        super().__init__(source, read, settings)
        for note in self.notes:
            warnings.warn(note, stacklevel=2)
        self.simulation, self.vehicle, self.route = ScenarioSimulation(self), ScenarioVehicle(self), ScenarioRoute(self)
        self.lane, self.edge = ScenarioLane(self), ScenarioEdge(self)
        self.inductionloop, self.trafficlight = ScenarioLoop(self), TrafficLight(self)

    def further_controllers(self) -> Iterable[Controller]:
        """What sends vehicles round shut edges."""
        self.detours = Detours(self)
        return [self.detours]

    def __enter__(self) -> Self:
        """Gives the scenario itself; the program runs since it was made."""
        return self

    def __exit__(self, kind: type[BaseException] | None, *fault: object) -> None:
        """Ends the run, ProgramEnded (streetsim.client) where the program failed; after an exception it is killed."""
        if kind is None:
            self.finish()
        else:
            self.kill()

    @property
    def client(self) -> RunClient:
        """A client of the program, which from then on knows all vehicles of the file. Steps are made by
        simulationStep."""
        self.kernel.enter_due(NEVER)
        return self.program.client

    def simulationStep(self, time: float = 0) -> None:
        """Makes one step (time 0), or all until the clock is at time seconds, rounded up, as in SUMO."""
        self.step(time)

    def add(  # type: ignore[override]  # by links, where TraCI's is by the name of a route
        self, name: str, plan: Sequence[int], lane: int, depart: int, size: int = 1
    ) -> None:
        """Adds a vehicle; plan: numbers of links; lane: of the first; size: cells. ValueError if its name is taken."""
        if name in self.fleet.numbers:
            raise ValueError(f"there is a vehicle {name!r} already")
        self.kernel.enter_due(NEVER)  # those of the file come before it
        self.enter(name, plan, lane, depart, size)

    def car(self, name: str) -> int:
        """The number of a vehicle in the program, which is told of all of the file where it does not know it; KeyError
        for an unknown name."""
        if self.fleet.car(name) is None:
            self.kernel.enter_due(NEVER)
        return self.kernel.vehicles.car[self.fleet.numbers[name]]

    def lane_state(self, name: str) -> replies.Lane:
        """The program's reply on a lane, by SUMO's name; KeyError for an unknown one."""
        return self.client.lane(*self.lane_of[name])

    def close(
        self, lane: str, begin: float = 0.0, end: float | None = None, divert: bool = False, until: float = float("inf")
    ) -> list[str]:
        """Closes a lane, by SUMO's name, from begin to end metres (None: the lane's end), as road works do. divert:
        does and gives what `divert` of its edge does, else the list is empty. ValueError for an unknown lane, metres
        beyond the lane, an end not after the begin, a lane whose vehicles could not change to the one beside, or, with
        divert, an until that is over."""
        if why := why_parallel(self.map, lane):
            raise ValueError(f"{why}: Scenario(.., joint=[{lane!r}])")
        if divert:
            self.refuse_past(until)
        self.close_lane(lane, begin, end)
        return self.divert(self.map.links[self.lane_of[lane][0]].edge, until) if divert else []

    def divert(self, edge: str, until: float) -> list[str]:
        """Has vehicles take the quickest way round an edge that is shut, if they would come there before the second
        until; those that begin or end on it, or drive a round, keep theirs. One on the road is taken out and entered
        anew, with another number, where its new way begins. Gives the names of those for whom there is a way, none
        where the edge can be passed. ValueError for an until that is over, KeyError for an unknown edge."""
        self.refuse_past(until)
        return self.detours.send_round(edge, until)

    def refuse_past(self, until: float) -> None:
        """ValueError where the clock is at the second until, or beyond it."""
        if not until > self.clock:
            raise ValueError(f"until {until:g} s nobody can take another way: the clock is at {self.clock} s")

    def reopen(self, lane: str, begin: float = 0.0, end: float | None = None) -> None:
        """Opens what close closed, with the same lane and metres. Those who were given another way keep it. KeyError
        for an unknown lane, ValueError for metres as of close."""
        self.reopen_lane(lane, begin, end)

    def trips(self) -> list[tuple[object, ...]]:
        """Rows as in trips.csv (tables.TRIPS), as they are at this clock, one for each vehicle."""
        fleet, dawdle = self.fleet, self.source.load.command.get("dawdle", 0) / 1000
        alone, stood, rescues = Alone(self.map, dawdle), seconds_at_stops(self.steering.stops()), self.steering.rescue
        planned = zip(fleet.departs, map(len, fleet.plans), strict=True)
        delays = ((alone.trip(plan), stood[number], rescues.count[number]) for number, plan in enumerate(fleet.plans))
        ends = map(self.end_of, range(len(fleet.names)))
        return list(trip_rows(zip(fleet.names, planned, ends, delays, strict=True)))

    def end_of(self, number: int) -> End:
        """How a vehicle ended, or where it is."""
        if self.view.has_ended[number]:
            arrival = int(self.view.arrival[number])
            return (arrival, "arrived") if arrival else (None, "taken")
        position = self.view.positions.get(number)
        return None, "waiting" if position is None else "buffer" if position.cell is None else "cell"

    def write_trips(self, path: FilePath) -> None:
        """Writes the rows of trips to a file of CSV, below the names of the columns; Fault where that fails."""
        tables.write_table(path, tables.TRIPS, self.trips())


class ListedScenario(Scenario):
    """A scenario whose lights show the seconds that their programs list."""

    lights_driven = False


class ScenarioPart(CallGroup):
    """One domain of a scenario's calls, as vehicle or lane."""

    def __init__(self, scenario: Scenario) -> None:
        """scenario: of which the calls are."""
        super().__init__(lambda: scenario)
        self.scenario = scenario

    def advice(self, called: str) -> str:
        """What to do instead of a call that is not here; called: "domain.call"."""
        return ADVICE.get(called, "streetsim has nothing for it; see tools/PYTHON.md")


class ScenarioSimulation(ScenarioPart, SimulationCalls):
    """Calls on the run itself: its time, and how many vehicles are left."""

    name = "simulation"


class ScenarioRoute(ScenarioPart):
    """Calls on the routes that a script adds."""

    name = "route"

    def add(self, name: str, edges: Iterable[str]) -> None:
        """Names a route along edges, for vehicle.add, in place of an earlier one of that name; ValueError where an edge
        is unknown, two have no connection, or there is none."""
        self.scenario.name_route(name, self.scenario.connections.plan_along(list(edges)))


class ScenarioVehicle(ScenarioPart, VehicleCalls):
    """Calls on vehicles of the file and of the script; KeyError for a name that neither has."""

    name = "vehicle"

    def add(self, name: str, route: str, depart: float | None = None, size: int = 1) -> None:
        """Adds a vehicle of size cells (1 to 4) on a route that route.add named; it departs at depart seconds, rounded
        up (None: now; one that is over: at once). ValueError where its name is taken, KeyError where the route was not
        named, Refused (streetsim.client) for another size."""
        plan = self.scenario.routes[route]
        clock = self.scenario.clock if depart is None else max(0, ceil(depart))
        self.scenario.add(name, plan, self.scenario.connections.departure_lane(plan), clock, size)

    def remove(self, name: str) -> None:
        """Takes a vehicle out, wherever it is; Gone (streetsim.client) where it has ended."""
        self.scenario.car(name)
        self.scenario.remove(name)

    def getIDList(self) -> tuple[str, ...]:
        """The names of the vehicles on lanes or in junctions."""
        return self.scenario.names_of(sorted(self.scenario.view.numbers))

    def reply_on(self, name: str) -> replies.Vehicle:
        """The program's reply on a vehicle; KeyError for an unknown name."""
        return self.scenario.client.vehicle(self.scenario.car(name))

    def simulation_with(self, name: str) -> Scenario:
        """The scenario; KeyError for an unknown vehicle."""
        if name not in self.scenario.fleet.numbers:
            raise KeyError(name)
        return self.scenario

    def on_road(self, name: str) -> OnRoad | None:
        """Where a vehicle on the road is; None before it departs and after its end, KeyError for an unknown name."""
        return self.scenario.view.positions.get(self.scenario.fleet.numbers[name])

    def on_road_for_lane(self, name: str) -> OnRoad | None:
        """As on_road; None in a junction too."""
        return position if (position := self.on_road(name)) is not None and position.cell is not None else None


class ScenarioStretch(ScenarioPart, StretchCalls):
    """Calls on lanes and edges. KeyError for an unknown name."""

    def speeds(self, name: str) -> list[float]:
        """Metres a second of each vehicle on it, in the order of `numbers`."""
        positions = self.scenario.view.positions
        return [positions[number].speed * METRES for number in self.numbers(name)]


class ScenarioLane(LaneCalls, ScenarioStretch):
    """Calls on lanes, which can be closed."""

    name = "lane"

    def close(self, lane: str) -> None:
        """Closes a whole lane, by its name; ValueError as Scenario.close has it."""
        self.scenario.close(lane)


class ScenarioEdge(ScenarioStretch):
    """Calls on edges: on all lanes of an edge together."""

    name = "edge"

    def link_lanes(self, name: str) -> list[Place]:
        """All (link, lane) of an edge."""
        return self.scenario.lanes_on(name)


class ScenarioLoop(ScenarioPart):
    """Calls on detectors that a script places. KeyError for an unknown name."""

    name = "inductionloop"

    def __init__(self, scenario: Scenario) -> None:
        """scenario: of which the calls are; no detector is placed."""
        super().__init__(scenario)
        self.placed: dict[str, int] = {}  # by name: number

    def add(self, name: str, lane: str, place: float, period: int) -> None:
        """Places a detector at place metres of a lane, with rows of period seconds, 1 to 100,000, from now on, instead
        of an earlier one of that name. KeyError for an unknown lane, ValueError for a place beyond it, BadCount
        (streetsim.client) for another period, TooMany where the run has 1,024 detectors."""
        link, index = self.scenario.lane_of[lane]
        if not 0 <= place <= ceil(self.scenario.map.links[link].metres):
            raise ValueError(f"lane {lane!r} has no place at {place:g} m")
        cell, _ = self.scenario.map.links[link].cells_between(place, place)
        self.placed[name] = self.scenario.program.client.meter(link, index, cell, period)

    def getIDList(self) -> tuple[str, ...]:
        """The names of the detectors that the script placed."""
        return tuple(self.placed)

    def last_row(self, name: str) -> replies.Row | None:
        """The row of the last full period of a detector; None before its end."""
        rows = self.scenario.program.client.read(self.placed[name]).rows
        return rows[-1] if rows else None

    def getLastIntervalVehicleNumber(self, name: str) -> int:
        """Vehicles that passed in the last full period; 0 before its end."""
        row = self.last_row(name)
        return row.passes if row else 0

    def getLastIntervalMeanSpeed(self, name: str) -> float:
        """Mean speed, metres a second, in the last full period; -1 where nobody passed, or before its end."""
        row = self.last_row(name)
        return row.mean_speed * METRES if row and row.mean_speed is not None else -1.0

    def getLastIntervalOccupancy(self, name: str) -> float:
        """The percentage of the last full period in which the detector's cell was covered; 0 before its end."""
        row = self.last_row(name)
        return row.density * 100 if row else 0.0


class TrafficLight(ScenarioPart):
    """Calls on the lights of the network."""

    name = "trafficlight"

    def getIDList(self) -> tuple[str, ...]:
        """The names of all lights, sorted."""
        return tuple(sorted({light for light, _ in self.scenario.map.signals}))

    def setProgramLogic(self, name: str, phases: Iterable[tuple[float, str]], offset: float = 0) -> list[str]:
        """Sets a light's cycle from the next step on: phases of (seconds, state), and SUMO's offset in seconds, as a
        tlLogic has them; detectors drive it no more. Gives warnings. KeyError for an unknown light, Fault
        (streetsim.files), after which all is as before, where a state is too short for the light, or the cycle rounds
        to 0 s or is longer than 200,000 s."""
        if not self.scenario.signals_in_force.nodes(name):
            raise KeyError(name)
        return self.scenario.control.send_program(name, [(seconds, state) for seconds, state in phases], offset)

    def getRedYellowGreenState(self, name: str) -> str:
        """What a light that detectors drive shows now, SUMO's letter for each signal; NotHere for other lights."""
        if (driven := self.scenario.driver.controller_of(name)) is None:
            raise NotHere(f"trafficlight.getRedYellowGreenState: detectors do not drive {name!r}; its plan is set")
        return driven.logic.state()
