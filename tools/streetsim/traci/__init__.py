"""TraCI's calls over streetsim: `import streetsim.traci as traci` in place of `import traci`. `start` imports as
streetsim-import does, and runs the program that STREETSIM_PROGRAM names, else the installed one. Calls raise
FatalTraCIError where no run is under way, and NotHere, which says what to do instead, where they are not here."""
import sys
from collections.abc import Sequence
from types import ModuleType
from typing import Any

from streetsim.base.client import ProgramEnded, Refused
from streetsim.base.files import Fault
from streetsim.simulation.errors import FatalTraCIError, NotHere, TraCIException
from streetsim.simulation.opening import open_session
from streetsim.simulation.session import TraciSession
from streetsim.traci import constants
from streetsim.traci.absent import ABSENT, AbsentDomain
from streetsim.traci.advice import advice_on
from streetsim.traci.domain import Domain
from streetsim.traci.listeners import Listeners, StepListener
from streetsim.traci.persons import PersonDomain
from streetsim.traci.quiet import GUI, SHAPES, Quiet
from streetsim.traci.roads import EdgeDomain, InductionLoopDomain, JunctionDomain, LaneAreaDomain, LaneDomain
from streetsim.traci.simulation import RouteDomain, SimulationDomain
from streetsim.traci.stops import BusStopDomain
from streetsim.traci.trafficlights import TrafficLightDomain
from streetsim.traci.vehicles import VehicleDomain, VehicleTypeDomain

__all__ = [
    "FatalTraCIError", "NotHere", "StepListener", "TraCIException", "addStepListener", "close", "constants",
    "getConnection", "getLabel", "getVersion", "hasGUI", "isLibsumo", "isLibtraci", "isLoaded", "load",
    "removeStepListener", "setOrder", "simulationStep", "start", "switch",
]

_sessions: list[TraciSession] = []
_label = ["default"]
_listeners = Listeners()


def start(
    cmd: Sequence[str], port: object = None, numRetries: object = None, label: str = "default", *_: object,
    **__: object,
) -> tuple[int, str]:
    """Starts a run, by the words of SUMO's command line (the first, SUMO's name, is passed over) and those of
    streetsim-import. label: what getLabel gives; other arguments have no effect. Warnings go to standard error. Gives
    what getVersion gives; FatalTraCIError where the run cannot start, TraCIException where one is under way."""
    if _sessions:
        raise TraCIException("a run is under way: close() it first; there is one at a time")
    try:
        _sessions.append(open_session(list(cmd)[1:]))
    except (Fault, Refused, ProgramEnded) as fault:
        raise FatalTraCIError(str(fault)) from None
    _label[0] = label
    return getVersion()


def _current_session() -> TraciSession:
    """The session of the run; FatalTraCIError where none is under way."""
    if not _sessions:
        raise FatalTraCIError("Not connected.")
    return _sessions[0]


def simulationStep(step: float = 0) -> None:
    """Makes one step (step 0), or all until the clock is at step seconds; then calls the step listeners, once."""
    _current_session().step(step)
    _listeners.call_all(step)


def close(wait: bool = True) -> None:
    """Ends the run: output files get their names; subscriptions, parameters and listeners are forgotten. wait has no
    effect. FatalTraCIError where no run is under way; ProgramEnded (streetsim.client) where the program failed."""
    session = _current_session()
    try:
        _listeners.clean_up()
    finally:
        _sessions.clear()
        for domain in _domains:
            domain.forget()
        session.finish()


def load(args: Sequence[str]) -> None:
    """As close and then start, with the label "default"; args: the words without SUMO's name."""
    close()
    start(["sumo", *args])


def isLoaded() -> bool:
    """Whether a run is under way."""
    return bool(_sessions)


def getVersion() -> tuple[int, str]:
    """(number of the TraCI version that these calls are of, "streetsim")."""
    return 20, "streetsim"


def getLabel() -> str:
    """The label that the run was started with."""
    _current_session()
    return _label[0]


def switch(label: str) -> None:
    """TraCIException where no run of this label is under way; there is one at a time, so nothing is switched."""
    if not _sessions or label != _label[0]:
        raise TraCIException(f"connection '{label}' is not known.")


def getConnection(label: str = "default") -> ModuleType:
    """This module, with all its domains and calls; TraCIException where no run of this label is under way."""
    switch(label)
    return sys.modules[__name__]


def addStepListener(listener: StepListener) -> int | None:
    """Has listener.step called with the argument of each simulationStep, as long as it gives True. Tells it its number,
    and gives it; None where it is no StepListener, which is then not called."""
    _current_session()
    return _listeners.add(listener)


def removeStepListener(listenerID: int) -> bool:
    """Takes off the listener of a number (listenerID), after its cleanUp; gives whether there was one."""
    _current_session()
    return _listeners.remove(listenerID)


def setOrder(order: int) -> None:
    """Does nothing: a run has one client, and so no order."""


def hasGUI() -> bool:
    """False: there is no window."""
    return False


def isLibsumo() -> bool:
    """False: this is neither libsumo nor libtraci."""
    return False


isLibtraci = isLibsumo

simulation, route = SimulationDomain(_current_session), RouteDomain(_current_session)
vehicle, vehicletype = VehicleDomain(_current_session), VehicleTypeDomain(_current_session)
lane, edge, junction = LaneDomain(_current_session), EdgeDomain(_current_session), JunctionDomain(_current_session)
trafficlight = TrafficLightDomain(_current_session)
inductionloop, lanearea = InductionLoopDomain(_current_session), LaneAreaDomain(_current_session)
person, busstop = PersonDomain(_current_session), BusStopDomain(_current_session)
_absent = {name: AbsentDomain(_current_session, name) for name in ABSENT}
globals().update(_absent)
gui, poi, polygon = Quiet("gui", GUI), Quiet("poi", SHAPES), Quiet("polygon", SHAPES)
_domains: tuple[Domain | Quiet | AbsentDomain, ...] = (
    simulation, vehicle, vehicletype, route, lane, edge, junction, trafficlight, inductionloop, lanearea, person,
    busstop, gui, poi, polygon, *_absent.values(),
)
for _domain in (vehicle, lane, edge, junction, inductionloop, lanearea):
    _domain.vehicles = vehicle


def __getattr__(name: str) -> Any:
    """NotHere for a call or domain of SUMO's that is not here; it says what to do instead."""
    raise NotHere(f"traci.{name} is not here: {advice_on(f'{name}.')}")
