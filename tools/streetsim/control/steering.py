"""All controllers of a run, in their order."""
from streetsim.base import limits
from streetsim.control.actuated_driver import Driver, PhaseRow
from streetsim.control.bus_fleet import StopOutcome
from streetsim.control.buses import Buses
from streetsim.control.ending import Ending, WhenAllEnded
from streetsim.control.lights import Lights
from streetsim.control.merging import Merging
from streetsim.control.rescue import Rescue
from streetsim.control.settings import Settings
from streetsim.control.timed import Timed, TimesOfDay
from streetsim.control.works_closures import begun_here, closures_of
from streetsim.control.yielding import YieldingTurns
from streetsim.kernel.loop import Controller
from streetsim.model.mapping import Map
from streetsim.model.runs import Run


class Steering:
    """The controllers that a run is asked to have: `controllers`, in the order in which they act (see the package)."""

    def __init__(self, run: Run, mapping: Map, settings: Settings, until_all_ended: bool = False) -> None:
        """settings: what the run is asked for; until_all_ended: it ends where all vehicles have, too."""
        lights = settings.lights
        self.driver = Driver(lights.driven, mapping, lights.idle, lights.switches)
        self.closures = begun_here(closures_of(run, limits.CLOCK if settings.open_end else settings.until), mapping)
        self.merging = Merging(self.closures if settings.merging else ())
        self.buses, self.rescue, self.timed = Buses(settings.buses, self.driver), Rescue(settings.rescue), Timed()
        self.lights = Lights(self.driver)
        self.ending = Ending(self.buses, self.timed, lights.longest)
        self.yielding = YieldingTurns(mapping)
        self.controllers: list[Controller] = [
            self.merging,
            self.buses,
            self.lights,
            *([self.ending] if settings.open_end else []),
            *([WhenAllEnded()] if until_all_ended else []),
            self.rescue,
            self.timed,
            TimesOfDay(self.driver),
            *([self.yielding] if mapping.ways else []),
        ]

    def stops(self) -> list[StopOutcome]:
        """What became of all stops of vehicles, those to come and those not made too."""
        return self.buses.fleet.stop_outcomes()

    def phases(self, until: int) -> list[PhaseRow]:
        """The rows of phases.csv, rising, to the clock at the end."""
        return self.driver.phase_rows(until)
