"""Stops of buses, and the calls of vehicles with priority at lights."""
from collections.abc import Iterable

from streetsim.base.client import Vehicle
from streetsim.control.actuated_driver import Driver
from streetsim.control.bus_fleet import BusFleet
from streetsim.control.bus_planned import Planned
from streetsim.kernel.loop import NEVER, Controller, Kernel
from streetsim.kernel.seconds import Block


class Buses(Controller):
    """Has buses stop, and lights wait for vehicles with priority."""

    def __init__(self, plan: Planned, driver: Driver) -> None:
        """plan: the stops to make, and the lights that wait; driver: of the lights of the run."""
        self.plan, self.driver = plan, driver

    def begin(self, kernel: Kernel) -> None:
        """No bus is on the way yet."""
        self.kernel, self.clock = kernel, kernel.start
        self.fleet = BusFleet(self.plan, kernel.run, kernel.map)

    def next_clock(self) -> int:
        """That at which a bus is to be looked at next."""
        return max(self.clock + 1, self.fleet.next_clock()) if self.fleet.buses else NEVER

    def act(self, clock: int, _now: Block) -> None:
        """Looks at the buses that are due, and sends what closes and opens cells for them; has lights called."""
        self.clock = clock
        self.kernel.send(self.fleet.commands_after_look(clock, self.ask_vehicles, self.kernel.lanes_now))
        self.driver.call(clock, self.fleet.calls.take_changed())

    def let_go(self, owner: int) -> None:
        """Has a vehicle of the file make no further stops, and no light wait for it, as it goes another way or is taken
        out."""
        if owner in self.fleet.buses:
            self.kernel.send(self.fleet.commands_to_let_go(self.kernel.clock, owner))
            self.driver.call(self.kernel.clock, self.fleet.calls.take_changed())

    def ask_vehicles(self, owners: Iterable[int]) -> list[Vehicle]:
        """The replies on vehicles of the file, by their numbers there."""
        cars = self.kernel.vehicles.car
        return self.kernel.ask_vehicles([cars[owner] for owner in owners])
