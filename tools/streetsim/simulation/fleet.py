"""The vehicles of a simulation by SUMO's names."""
from collections.abc import Sequence
from typing import NamedTuple

from streetsim.base import limits
from streetsim.base.arrays import numpy as np
from streetsim.kernel.seconds import Vehicles
from streetsim.model.mapping import Map, MapLink
from streetsim.model.runs import Command, Run
from streetsim.observe.trips import vehicle_names

NOWHERE = -1073741824.0  # TraCI's value for a place that is not known


class OnRoad(NamedTuple):
    """Where a vehicle on the road is, and how fast; cell is None in the junction behind its link."""

    link: int
    lane: int
    cell: int | None
    speed: int  # cells a step

    @property
    def front_cell(self) -> int:
        """The cell of its front; it must be on cells."""
        assert self.cell is not None
        return self.cell

    def metres_a_second(self, links: Sequence[MapLink]) -> float:
        """Its speed in metres of SUMO's, of which each link has so many in a cell; links: of the map."""
        return self.speed * links[self.link].cell_metres


class Fleet:
    """The vehicles of a simulation, by numbers that they keep: those of the file first, then those of a script."""

    def __init__(self, run: Run, mapping: Map, vehicles: Vehicles) -> None:
        """vehicles: of the run's kernel, which the program was told of."""
        self.vehicles = vehicles
        self.names = vehicle_names(run, mapping)
        self.numbers = {name: number for number, name in enumerate(self.names)}  # where a name came again the last
        self.enters = [line.command for line in run.enters]  # by which each entered last, or is to enter
        self.plans: list[Sequence[int]] = [command["plan"] for command in self.enters]  # with the links before that
        self.departs: list[int] = [command["depart"] for command in self.enters]  # the clocks that they wished first
        self.sizes = np.ones(limits.VEHICLES, np.int32)  # cells
        self.sizes[: len(self.enters)] = [command.get("size", 1) for command in self.enters]

    def add(self, name: str, command: Command) -> None:
        """Adds a vehicle of a script by its enter command; it has the next number."""
        self.numbers[name] = len(self.names)
        self.sizes[len(self.names)] = command.get("size", 1)
        self.names.append(name)
        self.enters.append(command)
        self.plans.append(command["plan"])
        self.departs.append(command["depart"])

    def car(self, name: str) -> int | None:
        """The number of a vehicle in the program; None before the program is told of it. KeyError for an unknown
        name."""
        return self.vehicles.car.get(self.numbers[name])

    def size(self, number: int) -> int:
        """The cells of a vehicle."""
        return self.enters[number].get("size", 1)

    def links_driven(self, number: int) -> int:
        """How many links of its plan a vehicle had driven when it entered last."""
        return len(self.plans[number]) - len(self.enters[number]["plan"])
