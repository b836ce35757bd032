"""The observer that writes SUMO's output files of a session."""
from streetsim.control.buses import Buses
from streetsim.kernel.loop import Kernel
from streetsim.observe.sumo_files import SumoFiles
from streetsim.observe.sumo_kinds import KINDS
from streetsim.observe.sumo_writing import Outputs
from streetsim.observe.trips import vehicle_names
from streetsim.simulation.types import TypesByVehicle

SERVED = {f"{kind}-output": kind for kind in KINDS if kind not in ("e1", "e2")}


class Files(SumoFiles):
    """Gives each second to output files, which are open; vehicles have the types of their files."""

    def __init__(self, outputs: Outputs, buses: Buses, types: TypesByVehicle) -> None:
        """outputs: the files; buses, types: of the same run."""
        super().__init__(outputs, buses)
        self.types = types

    def begin(self, kernel: Kernel) -> None:
        """Tells the files of the vehicles of the run's file."""
        self.kernel = kernel
        names = vehicle_names(kernel.run, kernel.map)
        for number, (name, line) in enumerate(zip(names, kernel.run.enters, strict=True)):
            self.outputs.expect_vehicle(number, name, line.command["depart"], self.types.type_name(name))
