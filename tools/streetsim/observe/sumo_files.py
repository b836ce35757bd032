"""The observer that gives each second of a run to SUMO's output files."""
from __future__ import annotations

from collections import defaultdict
from collections.abc import Iterator
from typing import Any

from streetsim.base.array_groups import groups_of
from streetsim.base.arrays import numpy as np
from streetsim.control.buses import Buses
from streetsim.kernel.loop import Kernel, Observer
from streetsim.kernel.seconds import Seconds
from streetsim.observe.sumo_writing import Outputs
from streetsim.observe.trips import vehicle_names


class SumoFiles(Observer):
    """Gives each second to SUMO's output files, which are open."""

    def __init__(self, outputs: Outputs, buses: Buses) -> None:
        """outputs: the files; buses: of the same run, whose stops are told."""
        self.outputs, self.buses = outputs, buses

    def begin(self, kernel: Kernel) -> None:
        """Tells the files of the vehicles."""
        self.kernel = kernel
        for car, (name, line) in enumerate(zip(vehicle_names(kernel.run, kernel.map), kernel.run.enters, strict=True)):
            self.outputs.expect_vehicle(car, name, line.command["depart"])

    def see(self, seconds: Seconds) -> None:
        """Takes some seconds."""
        self.outputs.note_stops(self.buses.fleet.stop_outcomes())
        arrived: defaultdict[int, list[int]] = defaultdict(list)
        owners = self.kernel.vehicles.owner[seconds.arrivals.car].tolist()
        for second, car in sorted(zip(seconds.arrivals.second.tolist(), owners, strict=True)):
            arrived[second].append(car)
        for second in range(1, len(seconds.clocks)):
            lanes = lanes_for_outputs(seconds, second)
            self.outputs.add_second(int(seconds.clocks[second]), lanes, arrived.get(second, ()))


def lanes_for_outputs(seconds: Seconds, second: int) -> Iterator[list[Any]]:
    """What stands on lanes in a second, as SUMO's output files take it: [link, lane, cells, buffer, []] of each lane
    where anybody is."""
    rows = slice(*seconds.first[second : second + 2])
    slot, car, cell = seconds.slot[rows], seconds.owner[rows], seconds.cell[rows]
    begins, _ = groups_of(slot)
    columns = (column.tolist() for column in (car, cell, seconds.speed[rows], seconds.size[rows]))
    entries = [[c, x, v] if n == 1 else [c, x, v, n] for c, x, v, n in zip(*columns, strict=True)]
    ends = np.append(begins, len(slot))[1:].tolist()
    for lane_slot, begin, end in zip(slot[begins].tolist(), begins.tolist(), ends, strict=True):
        vehicles = entries[begin:end]
        cells, buffer = ([entry for entry in vehicles if entry[1] >= 0], [car for car, x, *_ in vehicles if x < 0])
        yield [lane_slot >> 1, lane_slot & 1, cells, buffer, []]
