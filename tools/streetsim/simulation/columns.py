"""Values of many vehicles or lanes at the clock, as columns of NumPy: each is what the call on one of them gives."""
from __future__ import annotations

from collections.abc import Callable, Mapping, Sequence
from functools import cached_property, lru_cache

from streetsim.base import limits
from streetsim.base.arrays import Array, numpy as np
from streetsim.model.mapping import Map, Place
from streetsim.simulation.fleet import Fleet
from streetsim.simulation.street_facts import Facts
from streetsim.simulation.tally import Tally
from streetsim.simulation.vehicle_points import VehiclePoints
from streetsim.simulation.view import View

Column = Array | Sequence[object]  # of numbers or, by rows, of points (x, y); else texts and the like


class Streets:
    """What the links of a map are, as columns by link, and by lane (slot: twice the link, and the lane)."""

    def __init__(self, mapping: Map) -> None:
        """mapping: on which the links are."""
        self.map, links = mapping, mapping.links
        self.metres = np.array([link.metres for link in links], float)
        self.cells = np.array([link.cells for link in links], np.int64)
        self.cell_metres = np.array([link.cell_metres for link in links], float)

    @cached_property
    def lane_names(self) -> list[str]:
        """By twice the slot SUMO's name of the lane; one further on that of a vehicle in the junction behind it."""
        return self.names_by_key(lambda link, lane, edge: f"{edge}_0" if edge else self.map.lane_name(link, lane))

    @cached_property
    def road_names(self) -> list[str]:
        """By twice the slot SUMO's name of the edge; one further on ":" and the name of the junction behind it."""
        return self.names_by_key(lambda link, _, edge: edge or self.map.links[link].edge)

    @cached_property
    def lane_indexes(self) -> Array:
        """By slot SUMO's index of the lane."""
        return np.array([(*link.lanes, 0)[lane] for link in self.map.links for lane in (0, 1)], np.int64)

    def names_by_key(self, name: Callable[[int, int, str], str]) -> list[str]:
        """By twice the slot, and one further on in the junction behind it, a name of (link, lane, what a junction's
        edge is called, empty on the lane)."""
        names = []
        for number, link in enumerate(self.map.links):
            inside = f":{self.map.nodes[link.end][0]}"
            for lane in (0, 1):
                names += [name(number, min(lane, len(link.lanes) - 1), edge) for edge in ("", inside)]
        return names


class VehicleColumns:
    """Of vehicles on the road, by their rows in the view."""

    def __init__(self, view: View, tally: Tally, vehicle_points: VehiclePoints, streets: Streets) -> None:
        """All of the same session."""
        self.view, self.tally, self.vehicle_points, self.streets = view, tally, vehicle_points, streets

    def rows_of(self, numbers: Sequence[int]) -> Array:
        """The rows of vehicles on the road."""
        rows = self.view.rows
        return np.array([rows[number] for number in numbers], np.int64)

    def speed(self, rows: Array) -> Column:
        """Metres a second."""
        return self.view.speed[rows] * self.streets.cell_metres[self.view.slot[rows] >> 1]

    def lane_position(self, rows: Array) -> Column:
        """Metres from the lane's begin; 0 in a junction."""
        link, cell = self.view.slot[rows] >> 1, self.view.cell[rows]
        return np.where(cell < 0, 0.0, (cell + 1) * self.streets.metres[link] / self.streets.cells[link])

    def position(self, rows: Array) -> Column:
        """Points (x, y), metres."""
        return self.vehicle_points.points(self.view.slot[rows] >> 1, self.view.cell[rows])

    def angle(self, rows: Array) -> Column:
        """Degrees clockwise from north."""
        return self.vehicle_points.angles(self.view.slot[rows] >> 1, self.view.cell[rows])

    def road_keys(self, rows: Array) -> list[int]:
        """Twice the slot, and one more in the junction behind it."""
        return (2 * self.view.slot[rows] + (self.view.cell[rows] < 0)).tolist()

    def road_name(self, rows: Array) -> Column:
        """The edge, or the junction."""
        names = self.streets.road_names
        return [names[index] for index in self.road_keys(rows)]

    def lane_name(self, rows: Array) -> Column:
        """The lane."""
        names = self.streets.lane_names
        return [names[index] for index in self.road_keys(rows)]

    def lane_index(self, rows: Array) -> Column:
        """SUMO's index of the lane."""
        return self.streets.lane_indexes[self.view.slot[rows]]

    def waiting(self, rows: Array) -> Column:
        """Seconds for which it has stood without a break."""
        return self.tally.waiting[self.view.number[rows]].astype(float)

    def waited(self, rows: Array) -> Column:
        """Seconds for which it has stood in all."""
        return self.tally.waited[self.view.number[rows]].astype(float)

    def lost(self, rows: Array) -> Column:
        """Seconds lost against free driving."""
        return np.maximum(0.0, self.tally.lost[self.view.number[rows]])


class LaneColumns:
    """Of lanes, by SUMO's names."""

    def __init__(
        self, view: View, tally: Tally, fleet: Fleet, streets: Streets, facts: Facts, lane_of: Mapping[str, Place]
    ) -> None:
        """lane_of: (link, lane) by SUMO's name; all of the same session."""
        self.view, self.tally, self.fleet, self.streets = view, tally, fleet, streets
        self.facts, self.lane_of = facts, lane_of
        self.slots_of = lru_cache(64)(self.find_slots)

    def find_slots(self, names: tuple[str, ...]) -> Array:
        """The slots of lanes; KeyError for an unknown one."""
        return np.array([2 * link + lane for link, lane in map(self.lane_of.__getitem__, names)], np.int64)

    def ends(self, slots: Array) -> tuple[Array, Array]:
        """(the first row of each lane, the row behind its last)."""
        bounds = self.view.row_bounds
        return bounds[2 * slots], bounds[2 * slots + 1]

    def sums(self, values: Array, slots: Array) -> Array:
        """Values of the rows of the view, whole numbers, summed over the vehicles of each lane."""
        total = np.append(0, np.cumsum(values[: self.view.recorded]))
        first_row, row_behind = self.ends(slots)
        return total[row_behind] - total[first_row]

    def count(self, slots: Array) -> Array:
        """How many vehicles are on each."""
        first_row, row_behind = self.ends(slots)
        return row_behind - first_row

    def halting(self, slots: Array) -> Array:
        """How many vehicles stand on each."""
        return self.sums(self.view.speed == 0, slots)

    def sizes(self) -> Array:
        """By row the cells of its vehicle."""
        return self.fleet.sizes[self.view.number]

    def occupied_cells(self, slots: Array) -> Array:
        """The cells that vehicles take on each."""
        return self.sums(self.sizes(), slots)

    def queued_cells(self, slots: Array) -> Array:
        """The cells that standing vehicles take on each."""
        return self.sums(self.sizes() * (self.view.speed == 0), slots)

    def mean_speed(self, slots: Array) -> Array:
        """The mean speed on each, metres a second; its limit where nobody is there."""
        count = self.count(slots)
        speeds = self.streets.cell_metres[slots >> 1] * self.sums(self.view.speed, slots)
        return np.where(count, speeds / np.maximum(1, count), self.limits[slots])

    def occupancy(self, slots: Array) -> Array:
        """The share of its length that those cover whose front is there."""
        metres = limits.CELL_METRES * self.occupied_cells(slots) - limits.GAP_METRES * self.count(slots)
        return metres / self.streets.metres[slots >> 1]

    def waiting(self, slots: Array) -> Array:
        """Seconds for which the vehicles there have stood without a break, summed."""
        return self.sums(self.tally.waiting[self.view.number], slots).astype(float)

    def waited(self, slots: Array) -> Array:
        """Seconds for which the vehicles there have stood in all, summed."""
        return self.sums(self.tally.waited[self.view.number], slots)

    @cached_property
    def limits(self) -> Array:
        """By slot the limit of SUMO's file, metres a second."""
        limits_by_slot = np.zeros(2 * len(self.streets.map.links))
        for name, (link, lane) in self.lane_of.items():
            limits_by_slot[2 * link + lane] = self.facts.lanes[name].speed
        return limits_by_slot
