"""The passages that cross a junction, from an approach to another edge: their delays, stops and lanes, summed up by
movement and interval for the junction tables."""
from __future__ import annotations

from collections.abc import Iterator, Mapping, Sequence
from itertools import pairwise
from math import fsum

from streetsim.base.array_groups import groups_of
from streetsim.base.arrays import Array, numpy as np
from streetsim.control.bus_fleet import Dwell
from streetsim.kernel.plans import Plans
from streetsim.kernel.seconds import SLOTS, by_number
from streetsim.model.mapping import Place
from streetsim.observe.counts import PeriodSums
from streetsim.observe.junction_layout import movements_that_stop
from streetsim.observe.junction_measures import Losses, Movement, stop_loss
from streetsim.observe.log import Columns, Log
from streetsim.observe.passages import Passages
from streetsim.sumo.across import AT_SIGN

PLANS_AT_ONCE = 1 << 14  # vehicles whose plans are looked through at once


class Movements:
    """Movements as numbers: that of an edge, times how many edges there are, and that of the next one; and what those
    lose beyond what is seen who go from one to the other."""

    def __init__(self, passages: Passages) -> None:
        """passages: over the approaches of which they are."""
        mapping, self.approaches = passages.kernel.map, passages.approaches
        self.edges = list(dict.fromkeys(link.edge for link in mapping.links))
        numbers = {edge: number for number, edge in enumerate(self.edges)}
        self.edge_of = np.array([numbers[link.edge] for link in mapping.links])
        self.approach_edges = np.array([numbers[edge] for edge in passages.edges], np.int64)  # by number of an approach
        self.approach_of = passages.edge_of  # by link the number of its approach, or MISSING
        self.stopping = movements_that_stop(mapping)
        self.losses: dict[int, tuple[float, float]] = {}

    def edge_pair(self, movement: int) -> Movement:
        """The edge from which a movement comes, and the next one."""
        return self.edges[movement // len(self.edges)], self.edges[movement % len(self.edges)]

    def losses_of(self, movement: int) -> tuple[float, float]:
        """What those lose beyond what is seen who stop, and those who have to, which one alone loses too."""
        if movement not in self.losses:
            pair = edge, target = self.edge_pair(movement)
            self.losses[movement] = stop_loss(self.approaches[edge], target), AT_SIGN * (pair in self.stopping)
        return self.losses[movement]


class PlanPlaces:
    """Where the edges of approaches stand in the plans of vehicles."""

    def __init__(self, movements: Movements, plans: Plans) -> None:
        """plans: of the vehicles."""
        self.movements, self.plans, count = movements, plans, len(plans.first_places)
        # By vehicle, then by edge: keys of both, places of plans, and how often each was passed, by the key's first.
        self.keys = np.zeros(len(plans.links), np.int64)
        self.positions, self.passage_counts = (np.zeros(len(plans.links), np.int32) for _ in range(2))
        for begin, end in pairwise((*range(0, count, PLANS_AT_ONCE), count)):
            part = slice(plans.first_places[begin], plans.end_places[end - 1])
            keys = plans.vehicles(begin, end) * len(movements.edges) + movements.edge_of[plans.links[part]]
            order = np.argsort(keys, kind="stable")
            self.keys[part], self.positions[part] = keys[order], order + part.start

    def places_of(self, owner: Array, edge: Array) -> tuple[Array, Array]:
        """(where the edge of each passage stands in its vehicle's plan, whether it stands there): as the edge may stand
        there more than once, the first passage is that of the first place, and so on; those beyond the last place are
        of this one. edge: by number of an approach. Passages are given once, in the order of their ends."""
        wanted_keys = owner.astype(np.int64) * len(self.movements.edges) + self.movements.approach_edges[edge]
        low, high = (np.searchsorted(self.keys, wanted_keys, side) for side in ("left", "right"))
        place, several = low.copy(), np.flatnonzero(high - low > 1)
        several = several[np.argsort(wanted_keys[several], kind="stable")]
        begins, group = groups_of(wanted_keys[several])
        rank = self.passage_counts[low[several]] + np.arange(len(several)) - begins[group]
        place[several] = np.minimum(low[several] + rank, high[several] - 1)
        np.add.at(self.passage_counts, low[several], 1)
        return self.positions[np.minimum(place, len(self.positions) - 1)], high > low


class Entries:
    """Vehicles whose trips begin on approaches: when they wished to depart, and their movements there."""

    def __init__(self, movements: Movements, plans: Plans, departs: Array) -> None:
        """departs: the clocks of the wished departures, by vehicle."""
        edge_of, self.departs = movements.edge_of[plans.links], departs
        place, last = plans.first_places.copy(), plans.end_places - 1
        approach = movements.approach_of[plans.links[place]]
        own_approach = np.append(movements.approach_edges, -1)[approach]  # -1: on none
        while (off := (edge_of[place] != own_approach) & (place < last) & (own_approach >= 0)).any():
            place[off] += 1
        on_way = (own_approach >= 0) & (edge_of[place] == own_approach) & (place < last)
        following = edge_of[np.minimum(place + 1, last)]
        # By vehicle, -1: its trip begins elsewhere or ends there.
        self.movement = np.where(on_way, own_approach * len(movements.edges) + following, -1)

    def grown(self, begins: Array, start: int, interval: int) -> dict[int, dict[int, int]]:
        """By interval and movement how many more wait to enter at its end than at its begin, without those that are 0.
        begins: by vehicle the clock at which it was first seen there, 0: never."""
        grown: dict[int, dict[int, int]] = {}
        for sign, clocks, rows in ((1, self.departs, self.departs >= 0), (-1, begins - 1, begins > 0)):
            rows = np.flatnonzero(rows & (self.movement >= 0))
            keys, counts = np.unique(
                np.stack([(clocks[rows] - start) // interval, self.movement[rows]]), axis=1, return_counts=True
            )
            for number, movement, count in zip(*keys.tolist(), counts.tolist(), strict=True):
                of_interval = grown.setdefault(number, {})
                of_interval[movement] = of_interval.get(movement, 0) + sign * count
        return grown


class Crossings:
    """Passages of approaches, as columns: movement by its number, slot, following link, end, line, delay, stops, stood,
    alone, stood_before. The delay of a trip that begins there has its wait to enter. Those whose plan ends on the
    approach or does not have its edge are left out, and those that left it from an edge before: they arrived, turned
    back or were rescued there."""

    def __init__(self, planned: PlanPlaces, columns: Columns, departs: Array) -> None:
        """columns: as `Passages.ended_passages` gives them; they follow those of the Crossings before. departs: the
        clocks of the wished departures, by vehicle."""
        plans, movements = planned.plans, planned.movements
        rows = np.flatnonzero(movements.edge_of[columns["slot"] // 2] == movements.approach_edges[columns["edge"]])
        place, is_planned = planned.places_of(columns["owner"][rows], columns["edge"][rows])
        going_on = is_planned & (place + 1 < plans.end_places[columns["owner"][rows]])
        columns, place = {name: values[rows[going_on]] for name, values in columns.items()}, place[going_on]
        first_place, floor = place.copy(), plans.first_places[columns["owner"]]
        while (off := (plans.links[first_place] != columns["first"]) & (first_place > floor)).any():
            first_place[off] -= 1
        first_place = np.where(plans.links[first_place] == columns["first"], first_place, place)
        self.following = plans.links[place + 1]
        edge = movements.approach_edges[columns["edge"]]
        self.movement = edge * len(movements.edges) + movements.edge_of[self.following]
        is_first = first_place == plans.first_places[columns["owner"]]
        # Who departs when it wishes to is first seen a second later.
        begin = np.where(is_first, np.minimum(columns["begin"], departs[columns["owner"]] + 1), columns["begin"])
        self.delay = columns["end"] - begin - plans.seconds_between(first_place, place) - columns["dwell"]
        self.slot, self.end = columns["slot"], columns["end"]
        self.line, self.stood_before = columns["line"], columns["before"]
        self.stops, self.stood, self.alone = (columns[name] for name in ("stops", "stood", "alone"))
        distinct, group = np.unique(self.movement, return_inverse=True)
        losses = [movements.losses_of(number) for number in distinct.tolist()]
        of_stop, of_all = np.array(losses, float).reshape(-1, 2).T
        self.delay = self.delay + of_stop[group] * (self.stops > 0)
        self.delay = self.delay + of_all[group]


class Crossed:
    """What the crossings of a run come to: by interval what movements lost, and by lane who passed the stop line."""

    def __init__(
        self, passages: Passages, plans: Plans, interval: int, dwells_of: Mapping[int, Sequence[Dwell]]
    ) -> None:
        """plans: of the vehicles; interval, dwells_of: as of `ended_passages` of the passages, which are let go."""
        self.movements, lanes, start = Movements(passages), len(passages.lane_keys), passages.kernel.start
        self.lost: dict[int, tuple[Array, ...]] = {}  # by interval
        self.log = Log({"line": "i4", "slot": "u2", "before": "i2", "stood": "?"})
        self.passes, self.alone = PeriodSums(lanes), PeriodSums(lanes)  # by interval and lane
        self.lane_links = np.zeros(0, np.int64)  # SLOTS times the lane, and the link to which they go, each pair once
        planned, begins = PlanPlaces(self.movements, plans), passages.begins_under_way()
        departs = passages.kernel.run.departs()
        for number, part in passages.ended_passages(interval, dwells_of):
            crossings = Crossings(planned, part, departs)
            note_first(begins, part)
            self.lost[number] = tuple(self.sums_of(crossings))
            lane, at = passages.column[crossings.slot], (crossings.line - 1 - start) // interval
            alone = (crossings.stood == 0) & (crossings.alone > 0)
            self.passes.add(at, lane)
            self.alone.add(at[alone], lane[alone])
            self.lane_links = np.union1d(self.lane_links, crossings.slot.astype(np.int64) * SLOTS + crossings.following)
            columns = {"line": crossings.line, "slot": crossings.slot, "before": crossings.stood_before}
            self.log.add({**columns, "stood": crossings.stood > 0})
        self.waiting_more = Entries(self.movements, plans, departs).grown(begins, start, interval)

    def entering_more(self, number: int) -> dict[Movement, int]:
        """By movement how many more wait to enter the network, to go there, at the end of an interval than at its
        begin."""
        return {self.movements.edge_pair(one): count for one, count in self.waiting_more.get(number, {}).items()}

    def sums_of(self, crossings: Crossings) -> Iterator[Array]:
        """Of crossings, by movement: its number, how many, their mean delay, seconds of standing and stops of all; then
        by movement and lane, from the lowest number on, both and how many."""
        rows = by_number(crossings.movement)
        begins, _ = groups_of(crossings.movement[rows])
        bounds = [*begins.tolist(), len(rows)]
        delays = crossings.delay[rows].tolist()
        yield crossings.movement[rows[begins]].astype(np.int32)
        yield np.diff(bounds).astype(np.int32)
        yield np.array([fsum(delays[begin:end]) / (end - begin) for begin, end in pairwise(bounds)], float)
        for column in (crossings.stood, crossings.stops):
            sums = np.append(0, np.cumsum(column[rows], dtype=np.int64))[bounds]
            yield np.diff(sums).astype(np.int32)
        lanes, counts = np.unique(crossings.movement * SLOTS + crossings.slot, return_counts=True)
        yield from ((lanes // SLOTS).astype(np.int32), (lanes % SLOTS).astype(np.uint16), counts.astype(np.int32))

    def losses_in(self, number: int) -> tuple[dict[Movement, Losses], dict[Movement, dict[Place, int]]]:
        """By movement what its vehicles lost, as means, in an interval, and how many were on each lane; the delay is at
        least the seconds of standing."""
        lost: dict[Movement, Losses] = {}
        lanes: dict[Movement, dict[Place, int]] = {}
        movements, *columns = (column.tolist() for column in self.lost.get(number, [np.zeros(0, np.int32)] * 8))
        names = {movement: self.movements.edge_pair(movement) for movement in movements}
        for movement, count, delay, stood, stops in zip(movements, *columns[:4], strict=True):
            lost[names[movement]] = Losses(count, max(stood / count, delay), stood / count, stops / count)
            lanes[names[movement]] = {}
        for movement, slot, count in zip(*columns[4:], strict=True):
            lanes[names[movement]][slot // 2, slot % 2] = count
        return lost, lanes


def note_first(begins: Array, passages: Columns) -> None:
    """Notes of some passages the begins of those vehicles, by their numbers, that have none or a later one."""
    owner = passages["owner"]
    later = (begins[owner] == 0) | (begins[owner] > passages["begin"])
    order = np.argsort(-passages["begin"][later], kind="stable")
    begins[owner[later][order]] = passages["begin"][later][order]
