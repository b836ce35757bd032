"""When vehicles come to the links of their plans and pass stop lines; read by rounds of giving way and by searches for
routes."""
from __future__ import annotations

from collections.abc import Iterator

from streetsim.base.array_groups import groups_of
from streetsim.base.arrays import Array, numpy as np
from streetsim.kernel.loop import Kernel, Observer
from streetsim.kernel.seconds import Seconds, by_number
from streetsim.model.freeflow import FreeFlow
from streetsim.observe.giving_way_gaps import StopLinePassings


class Passings(Observer):
    """Notes when vehicles come to the links of their plans, which is when they are first in their first cell, and when
    they pass stop lines. `link_arrivals` and `stop_line_passings` tell it behind the run's end."""

    def begin(self, kernel: Kernel) -> None:
        """Nobody has come anywhere."""
        self.kernel = kernel
        self.residence = np.repeat([kernel.map.nodes[link.end][3] for link in kernel.map.links], 2)
        # Owners, clocks and slots of those who came or passed, and which of the two.
        self.parts: list[tuple[Array, Array, Array, Array]] = []

    def see(self, seconds: Seconds) -> None:
        """Takes some seconds."""
        arrived, passed = first_in_cell_0(seconds), seconds.joined_buffer(self.residence)
        rows = np.append(arrived, passed)
        owner, clocks = seconds.vehicles.owner[seconds.car[rows]], seconds.clocks[seconds.second[rows]]
        self.parts.append((owner, clocks, seconds.slot[rows], np.arange(len(rows)) < len(arrived)))

    def end(self, clock: int) -> None:
        """Puts what was noted in order, by vehicle and then by clock."""
        columns = [np.concatenate(parts) for parts in zip(*self.parts)]
        order = np.lexsort((columns[1], columns[0]))
        self.owner, self.clock, self.slot, self.is_coming = (column[order] for column in columns)
        self.parts = []

    def link_arrivals(self) -> list[list[int]]:
        """By vehicle of the file the clocks at which it came to the links of its plan, from the first on."""
        owner, clock = self.owner[self.is_coming], self.clock[self.is_coming]
        ends = np.cumsum(np.bincount(owner, minlength=len(self.kernel.run.enters)))
        return [clocks.tolist() for clocks in np.split(clock, ends)[:-1]]

    def stop_line_passings(self) -> StopLinePassings:
        """When vehicles passed stop lines but those of their last links. A vehicle passes a line between the clock
        given here and the second before it."""
        plans, rows = self.kernel.plans, np.flatnonzero(~self.is_coming)
        owner, slot = self.owner[rows], self.slot[rows]
        driving = FreeFlow(self.kernel.map, self.kernel.run.load.command.get("dawdle", 0) / 1000).driving
        due = self.clock[rows - 1] + np.array(driving)[slot >> 1]
        begins, group = groups_of(self.owner)
        count = np.cumsum(self.is_coming)  # of links that vehicles came to
        following = plans.links[plans.first_places[owner] + (count - count[begins][group] + 1)[rows]]
        order = by_number(slot)
        return dict(by_place(*(column[order] for column in (slot, self.clock[rows], following, due))))


def first_in_cell_0(seconds: Seconds) -> Array:
    """The rows of those who were not in the first cell of their link in the second before."""
    rows = np.flatnonzero(seconds.cell == 0)
    rows = rows[by_number(seconds.car[rows])]
    car, second = seconds.car[rows], seconds.second[rows]
    stays = np.append(False, (car[1:] == car[:-1]) & (second[1:] == second[:-1] + 1))[: len(rows)]
    return rows[~stays & (second > 0)]


def by_place(
    slot: Array, clock: Array, following: Array, due: Array
) -> Iterator[tuple[tuple[int, int], list[tuple[float, int, float]]]]:
    """((link, lane), [(clock, next link, due)]) of each lane; slot: rising."""
    begins, _ = groups_of(slot)
    for begin, end in zip(begins.tolist(), [*begins.tolist()[1:], len(slot)]):
        rows = slice(begin, end)
        columns = (column[rows].tolist() for column in (clock, following, due))
        yield divmod(int(slot[begin]), 2), list(zip(*columns, strict=True))
