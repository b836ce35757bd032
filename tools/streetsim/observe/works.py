"""works.csv, and the queues before works of queues.csv: what is seen before the works of a run."""
from __future__ import annotations

from collections.abc import Iterable, Iterator, Sequence

from streetsim.base.arrays import numpy as np
from streetsim.base.client import Lane
from streetsim.control.merging_rule import EVERY
from streetsim.control.works_closures import Closure
from streetsim.control.works_queue_ends import Reach, streets_of
from streetsim.control.works_watched import Watched
from streetsim.kernel.loop import Kernel, Observer
from streetsim.kernel.seconds import READY, Seconds
from streetsim.model.freeflow import FreeFlow
from streetsim.model.mapping import Place
from streetsim.model.tables import BEFORE_WORKS, Entry

EMPTY_LANE = Lane((), (), (), ())


class WorksTable(Observer):
    """Looks at the lanes before works each EVERY seconds, and at polls how far the queues reach."""

    def __init__(self, closures: Sequence[Closure], every: int = 0) -> None:
        """closures: before which a queue can begin; every: seconds between polls, 0: none."""
        self.closures, self.every = closures, every
        self.watched: list[Watched] = []
        self.queues: list[tuple[int, Closure, int, float]] = []  # clock, works, vehicles that stand, metres

    def begin(self, kernel: Kernel) -> None:
        """Nobody has come."""
        self.kernel, mapping = kernel, kernel.map
        driving = FreeFlow(mapping, kernel.run.load.command.get("dawdle", 0) / 1000).driving
        pace = [seconds / link.cells for seconds, link in zip(driving, mapping.links, strict=True)]
        streets = streets_of(mapping)
        closures = self.closures
        self.watched = [Watched(closure, streets, pace, upstream_of(closure, closures)) for closure in closures]
        self.rescued = 0  # rescues that are noted

    def see(self, seconds: Seconds) -> None:
        """Takes some seconds. Who is rescued at a clock is there at its look."""
        for second in range(1, len(seconds.clocks)) if self.watched else ():
            clock = int(seconds.clocks[second])
            due = [watched for watched in self.watched if due_after(watched, clock - 1) == clock]
            polled = [watched for watched in self.watched if watched.closure.begin < clock <= watched.closure.end]
            if self.every == 0 or clock % self.every:
                polled = []
            if due or polled:
                self.note_looks(clock, LanesNow(seconds, second), due, polled)

    def note_looks(self, clock: int, lanes: LanesNow, due: Iterable[Watched], polled: Iterable[Watched]) -> None:
        """Notes for works.csv what works show that are due at a clock, or polled."""
        takeouts = self.kernel.vehicles.takeouts
        while self.rescued < len(takeouts) and takeouts[self.rescued].clock < clock:
            for watched in self.watched:
                watched.rescue(takeouts[self.rescued].car, takeouts[self.rescued].anew)
            self.rescued += 1
        for watched in due:
            watched.note_look(clock, self.seen_before(clock, watched, lanes), self.is_bound)
        for watched in polled:
            reach = self.reach_at(clock, watched, lanes)
            if reach.vehicles:
                self.queues.append((clock, watched.closure, reach.vehicles, reach.metres))

    def seen_before(self, clock: int, watched: Watched, lanes: LanesNow) -> dict[Place, Lane]:
        """What stands on the lanes of the link of some works, and of those upstream that their queue reaches."""
        lanes_of = self.kernel.map.lanes
        lanes_seen = {lane_key: lanes.lane_at(lane_key) for lane_key in lanes_of([watched.closure.link])}
        while more := watched.further(clock, lanes_seen):
            lanes_seen.update((lane_key, lanes.lane_at(lane_key)) for lane_key in lanes_of(sorted(more)))
        return lanes_seen

    def reach_at(self, clock: int, watched: Watched, lanes: LanesNow) -> Reach:
        """How far the queue before some works reaches, on however many links upstream."""
        lanes_seen: dict[Place, Lane] = {}
        links = {watched.closure.link}
        while links:
            lanes_seen.update((lane_key, lanes.lane_at(lane_key)) for lane_key in self.kernel.map.lanes(sorted(links)))
            reach = watched.reach(clock, lanes_seen)
            known = {link for link, _ in lanes_seen}
            links = {feeder for link in reach.full for feeder in watched.streets.feeders.get(link, ())} - known
        return reach

    def is_bound(self, car: int, link: int, ahead: int) -> bool:
        """Whether a car, by its number in the program, that is on one link has another ahead in its vehicle's plan. It
        counts as where its link stands first in the plan; False where that does not have it."""
        plan = self.kernel.run.enters[int(self.kernel.vehicles.owner[car])].command["plan"]
        return link in plan and ahead in plan[plan.index(link) + 1 :]

    def queue_rows(self) -> Iterator[Entry]:
        """The rows of queues.csv before works, as Queues.rows has them, with the metres where the works begin."""
        mapping = self.kernel.map
        for clock, closure, count, metres in self.queues:
            link, (begin, _) = mapping.links[closure.link], closure.metres(mapping)
            yield clock, link.edge, link.lanes[closure.lane], count, round(metres, 1), BEFORE_WORKS, f"{begin:.1f}"


class LanesNow:
    """The lanes in one second, as replies: those before works are looked at."""

    def __init__(self, seconds: Seconds, second: int) -> None:
        """second: by its number among these."""
        self.seconds, self.begin = seconds, int(seconds.first[second])
        self.slots = seconds.slot[self.begin : seconds.first[second + 1]]

    def lane_at(self, lane_key: Place) -> Lane:
        """What stands on a lane before works, without closed stretches."""
        slot = 2 * lane_key[0] + lane_key[1]
        low, high = (self.begin + np.searchsorted(self.slots, (slot, slot + 1))).tolist()
        if low == high:
            return EMPTY_LANE
        rows, seconds = slice(low, high), self.seconds
        columns = seconds.car, seconds.cell, seconds.speed, seconds.size
        vehicles = list(zip(*(column[rows].tolist() for column in columns), strict=True))
        cells = tuple((car, cell, speed, size) for car, cell, speed, size in vehicles if cell >= 0)
        return Lane(cells, tuple((car, speed, cell & READY) for car, cell, speed, _ in vehicles if cell < 0), (), ())


def upstream_of(closure: Closure, closures: Iterable[Closure]) -> list[Closure]:
    """The works on the lane of some works that begin upstream of these, whenever they are there."""
    lane_key = closure.link, closure.lane
    on_lane = [closure_before for closure_before in closures if (closure_before.link, closure_before.lane) == lane_key]
    return [closure_before for closure_before in on_lane if closure_before.first_cell < closure.first_cell]


def due_after(watched: Watched, clock: int) -> int | None:
    """The clock of the first look at a place of works after a clock; None where the works are over."""
    begin, end = watched.closure.begin, watched.closure.end
    following = begin + (max(0, clock - begin) // EVERY + 1) * EVERY
    return min(following, end) if clock < end else None
