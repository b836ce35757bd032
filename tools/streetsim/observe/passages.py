"""Follows vehicles over the approaches of junctions through the seconds of a run: begin, stop line, stops and standing
of each passage, as columns."""
from __future__ import annotations

from collections import defaultdict
from collections.abc import Iterable, Iterator, Mapping, Sequence
from typing import Any

from streetsim.base.array_groups import groups_of, unbroken
from streetsim.base.arrays import Array, numpy as np
from streetsim.control.bus_fleet import Dwell
from streetsim.kernel.loop import Kernel, Observer
from streetsim.kernel.seconds import SLOTS, Seconds
from streetsim.observe.junction_layout import approaches_of
from streetsim.observe.log import Columns, Log, by_period

MISSING = -1  # no edge, no lane of an approach or no row
REACH_M = 20.0  # metres: who stands within these of the stop line, or of the queue's rear, is of the queue
STILL_S = 2  # seconds of standing that make a stop: who creeps may stand for one by chance
GAP_M = 2.5  # metres behind a vehicle that its cell has and it does not cover


class Passages(Observer):
    """Follows vehicles over approaches. A passage lasts from when a vehicle is first seen on an approach until it has
    left it and the junction behind it. `done` gives those that have ended."""

    # Of one under way, by vehicle: edge, by its number, MISSING: it is on none; clocks of its begin and from which on
    # it was behind the stop line, 0: not yet; its lane and first link; stops; seconds that it stood, and for which it
    # has stood now; whether nobody else who had stood was on its lane when it passed the line; how many had stood there
    # in the second before, the lane's first vehicles that passed then among them.
    FIELDS = "edge", "begin", "line", "slot", "first", "stops", "stood", "still", "alone", "before"
    # Of one that has ended: the clock from which on it was not there, the vehicle, and FIELDS.
    ENDED_FIELDS = {
        **{"end": "i4", "owner": "i4", "edge": "i2", "begin": "i4", "line": "i4", "slot": "u2", "first": "i2"},
        **{"stops": "i2", "stood": "i4", "alone": "i1", "before": "i2"},
    }

    def begin(self, kernel: Kernel) -> None:
        """Nobody is on an approach."""
        self.kernel, mapping = kernel, kernel.map
        links = mapping.links
        self.approaches = approaches_of(mapping)
        self.edges = list(self.approaches)
        self.lane_keys = [lane_key for approach in self.approaches.values() for lane_key in approach.lanes]
        self.lanes: defaultdict[int, list[int]] = defaultdict(list)  # by node, of the places those that lead to it
        for column, (number, _) in enumerate(self.lane_keys):
            self.lanes[links[number].end].append(column)
        self.edge_of = np.full(len(links), MISSING, np.int32)
        at_line = np.zeros(len(links), bool)
        for number, approach in enumerate(self.approaches.values()):
            self.edge_of[approach.all_links] = number
            at_line[approach.links] = True
        self.metres = np.array([float(link.metres) for link in links])
        # By slot.
        self.edge, self.at_line = np.repeat(self.edge_of, 2), np.repeat(at_line, 2)
        self.cells = np.repeat(np.array([link.cells for link in links], np.int32), 2)
        self.slow = np.repeat(np.array([link.limit for link in links]) == 1, 2)
        self.residence = np.repeat(np.array([mapping.nodes[link.end][3] for link in links], np.int32), 2)
        self.column = np.full(2 * len(links), MISSING, np.int32)
        self.column[[2 * link + lane for link, lane in self.lane_keys]] = np.arange(len(self.lane_keys))
        self.under_way = {name: np.zeros(len(kernel.run.enters), np.int32) for name in self.FIELDS}
        self.under_way["edge"][:] = MISSING
        self.log = Log(self.ENDED_FIELDS)
        self.stood_last = np.zeros(len(self.lane_keys), np.int64)  # by lane of an approach: who had stood, a second ago

    def see(self, seconds: Seconds) -> None:
        """Takes some seconds."""
        rows = seconds.by_owner
        rows = rows[self.edge[seconds.slot[rows]] != MISSING]
        runs = FoundPassages(self, seconds, rows, self.standing(seconds, rows))
        still = np.zeros(len(seconds.car), np.int32)
        still[rows] = runs.still
        queues = self.queues(seconds, np.flatnonzero(still >= STILL_S))
        self.log_lanes(seconds, queues, runs.stood_on_lanes)
        self.end_passages(seconds, runs)

    def log_lanes(self, seconds: Seconds, back: Array, stood: Array) -> None:
        """Takes what lanes showed in some seconds: by second, but for second 0, and lane of an approach, the metres of
        the queue, and how many vehicles had stood on the approach."""

    def standing(self, seconds: Seconds, rows: Array) -> Array:
        """Of some rows who stands; where vehicles move by a cell a step only right behind another or the lane's end."""
        stands = seconds.on[rows] & (seconds.speed[rows] == 0)
        slow_rows = np.flatnonzero(stands & self.slow[seconds.slot[rows]])
        rows = rows[slow_rows]
        ahead, slot, second = rows - 1, seconds.slot, seconds.second
        behind = (rows > 0) & seconds.on[ahead] & (slot[ahead] == slot[rows]) & (second[ahead] == second[rows])
        rear = seconds.cell[ahead] - seconds.size[ahead]  # cell before which the one ahead leaves no room
        stands[slow_rows] = seconds.cell[rows] == np.where(behind, rear, self.cells[slot[rows]] - 1)
        return stands

    def queues(self, seconds: Seconds, rows: Array) -> Array:
        """By second and lane of an approach the metres from the stop line to the rear of the queue of those who have
        stood for STILL_S, each at most REACH_M behind the one before; where it fills the lane, with the longest on the
        edge before, and so on. rows: who has stood for so long."""
        slot, second = seconds.slot[rows], seconds.second[rows]
        link, cells = slot // 2, self.cells[slot]
        metres = self.metres[link] / cells
        ahead = (cells - 1 - seconds.cell[rows]) * metres
        rear = ahead + seconds.size[rows] * metres
        begins, group = groups_of(second * SLOTS + slot)
        reach = np.append(REACH_M, rear[:-1] + REACH_M)
        reach[begins] = REACH_M
        held = unbroken(ahead <= reach, begins, group)
        number = np.bincount(group[held], minlength=len(begins))
        occupied = np.flatnonzero(number)
        tail = begins[occupied] + number[occupied] - 1
        second, slot = second[tail], slot[tail]
        metres = np.maximum(0.0, np.minimum(rear[tail], self.metres[link[tail]]) - GAP_M)
        metres_of = np.zeros((len(seconds.clocks), len(self.lane_keys)), np.float32)
        of_approach = self.column[slot] != MISSING
        metres_of[second[of_approach], self.column[slot[of_approach]]] = metres[of_approach]
        if any(approach.edges_before for approach in self.approaches.values()):
            queue = np.zeros((len(seconds.clocks), len(self.cells)))
            queue[second, slot] = metres
            self.add_edges_before(metres_of, queue)
        return metres_of[1:]

    def add_edges_before(self, queues: Array, queue: Array) -> None:
        """Adds to the queues of lanes of approaches, by second, what goes on before their edges; queue: by second and
        slot, of each lane alone."""
        for column, (link, lane) in enumerate(self.lane_keys):
            reach, full = queue[:, 2 * link + lane], self.metres[link]
            for links in self.approaches[self.edges[self.edge_of[link]]].edges_before:
                fills = reach >= full - GAP_M - 0.1
                if not fills.any():
                    break
                longest = np.max([queue[:, 2 * at + side] for at, side in self.kernel.map.lanes(links)], axis=0)
                reach = np.where(fills, full + longest, reach)  # who does not fill the first edge does not fill two
                full += self.metres[links[0]]
                queues[:, column] = reach

    def end_passages(self, seconds: Seconds, runs: FoundPassages) -> None:
        """Keeps the passages that have ended, and what goes on."""
        under_way, last_second, columns = self.under_way, len(seconds.clocks) - 1, runs.columns
        known = np.zeros(len(under_way["edge"]), bool)
        known[columns["owner"][runs.goes_on]] = True
        over = np.flatnonzero((under_way["edge"] != MISSING) & ~known)
        part = {name: under_way[name][over] for name in self.FIELDS}
        self.keep_ended({**part, "owner": over}, np.zeros(len(over), np.int64), seconds, runs)
        under_way["edge"][over] = MISSING
        ended = runs.end < last_second
        part = {name: columns[name][ended] for name in (*self.FIELDS, "owner")}
        self.keep_ended(part, runs.end[ended], seconds, runs)
        under_way["edge"][columns["owner"][ended]] = MISSING
        for name in self.FIELDS:
            under_way[name][columns["owner"][~ended]] = columns[name][~ended]

    def keep_ended(self, part: Columns, last_seconds: Array, seconds: Seconds, runs: FoundPassages) -> None:
        """Keeps passages that have ended, with their ends, `end`; who was not seen behind its stop line counts as
        passing it then. last_seconds: the last second of each, 0: of the part before."""
        before = runs.stood_by_second[last_seconds, self.column[part["slot"]]]
        part["before"] = np.where(part["line"] == 0, before, part["before"])
        part["end"] = seconds.clocks[last_seconds + 1]
        part["line"] = np.where(part["line"] == 0, part["end"], part["line"])
        self.log.add(part)

    def begins_under_way(self) -> Array:
        """By vehicle the clock at which its passage that is under way began, 0 where none is."""
        return np.where(self.under_way["edge"] != MISSING, self.under_way["begin"], 0).astype(np.int64)

    def ended_passages(self, interval: int, dwells_of: Mapping[int, Sequence[Dwell]]) -> Iterator[tuple[int, Columns]]:
        """(number from 0, passages that ended, in the order in which they did) of each interval of so many seconds that
        has any: ENDED_FIELDS, and `dwell`, seconds at stops of its own, which are in neither stops nor stood. Each is
        let go where it is given. dwells_of: by vehicle the stops that it left."""
        stopping = np.array(list(dwells_of), np.int64)
        for number, ended in by_period(self.log.take_parts(), self.kernel.start, interval):
            ended["dwell"] = np.zeros(len(ended["end"]), np.int32)
            for row in np.flatnonzero(np.isin(ended["owner"], stopping)).tolist() if dwells_of else ():
                self.take_stops_off(ended, row, dwells_of[int(ended["owner"][row])])
            yield number, ended

    def take_stops_off(self, passages: Columns, row: int, stops: Iterable[Dwell]) -> None:
        """Takes the stops of its vehicle that lie in a passage, by its row, off what is found of it."""
        for stop in stops:
            is_here = passages["edge"][row] == self.edge_of[stop.link]
            if is_here and passages["begin"][row] <= stop.arrived <= passages["end"][row]:
                passages["dwell"][row] += stop.seconds
                passages["stood"][row] = max(0, passages["stood"][row] - stop.stood)
                passages["stops"][row] = max(0, passages["stops"][row] - 1)


class FoundPassages:
    """The passages, or their parts, that some seconds show: in `found` the FIELDS of Passages and `owner` of each, as
    they are at its end; by run its last second (end), and whether it went on from the seconds before (goes_on); by row
    the seconds for which it has stood now (still), and stood on the approach so far (stood)."""

    def __init__(self, passages: Passages, seconds: Seconds, rows: Array, standing: Array) -> None:
        """rows: on approaches, by owner, then by second; standing: of them, who stand."""
        self.passages, self.clocks = passages, seconds.clocks.astype(np.int32)
        self.owner, self.second = seconds.owner[rows], seconds.second[rows]
        self.slot, self.on_cells = seconds.slot[rows], seconds.on[rows]
        owner, second, edge = self.owner, self.second, passages.edge[self.slot]
        fresh = np.ones(len(rows), bool)
        fresh[1:] = (owner[1:] != owner[:-1]) | (second[1:] != second[:-1] + 1) | (edge[1:] != edge[:-1])
        first_rows = self.first_rows = np.flatnonzero(fresh)
        lengths = np.diff(np.append(first_rows, len(rows)))
        self.run = np.repeat(np.arange(len(first_rows), dtype=np.int32), lengths)
        self.last_rows = first_rows + lengths - 1
        self.end = second[self.last_rows]
        self.goes_on = (second[first_rows] == 1) & (passages.under_way["edge"][owner[first_rows]] == edge[first_rows])
        self.columns: Columns = {"owner": owner[first_rows], "edge": edge[first_rows]}
        begin, link = self.clocks[second[first_rows]], self.slot[first_rows] // 2
        self.columns.update(begin=self.carried("begin", begin), first=self.carried("first", link))
        self.find_standing(standing)
        self.find_crossings()
        self.find_who_stood_on_lanes(len(seconds.clocks))

    def carried(self, name: str, otherwise: Any) -> Array:
        """By run the value of the part before, or another where the passage begins."""
        return np.where(self.goes_on, self.passages.under_way[name][self.owner[self.first_rows]], otherwise)

    def find_standing(self, standing: Array) -> None:
        """Sets how long each has stood now, and the stops. Who departs stands then, which is no stop; the junction
        between two edges of an approach does not end a stand. standing: by row who stands."""
        first_rows, on_cells = self.first_rows, self.on_cells
        self.stands = standing.copy()
        self.stands[first_rows[~self.goes_on]] = False
        position = np.cumsum(on_cells, dtype=np.int32) - 1
        base = position[first_rows] + ~on_cells[first_rows] - 1 - self.carried("still", 0)
        since = position.copy()  # where a stand may begin: the place of the last row before it
        moved = on_cells & ~self.stands
        since[first_rows] = np.where(moved[first_rows], position[first_rows], base)
        moved[first_rows] = True
        since = since[latest(moved)]
        self.columns["still"] = position[self.last_rows] - since[self.last_rows]
        self.still = np.where(on_cells, position - since, 0)
        halts = np.bincount(self.run[self.still == STILL_S], minlength=len(first_rows))
        self.columns["stops"] = self.carried("stops", 0) + halts.astype(np.int32)

    def find_crossings(self) -> None:
        """Sets when each passed the stop line, on which lane, and the seconds that it stood so far: those in which it
        stands; where vehicles move by a cell a step, from the one that makes it a stop on; and behind the line those
        for which it was there longer than one crosses."""
        first_rows, run, slot, passages = self.first_rows, self.run, self.slot, self.passages
        in_buffer = np.flatnonzero(~self.on_cells)
        rows = in_buffer[passages.at_line[slot[in_buffer]]]
        line = self.carried("line", 0)
        self.is_new = np.zeros(len(first_rows), bool)
        self.is_new[run[rows]] = True
        self.is_new &= line == 0
        row = np.full(len(first_rows), MISSING)
        row[run[rows[::-1]]] = rows[::-1]  # of each run the first
        self.crossed = row[self.is_new]
        line[self.is_new] = self.clocks[self.second[self.crossed]]
        gained = self.stands.copy()
        slow = np.flatnonzero(gained & passages.slow[slot])
        gained[slow] = self.still[slow] >= STILL_S
        gained[rows] = self.clocks[self.second[rows]] - line[run[rows]] > passages.residence[slot[rows]]
        sums = np.cumsum(gained, dtype=np.int32)
        self.stood = sums + (self.carried("stood", 0) - sums[first_rows] + gained[first_rows])[run]
        is_valid = np.ones(len(run), bool)
        is_valid[in_buffer], is_valid[rows] = False, True
        valid = latest(is_valid)[self.last_rows]
        self.columns.update(line=line, slot=np.where(valid >= first_rows, slot[valid], self.carried("slot", 0)))
        self.columns["stood"] = self.stood[self.last_rows]

    def find_who_stood_on_lanes(self, count: int) -> None:
        """Sets by second and lane of an approach how many there had stood (known; stood_on_lanes: but for second 0),
        and of those who passed the line what this was in the second before. count: seconds, with second 0."""
        passages, rows = self.passages, self.crossed
        lanes = len(passages.lane_keys)
        stood_rows = np.flatnonzero(self.on_cells & (self.stood > 0))
        column = passages.column[self.slot[stood_rows]]
        keys = self.second[stood_rows].astype(np.int64) * lanes + column
        self.stood_by_second = np.bincount(keys[column != MISSING], minlength=count * lanes).reshape(count, lanes)
        self.stood_by_second[0] = passages.stood_last
        self.stood_on_lanes, passages.stood_last = self.stood_by_second[1:], self.stood_by_second[-1].copy()
        before = self.stood_by_second[self.second[rows] - 1, passages.column[self.slot[rows]]]
        alone, stood_before = self.carried("alone", 1), self.carried("before", 0)
        alone[self.is_new], stood_before[self.is_new] = before <= (self.stood[rows] > 0), before
        self.columns.update(alone=alone, before=stood_before)


def latest(holds: Array) -> Array:
    """By row the last row up to it that holds; MISSING before the first one."""
    return np.maximum.accumulate(np.where(holds, np.arange(len(holds), dtype=np.int32), MISSING))
