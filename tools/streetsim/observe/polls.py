"""rows.bin and lanes.jsonl.gz: what stands on the lanes in each second, and at polls."""
from __future__ import annotations

from collections.abc import Collection, Iterator
from typing import IO

from streetsim.base.arrays import Array, numpy as np
from streetsim.base.files import TextFile
from streetsim.kernel.loop import ClosedCells, Kernel, Observer
from streetsim.kernel.seconds import Seconds
from streetsim.model.mapping import Place
from streetsim.model.rows import CLOSED_COLUMNS, RowsPart, Stretches, frame_texts_in, packed
from streetsim.observe.queues import find_polled_slots


class ClosedLanes:
    """The closed stretches of lanes at polls: those that controllers close at its clock, and lines of the file before
    it."""

    def __init__(self, kernel: Kernel, polled_slots: Array) -> None:
        """polled_slots: by slot whether its lane is polled."""
        self.kernel, self.polled_slots, self.closed, self.next_sent = kernel, polled_slots, ClosedCells(), 0
        for line in kernel.run.first:
            self.closed.note(line.command)
        self.stretches = self.find_stretches()

    def find_stretches(self) -> Stretches:
        """Those that are closed now, of polled lanes."""
        return {slot: stretches for slot, stretches in self.closed.stretches().items() if self.polled_slots[slot]}

    def stretches_at(self, clock: int) -> Stretches:
        """By slot the stretches at a poll; clocks rise."""
        sent, earlier_next = self.kernel.sent_lines, self.next_sent
        while self.next_sent < len(sent):
            following = sent[self.next_sent]
            if (following.clock, following.passed_on) > (clock, False):
                break
            self.closed.note(following.line.command)
            self.next_sent += 1
        if self.next_sent > earlier_next:
            self.stretches = self.find_stretches()
        return self.stretches


class RowsWriter(Observer):
    """Writes rows.bin: the vehicles of lanes, and their closed stretches, in each second."""

    def __init__(self, file: IO[bytes], polled: Collection[Place] | None = None) -> None:
        """file: where they are written; polled: the lanes, None: all."""
        self.file, self.polled = file, polled

    def begin(self, kernel: Kernel) -> None:
        """Nothing is written."""
        self.polled_slots = find_polled_slots(self.polled, 2 * len(kernel.map.links))
        self.closed = ClosedLanes(kernel, self.polled_slots)
        self.earlier_stretches: Stretches = {}

    def see(self, seconds: Seconds) -> None:
        """Takes some seconds."""
        rows = seconds.by_owner
        if self.polled is not None:
            rows = rows[self.polled_slots[seconds.slot[rows]]]
        owner, second = seconds.owner[rows], seconds.second[rows]
        goes_on = (owner[1:] == owner[:-1]) & (second[1:] == second[:-1] + 1)
        begins = np.flatnonzero(np.append(True, ~goes_on)[: len(rows)])
        lengths = np.diff(np.append(begins, len(rows)))
        stays = owner[begins], seconds.size[rows[begins]], second[begins] - 1, lengths
        columns = seconds.slot[rows], cells_of_rows(seconds)[rows], seconds.speed[rows]
        changes = [change for clock in seconds.clocks[1:].tolist() for change in self.changes(clock)]
        closed = np.array(changes, np.int64).reshape(-1, len(CLOSED_COLUMNS)).T
        clock, count = int(seconds.clocks[1]), len(seconds.clocks) - 1
        self.file.write(packed(clock, count, stays, columns, tuple(closed)))

    def changes(self, clock: int) -> Iterator[tuple[int, int, int, int]]:
        """(clock, slot, first, last cell) of the closed stretches of each lane where these change at a clock; cells 1
        to 0 where there are none any more."""
        before, stretches = self.earlier_stretches, self.closed.stretches_at(clock)
        if stretches is not before:
            for slot in sorted({*before, *stretches}):
                if before.get(slot) != stretches.get(slot):
                    yield from ((clock, slot, first, last) for first, last in stretches.get(slot, [(1, 0)]))
        self.earlier_stretches = stretches


def cells_of_rows(seconds: Seconds) -> Array:
    """By row the cell of its front, and in a buffer -1 for its front, -2 for the next, and so on."""
    cell, off = seconds.cell.copy(), np.flatnonzero(~seconds.on)
    slot, second = seconds.slot[off], seconds.second[off]
    fresh = np.append(True, (slot[1:] != slot[:-1]) | (second[1:] != second[:-1]))[: len(off)]
    begins = np.flatnonzero(fresh)
    cell[off] = begins[np.cumsum(fresh) - 1] - np.arange(len(off)) - 1
    return cell


class Polls(Observer):
    """Writes lanes.jsonl.gz: the vehicles of lanes, and their closed stretches, at each poll."""

    def __init__(self, file: TextFile, every: int, polled: Collection[Place] | None = None) -> None:
        """file: where they are written; every: seconds between polls; polled: the lanes, None: all."""
        self.file, self.every, self.polled = file, every, polled

    def begin(self, kernel: Kernel) -> None:
        """No poll has come."""
        self.polled_slots = find_polled_slots(self.polled, 2 * len(kernel.map.links))
        self.closed = ClosedLanes(kernel, self.polled_slots)

    def see(self, seconds: Seconds) -> None:
        """Takes some seconds."""
        polled = seconds.clocks % self.every == 0
        polled[0] = False
        rows = np.flatnonzero(seconds.rows_in_seconds(polled) & self.polled_slots[seconds.slot])
        counts = np.bincount(seconds.second[rows], minlength=len(polled))[polled]
        columns = (seconds.owner, seconds.slot, seconds.cell, seconds.speed, seconds.size)
        first_rows, clocks = np.append(0, np.cumsum(counts)), seconds.clocks[polled]
        part = RowsPart(clocks, first_rows, *(column[rows] for column in columns))
        closed_at = [self.closed.stretches_at(clock) for clock in clocks.tolist()]
        self.file.writelines(f"{text}\n" for text in frame_texts_in(part, closed_at))
