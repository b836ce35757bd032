"""rows.bin: where each vehicle was in each second of a run, as packed columns."""
from __future__ import annotations

import struct
import zlib
from bisect import bisect_right
from collections.abc import Collection, Iterable, Iterator, Mapping, Sequence
from dataclasses import dataclass, field
from functools import cached_property
from itertools import groupby, pairwise, starmap
from operator import itemgetter
from typing import IO, Any

from streetsim.base.array_groups import groups_of, texts_by_number
from streetsim.base.arrays import Array
from streetsim.base.arrays import numpy as np
from streetsim.base.files import Fault, FilePath, Json, reading
from streetsim.base.limits import CLOCK
from streetsim.base.unpacking import TooMuch, inflate, lifted

NAME = "rows.bin"
# Of a part: bytes behind the head, clock of its first second, seconds, stays, rows, and closed stretches.
HEAD = struct.Struct("<6I")
# Behind the head, packed by zlib: by stay, the seconds on end for which a vehicle is there, the vehicle's number in the
# run file, its size in cells, the first second, from 0, and how many there are; by row, for each second of each stay,
# its lane (twice the link, and the lane), the cell of its front (in the buffer behind the lane -1 for its front, -2 for
# the next, and so on) and its speed in cells a second; and by stretch its clock, lane, first and last cell: from a
# clock that stands there on, these are the closed stretches of the lane, none where its last cell is below its first.
STAY_COLUMNS, ROW_COLUMNS, CLOSED_COLUMNS = ("<u4",) * 4, ("<u2", "<i4", "u1"), ("<u4",) * 4
MOST_ENTRIES = 2_000_000  # seconds, stays, rows or stretches in a part: more than a run writes at once
SLOTS, SPEEDS, SIZES = 1 << 16, 1 << 8, 1 << 20  # above the lane, the speed and the size of each row
Stretch = tuple[int, int]  # the first and the last cell
Stretches = Mapping[int, Sequence[Sequence[int]]]  # closed ones, by lane


@dataclass
class RowsPart:
    """Clocks, rising, that are looked at; by clock its first row, one more entry at the end; the columns of rows, which
    are by clock, then by lane, and on it from the stop line on; and the columns of closed stretches, of all clocks."""

    clocks: Array
    first_rows: Array
    vehicle: Array
    slot: Array
    cell: Array
    speed: Array
    size: Array
    changes: Sequence[Array] = field(default=())

    @cached_property
    def clock_place(self) -> Array:
        """By row the place of its clock."""
        return np.repeat(np.arange(len(self.clocks)), np.diff(self.first_rows))

    @cached_property
    def link(self) -> Array:
        """By row its link."""
        return self.slot // 2

    @cached_property
    def is_on_cells(self) -> Array:
        """By row whether it is on a lane's cells, not in the buffer behind."""
        return self.cell >= 0

    def chosen(self, rows: Array) -> RowsPart:
        """Some rows of it, as the numbers of rows or by row whether it is one, without closed stretches."""
        first_rows = np.append(0, np.cumsum(np.bincount(self.clock_place[rows], minlength=len(self.clocks))))
        columns = (self.vehicle, self.slot, self.cell, self.speed, self.size)
        return RowsPart(self.clocks, first_rows, *(column[rows] for column in columns))

    def frame(self, place: int, closed: Stretches) -> Json:
        """What stood on the lanes at a clock, by its place, as `Folder.polls` gives it."""
        here = slice(*self.first_rows[place : place + 2])
        lanes: dict[int, list[Any]] = {slot: [slot >> 1, slot & 1, [], [], one] for slot, one in closed.items() if one}
        columns = (one[here].tolist() for one in (self.vehicle, self.slot, self.cell, self.speed, self.size))
        for vehicle, slot, cell, speed, size in zip(*columns, strict=True):
            lane = lanes.setdefault(slot, [slot >> 1, slot & 1, [], [], []])
            if cell < 0:
                lane[3].append(vehicle)
            else:
                lane[2].append([vehicle, cell, speed] if size == 1 else [vehicle, cell, speed, size])
        return {"clock": int(self.clocks[place]), "lanes": [lane for _, lane in sorted(lanes.items())]}


def packed(clock: int, seconds: int, stays: Sequence[Array], rows: Sequence[Array], closed: Sequence[Array]) -> bytes:
    """The bytes of a part of so many seconds, whose first ends at a clock. stays, rows, closed: their columns."""
    kinds = (*STAY_COLUMNS, *ROW_COLUMNS, *CLOSED_COLUMNS)
    columns = [one.astype(kind).tobytes() for one, kind in zip((*stays, *rows, *closed), kinds, strict=True)]
    data = zlib.compress(b"".join(columns), 1)
    return HEAD.pack(len(data), clock, seconds, len(stays[0]), len(rows[0]), len(closed[0])) + data


def parts_of(
    file: IO[bytes], path: FilePath, every: int = 1, first_clock: int = 0, last_clock: int = CLOCK
) -> Iterator[RowsPart]:
    """The parts of an open file, one after the other; Fault where it is cut off or no such file. path: for the Fault;
    every: looked at are clocks that are whole multiples of so many seconds, from a first to a last one, both
    included; a part without one is given where it has closed stretches."""
    try:
        while head := file.read(HEAD.size):
            size, clock, seconds, stay_count, rows, closed = HEAD.unpack(head)
            if max(seconds, stay_count, rows, closed) > MOST_ENTRIES and not lifted():
                raise TooMuch(f"has more than {MOST_ENTRIES:,} rows or seconds in one part")
            if len(packed_data := file.read(size)) < size:
                raise ValueError("cut off")
            if clock + seconds > CLOCK + 1:
                raise ValueError("beyond the greatest clock")
            clocks = np.arange(clock, clock + seconds)
            is_looked_at = (clocks % every == 0) & (clocks >= first_clock) & (clocks <= last_clock)
            if not (closed or is_looked_at.any()):
                continue
            data = inflate(packed_data, 16 * (stay_count + closed) + 7 * rows)
            at, columns = 0, []
            for kinds, count in ((STAY_COLUMNS, stay_count), (ROW_COLUMNS, rows), (CLOSED_COLUMNS, closed)):
                for kind in kinds:
                    columns.append(np.frombuffer(data, kind, count, at))
                    at += columns[-1].nbytes
            yield part_of(clocks, columns, is_looked_at)
    except TooMuch as fault:
        raise Fault(f"{path}: {fault}") from None
    except (struct.error, zlib.error, ValueError):
        raise Fault(f"{path}: not whole, or no rows of a run") from None


def part_of(clocks: Array, columns: Sequence[Array], is_looked_at: Array) -> RowsPart:
    """The part of some clocks, of the columns of a file; is_looked_at: by clock. ValueError where they do not fit."""
    vehicle, size, begin, count = (one.astype(np.int64) for one in columns[:4])
    slot, cell, speed = columns[4:7]
    if count.sum() != len(slot) or np.any(begin + count > len(clocks)):
        raise ValueError("stays of other lengths")
    stay_index = np.repeat(np.arange(len(count)), count)
    second = np.arange(len(stay_index)) - (np.cumsum(count) - count - begin)[stay_index]
    wanted = np.flatnonzero(is_looked_at[second])
    order = wanted[np.lexsort((-cell[wanted], slot[wanted], second[wanted]))]
    first = np.append(0, np.cumsum(np.bincount(second[order], minlength=len(clocks))[is_looked_at]))
    of_stay = stay_index[order]
    kept = vehicle[of_stay], slot[order], cell[order], speed[order], size[of_stay]
    return RowsPart(clocks[is_looked_at], first, *kept, columns[7:])


def parts_in(
    path: FilePath, every: int = 1, first_clock: int = 0, last_clock: int = CLOCK
) -> Iterator[tuple[RowsPart, list[Stretches]]]:
    """The parts of a file, and by clock that is looked at the closed stretches of its lanes; as of parts_of, and Fault
    where the file cannot be read."""
    changes: list[tuple[int, ...]] = []
    closed: Stretches = {}
    with reading(path), open(path, "rb") as file:
        for part in parts_of(file, path, every, first_clock, last_clock):
            changes += zip(*(column.tolist() for column in part.changes), strict=True)
            closed_at = []
            for clock in part.clocks.tolist():
                due = bisect_right(changes, clock, key=itemgetter(0))
                if due:
                    closed = {**closed, **stretches_of(changes[:due])}
                    del changes[:due]
                closed_at.append(closed)
            yield part, closed_at


def stretches_of(changes: Iterable[tuple[int, ...]]) -> Stretches:
    """By lane its closed stretches behind changes of them, which are by clock and then by lane."""
    found: dict[int, list[list[int]]] = {}
    for (_, slot), group in groupby(changes, itemgetter(0, 1)):
        found[slot] = [[first, last] for _, _, first, last in group if last >= first]
    return found


def frames_in(path: FilePath, every: int, first_clock: int = 0, last_clock: int = CLOCK) -> Iterator[Json]:
    """What stood on the lanes at the clocks of parts_of, as `Folder.polls` gives it; Fault where the file cannot be
    read."""
    for part, closed_at in parts_in(path, every, first_clock, last_clock):
        for at, closed in enumerate(closed_at):
            yield part.frame(at, closed)


def frame_texts_in(part: RowsPart, closed_at: Sequence[Stretches]) -> Iterator[str]:
    """What stood on the lanes at each clock of a part, as a text of JSON; closed_at: as of parts_in."""
    begins, _ = groups_of(part.clock_place * SLOTS + part.slot)
    texts = lane_texts(part, begins)
    bounds = np.searchsorted(part.clock_place[begins], np.arange(len(part.clocks) + 1)).tolist()
    slots = part.slot[begins].tolist()
    for clock, closed, here in zip(part.clocks.tolist(), closed_at, starmap(slice, pairwise(bounds)), strict=True):
        yield f'{{"clock":{clock},"lanes":[{",".join(with_closed(slots[here], texts[here], closed))}]}}'


def lane_texts(part: RowsPart, begins: Array) -> list[str]:
    """The text of each lane up to its closed stretches; begins: where those of each lane begin in the rows."""
    names = texts_by_number(part.vehicle, str)
    places = (part.cell.astype(np.int64) * SPEEDS + part.speed) * SIZES + part.size
    texts = texts_by_number(np.where(part.is_on_cells, places, -1), place_text)
    entries = [f"[{name}{text}" if text else name for name, text in zip(names, texts, strict=True)]
    ends = np.append(begins, len(entries))[1:]
    waits = np.append(0, np.cumsum(~part.is_on_cells))
    fronts = ends - (waits[ends] - waits[begins])  # where those in the buffer begin
    return [
        f"[{slot >> 1},{slot & 1},[{','.join(entries[begin:front])}],[{','.join(entries[front:end])}],"
        for slot, begin, front, end in zip(*(one.tolist() for one in (part.slot[begins], begins, fronts, ends)))
    ]


def place_text(place: int) -> str:
    """What stands behind a vehicle's number, by its cell, speed and size in one; empty of one in a buffer."""
    cell, speed, size = place // (SPEEDS * SIZES), place // SIZES % SPEEDS, place % SIZES
    return "" if place < 0 else f",{cell},{speed}]" if size == 1 else f",{cell},{speed},{size}]"


def with_closed(slots: Sequence[int], lanes: Sequence[str], closed: Stretches) -> list[str]:
    """The texts of lanes, by their slots, with those where nothing but closed stretches is, rising."""
    if not any(closed.values()):
        return [f"{lane}[]]" for lane in lanes]
    texts = {slot: f"[{slot >> 1},{slot & 1},[],[]," for slot, stretches in closed.items() if stretches}
    texts.update(zip(slots, lanes, strict=True))
    shown = ((text, closed.get(slot, ())) for slot, text in sorted(texts.items()))
    return [f"{text}[{','.join(f'[{first},{last}]' for first, last in stretches)}]]" for text, stretches in shown]


def part_of_frame(frame: Json) -> RowsPart:
    """What stood on the lanes at a clock, as columns; frame: as `Folder.polls` gives it."""
    rows: list[tuple[int, ...]] = []
    for link, lane, cells, waiting, _ in frame["lanes"]:
        slot = 2 * link + lane
        rows += ((car, slot, cell, speed, *(size or [1])) for car, cell, speed, *size in cells)
        rows += ((car, slot, -1 - place, 0, 1) for place, car in enumerate(waiting))
    columns = np.array(rows, np.int64).reshape(-1, 5).T
    return RowsPart(np.array([frame["clock"]]), np.array([0, len(rows)]), *columns)


def unbroken_stretches(cells: Collection[int]) -> list[Stretch]:
    """Cells as unbroken stretches (first, last), in rising order."""
    firsts = sorted(cell for cell in cells if cell - 1 not in cells)
    lasts = sorted(cell for cell in cells if cell + 1 not in cells)
    return list(zip(firsts, lasts, strict=True))
