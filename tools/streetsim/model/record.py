"""The record of a run, as the program writes it: every vehicle of every step, block by block, as columns of numbers.

crates/street_base/specs/Record.antt defines its bytes. What a head says is believed within bounds alone, and before
memory is taken for it.
"""
from __future__ import annotations

import os
import struct
from collections.abc import Iterator
from dataclasses import dataclass
from typing import IO

from streetsim.base.arrays import Array, numpy_module
from streetsim.base.files import Fault, FilePath
from streetsim.base.limits import CLOCK, VEHICLES

BUFFER = 1 << 31  # what a spot has added to the step from which one in a buffer may go on
ARRIVED = (1 << 32) - 1  # the spot of one that arrived in the step
HEAD = struct.Struct("<4I")  # clock, rows, arrived, taken
ROW = 16  # bytes
CHUNK = 1 << 18  # bytes that are read at once, at most


class BadRecord(Fault):
    """A record that cannot be that of a run, with its file's name and the number of its block, from 1."""


class TooManyRows(BadRecord):
    """A head promises more rows than there are vehicles."""


class TornBlock(BadRecord):
    """The record ends inside a block, as where the program was ended or its disk was full. All blocks before it are
    whole."""


@dataclass(slots=True, frozen=True)
class RecordedStep:
    """One step. Its arrays look into the bytes that were read, which they keep; they are not written to."""

    clock: int  # after the step
    arrived: int  # vehicles, in all
    taken_out: int  # vehicles that were taken out, in all
    rows: Array  # of 4 columns, 32 bits without sign, lane by lane

    @property
    def car(self) -> Array:
        """By row the vehicle's number, from 0 by the order of entering."""
        return self.rows[:, 0]

    @property
    def slot(self) -> Array:
        """By row its lane: twice the position of the link in the load, and 0 or 1 on the link."""
        return self.rows[:, 1]

    @property
    def spot(self) -> Array:
        """By row the cell of its front; BUFFER and the step from which it may go on; ARRIVED."""
        return self.rows[:, 2]

    @property
    def speed(self) -> Array:
        """By row its speed, cells a step; of one that arrived that with which it left."""
        return self.rows[:, 3]


def open_record(path: FilePath) -> IO[bytes]:
    """Opens a record to be read: a file, or a FIFO, for whose writer is not waited; Fault where it cannot be opened. A
    FIFO that the program has not opened yet reads as one that has ended: read after the first reply."""
    try:
        file = open(path, "rb", buffering=0, opener=opened_at_once)
        os.set_blocking(file.fileno(), True)
    except OSError as fault:
        raise Fault(f"{path}: {fault.strerror or fault}") from None
    return file


def opened_at_once(path: str, flags: int) -> int:
    """Opens a file, as `open` asks for it, without waiting for whoever writes it."""
    return os.open(path, flags | os.O_NONBLOCK)


class RecordReader:
    """Reads a record block by block: no more of it is read than the block that is asked for and what came along."""

    def __init__(self, file: IO[bytes], name: FilePath) -> None:
        """file: unbuffered, as `open_record` gives it; name: by which faults tell it. Fault where NumPy is missing."""
        self.numpy = numpy_module()
        self.file, self.name = file, name
        self.read_ahead = memoryview(b"")  # what was read of blocks that were not asked for yet
        self.blocks = 0  # given so far
        self.last_block: RecordedStep | None = None

    def __iter__(self) -> Iterator[RecordedStep]:
        """All blocks to the end of the record; faults as of `read`."""
        while (block := self.read()) is not None:
            yield block

    def read(self, entered: int = VEHICLES) -> RecordedStep | None:
        """The next block, or None where the record has ended; waits for it where the record is a FIFO. entered: how
        many vehicles the caller has entered, where it knows. TooManyRows for a head with more rows than these or than
        1,000,000; TornBlock where the record ends inside the block; BadRecord for a head, or the number of a vehicle,
        that cannot be; Fault where it cannot be read."""
        if not self.read_until(HEAD.size):
            if self.read_ahead:
                raise self.torn(HEAD.size)
            return None
        clock, rows, arrived, taken_out = HEAD.unpack_from(self.read_ahead)
        self.check(clock, rows, arrived + taken_out, min(entered, VEHICLES))
        size = HEAD.size + ROW * rows
        if not self.read_until(size):
            raise self.torn(size)
        block = RecordedStep(clock, arrived, taken_out, self.columns(rows))
        if rows and (most := int(block.car.max())) >= min(entered, VEHICLES):
            raise self.bad(f"has vehicle {most:,}, which was not entered")
        self.read_ahead = self.read_ahead[size:]
        self.blocks, self.last_block = self.blocks + 1, block
        return block

    def columns(self, rows: int) -> Array:
        """So many rows of what is read ahead, behind the head, as they lie there."""
        return self.numpy.frombuffer(self.read_ahead, "<u4", 4 * rows, HEAD.size).reshape(-1, 4)

    def read_until(self, size: int) -> bool:
        """Reads until so many bytes are there, or to the end: whether they are there."""
        parts, count = ([self.read_ahead] if self.read_ahead else []), len(self.read_ahead)
        while count < size and (chunk := self.read_chunk()):
            parts.append(memoryview(chunk))
            count += len(chunk)
        if parts:
            self.read_ahead = parts[0] if len(parts) == 1 else memoryview(b"".join(parts))
        return count >= size

    def read_chunk(self) -> bytes:
        """The next bytes of the file, empty at its end; Fault where it cannot be read."""
        try:
            return self.file.read(CHUNK)
        except OSError as fault:
            raise Fault(f"{self.name}: {fault.strerror or fault}") from None

    def check(self, clock: int, rows: int, ended: int, entered: int) -> None:
        """BadRecord where a head cannot be: ended: how many have arrived or were taken out, in all."""
        if rows > entered:
            raise TooManyRows(f"{self.block_name()} promises {rows:,} rows, and {entered:,} vehicles were entered")
        if ended > entered:
            raise self.bad(f"has {ended:,} vehicles that ended, and {entered:,} were entered")
        if not 1 <= clock <= CLOCK or self.last_block and clock != self.last_block.clock + 1:
            raise self.bad(f"has the clock {clock:,}{f' behind {self.last_block.clock:,}' if self.last_block else ''}")

    def bad(self, problem: str) -> BadRecord:
        """The fault of the block that is read."""
        return BadRecord(f"{self.block_name()} {problem}")

    def torn(self, size: int) -> TornBlock:
        """The fault of a record that ends inside the block that is read, of so many bytes."""
        return TornBlock(f"{self.block_name()} is torn: {len(self.read_ahead):,} of {size:,} bytes")

    def block_name(self) -> str:
        """The block that is read, as faults tell it."""
        return f"{self.name}: block {self.blocks + 1:,}"
