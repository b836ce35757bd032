"""The program with its record: lines in, replies and blocks out."""
from __future__ import annotations

import contextlib
import fcntl
import os
import select
from collections.abc import Sequence

from streetsim.base.client import NoReply
from streetsim.base.files import Fault
from streetsim.base.limits import VEHICLES
from streetsim.base.process import Process, ProgramEnded
from streetsim.model.record import HEAD, ROW, BadRecord

# Of one exchange: its lines, and their replies, fit in empty pipes, so that neither side waits for the other.
LINES, BYTES = 1_000, 40_000
ROOM = 1 << 20  # bytes of the pipe of the record, where the system gives them
AT_ONCE = 1 << 20  # bytes that are read of it at once, at most

Blocks = tuple[list[int], bytes]  # the bytes at which blocks begin, and at which the last one ends; their bytes


class Program(Process):
    """One process of the program and the pipe of its record, which has no name in any folder. What was begun is taken
    by `blocks` before anything else is asked."""

    def __init__(self, path: str, workers: int = 1, arguments: Sequence[str] = ()) -> None:
        """Starts the program. path: of the program; workers: its threads; arguments: more of its words."""
        self.path = path
        self.record, writing_end = os.pipe()
        with contextlib.suppress(OSError):
            fcntl.fcntl(self.record, fcntl.F_SETPIPE_SZ, ROOM)
        self.pipe = f"/dev/fd/{writing_end}"
        arguments = [path, "--record", self.pipe, *arguments, *(["--workers", str(workers)] if workers != 1 else [])]
        super().__init__(arguments, 0, [writing_end])
        os.close(writing_end)
        self.pipes.append(open(self.record, "rb", buffering=0))
        self.lines, self.replies = self.input.fileno(), self.output.fileno()
        self.unread, self.begun_steps, self.sent_count, self.recorded = b"", 0, 0, False

    def exchange(self, lines: Sequence[bytes]) -> list[bytes]:
        """Sends lines, with their ends, none of them an advance; gives their replies, with refusals among them.
        ProgramEnded where the program ends before."""
        replies: list[bytes] = []
        begin = 0
        while begin < len(lines):
            end, size = begin, 0
            while end < len(lines) and end - begin < LINES and (size + len(lines[end]) <= BYTES or end == begin):
                size += len(lines[end])
                end += 1
            self.write_bytes(b"".join(lines[begin:end]))
            replies += self.read_replies(end - begin)
            begin = end
        return replies

    def begin(self, steps: int) -> None:
        """Has the program make steps, LINES at most, and does not wait for them; `blocks` does."""
        lines = self.advance(steps)
        self.write_bytes(b"".join(lines))
        self.begun_steps, self.sent_count = steps, len(lines)

    def advance(self, steps: int) -> list[bytes]:
        """The lines by which steps are made."""
        return [b'{"cmd":"advance","steps":%d}\n' % steps]

    def blocks(self) -> Blocks:
        """The blocks of the steps that were begun. ProgramEnded where the program ends before; Fault where a step is
        refused, or the program answers and records nothing."""
        record_bytes, position, begins = bytearray(self.unread), 0, [0]
        for _ in range(self.begun_steps):
            while len(record_bytes) < position + HEAD.size:
                record_bytes += self.more_of_record()
            position += HEAD.size + ROW * rows_at(record_bytes, position)
            while len(record_bytes) < position:
                record_bytes += self.more_of_record()
            begins.append(position)
        self.unread = bytes(record_bytes[position:])
        if bad_reply := next((reply for reply in self.read_replies(self.sent_count) if is_refusal(reply)), None):
            raise step_fault(bad_reply)
        return begins, bytes(record_bytes[:position])

    def more_of_record(self) -> bytes:
        """The next bytes of the record. Fault where the reply to a line that makes all steps, or the very first reply,
        comes before them; ProgramEnded where the program ends."""
        if self.sent_count == 1 or not self.recorded:
            readable, _, _ = select.select([self.record, self.replies], [], [])
            if self.record not in readable and not select.select([self.record], [], [], 0)[0]:
                [reply] = self.read_replies(1)
                raise step_fault(reply) if self.recorded else self.unrecorded()
        self.recorded = True
        if not (data := os.read(self.record, AT_ONCE)):
            raise self.early_end()
        return data

    def unrecorded(self) -> Fault:
        """What is raised where the program cannot write to the pipe of the record."""
        return Fault(f"{self.path} writes no record of its run: it takes streetsim itself, on this machine")

    def write_bytes(self, data: bytes) -> None:
        """Writes bytes to the program; ProgramEnded where it has ended."""
        unsent = memoryview(data)
        try:
            while unsent:
                unsent = unsent[os.write(self.lines, unsent) :]
        except BrokenPipeError:
            raise self.early_end() from None

    def read_replies(self, count: int) -> list[bytes]:
        """So many replies, without their ends; ProgramEnded where fewer come, NoReply where more do."""
        parts: list[bytes] = []
        ends = 0
        while ends < count:
            if not (data := os.read(self.replies, 1 << 16)):
                raise self.early_end()
            ends += data.count(b"\n")
            parts.append(data)
        replies = b"".join(parts).split(b"\n")
        if len(replies) != count + 1 or replies[-1]:
            raise NoReply(f"more replies than lines: {replies[-1][:80].decode(errors='replace')}")
        return replies[:-1]

    def early_end(self) -> ProgramEnded | Fault:
        """What is raised where the program has ended too early."""
        status, messages = self.end()
        return self.unrecorded() if self.pipe in messages else ProgramEnded(status, messages)


def is_refusal(reply: bytes) -> bool:
    """Whether a reply to an advance says that it was not, or not all, made."""
    return not reply.startswith(b'{"clock":') or b'"short"' in reply


def step_fault(reply: bytes) -> Fault:
    """What is raised for such a reply."""
    return Fault(f"a step was not made: {reply.decode(errors='replace')}")


def rows_at(data: bytearray, position: int) -> int:
    """How many rows a block has by its head at some byte; BadRecord for more than there may be vehicles."""
    _, rows, _, _ = HEAD.unpack_from(data, position)
    if rows > VEHICLES:
        raise BadRecord(f"a block promises {rows:,} rows")
    return rows
