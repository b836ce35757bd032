"""The engine in this process: a session without a program and pipes, by the library that `library/make` makes.

Of one session one call is made at a time: the calls keep the lock of the interpreter, an advance too. A session has one
worker, keeps no file and no record; `streetsim.client` starts the program for these.
"""
from __future__ import annotations

import ctypes
import functools
import os
from collections.abc import Iterable, Iterator, Sequence
from ctypes import POINTER, byref, c_bool, c_char_p, c_size_t, c_uint32, c_uint64, c_void_p
from pathlib import Path
from typing import Self

from streetsim.base import limits
from streetsim.base.client import Census, Commands, Row, Rows, Starved, Vehicle, read_reply
from streetsim.base.files import Fault
from streetsim.base.places import PREFIX, TOP
from streetsim.base.program import Proof, proof_of, warn_of_proof

VARIABLE = "STREETSIM_LIBRARY"
INSTALLED_LIBRARY = "lib/streetsim/libstreetsim.so"  # from the prefix of what is installed
BUILT_LIBRARY = "library/out/libstreetsim.so"  # from the top of the repository
CALL_DONE, STARVED, MISUSED, SHORT, UNTOLD = range(5)  # what a call returns; 5 is another reply
STATES = ("cell", "buffer", "waiting", "arrived", "taken")
NUMBER = 1 << 64  # below it a number is passed as it is; others go by a line, which the engine refuses
CENSUS, ROW, PLAN = c_uint64 * 7, c_uint64 * 7, c_uint64 * limits.PLAN
RUNNING, PERIODS = c_uint64 * 5, c_uint64 * (4 * limits.ROWS)


class Handle(ctypes.Structure):
    """`struct streetsim_session`: all zeros is a closed one."""

    _fields_ = (("at", c_void_p), ("is_open", c_bool))


ARGUMENTS: dict[str, tuple[type[object], ...]] = {
    "open": (),
    "close": (),
    "line": (c_char_p, c_size_t, c_void_p, c_size_t, POINTER(c_size_t)),
    "reply": (c_void_p, c_size_t, POINTER(c_size_t)),
    "advance": (c_uint64, POINTER(c_uint64)),
    "count": (POINTER(CENSUS),),
    "vehicle": (c_uint64, POINTER(ROW), POINTER(PLAN), c_size_t, POINTER(c_size_t)),
    "enter": (c_void_p, c_size_t, c_uint64, c_uint64, c_uint64, POINTER(c_uint64)),
    "read": (c_uint64, POINTER(RUNNING), POINTER(PERIODS), c_size_t, POINTER(c_size_t)),
}


def find_library(path: str | None = None) -> str:
    """The path of the library that is given, else of the one that STREETSIM_LIBRARY names, else of the one that is
    installed with the tools or was made in their repository; Fault where there is none. Tells once, on standard error,
    of a library that no record names as made of what was proved."""
    found = path or os.environ.get(VARIABLE) or str(PREFIX / INSTALLED_LIBRARY if PREFIX else TOP / BUILT_LIBRARY)
    if not Path(found).is_file():
        raise Fault(f"{found}: no library of the engine: library/make makes it, or set {VARIABLE}")
    if proof_of(found) is not Proof.PROVED:
        warn_of_proof(Path(found), "library")
    return found


@functools.cache
def loaded(path: str) -> ctypes.PyDLL:
    """The library at a path, with what each of its calls takes."""
    try:
        library = ctypes.PyDLL(path)
        for name, arguments in ARGUMENTS.items():
            call = getattr(library, f"streetsim_{name}")
            call.argtypes, call.restype = (POINTER(Handle), *arguments), None if name == "close" else c_uint32
    except (OSError, AttributeError) as fault:
        raise Fault(f"{path}: no library of the engine: {fault}") from None
    return library


class Engine(Commands):
    """A session of the engine in this process, with the methods of a Client and the same replies. Methods raise what
    was refused, or Starved, and ValueError once it is closed. As a block it is closed at the end."""

    def __init__(self, library: str | None = None) -> None:
        """Opens a session with nothing loaded. library: its path, else as `find_library` finds it."""
        self.handle = Handle()
        self.calls = loaded(find_library(library))
        self.pointer = byref(self.handle)
        self.room, self.bytes, self.number = ctypes.create_string_buffer(1 << 16), c_size_t(), c_uint64()
        self.census, self.row, self.plan, self.links = CENSUS(), ROW(), PLAN(), c_size_t()
        self.to_bytes, self.to_number, self.to_census = byref(self.bytes), byref(self.number), byref(self.census)
        self.to_row, self.to_plan, self.to_links = byref(self.row), byref(self.plan), byref(self.links)
        self.running, self.periods = RUNNING(), PERIODS()
        self.check(self.calls.streetsim_open(self.pointer))

    def __enter__(self) -> Self:
        """Gives the session itself."""
        return self

    def __exit__(self, *_: object) -> None:
        """Closes the session."""
        self.close()

    def __del__(self) -> None:
        """Closes the session where nobody did."""
        if hasattr(self, "pointer"):
            self.close()

    def close(self) -> None:
        """Closes the session; a second time does nothing."""
        self.calls.streetsim_close(self.pointer)

    def check(self, status: int) -> None:
        """Raises what a status tells; a reply that is another one, as a refusal is."""
        if status == STARVED:
            raise Starved()
        if status == MISUSED:
            raise ValueError("the session is closed")
        if status != CALL_DONE:
            reply = read_reply(self.reply_line(SHORT))
            raise reply if isinstance(reply, Exception) else Starved()

    def reply_line(self, status: int) -> bytes:
        """The reply's line that is in the room, or that is to be asked for again, with more room or memory."""
        while status in (SHORT, UNTOLD):
            status = self.calls.streetsim_reply(self.pointer, self.room, len(self.room), self.to_bytes)
            if status == UNTOLD:
                raise Starved()
            if status == SHORT:
                self.room = ctypes.create_string_buffer(self.bytes.value)
        self.check(status)
        return ctypes.string_at(self.room, self.bytes.value)

    def exchange_one(self, line: bytes) -> bytes:
        """As Client does."""
        room, end = self.room, len(line) - 1
        return self.reply_line(self.calls.streetsim_line(self.pointer, line, end, room, len(room), self.to_bytes))

    def exchange(self, lines: Iterable[bytes]) -> Iterator[bytes]:
        """As Client does."""
        return map(self.exchange_one, lines)

    def advance(self, steps: int = 1) -> int:
        """As Client does."""
        if type(steps) is not int or not 0 <= steps < NUMBER:
            return super().advance(steps)
        status = self.calls.streetsim_advance(self.pointer, steps, self.to_number)
        if status == CALL_DONE:
            return self.number.value
        if status == MISUSED:
            self.check(status)
        return self.advance_on(steps, read_reply(self.reply_line(SHORT)))

    def count(self) -> Census:
        """As Client does."""
        status = self.calls.streetsim_count(self.pointer, self.to_census)
        if status:
            self.check(status)
        return tuple.__new__(Census, self.census[:])

    def vehicle(self, car: int) -> Vehicle:
        """As Client does."""
        if type(car) is not int or not 0 <= car < NUMBER:
            return super().vehicle(car)
        status = self.calls.streetsim_vehicle(self.pointer, car, self.to_row, self.to_plan, limits.PLAN, self.to_links)
        if status:
            self.check(status)
        state, link, lane, cell, speed, size, step = self.row[:]
        plan = tuple(self.plan[: self.links.value])
        if state == 0:
            return tuple.__new__(Vehicle, (car, "cell", link, lane, cell, speed, plan, None, None, size, None))
        if state == 1:
            return Vehicle(car, "buffer", link, lane, speed=speed, plan=plan, ready=step, size=size)
        if state == 2:
            return Vehicle(car, "waiting", link, lane, plan=plan, depart=step, size=size)
        return Vehicle(car, STATES[state], step=step)

    def enter(self, plan: Sequence[int], lane: int = 0, depart: int = 0, size: int = 1) -> int:
        """As Client does."""
        numbers = (*plan, lane, depart, size)
        if not all(type(number) is int and 0 <= number < NUMBER for number in numbers):
            return super().enter(plan, lane, depart, size)
        links = (c_uint64 * max(1, len(plan)))(*plan)
        status = self.calls.streetsim_enter(self.pointer, links, len(plan), lane, depart, size, self.to_number)
        if status:
            self.check(status)
        return self.number.value

    def read(self, meter: int) -> Rows:
        """As Client does."""
        if type(meter) is not int or not 0 <= meter < NUMBER:
            return super().read(meter)
        to_running, to_periods = byref(self.running), byref(self.periods)
        status = self.calls.streetsim_read(self.pointer, meter, to_running, to_periods, limits.ROWS, self.to_links)
        if status:
            self.check(status)
        now, numbers = Row(*self.running[:]), self.periods[: 4 * self.links.value]
        period = now.start - numbers[-4] if numbers else 0
        rows = (numbers[at : at + 4] for at in range(0, len(numbers), 4))
        return Rows(now, tuple(Row(start, period, *rest) for start, *rest in rows))
