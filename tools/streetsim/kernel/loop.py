"""The one loop: advances the program to the next clock at which a controller is due, and hands seconds to observers."""
from __future__ import annotations

import json
from array import array
from bisect import bisect_left
from collections import defaultdict
from collections.abc import Iterable, Sequence
from functools import cached_property
from typing import NamedTuple

from streetsim.base import limits
from streetsim.base.arrays import Array
from streetsim.base.arrays import numpy as np
from streetsim.base.client import Lane, Vehicle, read_reply
from streetsim.base.files import Fault
from streetsim.kernel.plans import Plans
from streetsim.kernel.program import LINES, Blocks, Program
from streetsim.kernel.seconds import NOBODY, NOT_ANEW, READY, Block, Seconds, Takeout, Vehicles, seconds_of
from streetsim.model.mapping import Map, Place
from streetsim.model.record import ROW
from streetsim.model.rows import unbroken_stretches
from streetsim.model.runs import Command, Line, Run

# Of the record, after which observers get what there is: rows, and seconds times lanes, as some keep a number for each.
ROWS, NUMBERS = 200_000, 2_000_000
NEVER = limits.CLOCK + 1  # a clock that never comes


class SentLine(NamedTuple):
    """A line that was sent between two seconds."""

    clock: int
    line: Line
    passed_on: bool  # it is of the run's file, or sent ahead of such a line; else of a controller's own
    for_a_gap: bool = False  # it shows a plan that stays in force, but for turns that give way


NO_LINE = Line(-1, "", {"cmd": "signal"})  # for one for a gap, of which a day in a city has a million


class Observer:
    """Looks, and never acts: gets all seconds of a run, some hundred at once."""

    def begin(self, kernel: Kernel) -> None:
        """Before the first step."""

    def see(self, seconds: Seconds) -> None:
        """All seconds come, in their order, each once; second 0 of each call is the last of the call before."""

    def end(self, clock: int) -> None:
        """After the last second, which ends at a clock."""


class Controller:
    """Acts between seconds, by what the last one shows."""

    shows_alone = False  # all that it sends are signals: vehicles to come need not wait for it

    def begin(self, kernel: Kernel) -> None:
        """Before the first step, behind the load and the first lines of the run."""

    def next_clock(self) -> int:
        """The clock at which it is to act next; one that has come means now."""
        return NEVER

    def act(self, clock: int, now: Block) -> None:
        """Acts by `send`, `pass_on`, `enter` and `reenter` of the kernel. It is called at the last clock too."""

    def commands_before_line(self, clock: int, command: Command) -> list[Command]:
        """Hears of a line of the run's file that is to be sent; gives commands to send ahead of it."""
        return []


class Kernel:
    """Has the program, the clock and the vehicles of a run. Whoever acts sends lines by its methods."""

    def __init__(
        self, program: Program, run: Run, mapping: Map, controllers: Sequence[Controller], observers: Sequence[Observer]
    ) -> None:
        """program: with nothing loaded; controllers: those that are due at one clock act in this order."""
        self.program, self.run, self.map = program, run, mapping
        self.controllers, self.observers = controllers, observers
        self.clock = self.start = self.until = run.start()
        self.vehicles = Vehicles()
        self.entered = 0  # vehicles of the file
        self.sent_lines: list[SentLine] = []  # behind the load and the first lines of the run
        # Whether those for gaps are kept whole, for observers that look at them; else NO_LINE stands for each.
        self.keeps_gaps = False
        self.closed = ClosedCells()
        self.waiting: list[Blocks] = []  # what observers have not got yet
        self.size = 0  # bytes of it
        self.most_steps = max(1, min(LINES, NUMBERS // max(1, 2 * len(mapping.links))))  # seconds that are made at once
        self.seconds: Seconds | None = None  # that observers got last
        self.part: Blocks = NOBODY  # what was made last
        self.last_second = Block(NOBODY)

    @cached_property
    def plans(self) -> Plans:
        """The plans of all vehicles."""
        return Plans(self.run, self.map)

    @cached_property
    def departs(self) -> Array:
        """The clocks, rising, at which vehicles wish to depart."""
        return np.sort(self.run.departs())

    def go(self, until: int) -> None:
        """Makes the whole run, from its load up to a clock, which a controller may move by `until`. Fault where a line
        is refused."""
        self.begin(until)
        self.go_on(NEVER)
        self.end()

    def begin(self, until: int) -> None:
        """Sends the load and the first lines, and has controllers and observers begin. until: the last clock, as far as
        it is known. Fault where a line is refused."""
        self.until = until
        self.send_lines([self.run.load, *self.run.first])
        for line in self.run.first:
            self.closed.note(line.command)
        for acting in self.controllers:
            acting.begin(self)
        for looking in self.observers:
            looking.begin(self)

    def go_on(self, clock: int) -> None:
        """Makes the run on to a clock, or to its end (`until`) where that is sooner; who is due then has acted. While
        the program goes on observers are given what came before, and at last all. Fault where a line is refused."""
        while self.act_due(self.controllers) < min(clock, self.until):
            self.make_steps(min(clock, self.until))
        self.hand_over(0)

    def make_steps(self, until: int) -> None:
        """Makes the steps to the next clock at which a controller is due, one at least and none beyond `until`.
        Controllers that are due now must have acted. Fault where a vehicle is refused."""
        entering = target = self.clock + 1
        if until > target:
            due = [one.next_clock() for one in self.controllers if not one.shows_alone]
            showing = [one.next_clock() for one in self.controllers if one.shows_alone]
            entering = max(target, min([until, self.clock + self.most_steps, *due]))
            target = max(target, min([entering, *showing]))
        self.enter_due(entering)
        self.program.begin(target - self.clock)
        self.hand_over(ROWS)
        blocks = self.program.blocks()
        self.clock, self.part, self.last_second = target, blocks, Block(blocks)
        if self.observers:
            self.waiting.append(blocks)
            self.size += len(blocks[1])

    def end(self) -> None:
        """Gives observers what is left, and tells them that the run has ended."""
        self.hand_over(0)
        for looking in self.observers:
            looking.end(self.clock)

    def act_due(self, controllers: Iterable[Controller]) -> int:
        """Has those of some controllers act that are due; gives the clock."""
        for controller in controllers:
            if controller.next_clock() <= self.clock:
                controller.act(self.clock, self.last_second)
        return self.clock

    def hand_over(self, rows: int) -> None:
        """Gives observers what waits, where it is so many rows, or seconds, at least."""
        last_clock = self.start if self.seconds is None else int(self.seconds.clocks[-1])
        if self.waiting and (self.size >= rows * ROW or self.clock - last_clock >= self.most_steps):
            self.seconds = seconds_of(self.waiting, self.seconds, last_clock, self.vehicles)
            self.waiting, self.size = [], 0
            for observer in self.observers:
                observer.see(self.seconds)

    def send(self, commands: Iterable[Command]) -> None:
        """Sends commands of a controller before the next step. Fault where one is refused."""
        self.send_now([own_line(command) for command in commands], False)

    def pass_on(self, lines: Iterable[Line]) -> None:
        """Sends lines of the run's file before the next step, each behind what controllers send ahead of it. Fault
        where one is refused."""
        due: list[Line] = []
        for line in lines:
            for controller in self.controllers:
                due += map(own_line, controller.commands_before_line(self.clock, line.command))
            due.append(line)
        self.send_now(due, True)

    def send_now(self, lines: Sequence[Line], passed_on: bool, for_a_gap: bool = False) -> None:
        """Sends lines, and keeps them as SentLine has them. Fault where one is refused."""
        self.send_lines(lines)
        if for_a_gap and not self.keeps_gaps:
            self.sent_lines += [SentLine(self.clock, NO_LINE, passed_on, for_a_gap)] * len(lines)
        else:
            self.sent_lines += [SentLine(self.clock, line, passed_on, for_a_gap) for line in lines]
        for line in lines:
            self.closed.note(line.command)

    def send_lines(self, lines: Sequence[Line]) -> list[bytes]:
        """Sends lines and gives the replies; Fault where one is refused."""
        replies = self.program.exchange([line.text.encode() + b"\n" for line in lines])
        for line, reply in zip(lines, replies, strict=True):
            if b'"error"' in reply or b'"starved"' in reply:
                raise self.refusal(line, reply)
        return replies

    def refusal(self, line: Line, reply: bytes) -> Exception:
        """What is raised for a line that is refused, by the reply to it."""
        line_text = f"line {line.number} ({line.command['cmd']})" if line.number > 0 else line.text
        return Fault(f"{self.run.path}: {line_text} was refused: {read_reply(reply)}")

    def enter_due(self, target: int) -> None:
        """Tells the program of the vehicles that depart before a clock, and of those before them in the file."""
        first_new, run = self.entered, self.run
        self.entered = bisect_left(run.least_departs, target, first_new)
        if first_new < self.entered:
            lines = run.enters[first_new : self.entered]
            self.send_lines(lines)
            sizes = [line.command.get("size", 1) for line in lines]
            plans = [array("i", line.command["plan"]) for line in lines]
            self.vehicles.add(range(first_new, self.entered), sizes, plans)

    def reenter(self, car: int, command: Command) -> None:
        """Takes out a vehicle, by its number in the program, and enters it anew by a command. Fault if refused."""
        self.take_out(car, self.vehicles.entered)
        self.enter(int(self.vehicles.owner[car]), command)

    def take_out(self, car: int, anew: int = NOT_ANEW) -> None:
        """Takes out a vehicle, by its number in the program. anew: the number with which it is to be entered next.
        Fault if refused."""
        self.send_lines([own_line({"cmd": "takeout", "car": car})])
        block = self.last_second
        rows = np.flatnonzero(block.car == car)
        slot, on_lane = (int(block.slot[rows[0]]), bool(block.cell[rows[0]] >= 0)) if len(rows) else (0, False)
        self.vehicles.takeouts.append(Takeout(self.clock, car, anew, slot, on_lane))

    def enter(self, owner: int, command: Command) -> None:
        """Enters a vehicle by a command; owner: its number in the file, or beyond those where it is not of the file.
        Fault if refused."""
        self.send_lines([own_line(command)])
        self.vehicles.add([owner], [command.get("size", 1)], [command["plan"]])

    def ask_vehicles(self, cars: Iterable[int]) -> list[Vehicle]:
        """The replies on vehicles, by their numbers in the program; Fault where one is refused."""
        lines = [Line(-1, f'{{"cmd":"vehicle","car":{car}}}', {"cmd": "vehicle"}) for car in cars]
        vehicles = [read_reply(reply) for reply in self.send_lines(lines)]
        assert all(isinstance(vehicle, Vehicle) for vehicle in vehicles)
        return [vehicle for vehicle in vehicles if isinstance(vehicle, Vehicle)]

    def lane_now(self, link_lane: Place) -> Lane | None:
        """What the last second shows on a lane, without who waits to enter it; None where nothing is there."""
        slot = 2 * link_lane[0] + link_lane[1]
        block, size = self.last_second, self.vehicles.size
        rows = block.lane(slot)
        vehicles = list(zip(*(column[rows].tolist() for column in (block.car, block.cell, block.speed))))
        closed = tuple(unbroken_stretches(self.closed.cells[slot])) if slot in self.closed.cells else ()
        if not vehicles and not closed:
            return None
        cells = tuple(
            (car, cell, speed) if size[car] == 1 else (car, cell, speed, int(size[car]))
            for car, cell, speed in vehicles
            if cell >= 0
        )
        return Lane(cells, tuple((car, speed, cell & READY) for car, cell, speed in vehicles if cell < 0), (), closed)

    def lanes_now(self, link_lanes: Iterable[Place]) -> dict[Place, Lane]:
        """By (link, lane) what `lane_now` gives, but for lanes where nothing is."""
        return {link_lane: lane for link_lane in link_lanes if (lane := self.lane_now(link_lane)) is not None}

    def is_to_come(self, clock: int) -> bool:
        """Whether a vehicle of the file wishes to depart at a clock or later."""
        return len(self.departs) > 0 and bool(self.departs[-1] >= clock)


class ClosedCells:
    """The closed cells of lanes, by the commands that close and open them."""

    def __init__(self) -> None:
        """None are closed."""
        self.cells: defaultdict[int, set[int]] = defaultdict(set)  # by slot

    def note(self, command: Command) -> None:
        """Notes what a command closes or opens, where it does."""
        if command["cmd"] in ("close", "reopen"):
            cells = range(command["first"], command["last"] + 1)
            closed = self.cells[2 * command["link"] + command["lane"]]
            (closed.update if command["cmd"] == "close" else closed.difference_update)(cells)

    def stretches(self) -> dict[int, list[tuple[int, int]]]:
        """By slot the stretches (first, last), both included, where any are closed."""
        return {slot: unbroken_stretches(cells) for slot, cells in sorted(self.cells.items()) if cells}


def own_line(command: Command) -> Line:
    """A command of the tools as a line; it stands in no file, so its number is -1."""
    return Line(-1, json.dumps(command, separators=(",", ":")), command)
