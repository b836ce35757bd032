"""One traffic of a page: a run that goes on as the page asks, and what was sent to the page of it. A session has one,
or two: with the user's changes and without."""
from collections.abc import Collection, Iterable
from dataclasses import dataclass
from functools import cached_property
from operator import attrgetter

from streetsim.base import limits
from streetsim.base.arrays import Array
from streetsim.base.arrays import numpy as np
from streetsim.base.files import Fault, FilePath, Json
from streetsim.control.settings import Settings
from streetsim.control.steering import Steering
from streetsim.kernel.loop import Kernel
from streetsim.kernel.session_program import COUNT
from streetsim.live.facts import departures_and_ends, nodes_giving_way
from streetsim.live.hand import Hand
from streetsim.live.ledger import Ledger
from streetsim.live.logged_program import LoggedProgram
from streetsim.model.mapping import Map
from streetsim.model.runs import Command, Line, Run, TimedCommand


@dataclass(frozen=True)
class PageRun:
    """The run of a page, with all that is asked of it; its last clock is the greatest."""

    run: Run
    mapping: Map
    settings: Settings
    program: str
    workers: int = 1

    @cached_property
    def departs_and_ends(self) -> tuple[Array, Array]:
        """As of departures_and_ends."""
        departs, ends = departures_and_ends(self.run, self.mapping)
        return np.array(departs, np.int64), np.array(ends, np.int64)

    @cached_property
    def wishes(self) -> tuple[Array, Array]:
        """By vehicle the clock at which it wishes to depart, and its lane: twice the link, and the lane."""
        commands = [line.command for line in self.run.enters]
        slots = [2 * command["plan"][0] + command.get("lane", 0) for command in commands]
        return np.array([command["depart"] for command in commands], np.int64), np.array(slots, np.int64)

    @cached_property
    def givers(self) -> Collection[int]:
        """The junctions where vehicles give way by signals that nobody sees."""
        return frozenset(nodes_giving_way(self.run, self.mapping))


class World:
    """One traffic of a page."""

    def __init__(self, page_run: PageRun, later: Iterable[TimedCommand] = (), node: int | None = None) -> None:
        """later: what is done by hand, with its clocks; node: the junction before which those who stand are counted.
        Fault or ProgramEnded where it cannot be begun; nothing runs then."""
        self.page_run, steering = page_run, Steering(page_run.run, page_run.mapping, page_run.settings)
        self.hand = Hand(steering.merging if page_run.settings.merging else None, later)
        self.ledger = Ledger(self.hand, *page_run.departs_and_ends, node)
        self.program = LoggedProgram(page_run.program, page_run.workers)
        controllers = sorted([*steering.controllers, self.hand], key=attrgetter("shows_alone"))
        observers = [self.ledger]
        self.kernel = Kernel(self.program, page_run.run, page_run.mapping, controllers, observers)
        # By node the last plan that the run or the page has set, and what detectors have its light show since.
        self.plans: dict[int, Command] = {}
        self.shown_commands: dict[int, Command] = {}
        self.untold_plans, self.untold_shown = set[int](), set[int]()
        self.noted_count = 0  # of the lines that were sent and are not forgotten
        self.note_signals((line, True) for line in page_run.run.first)
        self.forget_sent()
        try:
            self.kernel.begin(limits.CLOCK)
        except BaseException:
            self.close()
            raise

    @property
    def clock(self) -> int:
        """The clock so far."""
        return self.kernel.clock

    def go_on(self, clock: int) -> None:
        """Makes the run on to a clock, or to the last one."""
        target = min(clock, limits.CLOCK)
        self.kernel.go_on(min(target, self.clock + limits.STEPS))
        while self.clock < target:
            self.take_sent()
            self.kernel.go_on(min(target, self.clock + limits.STEPS))

    def take_sent(self) -> None:
        """Notes the plans among the lines that were sent, and forgets those of earlier seconds, which all controllers
        have seen: a long run takes no memory for them."""
        sent_lines = self.kernel.sent_lines
        plans = [sent for sent in sent_lines[self.noted_count :] if not sent.for_a_gap]
        self.note_signals((sent.line, sent.passed_on) for sent in plans)
        sent_lines[:] = [sent for sent in sent_lines if sent.clock >= self.clock]
        self.noted_count = len(sent_lines)

    def note_signals(self, sent: Iterable[tuple[Line, bool]]) -> None:
        """Notes the plans among lines that were sent, each with whether it is of the run or the page."""
        for line, is_plan in sent:
            command = line.command
            if command["cmd"] == "signal" and command["node"] not in self.page_run.givers:
                node = command["node"]
                (self.plans if is_plan else self.shown_commands)[node] = command
                (self.untold_plans if is_plan else self.untold_shown).add(node)
                if is_plan:
                    self.shown_commands.pop(node, None)
                    self.untold_shown.discard(node)

    def close(self) -> None:
        """Ends the program."""
        self.program.kill()

    def keep_in(self, path: FilePath) -> None:
        """Has a program go on that keeps its session in a file, which has all that was done so far. Fault where it
        leads to another state."""
        state = self.program.exchange([COUNT])
        self.program = self.kernel.program = self.program.kept_in(path, self.page_run.workers)
        if self.program.exchange([COUNT]) != state:
            raise Fault(f"{path}: it leads to another state than the page")

    # ---- what the page is told

    def forget_sent(self) -> None:
        """Has the next message tell all, as to a page that knows nothing."""
        self.cars_sent = self.points_sent = self.every_sent = -1
        self.untold_plans, self.untold_shown = {*self.plans}, {*self.shown_commands}

    def message(self) -> Json:
        """What a page is to know of the last second beside its rows: all, or what is new since the last message."""
        kernel, ledger, clock = self.kernel, self.ledger, self.clock
        is_first = self.cars_sent < 0
        plans, shown_signals = self.signals()
        cars, self.cars_sent = max(0, self.cars_sent), kernel.vehicles.entered
        points = max(0, self.points_sent) if ledger.every == self.every_sent else 0
        self.points_sent, self.every_sent = len(ledger.points), ledger.every
        page_message: Json = {
            "whole": is_first, "first": points, "clock": clock, "arrived": kernel.last_second.arrived_count,
            "coming": int(np.count_nonzero(~ledger.has_departed)),
            "owners": kernel.vehicles.owner[cars : self.cars_sent].tolist(), "points": ledger.points_from(points),
            "plans": plans, "shown": shown_signals, "waiting": self.waiting(), "detectors": self.hand.detectors,
            "closed": [[slot, *stretch] for slot, closed in kernel.closed.stretches().items() for stretch in closed],
        }  # fmt: skip
        return page_message

    def rows(self) -> bytes:
        """The vehicles of the last second, each car, slot, cell (below 0 in a buffer) and speed, of 4 bytes each."""
        block = self.kernel.last_second
        return np.stack([block.car, block.slot, block.cell, block.speed], axis=1).astype("<i4").tobytes()

    def signals(self) -> tuple[list[Command], list[Command]]:
        """(the plans that the run or the page has set, what detectors have lights show) since the last message; the
        last of each node alone."""
        self.take_sent()
        plans = [self.plans[node] for node in sorted(self.untold_plans)]
        shown = [self.shown_commands[node] for node in sorted(self.untold_shown)]
        self.untold_plans, self.untold_shown = set(), set()
        return plans, shown

    def waiting(self) -> list[list[int]]:
        """[slot, how many] of the lanes that vehicles wait to enter, who wished to by now."""
        departs, slots = self.page_run.wishes
        late = slots[(departs <= self.clock) & ~self.ledger.has_departed]
        late_slots, counts = np.unique(late, return_counts=True)
        return list(map(list, zip(late_slots.tolist(), counts.tolist())))

    def text(self) -> bytes:
        """The session as lines, which streetsim does again."""
        return b"".join(self.program.session())
