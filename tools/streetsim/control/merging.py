"""Merging by turns before road works."""
from collections.abc import Iterable

from streetsim.base.client import Lane
from streetsim.control.merging_links import Merges
from streetsim.control.works_closures import Closure
from streetsim.kernel.loop import NEVER, Controller, Kernel
from streetsim.kernel.seconds import Block
from streetsim.model.runs import Command

NOTHING = Lane((), (), (), ())


class Merging(Controller):
    """Has vehicles merge by turns before works on links of two lanes."""

    def __init__(self, closures: Iterable[Closure]) -> None:
        """closures: before which vehicles are to merge, where the link has two lanes."""
        self.closures = list(closures)

    def begin(self, kernel: Kernel) -> None:
        """Notes what the first lines of the run close."""
        self.kernel = kernel
        self.merges = Merges({})
        for closure in self.closures:
            self.add_link(closure.link)
        for line in kernel.run.first:
            self.merges.note_sent(kernel.start, line.command)

    def add_link(self, link: int) -> None:
        """Has vehicles merge on a link from now on, before works that close it later, where it has two lanes."""
        found = self.kernel.map.links[link]
        if len(found.lanes) == 2:
            self.merges.cells[link] = found.cells

    def stop(self) -> None:
        """From now on nobody merges by turns; opens what is held closed for it."""
        self.kernel.send(self.merges.reopening_commands())
        self.merges = Merges({})

    def next_clock(self) -> int:
        """That at which a link is to be looked at next."""
        due = self.merges.next_clock()
        return NEVER if due is None else due

    def commands_before_line(self, clock: int, command: Command) -> list[Command]:
        """Notes a close or reopen of the run's own; gives the commands by which nothing of merging is in its way."""
        commands = self.merges.commands_before(command)
        self.merges.note_sent(clock, command)
        return commands

    def act(self, clock: int, _now: Block) -> None:
        """Looks at the links that are due, and sends what closes and opens cells so that vehicles take turns."""
        for link in self.merges.due_links(clock):
            sides = tuple(self.kernel.lane_now((link, lane)) or NOTHING for lane in (0, 1))
            self.kernel.send(self.merges.commands_by_turns(clock, link, (sides[0], sides[1])))
