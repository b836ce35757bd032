"""Merging by turns on all links of two lanes that have works, by the commands of a run, a script or a page."""
from dataclasses import dataclass, field

from streetsim.base.client import Lane
from streetsim.control.merging_rule import EVERY, Cells, MergingRule, SeenVehicle, Side, no_cells
from streetsim.model.runs import Command

CLOSING = ("close", "reopen")


@dataclass(slots=True)
class MergingLink:
    """A link of two lanes with works. closed: cells that others than merging closed, by lane; due: the clock at which
    its lanes are to be looked at next."""

    merging: MergingRule
    closed: Cells = field(default_factory=no_cells)
    due: int = 0


class Merges:
    """Merging on all links of two lanes that have works. Its user sends what commands_before gives ahead of each
    close and reopen, calls note_sent after it, and at each clock that next_clock names sends commands_by_turns for the
    links of due_links."""

    def __init__(self, cells: dict[int, int]) -> None:
        """cells: {link: how many cells it has}, for the links of two lanes on which vehicles are to merge; other links
        are left alone."""
        self.cells = cells
        self.links: dict[int, MergingLink] = {}

    def commands_before(self, command: Command) -> list[Command]:
        """The commands to send ahead of a command of others, so that no closure of merging is in its way; they count as
        sent, and merging on its link begins anew. Empty for commands that close and reopen nothing here."""
        closed = self.links.get(command["link"]) if command["cmd"] in CLOSING else None
        return [change.command_on(command["link"]) for change in closed.merging.reopening_changes()] if closed else []

    def note_sent(self, clock: int, command: Command) -> None:
        """Notes a command of others that was sent at a clock: its link is due EVERY seconds later, or forgotten where
        nothing is closed any more. Only close and reopen count, and only on the links where vehicles merge."""
        if command["cmd"] not in CLOSING or command["link"] not in self.cells:
            return
        link: int = command["link"]
        closed = self.links.setdefault(link, MergingLink(MergingRule(self.cells[link])))
        cells = set(range(command["first"], command["last"] + 1))
        of_lane = closed.closed[command["lane"]]
        if command["cmd"] == "close":
            of_lane |= cells
        else:
            of_lane -= cells
        closed.due = clock + EVERY
        if not any(closed.closed):
            del self.links[link]

    def reopening_commands(self) -> list[Command]:
        """The commands to send so that only what others closed stays closed; they count as sent, and merging goes on
        when it is told again."""
        return [
            change.command_on(link) for link, one in self.links.items() for change in one.merging.reopening_changes()
        ]

    def next_clock(self) -> int | None:
        """The clock at which lanes are to be looked at next; None where no link has works."""
        return min((one.due for one in self.links.values()), default=None)

    def due_links(self, clock: int) -> list[int]:
        """The links whose lanes are to be looked at by a clock."""
        return [link for link, one in self.links.items() if one.due <= clock]

    def commands_by_turns(self, clock: int, link: int, lanes: tuple[Lane, Lane]) -> list[Command]:
        """The commands to send before the next step, by the replies on both lanes of a link that is due; they count as
        sent. Sets when it is due again."""
        due_link = self.links[link]
        sides = [Side([SeenVehicle(*entry) for entry in lane.cells], lane.closed) for lane in lanes]
        changes = due_link.merging.changes_by_turns(clock, sides)
        due_link.due = clock + due_link.merging.seconds_to_next_look()
        return [change.command_on(link) for change in changes]
