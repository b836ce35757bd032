"""The controller that sends a user's commands: those of the present second, and others as their clocks come."""
from collections.abc import Iterable

from streetsim.base.client import Refused, Starved, line_of, read_reply
from streetsim.base.files import Fault
from streetsim.control.merging import Merging
from streetsim.control.merging_links import CLOSING
from streetsim.kernel import loop
from streetsim.kernel.loop import NEVER, Controller, Kernel, own_line
from streetsim.kernel.seconds import Block
from streetsim.model.runs import Command, TimedCommand

CHANGING = ("signal", *CLOSING, "takeout")  # commands that change what traffic does
HAND_COMMANDS = (*CHANGING, "meter")


class Hand(Controller):
    """Sends commands by hand. It acts last, as a user does who has seen what the second left."""

    def __init__(self, merging: Merging | None, later: Iterable[TimedCommand]) -> None:
        """merging: of the same run, none where nobody merges by turns; later: commands with the clocks at which they
        are sent."""
        self.merging, self.later = merging, sorted(later, key=lambda sent: sent[0])
        self.detectors: list[Command] = []  # that were placed, each with its number
        self.takeout_clocks: list[int] = []  # the clocks, rising, at which vehicles were taken out

    def begin(self, kernel: Kernel) -> None:
        """Nothing was done yet."""
        self.kernel = kernel

    def next_clock(self) -> int:
        """That of the next command."""
        return self.later[0][0] if self.later else NEVER

    def add(self, later: Iterable[TimedCommand]) -> None:
        """Has further commands sent at clocks to come."""
        self.later = sorted([*self.later, *later], key=lambda sent: sent[0])

    def act(self, clock: int, _now: Block) -> None:
        """Sends what is due. Fault where a command is refused."""
        while self.next_clock() <= clock:
            _, command = self.later.pop(0)
            if refused := self.send_command(command):
                raise Fault(f"{command['cmd']} at {clock:,} s was {refused}")

    def send_command(self, command: Command) -> str:
        """Sends a command, of HAND_COMMANDS; gives in words why it was refused, and then nothing was changed; else an
        empty text."""
        kernel, name = self.kernel, command["cmd"]
        if name in CLOSING:
            return self.close_or_reopen(command)
        [text] = kernel.program.exchange([line_of(command)])
        if refused := refusal_in(text):
            return refused
        if name == "signal":
            for controller in kernel.controllers:
                controller.commands_before_line(kernel.clock, command)
            kernel.sent_lines.append(loop.SentLine(kernel.clock, own_line(command), True))
        elif name == "meter":
            self.detectors.append({**command, "number": read_reply(text)})
        else:
            self.takeout_clocks.append(kernel.clock)
        return ""

    def close_or_reopen(self, command: Command) -> str:
        """As send: cells of a lane that is there are closed or opened, and vehicles merge before them."""
        links, (link, lane) = self.kernel.map.links, (command["link"], command["lane"])
        if not 0 <= link < len(links) or not 0 <= lane < len(links[link].lanes):
            return "refused: the network has no such lane"
        if not 0 <= command["first"] <= command["last"] < links[link].cells:
            return "refused: the lane has no such cells"
        if self.merging:
            self.merging.add_link(link)
        self.kernel.pass_on([own_line(command)])
        return ""


def refusal_in(text: bytes) -> str:
    """Why a reply refuses a command, in words; nothing where it does not."""
    reply = read_reply(text)
    if isinstance(reply, Starved):
        return "not done: memory is wanting, and it may be tried again"
    if not isinstance(reply, Refused):
        return ""
    name, cell_text = type(reply).__name__, "" if reply.at is None else f" at {reply.at}"
    return f"refused ({name}{cell_text}): {reply.__doc__}"
