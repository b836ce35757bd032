"""The lines of a run's file that have a clock, and changes of lights by time of day."""
from collections.abc import Container

from streetsim.control.actuated_driver import Driver
from streetsim.kernel.loop import NEVER, Controller, Kernel
from streetsim.kernel.seconds import Block
from streetsim.model.runs import Line


class Timed(Controller):
    """Sends the lines of the file that have a clock; not those of the run's last one."""

    left_out: Container[int] = frozenset()  # nodes of which no lines are sent, as a script has set their light

    def begin(self, kernel: Kernel) -> None:
        """All lines are to come."""
        self.kernel, self.next_index = kernel, 0
        self.lines = kernel.run.timed

    def next_clock(self) -> int:
        """That of the next line."""
        return self.lines[self.next_index][0] if self.next_index < len(self.lines) else NEVER

    def act(self, clock: int, _now: Block) -> None:
        """Sends what is due. Fault where a line is refused."""
        if clock == self.kernel.until:
            return
        due: list[Line] = []
        while self.next_clock() <= clock:
            due.append(self.lines[self.next_index][1])
            self.next_index += 1
        self.kernel.pass_on(line for line in due if line.command.get("node") not in self.left_out)

    def unsent(self) -> int:
        """How many lines were not sent, as their clock did not come; without works, which may last longer, and changes
        of lights by time of day, which an import tells for a day."""
        mapping = self.kernel.map
        changing = {light for _, light, _ in mapping.switches}
        nodes = {node for light, node in mapping.signals if light in changing}
        left = (line for _, line in self.lines[self.next_index :] if line.number > 0)
        return sum(line.command.get("node") not in nodes for line in left)


class TimesOfDay(Controller):
    """Puts programs that detectors drive in force by time of day; the file has a line for each change, which is sent
    before."""

    def __init__(self, driver: Driver) -> None:
        """driver: of the lights of the run."""
        self.driver = driver

    def begin(self, kernel: Kernel) -> None:
        """Nothing has changed yet."""
        self.kernel = kernel

    def next_clock(self) -> int:
        """That of the next change."""
        return self.driver.switches[0][0] if self.driver.switches else NEVER

    def act(self, clock: int, _now: Block) -> None:
        """Makes the changes that are due, but for those of the run's last clock."""
        if clock < self.kernel.until:
            self.kernel.send(self.driver.switch(clock))
