"""What scripts have called after each step."""

class StepListener:
    """Is called after each simulationStep. Scripts derive their own class from it, as with SUMO's traci."""

    def step(self, t: float = 0) -> bool:
        """t: the argument of simulationStep. Gives whether to be called again: False takes the listener off."""
        return True

    def cleanUp(self) -> None:
        """Is called before the listener is taken off, at the latest before the run ends."""

    def setID(self, ID: int) -> None:
        """Sets the listener's number, as addStepListener does."""
        self._ID = ID

    def getID(self) -> int:
        """The listener's number, as addStepListener gave it."""
        return self._ID


class Listeners:
    """The listeners of a run, by number."""

    def __init__(self) -> None:
        """None yet; numbers begin with 0, as in SUMO."""
        self.next_number = 0
        self.by_number: dict[int, StepListener] = {}

    def add(self, listener: StepListener) -> int | None:
        """Adds a listener, and tells it its number (setID), which is given; None where it is no StepListener, which is
        not added."""
        if not isinstance(listener, StepListener):
            return None
        number, self.next_number = self.next_number, self.next_number + 1
        listener.setID(number)
        self.by_number[number] = listener
        return number

    def remove(self, number: int) -> bool:
        """Takes off the listener of a number, after its cleanUp; gives whether there was one."""
        listener = self.by_number.pop(number, None)
        if listener is None:
            return False
        listener.cleanUp()
        return True

    def call_all(self, time: float) -> None:
        """Calls all listeners, and then takes off those that gave False; time: the argument of simulationStep."""
        for number in [number for number, listener in list(self.by_number.items()) if not listener.step(time)]:
            self.remove(number)

    def clean_up(self) -> None:
        """Forgets all listeners, and calls cleanUp of each."""
        listeners, self.next_number, self.by_number = self.by_number, 0, {}
        for listener in listeners.values():
            listener.cleanUp()
