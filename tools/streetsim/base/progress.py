"""Progress of long work: a line on a terminal with what is done and the seconds that are left, and Ctrl-C that asks for
an end."""
import signal
import sys
import threading
import time
from types import FrameType
from typing import IO, Any, Self

from streetsim.base.client import Census

PAUSE = 0.2  # seconds between two writings of a line
TABLES = 0.4  # what the tables at the end take, of the work of a run
LEAST_SHARE = 0.01  # of the work that is done before an end is told


class TerminalLine:
    """A line that is written over and over on a terminal: who writes asks `takes_turn`, or `on_terminal`, before."""

    def __init__(self, stream: IO[str] | None = None) -> None:
        """stream: where the line is written; none: standard error."""
        self.stream = stream or sys.stderr
        self.on_terminal, self.begin, self.last, self.width = self.stream.isatty(), time.monotonic(), 0.0, 0

    def seconds(self) -> float:
        """Seconds since this line was made."""
        return time.monotonic() - self.begin

    def takes_turn(self, ended: bool = False) -> bool:
        """Whether to write it now, which is noted: on a terminal alone, five times a second at most, or if ended."""
        now = time.monotonic()
        if not self.on_terminal or (now - self.last < PAUSE and not ended):
            return False
        self.last = now
        return True

    def write(self, text: str, end: str = "") -> None:
        """Writes a text from the left end of the line on, and `end` behind it, be it a terminal or not."""
        print(f"\r{text}", end=end, file=self.stream, flush=True)

    def write_over(self, text: str) -> None:
        """Writes a text, with blanks where the one before was longer, as `write` does."""
        self.write(f"{text:{self.width}}")
        self.width = len(text)

    def end(self) -> None:
        """Takes the line away that write_over wrote, where there is one."""
        if self.width:
            self.write(f"{'':{self.width}}\r")
            self.width = 0


class WorkProgress(TerminalLine):
    """A line that says how much of some work is done, and how long it still takes."""

    def __init__(self, unit: str, total: int, stream: IO[str] | None = None, abreast: int = 1) -> None:
        """unit: the parts of the work in the plural, as the line says it ("12 of 40 plans"); total: how many there
        are. stream: of the line, None: standard error; abreast: how many are done side by side."""
        super().__init__(stream)
        self.unit, self.total, self.abreast = unit, total, abreast

    def show(self, done: int, more: str = "", seconds_left: float | None = None) -> None:
        """Writes the line where it is due; done, more, seconds_left: as `line` has them."""
        if self.takes_turn(done >= self.total):
            self.write_over(self.line(done, more, self.seconds(), seconds_left))

    def line(self, parts_done: int, remark: str, seconds: float, seconds_left: float | None = None) -> str:
        """The line's text; remark: what else there is to say; seconds: since the begin of the work; seconds_left: that
        it still takes, None: as long for a part as so far."""
        if seconds_left is None:
            going = min(self.abreast, max(0, self.total - parts_done)) / 2 if self.abreast > 1 else 0.0  # half done
            seconds_left = seconds * max(0, self.total - parts_done - going) / max(1, parts_done + going)
        text = f"[{bar(parts_done, self.total)}] {parts_done:,} of {self.total:,} {self.unit}"
        return f"{text}{remark and f', {remark}'}, {time_text(seconds_left)} left"


class RunProgress(TerminalLine):
    """A line on the terminal with the clock of a run, or how many of several runs are done; vehicles on their way,
    arrived, how many times as fast as real time, and how long it still takes. It stays there, as the runs left it, when
    the block ends.

    A second of a run costs about as much as there are vehicles on their way. So of the work that share is done which
    arrived, and half of those who are on their way, of all vehicles; of a run without vehicles that of its seconds.
    """

    def __init__(
        self, start: int, until: int, vehicles: int = 0, runs: int = 1, passes: int = 1, stream: IO[str] | None = None
    ) -> None:
        """start, until: the clocks at which each run begins and, by and large, ends; vehicles: that depart in each of
        them; runs: how many there are; passes: how often each is made, with the rounds before the one that counts.
        stream: of the line, None: standard error."""
        super().__init__(stream)
        self.start, self.until, self.vehicles, self.passes = start, until, vehicles, passes
        self.clocks, self.ways, self.arrived = [start] * runs, [0] * runs, [0] * runs
        self.passes_done, self.steps = [0] * runs, [0] * runs  # passes that are over, and their seconds
        self.runs_done = 0

    def __enter__(self) -> Self:
        """Gives the line itself, of which nothing is written yet."""
        return self

    def __exit__(self, *_: object) -> None:
        """Writes the line a last time, where it was written at all, and ends it."""
        if self.last:
            self.write_over(f"{self.line(self.seconds(), True)} ")
            self.write("", "\n")

    def show(self, clock: int, census: Census | None, run: int = 0) -> None:
        """Notes how far a run (its place, from 0) is, and writes the line if due; nothing without a census. A clock
        before the last one is of the next pass."""
        if census is not None:
            if clock < self.clocks[run]:
                self.passes_done[run] += 1
                self.steps[run] += self.clocks[run] - self.start
            self.clocks[run], self.ways[run], self.arrived[run] = clock, census.cells + census.buffers, census.arrived
            if self.takes_turn():
                self.write_over(f"{self.line(self.seconds())} ")

    def note_end(self) -> None:
        """Notes that one of the runs has ended, at whatever clock."""
        self.runs_done += 1

    def share(self, run: int) -> float:
        """The share of its work, 0 to 1, that a run (its place, from 0) has done, all passes together."""
        seconds = max(1, self.until - self.start)
        own = (self.arrived[run] + self.ways[run] / 2) / self.vehicles if self.vehicles else 0.0
        own = own if self.vehicles else (self.clocks[run] - self.start) / seconds
        return (min(self.passes_done[run], self.passes - 1) + min(1.0, own)) / (self.passes + TABLES)

    def line(self, seconds: float, final: bool = False) -> str:
        """The line's text; seconds: since the begin of the work; final: whether it is over."""
        steps = sum(clock - self.start for clock in self.clocks) + sum(self.steps)
        runs = len(self.clocks)
        share = 1.0 if final else sum(map(self.share, range(runs))) / runs
        place = f"{self.clocks[0]:,} s" if runs == 1 else f"{self.runs_done} of {runs} runs done"
        around = f"round {self.passes_done[0] + 1} of {self.passes}, " if runs == 1 < self.passes else ""
        seconds_left = "" if final or share < LEAST_SHARE else f", {time_text(seconds * (1 - share) / share)} left"
        return (
            f"[{bar(round(1000 * share), 1000)}] {around}{place}, {sum(self.ways):,} on their way, "
            f"{sum(self.arrived):,} arrived, {steps / max(0.001, seconds):,.0f} x real time{seconds_left}"
        )


def time_text(seconds: float) -> str:
    """Seconds of waiting as people say them: 50 s, 3 min, 1.5 h."""
    if seconds < 100:
        return f"{seconds:.0f} s"
    return f"{seconds / 60:.0f} min" if seconds < 6000 else f"{seconds / 3600:.1f} h"


class Slow(TerminalLine):
    """A line that says what a tool does and for how many seconds, from `wait` of them on; taken away in the end."""

    def __init__(self, text: str, stream: IO[str] | None = None, wait: float = 2.0) -> None:
        """text: what the tool does; wait: seconds before the line comes. stream: of the line, None: standard error."""
        super().__init__(stream)
        self.text, self.wait = text, wait
        self.end_event = threading.Event()
        self.thread = threading.Thread(target=self.show, daemon=True)

    def __enter__(self) -> Self:
        """Begins to wait for the line's time, which can be done once (RuntimeError); only on a terminal."""
        if self.on_terminal:
            self.thread.start()
        return self

    def __exit__(self, *_: object) -> None:
        """Takes the line away."""
        self.end_event.set()
        if self.thread.ident is not None:
            self.thread.join()
            self.end()

    def show(self) -> None:
        """Writes the line anew until the end; runs in a thread of its own."""
        while not self.end_event.wait(self.wait if not self.width else 0.5):
            self.write_over(f"{self.text}, {self.seconds():.0f} s")


def bar(done: int, total: int) -> str:
    """The share that is done, as 30 characters of # and blanks."""
    return f"{'#' * min(30, 30 * done // max(1, total)):30}"


class Stopping:
    """While the block runs, the first Ctrl-C only sets `end_asked`, and the caller ends its work when it sees that; a
    second one ends the tool as anywhere."""

    def __init__(self) -> None:
        """Nothing is asked for yet, and Ctrl-C is not taken over."""
        self.end_asked = False

    def __enter__(self) -> Self:
        """Takes Ctrl-C over from Python, and gives itself."""
        self.earlier_handler: Any = signal.signal(signal.SIGINT, self.note)
        return self

    def __exit__(self, *_: object) -> None:
        """Gives Ctrl-C back."""
        signal.signal(signal.SIGINT, self.earlier_handler)

    def note(self, _number: int, _frame: FrameType | None) -> None:
        """Handles the first Ctrl-C: sets `asked`, says so, and gives Ctrl-C back."""
        self.end_asked = True
        print("\nCtrl-C: ends with the best so far; a second one ends at once", file=sys.stderr, flush=True)
        signal.signal(signal.SIGINT, self.earlier_handler)
