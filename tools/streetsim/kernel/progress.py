"""Reports how far a run is, part by part; `observe` adds it to the observers of a run."""
from collections.abc import Callable

from streetsim.base.client import Census
from streetsim.kernel.loop import Observer
from streetsim.kernel.seconds import Seconds

ReportProgress = Callable[[int, Census | None], object]  # gets the clock and a count of those on the road and arrived


class ProgressReports(Observer):
    """Reports how far the run is."""

    def __init__(self, report: ReportProgress) -> None:
        """report: gets each report."""
        self.report, self.arrived = report, 0

    def see(self, seconds: Seconds) -> None:
        """Takes some seconds."""
        self.arrived += len(seconds.arrivals.car)
        clock, rows = int(seconds.clocks[-1]), seconds.last_rows()
        cells = int(seconds.on[rows].sum())
        buffers = int(rows.stop - rows.start) - cells
        self.report(clock, Census(cells + buffers + self.arrived, self.arrived, buffers, cells, clock, 0, 0))
