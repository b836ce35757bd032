"""Runs of a study that are driven step by step: those without a last second, which go on until all have arrived or
nobody moves, and those with works, buses, or lights that detectors drive."""
import hashlib
from collections.abc import Sequence

from streetsim.base.client import NoReply, ProgramEnded
from streetsim.base.files import Fault
from streetsim.control.settings import Settings
from streetsim.control.steering import Steering
from streetsim.control.works_figures import longest_queue, worst_quarter
from streetsim.control.works_watched import doubts_of
from streetsim.kernel.loop import Kernel, Observer
from streetsim.kernel.program import Program
from streetsim.model.mapping import Map
from streetsim.model.runs import Run
from streetsim.observe.queues import Summary
from streetsim.observe.trips import TripsTable
from streetsim.observe.works import WorksTable
from streetsim.search.run_prepared import Outcome, when_all_arrived


class Summed(Program):
    """A program that keeps the SHA-256 of all its replies."""

    def __init__(self, path: str) -> None:
        """Starts the program; `sum` begins empty."""
        super().__init__(path)
        self.sum = hashlib.sha256()

    def read_replies(self, count: int) -> list[bytes]:
        """So many replies, as Program gives them; adds them to the sum."""
        replies = super().read_replies(count)
        self.sum.update(b"\n".join([*replies, b""]))
        return replies


def outcome_of(
    program: str, run: Run, mapping: Map, settings: Settings, observers: Sequence[Observer] = ()
) -> Outcome:
    """Makes a run and gives its outcome; a vehicle that has not arrived counts until the run's end. program: its path;
    settings: its end, rescues, and what is driven or made in it; observers: see the run too. Fault where the program
    refuses a line or ends."""
    steering, trips = Steering(run, mapping, settings), TripsTable()
    summary, works = Summary(trips, steering.ending.looks), WorksTable(steering.closures)
    try:
        with Summed(program) as running:
            kernel = Kernel(running, run, mapping, steering.controllers, [trips, summary, works, *observers])
            kernel.go(settings.until)
            digest = running.sum.hexdigest()
    except (NoReply, ProgramEnded) as fault:
        raise Fault(f"{run.path}: {fault}") from None
    ends = [arrival for arrival, _ in trips.ends()]
    seconds = sum(
        max(0, (kernel.clock if end is None else end) - line.command["depart"])
        for line, end in zip(run.enters, ends, strict=True)
    )
    arrived, gone_at = sum(end is not None for end in ends), when_all_arrived(ends, run.start())
    worst = max(summary.censuses(), key=lambda census: census.waiting)
    at_works, waiting = tuple(doubts_of(works.watched, mapping)), (worst.waiting, worst.clock)
    ended = steering.ending.end_reason
    return Outcome(
        digest, arrived, seconds, kernel.clock, *waiting, ended, all_arrived_at=gone_at, at_works=at_works,
        works_passed=sum(len(one.passings) for one in works.watched), works_queue=longest_queue(works.watched),
        works_quarter=worst_quarter(works.watched),
    )
