"""Giving way without a light, by rounds: a round is a run from which it is read when vehicles pass stop lines; the next
one has signals that are green in the gaps between those who go first. As who waits changes who comes when, this is
repeated."""
from collections.abc import Callable, Iterable
from contextlib import AbstractContextManager
from dataclasses import dataclass, field, replace
from functools import partial
from operator import itemgetter

from streetsim.control.actuated_lights import NONE_DRIVEN, ActuatedLights
from streetsim.control.ending import HOUR, after_departures
from streetsim.control.settings import Settings
from streetsim.control.steering import Steering
from streetsim.kernel.loop import Kernel
from streetsim.kernel.program import Program
from streetsim.kernel.progress import ProgressReports, ReportProgress
from streetsim.kernel.serving import serving_program
from streetsim.model.mapping import Map
from streetsim.model.runs import Line, Run
from streetsim.observe.giving_way_crowded import crowded_edges
from streetsim.observe.giving_way_gaps import StopLinePassings, reds_of, shown_reds, signal_lines
from streetsim.observe.link_passings import Passings

ProgramStart = Callable[[], AbstractContextManager[Program]]  # starts the program


@dataclass(slots=True)
class Yielding:
    """How vehicles give way without a light in a run: by how many rounds, junctions and lines."""

    rounds: int = 0  # that were made for it
    junctions: int = 0
    lines: int = 0  # signals that were sent
    crowded: dict[str, int] = field(default_factory=dict)  # by nearly full edge: vehicles that pass it then

    def summary(self) -> str:
        """How many junctions give way by how many signal lines, for the user; empty where there are none."""
        if not self.lines:
            return ""
        return f"{self.junctions:,} junctions without a light give way by {self.lines:,} signal lines"


def run_round(
    start_program: ProgramStart, run: Run, mapping: Map, settings: Settings, report_progress: ReportProgress
) -> StopLinePassings:
    """When vehicles pass stop lines in a run that is made to see that; it ends when all vehicles have ended, or at its
    last clock. report_progress: gets the clock and a count. Fault where a line is refused."""
    passings, controllers = Passings(), Steering(run, mapping, settings, True).controllers
    with start_program() as program:
        Kernel(program, run, mapping, controllers, [passings, ProgressReports(report_progress)]).go(settings.until)
    return passings.stop_line_passings()


def giving_way(
    run: Run, mapping: Map, settings: Settings, rounds: int, start_program: ProgramStart,
    report_progress: ReportProgress,
) -> tuple[Run, Yielding]:
    """(the run with the signal lines of gaps_of, and how vehicles give way by them). Arguments and Fault as there."""
    lines, yielding = gaps_of(run, mapping, settings, rounds, start_program, report_progress)
    return with_lines(run, lines), yielding


def gaps_of(
    run: Run, mapping: Map, settings: Settings, rounds: int, start_program: ProgramStart,
    report_progress: ReportProgress,
) -> tuple[list[tuple[int, Line]], Yielding]:
    """(the signal lines, (clock, line), by which the vehicles of a run give way without a light, found in so many
    rounds; how they give way by them); no lines where rounds is 0 or nobody in the map gives way. report_progress: gets
    the clock and the last census. Fault where a round fails."""
    if not rounds or not mapping.yields:
        return [], Yielding()
    round_settings = Settings(
        settings.until, rescue=settings.rescue, merging=settings.merging, lights=settings.lights, buses=settings.buses
    )
    round_run, yielding = run, Yielding(rounds)
    for _ in range(rounds):
        passed = run_round(start_program, round_run, mapping, round_settings, report_progress)
        reds = reds_of(mapping, passed, run.start())
        lines = signal_lines(mapping, shown_reds(mapping, reds, passed, run.start()), run.start())
        round_run = with_lines(run, lines)
    yielding.lines, yielding.junctions = len(lines), len({line.command["node"] for _, line in lines})
    yielding.crowded = crowded_edges(mapping, reds, passed, run.start())
    return lines, yielding


def giving_way_of_open_run(
    run: Run, mapping: Map, rounds: int, program: str | None = None, workers: int = 1,
    lights: ActuatedLights = NONE_DRIVEN,
) -> tuple[Run, Yielding]:
    """What giving_way gives of a run whose end is not known, as a script's or a live page's: rounds end when all have
    ended, or an hour after the last departure, vehicles merge before works, and nobody is rescued. program: None: the
    usual one; workers: its threads."""
    settings = Settings(after_departures(run, HOUR), rescue=0, lights=lights)
    return giving_way(
        run, mapping, settings, rounds, partial(serving_program, program, run.path, workers), lambda *_: None
    )


def with_lines(run: Run, lines: Iterable[tuple[int, Line]]) -> Run:
    """The run with further timed lines, (clock, line), gone through twice, of clocks not before its start; those of the
    start become first lines."""
    start = run.start()
    first = [*run.first, *(line for clock, line in lines if clock == start)]
    timed = sorted([*run.timed, *(pair for pair in lines if pair[0] > start)], key=itemgetter(0))
    return replace(run, first=first, timed=timed)
