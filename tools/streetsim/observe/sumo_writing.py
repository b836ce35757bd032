"""Opens SUMO's output files of a run, and has each class of sumo_formats and sumo_intervals write its own."""
import contextlib
from bisect import insort
from collections import defaultdict
from collections.abc import Iterable, Mapping, Sequence
from typing import Any

from streetsim.base.files import Fault, FilePath, TextFile, whole_file
from streetsim.control.bus_fleet import StopOutcome, Dwell, dwells
from streetsim.model.folder import Frame
from streetsim.model.mapping import Map
from streetsim.observe.sumo_formats import Fcd, QueueOutput, SummaryOutput, XmlFile
from streetsim.observe.sumo_intervals import Edgedata, InductionLoopOutput, LaneAreaOutput
from streetsim.observe.sumo_kinds import OutputFile
from streetsim.observe.sumo_places import LanePlaces
from streetsim.observe.sumo_seconds import DEFAULT, Follower
from streetsim.observe.sumo_trips import LaneChanges, StatisticOutput, StopOutput, Tripinfo, VehicleRoutes


class Discarded(Exception):
    """The files are not to be left behind."""


class Outputs(contextlib.ExitStack):
    """Open output files, which take their names when the block ends without an exception.

    Tell vehicles by `expect_vehicle`, then each second of the run by `add_second`. Edges are summed over `period`
    seconds, detectors over their own; `dawdle` is the run's chance of slowing down (0 to 1), by which the free driving
    time is reckoned; `start` is the clock at the run's begin; `rescued` are the clocks at which vehicles were rescued,
    rising, as far as they are known.
    """

    def __init__(
        self, files: Mapping[str, FilePath] | Iterable[OutputFile], mapping: Map, dawdle: float, period: int = 900,
        start: int = 0, rescued: Sequence[int] = (),
    ) -> None:  # fmt: skip
        """Opens the files; files: {kind of KINDS: path}, or each as OutputFile has it; other arguments as above. Fault
        where one that is needed cannot be written, KeyError for another kind."""
        super().__init__()
        self.follower, self.start = Follower(mapping, dawdle), start
        self.wished: list[int] = []
        self.rescued = rescued
        self.dwells: dict[int, list[Dwell]] = {}
        self.outcomes: list[StopOutcome] = []
        self.lane_places = LanePlaces(mapping)
        self.writers: list[XmlFile] = []
        self.unopened: list[str] = []  # texts on files that are not needed and cannot be written
        if isinstance(files, Mapping):
            files = [OutputFile(kind, path, period=period) for kind, path in files.items()]
        with contextlib.ExitStack() as opened:
            for one in files:
                try:
                    self.writers.append(self.writer_of(one, opened.enter_context(whole_file(one.path))))
                except Fault as fault:
                    if one.is_needed:
                        raise
                    self.unopened.append(f"{fault}: it is not written")
            self.push(opened.pop_all())

    def writer_of(self, wished: OutputFile, file: TextFile) -> XmlFile:
        """What writes an open file. KeyError for a kind that is none of KINDS."""
        places, departs, rescued, dwells = self.lane_places, self.wished, self.rescued, self.dwells
        return {
            "tripinfo": lambda: Tripinfo(file, places, dwells, wished.details),
            "summary": lambda: SummaryOutput(file, places, departs, rescued),
            "edgedata": lambda: Edgedata(file, places, wished, self.start),
            "fcd": lambda: Fcd(file, places),
            "queue": lambda: QueueOutput(file, places),
            "e1": lambda: InductionLoopOutput(file, places, self.start, wished.detectors),
            "e2": lambda: LaneAreaOutput(file, places, self.start, wished.detectors),
            "vehroute": lambda: VehicleRoutes(file, places, wished.details),
            "statistic": lambda: StatisticOutput(file, places, departs, rescued, dwells),
            "stop": lambda: StopOutput(file, places, self.outcomes),
            "lanechange": lambda: LaneChanges(file, places),
        }[wished.kind]()

    def note_stops(self, outcomes: Iterable[StopOutcome]) -> None:
        """Takes what has become of all stops until now."""
        self.outcomes[:] = outcomes
        self.dwells.update(dwells(self.outcomes))

    def __exit__(self, kind: type[BaseException] | None, *details: Any) -> bool:
        """Writes the ends of the files, which get their names; after an exception, which goes on, they are not left
        behind."""
        if kind is None:
            for writer in self.writers:
                writer.write_end()
        return super().__exit__(kind, *details)

    def discard(self) -> None:
        """Closes the files, of which nothing is left."""
        with contextlib.suppress(Discarded), self:
            raise Discarded

    def expect_vehicle(self, car: int, name: str, wished: int, kind: str = DEFAULT) -> None:
        """Tells of a vehicle before it is seen: its number in later looks, its name, the second at which it would
        depart, and its type."""
        self.follower.expect_vehicle(car, name, wished, kind)
        insort(self.wished, wished)

    def add_second(self, clock: int, lanes: Iterable[Sequence[Any]], arrived: Iterable[int]) -> None:
        """Takes the second that ends at a clock; called for every second, rising. lanes: [link, lane, cells, cars in
        the buffer, ..] of each lane where anything is; arrived: the cars that arrived in it."""
        second = self.follower.see_second(clock, lanes, arrived)
        for writer in self.writers:
            writer.add_second(second)

    def write_run(
        self, trips: Sequence[Mapping[str, str | int]], frames: Iterable[Frame], stops: Iterable[StopOutcome] = ()
    ) -> None:
        """Writes a whole run, of the rows of trips.csv in the order of the vehicles' numbers (all with SUMO's default
        type), what stood on the lanes in every second, and what became of stops; Fault where the looks skip one."""
        self.note_stops(stops)
        arrivals = defaultdict(list)
        for car, trip in enumerate(trips):
            self.expect_vehicle(car, str(trip["id"]), int(trip["depart"]))
            if trip["arrival"] != "":
                arrivals[int(trip["arrival"])].append(car)
        clock = self.start
        for frame in frames:
            if frame["clock"] != clock + 1:
                raise Fault(f"SUMO's outputs need a look at every second: after {clock} s comes {frame['clock']} s")
            clock = frame["clock"]
            self.add_second(clock, frame["lanes"], arrivals.pop(clock, ()))
