"""What is seen before the works of a run: who passes and how late, how far the queue reaches, who stands."""
from collections import deque
from collections.abc import Callable, Collection, Iterable, Iterator, Mapping, Sequence
from dataclasses import dataclass, field

from streetsim.base.client import Lane
from streetsim.control.works_closures import Closure
from streetsim.control.works_queue_ends import Reach, UpstreamStreets, reach_of
from streetsim.model.mapping import Map, Place

LONG = 120  # seconds in one cell, after which a run is doubted
MOST_LINKS = 12  # upstream, that are looked at for one place

# Whether a car, by its number, that is on one link has another one ahead in its plan: (car, its link, the other).
Bound = Callable[[int, int, int], bool]


@dataclass(slots=True, frozen=True)
class Sight:
    """A vehicle before the works: its seconds to them, were it alone, and the link where it is."""

    free: float
    link: int


@dataclass(slots=True)
class Coming:
    """A vehicle on its way to the works: when it was first seen, and its seconds from there, as in Sight."""

    since: int
    free: float
    link: int  # where it was last seen


@dataclass(slots=True, frozen=True)
class WorksPassing:
    """One who came past the works' begin: when that was seen, and its seconds beyond those reckoned for one alone."""

    clock: int
    delay: float  # seconds


@dataclass(slots=True, frozen=True)
class WorksQueue:
    """How far the queue before the works reached at a look."""

    clock: int
    seconds: int  # since the look before
    metres: float


@dataclass(slots=True, frozen=True)
class Stand:
    """How long the vehicle stood, at a look, that had stood longest in its cell before the works."""

    clock: int
    seconds: int  # of who stands longest in its cell


@dataclass(slots=True)
class Watched:
    """What was seen before one place of works, look by look."""

    closure: Closure
    streets: UpstreamStreets
    pace: Sequence[float]  # seconds a cell on each link, alone on the road
    upstream: Sequence[Closure] = ()  # other works on the lane, which begin before these
    coming: dict[int, Coming] = field(default_factory=dict)  # by car
    rescued: dict[int, Coming] = field(default_factory=dict)  # by the car that it became, until that is seen
    beyond: set[int] | None = None  # cars on the link past the works' begin; None before the first look
    standing: dict[tuple[int, int, int], int] = field(default_factory=dict)  # car, lane, cell: since
    passings: list[WorksPassing] = field(default_factory=list)
    queues: list[WorksQueue] = field(default_factory=list)
    stands: list[Stand] = field(default_factory=list)
    long: set[int] = field(default_factory=set)  # cars that stood for longer than LONG
    left_network: int | None = None  # the clock at which the queue first left the network
    last_look: int | None = None  # look

    def reach(self, clock: int, lanes: Mapping[Place, Lane]) -> Reach:
        """The queue before the works at a clock, on whatever lane of their link, and on the lanes upstream that lead to
        it; who stands before other works upstream on the lane belongs to their queue alone. lanes: the replies on the
        lanes of the link and of those that `further` asks for, those without one are empty."""
        return reach_of(lanes, self.streets, self.closure.link, self.closure.first_cell, self.first_cell(clock))

    def first_cell(self, clock: int) -> int:
        """The cell of the link from which on vehicles stand before these works at a clock: where the last works before
        them on the lane begin; 0 where there are none."""
        return max((one.first_cell for one in self.upstream if one.begin < clock <= one.end), default=0)

    def further(self, clock: int, lanes: Mapping[Place, Lane]) -> list[int]:
        """The links upstream whose lanes must be looked at too at a clock, by what the lanes so far show; empty where
        the queue does not reach them, or MOST_LINKS are looked at."""
        known = {link for link, _ in lanes}
        reach = self.reach(clock, lanes)
        feeders = [feeder for link in reach.full for feeder in self.streets.feeders.get(link, ())]
        room = MOST_LINKS + 1 - len(known)
        return [one for one in dict.fromkeys(feeders) if one not in known][:room] if reach.vehicles else []

    def note_look(self, clock: int, lanes: Mapping[Place, Lane], bound: Bound) -> None:
        """Notes what the lanes of the link, and of those upstream that `further` asks for until it asks for none, show
        at a clock. bound: whether a car has the link of the works ahead."""
        self.note_passing(clock, lanes, bound)
        self.note_standing(clock, lanes)
        self.note_queue(clock, self.reach(clock, lanes))
        self.last_look = clock

    def rescue(self, car: int, anew: int) -> None:
        """Notes that a car was taken out and entered anew as another one; its seconds on the way to the works go on."""
        if car in self.coming:
            self.rescued[anew] = self.coming.pop(car)

    def note_passing(self, clock: int, lanes: Mapping[Place, Lane], bound: Bound) -> None:
        """Notes who has passed the begin of the works since the look before, with its delay in seconds, and who is on
        the way to it. Who is gone from a link that is looked at counts as past it; who was never seen before it has a
        delay of 0."""
        sights_before, beyond = self.sights(lanes)
        looked = {link for link, _ in lanes}
        passed_cars = [car for car, one in self.coming.items() if car not in sights_before and one.link in looked]
        for car in passed_cars:
            one = self.coming.pop(car)
            self.passings.append(WorksPassing(clock, max(0.0, clock - one.since - one.free)))
        if self.beyond is not None:  # who was never seen before them has come between two looks
            self.passings += [WorksPassing(clock, 0.0) for _ in beyond - self.beyond - set(passed_cars)]
        self.beyond = beyond
        self.coming.update((car, self.rescued.pop(car)) for car in sights_before.keys() & self.rescued.keys())
        for car, sight in sights_before.items():
            if car in self.coming:
                self.coming[car].link = sight.link
            elif sight.link == self.closure.link or bound(car, sight.link, self.closure.link):
                self.coming[car] = Coming(clock, sight.free, sight.link)

    def sights(self, lanes: Mapping[Place, Lane]) -> tuple[dict[int, Sight], set[int]]:
        """(the vehicles before the works, by number in the program; those on the link past their begin)."""
        link, works_cell = self.closure.link, self.closure.first_cell
        sights_before: dict[int, Sight] = {}
        beyond: set[int] = set()
        behind = self.seconds_behind({other_link for other_link, _ in lanes})
        for (other_link, _), lane in lanes.items():
            cells, pace = self.streets.cells[other_link], self.pace[other_link]
            if other_link != link:
                to_works, across = behind[other_link], self.streets.across[other_link]
                sights_before.update(
                    (car, Sight((cells - cell) * pace + across + to_works, other_link)) for car, cell, *_ in lane.cells
                )
                sights_before.update((car, Sight(to_works, other_link)) for car, *_ in lane.buffer)
                continue
            on_the_way = ((car, works_cell - cell) for car, cell, *_ in lane.cells if cell < works_cell)
            sights_before.update((car, Sight(cells_to_go * pace, link)) for car, cells_to_go in on_the_way)
            beyond.update(car for car, cell, *_ in lane.cells if cell >= works_cell)
            beyond.update(car for car, *_ in lane.buffer)
        return sights_before, beyond

    def seconds_behind(self, links: Collection[int]) -> dict[int, float]:
        """By link the seconds from the junction at its end to the works, alone, on the way of the fewest links; 0 on
        the link of the works. links: those that are looked at, each of which leads to it over others of them."""
        seconds, reached = {self.closure.link: 0.0}, deque([self.closure.link])
        while reached:
            link = reached.popleft()
            ahead = self.closure.first_cell * self.pace[link]
            if link != self.closure.link:
                ahead = seconds[link] + self.streets.across[link] + self.streets.cells[link] * self.pace[link]
            new = [one for one in self.streets.feeders.get(link, ()) if one in links and one not in seconds]
            seconds.update(dict.fromkeys(new, ahead))
            reached.extend(new)
        return seconds

    def note_standing(self, clock: int, lanes: Mapping[Place, Lane]) -> None:
        """Notes who stands before the works on their link, since when, for how long the longest does, and who for more
        than LONG seconds."""
        link, begin, works_cell = self.closure.link, self.first_cell(clock), self.closure.first_cell
        standing = [
            (car, lane, cell)
            for (other, lane), reply in lanes.items()
            for car, cell, speed, *_ in reply.cells
            if other == link and begin <= cell < works_cell and speed == 0
        ]
        self.standing = {key: self.standing.get(key, clock) for key in standing}
        self.stands.append(Stand(clock, max((clock - since for since in self.standing.values()), default=0)))
        self.long.update(car for (car, *_), since in self.standing.items() if clock - since > LONG)

    def note_queue(self, clock: int, reach: Reach) -> None:
        """Notes how far the queue reaches, and whether it has left the network: it reaches the begin of a link to which
        nothing leads."""
        seconds = clock - (self.closure.begin if self.last_look is None else self.last_look)
        self.queues.append(WorksQueue(clock, seconds, reach.metres))
        leaves = any(link not in self.streets.feeders for link in reach.full)
        if reach.vehicles and self.left_network is None and leaves:
            self.left_network = clock


def in_runs(texts: Sequence[Sequence[str]]) -> Iterator[str]:
    """One text on what was seen before works in several runs: in how many of them, with the texts of the first run that
    has any. texts: those of each run. Nothing where no run has a text."""
    doubted = [one for one in texts if one]
    if doubted:
        where = f"in {len(doubted):,} of {len(texts):,} runs " if len(texts) > 1 else ""
        yield f"{where}{'; '.join(doubted[0])}"


def doubts_of(watched: Iterable[Watched], mapping: Map) -> Iterator[str]:
    """What speaks against a run, by what was seen before its works, a text each."""
    for works in watched:
        name = mapping.lane_name(works.closure.link, works.closure.lane)
        if works.long:
            longest = max(stand.seconds for stand in works.stands)
            yield (
                f"before the works on {name} {len(works.long):,} stood for more than {LONG} s in one cell, "
                f"one for {longest:,} s"
            )
        if works.left_network is not None:
            yield (
                f"the queue before the works on {name} left the network at {works.left_network:,} s: "
                "vehicles that wait beyond are in no queue or delay"
            )
