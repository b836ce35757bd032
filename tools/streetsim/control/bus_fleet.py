"""The buses of a run while it goes: each is asked where it is when it could have come near its stop, and there its
lanes are looked at and closed as BusAtStop says; it is asked too when it could be seen by a light that waits for it.
The commands are kept, so that runs which repeat this one send them again."""
from collections import defaultdict
from collections.abc import Callable, Iterable, Iterator, Mapping, Sequence
from dataclasses import dataclass
from typing import NamedTuple

from streetsim.base import limits
from streetsim.base.client import Lane, Vehicle
from streetsim.control.bus_planned import LightAhead, Planned
from streetsim.control.bus_stopping import APPROACH, BusAtStop, Road
from streetsim.control.merging_rule import SeenVehicle
from streetsim.control.works_closures import closures_of
from streetsim.model.mapping import Map, Place
from streetsim.model.runs import Command, Run
from streetsim.model.stops import MISSED, STANDING, UNMADE, UNREACHED, Visit

Ask = Callable[[Iterable[int]], list[Vehicle]]  # of vehicles of the run's file
Look = Callable[[Iterable[Place]], dict[Place, Lane]]  # gives the lanes on which anything is
Closed = tuple[int, int, int]  # link, lane, cell
ENDED_STATES = ("arrived", "taken")


@dataclass(slots=True, frozen=True)
class StopOutcome:
    """What became of a stop. Clocks are as in SUMO: when the bus came to stand, and when its doors closed; None where
    that did not come about."""

    visit: Visit
    state: str
    lane: int | None = None
    arrived: int | None = None
    departed: int | None = None


class Dwell(NamedTuple):
    """A stop that a vehicle has left: its link, the clocks at which it came to stand and its doors closed, and the
    seconds for which it stood there in all, those of braking and starting among them."""

    link: int
    arrived: int
    departed: int
    stood: int

    @property
    def seconds(self) -> int:
        """The seconds for which it was at its stop, until its doors closed."""
        return self.departed - self.arrived


def dwells(stops: Iterable[StopOutcome]) -> dict[int, list[Dwell]]:
    """By vehicle (its number in the file) the stops that it has left, of what became of all stops."""
    by_vehicle: defaultdict[int, list[Dwell]] = defaultdict(list)
    for stop in stops:
        if stop.arrived is not None and stop.departed is not None:
            moving = round(stop.visit.braking) + round(stop.visit.starting)
            dwell = Dwell(stop.visit.link, stop.arrived, stop.departed, stop.departed - stop.arrived + moving)
            by_vehicle[stop.visit.vehicle].append(dwell)
    return dict(by_vehicle)


@dataclass(slots=True)
class Bus:
    """A vehicle with stops to come, or lights that wait for it."""

    owner: int  # its number in the run's file
    plan: Sequence[int]
    visits: list[Visit]  # to come
    lights: list[LightAhead]  # to come
    due: int  # clock
    car: int = 0
    stopping: BusAtStop | None = None  # on the link of its next stop
    closed: frozenset[Closed] = frozenset()


class PriorityCalls:
    """Which phases vehicles with priority call at lights."""

    def __init__(self) -> None:
        """Nobody calls yet."""
        self.by_light: defaultdict[str, dict[int, frozenset[int]]] = defaultdict(dict)  # phases by vehicle
        self.changed: set[str] = set()  # lights

    def set(self, owner: int, light_ahead: LightAhead | None) -> None:
        """Has a vehicle, by its number in the file (owner), call at one light alone; None: at none."""
        for light, calls in self.by_light.items():
            if owner in calls and (light_ahead is None or light_ahead.light != light):
                del calls[owner]
                self.changed.add(light)
        if light_ahead and self.by_light[light_ahead.light].get(owner) != light_ahead.phases:
            self.by_light[light_ahead.light][owner] = light_ahead.phases
            self.changed.add(light_ahead.light)

    def take_changed(self) -> list[tuple[str, frozenset[int]]]:
        """(light, all phases called there) for the lights where calls have changed since this was asked last; no
        phases: nobody calls there any more."""
        calls = [(light, frozenset().union(*self.by_light[light].values())) for light in sorted(self.changed)]
        self.changed.clear()
        return calls


class BusFleet:
    """The buses of a run, and the vehicles for which lights wait."""

    def __init__(self, plan: Planned, run: Run, mapping: Map) -> None:
        """plan: the stops to make, and the lights that wait for vehicles of the run."""
        self.mapping, self.turns = mapping, {(turn.link, turn.lane, turn.next) for turn in mapping.turns}
        self.plan, self.calls = plan, PriorityCalls()
        self.outcomes: list[StopOutcome] = []
        self.closed: frozenset[Closed] = frozenset()  # by all
        self.works = closures_of(run, limits.CLOCK) if plan.visits else []
        visits: defaultdict[int, list[Visit]] = defaultdict(list)
        for visit in plan.visits:
            visits[visit.vehicle].append(visit)
        self.buses: dict[int, Bus] = {}
        for owner in sorted({*visits, *plan.lights_ahead}):
            command = run.enters[owner].command
            first = max(run.start(), command["depart"]) + 1
            bus = Bus(owner, command["plan"], visits[owner], [*plan.lights_ahead.get(owner, ())], first)
            self.buses[owner] = bus
            bus.due += self.seconds_to_look(bus, 0, 0)

    def next_clock(self) -> int:
        """The next clock at which a bus is looked at; the last possible clock where no bus is left."""
        return min((bus.due for bus in self.buses.values()), default=limits.CLOCK)

    @property
    def is_holding(self) -> bool:
        """Whether any bus stands at its stop now."""
        return any(bus.stopping and bus.stopping.state == STANDING for bus in self.buses.values())

    def commands_after_look(self, clock: int, ask_vehicles: Ask, lanes: Look) -> Iterator[Command]:
        """Looks at the buses that are due at a clock, and gives the commands to send before the next step; it looks as
        these are taken. Buses with nothing to come are dropped. ask_vehicles: gives replies on vehicles, by their
        numbers in the file; lanes: gives what stands on lanes."""
        due = [bus for bus in self.buses.values() if bus.due <= clock]
        far = [bus for bus in due if not bus.stopping]
        for bus, reply in zip(far, ask_vehicles(bus.owner for bus in far) if far else (), strict=True):
            self.locate(clock, bus, reply)
        near = [bus for bus in due if bus.stopping]
        wished = {(bus.visits[0].link, lane) for bus in near if bus.stopping for lane in bus.stopping.wants(clock)}
        replies = lanes(sorted(wished)) if wished else {}
        for bus in near:
            self.attend(clock, bus, replies, ask_vehicles)
        for bus in due:
            if not bus.visits and not bus.lights:
                del self.buses[bus.owner]
        yield from self.closing_commands(clock)

    def commands_to_let_go(self, clock: int, owner: int) -> Iterator[Command]:
        """Drops a bus, by its number in the file, whose stops to come are not made; gives the commands that open what
        is closed for it."""
        bus = self.buses.pop(owner)
        self.calls.set(owner, None)
        self.outcomes += [StopOutcome(visit, UNMADE) for visit in bus.visits]
        yield from self.closing_commands(clock)

    def locate(self, clock: int, bus: Bus, reply: Vehicle) -> None:
        """Notes by the program's reply which stops (as missed) and lights a bus has passed, has the next light wait for
        it where it is near, and begins its stopping where it is near its stop; else sets when it is due next."""
        plan_index, cell, waits = len(bus.plan) - len(reply.plan), reply.cell or 0, 0
        if reply.state == "buffer":  # it has left its link
            plan_index, waits = plan_index + 1, max(0, (reply.ready or 0) - clock)
        if reply.state in ENDED_STATES:
            plan_index = len(bus.plan)
        bus.car = reply.car
        while bus.visits and bus.visits[0].at < plan_index:
            self.note_outcome(bus, StopOutcome(bus.visits[0], MISSED))
        bus.lights = [one for one in bus.lights if one.plan_index >= plan_index]
        self.call(bus, plan_index, cell, waits)
        if not bus.visits and not bus.lights:
            return
        if reply.state == "cell" and bus.visits and plan_index == bus.visits[0].at:
            visit = bus.visits[0]
            if visit.last - cell <= self.approach_cells(visit):
                assert reply.lane is not None
                bus.stopping = BusAtStop(visit, self.road_at_stop(bus, visit), reply.lane)
                return
        bus.due = clock + max(1, waits + self.seconds_to_look(bus, plan_index, cell))

    def call(self, bus: Bus, plan_index: int, cell: int, waits: int) -> None:
        """Has the next light wait for a bus that is near enough, unless the bus stops before it; else no light waits
        for it any more. plan_index: of its link in its plan; cell: of that link; waits: seconds that it stays in the
        junction."""
        light_ahead = bus.lights[0] if bus.lights else None
        seen_seconds = self.plan.seen_seconds - waits
        if light_ahead and stops_before(bus, light_ahead):
            light_ahead = None
        if light_ahead and self.seconds_to_light(bus, plan_index, cell, light_ahead) > seen_seconds:
            light_ahead = None
        self.calls.set(bus.owner, light_ahead)

    def seconds_to_light(self, bus: Bus, plan_index: int, cell: int, light_ahead: LightAhead) -> int:
        """The fewest seconds, rounded down, from a cell of the link at plan_index to the stop line of a light ahead."""
        link = self.mapping.links[bus.plan[light_ahead.plan_index]]
        cells = link.cells - (cell if plan_index == light_ahead.plan_index else 0)
        return int(self.seconds_to_link(bus, plan_index, cell, light_ahead.plan_index) + cells / link.limit)

    def seconds_to_link(self, bus: Bus, plan_index: int, cell: int, target: int) -> float:
        """The fewest seconds from a cell of the link at plan_index to the begin of that at the index target."""
        links, begin, seconds = self.mapping.links, cell, 0.0
        for link in bus.plan[plan_index:target]:
            seconds += max(0, links[link].cells - begin) / links[link].limit + self.mapping.nodes[links[link].end][3]
            begin = 0
        return seconds

    def approach_cells(self, visit: Visit) -> int:
        """How many cells before a stop the lanes begin to be looked at in each second."""
        link = self.mapping.links[visit.link]
        return APPROACH if len(link.lanes) > 1 else 2 * link.limit

    def road_at_stop(self, bus: Bus, visit: Visit) -> Road:
        """The link of a bus's stop, as BusAtStop takes it."""
        link = self.mapping.links[visit.link]
        if len(link.lanes) == 1 or visit.at + 1 == len(bus.plan):
            return Road(len(link.lanes), link.limit, link.cells)
        leads = [(visit.link, lane, bus.plan[visit.at + 1]) in self.turns for lane in (visit.lane, 1 - visit.lane)]
        return Road(2, link.limit, link.cells, (leads[0], leads[1]))

    def seconds_to_look(self, bus: Bus, plan_index: int, cell: int) -> int:
        """The fewest seconds, from a cell of the link at plan_index, until a bus is to be looked at. It must have a
        stop or a light to come."""
        seconds = []
        if bus.visits:
            visit = bus.visits[0]
            cells = visit.last - self.approach_cells(visit) - (cell if plan_index == visit.at else 0)
            to_link = self.seconds_to_link(bus, plan_index, cell, visit.at)
            seconds.append(to_link + cells / self.mapping.links[visit.link].limit)
        if bus.lights and not stops_before(bus, bus.lights[0]):
            seconds.append(self.seconds_to_light(bus, plan_index, cell, bus.lights[0]) - self.plan.seen_seconds)
        return max(0, int(min(seconds)))

    def attend(self, clock: int, bus: Bus, replies: Mapping[Place, Lane], ask_vehicles: Ask) -> None:
        """Looks at a bus on the link of its stop, by the replies on the lanes there: sets which cells are closed
        for it and when it is looked at next, and notes the stop where that is over. Where the bus is not there any
        more, the stop counts as missed if it stood at it, and the bus is asked, a second later, where it is."""
        stopping, visit = bus.stopping, bus.visits[0]
        assert stopping is not None
        lanes = {lane: seen_on(replies.get((visit.link, lane))) for lane in stopping.wants(clock)}
        spots = [(lane, vehicle) for lane, seen in lanes.items() for vehicle in seen if vehicle.car == bus.car]
        ends = clock >= (stopping.leaves if stopping.let_go_clock is None else stopping.let_go_clock)
        if stopping.standing_bus and (not ends or ask_vehicles([bus.owner])[0].car == bus.car):
            spots = [(stopping.lane, stopping.standing_bus)]
        if not spots:  # it was put down elsewhere, or left by the lane's end
            bus.stopping, bus.closed, bus.due = None, frozenset(), clock + 1
            if stopping.standing_bus:
                self.note_outcome(bus, StopOutcome(visit, MISSED, stopping.lane, stopping.arrived))
            return
        stopping.lane, vehicle = spots[0]
        bus.due = clock + stopping.decide_closed(clock, vehicle, lanes)
        bus.closed = frozenset((visit.link, lane, cell) for lane, cell in stopping.closed)
        if stopping.is_over:
            self.note_outcome(bus, StopOutcome(visit, stopping.state, stopping.lane, stopping.arrived, stopping.leaves))

    def note_outcome(self, bus: Bus, outcome: StopOutcome) -> None:
        """Keeps what became of a bus's next stop, which is then over for it."""
        bus.stopping = None
        bus.visits.pop(0)
        self.outcomes.append(outcome)

    def closing_commands(self, clock: int) -> Iterator[Command]:
        """The commands at a clock that close and open cells, so that just those are closed that buses need now, or
        works; they count as sent."""
        needed = frozenset().union(*(bus.closed for bus in self.buses.values()))
        shut = {one for one in self.closed - needed if self.is_at_works(clock, *one)}
        for command, cells in (("reopen", self.closed - needed - shut), ("close", needed - self.closed)):
            for link, lane, cell in sorted(cells):
                yield {"cmd": command, "link": link, "lane": lane, "first": cell, "last": cell}
        self.closed = needed

    def is_at_works(self, clock: int, link: int, lane: int, cell: int) -> bool:
        """Whether works have a cell closed at a clock."""
        on_lane = (closure for closure in self.works if (closure.link, closure.lane) == (link, lane))
        own = (closure for closure in on_lane if closure.first_cell <= cell <= closure.last_cell)
        return any(closure.begin <= clock < closure.end for closure in own)

    def stop_outcomes(self) -> list[StopOutcome]:
        """What became of all stops of vehicles in the run, those to come and those not made too; asked at its end."""
        outcomes_to_come = []
        for bus in self.buses.values():
            ahead = [StopOutcome(visit, UNREACHED) for visit in bus.visits]
            if (stopping := bus.stopping) and stopping.state == STANDING:
                ahead[0] = StopOutcome(stopping.visit, STANDING, stopping.lane, stopping.arrived)
            outcomes_to_come += ahead
        return [*self.outcomes, *outcomes_to_come, *(StopOutcome(visit, UNMADE) for visit in self.plan.unmade_visits)]


def stops_before(bus: Bus, light_ahead: LightAhead) -> bool:
    """Whether a bus has a stop to make before a light ahead."""
    return bool(bus.visits) and bus.visits[0].at <= light_ahead.plan_index


def seen_on(lane: Lane | None) -> list[SeenVehicle]:
    """The vehicles on a lane, by its reply; none where there is no reply."""
    return [SeenVehicle(*entry) for entry in lane.cells] if lane else []
