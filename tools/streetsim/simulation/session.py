"""The session of a script: a run of the program whose script adds, removes and reroutes vehicles, closes lanes and sets
lights. TraCI's is of SUMO's files (`opening` makes it); a scenario's is of a run file and its map."""
from collections.abc import Iterable, Mapping, Sequence
from contextlib import ExitStack
from dataclasses import replace
from functools import cached_property, partial
from math import ceil
from operator import attrgetter

from streetsim.base.arrays import numpy as np
from streetsim.base.client import read_reply
from streetsim.base.files import note_kept
from streetsim.base.program import find_program
from streetsim.control.actuated_driver import Driver
from streetsim.control.merging_links import Merges
from streetsim.control.steering import Steering
from streetsim.kernel.loop import NEVER, Controller, Kernel, own_line
from streetsim.kernel.seconds import Block
from streetsim.kernel.serving import serving_program
from streetsim.model.inside import Inside
from streetsim.model.mapping import Map, Place
from streetsim.model.replications import drawn
from streetsim.model.runs import Command, Line, Run
from streetsim.model.stops import STANDING, Visit
from streetsim.observe.giving_way_rounds import giving_way
from streetsim.observe.sumo_kinds import OutputFile
from streetsim.observe.sumo_writing import Outputs
from streetsim.simulation.client import OwnProgram, RunClient, ScriptKernel
from streetsim.simulation.columns import LaneColumns, Streets, VehicleColumns
from streetsim.simulation.connections import Connections
from streetsim.simulation.deeds import Deeds, Doer, deed
from streetsim.simulation.errors import FatalTraCIError, TraCIException
from streetsim.simulation.fleet import Fleet
from streetsim.simulation.lights import Control
from streetsim.simulation.script_settings import ScriptSettings
from streetsim.simulation.shortest_paths import ShortestPaths
from streetsim.simulation.signals_in_force import SignalsInForce
from streetsim.simulation.street_facts import Facts
from streetsim.simulation.tally import LoopTally, Tally
from streetsim.simulation.types import TypesByVehicle
from streetsim.simulation.vehicle_points import VehiclePoints
from streetsim.simulation.view import FleetSecond, View
from streetsim.simulation.writing import Files

MADE_ONCE_ASKED = frozenset(("paths", "vehicle_points", "streets", "vehicle_columns", "lane_columns"))


class SessionKernel(ScriptKernel):
    """The kernel of a run under TraCI."""

    def refusal(self, line: Line, reply: bytes) -> Exception:
        """FatalTraCIError, as the run cannot go on."""
        return FatalTraCIError(f"streetsim refused {line.text[:60]!r}: {read_reply(reply)}")


class TraciSession(Doer):
    """A run of the program: its map, clock, vehicles, lanes and lights. At each clock at which a script stops it comes
    before what controllers do there (after_script), but for merging and buses (before_script): these have acted."""

    kernel_of: type[ScriptKernel] = SessionKernel
    part = "session"

    def __init__(
        self, source: Run, mapping: Map, script_settings: ScriptSettings, facts: Facts | None = None,
        options: Mapping[str, str] | None = None,
    ) -> None:  # fmt: skip
        """facts: of SUMO's files, options: of SUMO's command line; None: there are none. Fault where a round fails or
        there is no program, what the kernel's `refusal` gives where a first line is refused."""
        if script_settings.drawn:
            source, mapping = drawn(source, mapping)
        self.script_settings, self.map, self.inside = script_settings, mapping, Inside(mapping)
        self.facts, self.options = facts or Facts(), options or {}
        self.detectors = {detector.name: detector for detector in mapping.detectors}
        self.settings = script_settings.settings(source, mapping)
        program, workers = script_settings.program, script_settings.workers
        rounds = partial(serving_program, program, source.path, workers)
        with_rounds = giving_way(source, mapping, self.settings, script_settings.rounds, rounds, lambda *_: None)
        self.source, self.yielding = with_rounds
        self.notes = [*self.settings.lights.notes(), *self.settings.buses.notes()]
        self.connections, self.edges = Connections(mapping), [link.edge for link in mapping.links]
        self.lane_of = {mapping.lane_name(link, lane): (link, lane) for link, lane in mapping.lanes()}
        self.program_and_workers = find_program(program), workers
        self.writer: Outputs | None = None  # of SUMO's output files
        self.start()

    def start(self) -> None:
        """Starts the program, and has the run begin; nothing is done by a script."""
        mapping = self.map
        self.types, self.deeds = TypesByVehicle(mapping), Deeds()
        self.of_file = list(self.source.enters)
        self.source.enters = self.lines = list(self.of_file)
        self.pending: dict[int, tuple[int, Sequence[int]]] = {}  # by vehicle: a link, and other links after its end
        self.routes: dict[str, Sequence[int]] = {}  # those that a script adds: links
        for name in self.__dict__.keys() & MADE_ONCE_ASKED:
            del self.__dict__[name]
        self.steering, self.merging = Steering(self.source, mapping, self.settings), self.settings.merging
        self.signals_in_force = SignalsInForce(mapping, (line.command for line in self.source.first))
        self.steering.timed.left_out = self.signals_in_force.forgotten
        self.program = OwnProgram(*self.program_and_workers)
        self.kernel = self.kernel_of(self.program, self.source, mapping, [], [])
        self.fleet, self.view = Fleet(self.source, mapping, self.kernel.vehicles), View(mapping)
        self.tally = Tally(self.view, self.fleet, mapping.links, self.inside, self.dawdle)
        self.loops = LoopTally([detector for detector in mapping.detectors if detector.kind == "e1"])
        self.place_controllers()
        self.kernel.observers = self.script_settings.observers
        self.forget_steps()
        try:
            self.kernel.begin(NEVER)
        except BaseException:
            self.kill()
            raise

    def place_controllers(self) -> None:
        """Gives the kernel its controllers: those that act before a script, and those that act after it."""
        of_files = self.facts.lights_at({light for light, _ in self.map.signals})
        lights = {
            name: replace(light, programs=dict(light.programs), scripted=set()) for name, light in of_files.items()
        }
        offsets = self.facts.offsets
        self.control = Control(self.kernel, self.signals_in_force, self.driver, lights, offsets, self.deeds)
        self.turning = TurningVehicles(self)
        controllers, index = self.steering.controllers, self.steering.controllers.index(self.steering.lights)
        self.before_script = [*controllers[:index], self.turning]
        of_script = self.script_settings.controllers
        after = [self.control, *self.further_controllers(), *controllers[index:], self.signals_in_force, *of_script]
        self.after_script = sorted(after, key=attrgetter("shows_alone"))  # who gives way sees what all others show
        self.kernel.controllers = [*self.before_script, *self.after_script]

    def further_controllers(self) -> Iterable[Controller]:
        """Further controllers that act behind a script, before lights."""
        return ()

    def restart(self) -> None:
        """Has the run begin anew, and with it the output files. ProgramEnded where the program failed, Fault where a
        file cannot be written."""
        self.program.client.close()
        self.source.enters = self.of_file
        self.start()
        if self.writer is not None:
            self.writer.discard()
            self.write(self.written)

    def forget_steps(self) -> None:
        """Forgets what the steps of the last call of step gave."""
        self.view.clear()
        self.loaded: list[str] = []  # names of those that were told in these steps
        # Those who came to stand at stops of theirs in them, and who left such stops.
        self.began_stops: set[int] = set()
        self.ended_stops: set[int] = set()

    @cached_property
    def paths(self) -> ShortestPaths:
        """Shortest ways between edges."""
        return ShortestPaths(self.kernel, self.inside, self.view, self.facts)

    @cached_property
    def vehicle_points(self) -> VehiclePoints:
        """Where vehicles are in the plane."""
        return VehiclePoints(self.view, self.map)

    @cached_property
    def streets(self) -> Streets:
        """What links are, as columns."""
        return Streets(self.map)

    @cached_property
    def vehicle_columns(self) -> VehicleColumns:
        """Values of many vehicles."""
        return VehicleColumns(self.view, self.tally, self.vehicle_points, self.streets)

    @cached_property
    def lane_columns(self) -> LaneColumns:
        """Values of many lanes."""
        return LaneColumns(self.view, self.tally, self.fleet, self.streets, self.facts, self.lane_of)

    @property
    def clock(self) -> int:
        """The seconds that the run has come to."""
        return self.kernel.clock

    @property
    def dawdle(self) -> float:
        """The chance, 0 to 1, that a vehicle goes on by a cell less in a step."""
        return self.source.load.command.get("dawdle", 0) / 1000

    @property
    def driver(self) -> Driver:
        """What drives lights by detectors."""
        return self.steering.driver

    @property
    def merges(self) -> Merges:
        """Where vehicles merge by turns."""
        return self.steering.merging.merges

    @property
    def client(self) -> RunClient:
        """A client of the program. Steps are made by `step`."""
        return self.program.client

    def write(self, wished: Sequence[OutputFile]) -> list[str]:
        """Has SUMO's output files written from now on, the run's begin. Gives a text on each that cannot be written;
        Fault where that is one that is needed."""
        self.written = wished
        self.writer = Outputs(wished, self.map, self.dawdle, 0, self.clock, self.steering.rescue.clocks)
        files = Files(self.writer, self.steering.buses, self.types)
        files.begin(self.kernel)
        self.kernel.observers = [*self.kernel.observers, files]
        return self.writer.unopened

    def step(self, time: float = 0) -> None:
        """Makes one step (time 0), or all until the clock is at time seconds, rounded up, as in SUMO; then the lists of
        who was loaded, departed and arrived are of these steps alone."""
        first_new, self.loaded, stood = self.kernel.entered, [], self.at_stops()
        self.view.clear()
        self.go_to(ceil(time) if time else self.clock + 1)
        self.loaded += self.fleet.names[first_new : self.kernel.entered]
        stands = self.at_stops()
        self.began_stops, self.ended_stops = stands - stood, stood - stands

    def go_to(self, target: int) -> None:
        """Makes the steps until the clock is at target."""
        while self.clock < target:
            self.kernel.act_due(self.after_script)
            self.kernel.make_steps(target)
            self.observe_steps()
            self.kernel.act_due(self.before_script)

    def observe_steps(self) -> None:
        """Has all who look at each second do so for the last steps."""
        (begins, data), owner = self.kernel.part, self.kernel.vehicles.owner
        steps = len(begins) - 1
        for step in range(steps):
            block = self.kernel.last_second if step + 1 == steps else Block((begins[: step + 2], data))
            arrived, slots_left, _ = block.arrived
            clock, vehicles = self.clock - steps + step + 1, owner[block.car]
            second = FleetSecond(clock, vehicles, block.slot, block.cell, block.speed, owner[arrived], slots_left)
            for observer in (self.tally, self.loops, self.view):
                observer.note_second(second)

    def finish(self) -> None:
        """Ends the run; what is due at its last clock is done as at that of a run, and output files get their names.
        ProgramEnded where the program failed."""
        with ExitStack() as ending:
            if self.writer is not None:
                ending.callback(note_kept, "the outputs")
                ending.callback(self.writer.close)
            ending.callback(self.program.client.close)
            self.kernel.until = self.clock
            self.kernel.act_due(self.after_script)
            self.kernel.end()

    def kill(self) -> None:
        """Ends the program at once."""
        self.program.process.kill()
        self.program.client.end()

    @property
    def departed(self) -> tuple[str, ...]:
        """The names of those who departed in the steps of the last call of step."""
        return self.names_of(self.view.departed)

    @property
    def arrived(self) -> tuple[str, ...]:
        """The names of those who arrived in them."""
        return self.names_of(self.view.arrived)

    def waiting_to_depart(self) -> list[int]:
        """The vehicles that should have departed before now, and found no room."""
        view, enters, vehicles = self.view, self.fleet.enters, np.fromiter(self.kernel.vehicles.car, int)
        waiting = vehicles[~view.has_departed[vehicles] & ~view.has_ended[vehicles]].tolist()
        return [number for number in waiting if enters[number]["depart"] < self.clock]

    # Stops of vehicles of the file

    def stops_to_come(self, number: int) -> list[Visit]:
        """The stops that a vehicle is to make, the one where it stands among them."""
        bus = self.steering.buses.fleet.buses.get(number)
        return bus.visits if bus else []

    def stop_of(self, number: int) -> Visit | None:
        """The stop of its own at which a vehicle stands; None where it stands at none."""
        return self.stops_to_come(number)[0] if number in self.at_stops() else None

    def at_stops(self) -> set[int]:
        """The vehicles that stand at stops of their own."""
        buses = self.steering.buses.fleet.buses
        return {number for number, bus in buses.items() if bus.stopping and bus.stopping.state == STANDING}

    # Vehicles

    def enter(self, name: str, plan: Iterable[int], lane: int, depart: int, size: int = 1) -> None:
        """Enters a vehicle of the script. plan: links; lane: of the first; depart: clock; size: cells."""
        command = enter_command(plan, lane, depart, size)
        self.kernel.enter(len(self.fleet.names), command)
        self.fleet.add(name, command)

    def enter_anew(self, number: int, links: Sequence[int], depart: int) -> None:
        """Takes a vehicle out and enters it with another plan, as plans do not change in the program. The links before
        must be in the fleet's plan, with these behind them."""
        lane, size = self.connections.departure_lane(links), self.fleet.size(number)
        self.kernel.reenter(self.kernel.vehicles.car[number], enter_command(links, lane, depart, size))
        self.fleet.enters[number] = enter_command(links, lane, depart, size)
        self.steering.buses.let_go(number)

    def take_out(self, number: int) -> None:
        """Takes out a vehicle that the program was told of and that has not ended."""
        self.kernel.take_out(self.kernel.vehicles.car[number])
        self.view.remove(number)
        self.steering.buses.let_go(number)

    def plan(self, name: str) -> Sequence[int]:
        """The numbers of the links of a vehicle's plan, driven ones among them; KeyError for an unknown vehicle."""
        return self.fleet.plans[self.fleet.numbers[name]]

    def names_of(self, numbers: Iterable[int]) -> tuple[str, ...]:
        """The names of vehicles."""
        names = self.fleet.names
        return tuple(names[number] for number in numbers)

    def count_not_ended(self) -> int:
        """How many vehicles have not ended, those among them of which the program was not told yet."""
        return len(self.fleet.names) - self.view.count

    def edge_names(self, links: Iterable[int]) -> tuple[str, ...]:
        """SUMO's name of the edge of each link."""
        edges = self.edges
        return tuple([edges[link] for link in links])

    def has_ended(self, name: str) -> bool:
        """Whether a vehicle of a name has ended."""
        return name in self.fleet.numbers and bool(self.view.has_ended[self.fleet.numbers[name]])

    @deed
    def add(self, name: str, route: str, kind: str, depart: int) -> bool:
        """Adds a vehicle of a script; gives whether it has the name of one that has ended. route, kind: names of its
        route and of a known type; depart: clock. TraCIException where its name is taken, also by one that is to come,
        and as of route_links."""
        is_reused = name in self.fleet.numbers
        if is_reused and not self.has_ended(name):
            raise TraCIException(f"Vehicle '{name}' exists already.")
        plan = self.route_links(route)
        self.enter(name, plan, self.connections.departure_lane(plan), depart, self.types.cells_of_type(kind))
        self.types.kind_of[name], self.types.route_of[name] = kind, route
        self.loaded.append(name)
        if self.writer is not None:
            self.writer.expect_vehicle(self.fleet.numbers[name], name, depart, kind)
        return is_reused

    @deed
    def remove(self, name: str) -> None:
        """Takes out a vehicle that the program was told of and that has not ended."""
        number = self.fleet.numbers[name]
        self.take_out(number)
        self.pending.pop(number, None)

    @deed
    def name_route(self, name: str, links: Sequence[int]) -> None:
        """Names a route of the script along links."""
        self.routes[name] = links

    @deed
    def note_route(self, name: str, route: str) -> None:
        """Notes that a vehicle has a route of another name."""
        self.types.route_of[name] = route

    @deed
    def adapt(self, edge: str, seconds: float | None) -> None:
        """Sets the seconds with which an edge counts for ways; None: those of its traffic again."""
        self.paths.set_edge_seconds(edge, seconds)

    def route_links(self, name: str) -> Sequence[int]:
        """The numbers of the links of a named route; TraCIException for an unknown one or one without a connection."""
        if name in self.routes:
            return self.routes[name]
        if name not in self.facts.routes:
            raise TraCIException(f"Route '{name}' is not known.")
        try:
            return self.connections.plan_along(self.facts.routes[name])
        except ValueError as fault:
            raise TraCIException(f"Route '{name}': {fault}") from None

    # Other plans: a vehicle enters anew where its other way begins, and is the same one for all calls

    def plan_ahead(self, name: str) -> Sequence[int]:
        """The numbers of the links of a vehicle's plan, from the one where it is on; it must be on the road."""
        number = self.fleet.numbers[name]
        return self.fleet.plans[number][self.tally.position(number) :]

    @deed
    def replan(self, name: str, links: Sequence[int]) -> None:
        """Has a vehicle that has not ended go on along other links, from the one where it is or will depart on. One on
        the road takes them from the node behind that link on; one that waits to depart enters anew at once."""
        number, plans = self.fleet.numbers[name], self.fleet.plans
        if self.fleet.car(name) is None:
            self.replan_before_entry(name, links)
        elif (position := self.view.positions.get(number)) is None:
            plans[number] = links
            self.enter_anew(number, links, max(self.clock, self.fleet.enters[number]["depart"]))
        else:
            plans[number] = (*plans[number][: self.tally.position(number) + 1], *links[1:])
            self.pending[number] = position.link, links[1:]
            self.turning.act(self.clock, self.kernel.last_second)

    def replan_before_entry(self, name: str, links: Sequence[int]) -> None:
        """Has a vehicle that the program was not told of enter with another plan."""
        number, lane = self.fleet.numbers[name], self.connections.departure_lane(links)
        line = own_line({**self.fleet.enters[number], "plan": list(links), "lane": lane})
        self.lines[number] = replace(self.of_file[number], text=line.text, command=line.command)
        self.fleet.enters[number], self.fleet.plans[number] = line.command, links
        self.steering.buses.let_go(number)

    def turn_off(self, number: int, link: int, links: Sequence[int]) -> None:
        """Has a vehicle whose other links begin behind a link, where it has not come to their begin, wait for that;
        there it enters the first of them, or, where there are none, is taken out, and arrives in the next step."""
        position = self.view.positions.get(number)
        if position is None or position.link != link:
            del self.pending[number]
        elif position.cell is None:
            del self.pending[number]
            if links:
                self.enter_anew(number, links, self.clock)
                self.view.note_reentry(number, 2 * position.link + position.lane)
            else:
                self.take_out(number)
                self.view.leaving.append(number)

    # Lanes

    def lanes_on(self, edge: str) -> list[Place]:
        """All (link, lane) of an edge; KeyError for an unknown one."""
        return self.map.lanes(self.map.links_of[edge])

    @deed
    def close_lane(self, lane: str, begin: float = 0.0, end: float | None = None) -> None:
        """Closes a lane, by SUMO's name, from begin to end metres (None: the lane's end), as road works do, in whole
        cells; the first four of a lane with another beside it stay open as far as the works allow. ValueError for
        metres beyond the lane, or an end not after the begin; KeyError for an unknown lane."""
        command: Command = {"cmd": "close", **self.works_fields(lane, begin, end)}
        if self.merging:
            self.steering.merging.add_link(command["link"])
        self.kernel.pass_on([own_line(command)])

    @deed
    def reopen_lane(self, lane: str, begin: float = 0.0, end: float | None = None) -> None:
        """Opens what close_lane closed, with the same lane and metres; raises as that does."""
        self.kernel.pass_on([own_line({"cmd": "reopen", **self.works_fields(lane, begin, end)})])

    def stop_merging(self) -> None:
        """From now on a vehicle before works waits for a gap, and none merge by turns."""
        self.merging = False
        self.steering.merging.stop()

    @deed
    def open_held_lanes(self) -> None:
        """Opens what merging holds closed, until it closes that again."""
        self.kernel.send(self.merges.reopening_commands())

    def works_fields(self, lane: str, begin: float, end: float | None) -> Command:
        """The fields link, lane, first and last (cells) of a close or reopen command. A lane may be closed to the whole
        metre in which it ends, as streetsim-run --close allows; raises as close_lane does."""
        number, index = self.lane_of[lane]
        link = self.map.links[number]
        end_metres = link.metres if end is None else end
        if begin >= link.metres:
            raise ValueError(f"lane {lane!r} ends at {link.metres:g} m, before {begin:g} m")
        if not 0 <= begin < end_metres:
            raise ValueError(f"lane {lane!r}: from {begin:g} m to {end_metres:g} m there are no works")
        if end_metres > ceil(link.metres):
            raise ValueError(f"lane {lane!r} ends at {link.metres:g} m, before {end_metres:g} m")
        cells = link.closed_between(begin, end_metres)
        return {"link": number, "lane": index, "first": cells[0], "last": cells[1]}


class TurningVehicles(Controller):
    """Has the vehicles of a session that are to take another way do so at the node where it begins."""

    def __init__(self, session: TraciSession) -> None:
        """session: whose vehicles these are."""
        self.session = session

    def begin(self, kernel: Kernel) -> None:
        """Nobody is to take another way."""
        self.clock = kernel.clock

    def next_clock(self) -> int:
        """The next second, where anybody is to take another way."""
        return self.clock + 1 if self.session.pending else NEVER

    def act(self, clock: int, _now: Block) -> None:
        """Looks at all who are to take another way."""
        self.clock = clock
        for number, (link, links) in list(self.session.pending.items()):
            self.session.turn_off(number, link, links)


def enter_command(plan: Iterable[int], lane: int, depart: int, size: int) -> Command:
    """The command that enters a vehicle; arguments: as of TraciSession.enter."""
    command = {"cmd": "enter", "plan": list(plan), "lane": lane, "depart": depart}
    return command | {"size": size} if size != 1 else command
