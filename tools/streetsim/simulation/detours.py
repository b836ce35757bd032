"""The controller that sends vehicles of a run under way round shut edges, also those on the road. A scenario has it;
`search.route_underway` reckons the new plans."""
from collections.abc import Sequence

from streetsim.kernel.loop import NEVER, Controller, Kernel
from streetsim.kernel.seconds import Block
from streetsim.model.rows import unbroken_stretches
from streetsim.search.route_underway import Diversion, PlannedVehicle, WaysRound, impassable_edges, turning_to
from streetsim.simulation.session import TraciSession


class Detours(Controller):
    """Vehicles that leave their plan for the quickest way round an edge. Each is taken out, and enters anew with
    another number in the program; one on the road does so where its new way begins. Vehicles are by the numbers of the
    fleet."""

    def __init__(self, simulation: TraciSession) -> None:
        """simulation: whose vehicles these are."""
        self.simulation = simulation
        self.turning: dict[int, Diversion] = {}  # those on the road who are to take another way

    def begin(self, kernel: Kernel) -> None:
        """Nobody is to take another way."""
        self.kernel = kernel

    def send_round(self, edge: str, until: float) -> list[str]:
        """Gives other ways to the vehicles that would come to an edge before the second until, where all its lanes are
        closed at one place now. Those that have not departed enter anew at once, those on the road when they are there.
        Gives their names; none where one can pass. Opens what merging holds closed. KeyError for an unknown edge."""
        simulation, fleet = self.simulation, self.simulation.fleet
        simulation.open_held_lanes()
        cells = self.kernel.closed.cells
        closed_cells = {lane: unbroken_stretches(cells[2 * lane[0] + lane[1]]) for lane in simulation.lanes_on(edge)}
        impassable = impassable_edges(simulation.map, [edge], closed_cells)
        if not impassable:
            return []
        self.kernel.enter_due(NEVER)
        routes_round = WaysRound(simulation.map, simulation.dawdle)
        waiting, driving = self.waiting_and_driving()
        seed, signals = simulation.source.load.command.get("seed", 0), simulation.signals_in_force.in_force()
        vehicles = [*waiting.values(), *driving.values()]
        plans = routes_round.new_plans(vehicles, signals, impassable, (simulation.clock, until), seed)
        for name, plan in plans.items():
            number = fleet.numbers[name]
            if number in driving:
                self.turn_later(number, plan)
            else:
                self.enter_anew(number, fleet.links_driven(number), plan, max(simulation.clock, fleet.departs[number]))
        return [name for name in fleet.names if name in plans]

    def plan_since_entry(self, number: int) -> tuple[int, ...]:
        """The links of a vehicle's plan as the program has it, from its last entering on."""
        return tuple(self.simulation.fleet.enters[number]["plan"])

    def waiting_and_driving(self) -> tuple[dict[int, PlannedVehicle], dict[int, PlannedVehicle]]:
        """(vehicles that have not departed, or wait for room; vehicles on the road)."""
        simulation, waiting, driving = self.simulation, {}, {}
        clock, fleet, positions = simulation.clock, simulation.fleet, simulation.view.positions
        for number, name in enumerate(fleet.names):
            plan = self.plan_since_entry(number)
            if number in positions:
                diversion, link = self.turning.get(number), positions[number].link
                if diversion and link in diversion.links_ahead:
                    plan = diversion.links_ahead + diversion.links_after
                driving[number] = PlannedVehicle(name, clock, plan[plan.index(link) :])
            elif not simulation.view.has_ended[number]:
                waiting[number] = PlannedVehicle(name, max(clock, fleet.departs[number]), plan)
        return waiting, driving

    def turn_later(self, number: int, new_plan: tuple[int, ...]) -> None:
        """Notes that a vehicle on the road leaves its plan for a new one, which begins on its present link, in place
        of what was noted before; nothing where that is its plan."""
        plan = self.plan_since_entry(number)
        plan = plan[plan.index(self.simulation.view.positions[number].link) :]
        self.turning.pop(number, None)
        if new_plan != plan:
            self.turning[number] = turning_to(plan, new_plan, self.simulation.clock)

    def next_clock(self) -> int:
        """The clock at which the next vehicle may be where its way begins."""
        return min((diversion.due for diversion in self.turning.values()), default=NEVER)

    def act(self, clock: int, _now: Block) -> None:
        """Has the vehicles that are where their other way begins enter its first link anew, and sets for the others
        when to look again; those that have ended, or left the links ahead, are forgotten."""
        for number in [number for number, diversion in self.turning.items() if diversion.due <= clock]:
            diversion, position = self.turning[number], self.simulation.view.positions.get(number)
            if position is None or position.link not in diversion.links_ahead:
                del self.turning[number]
            elif position.cell is not None or position.link != diversion.links_ahead[-1]:
                diversion.due = clock + diversion.least_steps(self.simulation.map.links, position.link, position.cell)
            else:
                del self.turning[number]
                fleet = self.simulation.fleet
                driven = fleet.plans[number].index(position.link, fleet.links_driven(number)) + 1
                self.enter_anew(number, driven, diversion.links_after, clock)

    def enter_anew(self, number: int, driven: int, links: Sequence[int], depart: int) -> None:
        """Takes a vehicle out, and enters it on other links at the clock depart. driven: how many links of its
        plan stay before these."""
        plans = self.simulation.fleet.plans
        plans[number] = (*plans[number][:driven], *links)
        self.simulation.enter_anew(number, links, depart)
