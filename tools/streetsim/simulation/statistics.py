"""What a session gave, in SUMO's last lines, and what speaks against it."""
from collections import defaultdict
from collections.abc import Iterator, Sequence
from dataclasses import dataclass
from statistics import fmean
from typing import NamedTuple

from streetsim.control.bus_fleet import dwells
from streetsim.model import trust
from streetsim.model.freeflow import Alone, FreeFlow
from streetsim.model.knots import knots_of
from streetsim.simulation.session import TraciSession


class WaitingCount(NamedTuple):
    """How many vehicles waited to enter at a clock."""

    clock: int
    waiting: int


@dataclass(frozen=True, slots=True)
class Statistics:
    """Of the vehicles that arrived the means that SUMO tells, metres and seconds; and where the others are."""

    arrived: int
    means: dict[str, float]  # by SUMO's name; empty where nobody arrived
    inserted: int
    running: int
    waiting: int

    def lines(self, with_means: bool) -> Iterator[str]:
        """SUMO's lines on vehicles and, where with_means, its statistics."""
        yield from ("Vehicles:", f" Inserted: {self.inserted}", f" Running: {self.running}")
        yield f" Waiting: {self.waiting}"
        if with_means and self.means:
            yield f"Statistics (avg of {self.arrived}):"
            yield from (f" {name}: {mean:.2f}" for name, mean in self.means.items())


def statistics_of(session: TraciSession) -> Statistics:
    """The statistics of a session at its clock, of the same figures as those of a tripinfo file."""
    view, fleet, tally, links = session.view, session.fleet, session.tally, session.map.links
    alone, stood = Alone(session.map, session.dawdle), dwells(session.steering.buses.fleet.stop_outcomes())
    numbers, travelled = [number for number in range(len(fleet.names)) if view.arrival[number]], tally.travelled
    rows: defaultdict[str, list[float]] = defaultdict(list)
    for number in numbers:
        plan, stops = fleet.plans[number], stood.get(number, ())
        depart = int(view.departure[number])
        seconds, first_cell = int(view.arrival[number]) - depart, links[plan[0]].metres / links[plan[0]].cells
        metres = float(travelled[number]) + links[plan[-1]].metres - first_cell
        free = sum(alone.on_link(link, link) for link in plan) + sum(alone.across(link) for link in plan[:-1])
        rows["RouteLength"].append(metres)
        rows["Speed"].append(metres / seconds)
        rows["Duration"].append(seconds)
        rows["WaitingTime"].append(max(0, int(tally.waited[number]) - sum(visit.stood for visit in stops)))
        rows["TimeLoss"].append(max(0.0, seconds - free - sum(visit.seconds for visit in stops)))
        rows["DepartDelay"].append(depart - fleet.departs[number])
    means = {name: fmean(values) for name, values in rows.items()}
    inserted = int(view.has_departed[: len(fleet.names)].sum())
    return Statistics(len(numbers), means, inserted, len(view.numbers), len(session.waiting_to_depart()))


def doubts_of(session: TraciSession, waiting_by_minute: Sequence[WaitingCount]) -> list[str]:
    """What speaks against a session at its clock, a text each; waiting_by_minute: of each minute."""
    view, fleet, mapping = session.view, session.fleet, session.map
    free, rows = FreeFlow(mapping, session.dawdle), []
    for number, name in enumerate(fleet.names):
        arrival, depart = int(view.arrival[number]), fleet.departs[number]
        if arrival or not view.has_ended[number]:
            arrival_and_seconds = (arrival, arrival - depart) if arrival else ("", "")
            rows.append((name, depart, *arrival_and_seconds, free(fleet.plans[number])))
    trips = trust.trips_at(session.clock, session.source.start(), rows)
    rescue, listed = session.steering.rescue, session.settings.lights.listed_lights(mapping)
    rescues = rescue.count.total(), knots_of(rescue.rescued, mapping)
    doubts = trust.doubts(trips, rescues, waiting_by_minute, session.source, mapping, listed)
    full, nearly_full = session.steering.yielding.full_passages()
    doubts += trust.crowding_doubts(trips.vehicles, {**session.yielding.crowded, **nearly_full})
    return [*doubts, *trust.gap_doubts(trips.vehicles, full)]
