"""The stops of a run that are made, and the lights that wait for vehicles with priority."""
from collections import defaultdict
from collections.abc import Iterator, Mapping
from dataclasses import dataclass, field
from functools import partial

from streetsim.base import limits
from streetsim.base.report import first_few
from streetsim.control.works_closures import Closure, closures_of
from streetsim.model.mapping import Map
from streetsim.model.runs import Run
from streetsim.model.stops import Visit

SEEN_SECONDS, MOST_SEEN = 15, 60  # seconds before a stop line: where nothing else is asked, and that may be asked for
OTHER_WAY = "as the run has another way for them than the map"
AT_WORKS = "as their lane is closed there by road works, which end after the vehicle departs"


@dataclass(frozen=True, slots=True)
class LightAhead:
    """A light on a vehicle's way that waits for it."""

    plan_index: int  # the index in its plan of the link before the light
    light: str
    phases: frozenset[int]  # in which its movement is green


@dataclass(frozen=True, slots=True)
class Planned:
    """The stops that a run makes, and the lights that wait for vehicles. lights_ahead: by vehicle with priority, those
    on its way."""

    visits: tuple[Visit, ...] = ()
    unmade: Mapping[str, tuple[str, ...]] = field(default_factory=dict)  # by reason, vehicle at stop
    unmade_visits: tuple[Visit, ...] = ()  # those of unmade whose vehicles are in the run
    lights_ahead: Mapping[int, tuple[LightAhead, ...]] = field(default_factory=dict)
    seen_seconds: int = 0  # seconds before a stop line from which on lights wait for them
    priority_notes: tuple[str, ...] = ()  # of priority

    def notes(self) -> Iterator[str]:
        """The texts to tell: what lights do for vehicles with priority, and which stops are not made, by reason."""
        yield from self.priority_notes
        for why, names in self.unmade.items():
            yield f"{len(names):,} stops of vehicles are not made, {why}: {first_few(names)}"


NONE = Planned()  # nobody stops


def planned(run: Run, mapping: Map) -> Planned:
    """The stops of a map that a run makes: those on the ways of its vehicles, but for those at road works; the others
    are in unmade, by reason. No lights wait for anybody yet."""
    plans = [line.command["plan"] for line in run.enters]
    visits: list[Visit] = []
    unmade_visits: list[Visit] = []
    unmade: defaultdict[str, list[str]] = defaultdict(list)
    closed = closures_of(run, limits.CLOCK) if mapping.visits else []
    for visit in mapping.visits:
        plan = plans[visit.vehicle] if visit.vehicle < len(plans) else ()
        if visit.at >= len(plan) or plan[visit.at] != visit.link:
            why = OTHER_WAY
        elif any(map(partial(meets, visit, run.enters[visit.vehicle].command["depart"]), closed)):
            why = AT_WORKS
        else:
            visits.append(visit)
            continue
        unmade[why].append(f"{mapping.cars[visit.vehicle]} at {visit.stop}")
        unmade_visits += [visit] if plan else []
    return Planned(tuple(visits), {why: tuple(names) for why, names in unmade.items()}, tuple(unmade_visits))


def meets(visit: Visit, depart: int, closed: Closure) -> bool:
    """Whether a closed stretch has cells of a stop, or the cell beyond it, and ends after the vehicle departs, whenever
    it begins; depart: the clock at which it does."""
    at_stop = (closed.link, closed.lane) == (visit.link, visit.lane)
    return at_stop and closed.first_cell <= visit.last + 1 and closed.last_cell >= visit.first and closed.end > depart
