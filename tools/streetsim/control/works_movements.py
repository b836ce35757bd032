"""Movements that lose their lane: works close the only lanes from which SUMO's network lets them turn.

Turns cannot come and go in a run. So where the closed lanes are a link of their own, as before a turn pocket, the plans
of those who come while the works last lead over the lanes beside, which have the turn for them alone. On a joint link
each lane leads to each next link for the whole run, as the import adds turns. Or nobody is led: who would turn there
waits until the works end, and may have been given another way before.
"""
import json
from collections import defaultdict
from collections.abc import Collection, Iterable, Iterator, Sequence
from dataclasses import dataclass, replace
from functools import partial
from itertools import product

from streetsim.base.report import first_few
from streetsim.control.works_asked import Site
from streetsim.control.works_closures import Closure
from streetsim.control.works_crowding import Times, coming
from streetsim.model.mapping import Map, Place
from streetsim.model.runs import Command, Line, Run

CELLS_BEHIND = 4  # cells behind works in which one can still come back to the lane
LOST = ("lead", "wait", "bar")  # what those do who lose their lane

TurnKey = tuple[int, int, int]  # link, lane, next link
Movement = tuple[str, str]  # an edge and the next


@dataclass(slots=True, frozen=True)
class Lost:
    """A movement whose lanes are all closed by works."""

    movement: Movement
    lanes: tuple[Place, ...]  # from which SUMO's network lets one turn, all closed
    open_lanes: tuple[Place, ...]  # open ones from which turns were added
    vehicles: int  # that come while all are closed

    def is_joint(self) -> bool:
        """Whether those who turn can be led from the other lane of the same link, not of another link beside."""
        return bool(self.open_lanes) and self.open_lanes[0][0] == self.lanes[0][0]


def lost_movements(run: Run, mapping: Map, closures: Collection[Closure]) -> list[Lost]:
    """The movements of lost_times, with who would take them meanwhile; those that nobody would are left out."""
    ended, usual_lanes, added = closed_ends(closures, mapping), lanes_of(mapping, False), lanes_of(mapping, True)
    lost = []
    for movement, times in lost_times(closures, mapping).items():
        others = sorted(added.get(movement, set()) - ended.keys())
        if count := coming(run, mapping, product(*(mapping.links_of[edge] for edge in movement)), times):
            lost.append(Lost(movement, tuple(sorted(usual_lanes[movement])), tuple(others), count))
    return lost


def closures_at(sites: Iterable[Site]) -> list[Closure]:
    """The closed stretches that works on sites make, with their clocks."""
    return [Closure(site.link, site.lane, *site.cells, site.works.begin, site.works.end) for site in sites]


def closed_ends(closures: Iterable[Closure], mapping: Map) -> dict[Place, list[Times]]:
    """By lane, (link, lane), the times at which it is closed so near to its end that nobody can come back to it behind
    the works; they rise, with open ones between. Lanes without any are left out."""
    by_lane: defaultdict[Place, list[Times]] = defaultdict(list)
    for closure in sorted(closures, key=lambda closure: closure.begin):
        if mapping.links[closure.link].cells - 1 - closure.last_cell < CELLS_BEHIND:
            times = by_lane[closure.link, closure.lane]
            first, last = times.pop() if times and closure.begin <= times[-1][1] else (closure.begin, closure.end)
            times.append((first, max(last, closure.end)))
    return by_lane


def lanes_of(mapping: Map, added: bool) -> dict[Movement, set[Place]]:
    """The lanes, (link, lane), from which each movement starts: by turns that SUMO's network has (added False), or by
    turns that were added to it (added True)."""
    found: defaultdict[Movement, set[Place]] = defaultdict(set)
    for turn in mapping.turns:
        if turn.added == added:
            found[mapping.links[turn.link].edge, mapping.links[turn.next].edge].add((turn.link, turn.lane))
    return found


def lost_times(closures: Iterable[Closure], mapping: Map) -> dict[Movement, list[Times]]:
    """By movement the times, rising, at which all its lanes are closed at their end. Edges of which each lane is closed
    there at some time, if not all at once, are left out."""
    by_movement, ended = {}, closed_ends(closures, mapping)
    for movement, lanes in lanes_of(mapping, False).items():
        every = set(mapping.lanes(mapping.links_of[movement[0]]))
        if lanes <= ended.keys() and not every <= ended.keys():
            if times := list(in_common(ended[lane] for lane in lanes)):
                by_movement[movement] = times
    return by_movement


def in_common(times: Iterable[Sequence[Times]]) -> Iterator[Times]:
    """The times that lie in one of each list, whose times rise and do not overlap; nor do those that are given."""
    for together in product(*times):
        first, last = max(first for first, _ in together), min(last for _, last in together)
        if first < last:
            yield first, last


def told_of_lost(lost: Iterable[Lost], mapping: Map, how: str, searched: bool = False) -> Iterator[str]:
    """What is said of each movement that loses its lane, a text each. how: of LOST; searched: whether ways round are
    searched where the movement is barred."""
    for one in lost:
        lanes = first_few([mapping.lane_name(*lane) for lane in one.lanes])
        only = "the only lane" if len(one.lanes) == 1 else "the only lanes"
        who = f"{one.vehicles:,} vehicles turn to {one.movement[1]} while they last"
        yield f"works on {lanes} close {only} from which {who}: {what_those_do(one, mapping, how, searched)}"


def what_those_do(lost: Lost, mapping: Map, how: str, searched: bool) -> str:
    """What those do who lose their lane, as the end of a sentence; how, searched: as of told_of_lost."""
    if how == "lead" and lost.open_lanes:
        beside = mapping.lane_name(*min(lost.open_lanes, key=partial(lanes_apart, lost.lanes[0], mapping)))
        time = "from which all may turn in the whole run" if lost.is_joint() else "for that time alone"
        return f"these are led from {beside}, {time} (--lost wait: they wait until the works end)"
    if how == "bar":
        ways = "ways round are searched for vehicles that come meanwhile"
        none = "with --lost bar these have no way, and wait until the works end; streetsim-route --close .. --lost bar"
        return ways if searched else f"{none} finds ways for them, and --lost lead leads them from the lane beside"
    return "these wait until the works end" + (", as no lane beside leads there" if how == "lead" else "")


def lanes_apart(first_place: Place, mapping: Map, second_place: Place) -> int:
    """How far apart two lanes of an edge, each a (link, lane), lie by SUMO's indexes: 1 for neighbours."""
    one, beside = (mapping.links[link].lanes[lane] for link, lane in (first_place, second_place))
    return abs(one - beside)


def without_led_turns(run: Run, mapping: Map, lost: Iterable[Lost]) -> tuple[Run, Map]:
    """(the run, its map) without the turns by which those who lose their lane would be led from the lane beside on
    their link, so that they wait, in the load, its signals and the map; the same ones where there are no such turns.
    Turns from other links of the edge stay, as plans have them."""
    left = {(place, one.movement[1]) for one in lost for place in one.open_lanes if place[0] in dict(one.lanes)}
    turns = ((turn, mapping.links[turn.next].edge) for turn in mapping.turns)
    led_turns = {(turn.link, turn.lane, turn.next) for turn, edge in turns if ((turn.link, turn.lane), edge) in left}
    if not led_turns:
        return run, mapping
    load_turns = [turn for turn in run.load.command["turns"] if tuple(turn[:3]) not in led_turns]
    load = {**run.load.command, "turns": load_turns}
    first = [line_without(line, led_turns) for line in run.first]
    timed = [(clock, line_without(line, led_turns)) for clock, line in run.timed]
    kept = [turn for turn in mapping.turns if (turn.link, turn.lane, turn.next) not in led_turns]
    return replace(run, load=rewritten(run.load, load), first=first, timed=timed), replace(mapping, turns=kept)


def line_without(line: Line, turns: Collection[TurnKey]) -> Line:
    """A line in which no signal shows green for some turns; lines of other commands stay as they are."""
    if line.command["cmd"] != "signal":
        return line
    kept = partial(filter, lambda turn: tuple(turn[:3]) not in turns)
    phases = [[seconds, list(kept(green))] for seconds, green in line.command["phases"]]
    return rewritten(line, {**line.command, "phases": phases})


def rewritten(line: Line, command: Command) -> Line:
    """A line of the same number, with another command."""
    return replace(line, command=command, text=json.dumps(command, separators=(",", ":")))
