"""Makes signal lines for nodes without a light: green in the gaps between vehicles that go first, by when vehicles
passed in the run before."""
import math
from bisect import bisect_left, bisect_right
from collections import defaultdict
from collections.abc import Collection, Iterable, Iterator, Mapping, Sequence
from itertools import groupby

from streetsim.base import limits
from streetsim.model.mapping import Map, Place
from streetsim.model.runs import Line
from streetsim.model.waiting import Foe, GivingWay, Pace, TurnKey

State = tuple[int, ...]  # for each group whether it is red
Group = tuple[Sequence[TurnKey], Sequence[int]]  # turns that give way, and for each second whether they are red
# {(link, lane): [(second, next link, the second at which it would have come to the line were nobody in its way)]}
StopLinePassings = Mapping[Place, Sequence[tuple[float, int, float]]]
Times = Mapping[TurnKey, Sequence[float]]  # when vehicles pass, by turn
# For each second whether it is red: to one who stands at the line, to one who comes while nobody does; what is shown.
Signals = tuple[bytearray, bytearray, bytearray]
Stands = Mapping[tuple[TurnKey, float], float]  # {(turn, second): how long the one that passes then stood at the line}
AROUND_S = 300  # seconds before and after, in which those that go first are counted
SHOWN_S, HIDDEN_S = 3, 2  # seconds in turn, where those that use a gap follow each other slowly
# Seconds between two of them that may use one gap, and before and after them for what differs from run to run.
CLOSE_S = 15
PATIENCE_S = 150  # seconds without a gap; then one goes
TAIL_S = 30  # seconds after the last vehicle
FOLLOWING_S = 2.0  # seconds behind another, after which one is the first of its lane
# Seconds that one who gives way stands at the line before it is in the way of others, and for how many it is at most.
UNSEEN, MOST_SEEN = 3.0, 30.0


def gap_lines(mapping: Map, passed: StopLinePassings, start: int) -> list[tuple[int, Line]]:
    """The signal lines, (clock, line), rising, for nodes without a light where vehicles give way: green in the
    gaps between those who go first. passed: when vehicles passed in a run; start: the run's first clock."""
    reds = reds_of(mapping, passed, start)
    return signal_lines(mapping, shown_reds(mapping, reds, passed, start), start)


def reds_of(mapping: Map, passings: StopLinePassings, start: int) -> list[tuple[GivingWay, bytearray]]:
    """(one who gives way, a byte for each second from start to TAIL_S after the last passing, 1: red) for each
    GivingWay of a map; those before whom nobody comes, and that have no pace, are left out. Arguments: as of
    gap_lines."""
    seconds = (second for lane_passings in passings.values() for second, *_ in lane_passings)
    end = int(max(seconds, default=start)) + TAIL_S
    times = by_turn(passings)
    stands = stands_of(passings, {turn for yielding in mapping.yields for turn in yielding.turns}, UNSEEN)
    reds = ((yielding, red_seconds(yielding, times, start, end, stands)) for yielding in mapping.yields)
    return [(yielding, red) for yielding, red in reds if red is not None]


def shown_reds(
    mapping: Map, reds: Iterable[tuple[GivingWay, bytearray]], passings: StopLinePassings, start: int
) -> list[tuple[GivingWay, bytearray]]:
    """What reds_of gave, with those seconds alone red in which somebody stands at the line, or in which one would have
    to stop who comes to it. Arguments: as of gap_lines."""
    times, shown_by = by_turn(passings), []
    stands = stands_of(passings, {turn for yielding in mapping.yields for turn in yielding.turns}, 0.0)
    signals: dict[TurnKey, Signals] = {}
    for yielding, standing in reds:
        rolling = standing if yielding.pace else rolling_seconds(yielding, times, start, len(standing), stands)
        shown = bytearray(rolling)
        signals.update(dict.fromkeys(yielding.turns, (standing, rolling, shown)))
        shown_by.append((yielding, shown))
    for lane_key in passings.keys() & {(link, lane) for link, lane, _ in signals}:
        show_to_standing(lane_key, passings[lane_key], signals, start)
    return shown_by


def signal_lines(mapping: Map, reds: Iterable[tuple[GivingWay, Sequence[int]]], start: int) -> list[tuple[int, Line]]:
    """The signal lines, (clock, line), of what reds_of gave, by rising clocks; start: the run's first clock."""
    turns_at: defaultdict[int, list[TurnKey]] = defaultdict(list)
    groups_at: defaultdict[int, list[Group]] = defaultdict(list)
    for turn in mapping.turns:
        turns_at[mapping.links[turn.link].end].append((turn.link, turn.lane, turn.next))
    for yielding, red in reds:
        groups_at[yielding.node].append((yielding.turns, red))
    lines = [pair for node, groups in groups_at.items() for pair in node_lines(node, turns_at[node], groups, start)]
    return sorted(lines, key=lambda pair: (pair[0], pair[1].command["node"]))


def by_turn(passed: StopLinePassings) -> dict[TurnKey, list[float]]:
    """When vehicles passed, by turn and not by lane, {(link, lane, next link): [second]}."""
    times: defaultdict[TurnKey, list[float]] = defaultdict(list)
    for (link, lane), lane_passings in passed.items():
        for second, following, _ in lane_passings:
            times[link, lane, following].append(second)
    return times


def stands_of(passed: StopLinePassings, waits: Collection[TurnKey], unseen: float) -> Stands:
    """For how many seconds those who give way stood at their line in the way of others, by turn and second: those
    beyond unseen, MOST_SEEN at most; who stood for no longer is left out. waits: the turns that give way."""
    stood = ((place, *stand) for place, passings in passed.items() for stand in standing_seconds(passings))
    return {
        ((*place, following), second): min(MOST_SEEN, seconds - unseen)
        for place, second, following, seconds in stood
        if seconds > unseen and (*place, following) in waits
    }


def standing_seconds(passing: Iterable[tuple[float, int, float]]) -> Iterator[tuple[float, int, float]]:
    """(second, next link, how many seconds it stood) of each vehicle that passes the line of a lane, by rising seconds:
    from when it came there, or the one before it was FOLLOWING_S seconds gone; below 0 where it passes sooner than
    that. passing: as the values of StopLinePassings."""
    free = -math.inf
    for second, following, due in sorted(passing):
        yield second, following, second - max(due, free)
        free = second + FOLLOWING_S


def node_lines(node: int, turns: Sequence[TurnKey], groups: Sequence[Group], start: int) -> Iterator[tuple[int, Line]]:
    """The signal lines of a node, (clock, line), from the clock start on. turns: all of the node; groups: turns that
    give way, with a byte for each second, 1: red. Other turns are always green, and by the last line, which has one
    phase, all are from the end of these seconds on."""
    waits = {turn for each, _ in groups for turn in each}
    always = [turn for turn in turns if turn not in waits]

    def green(state: State) -> tuple[list[TurnKey], str]:
        """(the turns that are green in a state, the same as they stand in a line)."""
        shown = [turn for (each, _), hidden in zip(groups, state, strict=True) if not hidden for turn in each]
        turns = sorted([*always, *shown])
        return turns, ",".join(f"[{link},{lane},{following}]" for link, lane, following in turns)

    phases, open_ = phases_of_reds([red for _, red in groups]), (limits.PHASE_STEPS, (0,) * len(groups))
    greens_of_state = {state: green(state) for state in {state for _, state in [*phases, open_]}}
    parts = [phases[begin : begin + limits.PHASES] for begin in range(0, len(phases), limits.PHASES)]
    clock = start
    for part in [*parts, [open_]]:
        listed = ",".join(f"[{length},[{greens_of_state[state][1]}]]" for length, state in part)
        seconds = sum(length for length, _ in part)
        offset = -clock % seconds
        text = f'{{"cmd":"signal","node":{node},"offset":{offset},"phases":[{listed}]}}'
        shown_phases = [(length, greens_of_state[state][0]) for length, state in part]
        yield clock, Line(0, text, {"cmd": "signal", "node": node, "offset": offset, "phases": shown_phases})
        clock += seconds


def phases_of_reds(reds: Sequence[Sequence[int]]) -> list[tuple[int, State]]:
    """The phases of a node, (seconds, (red or not by group)): each is a stretch of seconds in which no group changes,
    of PHASE_STEPS at most. reds: for each group a byte for each second, 1: red."""
    phases = []
    for state, run in groupby(zip(*reds, strict=True)):
        length = sum(1 for _ in run)
        while length:
            phases.append((min(limits.PHASE_STEPS, length), state))
            length -= phases[-1][0]
    return phases


def red_seconds(waiting: GivingWay, times: Times, start: int, end: int, stands: Stands = {}) -> bytearray | None:
    """For the turns of one GivingWay a byte for each second from start to before end, 1: red, as somebody comes
    who goes first, so that they use a gap slowly, or to keep their pace; be_patient makes some green. None where nobody
    comes and they have no pace. times: when vehicles pass, by turn; stands: as stands_of gives them."""
    arrivals = [(second, foe) for foe in waiting.foes for second in times.get((foe.link, foe.lane, foe.next), ())]
    arrivals.sort(key=lambda coming: coming[0])
    if not arrivals and waiting.pace is None:
        return None
    red, owed, counts = bytearray(end - start), 0.5, GapCounts(arrivals)
    for second, foe in arrivals:
        if not foe.gap.seconds:  # all stop, and go in turn
            continue
        stood = stands.get(((foe.link, foe.lane, foe.next), second), 0.0)
        length = foe.gap.seconds_needed(*counts.flows_around(second, foe)) + stood + foe.gap.after + owed
        owed = length % 1
        red_end = round(second + foe.gap.after) - start
        mark(red, red_end - int(length), red_end)
    if any(foe.slow for _, foe in arrivals):
        for sooner, later in followings(sorted(second for turn in waiting.turns for second in times.get(turn, ()))):
            slow_down(red, int(sooner) - start, int(later) - start)
    if waiting.pace is not None:
        keep_pace(red, waiting.pace, counts.every, near_passings(waiting, times, start, len(red)), start)
    be_patient(red)
    return red


def rolling_seconds(waiting: GivingWay, times: Times, start: int, length: int, stands: Stands) -> bytearray:
    """For the turns of one GivingWay a byte for each of length seconds from start, 1 where one would have to stop who
    comes to the line while nobody stands there. times, stands: as of red_seconds."""
    red, owed = bytearray(length), 0.5
    comes = ((second, foe) for foe in waiting.foes for second in times.get((foe.link, foe.lane, foe.next), ()))
    for second, foe in sorted(comes, key=lambda coming: coming[0]):
        stood = stands.get(((foe.link, foe.lane, foe.next), second), 0.0)
        seconds = foe.gap.rolling + stood + foe.gap.after + owed
        owed = seconds % 1
        red_end = round(second + foe.gap.after) - start
        mark(red, red_end - int(seconds), red_end)
    return red


def show_to_standing(
    lane_key: Place, passing: Iterable[tuple[float, int, float]], signals: Mapping[TurnKey, Signals], start: int
) -> None:
    """Makes red what is shown, as it is to those who stand, while somebody stands at the line of a lane, and CLOSE_S
    seconds longer: who starts behind another, or comes when it is red to those who come, until it is green to those who
    stand. passing: as the values of StopLinePassings; signals: by turn, of those who give way; start: the clock of the
    first byte."""
    previous = -int(FOLLOWING_S)
    for _, following, due in sorted(passing):
        due_byte = max(0, int(due) - start)
        second = max(due_byte, previous + int(FOLLOWING_S))
        if turn_signals := signals.get((*lane_key, following)):
            standing, rolling, shown = turn_signals
            if second > due_byte or rolling[second : second + 1] == b"\1":
                begin = previous + 1 if second > due_byte else second
                free = standing.find(0, second)
                second = len(shown) if free < 0 else free
                shown[max(0, begin) : second + CLOSE_S] = standing[max(0, begin) : second + CLOSE_S]
        previous = second


def near_passings(waiting: GivingWay, times: Times, start: int, length: int) -> bytearray:
    """A byte for each of length seconds from the start, 1 where somebody passes then, or up to CLOSE_S seconds before
    or after, on a lane of its turns. All of a lane count, wherever they turn, as they wait for one another."""
    lanes = {(link, lane) for link, lane, _ in waiting.turns}
    near = bytearray(length)
    for (link, lane, _), seconds in times.items():
        for second in seconds if (link, lane) in lanes else ():
            mark(near, int(second) - CLOSE_S - start, int(second) + CLOSE_S - start)
    return near


def keep_pace(red: bytearray, pace: Pace, arrivals: Sequence[float], near: Sequence[int], start: int) -> None:
    """Makes seconds of red red so that those who have to stop follow each other as slowly as in SUMO, where somebody is
    near (a byte a second, by near_passings). arrivals: the seconds at which others come, rising; start: the clock of
    the first byte."""
    cycle_begin, owed = 0, 0.0
    while cycle_begin < len(red):
        period = pace.period(hourly_around(arrivals, cycle_begin + start)) + owed
        owed = period % 1
        for second in range(cycle_begin + pace.shown, min(len(red), cycle_begin + int(period))):
            red[second] |= near[second]
        cycle_begin += int(period)


class GapCounts:
    """How many vehicles go first around a second: on one lane, on one street, and in all."""

    def __init__(self, comes: Iterable[tuple[float, Foe]]) -> None:
        """comes: (second, who goes first), by rising seconds."""
        self.by_lane: defaultdict[tuple[int, ...], list[float]] = defaultdict(list)
        self.by_street: defaultdict[int, list[float]] = defaultdict(list)
        self.every: list[float] = []
        for second, foe in comes:
            for times in self.lists_of(foe):
                times.append(second)

    def lists_of(self, foe: Foe) -> tuple[list[float], list[float], list[float]]:
        """(on the lane of a foe, on its street, on all): the seconds at which vehicles come."""
        return self.by_lane[foe.link, foe.lane], self.by_street[foe.street], self.every

    def flows_around(self, second: float, foe: Foe) -> tuple[float, ...]:
        """(on the lane of a foe, on its street, on all): vehicles an hour around a second."""
        return tuple(hourly_around(times, second) for times in self.lists_of(foe))


def hourly_around(times: Sequence[float], second: float) -> float:
    """Vehicles an hour within AROUND_S before and after a second; times: seconds that rise."""
    count = bisect_right(times, second + AROUND_S) - bisect_left(times, second - AROUND_S)
    return count * 3600 / (2 * AROUND_S)


def mark(seconds: bytearray, begin: int, end: int) -> None:
    """Makes the bytes from first to before last 1, as far as there are any."""
    begin, end = max(0, begin), max(0, min(len(seconds), end))
    seconds[begin:end] = b"\1" * (end - begin)


def followings(seconds: Sequence[float]) -> Iterator[tuple[float, float]]:
    """The stretches of time in which vehicles follow each other closely, (first second, last second), with CLOSE_S
    seconds before and after; they may overlap, and one vehicle alone has none. seconds: when they pass, rising."""
    begin = 0
    for at in range(1, len(seconds) + 1):
        if at == len(seconds) or seconds[at] - seconds[at - 1] > CLOSE_S:
            if at - begin > 1:
                yield seconds[begin] - CLOSE_S, seconds[at - 1] + CLOSE_S
            begin = at


def slow_down(red: bytearray, begin: int, end: int) -> None:
    """Makes some seconds of red red in each gap between the seconds first and last from its begin: HIDDEN_S after every
    SHOWN_S, so that no more vehicles use the gap than can. Those of a gap that goes on may lie after last."""
    at = red.find(0, max(0, begin), max(0, end))
    while at >= 0:
        mark(red, at + SHOWN_S, at + SHOWN_S + HIDDEN_S)
        at = red.find(0, at + SHOWN_S + HIDDEN_S, end)


def be_patient(red: bytearray) -> None:
    """Makes the last one of each PATIENCE_S that are red without a break green, so that one vehicle goes."""
    red[:] = red.replace(b"\1" * PATIENCE_S, b"\1" * (PATIENCE_S - 1) + b"\0")
