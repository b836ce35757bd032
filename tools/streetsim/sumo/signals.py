"""Makes signal commands of SUMO's signal programs."""
from collections import defaultdict
from collections.abc import Iterable, Iterator, Mapping, Sequence
from dataclasses import dataclass
from functools import reduce
from itertools import chain, compress, cycle as cycle_of, groupby, islice, product, takewhile
from operator import or_

from streetsim.base import limits
from streetsim.base.files import Fault
from streetsim.base.report import Report, first_few
from streetsim.model.mapping import Map, MapTurn
from streetsim.model.runs import Command
from streetsim.model.timing import spans_of, states_of
from streetsim.model.waiting import NodeWays, TurnKey, ways_at
from streetsim.sumo.crossing import GREEN, OPEN, times_of
from streetsim.sumo.driver_words import Pairs, cut_at, measured_of, with_cut
from streetsim.sumo.greens import TWO_PARTS, hidden_middle, hidden_start
from streetsim.sumo.net import NEMA, STATIC, LightProgram, NetConnection, SumoNet
from streetsim.sumo.network import Network, Turn

Green = frozenset[TurnKey]
AtLight = tuple[int, int, int, Turn | MapTurn]  # link, lane, next link
# By index in a light's state and by first second of a permissive green: how many of its last seconds are shown.
ShownSeconds = Mapping[int, Mapping[int, int]]
AS_MAIN = -1  # in place of seconds: a permissive green against which nobody comes
LONGEST = 200_000  # seconds of a cycle that are read
SECONDS_AFTER = 86_400  # the last departure, for which a program is told that does not fit in one plan
MOST_LINES = 100_000  # of such a program; one each 6 s of a week
QUEUED = 90  # seconds of a green above 600 s in which a queue leaves
DRIVEN = ("actuated", NEMA)  # the kinds of programs that streetsim-run drives
GRAINS = (1, 2, 3, 5, 8, 12, 20)  # seconds to which greens are rounded: the first that gives few phases
# Those to which the seconds left out in the middle of greens are rounded, as they are two at least.
FINE = GRAINS[:2]


@dataclass(frozen=True, slots=True)
class LitNode:
    """A node with a light."""

    node: int
    turns: Sequence[AtLight]
    edges: Mapping[int, str]  # of the turns' links
    light: str
    program: LightProgram
    report: Report
    cut: float = 0.0  # seconds that are cut from greens, in the mean over nodes
    shares: Pairs = ()  # of permissive greens that were surveyed: (edge, share)
    ways: NodeWays | None = None  # who gives way, as runs decide second by second; None: nobody does

    def states(self) -> list[str]:
        """The light's state, SUMO's letters, in each second of its cycle. Fault where each_second raises one."""
        return each_second(self.light, self.program)

    def shown_seconds(self, states: Sequence[str]) -> ShownSeconds:
        """What is shown of permissive greens: all of those in which some give way, as runs decide who goes; the last
        share of those that were surveyed. states: as states gives them."""
        ways = self.ways or NodeWays(self.node, (), ())
        seconds_shown: ShownSeconds = dict(shown_alone(ways, self.light, self.turns, states))
        known = {edge: share for edge, share in self.shares}
        for edge in known.keys() & {*self.edges.values()}:
            own = [one for one in self.turns if self.edges[one[0]] == edge]
            seconds_shown = {**seconds_shown, **shown_by_share(self.light, own, states, known[edge])}
        return seconds_shown


def light_of(turns: Iterable[NetConnection | Turn | MapTurn], net: SumoNet) -> str | None:
    """The name of the light that counts at a node, of those of its turns or connections: the first by name that has a
    program; None where no light there has one."""
    return min((turn.light for turn in turns if turn.light in net.programs), default=None)


def turns_at(network: Network) -> dict[int, list[AtLight]]:
    """By node, where any lead there, its turns: (link, lane, next link, turn)."""
    found: defaultdict[int, list[AtLight]] = defaultdict(list)
    for (link, lane, following), turn in network.turns.items():
        found[network.links[link].end].append((link, lane, following, turn))
    return found


def lit_node(
    net: SumoNet, network: Network, node: int, turns: Sequence[AtLight], light: str, report: Report
) -> LitNode:
    """A node with a light and its program in the network."""
    edges = {link: network.links[link].edge for link, *_ in turns}
    measured = network.options.cut, network.options.shares
    return LitNode(node, turns, edges, light, net.programs[light], report, *measured, ways_at(network.lit_ways, node))


def lit_node_of(
    mapping: Map, node: int, turns: Sequence[AtLight], light: str, program: LightProgram, report: Report
) -> LitNode:
    """A node of a map with a light that shows a program. Fault where the map is of an import that did not say who gives
    way at lights, and some do in the program."""
    if not mapping.says_who_gives_way and any(letter in OPEN for _, state in program.phases for letter in state):
        raise Fault(f"light {light!r}: the map, of earlier tools, does not say who gives way: import the run anew")
    edges = {link: mapping.links[link].edge for link, *_ in turns}
    ways = ways_at(mapping.lit_ways, node)
    return LitNode(node, turns, edges, light, program, report, *measured_of(mapping), ways)


def signal_commands(
    net: SumoNet, network: Network, report: Report, ends: Mapping[str, int]
) -> list[tuple[str, Command]]:
    """The signal commands, (light, command), as signal_lines gives them for each node where a light has a program.
    ends: by light the last clock of this program, where it changes by time of day; else SECONDS_AFTER behind
    network.last, which must be set. Lights without a program, not static or too long are told."""
    commands = []
    for node, turns in sorted(turns_at(network).items()):
        lights = {turn.light for *_, turn in turns if turn.light}
        programmed, junction = sorted(lights & net.programs.keys()), network.nodes[node]
        if lights and not programmed:
            told = f"junction {junction!r}: no program for its light {first_few(sorted(lights))}; always green"
            report.warn(told, [junction], kind="junctions have no program for their light; always green")
        if len(programmed) > 1:
            told = f"junction {junction!r}: of its lights {', '.join(programmed)} the first alone is used"
            report.warn(told, [junction], kind="junctions have several lights, of which the first alone is used")
        if programmed:
            lit = lit_node(net, network, node, turns, programmed[0], report)
            until = ends.get(programmed[0], network.last_depart + SECONDS_AFTER)
            commands += [(programmed[0], command) for command in signal_lines(lit, network.options.begin, until)]
    for light in sorted({light for light, _ in commands}):
        warn_of_kind(light, net.programs[light], report)
    return commands


def warn_of_kind(light: str, program: LightProgram, report: Report) -> None:
    """Reports that a light's program, where it is not static, goes by its listed seconds here, and that a static one
    shows its phases in their order, where one names another than the one behind it as its next."""
    count = len(program.phases)
    if program.kind == STATIC:
        if any(then and then[0] >= 0 and then[0] != (at + 1) % count for at, then in enumerate(program.following)):
            why = "phases that name another as their next, which does nothing here: they come in their order"
            report.warn(f"light {light!r} has {why}", [light], kind=f"lights have {why}")
    else:
        but = ", but where streetsim-run drives it by detectors" if program.kind in DRIVEN else ""
        kind = f"lights are {program.kind}: their listed durations are used{but}"
        report.warn(f"light {light!r} is {program.kind}: its listed durations are used{but}", [light], kind=kind)


class TooLong(Fault):
    """A program that does not fit in the phases of one plan of the simulator."""


def too_long(cycle: int) -> str:
    """What a TooLong says of a cycle in seconds."""
    return f"a cycle of {cycle:,} s does not fit in {limits.PHASES} phases of {limits.PHASE_STEPS} s"


def signal_lines(lit: LitNode, begin: int, last_clock: int) -> list[Command]:
    """The signal command of a node, in a list; of a program that does not fit in one plan, which is reported, a command
    for each phase, with its clock ("at"; not in the first), from begin to last_clock (both included), as a plan of one
    phase stays until the next. Fault where these are more than MOST_LINES, or each_second or check_states raises
    one."""
    try:
        return [signal_command(lit)]
    except TooLong:
        pass
    kind = f"lights have a cycle that does not fit in one plan; their phases are lines, until {last_clock:,} s"
    told = f"light {lit.light!r}: {cycle_told(lit)}; its phases are lines, until {last_clock:,} s"
    lit.report.warn(told, [lit.light], light=True, kind=kind)
    lines = list(islice(takewhile(lambda line: line[0] <= last_clock, phase_lines(lit, begin)), MOST_LINES + 1))
    if len(lines) > MOST_LINES:
        until = f"until {last_clock:,} s, a day after the last departure"
        raise Fault(f"light {lit.light!r}: {cycle_told(lit)}, and has more than {MOST_LINES:,} phases {until}")
    return [{**command, "at": clock} if clock > begin else command for clock, command in lines]


def cycle_told(lit: LitNode) -> str:
    """Why a light's program that does not fit in one plan does not: its cycle, as the middle of a sentence."""
    return f"a cycle of {len(lit.states()):,} s does not fit in one plan"


def phase_lines(lit: LitNode, begin: int) -> Iterator[tuple[int, Command]]:
    """The signal commands of a node's phases from the clock begin on, (clock, command), without end (one alone where
    the light never changes): a plan of one phase stays until the next is sent."""
    states = lit.states()
    greens = green_seconds(lit, states, lit.shown_seconds(states), 1, True)
    place = (begin + round(-lit.program.offset)) % len(greens)
    runs = [(green, len(list(run))) for green, run in groupby(greens[place:] + greens[:place])]
    clock, shown = begin, None
    for green, length in cycle_of(runs) if len(runs) > 1 else runs:
        if green != shown:
            phases = [[limits.PHASE_STEPS, sorted([*turn] for turn in green)]]
            yield clock, {"cmd": "signal", "node": lit.node, "offset": 0, "phases": phases}
        clock, shown = clock + length, green


def signal_command(lit: LitNode) -> Command:
    """The signal command of one node; TooLong where its program does not fit in one plan, Fault where each_second or
    check_states raises one. More phases than a plan has, and turns that are never green, are reported."""
    light, report, states = lit.light, lit.report, lit.states()
    check_states(light, states, [turn for *_, turn in lit.turns])
    if len(states) > limits.PHASES * limits.PHASE_STEPS:
        raise TooLong(f"light {light!r}: {too_long(len(states))}")
    shown_seconds = lit.shown_seconds(states)
    for middle, grain in chain(product([True], FINE), product([False], GRAINS)):
        phases = run_lengths(green_seconds(lit, states, shown_seconds, grain, middle))
        if len(phases) <= limits.PHASES:
            break
    if len(phases) > limits.PHASES:
        more = f"more than {limits.PHASES} phases, so permissive greens are green throughout"
        report.warn(f"light {light!r}: {more}", [light], kind=f"lights have {more}")
        phases = run_lengths(green_seconds(lit, states, {}, 1, False))
    if len(phases) > limits.PHASES:
        more = f"still more than {limits.PHASES} phases; the shortest are joined to those before them"
        report.warn(f"light {light!r}: {more}", [light], kind=f"lights have {more}")
        try:
            phases = phases_that_fit(phases)
        except TooLong as fault:
            raise TooLong(f"light {light!r}: {fault}") from None
    shown = frozenset[TurnKey]().union(*(green for _, green in phases))
    if never := sorted({lit.edges[link] for link, *turn, _ in lit.turns if (link, *turn) not in shown}):
        text = f"light {light!r}: a turn is never green on edges {first_few(never)}"
        report.warn(text, never, kind="lights have a turn that is never green, on edges")
    cycle = sum(duration for duration, _ in phases)
    return {
        "cmd": "signal",
        "node": lit.node,
        "offset": round(-lit.program.offset) % cycle,
        "phases": [[duration, sorted([*turn] for turn in green)] for duration, green in phases],
    }


def each_second(light: str, program: LightProgram) -> list[str]:
    """The program's state in each second of its cycle, as timing.states_of gives it. Fault, with the light's name,
    where the cycle is half a second or less, or longer than LONGEST."""
    if (cycle := sum(duration for duration, _ in program.phases)) > LONGEST:
        most = f"at most {LONGEST:,} s are read: give it shorter phases"
        raise Fault(f"light {light!r}: a cycle of {cycle:,.0f} s; {most}")
    if not (states := states_of(program.phases)):
        raise Fault(f"light {light!r}: its cycle is no second long")
    return states


def check_states(light: str, states: Sequence[str], turns: Iterable[Turn | MapTurn | NetConnection]) -> None:
    """Fault where a state of a program has no place for the index of one of some turns of this light."""
    shortest = min(map(len, states))
    for turn in turns:
        if turn.light == light and turn.index >= shortest:
            raise Fault(f"light {light!r}: a state is shorter than link index {turn.index}")


def shown_alone(
    ways: NodeWays, light: str, turns: Sequence[AtLight], states: Sequence[str]
) -> Iterator[tuple[int, dict[int, int]]]:
    """What is shown, by index, of permissive greens in which nobody has green who goes first: as of main ones; of
    others nothing is said, so that they are whole. states: of the light, one for each second."""
    index_of = {(link, lane, to): turn.index for link, lane, to, turn in turns if turn.light == light}
    indexes = [{index_of.get(turn) for turn in way} for way in ways.ways]
    foes = defaultdict[int, set[int | None]](set)
    for own, foe, _ in ways.yields:
        for index in indexes[own]:
            if index is not None:
                foes[index] |= indexes[foe]
    signs = ["".join(each) for each in zip(*states)]
    for index in {*index_of.values()}:
        lit = [times_of(signs[other]).green for other in foes[index] if other is not None]
        met = reduce(or_, lit, 0) if len(lit) == len(foes[index]) else (1 << len(states)) - 1  # seconds, as bits
        twice = met | met << len(states)
        runs = times_of(signs[index]).runs.items()
        yield index, {start: AS_MAIN for start, length in runs if not twice >> start & (1 << length) - 1}


def shown_by_share(
    light: str, turns: Sequence[AtLight], states: Sequence[str], share: float
) -> ShownSeconds:
    """What is shown of permissive greens, where it is the last share, 0 to 1, of each. states: of the light, one for
    each second."""
    made: dict[int, dict[int, int]] = {}
    for index in {turn.index for *_, turn in turns if turn.light == light}:
        runs = spans_of("".join(state[index] for state in states), OPEN)
        made[index] = {start: length - round(length * (1 - share)) for start, length in runs}
    return made


def green_seconds(
    lit: LitNode, states: Sequence[str], seconds: ShownSeconds, grain: int, middle: bool
) -> list[Green]:
    """The green turns in each second of the cycle; turns that the light does not control are always green. grain,
    middle: as in shown_green."""
    shown_by_turn: list[Sequence[bool]] = []
    signs = ["".join(each) for each in zip(*states, strict=False)]  # by index
    for *_, turn in lit.turns:
        is_shown = [True] * len(states)
        if turn.light == lit.light:
            own_seconds = seconds.get(turn.index, {})
            letters = with_main_greens(signs[turn.index], own_seconds)
            is_shown = shown_green(letters, own_seconds, turn, grain, middle)
            if cut := cut_at(lit.cut, lit.node):
                is_shown = with_cut(is_shown, spans_of(letters, GREEN + OPEN), letters, cut)
        shown_by_turn.append(is_shown)
    keys = [(link, lane, following) for link, lane, following, _ in lit.turns]
    by_second = list(zip(*shown_by_turn, strict=True))
    greens = {lit_turns: frozenset(compress(keys, lit_turns)) for lit_turns in {*by_second}}
    return [greens[lit_turns] for lit_turns in by_second]


def with_main_greens(states: str, seconds: Mapping[int, int]) -> str:
    """The letters of a turn in each second, with those of a green that goes first in place of those of the permissive
    greens that are AS_MAIN; seconds: as in shown_green."""
    letters = list(states)
    for start, length in spans_of(states, OPEN):
        if seconds.get(start) == AS_MAIN:
            for second in range(start, start + length):
                letters[second % len(states)] = GREEN[0]
    return "".join(letters)


def shown_green(
    states: str, seconds: Mapping[int, int], turn: Turn | MapTurn, grain: int, middle: bool
) -> list[bool]:
    """For each second whether a turn shows green; states: the letter of this turn in each second. Of each permissive
    green, by its first second, so many of its last seconds are shown as seconds says, all where it says nothing; the
    begin is rounded down to grain seconds. Of each other green that follows a red or yellow some seconds are left out,
    as SUMO's queues start later and turn slower: those of hidden_seconds, of a green above PHASE_STEPS those of one of
    QUEUED."""
    count = len(states)
    is_shown = [state in GREEN for state in states]
    for start, length in spans_of(states, OPEN):
        for second in range((length - seconds.get(start, length)) // grain * grain, length):
            is_shown[(start + second) % count] = True
    for start, length in spans_of(states, GREEN):
        if length < count and states[start - 1] not in OPEN:
            for second in hidden_seconds(length if length <= limits.PHASE_STEPS else QUEUED, turn, grain, middle):
                is_shown[(start + second) % count] = False
    return is_shown


def hidden_seconds(length: int, turn: Turn | MapTurn, grain: int, middle: bool) -> range:
    """The seconds of a green of length seconds that are not shown, counted from its begin: in its middle (middle), or
    at its begin; of a green below TWO_PARTS always at its begin. Begin and number are rounded down to grain seconds,
    the number of a green below TWO_PARTS to the nearest: of seven, one hidden second fewer lets a quarter more pass,
    and a search for plans would prefer such greens."""
    own = length, turn.speed, turn.limit, turn.accel, turn.apart
    begin, end = hidden_middle(*own) if middle else (0, hidden_start(*own))
    nearest = grain // 2 if length < TWO_PARTS else 0
    begin, seconds = begin // grain * grain, (end - begin + nearest) // grain * grain
    return range(begin, begin + seconds)


def run_lengths(greens: Iterable[Green]) -> list[tuple[int, Green]]:
    """Phases, (seconds, green turns), of the green turns of each second: equal ones that follow each other are a phase,
    of PHASE_STEPS seconds at most."""
    phases = []
    for green, run in groupby(greens):
        length = len(list(run))
        while length:
            phases.append((min(length, limits.PHASE_STEPS), green))
            length -= phases[-1][0]
    return phases


def phases_that_fit(phases: Iterable[tuple[int, Green]]) -> list[tuple[int, Green]]:
    """The phases, (seconds, green turns), made fewer until they fit in a plan: the shortest, but for the first and
    those that would be above PHASE_STEPS with the one before, is added to the one before it, whose greens it gets.
    TooLong where there is no such phase."""
    fitted = list(phases)
    while len(fitted) > limits.PHASES:
        fitting = [at for at in range(1, len(fitted)) if fitted[at - 1][0] + fitted[at][0] <= limits.PHASE_STEPS]
        if not fitting:
            raise TooLong(too_long(sum(seconds for seconds, _ in fitted)))
        at = min(fitting, key=lambda place: fitted[place][0])
        fitted[at - 1 : at + 1] = [(fitted[at - 1][0] + fitted[at][0], fitted[at - 1][1])]
    return fitted
