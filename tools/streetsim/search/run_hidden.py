"""For how long turns that give way at lights are hidden in a run, not those without a light: so that other plans can be
run with these seconds, which costs much less than to decide second by second who goes."""
from collections import defaultdict
from collections.abc import Iterable, Iterator, Mapping, Sequence
from dataclasses import dataclass, field
from itertools import groupby
from statistics import fmean

from streetsim.base import limits
from streetsim.kernel.loop import Kernel, Observer, SentLine
from streetsim.model.runs import Command
from streetsim.model.waiting import TurnKey

HiddenShares = Mapping[TurnKey, float]  # seconds of a cycle in which a turn is hidden in its greens, as a share of it
Phases = Sequence[Sequence]  # of a signal command: seconds, and the turns that are green
LEAST_SHOWN = 2  # seconds of a green: one goes at its end


@dataclass(slots=True)
class ShownSignal:
    """What a node shows: its plan, and which turns are closed or opened beside it."""

    plan: Command
    closed: set[TurnKey] = field(default_factory=set)
    opened: set[TurnKey] = field(default_factory=set)
    greens: dict[TurnKey, list[bool]] = field(default_factory=dict)  # of the plan, by second of the cycle

    def follow(self, line: Command) -> None:
        """Takes a line that shows the plan with some turns closed or opened."""
        planned, shown = ([turns_of(green) for _, green in one["phases"]] for one in (self.plan, line))
        self.closed = set[TurnKey]().union(*planned) - set[TurnKey]().union(*shown)
        self.opened = shown[0].intersection(*shown) - planned[0].intersection(*planned)

    def hidden(self, begin: int, end: int) -> Iterator[tuple[TurnKey, int, int]]:
        """By closed or opened turn and number of the cycle: the seconds from begin to end in which it is hidden in its
        greens, less those in which it is shown beside them."""
        for turn in self.closed | self.opened:
            green, sign = self.green(turn), 1 if turn in self.closed else -1
            places = (clock + self.plan.get("offset", 0) for clock in range(begin, end))
            for number, some in groupby(places, lambda place: place // len(green)):
                yield turn, number, sign * sum(green[place % len(green)] is (sign > 0) for place in some)

    def green(self, turn: TurnKey) -> list[bool]:
        """Whether a turn is green in each second of the plan's cycle."""
        if turn not in self.greens:
            self.greens[turn] = seconds_of(self.plan["phases"], turn)
        return self.greens[turn]


def turns_of(green: Sequence[Sequence[int]]) -> set[TurnKey]:
    """The turns that a phase has green."""
    return {(link, lane, following) for link, lane, following in green}


def seconds_of(phases: Phases, turn: TurnKey) -> list[bool]:
    """Whether a turn is green in each second of a cycle."""
    return [list(turn) in green for seconds, green in phases for _ in range(seconds)]


def hidden_shares(first: Iterable[Command], sent_lines: Iterable[SentLine], end: int) -> dict[TurnKey, float]:
    """Of each turn that gave way in a run the seconds for which it was hidden in a cycle, as a share of this: the mean
    over the cycles in which it was. first, sent_lines: what the run sent before its first step and then; end: its last
    clock."""
    signals = {line["node"]: ShownSignal(line) for line in first if line["cmd"] == "signal"}
    since: dict[int, int] = {}
    hidden = defaultdict[TurnKey, defaultdict[int, int]](lambda: defaultdict(int))
    cycles: dict[TurnKey, int] = {}

    def pass_until(node: int, clock: int) -> None:
        """Adds what a node hid since its last line."""
        for turn, number, seconds in signals[node].hidden(since.get(node, clock), clock):
            hidden[turn][number] += seconds
            cycles[turn] = len(signals[node].green(turn))
        since[node] = clock

    for line in sent_lines:
        command = line.line.command
        if command["cmd"] == "signal" and (command["node"] in signals or not line.for_a_gap):
            if command["node"] in signals:
                pass_until(command["node"], line.clock)
            if line.for_a_gap:
                signals[command["node"]].follow(command)
            else:
                signals[command["node"]] = ShownSignal(command)
    for node in signals:
        pass_until(node, end)
    lost = {turn: [seconds for seconds in own.values() if seconds > 0] for turn, own in hidden.items()}
    return {turn: fmean(seconds) / cycles[turn] for turn, seconds in lost.items() if seconds}


class HiddenSeconds(Observer):
    """Has the shares of hidden_shares of a run when it has ended."""

    def begin(self, kernel: Kernel) -> None:
        """Nothing is hidden yet."""
        self.kernel, kernel.keeps_gaps = kernel, True
        self.shares: HiddenShares = {}

    def end(self, clock: int) -> None:
        """Looks at all lines that the run sent."""
        self.shares = hidden_shares([line.command for line in self.kernel.run.first], self.kernel.sent_lines, clock)


def with_hidden(phases: Phases, shares: HiddenShares) -> list[list]:
    """The phases with turns hidden in the first seconds of their greens; as they are where that takes more phases than
    a plan has."""
    seconds = [turns_of(green) for length, green in phases for _ in range(length)]
    for turn, share in shares.items():
        for at in hidden_seconds([turn in green for green in seconds], round(share * len(seconds))):
            seconds[at] = seconds[at] - {turn}
    found = [[len(list(some)), sorted([*turn] for turn in green)] for green, some in groupby(seconds)]
    return found if len(found) <= limits.PHASES else [[length, green] for length, green in phases]


def hidden_seconds(green: Sequence[bool], count: int) -> Iterator[int]:
    """The seconds of a cycle that are to be hidden: so many of the first ones of greens, the longest green first, of
    each of which LEAST_SHOWN stay. green: by second."""
    cycle = len(green)
    begins = [at for at in range(cycle) if green[at] and not green[at - 1]]
    lengths = {at: next(step for step in range(cycle) if not green[(at + step) % cycle]) for at in begins}
    for at in sorted(begins, key=lambda begin: -lengths[begin]):
        own = max(0, min(count, lengths[at] - LEAST_SHOWN))
        count -= own
        yield from ((at + step) % cycle for step in range(own))
