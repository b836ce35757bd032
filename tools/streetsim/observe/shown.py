"""Which phase the light of a node shows when, by the signal lines of a run, and which links are green to a lane
then."""
from __future__ import annotations

from bisect import bisect_left, bisect_right
from collections.abc import Iterable, Iterator, Sequence
from functools import lru_cache
from typing import NamedTuple

from streetsim.base.arrays import Array, numpy as np
from streetsim.model.mapping import Map, Place
from streetsim.model.runs import TimedCommand
from streetsim.observe.junction_layout import CYCLE, Greens

NO_PHASE = -1  # the phase before the first plan, and without a light
PHASES = 100  # more than a plan may have


class Spans(NamedTuple):
    """The spans of an interval in which a node shows one phase, and of minutes where it shows none."""

    begins: Array  # their first seconds, from 0; they rise
    phases: Array  # numbers of their phases
    turns: Array  # whether a cycle begins with each; the first one counts


class ShownPlans:
    """What the lights of a run show, as far as it is known."""

    def __init__(self, mapping: Map, signals: Iterable[TimedCommand] = ()) -> None:
        """signals: (clock at which it is sent, command), in any order."""
        self.plans = Greens(mapping, signals)

    def spans(self, node: int, begin: int, end: int) -> Spans:
        """The spans of a node from one clock to another."""
        plans = list(self.plans_between(node, begin, end))
        first_clock = plans[0][1] if plans else end
        begins = [begin, *range((begin // CYCLE + 1) * CYCLE, first_clock, CYCLE)] if begin < first_clock else []
        parts = [Spans(np.array(begins), np.full(len(begins), NO_PHASE), np.full(len(begins), True))] if begins else []
        for number, since, until in plans:
            (ends, _), offset = self.plans.ends_and_greens_of(node, number), self.plans.plans[node][number][1]["offset"]
            plan_spans = spans_between(tuple(ends), offset % ends[-1], since, until)
            parts.append(plan_spans._replace(phases=plan_spans.phases + number * PHASES))
        joined = parts[0] if len(parts) == 1 else Spans(*(np.concatenate(those) for those in zip(*parts, strict=True)))
        return joined._replace(begins=joined.begins - begin)

    def plans_between(self, node: int, begin: int, end: int) -> Iterator[tuple[int, int, int]]:
        """(number, first clock, clock at which the next one begins, of those between two clocks) of the plans that a
        node has between them."""
        clocks: Sequence[int] = self.plans.clocks.get(node, ())
        for number in range(max(0, bisect_right(clocks, begin) - 1), bisect_left(clocks, end)):
            following = clocks[number + 1] if number + 1 < len(clocks) else end
            if clocks[number] < min(following, end) and following > begin:
                yield number, max(begin, clocks[number]), min(following, end)

    def greens(self, node: int, lane_keys: Sequence[Place], phases: Sequence[int]) -> list[list[frozenset[int] | None]]:
        """By lane that leads to a node, and by phase, the links to which it has green; None for all."""
        greens_of = self.plans.ends_and_greens_of
        plans = [None if phase == NO_PHASE else greens_of(node, phase // PHASES)[1] for phase in phases]
        parts = list(zip(plans, (phase % PHASES for phase in phases)))
        return [
            [None if plan is None else plan[lane_key][at] if lane_key in plan else frozenset() for plan, at in parts]
            for lane_key in lane_keys
        ]

    def has_one_plan(self, node: int) -> bool:
        """Whether a node has at most one plan; one of a light that detectors drive has one a phase."""
        return len(self.plans.clocks.get(node, ())) <= 1


@lru_cache(256)
def spans_between(ends: tuple[int, ...], offset: int, since: int, until: int) -> Spans:
    """The spans of a plan, with their clocks, between two clocks; the first one begins there, and turns. Lights often
    have equal ones. ends: the seconds of the cycle in which its phases end."""
    cycle, count = ends[-1], len(ends)
    bases = range((since + offset) // cycle * cycle - offset, until, cycle)
    starts = [base + head for base in bases for head in (0, *ends[:-1])]
    low, high = bisect_right(starts, since) - 1, bisect_left(starts, until)
    phases = np.arange(low, high) % count
    turns = phases == 0
    turns[0] = True
    return Spans(np.array([since, *starts[low + 1 : high]]), phases, turns)
