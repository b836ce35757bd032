"""What the lanes of approaches showed in an interval: queues and who stood, summed up over the spans in which a light
shows one phase. junctions.py keeps one of each interval, lane_utilisation.py reads them."""
from __future__ import annotations

from collections import defaultdict
from collections.abc import Mapping, Sequence
from dataclasses import dataclass
from typing import Any

from streetsim.base.arrays import Array, numpy as np
from streetsim.model.mapping import Place
from streetsim.observe.shown import ShownPlans, Spans

COUNT = "u2"  # of seconds of a phase, and of vehicles on a lane


@dataclass(slots=True)
class ShownInterval:
    """An interval, from one clock to another. Its spans go by node. Its lanes go by the node to which they lead."""

    begin: int
    end: int
    spans: Array  # by node how many
    phases: Array  # by span its number, as of Shown
    seconds: Array  # by span
    waiting: Array  # by lane and span the seconds in which anybody was there who had stood
    stood_last: Array  # by lane and span who had stood in its last second
    stood_first: Array  # by lane who had stood in the first second of all
    cycles: Array  # by lane how many
    queues: Array  # by lane and cycle the longest queue, metres


def make_shown_interval(
    shown_plans: ShownPlans, lanes: Mapping[int, Sequence[int]], lane_keys: Sequence[Place], begin: int, metres: Array,
    stood: Array,
) -> ShownInterval:
    """What lanes showed in some seconds behind a clock. lanes: by node those that lead to it, by their positions among
    the keys; metres, stood: by second and lane the queue, in metres, and who had stood."""
    end, metres, stood = begin + len(metres), np.ascontiguousarray(metres.T), np.ascontiguousarray(stood.T, COUNT)
    spans = {node: shown_plans.spans(node, begin, end) for node in lanes}
    alike: defaultdict[tuple[bytes, bytes], list[int]] = defaultdict(list)
    for node, node_spans in spans.items():
        alike[node_spans.begins.tobytes(), node_spans.turns.tobytes()].append(node)
    columns_by_node: dict[int, tuple[Any, ...]] = {}
    for nodes in alike.values():
        alike_lanes = [lane for node in nodes for lane in lanes[node]]
        seconds, *alike_columns = columns_of(spans[nodes[0]], metres[alike_lanes], stood[alike_lanes])
        end_row = 0
        for node in nodes:
            begin_row, end_row = end_row, end_row + len(lanes[node])
            columns_by_node[node] = seconds, *(column[begin_row:end_row].ravel() for column in alike_columns)
    for node in lanes:
        if not shown_plans.has_one_plan(node):
            greens = shown_plans.greens(node, [lane_keys[lane] for lane in lanes[node]], spans[node].phases.tolist())
            columns_by_node[node] = *columns_by_node[node][:4], *by_greens(spans[node], greens, metres[lanes[node]])
    counts = np.array([len(node_spans.phases) for node_spans in spans.values()])
    phases = np.concatenate([node_spans.phases for node_spans in spans.values()]).astype(np.int32)
    columns = zip(*(columns_by_node[node] for node in lanes), strict=True)
    return ShownInterval(begin, end, counts, phases, *(np.concatenate(parts) for parts in columns))


def columns_of(spans: Spans, back: Array, stood: Array) -> tuple[Array, ...]:
    """What ShownInterval has from `seconds` on, of lanes with the same spans, whose cycles are those of a plan; back,
    stood: by lane and second."""
    ends, cycles = np.append(spans.begins[1:], len(back[0])), spans.begins[spans.turns]
    waiting = np.add.reduceat(stood > 0, spans.begins, axis=1, dtype=COUNT)
    count, queues = np.full(len(back), len(cycles), COUNT), np.maximum.reduceat(back, cycles, axis=1)
    return (ends - spans.begins).astype(COUNT), waiting, stood[:, ends - 1], stood[:, 0], count, queues


def by_greens(
    spans: Spans, greens: Sequence[Sequence[frozenset[int] | None]], metres: Array
) -> tuple[list[int], Array]:
    """By lane how many cycles, and the longest queue in each, where a light has several plans, so that its cycles begin
    with the greens of each lane; greens: as `ShownPlans.greens` gives them; metres: by lane and second."""
    queues = []
    for lane_greens, lane_metres in zip(greens, metres, strict=True):
        rises = [True, *(bool(after) and not before for before, after in zip(lane_greens, lane_greens[1:]))]
        queues.append(np.maximum.reduceat(lane_metres, spans.begins[rises]))
    return [len(cycles) for cycles in queues], np.concatenate(queues)
