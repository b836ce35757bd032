"""Plans by formula, of flows alone: Webster's cycles and splits, and waves along the heaviest flows."""
from collections import Counter, defaultdict
from collections.abc import Collection, Iterable, Iterator, Mapping, Sequence
from dataclasses import dataclass
from itertools import pairwise

from streetsim.model.freeflow import FreeFlow
from streetsim.model.mapping import Map
from streetsim.model.runs import Run
from streetsim.search.signal_plans import GREEN, Plan, PlannedLight, PlannedTiming

Ways = defaultdict[tuple[str, str], Counter[tuple[int, ...]]]  # from light to light: vehicles by the links of their way

SATURATION = 1800  # vehicles an hour and lane that pass in green


@dataclass(frozen=True, slots=True)
class Hop:
    """From one light, the parent, to the next along the heaviest way between them."""

    parent: str
    seconds: float  # of travel from the parent; below 0 where the way goes to it
    parent_phase: int  # the parent's phase that lets the platoon go, or come
    own_phase: int  # the phase that lets it come, or go


@dataclass(frozen=True, slots=True)
class StreetFlows:
    """What formulas need to know of the vehicles of a run."""

    order: list[str]  # lights, the heaviest flow first
    # For each light itself and those that hang behind it in the tree of the heaviest flows.
    lights_behind: dict[str, list[str]]
    hops: dict[str, Hop]  # for each light that hangs behind another
    # For each light and phase the heaviest flow that is green in it, vehicles an hour and lane.
    loads: dict[str, list[float]]


def streets_of(run: Run, mapping: Map, lights: Mapping[str, PlannedLight]) -> StreetFlows:
    """What formulas need of the vehicles of a run at some lights: the lights by how many pass, the tree of the heaviest
    flows between them, its hops, and the loads of their phases."""
    plans = [line.command["plan"] for line in run.enters]
    light_at = {node: light for light, node in mapping.signals if light in lights}
    light_of = [light_at.get(link.end) for link in mapping.links]
    ways = ways_between(plans, light_of)
    through = Counter({light: 0 for light in lights})
    for plan in plans:
        through.update({light_of[link] for link in plan[:-1]} - {None})
    order = sorted(through, key=lambda light: (-through[light], light))
    parents, behind = heaviest_tree(order, ways)
    free_flow = FreeFlow(mapping, run.load.command["dawdle"] / 1000)
    hops = {light: hop_of(light, parent, ways, mapping, lights, free_flow) for light, parent in parents.items()}
    loads = loads_of(run, mapping, lights)
    return StreetFlows(order, behind, {light: hop for light, hop in hops.items() if hop}, loads)


def ways_between(plans: Iterable[Sequence[int]], light_of: Sequence[str | None]) -> Ways:
    """How many vehicles go from one light to another without a third between, by their way: {(light, other): {links:
    vehicles}}. A way is from the link that ends at the first light to the link after the other. light_of: by link the
    light at its end; None: no light there."""
    ways: Ways = defaultdict(Counter)
    for plan in plans:
        met = [(at, light) for at in range(len(plan) - 1) if (light := light_of[plan[at]])]
        for (begin, light), (end, next_light) in pairwise(met):
            if light != next_light:
                ways[light, next_light][tuple(plan[begin : end + 2])] += 1
    return ways


def heaviest_tree(order: Sequence[str], ways: Ways) -> tuple[dict[str, str], dict[str, list[str]]]:
    """The tree of the heaviest flows between lights, rooted in each part at its first light of order: {light: parent}
    for each light but the roots, and {light: itself and all lights behind it, parents before children}."""
    both: Counter[tuple[str, str]] = Counter()
    for (light, neighbour), counts in ways.items():
        both[min(light, neighbour), max(light, neighbour)] += counts.total()
    group, joined = {light: {light} for light in order}, defaultdict(set)
    for (light, neighbour), _ in sorted(both.items(), key=lambda item: (-item[1], item[0])):
        if group[light] is not group[neighbour]:
            joined[light].add(neighbour)
            joined[neighbour].add(light)
            group[light] |= group[neighbour]
            for member in group[neighbour]:
                group[member] = group[light]
    parents: dict[str, str] = {}
    reached: dict[str, bool] = {}
    for root in order:
        if root not in reached:
            reach_from(root, joined, parents, reached)
    behind = {light: [light] for light in order}
    for light in reversed(reached):
        if light in parents:
            behind[parents[light]] += behind[light]
    return parents, behind


def reach_from(root: str, joined: Mapping[str, set[str]], parents: dict[str, str], reached: dict[str, bool]) -> None:
    """Adds to parents and reached all lights that hang together with a root, parents first. joined: the neighbours of
    each light in the tree."""
    waiting = [root]
    while waiting:
        light = waiting.pop(0)
        reached[light] = True
        for neighbour in sorted(joined[light] - reached.keys()):
            parents[neighbour] = light
            waiting.append(neighbour)


def hop_of(
    light: str, parent: str, ways: Ways, mapping: Map, lights: Mapping[str, PlannedLight], free_flow: FreeFlow
) -> Hop | None:
    """The heaviest way between a light and its parent, either way round; None where nobody drives between them, or one
    of the turns at its two ends is missing, belongs to another light, or is green in no phase."""
    candidates = [
        (count, direction, way)
        for direction, pair in ((1, (parent, light)), (-1, (light, parent)))
        for way, count in ways[pair].items()
    ]
    if not candidates:
        return None
    _, direction, way = max(candidates)
    turn_of = {(turn.link, turn.next): turn for turn in mapping.turns}
    first_turn, last_turn = turn_of.get((way[0], way[1])), turn_of.get((way[-2], way[-1]))
    at_parent, at_light = (first_turn, last_turn) if direction > 0 else (last_turn, first_turn)
    if not at_parent or not at_light or (at_parent.light, at_light.light) != (parent, light):
        return None
    parent_phases = green_phases(lights[parent], at_parent.index)
    own_phases = green_phases(lights[light], at_light.index)
    seconds = free_flow.crossing[way[0]] + free_flow(way[1:-1])
    return Hop(parent, direction * seconds, parent_phases[0], own_phases[0]) if parent_phases and own_phases else None


def green_phases(light: PlannedLight, index: int) -> list[int]:
    """The places of the phases in which an index of a light's state has green, or is off."""
    return [at for at, state in enumerate(light.states) if state[index] in GREEN]


def loads_of(run: Run, mapping: Map, lights: Mapping[str, PlannedLight]) -> dict[str, list[float]]:
    """For each light, by phase, the heaviest flow (vehicles an hour and lane) over any link that has green in it; 0
    where nobody passes. Flows are those of all vehicles, over the time from the first departure to the last, which
    counts as 900 s at least; turns that the import added are left out."""
    departs = [line.command["depart"] for line in run.enters]
    hours = max(900, max(departs) - min(departs)) / 3600 if departs else 1.0
    flow = Counter(pair for line in run.enters for pair in pairwise(line.command["plan"]))
    turns = {(turn.link, turn.next): turn for turn in mapping.turns if turn.light in lights and not turn.added}
    loads: dict[str, list[float]] = {name: [] for name in lights}
    for name, light in lights.items():
        light_turns = [turn for turn in turns.values() if turn.light == name]
        for state in light.states:
            links: defaultdict[int, float] = defaultdict(float)
            for turn in light_turns:
                if state[turn.index] in GREEN:
                    links[turn.link] += flow[turn.link, turn.next] / hours / len(mapping.links[turn.link].lanes)
            loads[name].append(max(links.values(), default=0.0))
    return loads


def webster_cycle(lost: float, flow_ratio: float) -> float | None:
    """Webster's cycle of the least delay, in seconds; None at capacity. lost: the seconds of a cycle without green;
    flow_ratio: the sum over its phases of flow divided by saturation flow."""
    return (1.5 * lost + 5) / (1 - flow_ratio) if flow_ratio < 1 else None


def critical_cycle(lights: Mapping[str, PlannedLight], plan: Plan, streets: StreetFlows) -> int | None:
    """The longest of the lights' cycles after Webster, in seconds; None where a light is at capacity, or no light has
    phases that may be stretched."""
    cycles = [
        webster_cycle(light.fixed_seconds(plan[name]), sum(streets.loads[name][at] for at in light.free) / SATURATION)
        for name, light in lights.items()
        if light.free
    ]
    known = [cycle for cycle in cycles if cycle is not None]
    return round(max(known)) if known and len(known) == len(cycles) else None


def at_cycle(
    lights: Mapping[str, PlannedLight], plan: Plan, cycle: int | None,
    loads: Mapping[str, Sequence[float]] | None = None,
) -> Plan:
    """The plan at a cycle in seconds (None: each light keeps its own): greens in proportion to the loads of their
    phases (None: to the given greens), of each at least to 1 vehicle an hour; offsets keep their part of the cycle. A
    light whose bounds do not allow the loads is scaled by its given greens; one that cannot have the cycle keeps its
    timing. loads: as StreetFlows has them."""
    new_plan = {}
    for name, timing in plan.items():
        shares = [max(1.0, load) for load in loads[name]] if loads else None
        light, cycle_of = lights[name], cycle or timing.cycle
        new_plan[name] = light.scaled(timing, cycle_of, shares) or light.scaled(timing, cycle_of) or timing
    return new_plan


def waved(plan: Plan, streets: StreetFlows) -> Plan:
    """The plan with other offsets, along the tree: green comes when the platoon does. Lights without a hop keep
    theirs."""
    new_plan = dict(plan)
    for root in (light for light in streets.order if light not in streets.hops):
        for light in streets.lights_behind[root]:
            if hop := streets.hops.get(light):
                parent = new_plan[hop.parent]
                start = parent.offset + sum(parent.durations[: hop.parent_phase]) + hop.seconds
                timing = new_plan[light]
                offset = round(start - sum(timing.durations[: hop.own_phase])) % timing.cycle
                new_plan[light] = PlannedTiming(offset, timing.durations)
    return new_plan


def proposals(
    plan: Plan, lights: Mapping[str, PlannedLight], streets: StreetFlows, changed: Collection[str],
    cycles: Iterable[int],
) -> Iterator[tuple[str, Plan]]:
    """Plans by formula, (name, plan): each cycle of cycles in seconds, and the given one, with the given splits and
    with splits by flow, with the given offsets and with a wave. Splits and offsets are changed only where changed, of
    usual.CHANGES, has them. cycles: empty where cycles may not change."""
    for cycle in (None, *cycles):
        for loads in (None, streets.loads) if "splits" in changed else (None,):
            proposed = plan if cycle is None and loads is None else at_cycle(lights, plan, cycle, loads)
            name = f"{f'cycle {cycle} s' if cycle else 'given cycles'}, {'splits by flow' if loads else 'given splits'}"
            yield f"{name}, given offsets", proposed
            if "offsets" in changed:
                yield f"{name}, wave", waved(proposed, streets)
