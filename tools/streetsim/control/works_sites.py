"""Road works: stretches of lanes that are closed for a time.

Nobody changes lane between parallel links, so who has the closed one in its plan would stand before the works until
they end. So an edge with works is imported anew as joint links of two lanes each, a closed lane beside an open one.
Where a link is closed on all of its lanes and its edge has another one, the plans of those who may come there meanwhile
take that. So it is too, without joint lanes, where works that begin near the edge's begin close the only lanes of a
movement to their end, as on a turn pocket.
"""
import json
from collections import Counter, defaultdict
from collections.abc import Collection, Iterable, Iterator, Sequence
from contextlib import contextmanager
from dataclasses import dataclass, replace
from itertools import product

from streetsim.base import limits
from streetsim.base.files import Fault, FilePath, Json
from streetsim.base.progress import Slow
from streetsim.base.report import Report, first_few
from streetsim.control.works_asked import AskedWorks, Site, really_closed, sites_of
from streetsim.control.works_closures import Closure, begun_here, closures_of
from streetsim.control.works_crowding import SHORT, Times, told_of_crowding
from streetsim.control.works_lowering import limits_of, told_of_limits, works_on_parts
from streetsim.control.works_movements import (
    Movement, closed_ends, closures_at, lost_movements, lost_times, told_of_lost, without_led_turns,
)
from streetsim.model.freeflow import FreeFlow
from streetsim.model.mapping import Map
from streetsim.model.runs import Command, Line, Run, run_of_texts
from streetsim.model.sources import sources_of
from streetsim.sumo.converting import options_again, run_and_map
from streetsim.sumo.import_files import convert

Pair = tuple[int, int]  # a link and the next one
Shut = dict[int, list[Times]]  # by link when it is shut, as shut_links gives it
LATE = 300  # seconds that who stands in queues may be late, beside as much as it drives
NEAR = 150  # metres of an edge before works on a lane to its end, up to which who loses the lane needs not merge


@dataclass(slots=True, frozen=True)
class WorksOptions:
    """What else a run with works is asked for. joint: lanes and edges that are to be joint as well, as if they had
    works; lost: what those do who lose their only lane, of movements.LOST."""

    joint: Collection[str] = ()
    lost: str = "lead"
    limit: int | None = None  # km/h along works


def with_works(
    run: Run, mapping: Map, map_path: FilePath, works: list[AskedWorks], options: WorksOptions = WorksOptions()
) -> tuple[Run, Map, list[str]]:
    """(the run with works, its map, the texts to tell). Both are imported anew where lanes must be joint or led from,
    or edges cut; map_path: from which the imported files are found. Fault where that cannot be done, a name of
    options.joint cannot be joint, or the works cannot have the limit."""
    notes: list[str] = []
    if options.limit and works:
        slow = limits_of(works, mapping, options.limit)
        notes += told_of_limits(slow, mapping)
        works = list(works_on_parts(works, slow, mapping))
        with imported_for(f"--works-limit {options.limit}"):
            run, mapping = imported_anew(run, mapping, map_path, slow=[one.text() for one in slow])
    names = parallel_names(options.joint, mapping)
    names += [name for name in lanes_to_join(works, mapping) if name not in names]
    led = [name for name in lanes_to_lead(works, mapping) if options.lost == "lead" and name not in names]
    if names or led:
        why = "nobody changes lane between the parallel links of an edge, so its lanes must be joint, which"
        advice = f". Run streetsim-import with --joint {','.join([*names, *led])}"
        with imported_for(f"{first_few([*names, *led])}: {why}", advice):
            run, mapping = imported_anew(run, mapping, map_path, joint=names, led=led)
    if names:
        edges = first_few(sorted(edges_of_names(names, mapping)))
        notes.append(f"joint for this run, so that vehicles change lane: edges {edges}")
    run, mapping, lost = with_closures(run, mapping, works, options.lost)
    sites = sites_of(works, mapping)
    notes += [*really_closed(sites, mapping), *all_closed(run, mapping, shut_links(sites, mapping))]
    closures = begun_here(while_vehicles_depart(run, closures_of(run, limits.CLOCK)), mapping) if sites else ()
    notes += [*told_of_crowding(run, mapping, closures), *lost]
    return run, mapping, notes


def while_vehicles_depart(run: Run, closures: Iterable[Closure]) -> list[Closure]:
    """The closures, of which those that last to the greatest clock, as nothing reopens them, end behind the run's last
    departure, so that vehicles an hour can be told of them; SHORT seconds after their begin at the earliest."""
    last = int(run.departs().max(initial=0)) + 1
    return [replace(one, end=max(one.begin + SHORT, last)) if one.end == limits.CLOCK else one for one in closures]


def with_closures(
    run: Run, mapping: Map, works: Iterable[AskedWorks], how: str, searched: bool = False
) -> tuple[Run, Map, list[str]]:
    """(the run with works, whose lanes its map has, joint where they must be; its map; the texts on those who lose
    their only lane). how: of movements.LOST: with lead these are led from a lane beside, where one has the turn; all
    others wait, and who asks for bar has to give them other ways before. searched: whether it does, which only the
    texts tell."""
    sites = sites_of(works, mapping)
    closures = closures_at(sites)
    lost = lost_movements(run, mapping, closures)
    timed = sorted([*run.timed, *works_lines(sites)], key=lambda pair: pair[0])
    staying_movements = () if how == "lead" else lost_times(closures, mapping)
    made = round_works(replace(run, timed=timed), mapping, shut_links(sites, mapping), staying_movements)
    told = list(told_of_lost(lost, mapping, how, searched))
    if how != "lead":
        made, mapping = without_led_turns(made, mapping, lost)
    return made, mapping, told


def works_lines(sites: Sequence[Site]) -> list[tuple[int, Line]]:
    """The timed lines of works, (clock, line), rising: a close and a reopen of each. In a second in which works end,
    others that last on cells of theirs are closed once more behind that, as reopening has opened these cells."""
    lines = [(site.works.end, works_line("reopen", site)) for site in sites]
    lines += [(site.works.begin, works_line("close", site)) for site in sites]
    for ended, other in product(sites, sites):
        same_lane = (ended.link, ended.lane) == (other.link, other.lane)
        if same_lane and ended.cells[0] <= other.cells[1] and other.cells[0] <= ended.cells[1]:
            if other.works.begin < ended.works.end < other.works.end:
                lines.append((ended.works.end, works_line("close", other)))
    return sorted(lines, key=lambda pair: (pair[0], pair[1].command["cmd"] == "close"))


def works_line(name: str, site: Site) -> Line:
    """The line of a place of works; name: close or reopen."""
    command = {"cmd": name, "link": site.link, "lane": site.lane, "first": site.cells[0], "last": site.cells[1]}
    return Line(0, json.dumps(command), command)


def shut_links(sites: Collection[Site], mapping: Map) -> Shut:
    """By link the times at which all its lanes are closed at one place, or where closed cells of its lanes adjoin; some
    may overlap. Links that are not closed on all lanes are left out."""
    on_lane = defaultdict(list)
    for site in sites:
        on_lane[site.link, site.lane].append(site)
    shut: Shut = defaultdict(list)
    for link in sorted({site.link for site in sites}):
        lanes = [on_lane[link, lane] for lane in range(len(mapping.links[link].lanes))]
        for together in product(*lanes):
            first, last = max(one.works.begin for one in together), min(one.works.end for one in together)
            begin, end = max(one.cells[0] for one in together), min(one.cells[1] for one in together)
            if first < last and begin <= end + 1:
                shut[link].append((first, last))
    return shut


def parallel_names(names: Iterable[str], mapping: Map) -> list[str]:
    """The names of edges and lanes to be joint, among some, whose edges are several links and that are not joint yet.
    Fault where the map has no such name, or the edge has one lane."""
    parallel, joint_names = [], mapping.options.get("joint", ())
    for name in dict.fromkeys(names):
        if name not in mapping.links_of and mapping.place_of(name) is None:
            raise Fault(f"--joint: the map has no edge or lane {name!r}")
        links = mapping.links_of[next(iter(edges_of_names([name], mapping)))]
        if len(links) == 1 and len(mapping.links[links[0]].lanes) == 1:
            raise Fault(f"--joint: edge {mapping.links[links[0]].edge!r} has one lane, and none beside it")
        if len(links) > 1 and name not in joint_names:
            parallel.append(name)
    return parallel


def lanes_to_join(works: Collection[AskedWorks], mapping: Map) -> list[str]:
    """The lanes with works that must be joint with the lane beside: those in the way, but for lanes_to_lead."""
    led = lanes_to_lead(works, mapping)
    names = dict.fromkeys(site.works.lane for site in in_the_way(sites_of(works, mapping), mapping))
    return [name for name in names if name not in led]


def lanes_to_lead(works: Collection[AskedWorks], mapping: Map) -> list[str]:
    """The lanes with works whose vehicles can be led over the links beside from the begin of the edge on, so that they
    need not be joint: works close them to their end, from at most NEAR metres on, and a movement has no other lane."""
    sites = sites_of(works, mapping)
    edges = {edge for edge, _ in lost_times(closures_at(sites), mapping)}
    near = [site for site in in_the_way(sites, mapping) if site.works.from_metres <= NEAR]
    ends = [site for site in near if closed_ends(closures_at([site]), mapping)]
    return list(dict.fromkeys(site.works.lane for site in ends if mapping.links[site.link].edge in edges))


def in_the_way(sites: Collection[Site], mapping: Map) -> list[Site]:
    """The works on edges of several links of which one at least is shut, but for lanes that are joint already."""
    edges = {mapping.links[link].edge for link in shut_links(sites, mapping)}
    edges = {edge for edge in edges if len(mapping.links_of[edge]) > 1}.difference(mapping.options.get("joint", ()))
    apart = [site for site in sites if site.works.lane not in mapping.options.get("joint", ())]
    return [site for site in apart if mapping.links[site.link].edge in edges]


def why_parallel(mapping: Map, lane: str) -> str | None:
    """Why a lane, by SUMO's name, cannot be closed with the map as it is: nobody could change to the lane beside it.
    None where it can be closed; ValueError where the map does not have it."""
    place = mapping.place_of(lane)
    if place is None:
        raise ValueError(f"the map has no lane {lane!r}")
    link = mapping.links[place[0]]
    if len(link.lanes) > 1 or len(mapping.links_of[link.edge]) == 1:
        return None
    return (
        f"lane {lane!r} cannot be closed: it is a link of its own, and nobody changes lane between the parallel links "
        f"of edge {link.edge!r}, so its vehicles would stand; the edge must be joint from the start"
    )


def imported_anew(run: Run, mapping: Map, map_path: FilePath, **more: Iterable[str]) -> tuple[Run, Map]:
    """(the run, its map), imported anew with further values in some options (joint, led, slow). The files are found
    from the map's path; Fault where they, or the run, are not as they were at the import."""
    sources = sources_of(mapping.sources, map_path, run.path)
    options = options_again(mapping, **more)
    with Slow(f"importing {sources.net} anew"):
        report = Report()
        made = convert(sources.net, sources.additional, sources.routes, options, report, sources.trips)
        lines, anew = run_and_map(made, report)
    anew.sources, anew.names = mapping.sources, named_in_parts(mapping, anew)
    return run_of_texts(run.path, lines), anew


def named_in_parts(mapping: Map, anew: Map) -> Json:
    """The names of streets and junctions of a map, with the street's name for each part of a cut edge that the map
    imported anew has."""
    own = mapping.names.get("edges", {})
    parts = {edge: own.get(edge.rpartition(".")[0]) for edge in anew.links_of if edge not in mapping.links_of}
    if not any(parts.values()):
        return mapping.names
    return {**mapping.names, "edges": {**own, **{edge: name for edge, name in parts.items() if name}}}


@contextmanager
def imported_for(cause: str, advice: str = "") -> Iterator[None]:
    """A context in which a Fault of an import is raised anew between what needed it and an advice."""
    try:
        yield
    except Fault as fault:
        raise Fault(f"{cause} needs the import anew: {fault}{advice}") from None


def edges_of_names(names: Iterable[str], mapping: Map) -> set[str]:
    """The edges of some names, each of an edge or of a lane."""
    return {name if name in mapping.links_of else name.rpartition("_")[0] for name in names}


def round_works(run: Run, mapping: Map, shut: Shut, staying_movements: Collection[Movement]) -> Run:
    """The run in which vehicles that may come to a shut link while it is shut take another link of its edge, where one
    has their turns. staying_movements: those for which nobody changes to added turns."""
    turn_lanes: defaultdict[Pair, list[int]] = defaultdict(list)
    use: Counter[int] = Counter()
    enters = list(run.enters)
    for turn in mapping.turns:
        if not turn.added or (mapping.links[turn.link].edge, mapping.links[turn.next].edge) not in staying_movements:
            turn_lanes[turn.link, turn.next].append(turn.lane)
    free_flow = FreeFlow(mapping, run.load.command.get("dawdle", 0) / 1000)
    for enter_index, line in enumerate(enters):
        if shut.keys().isdisjoint(line.command["plan"]):
            continue
        plan = plan_round(line.command, mapping, shut, turn_lanes, use, free_flow)
        if plan != line.command["plan"]:
            command: Command = {**line.command, "plan": plan}
            if plan[0] != line.command["plan"][0]:
                command["lane"] = turn_lanes[plan[0], plan[1]][0] if len(plan) > 1 else 0
            enters[enter_index] = replace(line, command=command, text=json.dumps(command, separators=(",", ":")))
    return replace(run, enters=enters)


def plan_round(
    command: Command, mapping: Map, shut: Shut, turns: Collection[Pair], use: Counter[int], free_flow: FreeFlow
) -> list[int]:
    """The plan of an enter command, with other links of the same edges, which are never shut, in place of links that
    are shut when it may come, where there are any. turns: those with a turn; use: how many were led over each
    link so far, to which it adds."""
    plan = list(command["plan"])
    for plan_index, link in enumerate(plan):
        soonest = command["depart"] + free_flow(plan[:plan_index])
        latest = command["depart"] + 2 * free_flow(plan[: plan_index + 1]) + LATE
        if not any(soonest < last and first <= latest for first, last in shut.get(link, ())):
            continue
        beside = [
            neighbour
            for neighbour in mapping.links_of[mapping.links[link].edge]
            if neighbour not in shut
            and (plan_index == 0 or (plan[plan_index - 1], neighbour) in turns)
            and (plan_index + 1 == len(plan) or (neighbour, plan[plan_index + 1]) in turns)
        ]
        if beside:
            plan[plan_index] = min(beside, key=lambda neighbour: use[neighbour] / len(mapping.links[neighbour].lanes))
            use[plan[plan_index]] += 1
    return plan


def all_closed(run: Run, mapping: Map, shut: Shut) -> Iterator[str]:
    """Says, a text each, where all links of an edge are shut, at once or in turn: nobody takes another way."""
    for edge in dict.fromkeys(mapping.links[link].edge for link in shut):
        links = mapping.links_of[edge]
        if all(link in shut for link in links):
            times = [time for link in links for time in shut[link]]
            first, last = min(first for first, _ in times), max(last for _, last in times)
            count = sum(not set(links).isdisjoint(plan) for plan in run.plans())
            what = "its only lane is" if sum(len(mapping.links[link].lanes) for link in links) == 1 else "all lanes are"
            yield (
                f"edge {edge}: {what} closed between {first:,} and {last:,} s; nobody takes another way, so those "
                f"of the {count:,} vehicles through it that come meanwhile wait before the works "
                "(streetsim-route .. --close finds ways round)"
            )
