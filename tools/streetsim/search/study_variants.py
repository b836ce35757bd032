"""The variants of a study, read from its TOML file."""
import contextlib
import os
import sys
import tomllib
from collections.abc import Iterable, Iterator, Mapping, Sequence
from dataclasses import dataclass, replace
from functools import partial
from typing import Any

from streetsim.base import limits
from streetsim.base.files import Fault, Json, open_text, reading
from streetsim.base.seeds import seeds_of
from streetsim.base.unpacking import LONGEST, TooMuch, lifted
from streetsim.base.words import MOST_ROUNDS, ROUNDS, names_in, whole_seconds
from streetsim.control.actuated_lights import NONE_DRIVEN, ActuatedLights, driven_lights
from streetsim.control.bus_planned import MOST_SEEN, NONE, Planned, planned
from streetsim.control.bus_priority import prioritised
from streetsim.control.ending import after_departures
from streetsim.control.settings import Settings
from streetsim.control.works_asked import all_works
from streetsim.control.works_closures import closures_of
from streetsim.control.works_crowding import crowded_works, told_of_crowded
from streetsim.control.works_movements import LOST
from streetsim.control.works_sites import WorksOptions, lanes_to_join, with_works
from streetsim.model import trust
from streetsim.model.doubts import Doubt
from streetsim.model.fullness import FullLane
from streetsim.model.loaded_lanes import forecast_doubts, loaded_lanes
from streetsim.model.mapping import Map, read_map
from streetsim.model.replications import DRAWN, LISTED, drawn
from streetsim.model.runs import Run, with_load
from streetsim.observe.doubted_places import doubt_of_lane
from streetsim.search.route_studied import Wished, run_on_found_ways
from streetsim.search.run_giving_way import giving_session
from streetsim.search.run_prepared import PreparedRun
from streetsim.search.study_windows import with_windows
from streetsim.search.signal_lines import LightLines, full_lanes_under, read_plans
from streetsim.search.signal_plans import light_and_timing
from streetsim.search.signal_town import Reading, lights_of, read_run_and_map
from streetsim.sumo.constraints import broken_in
from streetsim.sumo.net import doubted_plans, lights_not_static

MOST_VARIANTS, MOST_DOTS = 1_000, 200  # of a study; in a line of its file
KEYS = {"run", "map", "until", "seeds", "base", "rounds", "merge", "lights", "lost", "stops", "variant"}
KEYS |= {"priority", "seen", "departures"}
VARIANT = {"run", "map", "plans", "close", "merge", "lights", "lost", "works_limit", "stops", "dawdle", "route"}
VARIANT |= {"knowing", "priority", "seen"}  # and close_at, which with_windows takes out
RANGES = {"dawdle": (range(1001), ""), "works_limit": (limits.KMH, " km/h"), "seen": (range(1, MOST_SEEN + 1), " s")}
EITHER = {"merge": ("turns", "none"), "lights": ("actuated", "listed"), "stops": ("made", "none")}  # words of a key
DEPARTURES = DRAWN, LISTED


@dataclass(slots=True)
class Variant:
    """A variant of a study, made ready to run. signals: of its plans, for the program; empty without plans."""

    sessions: list[PreparedRun]  # one for each seed where departures are drawn, else one for all
    signals: bytes  # lines
    # When vehicles would arrive, were nobody in their way, by the variant's dawdle; rising; as many as sessions.
    due: list[list[float]]
    doubts: list[str]  # what speaks against its runs before any is made
    works: list[tuple[str, int]]  # lanes, and when works on them begin
    loaded: dict[str, FullLane]  # by lane, those that the demand nearly fills
    places: list[Doubt]  # what speaks against its runs, with places
    works_end: int  # when the last of its works end; 0: there are none
    mapping: Map

    def cars(self, at: int) -> int:
        """How many vehicles depart before the end with the seed at a place."""
        return len(self.sessions[at % len(self.sessions)].departs)

    def due_with(self, at: int) -> list[float]:
        """When they would arrive, were nobody in their way, with the seed at a place."""
        return self.due[at % len(self.due)]


@dataclass(slots=True)
class Study:
    """A study: its variants, and the seeds with which each is run."""

    until: int | None  # None: each run goes on until all have arrived or nobody moves
    seeds: Sequence[int]
    base: str  # the variant to which others are compared
    variants: dict[str, Variant]
    drawn: bool = False  # departures, by each seed


def read_study(
    path: str, simulator: str, rounds: int | None = None, departures: str | None = None, close_at: Sequence[int] = ()
) -> Study:
    """The study of a TOML file, whose paths are read from the file's folder. Variants with route = true have their ways
    searched now, by runs; what is done is told on standard error. simulator: path of the program; rounds, departures:
    in place of those in the file, None: those; close_at: clocks at which all works begin, in turn, as with_windows.
    Fault where the file, or one that it names, cannot be read or is wrong."""
    with reading(path), open_text(path) as file:
        try:
            text = file.read(LONGEST + 1)
            refuse_large(text)
            study_table = tomllib.loads(text)
        except tomllib.TOMLDecodeError as fault:
            raise Fault(f"{path}: not TOML: {fault}") from None
    refuse_unknown(path, study_table, KEYS)
    for key in ("run", "map", "seeds", "variant"):
        if key not in study_table:
            raise Fault(f"{path}: no {key!r} in it")
    study_table["until"] = until = read_until(path, study_table.get("until"))
    variants = study_table["variant"]
    if not isinstance(variants, dict) or not all(isinstance(item, dict) for item in variants.values()) or not variants:
        raise Fault(f"{path}: variants are tables [variant.NAME]")
    with naming(path):
        study_table["variant"] = variants = with_windows(variants, close_at)
    if len(variants) > MOST_VARIANTS:
        raise Fault(f"{path}: {len(variants):,} variants are more than {MOST_VARIANTS:,}")
    base = study_table.get("base", next(iter(variants)))
    if base not in [*variants]:
        raise Fault(f"{path}: base = {base!r}: there is no variant of this name; there are {', '.join(variants)}")
    named = study_table.get("rounds", ROUNDS)
    if type(named) is not int or not 0 <= named <= MOST_ROUNDS:
        raise Fault(f"{path}: rounds = {named!r} is not 0 to {MOST_ROUNDS}")
    study_table["rounds"] = named if rounds is None else rounds
    study_table["departures"] = departures or study_table.get("departures", DRAWN)
    if study_table["departures"] not in DEPARTURES:
        raise Fault(f"{path}: departures = {study_table['departures']!r} is neither {DRAWN!r} nor {LISTED!r}")
    seeds = seeds_of(study_table["seeds"], f"{path}: seeds")
    lanes = joint_lanes(path, study_table)
    variants_read = {}
    for name, table in variants.items():
        with naming(where := f"{path}: variant {name!r}"):
            variants_read[name] = read_variant(where, path, study_table, table, lanes, simulator)
    for name, variant in variants_read.items():
        if name != base:
            growth = variant.cars(0) / max(1, variants_read[base].cars(0))
            variant.doubts += forecast_doubts(variant.loaded, variants_read[base].loaded, growth)
    return Study(until, seeds, base, variants_read, study_table["departures"] == DRAWN)


def refuse_large(text: str) -> None:
    """TooMuch for the text of a study that is long, or has so many dots that its keys might cost memory."""
    dots = max((line.count(".") for line in text.splitlines()), default=0)
    if (len(text) > LONGEST or dots > MOST_DOTS or text.count(".") > 50 * MOST_DOTS) and not lifted():
        raise TooMuch(f"has more than {LONGEST:,} letters, or {MOST_DOTS} dots in a line or {50 * MOST_DOTS:,} in all")


@contextlib.contextmanager
def naming(where: str) -> Iterator[None]:
    """A context in which a Fault gets `where`, the variant that it is of, before its text, if that is not there yet."""
    try:
        yield
    except Fault as fault:
        raise fault if str(fault).startswith(where) else Fault(f"{where}: {fault}") from None


def read_until(path: str, until: Any) -> int | None:
    """The last second of a study, of a number or a time (07:00:00), 1 to limits.CLOCK, or None; else a Fault."""
    if isinstance(until, str) and whole_seconds(until) is not None:
        until = whole_seconds(until)
    if until is not None and (type(until) is not int or not 1 <= until <= limits.CLOCK):
        raise Fault(f"{path}: until = {until!r} is not 1 to {limits.CLOCK:,}")
    return until


def refuse_unknown(where: str, table: Iterable[str], known: Iterable[str]) -> None:
    """Fault where a table has a key that is not known."""
    if unknown := [key for key in table if key not in known]:
        raise Fault(f"{where}: unknown key {unknown[0]!r}; known are {', '.join(sorted(known))}")


def joint_lanes(path: str, study: Json) -> dict[tuple[str, str], dict[str, None]]:
    """The lanes that are joint in all variants of a run, as works of one of them need it: {(run, map): lanes}; the
    lanes are keys, in order. study: the table of the file at path, with `until` as read_until gives it. Fault where a
    value of a variant or a map is wrong."""
    lanes_by_run: dict[tuple[str, str], dict[str, None]] = {}
    for name, variant in study["variant"].items():
        with naming(where := f"{path}: variant {name!r}"):
            check_types(where, {**study, **variant})
            if "lost" in variant and not variant.get("close"):
                raise Fault(f"{where}: lost is of works: close = [..] is needed too")
            lanes = lanes_by_run.setdefault(pair_of(study, variant), {})
            if closed := variant.get("close"):
                mapping = read_map(os.path.join(os.path.dirname(os.path.abspath(path)), pair_of(study, variant)[1]))
                lanes.update(dict.fromkeys(lanes_to_join(all_works(closed, mapping, 0, study["until"]), mapping)))
    return lanes_by_run


def pair_of(study: Json, variant: Json) -> tuple[str, str]:
    """(path of the run, path of the map) of a variant, else of the study, as they are written there."""
    return variant.get("run", study["run"]), variant.get("map", study["map"])


def read_variant(
    variant_label: str, path: str, study: Json, variant: Json, joint: Mapping[tuple[str, str], Iterable[str]],
    simulator: str,
) -> Variant:
    """A variant, read and made ready, its ways searched by runs where it has route = true; what it does is told on
    standard error. variant_label: for faults; path: of the study's file; study, variant: their tables, whose values
    check_types has passed, study's `until` and `rounds` as read_study puts them there; joint: as joint_lanes gives it;
    simulator: path of the program. Fault where a key is unknown, or a file that it names cannot be read or is wrong."""
    refuse_unknown(variant_label, variant, VARIANT)
    beside = partial(os.path.join, os.path.dirname(os.path.abspath(path)))
    run_path, map_path = map(beside, pair_of(study, variant))
    run, mapping = read_run_and_map(run_path, map_path, study["until"])
    works = all_works(variant.get("close", ()), mapping, run.start(), study["until"])
    ends = study["until"] or mapping.end
    until = ends or after_departures(run)
    notes: list[str] = []
    route_doubts: list[str] = []
    drives = variant.get("lights", study.get("lights")) != "listed" and "plans" not in variant
    lanes, lost = tuple(joint[pair_of(study, variant)]), variant.get("lost", study.get("lost", "lead"))
    if variant.get("route"):
        close, knowing = variant.get("close", ()), variant.get("knowing", 1.0)
        seeds = seeds_of(study["seeds"], f"{path}: seeds")
        wished = Wished(close, knowing, lanes, simulator, until, study["rounds"], seeds, drives, lost)
        run, mapping, route_doubts = run_on_found_ways(run, mapping, map_path, wished, variant_label)
    else:
        run, mapping, notes = with_works(
            run, mapping, map_path, works, WorksOptions(lanes, lost, variant.get("works_limit"))
        )
    run = with_load(run, **{"dawdle": variant["dawdle"]} if "dawdle" in variant else {})
    merged = {**study, **variant}
    lights, buses = lights_and_buses(run, mapping, merged, drives)
    notes += [*lights.notes(), *buses.notes()]
    print(*(f"{variant_label}: {text}" for text in notes), sep="\n", end="\n" if notes else "", file=sys.stderr)
    nodes: frozenset[int] = frozenset()
    signals, sensing, full, doubted = b"", lights.listed_lights(mapping), None, mapping.doubted_plans
    if "plans" in variant:
        plans = list(map(beside, variant["plans"]))
        plan_files = Reading(run_path, map_path, plans, until, simulator, 0, ())
        signals, sensing, full, doubted = signals_of(plan_files, run, mapping)
        nodes = frozenset(node for _, node in mapping.signals)
    merging = variant.get("merge", study.get("merge")) != "none"
    settings = Settings(until, open_end=not ends, merging=merging, lights=lights, buses=buses)
    sessions, due = [], []
    for drawn_run, drawn_map in replications(run, mapping, study, path):
        lights, buses = lights_and_buses(drawn_run, drawn_map, merged, drives)
        run_settings = replace(settings, lights=lights, buses=buses)
        sessions.append(giving_session(simulator, drawn_run, drawn_map, run_settings, study["rounds"], nodes))
        due.append(trust.free_arrivals(drawn_run, drawn_map))
    doubts = [*route_doubts, *trust.length_doubts(until, run, mapping), *trust.plan_doubts(doubted)]
    doubts += trust.actuated_doubts(until, run, mapping, sensing)
    begins = [(site.lane, site.begin) for site in works]
    full_lanes = mapping.full.lanes if full is None else full
    crowded = crowded_works(run, mapping, closures_of(run, until))
    doubts += told_of_crowded(crowded)
    places, works_end = [*map(doubt_of_lane, full_lanes), *crowded], max((site.end for site in works), default=0)
    return Variant(sessions, signals, due, doubts, begins, loaded_lanes(mapping, full), places, works_end, mapping)


def replications(run: Run, mapping: Map, study: Json, path: str) -> Iterator[tuple[Run, Map]]:
    """The run with its map: for each seed of the study with its departures drawn, or once as it is; Fault where there
    is a seed with which nobody departs before the end. path: of the study's file."""
    if study["departures"] == LISTED:
        yield run, mapping
        return
    for seed in seeds_of(study["seeds"], f"{path}: seeds"):
        drawn_run, drawn_map = drawn(with_load(run, seed=seed), mapping)
        until = study["until"]
        if not any(until is None or line.command["depart"] < until for line in drawn_run.enters):
            raise Fault(f"seed {seed}: nobody departs where departures are drawn: departures = {LISTED!r}")
        yield drawn_run, drawn_map


def lights_and_buses(run: Run, mapping: Map, merged: Json, drives: bool) -> tuple[ActuatedLights, Planned]:
    """The lights of a variant's run that are driven, and the stops and the priority of its buses. merged: the variant's
    keys over the study's; drives: whether detectors drive lights. Fault where no vehicle is of a class or line of
    priority, or detectors are not to drive the lights that would wait."""
    lights = driven_lights(run, mapping) if drives and mapping.actuated else NONE_DRIVEN
    buses = planned(run, mapping) if merged.get("stops") != "none" else NONE
    names = names_in(merged.get("priority", ""))
    if names and not drives and mapping.actuated:
        raise Fault("priority and listed: lights that wait for buses do not show their listed seconds")
    return prioritised(run, mapping, names, merged.get("seen"), lights, buses) if names else (lights, buses)


def check_types(variant_label: str, merged: Json) -> None:
    """Fault where a value of a variant is not of the kind, or in the range, that its key needs, or a key needs another
    one that is absent. merged: the variant's keys over the study's."""
    for key in ("run", "map"):
        if not isinstance(merged[key], str):
            raise Fault(f"{variant_label}: {key} = {merged[key]!r} is no path")
    for key in ("plans", "close"):
        if not isinstance(merged.get(key, []), list) or not all(isinstance(text, str) for text in merged.get(key, ())):
            raise Fault(f"{variant_label}: {key} = {merged[key]!r} is no list of texts")
    if merged.get("plans") == []:
        raise Fault(f"{variant_label}: plans = []: the network is the first of them")
    for key, (allowed, unit) in RANGES.items():
        if key in merged and (type(merged[key]) is not int or merged[key] not in allowed):
            raise Fault(f"{variant_label}: {key} = {merged[key]!r} is not {allowed[0]:,} to {allowed[-1]:,}{unit}")
    if type(merged.get("route", False)) is not bool:
        raise Fault(f"{variant_label}: route = {merged['route']!r} is neither true nor false")
    if type(merged.get("knowing", 1)) not in (int, float) or not 0 <= merged.get("knowing", 1) <= 1:
        raise Fault(f"{variant_label}: knowing = {merged['knowing']!r} is not 0 to 1")
    if merged.get("lost", "lead") not in LOST:
        raise Fault(f"{variant_label}: lost = {merged['lost']!r} is none of {', '.join(map(repr, LOST))}")
    if "works_limit" in merged and (merged.get("route") or not merged.get("close")):
        why = "works_limit is of works without a search for ways: close = [..] is needed, and no route"
        raise Fault(f"{variant_label}: {why}")
    for key, choices in EITHER.items():
        if merged.get(key, choices[0]) not in choices:
            raise Fault(f"{variant_label}: {key} = {merged[key]!r} is neither {choices[0]!r} nor {choices[1]!r}")
    check_priority(variant_label, merged)
    if "knowing" in merged and not (merged.get("route") and merged.get("close")):
        why = "knowing is of drivers that go round works: close = [..] and route = true are needed too"
        raise Fault(f"{variant_label}: {why}")


def check_priority(variant_label: str, merged: Json) -> None:
    """Fault where what a variant says of priority has no meaning. merged: the variant's keys over the study's."""
    if not isinstance(names := merged.get("priority", ""), str):
        raise Fault(f"{variant_label}: priority = {names!r} is no text of classes or lines")
    if "seen" in merged and not names:
        raise Fault(f"{variant_label}: seen is of vehicles with priority")
    if names and "plans" in merged:
        raise Fault(f"{variant_label}: priority and plans: lights that wait for buses do not show plans")


def signals_of(
    plan_files: Reading, run: Run, mapping: Map
) -> tuple[bytes, list[str], list[FullLane], dict[str, str]]:
    """(signal lines of all lights under a variant's plans; names of those that SUMO times by detectors; lanes that are
    nearly full at lights under these plans; why plans of lights are not to be trusted). plan_files: the paths; run,
    mapping: read of these. Fault where a plan cannot be read, or none has a program for a light."""
    net = read_plans(plan_files.plans, mapping)
    timed = {name: light_and_timing(name, net.programs[name]) for name in lights_of(plan_files, mapping, net)}
    promised = ((name, net.programs[name], light.constraints) for name, (light, _) in timed.items())
    broken = [text for promise in promised for text in broken_in(*promise)]
    path = plan_files.plans[-1]
    print(*(f"{path}: {text}" for text in broken), sep="\n", end="\n" if broken else "", file=sys.stderr)
    plan = {name: timing for name, (_, timing) in timed.items()}
    lines = LightLines(mapping).signal_lines(plan, {name: light for name, (light, _) in timed.items()})
    return lines, lights_not_static(net, timed), full_lanes_under(net, run, mapping), doubted_plans(net)
