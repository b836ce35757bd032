"""Giving way without a light in studies and searches: rounds are made where a run is done,
with its signals and its seed."""
import json
from collections.abc import Sequence
from dataclasses import replace
from functools import partial

from streetsim.base.files import Fault
from streetsim.base.program import program_digest
from streetsim.control.settings import Settings
from streetsim.control.works_closures import closures_of
from streetsim.kernel.loop import Observer
from streetsim.kernel.serving import serving_program
from streetsim.model.mapping import Map
from streetsim.model.runs import Line, Run, with_load
from streetsim.observe.giving_way_rounds import Yielding, gaps_of, with_lines
from streetsim.search.run_open_end import outcome_of
from streetsim.search.run_hidden import HiddenSeconds, HiddenShares
from streetsim.search.run_prepared import Giving, Outcome, PreparedRun, outcome, session_of, vehicle_seconds


def giving_session(
    program: str, run: Run, mapping: Map, settings: Settings, rounds: int, without: frozenset = frozenset(), **load: int
) -> PreparedRun:
    """The session of a run whose vehicles give way without a light by so many rounds. settings: its end, whether that
    is open, merging before works, lights that detectors drive and stops that are made; without: nodes whose signals are
    given with each run; load: fields of the load with other values. The session has a giving only where there are
    rounds and turns that give way, turns that give way at lights, an open end, such lights or stops, or works."""
    until = settings.until
    session = session_of(program, run, until, without, **load)
    gives_way = rounds and mapping.yields or mapping.ways
    if not (gives_way or settings.open_end or is_driven(settings) or closures_of(run, until)):
        return session
    ends = settings.open_end, settings.merging, settings.lights, settings.buses
    return replace(session, giving=Giving(with_load(run, **load), mapping, until, without, rounds, *ends))


def acts(giving: Giving) -> bool:
    """Whether lines are sent by what is seen while a run goes."""
    return bool(giving.mapping.ways) or acts_beside_lights(giving)


def acts_beside_lights(giving: Giving) -> bool:
    """The same, but for those of turns that give way at lights."""
    without_light = bool(giving.mapping.open_ways)
    return without_light or is_driven(giving) or bool(giving.merging and closures_of(giving.run, giving.until))


def is_driven(settings: Settings | Giving) -> bool:
    """Whether lines are sent by what is seen while a run goes: for lights that detectors drive, or for stops of buses;
    merging before works does not count."""
    return bool(settings.lights.driven or settings.lights.idle or settings.buses.visits)


def gap_lines(session: PreparedRun, signals: bytes, seed: int) -> tuple[list, Yielding]:
    """(the signal lines, (clock, line), by which vehicles of a session give way without a light, empty without a
    giving; at how many junctions, by how many lines), found by runs with a seed and some signals of its lights, as
    lines in bytes. Fault where a run fails."""
    giving = session.giving
    if giving is None:
        return [], Yielding()
    run = with_signals(with_load(giving.run, seed=seed), signals, giving.without)
    serve = partial(serving_program, session.program, run.path)
    return gaps_of(run, giving.mapping, settings_of(giving), giving.rounds, serve, lambda *_: None)


def with_gap_lines(session: PreparedRun, lines: list) -> PreparedRun:
    """The session with signal lines, (clock, line), by which vehicles give way without a light, and without a giving:
    no more rounds are made, and the run ends at its last clock, without merging before works, lights that detectors
    drive and stops of buses. The giving of the given session must not be None."""
    giving = session.giving
    assert giving is not None
    prepared = session_of(session.program, with_lines(giving.run, lines), giving.until, giving.without)
    return replace(prepared, digest=session.digest)


def for_search(session: PreparedRun, lines: list) -> PreparedRun:
    """The session, which must have a giving, as with_gap_lines makes it; where something acts while its run goes, it
    keeps a giving without rounds, by which seconds_of_run has it act."""
    giving, prepared = session.giving, with_gap_lines(session, lines)
    if giving is None or not acts(giving):
        return prepared
    return replace(prepared, giving=replace(giving, run=with_lines(giving.run, lines), rounds=0))


def seconds_of_run(session: PreparedRun, signals: bytes, seed: int) -> float:
    """The seconds of all vehicles, as vehicle_seconds; where something acts while the run goes, exactly those of their
    arrivals. The session is one that for_search made, or one without a giving. Fault as of replies."""
    if session.giving is None:
        return vehicle_seconds(session, signals, seed)
    return float(open_outcome(session, [], signals, seed).seconds)


def live_trial(session: PreparedRun, signals: bytes, seed: int) -> tuple[float, HiddenShares]:
    """The seconds of all vehicles, as seconds_of_run, of a run in which some give way at lights, and the seconds for
    which these were hidden. The session is one that for_search made. Fault as of replies."""
    hidden = HiddenSeconds()
    return float(open_outcome(session, [], signals, seed, [hidden]).seconds), hidden.shares


def outcome_giving_way(session: PreparedRun, signals: bytes, seed: int) -> Outcome:
    """What a run with a seed and signals (lines in bytes) gave after its rounds; Fault where a run fails."""
    if session.giving is None:
        return outcome(session, signals, seed)
    lines, yielding = gap_lines(session, signals, seed)
    giving = session.giving
    if giving.open_end or acts(giving) or closures_of(giving.run, giving.until):
        result = open_outcome(session, lines, signals, seed)
    else:
        result = outcome(with_gap_lines(session, lines), signals, seed)
    return replace(result, junctions=yielding.junctions, lines=yielding.lines)


def open_outcome(
    session: PreparedRun, lines: list, signals: bytes, seed: int, observers: Sequence[Observer] = ()
) -> Outcome:
    """What a run gave that is asked while it goes: one without a last second, with works, buses, turns that give way at
    lights, or lights that detectors drive. The session must have a giving; lines: (clock, line), by which vehicles give
    way without a light. Fault where the program is another one than the session's, and as of outcome_of."""
    if program_digest(session.program) != session.digest:
        raise Fault(f"{session.program}: another program than the one that the runs were prepared for, or none")
    giving = session.giving
    assert giving is not None
    run = with_signals(with_load(giving.run, seed=seed), signals, giving.without)
    settings = replace(settings_of(giving), every=0, open_end=giving.open_end)
    return outcome_of(session.program, with_lines(run, lines), giving.mapping, settings, observers)


def settings_of(giving: Giving) -> Settings:
    """The settings of a run of a session up to its last clock, without rescues."""
    return Settings(giving.until, rescue=0, merging=giving.merging, lights=giving.lights, buses=giving.buses)


def with_signals(run: Run, signals: bytes, nodes: frozenset) -> Run:
    """The run with signals (lines in bytes) in place of its own first signals at some nodes."""
    kept_lines = (line for line in run.first if not (line.command["cmd"] == "signal" and line.command["node"] in nodes))
    signal_lines = (Line(0, line, json.loads(line)) for line in signals.decode().splitlines())
    return replace(run, first=[*kept_lines, *signal_lines])
