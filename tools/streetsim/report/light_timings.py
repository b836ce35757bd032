"""The programs of the lights of runs, as their folder keeps them; those that the runs did not have are left out."""
import os
from collections import defaultdict
from collections.abc import Iterator
from itertools import product

from streetsim.base.files import read_json_list, reading
from streetsim.model.folder import LIGHTS, Folder
from streetsim.model.mapping import Map
from streetsim.model.runs import Command
from streetsim.model.timing import OPEN, Timing, timing_of
from streetsim.model.waiting import TurnKey
from streetsim.report.run_tables import Runs

Indexes = dict[TurnKey, int]  # by turn
MAY_GO = OPEN + "sOo"  # signs under which somebody may go, after a stop or by a gap


def lights_path(runs: Runs) -> str | None:
    """The path of lights.json in the folder of the first seed's run, else above it; none where there is none."""
    folder = os.path.normpath(runs.first_folder.path)
    places = (f"{folder}/{LIGHTS}", f"{os.path.dirname(folder)}/{LIGHTS}")
    return next((path for path in places if os.path.exists(path)), None)


def timings_of(runs: Runs) -> dict[str, Timing]:
    """{light: the program that it had in the runs}; lights whose kept program does not fit what the first seed's run
    showed are left out, and all where nothing is kept. Fault where the kept file cannot be read."""
    path = lights_path(runs)
    if path is None:
        return {}
    with reading(path):
        kept = [*map(timing_of, read_json_list(path))]
    plans, indexes = first_plans(runs.first_folder), indexes_by_light(runs.first_folder.mapping)
    return {
        timing.light: timing for timing in kept
        if plans[timing.light] and all(plan_fits(timing, plan, indexes[timing.light]) for plan in plans[timing.light])
    }


def first_plans(folder: Folder) -> defaultdict[str, list[Command]]:
    """By light the plans that its nodes had at the begin of a run."""
    light_of = {node: light for light, node in folder.mapping.signals}
    found = defaultdict[str, list[Command]](list)
    for clock, command in folder.signals:
        if clock == folder.setting.get("start", 0) and command["node"] in light_of:
            found[light_of[command["node"]]].append(command)
    return found


def indexes_by_light(mapping: Map) -> defaultdict[str, Indexes]:
    """By light the index in its state of each turn that it controls."""
    found = defaultdict[str, Indexes](dict)
    for turn in mapping.turns:
        if turn.light:
            found[turn.light][turn.link, turn.lane, turn.next] = turn.index
    return found


def plan_fits(timing: Timing, plan: Command, indexes: Indexes) -> bool:
    """Whether a plan of a run has a program's cycle and offset, and shows nobody green whom that shows red; indexes: of
    its light."""
    states = timing.states()
    cycle = len(states)
    if sum(seconds for seconds, _ in plan["phases"]) != cycle or plan["offset"] != round(-timing.offset) % cycle:
        return False
    return all(states[second][index] in MAY_GO for second, index in green_indexes(plan, indexes))


def green_indexes(plan: Command, indexes: Indexes) -> Iterator[tuple[int, int]]:
    """(second of the cycle, index in the light's state) of all that a plan shows green; indexes: by turn
    (link, lane, next link) of the light; turns without one are left out."""
    second = 0
    for seconds, greens in plan["phases"]:
        turns = ((link, lane, following) for link, lane, following in greens)
        own = [indexes[turn] for turn in turns if turn in indexes]
        yield from product(range(second, second + seconds), own)
        second += seconds
