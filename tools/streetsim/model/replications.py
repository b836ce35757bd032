"""Replications of a run: the departures of its vehicles drawn anew by its seed, as those of another day are."""
from __future__ import annotations

import hashlib
import json
from collections.abc import Iterator, Mapping, Sequence
from dataclasses import dataclass, replace

from streetsim.base.arrays import Array
from streetsim.base.arrays import numpy as np
from streetsim.base.files import Fault, Json
from streetsim.model.mapping import Map
from streetsim.model.runs import Line, Run, ends_of, run_of
from streetsim.model.sources import sum_of_lines
from streetsim.model.stops import bus_lines_of

DRAWN, LISTED = "drawn", "listed"
WORD = f"--departures={DRAWN}"  # as a folder keeps the words of its run
QUARTER = 900  # seconds within which a way keeps its mean number of vehicles
MOST_COPIES = 12  # copies of one vehicle: more have a chance below 1e-10
STEP, FIRST, SECOND = 0x9E3779B97F4A7C15, 0xBF58476D1CE4E5B9, 0x94D049BB133111EB  # of splitmix64


@dataclass(slots=True)
class Draw:
    """Which vehicles of a run drive, and when: of each its number in the file, which copy of it, from 1, and its
    departure; by departure, and then by the numbers."""

    number: Array
    copy: Array
    depart: Array


def drawn(run: Run, mapping: Map) -> tuple[Run, Map]:
    """The run with its departures drawn by the seed of its load, and its map. Each vehicle of the file becomes a
    Poisson number of vehicles, 1 in the mean, at uniform seconds of the same quarter hour: so the number of each way
    and type in a quarter is Poisson around the file's. They are drawn by the vehicle's name, so that variants of a run
    that have other ways, lights or networks have the same vehicles. Vehicles of a line, and those with stops, stay. The
    copies are ID, ID#2, ..; Fault where a line of the run names a vehicle by its number."""
    if any("car" in line.command for line in (*run.first, *(line for _, line in run.timed))):
        raise Fault(f"{run.path}: a line names a vehicle by its number: its departures cannot be drawn")
    names = names_of(run, mapping)
    draw = drawn_of(run, mapping, names)
    names_of_copies = copies_named(names, draw)
    lines = [entering(run.enters[at], depart) for at, depart in zip(draw.number.tolist(), draw.depart.tolist())]
    timed = [replace(line, command={**line.command, "at": clock}) for clock, line in run.timed]
    drawn_run = run_of(run.path, [run.load, *run.first, *timed, *lines])
    drawn_run.timed = run.timed
    return drawn_run, map_of(drawn_run, mapping, names_of_copies, draw)


def names_of(run: Run, mapping: Map) -> list[str]:
    """The names of the run's vehicles; one that was added to the file by hand is # and its number."""
    return [*mapping.cars, *(f"#{number}" for number in range(len(mapping.cars), len(run.enters)))][: len(run.enters)]


def drawn_of(run: Run, mapping: Map, names: Sequence[str]) -> Draw:
    """The draw of a run by the seed of its load."""
    departs = run.departs()
    if not len(departs):
        return Draw(departs, departs, departs)
    keeps = np.array([bool(line) for line in bus_lines_of(mapping.kinds, len(names))])
    keeps[[visit.vehicle for visit in mapping.visits]] = True
    keys = keys_of(names, run.load.command.get("seed", 0))
    counts = np.where(keeps, 1, poisson_of(uniform(keys, 0)))
    number = np.repeat(np.arange(len(names)), counts)
    copy = np.arange(len(number)) - np.repeat(np.cumsum(counts) - counts, counts) + 1
    begin = np.maximum(departs // QUARTER * QUARTER, departs.min())
    end = np.minimum((departs // QUARTER + 1) * QUARTER, departs.max() + 1)
    share = uniform(keys[number], copy)
    depart = np.where(keeps[number], departs[number], begin[number] + (share * (end - begin)[number]).astype(np.int64))
    order = np.lexsort((copy, number, depart))
    return Draw(number[order], copy[order], depart[order])


def keys_of(names: Sequence[str], seed: int) -> Array:
    """A number of 64 bits for each name, by the seed."""
    begin = f"{seed} ".encode()
    texts = b"".join(hashlib.blake2b(begin + name.encode(), digest_size=8).digest() for name in names)
    return np.frombuffer(texts, "<u8").astype(np.uint64)


def uniform(keys: Array, position: int | Array) -> Array:
    """Numbers from 0 to below 1, one for each key; another one for each position in its row."""
    with np.errstate(over="ignore"):
        mixed = keys + np.asarray(position, np.uint64) * np.uint64(STEP) + np.uint64(STEP)
        mixed = (mixed ^ (mixed >> np.uint64(30))) * np.uint64(FIRST)
        mixed = (mixed ^ (mixed >> np.uint64(27))) * np.uint64(SECOND)
        mixed = mixed ^ (mixed >> np.uint64(31))
    return (mixed >> np.uint64(11)).astype(float) * 2.0**-53


def poisson_of(shares: Array) -> Array:
    """Poisson numbers with the mean 1, MOST at most, of uniform shares from 0 to below 1."""
    parts = np.exp(-1.0) / np.cumprod([1.0, *range(1, MOST_COPIES)])
    return np.searchsorted(np.cumsum(parts), shares, side="right")


def copies_named(names: Sequence[str], draw: Draw) -> list[str]:
    """The names of the vehicles of a draw: ID, ID#2, ..; a number that a name of the file has is passed over."""
    known, copies = {*names}, []
    for number, copy in zip(draw.number.tolist(), draw.copy.tolist()):
        name, at = names[number], copy
        while copy > 1 and (name := f"{names[number]}#{at}") in known:
            at += MOST_COPIES
        copies.append(name)
    return copies


def entering(line: Line, depart: int) -> Line:
    """A line that enters a vehicle, with another departure."""
    if line.command["depart"] == depart:
        return line
    command = {**line.command, "depart": depart}
    return Line(line.number, json.dumps(command, separators=(",", ":")), command)


def map_of(run: Run, mapping: Map, names: list[str], draw: Draw) -> Map:
    """The map of a drawn run, whose vehicles have other numbers."""
    numbers = draw.number.tolist()
    kinds = dict(mapping.kinds)
    for key, filler in (("type", 0), ("route", ""), ("line", "")):
        if values := kinds.get(key):
            kinds[key] = [values[at] if at < len(values) else filler for at in numbers]
    position = {number: at for at, (number, copy) in enumerate(zip(numbers, draw.copy.tolist())) if copy == 1}
    visits = [replace(visit, vehicle=position[visit.vehicle]) for visit in mapping.visits]
    drawn_map = replace(mapping, cars=names, kinds=kinds, visits=visits)
    if "ends" in kinds:
        kinds["ends"] = sum_of_lines(ends_of(run, drawn_map))
    return drawn_map


def listed_in_map(mapping: Map) -> Json:
    """What a folder of a drawn run keeps of the map of its file, so that the run can be made again."""
    written = mapping.written()
    return {key: written.get(key, []) for key in ("cars", "vehicles", "visits")}


def is_drawn(record: Mapping[str, object]) -> bool:
    """Whether the departures of a run were drawn, by what its folder says of how it was made."""
    words = record.get("words")
    return isinstance(words, list) and WORD in words


def told_of_days(is_drawn_: bool, seeds: int) -> Iterator[str]:
    """What a page or a last line says of runs of several seeds: of what their intervals are."""
    if is_drawn_:
        yield (
            f"departures drawn by each of {seeds} seeds: intervals are of the mean, which more seeds make narrower; "
            "those of one day are wider, and say so"
        )
    else:
        yield "departures as listed: the seeds differ by dawdling alone, so nothing is sure of another day"
