"""What is known of the drivers of a network by measurements: factors of their free speeds by class of street, seconds
that are cut from greens, and shares of permissive greens by approach."""
from __future__ import annotations

import json
from collections.abc import Collection, Iterable
from dataclasses import dataclass
from math import floor, isfinite

from streetsim.base.files import Fault, FilePath, Json, open_text, reading
from streetsim.base.words import names_in
from streetsim.model.mapping import Map

SPEEDS, CUTS = (0.2, 3.0), (-10.0, 20.0)  # the range of a factor, and of seconds
KEYS = {"dawdle": (0, 1000), "cut": CUTS}  # numbers of a file, and their ranges
TABLES = ("speeds", "shares")  # tables of a file: by class of street, by edge
ALL_STREETS = ""  # the class of all streets
SPREAD = 0.618  # of nodes, by which a fraction of a second is cut at as large a part of them
Pairs = tuple[tuple[str, float], ...]


@dataclass(frozen=True, slots=True)
class DriverValues:
    """What a file of drivers says; None, or nothing, where it says nothing."""

    dawdle: int | None = None
    cut: float | None = None
    speeds: Pairs = ()
    shares: Pairs = ()


def street_class(speed: float) -> str:
    """The class of a street, by the speed that is allowed there (metres a second): whole km/h."""
    return str(round(3.6 * speed))


def factor_of(speeds: Iterable[tuple[str, float]], speed: float) -> float:
    """The factor of the free speed of a street with an allowed speed (metres a second): that of its class, else that
    of all."""
    known = {name: factor for name, factor in speeds}
    return known.get(street_class(speed), known.get(ALL_STREETS, 1.0))


def cut_at(cut: float, node: int) -> int:
    """The whole seconds that are cut at a node, so that a fraction is cut at as large a part of all nodes."""
    return floor(cut + node * SPREAD % 1)


def measured_of(mapping: Map) -> tuple[float, Pairs]:
    """(seconds cut from greens, shares of permissive greens by edge) of the import that made a map."""
    return mapping.options.get("cut", 0.0), mapping.options.get("shares", ())


def refuse_unknown_streets(speeds: Iterable[tuple[str, float]], allowed: Iterable[float]) -> None:
    """Fault where a factor is of a class of which there is no street; allowed: the speeds of all, metres a second."""
    known = sorted({street_class(speed) for speed in allowed}, key=int)
    if unknown := [name for name, _ in speeds if name != ALL_STREETS and name not in known]:
        raise Fault(f"--speed-factor: no street has a limit of {unknown[0]} km/h; there are {', '.join(known)}")


def refuse_unknown_edges(shares: Iterable[tuple[str, float]], edges: Collection[str]) -> None:
    """Fault where a share is of an edge that the network does not have."""
    if unknown := [name for name, _ in shares if name not in edges]:
        raise Fault(f"--permissive: the network has no edge {unknown[0]!r}")


def shares_read(text: str, name: str) -> tuple[float | None, Pairs]:
    """(the share of all, None: none is given; shares by edge) of a text as 0.5, or EDGE=0.4,EDGE=0.3. Fault otherwise;
    name: of the word."""
    every, shares = None, {}
    for entry in names_in(text):
        edge, sign, share_text = entry.rpartition("=")
        share = number_within(share_text, (0.0, 1.0), f"{name} {entry}")
        if sign and edge in shares or not sign and every is not None:
            raise Fault(f"{name}: {edge or 'the share of all'} is given twice")
        if sign:
            shares[edge] = share
        else:
            every = share
    return every, tuple(shares.items())


def speeds_read(text: str, name: str) -> Pairs:
    """The factors of a text as 0.9, or 50=0.9,60=0.85, by class; Fault otherwise; name: of the word."""
    factors: dict[str, float] = {}
    for entry in names_in(text):
        street, _, factor = entry.rpartition("=")
        if street and not street.isdecimal():
            raise Fault(f"{name} {entry}: {street!r} is no limit of a street in whole km/h")
        if street in factors:
            raise Fault(f"{name}: {street or 'the factor of all'} is given twice")
        factors[street] = number_within(factor, SPEEDS, f"{name} {entry}")
    return tuple(factors.items())


def number_within(text: object, within: tuple[float, float], fault_begin: str) -> float:
    """The number that a text, or a value of a file, has; Fault where it is none, or not within a range. fault_begin:
    what the Fault begins with."""
    lowest, highest = within
    try:
        value = float(str(text))
    except ValueError:
        value = float("nan")
    if not isfinite(value) or not lowest <= value <= highest:
        raise Fault(f"{fault_begin}: {text!r} is not {lowest:g} to {highest:g}")
    return value


def read_drivers(path: FilePath) -> DriverValues:
    """The drivers of a file that streetsim-calibrate wrote, or one of its form: {"dawdle": of 1,000, "cut": seconds,
    "speeds": {class: factor}, "shares": {edge: share}}, each maybe absent; other keys are told nothing. Fault where it
    cannot be read, or a value is wrong."""
    with reading(path), open_text(path) as file:
        try:
            content = json.load(file)
        except ValueError as fault:
            raise Fault(f"{path}: no JSON: {fault}") from None
    if not isinstance(content, dict) or not content.keys() & {*KEYS, *TABLES}:
        raise Fault(f"{path}: no drivers in it: none of {', '.join((*KEYS, *TABLES))}")
    numbers = {
        key: number_within(content[key], within, f"{path}: {key}") for key, within in KEYS.items() if key in content
    }
    if numbers.get("dawdle", 0) % 1:
        raise Fault(f"{path}: dawdle: {content['dawdle']!r} is no whole number")
    dawdle = int(numbers["dawdle"]) if "dawdle" in numbers else None
    return DriverValues(dawdle, numbers.get("cut"), *(pairs_in(path, content, key) for key in TABLES))


def pairs_in(path: FilePath, value: Json, key: str) -> Pairs:
    """The pairs of a table of a file of drivers, by its key; Fault where it is none, or a number is wrong."""
    table = value.get(key, {})
    if not isinstance(table, dict):
        raise Fault(f"{path}: {key}: {str(table)[:40]!r} is no table")
    within = SPEEDS if key == "speeds" else (0.0, 1.0)
    if key == "speeds" and (wrong := [name for name in table if name and not name.isdecimal()]):
        raise Fault(f"{path}: speeds: {wrong[0]!r} is no limit of a street in whole km/h")
    return tuple((name, number_within(one, within, f"{path}: {key}, {name!r}")) for name, one in table.items())


def with_cut(is_shown: list[bool], begins: Iterable[tuple[int, int]], letters: str, cut: int) -> list[bool]:
    """What a turn is shown in each second, with so many seconds of the begin of each green left out, but for its last
    second; below 0: with so many seconds of yellow behind it shown, but for the last of these. begins: (second, length)
    of its greens; letters: of its signal in each second."""
    cut_shown, count = list(is_shown), len(is_shown)
    for begin, length in begins:
        if cut > 0:
            for second in range(begin, begin + min(cut, length - 1)):
                cut_shown[second % count] = False
        end = begin + length
        yellow = next((at for at in range(count) if letters[(end + at) % count] not in "yY"), count)
        for second in range(end, end + min(-cut, yellow - 1)):
            cut_shown[second % count] = True
    return cut_shown
