"""What a map keeps of a program that detectors drive, read back: what both kinds of lights, actuated and NEMA, have in
common."""
from collections.abc import Collection, Iterable, Mapping
from contextlib import suppress
from dataclasses import dataclass
from math import isfinite
from typing import Any

from streetsim.base.files import Fault, Json

LONGEST = 1_000_000  # seconds of a green whose program gives no greatest length
OFF_VALUES = ("", "0", "false")  # values by which a parameter is switched off


class Listed(Fault):
    """Why a light is not driven by detectors but shows the seconds that its program lists; its text begins with
    'as'."""


@dataclass(frozen=True, slots=True)
class Cell:
    """Where a detector is placed, by numbers of the run."""

    link: int
    lane: int
    cell: int


@dataclass(frozen=True, slots=True)
class DetectorArea:
    """A stretch of a lane that is looked at for vehicles, mostly its end: its first cell and its last."""

    link: int
    lane: int
    first_cell: int
    last_cell: int
    at_end: bool = True  # the last cell is the lane's


def programs_at_begin(programs: Iterable[Json]) -> dict[str, Json]:
    """What a map keeps (`programs`) of the programs that lights begin with, by light; idle ones are left out."""
    return {one["light"]: one for one in programs if not one.get("idle")}


def nodes_of(program: Mapping[str, Any]) -> tuple[int, ...]:
    """The numbers of the nodes of a light, of what a map keeps of its program."""
    return tuple(node["node"] for node in program["nodes"])


def kept_of(programs: Iterable[Json], light: str, later: Collection[str]) -> list[Json]:
    """What a map keeps (`programs`) of the programs of a light that it begins with or that come into force later;
    later: the names of these. Raises Listed where nothing is kept."""
    found = [one for one in programs if one["light"] == light and (not one.get("idle") or one["program"] in later)]
    if not found:
        raise Listed("as their map was written by an older streetsim-import")
    return found


def number_of(text: str) -> float:
    """The number of a parameter's text; raises Listed where it is none, or not finite."""
    with suppress(ValueError):
        if isfinite(number := float(text)):
            return number
    raise Listed(f"as {text!r} of their parameters is no number")


def phase_bounds(phase: list[Any]) -> tuple[float, float]:
    """(least, greatest) seconds of a phase, as kept: [seconds, state, least or none, greatest or none, next ones].
    Without a least that is its listed seconds, and so is the greatest where there is neither; with a least and no
    greatest it has no end, as in SUMO (LONGEST). The greatest is never below the least."""
    seconds, _, least, most, *_ = phase
    shortest = seconds if least is None else least
    longest = most if most is not None else seconds if least is None else LONGEST
    return shortest, max(shortest, longest)
