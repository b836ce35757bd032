"""Rows of observers, kept as columns while a run is made, and given by periods at its end."""
from __future__ import annotations

from collections.abc import Iterable, Iterator, Mapping
from itertools import pairwise

from streetsim.base.arrays import Array
from streetsim.base.arrays import numpy as np

Columns = dict[str, Array]


class Log:
    """Rows as columns, the first of which are clocks, in parts: no clock is before those of the parts before."""

    def __init__(self, kinds: Mapping[str, str]) -> None:
        """kinds: by name of a column the type of NumPy in which it is kept."""
        self.kinds, self.parts = kinds, list[Columns]()

    def add(self, part: Columns) -> None:
        """Adds a part, whose rows stand in any order."""
        self.parts.append({name: part[name].astype(kind) for name, kind in self.kinds.items()})

    def take_parts(self) -> Iterator[Columns]:
        """The parts, each of which is let go where it is given."""
        parts, self.parts = self.parts[::-1], []
        while parts:
            yield parts.pop()

    def all_of(self, parts: Iterable[Columns], count: int) -> Columns:
        """The rows of parts, so many, behind one another."""
        rows = {name: np.empty(count, kind) for name, kind in self.kinds.items()}
        at = 0
        for part in parts:
            end = at + len(next(iter(part.values())))
            for name, column in part.items():
                rows[name][at:end] = column
            at = end
        return rows

    def __len__(self) -> int:
        """How many rows there are."""
        return sum(len(next(iter(part.values()))) for part in self.parts)


def by_period(parts: Iterable[Columns], start: int, seconds: int) -> Iterator[tuple[int, Columns]]:
    """(number from 0, rows by clock, equal ones as they stand) of each period of so many seconds that has any; it
    begins behind a clock, and ends with one. parts: as of a Log."""
    period_parts: list[Columns] = []
    number = 0
    for part in parts:
        clocks = next(iter(part.values()))
        order = np.argsort(clocks, kind="stable")
        numbers = (clocks[order] - 1 - start) // seconds
        bounds = np.flatnonzero(np.diff(numbers, prepend=-1, append=-1)).tolist() if len(order) else []
        for begin, end in pairwise(bounds):
            if period_parts and int(numbers[begin]) > number:
                yield number, joined(period_parts)
                period_parts = []
            number = int(numbers[begin])
            period_parts.append({name: column[order[begin:end]] for name, column in part.items()})
    if period_parts:
        yield number, joined(period_parts)


def joined(parts: list[Columns]) -> Columns:
    """The rows of parts, one at least, behind one another."""
    return {name: np.concatenate([part[name] for part in parts]) for name in parts[0]}
